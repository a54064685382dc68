//! The function that makes a child and the second program, side by side: every word of
//! the 27 coefficients, the least and its number are compared, of all eight children of
//! each cell, with numbers of one word and of two.  BRUNDHAL_SEED in the environment
//! gives another seed.

#![deny(warnings)]

#[path = "side_by_side/able_to_fail.rs"]
mod able_to_fail;
#[path = "side_by_side/ask.rs"]
mod ask;
#[path = "side_by_side/cells.rs"]
mod cells;
#[path = "side_by_side/met.rs"]
mod met;

use ask::{ask, Cuts, Difference, Product, Question, Second, Width};
use cells::{corpora, Corpus, ELEMENTS, SHARED};
use met::Met;
use std::collections::BTreeMap;

/// Both programs are asked about all cells of a corpus; what was met in their children.
fn run(first: &dyn Cuts, second: &dyn Cuts, corpus: &Corpus) -> Result<Met, Box<Difference>> {
    let mut met = Met::default();
    for &cell in &corpus.cells {
        let question = Question { width: corpus.width, cell };
        met.add_cell(corpus.width, &ask(first, second, &question)?);
    }
    Ok(met)
}

fn seed() -> u64 {
    match std::env::var("BRUNDHAL_SEED") {
        Ok(value) => {
            value.parse().unwrap_or_else(|_| panic!("BRUNDHAL_SEED is no number: {value}"))
        }
        Err(_) => 20_240_701,
    }
}

/// The library and the second program agree on all corpora; what was met in each.
fn agree(width: Width) -> BTreeMap<&'static str, Met> {
    let mut met = BTreeMap::new();
    for corpus in corpora(width, seed()) {
        match run(&Product, &Second, &corpus) {
            Ok(met_here) => {
                println!("{width:?}, {}: {met_here}", corpus.name);
                met.insert(corpus.name, met_here);
            }
            Err(difference) => panic!("{}: {difference}", corpus.name),
        }
    }
    met
}

/// They agree, and all is met that has to be with numbers of either width.  What was met
/// in all, and of elements.
fn children_agree(width: Width) -> [Met; 2] {
    let mut met = agree(width);
    let whole = Met::sum(met.values());
    println!("{width:?}, in all: {whole}");
    for (k, told) in whole.told.iter().enumerate() {
        for (at, &times) in told.iter().enumerate() {
            assert!(times >= 6, "number {} was told {times} times of child {k}", at + 1);
        }
    }
    // the lowest of several that hold the least is any but the last
    for (k, told) in met[SHARED].told_of_several.iter().enumerate() {
        for (at, &times) in told[..26].iter().enumerate() {
            assert!(times > 0, "number {} was never the lowest of several, child {k}", at + 1);
        }
        assert_eq!(told[26], 0);
    }
    let needed = [
        (met::SEVERAL, 3000),
        (met::ALL, 200),
        (met::SEVERAL_PAST_CORNERS, 1000),
        (met::ABOVE, 3000),
        (met::ZERO, 500),
        (met::BELOW, 3000),
        (met::NOT_THE_LOWEST, 3000),
        (met::LARGEST, 8),
        (met::SMALLEST, 100),
    ];
    for (what, times) in needed {
        assert!(whole.times(what) >= times, "{what}: {} times", whole.times(what));
    }
    let elements = met.remove(ELEMENTS).expect("a corpus of elements");
    for what in [met::ABOVE, met::BELOW, met::NOT_THE_LOWEST, met::SEVERAL] {
        assert!(elements.times(what) > 500, "{what}, of elements: {}", elements.times(what));
    }
    [whole, elements]
}

#[test]
fn children_agree_in_one_word() {
    let [whole, _] = children_agree(Width::Narrow);
    assert_eq!(whole.times(met::PAST_ONE_WORD), 0);
}

#[test]
fn children_agree_in_two_words() {
    for met in children_agree(Width::Wide) {
        let past = met.times(met::PAST_ONE_WORD);
        assert!(past > 3000, "past one word: {past}");
    }
}
