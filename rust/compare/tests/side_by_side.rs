//! The side-by-side run of the gate.  BRUNDHAL_SEED in the environment gives
//! another seed, BRUNDHAL_COUNT another number of random elements, and of lots and
//! numbers in proportion.

#![deny(warnings)]

use compare::program::{PRODUCT, RECORD_WORDS, SECOND};
use compare::run::{run, Pair, Plan};
use second::Limits;

fn number(name: &str, otherwise: u64) -> u64 {
    match std::env::var(name) {
        Ok(value) => value.parse().unwrap_or_else(|_| panic!("{name} is no number: {value}")),
        Err(_) => otherwise,
    }
}

#[test]
fn library_and_second_program_agree() {
    let seed = number("BRUNDHAL_SEED", 20_240_601);
    let count = number("BRUNDHAL_COUNT", 100_000) as usize;
    let pair = Pair { first: PRODUCT, second: SECOND };
    if let Err(difference) = run(pair, Plan::of(seed, count), &|line| println!("{line}")) {
        panic!("{difference}");
    }
}

/// The numbers that the wrapper hands to its callers are the second program's; and the
/// library is the one that it is written for.
#[test]
fn numbers_of_the_wrapper() {
    let Limits { range, depth, .. } = Limits::base();
    assert_eq!(i64::from(brundhal::MAX_COORDINATE), range);
    assert_eq!(brundhal::MAX_DEPTH, depth);
    assert_eq!(brundhal::RECORD_WORDS, RECORD_WORDS);
    assert_eq!(brundhal::SLIP_ELEMENTS, second::slip::MOST_ELEMENTS);
    assert_eq!(brundhal::version(), brundhal::VERSION);
    for value in [0, -8, -(1 << 63), -(1 << 66) + 5] {
        let [low, high] = second::two_words(value);
        let record = [1, 0, 0, 0, 0, 1, low, high, 1];
        assert_eq!(i128::from(brundhal::record_value(&record)), value);
    }
}
