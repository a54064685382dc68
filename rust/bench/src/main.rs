//! Time an element: the built library, an ordinary Rust version with direct
//! formulas, that version with the library's sparing of clear halves, and the
//! library's own method in ordinary Rust, with numbers of one word and, for larger parts
//! and depths, with numbers of two; the direct version with one word as far as that goes;
//! and the library's auditor.  Time both bounds: the library, ordinary versions that look
//! at every cell and that skip cells, and the auditor.  Time a lot file: the library, and
//! ordinary Rust readers, a writer and a printer of slips.
//!
//! Prints, for lots of 900 elements at depth 3, at depth 8 and of larger parts, the best
//! of several rounds in microseconds an element and the ratios.  The reports of all
//! versions must be the same for each lot, word for word; so must be the bounds, what the
//! readers give of each file, the writers of each lot and the printers of each slip.
//! Use: `bench`, or `bench ROUNDS`, or `bench ROUNDS NAME` for the lots, files and
//! the like whose name begins with NAME.

#![deny(warnings)]
// The tests of lengths read as the rules do.
#![allow(clippy::manual_is_multiple_of)]

mod adaptive;
mod bounds;
mod deep;
mod direct;
mod lots;
mod mesh;
mod reader;
mod reading;
mod same_method;
mod slips;
mod survey;
mod timing;
mod wide;
mod writer;
mod writing;

use brundhal::{word, RECORD_WORDS};
use lots::{Lot, DEPTH, ELEMENTS};
use mesh::{Answer, Held};
use std::hint::black_box;
use timing::{print_head, print_row, Version};

type Inspect = fn(&[i32], &[u32], u32, &mut [i64]) -> Answer;

fn words(answer: brundhal::Inspection) -> Answer {
    [answer.number, answer.valid, answer.invalid, answer.undecided, answer.refused]
}

fn library(coordinates: &[i32], indices: &[u32], depth: u32, report: &mut [i64]) -> Answer {
    words(brundhal::inspect(coordinates, indices, depth, report))
}

fn auditor(coordinates: &[i32], indices: &[u32], depth: u32, report: &mut [i64]) -> Answer {
    words(brundhal::audit(coordinates, indices, depth, report))
}

type Named = (&'static str, Inspect);

/// The library, the versions with numbers of one kind, and the auditor.
fn versions<N: Held>() -> [Named; 5] {
    [
        ("library", library),
        ("direct", direct::inspect::<N, false>),
        ("sparing", direct::inspect::<N, true>),
        ("same method", same_method::inspect::<N>),
        ("auditor", auditor),
    ]
}

/// Those with numbers of two words, and the one that takes them only where it must.
fn versions_for_larger() -> [Named; 6] {
    let [library, direct, sparing, same_method, auditor] = versions::<i128>();
    [library, direct, ADAPTIVE, sparing, same_method, auditor]
}

/// The library, and what an ordinary program would be at depths past one word.
fn versions_for_deeper() -> [Named; 3] {
    let [library, direct, ..] = versions::<i128>();
    [library, direct, ADAPTIVE]
}

const ADAPTIVE: Named = ("adaptive", adaptive::inspect);

/// A sum over all report words in which the order counts.
fn checksum(report: &[i64]) -> u64 {
    let step = |sum: u64, word: &i64| (sum ^ *word as u64).wrapping_mul(0x100_0000_01B3);
    report.iter().fold(0xCBF2_9CE4_8422_2325, step)
}

fn report_of(lot: &Lot, inspect: Inspect) -> (Answer, Vec<i64>) {
    let mut report = vec![-1; RECORD_WORDS * lot.elements()];
    let answer = inspect(&lot.coordinates, &lot.indices, lot.depth, &mut report);
    (answer, report)
}

/// Inspects a lot once, for its time.
fn version(inspect: Inspect, lot: &Lot) -> Version<'_> {
    let mut report = vec![0; RECORD_WORDS * lot.elements()];
    Box::new(move || {
        let (coordinates, indices) = (black_box(&lot.coordinates), black_box(&lot.indices));
        black_box(inspect(coordinates, indices, black_box(lot.depth), &mut report));
        black_box(&mut report);
    })
}

/// Best time an element of each version, in microseconds.
fn best(lot: &Lot, rounds: u32, versions: &[Named]) -> Vec<f64> {
    let mut times =
        timing::best(rounds, versions.iter().map(|(_, inspect)| version(*inspect, lot)));
    times.iter_mut().for_each(|time| *time /= lot.elements() as f64);
    times
}

/// The library's answer and report, found equal to those of all versions.
fn checked(lot: &Lot, versions: &[Named]) -> Result<(Answer, Vec<i64>), String> {
    let found = report_of(lot, library);
    for (name, inspect) in versions {
        if report_of(lot, *inspect) != found {
            return Err(format!("{}: the report of {name} differs", lot.name));
        }
    }
    Ok(found)
}

/// The checked reports of lots, the lots' own figures and the times.
fn print(what: &str, rounds: u32, lots: &[Lot], versions: &[Named]) -> Result<(), String> {
    println!("{what}; the reports of all {} are the same", versions.len());
    for lot in lots {
        let ([_, valid, invalid, undecided, refused], report) = checked(lot, versions)?;
        let opened: i64 =
            report.chunks_exact(RECORD_WORDS).map(|record| record[word::OPENED]).sum();
        println!(
            "  {}: valid {valid} invalid {invalid} undecided {undecided} refused {refused}, \
             {:.1} cubes opened an element, checksum {:016x}",
            lot.name,
            opened as f64 / lot.elements() as f64,
            checksum(&report)
        );
    }
    print_head("an element", rounds, "lot", versions.iter().map(|(name, _)| *name));
    for lot in lots {
        print_row(lot.name, &best(lot, rounds, versions));
    }
    Ok(())
}

fn main() -> Result<(), String> {
    let rounds = match std::env::args().nth(1) {
        None => 40,
        Some(text) => text.parse().map_err(|_| format!("no number of rounds: {text}"))?,
    };
    let name = std::env::args().nth(2).unwrap_or_default();
    let all = lots::lots();
    let named = |lots: &[Lot]| -> Vec<Lot> {
        lots.iter().filter(|lot| lot.name.starts_with(&name)).cloned().collect()
    };
    let lots = named(&all);
    let (deep, wide) = (named(&deep::lots(all.clone())), named(&wide::lots(all.clone())));
    let what = format!("lots of {ELEMENTS} elements at depth {DEPTH}");
    print(&what, rounds, &lots, &versions::<i64>())?;
    let what = format!("lots at depth {}", brundhal::MAX_DEPTH);
    print(&what, rounds, &deep, &versions_for_deeper())?;
    let what = "larger parts, and small ones far off, in numbers of two words";
    print(what, rounds, &wide, &versions_for_larger())?;
    bounds::print(rounds, &name, &all)?;
    reading::print(rounds, &name)?;
    writing::print(rounds, &name)?;
    slips::print(rounds, &lots)
}

#[cfg(test)]
mod tests {
    use super::*;
    use lots::IN_ORDER;
    use second::specimens::Shaker;

    /// Elements of every kind that the second program draws, times as large, at the depths
    /// below `depths`: the versions report what the library reports.
    fn agree(versions: &[Named], seed: u64, times: i64, depths: u32) {
        let mut shaker = Shaker::new(seed);
        let mut met = [0; 3];
        for turn in 0..10_000 {
            let points = shaker.element().map(|x| i32::try_from(x * times).expect("in range"));
            let lot = Lot {
                name: "an element",
                depth: turn % depths,
                coordinates: points.to_vec(),
                indices: IN_ORDER.to_vec(),
            };
            let (_, record) = checked(&lot, versions)
                .unwrap_or_else(|what| panic!("{what} at depth {}: {points:?}", lot.depth));
            met[record[word::KIND] as usize] += 1;
        }
        assert!(met.iter().all(|&kind| kind > 100), "{met:?}");
    }

    #[test]
    fn reports_agree_in_one_word() {
        agree(&versions::<i64>(), 41, 1, 4);
    }

    #[test]
    fn reports_agree_in_two_words() {
        agree(&versions_for_larger(), 42, 1, 6);
        agree(&versions_for_larger(), 43, 256, 6);
    }

    /// The versions refuse the meshes that the library refuses.
    #[test]
    fn refusals_agree() {
        let indices = [IN_ORDER; 2].concat();
        let many = IN_ORDER.repeat(1001);
        let meshes: [(u32, usize, &[u32], u32, usize); 9] = [
            (1, 25, &indices, 9, 16),
            (0, 24, &indices, 8, 18),
            (2, 25, &indices[1..], 8, 16),
            (2, 15_003, &indices[1..], 0, 16),
            (0, 15_000, &indices, 0, 18),
            (3, 24, &indices[1..], 0, 16),
            (3, 24, &many, 0, 0),
            (4, 24, &indices, 0, 16),
            (0, 24, &many[8..], 0, 9000),
        ];
        for (number, coordinates, indices, depth, words) in meshes {
            let coordinates = vec![brundhal::MAX_COORDINATE + 1; coordinates];
            for (name, inspect) in versions_for_larger() {
                let mut report = vec![7; words];
                let answer = inspect(&coordinates, indices, depth, &mut report);
                assert_eq!(answer[0], number, "{name}");
                assert_eq!(report.iter().all(|&word| word == 7), number != 0, "{name}");
            }
        }
    }
}
