//! Programs that are wrong in both places alike, and their auditors with them: nothing
//! differs, and the rules over depths, what 01 prints, or the rule of the stamp must catch
//! them.

use crate::{alike, finds_it_again, small_plan};
use compare::cases::cases;
use compare::check::ask;
use compare::program::{
    Answer, Bounds, Inspects, Product, Program, Stamp, Stamps, PRODUCT, RECORD_WORDS, SECOND,
};
use compare::question::Question;
use compare::run::{run, Pair};

#[derive(Clone, Copy, Debug, PartialEq)]
enum Unsteady {
    ValidBecomesUndecided,
    ValidBecomesUndecidedDeepDown,
    InvalidBecomesValid,
    OpenedGrows,
    OpenedGrowsDeepDown,
    RefusalMoves,
    RefusalMovesDeepDown,
    PairMoves,
    PairToldAsRange,
    LowFalls,
    HighRises,
    LowFallsDeepDown,
    HighRisesDeepDown,
    RecordApartFromBounds,
    NotPositive,
    OpenedInvented,
    StampOf01,
}

/// The library with one such fault.
impl Inspects for Unsteady {
    fn inspect(
        &self,
        coordinates: &[i32],
        indices: &[u32],
        depth: u32,
        report: &mut [i64],
    ) -> Answer {
        let answer = Product.inspect(coordinates, indices, depth, report);
        let records = report.chunks_exact_mut(RECORD_WORDS).filter(|_| answer[0] == 0);
        for record in records {
            match (self, depth, record[0]) {
                (Unsteady::ValidBecomesUndecided, 2, 0)
                | (Unsteady::ValidBecomesUndecidedDeepDown, 7, 0) => {
                    record.copy_from_slice(&[2, depth.into(), 0, 0, 0, 13, 0, 0, 9]);
                }
                (Unsteady::InvalidBecomesValid, 3, 1) => record[0] = 0,
                (Unsteady::OpenedGrows, 1.., 0 | 1) => record[8] += 1,
                (Unsteady::OpenedGrowsDeepDown, 8, 0 | 1) => record[8] += 1,
                (Unsteady::RefusalMoves, 3, 5 | 6) => record[1] = 8,
                (Unsteady::RefusalMovesDeepDown, 4.., 5 | 6) => record[1] = 8,
                (Unsteady::PairMoves, 3, 7) => record[2] = 8,
                (Unsteady::PairToldAsRange, _, 7) => record[0] = 6,
                (Unsteady::RecordApartFromBounds, 3, 2) => record[0] = 0,
                (Unsteady::NotPositive, _, 0..=2) => {
                    record.copy_from_slice(&[0, 0, 0, 0, 0, 0, 0, 0, 1]);
                }
                (Unsteady::OpenedInvented, _, 0..=2) => record[8] = 585,
                _ => {}
            }
        }
        answer
    }

    fn bounds(&self, points: &[i32; 24], depth: u32) -> Bounds {
        let (number, low, high) = Product.bounds(points, depth);
        match (self, number, depth) {
            (Unsteady::LowFalls, 0, 2) | (Unsteady::LowFallsDeepDown, 0, 5) => {
                (number, low - 1, high)
            }
            (Unsteady::HighRises, 0, 2) | (Unsteady::HighRisesDeepDown, 0, 5) => {
                (number, low, high + 1)
            }
            (Unsteady::NotPositive, 0, _) => (number, 8 << (6 * depth), 8 << (6 * depth)),
            _ => (number, low, high),
        }
    }
}

impl Stamps for Unsteady {
    fn stamp(&self, answer: Answer) -> Option<Stamp> {
        match (self, answer) {
            (Unsteady::StampOf01, [0, _, 0, _, 0]) => Some(Stamp::Sound),
            _ => Product.stamp(answer),
        }
    }
}

/// The library with such a fault, in both places and in the auditor's.
fn unsteady(fault: &Unsteady) -> Pair<'_> {
    alike(Program { inspects: fault, audits: fault, stamps: fault, ..PRODUCT })
}

/// The points of a worked case.
fn points_of(name: &str) -> [i32; 24] {
    cases().iter().find(|case| case.name == name).expect("a case").points
}

/// A mesh of 140 elements: the cases A, C, D, F and H, A with an index past the
/// nodes, and A with an index in two places, over and over.
fn worked_mesh(depth: u32) -> Question {
    let coordinates = ["A", "C", "D", "F", "H"].map(points_of).concat();
    let mut elements: Vec<u32> = (0..40).collect();
    elements.extend([0, 1, 2, 40, 4, 5, 6, 7]);
    elements.extend([0, 1, 2, 1, 4, 5, 6, 7]);
    let indices = elements.repeat(20);
    Question::Inspect { depth, space: indices.len() / 8 * RECORD_WORDS, coordinates, indices }
}

/// A fault, a case that shows it, if one can, and what is said of it.
type Shown = (Unsteady, Option<&'static str>, &'static str);

/// Each question finds the fault, though both programs answer it alike.
fn is_found(fault: Unsteady, rule: &str, question: &Question) {
    assert!(ask(PRODUCT, SECOND, question).is_ok());
    let pair = unsteady(&fault);
    let found = pair.ask_again(question).expect_err("a fault over depths");
    println!("{fault:?}: {}", found.what);
    assert!(found.what.contains(rule));
    finds_it_again(pair, &found);
}

/// Every rule over depths is tested on elements, meshes and bounds alike, the
/// question being of depth 0: on the element that shows the fault, if one can,
/// and on a mesh.
#[test]
fn the_rules_over_depths_are_tested() {
    let faults: [Shown; 10] = [
        (Unsteady::ValidBecomesUndecided, Some("D"), "became"),
        (Unsteady::InvalidBecomesValid, Some("C"), "became"),
        (Unsteady::OpenedGrows, Some("A"), "became"),
        (Unsteady::RefusalMoves, None, "became"),
        (Unsteady::PairMoves, None, "became"),
        (Unsteady::PairToldAsRange, None, "with bounds"),
        (Unsteady::LowFalls, Some("A"), "64 times low"),
        (Unsteady::HighRises, Some("A"), "64 times the depth before's"),
        (Unsteady::RecordApartFromBounds, Some("F"), "with bounds"),
        (Unsteady::NotPositive, Some("C"), "valid, and J is"),
    ];
    for (fault, case, rule) in faults {
        is_found(fault, rule, &worked_mesh(0));
        if let Some(points) = case.map(points_of) {
            is_found(fault, rule, &Question::Element { depth: 0, bounds: 0, audit: 8, points });
            is_found(fault, rule, &Question::Bounds { depth: 0, points });
        }
        assert!(run(unsteady(&fault), small_plan(), &drop).is_err());
    }
}

/// So they are at depths past those that are asked, where those leave nothing undecided;
/// and of bounds at the depth that is asked.
#[test]
fn the_rules_over_depths_are_tested_deep_down() {
    let a = points_of("A");
    let element = Question::Element { depth: 0, bounds: 0, audit: 8, points: a };
    let bounds = Question::Bounds { depth: 5, points: a };
    let mut coordinates = a.to_vec();
    coordinates.extend([1_048_577, 0, 0]);
    let indices = vec![0, 1, 2, 3, 4, 5, 6, 7, 8, 1, 2, 3, 4, 5, 6, 7];
    let mesh = Question::Inspect { depth: 0, space: 2 * RECORD_WORDS, coordinates, indices };
    let faults = [
        (Unsteady::ValidBecomesUndecidedDeepDown, "became", [&element, &mesh]),
        (Unsteady::OpenedGrowsDeepDown, "became", [&element, &mesh]),
        (Unsteady::RefusalMovesDeepDown, "became", [&mesh, &mesh]),
        (Unsteady::LowFallsDeepDown, "64 times low", [&bounds, &bounds]),
        (Unsteady::HighRisesDeepDown, "64 times the depth before's", [&bounds, &bounds]),
    ];
    for (fault, rule, questions) in faults {
        questions.into_iter().for_each(|question| is_found(fault, rule, question));
    }
}

/// So is an answer that holds over depths and is not the one that 01 prints.
#[test]
fn what_01_prints_is_tested() {
    let pair = unsteady(&Unsteady::OpenedInvented);
    let found = run(pair, small_plan(), &drop).expect_err("not as printed");
    assert!(found.what.contains("in 01"));
    finds_it_again(pair, &found);
}

/// So is a stamp that is not the one that the records give: 01's, which calls a mesh
/// sound whose records are valid or undecided.
#[test]
fn the_stamp_of_the_records_is_tested() {
    let pair = unsteady(&Unsteady::StampOf01);
    let coordinates = ["A", "F"].map(points_of).concat();
    let indices: Vec<u32> = (0..16).collect();
    for indices in [indices, vec![]] {
        let coordinates = coordinates.clone();
        let space = indices.len() / 8 * RECORD_WORDS;
        let question = Question::Inspect { depth: 3, space, coordinates, indices };
        assert!(ask(PRODUCT, SECOND, &question).is_ok());
        let found = pair.ask_again(&question).expect_err("a stamp apart from the records");
        assert_eq!(found.what, "stamp Some(Sound), and the records give Open");
        finds_it_again(pair, &found);
    }
}
