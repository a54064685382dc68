//! The comparison is able to fail: programs that are wrong in one thing are
//! caught.

#![deny(warnings)]

use compare::check::{ask, Difference};
use compare::program::{Program, PRODUCT, SECOND};
use compare::question::Question;
use compare::run::{run_service, Pair, Plan};
use compare::service::Service;
use second::lot::{Groups, Lot};
use std::fmt::Debug;

/// What can be wrong, and the list of all of it.
macro_rules! faults {
    ($($fault:ident,)*) => {
        #[derive(Clone, Copy, Debug, PartialEq)]
        enum Fault {
            $($fault,)*
        }

        const FAULTS: &[Fault] = &[$(Fault::$fault,)*];
    };
}

#[path = "able_to_fail/inspecting.rs"]
mod inspecting;
#[path = "able_to_fail/naming.rs"]
mod naming;
#[path = "able_to_fail/over_depths.rs"]
mod over_depths;
#[path = "able_to_fail/printing.rs"]
mod printing;
#[path = "able_to_fail/reading.rs"]
mod reading;
#[path = "able_to_fail/reckoning.rs"]
mod reckoning;
#[path = "able_to_fail/writing.rs"]
mod writing;

fn small_plan() -> Plan {
    Plan {
        seed: 5,
        elements: 1500,
        meshes: 400,
        moves: 2000,
        files: 2000,
        writes: 2000,
        names: 2000,
        slips: 100,
        numbers: 20_000,
        deep: 30,
    }
}

/// The question that a difference prints finds the same difference again.
fn finds_it_again(pair: Pair, found: &Difference) {
    let line = found.to_string();
    let printed = line.lines().last().expect("a line");
    let question: Question = printed.parse().expect("a question");
    assert_eq!(pair.ask_again(&question).as_ref(), Err(found));
}

/// A program in the second place, beside the library.
fn beside_the_library(second: Program) -> Pair {
    Pair { first: PRODUCT, second }
}

/// What is wrong in one place of a pair is caught, and the question that is printed
/// catches it again.
fn is_caught(fault: impl Debug, pair: Pair, run: impl Fn(Pair) -> Result<(), Difference>) {
    let Err(found) = run(pair) else {
        panic!("{fault:?} was not caught");
    };
    println!("{fault:?}: {}", found.what);
    finds_it_again(pair, &found);
}

/// All that is asked of one service.
fn ask_service(pair: Pair, service: &Service) -> Result<(), Difference> {
    run_service(pair, small_plan(), service, 0, &drop)
}

/// Each wrong version of a service is caught; and the one without a fault is not, so
/// that what is caught is the fault.  `within` puts a version into a pair.
fn all_are_caught<Fault: Copy + Debug, Wrong>(
    service: &Service,
    faults: &[Fault],
    wrong: fn(Option<Fault>) -> Wrong,
    within: impl Fn(&Wrong) -> Pair,
) {
    assert_eq!(ask_service(within(&wrong(None)), service), Ok(()));
    for &fault in faults {
        is_caught(fault, within(&wrong(Some(fault))), |pair| ask_service(pair, service));
    }
}

/// The same program in both places.
fn alike(program: Program) -> Pair {
    Pair { first: program, second: program }
}

/// A program that is wrong in both places is caught by a rule of 02.
fn is_caught_alike(program: Program, service: &Service, what: &str) {
    let found = ask_service(alike(program), service).expect_err("a fault in both places");
    assert_eq!(found.what, what);
    finds_it_again(alike(program), &found);
}

/// The printed form of every question reads back, and the library answers it.
#[test]
fn questions_read_back() {
    let questions = [
        Question::Inspect { depth: 3, space: 0, coordinates: vec![], indices: vec![] },
        Question::Inspect {
            depth: u32::MAX,
            space: 9,
            coordinates: vec![i32::MIN, -1, i32::MAX],
            indices: vec![0, u32::MAX],
        },
        Question::Element { depth: 2, bounds: 1, audit: 0, points: [-7; 24] },
        Question::Element { depth: 8, bounds: 4, audit: 8, points: [-1_048_576; 24] },
        Question::Bounds { depth: 9, points: [1_048_577; 24] },
        Question::Bounds { depth: 4, points: [1_048_577; 24] },
        Question::Child { address: [1, 0, 1, 0], n: 8 },
        Question::Corner { address: [u32::MAX; 4], n: 0 },
        Question::Parent { address: [2, 3, 3, 3] },
        Question::Stamp { answer: [0, 1, 2, 3, 4] },
        Question::Read { space: [0, 9, 1, 2, 3], file: vec![] },
        Question::Read { space: [1, 0, 0, 0, 0], file: b"LB\x01\0~EN\0\0".to_vec() },
        Question::Write { space: 7, lot: Lot::new(b"~", &[[-1; 3]], &[[7; 8]]).group(1, b"") },
        Question::Write { space: 99, lot: Lot { nodes: vec![i32::MIN], ..Lot::default() } },
        Question::Name {
            elements: 1,
            element: u32::MAX,
            label: b"ab".to_vec(),
            groups: Groups { names: vec![255], lengths: vec![0, 9], offsets: vec![u32::MAX] },
        },
        Question::Slip { file: vec![0] },
        Question::Slip { file: b"LB\x01\0~EN\0\0".to_vec() },
        Question::Numbers { x: i128::MIN, y: i128::MAX },
    ];
    for question in questions {
        let read: Question = question.to_string().parse().expect("a question");
        assert_eq!(read, question);
        assert!(ask(PRODUCT, SECOND, &question).is_ok());
    }
    let lines = [
        "",
        "element 3 3 1 2",
        "parent 1 2 3 4 5",
        "inspect 0 0 1",
        "read 0 0 0 0 0 1 256",
        "write 0 0 0 0 0 0",
        "name 0 0 0 0 0 0 0",
        "slip 1 -1",
        "numbers 1 170141183460469231731687303715884105728",
        "sound",
    ];
    for line in lines {
        assert!(line.parse::<Question>().is_err());
    }
}
