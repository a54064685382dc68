//! The comparison is able to fail: programs that are wrong in one thing are caught.

use crate::ask::{ask, Child, Cuts, Net, Product, Question, Second, Width};
use crate::cells::{corpora, Corpus};
use crate::run;
use inner::PATTERN;
use std::fmt::Debug;

/// What can be wrong, and the list of all of it.
macro_rules! faults {
    ($($fault:ident,)*) => {
        #[derive(Clone, Copy, Debug, PartialEq)]
        enum Fault {
            $($fault,)*
        }

        const FAULTS: &[Fault] = &[$(Fault::$fault,)*];
    };
}

faults! {
    // the number
    LastNumber,
    NextNumber,
    NumberFromZero,
    NumberOfTheLowest,
    NumberOfAnotherChild,
    NumberNotWritten,
    // the least
    LowestNotAboveZero,
    LeastOfTheCorners,
    LeastOfAnotherChild,
    LeastOfTheCell,
    LeastUnsigned,
    LeastOfMagnitudes,
    LeastByHighWords,
    LeastFromZero,
    Greatest,
    LeastNotWritten,
    // the coefficients
    ChildOfTheOtherSide,
    ChildrenInAnotherOrder,
    DirectionsExchanged,
    NumberedAcross,
    CentreNotWritten,
    // what numbers of one word do not show
    LowWordsSigned,
    LeastInOneWord,
    HighWordOfTheCentreLost,
}

const IN_TWO_WORDS: [Fault; 3] =
    [Fault::LowWordsSigned, Fault::LeastInOneWord, Fault::HighWordOfTheCentreLost];

/// A program with one fault, or without one.
struct Wrong(Option<Fault>);

/// The first of these numbers in an order, and its number.
fn first_by<K: Ord>(coefficients: &[i128], key: impl Fn(i128) -> K) -> (i128, i64) {
    let mut first = 0;
    for at in 1..coefficients.len() {
        if key(coefficients[at]) < key(coefficients[first]) {
            first = at;
        }
    }
    (coefficients[first], first as i64 + 1)
}

/// The lowest-numbered coefficient not above 0, if there is one, and its number.
fn lowest(coefficients: &Net) -> Option<(i128, i64)> {
    let at = coefficients.iter().position(|&x| x <= 0)?;
    Some((coefficients[at], at as i64 + 1))
}

/// What is told of child k in place of the least and its number.
fn told(fault: Fault, question: &Question, children: &[Child; 8], k: usize) -> (i128, i64) {
    let Child { coefficients, least, number } = &children[k];
    let right = (*least, *number);
    let another = &children[(k + 1) % 8];
    let held_by = |at: &usize| coefficients[*at] == *least;
    let not_written = PATTERN as i64;
    match fault {
        Fault::LastNumber => {
            let last = (0..27).rev().find(held_by).expect("the least is held");
            (*least, last as i64 + 1)
        }
        Fault::NextNumber => {
            let next = (*number as usize..27).find(held_by);
            (*least, next.map_or(*number, |at| at as i64 + 1))
        }
        Fault::NumberFromZero => (*least, number - 1),
        Fault::NumberOfTheLowest => (*least, lowest(coefficients).unwrap_or(right).1),
        Fault::NumberOfAnotherChild => (*least, another.number),
        Fault::NumberNotWritten => (*least, not_written),
        Fault::LowestNotAboveZero => lowest(coefficients).unwrap_or(right),
        Fault::LeastOfTheCorners => first_by(&coefficients[..8], |x| x),
        Fault::LeastOfAnotherChild => (another.least, another.number),
        Fault::LeastOfTheCell => {
            let (least, number) = first_by(&question.cell, |x| x);
            (64 * least, number)
        }
        Fault::LeastUnsigned => first_by(coefficients, |x| x as u128),
        Fault::LeastOfMagnitudes => first_by(coefficients, i128::unsigned_abs),
        Fault::LeastByHighWords => first_by(coefficients, |x| x >> 64),
        Fault::LeastFromZero => ((*least).min(0), *number),
        Fault::Greatest => first_by(coefficients, |x| !x),
        Fault::LeastNotWritten => (not_written.into(), *number),
        Fault::LowWordsSigned => first_by(coefficients, |x| (x >> 64, x as i64)),
        Fault::LeastInOneWord => ((*least as i64).into(), *number),
        _ => right,
    }
}

/// The coefficients of child k.
fn made(fault: Fault, children: &[Child; 8], k: usize) -> Net {
    let right = children[k].coefficients;
    match fault {
        Fault::ChildOfTheOtherSide => children[k ^ 1].coefficients,
        Fault::ChildrenInAnotherOrder => children[[0, 1, 3, 2, 4, 5, 7, 6][k]].coefficients,
        Fault::DirectionsExchanged => children[[0, 4, 7, 3, 1, 5, 6, 2][k]].coefficients,
        Fault::NumberedAcross => {
            let mut across = right;
            across.swap(21, 24);
            across
        }
        Fault::CentreNotWritten => {
            let mut without = right;
            without[26] = (PATTERN as i64).into();
            without
        }
        Fault::HighWordOfTheCentreLost => {
            let mut without = right;
            without[26] = (right[26] as i64).into();
            without
        }
        _ => right,
    }
}

impl Cuts for Wrong {
    fn children(&self, question: &Question) -> [Child; 8] {
        let right = Second.children(question);
        let Some(fault) = self.0 else {
            return right;
        };
        std::array::from_fn(|k| {
            let (least, number) = told(fault, question, &right, k);
            Child { coefficients: made(fault, &right, k), least, number }
        })
    }
}

/// A program that leaves out one number where it looks for the least.
#[derive(Debug)]
struct LeftOut(usize);

impl Cuts for LeftOut {
    fn children(&self, question: &Question) -> [Child; 8] {
        Second.children(question).map(|child| {
            let mut seen = child.coefficients;
            seen[self.0 - 1] = i128::MAX;
            let (least, number) = first_by(&seen, |x| x);
            Child { least, number, ..child }
        })
    }
}

/// A wrong program beside the library is caught, and its question catches it again.
fn is_caught(fault: impl Debug, wrong: &dyn Cuts, corpora: &[Corpus]) {
    let found = corpora.iter().find_map(|corpus| run(&Product, wrong, corpus).err());
    let Some(found) = found else {
        panic!("{fault:?} was not caught");
    };
    println!("{fault:?}, {:?}: {}", found.question.width, found.what);
    assert_eq!(ask(&Product, wrong, &found.question), Err(found));
}

/// Each is caught; and the one without a fault is not, so that what is caught is the
/// fault.
fn all_are_caught(width: Width, faults: impl Iterator<Item = Fault>) {
    let corpora = corpora(width, 5);
    for corpus in &corpora {
        assert!(run(&Product, &Wrong(None), corpus).is_ok());
    }
    for fault in faults {
        is_caught(fault, &Wrong(Some(fault)), &corpora);
    }
    for number in 1..=27 {
        is_caught(LeftOut(number), &LeftOut(number), &corpora);
    }
}

#[test]
fn every_fault_is_caught_in_one_word() {
    let shown = |fault: &Fault| !IN_TWO_WORDS.contains(fault);
    all_are_caught(Width::Narrow, FAULTS.iter().copied().filter(shown));
}

#[test]
fn every_fault_is_caught_in_two_words() {
    all_are_caught(Width::Wide, FAULTS.iter().copied());
}
