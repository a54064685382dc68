//! One question to two programs: the eight children of a cell.

use inner::{narrow_eighth, wide_eighth, Eighth, LARGEST_NARROW, LARGEST_WIDE};
use second::eighths;
use std::fmt;

/// Numbers of one word, or of two.
#[derive(Clone, Copy, Debug, PartialEq, Eq)]
pub enum Width {
    Narrow,
    Wide,
}

impl Width {
    /// The largest magnitude of a coefficient that is cut.
    pub fn largest(self) -> i128 {
        match self {
            Width::Narrow => LARGEST_NARROW.into(),
            Width::Wide => LARGEST_WIDE,
        }
    }
}

/// 27 coefficients in the order of their numbers.
pub type Net = [i128; 27];

pub type Child = Eighth<i128>;

/// A program that makes the eight children of a cell.
pub trait Cuts {
    fn children(&self, question: &Question) -> [Child; 8];
}

#[derive(Clone, Debug, PartialEq, Eq)]
pub struct Question {
    pub width: Width,
    pub cell: Net,
}

/// The built library.
pub struct Product;

impl Cuts for Product {
    fn children(&self, question: &Question) -> [Child; 8] {
        let one_word = |x: i128| i64::try_from(x).expect("a number of one word");
        [0, 1, 2, 3, 4, 5, 6, 7].map(|k| match question.width {
            Width::Narrow => narrow_eighth(&question.cell.map(one_word), k).into(),
            Width::Wide => wide_eighth(&question.cell, k),
        })
    }
}

/// The second program.
pub struct Second;

impl Cuts for Second {
    fn children(&self, question: &Question) -> [Child; 8] {
        eighths::children(&question.cell).map(|coefficients| {
            let (least, number) = eighths::least(&coefficients);
            Eighth { coefficients, least, number: number as i64 }
        })
    }
}

/// Where two answers differ, with the question.
#[derive(Clone, Debug, PartialEq, Eq)]
pub struct Difference {
    pub what: String,
    pub question: Question,
}

impl fmt::Display for Difference {
    fn fmt(&self, f: &mut fmt::Formatter) -> fmt::Result {
        write!(f, "{}\n{:?}", self.what, self.question)
    }
}

/// The first place at which two answers about a child differ.
fn different(first: &Child, second: &Child) -> Option<String> {
    let coefficients = first.coefficients.iter().zip(&second.coefficients);
    for (at, (x, y)) in coefficients.enumerate() {
        if x != y {
            return Some(format!("coefficient {} is {x} and {y}", at + 1));
        }
    }
    if first.least != second.least {
        return Some(format!("the least is {} and {}", first.least, second.least));
    }
    if first.number != second.number {
        return Some(format!("the number is {} and {}", first.number, second.number));
    }
    None
}

/// Asks both programs; the children on which they agree.
pub fn ask(
    first: &dyn Cuts,
    second: &dyn Cuts,
    question: &Question,
) -> Result<[Child; 8], Box<Difference>> {
    let (ours, theirs) = (first.children(question), second.children(question));
    for (k, (x, y)) in ours.iter().zip(&theirs).enumerate() {
        if let Some(what) = different(x, y) {
            let what = format!("child {k}: {what}");
            return Err(Box::new(Difference { what, question: question.clone() }));
        }
    }
    Ok(theirs)
}
