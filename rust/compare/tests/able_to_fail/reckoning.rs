//! Programs for numbers of two words that are wrong in one thing.

use crate::{beside_the_library, is_caught, small_plan};
use compare::program::{Program, Reckons, Second, SECOND};
use compare::run::{numbers, Pair};
use std::cmp::Ordering;

faults! {
    // from one word and back
    SignNotFilled,
    HandedBackUntested,
    TestedUnsigned,
    LowestRefused,
    HighestRefused,
    // sums and differences
    NoCarry,
    CarryWhereEqual,
    NoBorrow,
    BorrowWhereEqual,
    DifferenceTurned,
    EndsKept,
    // what no special pair shows
    OffAtOneByte,
    // products
    MiddleProductsLeftOut,
    OneMiddleProductLeftOut,
    ProductUnsigned,
    ProductOfMagnitudes,
    ProductInOneWord,
    BitNotHandedOver,
    TwiceTheBit,
    OneBitHandedOver,
    EightTimes,
    // orders
    ComparedByHighWords,
    ComparedUnsigned,
    LowWordsSigned,
    SignAgainstOne,
    ZeroIsLess,
    SignOfTheLowWord,
    AtMostStrict,
    AtMostByHighWords,
}

/// A program with one fault, or without one.
struct Wrong(Option<Fault>);

/// The low word and the high one.
fn words(x: i128) -> (u64, u64) {
    (x as u64, (x >> 64) as u64)
}

/// The number of a low word and a high one.
fn number((low, high): (u64, u64)) -> i128 {
    i128::from(high as i64) << 64 | i128::from(low)
}

impl Reckons for Wrong {
    fn wide(&self, x: i64) -> i128 {
        match self.0 {
            Some(Fault::SignNotFilled) => i128::from(x as u64),
            _ => Second.wide(x),
        }
    }

    fn single(&self, x: i128) -> Option<i64> {
        let right = Second.single(x);
        match self.0 {
            Some(Fault::HandedBackUntested) => Some(x as i64),
            Some(Fault::TestedUnsigned) if x >> 64 == 0 => Some(x as i64),
            Some(Fault::LowestRefused) => right.filter(|&x| x != i64::MIN),
            Some(Fault::HighestRefused) => right.filter(|&x| x != i64::MAX),
            _ => right,
        }
    }

    fn add(&self, x: i128, y: i128) -> i128 {
        let ((a, b), (c, d)) = (words(x), words(y));
        let low = a.wrapping_add(c);
        let high = b.wrapping_add(d);
        match self.0 {
            Some(Fault::NoCarry) => number((low, high)),
            Some(Fault::CarryWhereEqual) => number((low, high.wrapping_add(u64::from(low <= c)))),
            Some(Fault::EndsKept) => x.saturating_add(y),
            Some(Fault::OffAtOneByte) if x as u8 == 90 => number((low, b)),
            _ => Second.add(x, y),
        }
    }

    fn sub(&self, x: i128, y: i128) -> i128 {
        let ((a, b), (c, d)) = (words(x), words(y));
        let low = a.wrapping_sub(c);
        let high = b.wrapping_sub(d);
        match self.0 {
            Some(Fault::NoBorrow) => number((low, high)),
            Some(Fault::BorrowWhereEqual) => number((low, high.wrapping_sub(u64::from(a <= c)))),
            Some(Fault::DifferenceTurned) => y.wrapping_sub(x),
            _ => Second.sub(x, y),
        }
    }

    fn mul(&self, x: i128, y: i128) -> i128 {
        let ((a, b), (c, _)) = (words(x), words(y));
        let (low, high) = words((u128::from(a) * u128::from(c)) as i128);
        match self.0 {
            Some(Fault::MiddleProductsLeftOut) => number((low, high)),
            Some(Fault::OneMiddleProductLeftOut) => {
                number((low, high.wrapping_add(b.wrapping_mul(c))))
            }
            _ => Second.mul(x, y),
        }
    }

    fn product(&self, x: i64, y: i64) -> i128 {
        let right = Second.product(x, y);
        match self.0 {
            Some(Fault::ProductUnsigned) => i128::from(x as u64).wrapping_mul(i128::from(y as u64)),
            Some(Fault::ProductOfMagnitudes) => right.abs(),
            Some(Fault::ProductInOneWord) => i128::from(x.wrapping_mul(y)),
            _ => right,
        }
    }

    fn twice(&self, x: i128) -> i128 {
        let (low, high) = words(x);
        match self.0 {
            Some(Fault::BitNotHandedOver) => number((low << 1, high << 1)),
            Some(Fault::TwiceTheBit) => number((low << 1, (high << 1) + (low >> 63 << 1))),
            _ => Second.twice(x),
        }
    }

    fn four_times(&self, x: i128) -> i128 {
        let (low, high) = words(x);
        match self.0 {
            Some(Fault::OneBitHandedOver) => number((low << 2, (high << 2) + (low >> 63))),
            Some(Fault::EightTimes) => x.wrapping_mul(8),
            _ => Second.four_times(x),
        }
    }

    fn compare(&self, x: i128, y: i128) -> Ordering {
        let ((a, b), (c, d)) = (words(x), words(y));
        match self.0 {
            Some(Fault::ComparedByHighWords) => (b as i64).cmp(&(d as i64)),
            Some(Fault::ComparedUnsigned) => (b, a).cmp(&(d, c)),
            Some(Fault::LowWordsSigned) => (b as i64, a as i64).cmp(&(d as i64, c as i64)),
            _ => Second.compare(x, y),
        }
    }

    fn sign(&self, x: i128) -> Ordering {
        match self.0 {
            Some(Fault::SignAgainstOne) => x.cmp(&1),
            Some(Fault::ZeroIsLess) if x == 0 => Ordering::Less,
            Some(Fault::SignOfTheLowWord) => (x as i64).cmp(&0),
            _ => Second.sign(x),
        }
    }

    fn at_most(&self, x: i128, y: i128) -> bool {
        match self.0 {
            Some(Fault::AtMostStrict) => x < y,
            Some(Fault::AtMostByHighWords) => x >> 64 <= y >> 64,
            _ => Second.at_most(x, y),
        }
    }
}

fn within(reckoner: &Wrong) -> Program<'_> {
    Program { reckons: reckoner, ..SECOND }
}

/// Each is caught; and the one without a fault is not, so that what is caught is the
/// fault.
#[test]
fn every_faulty_reckoner_is_caught() {
    let ask = |pair: Pair| numbers(pair, small_plan()).map(drop);
    assert_eq!(ask(beside_the_library(within(&Wrong(None)))), Ok(()));
    for &fault in FAULTS {
        is_caught(fault, beside_the_library(within(&Wrong(Some(fault)))), ask);
    }
}
