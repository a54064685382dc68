//! The bounds of a large twisted element at depth 0 and at depth 3, compared at one
//! scale: a closer look never lowers the low bound and never raises the high one.
//! Bounds are times 8 * 64^depth, so those of depth 0 are taken 64^3 times.  The
//! element is undecided; the coefficient in its record is not below the low bound.

#![deny(warnings)]

use brundhal::{Number, MAX_COORDINATE, RECORD_WORDS};

/// A bound of depth 0 at the scale of depth 3.
fn raised(bound: Number) -> Number {
    bound.wrapping_mul(Number::product(64 * 64, 64))
}

fn yes(answer: bool) -> &'static str {
    if answer {
        "yes"
    } else {
        "no"
    }
}

fn main() {
    let (far, half) = (MAX_COORDINATE, MAX_COORDINATE / 2);
    #[rustfmt::skip]
    let points = [
        -half, -half, 0,   half, -half, 0,   half, half, 0,   -half, half, 0,
        far, far, half,   -far, far, half,   -far, -far, half,   far, -far, half,
    ];
    let first = brundhal::bounds(&points, 0);
    let closer = brundhal::bounds(&points, 3);
    let mut record = [0; RECORD_WORDS];
    let answer = brundhal::inspect(&points, &[0, 1, 2, 3, 4, 5, 6, 7], 3, &mut record);
    if (first.number, closer.number, answer.number) != (0, 0, 0) {
        eprintln!("refused {} {} {}", first.number, closer.number, answer.number);
        std::process::exit(1);
    }
    println!("depth 0: low {} high {}", first.low, first.high);
    println!("depth 3: low {} high {}", closer.low, closer.high);
    println!("low does not fall: {}", yes(raised(first.low) <= closer.low));
    println!("high does not rise: {}", yes(closer.high <= raised(first.high)));
    let value = brundhal::record_value(&record);
    println!("coefficient {value} not below low: {}", yes(closer.low <= value));
}
