//! Prints elements with their records and bounds, one a line:
//!
//! `x1 .. x24 | depth | 9 record words | low high`
//!
//! Use: `vectors SEED COUNT`.  The worked cases A to G come first, each at the
//! depths 0 to 8, then COUNT random elements, their depth going round 0 to 8.

#![deny(warnings)]

use second::specimens::{worked, Points, Shaker};
use second::Limits;
use std::io::{self, BufWriter, Write};
use std::process::ExitCode;

fn joined<T: ToString>(numbers: &[T]) -> String {
    let words: Vec<String> = numbers.iter().map(T::to_string).collect();
    words.join(" ")
}

fn line(points: &Points, depth: u32) -> String {
    let record = second::record(points, depth);
    let (low, high) = second::bounds_of(points, depth);
    format!("{} | {depth} | {} | {low} {high}", joined(points), joined(&record))
}

const DEPTH: u32 = Limits::base().depth;

fn print_all(seed: u64, count: u64) -> io::Result<()> {
    let mut out = BufWriter::new(io::stdout().lock());
    for (_, points) in worked() {
        for depth in 0..=DEPTH {
            writeln!(out, "{}", line(&points, depth))?;
        }
    }
    let mut shaker = Shaker::new(seed);
    for (_, depth) in (0..count).zip((0..=DEPTH).cycle()) {
        writeln!(out, "{}", line(&shaker.element(), depth))?;
    }
    out.flush()
}

fn main() -> ExitCode {
    let arguments: Vec<u64> = std::env::args().skip(1).filter_map(|a| a.parse().ok()).collect();
    let [seed, count] = arguments[..] else {
        eprintln!("use: vectors SEED COUNT");
        return ExitCode::from(2);
    };
    match print_all(seed, count) {
        Ok(()) => ExitCode::SUCCESS,
        Err(_) => ExitCode::FAILURE,
    }
}
