//! The best time of several versions that do the same, and tables of such times.

use std::time::{Duration, Instant};

/// One call of a version does its work once.
pub type Version<'a> = Box<dyn FnMut() + 'a>;

/// The time of `times` calls.
fn time(version: &mut dyn FnMut(), times: u32) -> Duration {
    let start = Instant::now();
    for _ in 0..times {
        version();
    }
    start.elapsed()
}

/// How often a version is called to fill some ten milliseconds.
fn times_a_round(version: &mut dyn FnMut()) -> u32 {
    const ROUND: Duration = Duration::from_millis(10);
    if time(version, 1) > ROUND {
        return 1;
    }
    let once = time(version, 3) / 3;
    (ROUND.as_nanos() / once.as_nanos().max(1)).clamp(1, 10_000) as u32
}

/// Best time a call of each version, in microseconds; the versions take turns, so
/// that a disturbance meets them alike.
pub fn best<'a>(rounds: u32, versions: impl IntoIterator<Item = Version<'a>>) -> Vec<f64> {
    let mut versions: Vec<Version> = versions.into_iter().collect();
    let times: Vec<u32> = versions.iter_mut().map(|version| times_a_round(version)).collect();
    let mut best = vec![f64::INFINITY; versions.len()];
    for _ in 0..rounds {
        for (version, (best, &times)) in versions.iter_mut().zip(best.iter_mut().zip(&times)) {
            let took = time(version, times);
            *best = best.min(took.as_secs_f64() * 1e6 / f64::from(times));
        }
    }
    best
}

/// What a call gives, and its time in microseconds.
pub fn once<Given>(call: impl FnOnce() -> Given) -> (Given, f64) {
    let start = Instant::now();
    let given = call();
    (given, start.elapsed().as_secs_f64() * 1e6)
}

/// The head of a table: the library, and each other version with the library's time
/// against its own.
pub fn print_head<'a>(
    what: &str,
    rounds: u32,
    column: &str,
    versions: impl IntoIterator<Item = &'a str>,
) {
    println!("microseconds {what}, best of {rounds} rounds, and the library's time against each");
    let names: Vec<String> = versions.into_iter().map(|name| format!("{name:>12}")).collect();
    println!("  {column:28}{}{}", names[0], names[1..].join("         "));
}

/// A row of it.
pub fn print_row(name: &str, times: &[f64]) {
    let mut row = format!("  {name:28}{:12.3}", times[0]);
    for time in &times[1..] {
        let ratio = times[0] / time;
        let places = if ratio < 100.0 { 3 } else { 0 };
        row += &format!("{time:12.3}{ratio:9.places$}");
    }
    println!("{row}");
}
