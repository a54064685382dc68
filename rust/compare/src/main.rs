//! Runs the built library, with its auditor, beside the second program.
//!
//! `compare SEED COUNT`: the whole run, with COUNT random elements.
//! `compare lots SEED COUNT`: its lots alone.
//! `compare numbers SEED COUNT`: its numbers of two words alone.
//! `compare elements SEED COUNT`: its elements alone.
//! `compare again`: the questions on standard input, one a line, as a
//! difference prints them; the answer of each is printed.

#![deny(warnings)]

use compare::program::{PRODUCT, SECOND};
use compare::question::Question;
use compare::run::{numbers, run, run_elements, run_lots, Pair, Plan};
use std::io;
use std::process::ExitCode;

const PAIR: Pair = Pair { first: PRODUCT, second: SECOND };

fn again() -> Result<(), String> {
    for line in io::stdin().lines() {
        let line = line.map_err(|error| error.to_string())?;
        let question: Question = line.parse()?;
        let words = PAIR.ask_again(&question).map_err(|found| found.to_string())?;
        println!("the library answers {words:?}");
    }
    Ok(())
}

fn plan(seed: &str, count: &str) -> Result<Plan, String> {
    let seed = seed.parse().map_err(|_| format!("no seed: {seed}"))?;
    let count = count.parse().map_err(|_| format!("no count: {count}"))?;
    Ok(Plan::of(seed, count))
}

fn say(line: String) {
    println!("{line}");
}

fn whole(seed: &str, count: &str) -> Result<(), String> {
    run(PAIR, plan(seed, count)?, &say).map_err(|found| found.to_string())
}

fn lots(seed: &str, count: &str) -> Result<(), String> {
    run_lots(PAIR, plan(seed, count)?, &say).map_err(|found| found.to_string())
}

fn numbers_alone(seed: &str, count: &str) -> Result<(), String> {
    numbers(PAIR, plan(seed, count)?).map(say).map_err(|found| found.to_string())
}

fn elements(seed: &str, count: &str) -> Result<(), String> {
    run_elements(PAIR, plan(seed, count)?, &say).map_err(|found| found.to_string())
}

fn main() -> ExitCode {
    let arguments: Vec<String> = std::env::args().skip(1).collect();
    let done = match &arguments.iter().map(String::as_str).collect::<Vec<_>>()[..] {
        ["again"] => again(),
        ["lots", seed, count] => lots(seed, count),
        ["numbers", seed, count] => numbers_alone(seed, count),
        ["elements", seed, count] => elements(seed, count),
        [seed, count] => whole(seed, count),
        _ => Err("use: compare [elements|lots|numbers] SEED COUNT, or: compare again".to_string()),
    };
    match done {
        Ok(()) => {
            println!("no difference");
            ExitCode::SUCCESS
        }
        Err(what) => {
            eprintln!("{what}");
            ExitCode::FAILURE
        }
    }
}
