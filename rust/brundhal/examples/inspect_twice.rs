//! Reads a lot file, inspects its mesh at depth 3 by both inspectors, the first and the
//! auditor, and prints each element's record and on how many elements the two agree; or
//! the first difference.  Use: `inspect_twice FILE`.

#![deny(warnings)]

use brundhal::{audit, inspect, GroupSpace, Inspection, RECORD_WORDS};
use std::process::ExitCode;

/// An inspection's answer and its report.
type Inspected = (Inspection, Vec<i64>);

/// The first difference between both, if there is one.
fn difference((answer, report): &Inspected, (by_auditor, audited): &Inspected) -> Option<String> {
    if answer != by_auditor {
        return Some("the answers differ".to_string());
    }
    let at = report.iter().zip(audited).position(|(x, y)| x != y)?;
    Some(format!(
        "element {}, word {}: {}, by the auditor {}",
        at / RECORD_WORDS + 1,
        at % RECORD_WORDS,
        report[at],
        audited[at]
    ))
}

fn print_records(report: &[i64]) {
    for (element, record) in (1..).zip(report.chunks_exact(RECORD_WORDS)) {
        let words: Vec<String> = record.iter().map(i64::to_string).collect();
        println!("element {element} record {}", words.join(" "));
    }
}

fn inspect_twice(file: &[u8]) -> Result<(), String> {
    // Space in which every lot fits.
    let mut nodes = vec![0; brundhal::LOT_NODE_WORDS];
    let mut elements = vec![0; brundhal::LOT_ELEMENT_WORDS];
    let mut names = vec![0; brundhal::LOT_NAME_BYTES];
    let mut lengths = vec![0; brundhal::LOT_GROUPS];
    let mut offsets = vec![0; brundhal::LOT_GROUPS];
    let space = GroupSpace { names: &mut names, lengths: &mut lengths, offsets: &mut offsets };
    let lot = brundhal::read_lot(file, &mut nodes, &mut elements, space);
    if lot.number != 0 {
        return Err(format!("lot refused {}", lot.number));
    }
    // A program that holds a report keeps to 900 elements.
    if lot.elements as usize > brundhal::SLIP_ELEMENTS {
        return Err(format!("lot refused {}", brundhal::refusal::TOO_MANY));
    }

    // Both are handed the same, and a report space each.
    let coordinates = &nodes[..3 * lot.nodes as usize];
    let indices = &elements[..8 * lot.elements as usize];
    let [first, auditor] = [inspect, audit].map(|inspector| -> Inspected {
        let mut report = vec![0; RECORD_WORDS * lot.elements as usize];
        (inspector(coordinates, indices, 3, &mut report), report)
    });
    let (answer, report) = &first;
    if answer.number != 0 {
        return Err(format!("mesh refused {}", answer.number));
    }
    print_records(report);
    match difference(&first, &auditor) {
        Some(what) => Err(what),
        None => {
            println!("the two inspectors agree on {} elements", lot.elements);
            Ok(())
        }
    }
}

fn main() -> ExitCode {
    let Some(name) = std::env::args_os().nth(1) else {
        eprintln!("use: inspect_twice FILE");
        return ExitCode::FAILURE;
    };
    let file = std::fs::read(&name).map_err(|error| format!("{}: {error}", name.display()));
    match file.and_then(|file| inspect_twice(&file)) {
        Ok(()) => ExitCode::SUCCESS,
        Err(what) => {
            eprintln!("{what}");
            ExitCode::FAILURE
        }
    }
}

#[cfg(test)]
mod tests {
    use super::*;

    #[test]
    fn differences() {
        let answer = Inspection { valid: 2, ..Inspection::default() };
        let inspected = (answer, vec![0; 2 * RECORD_WORDS]);
        assert_eq!(difference(&inspected, &inspected.clone()), None);
        let mut other = inspected.clone();
        other.1[RECORD_WORDS + 5] = 13;
        let what = "element 2, word 5: 0, by the auditor 13";
        assert_eq!(difference(&inspected, &other).as_deref(), Some(what));
        let other = (Inspection { undecided: 1, ..answer }, inspected.1.clone());
        assert_eq!(difference(&inspected, &other).as_deref(), Some("the answers differ"));
    }
}
