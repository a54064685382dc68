//! Reads a lot file, inspects its mesh at depth 3 and prints the label, what the lot
//! holds, each element's name and verdict, the counts and the stamp; then writes the
//! lot and finds the file again.  Use: `inspect_lot FILE`.

#![deny(warnings)]

use brundhal::{kind, word, GroupSpace, Groups, Inspection, Lot};
use std::process::ExitCode;

/// Each element's name, a part of the lot's names or its label, and its verdict.
fn print_elements(lot: Lot, groups: Groups, report: &[i64]) -> Result<(), String> {
    for (element, record) in (0..).zip(report.chunks_exact(brundhal::RECORD_WORDS)) {
        let name = brundhal::name_of(lot.label, groups, lot.elements, element)
            .map_err(|number| format!("name refused {number}"))?;
        let verdict = match record[word::KIND] {
            kind::VALID => "valid",
            kind::INVALID => "invalid",
            kind::UNDECIDED => "undecided",
            _ => "refused",
        };
        println!("element {} of {}: {verdict}", element + 1, name.bytes().escape_ascii());
    }
    Ok(())
}

fn print_counts(answer: Inspection) {
    let Inspection { valid, invalid, undecided, refused, .. } = answer;
    println!("valid {valid} invalid {invalid} undecided {undecided} refused {refused}");
    if let Some(stamp) = brundhal::stamp(answer) {
        println!("stamp {stamp}");
    }
}

fn inspect(file: &[u8]) -> Result<(), String> {
    // Space in which every lot fits.
    let mut nodes = vec![0; brundhal::LOT_NODE_WORDS];
    let mut elements = vec![0; brundhal::LOT_ELEMENT_WORDS];
    let mut names = vec![0; brundhal::LOT_NAME_BYTES];
    let mut lengths = vec![0; brundhal::LOT_GROUPS];
    let mut offsets = vec![0; brundhal::LOT_GROUPS];
    let space = GroupSpace { names: &mut names, lengths: &mut lengths, offsets: &mut offsets };
    let lot = brundhal::read_lot(file, &mut nodes, &mut elements, space);
    if lot.number != 0 {
        return Err(format!("lot refused {}", lot.number));
    }
    // A program that holds a report keeps to 900 elements.
    if lot.elements as usize > brundhal::SLIP_ELEMENTS {
        return Err(format!("lot refused {}", brundhal::refusal::TOO_MANY));
    }
    println!("label {}", lot.label.escape_ascii());
    println!("nodes {} elements {} groups {}", lot.nodes, lot.elements, lot.groups);

    // What was read goes into the inspection as it is, three coordinates a node
    // and eight indices an element.
    let coordinates = &nodes[..3 * lot.nodes as usize];
    let indices = &elements[..8 * lot.elements as usize];
    let mut report = vec![0; brundhal::RECORD_WORDS * lot.elements as usize];
    let answer = brundhal::inspect(coordinates, indices, 3, &mut report);
    if answer.number != 0 {
        return Err(format!("mesh refused {}", answer.number));
    }
    let groups = Groups {
        names: &names[..lot.names as usize],
        lengths: &lengths[..lot.groups as usize],
        offsets: &offsets[..lot.groups as usize],
    };
    print_elements(lot, groups, &report)?;
    print_counts(answer);

    let mut written = vec![0; brundhal::LOT_BYTES];
    let answer = brundhal::write_lot(lot.label, coordinates, indices, groups, &mut written);
    if answer.number != 0 || &written[..answer.len as usize] != file {
        return Err("the lot is not written back".to_string());
    }
    println!("written back in {} bytes", file.len());
    Ok(())
}

fn main() -> ExitCode {
    let Some(name) = std::env::args_os().nth(1) else {
        eprintln!("use: inspect_lot FILE");
        return ExitCode::FAILURE;
    };
    let file = std::fs::read(&name).map_err(|error| format!("{}: {error}", name.display()));
    match file.and_then(|file| inspect(&file)) {
        Ok(()) => ExitCode::SUCCESS,
        Err(what) => {
            eprintln!("{what}");
            ExitCode::FAILURE
        }
    }
}
