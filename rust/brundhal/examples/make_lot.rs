//! Makes a lot file from plain text.
//!
//! Use: `make_lot [TEXT [LOT]]`.  The text is read from standard input, or from the
//! first file; the lot is written to standard output, or to the second.
//!
//! A line of the text is one of
//!
//! ```text
//! label TEXT
//! node X Y Z
//! element I I I I I I I I
//! group NAME
//! ```
//!
//! with at most one label; without one it is empty.  A label or name is all that
//! follows the space behind the line's first word, which may be nothing.  Nodes are
//! counted from 0; a group holds for the elements after it, until the next one.  Blank
//! lines and lines that start with # are skipped.  A text that is no lot is refused
//! with its first fault, and nothing is written.

#![deny(warnings)]

use brundhal::refusal;
use std::ffi::OsString;
use std::fs;
use std::io::{self, Read, Write};
use std::process::ExitCode;
use std::str::FromStr;

/// What the text says so far.
#[derive(Debug, Default, PartialEq, Eq)]
struct Lot {
    label: Option<Vec<u8>>,
    nodes: Vec<i32>,
    elements: Vec<u32>,
    names: Vec<u8>,
    lengths: Vec<u32>,
    offsets: Vec<u32>,
}

/// The `count` numbers of a line; `of` says in words how many there have to be, and
/// `range` which.
fn numbers<T: FromStr>(rest: &[u8], count: usize, of: &str, range: &str) -> Result<Vec<T>, String> {
    let words: Vec<&[u8]> =
        rest.split(u8::is_ascii_whitespace).filter(|word| !word.is_empty()).collect();
    if words.len() != count {
        return Err(format!("{of}, not {}", words.len()));
    }
    let number = |word: &&[u8]| -> Result<T, String> {
        let number = std::str::from_utf8(word).ok().and_then(|word| word.parse().ok());
        number.ok_or_else(|| format!("\"{}\" is no whole number {range}", word.escape_ascii()))
    };
    words.iter().map(number).collect()
}

impl Lot {
    /// Takes the line of a first word and the rest.
    fn take(&mut self, word: &[u8], rest: &[u8]) -> Result<(), String> {
        match word {
            b"label" if self.label.is_some() => return Err("a second label".to_string()),
            b"label" => self.label = Some(rest.to_vec()),
            b"node" => self.nodes.extend(numbers::<i32>(
                rest,
                3,
                "a node has three coordinates",
                "from -2147483648 to 2147483647",
            )?),
            b"element" => self.elements.extend(numbers::<u32>(
                rest,
                8,
                "an element has eight node numbers",
                "from 0 to 4294967295",
            )?),
            b"group" => self.take_group(rest),
            _ => {
                let word = word.escape_ascii();
                return Err(format!("\"{word}\" is not label, node, element or group"));
            }
        }
        Ok(())
    }

    /// A count that passes 32 bits is refused by the writer, as whatever it stands
    /// for here.
    fn take_group(&mut self, name: &[u8]) {
        let count = |count: usize| u32::try_from(count).unwrap_or(u32::MAX);
        self.names.extend(name);
        self.lengths.push(count(name.len()));
        self.offsets.push(count(self.elements.len() / 8));
    }

    /// The lot that a text describes, or its first fault with the line's number.
    fn of_text(text: &[u8]) -> Result<Lot, String> {
        let mut lot = Lot::default();
        for (number, line) in (1..).zip(text.split(|&byte| byte == b'\n')) {
            let line = line.strip_suffix(b"\r").unwrap_or(line).trim_ascii_start();
            if line.is_empty() || line.starts_with(b"#") {
                continue;
            }
            let end = line.iter().position(u8::is_ascii_whitespace).unwrap_or(line.len());
            let rest = line.get(end + 1..).unwrap_or_default();
            lot.take(&line[..end], rest).map_err(|what| format!("line {number}: {what}"))?;
        }
        Ok(lot)
    }

    /// The lot's file, or what the writer refuses, in words.
    fn file(&self) -> Result<Vec<u8>, String> {
        let label = self.label.as_deref().unwrap_or_default();
        let Lot { names, lengths, offsets, .. } = self;
        let groups = brundhal::Groups { names, lengths, offsets };
        let mut file = vec![0; brundhal::LOT_BYTES];
        let answer = brundhal::write_lot(label, &self.nodes, &self.elements, groups, &mut file);
        if answer.number != 0 {
            return Err(format!("refused {}: {}", answer.number, in_words(answer.number)));
        }
        file.truncate(answer.len as usize);
        Ok(file)
    }
}

/// What the writer refuses with a number.  The others cannot be met: the runs of a
/// text fit together, and the space is enough for the longest file.
fn in_words(number: u32) -> &'static str {
    match number {
        refusal::LENGTH => "the label or a group's name is longer than 32 bytes",
        refusal::BYTE => "the label or a group's name has a byte that is not in 32..126",
        refusal::TOO_MANY => "there are more than 1,000 elements",
        refusal::LONG_FILE => "the file would be longer than 65,536 bytes",
        _ => "the lot cannot be written",
    }
}

fn lot_file(text: &[u8]) -> Result<Vec<u8>, String> {
    Lot::of_text(text)?.file()
}

fn read_text(name: Option<&OsString>) -> io::Result<Vec<u8>> {
    let mut text = Vec::new();
    match name {
        Some(name) => text = fs::read(name)?,
        None => drop(io::stdin().read_to_end(&mut text)?),
    }
    Ok(text)
}

fn write_file(name: Option<&OsString>, file: &[u8]) -> io::Result<()> {
    match name {
        Some(name) => fs::write(name, file),
        None => io::stdout().write_all(file),
    }
}

fn make(names: &[OsString]) -> Result<(), String> {
    if names.len() > 2 {
        return Err("use: make_lot [TEXT [LOT]]".to_string());
    }
    let text = read_text(names.first()).map_err(|error| format!("the text: {error}"))?;
    let file = lot_file(&text)?;
    write_file(names.get(1), &file).map_err(|error| format!("the lot: {error}"))
}

fn main() -> ExitCode {
    let names: Vec<OsString> = std::env::args_os().skip(1).collect();
    match make(&names) {
        Ok(()) => ExitCode::SUCCESS,
        Err(what) => {
            eprintln!("make_lot: {what}");
            ExitCode::FAILURE
        }
    }
}

#[cfg(test)]
mod tests {
    use super::*;

    #[test]
    fn the_samples() {
        for (text, file) in [
            (
                &include_bytes!("../../../examples/cube.txt")[..],
                &include_bytes!("../../../examples/cube.lot")[..],
            ),
            (
                include_bytes!("../../../examples/grouped.txt"),
                include_bytes!("../../../examples/grouped.lot"),
            ),
        ] {
            assert_eq!(lot_file(text), Ok(file.to_vec()));
        }
    }

    /// Every kind of line, in no order; empty names, and names with spaces.
    #[test]
    fn lines() {
        let text = b"#label no\n\n \t\n #\ngroup\nelement 1 2 3 4 5 6 7 4294967295\r\n\
                     group  two words \nlabel\n node\t-2147483648 0  +7\ngroup ";
        let lot = Lot {
            label: Some(vec![]),
            nodes: vec![i32::MIN, 0, 7],
            elements: vec![1, 2, 3, 4, 5, 6, 7, u32::MAX],
            names: b" two words ".to_vec(),
            lengths: vec![0, 11, 0],
            offsets: vec![0, 1, 1],
        };
        assert_eq!(Lot::of_text(text), Ok(lot));
        assert_eq!(Lot::of_text(b""), Ok(Lot::default()));
        assert_eq!(lot_file(b""), Ok(b"LB\0\0EN\0\0".to_vec()));
        assert_eq!(lot_file(b"label a b"), Ok(b"LB\x03\0a bEN\0\0".to_vec()));
    }

    #[test]
    fn faults_of_a_text() {
        let faults = [
            ("label a\n#\nlabel a", "line 3: a second label"),
            ("node 1 2", "line 1: a node has three coordinates, not 2"),
            ("\nnode 1 2 3 4", "line 2: a node has three coordinates, not 4"),
            ("element 0 1 2 3 4 5 6", "line 1: an element has eight node numbers, not 7"),
            ("element", "line 1: an element has eight node numbers, not 0"),
            (
                "node 0 2147483648 x",
                "line 1: \"2147483648\" is no whole number from -2147483648 to 2147483647",
            ),
            ("element 0 1 2 3 4 5 6 -7", "line 1: \"-7\" is no whole number from 0 to 4294967295"),
            ("node 1.5 0 0", "line 1: \"1.5\" is no whole number from -2147483648 to 2147483647"),
            ("nodes 0 0 0", "line 1: \"nodes\" is not label, node, element or group"),
            ("\n\n 0 0 0", "line 3: \"0\" is not label, node, element or group"),
        ];
        for (text, what) in faults {
            assert_eq!(lot_file(text.as_bytes()), Err(what.to_string()));
        }
        let what = "line 1: \"\\xff\" is no whole number from -2147483648 to 2147483647";
        assert_eq!(lot_file(b"node \xFF 0 0"), Err(what.to_string()));
    }

    #[test]
    fn files_that_are_not_there() {
        let make = |names: &[&str]| make(&names.iter().map(OsString::from).collect::<Vec<_>>());
        let cube = concat!(env!("CARGO_MANIFEST_DIR"), "/../../examples/cube.txt");
        let said = |names: &[&str]| make(names).expect_err("no such file");
        assert!(said(&["no such text"]).starts_with("the text: "));
        assert!(said(&[cube, "no such/lot"]).starts_with("the lot: "));
        assert_eq!(said(&[cube, "a", "b"]), "use: make_lot [TEXT [LOT]]");
    }

    #[test]
    fn lots_that_are_refused() {
        let long = format!("group {}", "x".repeat(33));
        let refused = [
            (long, "refused 23: the label or a group's name is longer than 32 bytes"),
            (
                "label a\tb".to_string(),
                "refused 25: the label or a group's name has a byte that is not in 32..126",
            ),
            (
                "element 0 0 0 0 0 0 0 0\n".repeat(1001),
                "refused 26: there are more than 1,000 elements",
            ),
            ("node 0 0 0\n".repeat(4096), "refused 20: the file would be longer than 65,536 bytes"),
        ];
        for (text, what) in refused {
            assert_eq!(lot_file(text.as_bytes()), Err(what.to_string()));
        }
    }
}
