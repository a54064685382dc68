//! The printed slip of 02, No. 2.

use crate::lot::{read_lot, Lot, AMPLE, ELEMENT_WORDS};
use crate::{inspect, stamp, Inspection, Limits, Stamp, RECORD_WORDS};

#[cfg(test)]
mod tests;

/// 02: the program "inspects at depth 3 and prints."
const DEPTH: u32 = 3;

/// 02, No. 8: "a program holding a report keeps to 900 elements; the slip answers 26 to
/// a longer lot without fault."
pub const MOST_ELEMENTS: usize = 900;

/// Words of bytes with one space between them, and 01's line feed: "Every printed
/// line, the last included, ends in one line feed."
fn line(words: &[&[u8]]) -> Vec<u8> {
    [&words.join(&b' ')[..], b"\n"].concat()
}

/// A line of some first words, then numbers.
fn line_of_numbers<T: ToString>(first: &[&[u8]], numbers: &[T]) -> Vec<u8> {
    let numbers: Vec<String> = numbers.iter().map(T::to_string).collect();
    let words: Vec<&[u8]> =
        first.iter().copied().chain(numbers.iter().map(String::as_bytes)).collect();
    line(&words)
}

/// "Elements count from 1; an empty name prints as nothing, its spaces kept."
fn element_line(lot: &Lot, element: u32, record: &[i64]) -> Vec<u8> {
    let number = (element + 1).to_string();
    line_of_numbers(&[number.as_bytes(), lot.name_of(element)], record)
}

/// The last two lines.
fn closing_lines(answer: &Inspection) -> [Vec<u8>; 2] {
    let Inspection { valid, invalid, undecided, refused, .. } = *answer;
    let stamp: &[u8] = match stamp(answer) {
        Some(Stamp::Sound) => b"sound",
        Some(Stamp::Faulty) => b"faulty",
        Some(Stamp::Open) => b"open",
        None => unreachable!("a lot that is read is never refused as a mesh"),
    };
    let tally = line_of_numbers(&[b"tally"], &[valid, invalid, undecided, refused]);
    [tally, line(&[b"stamp", stamp])]
}

fn slip_of_lot(lot: &Lot) -> Vec<u8> {
    let mut report = vec![0; lot.elements.len() / ELEMENT_WORDS * RECORD_WORDS];
    let answer = inspect(&Limits::base(), &lot.nodes, &lot.elements, DEPTH, &mut report);
    let mut lines = vec![line(&[b"lot", &lot.label])];
    let records = (0..).zip(report.chunks_exact(RECORD_WORDS));
    lines.extend(records.map(|(element, record)| element_line(lot, element, record)));
    lines.extend(closing_lines(&answer));
    lines.concat()
}

/// The lot of a file, if it is read and its report can be held.
fn lot_to_print(file: &[u8]) -> Result<Lot, u32> {
    let lot = read_lot(file, AMPLE)?.lot;
    if lot.elements.len() / ELEMENT_WORDS > MOST_ELEMENTS {
        return Err(26);
    }
    Ok(lot)
}

/// What is printed of a file.  "A refused lot prints the single line "refused"
/// with a space and its number. The program never lacks room."
pub fn slip(file: &[u8]) -> Vec<u8> {
    match lot_to_print(file) {
        Err(number) => line_of_numbers(&[b"refused"], &[number]),
        Ok(lot) => slip_of_lot(&lot),
    }
}
