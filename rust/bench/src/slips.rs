//! Time to print a slip: the built library, and an ordinary Rust version of
//! reader, inspector and printer.

use crate::direct;
use crate::lots::{self, DEPTH, ELEMENTS};
use crate::reader::{read_by_runs, Space};
use crate::timing::{best, print_head, print_row, Version};
use brundhal::RECORD_WORDS;
use second::lot::{Lot, MOST_BYTES};
use std::hint::black_box;
use std::io::{self, Write};

type Slip = fn(&[u8], &mut [u8; brundhal::SLIP_BYTES]) -> usize;

const MOST_PRINTED: usize = 900;

/// The ordinary version: reads by runs, inspects by direct formulas in numbers of one
/// word, and prints each line as Rust prints numbers.
fn plain(file: &[u8], out: &mut [u8; brundhal::SLIP_BYTES]) -> usize {
    let mut rest = &mut out[..];
    print_slip(file, &mut rest).expect("a slip fits its space");
    brundhal::SLIP_BYTES - rest.len()
}

fn print_slip(file: &[u8], out: &mut impl Write) -> io::Result<()> {
    let mut space = Space::ample();
    let ([number, nodes, elements, groups, _], label) = read_by_runs(file, &mut space);
    if number != 0 {
        return writeln!(out, "refused {number}");
    }
    let [nodes, elements, groups] = [nodes, elements, groups].map(|count| count as usize);
    if elements > MOST_PRINTED {
        return writeln!(out, "refused 26");
    }
    let (coordinates, indices) = (&space.nodes[..3 * nodes], &space.elements[..8 * elements]);
    let mut report = vec![0; RECORD_WORDS * elements];
    let answer = direct::inspect::<i64, false>(coordinates, indices, DEPTH, &mut report);
    out.write_all(b"lot ")?;
    out.write_all(label)?;
    out.write_all(b"\n")?;
    let (mut group, mut end, mut name) = (0, 0, label);
    for (element, record) in (0..).zip(report.chunks_exact(RECORD_WORDS)) {
        while group < groups && space.offsets[group] == element {
            let start = end;
            end += space.lengths[group] as usize;
            name = if start == end { label } else { &space.names[start..end] };
            group += 1;
        }
        print_element(out, element + 1, name, record)?;
    }
    let [_, valid, invalid, undecided, refused] = answer;
    let stamp = match (valid, invalid + refused, undecided) {
        (1.., 0, 0) => "sound",
        (_, 0, _) => "open",
        _ => "faulty",
    };
    writeln!(out, "tally {valid} {invalid} {undecided} {refused}\nstamp {stamp}")
}

fn print_element(out: &mut impl Write, number: u32, name: &[u8], record: &[i64]) -> io::Result<()> {
    write!(out, "{number} ")?;
    out.write_all(name)?;
    record.iter().try_for_each(|word| write!(out, " {word}"))?;
    out.write_all(b"\n")
}

const PRINTERS: [Slip; 2] = [brundhal::slip, plain];

/// Prints a slip once, for its time.
fn version(slip: Slip, file: &[u8]) -> Version<'_> {
    let mut out = Box::new([0; brundhal::SLIP_BYTES]);
    Box::new(move || {
        black_box(slip(black_box(file), &mut out));
        black_box(&mut out);
    })
}

/// Whether both print the same.
fn same(file: &[u8]) -> bool {
    let [library, plain] = PRINTERS.map(|slip| {
        let mut out = Box::new([1; brundhal::SLIP_BYTES]);
        (slip(file, &mut out), out)
    });
    library == plain
}

/// The lot with eight groups, one of them without a name, and with nodes that no
/// element names, as many as a file holds.
fn full_lot(lot: &lots::Lot) -> Lot {
    let mut lot = Lot {
        label: b"8 bytes.".to_vec(),
        nodes: lot.coordinates.clone(),
        elements: lot.indices.clone(),
        ..Lot::default()
    };
    for group in 0..8 {
        let name: &[u8] = if group == 5 { b"" } else { b"twelve bytes" };
        lot.groups.push((group * ELEMENTS / 8) as u32, name);
    }
    let nodes = (MOST_BYTES - lot.file().len()) / 16;
    lot.nodes.resize(lot.nodes.len() + 3 * nodes, 0);
    lot
}

/// The times of the lots whose nodes a file holds beside their elements.
pub fn print(rounds: u32, lots: &[lots::Lot]) -> Result<(), String> {
    let what = format!("to print the slip of {ELEMENTS} elements");
    print_head(&what, rounds, "lot", ["library", "plain"]);
    for lot in lots.iter().filter(|lot| lot.coordinates.len() < 3 * 2000) {
        let file = full_lot(lot).file();
        if !same(&file) {
            return Err(format!("{}: the two slips differ", lot.name));
        }
        let times = best(rounds, PRINTERS.map(|slip| version(slip, &file)));
        print_row(lot.name, &times);
    }
    Ok(())
}

#[cfg(test)]
mod tests {
    use super::*;
    use crate::lots::IN_ORDER;

    /// The ordinary version prints what the library prints of every prefix of a
    /// lot, and of lots with every kind of record.
    #[test]
    fn the_printers_print_alike() {
        let grouped = include_bytes!("../../../examples/grouped.lot");
        for length in 0..=grouped.len() {
            assert!(same(&grouped[..length]));
        }
        let unlabelled = Lot::new(b"", &[[0; 3]; 8], &[IN_ORDER; 2]);
        assert!(same(&unlabelled.file()));
        assert!(same(&unlabelled.group(1, b"").group(1, b" ").group(2, b"x").file()));
        for elements in [MOST_PRINTED, MOST_PRINTED + 1, 1000] {
            assert!(same(&Lot::new(b"", &[[0; 3]; 8], &vec![IN_ORDER; elements]).file()));
        }
    }
}
