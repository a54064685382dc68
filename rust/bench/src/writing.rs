//! Time to write a lot: the built library and an ordinary Rust writer.

use crate::reading::full_lots;
use crate::timing::{best, print_head, print_row, Version};
use crate::writer::{write, Answer};
use second::lot::{Groups, Lot, MOST_BYTES};
use std::hint::black_box;

type Write = fn(&Lot, &mut [u8]) -> Answer;

fn library(lot: &Lot, out: &mut [u8]) -> Answer {
    let Groups { names, lengths, offsets } = &lot.groups;
    let groups = brundhal::Groups { names, lengths, offsets };
    let written = brundhal::write_lot(&lot.label, &lot.nodes, &lot.elements, groups, out);
    [written.number, written.len]
}

const WRITERS: [Write; 2] = [library, write];

/// Writes a lot once, for its time.
fn version(write: Write, lot: &Lot) -> Version<'_> {
    let mut out = vec![0; MOST_BYTES];
    Box::new(move || {
        black_box(write(black_box(lot), &mut out));
        black_box(&mut out);
    })
}

/// Whether both writers say the same of a lot, and leave the same bytes in space
/// of this length.
fn same(lot: &Lot, space: usize) -> bool {
    let [library, plain] = WRITERS.map(|write| {
        let mut out = vec![1; space];
        (write(lot, &mut out), out)
    });
    library == plain
}

/// The times of the lots whose name begins with `name`.
pub fn print(rounds: u32, name: &str) -> Result<(), String> {
    let what = format!("to write a lot file of {MOST_BYTES} bytes");
    print_head(&what, rounds, "file", ["library", "plain"]);
    for full in full_lots().iter().filter(|full| full.name.starts_with(name)) {
        if !same(&full.lot, MOST_BYTES) {
            return Err(format!("{}: the two writers differ", full.name));
        }
        let times = best(rounds, WRITERS.map(|write| version(write, &full.lot)));
        print_row(full.name, &times);
    }
    Ok(())
}

#[cfg(test)]
mod tests {
    use super::*;

    /// The ordinary writer refuses what the library refuses, in its order.
    #[test]
    fn the_writers_refuse_alike() {
        let small = || Lot::new(b"P7", &[[1, -2, 3]; 2], &[[7; 8]; 2]).group(1, b"ab");
        let many = |elements: usize| Lot::new(b"", &[], &vec![[7; 8]; elements]);
        let groups = |lengths: &[u32], offsets: &[u32]| {
            let (lengths, offsets) = (lengths.to_vec(), offsets.to_vec());
            Lot { groups: Groups { names: b"ab".to_vec(), lengths, offsets }, ..small() }
        };
        let lots = [
            (Lot { nodes: vec![1; 4], elements: vec![1; 9], ..small() }, 2),
            (Lot { elements: vec![1; 9], ..groups(&[1], &[0]) }, 3),
            (Lot { label: vec![0; 33], ..groups(&[1], &[0]) }, 24),
            (groups(&[u32::MAX, 3], &[0, 0]), 24),
            (groups(&[1, 1], &[0]), 24),
            (groups(&[1, 1], &[1, 0]), 24),
            (groups(&[1, 1], &[0, 3]), 24),
            (small().group(2, &[0; 33]), 23),
            (Lot { label: vec![31], ..many(1001) }, 25),
            (small().group(2, &[127]), 25),
            (many(1001), 26),
            (Lot { nodes: vec![1; 3 * 4096], ..small() }, 20),
            (small().group(2, b"").group(2, b"x"), 0),
            (many(1000).group(1000, b"x"), 0),
        ];
        for (lot, number) in lots {
            let length = lot.file().len();
            assert!(same(&lot, length) && same(&lot, length - 1) && same(&lot, length + 9));
            assert_eq!(library(&lot, &mut vec![0; length])[0], number);
        }
    }
}
