//! Time a lot file: the built library and two ordinary Rust readers.

use crate::reader::{read_by_records, read_by_runs, Answer, Space};
use crate::timing::{best, print_head, print_row, Version};
use second::lot::{Lot, MOST_BYTES};
use second::specimens::Shaker;
use std::hint::black_box;

type Read = for<'a> fn(&'a [u8], &mut Space) -> Answer<'a>;

fn library<'a>(file: &'a [u8], space: &mut Space) -> Answer<'a> {
    let Space { nodes, elements, names, lengths, offsets } = space;
    let groups = brundhal::GroupSpace { names, lengths, offsets };
    let lot = brundhal::read_lot(file, nodes, elements, groups);
    ([lot.number, lot.nodes, lot.elements, lot.groups, lot.names], lot.label)
}

const READERS: [Read; 3] = [library, read_by_records, read_by_runs];

/// A lot that makes a file of 65,536 bytes.
pub struct Full {
    pub name: &'static str,
    pub lot: Lot,
}

/// One with this many nodes, elements and groups, of numbers drawn.
fn full(name: &'static str, nodes: usize, elements: usize, groups: usize) -> Full {
    let mut shaker = Shaker::new(2027);
    let nodes: Vec<[i32; 3]> = (0..nodes).map(|_| [0; 3].map(|_| shaker.draw() as i32)).collect();
    let drawn: Vec<[u32; 8]> =
        (0..elements).map(|_| [0; 8].map(|_| shaker.draw() as u32)).collect();
    let mut lot = Lot::new(b"8 bytes.", &nodes, &drawn);
    for group in 0..groups {
        lot.groups.push((group * elements / groups) as u32, b"twelve bytes");
    }
    assert_eq!(lot.file().len(), MOST_BYTES);
    Full { name, lot }
}

pub fn full_lots() -> [Full; 3] {
    [
        full("4,095 nodes", 4095, 0, 0),
        full("1,845 nodes, 1,000 elements", 1845, 1000, 0),
        full("the same with 100 groups", 1745, 1000, 100),
    ]
}

impl Space {
    fn of([nodes, elements, names, groups]: [usize; 4]) -> Space {
        Space {
            nodes: vec![-1; nodes],
            elements: vec![1; elements],
            names: vec![1; names],
            lengths: vec![1; groups],
            offsets: vec![1; groups],
        }
    }

    /// In which every lot fits.
    pub fn ample() -> Space {
        Space::of([
            brundhal::LOT_NODE_WORDS,
            brundhal::LOT_ELEMENT_WORDS,
            brundhal::LOT_NAME_BYTES,
            brundhal::LOT_GROUPS,
        ])
    }
}

/// Reads a file once, for its time.
fn version(read: Read, file: &[u8]) -> Version<'_> {
    let mut space = Space::ample();
    Box::new(move || {
        black_box(read(black_box(file), &mut space));
        black_box(&mut space);
    })
}

/// Whether all readers say the same of some bytes, and leave the same words in
/// such space.
fn same(bytes: &[u8], space: impl Fn() -> Space) -> bool {
    let [library, records, runs] = READERS.map(|read| {
        let mut space = space();
        (read(bytes, &mut space), space)
    });
    library == records && library == runs
}

/// The times of the lots whose name begins with `name`.
pub fn print(rounds: u32, name: &str) -> Result<(), String> {
    let what = format!("to read a lot file of {MOST_BYTES} bytes");
    print_head(&what, rounds, "file", ["library", "by records", "by runs"]);
    for full in full_lots().iter().filter(|full| full.name.starts_with(name)) {
        let file = full.lot.file();
        if !same(&file, Space::ample) {
            return Err(format!("{}: the three readers differ", full.name));
        }
        let times = best(rounds, READERS.map(|read| version(read, &file)));
        print_row(full.name, &times);
    }
    Ok(())
}

#[cfg(test)]
mod tests {
    use super::*;

    /// The ordinary readers refuse what the library refuses: every prefix and
    /// every byte change of a small lot, in space that fits and that does not.
    #[test]
    fn the_readers_refuse_alike() {
        let lot = Lot::new(b"P7", &[[1, -2, 3]; 2], &[[7; 8]; 2]).group(1, b"ab").group(2, b"");
        let file = lot.file();
        let spaces = [
            [6, 16, 2, 2],
            [5, 16, 2, 2],
            [6, 15, 2, 2],
            [6, 16, 1, 2],
            [6, 16, 2, 1],
            [9, 20, 9, 9],
        ];
        for space in spaces {
            let alike = |bytes: &[u8]| same(bytes, || Space::of(space));
            for length in 0..=file.len() {
                assert!(alike(&file[..length]));
            }
            for at in 0..file.len() {
                for by in 1..=255 {
                    let mut file = file.clone();
                    file[at] ^= by;
                    assert!(alike(&file));
                }
            }
        }
    }

    /// So with records out of place, bytes after the end, one element and one
    /// byte too many.
    #[test]
    fn the_readers_count_alike() {
        let records = Lot::new(b"P7", &[[1, -2, 3]], &[[7; 8]]).group(1, b"a").records();
        let [label, node, element, group, end] = [0, 1, 2, 3, 4].map(|at| &records[at][..]);
        let lot = records.concat();
        let files = [
            [&lot[..], &[0]].concat(),
            [&lot[..], end].concat(),
            [label, label, end].concat(),
            [label, element, node, end].concat(),
            [label, group, node, end].concat(),
            [label, node, label, end].concat(),
            [node, end].concat(),
            [group, end].concat(),
            [label, group, group, element, group, end].concat(),
            [label, &element.repeat(1000), group, end].concat(),
            [label, &element.repeat(1000), node].concat(),
            [label, &element.repeat(1001), end].concat(),
            [label, &element.repeat(1000), group, element].concat(),
            [label, &element.repeat(1000), &element[..35]].concat(),
            vec![b'L'; MOST_BYTES + 1],
        ];
        let numbers = files.map(|bytes| {
            assert!(same(&bytes, Space::ample));
            read_by_runs(&bytes, &mut Space::ample()).0[0]
        });
        assert_eq!(numbers, [24, 24, 24, 24, 24, 24, 24, 24, 0, 0, 24, 26, 26, 21, 20]);
    }
}
