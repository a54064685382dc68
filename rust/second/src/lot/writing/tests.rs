//! The rules of 02 for writing, one test each or more.

use super::*;
use crate::lot::tests::{read, small, ELEMENT, NODE};
use crate::lot::Groups;

/// Written with more space than any file takes.
fn write(lot: &Lot) -> Result<Vec<u8>, u32> {
    write_lot(lot, usize::MAX)
}

/// Refused with no space at all, and with ample space.
#[track_caller]
fn expect_refusal(lot: &Lot, number: u32) {
    assert_eq!(write(lot), Err(number));
    assert_eq!(write_lot(lot, 0), Err(number));
}

/// The file reads back as the lot, and what is read is written as the file.
#[track_caller]
fn expect_round_trip(lot: &Lot) {
    let file = write(lot).unwrap();
    let read = read(&file).unwrap();
    assert_eq!(&read, lot);
    assert_eq!(write(&read), Ok(file));
}

/// A lot with so many nodes and elements.
fn lot(label: &[u8], nodes: usize, elements: usize) -> Lot {
    Lot::new(label, &vec![NODE; nodes], &vec![ELEMENT; elements])
}

// --------------------------------------------------------------- good lots --

/// Case A labelled CUBE, whole, to the byte.
#[test]
fn the_cube() {
    let nodes =
        [[0, 0, 0], [1, 0, 0], [1, 1, 0], [0, 1, 0], [0, 0, 1], [1, 0, 1], [1, 1, 1], [0, 1, 1]];
    let cube = Lot::new(b"CUBE", &nodes, &[[0, 1, 2, 3, 4, 5, 6, 7]]);
    #[rustfmt::skip]
    let file = [
        0x4C, 0x42, 0x04, 0x00, 0x43, 0x55, 0x42, 0x45,
        0x4E, 0x44, 0x0C, 0x00, 0, 0, 0, 0, 0, 0, 0, 0, 0, 0, 0, 0,
        0x4E, 0x44, 0x0C, 0x00, 1, 0, 0, 0, 0, 0, 0, 0, 0, 0, 0, 0,
        0x4E, 0x44, 0x0C, 0x00, 1, 0, 0, 0, 1, 0, 0, 0, 0, 0, 0, 0,
        0x4E, 0x44, 0x0C, 0x00, 0, 0, 0, 0, 1, 0, 0, 0, 0, 0, 0, 0,
        0x4E, 0x44, 0x0C, 0x00, 0, 0, 0, 0, 0, 0, 0, 0, 1, 0, 0, 0,
        0x4E, 0x44, 0x0C, 0x00, 1, 0, 0, 0, 0, 0, 0, 0, 1, 0, 0, 0,
        0x4E, 0x44, 0x0C, 0x00, 1, 0, 0, 0, 1, 0, 0, 0, 1, 0, 0, 0,
        0x4E, 0x44, 0x0C, 0x00, 0, 0, 0, 0, 1, 0, 0, 0, 1, 0, 0, 0,
        0x48, 0x58, 0x20, 0x00, 0, 0, 0, 0, 1, 0, 0, 0, 2, 0, 0, 0, 3, 0, 0, 0,
        4, 0, 0, 0, 5, 0, 0, 0, 6, 0, 0, 0, 7, 0, 0, 0,
        0x45, 0x4E, 0x00, 0x00,
    ];
    assert_eq!(write(&cube), Ok(file.to_vec()));
    expect_round_trip(&cube);
}

/// Groups with empty names, two at one place, before the first element and after
/// the last, in lots with and without a label, nodes and elements.
#[test]
fn what_is_written_reads_back() {
    expect_round_trip(&small());
    for label in [&b""[..], b" ~", &[b'x'; 32]] {
        for nodes in 0..3 {
            for elements in 0..4 {
                let bare = lot(label, nodes, elements);
                expect_round_trip(&bare);
                for before in 0..=elements as u32 {
                    expect_round_trip(&bare.clone().group(before, b""));
                    let two = bare.clone().group(0, b"first").group(before, b"");
                    expect_round_trip(&two.clone().group(before, &[b'~'; 32]));
                    expect_round_trip(&two.group(elements as u32, b" "));
                }
            }
        }
    }
}

/// 65,536 bytes exactly, with 1,000 elements, and with groups among them.
#[test]
fn full_lots() {
    let full = lot(b"8 bytes.", 1845, 1000);
    let grouped = lot(b"8 bytes.", 1844, 1000).group(1, b"four").group(1000, b"more");
    for full in [full, grouped] {
        assert_eq!(write(&full).unwrap().len(), 65_536);
        expect_round_trip(&full);
        assert!(write_lot(&full, 65_536).is_ok());
        assert_eq!(write_lot(&full, 65_535), Err(27));
    }
}

// ---------------------------------------------------------------- refusals --

#[test]
fn nodes_no_multiple_of_3_2() {
    for words in [1, 2, 4, 5, 3 * 4095 + 1] {
        expect_refusal(&Lot { nodes: vec![0; words], ..small() }, 2);
    }
}

#[test]
fn elements_no_multiple_of_8_3() {
    for words in [1, 4, 7, 9, 12, 8 * 1000 + 1] {
        expect_refusal(&Lot { elements: vec![0; words], ..small() }, 3);
    }
}

/// Groups that are refused, of a lot with two elements.
fn expect_unfit(names: &[u8], lengths: &[u32], offsets: &[u32]) {
    let groups =
        Groups { names: names.to_vec(), lengths: lengths.to_vec(), offsets: offsets.to_vec() };
    expect_refusal(&Lot { groups, ..lot(b"P7", 1, 2) }, 24);
}

#[test]
fn groups_that_do_not_fit_together_24() {
    // lists of different length
    expect_unfit(b"", &[], &[0]);
    expect_unfit(b"", &[0], &[]);
    expect_unfit(b"ab", &[1, 1], &[0]);
    expect_unfit(b"ab", &[2], &[0, 1]);
    // lengths that do not add up to the names
    expect_unfit(b"ab", &[], &[]);
    expect_unfit(b"ab", &[1], &[0]);
    expect_unfit(b"ab", &[3], &[0]);
    expect_unfit(b"ab", &[1, 2], &[0, 0]);
    // nor do they if the sum passes 32 bits
    expect_unfit(b"ab", &[u32::MAX, 3], &[0, 0]);
    expect_unfit(b"", &[1 << 31, 1 << 31], &[0, 0]);
    // a count that falls, or that passes the elements
    expect_unfit(b"ab", &[1, 1], &[1, 0]);
    expect_unfit(b"ab", &[1, 1], &[2, 1]);
    expect_unfit(b"a", &[1], &[3]);
    expect_unfit(b"a", &[1], &[u32::MAX]);
    expect_unfit(b"abc", &[1, 1, 1], &[0, 2, 1]);
}

#[test]
fn label_or_name_too_long_23() {
    for length in [33, 34, 65_535, 65_536, 65_537, 65_540] {
        let long = vec![b'x'; length];
        expect_refusal(&Lot { label: long.clone(), ..small() }, 23);
        expect_refusal(&lot(b"P7", 1, 2).group(0, &long), 23);
        expect_refusal(&lot(b"P7", 1, 2).group(0, b"a").group(2, &long), 23);
    }
}

#[test]
fn label_or_name_byte_25() {
    for byte in 0..=255 {
        let some = [b'a', byte];
        for lot in [Lot { label: some.to_vec(), ..small() }, small().group(1, &some)] {
            match byte {
                32..=126 => expect_round_trip(&lot),
                _ => expect_refusal(&lot, 25),
            }
        }
    }
}

#[test]
fn more_than_1000_elements_26() {
    expect_refusal(&lot(b"", 0, 1001), 26);
    expect_refusal(&lot(b"", 0, 1001).group(1001, b"x"), 26);
}

#[test]
fn file_too_long_20() {
    expect_refusal(&lot(b"9 bytes..", 1845, 1000), 20);
    expect_refusal(&lot(b"8 bytes.", 1845, 1000).group(1000, b""), 20);
    expect_refusal(&lot(b"", 4096, 0), 20);
}

#[test]
fn space_too_small_27() {
    let file = write(&small()).unwrap();
    for space in 0..file.len() {
        assert_eq!(write_lot(&small(), space), Err(27));
    }
    assert_eq!(write_lot(&small(), file.len()), Ok(file));
}

// ------------------------------------------------------- order of the tests --

/// Each fault beside all that are tested after it.
#[test]
fn the_first_fault_in_the_order_decides() {
    type Spoil = fn(&mut Lot);
    let faults: [(u32, Spoil); 8] = [
        (2, |lot| lot.nodes.truncate(3 * 1845 - 1)),
        (3, |lot| lot.elements.truncate(8 * 1000 + 1)),
        (24, |lot| lot.groups.offsets[0] = 2000),
        (23, |lot| lot.label.resize(33, b'x')),
        (23, |lot| lot.groups.push(1001, &[b'x'; 33])),
        (25, |lot| lot.label[0] = 31),
        (25, |lot| lot.groups.names[0] = 127),
        (26, |lot| lot.elements.resize(8 * 1001, 0)),
    ];
    let too_long = lot(b"9 bytes..", 1845, 1000).group(1000, b"a");
    expect_refusal(&too_long, 20);
    for first in 0..faults.len() {
        let mut lot = too_long.clone();
        for (_, spoil) in faults[first..].iter().rev() {
            spoil(&mut lot);
        }
        expect_refusal(&lot, faults[first].0);
    }
}
