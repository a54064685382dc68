//! The rules of 02 for reading and naming, one test each or more.

use super::writing::*;
use super::*;

/// A label, a node, an element and three groups, one of them without a name, byte
/// by byte.
#[rustfmt::skip]
const SMALL: [u8; 78] = [
    b'L', b'B', 2, 0, b'P', b'7',
    b'N', b'D', 12, 0, 1, 0, 0, 0, 0xFE, 0xFF, 0xFF, 0xFF, 0x04, 0x03, 0x02, 0x81,
    b'G', b'R', 1, 0, b'a',
    b'G', b'R', 0, 0,
    b'H', b'X', 32, 0, 0, 0, 0, 0, 1, 0, 0, 0, 0, 1, 0, 0, 0, 0, 1, 0,
    0, 0, 0, 1, 0xFF, 0xFF, 0xFF, 0xFF, 0x04, 0x03, 0x02, 0x81, 7, 0, 0, 0,
    b'G', b'R', 3, 0, b'b', b' ', b'~',
    b'E', b'N', 0, 0,
];

/// Where the records of the small lot start.
const STARTS: [(usize, Mark); 7] = [
    (0, Mark::Label),
    (6, Mark::Node),
    (22, Mark::Group),
    (27, Mark::Group),
    (31, Mark::Element),
    (67, Mark::Group),
    (74, Mark::End),
];

pub(super) const NODE: [i32; 3] = [1, -2, -0x7EFD_FCFC];
pub(super) const ELEMENT: [u32; 8] = [0, 1, 256, 65_536, 1 << 24, u32::MAX, 0x8102_0304, 7];

/// What the small lot holds.
pub(super) fn small() -> Lot {
    Lot {
        label: b"P7".to_vec(),
        nodes: NODE.to_vec(),
        elements: ELEMENT.to_vec(),
        groups: Groups { names: b"ab ~".to_vec(), lengths: vec![1, 0, 3], offsets: vec![0, 0, 1] },
    }
}

/// Read with ample space.
pub(super) fn read(file: &[u8]) -> Result<Lot, u32> {
    read_lot(file, AMPLE).map(|reading| reading.lot)
}

/// Read with no space at all: every fault goes before 27.
#[track_caller]
fn expect_refusal(file: &[u8], number: u32) {
    assert_eq!(read(file), Err(number));
    assert_eq!(read_lot(file, [0; 5]), Err(number));
}

/// The small lot with one byte changed.
fn changed(at: usize, to: u8) -> Vec<u8> {
    let mut file = SMALL.to_vec();
    file[at] = to;
    file
}

// -------------------------------------------------------------- good lots --

#[test]
fn small_lot() {
    assert_eq!(read_lot(&SMALL, AMPLE), Ok(Reading { label_at: 4, lot: small() }));
    assert_eq!(small().file(), SMALL);
    for (at, mark) in STARTS {
        assert_eq!(SMALL[at..at + 2], mark.bytes());
    }
}

#[test]
fn least_lot() {
    assert_eq!(read_lot(b"LB\0\0EN\0\0", AMPLE), Ok(Reading { label_at: 4, lot: Lot::default() }));
}

/// "in force until the next one": groups at one place are all handed out, in
/// their order, and so is one after the last element, or in a lot without any.
#[test]
fn groups_anywhere_after_the_nodes() {
    let group = |before: u32, name: &str| Lot::default().group(before, name.as_bytes());
    assert_eq!(read(b"LB\0\0GR\x01\0xEN\0\0"), Ok(group(0, "x")));
    let element = write_element(&[7; 8]);
    let elements = |count: usize| Lot { elements: vec![7; 8 * count], ..Lot::default() };
    let file = |records: &[&[u8]]| read(&[b"LB\0\0", &records.concat()[..], b"EN\0\0"].concat());
    assert_eq!(
        file(&[&element, b"GR\0\0", b"GR\x02\0yy", &element, b"GR\x01\0z"]),
        Ok(elements(2).group(1, b"").group(1, b"yy").group(2, b"z"))
    );
    assert_eq!(
        file(&[b"GR\x01\0x", b"GR\x01\0x", &element]),
        Ok(elements(1).group(0, b"x").group(0, b"x"))
    );
}

/// The lots that the examples read.
#[test]
fn lots_of_the_examples() {
    let nodes: Vec<[i32; 3]> =
        crate::CORNERS.iter().map(|corner| corner.map(|x| x as i32)).collect();
    let lot = |label: &[u8]| Lot::new(label, &nodes, &[[0, 1, 2, 3, 4, 5, 6, 7]]).file();
    assert_eq!(lot(b"unit cube"), include_bytes!("../../../../examples/unit_cube.lot"));
    assert_eq!(lot(b"CUBE"), include_bytes!("../../../../examples/cube.lot"));
}

// ---------------------------------------------------------------- refusals --

#[test]
fn file_too_long_20() {
    let full = Lot::new(b"8 bytes.", &[[1; 3]; 4095], &[]).file();
    assert_eq!(full.len(), 65_536);
    assert_eq!(read(&full).unwrap().nodes.len(), 3 * 4095);
    expect_refusal(&Lot::new(b"9 bytes..", &[[1; 3]; 4095], &[]).file(), 20);
    expect_refusal(&[0; 65_536], 22);
    expect_refusal(&[0; 65_537], 20);
}

/// Groups have no limit of their own: a file of nothing else holds 16,382.
#[test]
fn as_many_groups_as_fit() {
    let file = [b"LB\0\0", &b"GR\0\0".repeat(16_382)[..], b"EN\0\0"].concat();
    assert_eq!(file.len(), 65_536);
    assert_eq!(read(&file).unwrap().needs(), [0, 0, 0, 16_382, 16_382]);
}

#[test]
fn every_prefix_is_cut_short_21() {
    for length in 0..SMALL.len() {
        expect_refusal(&SMALL[..length], 21);
    }
}

#[test]
fn unknown_mark_22() {
    for (at, _) in STARTS {
        expect_refusal(&changed(at, b'?'), 22);
        expect_refusal(&changed(at + 1, b'?'), 22);
        expect_refusal(&changed(at, SMALL[at].to_ascii_lowercase()), 22);
    }
}

#[test]
fn wrong_length_23() {
    for (at, mark) in STARTS {
        let next = if mark.may_have_length(1) { 33 } else { SMALL[at + 2] + 1 };
        expect_refusal(&changed(at + 2, next), 23);
        expect_refusal(&changed(at + 3, 1), 23);
    }
    let named = |length: usize| Lot::default().group(0, &vec![b'x'; length]).file();
    assert!(read(&Lot::new(&[b'x'; 32], &[], &[]).file()).is_ok());
    expect_refusal(&Lot::new(&[b'x'; 33], &[], &[]).file(), 23);
    assert!(read(&named(32)).is_ok());
    expect_refusal(&named(33), 23);
}

#[test]
fn out_of_place_24() {
    let records = [
        write_label(b"P7"),
        write_node(&NODE),
        write_element(&ELEMENT),
        write_group(b"a"),
        write_end(),
    ];
    let [label, node, element, group, end] = &records;
    for first in [node, element, group, end] {
        expect_refusal(first, 24);
    }
    for before in [&records[..1], &records[..2], &records[..3], &records[..4]] {
        expect_refusal(&[before.concat(), label.clone()].concat(), 24);
    }
    for before in [element, group] {
        expect_refusal(&[&label[..], before, node, end].concat(), 24);
        expect_refusal(&[&label[..], node, before, node, end].concat(), 24);
    }
}

#[test]
fn bytes_after_the_end_24() {
    for byte in 0..=255 {
        for more in 1..=5 {
            expect_refusal(&[&SMALL[..], &vec![byte; more]].concat(), 24);
        }
    }
    for mark in Mark::ALL {
        expect_refusal(&[&SMALL[..], &mark.bytes(), &[0, 0]].concat(), 24);
    }
    expect_refusal(&[&SMALL[..], &SMALL].concat(), 24);
}

#[test]
fn label_or_name_byte_25() {
    for byte in 0..=255 {
        for at in [4, 5, 26, 71, 73] {
            match byte {
                32..=126 => assert!(read(&changed(at, byte)).is_ok()),
                _ => expect_refusal(&changed(at, byte), 25),
            }
        }
    }
}

/// Groups do not count as elements.
#[test]
fn one_element_too_many_26() {
    let thousand = Lot::new(b"", &[], &[ELEMENT; 1000]).group(500, b"half");
    assert_eq!(read(&thousand.file()), Ok(thousand));
    expect_refusal(&Lot::new(b"", &[], &[ELEMENT; 1001]).file(), 26);
    expect_refusal(&Lot::new(b"", &[], &[ELEMENT; 1001]).group(1000, b"x").file(), 26);
}

#[test]
fn space_too_small_27() {
    let needs = [3, 8, 4, 3, 3];
    assert_eq!(small().needs(), needs);
    assert_eq!(read_lot(&SMALL, needs).map(|reading| reading.lot), Ok(small()));
    for run in 0..5 {
        for short in [needs[run] - 1, 0] {
            let mut space = AMPLE;
            space[run] = short;
            assert_eq!(read_lot(&SMALL, space), Err(27));
        }
    }
    assert_eq!(read_lot(&SMALL, [0; 5]), Err(27));
    assert!(read_lot(b"LB\0\0EN\0\0", [0; 5]).is_ok());
    assert!(read_lot(b"LB\0\0GR\0\0EN\0\0", [0, 0, 0, 1, 1]).is_ok());
}

// -------------------------------------------------------- order of the tests --

/// The faults of one record, each beside all that are tested after it.
#[test]
fn the_first_fault_of_a_record_decides() {
    expect_refusal(b"\0\0\0", 21);
    expect_refusal(b"??\xFF\xFF", 22);
    expect_refusal(b"ND\xFF\xFF", 24);
    expect_refusal(b"LB\xFF\xFF\x1F", 23);
    expect_refusal(b"LB\x02\0\x1F", 21);
    expect_refusal(b"LB\x02\0\x1F\x1F??", 25);
    expect_refusal(b"GR\xFF\xFF\x1F", 24);
    expect_refusal(b"LB\0\0GR\0", 21);
    expect_refusal(b"LB\0\0gr\xFF\xFF", 22);
    expect_refusal(b"LB\0\0GR\x21\0\x1F", 23);
    expect_refusal(b"LB\0\0GR\x02\0\x1F", 21);
    expect_refusal(b"LB\0\0GR\x02\0\x1F\x1F??", 25);
    expect_refusal(b"LB\0\0GR\0\0ND\xFF\xFF", 24);
}

/// The 1,001st element is tested as a record before it is counted; a group in its
/// place is none.
#[test]
fn faults_of_a_1001st_element() {
    let thousand = Lot::new(b"", &[], &[ELEMENT; 1000]).records()[..1001].concat();
    let after = |more: &[u8]| [&thousand[..], more].concat();
    let one_more = write_element(&ELEMENT);
    expect_refusal(&after(&one_more[..3]), 21);
    expect_refusal(&after(&one_more[..35]), 21);
    expect_refusal(&after(&one_more), 26);
    expect_refusal(&after(&[&write_group(b"x"), &one_more[..]].concat()), 26);
    expect_refusal(&after(&write_record(*b"HX", 31, &[0; 31])), 23);
    expect_refusal(&after(&write_node(&NODE)), 24);
    expect_refusal(&after(b"hx\x20\0"), 22);
    assert!(read(&after(b"GR\x01\0xEN\0\0")).is_ok());
}

/// Of two records with faults the first decides.
#[test]
fn the_first_record_with_a_fault_decides() {
    let faults = [
        (*b"??\0\0", 22),
        (*b"ND\x0B\0", 23),
        (*b"LB\0\0", 24),
        (*b"EN\x01\0", 23),
        (*b"GR\x21\0", 23),
    ];
    for (fault, number) in faults {
        for (later, _) in faults {
            expect_refusal(&[*b"LB\0\0", fault, later].concat(), number);
        }
    }
}

// ------------------------------------------------------------------ naming --

#[test]
fn names_of_elements() {
    let lot = Lot::new(b"L", &[], &[[0; 8]; 5])
        .group(1, b"one")
        .group(2, b"")
        .group(3, b"lost")
        .group(3, b"three")
        .group(5, b"none");
    let names = [0, 1, 2, 3, 4].map(|element| lot.name_of(element));
    assert_eq!(names, [&b"L"[..], b"one", b"L", b"three", b"three"]);
    assert_eq!((lot.name_of(5), lot.name_of(u32::MAX)), (&b"none"[..], &b"none"[..]));
    assert_eq!(lot.groups.name_of(0), None);
    assert_eq!(lot.groups.name_of(2), None);
    assert_eq!(lot.groups.name_of(3), Some(7..12));
    let unlabelled = Lot { label: vec![], ..lot };
    assert_eq!((unlabelled.name_of(0), unlabelled.name_of(1)), (&b""[..], &b"one"[..]));
}

/// A namer's refusals, each beside all that are tested after it.
#[test]
fn elements_that_are_not_named() {
    let named = |label: &[u8], names: &[u8], lengths: &[u32], offsets: &[u32], element: u32| {
        let (names, lengths, offsets) = (names.to_vec(), lengths.to_vec(), offsets.to_vec());
        Groups { names, lengths, offsets }.named(label, 2, element)
    };
    assert_eq!(named(b"L", b"ab", &[0, 2], &[0, 1], 0), Ok(None));
    assert_eq!(named(b"L", b"ab", &[0, 2], &[0, 1], 1), Ok(Some(0..2)));
    assert_eq!(named(b"", b"", &[], &[], 1), Ok(None));
    let long = [31; 33];
    let apart: [(&[u8], &[u32], &[u32]); 8] = [
        (b"", &[0], &[]),
        (b"", &[], &[0]),
        (b"a", &[], &[]),
        (b"a", &[2], &[0]),
        (&long, &[32], &[0]),
        (b"a", &[1, 1 << 31, 1 << 31], &[0, 0, 0]),
        (b"", &[0, 0], &[1, 0]),
        (b"", &[0], &[3]),
    ];
    for (names, lengths, offsets) in apart {
        assert_eq!(named(&long, names, lengths, offsets, 2), Err(24));
    }
    assert_eq!(named(&long, b"\x7F", &[1], &[2], 2), Err(23));
    assert_eq!(named(b"\x7F", &long, &[33], &[2], 2), Err(23));
    assert_eq!(named(b"\x7F", b"", &[0], &[2], 2), Err(25));
    assert_eq!(named(b"", &long[..32], &[32], &[2], 2), Err(25));
    assert_eq!(named(b"~", &[b' '; 32], &[32], &[2], 2), Err(28));
    assert_eq!(named(b"", b"", &[], &[], u32::MAX), Err(28));
    assert_eq!(Groups::default().named(b"", 0, 0), Err(28));
}

/// Groups of any kind, untested: read as far as both lists go, names cut where they
/// end.
#[test]
fn names_of_groups_that_do_not_fit_together() {
    let name = |names: &[u8], lengths: &[u32], offsets: &[u32], element: u32| {
        let (names, lengths, offsets) = (names.to_vec(), lengths.to_vec(), offsets.to_vec());
        Groups { names, lengths, offsets }.name_of(element)
    };
    assert_eq!(name(b"", &[], &[], 0), None);
    assert_eq!(name(b"ab", &[1, 1], &[0], 9), Some(0..1));
    assert_eq!(name(b"ab", &[1], &[0, 0], 9), Some(0..1));
    assert_eq!(name(b"ab", &[], &[0], 9), None);
    assert_eq!(name(b"ab", &[1, 5], &[0, 1], 1), Some(1..2));
    assert_eq!(name(b"ab", &[u32::MAX, 1], &[0, 1], 0), Some(0..2));
    assert_eq!(name(b"ab", &[u32::MAX, 1], &[0, 1], 1), None);
    assert_eq!(name(b"ab", &[u32::MAX, u32::MAX, 2], &[0, 0, 0], 0), None);
    assert_eq!(name(b"abc", &[1, 1, 1], &[4, 2, 0], 0), Some(2..3));
    assert_eq!(name(b"abc", &[1, 1, 1], &[0, 2, 4], 3), Some(1..2));
    assert_eq!(name(b"abc", &[1, 1, 1], &[0, 4, 2], 3), Some(2..3));
    assert_eq!(name(b"a", &[1], &[u32::MAX], u32::MAX), Some(0..1));
}
