//! The wrapper over the library: layouts, names, and each call's answer and lent space.

use super::*;
use std::collections::BTreeMap;
use std::mem::{align_of, offset_of, size_of};

/// The layout that include/brundhal.h declares.
#[test]
fn layout() {
    assert_eq!((size_of::<Inspection>(), align_of::<Inspection>()), (20, 4));
    assert_eq!((size_of::<Bounds>(), align_of::<Bounds>()), (40, 8));
    assert_eq!((offset_of!(Bounds, low), offset_of!(Bounds, high)), (8, 24));
    assert_eq!((size_of::<Address>(), align_of::<Address>()), (16, 4));
    assert_eq!((size_of::<raw::Move>(), align_of::<raw::Move>()), (20, 4));
    assert_eq!((size_of::<raw::Lot>(), align_of::<raw::Lot>()), (28, 4));
    assert_eq!((size_of::<Written>(), align_of::<Written>()), (8, 4));
    assert_eq!((size_of::<raw::Name>(), align_of::<raw::Name>()), (24, 8));
    assert_eq!((offset_of!(raw::Name, start), offset_of!(raw::Name, len)), (8, 16));
    assert_eq!((size_of::<Number>(), align_of::<Number>()), (16, 8));
    assert_eq!((offset_of!(Number, low), offset_of!(Number, high)), (0, 8));
    assert_eq!((size_of::<raw::Single>(), align_of::<raw::Single>()), (16, 8));
    assert_eq!((offset_of!(raw::Single, fits), offset_of!(raw::Single, value)), (0, 8));
}

/// What include/brundhal.h defines, without the prefix BRUNDHAL_: numbers, and products
/// of numbers and of what was defined before.
fn header() -> BTreeMap<&'static str, i64> {
    let mut defined = BTreeMap::new();
    for line in include_str!("../../../include/brundhal.h").lines() {
        let definition = line.strip_prefix("#define BRUNDHAL_");
        // The guard has no value.
        let Some((name, value)) = definition.and_then(|line| line.split_once(' ')) else {
            continue;
        };
        let factor = |factor: &str| match factor.strip_prefix("BRUNDHAL_") {
            Some(name) => defined[name],
            None => factor.parse().expect("a whole number"),
        };
        let value: i64 = value.trim_matches(['(', ')']).split(" * ").map(factor).product();
        assert_eq!(defined.insert(name, value), None, "{name} is defined twice");
    }
    defined
}

/// The constants of a module, under the names that the header has for them.
macro_rules! named {
    ($prefix:literal, $module:ident, $($name:ident)*) => {
        [$((concat!($prefix, stringify!($name)), $module::$name as i64)),*]
    };
}

/// The numbers of the header are those of the constants here, name by name; its stamps
/// are what the library answers.
#[test]
fn names_of_the_header() {
    let none = Inspection::default();
    let stamps = [
        ("SOUND", Inspection { valid: 1, ..none }),
        ("FAULTY", Inspection { invalid: 1, ..none }),
        ("OPEN", none),
        ("NO_STAMP", Inspection { number: 1, ..none }),
    ];
    // Numbers in, a number out.
    let stamps =
        stamps.map(|(name, answer)| (name, i64::from(unsafe { raw::brundhal_stamp(answer) })));
    let limits = named!("", crate,
        VERSION MAX_COORDINATE MAX_DEPTH MAX_NODES MAX_ELEMENTS SLIP_ELEMENTS RECORD_WORDS
        LOT_BYTES LOT_NODE_WORDS LOT_ELEMENT_WORDS LOT_NAME_BYTES LOT_GROUPS SLIP_BYTES);
    let kinds = named!("", kind, VALID INVALID UNDECIDED);
    let words = named!("WORD_", word, KIND LEVEL A B C NUMBER VALUE_LOW VALUE_HIGH OPENED);
    let refusals = named!("REFUSED_", refusal,
        DEPTH NODES ELEMENTS REPORT INDEX COORDINATE TWICE
        LONG_FILE CUT_SHORT MARK LENGTH OUT_OF_PLACE BYTE TOO_MANY SPACE NO_ELEMENT);
    let here = [&stamps[..], &limits, &kinds, &words, &refusals].concat();
    assert_eq!(header(), BTreeMap::from_iter(here));
}

#[test]
fn the_version() {
    assert_eq!(version(), VERSION);
}

/// The answer of both inspectors, and what both write over these words.
#[track_caller]
fn inspect_twice(
    coordinates: &[i32],
    indices: &[u32],
    depth: u32,
    report: &mut [i64],
) -> Inspection {
    let mut audited = report.to_vec();
    let answer = inspect(coordinates, indices, depth, report);
    assert_eq!(audit(coordinates, indices, depth, &mut audited), answer);
    assert_eq!(audited, report);
    answer
}

/// The bounds of both.
#[track_caller]
fn bounds_twice(points: &[i32; 24], depth: u32) -> Bounds {
    let both = bounds(points, depth);
    assert_eq!(audit_bounds(points, depth), both);
    both
}

#[test]
fn empty_runs_are_taken() {
    assert_eq!(inspect_twice(&[], &[], MAX_DEPTH, &mut []), Inspection::default());
    assert_eq!(inspect_twice(&[], &[], MAX_DEPTH + 1, &mut []).number, refusal::DEPTH);
    assert_eq!(inspect_twice(&[0], &[], 3, &mut []).number, refusal::NODES);
    assert_eq!(inspect_twice(&[], &[0], 3, &mut []).number, refusal::ELEMENTS);
    assert_eq!(inspect_twice(&[], &[], 3, &mut [0]).number, refusal::REPORT);
    let none = Groups::default;
    assert_eq!(read_lot(&[], &mut [], &mut [], GroupSpace::default()).number, 21);
    assert_eq!(read_lot(EMPTY, &mut [], &mut [], GroupSpace::default()).number, 0);
    assert_eq!(write_lot(&[], &[], &[], none(), &mut []), Written { number: 27, len: 0 });
    let mut file = [0; 8];
    assert_eq!(write_lot(&[], &[], &[], none(), &mut file), Written { number: 0, len: 8 });
    assert_eq!(file, EMPTY);
    assert_eq!(name_of(&[], none(), 1, 0), Ok(Name::Label(b"")));
    assert_eq!(name_of(&[], none(), 0, 0), Err(28));
}

#[test]
fn moves_of_the_whole() {
    let child = Address { level: 1, a: 1, b: 1, c: 0 };
    assert_eq!(Address::WHOLE.child(3), Moved::To(child));
    assert_eq!(Address::WHOLE.corner(3), Moved::To(Address { level: 0, ..child }));
    assert_eq!(child.parent(), Moved::To(Address::WHOLE));
    assert_eq!(Address::WHOLE.parent(), Moved::Not(Address::WHOLE));
    assert_eq!(Address::WHOLE.child(9), Moved::Not(Address::WHOLE));
}

/// 01: "a corner [...] has its own grid numbers, which may reach 2^level".
#[test]
fn moves_of_the_last_cube() {
    let at = |level, a| Address { level, a, b: a, c: a };
    assert_eq!(at(7, 127).child(7), Moved::To(at(8, 255)));
    assert_eq!(at(8, 255).corner(7), Moved::To(at(8, 256)));
    assert_eq!(at(8, 255).parent(), Moved::To(at(7, 127)));
    assert_eq!(at(8, 255).child(7), Moved::Not(at(8, 255)));
    for no_cube in [at(8, 256), at(9, 0)] {
        assert_eq!(no_cube.parent(), Moved::Not(no_cube));
        assert_eq!(no_cube.corner(1), Moved::Not(no_cube));
    }
}

/// A cube with edges along the axes, from `low` to `high` on each.
fn cube(low: i32, high: i32) -> [i32; 24] {
    let ring = |z| [low, low, z, high, low, z, high, high, z, low, high, z];
    [ring(low), ring(high)].concat().try_into().expect("eight nodes")
}

/// Nodes 1-4 exchanged with 5-8.
fn rings_exchanged(mut points: [i32; 24]) -> [i32; 24] {
    points.rotate_left(12);
    points
}

/// The flat square of 01 under a ring with node 5 at (p, q, 1), the others a quarter turn
/// further each: (1, -1), (1, 1) and (2, 2) are the cases D, E and F.
#[rustfmt::skip]
fn twisted(p: i32, q: i32) -> [i32; 24] {
    [
        -1, -1, 0,  1, -1, 0,  1, 1, 0,  -1, 1, 0,
        p, q, 1,  -q, p, 1,  -p, -q, 1,  q, -p, 1,
    ]
}

/// F as large as the range allows: its coefficients are 2^57 times as large.
fn largest_f() -> [i32; 24] {
    twisted(2, 2).map(|x| x * (MAX_COORDINATE / 2))
}

fn record(points: &[i32; 24], depth: u32) -> [i64; RECORD_WORDS] {
    let mut report = [i64::MIN; RECORD_WORDS];
    assert_eq!(inspect_twice(points, &VALID, depth, &mut report).number, 0);
    report
}

const VALID_AT_ONCE: [i64; RECORD_WORDS] = [0, 0, 0, 0, 0, 0, 0, 0, 1];

/// 01's list, in the words of 02, No. 8.
#[test]
fn worked_cases() {
    let mut g = cube(0, 3);
    g[..3].fill(1);
    let mut h = cube(0, 1);
    h[7] = 1_048_577;
    for depth in 0..=MAX_DEPTH {
        assert_eq!(record(&cube(0, 1), depth), VALID_AT_ONCE);
        assert_eq!(record(&rings_exchanged(cube(0, 1)), depth), [1, 0, 0, 0, 0, 1, -8, -1, 1]);
        assert_eq!(record(&g, depth), [1, 0, 0, 0, 0, 1, 0, 0, 1]);
    }
    expect_refused(&h, VALID, [6, 3, 2, 0, 0, 0, 0, 0, 0]);
    expect_refused(&cube(0, 1), [0, 1, 2, 8, 4, 5, 6, 7], [5, 4, 8, 0, 0, 0, 0, 0, 0]);
    let [d, e, f] = [(1, -1), (1, 1), (2, 2)].map(|(p, q)| twisted(p, q));
    assert_eq!(record(&d, 0), [2, 0, 0, 0, 0, 13, 0, 0, 1]);
    assert_eq!(record(&e, 0), [2, 0, 0, 0, 0, 13, -32, -1, 1]);
    assert_eq!(record(&f, 0), [2, 0, 0, 0, 0, 13, -64, -1, 1]);
    for depth in 1..=MAX_DEPTH {
        assert_eq!(record(&d, depth), [0, 1, 0, 0, 0, 0, 0, 0, 9]);
        assert_eq!(record(&e, depth), [1, 1, 0, 0, 1, 5, 0, 0, 2]);
    }
    assert_eq!(record(&f, 3), [2, 3, 0, 0, 2, 13, -262144, -1, 169]);
}

/// J of F is 4(1 - 3 zeta)^2: the cubes that stand in the way are those about zeta = 1/3,
/// and coefficient 13 of the first is -64 * 16^depth.
#[test]
fn the_largest_depth() {
    let found = record(&twisted(2, 2), MAX_DEPTH);
    let opened = 1 + 8 * (4i64.pow(8) - 1) / 3;
    assert_eq!(found, [2, 8, 0, 0, 256 / 3, 13, -64 << 32, -1, opened]);
    let larger = record(&largest_f(), MAX_DEPTH);
    assert_eq!(larger[..6], found[..6]);
    assert_eq!(record_value(&larger), Number::from(-64i128 << (32 + 57)));
    assert_eq!(larger[word::OPENED], opened);

    let mut report = [7; RECORD_WORDS];
    let refused = inspect_twice(&twisted(2, 2), &VALID, MAX_DEPTH + 1, &mut report);
    let number = refusal::DEPTH;
    assert_eq!(refused, Inspection { number, ..Inspection::default() });
    assert_eq!(report, [7; RECORD_WORDS]);
}

/// J of the largest cube is 2^63.
#[test]
fn the_largest_coordinates() {
    let largest = cube(-MAX_COORDINATE, MAX_COORDINATE);
    for depth in 0..=MAX_DEPTH {
        assert_eq!(record(&largest, depth), VALID_AT_ONCE);
    }
    let mirrored = record(&rings_exchanged(largest), MAX_DEPTH);
    assert_eq!(mirrored[..6], [1, 0, 0, 0, 0, 1]);
    assert_eq!(i128::from(record_value(&mirrored)), -8 << 63);
    assert_eq!(mirrored[word::OPENED], 1);
    for at in 0..24 {
        let mut past = largest;
        past[at] += past[at].signum();
        let [place, axis] = [at / 3 + 1, at % 3 + 1].map(|number| number as i64);
        expect_refused(&past, VALID, [6, place, axis, 0, 0, 0, 0, 0, 0]);
    }
}

/// Each number with all that is tested after it wrong too: the counts are 0, and the
/// report space is as it was.
#[test]
fn meshes_that_are_refused() {
    let (nodes, elements) = (vec![0; 3 * (MAX_NODES + 1)], VALID.repeat(MAX_ELEMENTS + 1));
    let meshes: [(u32, u32, &[i32], &[u32]); 6] = [
        (refusal::DEPTH, MAX_DEPTH + 1, &nodes[1..], &elements[1..]),
        (refusal::NODES, MAX_DEPTH, &nodes[1..], &elements[1..]),
        (refusal::NODES, MAX_DEPTH, &nodes, &elements),
        (refusal::ELEMENTS, MAX_DEPTH, &nodes[3..], &elements[9..]),
        (refusal::ELEMENTS, MAX_DEPTH, &nodes[3..], &elements),
        (refusal::REPORT, MAX_DEPTH, &nodes[3..], &elements[8..]),
    ];
    for (number, depth, coordinates, indices) in meshes {
        let mut report = [7; RECORD_WORDS];
        let refused = inspect_twice(coordinates, indices, depth, &mut report);
        assert_eq!(refused, Inspection { number, ..Inspection::default() });
        assert_eq!(report, [7; RECORD_WORDS]);
    }
}

/// Report space of the eight words that a record had before, and of one word too many.
#[test]
fn report_space_of_another_length() {
    for words in [8, 10, 0] {
        let mut report = vec![7; words];
        let refused = inspect_twice(&cube(0, 1), &VALID, 3, &mut report);
        let number = refusal::REPORT;
        assert_eq!(refused, Inspection { number, ..Inspection::default() });
        assert_eq!(report, vec![7; words]);
    }
}

#[test]
fn both_bounds() {
    let both = |low: i128, high: i128| {
        let [low, high] = [low, high].map(Number::from);
        Bounds { number: 0, low, high }
    };
    assert_eq!(bounds_twice(&[5; 24], 3), Bounds::default());
    assert_eq!(bounds_twice(&twisted(1, -1), 1), both(1024, 1024));
    assert_eq!(bounds_twice(&twisted(2, 2), 3), both(-262_144, 131_072));
    assert_eq!(bounds_twice(&largest_f(), 3), both(-262_144 << 57, 131_072 << 57));
    for depth in 0..3 {
        let held = 1 << (63 + 3 + 6 * depth);
        assert_eq!(bounds_twice(&cube(-MAX_COORDINATE, MAX_COORDINATE), depth), both(held, held));
    }
}

#[test]
fn bounds_that_are_refused() {
    let refused = |number: u32| Bounds { number, ..Bounds::default() };
    for past in [MAX_COORDINATE + 1, -MAX_COORDINATE - 1] {
        assert_eq!(bounds_twice(&[past; 24], MAX_DEPTH), refused(refusal::COORDINATE));
        assert_eq!(bounds_twice(&[past; 24], MAX_DEPTH + 1), refused(refusal::DEPTH));
    }
}

#[test]
fn stamps() {
    let none = Inspection::default();
    assert_eq!(stamp(none), Some(Stamp::Open));
    assert_eq!(stamp(Inspection { valid: 1, ..none }), Some(Stamp::Sound));
    assert_eq!(stamp(Inspection { invalid: 1, ..none }), Some(Stamp::Faulty));
    assert_eq!(stamp(Inspection { undecided: 1, ..none }), Some(Stamp::Open));
    assert_eq!(stamp(Inspection { refused: 1, ..none }), Some(Stamp::Faulty));
    for number in [1, 2, 3, 4, u32::MAX] {
        assert_eq!(stamp(Inspection { number, ..none }), None);
        assert_eq!(stamp(Inspection { number, valid: 1, ..none }), None);
    }
}

/// The nodes of a box, and those of its top turned by a half and twice as wide.
#[rustfmt::skip]
const NODES: [i32; 36] = [
    -1, -1, 0,  1, -1, 0,  1, 1, 0,  -1, 1, 0,
    -1, -1, 1,  1, -1, 1,  1, 1, 1,  -1, 1, 1,
    2, 2, 1,  -2, 2, 1,  -2, -2, 1,  2, -2, 1,
];

const VALID: [u32; 8] = [0, 1, 2, 3, 4, 5, 6, 7];
const INVALID: [u32; 8] = [4, 5, 6, 7, 0, 1, 2, 3];
const UNDECIDED: [u32; 8] = [0, 1, 2, 3, 8, 9, 10, 11];
const REFUSED: [u32; 8] = [0, 1, 2, 3, 4, 5, 6, 12];
const TWICE: [u32; 8] = [0, 1, 2, 3, 4, 5, 6, 3];

/// Lots with no element, one undecided, one undecided and one invalid, all valid, all
/// refused, one refused among valid ones, one with a node twice, one undecided or
/// invalid beside a valid one: their stamps at every depth, and on the slip.
#[test]
fn stamps_of_lots() {
    let lots: [(&[[u32; 8]], Stamp); 9] = [
        (&[], Stamp::Open),
        (&[UNDECIDED], Stamp::Open),
        (&[UNDECIDED, INVALID], Stamp::Faulty),
        (&[VALID, VALID], Stamp::Sound),
        (&[REFUSED, REFUSED], Stamp::Faulty),
        (&[VALID, REFUSED, VALID], Stamp::Faulty),
        (&[VALID, TWICE], Stamp::Faulty),
        (&[VALID, UNDECIDED], Stamp::Open),
        (&[VALID, INVALID], Stamp::Faulty),
    ];
    let mut out = Box::new([0; SLIP_BYTES]);
    for (elements, expected) in lots {
        let indices = elements.concat();
        let mut report = vec![0; RECORD_WORDS * elements.len()];
        for depth in 0..=MAX_DEPTH {
            let answer = inspect_twice(&NODES, &indices, depth, &mut report);
            assert_eq!(stamp(answer), Some(expected));
        }
        assert_eq!(stamp(inspect_twice(&NODES, &indices, MAX_DEPTH + 1, &mut report)), None);
        let mut file = vec![0; LOT_BYTES];
        let written = write_lot(b"", &NODES, &indices, Groups::default(), &mut file);
        let length = slip(&file[..written.len as usize], &mut out);
        assert!(out[..length].ends_with(format!("\nstamp {expected}\n").as_bytes()));
    }
}

/// The record of one element over these nodes, the same at every depth and over any
/// old words; it counts among the refused.
#[track_caller]
fn expect_refused(nodes: &[i32], element: [u32; 8], words: [i64; RECORD_WORDS]) {
    for depth in 0..=MAX_DEPTH {
        let mut report = [i64::MIN; RECORD_WORDS];
        let answer = inspect_twice(nodes, &element, depth, &mut report);
        assert_eq!(answer, Inspection { refused: 1, ..Inspection::default() });
        assert_eq!(report, words);
    }
}

/// One index in two places: each pair, the lowest of several, after a missing node,
/// before a coordinate out of range, and eight times the same.
#[test]
fn a_node_named_twice() {
    let pair = |lower: usize, higher: usize| [7, lower as i64, higher as i64, 0, 0, 0, 0, 0, 0];
    for lower in 1..=8 {
        for higher in lower + 1..=8 {
            let mut element = VALID;
            element[higher - 1] = element[lower - 1];
            expect_refused(&NODES, element, pair(lower, higher));
        }
    }
    expect_refused(&NODES, [0, 1, 2, 1, 4, 1, 6, 7], pair(2, 4));
    expect_refused(&NODES, [0, 1, 1, 0, 4, 5, 6, 7], pair(1, 4));
    expect_refused(&NODES, [11; 8], pair(1, 2));
    expect_refused(&NODES, [0, 1, 12, 12, 4, 5, 6, 7], [5, 3, 12, 0, 0, 0, 0, 0, 0]);
    expect_refused(&NODES, [0, 0, 2, 3, 4, 5, 6, 12], [5, 8, 12, 0, 0, 0, 0, 0, 0]);
    let mut far = NODES;
    far[7] = MAX_COORDINATE + 1;
    expect_refused(&far, VALID, [6, 3, 2, 0, 0, 0, 0, 0, 0]);
    expect_refused(&far, [0, 1, 2, 2, 4, 5, 6, 7], pair(3, 4));
    expect_refused(&far, [0, 1, 2, 3, 4, 5, 6, 6], pair(7, 8));
}

/// Nodes with different numbers at one point are not named twice.
#[test]
fn nodes_at_one_point() {
    let mut report = [7; RECORD_WORDS];
    let answer = inspect_twice(&[5; 24], &VALID, 3, &mut report);
    assert_eq!(answer, Inspection { invalid: 1, ..Inspection::default() });
    assert_eq!(report, [1, 0, 0, 0, 0, 1, 0, 0, 1]);
    expect_refused(&[5; 24], [0; 8], [7, 1, 2, 0, 0, 0, 0, 0, 0]);
}

/// A lot of nothing but its label's record and the end.
const EMPTY: &[u8] = b"LB\0\0EN\0\0";

/// A label, one node (1, -2, 3), no elements, and a group with a name and one
/// without.
const LOT: &[u8] = b"LB\x02\0P7ND\x0C\0\x01\0\0\0\xFE\xFF\xFF\xFF\x03\0\0\0GR\x01\0aGR\0\0EN\0\0";

const GROUPS: Groups = Groups { names: b"a", lengths: &[1, 0], offsets: &[0, 0] };

/// Lent space, full of sevens.
#[derive(Clone, Debug, PartialEq)]
struct Space {
    nodes: Vec<i32>,
    elements: Vec<u32>,
    names: Vec<u8>,
    lengths: Vec<u32>,
    offsets: Vec<u32>,
}

impl Space {
    fn new([nodes, elements, names, lengths, offsets]: [usize; 5]) -> Space {
        Space {
            nodes: vec![7; nodes],
            elements: vec![7; elements],
            names: vec![7; names],
            lengths: vec![7; lengths],
            offsets: vec![7; offsets],
        }
    }

    fn read<'a>(&mut self, file: &'a [u8]) -> Lot<'a> {
        let Space { nodes, elements, names, lengths, offsets } = self;
        read_lot(file, nodes, elements, GroupSpace { names, lengths, offsets })
    }
}

#[test]
fn lot_with_space_to_spare() {
    let mut space = Space::new([5, 8, 2, 3, 3]);
    let lot = space.read(LOT);
    assert_eq!(lot, Lot { number: 0, nodes: 1, elements: 0, groups: 2, names: 1, label: b"P7" });
    assert_eq!(lot.label.as_ptr_range(), LOT[4..6].as_ptr_range());
    let Space { nodes, elements, names, lengths, offsets } = space;
    assert_eq!((nodes, elements), (vec![1, -2, 3, 7, 7], vec![7; 8]));
    assert_eq!((&names[..], lengths, offsets), (&b"a\x07"[..], vec![1, 0, 7], vec![0, 0, 7]));
}

#[test]
fn refused_lots_write_nothing() {
    let cut_short = &LOT[..LOT.len() - 1];
    let exact = [3, 0, 1, 2, 2];
    let too_small = [[2, 0, 1, 2, 2], [3, 0, 0, 2, 2], [3, 0, 1, 1, 2], [3, 0, 1, 2, 1]];
    let refusals = too_small.map(|space| (LOT, space, 27));
    for (file, lengths, number) in [(cut_short, exact, 21)].into_iter().chain(refusals) {
        let mut space = Space::new(lengths);
        let refused = Lot { number, nodes: 0, elements: 0, groups: 0, names: 0, label: b"" };
        assert_eq!(space.read(file), refused);
        assert_eq!(space, Space::new(lengths));
    }
    assert_eq!(Space::new(exact).read(LOT).number, 0);
}

/// No good lot is refused for want of space in space of these lengths, and none
/// of them could be less.
#[test]
fn space_for_every_lot() {
    let records =
        |record: &[u8], count: usize| [b"LB\0\0", &record.repeat(count)[..], b"EN\0\0"].concat();
    let mut space =
        Space::new([LOT_NODE_WORDS, LOT_ELEMENT_WORDS, LOT_NAME_BYTES, LOT_GROUPS, LOT_GROUPS]);
    let element = [b"HX\x20\0", &[0; 32][..]].concat();
    let longest = [b"GR\x20\0", &[b'x'; 32][..]].concat();
    for (record, most, number) in
        [(&LOT[6..22], 4095, 20), (&element[..], 1000, 26), (b"GR\0\0", LOT_GROUPS, 20)]
    {
        assert_eq!(space.read(&records(record, most)).number, 0);
        assert_eq!(space.read(&records(record, most + 1)).number, number);
    }
    let mut names = records(&longest, 1820);
    names.splice(names.len() - 4.., *b"GR\x04\0xxxxEN\0\0");
    assert_eq!((names.len(), space.read(&names).names as usize), (LOT_BYTES, LOT_NAME_BYTES));
}

#[test]
fn lots_are_written() {
    let mut file = [7; 64];
    let written = write_lot(b"P7", &[1, -2, 3], &[], GROUPS, &mut file);
    assert_eq!(written, Written { number: 0, len: LOT.len() as u32 });
    assert_eq!(&file[..LOT.len()], LOT);
    assert_eq!(file[LOT.len()..], [7; 64][LOT.len()..]);
}

/// A label, nodes, elements and groups.
type Handed<'a> = (&'a [u8], &'a [i32], &'a [u32], Groups<'a>);

#[test]
fn lots_that_are_not_written() {
    let long = [b'x'; 33];
    let unfit = Groups { offsets: &[0, 1], ..GROUPS };
    let (many, full) = (vec![0; 8 * 1001], vec![0; 3 * 4096]);
    let lots: [(u32, Handed); 7] = [
        (2, (&long, &[0], &[0], unfit)),
        (3, (&long, &[], &[0], unfit)),
        (24, (&long, &[], &[], unfit)),
        (23, (&long, &[], &many, GROUPS)),
        (25, (b"\n", &[], &many, GROUPS)),
        (26, (b"", &full, &many, GROUPS)),
        (20, (b"", &full, &[], GROUPS)),
    ];
    for (number, (label, nodes, elements, groups)) in lots {
        let mut file = [7; 8];
        let written = write_lot(label, nodes, elements, groups, &mut file);
        assert_eq!((written, file), (Written { number, len: 0 }, [7; 8]));
    }
    let mut file = [7; LOT.len() - 1];
    let written = write_lot(b"P7", &[1, -2, 3], &[], GROUPS, &mut file);
    assert_eq!((written, file), (Written { number: 27, len: 0 }, [7; LOT.len() - 1]));
}

#[test]
fn names() {
    let (label, names) = (&b"L"[..], &b"onethree"[..]);
    let groups = Groups { names, lengths: &[3, 0, 5], offsets: &[1, 2, 3] };
    let named = |element: u32| name_of(label, groups, 5, element);
    assert_eq!([0, 2].map(named), [Ok(Name::Label(b"L")); 2]);
    assert_eq!([1, 3, 4].map(|n| named(n).unwrap().bytes()), [&b"one"[..], b"three", b"three"]);
    assert_eq!(named(0).unwrap().bytes().as_ptr_range(), label.as_ptr_range());
    assert_eq!(named(3).unwrap().bytes().as_ptr_range(), names[3..].as_ptr_range());
    assert_eq!([5, u32::MAX].map(named), [Err(28); 2]);
}

/// A refusal is its number, and all else 0.
#[test]
fn elements_that_are_not_named() {
    let long = [b'\n'; 33];
    let apart = Groups { lengths: &[1], ..GROUPS };
    let asked: [(u32, &[u8], Groups); 4] =
        [(24, &long, apart), (23, &long, GROUPS), (25, b"\n", GROUPS), (28, b"L", GROUPS)];
    for (number, label, Groups { names, lengths, offsets }) in asked {
        let groups = Groups { names, lengths, offsets };
        assert_eq!(name_of(label, groups, 1, 1), Err(number));
        // Borrowed slices with their own lengths, as in `name_of`.
        let raw::Name { number: told, grouped, start, len } = unsafe {
            raw::brundhal_name(
                label.as_ptr(),
                label.len(),
                names.as_ptr(),
                names.len(),
                lengths.as_ptr(),
                lengths.len(),
                offsets.as_ptr(),
                offsets.len(),
                1,
                1,
            )
        };
        assert_eq!((told, grouped, start, len), (number, 0, 0, 0));
    }
}

#[test]
fn slips() {
    let mut out = Box::new([7; SLIP_BYTES]);
    for (file, text) in [
        (&b"LB\x01\0xGR\0\0EN\0\0"[..], &b"lot x\ntally 0 0 0 0\nstamp open\n"[..]),
        (b"", b"refused 21\n"),
    ] {
        out.fill(7);
        let length = slip(file, &mut out);
        assert_eq!(&out[..length], text);
        assert!(out[length..].iter().all(|&byte| byte == 7));
    }
}

/// 900 elements are printed; a longer lot is refused, though it reads without fault.
#[test]
fn the_longest_slip() {
    let mut out = Box::new([0; SLIP_BYTES]);
    let mut printed = |elements: usize| {
        let mut file = vec![0; LOT_BYTES];
        let nodes = cube(-MAX_COORDINATE, MAX_COORDINATE);
        let written =
            write_lot(b"HULL", &nodes, &VALID.repeat(elements), Groups::default(), &mut file);
        assert_eq!(written.number, 0);
        let length = slip(&file[..written.len as usize], &mut out);
        String::from_utf8(out[..length].to_vec()).expect("plain text")
    };
    let lines: String =
        (1..=SLIP_ELEMENTS).map(|n| format!("{n} HULL 0 0 0 0 0 0 0 0 1\n")).collect();
    let slip = format!("lot HULL\n{lines}tally {SLIP_ELEMENTS} 0 0 0\nstamp sound\n");
    assert_eq!(printed(SLIP_ELEMENTS), slip);
    for elements in [SLIP_ELEMENTS + 1, MAX_ELEMENTS] {
        assert_eq!(printed(elements), format!("refused {}\n", refusal::TOO_MANY));
    }
}

/// 2^127 - 1 and -2^127.
const HIGHEST: Number = Number { low: u64::MAX, high: u64::MAX >> 1 };
const LOWEST: Number = Number { low: 0, high: 1 << 63 };

/// The sign fills the high word.
#[test]
fn numbers_of_one_word() {
    assert_eq!(Number::from(0i64), Number::default());
    assert_eq!(Number::from(7i64), Number { low: 7, high: 0 });
    assert_eq!(Number::from(-1i64), Number { low: u64::MAX, high: u64::MAX });
    assert_eq!(Number::from(i64::MIN), Number { low: 1 << 63, high: u64::MAX });
    for x in [0, 1, -1, 7, i64::MIN, i64::MAX] {
        assert_eq!(Number::from(x).to_i64(), Some(x));
        assert_eq!(Number::from(x), Number::from(i128::from(x)));
        assert_eq!(Number::from(x), Number::from_words(x, x >> 63));
        assert_eq!(Number::from(x).to_string(), x.to_string());
    }
}

/// A number that one word does not hold has 0 in the place of one.
#[test]
fn numbers_too_long_for_one_word() {
    let past = 1i128 << 63;
    for x in [past, past + 1, -past - 1, -past - 2, 1 << 64, i128::MAX, i128::MIN] {
        let number = Number::from(x);
        assert_eq!(number, Number::from_words(x as i64, (x >> 64) as i64));
        assert_eq!((i128::from(number), number.to_i64()), (x, None));
        assert_eq!(number.to_string(), x.to_string());
        // Numbers in, numbers out, as in `to_i64`.
        let raw::Single { fits, value } = unsafe { raw::brundhal_number_to_i64(number) };
        assert_eq!((fits, value), (0, 0));
    }
}

#[test]
fn sums_and_products() {
    let number = |x: i64| Number::from(x);
    assert_eq!(number(-3).wrapping_add(number(5)), number(2));
    assert_eq!(number(3).wrapping_sub(number(5)), number(-2));
    assert_eq!(number(-3).wrapping_mul(number(5)), number(-15));
    assert_eq!(Number::product(i64::MIN, i64::MIN), Number { low: 0, high: 1 << 62 });
    assert_eq!(Number::product(i64::MIN, -1).to_i64(), None);
    assert_eq!((number(-3).twice(), number(-3).four_times()), (number(-6), number(-12)));
    // past the end, and back again
    assert_eq!(HIGHEST.wrapping_add(number(1)), LOWEST);
    assert_eq!(LOWEST.wrapping_sub(number(1)), HIGHEST);
    assert_eq!(
        HIGHEST.wrapping_add(number(5)).wrapping_sub(number(6)).wrapping_sub(HIGHEST),
        number(-1)
    );
    assert_eq!(LOWEST.wrapping_mul(number(-1)), LOWEST);
    assert_eq!((LOWEST.twice(), HIGHEST.four_times()), (number(0), number(-4)));
}

/// A list of numbers that rise, each beside each.
#[test]
fn orders_of_numbers() {
    let low_word = Number { low: 1 << 63, high: 0 };
    let below = Number { low: 0, high: u64::MAX };
    let [minus_one, zero, one] = [-1i64, 0, 1].map(Number::from);
    let rising = [LOWEST, below, minus_one, zero, one, low_word, HIGHEST];
    for (a, x) in rising.iter().enumerate() {
        for (b, y) in rising.iter().enumerate() {
            assert_eq!((x.cmp(y), x.partial_cmp(y)), (a.cmp(&b), Some(a.cmp(&b))));
            assert_eq!((x.at_most(*y), x <= y, x < y), (a <= b, a <= b, a < b));
        }
        assert_eq!(x.sign(), a.cmp(&3));
    }
}
