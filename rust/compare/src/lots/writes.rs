//! Lots to write.

use super::{
    about, any_number, any_numbers, below, bytes, full, good, labels, lists, random_label,
    random_lot, small, space,
};
use crate::draw::{once_in, one_of};
use crate::question::Question;
use crate::service::{all_numbered, by_number, made, Corpora, Draw, Service};
use second::lot::{Groups, Lot, ELEMENT_WORDS, MOST_BYTES, NODE_WORDS};
use second::specimens::Shaker;

pub const SERVICE: Service = Service {
    name: "lots written",
    listed,
    drawn: &DRAWN,
    count: |plan| plan.writes,
    met: by_number,
    needed: || all_numbered([0, 2, 3, 20, 23, 24, 25, 26, 27]),
};

/// Space in which the lot's file fits, if it is one, with some bytes to spare.
fn in_ample_space(lot: Lot) -> Question {
    let space = lot.file().len().min(MOST_BYTES) + 3;
    Question::Write { space, lot }
}

// ------------------------------------------------------------------ listed --

/// The count of elements before the last group.
fn last_before(lot: &Lot) -> u32 {
    lot.groups.offsets.last().copied().unwrap_or(0)
}

/// A fault put into a lot with a node, an element and a group at least; from the
/// last in 02's order to the first, so that each leaves those before it.
type Spoil = fn(&mut Lot);

const SPOILS: [Spoil; 15] = [
    // 20
    |lot| lot.nodes.resize(NODE_WORDS * 4096, 1),
    // 26
    |lot| lot.elements.resize(ELEMENT_WORDS * 1001, 1),
    // 25
    |lot| lot.label.push(127),
    |lot| lot.groups.names[0] = 31,
    // 23
    |lot| lot.label.resize(33, b'x'),
    |lot| lot.groups.push(last_before(lot), &[b'x'; 33]),
    // 24
    |lot| lot.groups.offsets.push(last_before(lot)),
    |lot| lot.groups.lengths.push(0),
    |lot| lot.groups.lengths[0] += 1,
    |lot| lot.groups.names.push(b'x'),
    |lot| lot.groups.lengths.iter_mut().for_each(|length| *length = length.wrapping_sub(1 << 31)),
    |lot| lot.groups.offsets.reverse(),
    |lot| lot.groups.offsets.iter_mut().for_each(|before| *before += 1001),
    // 3
    |lot| lot.elements.truncate(lot.elements.len() - 1),
    // 2
    |lot| lot.nodes.truncate(lot.nodes.len() - 1),
];

/// A lot with groups before and after its only element.
fn to_spoil() -> Lot {
    good(b"P7", 2, 1).group(0, b"ab").group(1, b"c")
}

/// Each fault alone and beside each other one, in ample space and in none, so that
/// the order of the tests shows.
pub fn faults() -> Vec<Question> {
    let mut questions = Vec::new();
    for (first, spoil) in SPOILS.iter().enumerate() {
        let mut lot = to_spoil();
        spoil(&mut lot);
        let others = SPOILS[first + 1..].iter().map(|spoil| {
            let mut lot = lot.clone();
            spoil(&mut lot);
            lot
        });
        for lot in others.chain([lot.clone()]) {
            questions.push(Question::Write { space: 0, lot: lot.clone() });
            questions.push(in_ample_space(lot));
        }
    }
    questions
}

/// All small lists of lengths and counts, of a lot with two elements.
pub fn group_lists() -> Vec<Question> {
    let mut questions = Vec::new();
    for lengths in lists(&[0, 1, 2], 3) {
        for offsets in lists(&[0, 1, 2, 3], 3) {
            for names in 0..=3 {
                let (lengths, offsets) = (lengths.clone(), offsets.clone());
                let groups = Groups { names: b"abc"[..names].to_vec(), lengths, offsets };
                questions.push(in_ample_space(Lot { groups, ..good(b"P7", 1, 2) }));
            }
        }
    }
    questions
}

/// Lengths whose sum is that of the names only if it is cut to 32 bits.
pub fn sums_past_32_bits() -> Vec<Question> {
    let lengths: [&[u32]; 6] = [
        &[u32::MAX, 1],
        &[1, u32::MAX],
        &[1 << 31, 1 << 31],
        &[u32::MAX, 1, 3],
        &[u32::MAX, u32::MAX, 5],
        &[3, 1 << 30, 1 << 30, 1 << 30, 1 << 30],
    ];
    let question = |lengths: &[u32]| {
        let sum = lengths.iter().fold(0u32, |sum, &length| sum.wrapping_add(length));
        let names = vec![b'x'; sum as usize];
        let groups = Groups { names, lengths: lengths.to_vec(), offsets: vec![0; lengths.len()] };
        in_ample_space(Lot { groups, ..small() })
    };
    lengths.into_iter().map(question).collect()
}

/// Labels and names of every kind, and far too long ones.
pub fn labels_and_names() -> Vec<Question> {
    let long = [34, 255, 256, 65_535, 65_536, 65_568].map(|length| vec![b'x'; length]);
    let lots = labels().into_iter().chain(long).flat_map(|label| {
        let as_name = small().group(1, &label).group(1, b"d");
        [good(&label, 1, 1), as_name, Lot { label, ..small() }]
    });
    lots.map(in_ample_space).collect()
}

/// Runs of every length about their multiples; about 1,000 elements; files of
/// about 65,536 bytes.
fn run_lengths() -> Vec<Question> {
    let mut lots = Vec::new();
    for nodes in (0..=6).chain([3 * 4095, 3 * 4095 + 1]) {
        for elements in (0..=16).chain([7999, 8000]) {
            let runs = Lot { nodes: vec![-1; nodes], elements: vec![7; elements], ..small() };
            let groups = Groups::default();
            lots.extend([Lot { groups, ..runs.clone() }, runs]);
        }
    }
    for (nodes, elements) in [(4095, 0), (4094, 1), (1845, 1000), (1845, 1001)] {
        for label in [0, 7, 8, 9, 32] {
            let lot = good(&[b'x'; 32][..label], nodes, elements);
            lots.extend([lot.clone().group(0, b""), lot.clone().group(0, b"abc"), lot]);
        }
    }
    lots.into_iter().map(in_ample_space).collect()
}

/// Every length of lent space for small lots, and those about the file's for full
/// ones.
fn spaces() -> Vec<Question> {
    let in_space = |lot: &Lot, space| Question::Write { space, lot: lot.clone() };
    let mut questions = Vec::new();
    for lot in [good(b"", 0, 0), small(), good(b"x", 3, 2).group(2, b"")] {
        let spaces = 0..=lot.file().len() + 20;
        questions.extend(spaces.map(|space| in_space(&lot, space)));
    }
    for lot in full() {
        questions.extend(about(lot.file().len()).map(|space| in_space(&lot, space)));
    }
    questions
}

fn listed() -> Corpora {
    made([
        ("one fault or two", faults),
        ("all small lists of groups", group_lists),
        ("lengths whose sum passes 32 bits", sums_past_32_bits),
        ("labels and names", labels_and_names),
        ("lengths of the runs", run_lengths),
        ("lent space", spaces),
    ])
}

// ------------------------------------------------------------------- drawn --

/// In space that is mostly just enough.
fn in_any_space(shaker: &mut Shaker, lot: Lot) -> Question {
    let need = lot.file().len().min(MOST_BYTES);
    let space = if once_in(shaker, 2) { space(shaker, need) } else { need };
    Question::Write { space, lot }
}

fn good_lot(shaker: &mut Shaker) -> Question {
    let lot = random_lot(shaker);
    in_any_space(shaker, lot)
}

/// A good lot with a change or two.
pub fn random_changed_lot(shaker: &mut Shaker) -> Lot {
    let mut lot = random_lot(shaker);
    for _ in 0..shaker.between(1, 2) {
        change(shaker, &mut lot);
    }
    lot
}

fn changed_lot(shaker: &mut Shaker) -> Question {
    let lot = random_changed_lot(shaker);
    in_any_space(shaker, lot)
}

/// A number of a list, if it has any, changed.
fn change_one(shaker: &mut Shaker, list: &mut [u32]) {
    if !list.is_empty() {
        let at = below(shaker, list.len());
        let near = list[at].wrapping_add_signed(one_of(shaker, &[-1, 1, 2]));
        list[at] = if once_in(shaker, 3) { any_number(shaker) } else { near };
    }
}

fn change(shaker: &mut Shaker, lot: &mut Lot) {
    let (one_byte, one_number) = (shaker.draw() as u8, any_number(shaker));
    let byte = one_of(shaker, &[31, 32, 126, 127, b'x', b'x', one_byte]);
    let groups = &mut lot.groups;
    match shaker.between(0, 11) {
        0 => lot.nodes.push(-1),
        1 => drop(lot.elements.pop()),
        2 => lot.label.resize(one_of(shaker, &[0, 31, 32, 33, 40]), byte),
        3 => lot.label.push(byte),
        4 => groups.names.push(byte),
        5 => drop(groups.lengths.pop()),
        6 => groups.offsets.push(one_number),
        7 => change_one(shaker, &mut groups.lengths),
        8 => change_one(shaker, &mut groups.offsets),
        9 => groups.push((lot.elements.len() / ELEMENT_WORDS) as u32, &[byte; 3]),
        10 => {
            let name = random_label(shaker);
            lot.groups.push(last_before(lot), &[&name[..], b"x"].concat());
        }
        _ => {
            let at = below(shaker, groups.names.len().max(1));
            groups.names.get_mut(at).into_iter().for_each(|name_byte| *name_byte = byte);
        }
    }
}

/// Up to `most` bytes, or a good label.
fn any_label(shaker: &mut Shaker, most: usize) -> Vec<u8> {
    if once_in(shaker, 2) {
        return random_label(shaker);
    }
    let count = below(shaker, most + 1);
    bytes(shaker, count)
}

/// Any runs at all, those of nodes and elements mostly of a right length.
fn any_runs(shaker: &mut Shaker) -> Question {
    let groups = Groups {
        names: any_label(shaker, 12),
        lengths: any_numbers(shaker, 3),
        offsets: any_numbers(shaker, 3),
    };
    let [nodes, elements] = [NODE_WORDS, ELEMENT_WORDS].map(|words| {
        let off = if once_in(shaker, 8) { below(shaker, words) } else { 0 };
        words * below(shaker, 4) + off
    });
    let lot = Lot {
        label: any_label(shaker, 40),
        nodes: (0..nodes).map(|_| shaker.draw() as i32).collect(),
        elements: (0..elements).map(|_| any_number(shaker)).collect(),
        groups,
    };
    in_any_space(shaker, lot)
}

const DRAWN: [(&str, Draw); 3] = [
    ("random good lots", good_lot),
    ("random good lots with a change or two", changed_lot),
    ("any runs", any_runs),
];
