//! Elements to name, with groups that fit together and with any others.

use super::{any_number, any_numbers, below, bytes, lists, random_label, random_lot, writes};
use crate::question::Question;
use crate::service::{all_numbered, made, numbered, Corpora, Draw, Service};
use second::lot::{Groups, Lot, ELEMENT_WORDS};
use second::specimens::Shaker;

pub const SERVICE: Service = Service {
    name: "elements named",
    listed,
    drawn: &DRAWN,
    count: |plan| plan.names,
    met: |_, words| vec![if words[0] == 0 { bearer(words[1] == 1) } else { numbered(words[0]) }],
    needed: || [vec![bearer(true), bearer(false)], all_numbered([24, 23, 25, 28])].concat(),
};

/// Whose name it is.
fn bearer(grouped: bool) -> String {
    (if grouped { "name of a group" } else { "name of the label" }).to_string()
}

/// How many elements a lot has.
fn elements_of(lot: &Lot) -> u32 {
    (lot.elements.len() / ELEMENT_WORDS) as u32
}

// ------------------------------------------------------------------ listed --

/// All small lists: lengths that fit the names and that do not, counts that rise
/// and that fall, lists of different length; with few elements and none.
fn small_lists() -> Vec<Question> {
    let mut questions = Vec::new();
    for lengths in lists(&[0, 1, 2, u32::MAX], 3) {
        for offsets in lists(&[0, 1, 2], 3) {
            for names in [&b""[..], b"a", b"ab", b"abcd"] {
                for (elements, element) in (0..=3).flat_map(|n| (0..=3).map(move |e| (n, e))) {
                    let (lengths, offsets) = (lengths.clone(), offsets.clone());
                    let groups = Groups { names: names.to_vec(), lengths, offsets };
                    let label = b"L".to_vec();
                    questions.push(Question::Name { elements, element, label, groups });
                }
            }
        }
    }
    questions
}

/// The first and the last element of lots to write, and those behind it.
fn of_lots(writes: Vec<Question>) -> Vec<Question> {
    let mut questions = Vec::new();
    for question in writes {
        let Question::Write { lot, .. } = question else {
            unreachable!("a lot to write");
        };
        let elements = elements_of(&lot);
        for element in [0, elements.saturating_sub(1), elements, elements + 1, u32::MAX] {
            let (label, groups) = (lot.label.clone(), lot.groups.clone());
            questions.push(Question::Name { elements, element, label, groups });
        }
    }
    questions
}

fn listed() -> Corpora {
    made([
        ("one fault or two", || of_lots(writes::faults())),
        ("lengths whose sum passes 32 bits", || of_lots(writes::sums_past_32_bits())),
        ("labels and names", || of_lots(writes::labels_and_names())),
        ("all small lists of groups", || of_lots(writes::group_lists())),
        ("all small lists", small_lists),
    ])
}

// ------------------------------------------------------------------- drawn --

/// A lot's elements, and past them.
fn of_lot(shaker: &mut Shaker, lot: Lot) -> Question {
    let elements = elements_of(&lot);
    let element = below(shaker, elements as usize + 2) as u32;
    Question::Name { elements, element, label: lot.label, groups: lot.groups }
}

fn of_a_good_lot(shaker: &mut Shaker) -> Question {
    let lot = random_lot(shaker);
    of_lot(shaker, lot)
}

fn of_a_changed_lot(shaker: &mut Shaker) -> Question {
    let lot = writes::random_changed_lot(shaker);
    of_lot(shaker, lot)
}

/// Any runs at all.
fn of_any_runs(shaker: &mut Shaker) -> Question {
    let count = below(shaker, 20);
    let groups = Groups {
        names: bytes(shaker, count),
        lengths: any_numbers(shaker, 6),
        offsets: any_numbers(shaker, 6),
    };
    let (elements, element) = (any_number(shaker), any_number(shaker));
    Question::Name { elements, element, label: random_label(shaker), groups }
}

const DRAWN: [(&str, Draw); 3] = [
    ("of random good lots", of_a_good_lot),
    ("of random good lots with a change or two", of_a_changed_lot),
    ("with any runs", of_any_runs),
];
