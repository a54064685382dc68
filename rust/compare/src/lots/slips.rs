//! Lot files to print.

use super::{below, full, good, random_label, with_groups};
use crate::cases::{cases, Case};
use crate::check::slip_text;
use crate::draw::{element, element_indices, narrow, one_of, powers, Kind, OLD_RANGE, RANGE};
use crate::program::{pairs_of_places, IN_ORDER, RECORD_WORDS};
use crate::question::Question;
use crate::service::{all_numbered, made, Corpora, Draw, Service};
use second::lot::{read_lot, Lot, AMPLE};
use second::specimens::{cube, rings_exchanged, Shaker};

pub const SERVICE: Service =
    Service { name: "slips", listed, drawn: &DRAWN, count: |plan| plan.slips, met, needed };

/// What a slip shows: the number of a refused lot, and whether it reads without fault;
/// of another the kinds of its records, and its stamp.
fn met(question: &Question, words: &[i64]) -> Vec<String> {
    let Question::Slip { file } = question else {
        unreachable!("a slip");
    };
    let text = String::from_utf8_lossy(&slip_text(words)).into_owned();
    if let Some(number) = text.strip_prefix("refused ") {
        let number = format!("number {}", number.trim_end());
        return vec![if read_lot(file, AMPLE).is_ok() { without_fault(&number) } else { number }];
    }
    let lines: Vec<&str> = text.lines().collect();
    let [_, records @ .., _, stamp] = &lines[..] else {
        return vec!["no slip".to_string()];
    };
    // a record's words are the last of a line
    let word = |line: &str, word: usize| {
        line.rsplit(' ').nth(RECORD_WORDS - 1 - word).unwrap_or("none").to_string()
    };
    let met_in_line = |line: &&str| {
        let far = !["0", "-1"].contains(&&word(line, 7)[..]);
        [Some(record(&word(line, 0))), far.then(|| FAR.to_string())].into_iter().flatten()
    };
    records.iter().flat_map(met_in_line).chain([stamp.to_string()]).collect()
}

const FAR: &str = "values past 65 bits";

fn without_fault(number: &str) -> String {
    format!("{number} of a lot without fault")
}

fn record(kind: &str) -> String {
    format!("records of word {kind}")
}

/// All but 27: "The program never lacks room."
fn needed() -> Vec<String> {
    let records = ["0", "1", "2", "5", "6", "7"].map(record);
    let stamps = ["stamp sound", "stamp faulty", "stamp open"].map(str::to_string);
    let others = [without_fault("number 26"), FAR.to_string()];
    all_numbered(20..=26).into_iter().chain(others).chain(records).chain(stamps).collect()
}

fn case_named(name: &str) -> Case {
    cases().into_iter().find(|case| case.name == name).expect("a case")
}

fn question(lot: &Lot) -> Question {
    Question::Slip { file: lot.file() }
}

// ------------------------------------------------------------------ listed --

/// The lots of the examples.
fn examples() -> [&'static [u8]; 3] {
    [
        include_bytes!("../../../../examples/unit_cube.lot"),
        include_bytes!("../../../../examples/cube.lot"),
        include_bytes!("../../../../examples/grouped.lot"),
    ]
}

/// The examples, and each worked case of 01 with several labels and groups.
fn worked() -> Vec<Question> {
    let mut questions = examples().map(|file| Question::Slip { file: file.to_vec() }).to_vec();
    for case in cases() {
        for label in [&b""[..], b" ", case.name.as_bytes(), &[b'~'; 32]] {
            let lot = Lot {
                label: label.to_vec(),
                nodes: case.points.to_vec(),
                elements: case.indices.to_vec(),
                ..Lot::default()
            };
            questions.push(question(&lot.clone().group(0, b"")));
            questions.push(question(&lot.clone().group(0, b"a").group(0, b" b ").group(1, b"c")));
            questions.push(question(&lot));
        }
    }
    questions
}

/// Case A, and an element that is refused, in groups.
fn small_mesh() -> Lot {
    let a = cases().swap_remove(0);
    let refused = [0, 1, 2, 8, 4, 5, 6, 7];
    let elements = [a.indices, refused].concat();
    Lot { label: b"P7".to_vec(), nodes: a.points.to_vec(), elements, ..Lot::default() }
        .group(0, b"ab")
        .group(1, b"")
        .group(2, b"c")
}

/// Every prefix of a lot, and its byte changes, one bit or all of them.
fn changed() -> Vec<Question> {
    let file = small_mesh().file();
    let mut questions: Vec<Question> =
        (0..file.len()).map(|length| Question::Slip { file: file[..length].to_vec() }).collect();
    for at in 0..file.len() {
        for by in [1, 0x20, 0x80, 0xFF] {
            let mut file = file.clone();
            file[at] ^= by;
            questions.push(Question::Slip { file });
        }
    }
    questions
}

/// Lots of every refusal.
fn refused() -> Vec<Question> {
    let files = [
        vec![0; 65_537],
        vec![0; 70_000],
        vec![],
        b"LB".to_vec(),
        vec![0; 65_536],
        good(&[b'x'; 33], 0, 0).file(),
        [small_mesh().file(), vec![0]].concat(),
        good(b"\n", 0, 0).file(),
        good(b"", 0, 0).group(0, b"\x7F").file(),
        good(b"", 0, 1001).file(),
    ];
    files.map(|file| Question::Slip { file }).to_vec()
}

/// Lots of no elements to 1,000, one of each number of digits and the next, and about 900,
/// in which every element is refused; full ones, and one that is full with 900; and about
/// 900 elements that are not refused.
fn long() -> Vec<Question> {
    let counts = [0, 1, 9, 10, 11, 99, 100, 101, 899, 900, 901, 902, 999, 1000];
    let mut lots =
        counts.map(|count| good(b"many", 1, count).group(count.min(5) as u32, b"")).to_vec();
    lots.extend(full());
    lots.push(good(b"8 bytes.", 2070, 900));
    let [a, c] = ["A", "C"].map(case_named);
    let both = [a.points, c.points].concat();
    for count in [899, 900, 901, 1000] {
        for last in [0, 8] {
            let mut elements = a.indices.repeat(count - 1);
            elements.extend(a.indices.map(|index| index + last));
            lots.push(Lot { nodes: both.clone(), elements, ..Lot::default() });
        }
    }
    lots.iter().map(question).collect()
}

/// Words of every number of digits: the index that an element is refused by.
fn digits() -> Vec<Question> {
    let powers = (0..10).map(|digits| 10u32.pow(digits));
    let indices = powers.flat_map(|power| [power - 1, power, power + 1]).chain([u32::MAX]);
    indices.map(|index| question(&Lot::new(b"", &[], &[[index; 8]]))).collect()
}

/// Values of every length in bits, also past 64: the cases C and F times powers of two,
/// and the largest cubes with their rings exchanged.
fn values() -> Vec<Question> {
    let larger = ["C", "F"].map(|name| powers(case_named(name).points.map(i64::from))).concat();
    let largest = [RANGE, RANGE - 1].map(|end| narrow(rings_exchanged(&cube(-end, end))));
    let lot = |points: &[i32; 24]| Lot {
        nodes: points.to_vec(),
        elements: IN_ORDER.to_vec(),
        ..Lot::default()
    };
    larger.iter().chain(&largest).map(|points| question(&lot(points))).collect()
}

/// Every pair of places with one index: all pairs in one lot, and one lot of each.
fn named_twice() -> Vec<Question> {
    let a = cases().swap_remove(0);
    let with_pair = |(lower, higher): (usize, usize)| {
        let mut indices = a.indices;
        indices[higher] = indices[lower];
        indices
    };
    let elements: Vec<[u32; 8]> = pairs_of_places().map(with_pair).collect();
    let lots = elements.chunks(1).chain([&elements[..]]);
    let lot = |elements: &[[u32; 8]]| Lot {
        label: b"pairs".to_vec(),
        nodes: a.points.to_vec(),
        elements: elements.concat(),
        ..Lot::default()
    };
    lots.map(|elements| question(&lot(elements))).collect()
}

/// Lots with each choice of a valid, an invalid, an undecided and a refused element;
/// and one refused among valid ones.
fn stamped() -> Vec<Question> {
    let nodes = ["A", "C", "F"].map(|name| case_named(name).points).concat();
    let [a, c, f, refused] = [0, 8, 16, 17];
    let chosen = |choice: u32| {
        let kinds = [a, c, f, refused].into_iter().enumerate();
        kinds.filter(move |(place, _)| choice >> place & 1 == 1).map(|(_, first)| first).collect()
    };
    let mut lots: Vec<Vec<u32>> = (0..16).map(chosen).collect();
    lots.push(vec![a, refused, a]);
    let elements = |firsts: &[u32]| firsts.iter().flat_map(|&first| first..first + 8).collect();
    let lot = |firsts| Lot { nodes: nodes.clone(), elements: elements(firsts), ..Lot::default() };
    lots.iter().map(|firsts| question(&lot(firsts))).collect()
}

fn listed() -> Corpora {
    made([
        ("examples and worked cases", worked),
        ("every stamp", stamped),
        ("every refusal", refused),
        ("every pair of places", named_twice),
        ("numbers of all lengths", digits),
        ("values of all lengths", values),
        ("up to 1,000 elements", long),
        ("prefixes and byte changes of one", changed),
    ])
}

// ------------------------------------------------------------------- drawn --

/// A lot of a few elements of several kinds, with bad and repeated indices among them.
fn random_mesh(shaker: &mut Shaker) -> Lot {
    let range = one_of(shaker, &[OLD_RANGE, RANGE]);
    let kinds = [Kind::Uniform, Kind::Shaken, Kind::Small, Kind::Mirrored, Kind::Extreme];
    let blocks = below(shaker, 4);
    let nodes: Vec<i32> = (0..blocks)
        .flat_map(|_| {
            let kind = one_of(shaker, &kinds);
            element(shaker, kind, range)
        })
        .collect();
    let elements =
        (0..below(shaker, 4)).flat_map(|_| element_indices(shaker, 8 * blocks)).collect();
    let lot = Lot { label: random_label(shaker), nodes, elements, ..Lot::default() };
    with_groups(shaker, lot)
}

fn good_lot(shaker: &mut Shaker) -> Question {
    question(&random_mesh(shaker))
}

/// One byte of such a lot changed, or its end lost.
fn changed_lot(shaker: &mut Shaker) -> Question {
    let mut file = random_mesh(shaker).file();
    let at = below(shaker, file.len());
    match shaker.between(0, 2) {
        0 => file.truncate(at),
        _ => file[at] = shaker.draw() as u8,
    }
    Question::Slip { file }
}

const DRAWN: [(&str, Draw); 2] =
    [("random lots", good_lot), ("random lots with one change", changed_lot)];
