//! Lot files to read.

use super::{
    about, below, bytes, element, full, good, labels, lists, node, random_label, random_lot, small,
    spaces, with_groups,
};
use crate::check::ample_space;
use crate::draw::{once_in, one_of};
use crate::question::Question;
use crate::service::{all_numbered, by_number, made, Corpora, Draw, Service};
use second::lot::writing::{
    write_element, write_end, write_group, write_label, write_node, write_record,
};
use second::lot::{Lot, Mark, Space, HEAD_BYTES, MOST_BYTES};
use second::specimens::Shaker;

pub const SERVICE: Service = Service {
    name: "lots read",
    listed,
    drawn: &DRAWN,
    count: |plan| plan.files,
    met: by_number,
    needed: || all_numbered(std::iter::once(0).chain(20..=27)),
};

/// All of a lot but its end.
fn without_end(lot: Lot) -> Vec<u8> {
    let mut records = lot.records();
    records.pop();
    records.concat()
}

/// A good record of this mark.
fn good_record(mark: Mark) -> Vec<u8> {
    match mark {
        Mark::Label => write_label(b"again"),
        Mark::Node => write_node(&node(7)),
        Mark::Element => write_element(&element(7)),
        Mark::Group => write_group(b"group"),
        Mark::End => write_end(),
    }
}

fn in_ample_space(file: Vec<u8>) -> Question {
    Question::Read { space: ample_space(file.len()), file }
}

// ------------------------------------------------------------------ listed --

/// Every prefix of several good lots.
fn prefixes() -> Vec<Vec<u8>> {
    let lots = [
        good(b"", 0, 0),
        good(b"no elements", 3, 0),
        good(b"", 0, 3),
        good(b"lot 12", 4, 3),
        good(&[b'~'; 32], 1, 1),
        small(),
        good(b"no elements", 1, 0).group(0, b"").group(0, &[b'~'; 32]),
    ];
    let prefixes_of = |lot: &Lot| -> Vec<_> {
        let file = lot.file();
        (0..=file.len()).map(|length| file[..length].to_vec()).collect()
    };
    lots.iter().flat_map(prefixes_of).collect()
}

/// Every other value at every place of the small lot.
fn byte_changes() -> Vec<Vec<u8>> {
    let mut files = Vec::new();
    let small = small().file();
    for at in 0..small.len() {
        for by in 1..=255 {
            let mut file = small.clone();
            file[at] ^= by;
            files.push(file);
        }
    }
    files
}

/// Good lots of 65,536 bytes and about; and the same lengths with every other
/// fault, so that 20 shows as the first.
fn file_lengths() -> Vec<Vec<u8>> {
    let mut files: Vec<Vec<u8>> = full().iter().map(Lot::file).collect();
    // 4,095 nodes, or 1,845 nodes and 1,000 elements, fill all but the label
    for (nodes, elements) in [(4095, 0), (1845, 1000), (4094, 0), (0, 1820)] {
        for label in [0, 7, 8, 9, 24, 25, 32] {
            files.push(good(&[b'x'; 32][..label], nodes, elements).file());
        }
    }
    // a group after the last element of a lot that leaves 8 bytes
    for name in [0, 3, 4, 5, 32] {
        files.push(good(b"", 1845, 1000).group(1000, &[b'x'; 32][..name]).file());
    }
    let beginnings = [
        vec![],
        write_label(b"P7"),
        small().file(),
        write_end(),
        write_label(&[0; 32]),
        write_label(&[b'x'; 33]),
        without_end(good(b"", 0, 1001)),
        without_end(good(b"", 0, 0).group(0, &[b'x'; 33])),
    ];
    for beginning in beginnings {
        for length in [MOST_BYTES - 1, MOST_BYTES, MOST_BYTES + 1, MOST_BYTES + 8, 2 * MOST_BYTES] {
            for filler in [0, b'L', 255] {
                let mut file = beginning.clone();
                file.resize(length, filler);
                files.push(file);
            }
        }
    }
    // a whole lot before or after the first 65,536 bytes
    files.push([small().file(), vec![0; MOST_BYTES]].concat());
    files.push([vec![0; MOST_BYTES], small().file()].concat());
    files
}

/// About 1,000 elements, and a 1,001st with every fault of its own; groups among
/// them, which do not count.
fn element_numbers() -> Vec<Vec<u8>> {
    let mut files = Vec::new();
    for nodes in [0, 1] {
        for elements in [998, 999, 1000, 1001, 1002, 1500] {
            let lot = good(b"P7", nodes, elements);
            files.push(without_end(lot.clone()));
            files.push(lot.clone().group(elements as u32, b"after").file());
            files.push(lot.clone().group(0, b"").group(999, b"").group(1000, b"").file());
            files.push(lot.file());
        }
    }
    let one_more = write_element(&element(1001));
    let mut next: Vec<Vec<u8>> = Mark::ALL.into_iter().map(good_record).collect();
    next.extend((0..one_more.len()).map(|length| one_more[..length].to_vec()));
    next.extend([0, 12, 31, 33, 32 * 256].map(|length| write_record(*b"HX", length, &[0; 40])));
    next.push(write_record(*b"HX", 31, &[]));
    next.push(write_record(*b"hx", 32, &[0; 32]));
    next.push([&one_more[..], b"??"].concat());
    next.push([write_group(b"x"), one_more.clone()].concat());
    next.push([write_group(b"x"), write_node(&node(0))].concat());
    let after = |elements: usize| {
        let lot = without_end(good(b"", 0, elements));
        move |next: &Vec<u8>| [&lot[..], next].concat()
    };
    for elements in [999, 1000] {
        files.extend(next.iter().map(after(elements)));
    }
    files.push(good(b"\x1F", 0, 1001).file());
    files
}

/// Labels and names of every kind; also cut short before their last byte.
fn labels_and_names() -> Vec<Vec<u8>> {
    let mut files = Vec::new();
    for label in labels() {
        files.push(good(&label, 1, 1).file());
        files.push(good(b"P7", 1, 1).group(0, &label).group(1, b"b").file());
        files.push(good(b"P7", 0, 1).group(1, b"b").group(1, &label).file());
        for record in [write_label(&label), [write_label(b""), write_group(&label)].concat()] {
            files.push(record[..record.len() - 1].to_vec());
        }
    }
    files
}

/// All sequences of up to five records, of the five marks and an unknown one.
fn mark_orders() -> Vec<Vec<u8>> {
    let mut records: Vec<Vec<u8>> = Mark::ALL.into_iter().map(good_record).collect();
    records.push(write_record(*b"QQ", 0, &[]));
    let orders = lists(&[0, 1, 2, 3, 4, 5], 5);
    let file = |order: &Vec<u32>| order.iter().flat_map(|&n| records[n as usize].clone()).collect();
    orders.iter().map(file).collect()
}

/// Every mark of letters of the known marks, in either case, where the first
/// record is due and where others are.
fn marks() -> Vec<Vec<u8>> {
    let letters = b"LBNDHXGRENlbndhxgren\0";
    let small = small().file();
    let mut files = Vec::new();
    for before in [vec![], write_label(b""), without_end(good(b"", 0, 1)), small] {
        for first in letters {
            for second in letters {
                for length in [0, 12, 32] {
                    let record = write_record([*first, *second], length, &[b'x'; 32]);
                    let record = &record[..HEAD_BYTES + length as usize];
                    files.push([&before[..], record, b"EN\0\0"].concat());
                }
            }
        }
    }
    files
}

/// Wrong lengths for every mark, in place and not, with enough bytes after, and
/// with one too few, and with none.
fn lengths() -> Vec<Vec<u8>> {
    let few = (0..=40).chain([255, 256, 257]);
    let lengths = few.chain([12 * 256, 32 * 256, 12 * 257, 32 * 257, 33 * 256, 65_535]);
    let offsets = [
        vec![],
        write_label(b"P7"),
        without_end(good(b"P7", 1, 1)),
        without_end(good(b"P7", 1, 1).group(1, b"ab")),
    ];
    let mut files = Vec::new();
    for length in lengths {
        for mark in Mark::ALL {
            for before in &offsets {
                let record = write_record(mark.bytes(), length, &vec![b'x'; length.into()]);
                let file = [&before[..], &record].concat();
                files.push(file[..before.len() + HEAD_BYTES].to_vec());
                files.push(file[..file.len() - usize::from(length > 0)].to_vec());
                files.push([&file[..], &write_end()].concat());
                files.push(file);
            }
        }
    }
    files
}

/// Something after the end: up to 40 bytes of every first value, the rest
/// drawn; and records.
fn after_the_end() -> Vec<Vec<u8>> {
    let mut shaker = Shaker::new(40);
    let small = small().file();
    let mut files = Vec::new();
    for more in 0..=40 {
        for first in 0..=255 {
            let mut tail = bytes(&mut shaker, more);
            if let Some(byte) = tail.first_mut() {
                *byte = first;
            }
            files.push([&small[..], &tail].concat());
        }
    }
    files.extend(Mark::ALL.map(|mark| [&small[..], &good_record(mark)].concat()));
    files.push(small.repeat(2));
    files
}

/// Space for a lot with these needs, one run at a time of nothing, too small, just
/// enough and larger; and nothing at all, and a word to spare in each.
fn spaces_by_run(needs: Space) -> Vec<Space> {
    let mut spaces = vec![[0; 5], needs.map(|need| need + 1)];
    for run in 0..needs.len() {
        spaces.extend(about(needs[run]).map(|length| {
            let mut space = needs;
            space[run] = length;
            space
        }));
    }
    spaces
}

/// Every run one word too small, just enough or one word larger.
fn spaces_one_off(needs: Space) -> Vec<Space> {
    let offs = lists(&[0, 1, 2], 5).into_iter().filter(|offs| offs.len() == 5);
    let space = |offs: Vec<u32>| {
        std::array::from_fn(|run| (needs[run] + offs[run] as usize).saturating_sub(1))
    };
    offs.map(space).collect()
}

/// A lot in some spaces.
fn in_spaces(file: &[u8], spaces: Vec<Space>) -> impl Iterator<Item = Question> + '_ {
    spaces.into_iter().map(|space| Question::Read { space, file: file.to_vec() })
}

/// Lent space of all lengths, for good lots and for lots with every fault.
fn lent_space() -> Vec<Question> {
    let lot = good(b"", 3, 2).group(1, b"abc").group(2, b"");
    let mut questions = Vec::new();
    for lot in [small(), lot.clone()] {
        questions.extend(in_spaces(&lot.file(), spaces_one_off(lot.needs())));
    }
    let small_lots = [good(b"", 0, 0), good(b"", 1, 0), good(b"", 0, 1), small(), lot.clone()];
    for lot in small_lots.into_iter().chain(full()) {
        questions.extend(in_spaces(&lot.file(), spaces_by_run(lot.needs())));
    }
    let then = |record: &[u8]| [&without_end(lot.clone()), record].concat();
    // the numbers 20 to 26, and 21 and 24 in each of their ways
    let faulty = [
        vec![0; MOST_BYTES + 1],
        then(&[]),
        then(&write_element(&element(2))[..35]),
        then(&write_group(b"ab")[..5]),
        then(b"????"),
        then(&write_record(*b"EN", 1, b" ")),
        then(&write_node(&node(3))),
        then(&[&write_end()[..], &[0]].concat()),
        then(&write_group(b"\x7F")),
        good(b"\x7F", 3, 2).file(),
        good(b"", 3, 1001).file(),
    ];
    for file in faulty {
        questions.extend(in_spaces(&file, spaces_by_run(lot.needs())));
    }
    questions
}

fn listed() -> Corpora {
    fn ample(files: Vec<Vec<u8>>) -> Vec<Question> {
        files.into_iter().map(in_ample_space).collect()
    }
    made([
        ("every prefix of 7 lots", || ample(prefixes())),
        ("labels and names", || ample(labels_and_names())),
        ("lengths", || ample(lengths())),
        ("marks", || ample(marks())),
        ("orders of up to 5 records", || ample(mark_orders())),
        ("lent space", lent_space),
        ("about 1,000 elements", || ample(element_numbers())),
        ("files of about 65,536 bytes", || ample(file_lengths())),
        ("bytes after the end", || ample(after_the_end())),
        ("every byte change of one", || ample(byte_changes())),
    ])
}

// ------------------------------------------------------------------- drawn --

fn random_bytes(shaker: &mut Shaker) -> Question {
    let count = below(shaker, 100);
    in_ample_space(bytes(shaker, count))
}

/// A known mark with any length, and any bytes after it: the length right, or
/// small, or anything; the body whole, or not.
fn random_record(shaker: &mut Shaker, mark: Mark) -> Vec<u8> {
    let right = good_record(mark).len() - HEAD_BYTES;
    let any = below(shaker, 65_536);
    let small = below(shaker, 41);
    let length = one_of(shaker, &[right, right, right, small, any]);
    let count = if once_in(shaker, 6) { below(shaker, 41) } else { length.min(60) };
    write_record(mark.bytes(), length as u16, &bytes(shaker, count))
}

/// Random bytes with known marks among them, often in their order.
fn marks_among_bytes(shaker: &mut Shaker) -> Question {
    let mut file = write_label(&random_label(shaker));
    if once_in(shaker, 8) {
        file = random_record(shaker, Mark::Label);
    }
    let mut marks = [0; 7].map(|_| one_of(shaker, &Mark::ALL));
    if !once_in(shaker, 6) {
        let among = [Mark::Element, Mark::Group];
        let [a, b, c] = [0; 3].map(|_| one_of(shaker, &among));
        marks = [Mark::Node, Mark::Node, a, b, c, Mark::End, Mark::End];
    }
    for mark in marks {
        if once_in(shaker, 3) {
            continue;
        }
        match shaker.between(0, 9) {
            0 => {
                let count = below(shaker, 9);
                file.extend(bytes(shaker, count));
            }
            1 | 2 => file.extend(random_record(shaker, mark)),
            _ => file.extend(good_record(mark)),
        }
    }
    in_ample_space(file)
}

/// A good lot, with any space.
fn good_lot(shaker: &mut Shaker) -> Question {
    let lot = random_lot(shaker);
    Question::Read { space: spaces(shaker, lot.needs()), file: lot.file() }
}

/// One change of a file, given as its records.
fn change(shaker: &mut Shaker, records: &mut Vec<Vec<u8>>) {
    let (one, other) = (below(shaker, records.len()), below(shaker, records.len()));
    match shaker.between(0, 7) {
        0 => {
            let at = below(shaker, records[one].len());
            records[one][at] = shaker.draw() as u8;
        }
        1 => drop(records.remove(one)),
        2 => records.insert(one, records[other].clone()),
        3 => records.swap(one, other),
        4 => records[one][2] = one_of(shaker, &[0, 1, 11, 12, 13, 31, 32, 33, 255]),
        5 => records[one][3] = shaker.draw() as u8,
        6 => {
            let file = records.concat();
            *records = vec![file[..below(shaker, file.len())].to_vec()];
        }
        _ => {
            let count = 1 + below(shaker, 40);
            records.push(bytes(shaker, count));
        }
    }
}

/// A good lot with one change.
fn changed_lot(shaker: &mut Shaker) -> Question {
    let (nodes, elements) = (below(shaker, 5), below(shaker, 5));
    let lot = good(&random_label(shaker), nodes, elements);
    let lot = with_groups(shaker, lot);
    let mut records = lot.records();
    change(shaker, &mut records);
    Question::Read { space: spaces(shaker, lot.needs()), file: records.concat() }
}

const DRAWN: [(&str, Draw); 4] = [
    ("random bytes", random_bytes),
    ("known marks among random bytes", marks_among_bytes),
    ("random good lots", good_lot),
    ("random good lots with one change", changed_lot),
];
