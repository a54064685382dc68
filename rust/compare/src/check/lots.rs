//! Answers about lots, word by word: what is read, written, named and printed; and
//! that writing and reading undo each other.

use super::lent::{Fenced, Pattern, FENCE};
use super::Words;
use crate::program::{Lent, Name, Prints, Program, ReadLot, Reads, SlipSpace, Writes, Written};
use brundhal::SLIP_BYTES;
use second::lot::{Groups, Lot, Space, ELEMENT_WORDS, HEAD_BYTES, NODE_WORDS};
use std::ops::Range;
use std::sync::LazyLock;

// ------------------------------------------------------------------- words --

/// Words of one kind that follow each other, and how many words of a fence stand on
/// both sides of them.
struct Part {
    name: &'static str,
    words: usize,
    fence: usize,
}

/// An answer as it is put together, part by part.
#[derive(Default)]
struct Told {
    words: Vec<i64>,
    parts: Vec<Part>,
}

impl Told {
    fn word(&mut self, name: &'static str, word: i64) {
        self.run(name, &[word]);
    }

    fn run<T: Copy + Into<i64>>(&mut self, name: &'static str, run: &[T]) {
        self.words.extend(run.iter().map(|&word| word.into()));
        self.parts.push(Part { name, words: run.len(), fence: 0 });
    }

    fn space<T: Pattern>(&mut self, name: &'static str, space: &Fenced<T>) {
        self.words.extend(space.whole().iter().map(|&word| word.into()));
        self.parts.push(Part { name, words: space.inner().len(), fence: FENCE });
    }

    fn done(self) -> Words {
        let parts = self.parts;
        Words { words: self.words, name: Box::new(move |place| name_in(&parts, place)) }
    }
}

/// What the word at a place is.
fn name_in(parts: &[Part], mut place: usize) -> String {
    for &Part { name, words, fence } in parts {
        let whole = words + 2 * fence;
        if place < whole {
            return match place.checked_sub(fence) {
                Some(0) if whole == 1 => name.to_string(),
                Some(at) if at < words => format!("{name} {at} from 0"),
                _ => format!("{name} beside the space"),
            };
        }
        place -= whole;
    }
    "a word past the answer".to_string()
}

/// Where a part stands in the bytes that were handed in, by its address; -1 if it
/// is none of them.
fn place_in(bytes: &[u8], part: &[u8]) -> i64 {
    let (bytes, part) = (bytes.as_ptr_range(), part.as_ptr_range());
    if bytes.start <= part.start && part.end <= bytes.end {
        part.start as i64 - bytes.start as i64
    } else {
        -1
    }
}

// ----------------------------------------------------------------- reading --

/// Lent space for a lot.
struct LotSpace {
    nodes: Fenced<i32>,
    elements: Fenced<u32>,
    names: Fenced<u8>,
    lengths: Fenced<u32>,
    offsets: Fenced<u32>,
}

impl LotSpace {
    fn new([nodes, elements, names, lengths, offsets]: Space) -> LotSpace {
        LotSpace {
            nodes: Fenced::new(nodes),
            elements: Fenced::new(elements),
            names: Fenced::new(names),
            lengths: Fenced::new(lengths),
            offsets: Fenced::new(offsets),
        }
    }

    fn lent(&mut self) -> Lent<'_> {
        Lent {
            nodes: self.nodes.lent(),
            elements: self.elements.lent(),
            names: self.names.lent(),
            lengths: self.lengths.lent(),
            offsets: self.offsets.lent(),
        }
    }
}

/// What is said of a lot, the label's bytes, and the lent space with its fences.
pub fn read_words(program: &dyn Reads, file: &[u8], space: Space) -> Words {
    let mut space = LotSpace::new(space);
    let ReadLot { number, nodes, elements, groups, names, label } =
        program.read_lot(file, space.lent());
    let mut told = Told::default();
    told.word("number", number.into());
    told.word("number of nodes", nodes.into());
    told.word("number of elements", elements.into());
    told.word("number of groups", groups.into());
    told.word("bytes of the names", names.into());
    told.word("label's place", place_in(file, label));
    told.word("label's length", label.len() as i64);
    told.space("node word", &space.nodes);
    told.space("element word", &space.elements);
    told.space("name byte", &space.names);
    told.space("name's length", &space.lengths);
    told.space("count before a group", &space.offsets);
    told.run("label byte", label);
    told.done()
}

/// Space in which all nodes, elements and groups fit that a file of this length can
/// hold, with some words to spare.
pub fn ample_space(file_len: usize) -> Space {
    let groups = file_len / HEAD_BYTES + 1;
    [
        NODE_WORDS * (file_len / 16 + 1),
        ELEMENT_WORDS * (file_len / 36 + 1),
        file_len,
        groups,
        groups,
    ]
}

/// All that is read of a file that is accepted.
fn whole_lot(program: &dyn Reads, file: &[u8], space: Space) -> Option<Lot> {
    let [nodes, elements, names, lengths, offsets] = space;
    let (mut nodes, mut names) = (vec![0; nodes], vec![0; names]);
    let [mut elements, mut lengths, mut offsets] =
        [elements, lengths, offsets].map(|words| vec![0; words]);
    let lent = Lent {
        nodes: &mut nodes,
        elements: &mut elements,
        names: &mut names,
        lengths: &mut lengths,
        offsets: &mut offsets,
    };
    let read = program.read_lot(file, lent);
    nodes.truncate(NODE_WORDS * read.nodes as usize);
    elements.truncate(ELEMENT_WORDS * read.elements as usize);
    names.truncate(read.names as usize);
    lengths.truncate(read.groups as usize);
    offsets.truncate(read.groups as usize);
    let groups = Groups { names, lengths, offsets };
    let lot = Lot { label: read.label.to_vec(), nodes, elements, groups };
    (read.number == 0).then_some(lot)
}

/// 02: "a lot that reads without fault is written back byte for byte", here into
/// space that is just enough.
pub fn not_written_back(program: Program, file: &[u8], space: Space) -> Option<String> {
    let Some(lot) = whole_lot(program.reads, file, space) else {
        return Some("accepted, and then refused".to_string());
    };
    let mut out = vec![0; file.len()];
    match program.writes.write_lot(&lot, &mut out) {
        Written { number: 0, len } if len as usize == file.len() && out == file => None,
        Written { number: 0, .. } => Some("not written back byte for byte".to_string()),
        Written { number, .. } => Some(format!("what is read is not written: {number}")),
    }
}

// ----------------------------------------------------------------- writing --

/// What is said of a lot that is written, and the lent space with its fences.
pub fn written_words(program: &dyn Writes, lot: &Lot, space: usize) -> Words {
    let mut out = Fenced::<u8>::new(space);
    let Written { number, len } = program.write_lot(lot, out.lent());
    let mut told = Told::default();
    told.word("number", number.into());
    told.word("file's length", len.into());
    told.space("file byte", &out);
    told.done()
}

/// 02: "what is written reads back the same", here into space that is just enough.
pub fn not_read_back(program: Program, lot: &Lot, space: usize) -> Option<String> {
    let mut out = vec![0; space];
    let written = program.writes.write_lot(lot, &mut out);
    let file = out.get(..written.len as usize).unwrap_or_default();
    match whole_lot(program.reads, file, lot.needs()) {
        Some(read) if read == *lot => None,
        Some(_) => Some("what is written reads back otherwise".to_string()),
        None => Some("what is written is not read".to_string()),
    }
}

// ------------------------------------------------------ naming and printing --

/// The number of a refusal; or 0, whose name it is, where it stands there, and its
/// bytes.
pub fn name_words(answer: Result<Name, u32>, label: &[u8], groups: &Groups) -> Words {
    let mut told = Told::default();
    told.word("number", answer.err().unwrap_or(0).into());
    let Ok(name) = answer else {
        return told.done();
    };
    let (grouped, of) = match name {
        Name::Group(_) => (1, &groups.names[..]),
        Name::Label(_) => (0, label),
    };
    told.word("1 for a group's name", grouped);
    told.word("name's place", place_in(of, name.bytes()));
    told.word("name's length", name.bytes().len() as i64);
    told.run("name byte", name.bytes());
    told.done()
}

/// Space for a slip, as it is before a call.
static UNTOUCHED: LazyLock<Fenced<u8>> = LazyLock::new(|| Fenced::new(SLIP_BYTES));

/// The words before the text of a slip.
pub const SLIP_HEAD: usize = 2;

/// A slip's length, whether all beside it is as it was, and its text.
pub fn slip_words(program: &dyn Prints, file: &[u8]) -> Words {
    let mut space = UNTOUCHED.clone();
    let out: &mut SlipSpace = space.lent().try_into().expect("space for a slip");
    let length = program.slip(file, out);
    let slip = FENCE..FENCE + length.min(SLIP_BYTES);
    let same = |part: Range<usize>| space.whole()[part.clone()] == UNTOUCHED.whole()[part];
    let untouched = same(0..slip.start) && same(slip.end..space.whole().len());
    let mut told = Told::default();
    told.word("slip's length", length as i64);
    told.word("1 for nothing changed beside the slip", untouched.into());
    told.run("slip byte", &space.whole()[slip]);
    told.done()
}
