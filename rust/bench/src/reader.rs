//! Readers of lot files as one would write them in Rust: the first pass tests
//! everything and counts, the second fills the lent slices.  Ordinary programs,
//! without proofs.
//!
//! One takes record after record in its first pass; the other takes the run of
//! nodes and the runs of elements by their heads, which are the same four bytes
//! in every good record, and looks closer only where a run ends.

const MOST_BYTES: usize = 65_536;
const MOST_ELEMENTS: usize = 1000;
const MOST_LABEL_BYTES: usize = 32;

const HEAD_BYTES: usize = 4;
const NODE_BYTES: usize = 12;
const NODE_RECORD: usize = HEAD_BYTES + NODE_BYTES;
const ELEMENT_BYTES: usize = 32;
const ELEMENT_RECORD: usize = HEAD_BYTES + ELEMENT_BYTES;

/// The kinds of records, in their order but for groups, which stand among the
/// elements.
#[derive(Clone, Copy, PartialEq, PartialOrd)]
enum Kind {
    Label,
    Node,
    Element,
    Group,
    End,
}

/// The kind that a mark names, and whether the length is one of it.
fn kind_of(mark: [u8; 2], length: usize) -> Option<(Kind, bool)> {
    match &mark {
        b"LB" => Some((Kind::Label, length <= MOST_LABEL_BYTES)),
        b"ND" => Some((Kind::Node, length == NODE_BYTES)),
        b"HX" => Some((Kind::Element, length == ELEMENT_BYTES)),
        b"GR" => Some((Kind::Group, length <= MOST_LABEL_BYTES)),
        b"EN" => Some((Kind::End, length == 0)),
        _ => None,
    }
}

/// A record without fault, and the bytes after it.
struct Record<'a> {
    kind: Kind,
    body: &'a [u8],
    after: &'a [u8],
}

fn in_place(kind: Kind, before: Option<Kind>) -> bool {
    match before {
        None => kind == Kind::Label,
        Some(Kind::Group) => kind >= Kind::Element,
        Some(before) => kind != Kind::Label && kind >= before,
    }
}

/// The record at the head of `rest`, after a record of kind `before` and this
/// many elements.
fn record(rest: &[u8], before: Option<Kind>, elements: usize) -> Result<Record<'_>, u32> {
    let (&[m0, m1, l0, l1], after) = rest.split_first_chunk::<HEAD_BYTES>().ok_or(21u32)?;
    let length = usize::from(u16::from_le_bytes([l0, l1]));
    let (kind, right_length) = kind_of([m0, m1], length).ok_or(22u32)?;
    if !in_place(kind, before) {
        return Err(24);
    }
    if !right_length {
        return Err(23);
    }
    let (body, after) = after.split_at_checked(length).ok_or(21u32)?;
    let named = kind == Kind::Label || kind == Kind::Group;
    match kind {
        _ if named && !body.iter().all(|byte| (32..=126).contains(byte)) => Err(25),
        Kind::Element if elements == MOST_ELEMENTS => Err(26),
        _ => Ok(Record { kind, body, after }),
    }
}

/// What a lot without fault holds: its label, and how many of each, the names in
/// bytes.
#[derive(Default)]
struct Contents<'a> {
    label: &'a [u8],
    nodes: usize,
    elements: usize,
    groups: usize,
    names: usize,
}

/// The first pass, record by record.
fn by_records(file: &[u8]) -> Result<Contents<'_>, u32> {
    let mut contents = Contents::default();
    let mut before = None;
    let mut rest = file;
    while before != Some(Kind::End) {
        let Record { kind, body, after } = record(rest, before, contents.elements)?;
        match kind {
            Kind::Label => contents.label = body,
            Kind::Node => contents.nodes += 1,
            Kind::Element => contents.elements += 1,
            Kind::Group => {
                contents.groups += 1;
                contents.names += body.len();
            }
            Kind::End => {}
        }
        before = Some(kind);
        rest = after;
    }
    if rest.is_empty() {
        Ok(contents)
    } else {
        Err(24)
    }
}

/// The first pass, by runs.  A good node or element stands in its run, if it is
/// no 1,001st, so that only a group or the end is without fault behind them.
fn by_runs(file: &[u8]) -> Result<Contents<'_>, u32> {
    let Record { body: label, after: mut rest, .. } = record(file, None, 0)?;
    let is_node = |record: &&[u8]| record.starts_with(b"ND\x0C\0");
    let nodes = rest.chunks_exact(NODE_RECORD).take_while(is_node).count();
    rest = &rest[NODE_RECORD * nodes..];
    let mut contents = Contents { label, nodes, ..Contents::default() };
    let is_element = |record: &&[u8]| record.starts_with(b"HX\x20\0");
    loop {
        let records = rest.chunks_exact(ELEMENT_RECORD).take_while(is_element);
        let run = records.take(MOST_ELEMENTS - contents.elements).count();
        rest = &rest[ELEMENT_RECORD * run..];
        contents.elements += run;
        let among = contents.elements > 0 || contents.groups > 0;
        let before = if among { Kind::Element } else { Kind::Node };
        let Record { kind, body, after } = record(rest, Some(before), contents.elements)?;
        if kind == Kind::End {
            return if after.is_empty() { Ok(contents) } else { Err(24) };
        }
        contents.groups += 1;
        contents.names += body.len();
        rest = after;
    }
}

/// The second pass, for a run of records of one kind: the words of each body in
/// turn.
fn fill<const WORDS: usize, T>(records: &[u8], words: &mut [T], word: fn([u8; 4]) -> T) {
    let records = records.chunks_exact(HEAD_BYTES + 4 * WORDS);
    for (record, words) in records.zip(words.chunks_exact_mut(WORDS)) {
        for (four, into) in record[HEAD_BYTES..].chunks_exact(4).zip(words) {
            *into = word([four[0], four[1], four[2], four[3]]);
        }
    }
}

/// Lent space.
#[derive(Clone, Debug, PartialEq)]
pub struct Space {
    pub nodes: Vec<i32>,
    pub elements: Vec<u32>,
    pub names: Vec<u8>,
    pub lengths: Vec<u32>,
    pub offsets: Vec<u32>,
}

/// The second pass, for elements with groups among them.
fn fill_among(mut records: &[u8], space: &mut Space) {
    let (mut element, mut group, mut name) = (0, 0, 0);
    while let Some((&[mark, _, length, _], after)) = records.split_first_chunk::<HEAD_BYTES>() {
        let length = usize::from(length);
        if mark == b'H' {
            let words = &mut space.elements[8 * element..][..8];
            fill::<8, u32>(&records[..ELEMENT_RECORD], words, u32::from_le_bytes);
            element += 1;
        } else {
            space.names[name..][..length].copy_from_slice(&after[..length]);
            space.lengths[group] = length as u32;
            space.offsets[group] = element as u32;
            name += length;
            group += 1;
        }
        records = &after[length..];
    }
}

/// Number, nodes, elements, groups, bytes of names; and the label.
pub type Answer<'a> = ([u32; 5], &'a [u8]);

#[inline(always)]
fn read<'a>(
    file: &'a [u8],
    space: &mut Space,
    first_pass: impl Fn(&'a [u8]) -> Result<Contents<'a>, u32>,
) -> Result<Answer<'a>, u32> {
    if file.len() > MOST_BYTES {
        return Err(20);
    }
    let found = first_pass(file)?;
    if 3 * found.nodes > space.nodes.len()
        || 8 * found.elements > space.elements.len()
        || found.names > space.names.len()
        || found.groups > space.lengths.len().min(space.offsets.len())
    {
        return Err(27);
    }
    let records = &file[HEAD_BYTES + found.label.len()..file.len() - HEAD_BYTES];
    let (nodes, records) = records.split_at(NODE_RECORD * found.nodes);
    fill::<3, i32>(nodes, &mut space.nodes, i32::from_le_bytes);
    if found.groups == 0 {
        fill::<8, u32>(records, &mut space.elements, u32::from_le_bytes);
    } else {
        fill_among(records, space);
    }
    let counts = [found.nodes, found.elements, found.groups, found.names];
    let [nodes, elements, groups, names] = counts.map(|count| count as u32);
    Ok(([0, nodes, elements, groups, names], found.label))
}

fn refused(file: &[u8], number: u32) -> Answer<'_> {
    ([number, 0, 0, 0, 0], &file[..0])
}

pub fn read_by_records<'a>(file: &'a [u8], space: &mut Space) -> Answer<'a> {
    read(file, space, by_records).unwrap_or_else(|number| refused(file, number))
}

pub fn read_by_runs<'a>(file: &'a [u8], space: &mut Space) -> Answer<'a> {
    read(file, space, by_runs).unwrap_or_else(|number| refused(file, number))
}
