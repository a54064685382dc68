//! The lot files of document 02, No. 1 and No. 2: what they hold, a plain namer of
//! elements, a plain reader, and in `writing` a plain writer.
//!
//! The reader takes the records in turn and keeps what they hold in memory of
//! its own; only when nothing is left to refuse is it handed out.

use std::ops::Range;

pub mod writing;

#[cfg(test)]
mod tests;

/// 02: "one file of at most 65,536 bytes".
pub const MOST_BYTES: usize = 65_536;

/// 02: "a 1,001st element 26".
pub const MOST_ELEMENTS: usize = 1000;

/// 01: "A label or name is 0 to 32 bytes, each 32..126".
pub const MOST_NAME_BYTES: usize = 32;

/// The words of a node and of an element: "three signed 32-bit", "eight
/// unsigned 32-bit".
pub const NODE_WORDS: usize = 3;
pub const ELEMENT_WORDS: usize = 8;

/// 02: "Each record has a two-byte mark, a two-byte length and a body".
pub const HEAD_BYTES: usize = 4;

/// "LB, the label; ND, a node [...]; HX, an element [...]; EN, empty"; and "GR,
/// a group name".
#[derive(Clone, Copy, Debug, PartialEq, Eq)]
pub enum Mark {
    Label,
    Node,
    Element,
    Group,
    End,
}

impl Mark {
    pub const ALL: [Mark; 5] = [Mark::Label, Mark::Node, Mark::Element, Mark::Group, Mark::End];

    /// The mark as it stands in the file.
    pub fn bytes(self) -> [u8; 2] {
        match self {
            Mark::Label => *b"LB",
            Mark::Node => *b"ND",
            Mark::Element => *b"HX",
            Mark::Group => *b"GR",
            Mark::End => *b"EN",
        }
    }

    fn known(bytes: [u8; 2]) -> Option<Mark> {
        Mark::ALL.into_iter().find(|mark| mark.bytes() == bytes)
    }

    /// "Order: one LB, any ND, any HX, one EN, nothing more."  GR is "allowed
    /// anywhere among the elements"; "No. 1's order gains GR after the nodes".
    fn may_follow(self, before: Option<Mark>) -> bool {
        match before {
            None => self == Mark::Label,
            Some(Mark::Label | Mark::Node) => self != Mark::Label,
            Some(Mark::Element | Mark::Group) => self != Mark::Label && self != Mark::Node,
            Some(Mark::End) => false,
        }
    }

    fn may_have_length(self, length: usize) -> bool {
        match self {
            Mark::Label | Mark::Group => length <= MOST_NAME_BYTES,
            Mark::Node => length == 4 * NODE_WORDS,
            Mark::Element => length == 4 * ELEMENT_WORDS,
            Mark::End => length == 0,
        }
    }
}

/// A byte that a label or name may not have.
fn is_wrong(byte: &u8) -> bool {
    !(32..=126).contains(byte)
}

// ------------------------------------------------------------------ groups --

/// The groups of a lot.  01: "handed in and out as names laid end to end, with
/// each one's length and the count of elements before it".
#[derive(Clone, Debug, Default, PartialEq, Eq)]
pub struct Groups {
    pub names: Vec<u8>,
    pub lengths: Vec<u32>,
    pub offsets: Vec<u32>,
}

impl Groups {
    /// One more group, after this many elements.
    pub fn push(&mut self, before: u32, name: &[u8]) {
        self.names.extend(name);
        self.lengths.push(name.len() as u32);
        self.offsets.push(before);
    }

    /// Of each group the count of elements before it and where its name stands,
    /// as far as both lists go.  A name that would reach past the names' end is
    /// cut there, and one that would start past it is empty.
    pub fn each(&self) -> impl Iterator<Item = (u32, Range<usize>)> + '_ {
        let mut end = 0usize;
        let places = self.lengths.iter().map(move |&length| {
            let start = end;
            end = start.saturating_add(length as usize).min(self.names.len());
            start..end
        });
        self.offsets.iter().copied().zip(places)
    }

    /// Where the name stands that an element, counted from 0, has from its group;
    /// none if it bears the lot's label.  02: a GR is "in force until the next
    /// one"; "a group with an empty name bears the lot's label, and so does an
    /// element before any GR."
    pub fn name_of(&self, element: u32) -> Option<Range<usize>> {
        let (_, name) = self.each().filter(|(before, _)| *before <= element).last()?;
        (!name.is_empty()).then_some(name)
    }

    /// 01: "lists of different length, lengths that don't add up to the names, or a
    /// count that falls or passes the elements, are 24."
    fn fit_together(&self, elements: usize) -> bool {
        let Groups { names, lengths, offsets } = self;
        let sum: u128 = lengths.iter().map(|&length| u128::from(length)).sum();
        lengths.len() == offsets.len()
            && sum == names.len() as u128
            && offsets.windows(2).all(|pair| pair[0] <= pair[1])
            && offsets.iter().all(|&before| before as usize <= elements)
    }

    /// The refusal of groups handed in with a label and this many elements, if there
    /// is one.
    fn tested(&self, label: &[u8], elements: usize) -> Result<(), u32> {
        if !self.fit_together(elements) {
            return Err(24);
        }
        let longest_name = self.each().map(|(_, name)| name.len()).max().unwrap_or(0);
        if label.len().max(longest_name) > MOST_NAME_BYTES {
            return Err(23); // 01: "a longer one handed in is 23"
        }
        if label.iter().chain(&self.names).any(is_wrong) {
            return Err(25); // 01: "then a wrong byte in it 25"
        }
        Ok(())
    }

    /// Names an element, counted from 0, of this many with this label: `name_of`, or
    /// the number of the refusal.  28 is ours, and tested last: there is no such
    /// element.
    pub fn named(
        &self,
        label: &[u8],
        elements: u32,
        element: u32,
    ) -> Result<Option<Range<usize>>, u32> {
        self.tested(label, elements as usize)?;
        if element >= elements {
            return Err(28);
        }
        Ok(self.name_of(element))
    }
}

// -------------------------------------------------------------------- lots --

/// What a lot holds.
#[derive(Clone, Debug, Default, PartialEq, Eq)]
pub struct Lot {
    pub label: Vec<u8>,
    /// x, y, z of each node in turn.
    pub nodes: Vec<i32>,
    /// Eight indices of each element in turn.
    pub elements: Vec<u32>,
    pub groups: Groups,
}

/// Lengths of lent runs: for the nodes' words, the elements' words, the names'
/// bytes, the names' lengths, the counts of elements before each group.
pub type Space = [usize; 5];

/// Space in which every lot fits.
pub const AMPLE: Space = [usize::MAX; 5];

impl Lot {
    /// A lot without groups.
    pub fn new(
        label: &[u8],
        nodes: &[[i32; NODE_WORDS]],
        elements: &[[u32; ELEMENT_WORDS]],
    ) -> Lot {
        Lot {
            label: label.to_vec(),
            nodes: nodes.concat(),
            elements: elements.concat(),
            groups: Groups::default(),
        }
    }

    /// The lot with one more group, after this many elements.
    pub fn group(mut self, before: u32, name: &[u8]) -> Lot {
        self.groups.push(before, name);
        self
    }

    /// The name that an element, counted from 0, bears.
    pub fn name_of(&self, element: u32) -> &[u8] {
        self.groups.name_of(element).map_or(&self.label, |name| &self.groups.names[name])
    }

    /// The least space in which the lot fits.
    pub fn needs(&self) -> Space {
        let Groups { names, lengths, offsets } = &self.groups;
        [self.nodes.len(), self.elements.len(), names.len(), lengths.len(), offsets.len()]
    }
}

// ----------------------------------------------------------------- reading --

/// A lot that was read, and where its label stands: "the label comes back as the
/// bytes in the file themselves, not as a copy."
#[derive(Clone, Debug, Default, PartialEq, Eq)]
pub struct Reading {
    pub label_at: usize,
    pub lot: Lot,
}

/// 01: "Numbers in our files stand low byte first."
fn words(body: &[u8]) -> Vec<u32> {
    let word = |four: &[u8]| (0..4).map(|place| u32::from(four[place]) << (8 * place)).sum();
    body.chunks_exact(4).map(word).collect()
}

/// The record at the head of `rest`: its mark and its body, or the first fault
/// in 02's order, of those that the record before and these bytes decide.
fn first_record(rest: &[u8], before: Option<Mark>) -> Result<(Mark, &[u8]), u32> {
    if rest.len() < HEAD_BYTES {
        return Err(21); // "fewer than four bytes left 21"
    }
    let Some(mark) = Mark::known([rest[0], rest[1]]) else {
        return Err(22); // "unknown mark 22"
    };
    if !mark.may_follow(before) {
        return Err(24); // "mark out of place 24"
    }
    let length = usize::from(rest[2]) + 256 * usize::from(rest[3]);
    if !mark.may_have_length(length) {
        return Err(23); // "wrong length 23"
    }
    match rest.get(HEAD_BYTES..HEAD_BYTES + length) {
        None => Err(21), // "body cut short 21"
        Some(body) => Ok((mark, body)),
    }
}

/// What one more record says, put to the lot; `at` is where its body stands.
fn take(reading: &mut Reading, mark: Mark, body: &[u8], at: usize) -> Result<(), u32> {
    let lot = &mut reading.lot;
    let elements = lot.elements.len() / ELEMENT_WORDS;
    match mark {
        Mark::Label | Mark::Group if body.iter().any(is_wrong) => {
            return Err(25); // "label byte 25", and 01: "a wrong byte in it 25"
        }
        Mark::Element if elements == MOST_ELEMENTS => {
            return Err(26); // "a 1,001st element 26"
        }
        Mark::Label => {
            reading.label_at = at;
            lot.label.extend(body);
        }
        Mark::Node => lot.nodes.extend(words(body).iter().map(|&word| word as i32)),
        Mark::Element => lot.elements.extend(words(body)),
        Mark::Group => lot.groups.push(elements as u32, body),
        Mark::End => {}
    }
    Ok(())
}

/// Reads a lot file for lent space of these lengths; the number of the refusal
/// if there is one.
pub fn read_lot(file: &[u8], space: Space) -> Result<Reading, u32> {
    if file.len() > MOST_BYTES {
        return Err(20); // "20 file too long, tested first"
    }
    let mut reading = Reading::default();
    let mut before = None;
    let mut at = 0;
    while before != Some(Mark::End) {
        let (mark, body) = first_record(&file[at..], before)?;
        take(&mut reading, mark, body, at + HEAD_BYTES)?;
        at += HEAD_BYTES + body.len();
        before = Some(mark);
    }
    if at < file.len() {
        return Err(24); // "Bytes after EN, whatever they are, are 24."
    }
    if reading.lot.needs().iter().zip(space).any(|(&need, lent)| need > lent) {
        return Err(27); // "don't fit the lent space"; "its 27 counts groups too"
    }
    Ok(reading)
}
