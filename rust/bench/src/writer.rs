//! A writer of lot files as one would write it in Rust: all tests, then record
//! after record into the lent slice.  An ordinary program, without proofs.

use second::lot::{Groups, Lot};

const MOST_BYTES: usize = 65_536;
const MOST_ELEMENTS: usize = 1000;
const MOST_LABEL_BYTES: usize = 32;

fn fit_together(groups: &Groups, elements: usize) -> bool {
    let sum: u64 = groups.lengths.iter().map(|&length| u64::from(length)).sum();
    groups.lengths.len() == groups.offsets.len()
        && sum == groups.names.len() as u64
        && groups.offsets.is_sorted()
        && groups.offsets.last().is_none_or(|&last| last as usize <= elements)
}

/// The file's length, or the number of the refusal.
fn tested(lot: &Lot, space: usize) -> Result<usize, u32> {
    let Lot { label, nodes, elements, groups } = lot;
    if nodes.len() % 3 != 0 {
        return Err(2);
    }
    if elements.len() % 8 != 0 {
        return Err(3);
    }
    let count = elements.len() / 8;
    if !fit_together(groups, count) {
        return Err(24);
    }
    let longest = groups.lengths.iter().max().copied().unwrap_or(0) as usize;
    if longest.max(label.len()) > MOST_LABEL_BYTES {
        return Err(23);
    }
    if !label.iter().chain(&groups.names).all(|byte| (32..=126).contains(byte)) {
        return Err(25);
    }
    if count > MOST_ELEMENTS {
        return Err(26);
    }
    let bodies = label.len() + 4 * nodes.len() + 4 * elements.len() + groups.names.len();
    let length = bodies + 4 * (2 + nodes.len() / 3 + count + groups.lengths.len());
    match length {
        _ if length > MOST_BYTES => Err(20),
        _ if length > space => Err(27),
        _ => Ok(length),
    }
}

/// Where the next record goes.
struct Out<'a>(&'a mut [u8]);

impl Out<'_> {
    fn put(&mut self, bytes: &[u8]) {
        let (front, rest) = std::mem::take(&mut self.0).split_at_mut(bytes.len());
        front.copy_from_slice(bytes);
        self.0 = rest;
    }

    fn bytes(&mut self, mark: &[u8; 2], body: &[u8]) {
        self.put(mark);
        self.put(&(body.len() as u16).to_le_bytes());
        self.put(body);
    }

    fn words(&mut self, mark: &[u8; 2], words: impl ExactSizeIterator<Item = [u8; 4]>) {
        self.put(mark);
        self.put(&(4 * words.len() as u16).to_le_bytes());
        words.for_each(|word| self.put(&word));
    }
}

/// Number, and the file's length.
pub type Answer = [u32; 2];

pub fn write(lot: &Lot, out: &mut [u8]) -> Answer {
    let length = match tested(lot, out.len()) {
        Ok(length) => length,
        Err(number) => return [number, 0],
    };
    let Groups { names, lengths, offsets } = &lot.groups;
    let mut out = Out(out);
    out.bytes(b"LB", &lot.label);
    for node in lot.nodes.chunks_exact(3) {
        out.words(b"ND", node.iter().map(|word| word.to_le_bytes()));
    }
    let (mut group, mut name) = (0, 0);
    for at in 0..=lot.elements.len() / 8 {
        while offsets.get(group).is_some_and(|&before| before as usize == at) {
            let end = name + lengths[group] as usize;
            out.bytes(b"GR", &names[name..end]);
            (group, name) = (group + 1, end);
        }
        if let Some(element) = lot.elements.get(8 * at..8 * at + 8) {
            out.words(b"HX", element.iter().map(|word| word.to_le_bytes()));
        }
    }
    out.bytes(b"EN", &[]);
    [0, length as u32]
}
