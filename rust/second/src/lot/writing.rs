//! The writer of 02, No. 2: a lot's records, and the file that they make.
//!
//! `write_record` and `Lot::records` write anything, good or not; `write_lot`
//! refuses what 02 refuses.

use super::{Lot, Mark, ELEMENT_WORDS, MOST_BYTES, MOST_ELEMENTS, NODE_WORDS};

#[cfg(test)]
mod tests;

// ----------------------------------------------------------------- records --

/// A record, with any mark, length and body.
pub fn write_record(mark: [u8; 2], length: u16, body: &[u8]) -> Vec<u8> {
    [&mark[..], &[(length % 256) as u8, (length / 256) as u8], body].concat()
}

/// A record whose length is its body's.
fn write_body(mark: Mark, body: &[u8]) -> Vec<u8> {
    write_record(mark.bytes(), body.len() as u16, body)
}

fn write_words(mark: Mark, words: impl IntoIterator<Item = u32>) -> Vec<u8> {
    let body: Vec<u8> = words.into_iter().flat_map(u32::to_le_bytes).collect();
    write_body(mark, &body)
}

/// A label's record; it is no good one if the label is longer than 32 bytes or
/// has a wrong byte.
pub fn write_label(label: &[u8]) -> Vec<u8> {
    write_body(Mark::Label, label)
}

pub fn write_node(node: &[i32]) -> Vec<u8> {
    write_words(Mark::Node, node.iter().map(|&word| word as u32))
}

pub fn write_element(element: &[u32]) -> Vec<u8> {
    write_words(Mark::Element, element.iter().copied())
}

/// A group's record, good or not as a label's.
pub fn write_group(name: &[u8]) -> Vec<u8> {
    write_body(Mark::Group, name)
}

pub fn write_end() -> Vec<u8> {
    write_body(Mark::End, &[])
}

impl Lot {
    /// The records in their order, each group's after as many elements as stand
    /// before it.
    pub fn records(&self) -> Vec<Vec<u8>> {
        let mut records = vec![write_label(&self.label)];
        records.extend(self.nodes.chunks(NODE_WORDS).map(write_node));
        let mut groups = self.groups.each().peekable();
        let mut elements = self.elements.chunks(ELEMENT_WORDS);
        for written in 0.. {
            while let Some((_, name)) = groups.next_if(|(before, _)| *before <= written) {
                records.push(write_group(&self.groups.names[name]));
            }
            match elements.next() {
                Some(element) => records.push(write_element(element)),
                None => break,
            }
        }
        records.push(write_end());
        records
    }

    /// The records laid end to end.
    pub fn file(&self) -> Vec<u8> {
        self.records().concat()
    }
}

// ------------------------------------------------------------------ writer --

/// Writes a lot file for lent space of this many bytes; the number of the refusal
/// if there is one.  02: "in this order and only then".
pub fn write_lot(lot: &Lot, space: usize) -> Result<Vec<u8>, u32> {
    if lot.nodes.len() % NODE_WORDS != 0 {
        return Err(2); // "2 or 3 for a run's length no multiple of 3 or 8"
    }
    if lot.elements.len() % ELEMENT_WORDS != 0 {
        return Err(3);
    }
    let elements = lot.elements.len() / ELEMENT_WORDS;
    // "24 groups that don't fit together, by 01's house rules; 23; 25"
    lot.groups.tested(&lot.label, elements)?;
    if elements > MOST_ELEMENTS {
        return Err(26);
    }
    let file = lot.file();
    if file.len() > MOST_BYTES {
        return Err(20);
    }
    if file.len() > space {
        return Err(27);
    }
    Ok(file)
}
