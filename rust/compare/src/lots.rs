//! Lots to read, to write, to name elements of and to print: listed ones for every
//! rule of 02, and random ones, each from a seed.

use crate::draw::{once_in, one_of};
use crate::service::Service;
use second::lot::{Lot, Space, ELEMENT_WORDS, NODE_WORDS};
use second::specimens::Shaker;

mod files;
mod names;
mod slips;
mod writes;

pub const READING: Service = files::SERVICE;
pub const WRITING: Service = writes::SERVICE;
pub const NAMING: Service = names::SERVICE;
pub const PRINTING: Service = slips::SERVICE;

// ------------------------------------------------------------------ listed --

/// A node whose words, and whose words' bytes, are all different.
fn node(n: usize) -> [i32; NODE_WORDS] {
    let n = n as i32;
    [0x0102_0304 + n, -0x1122_3344 - n, i32::MIN + n]
}

fn element(n: usize) -> [u32; ELEMENT_WORDS] {
    let n = n as u32;
    [n, n + 1, 0x0102_0304, u32::MAX - n, 1 << 31, 0x0A0B_0C0D ^ n, i32::MAX as u32, 65_536 + n]
}

/// A good lot without groups.
fn good(label: &[u8], nodes: usize, elements: usize) -> Lot {
    let nodes: Vec<_> = (0..nodes).map(node).collect();
    let elements: Vec<_> = (0..elements).map(element).collect();
    Lot::new(label, &nodes, &elements)
}

/// A small lot with two nodes, an element and three groups, one without a name.
fn small() -> Lot {
    good(b"P7", 2, 1).group(0, b"ab").group(0, b"").group(1, b"c")
}

/// Full lots: 4,095 nodes, 1,000 elements, as many groups or names as fit.
fn full() -> [Lot; 4] {
    let groups = |mut lot: Lot, count: usize, name: &[u8]| {
        let elements = lot.elements.len() / ELEMENT_WORDS;
        (0..count).for_each(|n| lot.groups.push((n * elements / count) as u32, name));
        lot
    };
    [
        good(b"8 bytes.", 4095, 0),
        good(b"8 bytes.", 1845, 1000),
        groups(good(b"", 1, 1000), 7378, b""),
        groups(good(b"", 0, 0), 1820, &[b'~'; 32]).group(0, b"last"),
    ]
}

/// Lengths of space where `need` is needed.
fn about(need: usize) -> [usize; 6] {
    [0, need / 2, need.saturating_sub(1), need, need + 1, need + 50]
}

/// A label or name of every length about 32, and with bytes about 32 and 126 at
/// every place.
fn labels() -> Vec<Vec<u8>> {
    let mut labels = Vec::new();
    for length in [0, 1, 2, 31, 32, 33] {
        let label = vec![b'x'; length];
        labels.push(label.clone());
        for at in 0..length {
            for byte in [0, 9, 31, 32, 126, 127, 128, 255] {
                let mut label = label.clone();
                label[at] = byte;
                labels.push(label);
            }
        }
    }
    labels
}

/// All lists of up to `most` numbers, each one of `of`.
fn lists(of: &[u32], most: usize) -> Vec<Vec<u32>> {
    let mut lists = vec![vec![]];
    let mut longest = 0;
    for _ in 0..most {
        let shorter = lists[longest..].to_vec();
        longest = lists.len();
        for list in shorter {
            lists.extend(of.iter().map(|&number| [&list[..], &[number]].concat()));
        }
    }
    lists
}

// ------------------------------------------------------------------- drawn --

fn bytes(shaker: &mut Shaker, count: usize) -> Vec<u8> {
    (0..count).map(|_| shaker.draw() as u8).collect()
}

/// A place or a number in 0..count.
fn below(shaker: &mut Shaker, count: usize) -> usize {
    shaker.between(0, count as i64 - 1) as usize
}

/// A good label or name, often empty.
fn random_label(shaker: &mut Shaker) -> Vec<u8> {
    let length = if once_in(shaker, 4) { 0 } else { below(shaker, 33) };
    (0..length).map(|_| shaker.between(32, 126) as u8).collect()
}

/// How many nodes or elements: few, and now and then up to `most`.
fn some(shaker: &mut Shaker, most: usize) -> usize {
    let few = if once_in(shaker, 200) { most } else { 7 };
    below(shaker, few + 1)
}

/// The lot with groups at any places, some of them at one, now and then many.
fn with_groups(shaker: &mut Shaker, mut lot: Lot) -> Lot {
    let elements = lot.elements.len() / ELEMENT_WORDS;
    let most = if once_in(shaker, 100) { 300 } else { 4 };
    let mut offsets: Vec<u32> =
        (0..below(shaker, most + 1)).map(|_| below(shaker, elements + 1) as u32).collect();
    offsets.sort_unstable();
    for before in offsets {
        lot.groups.push(before, &random_label(shaker));
    }
    lot
}

/// A good lot of any numbers, with or without groups.
fn random_lot(shaker: &mut Shaker) -> Lot {
    let (nodes, elements) = (some(shaker, 1000), some(shaker, 900));
    let label = random_label(shaker);
    let nodes: Vec<_> = (0..nodes).map(|_| [0; NODE_WORDS].map(|_| shaker.draw() as i32)).collect();
    let elements: Vec<_> =
        (0..elements).map(|_| [0; ELEMENT_WORDS].map(|_| shaker.draw() as u32)).collect();
    with_groups(shaker, Lot::new(&label, &nodes, &elements))
}

/// Space where `need` is needed: just enough, or more, or too small.
fn space(shaker: &mut Shaker, need: usize) -> usize {
    match shaker.between(0, 9) {
        0 => 0,
        1 => need.saturating_sub(1),
        2 => below(shaker, need + 1),
        3..=6 => need + below(shaker, 12),
        _ => need,
    }
}

/// Lent space for these needs: often just enough, else one run or all of any
/// length.
fn spaces(shaker: &mut Shaker, mut needs: Space) -> Space {
    let run = below(shaker, needs.len());
    match shaker.between(0, 3) {
        0 => needs[run] = space(shaker, needs[run]),
        1 if once_in(shaker, 4) => needs = needs.map(|need| space(shaker, need)),
        _ => {}
    }
    needs
}

/// A number of 32 bits: small, or at an end, or anything.
fn any_number(shaker: &mut Shaker) -> u32 {
    let (small, any) = (shaker.between(0, 5) as u32, shaker.draw() as u32);
    one_of(shaker, &[small, small, small, small, u32::MAX, u32::MAX - small, 1 << 31, any])
}

/// Up to `most` such numbers.
fn any_numbers(shaker: &mut Shaker, most: usize) -> Vec<u32> {
    (0..below(shaker, most + 1)).map(|_| any_number(shaker)).collect()
}
