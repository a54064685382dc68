//! What the Rust versions share: the tests of a mesh and of its elements, the words
//! of a record, and the numbers that they reckon in, of one word or of two.  An
//! ordinary program, without proofs.

use brundhal::RECORD_WORDS;
use std::array::from_fn;
use std::iter::Sum;
use std::ops::{Add, Sub};

pub type Record = [i64; RECORD_WORDS];

/// A number that coefficients are held in.
pub trait Held: Copy + Ord + Add<Output = Self> + Sub<Output = Self> + Sum {
    const ZERO: Self;
    /// Within these no coefficient is past the number's end.
    const MAX_COORDINATE: i32;
    const MAX_DEPTH: u32;

    /// The number's low word and its high one.
    fn words(self) -> [i64; 2];
    /// The product of two numbers of one word.
    fn product(x: i64, y: i64) -> Self;
    fn times(self, by: i64) -> Self;
}

impl Held for i64 {
    const ZERO: i64 = 0;
    const MAX_COORDINATE: i32 = 4096;
    const MAX_DEPTH: u32 = 3;

    #[inline(always)]
    fn words(self) -> [i64; 2] {
        [self, self >> 63]
    }

    #[inline(always)]
    fn product(x: i64, y: i64) -> i64 {
        x * y
    }

    #[inline(always)]
    fn times(self, by: i64) -> i64 {
        self * by
    }
}

impl Held for i128 {
    const ZERO: i128 = 0;
    const MAX_COORDINATE: i32 = brundhal::MAX_COORDINATE;
    const MAX_DEPTH: u32 = brundhal::MAX_DEPTH;

    #[inline(always)]
    fn words(self) -> [i64; 2] {
        [self as i64, (self >> 64) as i64]
    }

    #[inline(always)]
    fn product(x: i64, y: i64) -> i128 {
        i128::from(x) * i128::from(y)
    }

    #[inline(always)]
    fn times(self, by: i64) -> i128 {
        self * i128::from(by)
    }
}

/// Number, valid, invalid, undecided, refused.
pub type Answer = [u32; 5];

fn refusal<N: Held>(coordinates: &[i32], indices: &[u32], depth: u32, report: &[i64]) -> u32 {
    if depth > N::MAX_DEPTH {
        1
    } else if coordinates.len() % 3 != 0 || coordinates.len() > 3 * 5000 {
        2
    } else if indices.len() % 8 != 0 || indices.len() > 8 * 1000 {
        3
    } else if report.len() != indices.len() / 8 * RECORD_WORDS {
        4
    } else {
        0
    }
}

/// The first two places, counted from 1, with one index.
fn pair(element: &[u32]) -> Option<(usize, usize)> {
    for lower in 0..8 {
        for higher in lower + 1..8 {
            if element[lower] == element[higher] {
                return Some((lower + 1, higher + 1));
            }
        }
    }
    None
}

#[inline(always)]
pub fn in_range<N: Held>(x: i32) -> bool {
    (-N::MAX_COORDINATE..=N::MAX_COORDINATE).contains(&x)
}

/// The eight points of an element, or the record that refuses it.
fn points<N: Held>(coordinates: &[i32], element: &[u32]) -> Result<[[i64; 3]; 8], Record> {
    let nodes = coordinates.len() / 3;
    if let Some(place) = element.iter().position(|&index| index as usize >= nodes) {
        return Err([5, place as i64 + 1, i64::from(element[place]), 0, 0, 0, 0, 0, 0]);
    }
    if let Some((lower, higher)) = pair(element) {
        return Err([7, lower as i64, higher as i64, 0, 0, 0, 0, 0, 0]);
    }
    let mut points = [[0; 3]; 8];
    for (place, &index) in element.iter().enumerate() {
        let node = &coordinates[3 * index as usize..][..3];
        for axis in 0..3 {
            if !in_range::<N>(node[axis]) {
                return Err([6, place as i64 + 1, axis as i64 + 1, 0, 0, 0, 0, 0, 0]);
            }
            points[place][axis] = i64::from(node[axis]);
        }
    }
    Ok(points)
}

/// Inspects a mesh, with a version's way to find the record of eight points.
#[inline(always)]
pub fn inspect<N: Held>(
    coordinates: &[i32],
    indices: &[u32],
    depth: u32,
    report: &mut [i64],
    record: impl Fn(&[[i64; 3]; 8], u32) -> Record,
) -> Answer {
    let number = refusal::<N>(coordinates, indices, depth, report);
    if number != 0 {
        return [number, 0, 0, 0, 0];
    }
    let mut answer = [0; 5];
    for (element, words) in indices.chunks_exact(8).zip(report.chunks_exact_mut(RECORD_WORDS)) {
        let found = match points::<N>(coordinates, element) {
            Ok(points) => record(&points, depth),
            Err(refused) => refused,
        };
        answer[match found[0] {
            0 => 1,
            1 => 2,
            2 => 3,
            _ => 4,
        }] += 1;
        words.copy_from_slice(&found);
    }
    answer
}

/// Eight points from their coordinates, end to end.
pub fn from_run(points: &[i32; 24]) -> [[i64; 3]; 8] {
    from_fn(|at| [0, 1, 2].map(|axis| i64::from(points[3 * at + axis])))
}

/// The six-fold volume that three vectors span.
#[inline(always)]
pub fn determinant<N: Held>(u: [i64; 3], v: [i64; 3], w: [i64; 3]) -> N {
    N::product(u[0], v[1] * w[2] - v[2] * w[1])
        + N::product(u[1], v[2] * w[0] - v[0] * w[2])
        + N::product(u[2], v[0] * w[1] - v[1] * w[0])
}

#[inline(always)]
pub fn difference(from: [i64; 3], to: [i64; 3]) -> [i64; 3] {
    [to[0] - from[0], to[1] - from[1], to[2] - from[2]]
}

#[inline(always)]
pub fn sum(u: [i64; 3], v: [i64; 3]) -> [i64; 3] {
    [u[0] + v[0], u[1] + v[1], u[2] + v[2]]
}

/// Corners 1 to 8 on the reference cube.
pub const CORNERS: [[u32; 3]; 8] =
    [[0, 0, 0], [1, 0, 0], [1, 1, 0], [0, 1, 0], [0, 0, 1], [1, 0, 1], [1, 1, 1], [0, 1, 1]];

/// The record of a corner of some cube with J not above 0.
pub fn invalid(level: u32, cube: [u32; 3], corner: usize, held: impl Held, opened: u32) -> Record {
    let [a, b, c] = [0, 1, 2].map(|axis| i64::from(cube[axis] + CORNERS[corner][axis]));
    let [low, high] = held.words();
    [1, i64::from(level), a, b, c, corner as i64 + 1, low, high, i64::from(opened)]
}

pub fn valid(level: u32, opened: u32) -> Record {
    [0, i64::from(level), 0, 0, 0, 0, 0, 0, i64::from(opened)]
}

/// The record of the first coefficient not above 0 at the depth.
pub fn undecided(
    depth: u32,
    cube: [u32; 3],
    number: usize,
    held: impl Held,
    opened: u32,
) -> Record {
    let [a, b, c] = cube.map(i64::from);
    let [low, high] = held.words();
    [2, i64::from(depth), a, b, c, number as i64, low, high, i64::from(opened)]
}
