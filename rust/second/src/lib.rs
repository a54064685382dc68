//! A second, plain program for the inspection of trilinear hexahedra.
//!
//! It answers what the scope document (01) asks, and 02 where a request of it changed
//! an answer (the stamp, refusal 7, the larger limits), by sampling alone: J is taken
//! from the partial derivatives of the mapping at grid points, and the 27 Bezier
//! coefficients of a cube are fitted to 27 samples.  Nothing is cut, nothing is taken
//! from a table, and all arithmetic is on `i128`.  To depth `EVERY_CUBE` every cube of
//! every level is looked at (`every_cube`); beyond, those that are due (`walk`).  The
//! children of 27 coefficients alone are in `eighths`.  The lot files of document 02 are
//! read and written in `lot`, and the slip is printed in `slip`.

#![deny(warnings)]
#![forbid(unsafe_code)]
// Loops over axes and rows, and the length tests, read as the rules do.
#![allow(clippy::needless_range_loop, clippy::manual_is_multiple_of)]

use std::sync::LazyLock;

pub mod eighths;
mod every_cube;
pub mod lot;
pub mod slip;
pub mod specimens;
mod walk;

#[cfg(test)]
mod tests;

// ---------------------------------------------------------------- limits --

/// The limits of 01, "What the inspector takes", as numbers handed in.
#[derive(Clone, Copy, Debug, PartialEq, Eq)]
pub struct Limits {
    /// A usable coordinate lies in -range..range, both ends included.
    pub range: i64,
    /// The largest depth.
    pub depth: u32,
    /// The most nodes.
    pub nodes: usize,
    /// The most elements.
    pub elements: usize,
}

impl Limits {
    /// 01: "at most 5,000 nodes", "at most 1,000 elements"; 02, No. 8: "Raise
    /// coordinates to -1,048,576..1,048,576 and depth to 8".
    pub const fn base() -> Limits {
        Limits { range: 1_048_576, depth: 8, nodes: 5000, elements: 1000 }
    }
}

/// The largest coordinate and depth for which every number below fits 128 bits: the
/// largest is 64 times a held coefficient, and 384 * (2^21)^3 * 64^(8 + 1) is below
/// 2^126.
const REACH_RANGE: i64 = 1 << 21;
const REACH_DEPTH: u32 = 8;

// ------------------------------------------------------- the reference cube --

/// 01, "The determinant": "Corners 1 to 8 stand at (0,0,0), (1,0,0), (1,1,0),
/// (0,1,0), (0,0,1), (1,0,1), (1,1,1), (0,1,1)."
const CORNERS: [[u32; 3]; 8] =
    [[0, 0, 0], [1, 0, 0], [1, 1, 0], [0, 1, 0], [0, 0, 1], [1, 0, 1], [1, 1, 1], [0, 1, 1]];

/// 01, "The 27 coefficients": "9 to 20: edges 1-2, 2-3, 3-4, 1-4, 1-5, 2-6,
/// 3-7, 4-8, 5-6, 6-7, 7-8, 5-8."
const EDGES: [[usize; 2]; 12] = [
    [1, 2],
    [2, 3],
    [3, 4],
    [1, 4],
    [1, 5],
    [2, 6],
    [3, 7],
    [4, 8],
    [5, 6],
    [6, 7],
    [7, 8],
    [5, 8],
];

/// "21 to 26: faces 1234, 1256, 2367, 3478, 1458, 5678. 27: the centre."
const FACES: [[usize; 4]; 6] =
    [[1, 2, 3, 4], [1, 2, 5, 6], [2, 3, 6, 7], [3, 4, 7, 8], [1, 4, 5, 8], [5, 6, 7, 8]];

/// The place (0, 1 or 2 half steps on each axis) of the middle of some corners.
fn middle_of(corners: &[usize]) -> [usize; 3] {
    let mut place = [0; 3];
    for axis in 0..3 {
        let ones: usize = corners.iter().map(|n| CORNERS[n - 1][axis] as usize).sum();
        place[axis] = 2 * ones / corners.len();
    }
    place
}

/// Places of the 27 coefficients on the 3 by 3 by 3 net, in 01's numbering.
pub fn places() -> [[usize; 3]; 27] {
    let mut places = [[1; 3]; 27]; // 27: the centre
    for n in 1..=8 {
        places[n - 1] = middle_of(&[n]);
    }
    for (i, edge) in EDGES.iter().enumerate() {
        places[8 + i] = middle_of(edge);
    }
    for (i, face) in FACES.iter().enumerate() {
        places[20 + i] = middle_of(face);
    }
    places
}

/// The same, worked once.
static PLACES: LazyLock<[[usize; 3]; 27]> = LazyLock::new(places);

// ------------------------------------------------------------ determinant --

/// 2^m, as a residue modulo 2^128.
fn two_to(m: u32) -> i128 {
    1i128.checked_shl(m).unwrap_or(0)
}

/// 4^m times the partial derivative of the mapping in one direction, at the
/// point `at` / 2^m.  01: "The mapping is trilinear in the eight nodes": each
/// node's weight is a product of three factors, t or 1 - t in each direction;
/// in the direction of the derivative the factor is +1 or -1 instead.
fn partial(points: &[i64; 24], steps: i128, at: [i128; 3], direction: usize) -> [i128; 3] {
    let mut sum = [0i128; 3];
    for (corner, place) in CORNERS.iter().enumerate() {
        let mut weight: i128 = if place[direction] == 1 { 1 } else { -1 };
        for other in (0..3).filter(|&other| other != direction) {
            let factor = if place[other] == 1 { at[other] } else { steps.wrapping_sub(at[other]) };
            weight = weight.wrapping_mul(factor);
        }
        for axis in 0..3 {
            let coordinate = i128::from(points[3 * corner + axis]);
            sum[axis] = sum[axis].wrapping_add(weight.wrapping_mul(coordinate));
        }
    }
    sum
}

/// The determinant of three vectors.
fn determinant(u: [i128; 3], v: [i128; 3], w: [i128; 3]) -> i128 {
    let minor = |i: usize, j: usize| v[i].wrapping_mul(w[j]).wrapping_sub(v[j].wrapping_mul(w[i]));
    u[0].wrapping_mul(minor(1, 2))
        .wrapping_add(u[1].wrapping_mul(minor(2, 0)))
        .wrapping_add(u[2].wrapping_mul(minor(0, 1)))
}

/// 64^m times J at the point `at` / 2^m, `steps` being 2^m.
fn jacobian_at(points: &[i64; 24], steps: i128, at: [i128; 3]) -> i128 {
    determinant(
        partial(points, steps, at, 0),
        partial(points, steps, at, 1),
        partial(points, steps, at, 2),
    )
}

/// 64^m times J at the grid point (a, b, c) / 2^m.
///
/// 01: "J is the determinant of its three partial derivatives in the order
/// xi, eta, zeta"; "there 64^m J is a whole number, and that whole number is
/// the definition."  The answer is exact whenever it fits 128 bits, and its
/// residue modulo 2^128 otherwise.
pub fn jacobian(points: &[i64; 24], m: u32, a: u64, b: u64, c: u64) -> i128 {
    jacobian_at(points, two_to(m), [a, b, c].map(i128::from))
}

// ----------------------------------------------------------- coefficients --

/// A net of 3 by 3 by 3 numbers, indexed by xi, eta, zeta.
type Net = [[[i128; 3]; 3]; 3];

/// From f(0), f(1/2), f(1) twice the coefficients of a quadratic:
/// p = f(0), q = 2 f(1/2) - (f(0) + f(1))/2, r = f(1).
/// (01's edge rule is the same: "edge = 2 (J at its middle) - half the sum of
/// its two corner values".)
fn twice_the_row(f: [i128; 3]) -> [i128; 3] {
    let twice = |x: i128| x.wrapping_add(x);
    let four_middles = twice(twice(f[1]));
    [twice(f[0]), four_middles.wrapping_sub(f[0]).wrapping_sub(f[2]), twice(f[2])]
}

/// Eight times the coefficients of the polynomial of degree 2 in each
/// direction that has the sampled values: the row rule in xi, eta and zeta.
fn eight_times_the_fit(mut net: Net) -> Net {
    for j in 0..3 {
        for k in 0..3 {
            let row = twice_the_row([net[0][j][k], net[1][j][k], net[2][j][k]]);
            for i in 0..3 {
                net[i][j][k] = row[i];
            }
        }
    }
    for i in 0..3 {
        for k in 0..3 {
            let row = twice_the_row([net[i][0][k], net[i][1][k], net[i][2][k]]);
            for j in 0..3 {
                net[i][j][k] = row[j];
            }
        }
    }
    for i in 0..3 {
        for j in 0..3 {
            net[i][j] = twice_the_row(net[i][j]);
        }
    }
    net
}

/// The 27 coefficients of a cube of level m, held times 8 * 64^m, in 01's
/// numbering, from the 27 samples of 64^(m+1) J on its twice finer grid.
///
/// 01: "All are kept times 8, and are then whole"; "A level-m coefficient is
/// thus held times 8 * 64^m".
fn coefficients_from(samples: Net) -> [i128; 27] {
    let net = eight_times_the_fit(samples); // times 8 * 64^(m+1)
    PLACES.map(|[i, j, k]| {
        assert_eq!(net[i][j][k] % 64, 0, "a held coefficient is whole");
        net[i][j][k] / 64
    })
}

/// The 27 coefficients of the level-m cube at `at`, in 01's numbering.  Exact whenever
/// 64 times each fits 128 bits.
pub fn coefficients(points: &[i64; 24], m: u32, at: [u32; 3]) -> [i128; 27] {
    let low = at.map(|number| 2 * i128::from(number));
    let block = Grid::block(points, m + 1, low, 3);
    coefficients_from(block.on_the_cube([0; 3]))
}

// ------------------------------------------------------------------- grids --

/// 64^m J at every grid point of level m, or at those of a block.
struct Grid {
    /// Points on one axis: 2^m + 1 of a whole level.
    side: usize,
    values: Vec<i128>,
}

impl Grid {
    /// 01: "A grid point of level m, for any whole m from 0 up, past the
    /// largest depth too, is (a, b, c)/2^m with a, b, c in 0..2^m".
    fn sampled(points: &[i64; 24], m: u32) -> Grid {
        Grid::block(points, m, [0; 3], (1 << m) + 1)
    }

    /// The points of level m from `low` on, `side` of them on each axis.
    ///
    /// A partial derivative is the same all along its own direction, and is
    /// worked once for each pair of the other two numbers.
    fn block(points: &[i64; 24], m: u32, low: [i128; 3], side: usize) -> Grid {
        let steps = two_to(m);
        let on_a_face = |direction: usize| -> Vec<[i128; 3]> {
            let along = |pair: usize| {
                let (i, j) = ((pair / side) as i128, (pair % side) as i128);
                let from_low = [[0, i, j], [i, 0, j], [i, j, 0]][direction];
                let at = [0, 1, 2].map(|axis| low[axis] + from_low[axis]);
                partial(points, steps, at, direction)
            };
            (0..side * side).map(along).collect()
        };
        let [xi, eta, zeta] = [0, 1, 2].map(on_a_face);
        let mut values = Vec::with_capacity(side * side * side);
        for a in 0..side {
            for b in 0..side {
                for c in 0..side {
                    let (u, v) = (xi[b * side + c], eta[a * side + c]);
                    values.push(determinant(u, v, zeta[a * side + b]));
                }
            }
        }
        Grid { side, values }
    }

    fn at(&self, [a, b, c]: [usize; 3]) -> i128 {
        self.values[(a * self.side + b) * self.side + c]
    }

    /// The 27 values of this grid on the cube, one level coarser, at `cube`.
    fn on_the_cube(&self, cube: [u32; 3]) -> Net {
        let low = cube.map(|number| 2 * number as usize);
        let mut samples: Net = [[[0; 3]; 3]; 3];
        for [i, j, k] in *PLACES {
            samples[i][j][k] = self.at([low[0] + i, low[1] + j, low[2] + k]);
        }
        samples
    }

    fn least(&self) -> i128 {
        self.values.iter().copied().min().unwrap_or(0)
    }
}

// ------------------------------------------------------------------ record --

/// A number that is not above 0, with its place in 01's numbering.
#[derive(Clone, Copy)]
struct Fault {
    number: usize,
    /// Held times 8 * 64^level.
    held: i128,
}

/// The lowest-numbered of some held numbers that is <= 0.
fn first_fault(held: &[i128]) -> Option<Fault> {
    let found = held.iter().position(|&value| value <= 0)?;
    Some(Fault { number: found + 1, held: held[found] })
}

/// 02, No. 8: "a record is nine words."
pub const RECORD_WORDS: usize = 9;

pub type Record = [i64; RECORD_WORDS];

/// What a record says, its value in full.
#[derive(Clone, Copy, Debug, PartialEq, Eq)]
struct Said {
    /// 0 valid, 1 invalid, 2 undecided.
    kind: i64,
    level: u32,
    /// Grid numbers of the point or of the cube.
    at: [u32; 3],
    /// Number of the corner or of the coefficient.
    number: usize,
    held: i128,
    opened: i64,
}

impl Said {
    /// 01's table, column "invalid": "level", "a, b, c of the point", "corner
    /// number", "J times 8 * 64^level", "opened".  The corner is one of the cube `at`.
    fn invalid(level: u32, at: [u32; 3], fault: Fault, opened: i64) -> Said {
        let place = CORNERS[fault.number - 1];
        let point = [0, 1, 2].map(|axis| at[axis] + place[axis]);
        Said { kind: 1, level, at: point, number: fault.number, held: fault.held, opened }
    }

    /// Column "undecided": "D", "a, b, c of the cube", "coefficient number",
    /// "coefficient, held as above", "opened".
    fn undecided(level: u32, at: [u32; 3], fault: Fault, opened: i64) -> Said {
        Said { kind: 2, level, at, number: fault.number, held: fault.held, opened }
    }

    /// Column "valid": the level, the opened count, and 0 between.
    fn valid(level: u32, opened: i64) -> Said {
        Said { kind: 0, level, at: [0; 3], number: 0, held: 0, opened }
    }

    /// 02, No. 8: "Word 6 becomes two words, low 64 bits and then high, as two's
    /// complement; the opened count moves to word 8".
    fn words(&self) -> Record {
        let [a, b, c] = self.at.map(i64::from);
        let [low, high] = two_words(self.held);
        let (level, number) = (i64::from(self.level), self.number as i64);
        [self.kind, level, a, b, c, number, low, high, self.opened]
    }
}

/// "low 64 bits and then high, as two's complement", each as a signed number.
pub fn two_words(held: i128) -> [i64; 2] {
    [held as i64, (held >> 64) as i64]
}

/// Low and high.  01: "low is the least coefficient of all level-D cubes; high is the
/// least J over all level-D grid points; both times 8 * 64^D."
pub type Bounds = (i128, i128);

/// The largest depth at which every cube of every level is looked at.
pub const EVERY_CUBE: u32 = 3;

fn test_reach(points: &[i64; 24], depth: u32) {
    assert!(depth <= REACH_DEPTH, "depth {depth} is past the reach");
    let past = points.iter().find(|x| x.unsigned_abs() > REACH_RANGE as u64);
    assert_eq!(past, None, "a coordinate is past the reach");
}

/// The record and both bounds at every depth from 0 to `depth`, each level being looked
/// at once.
pub fn over_depths(points: &[i64; 24], depth: u32) -> Vec<(Record, Bounds)> {
    test_reach(points, depth);
    let (said, bounds) = if depth <= EVERY_CUBE {
        every_cube::records_and_bounds(points, depth)
    } else {
        (walk::records(points, depth), walk::bounds(points, depth))
    };
    said.iter().map(Said::words).zip(bounds).collect()
}

/// The record alone at every depth from 0 to `depth`: past `EVERY_CUBE` in less time.
pub fn records(points: &[i64; 24], depth: u32) -> Vec<Record> {
    if depth <= EVERY_CUBE {
        return over_depths(points, depth).into_iter().map(|(record, _)| record).collect();
    }
    test_reach(points, depth);
    walk::records(points, depth).iter().map(Said::words).collect()
}

/// 01: "Their record at a depth follows from the verdict by this table".
pub fn record(points: &[i64; 24], depth: u32) -> Record {
    records(points, depth)[depth as usize]
}

// ------------------------------------------------------------------ bounds --

/// Both bounds of eight points at a depth.
pub fn bounds_of(points: &[i64; 24], depth: u32) -> Bounds {
    if depth <= EVERY_CUBE {
        return over_depths(points, depth)[depth as usize].1;
    }
    test_reach(points, depth);
    walk::bounds(points, depth)[depth as usize]
}

/// What the bounds service answers.
#[derive(Clone, Copy, Debug, PartialEq, Eq)]
pub struct BoundsAnswer {
    /// 0, or the number of the refusal.
    pub number: u32,
    pub low: i128,
    pub high: i128,
}

/// 01: "The bounds service takes eight points and a depth and answers 0 with
/// both bounds. It refuses with 1 and then 6 and no other, by number alone,
/// and both bounds are then 0."
pub fn bounds(limits: &Limits, points: &[i32; 24], depth: u32) -> BoundsAnswer {
    let points = points.map(i64::from);
    if depth > limits.depth {
        return BoundsAnswer { number: 1, low: 0, high: 0 };
    }
    if first_unusable(limits, &points).is_some() {
        return BoundsAnswer { number: 6, low: 0, high: 0 };
    }
    let (low, high) = bounds_of(&points, depth);
    BoundsAnswer { number: 0, low, high }
}

// -------------------------------------------------------------- inspection --

/// 01: "An accepted mesh answers 0 with four counts: valid, invalid,
/// undecided, refused."
#[derive(Clone, Copy, Debug, Default, PartialEq, Eq)]
pub struct Inspection {
    /// 0, or the number of the refusal.
    pub number: u32,
    pub valid: u32,
    pub invalid: u32,
    pub undecided: u32,
    pub refused: u32,
}

/// 01, "When the desk says no": "1 to 4 are tested in that order, and given
/// only then."  0 for an accepted mesh.
fn mesh_refusal(
    limits: &Limits,
    coordinates: &[i32],
    indices: &[u32],
    depth: u32,
    report: &[i64],
) -> u32 {
    if depth > limits.depth {
        return 1; // "depth above 3", now 8
    }
    if coordinates.len() % 3 != 0 || coordinates.len() / 3 > limits.nodes {
        return 2; // "not a multiple of 3, or over 5,000 nodes"
    }
    if indices.len() % 8 != 0 || indices.len() / 8 > limits.elements {
        return 3; // "not a multiple of 8, or over 1,000 elements"
    }
    if report.len() != indices.len() / 8 * RECORD_WORDS {
        return 4; // "not exactly 8 words an element", now 9
    }
    0
}

/// "5: an index not below the node count"; "lowest place first".
/// The place, 1..8, and the index.
fn first_bad_index(nodes: usize, element: &[u32]) -> Option<(i64, i64)> {
    let bad = |&index: &u32| usize::try_from(index).map_or(true, |index| index >= nodes);
    let place = element.iter().position(bad)?;
    Some((place as i64 + 1, i64::from(element[place])))
}

/// 02, No. 5: "One index in two places of an element"; "lowest first place and
/// then lowest second".  The lower and the higher place, 1..8.
fn first_pair(element: &[u32]) -> Option<(i64, i64)> {
    let places = |(before, index): (usize, &u32)| {
        let between = element[before + 1..].iter().position(|other| other == index)?;
        Some((before as i64 + 1, (before + between) as i64 + 2))
    };
    element.iter().enumerate().find_map(places)
}

/// "6: a coordinate outside the range"; "lowest place first, then x, y, z".
/// The place, 1..8, and the axis, 1..3.
fn first_unusable(limits: &Limits, points: &[i64; 24]) -> Option<(i64, i64)> {
    let range = i128::from(limits.range);
    let unusable = |&x: &i64| i128::from(x) > range || i128::from(x) < -range;
    let found = points.iter().position(unusable)?;
    Some((found as i64 / 3 + 1, found as i64 % 3 + 1))
}

/// 01: "An element's eight points are the nodes that its indices name, in
/// place order."  None if one of them names no node.
pub fn points_of(coordinates: &[i32], element: &[u32]) -> Option<[i32; 24]> {
    let mut points = [0; 24];
    for (place, &index) in element.iter().enumerate().take(8) {
        for axis in 0..3 {
            let at = usize::try_from(index).ok()?.checked_mul(3)?.checked_add(axis)?;
            points[3 * place + axis] = *coordinates.get(at)?;
        }
    }
    Some(points)
}

/// The record of one element.  01: "Within an element all eight indices are
/// tested before any coordinate"; 02, No. 5: 7 is "tested after 5 and before 6".
fn element_record(limits: &Limits, coordinates: &[i32], element: &[u32], depth: u32) -> Record {
    let refused = |number: i64, place: i64, word: i64| [number, place, word, 0, 0, 0, 0, 0, 0];
    if let Some((place, index)) = first_bad_index(coordinates.len() / 3, element) {
        return refused(5, place, index);
    }
    if let Some((lower, higher)) = first_pair(element) {
        return refused(7, lower, higher);
    }
    let points = points_of(coordinates, element).expect("every index names a node");
    let points = points.map(i64::from);
    if let Some((place, axis)) = first_unusable(limits, &points) {
        return refused(6, place, axis);
    }
    record(&points, depth)
}

/// One more record of its kind.
fn counted(mut counts: Inspection, record: &Record) -> Inspection {
    let count = match record[0] {
        0 => &mut counts.valid,
        1 => &mut counts.invalid,
        2 => &mut counts.undecided,
        _ => &mut counts.refused,
    };
    *count = count.saturating_add(1);
    counts
}

/// Inspection of a mesh: a record for each element, and the counts.
///
/// 01: refusals 1 to 4 leave the "report space untouched, counts 0"; refusals
/// 5 to 7 are "that element's record only".
pub fn inspect(
    limits: &Limits,
    coordinates: &[i32],
    indices: &[u32],
    depth: u32,
    report: &mut [i64],
) -> Inspection {
    let number = mesh_refusal(limits, coordinates, indices, depth, report);
    if number != 0 {
        return Inspection { number, ..Inspection::default() };
    }
    let mut counts = Inspection::default();
    let spaces = report.chunks_exact_mut(RECORD_WORDS);
    for (element, words) in indices.chunks_exact(8).zip(spaces) {
        let record = element_record(limits, coordinates, element, depth);
        words.copy_from_slice(&record);
        counts = counted(counts, &record);
    }
    counts
}

/// The lot's stamp.
#[derive(Clone, Copy, Debug, PartialEq, Eq)]
pub enum Stamp {
    Sound,
    Faulty,
    Open,
}

/// 02, No. 4: ""sound" needs at least one element and every record valid; "faulty"
/// if any record is invalid or refused; otherwise "open"."  A refused mesh has no
/// records, and no stamp.
pub fn stamp(inspection: &Inspection) -> Option<Stamp> {
    let Inspection { number, valid, invalid, undecided, refused } = *inspection;
    match (number, valid, invalid, undecided, refused) {
        (1.., ..) => None,
        (0, 1.., 0, 0, 0) => Some(Stamp::Sound),
        (0, _, 0, _, 0) => Some(Stamp::Open),
        _ => Some(Stamp::Faulty),
    }
}

/// The same, read off the report of an accepted mesh: of each record the first word,
/// which is 0 in a valid one and 2 in an undecided one.
pub fn stamp_of_report(report: &[i64]) -> Stamp {
    let mut kinds = report.iter().step_by(RECORD_WORDS);
    if kinds.clone().any(|&kind| kind != 0 && kind != 2) {
        Stamp::Faulty
    } else if report.is_empty() || kinds.any(|&kind| kind != 0) {
        Stamp::Open
    } else {
        Stamp::Sound
    }
}

// --------------------------------------------------------------- addresses --

/// 01: "A cube's address is its level and the grid numbers of its lowest
/// corner."
#[derive(Clone, Copy, Debug, PartialEq, Eq)]
pub struct Address {
    pub level: u32,
    pub a: u32,
    pub b: u32,
    pub c: u32,
}

impl Address {
    /// An "address that is no cube: level past the largest depth, or a grid
    /// number not below 2^level".
    fn is_cube(self, limits: &Limits) -> bool {
        let below = |number: u32| i128::from(number) < two_to(self.level.min(32));
        self.level <= limits.depth && below(self.a) && below(self.b) && below(self.c)
    }

    /// The place of child or corner `n`, if `n` is in 1..8.
    fn place(n: u32) -> Option<[u32; 3]> {
        let index = usize::try_from(n.checked_sub(1)?).ok()?;
        CORNERS.get(index).copied()
    }

    fn moved_to_child(self, n: u32, limits: &Limits) -> Option<Address> {
        let [i, j, k] = Address::place(n)?;
        if !self.is_cube(limits) || self.level >= limits.depth {
            return None;
        }
        let finer = |number: u32, place: u32| number.checked_mul(2)?.checked_add(place);
        Some(Address {
            level: self.level.checked_add(1)?,
            a: finer(self.a, i)?,
            b: finer(self.b, j)?,
            c: finer(self.c, k)?,
        })
    }

    fn moved_to_corner(self, n: u32, limits: &Limits) -> Option<Address> {
        let [i, j, k] = Address::place(n)?;
        if !self.is_cube(limits) {
            return None;
        }
        Some(Address {
            level: self.level,
            a: self.a.checked_add(i)?,
            b: self.b.checked_add(j)?,
            c: self.c.checked_add(k)?,
        })
    }

    fn moved_to_parent(self, limits: &Limits) -> Option<Address> {
        if !self.is_cube(limits) {
            return None;
        }
        Some(Address {
            level: self.level.checked_sub(1)?,
            a: self.a / 2,
            b: self.b / 2,
            c: self.c / 2,
        })
    }

    /// 01: "A move that can't be made [...] hands back the same address and
    /// says so."  True says that the move was made.
    fn said(self, moved: Option<Address>) -> (Address, bool) {
        match moved {
            Some(address) => (address, true),
            None => (self, false),
        }
    }

    /// "A child is one level finer, at twice the grid numbers plus its place
    /// (0 or 1 on each axis)".
    pub fn child(self, n: u32, limits: &Limits) -> (Address, bool) {
        self.said(self.moved_to_child(n, limits))
    }

    /// "a corner keeps the level and has its own grid numbers, which may reach
    /// 2^level".
    pub fn corner(self, n: u32, limits: &Limits) -> (Address, bool) {
        self.said(self.moved_to_corner(n, limits))
    }

    /// "a parent has half the numbers, rounded down, one level coarser".
    pub fn parent(self, limits: &Limits) -> (Address, bool) {
        self.said(self.moved_to_parent(limits))
    }
}
