//! Random elements, meshes, addresses and numbers, each from a seed.

use crate::program::{IN_ORDER, RECORD_WORDS};
use crate::question::Question;
use second::specimens::{cube, rings_exchanged, twisted, Points, Shaker};
use second::Limits;

/// The kinds of random elements.
#[derive(Clone, Copy, Debug, PartialEq, Eq, PartialOrd, Ord)]
pub enum Kind {
    /// Every coordinate uniform in the range.
    Uniform,
    /// Cubes of any size with shaken nodes.
    Shaken,
    /// Thin and flat boxes, a little shaken.
    Thin,
    /// Small coordinates, where exact zeros are common.
    Small,
    /// Eight positive corners and a coefficient not above 0.
    Hollow,
    /// Undecided at depth 2, and most of them at every depth.
    Undecided,
    /// One of the others, mirrored, with its rings exchanged, or both.
    Mirrored,
    /// At the ends of the range, where the numbers are largest.
    Extreme,
}

pub const KINDS: [Kind; 8] = [
    Kind::Uniform,
    Kind::Shaken,
    Kind::Thin,
    Kind::Small,
    Kind::Hollow,
    Kind::Undecided,
    Kind::Mirrored,
    Kind::Extreme,
];

/// A usable coordinate lies in -RANGE..RANGE, and DEPTH is the largest depth.
pub const RANGE: i64 = Limits::base().range;
pub const DEPTH: u32 = Limits::base().depth;

/// 01's range, before request No. 8: within it, to depth 3, every number fits one word.
pub const OLD_RANGE: i64 = 4096;

pub fn narrow(points: Points) -> [i32; 24] {
    clamped(points, RANGE).map(|x| x as i32)
}

/// An element of this kind with every coordinate in -range..range.
pub fn element(shaker: &mut Shaker, kind: Kind, range: i64) -> [i32; 24] {
    narrow(clamped(drawn(shaker, kind, range), range))
}

fn drawn(shaker: &mut Shaker, kind: Kind, range: i64) -> Points {
    match kind {
        Kind::Uniform => [0; 24].map(|_: i64| shaker.between(-range, range)),
        Kind::Shaken => shaken(shaker, range),
        Kind::Thin => thin(shaker, range),
        Kind::Small => small(shaker),
        Kind::Hollow => hollow(shaker, range),
        Kind::Undecided => undecided(shaker, range),
        Kind::Mirrored => mirrored(shaker, range),
        Kind::Extreme => extreme(shaker, range),
    }
}

fn shake(shaker: &mut Shaker, points: &mut Points, by: [i64; 3]) {
    for (place, x) in points.iter_mut().enumerate() {
        *x += shaker.between(-by[place % 3], by[place % 3]);
    }
}

/// Turned three times in four: the same element seen from another side.
fn often_turned(shaker: &mut Shaker, points: Points) -> Points {
    if shaker.between(0, 3) == 0 {
        points
    } else {
        shaker.turned(&points)
    }
}

fn clamped(points: Points, range: i64) -> Points {
    points.map(|x| x.clamp(-range, range))
}

fn shaken(shaker: &mut Shaker, range: i64) -> Points {
    let most = [4, 40, 400, 2 * range][shaker.between(0, 3) as usize];
    let side = shaker.between(1, most);
    let low = shaker.between(-range, range - side);
    let mut points = cube(low, low + side);
    let by = shaker.between(0, side * 6 / 10);
    shake(shaker, &mut points, [by; 3]);
    often_turned(shaker, clamped(points, range))
}

/// A box with one or two of its sides 0 to 4 units long.
fn thin(shaker: &mut Shaker, range: i64) -> Points {
    let thin_axes = [1, 1, 2][shaker.between(0, 2) as usize];
    let mut sides = [0; 3].map(|_: i64| shaker.between(5, 2 * range));
    for side in &mut sides[..thin_axes] {
        *side = shaker.between(0, 4);
    }
    sides.rotate_right(shaker.between(0, 2) as usize);
    let mut points = cube(0, 1);
    for (place, x) in points.iter_mut().enumerate() {
        *x = *x * sides[place % 3] - sides[place % 3] / 2;
    }
    let share = shaker.between(0, 60);
    let by = sides.map(|side| (side * share / 100).max(i64::from(share > 20)));
    shake(shaker, &mut points, by);
    often_turned(shaker, clamped(points, range))
}

fn small(shaker: &mut Shaker) -> Points {
    let most = shaker.between(1, 3);
    let (mut points, by) = match shaker.between(0, 3) {
        0 => ([0; 24], most),
        1 => (cube(0, most), 1),
        2 => (cube(-1, most), most),
        _ => return shaker.plain_twist(),
    };
    shake(shaker, &mut points, [by; 3]);
    points
}

fn strained(shaker: &mut Shaker, range: i64) -> Points {
    let points = match shaker.between(0, 3) {
        0 => shaken(shaker, range),
        1 => shaker.twisted(),
        2 => thin(shaker, range),
        _ => shaker.strained(),
    };
    let points = clamped(points, range);
    often_turned(shaker, points)
}

/// Drawn until the second program finds it undecided at depth 0, which means
/// eight positive corners and a coefficient not above 0.
fn hollow(shaker: &mut Shaker, range: i64) -> Points {
    for _ in 0..2000 {
        let points = strained(shaker, range);
        if second::record(&points, 0)[0] == 2 {
            return points;
        }
    }
    twisted(1, 1, 1, 1)
}

/// The points under a linear map with a positive determinant, which multiplies
/// J by that determinant everywhere and so keeps every sign.
fn mapped(shaker: &mut Shaker, points: &Points) -> Points {
    let mut rows = [[1, 0, 0], [0, 1, 0], [0, 0, 1]];
    for _ in 0..shaker.between(0, 4) {
        // a multiple of one row added to another, or one row stretched
        let (to, from) = (shaker.between(0, 2) as usize, shaker.between(0, 2) as usize);
        if to == from {
            rows[to] = rows[to].map(|x| 2 * x);
        } else {
            let by = shaker.between(-2, 2);
            rows[to] = [0, 1, 2].map(|i| rows[to][i] + by * rows[from][i]);
        }
    }
    let mut image = [0; 24];
    for (node, into) in points.chunks_exact(3).zip(image.chunks_exact_mut(3)) {
        for axis in 0..3 {
            into[axis] = (0..3).map(|i| rows[axis][i] * node[i]).sum();
        }
    }
    image
}

/// A ring turned by about a half against its square, as in case F, so that J
/// has a double zero, or nearly, off the grid; sheared, stretched, turned and
/// made larger.
fn folded(shaker: &mut Shaker, range: i64) -> Points {
    let half = shaker.between(1, 6);
    let reach = shaker.between(1, 12);
    let [along, across] = [0; 2].map(|_: i64| shaker.between(-1, 1) * shaker.between(0, 1));
    let height = shaker.between(1, 3);
    let mut points = twisted(half, height, reach + along, reach + across);
    points = mapped(shaker, &points);
    let most = points.iter().map(|x| x.abs()).max().unwrap_or(1).max(1);
    let times = shaker.between(1, (range / most).max(1));
    points = points.map(|x| x * times);
    let by = if shaker.between(0, 1) == 0 { 0 } else { times / 40 };
    shake(shaker, &mut points, [by; 3]);
    points = clamped(points, range);
    often_turned(shaker, points)
}

/// Drawn until the second program finds it undecided at depth 2.
fn undecided(shaker: &mut Shaker, range: i64) -> Points {
    for _ in 0..2000 {
        let points = folded(shaker, range);
        if (0..=2).all(|depth| second::record(&points, depth)[0] == 2) {
            return points;
        }
    }
    twisted(1, 1, 2, 2)
}

fn mirrored(shaker: &mut Shaker, range: i64) -> Points {
    let mut points = match shaker.between(0, 3) {
        0 => shaken(shaker, range),
        1 => thin(shaker, range),
        2 => folded(shaker, range),
        _ => strained(shaker, range),
    };
    let how = shaker.between(0, 4);
    if how != 0 {
        let axis = shaker.between(0, 2) as usize;
        points.iter_mut().skip(axis).step_by(3).for_each(|x| *x = -*x);
    }
    // both at once give back the sign of J
    if how < 3 {
        points = rings_exchanged(&points);
    }
    points
}

fn extreme(shaker: &mut Shaker, range: i64) -> Points {
    let mut points = match shaker.between(0, 3) {
        // every coordinate at an end of the range
        0 => [0; 24].map(|_: i64| [-range, range][shaker.between(0, 1) as usize]),
        1 => shaker.wide(range),
        // case F and its like, as large as they can be
        2 => twisted(range / 2, range, range, range),
        _ => cube(-range, range),
    };
    if shaker.between(0, 1) == 0 {
        let by = [1, 100, 2000][shaker.between(0, 2) as usize];
        shake(shaker, &mut points, [by; 3]);
    }
    often_turned(shaker, clamped(points, range))
}

// --------------------------------------------------- over the whole range --

/// How many times larger points can be made in a range; 1 at least.
fn room(points: &Points, range: i64) -> i64 {
    let most = points.iter().map(|x| x.abs()).max().unwrap_or(0);
    (range / most.max(1)).max(1)
}

/// The points times 1, 2, 4 and so on, while they stay within the range.
pub fn powers(points: Points) -> Vec<[i32; 24]> {
    let times = |power: u32| narrow(points.map(|x| x << power));
    (0..=room(&points, RANGE).ilog2()).map(times).collect()
}

/// As large as a power of two makes them in a range.
pub fn largest(points: Points, range: i64) -> [i32; 24] {
    narrow(points.map(|x| x << room(&points, range).ilog2()))
}

/// Made larger by a power of two or by any number, or left as they are.
fn grown(shaker: &mut Shaker, points: Points) -> [i32; 24] {
    let room = room(&points, RANGE);
    let times = match shaker.between(0, 3) {
        0 => 1,
        1 => shaker.between(1, room),
        _ => 1 << shaker.between(0, room.ilog2().into()),
    };
    narrow(points.map(|x| x * times))
}

/// An element of this kind and of any size.
pub fn element_of_any_size(shaker: &mut Shaker, kind: Kind) -> [i32; 24] {
    let range = one_of(shaker, &[OLD_RANGE, RANGE, RANGE]);
    let points = drawn(shaker, kind, range);
    grown(shaker, points)
}

/// One of the second program's kinds, made larger.
pub fn specimen(shaker: &mut Shaker) -> [i32; 24] {
    let points = shaker.element();
    grown(shaker, points)
}

/// Moved along one axis until the largest coordinate there is `end`, or the least one if
/// that is below 0: J and the verdict stay.
pub fn moved(mut points: Points, axis: usize, end: i64) -> [i32; 24] {
    let on_axis = points.iter().skip(axis).step_by(3);
    let last = if end > 0 { on_axis.max() } else { on_axis.min() };
    let by = end - last.expect("eight of them");
    points.iter_mut().skip(axis).step_by(3).for_each(|x| *x += by);
    narrow(points)
}

/// An element of the old range, moved so along any axis.
pub fn moved_to_an_end(shaker: &mut Shaker, end: i64) -> [i32; 24] {
    let kind = one_of(shaker, &KINDS);
    let points = element(shaker, kind, OLD_RANGE).map(i64::from);
    moved(points, shaker.between(0, 2) as usize, end)
}

/// A ring turned by a half against its square: J = 4 (half - (half + reach) zeta)^2,
/// which case F has with 1 and 2.  `aside` turns it a little further: 4 (aside zeta)^2
/// is added.
pub fn half_turned(half: i64, reach: i64, aside: i64) -> Points {
    twisted(half, 1, reach + aside, reach - aside)
}

/// With its zero at k / 2^level: for an odd k a zero at grid points of this level, and
/// at none of a lesser one.
pub fn zero_at(level: u32, k: i64) -> Points {
    half_turned(k, (1 << level) - k, 0)
}

/// Half turned, exactly or nearly, so that it is decided at any level or at none;
/// sheared, made larger, at times shaken a little, and turned.
pub fn barely(shaker: &mut Shaker) -> [i32; 24] {
    let points = match shaker.between(0, 2) {
        0 => {
            let level = shaker.between(1, 8);
            zero_at(level as u32, 2 * shaker.between(1, 1 << (level - 1)) - 1)
        }
        _ => {
            let times = shaker.between(1, 100);
            let [half, reach] = [0; 2].map(|_: i64| times * shaker.between(1, 12));
            half_turned(half, reach, shaker.between(0, 3))
        }
    };
    let points = mapped(shaker, &points);
    let mut points = grown(shaker, points).map(i64::from);
    let by = one_of(shaker, &[0, 0, 1, 10, 1000]);
    shake(shaker, &mut points, [by; 3]);
    narrow(often_turned(shaker, points))
}

/// Of a cube and an element that has good corners and is invalid, both in the old
/// range: 256 parts of the two together, so many of the second that the verdict at depth
/// 6 is just not, or is just, invalid.  J is nearly 0 in one place, and deep down few
/// cubes have a low coefficient.
pub fn turning(shaker: &mut Shaker) -> [i32; 24] {
    let good = cube(-shaker.between(500, 1500), shaker.between(500, 1500));
    let mut bad = twisted(1, 1, 1, 1);
    for _ in 0..200 {
        let points = clamped(shaker.strained(), OLD_RANGE);
        let [kind, level, ..] = second::record(&points, 3);
        if kind == 1 && level > 0 {
            bad = points;
            break;
        }
    }
    let mixed = |parts: i64| -> Points {
        std::array::from_fn(|at| (256 - parts) * good[at] + parts * bad[at])
    };
    let (mut below, mut above) = (0, 256);
    while above - below > 1 {
        let middle = (below + above) / 2;
        if second::record(&mixed(middle), 6)[0] == 1 {
            above = middle;
        } else {
            below = middle;
        }
    }
    let points = mixed(one_of(shaker, &[below, above]));
    narrow(often_turned(shaker, points))
}

// ------------------------------------------------------------------ meshes --

pub(crate) fn one_of<T: Copy>(shaker: &mut Shaker, of: &[T]) -> T {
    of[shaker.between(0, of.len() as i64 - 1) as usize]
}

/// True once in `times`.
pub(crate) fn once_in(shaker: &mut Shaker, times: i64) -> bool {
    shaker.between(1, times) == 1
}

/// Coordinates at the ends of the range, just past them, and far past them.
pub const EDGES: [i32; 8] =
    [-1_048_576, 1_048_576, -1_048_577, 1_048_577, i32::MIN, i32::MAX, i32::MIN + 1, 1 << 24];

/// The same for the old range, and others within the range.
const INNER_EDGES: [i32; 5] = [-4096, 4096, -4097, 4097, 65_536];

fn nodes(shaker: &mut Shaker, count: usize) -> Vec<i32> {
    let range = one_of(shaker, &[OLD_RANGE, OLD_RANGE, RANGE]);
    let mut coordinates = Vec::with_capacity(3 * count + 24);
    // in a large mesh eight points serve over and over: 5,000 nodes in no time
    let serve = if count > 200 { 8 } else { 1 };
    while coordinates.len() < 3 * count {
        let kind = match shaker.between(0, 9) {
            0 => Kind::Hollow,
            1 => Kind::Small,
            2 => Kind::Thin,
            3 => Kind::Mirrored,
            _ => Kind::Shaken,
        };
        let points = element(shaker, kind, range);
        (0..serve).for_each(|_| coordinates.extend(points));
    }
    coordinates.truncate(3 * count);
    if once_in(shaker, 3) {
        let edges = if once_in(shaker, 3) { &INNER_EDGES[..] } else { &EDGES[..] };
        for _ in 0..shaker.between(1, 6) {
            let length = coordinates.len() as i64;
            if length > 0 {
                let at = shaker.between(0, length - 1) as usize;
                coordinates[at] = one_of(shaker, edges);
            }
        }
    }
    coordinates
}

/// An index at, just past or far past the node count; three times the last two
/// passes 32 bits and comes out small again.
fn bad_index(shaker: &mut Shaker, nodes: usize) -> u32 {
    let nodes = nodes as u32;
    let far = [u32::MAX, 1 << 31, u32::MAX / 3, u32::MAX / 3 + 1, 0x5555_5556];
    match shaker.between(0, 3) {
        0 => nodes,
        1 => nodes + 1,
        2 => nodes + shaker.between(0, 100_000) as u32,
        _ => one_of(shaker, &far),
    }
}

/// Eight different nodes of a mesh that has eight.
fn different_nodes(shaker: &mut Shaker, nodes: usize) -> [u32; 8] {
    let mut all: Vec<u32> = (0..nodes as u32).collect();
    std::array::from_fn(|place| {
        all.swap(place, shaker.between(place as i64, nodes as i64 - 1) as usize);
        all[place]
    })
}

/// Eight indices: eight nodes in a row, often; any different ones; any; with one in
/// several places; with bad ones.
pub(crate) fn element_indices(shaker: &mut Shaker, nodes: usize) -> [u32; 8] {
    let blocks = nodes as i64 / 8;
    let mut indices = match shaker.between(0, 11) {
        2.. if blocks > 0 => {
            let block = shaker.between(0, blocks - 1) as u32;
            IN_ORDER.map(|place| 8 * block + place)
        }
        1 if blocks > 0 => different_nodes(shaker, nodes),
        _ => [0; 8].map(|_| shaker.between(0, nodes.max(1) as i64 - 1) as u32),
    };
    if once_in(shaker, 8) {
        for _ in 0..shaker.between(1, 3) {
            indices[shaker.between(0, 7) as usize] = indices[shaker.between(0, 7) as usize];
        }
    }
    if once_in(shaker, 8) {
        for _ in 0..shaker.between(1, 3) {
            indices[shaker.between(0, 7) as usize] = bad_index(shaker, nodes);
        }
    }
    indices
}

/// A length that is often right, else a little off or nothing.
fn length(shaker: &mut Shaker, right: usize) -> usize {
    if !once_in(shaker, 12) {
        return right;
    }
    let off = one_of(shaker, &[-9, -8, -3, -2, -1, 1, 2, 3, 7, 8, 9]);
    right.saturating_add_signed(off)
}

/// A random mesh, with anything wrong in it, or nothing.
pub fn mesh(shaker: &mut Shaker) -> Question {
    let node_count = match shaker.between(0, 39) {
        0 => 0,
        1 => one_of(shaker, &[4999, 5000]),
        2 => one_of(shaker, &[5001, 5002, 10_000]),
        3 => shaker.between(1, 9) as usize,
        _ => 8 * shaker.between(1, 6) as usize + shaker.between(0, 2) as usize,
    };
    let mut coordinates = nodes(shaker, node_count);
    let right = coordinates.len();
    coordinates.resize(length(shaker, right), 7);
    let (element_count, large) = match shaker.between(0, 59) {
        0 => (0, false),
        1 => (one_of(shaker, &[999, 1000]), true),
        2 => (one_of(shaker, &[1001, 1002, 2000]), true),
        _ => (shaker.between(1, 7) as usize, false),
    };
    let node_count = coordinates.len() / 3;
    let mut indices: Vec<u32> =
        (0..element_count).flat_map(|_| element_indices(shaker, node_count)).collect();
    let right = indices.len();
    indices.resize(length(shaker, right), 0);
    let space = match shaker.between(0, 39) {
        0 => indices.len(), // eight words an element
        _ => length(shaker, indices.len() / 8 * RECORD_WORDS),
    };
    let depth = match shaker.between(0, 19) {
        0 => one_of(shaker, &[9, 10, 256, 1 << 16, 1 << 31, u32::MAX]),
        _ if large => shaker.between(0, 1) as u32,
        1 | 2 => one_of(shaker, &[4, 4, 4, 5, 5, 6, 7, 8]),
        _ => shaker.between(0, 3) as u32,
    };
    Question::Inspect { depth, space, coordinates, indices }
}

/// Eight points with some coordinates at and past the ends of the range, at
/// any depth.
pub fn bounds(shaker: &mut Shaker) -> Question {
    let range = one_of(shaker, &[OLD_RANGE, RANGE]);
    let mut points = element(shaker, Kind::Shaken, range);
    for _ in 0..shaker.between(0, 2) {
        points[shaker.between(0, 23) as usize] = one_of(shaker, &EDGES);
    }
    let depth = one_of(shaker, &[0, 1, 2, 3, 0, 1, 2, 4, 9, 256, u32::MAX]);
    Question::Bounds { depth, points }
}

// --------------------------------------------------------------- addresses --

/// Any 32-bit number: small, near a power of two, at the end, or whatever.
fn any_number(shaker: &mut Shaker) -> u32 {
    let power = 1u32 << shaker.between(0, 31);
    match shaker.between(0, 5) {
        0 => shaker.between(0, 9) as u32,
        1 => power,
        2 => power - 1,
        3 => u32::MAX - shaker.between(0, 3) as u32,
        4 => shaker.between(0, 3) as u32,
        _ => shaker.draw() as u32,
    }
}

/// Any level with any grid numbers; or a level to the largest and one more, with numbers
/// to 2^level.
pub fn moves(shaker: &mut Shaker) -> [Question; 3] {
    let mut address = [0; 4].map(|_: u32| any_number(shaker));
    if once_in(shaker, 2) {
        let level = shaker.between(0, 9);
        let [a, b, c] = [0; 3].map(|_: u32| shaker.between(0, 1 << level) as u32);
        address = [level as u32, a, b, c];
    }
    let n = any_number(shaker);
    [Question::Child { address, n }, Question::Corner { address, n }, Question::Parent { address }]
}

// ----------------------------------------------------------------- numbers --

/// A number of any length in bits, of either sign.
pub fn number(shaker: &mut Shaker) -> i128 {
    let bits = u128::from(shaker.draw()) << 64 | u128::from(shaker.draw());
    bits as i128 >> shaker.between(0, 127)
}
