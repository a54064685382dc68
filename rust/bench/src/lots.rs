//! The lots that are timed: 900 elements each, every one of the lot's kind, within the
//! coordinates and the depth for which numbers of one word suffice; and one of a mesh as
//! meshes are.

use crate::adaptive;
use crate::mesh::{determinant, difference, Held, Record, CORNERS};
use second::specimens::{cube, twisted, Points, Shaker};
use std::array::from_fn;

pub const ELEMENTS: usize = 900;
pub const DEPTH: u32 = 3;

#[derive(Clone)]
pub struct Lot {
    pub name: &'static str,
    pub depth: u32,
    pub coordinates: Vec<i32>,
    pub indices: Vec<u32>,
}

impl Lot {
    pub fn elements(&self) -> usize {
        self.indices.len() / 8
    }

    /// The first of its elements alone.
    pub fn first(mut self, elements: usize) -> Lot {
        self.indices.truncate(8 * elements);
        self
    }

    /// With all coordinates `times` as large.
    pub fn larger(mut self, times: i32) -> Lot {
        self.coordinates.iter_mut().for_each(|x| *x *= times);
        self
    }

    /// The coordinates of an element's nodes, end to end.
    pub fn points(&self, element: usize) -> [i32; 24] {
        from_fn(|at| self.coordinates[3 * self.indices[8 * element + at / 3] as usize + at % 3])
    }
}

pub const IN_ORDER: [u32; 8] = [0, 1, 2, 3, 4, 5, 6, 7];

fn narrow(points: &Points) -> [i32; 24] {
    const END: i64 = <i64 as Held>::MAX_COORDINATE as i64;
    points.map(|x| x.clamp(-END, END) as i32)
}

fn record(points: &Points, depth: u32) -> Record {
    let mut report = [0; brundhal::RECORD_WORDS];
    adaptive::inspect(&narrow(points), &IN_ORDER, depth, &mut report);
    report
}

/// Elements with eight nodes of their own, as many as 5,000 nodes allow, each
/// serving more than once to make 900; all of a kind, by their records at the depth.
pub fn drawn(
    name: &'static str,
    depth: u32,
    mut draw: impl FnMut() -> Points,
    kind: fn(&Record) -> bool,
) -> Lot {
    const DISTINCT: usize = 600;
    let mut coordinates = Vec::new();
    while coordinates.len() < 24 * DISTINCT {
        let points = draw();
        if kind(&record(&points, depth)) {
            coordinates.extend(narrow(&points));
        }
    }
    let first_node = |element: usize| 8 * (element % DISTINCT) as u32;
    let indices = (0..ELEMENTS).flat_map(|e| IN_ORDER.map(|n| first_node(e) + n)).collect();
    Lot { name, depth, coordinates, indices }
}

/// A block of 9 by 10 by 10 elements that share their nodes, each of them placed by its
/// grid numbers.
fn block(name: &'static str, mut place: impl FnMut([i64; 3]) -> [i64; 3]) -> Lot {
    let nodes = (0..10 * 11 * 11).map(|node| [node % 10, node / 10 % 11, node / 110]);
    let coordinates = nodes.flat_map(|at| place(at).map(|x| x as i32)).collect();
    let node = |a: u32, b: u32, c: u32| a + 10 * b + 110 * c;
    let corners = |e: u32| {
        let (a, b, c) = (e % 9, e / 9 % 10, e / 90);
        let ring = |c| [node(a, b, c), node(a + 1, b, c), node(a + 1, b + 1, c), node(a, b + 1, c)];
        [ring(c), ring(c + 1)].concat()
    };
    let indices = (0..ELEMENTS as u32).flat_map(corners).collect();
    Lot { name, depth: DEPTH, coordinates, indices }
}

/// A block whose nodes are shaken, but no element is worse than valid at level 0.
fn shaken(shaker: &mut Shaker) -> Lot {
    let place = |at: [i64; 3]| at.map(|a| 600 * a + shaker.between(-120, 120) - 3000);
    block("valid at level 0", place)
}

/// A mesh as meshes are: nearly rectangular, a part of it sheared and a part graded, with
/// one element numbered inside out and one that names a node which is not there.
fn ordinary(shaker: &mut Shaker) -> Lot {
    let mut lot = block("as real meshes are", |[a, b, c]| {
        let (sheared, graded) = ((b - 5).max(0), (c - 5).max(0));
        [600 * a + 100 * sheared, 600 * b, 600 * c - 30 * graded * graded]
            .map(|x| x + shaker.between(-30, 30) - 3000)
    });
    lot.indices[8 * 300..][..8].rotate_left(4);
    lot.indices[8 * 600 + 5] = brundhal::MAX_NODES as u32;
    lot
}

/// Tetrahedra cut into four hexahedra each, one at every vertex, by the middles of their
/// edges, of their faces and of themselves.
fn tetrahedra(shaker: &mut Shaker) -> Lot {
    let (mut coordinates, mut indices) = (Vec::new(), Vec::new());
    while indices.len() < 8 * ELEMENTS {
        // multiples of 12, so that the middles are whole
        let vertices: [[i64; 3]; 4] = from_fn(|_| from_fn(|_| 12 * shaker.between(-300, 300)));
        let [u, v, w] = [1, 2, 3].map(|vertex| difference(vertices[0], vertices[vertex]));
        if determinant::<i64>(u, v, w) <= 0 {
            continue;
        }
        // a node for every set of vertices, by its bits: their middle
        let before = coordinates.len() as u32 / 3;
        for set in 1..16_usize {
            let among =
                |axis: usize| (0..4).map(move |at| (set >> at & 1) as i64 * vertices[at][axis]);
            coordinates.extend(
                [0, 1, 2]
                    .map(|axis| (among(axis).sum::<i64>() / i64::from(set.count_ones())) as i32),
            );
        }
        // each vertex, and the others in an order that keeps the sign
        for [own, a, b, c] in [[0, 1, 2, 3], [1, 0, 3, 2], [2, 3, 0, 1], [3, 2, 1, 0]] {
            let set = |[x, y, z]: [u32; 3]| 1 << own | x << a | y << b | z << c;
            indices.extend(CORNERS.map(|corner| before + set(corner) - 1));
        }
    }
    Lot { name: "tetrahedra cut in four", depth: DEPTH, coordinates, indices }
}

/// A third with a coordinate outside the range, a third with an index that names no
/// node, and a third with an index in two places: any places.
fn refused(shaker: &mut Shaker) -> Lot {
    let third = ELEMENTS / 3;
    let mut coordinates = Vec::new();
    let mut indices = Vec::new();
    for element in 0..third as u32 {
        let mut points = narrow(&cube(0, 900));
        points[shaker.between(0, 23) as usize] = brundhal::MAX_COORDINATE + 1;
        coordinates.extend(points);
        indices.extend(IN_ORDER.map(|n| 8 * element + n));
    }
    for _ in 0..third {
        let mut element = IN_ORDER;
        element[shaker.between(0, 7) as usize] = 8 * third as u32;
        indices.extend(element);
    }
    for _ in 2 * third..ELEMENTS {
        let mut element = IN_ORDER;
        let lower = shaker.between(0, 6);
        element[lower as usize] = element[shaker.between(lower + 1, 7) as usize];
        indices.extend(element);
    }
    Lot { name: "refused", depth: DEPTH, coordinates, indices }
}

fn case_f() -> Lot {
    let coordinates = narrow(&twisted(1, 1, 2, 2)).to_vec();
    let indices = IN_ORDER.repeat(ELEMENTS);
    Lot { name: "undecided (case F)", depth: DEPTH, coordinates, indices }
}

pub fn lots() -> [Lot; 8] {
    let mut shaker = Shaker::new(2024);
    let mut corner = Shaker::new(2025);
    let folded = |shaker: &mut Shaker| {
        let mut points = cube(0, 1000);
        let node = 3 * shaker.between(0, 7) as usize;
        for x in &mut points[node..node + 3] {
            *x = 1000 - *x;
        }
        points.map(|x| x + shaker.between(-100, 100))
    };
    let deeper = "valid at a deeper level";
    let invalid = "invalid at a deeper level";
    [
        shaken(&mut shaker),
        drawn(deeper, DEPTH, || shaker.strained(), |r| r[0] == 0 && r[1] > 0),
        drawn("invalid at a corner", DEPTH, || folded(&mut corner), |r| r[0] == 1 && r[1] == 0),
        drawn(invalid, DEPTH, || shaker.strained(), |r| r[0] == 1 && r[1] > 0),
        case_f(),
        refused(&mut Shaker::new(2026)),
        ordinary(&mut Shaker::new(2027)),
        tetrahedra(&mut Shaker::new(2028)),
    ]
}

#[cfg(test)]
mod tests {
    use super::*;

    /// Number, valid, invalid, undecided and refused of the lots that are not drawn by kind.
    #[test]
    fn lots_are_of_their_kind() {
        let [level_0, _, _, _, _, refused, ordinary, tetrahedra] = lots();
        let answer = |lot: &Lot| {
            let mut report = vec![0; brundhal::RECORD_WORDS * ELEMENTS];
            adaptive::inspect(&lot.coordinates, &lot.indices, lot.depth, &mut report)
        };
        assert_eq!(answer(&level_0), [0, 900, 0, 0, 0]);
        assert_eq!(answer(&refused), [0, 0, 0, 0, 900]);
        assert_eq!(answer(&ordinary), [0, 898, 1, 0, 1]);
        assert_eq!(answer(&tetrahedra), [0, 900, 0, 0, 0]);
    }
}
