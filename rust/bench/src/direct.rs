//! The inspector as one would write it in Rust for speed: volumes and
//! coefficients by direct formulas, and a recursive search by de Casteljau's
//! rule that cuts only cubes with a coefficient not above 0.
//!
//! Beside it the same with what the library's search does besides (`SPARE`): the
//! children in a half without a low coefficient are passed over.  Both for numbers of
//! one word and of two.

use crate::mesh::{
    determinant, difference, invalid, sum, undecided, valid, Answer, Held, Record, CORNERS,
};

/// Coefficients at (xi, eta, zeta) half steps, xi running fastest.
pub type Net<N> = [N; 27];

/// Where the 27 coefficients stand in a net, in 01's order of numbers.
pub const ORDER: [usize; 27] = [
    0, 2, 8, 6, 18, 20, 26, 24, // corners
    1, 5, 7, 3, 9, 11, 17, 15, 19, 23, 25, 21, // edges
    4, 10, 14, 16, 12, 22, // faces
    13, // centre
];

pub fn inspect<N: Held, const SPARE: bool>(
    coordinates: &[i32],
    indices: &[u32],
    depth: u32,
    report: &mut [i64],
) -> Answer {
    crate::mesh::inspect::<N>(coordinates, indices, depth, report, record::<N, SPARE>)
}

/// The record of eight points.  Not inlined, nor is the search, so that their time does
/// not depend on what else calls them.
#[inline(never)]
pub fn record<N: Held, const SPARE: bool>(n: &[[i64; 3]; 8], depth: u32) -> Record {
    match coefficients::<N, true>(n) {
        Err(record) => record,
        Ok(net) if all_positive(&net) => valid(0, 1),
        Ok(net) => deeper::<N, SPARE>(&net, depth),
    }
}

/// The 27 coefficients of eight points; or, where asked for, the record of the first
/// corner in which J is not above 0.
#[inline(always)]
pub fn coefficients<N: Held, const CORNERS_FIRST: bool>(
    n: &[[i64; 3]; 8],
) -> Result<Net<N>, Record> {
    // the twelve edges, along xi, eta and zeta
    let (x12, x43) = (difference(n[0], n[1]), difference(n[3], n[2]));
    let (x56, x87) = (difference(n[4], n[5]), difference(n[7], n[6]));
    let (y14, y23) = (difference(n[0], n[3]), difference(n[1], n[2]));
    let (y58, y67) = (difference(n[4], n[7]), difference(n[5], n[6]));
    let (z15, z26) = (difference(n[0], n[4]), difference(n[1], n[5]));
    let (z37, z48) = (difference(n[2], n[6]), difference(n[3], n[7]));

    let spans = [
        (x12, y14, z15),
        (x12, y23, z26),
        (x43, y23, z37),
        (x43, y14, z48),
        (x56, y58, z15),
        (x56, y67, z26),
        (x87, y67, z37),
        (x87, y58, z48),
    ];
    let mut j = [N::ZERO; 8];
    for (corner, (u, v, w)) in spans.into_iter().enumerate() {
        j[corner] = determinant(u, v, w);
        if CORNERS_FIRST && j[corner] <= N::ZERO {
            return Err(invalid(0, [0; 3], corner, j[corner].times(8), 1));
        }
    }

    // four times J at the middles of the edges
    let q12: N = determinant(x12, sum(y14, y23), sum(z15, z26));
    let q34: N = determinant(x43, sum(y14, y23), sum(z48, z37));
    let q56: N = determinant(x56, sum(y58, y67), sum(z15, z26));
    let q78: N = determinant(x87, sum(y58, y67), sum(z48, z37));
    let q14: N = determinant(sum(x12, x43), y14, sum(z15, z48));
    let q23: N = determinant(sum(x12, x43), y23, sum(z26, z37));
    let q58: N = determinant(sum(x56, x87), y58, sum(z15, z48));
    let q67: N = determinant(sum(x56, x87), y67, sum(z26, z37));
    let q15: N = determinant(sum(x12, x56), sum(y14, y58), z15);
    let q26: N = determinant(sum(x12, x56), sum(y23, y67), z26);
    let q37: N = determinant(sum(x43, x87), sum(y23, y67), z37);
    let q48: N = determinant(sum(x43, x87), sum(y14, y58), z48);

    let eight = |corner: usize| j[corner].times(8);
    let edge = |q: N, a: usize, b: usize| (q - j[a] - j[b]).times(4);
    let face = |q: N, a: usize, b: usize, c: usize, d: usize| {
        q.times(2) - (j[a] + j[b] + j[c] + j[d]).times(6)
    };
    let centre = (q12 + q34 + q56 + q78) + (q14 + q23 + q58 + q67) + (q15 + q26 + q37 + q48)
        - j.iter().copied().sum::<N>().times(5);
    #[rustfmt::skip]
    let net = [
        eight(0), edge(q12, 0, 1), eight(1),
        edge(q14, 0, 3), face(q12 + q23 + q34 + q14, 0, 1, 2, 3), edge(q23, 1, 2),
        eight(3), edge(q34, 2, 3), eight(2),

        edge(q15, 0, 4), face(q12 + q26 + q56 + q15, 0, 1, 4, 5), edge(q26, 1, 5),
        face(q14 + q48 + q58 + q15, 0, 3, 4, 7), centre, face(q23 + q37 + q67 + q26, 1, 2, 5, 6),
        edge(q48, 3, 7), face(q34 + q48 + q78 + q37, 2, 3, 6, 7), edge(q37, 2, 6),

        eight(4), edge(q56, 4, 5), eight(5),
        edge(q58, 4, 7), face(q56 + q67 + q78 + q58, 4, 5, 6, 7), edge(q67, 5, 6),
        eight(7), edge(q78, 6, 7), eight(6),
    ];
    Ok(net)
}

fn all_positive<N: Held>(net: &Net<N>) -> bool {
    net.iter().all(|&x| x > N::ZERO)
}

/// The whole has positive corners and some coefficient not above 0: level by
/// level, until a level decides or the depth is reached.
#[inline(never)]
fn deeper<N: Held, const SPARE: bool>(whole: &Net<N>, depth: u32) -> Record {
    let mut opened = 1;
    let mut blocked = first_fault(whole, [0; 3]);
    for level in 1..=depth {
        let mut pass = Pass { level, opened, fault: None };
        if let Err(record) = pass.visit::<SPARE>(whole, [0; 3], level) {
            return record;
        }
        opened = pass.opened;
        blocked = pass.fault;
        if blocked.is_none() {
            return valid(level, opened);
        }
    }
    match blocked {
        Some((cube, number, held)) => undecided(depth, cube, number, held, opened),
        None => valid(depth, opened),
    }
}

type Fault<N> = ([u32; 3], usize, N);

fn first_fault<N: Held>(net: &Net<N>, cube: [u32; 3]) -> Option<Fault<N>> {
    let found = ORDER.iter().position(|&at| net[at] <= N::ZERO)?;
    Some((cube, found + 1, net[ORDER[found]]))
}

/// One level's search: the cubes opened so far, and the first coefficient not
/// above 0.
struct Pass<N> {
    level: u32,
    opened: u32,
    fault: Option<Fault<N>>,
}

impl<N: Held> Pass<N> {
    /// The due cubes `left` levels below this one, in path order; the record
    /// of the first corner not above 0, if there is one.
    fn visit<const SPARE: bool>(
        &mut self,
        net: &Net<N>,
        cube: [u32; 3],
        left: u32,
    ) -> Result<(), Record> {
        if left == 0 {
            return self.open(net, cube);
        }
        if all_positive(net) {
            return Ok(());
        }
        // zeta, then eta, then xi: children 1 to 4 come of the lower half
        for (half, z) in halves::<N, 9>(net).iter().zip(0..) {
            if SPARE && all_positive(half) {
                self.pass_over(4, left - 1);
                continue;
            }
            let [low, high] = halves::<N, 3>(half);
            if SPARE && all_positive(&low) {
                self.pass_over(2, left - 1);
            } else {
                let [first, second] = halves::<N, 1>(&low);
                self.visit::<SPARE>(&first, child(cube, [0, 0, z]), left - 1)?;
                self.visit::<SPARE>(&second, child(cube, [1, 0, z]), left - 1)?;
            }
            if SPARE && all_positive(&high) {
                self.pass_over(2, left - 1);
            } else {
                let [fourth, third] = halves::<N, 1>(&high);
                self.visit::<SPARE>(&third, child(cube, [1, 1, z]), left - 1)?;
                self.visit::<SPARE>(&fourth, child(cube, [0, 1, z]), left - 1)?;
            }
        }
        Ok(())
    }

    /// Cubes without a low coefficient, `left` levels above the last.
    fn pass_over(&mut self, cubes: u32, left: u32) {
        if left == 0 {
            self.opened += cubes;
        }
    }

    fn open(&mut self, net: &Net<N>, cube: [u32; 3]) -> Result<(), Record> {
        self.opened += 1;
        if all_positive(net) {
            return Ok(());
        }
        let low = |corner: &usize| net[ORDER[*corner]] <= N::ZERO;
        if let Some(corner) = (0..CORNERS.len()).find(low) {
            let held = net[ORDER[corner]];
            return Err(invalid(self.level, cube, corner, held, self.opened));
        }
        if self.fault.is_none() {
            self.fault = first_fault(net, cube);
        }
        Ok(())
    }
}

fn child(cube: [u32; 3], place: [u32; 3]) -> [u32; 3] {
    [0, 1, 2].map(|axis| 2 * cube[axis] + place[axis])
}

/// Both halves of a net, four times larger, across the direction in which
/// neighbours stand `STEP` apart.
#[inline]
pub fn halves<N: Held, const STEP: usize>(net: &Net<N>) -> [Net<N>; 2] {
    let mut halves = [[N::ZERO; 27]; 2];
    for row in 0..9 {
        let at = row % STEP + row / STEP * 3 * STEP;
        let (p, q, r) = (net[at], net[at + STEP], net[at + 2 * STEP]);
        let middle = p + q.times(2) + r;
        halves[0][at] = p.times(4);
        halves[0][at + STEP] = (p + q).times(2);
        halves[0][at + 2 * STEP] = middle;
        halves[1][at] = middle;
        halves[1][at + STEP] = (q + r).times(2);
        halves[1][at + 2 * STEP] = r.times(4);
    }
    halves
}
