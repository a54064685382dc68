//! The product's own method in ordinary Rust: twenty volumes, each row of the
//! table from the list of its non-zero places, coefficients in the order of their
//! numbers, one pass of the search for every level, children made by halves, and
//! those of a half without a low coefficient passed over.  A child is made with its
//! least coefficient, and visited only where that is not above 0.  Once a pass has
//! found a low coefficient, it looks for low corners alone: in a cell above the last
//! level J is taken at the 27 grid points before a child is made, and where it is
//! above 0 at all of them, the children that are left are passed over.
//!
//! The rows of the table are one loop; in the library they are four, which the
//! compiler writes out.  A half branches six ways, and its rows are written out, as in
//! the library.  The number of the least, which the library answers too, is not asked
//! for in a search and left out.  For numbers of one word and of two.

use crate::mesh::{
    determinant, difference, invalid, sum, undecided, valid, Answer, Held, Record, CORNERS,
};

/// The table's rows without their zeros: where each row's list starts, the
/// places in it and the numbers at them.
struct Lists {
    starts: [usize; 28],
    columns: [usize; 112],
    values: [i64; 112],
}

static LISTS: Lists = lists(table());

/// "edges 1-2, 2-3, 3-4, 1-4, 1-5, 2-6, 3-7, 4-8, 5-6, 6-7, 7-8, 5-8", from 0.
const EDGES: [[usize; 2]; 12] = [
    [0, 1],
    [1, 2],
    [2, 3],
    [0, 3],
    [0, 4],
    [1, 5],
    [2, 6],
    [3, 7],
    [4, 5],
    [5, 6],
    [6, 7],
    [4, 7],
];

/// "faces 1234, 1256, 2367, 3478, 1458, 5678", from 0.
const FACES: [[usize; 4]; 6] =
    [[0, 1, 2, 3], [0, 1, 4, 5], [1, 2, 5, 6], [2, 3, 6, 7], [0, 3, 4, 7], [4, 5, 6, 7]];

const fn on_face(corner: usize, face: usize) -> bool {
    let f = FACES[face];
    corner == f[0] || corner == f[1] || corner == f[2] || corner == f[3]
}

/// 27 rows of 20: corners and edges (in quarters) to eight times the
/// coefficients.
///
/// "a corner row holds 8; an edge row 4 and twice -4; a face row four times 2
/// and four times -6; the centre row twelve times 1 and eight times -5."
const fn table() -> [i64; 540] {
    let mut table = [0; 540];
    let mut k = 0;
    while k < 20 {
        let is_corner = k < 8;
        let mut n = 0;
        while n < 27 {
            let entry = if n < 8 {
                if n == k {
                    8
                } else {
                    0
                }
            } else if n < 20 {
                let [a, b] = EDGES[n - 8];
                if n == k {
                    4
                } else if is_corner && (k == a || k == b) {
                    -4
                } else {
                    0
                }
            } else if n < 26 {
                if is_corner {
                    if on_face(k, n - 20) {
                        -6
                    } else {
                        0
                    }
                } else {
                    let [a, b] = EDGES[k - 8];
                    if on_face(a, n - 20) && on_face(b, n - 20) {
                        2
                    } else {
                        0
                    }
                }
            } else if is_corner {
                -5
            } else {
                1
            };
            table[20 * n + k] = entry;
            n += 1;
        }
        k += 1;
    }
    table
}

/// The non-zero places of each row of the table, row after row.
const fn lists(table: [i64; 540]) -> Lists {
    let mut lists = Lists { starts: [0; 28], columns: [0; 112], values: [0; 112] };
    let mut held = 0;
    let mut at = 0;
    while at < table.len() {
        if table[at] != 0 {
            lists.columns[held] = at % 20;
            lists.values[held] = table[at];
            held += 1;
        }
        at += 1;
        if at % 20 == 0 {
            lists.starts[at / 20] = held;
        }
    }
    lists
}

/// The nine rows of three coefficients in xi, eta and zeta, by their numbers
/// from 0.
#[rustfmt::skip]
const ROWS: [[[usize; 3]; 9]; 3] = [
    [
        [0, 8, 1],
        [12, 21, 13],
        [4, 16, 5],
        [11, 20, 9],
        [24, 26, 22],
        [19, 25, 17],
        [3, 10, 2],
        [15, 23, 14],
        [7, 18, 6],
    ],
    [
        [0, 11, 3],
        [12, 24, 15],
        [4, 19, 7],
        [8, 20, 10],
        [21, 26, 23],
        [16, 25, 18],
        [1, 9, 2],
        [13, 22, 14],
        [5, 17, 6],
    ],
    [
        [0, 12, 4],
        [11, 24, 19],
        [3, 15, 7],
        [8, 21, 16],
        [20, 26, 25],
        [10, 23, 18],
        [1, 13, 5],
        [9, 22, 17],
        [2, 14, 6],
    ],
];

type Net<N> = [N; 27];

pub fn inspect<N: Held>(
    coordinates: &[i32],
    indices: &[u32],
    depth: u32,
    report: &mut [i64],
) -> Answer {
    crate::mesh::inspect::<N>(coordinates, indices, depth, report, record::<N>)
}

/// J at corner a, whose neighbours are b, c and d; nodes go by their numbers.
#[inline(always)]
fn at_corner<N: Held>(n: &[[i64; 3]; 8], a: usize, b: usize, c: usize, d: usize) -> N {
    let to = |b: usize| difference(n[a - 1], n[b - 1]);
    determinant(to(b), to(c), to(d))
}

/// Four times J at the middle of edge a-b: the tetrahedron's other vertices are
/// the middles of c and d and of e and f.
#[inline(always)]
fn at_edge<N: Held>(
    n: &[[i64; 3]; 8],
    [a, b]: [usize; 2],
    [c, d]: [usize; 2],
    [e, f]: [usize; 2],
) -> N {
    let to = |b: usize| difference(n[a - 1], n[b - 1]);
    determinant(to(b), sum(to(c), to(d)), sum(to(e), to(f)))
}

fn volumes<N: Held>(n: &[[i64; 3]; 8]) -> [N; 20] {
    [
        at_corner(n, 1, 2, 4, 5),
        at_corner(n, 2, 3, 1, 6),
        at_corner(n, 3, 4, 2, 7),
        at_corner(n, 4, 1, 3, 8),
        at_corner(n, 5, 8, 6, 1),
        at_corner(n, 6, 5, 7, 2),
        at_corner(n, 7, 6, 8, 3),
        at_corner(n, 8, 7, 5, 4),
        at_edge(n, [1, 2], [3, 4], [5, 6]),
        at_edge(n, [2, 3], [1, 4], [6, 7]),
        at_edge(n, [3, 4], [1, 2], [7, 8]),
        at_edge(n, [1, 4], [5, 8], [2, 3]),
        at_edge(n, [1, 5], [2, 6], [4, 8]),
        at_edge(n, [2, 6], [3, 7], [1, 5]),
        at_edge(n, [3, 7], [4, 8], [2, 6]),
        at_edge(n, [4, 8], [1, 5], [3, 7]),
        at_edge(n, [5, 6], [1, 2], [7, 8]),
        at_edge(n, [6, 7], [2, 3], [5, 8]),
        at_edge(n, [7, 8], [3, 4], [5, 6]),
        at_edge(n, [5, 8], [6, 7], [1, 4]),
    ]
}

/// The 27 coefficients, times 8: the list of every row against the volumes.
fn coefficients<N: Held>(n: &[[i64; 3]; 8]) -> Net<N> {
    let volumes: [N; 20] = volumes(n);
    let mut net = [N::ZERO; 27];
    for (coefficient, ends) in net.iter_mut().zip(LISTS.starts.windows(2)) {
        let (columns, values) = (&LISTS.columns[ends[0]..ends[1]], &LISTS.values[ends[0]..ends[1]]);
        *coefficient =
            columns.iter().zip(values).map(|(&at, &value)| volumes[at].times(value)).sum();
    }
    net
}

/// The lowest number of a coefficient not above 0; 0 where there is none.
fn lowest<N: Held>(net: &Net<N>) -> usize {
    net.iter().position(|&x| x <= N::ZERO).map_or(0, |at| at + 1)
}

/// One half in a direction, four times larger.
#[inline(never)]
fn halve<N: Held>(net: &Net<N>, direction: u32, side: u32, out: &mut Net<N>) {
    match (direction, side) {
        (0, 0) => half::<N, 0, false>(net, out),
        (1, 0) => half::<N, 1, false>(net, out),
        (_, 0) => half::<N, 2, false>(net, out),
        (0, _) => half::<N, 0, true>(net, out),
        (1, _) => half::<N, 1, true>(net, out),
        (_, _) => half::<N, 2, true>(net, out),
    }
}

#[inline(always)]
fn half<N: Held, const DIRECTION: usize, const UPPER: bool>(net: &Net<N>, out: &mut Net<N>) {
    for [x, y, z] in ROWS[DIRECTION] {
        let (p, q, r) = (net[x], net[y], net[z]);
        let middle = p + q.times(2) + r;
        [out[x], out[y], out[z]] = if UPPER {
            [middle, (q + r).times(2), r.times(4)]
        } else {
            [p.times(4), (p + q).times(2), middle]
        };
    }
}

/// The least of the 27, row by row in xi.
#[inline(always)]
fn least<N: Held>(net: &Net<N>) -> N {
    let of_row = |[x, y, z]: [usize; 3]| net[x].min(net[y]).min(net[z]);
    let [first, rows @ ..] = ROWS[0];
    rows.into_iter().map(of_row).fold(of_row(first), N::min)
}

/// The child on a side of its quarter, and the least of its coefficients.
#[inline(never)]
fn eighth<N: Held>(quarter: &Net<N>, side: u32, child: &mut Net<N>) -> N {
    halve(quarter, 0, side, child);
    least(child)
}

/// J in the middle of a row, four times.
#[inline(always)]
fn middle<N: Held>([p, q, r]: [N; 3]) -> N {
    p + q.times(2) + r
}

/// Whether J is above 0 at the three points of a row: its ends and its middle.  Only
/// signs matter, so nothing is scaled.
#[inline(always)]
fn clear_in_row<N: Held>([p, q, r]: [N; 3]) -> bool {
    (p > N::ZERO) & (r > N::ZERO) & (middle([p, q, r]) > N::ZERO)
}

/// The same at the nine points of a plane of three rows in zeta.
#[inline(always)]
fn clear_in_plane<N: Held>([a, b, c, d, e, f, g, h, i]: [N; 9]) -> bool {
    let between = [middle([a, d, g]), middle([b, e, h]), middle([c, f, i])];
    clear_in_row([a, b, c]) && clear_in_row(between) && clear_in_row([g, h, i])
}

/// Whether J is above 0 at the 27 grid points of the next level in a cell: in the planes
/// of the starts, the ends and the middles of the rows in xi.
#[inline(never)]
fn clear_at_points<N: Held>(net: &Net<N>) -> bool {
    let starts = ROWS[0].map(|[x, _, _]| net[x]);
    let ends = ROWS[0].map(|[_, _, z]| net[z]);
    clear_in_plane(starts)
        && clear_in_plane(ends)
        && clear_in_plane(ROWS[0].map(|row| middle(row.map(|at| net[at]))))
}

/// What a pass has found.
enum Found<N> {
    Nothing,
    Coefficient { cube: [u32; 3], number: usize, held: N },
    Corner { cube: [u32; 3], corner: usize, held: N },
}

struct Pass<N> {
    opened: u32,
    found: Found<N>,
}

impl<N: Held> Pass<N> {
    /// A cell of the last level with a low coefficient.
    fn open(&mut self, net: &Net<N>, cube: [u32; 3]) {
        self.opened += 1;
        let number = lowest(net);
        let held = net[number - 1];
        if number <= 8 {
            self.found = Found::Corner { cube, corner: number - 1, held };
        } else if matches!(self.found, Found::Nothing) {
            self.found = Found::Coefficient { cube, number, held };
        }
    }

    /// Cells without a low coefficient, `left` levels above the last.
    fn skip(&mut self, cells: u32, left: u32) {
        if left == 0 {
            self.opened += cells;
        }
    }

    /// Whether nothing more can be found in the last children of a cell: they are cells
    /// of the last level, of which only a low corner would matter, and none has one.
    fn passes_over(&mut self, children: u32, net: &Net<N>, left: u32) -> bool {
        let only_corners = left == 1 && matches!(self.found, Found::Coefficient { .. });
        let clear = only_corners && clear_at_points(net);
        if clear {
            self.opened += children;
        }
        clear
    }

    /// A cell that is known to have a low coefficient.
    fn visit(&mut self, net: &Net<N>, cube: [u32; 3], left: u32) {
        if left == 0 {
            return self.open(net, cube);
        }
        if self.passes_over(8, net, left) {
            return;
        }
        let [mut half, mut quarter, mut child] = [[N::ZERO; 27]; 3];
        let mut k = 0;
        while k < 8 && !matches!(self.found, Found::Corner { .. }) {
            let place = CORNERS[k];
            if k % 4 == 0 {
                halve(net, 2, place[2], &mut half);
                if lowest(&half) == 0 {
                    self.skip(4, left - 1);
                    k += 4;
                    continue;
                }
            }
            if k % 2 == 0 {
                halve(&half, 1, place[1], &mut quarter);
                if lowest(&quarter) == 0 {
                    self.skip(2, left - 1);
                    k += 2;
                    continue;
                }
            }
            if eighth(&quarter, place[0], &mut child) > N::ZERO {
                self.skip(1, left - 1);
            } else {
                let at = [0, 1, 2].map(|axis| 2 * cube[axis] + place[axis]);
                self.visit(&child, at, left - 1);
            }
            k += 1;
            if self.passes_over(8 - k as u32, net, left) {
                return;
            }
        }
    }
}

fn record<N: Held>(n: &[[i64; 3]; 8], depth: u32) -> Record {
    let net: Net<N> = coefficients(n);
    if lowest(&net) == 0 {
        return valid(0, 1);
    }
    let mut opened = 0;
    let mut level = 0;
    loop {
        let mut pass = Pass { opened, found: Found::Nothing };
        pass.visit(&net, [0; 3], level);
        opened = pass.opened;
        match pass.found {
            Found::Nothing => return valid(level, opened),
            Found::Corner { cube, corner, held } => {
                return invalid(level, cube, corner, held, opened);
            }
            Found::Coefficient { cube, number, held } if level == depth => {
                return undecided(level, cube, number, held, opened);
            }
            Found::Coefficient { .. } => level += 1,
        }
    }
}
