//! The worked cases and rules of 01 and 02, one test each or more.

use super::every_cube::{corner_values, cube_in_path_order};
use super::specimens::{cube, from_nodes, rings_exchanged, twisted, worked, Points, Shaker};
use super::*;

const LIMITS: Limits = Limits::base();

const JUNK: i64 = -7_777_777;

fn case(name: char) -> Points {
    worked().into_iter().find(|(n, _)| *n == name).unwrap().1
}

fn narrow(points: &Points) -> [i32; 24] {
    points.map(|x| i32::try_from(x).unwrap())
}

/// One element of eight nodes of its own, inspected.
fn inspect_one(points: &Points, indices: [u32; 8], depth: u32) -> (Inspection, Record) {
    let mut report = [JUNK; RECORD_WORDS];
    let answer = inspect(&LIMITS, &narrow(points), &indices, depth, &mut report);
    (answer, report)
}

const IN_ORDER: [u32; 8] = [0, 1, 2, 3, 4, 5, 6, 7];

fn counts(valid: u32, invalid: u32, undecided: u32, refused: u32) -> Inspection {
    Inspection { number: 0, valid, invalid, undecided, refused }
}

fn refusal(number: u32) -> Inspection {
    Inspection { number, ..Inspection::default() }
}

/// The record, and the same words from an inspection.
#[track_caller]
fn expect(points: &Points, depth: u32, words: Record) {
    assert_eq!(record(points, depth), words);
    let (answer, report) = inspect_one(points, IN_ORDER, depth);
    assert_eq!(report, words);
    let mut kinds = [0; 3];
    kinds[words[0] as usize] = 1;
    assert_eq!(answer, counts(kinds[0], kinds[1], kinds[2], 0));
}

#[track_caller]
fn expect_bounds(points: &Points, depth: u32, low: i128, high: i128) {
    assert_eq!(bounds_of(points, depth), (low, high));
    let answer = bounds(&LIMITS, &narrow(points), depth);
    assert_eq!(answer, BoundsAnswer { number: 0, low, high });
}

// ------------------------------------------------------------ worked cases --

#[test]
fn case_a_unit_cube() {
    for depth in 0..=8 {
        expect(&case('A'), depth, [0, 0, 0, 0, 0, 0, 0, 0, 1]);
        let held = 8 * 64i128.pow(depth);
        expect_bounds(&case('A'), depth, held, held);
    }
}

#[test]
fn case_b_one_point() {
    for depth in 0..=8 {
        for node in [[0, 0, 0], [2, -3, 5], [1_048_576, -1_048_576, 1_048_576]] {
            expect(&from_nodes([node; 8]), depth, [1, 0, 0, 0, 0, 1, 0, 0, 1]);
            expect_bounds(&from_nodes([node; 8]), depth, 0, 0);
        }
    }
}

#[test]
fn case_c_rings_exchanged() {
    for depth in 0..=8 {
        expect(&case('C'), depth, [1, 0, 0, 0, 0, 1, -8, -1, 1]);
    }
}

#[test]
fn case_d_twisted_and_valid() {
    expect(&case('D'), 0, [2, 0, 0, 0, 0, 13, 0, 0, 1]);
    expect_bounds(&case('D'), 1, 1024, 1024);
    for depth in 1..=8 {
        expect(&case('D'), depth, [0, 1, 0, 0, 0, 0, 0, 0, 9]);
    }
}

#[test]
fn case_e_twisted_and_invalid() {
    expect(&case('E'), 0, [2, 0, 0, 0, 0, 13, -32, -1, 1]);
    for depth in 1..=8 {
        expect(&case('E'), depth, [1, 1, 0, 0, 1, 5, 0, 0, 2]);
    }
}

/// By J = 4 (1 - 3 zeta)^2: on every level those cubes have a low coefficient that hold
/// zeta = 1/3, 4^level of them.
#[test]
fn case_f_undecided_at_every_depth() {
    let f = case('F');
    for m in 0..=5u32 {
        let steps = 1u64 << m;
        for c in 0..=steps {
            let root = steps as i128 - 3 * c as i128;
            let expected = 4 * root * root * 16i128.pow(m);
            for a in 0..=steps {
                for b in 0..=steps {
                    assert_eq!(jacobian(&f, m, a, b, c), expected);
                }
            }
        }
    }
    expect(&f, 0, [2, 0, 0, 0, 0, 13, -64, -1, 1]);
    expect(&f, 3, [2, 3, 0, 0, 2, 13, -262_144, -1, 169]);
    expect_bounds(&f, 3, -262_144, 131_072);
    for (depth, said) in (0..=8u32).zip(over_depths(&f, 8)) {
        let opened = 1 + 8 * (4i64.pow(depth) - 1) / 3;
        let third = (1 << depth) / 3;
        // between grid points at distances 1/3 and 2/3 on the two sides of the zero,
        // the middle coefficient is minus their product
        let (low, high) = (-64 * 16i128.pow(depth), 32 * 16i128.pow(depth));
        let [word_6, word_7] = two_words(low);
        let words = [2, depth.into(), 0, 0, third, 13, word_6, word_7, opened];
        assert_eq!(said, (words, (low, high)));
        if depth == 8 {
            expect(&f, 8, words);
        }
    }
}

/// Case F as large as it can be: its values and bounds need both words.
#[test]
fn case_f_at_its_largest() {
    let f = case('F').map(|x| x << 19);
    let times = 1i128 << 57;
    for (depth, (words, (low, high))) in (0..).zip(over_depths(&f, 6)) {
        assert_eq!((low, high), (-64 * 16i128.pow(depth) * times, 32 * 16i128.pow(depth) * times));
        assert_eq!(words[6..8], two_words(low));
        assert_eq!(words[8], record(&case('F'), depth)[8]);
        // -2^(63 + 4 depth)
        assert_eq!(words[7], if depth == 0 { -1 } else { -1 << (4 * depth - 1) });
        assert_eq!(words[6], if depth == 0 { i64::MIN } else { 0 });
    }
}

#[test]
fn case_g_zero_is_not_positive() {
    let g = case('G');
    for depth in 0..=8 {
        expect(&g, depth, [1, 0, 0, 0, 0, 1, 0, 0, 1]);
    }
    // slip 1: all other coefficients are positive
    let held = coefficients(&g, 0, [0; 3]);
    assert_eq!(held[0], 0);
    assert!(held[1..].iter().all(|&x| x > 0));
}

#[test]
fn case_h_range() {
    let mut h = case('A');
    h[3 * 2 + 1] = 1_048_577;
    for depth in 0..=8 {
        let expected = (counts(0, 0, 0, 1), [6, 3, 2, 0, 0, 0, 0, 0, 0]);
        assert_eq!(inspect_one(&h, IN_ORDER, depth), expected);
        let answer = bounds(&LIMITS, &narrow(&h), depth);
        assert_eq!(answer, BoundsAnswer { number: 6, low: 0, high: 0 });
    }
}

/// J is 2^63 everywhere in the largest cube.
#[test]
fn the_largest_cube() {
    let points = cube(-1_048_576, 1_048_576);
    for depth in 0..=8 {
        expect(&points, depth, [0, 0, 0, 0, 0, 0, 0, 0, 1]);
        let held = 1 << (3 + 6 * depth + 63);
        expect_bounds(&points, depth, held, held);
        expect(&rings_exchanged(&points), depth, [1, 0, 0, 0, 0, 1, 0, -4, 1]);
        expect_bounds(&rings_exchanged(&points), depth, -held, -held);
    }
}

#[test]
fn case_i_index() {
    for depth in 0..=8 {
        let expected = (counts(0, 0, 0, 1), [5, 4, 8, 0, 0, 0, 0, 0, 0]);
        assert_eq!(inspect_one(&case('A'), [0, 1, 2, 8, 4, 5, 6, 7], depth), expected);
    }
}

/// "low 64 bits and then high, as two's complement", back again.
#[test]
fn words_of_a_number() {
    assert_eq!(two_words(-1), [-1, -1]);
    assert_eq!(two_words(1 << 64), [0, 1]);
    assert_eq!(two_words(-(1 << 64)), [0, -1]);
    assert_eq!(two_words(1 << 63), [i64::MIN, 0]);
    assert_eq!(two_words(-(1 << 63) - 1), [i64::MAX, -1]);
    for held in [0, 1, -1, i128::MIN, i128::MAX, 384 << 108, -(384 << 108)] {
        let [low, high] = two_words(held);
        assert_eq!((i128::from(high) << 64) + i128::from(low as u64), held);
    }
}

// ----------------------------------------------------- determinant, 27 rows --

/// steps^6 times the sum of held coefficients against the products of
/// Bernstein functions of degree 2, at the point `at` / steps of the cube.
fn bernstein_sum(held: &[i128; 27], at: [i128; 3], steps: i128) -> i128 {
    let functions = at.map(|t| {
        let u = steps - t;
        [u * u, 2 * t * u, t * t]
    });
    places()
        .iter()
        .zip(held)
        .map(|([i, j, k], value)| functions[0][*i] * functions[1][*j] * functions[2][*k] * value)
        .sum()
}

/// "the only 27 numbers whose sum against the products of Bernstein functions
/// of degree 2 gives J at every grid point"
#[test]
fn coefficients_reproduce_the_determinant() {
    let mut shaker = Shaker::new(11);
    for _ in 0..200 {
        let points = shaker.element();
        for (m, cell) in [(0u32, [0, 0, 0]), (1, [1, 0, 1]), (2, [3, 1, 2])] {
            let held = coefficients(&points, m, cell);
            for a in 0..=8u64 {
                for b in 0..=8u64 {
                    for c in 0..=8u64 {
                        let inside = [a, b, c].map(i128::from);
                        let sum = bernstein_sum(&held, inside, 8);
                        // 8^6 * (8 * 64^m) J, and 64^(m+3) J: 8^6 is 64^3
                        let low = cell.map(|number| 8 * u64::from(number));
                        let [x, y, z] = [a + low[0], b + low[1], c + low[2]];
                        assert_eq!(sum, 8 * jacobian(&points, m + 3, x, y, z));
                    }
                }
            }
        }
    }
}

/// Six times the volume of a tetrahedron.
fn six_volumes(n: [[i128; 3]; 4]) -> i128 {
    let from_first = |i: usize| [0, 1, 2].map(|axis| n[i][axis] - n[0][axis]);
    determinant(from_first(1), from_first(2), from_first(3))
}

/// "For edge 1-2 it is the tetrahedron n1, n2, (n3+n4)/2, (n5+n6)/2. Four
/// times an edge value is whole."
#[test]
fn an_edge_value_is_a_tetrahedron() {
    let mut shaker = Shaker::new(12);
    for _ in 0..500 {
        let points = shaker.element();
        let node = |n: usize| [0, 1, 2].map(|axis| i128::from(points[3 * (n - 1) + axis]));
        let sum = |n: usize, l: usize| [0, 1, 2].map(|axis| node(n)[axis] + node(l)[axis]);
        // all four points doubled: eight times the value
        let eight = six_volumes([sum(1, 1), sum(2, 2), sum(3, 4), sum(5, 6)]);
        assert_eq!(eight * 8, jacobian(&points, 1, 1, 0, 0));
        assert_eq!(eight % 2, 0);
        let corner = six_volumes([node(1), node(2), node(4), node(5)]);
        assert_eq!(corner, jacobian(&points, 0, 0, 0, 0));
    }
}

/// The corner, edge, face and centre rules of 01, from 20 values.
#[test]
fn coefficients_follow_the_twenty_values() {
    let mut shaker = Shaker::new(13);
    for _ in 0..500 {
        let points = shaker.element();
        let held = coefficients(&points, 0, [0; 3]);
        // all times 64, at half steps
        let at = |[i, j, k]: [usize; 3]| jacobian(&points, 1, i as u64, j as u64, k as u64);
        let corner = |n: usize| at(middle_of(&[n]));
        let edge = |e: usize| at(middle_of(&EDGES[e]));
        for n in 1..=8 {
            assert_eq!(64 * held[n - 1], 8 * corner(n));
        }
        for e in 0..12 {
            let [n, l] = EDGES[e];
            assert_eq!(64 * held[8 + e], 16 * edge(e) - 4 * (corner(n) + corner(l)));
        }
        for f in 0..6 {
            let on_face = |e: &usize| EDGES[*e].iter().all(|n| FACES[f].contains(n));
            let edges: Vec<usize> = (0..12).filter(on_face).collect();
            assert_eq!(edges.len(), 4);
            let middles: i128 = edges.into_iter().map(edge).sum();
            let corners: i128 = FACES[f].iter().map(|&n| corner(n)).sum();
            assert_eq!(64 * held[20 + f], 8 * middles - 6 * corners);
        }
        let middles: i128 = (0..12).map(edge).sum();
        let corners: i128 = (1..=8).map(corner).sum();
        assert_eq!(64 * held[26], 4 * middles - 5 * corners);
    }
}

/// "(p, (p+q)/2, (p+2q+r)/4) and ((p+2q+r)/4, (q+r)/2, r)", "Kept four times
/// larger it needs no division."
fn half_of_row([p, q, r]: [i128; 3], upper: bool) -> [i128; 3] {
    let middle = p + 2 * q + r;
    if upper {
        [middle, 2 * (q + r), 4 * r]
    } else {
        [4 * p, 2 * (p + q), middle]
    }
}

/// The child of a parent's 27 coefficients that stands at `place`, by halves in xi, eta
/// and zeta.
fn cut(parent: &[i128; 27], place: [u32; 3]) -> [i128; 27] {
    let mut net: Net = [[[0; 3]; 3]; 3];
    for ([i, j, k], value) in places().into_iter().zip(*parent) {
        net[i][j][k] = value;
    }
    for u in 0..3 {
        for v in 0..3 {
            let row = half_of_row([0, 1, 2].map(|i| net[i][u][v]), place[0] == 1);
            (0..3).for_each(|i| net[i][u][v] = row[i]);
        }
    }
    for u in 0..3 {
        for v in 0..3 {
            let row = half_of_row([0, 1, 2].map(|j| net[u][j][v]), place[1] == 1);
            (0..3).for_each(|j| net[u][j][v] = row[j]);
        }
    }
    for u in 0..3 {
        for v in 0..3 {
            net[u][v] = half_of_row(net[u][v], place[2] == 1);
        }
    }
    places().map(|[i, j, k]| net[i][j][k])
}

/// "Doing so in xi, eta and zeta makes eight children, numbered as the corners
/// they touch, each 64 times larger."  Sampled from the element, and from the parent's
/// coefficients alone.
#[test]
fn children_are_cuts_of_their_parent() {
    let mut shaker = Shaker::new(14);
    for turn in 0..100 {
        let times = [1, 256][turn % 2];
        let points = shaker.element().map(|x| x * times);
        for (m, at) in [(0u32, [0; 3]), (1, [0, 1, 1]), (2, [3, 0, 2]), (7, [85, 42, 127])] {
            let parent = coefficients(&points, m, at);
            let from_parent = eighths::children(&parent);
            for n in 1..=8 {
                let place = CORNERS[n - 1];
                let child = [0, 1, 2].map(|axis| 2 * at[axis] + place[axis]);
                let expected = cut(&parent, place);
                assert_eq!(coefficients(&points, m + 1, child), expected);
                assert_eq!(from_parent[n - 1], expected);
            }
        }
    }
}

/// Of any coefficients, also of the largest.
#[test]
fn children_of_any_coefficients() {
    let mut shaker = Shaker::new(16);
    let largest = eighths::LARGEST;
    for x in [0, 1, -1, 1 << 64, -(1 << 64) - 1, largest, -largest] {
        assert_eq!(eighths::children(&[x; 27]), [[64 * x; 27]; 8]);
    }
    let ends = [-largest, 1 - largest, -1, 0, largest - 1, largest];
    for turn in 0..300 {
        let parent = [0; 27].map(|_: i128| {
            let any = i128::from(shaker.draw()) << 64 | i128::from(shaker.draw());
            match turn % 3 {
                0 => ends[shaker.between(0, 5) as usize],
                1 => [largest, -largest][shaker.between(0, 1) as usize],
                _ => (any % (largest + 1)) >> shaker.between(0, 100),
            }
        });
        let children = eighths::children(&parent);
        for (child, place) in children.iter().zip(CORNERS) {
            assert_eq!(*child, cut(&parent, place));
        }
    }
}

#[test]
#[should_panic(expected = "past the reach")]
fn children_past_the_reach() {
    let mut parent = [0; 27];
    parent[13] = -eighths::LARGEST - 1;
    eighths::children(&parent);
}

/// "its least coefficient and the lowest number that holds it".
#[test]
fn the_least_of_27() {
    for x in [0, 1, -1, i128::MIN, i128::MAX] {
        assert_eq!(eighths::least(&[x; 27]), (x, 1));
    }
    for number in 1..=27 {
        let mut held: [i128; 27] = std::array::from_fn(|at| at as i128 - 5);
        held[number - 1] = -6;
        assert_eq!(eighths::least(&held), (-6, number));
        held[26] = -6;
        assert_eq!(eighths::least(&held), (-6, number));
        held[number / 2] = -6;
        assert_eq!(eighths::least(&held), (-6, number / 2 + 1));
        held[26] = i128::MIN;
        assert_eq!(eighths::least(&held), (i128::MIN, 27));
    }
}

/// "corner = its J", so the first eight coefficients are the corner values at
/// every level: the two ways in which this program gets them agree.
#[test]
fn corner_coefficients_are_corner_values() {
    let mut shaker = Shaker::new(15);
    for _ in 0..100 {
        let points = shaker.element();
        for level in 0..=3u32 {
            let grid = Grid::sampled(&points, level);
            for index in 0..1usize << (3 * level) {
                let at = cube_in_path_order(level, index);
                assert_eq!(coefficients(&points, level, at)[..8], corner_values(&grid, at));
            }
        }
    }
}

/// 01's numbering, written out: half steps on xi, eta, zeta.
#[test]
fn places_follow_the_numbering() {
    let corners =
        [[0, 0, 0], [2, 0, 0], [2, 2, 0], [0, 2, 0], [0, 0, 2], [2, 0, 2], [2, 2, 2], [0, 2, 2]];
    let edges = [
        [1, 0, 0], // 9: 1-2
        [2, 1, 0], // 10: 2-3
        [1, 2, 0], // 11: 3-4
        [0, 1, 0], // 12: 1-4
        [0, 0, 1], // 13: 1-5
        [2, 0, 1], // 14: 2-6
        [2, 2, 1], // 15: 3-7
        [0, 2, 1], // 16: 4-8
        [1, 0, 2], // 17: 5-6
        [2, 1, 2], // 18: 6-7
        [1, 2, 2], // 19: 7-8
        [0, 1, 2], // 20: 5-8
    ];
    let faces = [
        [1, 1, 0], // 21: 1234
        [1, 0, 1], // 22: 1256
        [2, 1, 1], // 23: 2367
        [1, 2, 1], // 24: 3478
        [0, 1, 1], // 25: 1458
        [1, 1, 2], // 26: 5678
    ];
    let centre = [[1, 1, 1]]; // 27
    let written: Vec<[usize; 3]> = [&corners[..], &edges, &faces, &centre].concat();
    assert_eq!(places().to_vec(), written);
}

/// 01: "no coefficient passes 384 * 4,096^3 times 64^m", and so of any range; 02, No. 8:
/// "The largest held coefficient is below 384 * 2^108."
#[test]
fn magnitudes_fit() {
    assert_eq!(384 * 4096i128.pow(3) * 64i128.pow(3), 6_917_529_027_641_081_856);
    assert_eq!(384 * 1_048_576i128.pow(3) * 64i128.pow(8), 384 << 108);
    // the largest number met, 64 times a held coefficient, at the reach
    let most = |range: i128, depth: u32| 384 * range.pow(3) * 64i128.pow(depth);
    assert!(most(REACH_RANGE.into(), REACH_DEPTH + 1) < 1 << 126);
    let mut shaker = Shaker::new(16);
    for _ in 0..100 {
        for range in [4096, LIMITS.range] {
            let points = [0; 24].map(|_| [-range, range][shaker.between(0, 1) as usize]);
            for level in 0..=3 {
                for index in 0..1usize << (3 * level) {
                    let held = coefficients(&points, level, cube_in_path_order(level, index));
                    assert!(held.iter().all(|x| x.abs() <= most(range.into(), level)));
                }
            }
        }
    }
}

/// Renumbering by a symmetry keeps the 27 coefficients, in another order.
#[test]
fn turned_elements_are_the_same_elements() {
    let mut shaker = Shaker::new(21);
    for _ in 0..500 {
        let points = shaker.small();
        let turned = shaker.turned(&points);
        let mut before = coefficients(&points, 0, [0; 3]);
        let mut after = coefficients(&turned, 0, [0; 3]);
        before.sort();
        after.sort();
        assert_eq!(before, after);
        assert_eq!(bounds_of(&points, 2), bounds_of(&turned, 2));
    }
}

// ---------------------------------------------------- path order and opened --

#[test]
fn path_order() {
    assert_eq!(cube_in_path_order(0, 0), [0, 0, 0]);
    let first_level: Vec<[u32; 3]> = (0..8).map(|i| cube_in_path_order(1, i)).collect();
    assert_eq!(first_level, CORNERS.to_vec());
    // child 3, then 8, then 2
    assert_eq!(cube_in_path_order(3, 0o271), [5, 6, 2]);
    let mut all: Vec<[u32; 3]> = (0..512).map(|i| cube_in_path_order(3, i)).collect();
    for (index, &[a, b, c]) in all.iter().enumerate() {
        let address = Address { level: 3, a, b, c };
        let (parent, moved) = address.parent(&LIMITS);
        assert!(moved);
        assert_eq!([parent.a, parent.b, parent.c], cube_in_path_order(2, index / 8));
        let (child, moved) = parent.child(index as u32 % 8 + 1, &LIMITS);
        assert!(moved);
        assert_eq!(child, address);
    }
    all.sort();
    all.dedup();
    assert_eq!(all.len(), 512);
}

/// "Cubes opened" at most: 01's 585 at depth 3, 02's 19,173,961 at depth 8.
#[test]
fn cubes_of_all_levels() {
    let cubes = |depth: u32| -> i64 { (0..=depth).map(|level| 8i64.pow(level)).sum() };
    assert_eq!((cubes(3), cubes(8)), (585, 19_173_961));
    let mut shaker = Shaker::new(17);
    for _ in 0..400 {
        let points = shaker.element();
        for (depth, words) in (0..).zip(records(&points, 4)) {
            assert!((1..=cubes(depth)).contains(&words[8]));
        }
    }
}

// --------------------------------------------------------------- refusals --

/// Every wrong thing at once, mended one after the other.
#[test]
fn refusals_in_their_order() {
    let good = narrow(&case('A'));
    let mut report = [JUNK; 10];
    let bad_coordinates = &good[..23];
    let bad_indices = &IN_ORDER[..7];
    for depth in [9, 10, 256, u32::MAX] {
        assert_eq!(inspect(&LIMITS, bad_coordinates, bad_indices, depth, &mut report), refusal(1));
    }
    assert_eq!(inspect(&LIMITS, bad_coordinates, bad_indices, 8, &mut report), refusal(2));
    assert_eq!(inspect(&LIMITS, &good, bad_indices, 8, &mut report), refusal(3));
    for space in [0, 1, 7, 8, 10] {
        assert_eq!(inspect(&LIMITS, &good, &IN_ORDER, 8, &mut report[..space]), refusal(4));
    }
    assert_eq!(inspect(&LIMITS, &good, &[], 8, &mut report[..9]), refusal(4));
    assert_eq!(report, [JUNK; 10], "a refusal leaves the report space untouched");
    assert_eq!(inspect(&LIMITS, &good, &IN_ORDER, 8, &mut report[..9]), counts(1, 0, 0, 0));
    assert_eq!(report, [0, 0, 0, 0, 0, 0, 0, 0, 1, JUNK]);
}

#[test]
fn refusals_at_the_limits() {
    let unit = narrow(&case('A'));
    let mut nodes = vec![i32::MIN; 3 * 5001];
    nodes[..24].copy_from_slice(&unit);
    let mut report = [JUNK; RECORD_WORDS];
    assert_eq!(inspect(&LIMITS, &nodes, &IN_ORDER, 0, &mut report), refusal(2));
    assert_eq!(report, [JUNK; RECORD_WORDS]);
    // 5,000 nodes are taken, and unnamed nodes "are not looked at"
    let taken = &nodes[..3 * 5000];
    assert_eq!(inspect(&LIMITS, taken, &IN_ORDER, 0, &mut report), counts(1, 0, 0, 0));
    let elements: Vec<u32> = IN_ORDER.repeat(1001);
    let mut long = vec![JUNK; 9 * 1001];
    assert_eq!(inspect(&LIMITS, &unit, &elements, 0, &mut long), refusal(3));
    let elements = &elements[..8000];
    assert_eq!(inspect(&LIMITS, &unit, elements, 0, &mut long[..8000]), refusal(4));
    assert!(long.iter().all(|&x| x == JUNK));
    assert_eq!(inspect(&LIMITS, &unit, elements, 0, &mut long[..9000]), counts(1000, 0, 0, 0));
}

/// "A mesh of no elements is accepted."
#[test]
fn no_elements() {
    for coordinates in [&[][..], &[1, 2, i32::MAX][..]] {
        let answer = inspect(&LIMITS, coordinates, &[], 3, &mut []);
        assert_eq!(answer, counts(0, 0, 0, 0));
        assert_eq!(stamp(&answer), Some(Stamp::Open));
    }
}

/// "Within an element all eight indices are tested before any coordinate;
/// lowest place first, then x, y, z."
#[test]
fn order_within_an_element() {
    let mut points = case('A');
    points[3 + 2] = -1_048_577; // place 2, z
    points[3 * 4] = i64::from(i32::MIN); // place 5, x
    let last = [0, 1, 2, 3, 4, 5, 6, u32::MAX];
    assert_eq!(inspect_one(&points, last, 0).1, [5, 8, 4_294_967_295, 0, 0, 0, 0, 0, 0]);
    let two = [0, 1, 9, 3, 4, 8, 6, 7];
    assert_eq!(inspect_one(&points, two, 0).1, [5, 3, 9, 0, 0, 0, 0, 0, 0]);
    assert_eq!(inspect_one(&points, IN_ORDER, 0).1, [6, 2, 3, 0, 0, 0, 0, 0, 0]);
    // the place is counted in the element, not in the nodes
    let turned = [0, 4, 2, 3, 1, 5, 6, 7];
    assert_eq!(inspect_one(&points, turned, 0).1, [6, 2, 1, 0, 0, 0, 0, 0, 0]);
    points[3 + 1] = 1_048_577; // place 2, y comes before z
    assert_eq!(inspect_one(&points, IN_ORDER, 0).1, [6, 2, 2, 0, 0, 0, 0, 0, 0]);
}

// ---------------------------------------------------------- named twice --

/// A refusal by 7 of the element with these indices, at every depth.
#[track_caller]
fn expect_pair(points: &Points, indices: [u32; 8], lower: i64, higher: i64) {
    for depth in 0..=8 {
        let (answer, words) = inspect_one(points, indices, depth);
        assert_eq!(words, [7, lower, higher, 0, 0, 0, 0, 0, 0]);
        assert_eq!(answer, counts(0, 0, 0, 1), "it counts among the refused");
        assert_eq!(stamp(&answer), Some(Stamp::Faulty));
    }
}

/// 02, No. 5: "word 1 the lower place, word 2 the higher place".
#[test]
fn every_pair_of_places() {
    for lower in 0..8 {
        for higher in lower + 1..8 {
            for (to, from) in [(lower, higher), (higher, lower)] {
                let mut indices = IN_ORDER;
                indices[to] = indices[from];
                expect_pair(&case('A'), indices, lower as i64 + 1, higher as i64 + 1);
            }
        }
    }
}

/// "lowest first place and then lowest second"
#[test]
fn the_lowest_of_several_pairs() {
    // three of one index, at any three places
    for a in 0..8 {
        for b in a + 1..8 {
            for c in b + 1..8 {
                let mut indices = IN_ORDER;
                (indices[a], indices[b]) = (indices[c], indices[c]);
                expect_pair(&case('A'), indices, a as i64 + 1, b as i64 + 1);
            }
        }
    }
    expect_pair(&case('A'), [0, 1, 1, 0, 4, 5, 6, 7], 1, 4);
    expect_pair(&case('A'), [0, 1, 2, 2, 1, 0, 6, 7], 1, 6);
    expect_pair(&case('A'), [0, 1, 0, 1, 4, 5, 6, 7], 1, 3);
    for index in 0..8 {
        expect_pair(&case('A'), [index; 8], 1, 2);
    }
}

/// 7 is "tested after 5 and before 6".
#[test]
fn a_pair_after_a_missing_node_and_before_the_range() {
    let missing = [0, 1, 8, 8, 4, 5, 6, 7];
    assert_eq!(inspect_one(&case('A'), missing, 0).1, [5, 3, 8, 0, 0, 0, 0, 0, 0]);
    let missing_last = [0, 0, 2, 3, 4, 5, 6, u32::MAX];
    assert_eq!(inspect_one(&case('A'), missing_last, 0).1, [5, 8, 4_294_967_295, 0, 0, 0, 0, 0, 0]);
    let mut far = case('A');
    far[0] = 1_048_577;
    expect_pair(&far, [0, 0, 2, 3, 4, 5, 6, 7], 1, 2);
    expect_pair(&far, [0, 1, 2, 3, 4, 5, 6, 6], 7, 8);
    assert_eq!(inspect_one(&far, IN_ORDER, 0).1, [6, 1, 1, 0, 0, 0, 0, 0, 0]);
}

/// Two nodes with different numbers at one point are not 7: case B has eight.
#[test]
fn nodes_at_one_point_are_not_named_twice() {
    let b = case('B');
    expect_pair(&b, [0, 1, 2, 3, 4, 5, 6, 0], 1, 8);
    assert_eq!(inspect_one(&b, IN_ORDER, 0).1, [1, 0, 0, 0, 0, 1, 0, 0, 1]);
    // node 8 at node 1's point: the edges from node 4 to 1 and to 8 lie in one line
    let mut two = case('A');
    two.copy_within(..3, 21);
    assert_eq!(inspect_one(&two, IN_ORDER, 0).1, [1, 0, 0, 1, 0, 4, 0, 0, 1]);
}

/// "It refuses with 1 and then 6 and no other, by number alone, and both
/// bounds are then 0."
#[test]
fn refusals_of_the_bounds() {
    let mut points = narrow(&case('A'));
    points[23] = -1_048_577;
    let refused = |number| BoundsAnswer { number, low: 0, high: 0 };
    assert_eq!(bounds(&LIMITS, &points, 9), refused(1));
    assert_eq!(bounds(&LIMITS, &points, 8), refused(6));
    points[23] = -1_048_576;
    assert_eq!(bounds(&LIMITS, &points, 9), refused(1));
    assert_eq!(bounds(&LIMITS, &points, 3).number, 0);
}

// ----------------------------------------------------------- whole meshes --

/// Slip 5, "A record left from the element before": a mesh of every kind of
/// record, in many orders, over a space full of old words.
#[test]
fn no_word_is_left_from_before() {
    let seed = 18;
    println!("seed {seed}");
    let mut shaker = Shaker::new(seed);
    let mut report = vec![JUNK; RECORD_WORDS * 40];
    for round in 0..60u32 {
        let depth = round % 6;
        let mut coordinates: Vec<i32> = Vec::new();
        let mut indices: Vec<u32> = Vec::new();
        let mut expected: Vec<i64> = Vec::new();
        let mut tally = [0u32; 8];
        for element in 0..40u32 {
            let mut points = match shaker.between(0, 3) {
                0 => worked()[shaker.between(0, 6) as usize].1,
                _ => shaker.element(),
            };
            let mut names = IN_ORDER.map(|n| n + 8 * element);
            let mut words = record(&points, depth);
            match shaker.between(0, 6) {
                0 => {
                    let place = shaker.between(0, 7) as usize;
                    names[place] = 320 + shaker.between(0, 1 << 31) as u32;
                    words = [5, place as i64 + 1, i64::from(names[place]), 0, 0, 0, 0, 0, 0];
                }
                1 => {
                    let at = shaker.between(0, 23);
                    points[at as usize] = shaker.between(LIMITS.range + 1, 1 << 30);
                    words = [6, at / 3 + 1, at % 3 + 1, 0, 0, 0, 0, 0, 0];
                }
                2 => {
                    let lower = shaker.between(0, 6);
                    let higher = shaker.between(lower + 1, 7);
                    names[lower as usize] = names[higher as usize];
                    words = [7, lower + 1, higher + 1, 0, 0, 0, 0, 0, 0];
                }
                _ => {}
            }
            coordinates.extend(narrow(&points));
            indices.extend(names);
            expected.extend(words);
            tally[words[0] as usize] += 1;
        }
        let answer = inspect(&LIMITS, &coordinates, &indices, depth, &mut report);
        assert_eq!(report, expected);
        assert_eq!(answer, counts(tally[0], tally[1], tally[2], tally[5] + tally[6] + tally[7]));
        let faulty = tally[1] + tally[5] + tally[6] + tally[7] > 0;
        assert_eq!(stamp(&answer) == Some(Stamp::Faulty), faulty);
        assert_eq!(stamp(&answer), Some(stamp_of_report(&report)));
    }
}

/// The stamp by the counts, and by records with these counts.
#[track_caller]
fn expect_stamp(answer: Inspection, expected: Stamp) {
    assert_eq!(stamp(&answer), Some(expected));
    let Inspection { valid, invalid, undecided, refused, .. } = answer;
    let kinds = [(0, valid), (1, invalid), (2, undecided), (6, refused)];
    let records = kinds.map(|(kind, count)| [kind, 0, 0, 0, 0, 0, 0, 0, 1].repeat(count as usize));
    assert_eq!(stamp_of_report(&records.concat()), expected);
}

/// "sound" with valid records and no other, "faulty" with an invalid or a refused one,
/// "open" with none at all or with undecided ones.
#[test]
fn stamps() {
    expect_stamp(counts(0, 0, 0, 0), Stamp::Open);
    expect_stamp(counts(0, 0, 1, 0), Stamp::Open);
    expect_stamp(counts(0, 1, 1, 0), Stamp::Faulty);
    expect_stamp(counts(3, 0, 0, 0), Stamp::Sound);
    expect_stamp(counts(0, 0, 0, 3), Stamp::Faulty);
    expect_stamp(counts(3, 0, 0, 1), Stamp::Faulty);
    expect_stamp(counts(3, 0, 2, 0), Stamp::Open);
    expect_stamp(counts(3, 1, 0, 0), Stamp::Faulty);
    expect_stamp(counts(0, 0, 2, 1), Stamp::Faulty);
    for number in 1..=4 {
        assert_eq!(stamp(&refusal(number)), None);
    }
}

// ------------------------------------------------------------- over depths --

/// Records and bounds of one element at the depths from 0 to `last`, held together: a
/// decision stays as it is at every greater depth, and bounds only close in.  The last
/// record.
fn check_over_depths(points: &Points, last: u32) -> Record {
    let (records, bounds): (Vec<Record>, Vec<Bounds>) =
        over_depths(points, last).into_iter().unzip();
    assert_eq!(records.len(), last as usize + 1);
    for depth in 0..records.len() {
        let (low, high) = bounds[depth];
        assert!(low <= high);
        // the verdict as the bounds show it
        let kind = if high <= 0 {
            1
        } else if low > 0 {
            0
        } else {
            2
        };
        assert_eq!(records[depth][0], kind, "{points:?} at {depth}");
        if kind == 2 {
            assert_eq!(records[depth][1], depth as i64);
        } else {
            // the level named is itself the least depth with this decision
            let level = records[depth][1] as usize;
            assert!(level <= depth);
            assert_eq!(records[level], records[depth]);
            assert!(records[..level].iter().all(|words| words[0] == 2));
        }
        for deeper in depth + 1..records.len() {
            let scale = 64i128.pow((deeper - depth) as u32);
            assert!(low * scale <= bounds[deeper].0, "{points:?}");
            assert!(bounds[deeper].1 <= high * scale, "{points:?}");
            if kind != 2 {
                assert_eq!(records[depth], records[deeper], "{points:?}");
            }
        }
    }
    records[last as usize]
}

#[test]
fn over_depths_on_random_elements() {
    let seed = 19;
    println!("seed {seed}");
    let mut shaker = Shaker::new(seed);
    let mut met = std::collections::BTreeMap::new();
    for turn in 0..4000 {
        let points = shaker.element();
        let words = check_over_depths(&points, 3);
        *met.entry((words[0], words[1])).or_insert(0u32) += 1;
        if turn % 8 == 0 {
            check_over_depths(&points, 5);
            check_over_depths(&points.map(|x| x * 256), 4);
        }
    }
    println!("kind and level at depth 3: {met:?}");
    for (kind, level) in [(0, 0), (0, 1), (0, 2), (0, 3), (1, 0), (1, 1), (1, 2), (1, 3), (2, 3)] {
        assert!(met.contains_key(&(kind, level)), "no element of kind {kind}, level {level}");
    }
}

#[test]
fn over_depths_on_worked_elements() {
    for (_, points) in worked() {
        check_over_depths(&points, 7);
    }
    for p in -3..=3 {
        for q in -3..=3 {
            check_over_depths(&twisted(1, 1, p, q), 4);
            check_over_depths(&rings_exchanged(&twisted(1, 1, p, q)), 4);
        }
    }
}

/// All depths at once is each depth by itself.
#[test]
fn all_depths_at_once() {
    let mut shaker = Shaker::new(22);
    for turn in 0..300u32 {
        let (points, depth) = (shaker.element(), turn % 6);
        let singly: Vec<_> =
            (0..=depth).map(|d| (record(&points, d), bounds_of(&points, d))).collect();
        assert_eq!(over_depths(&points, depth), singly);
        let singly: Vec<Record> = singly.into_iter().map(|(record, _)| record).collect();
        assert_eq!(records(&points, depth), singly);
    }
}

// --------------------------------------------------------------- addresses --

#[test]
fn moves_of_an_address() {
    let limits = LIMITS;
    let at = |level, a, b, c| Address { level, a, b, c };
    let whole = at(0, 0, 0, 0);
    assert_eq!(whole.parent(&limits), (whole, false));
    assert_eq!(whole.child(7, &limits), (at(1, 1, 1, 1), true));
    assert_eq!(whole.corner(7, &limits), (at(0, 1, 1, 1), true));
    assert_eq!(at(1, 1, 0, 1).child(4, &limits), (at(2, 2, 1, 2), true));
    assert_eq!(at(3, 7, 0, 7).corner(3, &limits), (at(3, 8, 1, 7), true));
    assert_eq!(at(3, 7, 0, 7).child(1, &limits), (at(4, 14, 0, 14), true));
    assert_eq!(at(8, 255, 0, 255).corner(3, &limits), (at(8, 256, 1, 255), true));
    assert_eq!(at(8, 255, 4, 1).parent(&limits), (at(7, 127, 2, 0), true));
    assert_eq!(at(8, 255, 0, 255).child(1, &limits), (at(8, 255, 0, 255), false));
    for n in [0, 9, u32::MAX] {
        assert_eq!(whole.child(n, &limits), (whole, false));
        assert_eq!(whole.corner(n, &limits), (whole, false));
    }
    // "any move from an address that is no cube"
    for none in [at(9, 0, 0, 0), at(0, 1, 0, 0), at(2, 0, 4, 0), at(8, 0, 256, u32::MAX)] {
        for n in 0..10 {
            assert_eq!(none.child(n, &limits), (none, false));
            assert_eq!(none.corner(n, &limits), (none, false));
        }
        assert_eq!(none.parent(&limits), (none, false));
    }
    for n in 1..=8 {
        for a in 0..4 {
            let start = at(2, a, 3 - a, 1);
            let (child, moved) = start.child(n, &limits);
            assert!(moved);
            assert_eq!(child.parent(&limits), (start, true));
        }
    }
}

// ------------------------------------------------------------------- reach --

/// Whatever is handed in is answered.
#[test]
fn every_input_is_answered() {
    let end = LIMITS.range as i32;
    let extremes = [i32::MIN, -end - 1, -end, -1, 0, 1, end, end + 1, i32::MAX];
    let mut shaker = Shaker::new(20);
    let mut some = |of: &[i32]| of[shaker.between(0, of.len() as i64 - 1) as usize];
    for turn in 0..200 {
        // past the range in a half of them, at its ends in the others
        let from = if turn % 2 == 0 { &extremes[..] } else { &extremes[2..7] };
        let points = [0; 24].map(|_| some(from));
        let unusable = points.iter().any(|x| x.unsigned_abs() > end as u32);
        for depth in [0, 3, 4, 8, 9, 256, u32::MAX] {
            let number = if depth > 8 { 1 } else { 6 * u32::from(unusable) };
            assert_eq!(bounds(&LIMITS, &points, depth).number, number);
            let mut report = [JUNK; RECORD_WORDS];
            let answer = inspect(&LIMITS, &points, &IN_ORDER, depth, &mut report);
            assert_eq!(answer.number, u32::from(depth > 8));
            assert_eq!(report[0] == 6, number == 6);
            let answer = inspect(&LIMITS, &points, &[u32::MAX; 8], depth, &mut report);
            assert_eq!(answer.refused, u32::from(depth <= 8));
        }
        for m in [0, 1, 3, 63, 64, 127, 128, u32::MAX] {
            jacobian(&points.map(|x| i64::from(x) << 32), m, u64::MAX, 1, 0);
        }
    }
    for level in [0, 8, 31, 32, u32::MAX] {
        for number in [0, 1, u32::MAX] {
            let address = Address { level, a: number, b: number, c: number };
            for n in 0..10 {
                address.child(n, &LIMITS);
                address.corner(n, &LIMITS);
            }
            address.parent(&LIMITS);
        }
    }
}

/// Other limits are followed, up to the reach: exact at its very edge.
#[test]
fn other_limits() {
    let limits = Limits { range: REACH_RANGE, depth: 5, nodes: 9, elements: 2 };
    let big = cube(-REACH_RANGE, REACH_RANGE);
    assert_eq!(bounds_of(&big, REACH_DEPTH), (1 << (3 + 48 + 66), 1 << (3 + 48 + 66)));
    assert_eq!(bounds(&limits, &narrow(&big), 5).number, 0);
    assert_eq!(bounds(&limits, &narrow(&big), 6).number, 1);
    let mut report = [JUNK; RECORD_WORDS];
    let answer = inspect(&limits, &narrow(&case('F')), &IN_ORDER, 5, &mut report);
    assert_eq!(answer, counts(0, 0, 1, 0));
    assert_eq!(report, record(&case('F'), 5));
    assert_eq!(inspect(&limits, &[0; 30], &[], 0, &mut []).number, 2);
    assert_eq!(inspect(&limits, &[0; 27], &[0; 24], 0, &mut []).number, 3);
}

#[test]
#[should_panic(expected = "depth 9 is past the reach")]
fn a_depth_past_the_reach() {
    record(&[0; 24], REACH_DEPTH + 1);
}

#[test]
#[should_panic(expected = "a coordinate is past the reach")]
fn a_coordinate_past_the_reach() {
    let mut points = [0; 24];
    points[7] = -REACH_RANGE - 1;
    bounds_of(&points, 0);
}
