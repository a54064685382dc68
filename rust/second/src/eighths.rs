//! The eight children of a cube of which only the 27 coefficients are given, and the
//! least coefficient of a cube.
//!
//! The polynomial that has these coefficients is sampled on the grid of level 2, and
//! each child's coefficients are fitted to its 27 samples, as those of an element's cube
//! are: nothing is cut.

use crate::{eight_times_the_fit, Grid, CORNERS, PLACES};

/// The largest coefficient of which the children, 64 times larger, fit 128 bits.
pub const LARGEST: i128 = i128::MAX / 64;

/// 16 times the weights of a row's coefficients at so many quarters t of its length:
/// (1 - t)^2, 2 t (1 - t) and t^2.
fn weights(quarters: usize) -> [i128; 3] {
    let (t, rest) = (quarters as i128, 4 - quarters as i128);
    [rest * rest, 2 * t * rest, t * t]
}

/// 16^3 times the polynomial at the point `at` / 4.
fn polynomial(held: &[i128; 27], at: [usize; 3]) -> i128 {
    let [xi, eta, zeta] = at.map(weights);
    let term = |(&[i, j, k], &x): (&[usize; 3], &i128)| xi[i] * eta[j] * zeta[k] * x;
    PLACES.iter().zip(held).map(term).sum()
}

/// The children of coefficients of little more than one word, so that samples fit.
fn children_of_few_bits(held: &[i128; 27]) -> [[i128; 27]; 8] {
    let side = 5;
    let point = |at: usize| polynomial(held, [at / (side * side), at / side % side, at % side]);
    let grid = Grid { side, values: (0..side * side * side).map(point).collect() };
    CORNERS.map(|place| {
        let net = eight_times_the_fit(grid.on_the_cube(place)); // times 8 * 16^3
        PLACES.map(|[i, j, k]| {
            assert_eq!(net[i][j][k] % 512, 0, "64 times a child's coefficient is whole");
            net[i][j][k] / 512
        })
    })
}

/// The coefficients of the eight children of a cube with these, in the order of their
/// numbers.  01: "Doing so in xi, eta and zeta makes eight children, numbered as the
/// corners they touch, each 64 times larger."
///
/// A sum has the sums of the children's coefficients: the low 64 bits and what is above
/// them go separately.
pub fn children(held: &[i128; 27]) -> [[i128; 27]; 8] {
    let past = held.iter().find(|x| x.unsigned_abs() > LARGEST.unsigned_abs());
    assert_eq!(past, None, "a coefficient is past the reach");
    let low = children_of_few_bits(&held.map(|x| i128::from(x as u64)));
    let high = children_of_few_bits(&held.map(|x| x >> 64));
    let sum = |n: usize, at: usize| (high[n][at] << 64) + low[n][at];
    std::array::from_fn(|n| std::array::from_fn(|at| sum(n, at)))
}

/// 02, No. 7: "its least coefficient and the lowest number that holds it", from 1.
pub fn least(held: &[i128; 27]) -> (i128, usize) {
    let least = held.iter().copied().fold(held[0], i128::min);
    let before = held.iter().take_while(|&&x| x != least).count();
    (least, before + 1)
}
