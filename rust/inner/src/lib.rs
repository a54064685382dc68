//! The function that makes a child of a cell, from libinner_exports.a, with numbers of
//! one word and of two: the child's 27 coefficients, the least of them and the lowest
//! number that holds it.
//!
//! For the tests beside the second program; no library that is handed out has it.  It
//! trusts its callers, so the functions here test what they are handed and panic where
//! it is past the limits.

#![deny(warnings)]
#![deny(unsafe_op_in_unsafe_fn)]

#[cfg(test)]
mod tests;

extern "C" {
    fn inner_narrow_eighth(g: &[i64; 27], k: u32, out: &mut [i64; 27], told: &mut [i64; 2]);
    fn inner_wide_eighth(g: &[u64; 54], k: u32, out: &mut [u64; 54], told: &mut [u64; 3]);
}

/// The largest magnitude of a coefficient: 64 times larger it fits one word.
pub const LARGEST_NARROW: i64 = i64::MAX / 64;

/// The same for two words.
pub const LARGEST_WIDE: i128 = i128::MAX / 64;

/// What is answered of a child.
#[derive(Clone, Copy, Debug, PartialEq, Eq)]
pub struct Eighth<N> {
    /// In the order of their numbers.
    pub coefficients: [N; 27],
    pub least: N,
    /// The number of the least, from 1.
    pub number: i64,
}

impl From<Eighth<i64>> for Eighth<i128> {
    fn from(narrow: Eighth<i64>) -> Eighth<i128> {
        Eighth {
            coefficients: narrow.coefficients.map(i128::from),
            least: i128::from(narrow.least),
            number: narrow.number,
        }
    }
}

/// What lies in lent space before a call, so that a word that was not written shows.
pub const PATTERN: u64 = 0x5A5A_A5A5_DEAD_0001;

/// A number's low word and its high one.
fn words(x: i128) -> [u64; 2] {
    [x as u64, (x >> 64) as u64]
}

/// The number of a low word and a high one.
fn number([low, high]: [u64; 2]) -> i128 {
    i128::from(high as i64) << 64 | i128::from(low)
}

fn test_child(k: u32) {
    assert!(k < 8, "no child: {k}");
}

/// Child `k`, 0 to 7, of a cell with these coefficients, none past `LARGEST_NARROW`.
pub fn narrow_eighth(cell: &[i64; 27], k: u32) -> Eighth<i64> {
    test_child(k);
    let past = |x: &&i64| x.unsigned_abs() > LARGEST_NARROW.unsigned_abs();
    assert_eq!(cell.iter().find(past), None, "too large to be cut");
    let mut coefficients = [PATTERN as i64; 27];
    let mut told = [PATTERN as i64; 2];
    // The limits were tested; the arrays are borrowed for the call.
    unsafe { inner_narrow_eighth(cell, k, &mut coefficients, &mut told) };
    let [least, number] = told;
    Eighth { coefficients, least, number }
}

/// Child `k`, 0 to 7, of a cell with these coefficients, none past `LARGEST_WIDE`.
pub fn wide_eighth(cell: &[i128; 27], k: u32) -> Eighth<i128> {
    test_child(k);
    let past = |x: &&i128| x.unsigned_abs() > LARGEST_WIDE.unsigned_abs();
    assert_eq!(cell.iter().find(past), None, "too large to be cut");
    let cell = std::array::from_fn(|at| words(cell[at / 2])[at % 2]);
    let mut out = [PATTERN; 54];
    let mut told = [PATTERN; 3];
    // The limits were tested; the arrays are borrowed for the call.
    unsafe { inner_wide_eighth(&cell, k, &mut out, &mut told) };
    let coefficients = std::array::from_fn(|at| number([out[2 * at], out[2 * at + 1]]));
    let [low, high, told_number] = told;
    Eighth { coefficients, least: number([low, high]), number: told_number as i64 }
}
