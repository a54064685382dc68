//! Both bounds as one would write them in Rust: a survey of every cell of the depth by de
//! Casteljau's rule; and the same with cells skipped that cannot alter a bound (`SKIP`).
//!
//! A corner's J is a coefficient of every level below and is met at every one of them, so
//! both bounds are at most the least J of a corner that was met at any level; and no
//! coefficient within a cell is below the cell's least.

use crate::adaptive::last_in_one_word;
use crate::direct::{coefficients, halves, Net, ORDER};
use crate::mesh::{from_run, in_range, Held};
use brundhal::{refusal, Bounds, Number, MAX_DEPTH};

/// Both bounds of eight points, or the number that refuses them.
pub fn bounds<const SKIP: bool>(points: &[i32; 24], depth: u32) -> Bounds {
    if depth > MAX_DEPTH {
        return Bounds { number: refusal::DEPTH, ..Bounds::default() };
    }
    if !points.iter().all(|&x| in_range::<i128>(x)) {
        return Bounds { number: refusal::COORDINATE, ..Bounds::default() };
    }
    let n = from_run(points);
    if last_in_one_word(&n, depth) == Some(depth) {
        surveyed::<i64, SKIP>(&n, depth)
    } else {
        surveyed::<i128, SKIP>(&n, depth)
    }
}

fn surveyed<N: Held, const SKIP: bool>(n: &[[i64; 3]; 8], depth: u32) -> Bounds {
    let net = coefficients::<N, false>(n).expect("whatever the corners are");
    let first = at_last(net[ORDER[0]], depth);
    let mut survey = Survey { low: first, high: first };
    survey.visit::<SKIP>(&net, depth);
    let [low, high] = [survey.low.min(survey.high), survey.high].map(|held| {
        let [low, high] = held.words();
        Number::from_words(low, high)
    });
    Bounds { number: 0, low, high }
}

/// What a number is held as `left` levels below.
fn at_last<N: Held>(held: N, left: u32) -> N {
    held.times(1 << (6 * left))
}

/// The least of a net, row by row in xi.
#[inline(always)]
fn least<N: Held>(net: &Net<N>) -> N {
    let rows = net.chunks_exact(3).map(|row| row[0].min(row[1]).min(row[2]));
    rows.fold(net[0], N::min)
}

/// The least coefficient of the cells of the last level that were met, and the least J of
/// the corners that were met at any.
struct Survey<N> {
    low: N,
    high: N,
}

impl<N: Held> Survey<N> {
    /// A cell `left` levels above the last.
    fn visit<const SKIP: bool>(&mut self, net: &Net<N>, left: u32) {
        let corner = ORDER[1..8].iter().map(|&at| net[at]).fold(net[ORDER[0]], N::min);
        self.high = self.high.min(at_last(corner, left));
        let low = at_last(least(net), left);
        if left == 0 {
            self.low = self.low.min(low);
        } else if !SKIP || low < self.high {
            self.cut::<SKIP>(net, left - 1);
        }
    }

    fn cut<const SKIP: bool>(&mut self, net: &Net<N>, left: u32) {
        for half in &halves::<N, 9>(net) {
            for quarter in &halves::<N, 3>(half) {
                for child in &halves::<N, 1>(quarter) {
                    self.visit::<SKIP>(child, left);
                }
            }
        }
    }
}
