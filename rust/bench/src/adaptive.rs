//! The direct version in numbers of one word to the level that they suffice for, by the
//! extent of the element, and in numbers of two only where that leaves it undecided and
//! more levels are allowed.

use crate::direct;
use crate::mesh::{Answer, Record};
use brundhal::{kind, word};

pub fn inspect(coordinates: &[i32], indices: &[u32], depth: u32, report: &mut [i64]) -> Answer {
    crate::mesh::inspect::<i128>(coordinates, indices, depth, report, record)
}

/// A verdict at a lesser depth is that of the greater one, in every word of its record.
fn record(n: &[[i64; 3]; 8], depth: u32) -> Record {
    if let Some(level) = last_in_one_word(n, depth) {
        let record = direct::record::<i64, false>(n, level);
        if level == depth || record[word::KIND] != kind::UNDECIDED {
            return record;
        }
    }
    direct::record::<i128, false>(n, depth)
}

/// The last level, down to `depth`, for which numbers of one word suffice: an extent of B
/// keeps coefficients of level m within 48 * (B * 4^m)^3.
pub fn last_in_one_word(n: &[[i64; 3]; 8], depth: u32) -> Option<u32> {
    let extent = extent(n);
    if extent > 1 << 17 {
        return None;
    }
    (0..=depth).rev().find(|level| extent << (2 * level) <= 1 << 19)
}

/// The longest side of the box around eight points.
fn extent(n: &[[i64; 3]; 8]) -> i64 {
    let (mut low, mut high) = (n[0], n[0]);
    for point in &n[1..] {
        for axis in 0..3 {
            low[axis] = low[axis].min(point[axis]);
            high[axis] = high[axis].max(point[axis]);
        }
    }
    (0..3).map(|axis| high[axis] - low[axis]).fold(0, i64::max)
}

#[cfg(test)]
mod tests {
    use super::*;
    use crate::mesh::from_run;
    use brundhal::MAX_DEPTH;
    use second::specimens::{cube, Shaker};

    #[test]
    fn levels_by_extent() {
        let last = |extent: i64, depth: u32| {
            last_in_one_word(&from_run(&cube(-7, extent - 7).map(|x| x as i32)), depth)
        };
        assert_eq!(last((1 << 17) + 1, 0), None);
        assert_eq!(last(1 << 17, 0), Some(0));
        assert_eq!(last(1 << 17, MAX_DEPTH), Some(1));
        for level in 2..MAX_DEPTH {
            let extent = 1 << (19 - 2 * level);
            assert_eq!(last(extent, MAX_DEPTH), Some(level));
            assert_eq!(last(extent + 1, MAX_DEPTH), Some(level - 1));
            assert_eq!(last(extent, level - 1), Some(level - 1));
        }
        assert_eq!(last(0, MAX_DEPTH), Some(MAX_DEPTH));
    }

    /// Elements all over the greatest extent of a level: one word gives what two give.
    #[test]
    fn one_word_suffices() {
        let mut shaker = Shaker::new(44);
        for level in 1..=MAX_DEPTH {
            let end = 1 << (18 - 2 * level);
            for _ in 0..1000 {
                let n = from_run(&shaker.wide(end).map(|x| x as i32));
                assert!(last_in_one_word(&n, level) == Some(level), "{n:?}");
                let [one, two] = [direct::record::<i64, false>, direct::record::<i128, false>];
                assert_eq!(one(&n, level), two(&n, level), "{n:?}");
            }
        }
    }
}
