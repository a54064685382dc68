//! Records and bounds by the cubes that an answer can come from.
//!
//! A level 8 has 8^8 cubes, too many to look at every one.  A cube's coefficients are
//! above a number wherever those of the cube that it lies in are, so cubes from which
//! nothing of an answer can come are left out here.  Those that are looked at are
//! sampled as everywhere in this program: nothing is cut.

use crate::{coefficients, first_fault, Bounds, Said, CORNERS};

#[cfg(test)]
mod tests;

/// The eight children of some cubes, in path order if the cubes are.
fn children(cubes: impl Iterator<Item = [u32; 3]>) -> Vec<[u32; 3]> {
    let of_one = |at: [u32; 3]| CORNERS.map(|place| [0, 1, 2].map(|i| 2 * at[i] + place[i]));
    cubes.flat_map(of_one).collect()
}

/// What one level decides.
enum Decided {
    Yes(Said),
    /// The record at this depth, and the cubes that are due on the next level.
    NotYet(Said, Vec<[u32; 3]>),
}

/// Opens the due cubes of a level, in path order, after `opened` others.
///
/// A cube that is not due lies in one without a coefficient <= 0 and has none itself:
/// no corner or coefficient that a record names is in it.
fn level_opened(points: &[i64; 24], level: u32, due: Vec<[u32; 3]>, mut opened: i64) -> Decided {
    let mut low = Vec::new();
    for at in due {
        opened += 1;
        // corners have the lowest numbers, and J is their coefficient
        match first_fault(&coefficients(points, level, at)) {
            Some(fault) if fault.number <= 8 => {
                return Decided::Yes(Said::invalid(level, at, fault, opened));
            }
            Some(fault) => low.push((at, fault)),
            None => {}
        }
    }
    match low.first() {
        None => Decided::Yes(Said::valid(level, opened)),
        Some(&(at, fault)) => {
            let next = children(low.iter().map(|&(at, _)| at));
            Decided::NotYet(Said::undecided(level, at, fault, opened), next)
        }
    }
}

/// The record at every depth from 0 to `depth`.
///
/// What a level decides holds at every greater depth: the point named is one of the
/// least level that has such a point, and the level named the least at which every
/// coefficient is above 0.
pub fn records(points: &[i64; 24], depth: u32) -> Vec<Said> {
    let mut records: Vec<Said> = Vec::new();
    let mut due = vec![[0; 3]];
    for level in 0..=depth {
        let opened = records.last().map_or(0, |said| said.opened);
        match level_opened(points, level, due, opened) {
            Decided::Yes(said) => {
                records.resize(depth as usize + 1, said);
                break;
            }
            Decided::NotYet(said, next) => {
                records.push(said);
                due = next;
            }
        }
    }
    records
}

/// Low and high at every depth from 0 to `depth`.
///
/// A cube without a coefficient below the least J met so far is left out, with all
/// that lies in it: nothing there is below that J, which is itself a coefficient, a
/// corner's, on every deeper level.
pub fn bounds(points: &[i64; 24], depth: u32) -> Vec<Bounds> {
    let mut kept = vec![[0; 3]];
    let mut high = i128::MAX;
    let mut at_level = |level: u32| {
        let seen: Vec<_> = kept.iter().map(|&at| (at, coefficients(points, level, at))).collect();
        let corners = seen.iter().flat_map(|(_, held)| &held[..8]);
        // from a level to the next, numbers are held 64 times larger
        high = corners.copied().fold(high.saturating_mul(64), i128::min);
        let low = seen.iter().flat_map(|(_, held)| held).copied().fold(high, i128::min);
        let below = seen.iter().filter(|(_, held)| held.iter().any(|&x| x < high));
        kept = children(below.map(|&(at, _)| at));
        (low, high)
    };
    (0..=depth).map(&mut at_level).collect()
}
