//! Records and bounds by every cube of every level: nothing is searched or left out.

use crate::{coefficients_from, first_fault, Bounds, Fault, Grid, Said, CORNERS};

/// What was seen in one cube.
struct Cube {
    /// Grid numbers of its lowest corner.
    at: [u32; 3],
    /// Its lowest corner with J <= 0.
    corner: Option<Fault>,
    /// Its lowest-numbered coefficient <= 0.
    coefficient: Option<Fault>,
    /// Its least coefficient.
    least: i128,
}

/// All cubes of one level, in path order, and the least J of its grid points.
struct Level {
    cubes: Vec<Cube>,
    least_point: i128,
}

/// The cube of place `index` in path order.  01: "Cubes of one level stand in
/// path order: by the first child number, then the second, then the third":
/// the octal digits of the index are the child numbers less 1, and a child
/// stands "at twice the grid numbers plus its place (0 or 1 on each axis)".
pub fn cube_in_path_order(level: u32, index: usize) -> [u32; 3] {
    let mut at = [0; 3];
    for digit in (0..level).rev() {
        let child = (index >> (3 * digit)) & 7;
        for axis in 0..3 {
            at[axis] = 2 * at[axis] + CORNERS[child][axis];
        }
    }
    at
}

/// Eight times 64^m J at the eight corners of a cube, from that level's grid.
pub fn corner_values(grid: &Grid, cube: [u32; 3]) -> [i128; 8] {
    CORNERS.map(|place| {
        let point = [0, 1, 2].map(|axis| (cube[axis] + place[axis]) as usize);
        8 * grid.at(point)
    })
}

fn look_at_cube(own: &Grid, finer: &Grid, at: [u32; 3]) -> Cube {
    let held = coefficients_from(finer.on_the_cube(at));
    Cube {
        at,
        corner: first_fault(&corner_values(own, at)),
        coefficient: first_fault(&held),
        least: held.into_iter().fold(i128::MAX, i128::min),
    }
}

/// Every cube of every level from 0 to the depth.
fn look_at_all(points: &[i64; 24], depth: u32) -> Vec<Level> {
    let grids: Vec<Grid> = (0..=depth + 1).map(|level| Grid::sampled(points, level)).collect();
    let look_at_level = |level: u32| {
        let (own, finer) = (&grids[level as usize], &grids[level as usize + 1]);
        let cubes = (0..1usize << (3 * level))
            .map(|index| look_at_cube(own, finer, cube_in_path_order(level, index)))
            .collect();
        Level { cubes, least_point: 8 * own.least() }
    };
    (0..=depth).map(look_at_level).collect()
}

// ----------------------------------------------------------------- verdict --

/// A fault, with the level and the place in path order of its cube.
struct Found {
    level: usize,
    index: usize,
    fault: Fault,
}

/// 01: "Invalid: some grid point of level D has J <= 0. The point named: take
/// the least level that has such a point; at that level the first cube in path
/// order with such a corner; in it the lowest such corner."
fn invalid_point(levels: &[Level]) -> Option<Found> {
    for (level, seen) in levels.iter().enumerate() {
        for (index, cube) in seen.cubes.iter().enumerate() {
            if let Some(fault) = cube.corner {
                return Some(Found { level, index, fault });
            }
        }
    }
    None
}

/// "every coefficient of every level-[...] cube is above 0".
fn all_positive(level: &Level) -> bool {
    level.cubes.iter().all(|cube| cube.coefficient.is_none())
}

/// 01: "Valid: every coefficient of every level-D cube is above 0. The level
/// named is the least at which that holds."
fn valid_level(levels: &[Level]) -> Option<usize> {
    if all_positive(levels.last()?) {
        levels.iter().position(all_positive)
    } else {
        None
    }
}

/// 01: "The cube named is the first of level D in path order with a
/// coefficient <= 0, and in it the lowest-numbered such coefficient."
fn undecided_cube(levels: &[Level]) -> Option<Found> {
    let level = levels.len().checked_sub(1)?;
    let index = levels[level].cubes.iter().position(|cube| cube.coefficient.is_some())?;
    let fault = levels[level].cubes[index].coefficient?;
    Some(Found { level, index, fault })
}

/// 01, "Cubes opened": "level by level, in path order, starting with the
/// whole; a cube of level at most D is opened if it is the whole or its parent
/// was opened and had a coefficient <= 0. Opening ends at the cube of an
/// invalid answer, or when no cube is due."
fn opened(levels: &[Level], invalid: Option<&Found>) -> i64 {
    let mut count = 0;
    let mut opened_above: Vec<bool> = Vec::new();
    for (level, seen) in levels.iter().enumerate() {
        let mut opened_here = vec![false; seen.cubes.len()];
        for index in 0..seen.cubes.len() {
            let parent = index / 8;
            let due = level == 0
                || (opened_above[parent] && levels[level - 1].cubes[parent].coefficient.is_some());
            if due {
                opened_here[index] = true;
                count += 1;
            }
            if invalid.is_some_and(|found| found.level == level && found.index == index) {
                return count;
            }
        }
        opened_above = opened_here;
    }
    count
}

/// The record that these levels, from 0 to the depth, give.
fn record_of(levels: &[Level]) -> Said {
    let at = |found: &Found| levels[found.level].cubes[found.index].at;
    if let Some(found) = invalid_point(levels) {
        let opened = opened(levels, Some(&found));
        return Said::invalid(found.level as u32, at(&found), found.fault, opened);
    }
    let opened = opened(levels, None);
    if let Some(level) = valid_level(levels) {
        return Said::valid(level as u32, opened);
    }
    let found = undecided_cube(levels).expect("neither invalid nor valid");
    Said::undecided(found.level as u32, at(&found), found.fault, opened)
}

/// The record and both bounds at every depth from 0 to `depth`.
pub fn records_and_bounds(points: &[i64; 24], depth: u32) -> (Vec<Said>, Vec<Bounds>) {
    let levels = look_at_all(points, depth);
    let low = |level: &Level| level.cubes.iter().fold(i128::MAX, |low, cube| low.min(cube.least));
    let at_depth = |(depth, level): (usize, &Level)| {
        (record_of(&levels[..=depth]), (low(level), level.least_point))
    };
    levels.iter().enumerate().map(at_depth).unzip()
}
