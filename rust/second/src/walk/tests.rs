use super::{bounds, records};
use crate::every_cube;
use crate::specimens::{worked, Points, Shaker};
use crate::{Limits, EVERY_CUBE};

/// By the walk, and by every cube of every level.
fn check(points: &Points, depth: u32) {
    let walked = (records(points, depth), bounds(points, depth));
    assert_eq!(walked, every_cube::records_and_bounds(points, depth));
}

/// Also past the depth to which every cube is looked at for an answer.
#[test]
fn the_walk_gives_what_all_cubes_give() {
    let mut shaker = Shaker::new(23);
    for turn in 0..1500u32 {
        let points = shaker.element();
        check(&points, turn % 4);
        check(&points.map(|x| x * 256), turn % 3);
    }
    for (_, points) in worked() {
        check(&points, EVERY_CUBE + 2);
    }
    for _ in 0..40 {
        check(&shaker.needs_cutting(), EVERY_CUBE + 1);
        check(&shaker.element().map(|x| x * 256), EVERY_CUBE + 1);
    }
}

/// With eight random corners at the ends of the range, numbers are largest.
#[test]
fn at_the_ends_of_the_range() {
    let mut shaker = Shaker::new(24);
    let range = Limits::base().range;
    for turn in 0..300 {
        let points: Points = [0; 24].map(|_: i64| [-range, range][shaker.between(0, 1) as usize]);
        check(&points, turn % 3);
    }
}
