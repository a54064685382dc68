//! Lots of larger parts: every element has a coordinate past those for which numbers of
//! one word suffice at depth 3, wherever it lies.

use crate::lots::Lot;
use crate::mesh::Held;
use brundhal::{MAX_COORDINATE, MAX_DEPTH};

/// The lot as it is, but at a corner of the range.
fn far(name: &'static str, lot: &Lot) -> Lot {
    const BY: i32 = MAX_COORDINATE - <i64 as Held>::MAX_COORDINATE;
    let moved = lot.coordinates.iter().zip([BY, -BY, BY].into_iter().cycle());
    Lot { name, coordinates: moved.map(|(x, by)| x + by).collect(), ..lot.clone() }
}

/// Lots of `lots::lots` with all coordinates 256 times as large; case F, whose largest is
/// 2, up to the end of the range, and one of its elements at the largest depth.  None of
/// these is small enough for one word.  Then lots of small elements far from the origin.
pub fn lots([level_0, deeper, corner, invalid, f, ..]: [Lot; 8]) -> [Lot; 8] {
    let far_level_0 = far("far off, valid at level 0", &level_0);
    let far_deeper = far("far off, valid deeper", &deeper);
    let [level_0, deeper, corner, invalid] =
        [level_0, deeper, corner, invalid].map(|lot| lot.larger(256));
    let f = f.larger(MAX_COORDINATE / 2);
    let one = Lot { name: "undecided at depth 8 (F)", depth: MAX_DEPTH, ..f.clone().first(1) };
    [level_0, deeper, corner, invalid, f, one, far_level_0, far_deeper]
}

#[cfg(test)]
mod tests {
    use super::*;
    use crate::adaptive::last_in_one_word;
    use crate::lots;
    use crate::mesh::from_run;

    #[test]
    fn coordinates_past_one_word() {
        let past = |x: &i32, end: i32| x.abs() > end;
        for lot in lots(lots::lots()) {
            for points in (0..lot.elements()).map(|element| lot.points(element)) {
                assert!(points.iter().any(|x| past(x, <i64 as Held>::MAX_COORDINATE)));
                let small = last_in_one_word(&from_run(&points), lots::DEPTH);
                let expected = lot.name.starts_with("far off").then_some(lots::DEPTH);
                assert_eq!(small, expected, "{}", lot.name);
            }
            assert!(!lot.coordinates.iter().any(|x| past(x, MAX_COORDINATE)));
        }
    }
}
