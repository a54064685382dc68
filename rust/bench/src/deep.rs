//! Lots at the largest depth, of elements that lie where one word suffices at depth 3.

use crate::lots::{drawn, Lot, DEPTH};
use brundhal::{kind, word, MAX_DEPTH};
use second::specimens::Shaker;

/// Elements that are not decided at the lesser depth, each of which takes long, and of
/// case F, each of which takes milliseconds.
const PAST: usize = 100;
const FEW: usize = 2;

/// Lots of `lots::lots`, and one of elements that are decided past their depth; case F as
/// it is, which one word suffices for, and 1,024 times as large, for which it does not.
pub fn lots([level_0, deeper, corner, invalid, f, ..]: [Lot; 8]) -> [Lot; 7] {
    let mut shaker = Shaker::new(2029);
    let past = drawn(
        "decided past level 3",
        MAX_DEPTH,
        || shaker.strained(),
        |record| record[word::KIND] != kind::UNDECIDED && record[word::LEVEL] > i64::from(DEPTH),
    );
    let f = f.first(FEW);
    let larger = Lot { name: "undecided (F, larger)", ..f.clone().larger(1024) };
    [level_0, deeper, corner, invalid, past.first(PAST), f, larger]
        .map(|lot| Lot { depth: MAX_DEPTH, ..lot })
}
