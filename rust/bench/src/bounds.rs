//! Both bounds: by the library, by an ordinary version that skips cells, by the library's
//! auditor, which looks at every cell, and by an ordinary version that does so too.

use crate::lots::Lot;
use crate::survey;
use crate::timing::{self, print_head, print_row, Version};
use brundhal::{Bounds, MAX_DEPTH};
use std::hint::black_box;

/// Whether the library skips cells that cannot alter a bound.  As long as it does not, an
/// element takes it a second or two at the largest depth: there it is asked for one of
/// each kind, once, and in a run of one round for case F alone.
const LIBRARY_SKIPS: bool = false;

/// Elements of a kind; of case F, which is always the same, there is one.
const ELEMENTS: usize = 50;

struct Way {
    name: &'static str,
    bounds: fn(&[i32; 24], u32) -> Bounds,
    /// Whether it looks at every cell of a depth.
    surveys: bool,
}

static WAYS: [Way; 4] = [
    Way { name: "library", bounds: brundhal::bounds, surveys: !LIBRARY_SKIPS },
    Way { name: "skipping", bounds: survey::bounds::<true>, surveys: false },
    Way { name: "auditor", bounds: brundhal::audit_bounds, surveys: true },
    Way { name: "every cell", bounds: survey::bounds::<false>, surveys: true },
];

impl Way {
    /// Whether an element takes seconds.
    fn slow(&self, depth: u32) -> bool {
        self.surveys && depth == MAX_DEPTH
    }

    fn each(&self, elements: &[[i32; 24]], depth: u32, mut take: impl FnMut(Bounds)) {
        for points in elements {
            take((self.bounds)(black_box(points), black_box(depth)));
        }
    }

    fn given(&self, elements: &[[i32; 24]], depth: u32) -> Vec<Bounds> {
        let mut given = Vec::new();
        self.each(elements, depth, |bounds| given.push(bounds));
        given
    }

    /// The bounds of the elements once, for their time.
    fn version<'a>(&'a self, elements: &'a [[i32; 24]], depth: u32) -> Version<'a> {
        Box::new(move || {
            self.each(elements, depth, |bounds| {
                let _ = black_box(bounds);
            })
        })
    }
}

/// The versions that are asked: in a run of one round none that would take seconds,
/// but for the library and its auditor.
fn asked(rounds: u32, depth: u32) -> &'static [Way] {
    let largest = depth == MAX_DEPTH;
    &WAYS[..if largest && rounds == 1 { 3 } else { WAYS.len() }]
}

/// The times an element of each version, found to give what the library gives.  A slow one
/// is asked for the first element only, and its time is that of the one call.
fn times(rounds: u32, elements: &[[i32; 24]], depth: u32) -> Result<Vec<f64>, String> {
    let mut library = Vec::new();
    let mut times = Vec::new();
    for way in asked(rounds, depth) {
        let elements = if way.slow(depth) { &elements[..1] } else { elements };
        let (given, took) = timing::once(|| way.given(elements, depth));
        if library.is_empty() {
            library = given;
        } else if !library.starts_with(&given) {
            return Err(format!("bounds at depth {depth}: those of {} differ", way.name));
        }
        times.push(took);
    }
    let quick = asked(rounds, depth).iter().zip(&mut times).filter(|(way, _)| !way.slow(depth));
    let (quick, taken): (Vec<&Way>, Vec<&mut f64>) = quick.unzip();
    let best = timing::best(rounds, quick.iter().map(|way| way.version(elements, depth)));
    for (taken, best) in taken.into_iter().zip(best) {
        *taken = best / elements.len() as f64;
    }
    Ok(times)
}

struct Kind {
    name: &'static str,
    elements: Vec<[i32; 24]>,
}

fn kinds([level_0, deeper, _, _, f, ..]: &[Lot; 8]) -> [Kind; 3] {
    let first = |name, lot: &Lot, elements: usize| Kind {
        name,
        elements: (0..elements).map(|element| lot.points(element)).collect(),
    };
    [
        first("bounds, sound", level_0, ELEMENTS),
        first("bounds, hard", deeper, ELEMENTS),
        first("bounds, case F", f, 1),
    ]
}

impl Kind {
    /// The elements that are asked for.
    fn asked(&self, rounds: u32, depth: u32) -> &[[i32; 24]] {
        if LIBRARY_SKIPS || depth < MAX_DEPTH {
            &self.elements
        } else {
            let one = rounds > 1 || self.elements.len() == 1;
            &self.elements[..usize::from(one)]
        }
    }
}

/// The times of sound elements, hard ones and case F, of those lots, at depths 0, 3 and
/// the largest.
pub fn print(rounds: u32, name: &str, lots: &[Lot; 8]) -> Result<(), String> {
    println!(
        "both bounds, the same by all; a look at every cell of depth {MAX_DEPTH} is timed once"
    );
    print_head("an element", rounds, "bounds", WAYS.iter().map(|way| way.name));
    for kind in kinds(lots).iter().filter(|kind| kind.name.starts_with(name)) {
        for depth in [0, 3, MAX_DEPTH] {
            let elements = kind.asked(rounds, depth);
            if !elements.is_empty() {
                let row = format!("{}, depth {depth}", kind.name);
                print_row(&row, &times(rounds, elements, depth)?);
            }
        }
    }
    Ok(())
}

#[cfg(test)]
mod tests {
    use super::*;
    use brundhal::{refusal, MAX_COORDINATE};
    use second::specimens::Shaker;

    /// All versions answer what the library answers.
    fn agree(points: &[i32; 24], depth: u32) -> Bounds {
        let library = brundhal::bounds(points, depth);
        for way in &WAYS {
            let given = (way.bounds)(points, depth);
            assert_eq!(given, library, "{} at depth {depth}: {points:?}", way.name);
        }
        library
    }

    /// Of elements of every kind that the second program draws, small and larger; and of
    /// those all over the greatest extent for which one word suffices.
    #[test]
    fn bounds_agree() {
        let mut shaker = Shaker::new(45);
        for turn in 0..3000 {
            let depth = turn % 4;
            let end = 1 << (18 - 2 * depth.max(1));
            let drawn = [1, 16, 256].map(|times| shaker.element().map(|x| x * times));
            for points in drawn.into_iter().chain([shaker.wide(end)]) {
                let points = points.map(|x| i32::try_from(x).expect("in range"));
                assert_eq!(agree(&points, depth).number, 0);
            }
        }
    }

    #[test]
    fn refusals_agree() {
        let past = [MAX_COORDINATE + 1, -MAX_COORDINATE - 1, i32::MIN];
        for x in past {
            let mut points = [0; 24];
            points[23] = x;
            assert_eq!(agree(&points, 0).number, refusal::COORDINATE);
            assert_eq!(agree(&points, MAX_DEPTH + 1).number, refusal::DEPTH);
        }
    }
}
