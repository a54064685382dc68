//! The cells that are asked about.

use crate::ask::{Net, Width};
use second::specimens::{Points, Shaker};
use second::{coefficients, eighths, places, Limits};

/// Cells of one kind.
pub struct Corpus {
    pub name: &'static str,
    pub width: Width,
    pub cells: Vec<Net>,
}

pub const SHARED: &str = "equal least ones at chosen numbers";
pub const ELEMENTS: &str = "coefficients of elements";

pub fn corpora(width: Width, seed: u64) -> Vec<Corpus> {
    type Draw = fn(Width, &mut Shaker) -> Vec<Net>;
    let draws: [(&'static str, Draw); 6] = [
        ("equal coefficients", equal),
        ("the least at a chosen number", one_least),
        (SHARED, shared_least),
        ("any coefficients", any),
        ("coefficients at the limits", at_the_limits),
        (ELEMENTS, of_elements),
    ];
    let corpus = |(seed, (name, draw)): (u64, (&'static str, Draw))| {
        let cells = draw(width, &mut Shaker::new(seed));
        Corpus { name, width, cells }
    };
    (seed..).zip(draws).map(corpus).collect()
}

/// A number from 0 on below `end`.
fn below(shaker: &mut Shaker, end: i128) -> i128 {
    let bits = u128::from(shaker.draw()) << 64 | u128::from(shaker.draw());
    (bits >> 1) as i128 % end
}

/// A number of magnitude at most `largest`, of any length in bits.
fn number(shaker: &mut Shaker, largest: i128) -> i128 {
    let length = 128 - i64::from(largest.leading_zeros());
    let magnitude = below(shaker, largest + 1) >> shaker.between(0, length);
    one_of(shaker, &[magnitude, -magnitude])
}

/// One of some numbers.
fn one_of<T: Copy>(shaker: &mut Shaker, of: &[T]) -> T {
    of[shaker.between(0, of.len() as i64 - 1) as usize]
}

/// All 27 equal.
fn equal(width: Width, shaker: &mut Shaker) -> Vec<Net> {
    let largest = width.largest();
    let chosen = [0, 1, -1, largest, -largest, largest - 1, 1 - largest];
    let drawn = [0; 40].map(|_: i128| number(shaker, largest));
    chosen.into_iter().chain(drawn).map(|x| [x; 27]).collect()
}

/// The row with this lower half, which is four times larger: 4p, 2(p + q) and p + 2q + r.
fn row_of([u, v, w]: [i128; 3]) -> [i128; 3] {
    let p = u / 4;
    let q = v / 2 - p;
    [p, q, w - p - 2 * q]
}

/// The cell of which child `k` has these coefficients, multiples of 64.  Its own are at
/// most twelve times as large.
fn cell_of(k: usize, child: &Net) -> Net {
    let places = places();
    let at = |place: [usize; 3]| places.iter().position(|&p| p == place).expect("a place");
    let mut net = *child;
    for axis in 0..3 {
        let upper = places[k][axis] == 2;
        for start in places.iter().filter(|place| place[axis] == 0) {
            let [x, y, z] = [0, 1, 2].map(|along| {
                let mut place = *start;
                place[axis] = if upper { 2 - along } else { along };
                at(place)
            });
            [net[x], net[y], net[z]] = row_of([net[x], net[y], net[z]]);
        }
    }
    assert_eq!(eighths::children(&net)[k], *child, "the child that was chosen");
    net
}

/// A cell of which child `k` has its least at these numbers and at no other.
fn with_least_at(width: Width, shaker: &mut Shaker, k: usize, numbers: &[usize]) -> Net {
    let span = width.largest() / (12 * 64 * 2);
    let least = number(shaker, span);
    let far = 1 + number(shaker, span - 1).abs();
    let child = std::array::from_fn(|at| {
        let above = 1 + below(shaker, far);
        64 * if numbers.contains(&(at + 1)) { least } else { least + above }
    });
    cell_of(k, &child)
}

/// Each number for each child.
fn one_least(width: Width, shaker: &mut Shaker) -> Vec<Net> {
    let mut cells = Vec::new();
    for k in 0..8 {
        for n in 1..=27 {
            cells.extend([0; 6].map(|_| with_least_at(width, shaker, k, &[n])));
        }
    }
    cells
}

/// More than two of the numbers 1 to 27.
fn several(shaker: &mut Shaker) -> Vec<usize> {
    let ninths = shaker.between(1, 8);
    loop {
        let numbers: Vec<usize> = (1..=27).filter(|_| shaker.between(1, 9) <= ninths).collect();
        if numbers.len() > 2 {
            return numbers;
        }
    }
}

/// Each pair of numbers for each child, and more than two.
fn shared_least(width: Width, shaker: &mut Shaker) -> Vec<Net> {
    let mut cells = Vec::new();
    for k in 0..8 {
        for lower in 1..=27 {
            for higher in lower + 1..=27 {
                cells.push(with_least_at(width, shaker, k, &[lower, higher]));
            }
        }
        for _ in 0..60 {
            let numbers = several(shaker);
            cells.push(with_least_at(width, shaker, k, &numbers));
        }
    }
    cells
}

/// Of any magnitude, of one sign, and small ones, which are often equal.
fn any(width: Width, shaker: &mut Shaker) -> Vec<Net> {
    let mut draw = |turn: usize| {
        [0; 27].map(|_: i128| match turn % 4 {
            0 => number(shaker, width.largest()),
            1 => number(shaker, width.largest()).abs(),
            2 => -number(shaker, width.largest()).abs(),
            _ => shaker.between(-2, 2).into(),
        })
    };
    (0..1000).map(&mut draw).collect()
}

/// At both ends of what is cut, one coefficient alone at an end, and near the ends.
fn at_the_limits(width: Width, shaker: &mut Shaker) -> Vec<Net> {
    let largest = width.largest();
    let mut cells = Vec::new();
    for n in 0..27 {
        for x in [largest, -largest] {
            let mut cell = [x; 27];
            cell[n] = -x;
            cells.push(cell);
        }
    }
    let near = [-largest, 1 - largest, -1, 0, 1, largest - 1, largest];
    for _ in 0..300 {
        cells.push([0; 27].map(|_: i128| one_of(shaker, &[-largest, largest])));
        cells.push([0; 27].map(|_: i128| one_of(shaker, &near)));
    }
    cells
}

/// An element of the old range, within which numbers of one word suffice to level 3; or a
/// larger one, up to the ends of the range.
fn element(width: Width, shaker: &mut Shaker) -> Points {
    let range = match width {
        Width::Narrow => 4096,
        Width::Wide => Limits::base().range,
    };
    match shaker.between(0, 7) {
        0 => shaker.wide(range),
        1 => [0; 24].map(|_: i64| one_of(shaker, &[-range, range])),
        _ => shaker.element().map(|x| x * (range / 4096)),
    }
}

/// The whole, its eight children and some of theirs.
fn of_elements(width: Width, shaker: &mut Shaker) -> Vec<Net> {
    let mut cells = Vec::new();
    let corners: Vec<[u32; 3]> =
        places()[..8].iter().map(|place| place.map(|half_steps| half_steps as u32 / 2)).collect();
    for _ in 0..300 {
        let points = element(width, shaker);
        let whole = coefficients(&points, 0, [0; 3]);
        let children = eighths::children(&whole);
        cells.push(whole);
        for (child, at) in children.into_iter().zip(&corners) {
            assert_eq!(child, coefficients(&points, 1, *at), "by the element itself");
            cells.push(child);
            let n = shaker.between(0, 7) as usize;
            let finer = [0, 1, 2].map(|axis| 2 * at[axis] + corners[n][axis]);
            let of_child = eighths::children(&child)[n];
            assert_eq!(of_child, coefficients(&points, 2, finer), "by the element itself");
            cells.push(of_child);
        }
    }
    cells
}
