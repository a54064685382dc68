//! Elements over the whole range, at every depth: listed ones, and random ones, each
//! from a seed.

use crate::check::{element_said, of_two_words};
use crate::draw::{self, once_in, one_of, Kind, DEPTH, KINDS, OLD_RANGE, RANGE};
use crate::program::Record;
use crate::question::Question;
use crate::service::{made, Draw, Service};
use second::specimens::{cube, rings_exchanged, Points, Shaker};
use second::EVERY_CUBE;
use std::ops::RangeInclusive;

/// Records and bounds, mostly at the depths at which the second program looks at every
/// cube.
pub const ELEMENTS: Service = Service {
    name: "elements",
    listed: || {
        made([
            ("worked cases and the ends of the range", at_the_ends),
            ("worked cases times powers of two", larger),
            ("worked cases at the ends of the old range", at_the_old_ends),
            ("few levels", of_few_levels),
        ])
    },
    drawn: DRAWN,
    count: |plan| plan.elements / DRAWN.len(),
    met,
    needed: needed_of_elements,
};

/// Records at the greater depths, of elements that are decided late or never.
pub const DEEP: Service = Service {
    name: "deep records",
    listed: || {
        made([
            ("cases that are decided, and the ends of the range", decided),
            ("zeros at every level", || to_the_largest_depth(zeros_at_levels())),
            ("valid from a level on", || to_the_largest_depth(valid_from_levels())),
            ("case F", || to_the_largest_depth([RANGE, OLD_RANGE].map(largest_f).to_vec())),
        ])
    },
    drawn: DRAWN_DEEP,
    count: |plan| plan.deep,
    met,
    needed: needed_deep,
};

/// Bounds at the greater depths, where the library looks at every cube.
pub const DEEP_BOUNDS: Service = Service {
    name: "deep bounds",
    listed: || made([("sound elements, case F and its like", with_deep_bounds)]),
    drawn: &[],
    count: |_| 0,
    met,
    needed: needed_of_deep_bounds,
};

/// With the auditor at every depth.
fn question(depth: u32, bounds: u32, points: [i32; 24]) -> Question {
    audited_to(DEPTH, depth, bounds, points)
}

/// With the auditor, which is slower, to a depth.
fn audited_to(audit: u32, depth: u32, bounds: u32, points: [i32; 24]) -> Question {
    Question::Element { depth, bounds, audit, points }
}

// ------------------------------------------------------------------ listed --

/// The cases A to G.
fn worked() -> [Points; 7] {
    second::specimens::worked().map(|(_, points)| points)
}

/// These; the cube of the whole range and its mirror image; and A with node 3's y at the
/// end of the range.
fn ends() -> Vec<[i32; 24]> {
    let whole = cube(-RANGE, RANGE);
    let mut far = cube(0, 1);
    far[3 * 2 + 1] = RANGE;
    let more = [whole, rings_exchanged(&whole), far];
    worked().into_iter().chain(more).map(draw::narrow).collect()
}

fn at_the_ends() -> Vec<Question> {
    ends().into_iter().map(|points| question(6, 5, points)).collect()
}

/// All but case F.
fn decided() -> Vec<Question> {
    let f = draw::narrow(draw::half_turned(1, 2, 0));
    to_the_largest_depth(ends().into_iter().filter(|points| *points != f).collect())
}

fn larger() -> Vec<Question> {
    worked().into_iter().flat_map(draw::powers).map(|points| question(5, 3, points)).collect()
}

fn at_the_old_ends() -> Vec<Question> {
    let moved = |end: i64| worked().map(|points| question(4, 4, draw::moved(points, 0, end)));
    OLD_ENDS.into_iter().flat_map(moved).collect()
}

/// Case F, and elements that are decided at level 2.
fn of_few_levels() -> Vec<Question> {
    let at_2 = [draw::largest(draw::zero_at(2, 1), RANGE), valid_from(2)];
    [largest_f(RANGE), at_2[0], at_2[1]].map(|points| question(4, 4, points)).to_vec()
}

fn to_the_largest_depth(elements: Vec<[i32; 24]>) -> Vec<Question> {
    elements.into_iter().map(|points| question(DEPTH, EVERY_CUBE, points)).collect()
}

/// Elements with a zero at grid points of each level, and at none of a lesser one.
fn zeros_at_levels() -> Vec<[i32; 24]> {
    let odd = |level: u32| [((1 << level) / 3) | 1, (1 << level) - 1];
    let zeros = (1..=DEPTH).flat_map(|level| odd(level).map(|k| draw::zero_at(level, k)));
    zeros.map(|points| draw::largest(points, RANGE)).collect()
}

/// Case F, turned a little further: valid from this level on, which is 2 at least.
fn valid_from(level: u32) -> [i32; 24] {
    draw::largest(draw::half_turned(3 << level, 6 << level, 16), RANGE)
}

fn valid_from_levels() -> Vec<[i32; 24]> {
    (2..=DEPTH).map(valid_from).collect()
}

/// Case F as large as it can be in a range.
fn largest_f(range: i64) -> [i32; 24] {
    draw::largest(draw::half_turned(1, 2, 0), range)
}

/// A cube of three quarters of a range, its nodes moved by up to a sixth of its half
/// side.
fn sound(shaker: &mut Shaker, range: i64) -> [i32; 24] {
    let by = range / 8;
    draw::narrow(cube(-6 * by, 6 * by).map(|x| x + shaker.between(-by, by)))
}

/// Two sound elements and case F at the largest depth, where the auditor is asked about
/// the last alone; others not so deep.
fn with_deep_bounds() -> Vec<Question> {
    let mut shaker = Shaker::new(8);
    let sound = [RANGE, OLD_RANGE].map(|range| sound(&mut shaker, range));
    let f = largest_f(RANGE);
    let mirrored = draw::narrow(rings_exchanged(&f.map(i64::from)));
    vec![
        question(6, 6, valid_from(5)),
        question(6, 6, mirrored),
        question(DEPTH, DEPTH, f),
        audited_to(5, DEPTH, DEPTH, sound[0]),
        audited_to(5, DEPTH, DEPTH, sound[1]),
    ]
}

// ------------------------------------------------------------------- drawn --

/// Records and bounds to a depth from 0 to 3.
fn shallow(shaker: &mut Shaker, points: [i32; 24]) -> Question {
    let depth = shaker.between(0, 3) as u32;
    question(depth, depth, points)
}

/// At times to depth 4 or 5.
fn at_times_deeper(shaker: &mut Shaker, points: [i32; 24]) -> Question {
    match shaker.between(0, 39) {
        0 => question(5, EVERY_CUBE, points),
        1 | 2 => question(4, 4, points),
        _ => shallow(shaker, points),
    }
}

fn in_the_old_range(shaker: &mut Shaker, kind: Kind) -> Question {
    let points = draw::element(shaker, kind, OLD_RANGE);
    at_times_deeper(shaker, points)
}

fn of_any_size(shaker: &mut Shaker, kind: Kind) -> Question {
    let points = draw::element_of_any_size(shaker, kind);
    at_times_deeper(shaker, points)
}

/// The ends of the old range and the numbers past them.  Within it and to depth 3 one
/// word holds every number; at depth 4 it does not.
const OLD_ENDS: [i64; 4] = [OLD_RANGE, -OLD_RANGE, OLD_RANGE + 1, -OLD_RANGE - 1];

const DRAWN: &[(&str, Draw)] = &[
    ("uniform, old range", |shaker| in_the_old_range(shaker, Kind::Uniform)),
    ("shaken, old range", |shaker| in_the_old_range(shaker, Kind::Shaken)),
    ("thin, old range", |shaker| in_the_old_range(shaker, Kind::Thin)),
    ("small, old range", |shaker| in_the_old_range(shaker, Kind::Small)),
    ("hollow, old range", |shaker| in_the_old_range(shaker, Kind::Hollow)),
    ("undecided, old range", |shaker| in_the_old_range(shaker, Kind::Undecided)),
    ("mirrored, old range", |shaker| in_the_old_range(shaker, Kind::Mirrored)),
    ("extreme, old range", |shaker| in_the_old_range(shaker, Kind::Extreme)),
    ("uniform", |shaker| of_any_size(shaker, Kind::Uniform)),
    ("shaken", |shaker| of_any_size(shaker, Kind::Shaken)),
    ("thin", |shaker| of_any_size(shaker, Kind::Thin)),
    ("small", |shaker| of_any_size(shaker, Kind::Small)),
    ("hollow", |shaker| of_any_size(shaker, Kind::Hollow)),
    ("undecided", |shaker| of_any_size(shaker, Kind::Undecided)),
    ("mirrored", |shaker| of_any_size(shaker, Kind::Mirrored)),
    ("extreme", |shaker| of_any_size(shaker, Kind::Extreme)),
    ("specimens", |shaker| {
        let points = draw::specimen(shaker);
        at_times_deeper(shaker, points)
    }),
    ("moved to an end", |shaker| {
        let [a, b, c, d] = OLD_ENDS;
        let end = one_of(shaker, &[a, b, c, d, -RANGE, RANGE]);
        let points = draw::moved_to_an_end(shaker, end);
        question(4, if once_in(shaker, 8) { 4 } else { EVERY_CUBE }, points)
    }),
];

/// To the largest depth where the element is decided by depth 4; past depth 4 where few
/// cubes are cut, and else less often the deeper.
fn as_deep_as_it_goes(shaker: &mut Shaker, points: [i32; 24]) -> Question {
    let [kind, .., opened] = second::record(&points.map(i64::from), 4);
    let depth = match opened {
        _ if kind != 2 || once_in(shaker, 100) => DEPTH,
        0..=400 => shaker.between(5, DEPTH.into()) as u32,
        _ => one_of(shaker, &[4, 4, 4, 4, 5, 5, 5, 6]),
    };
    question(depth, EVERY_CUBE, points)
}

const DRAWN_DEEP: &[(&str, Draw)] = &[
    ("barely decided", |shaker| {
        let points = draw::barely(shaker);
        as_deep_as_it_goes(shaker, points)
    }),
    ("where the verdict turns", |shaker| question(DEPTH, EVERY_CUBE, draw::turning(shaker))),
    ("undecided at depth 2", |shaker| {
        let points = draw::element_of_any_size(shaker, Kind::Undecided);
        as_deep_as_it_goes(shaker, points)
    }),
    ("of any kind", |shaker| {
        let kind = one_of(shaker, &KINDS);
        let points = draw::element_of_any_size(shaker, kind);
        as_deep_as_it_goes(shaker, points)
    }),
];

// --------------------------------------------------------------------- met --

const KIND_NAMES: [&str; 3] = ["valid", "invalid", "undecided"];

/// A record by its first word.
fn kind(record: &[i64]) -> String {
    match KIND_NAMES.get(record[0] as usize) {
        Some(name) => name.to_string(),
        None => format!("refused with {}", record[0]),
    }
}

/// A record by its first two words.
pub fn verdict(record: &[i64]) -> String {
    match record[0] {
        0 | 1 => format!("{} at level {}", kind(record), record[1]),
        2 => format!("{} at depth {}", kind(record), record[1]),
        _ => kind(record),
    }
}

fn asked_to(depth: u32, kind: &str) -> String {
    format!("{kind} when asked to depth {depth}")
}

fn bounded_to(depth: u32, kind: &str) -> String {
    format!("{kind} with bounds to depth {depth}")
}

/// A number past 64 bits; with a high word that is neither 0 nor -1 it is past 65.
fn past_64_bits(what: &str, number: i128) -> Option<String> {
    match (i64::try_from(number), number >> 64) {
        (Ok(_), _) => None,
        (Err(_), 0 | -1) => Some(format!("{what} past 64 bits")),
        (Err(_), _) => Some(past_65_bits(what)),
    }
}

fn past_65_bits(what: &str) -> String {
    format!("{what} past 65 bits")
}

fn value_of(kind: &str) -> String {
    format!("{kind} value")
}

fn bound_of(name: &str, sign: &str) -> String {
    format!("{name} {sign} 0")
}

/// Of an element that reaches to an end of the old range, or just past it: which one.
fn at_an_old_end(points: &[i32; 24]) -> Option<String> {
    let farthest = *points.iter().max_by_key(|x| x.unsigned_abs())?;
    OLD_ENDS.contains(&farthest.into()).then(|| reaching(farthest.into()))
}

fn reaching(end: i64) -> String {
    format!("reaching to {end} at depths 3 and 4")
}

/// Of an element's answer: what is met in it, and again what is met at the depths that
/// the auditor was asked at.
fn met(question: &Question, words: &[i64]) -> Vec<String> {
    let Question::Element { audit, points, .. } = question else {
        unreachable!("an element");
    };
    let (records, both) = element_said(words);
    let to_audit = |length: usize| length.min(*audit as usize + 1);
    let (audited_records, audited_both) =
        (&records[..to_audit(records.len())], &both[..to_audit(both.len())]);
    let by_the_auditor = met_in(points, audited_records, audited_both);
    let mut met = met_in(points, &records, &both);
    met.extend(by_the_auditor.into_iter().map(audited));
    met
}

/// Every verdict, once, and what the last record and bounds are.
fn met_in(points: &[i32; 24], records: &[Record], both: &[[i128; 2]]) -> Vec<String> {
    let mut met: Vec<String> = records.iter().map(|record| verdict(record)).collect();
    met.dedup();
    let [depth, bounds] = [records.len(), both.len()].map(|depths| depths as u32 - 1);
    let last = records.last().expect("a record");
    let kind = kind(last);
    let [low, high] = both.last().expect("bounds at depth 0 at least");
    let signed = |name: &str, bound: i128| {
        past_64_bits(&bound_of(name, if bound > 0 { "above" } else { "below" }), bound)
    };
    let more = [
        (depth > EVERY_CUBE).then(|| asked_to(depth, &kind)),
        (bounds > EVERY_CUBE).then(|| bounded_to(bounds, &kind)),
        past_64_bits(&value_of(&kind), of_two_words(&last[6..8])),
        signed("low", *low),
        signed("high", *high),
        at_an_old_end(points).filter(|_| depth > EVERY_CUBE),
    ];
    met.extend(more.into_iter().flatten());
    met
}

fn audited(what: String) -> String {
    format!("audited: {what}")
}

/// All of it by the first inspector and by the auditor.
fn by_both(needed: impl Iterator<Item = String>) -> Vec<String> {
    needed.flat_map(|what| [what.clone(), audited(what)]).collect()
}

/// The verdicts of a kind at these levels or depths.
fn at(kind: i64, levels: RangeInclusive<u32>) -> impl Iterator<Item = String> {
    levels.map(move |level| verdict(&[kind, level.into()]))
}

/// A record's value is never above 0, and a valid one's is 0.
fn values_past_65_bits() -> [String; 2] {
    ["invalid", "undecided"].map(|kind| past_65_bits(&value_of(kind)))
}

fn needed_of_elements() -> Vec<String> {
    let signs = ["low", "high"]
        .into_iter()
        .flat_map(|name| ["above", "below"].map(|sign| past_65_bits(&bound_of(name, sign))));
    let to_4 = KIND_NAMES.map(|kind| asked_to(4, kind));
    by_both(
        (at(0, 0..=2).chain(at(1, 0..=2)).chain(at(2, 0..=4)))
            .chain(values_past_65_bits())
            .chain(signs)
            .chain(OLD_ENDS.map(reaching))
            .chain(to_4),
    )
}

fn needed_deep() -> Vec<String> {
    by_both(
        (at(0, 0..=DEPTH).chain(at(1, 0..=DEPTH)).chain(at(2, 0..=DEPTH)))
            .chain(KIND_NAMES.map(|kind| asked_to(DEPTH, kind)))
            .chain(values_past_65_bits()),
    )
}

/// The auditor's once, of case F.
fn needed_of_deep_bounds() -> Vec<String> {
    let [valid, undecided] = ["valid", "undecided"].map(|kind| bounded_to(DEPTH, kind));
    vec![valid, undecided.clone(), audited(undecided)]
}
