//! One question to both programs, and to the first one's auditor: their answers word by
//! word, what 01 says over depths, and what 02 says of stamps and of writing and reading.

use crate::draw::DEPTH;
use crate::program::{
    stamped, Answer, AtDepth, Bounds, Program, Reckoned, Record, Stamp, IN_ORDER, RECKONED,
    RECORD_WORDS,
};
use crate::question::Question;
use lent::{Fenced, FENCE};
use second::specimens::Shaker;
use second::two_words;
use std::fmt;

mod lent;
mod lots;

pub use lots::ample_space;

/// The two programs, or one program and the rules, do not agree.
#[derive(Clone, Debug, PartialEq, Eq)]
pub struct Difference {
    pub question: Box<Question>,
    pub what: String,
}

impl Difference {
    pub fn new(question: &Question, what: String) -> Difference {
        Difference { question: Box::new(question.clone()), what }
    }
}

impl fmt::Display for Difference {
    fn fmt(&self, f: &mut fmt::Formatter<'_>) -> fmt::Result {
        writeln!(f, "DIFFERENCE: {}", self.what)?;
        writeln!(f, "the question, for `compare again`:")?;
        write!(f, "{}", self.question)
    }
}

/// What both programs answered: words, with their names.
struct Words {
    words: Vec<i64>,
    name: Box<dyn Fn(usize) -> String>,
}

// ----------------------------------------------------------------- answers --

/// An inspection's answer, its stamp, and the report space with its fences.
struct Inspected {
    answer: Answer,
    stamp: Option<Stamp>,
    space: Fenced<i64>,
}

/// With report space of so many words.
fn inspected_in(
    program: Program,
    coordinates: &[i32],
    indices: &[u32],
    depth: u32,
    words: usize,
) -> Inspected {
    let mut space = Fenced::new(words);
    let answer = program.inspects.inspect(coordinates, indices, depth, space.lent());
    Inspected { answer, stamp: program.stamps.stamp(answer), space }
}

/// With the report space that the elements need.
fn inspected(program: Program, coordinates: &[i32], indices: &[u32], depth: u32) -> Inspected {
    inspected_in(program, coordinates, indices, depth, indices.len() / 8 * RECORD_WORDS)
}

fn inspected_words(seen: &Inspected) -> Words {
    let mut words: Vec<i64> = seen.answer.iter().copied().map(i64::from).collect();
    words.push(stamp_word(seen.stamp));
    words.extend(seen.space.whole());
    Words { words, name: Box::new(inspected_name) }
}

const ANSWER: [&str; 6] = ["number", "valid", "invalid", "undecided", "refused", "stamp"];

fn inspected_name(place: usize) -> String {
    match place.checked_sub(ANSWER.len()) {
        None => ANSWER[place].to_string(),
        Some(at) if at < FENCE => "a word before the report space".to_string(),
        Some(at) => {
            let at = at - FENCE;
            let (element, word) = (at / RECORD_WORDS, at % RECORD_WORDS);
            format!("report word {at} from 0 (word {word} of element {element})")
        }
    }
}

/// The words of an inspection of one element, answer and record, and those of bounds.
const PER_DEPTH: usize = 5 + RECORD_WORDS;
const PER_BOUNDS: usize = 5;

const BOUNDS: [&str; PER_BOUNDS] =
    ["number", "low's low word", "low's high word", "high's low word", "high's high word"];

/// The number of depths, the inspection at each, and the bounds at those that have them.
fn over_depths_words(seen: &[AtDepth]) -> Words {
    let depths = seen.len();
    let mut words = vec![depths as i64];
    for at in seen {
        words.extend(at.answer.iter().copied().map(i64::from));
        words.extend(at.record);
    }
    words.extend(seen.iter().filter_map(|at| at.bounds).flat_map(bounds_in_words));
    Words { words, name: Box::new(move |place| over_depths_name(depths, place)) }
}

fn over_depths_name(depths: usize, place: usize) -> String {
    let Some(at) = place.checked_sub(1) else {
        return "number of depths".to_string();
    };
    match at.checked_sub(depths * PER_DEPTH) {
        Some(at) => format!("bounds' {} at depth {}", BOUNDS[at % PER_BOUNDS], at / PER_BOUNDS),
        None => {
            let (depth, at) = (at / PER_DEPTH, at % PER_DEPTH);
            match at.checked_sub(5) {
                Some(word) => format!("record word {word} at depth {depth}"),
                None => format!("{} at depth {depth}", ANSWER[at]),
            }
        }
    }
}

fn bounds_in_words((number, low, high): Bounds) -> [i64; PER_BOUNDS] {
    let ([a, b], [c, d]) = (two_words(low), two_words(high));
    [number.into(), a, b, c, d]
}

fn bounds_words(bounds: Bounds) -> Words {
    Words {
        words: bounds_in_words(bounds).to_vec(),
        name: Box::new(|place| BOUNDS[place].to_string()),
    }
}

fn move_words(answer: [u32; 5]) -> Words {
    Words {
        words: answer.iter().copied().map(i64::from).collect(),
        name: Box::new(|place| ["made", "level", "a", "b", "c"][place].to_string()),
    }
}

/// A stamp as a word: its place in `STAMPS`.
fn stamp_word(stamp: Option<Stamp>) -> i64 {
    match stamp {
        Some(Stamp::Sound) => 0,
        Some(Stamp::Faulty) => 1,
        Some(Stamp::Open) => 2,
        None => 3,
    }
}

pub const STAMPS: [&str; 4] = ["sound", "faulty", "open", "no stamp"];

fn stamp_words(stamp: Option<Stamp>) -> Words {
    Words { words: vec![stamp_word(stamp)], name: Box::new(|_| "stamp".to_string()) }
}

/// The low word of each answer, and then its high one.
fn reckoned_words(answers: Reckoned) -> Words {
    Words {
        words: answers.iter().flat_map(|&x| two_words(x)).collect(),
        name: Box::new(|place| {
            format!("{}, {} word", RECKONED[place / 2], ["low", "high"][place % 2])
        }),
    }
}

/// Whose answers are compared.
type Two = [&'static str; 2];

const FIRST_AND_SECOND: Two = ["first", "second"];
const AUDITOR_AND_FIRST: Two = ["auditor", "first"];
const AUDITOR_AND_SECOND: Two = ["auditor", "second"];
const AUDITOR_AND_BOTH: Two = ["auditor", "first and the second"];

/// The first word that differs, if any.
fn difference([one, other]: Two, answer: &Words, others: &[i64]) -> Option<String> {
    let unlike = |(_, (x, y)): &(usize, (&i64, &i64))| x != y;
    if let Some((place, (x, y))) = answer.words.iter().zip(others).enumerate().find(unlike) {
        return Some(format!("{}: {x} by the {one}, {y} by the {other}", (answer.name)(place)));
    }
    let apart = answer.words.len() != others.len();
    apart.then(|| format!("answers of different length by the {one} and the {other}"))
}

// ------------------------------------------------------------- over depths --

/// The depth to which the first program is held on every element, records and bounds;
/// past it the bounds take long, and so do the records of some undecided elements.
const SHALLOW: u32 = 3;

/// How deep the first program is held on a mesh that is asked at a depth: to the largest
/// one where this depth leaves nothing undecided.
fn depth_held(program: Program, coordinates: &[i32], indices: &[u32], depth: u32) -> u32 {
    let depth = depth.max(SHALLOW);
    let [_, _, _, undecided, _] = inspected(program, coordinates, indices, depth).answer;
    if undecided == 0 {
        DEPTH
    } else {
        depth
    }
}

/// The first program on one element: its records to `depth` at least, its bounds to
/// `bounds` at least.
fn held_element(program: Program, points: &[i32; 24], depth: u32, bounds: u32) -> Vec<AtDepth> {
    let depth = depth_held(program, points, &IN_ORDER, depth.max(bounds));
    program.inspects.over_depths(points, depth, bounds.max(SHALLOW))
}

/// Where the auditor differs on one element from the second program, or from the first
/// inspector wherever that is held: to a depth at most.
fn audited_fault(
    first: Program,
    points: &[i32; 24],
    depth: u32,
    seen: &[AtDepth],
    others: &[AtDepth],
) -> Option<String> {
    let with_bounds = seen.iter().filter(|at| at.bounds.is_some()).count();
    let [to, bounds] = [seen.len(), with_bounds].map(|depths| depth.min(depths as u32 - 1));
    let audited = first.audits.over_depths(points, to, bounds);
    let beside = |two: Two, others: &[AtDepth]| {
        difference(two, &in_common(&audited, others), &in_common(others, &audited).words)
    };
    beside(AUDITOR_AND_SECOND, others).or_else(|| beside(AUDITOR_AND_FIRST, seen))
}

/// What was seen at the depths of both, with the bounds that both have.
fn in_common(seen: &[AtDepth], others: &[AtDepth]) -> Words {
    let common = |(at, other): (&AtDepth, &AtDepth)| AtDepth {
        bounds: at.bounds.filter(|_| other.bounds.is_some()),
        ..*at
    };
    over_depths_words(&seen.iter().zip(others).map(common).collect::<Vec<_>>())
}

/// 01's demand 3 for one element, from the lesser depth's words and the next
/// depth's: a decision stays, word for word, and so does a refusal, which reads
/// no depth; the bounds only close in.
/// "Bounds of two depths are compared after the lesser depth's are multiplied
/// by 64 for each level between."
fn between_depths(lesser: &AtDepth, greater: &AtDepth) -> Option<String> {
    if lesser.record[0] != 2 && lesser.record != greater.record {
        let (old, new) = (lesser.record, greater.record);
        return Some(format!("{old:?} became {new:?} at a greater depth"));
    }
    let (Some((_, low, high)), Some((_, next_low, next_high))) = (lesser.bounds, greater.bounds)
    else {
        return None;
    };
    if low.saturating_mul(64) > next_low {
        return Some(format!("64 times low {low} is above the next depth's {next_low}"));
    }
    if next_high > high.saturating_mul(64) {
        return Some(format!("high {next_high} is above 64 times the depth before's {high}"));
    }
    None
}

/// The verdict as the bounds show it: invalid with high <= 0, valid with
/// low > 0, undecided otherwise; a refused element has the number that it is refused
/// with in their place.
fn verdict_and_bounds(at: &AtDepth) -> Option<String> {
    let (number, low, high) = at.bounds?;
    let kind = match (number, high <= 0, low > 0) {
        (0, true, _) => 1,
        (0, false, true) => 0,
        (0, false, false) => 2,
        _ => i64::from(number),
    };
    let apart = at.record[0] != kind || low > high;
    apart.then(|| format!("record {:?} with bounds {number}, {low} and {high}", at.record))
}

/// Levels past the largest depth at which J is tested, and points drawn at each.  64^10 J
/// fits 128 bits: in the range J is 32 * (2^20)^3 at most.
pub const FINER_LEVELS: [u32; 2] = [DEPTH + 1, DEPTH + 2];
pub const POINTS_A_LEVEL: usize = 24;

/// Demand 3 of a valid element: J is above 0 at the grid points of every level,
/// past the largest depth too.  Some are drawn, often on a face or an edge, by
/// a seed made of the element's points: the same element draws them again.
fn not_positive(points: &[i32; 24]) -> Option<String> {
    let mixed = |seed: u64, &x: &i32| seed.wrapping_mul(0x9E37_79B9_7F4A_7C15) ^ x as u64;
    let mut shaker = Shaker::new(points.iter().fold(0, mixed));
    for level in FINER_LEVELS.repeat(POINTS_A_LEVEL) {
        let steps = 1i64 << level;
        let mut number = || shaker.between(-steps / 2, steps * 3 / 2).clamp(0, steps) as u64;
        let (a, b, c) = (number(), number(), number());
        let held = second::jacobian(&points.map(i64::from), level, a, b, c);
        if held <= 0 {
            return Some(format!("valid, and J is {held}/64^{level} at ({a}, {b}, {c})/2^{level}"));
        }
    }
    None
}

/// Demand 3 for one element, seen at every depth; its points, if it has eight.
fn over_depths_fault(points: Option<&[i32; 24]>, seen: &[AtDepth]) -> Option<String> {
    let valid = seen.iter().any(|at| at.record[0] == 0);
    let steps = seen.windows(2).find_map(|pair| between_depths(&pair[0], &pair[1]));
    steps
        .or_else(|| seen.iter().find_map(verdict_and_bounds))
        .or_else(|| not_positive(points.filter(|_| valid)?))
}

/// 02, No. 4: the stamp of an accepted mesh is the one that its records give.
fn stamp_and_report(mesh: &Inspected) -> Option<String> {
    let by_records = stamped(second::stamp_of_report(mesh.space.inner()));
    let apart = mesh.stamp != Some(by_records);
    apart.then(|| format!("stamp {:?}, and the records give {by_records:?}", mesh.stamp))
}

/// The stamps of an accepted mesh, asked at a depth, over depths, and demand 3 for its
/// elements: their records in all reports, and the bounds of their points.  The auditor
/// answers and writes the same at every depth.
fn mesh_over_depths_fault(
    program: Program,
    coordinates: &[i32],
    indices: &[u32],
    depth: u32,
) -> Option<String> {
    let depth = depth_held(program, coordinates, indices, depth);
    let at = |program: Program, depth: u32| inspected(program, coordinates, indices, depth);
    let meshes: Vec<Inspected> = (0..=depth).map(|depth| at(program, depth)).collect();
    let audited = |(depth, mesh): (u32, &Inspected)| {
        let audited = inspected_words(&at(program.auditing(), depth));
        let what = difference(AUDITOR_AND_FIRST, &audited, &inspected_words(mesh).words)?;
        Some(format!("at depth {depth}, {what}"))
    };
    let stamps = meshes.iter().find_map(stamp_and_report);
    stamps
        .or_else(|| elements_over_depths_fault(program, coordinates, indices, &meshes))
        .or_else(|| (0..).zip(&meshes).find_map(audited))
}

/// An element's eight points; or the number that its indices alone are refused with
/// (the bounds service is handed no indices): 5 for one that names no node, else 7 for
/// one in two places.
fn points_by_indices(coordinates: &[i32], element: &[u32]) -> Result<[i32; 24], u32> {
    let points = second::points_of(coordinates, element).ok_or(5u32)?;
    let again = |place: usize| element[..place].contains(&element[place]);
    if (1..element.len()).any(again) {
        return Err(7);
    }
    Ok(points)
}

/// Demand 3 for every element of an accepted mesh, seen over depths.
fn elements_over_depths_fault(
    program: Program,
    coordinates: &[i32],
    indices: &[u32],
    meshes: &[Inspected],
) -> Option<String> {
    indices.chunks_exact(8).enumerate().find_map(|(number, element)| {
        let points = points_by_indices(coordinates, element);
        let at_depth = |(depth, mesh): (u32, &Inspected)| AtDepth {
            answer: mesh.answer,
            record: std::array::from_fn(|word| mesh.space.inner()[RECORD_WORDS * number + word]),
            bounds: (depth <= SHALLOW).then(|| match points {
                Ok(points) => program.inspects.bounds(&points, depth),
                Err(refusal) => (refusal, 0, 0),
            }),
        };
        let seen: Vec<AtDepth> = (0..).zip(meshes).map(at_depth).collect();
        let what = over_depths_fault(points.as_ref().ok(), &seen)?;
        Some(format!("element {number} from 0: {what}"))
    })
}

// ------------------------------------------------------------------ asking --

/// Both answers to a question, compared; what the first said is handed back.
fn compared(
    question: &Question,
    ask: impl Fn(Program) -> Words,
    first: Program,
    second: Program,
) -> Result<Vec<i64>, Difference> {
    let answer = ask(first);
    match difference(FIRST_AND_SECOND, &answer, &ask(second).words) {
        None => Ok(answer.words),
        Some(what) => Err(Difference::new(question, what)),
    }
}

/// The same, and then the answer of the first one's auditor.
fn compared_and_audited(
    question: &Question,
    ask: impl Fn(Program) -> Words,
    first: Program,
    second: Program,
) -> Result<Vec<i64>, Difference> {
    let words = compared(question, &ask, first, second)?;
    match difference(AUDITOR_AND_BOTH, &ask(first.auditing()), &words) {
        None => Ok(words),
        Some(what) => Err(Difference::new(question, what)),
    }
}

/// Asks both programs and the first one's auditor; every word of the first one's answer,
/// if they agree and the rules hold of the first.  Those over depths are tested on an
/// accepted mesh, an element, and bounds that are not refused: to depth 3 or the one that
/// is asked, and to the largest where that leaves nothing undecided; there the auditor
/// says the same as the first.  That of the stamp is tested on an accepted mesh likewise;
/// those of reading and writing on every lot that is read or written.
pub fn ask(first: Program, second: Program, question: &Question) -> Result<Vec<i64>, Difference> {
    let fault = |what: Option<String>| match what {
        None => Ok(()),
        Some(what) => Err(Difference::new(question, what)),
    };
    match question {
        Question::Inspect { depth, space, coordinates, indices } => {
            let ask = |program: Program| {
                inspected_words(&inspected_in(program, coordinates, indices, *depth, *space))
            };
            let words = compared_and_audited(question, ask, first, second)?;
            if words[0] == 0 {
                fault(mesh_over_depths_fault(first, coordinates, indices, *depth))?;
            }
            Ok(words)
        }
        Question::Element { depth, bounds, audit, points } => {
            let seen = held_element(first, points, *depth, *bounds);
            let asked = |(at_depth, at): (u32, &AtDepth)| AtDepth {
                bounds: at.bounds.filter(|_| at_depth <= *bounds),
                ..*at
            };
            let asked: Vec<AtDepth> = (0..=*depth).zip(&seen).map(asked).collect();
            let others = second.inspects.over_depths(points, *depth, *bounds);
            let words = over_depths_words(&asked);
            fault(difference(FIRST_AND_SECOND, &words, &over_depths_words(&others).words))?;
            fault(over_depths_fault(Some(points), &seen))?;
            fault(audited_fault(first, points, *audit, &seen, &others))?;
            Ok(words.words)
        }
        Question::Bounds { depth, points } => {
            let ask = |program: Program| bounds_words(program.inspects.bounds(points, *depth));
            let words = compared_and_audited(question, ask, first, second)?;
            if words[0] == 0 {
                let seen = held_element(first, points, SHALLOW, *depth);
                fault(over_depths_fault(Some(points), &seen))?;
                fault(audited_fault(first, points, DEPTH, &seen, &[]))?;
            }
            Ok(words)
        }
        Question::Child { address, n } => {
            let ask = |program: Program| move_words(program.moves.child(*address, *n));
            compared(question, ask, first, second)
        }
        Question::Corner { address, n } => {
            let ask = |program: Program| move_words(program.moves.corner(*address, *n));
            compared(question, ask, first, second)
        }
        Question::Parent { address } => {
            let ask = |program: Program| move_words(program.moves.parent(*address));
            compared(question, ask, first, second)
        }
        Question::Stamp { answer } => {
            let ask = |program: Program| stamp_words(program.stamps.stamp(*answer));
            compared(question, ask, first, second)
        }
        Question::Read { space, file } => {
            let ask = |program: Program| lots::read_words(program.reads, file, *space);
            let words = compared(question, ask, first, second)?;
            if words[0] == 0 {
                fault(lots::not_written_back(first, file, *space))?;
            }
            Ok(words)
        }
        Question::Write { space, lot } => {
            let ask = |program: Program| lots::written_words(program.writes, lot, *space);
            let words = compared(question, ask, first, second)?;
            if words[0] == 0 {
                fault(lots::not_read_back(first, lot, *space))?;
            }
            Ok(words)
        }
        Question::Name { elements, element, label, groups } => {
            let ask = |program: Program| {
                let answer = program.names.name_of(label, groups, *elements, *element);
                lots::name_words(answer, label, groups)
            };
            compared(question, ask, first, second)
        }
        Question::Slip { file } => {
            let ask = |program: Program| lots::slip_words(program.prints, file);
            compared(question, ask, first, second)
        }
        Question::Numbers { x, y } => {
            let ask = |program: Program| reckoned_words(program.reckons.reckoned(*x, *y));
            compared(question, ask, first, second)
        }
    }
}

/// The number of a low word and a high one.
pub fn of_two_words(words: &[i64]) -> i128 {
    i128::from(words[1]) << 64 | i128::from(words[0] as u64)
}

/// From the words of an element's answer: its record at every depth that was asked, and
/// low and high at those that have bounds.
pub fn element_said(words: &[i64]) -> (Vec<Record>, Vec<[i128; 2]>) {
    let (inspections, bounds) = words[1..].split_at(words[0] as usize * PER_DEPTH);
    let record = |words: &[i64]| words[5..].try_into().expect("a record");
    let both = |words: &[i64]| [of_two_words(&words[1..3]), of_two_words(&words[3..5])];
    (
        inspections.chunks_exact(PER_DEPTH).map(record).collect(),
        bounds.chunks_exact(PER_BOUNDS).map(both).collect(),
    )
}

/// The report of an accepted mesh, from its words.
pub fn report_words(words: &[i64]) -> &[i64] {
    &words[ANSWER.len() + FENCE..words.len() - FENCE]
}

/// The text of a slip, from its words.
pub fn slip_text(words: &[i64]) -> Vec<u8> {
    words[lots::SLIP_HEAD..].iter().map(|&byte| byte as u8).collect()
}
