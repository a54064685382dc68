//! The whole side-by-side run.

use crate::cases::{cases, figures, not_as_printed, rounded};
use crate::check::{
    ask, element_said, report_words, Difference, FINER_LEVELS, POINTS_A_LEVEL, STAMPS,
};
use crate::draw::{self, DEPTH};
use crate::elements::{verdict, DEEP, DEEP_BOUNDS, ELEMENTS};
use crate::lots::{NAMING, PRINTING, READING, WRITING};
use crate::program::{Program, IN_ORDER, RECKONED, RECORD_WORDS};
use crate::question::Question;
use crate::service::{numbered, Service};
use second::specimens::Shaker;
use std::collections::BTreeMap;
use std::fmt::Write;
use std::sync::atomic::{AtomicUsize, Ordering};
use std::sync::Mutex;
use std::time::Instant;

/// How much is asked.
#[derive(Clone, Copy, Debug)]
pub struct Plan {
    pub seed: u64,
    pub elements: usize,
    pub meshes: usize,
    pub moves: usize,
    /// Of each kind of random lot files, lots to write, elements to name, and lot
    /// files to print.
    pub files: usize,
    pub writes: usize,
    pub names: usize,
    pub slips: usize,
    /// Random pairs of numbers of two words.
    pub numbers: usize,
    /// Of each kind of random elements at the greater depths.
    pub deep: usize,
}

impl Plan {
    /// All else in proportion to a number of elements.
    pub fn of(seed: u64, elements: usize) -> Plan {
        Plan {
            seed,
            elements,
            meshes: elements / 50,
            moves: elements,
            files: elements * 5 / 2,
            writes: elements,
            names: elements,
            slips: elements / 50,
            numbers: elements * 100,
            deep: elements / 400,
        }
    }
}

/// The two programs that are run side by side.
#[derive(Clone, Copy)]
pub struct Pair<'a> {
    pub first: Program<'a>,
    pub second: Program<'a>,
}

impl Pair<'_> {
    fn ask(self, question: &Question) -> Result<Vec<i64>, Difference> {
        ask(self.first, self.second, question)
    }

    /// Asks, and holds the answer against what 01 prints of a worked case: every
    /// test that a question of the run is put to.
    pub fn ask_again(self, question: &Question) -> Result<Vec<i64>, Difference> {
        let words = self.ask(question)?;
        match not_as_printed(question, &words) {
            None => Ok(words),
            Some(what) => Err(Difference::new(question, what)),
        }
    }
}

/// What was met, and how often.
type Tally = BTreeMap<String, u64>;

fn count(tally: &mut Tally, what: String) {
    *tally.entry(what).or_insert(0) += 1;
}

fn add(to: &mut Tally, tally: Tally) {
    for (what, times) in tally {
        *to.entry(what).or_insert(0) += times;
    }
}

/// Jobs 0, 1, .. on two threads, until one finds a difference.
fn on_two_threads(
    jobs: usize,
    job: impl Fn(usize, &mut Tally) -> Result<(), Difference> + Sync,
) -> Result<Tally, Difference> {
    let next = AtomicUsize::new(0);
    let found: Mutex<Option<Difference>> = Mutex::new(None);
    let whole: Mutex<Tally> = Mutex::new(Tally::new());
    let work = || {
        let mut tally = Tally::new();
        loop {
            let turn = next.fetch_add(1, Ordering::Relaxed);
            if turn >= jobs {
                break;
            }
            if let Err(difference) = job(turn, &mut tally) {
                next.store(jobs, Ordering::Relaxed);
                *found.lock().expect("no thread panics") = Some(difference);
                break;
            }
        }
        add(&mut whole.lock().expect("no thread panics"), tally);
    };
    std::thread::scope(|scope| {
        let other = scope.spawn(work);
        work();
        other.join().expect("no thread panics");
    });
    match found.into_inner().expect("no thread panics") {
        Some(difference) => Err(difference),
        None => Ok(whole.into_inner().expect("no thread panics")),
    }
}

/// A generator for one job: its draws do not depend on the other jobs.
fn shaker_for(seed: u64, part: u64, turn: usize) -> Shaker {
    let mixed = seed
        .wrapping_mul(0x9E37_79B9_7F4A_7C15)
        .wrapping_add(part << 56)
        .wrapping_add((turn as u64 + 1).wrapping_mul(0xD134_2543_DE82_EF95));
    Shaker::new(mixed ^ (mixed >> 31))
}

// ------------------------------------------------------------------- parts --

/// What `ask` tests beside the second program's answer.
const OVER_DEPTHS: &str = "held over depths";

/// Whom it asks besides: the first program's auditor.
const BY_BOTH: &str = "by both inspectors";

/// The cases of 01 at every depth, against what 01 prints too; case F, which is
/// undecided at every depth, to depth 6.
fn worked_cases(pair: Pair) -> Result<String, Difference> {
    for case in cases() {
        for depth in 0..=DEPTH {
            let words = pair.ask_again(&case.question(depth))?;
            if depth == 6 && report_words(&words)[0] == 2 {
                break;
            }
        }
        for depth in 0..=4 {
            pair.ask_again(&Question::Bounds { depth, points: case.points })?;
        }
        if case.is_whole() {
            pair.ask(&Question::Element { depth: 4, bounds: 3, audit: 4, points: case.points })?;
        }
    }
    Ok(format!("A to I and the cube from -1,048,576 to 1,048,576, {BY_BOTH}"))
}

/// The paper's figures, rounded at several scales.  01: "run and noted, no
/// verdict is demanded."  At depth 3, and where that does not decide at the largest.
fn paper_figures(pair: Pair) -> Result<String, Difference> {
    let mut lines = format!("verdicts {BY_BOTH} (units a figure unit, record)");
    for figure in figures() {
        for scale in figure.scales {
            let points = rounded(&figure, scale);
            let words =
                pair.ask(&Question::Element { depth: DEPTH, bounds: 3, audit: DEPTH, points })?;
            let (records, _) = element_said(&words);
            let deeper = (records[3][0] == 2).then_some(&records[DEPTH as usize]);
            for record in [Some(&records[3]), deeper].into_iter().flatten() {
                let _ = write!(
                    lines,
                    "\n    {} times {scale}: {}, {record:?}",
                    figure.name,
                    verdict(record)
                );
            }
        }
    }
    Ok(lines)
}

/// The number that answers the bounds service.
fn of_the_bounds(number: i64) -> String {
    format!("number {number} of the bounds")
}

/// What has to be among what was met.
fn are_met(tally: &Tally, needed: impl IntoIterator<Item = String>) {
    for what in needed {
        assert!(tally.contains_key(&what), "no {what} was met");
    }
}

/// "Lengths no multiple, one too many", depths past the largest: all of them
/// against each other, so that the order of 1 to 4 shows.
fn refusals(pair: Pair) -> Result<String, Difference> {
    let coordinate_lengths = [0, 1, 2, 3, 23, 24, 25, 15_000, 15_001, 15_003];
    let index_lengths = [0, 1, 7, 8, 9, 16, 8000, 8001, 8008];
    let depths = [0, 1, 4, 8, 9, 10, 256, u32::MAX];
    // right of no element, one, two and 1,000; of eight words each; and about these
    let spaces = [0, 8, 9, 10, 16, 18, 8000, 8999, 9000, 9001, 9009];
    let mut questions = Vec::new();
    for coordinates in coordinate_lengths {
        for indices in index_lengths {
            for depth in depths {
                for space in spaces {
                    questions.push((coordinates, indices, depth, space));
                }
            }
        }
    }
    let cube = cases().swap_remove(0).points;
    let tally = on_two_threads(questions.len(), |turn, tally| {
        let (coordinates, indices, depth, space) = questions[turn];
        let words = pair.ask(&Question::Inspect {
            depth,
            space,
            coordinates: cube.iter().copied().cycle().take(coordinates).collect(),
            indices: IN_ORDER.iter().copied().cycle().take(indices).collect(),
        })?;
        count(tally, numbered(words[0]));
        Ok(())
    })?;
    are_met(&tally, (0..=4).map(numbered));
    let said = in_words(&tally);
    let asked = questions.len();
    Ok(format!("{asked} meshes {BY_BOTH}, those of number 0 {OVER_DEPTHS}, {said}"))
}

/// Every way in which eight places can share nodes: each place has the index of
/// a place before it, or the next one that none has.
fn sharings() -> Vec<[u32; 8]> {
    let mut ways = vec![([0; 8], 0)];
    for place in 0..8 {
        let further = |&(indices, used): &([u32; 8], u32)| {
            (0..=used).map(move |index| {
                let mut indices = indices;
                indices[place] = index;
                (indices, used.max(index + 1))
            })
        };
        ways = ways.iter().flat_map(further).collect();
    }
    ways.into_iter().map(|(indices, _)| indices).collect()
}

/// Case A with each coordinate in turn at the ends of the range, past them, and at the
/// ends of 32 bits: refused with 6 or not.
fn coordinates_at_the_ends(pair: Pair) -> Result<String, Difference> {
    let cube = cases().swap_remove(0).points;
    let tally = on_two_threads(cube.len(), |at, tally| {
        for x in draw::EDGES {
            let mut points = cube;
            points[at] = x;
            for depth in [0, 3, 4, 8] {
                let (coordinates, indices) = (points.to_vec(), IN_ORDER.to_vec());
                let space = RECORD_WORDS;
                let question = Question::Inspect { depth, space, coordinates, indices };
                count(tally, verdict(report_words(&pair.ask(&question)?)));
            }
            for depth in [0, 3, 9] {
                let bounds = pair.ask(&Question::Bounds { depth, points })?;
                count(tally, of_the_bounds(bounds[0]));
            }
        }
        Ok(())
    })?;
    are_met(&tally, [0, 1, 6].map(of_the_bounds).into_iter().chain([verdict(&[6])]));
    Ok(format!("{BY_BOTH}, {}", in_words(&tally)))
}

/// All of these over case A's nodes, with fewer nodes, and with one coordinate out of
/// range, so that the order of 5, 7 and 6 shows.
fn shared_nodes(pair: Pair) -> Result<String, Difference> {
    let cube = cases().swap_remove(0).points;
    let fewer = (0..=8).map(|count| cube[..3 * count].to_vec());
    let far = (0..24).map(|at| {
        let mut coordinates = cube.to_vec();
        coordinates[at] = draw::RANGE as i32 + 1;
        coordinates
    });
    let nodes: Vec<Vec<i32>> = fewer.chain(far).collect();
    let ways = sharings();
    let tally = on_two_threads(nodes.len(), |turn, tally| {
        for elements in ways.chunks(1000) {
            let indices = elements.concat();
            let words = pair.ask(&Question::Inspect {
                depth: turn as u32 % (DEPTH + 1),
                space: elements.len() * RECORD_WORDS,
                coordinates: nodes[turn].clone(),
                indices,
            })?;
            for record in report_words(&words).chunks_exact(RECORD_WORDS) {
                count(tally, verdict(record));
            }
        }
        Ok(())
    })?;
    assert_eq!(ways.len(), 4140, "as many as a set of eight has partitions");
    are_met(&tally, [5, 6, 7].map(|number| verdict(&[number])));
    let (ways, runs, said) = (ways.len(), nodes.len(), in_words(&tally));
    Ok(format!("{ways} ways over {runs} runs of nodes {BY_BOTH}, {OVER_DEPTHS}, {said}"))
}

/// Random meshes with anything wrong in them.
fn meshes(pair: Pair, plan: Plan) -> Result<String, Difference> {
    let tally = on_two_threads(plan.meshes, |turn, tally| {
        let mut shaker = shaker_for(plan.seed, 1, turn);
        let question = draw::mesh(&mut shaker);
        let words = pair.ask(&question)?;
        count(tally, numbered(words[0]));
        for (kind, name) in ["valid", "invalid", "undecided", "refused"].iter().enumerate() {
            *tally.entry(format!("{name} records")).or_insert(0) += words[1 + kind] as u64;
        }
        let bounds = pair.ask(&draw::bounds(&mut shaker))?;
        count(tally, of_the_bounds(bounds[0]));
        Ok(())
    })?;
    let said = in_words(&tally);
    let asked = plan.meshes;
    Ok(format!(
        "{asked} meshes and as many bounds {BY_BOTH}, those of number 0 {OVER_DEPTHS}, {said}"
    ))
}

/// Moves of addresses of every level to past the largest, with small grid numbers and
/// those about 2^level and 255; and of any.
fn moves(pair: Pair, plan: Plan) -> Result<String, Difference> {
    let tally = on_two_threads(DEPTH as usize + 3, |level, tally| {
        let power = 1u32 << level;
        let mut numbers = vec![0, 1, 2, 3, power - 1, power, power + 1, 254, 255, 256, 257];
        numbers.sort_unstable();
        numbers.dedup();
        let count_of = numbers.len();
        for at in 0..count_of.pow(3) {
            let [a, b, c] = [at / count_of.pow(2), at / count_of % count_of, at % count_of];
            let address = [level as u32, numbers[a], numbers[b], numbers[c]];
            for n in 0..=10 {
                count_move(tally, &pair.ask(&Question::Child { address, n })?);
                count_move(tally, &pair.ask(&Question::Corner { address, n })?);
            }
            count_move(tally, &pair.ask(&Question::Parent { address })?);
        }
        Ok(())
    })?;
    let mut shaker = shaker_for(plan.seed, 2, 0);
    for _ in 0..plan.moves {
        for question in draw::moves(&mut shaker) {
            pair.ask(&question)?;
        }
    }
    Ok(format!("{} of every level, {} of any", in_words(&tally), 3 * plan.moves))
}

fn count_move(tally: &mut Tally, words: &[i64]) {
    count(tally, (if words[0] == 1 { "made" } else { "not made" }).to_string());
}

/// Stamps of answers that an inspection can give, 1 to 4 with counts 0 and 0
/// with any counts; and of any five numbers, where 02 is silent and both
/// programs give no stamp to a number that is not 0.
fn stamps(pair: Pair, plan: Plan) -> Result<String, Difference> {
    let mut shaker = shaker_for(plan.seed, 3, 0);
    let mut tally = Tally::new();
    for turn in 0..20_000 {
        let mut answer = [0; 5];
        for counted in &mut answer[1..] {
            let some = shaker.between(1, 1000) as u32;
            *counted = [0, 0, 0, some, u32::MAX][shaker.between(0, 4) as usize];
        }
        match turn % 4 {
            0 => answer = [shaker.between(0, 4) as u32, 0, 0, 0, 0],
            1 => answer[0] = shaker.draw() as u32,
            _ => {}
        }
        let words = pair.ask(&Question::Stamp { answer })?;
        count(&mut tally, STAMPS[words[0] as usize].to_string());
    }
    Ok(format!("{}, beside that of every mesh", in_words(&tally)))
}

/// Numbers at which a word, a half or a sign begins or ends, and their neighbours.
fn special_numbers() -> Vec<i128> {
    let powers = [31, 32, 63, 64, 126].map(|bits| 1i128 << bits);
    let both = powers.iter().chain(&[1]).flat_map(|&power| [power, -power]);
    let ends = [0, i128::MIN, i128::MAX];
    let near = |x: i128| [x.wrapping_sub(1), x, x.wrapping_add(1)];
    let mut numbers: Vec<i128> = both.chain(ends).flat_map(near).collect();
    numbers.sort_unstable();
    numbers.dedup();
    numbers
}

/// Numbers of two words: every pair of special ones, and random ones of every length in
/// bits, also beside special ones and beside those with the same high word.
pub fn numbers(pair: Pair, plan: Plan) -> Result<String, Difference> {
    const LOT: usize = 4096;
    let special = special_numbers();
    let ask = |x: i128, y: i128| {
        if pair.first.reckons.reckoned(x, y) == pair.second.reckons.reckoned(x, y) {
            return Ok(());
        }
        Err(pair.ask(&Question::Numbers { x, y }).expect_err("answers that differ"))
    };
    for &x in &special {
        special.iter().try_for_each(|&y| ask(x, y))?;
    }
    on_two_threads(plan.numbers.div_ceil(LOT), |turn, _| {
        let mut shaker = shaker_for(plan.seed, 25, turn);
        for at in turn * LOT..((turn + 1) * LOT).min(plan.numbers) {
            let x = draw::number(&mut shaker);
            let y = match at % 4 {
                0 => special[shaker.draw() as usize % special.len()],
                1 => x ^ i128::from(shaker.draw()),
                _ => draw::number(&mut shaker),
            };
            ask(x, y)?;
        }
        Ok(())
    })?;
    let pairs = special.len() * special.len();
    Ok(format!(
        "{pairs} special pairs, {} random ones, {} answers each",
        plan.numbers,
        RECKONED.len()
    ))
}

fn in_words(tally: &Tally) -> String {
    let parts: Vec<String> = tally.iter().map(|(what, times)| format!("{what} {times}")).collect();
    parts.join("; ")
}

/// One question of a service, counted.
fn count_met(
    pair: Pair,
    service: &Service,
    question: &Question,
    tally: &mut Tally,
) -> Result<(), Difference> {
    let words = pair.ask(question)?;
    (service.met)(question, &words).into_iter().for_each(|what| count(tally, what));
    Ok(())
}

/// What was met in so many questions, said in a line.
fn met_in_words(questions: usize, tally: &Tally, start: Instant) -> String {
    let seconds = start.elapsed().as_secs_f64();
    format!("{questions} questions, {} ({seconds:.1} s)", in_words(tally))
}

/// The questions to one service, corpus by corpus; among them all is met that has
/// to be.  `part` tells its draws from those of the others.
pub fn run_service(
    pair: Pair,
    plan: Plan,
    service: &Service,
    part: u64,
    say: &dyn Fn(String),
) -> Result<(), Difference> {
    let begun = Instant::now();
    let (mut asked, mut whole) = (0, Tally::new());
    let mut done = |name: &str, questions: usize, tally: Tally, start: Instant| {
        say(format!("{}, {name}: {}", service.name, met_in_words(questions, &tally, start)));
        asked += questions;
        add(&mut whole, tally);
    };
    for (name, questions) in (service.listed)() {
        let start = Instant::now();
        let job =
            |turn: usize, tally: &mut Tally| count_met(pair, service, &questions[turn], tally);
        done(name, questions.len(), on_two_threads(questions.len(), job)?, start);
    }
    let draws = (service.count)(plan);
    for (kind, (name, draw)) in (0..).zip(service.drawn) {
        let start = Instant::now();
        let job = |turn: usize, tally: &mut Tally| {
            let mut shaker = shaker_for(plan.seed, part + kind, turn);
            count_met(pair, service, &draw(&mut shaker), tally)
        };
        done(name, draws, on_two_threads(draws, job)?, start);
    }
    for what in (service.needed)() {
        assert!(whole.contains_key(&what), "{}: no {what} was met", service.name);
    }
    say(format!("{}, in all: {}", service.name, met_in_words(asked, &whole, begun)));
    Ok(())
}

/// Lots: read, and those that are accepted written back; written, and those read
/// back; their elements named; their slips printed.
pub fn run_lots(pair: Pair, plan: Plan, say: &dyn Fn(String)) -> Result<(), Difference> {
    let services = [(5, READING), (10, WRITING), (15, NAMING), (20, PRINTING)];
    services.iter().try_for_each(|(part, service)| run_service(pair, plan, service, *part, say))
}

/// Elements: records and bounds over the whole range and at every depth.
pub fn run_elements(pair: Pair, plan: Plan, say: &dyn Fn(String)) -> Result<(), Difference> {
    say(format!(
        "elements: {BY_BOTH}, what the auditor answers is counted again as audited; \
         all {OVER_DEPTHS} 0 to 3 and those that are asked, the decided ones 0 to {DEPTH}; \
         for a valid one J is above 0 at {POINTS_A_LEVEL} points of each of the levels {FINER_LEVELS:?}"
    ));
    let services = [(30, DEEP), (50, DEEP_BOUNDS), (70, ELEMENTS)];
    services.iter().try_for_each(|(part, service)| run_service(pair, plan, service, *part, say))
}

/// One part of a run.
type Part<'a> = (&'a str, &'a dyn Fn() -> Result<String, Difference>);

/// Meshes, addresses, stamps and numbers, part by part; what each came to is said in a
/// line.
pub fn run_meshes(pair: Pair, plan: Plan, say: &dyn Fn(String)) -> Result<(), Difference> {
    let parts: [Part; 9] = [
        ("worked cases", &|| worked_cases(pair)),
        ("figures of the paper", &|| paper_figures(pair)),
        ("address moves", &|| moves(pair, plan)),
        ("stamps", &|| stamps(pair, plan)),
        ("numbers of two words", &|| numbers(pair, plan)),
        ("coordinates at the ends", &|| coordinates_at_the_ends(pair)),
        ("shared nodes", &|| shared_nodes(pair)),
        ("refusals", &|| refusals(pair)),
        ("random meshes", &|| meshes(pair, plan)),
    ];
    for (name, part) in parts {
        let start = Instant::now();
        let said = part()?;
        say(format!("{name}: {said} ({:.1} s)", start.elapsed().as_secs_f64()));
    }
    Ok(())
}

/// Everything.
pub fn run(pair: Pair, plan: Plan, say: &dyn Fn(String)) -> Result<(), Difference> {
    say(format!("seed {}", plan.seed));
    run_meshes(pair, plan, say)?;
    run_elements(pair, plan, say)?;
    run_lots(pair, plan, say)
}
