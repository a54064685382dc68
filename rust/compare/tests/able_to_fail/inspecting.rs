//! Inspectors, auditors, bounds, stamps and addresses that are wrong in one thing, among
//! them the sham versions that 01 names.

use crate::{alike, all_are_caught, beside_the_library, finds_it_again, is_caught, small_plan};
use compare::cases::cases;
use compare::check::of_two_words;
use compare::draw::OLD_RANGE;
use compare::elements::{DEEP, DEEP_BOUNDS, ELEMENTS};
use compare::program::{
    pairs_of_places, Address, Answer, Bounds, Inspects, Move, Moves, Product, Program, Record,
    Second, Stamp, Stamps, IN_ORDER, PRODUCT, RECORD_WORDS, SECOND,
};
use compare::question::Question;
use compare::run::{run_meshes, run_service, Pair, Plan};
use compare::service::{made, Corpora, Service};
use second::{two_words, Limits};
use std::cmp::Reverse;

faults! {
    // meshes
    RecordFromBefore,
    LastWordNotWritten,
    WritesWhenRefused,
    WritesPastTheRecords,
    UndecidedCountedTwice,
    CountsExchanged,
    CountsWhenRefused,
    SpaceBeforeIndices,
    SpaceOfEightWords,
    AlsoSpaceOfEightWords,
    OneNodeMore,
    OneElementMore,
    RangeOneMore,
    RangeOneLess,
    OldRange,
    DepthNineAccepted,
    DepthEightRefused,
    OldDepth,
    IndexAtTheCount,
    CoordinatesBeforeIndices,
    // a node named twice
    PairIsTaken,
    PairBeforeMissing,
    PairAfterTheRange,
    PairWithHighestFirst,
    PairWithLowestSecond,
    PairWithHighestSecond,
    IndexForTheSecondPlace,
    PlacesFromZero,
    NodesAtOnePoint,
    // refusals of the bounds
    BoundsOfARefusal,
    RangeBeforeDepth,
    // addresses
    ChildrenExchanged,
    CornerPastTheCube,
    ParentOfTheWhole,
    ChildPastTheDepth,
    ChildOfTheOldDepth,
    MovesNoCube,
    GridNumbersOfOneByte,
    // stamps
    UndecidedIsFaulty,
    UndecidedIsSound,
    NoElementsAreSound,
    RefusedIsOpen,
    RefusedMeshIsSound,
    RefusedMeshIsFaulty,
    // the sham versions of 01
    RefusesAll,
    SaysValid,
    SaysUndecided,
    WritesNothing,
    // records
    OneMoreOpened,
    HalvesOpened,
    ValueOffByOne,
    OtherCorner,
    OtherCoefficient,
    LevelOfTheDepth,
    ZeroIsPositive,
    // numbers of two words in them
    HighWordDropped,
    HighWordOfTheSign,
    HighWordFirst,
    OpenedInWordSeven,
    ValueKeptToOneWord,
    ValueWrapped,
    ValueWrappedToDepthThree,
    // bounds
    BoundsWrapped,
    BoundsWrappedToDepthThree,
    BoundsWrappedInTheOldRange,
    LowOffByOne,
    HighOffByOne,
    BoundsExchanged,
    BoundWordsExchanged,
    HighIsUnsigned,
    // records deep down
    ValueWrappedInTheOldRange,
    ValueOfTheOldScale,
    OneLessOpenedDeepDown,
    OpenedInSixteenBits,
    OtherCornerDeepDown,
    OtherCoefficientDeepDown,
    GridNumbersInSevenBits,
    LevelOfTheDepthDeepDown,
    DepthToSeven,
    ZeroIsPositiveDeepDown,
    // bounds deep down
    LevelSixLeftOut,
    LevelEightLeftOut,
}

/// The faults from one up to another.
fn faults(from: Fault, to: Fault) -> &'static [Fault] {
    &FAULTS[from as usize..=to as usize]
}

/// The pairs of places of which something holds.
fn pairs_of(holds: impl Fn(usize, usize) -> bool) -> Vec<(usize, usize)> {
    pairs_of_places().filter(|&(lower, higher)| holds(lower, higher)).collect()
}

/// The second program's record of eight different nodes at these points.
fn record_of_points(points: &[i32; 24], depth: u32) -> Record {
    let mut record = [0; RECORD_WORDS];
    second::inspect(&Limits::base(), points, &IN_ORDER, depth, &mut record);
    record
}

/// Where a record of this kind is counted in an answer.
fn counted(kind: i64) -> usize {
    match kind {
        0..=2 => kind as usize + 1,
        _ => 4,
    }
}

fn is_past(x: &i32, range: i64) -> bool {
    i64::from(*x).abs() > range
}

fn in_the_old_range(points: &[i32; 24]) -> bool {
    !points.iter().any(|x| is_past(x, OLD_RANGE))
}

/// A record with another value.
fn with_value(mut record: Record, held: i128) -> Record {
    [record[6], record[7]] = two_words(held);
    record
}

/// What one word holds of a number.
fn wrapped(held: i128) -> i128 {
    i128::from(held as i64)
}

/// An inspector with one fault, or without one.
struct Wrong {
    /// The right one, that is spoilt.
    of: &'static dyn Inspects,
    fault: Option<Fault>,
}

impl Wrong {
    fn is(&self, fault: Fault) -> bool {
        self.fault == Some(fault)
    }

    fn limits(&self) -> Limits {
        let mut limits = Limits::base();
        match self.fault {
            Some(Fault::OneNodeMore) => limits.nodes += 1,
            Some(Fault::OneElementMore) => limits.elements += 1,
            Some(Fault::RangeOneMore) => limits.range += 1,
            Some(Fault::RangeOneLess) => limits.range -= 1,
            Some(Fault::OldRange) => limits.range = OLD_RANGE,
            Some(Fault::DepthEightRefused) => limits.depth = 7,
            Some(Fault::OldDepth) => limits.depth = 3,
            _ => {}
        }
        limits
    }

    /// Other limits than the right ones are the second program's alone to take.
    fn right(
        &self,
        coordinates: &[i32],
        indices: &[u32],
        depth: u32,
        report: &mut [i64],
    ) -> Answer {
        let limits = self.limits();
        if limits == Limits::base() {
            return self.of.inspect(coordinates, indices, depth, report);
        }
        let answer = second::inspect(&limits, coordinates, indices, depth, report);
        [answer.number, answer.valid, answer.invalid, answer.undecided, answer.refused]
    }

    fn right_bounds(&self, points: &[i32; 24], depth: u32) -> Bounds {
        let limits = self.limits();
        if limits == Limits::base() {
            return self.of.bounds(points, depth);
        }
        let answer = second::bounds(&limits, points, depth);
        (answer.number, answer.low, answer.high)
    }

    /// The depth that is inspected where this one is asked for.
    fn depth(&self, depth: u32) -> u32 {
        match (self.fault, depth) {
            (Some(Fault::DepthNineAccepted), 9) | (Some(Fault::DepthToSeven), 8) => depth - 1,
            _ => depth,
        }
    }

    /// Whether one word is used for these points at this depth, by one of three faults:
    /// always, to depth 3, in the old range.
    fn in_one_word(&self, faults: [Fault; 3], points: &[i32; 24], depth: u32) -> bool {
        let [always, to_depth_3, old_range] = faults.map(|fault| self.is(fault));
        always || (to_depth_3 && depth <= 3) || (old_range && in_the_old_range(points))
    }

    fn wraps_value(&self, points: &[i32; 24], depth: u32) -> bool {
        let faults = [
            Fault::ValueWrapped,
            Fault::ValueWrappedToDepthThree,
            Fault::ValueWrappedInTheOldRange,
        ];
        self.in_one_word(faults, points, depth)
    }

    fn wraps_bounds(&self, points: &[i32; 24], depth: u32) -> bool {
        let faults = [
            Fault::BoundsWrapped,
            Fault::BoundsWrappedToDepthThree,
            Fault::BoundsWrappedInTheOldRange,
        ];
        self.in_one_word(faults, points, depth)
    }

    /// The record of an element with these points, spoilt.
    fn spoilt(&self, mut record: Record, points: &[i32; 24], depth: u32) -> Record {
        const VALID: Record = [0, 0, 0, 0, 0, 0, 0, 0, 1];
        let Some(fault) = self.fault else { return record };
        let (held, level) = (of_two_words(&record[6..8]), record[1]);
        if self.wraps_value(points, depth) {
            return with_value(record, wrapped(held));
        }
        match (fault, record[0]) {
            (Fault::OneMoreOpened, _) => record[8] += i64::from(record[8] > 9),
            // two halves and four quarters of each cube that is cut into eight
            (Fault::HalvesOpened, _) => record[8] += (record[8] - 1) / 8 * 6,
            (Fault::ValueOffByOne, _) if held < -(1 << 70) => return with_value(record, held - 1),
            (Fault::OtherCorner, 1) if level == 2 => record[5] = 9 - record[5],
            (Fault::OtherCoefficient, 2) => record[5] = (record[5] + 1).min(27),
            (Fault::LevelOfTheDepth, 0) if level > 0 => record[1] = depth.into(),
            (Fault::ZeroIsPositive, 1) if held == 0 => record = VALID,
            (Fault::SaysValid, _) => record = VALID,
            (Fault::SaysUndecided, _) => record = [2, depth.into(), 0, 0, 0, 9, 0, 0, record[8]],
            (Fault::HighWordDropped, _) => record[7] = 0,
            (Fault::HighWordOfTheSign, _) => record[7] = -i64::from(held < 0),
            (Fault::HighWordFirst, _) => record.swap(6, 7),
            (Fault::OpenedInWordSeven, _) => record.swap(7, 8),
            (Fault::ValueKeptToOneWord, _) => return with_value(record, held.max(i64::MIN.into())),
            (Fault::ValueOfTheOldScale, _) if level > 3 => {
                return with_value(record, held >> (6 * (level - 3)));
            }
            (Fault::OneLessOpenedDeepDown, _) if level == 8 => record[8] -= 1,
            (Fault::OpenedInSixteenBits, _) => record[8] &= 0xFFFF,
            (Fault::OtherCornerDeepDown, 1) if level == 7 => record[5] = 9 - record[5],
            (Fault::OtherCoefficientDeepDown, 2) if depth > 5 => record[5] += 1,
            (Fault::GridNumbersInSevenBits, _) => {
                record[2..5].iter_mut().for_each(|number| *number &= 0x7F);
            }
            (Fault::LevelOfTheDepthDeepDown, 0) if level > 5 => record[1] = depth.into(),
            (Fault::ZeroIsPositiveDeepDown, 1) if held == 0 && level > 6 => {
                record = [0, level, 0, 0, 0, 0, 0, 0, record[8]];
            }
            _ => {}
        }
        record
    }

    /// The record of an element with one index in two places, or with two nodes at one
    /// point, spoilt.
    fn spoilt_pair(
        &self,
        record: Record,
        coordinates: &[i32],
        element: &[u32],
        depth: u32,
    ) -> Record {
        let told = |pair: Option<&(usize, usize)>| match pair {
            Some(&(lower, higher)) => [7, lower as i64 + 1, higher as i64 + 1, 0, 0, 0, 0, 0, 0],
            None => record,
        };
        let Some(fault) = self.fault else { return record };
        let pairs = pairs_of(|lower, higher| element[lower] == element[higher]);
        let points = second::points_of(coordinates, element);
        match (fault, record, points) {
            (Fault::PairIsTaken, [7, ..], Some(points)) => record_of_points(&points, depth),
            (Fault::PairAfterTheRange, [7, ..], Some(points)) => {
                match record_of_points(&points, depth) {
                    outside @ [6, ..] => outside,
                    _ => record,
                }
            }
            (Fault::PairBeforeMissing, [5, ..], _) => told(pairs.first()),
            (Fault::PairWithHighestFirst, [7, ..], _) => {
                told(pairs.iter().max_by_key(|pair| (pair.0, Reverse(pair.1))))
            }
            (Fault::PairWithLowestSecond, [7, ..], _) => {
                told(pairs.iter().min_by_key(|pair| pair.1))
            }
            (Fault::PairWithHighestSecond, [7, ..], _) => {
                told(pairs.iter().take_while(|pair| pair.0 == pairs[0].0).last())
            }
            (Fault::IndexForTheSecondPlace, [7, lower, higher, ..], _) => {
                [7, lower, i64::from(element[higher as usize - 1]), 0, 0, 0, 0, 0, 0]
            }
            (Fault::PlacesFromZero, [7, lower, higher, ..], _) => {
                [7, lower - 1, higher - 1, 0, 0, 0, 0, 0, 0]
            }
            (Fault::NodesAtOnePoint, [0..=2, ..], Some(points)) => {
                let node = |place: usize| &points[3 * place..3 * place + 3];
                told(pairs_of(|lower, higher| node(lower) == node(higher)).first())
            }
            _ => record,
        }
    }

    /// The record of an element with an index that names no node, spoilt.
    fn spoilt_missing(&self, record: Record, coordinates: &[i32], element: &[u32]) -> Record {
        let nodes = coordinates.len() as i64 / 3;
        match (self.fault, record) {
            (Some(Fault::IndexAtTheCount), [5, _, index, ..]) if index == nodes => {
                [1, 0, 0, 0, 0, 1, 0, 0, 1]
            }
            (Some(Fault::CoordinatesBeforeIndices), [5, ..]) => {
                let far = |&index: &u32| {
                    let at = 3 * index as usize;
                    let node = coordinates.get(at..at + 3);
                    node.is_some_and(|node| node.iter().any(|x| is_past(x, self.limits().range)))
                };
                match element.iter().position(far) {
                    Some(place) => [6, place as i64 + 1, 1, 0, 0, 0, 0, 0, 0],
                    None => record,
                }
            }
            _ => record,
        }
    }

    /// The record of an element, spoilt.
    fn spoilt_element(
        &self,
        record: Record,
        coordinates: &[i32],
        element: &[u32],
        depth: u32,
    ) -> Record {
        let record = match second::points_of(coordinates, element) {
            Some(points) if record[0] <= 2 => self.spoilt(record, &points, depth),
            _ => record,
        };
        let record = self.spoilt_pair(record, coordinates, element, depth);
        self.spoilt_missing(record, coordinates, element)
    }

    /// What is spoilt once the report of an accepted mesh is written.
    fn spoil_report(&self, before: &[i64], report: &mut [i64]) {
        const N: usize = RECORD_WORDS;
        let length = report.len();
        match self.fault {
            Some(Fault::RecordFromBefore) if length >= 2 * N && report[length - N] == 5 => {
                // from word 3 on as the element before left them
                report.copy_within(length - 2 * N + 3..length - N, length - N + 3);
            }
            Some(Fault::LastWordNotWritten) if length > 0 => {
                report[length - 1] = before[length - 1]
            }
            Some(Fault::WritesNothing) => report.copy_from_slice(before),
            _ => {}
        }
    }

    fn spoil_answer(&self, mut answer: Answer) -> Answer {
        if self.is(Fault::CountsExchanged) && answer[1] != answer[3] {
            answer.swap(1, 3);
        }
        if self.is(Fault::UndecidedCountedTwice) {
            answer[3] *= 2;
        }
        if self.is(Fault::CountsWhenRefused) && answer[0] == 4 {
            answer[4] = 1;
        }
        answer
    }

    fn inspected(
        &self,
        coordinates: &[i32],
        indices: &[u32],
        depth: u32,
        report: &mut [i64],
    ) -> Answer {
        let before = report.to_vec();
        let mut answer = self.right(coordinates, indices, self.depth(depth), report);
        if answer[0] != 0 {
            match self.fault {
                Some(Fault::WritesWhenRefused) => report.fill(0),
                Some(Fault::WritesPastTheRecords) => {
                    let past = report.get_mut(indices.len() / 8 * RECORD_WORDS);
                    past.into_iter().for_each(|word| *word = 0);
                }
                _ => {}
            }
            return self.spoil_answer(answer);
        }
        for (record, element) in report.chunks_exact_mut(RECORD_WORDS).zip(indices.chunks_exact(8))
        {
            let words: Record = (&*record).try_into().expect("a record");
            record.copy_from_slice(&self.spoilt_element(words, coordinates, element, depth));
            if record[0] != words[0] && !self.is(Fault::IndexAtTheCount) {
                answer[counted(words[0])] -= 1;
                answer[counted(record[0])] += 1;
            }
        }
        self.spoil_report(&before, report);
        self.spoil_answer(answer)
    }
}

impl Inspects for Wrong {
    fn inspect(
        &self,
        coordinates: &[i32],
        indices: &[u32],
        depth: u32,
        report: &mut [i64],
    ) -> Answer {
        let elements = indices.len() / 8;
        let right_space = report.len() == RECORD_WORDS * elements;
        let space_of_eight = report.len() == 8 * elements && elements > 0;
        match self.fault {
            Some(Fault::RefusesAll) => [1, 0, 0, 0, 0],
            Some(Fault::SpaceBeforeIndices) if depth <= 8 && !right_space => [4, 0, 0, 0, 0],
            Some(Fault::SpaceOfEightWords) if right_space && elements > 0 => {
                self.inspected(coordinates, indices, depth, &mut [])
            }
            Some(Fault::AlsoSpaceOfEightWords) if space_of_eight => {
                let mut whole = vec![0; RECORD_WORDS * elements];
                let answer = self.inspected(coordinates, indices, depth, &mut whole);
                if answer[0] == 0 {
                    let records = whole.chunks_exact(RECORD_WORDS);
                    for (eight, record) in report.chunks_exact_mut(8).zip(records) {
                        eight.copy_from_slice(&record[..8]);
                    }
                }
                answer
            }
            _ => self.inspected(coordinates, indices, depth, report),
        }
    }

    fn bounds(&self, points: &[i32; 24], depth: u32) -> Bounds {
        let range = self.limits().range;
        if self.is(Fault::RangeBeforeDepth) && points.iter().any(|x| is_past(x, range)) {
            return (6, 0, 0);
        }
        let (number, low, high) = self.right_bounds(points, self.depth(depth));
        let left_out = || {
            let (number, low, high) = self.right_bounds(points, depth - 1);
            (number, 64 * low, 64 * high)
        };
        match self.fault {
            _ if self.wraps_bounds(points, depth) => (number, wrapped(low), wrapped(high)),
            Some(Fault::LowOffByOne) if low > 1 << 64 => (number, low - 1, high),
            Some(Fault::HighOffByOne) if high < -(1 << 64) => (number, low, high - 1),
            Some(Fault::BoundsExchanged) => (number, high, low),
            Some(Fault::BoundWordsExchanged) => {
                let exchanged = |held: i128| (held as u128).rotate_left(64) as i128;
                (number, exchanged(low), exchanged(high))
            }
            Some(Fault::HighIsUnsigned) => (number, low, high & i128::MAX),
            Some(Fault::BoundsOfARefusal) if number == 6 => (number, 1, high),
            Some(Fault::LevelSixLeftOut) if depth == 6 => left_out(),
            Some(Fault::LevelEightLeftOut) if depth == 8 => left_out(),
            _ => (number, low, high),
        }
    }
}

impl Stamps for Wrong {
    fn stamp(&self, answer: Answer) -> Option<Stamp> {
        let [number, valid, invalid, undecided, refused] = answer;
        match (self.fault, (number, valid, invalid, undecided, refused)) {
            (Some(Fault::UndecidedIsFaulty), (0, _, _, 1.., _)) => Some(Stamp::Faulty),
            (Some(Fault::UndecidedIsSound), (0, _, 0, 1.., 0)) => Some(Stamp::Sound),
            (Some(Fault::NoElementsAreSound), (0, 0, 0, 0, 0)) => Some(Stamp::Sound),
            (Some(Fault::RefusedIsOpen), (0, _, 0, _, 1..)) => Some(Stamp::Open),
            (Some(Fault::RefusedMeshIsSound), (1.., ..)) => Some(Stamp::Sound),
            (Some(Fault::RefusedMeshIsFaulty), (1.., ..)) => Some(Stamp::Faulty),
            _ => Second.stamp(answer),
        }
    }
}

impl Moves for Wrong {
    fn child(&self, address: Address, n: u32) -> Move {
        let n = match (self.fault, n) {
            (Some(Fault::ChildrenExchanged), 3) => 4,
            (Some(Fault::ChildrenExchanged), 4) => 3,
            _ => n,
        };
        let [level, a, b, c] = address;
        let below = |most: u32| a < most && b < most && c < most;
        match self.fault {
            Some(Fault::ChildPastTheDepth) if level == 8 && below(256) && n == 1 => {
                [1, 9, 2 * a, 2 * b, 2 * c]
            }
            Some(Fault::ChildOfTheOldDepth) if level == 3 => [0, level, a, b, c],
            _ => Second.child(address, n),
        }
    }

    fn corner(&self, address: Address, n: u32) -> Move {
        let answer = Second.corner(address, n);
        match self.fault {
            Some(Fault::CornerPastTheCube) if answer[2] == 256 => [1, 8, 255, answer[3], answer[4]],
            Some(Fault::GridNumbersOfOneByte) => {
                let [made, level, a, b, c] = answer;
                [made, level, a & 0xFF, b & 0xFF, c & 0xFF]
            }
            _ => answer,
        }
    }

    fn parent(&self, address: Address) -> Move {
        let [level, a, b, c] = address;
        match self.fault {
            Some(Fault::ParentOfTheWhole) if address == [0; 4] => [1, 0, 0, 0, 0],
            Some(Fault::MovesNoCube) if level == 8 => [1, 7, a / 2, b / 2, c / 2],
            _ => Second.parent(address),
        }
    }
}

fn within(inspector: &Wrong) -> Program<'_> {
    Program { inspects: inspector, stamps: inspector, moves: inspector, ..SECOND }
}

/// Where a wrong inspector stands, and whose answers it spoils.
struct Place {
    wrong: fn(Option<Fault>) -> Wrong,
    within: fn(&Wrong) -> Pair,
}

/// In the second program: its own.
const SECOND_PLACE: Place = Place {
    wrong: |fault| Wrong { of: &Second, fault },
    within: |inspector| beside_the_library(within(inspector)),
};

/// For the library's auditor: those of the library's inspector, which takes less time.
const AUDITOR_PLACE: Place = Place {
    wrong: |fault| Wrong { of: &Product, fault },
    within: |auditor| Pair { first: Program { audits: auditor, ..PRODUCT }, second: SECOND },
};

const PLACES: [Place; 2] = [SECOND_PLACE, AUDITOR_PLACE];

impl Place {
    /// By the run of meshes, addresses and stamps.
    fn run_catches(&self, faults: &[Fault]) {
        let ask = |pair: Pair| run_meshes(pair, small_plan(), &drop);
        assert_eq!(ask((self.within)(&(self.wrong)(None))), Ok(()));
        for &fault in faults {
            is_caught(fault, (self.within)(&(self.wrong)(Some(fault))), ask);
        }
    }

    fn service_catches(&self, service: &Service, faults: &[Fault]) {
        all_are_caught(service, faults, self.wrong, self.within);
    }
}

#[test]
fn every_faulty_inspector_is_caught() {
    SECOND_PLACE.run_catches(faults(Fault::RecordFromBefore, Fault::WritesNothing));
}

/// The auditor has no addresses and no stamps of its own.
#[test]
fn every_faulty_auditor_is_caught() {
    let of_meshes = faults(Fault::RecordFromBefore, Fault::RangeBeforeDepth);
    let sham = faults(Fault::RefusesAll, Fault::WritesNothing);
    AUDITOR_PLACE.run_catches(&[of_meshes, sham].concat());
}

#[test]
fn every_faulty_record_or_bound_is_caught() {
    let faults = faults(Fault::OneMoreOpened, Fault::HighIsUnsigned);
    PLACES.iter().for_each(|place| place.service_catches(&ELEMENTS, faults));
}

#[test]
fn every_fault_deep_down_is_caught() {
    let faults = faults(Fault::ValueWrappedInTheOldRange, Fault::ZeroIsPositiveDeepDown);
    PLACES.iter().for_each(|place| place.service_catches(&DEEP, faults));
}

/// Each by the first question of the service that asks for bounds to its level.
#[test]
fn every_fault_of_deep_bounds_is_caught() {
    for (fault, level) in [(Fault::LevelSixLeftOut, 6), (Fault::LevelEightLeftOut, 8)] {
        let to_level = |question: &Question| matches!(question, Question::Element { bounds, .. } if *bounds == level);
        let mut questions = (DEEP_BOUNDS.listed)().flat_map(|(_, questions)| questions);
        let question = questions.find(to_level).expect("such a question");
        for Place { wrong, within } in PLACES {
            let ask = |pair: Pair| pair.ask_again(&question).map(drop);
            is_caught(fault, within(&wrong(Some(fault))), ask);
        }
    }
}

/// The auditor is held to the first inspector at depths past those that are asked: here
/// to its levels, of case D, which is valid at level 1.
#[test]
fn an_auditor_that_is_wrong_past_what_is_asked_is_caught() {
    let cases = cases();
    let d = cases.iter().find(|case| case.name == "D").expect("case D");
    let points = d.points;
    for question in [
        Question::Element { depth: 1, bounds: 1, audit: 8, points },
        Question::Bounds { depth: 1, points },
        d.question(1),
    ] {
        let Place { wrong, within } = AUDITOR_PLACE;
        let wrong = wrong(Some(Fault::LevelOfTheDepth));
        let found = within(&wrong).ask_again(&question).expect_err("a wrong level");
        assert!(found.what.ends_with(": 2 by the auditor, 1 by the first"), "{}", found.what);
        finds_it_again(within(&wrong), &found);
    }
}

/// Verdicts and numbers of every kind have to be met.
#[test]
#[should_panic(expected = "no valid at level 0 was met")]
fn every_verdict_has_to_be_met() {
    let nothing = Service { listed: || made([]), ..ELEMENTS };
    let _ = run_service(alike(SECOND), Plan { elements: 0, ..small_plan() }, &nothing, 0, &drop);
}

/// The questions of the greater depths, with the auditor to depth 3 alone.
fn audited_to_depth_3() -> Corpora {
    let less = |mut question: Question| {
        if let Question::Element { audit, .. } = &mut question {
            *audit = 3;
        }
        question
    };
    Box::new(
        (DEEP.listed)()
            .map(move |(name, questions)| (name, questions.into_iter().map(less).collect())),
    )
}

/// By the auditor too.
#[test]
#[should_panic(expected = "no audited: valid at level 4 was met")]
fn every_verdict_has_to_be_audited() {
    let shallow = Service { listed: audited_to_depth_3, drawn: &[], ..DEEP };
    let _ = run_service(alike(PRODUCT), small_plan(), &shallow, 0, &drop);
}
