//! Writers of lot files that are wrong in one thing.

use crate::{alike, all_are_caught, ask_service, beside_the_library, is_caught_alike};
use compare::lots::WRITING;
use compare::program::{lay, Program, Writes, Written, SECOND};
use second::lot::{Lot, Mark};

faults! {
    // order of the tests
    ElementsBeforeNodes,
    GroupsBeforeRuns,
    LengthBeforeGroups,
    ByteBeforeLength,
    CountBeforeByte,
    FileBeforeCount,
    SpaceBeforeFile,
    SpaceFirst,
    // what is tested
    AnyNodeRun,
    AnyElementRun,
    ListsOfAnyLength,
    SumNotTested,
    SumOf32Bits,
    CountsMayFall,
    CountsMayPass,
    CountAtTheElementsRefused,
    EqualCountsRefused,
    LabelOf33,
    LabelNotOf32,
    NameOf33,
    NameNotOf32,
    EmptyNameRefused,
    LabelBytesNotTested,
    NameBytesNotTested,
    Byte31Accepted,
    Byte32Refused,
    Byte126Refused,
    Byte127Accepted,
    ThousandthRefused,
    OneElementMore,
    OneByteMore,
    OneByteLess,
    OneByteMissing,
    OneByteToSpareNeeded,
    SpaceMustBeExact,
    // what is written
    GroupAfterTheLastDropped,
    EmptyGroupsDropped,
    GroupsBeforeElements,
    GroupsAfterElements,
    GroupsOneEarly,
    GroupsOneLate,
    GroupsAtAPlaceReversed,
    LengthHighByteFirst,
    NodesHighByteFirst,
    ElementsHighByteFirst,
    NodesAfterElements,
    EmptyLabelDropped,
    NoEnd,
    // lent space
    WritesWhenRefused,
    ClearsPast,
    LastByteNotWritten,
    LengthOfARefusal,
    LengthOfTheSpace,
    // sham versions
    RefusesAll,
    AcceptsAll,
    WritesNothing,
}

/// A writer with one fault, or without one.
struct Wrong(Option<Fault>);

/// The tests by 02's order: nodes, elements, groups, lengths of names, bytes of
/// names, number of elements, the file's length, lent space.
const NUMBERS: [u32; 8] = [2, 3, 24, 23, 25, 26, 20, 27];

impl Wrong {
    fn is(&self, fault: Fault) -> bool {
        self.0 == Some(fault)
    }

    fn order(&self) -> [usize; 8] {
        match self.0 {
            Some(Fault::ElementsBeforeNodes) => [1, 0, 2, 3, 4, 5, 6, 7],
            Some(Fault::GroupsBeforeRuns) => [2, 0, 1, 3, 4, 5, 6, 7],
            Some(Fault::LengthBeforeGroups) => [0, 1, 3, 2, 4, 5, 6, 7],
            Some(Fault::ByteBeforeLength) => [0, 1, 2, 4, 3, 5, 6, 7],
            Some(Fault::CountBeforeByte) => [0, 1, 2, 3, 5, 4, 6, 7],
            Some(Fault::FileBeforeCount) => [0, 1, 2, 3, 4, 6, 5, 7],
            Some(Fault::SpaceBeforeFile) => [0, 1, 2, 3, 4, 5, 7, 6],
            Some(Fault::SpaceFirst) => [7, 0, 1, 2, 3, 4, 5, 6],
            _ => [0, 1, 2, 3, 4, 5, 6, 7],
        }
    }

    fn unfit(&self, lot: &Lot) -> bool {
        let (lengths, offsets) = (&lot.groups.lengths, &lot.groups.offsets);
        let elements = lot.elements.len() / 8;
        let mut sum: u64 = lengths.iter().map(|&length| u64::from(length)).sum();
        if self.is(Fault::SumOf32Bits) {
            sum %= 1 << 32;
        }
        let falls = |pair: &[u32]| match self.0 {
            Some(Fault::CountsMayFall) => false,
            Some(Fault::EqualCountsRefused) => pair[0] >= pair[1],
            _ => pair[0] > pair[1],
        };
        let passes = |before: &u32| match self.0 {
            Some(Fault::CountsMayPass) => false,
            Some(Fault::CountAtTheElementsRefused) => *before as usize >= elements,
            _ => *before as usize > elements,
        };
        (lengths.len() != offsets.len() && !self.is(Fault::ListsOfAnyLength))
            || (sum != lot.groups.names.len() as u64 && !self.is(Fault::SumNotTested))
            || offsets.windows(2).any(falls)
            || offsets.iter().any(passes)
    }

    fn wrong_length(&self, lot: &Lot) -> bool {
        let longest_label = match self.0 {
            Some(Fault::LabelOf33) => 33,
            Some(Fault::LabelNotOf32) => 31,
            _ => 32,
        };
        let wrong_name = |&length: &u32| match self.0 {
            Some(Fault::NameOf33) => length > 33,
            Some(Fault::NameNotOf32) => length > 31,
            Some(Fault::EmptyNameRefused) => length == 0 || length > 32,
            _ => length > 32,
        };
        lot.label.len() > longest_label || lot.groups.lengths.iter().any(wrong_name)
    }

    fn wrong_byte(&self, lot: &Lot) -> bool {
        let (low, high) = match self.0 {
            Some(Fault::Byte31Accepted) => (31, 126),
            Some(Fault::Byte32Refused) => (33, 126),
            Some(Fault::Byte126Refused) => (32, 125),
            Some(Fault::Byte127Accepted) => (32, 127),
            _ => (32, 126),
        };
        let wrong = |bytes: &[u8]| bytes.iter().any(|byte| !(low..=high).contains(byte));
        (wrong(&lot.label) && !self.is(Fault::LabelBytesNotTested))
            || (wrong(&lot.groups.names) && !self.is(Fault::NameBytesNotTested))
    }

    fn too_many(&self, elements: usize) -> bool {
        match self.0 {
            Some(Fault::ThousandthRefused) => elements > 999,
            Some(Fault::OneElementMore) => elements > 1001,
            _ => elements > 1000,
        }
    }

    fn too_long(&self, length: usize) -> bool {
        match self.0 {
            Some(Fault::OneByteMore) => length > 65_537,
            Some(Fault::OneByteLess) => length > 65_535,
            _ => length > 65_536,
        }
    }

    fn no_space(&self, length: usize, space: usize) -> bool {
        match self.0 {
            Some(Fault::OneByteMissing) => length > space + 1,
            Some(Fault::OneByteToSpareNeeded) => length >= space,
            Some(Fault::SpaceMustBeExact) => length != space,
            _ => length > space,
        }
    }

    /// 0, or the number of the first test in this writer's order that fails.
    fn number(&self, lot: &Lot, length: usize, space: usize) -> u32 {
        let faults = [
            !lot.nodes.len().is_multiple_of(3) && !self.is(Fault::AnyNodeRun),
            !lot.elements.len().is_multiple_of(8) && !self.is(Fault::AnyElementRun),
            self.unfit(lot),
            self.wrong_length(lot),
            self.wrong_byte(lot),
            self.too_many(lot.elements.len() / 8),
            self.too_long(length),
            self.no_space(length, space),
        ];
        match (self.0, self.order().into_iter().find(|&test| faults[test])) {
            (Some(Fault::RefusesAll), _) => 24,
            (Some(Fault::AcceptsAll), _) | (_, None) => 0,
            (_, Some(test)) => NUMBERS[test],
        }
    }

    fn record(&self, mark: Mark, body: &[u8]) -> Vec<u8> {
        let length = body.len() as u16;
        let length = match self.0 {
            Some(Fault::LengthHighByteFirst) => length.to_be_bytes(),
            _ => length.to_le_bytes(),
        };
        [&mark.bytes()[..], &length, body].concat()
    }

    fn words(&self, mark: Mark, words: impl Iterator<Item = u32>) -> Vec<u8> {
        let high_first = match mark {
            Mark::Node => self.is(Fault::NodesHighByteFirst),
            _ => self.is(Fault::ElementsHighByteFirst),
        };
        let bytes = |word: u32| if high_first { word.to_be_bytes() } else { word.to_le_bytes() };
        self.record(mark, &words.flat_map(bytes).collect::<Vec<u8>>())
    }

    /// The groups, each with the number of elements after which it is written.
    fn groups(&self, lot: &Lot) -> Vec<(usize, Vec<u8>)> {
        let elements = lot.elements.len() / 8;
        let place = |before: u32| match self.0 {
            Some(Fault::GroupsBeforeElements) => 0,
            Some(Fault::GroupsAfterElements) => elements,
            Some(Fault::GroupsOneEarly) => (before as usize).saturating_sub(1),
            Some(Fault::GroupsOneLate) => (before as usize + 1).min(elements),
            _ => before as usize,
        };
        let name = |name: std::ops::Range<usize>| lot.groups.names[name].to_vec();
        let mut groups: Vec<(usize, Vec<u8>)> =
            lot.groups.each().map(|(before, at)| (place(before), name(at))).collect();
        match self.0 {
            Some(Fault::GroupAfterTheLastDropped) => groups.retain(|(at, _)| *at < elements),
            Some(Fault::EmptyGroupsDropped) => groups.retain(|(_, name)| !name.is_empty()),
            Some(Fault::GroupsAtAPlaceReversed) => {
                groups.reverse();
                groups.sort_by_key(|(at, _)| *at);
            }
            _ => {}
        }
        groups
    }

    /// The elements with the groups among them.
    fn elements(&self, lot: &Lot) -> Vec<u8> {
        let groups = self.groups(lot);
        let mut file = Vec::new();
        for (written, element) in (0..).zip(lot.elements.chunks(8).chain([&[][..]])) {
            for (_, name) in groups.iter().filter(|(at, _)| *at == written) {
                file.extend(self.record(Mark::Group, name));
            }
            if !element.is_empty() {
                file.extend(self.words(Mark::Element, element.iter().copied()));
            }
        }
        file
    }

    fn file(&self, lot: &Lot) -> Vec<u8> {
        let node = |node: &[i32]| self.words(Mark::Node, node.iter().map(|&word| word as u32));
        let mut label = self.record(Mark::Label, &lot.label);
        if self.is(Fault::EmptyLabelDropped) && lot.label.is_empty() {
            label.clear();
        }
        let mut parts = [
            label,
            lot.nodes.chunks(3).flat_map(node).collect(),
            self.elements(lot),
            self.record(Mark::End, &[]),
        ];
        match self.0 {
            Some(Fault::NodesAfterElements) => parts.swap(1, 2),
            Some(Fault::NoEnd) => parts[3].clear(),
            _ => {}
        }
        parts.concat()
    }
}

impl Writes for Wrong {
    fn write_lot(&self, lot: &Lot, out: &mut [u8]) -> Written {
        let file = self.file(lot);
        let number = self.number(lot, file.len(), out.len());
        let fits = &file[..file.len().min(out.len())];
        let written = match self.0 {
            Some(Fault::WritesWhenRefused) => fits.len(),
            _ if number != 0 => 0,
            Some(Fault::WritesNothing) => 0,
            Some(Fault::LastByteNotWritten) => fits.len().saturating_sub(1),
            _ => fits.len(),
        };
        lay(&fits[..written], out);
        if number == 0 && self.is(Fault::ClearsPast) {
            out[fits.len()..].fill(0);
        }
        let len = match self.0 {
            Some(Fault::LengthOfARefusal) => file.len(),
            _ if number != 0 => 0,
            Some(Fault::LengthOfTheSpace) => out.len(),
            _ => file.len(),
        };
        Written { number, len: len as u32 }
    }
}

fn within(writer: &Wrong) -> Program<'_> {
    Program { writes: writer, ..SECOND }
}

#[test]
fn every_faulty_writer_is_caught() {
    all_are_caught(&WRITING, FAULTS, Wrong, |wrong| beside_the_library(within(wrong)));
}

/// Writers that lose the same are caught where the file is read back.
#[test]
fn writers_that_are_wrong_alike_are_caught() {
    let faults = [
        (Fault::GroupAfterTheLastDropped, "what is written reads back otherwise"),
        (Fault::GroupsOneLate, "what is written reads back otherwise"),
        (Fault::NodesAfterElements, "what is written is not read"),
        (Fault::LengthHighByteFirst, "what is written is not read"),
    ];
    for (fault, what) in faults {
        is_caught_alike(within(&Wrong(Some(fault))), &WRITING, what);
    }
}

/// Two writers that agree are not enough: every number has to be met.
#[test]
#[should_panic(expected = "no number 0 was met")]
fn every_number_has_to_be_met() {
    let _ = ask_service(alike(within(&Wrong(Some(Fault::RefusesAll)))), &WRITING);
}
