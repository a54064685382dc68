//! Readers of lot files that are wrong in one thing.

use crate::{alike, all_are_caught, ask_service, beside_the_library, is_caught_alike};
use compare::lots::READING;
use compare::program::{Lent, Program, ReadLot, Reads, SECOND};
use second::lot::{Lot, Mark, Space};
use std::ops::Range;

faults! {
    // order of the tests
    MarkBeforeHead,
    LengthBeforePlace,
    CutBeforeLength,
    LabelByteBeforeCut,
    CountBeforeLength,
    CountBeforeCut,
    FileTooLongLast,
    SpaceBeforeTheRest,
    SpaceBeforeAll,
    // limits
    OneByteMore,
    OneByteLess,
    FileLengthOf17Bits,
    ThousandthRefused,
    OneElementMore,
    GroupsAreCounted,
    LabelOf33,
    LabelNotOf32,
    Label31Accepted,
    Label32Refused,
    Label126Refused,
    Label127Accepted,
    LastLabelByteNotTested,
    EmptyLabelRefused,
    NameOf33,
    NameNotOf32,
    NameByteNotTested,
    EmptyNameRefused,
    // records
    MarksInAnyCase,
    MarkByFirstLetter,
    LengthOfOneByte,
    LengthHighByteFirst,
    LongerBodiesTaken,
    NoLabel,
    SecondLabel,
    NodesAfterElements,
    NoNodesRefused,
    MissingEndAccepted,
    AfterEndIgnored,
    AfterEndReadOn,
    ShortTailIgnored,
    // groups among the records
    GroupUnknown,
    GroupBeforeElementsRefused,
    GroupAfterElementsRefused,
    SecondGroupRefused,
    ElementAfterGroupRefused,
    EndAfterGroupRefused,
    LabelAfterGroup,
    NodesAfterGroup,
    // lent space
    SpaceMustBeExact,
    OneNodeWordMissing,
    OneElementWordMissing,
    OneNameByteMissing,
    OneLengthMissing,
    OneBeforeMissing,
    OneWordToSpareNeeded,
    // what is handed out
    NodesOfARefusal,
    ElementsOfARefusal,
    NamesOfARefusal,
    LengthsOfARefusal,
    BeforesOfARefusal,
    CountsOfARefusal,
    LabelOfARefusal,
    LabelShortened,
    LabelTrimmed,
    LabelOneLate,
    LabelCopied,
    EmptyLabelElsewhere,
    NodesHighByteFirst,
    ElementsHighByteFirst,
    SignLost,
    NegativeIsZero,
    AxesExchanged,
    LastNodeNotWritten,
    LastElementNotWritten,
    NodesClearedPast,
    ElementsClearedPast,
    NamesClearedPast,
    LengthsClearedPast,
    BeforesClearedPast,
    NodesCountedInWords,
    CountsExchanged,
    GroupsCountedInBytes,
    EmptyGroupsDropped,
    GroupAfterTheLastDropped,
    OneGroupToAPlace,
    BeforesFromOne,
    BeforesInWords,
    LengthsWithTheHead,
    NamesApart,
    // sham versions
    RefusesAll,
    AcceptsAll,
    WritesNothing,
}

/// A reader with one fault, or without one.
struct Wrong(Option<Fault>);

/// The tests of a record, by 02's order: head, mark, place, length, body, bytes of
/// a label or name, number of elements.
const NUMBERS: [u32; 7] = [21, 22, 24, 23, 21, 25, 26];

/// The lent runs, by their places in `Space`.
const NODES: usize = 0;
const ELEMENTS: usize = 1;
const NAMES: usize = 2;
const LENGTHS: usize = 3;
const BEFORES: usize = 4;

/// What has been read so far.
#[derive(Default)]
struct Seen {
    label: Range<usize>,
    lot: Lot,
}

impl Seen {
    fn elements(&self) -> usize {
        self.lot.elements.len() / 8
    }
}

impl Wrong {
    fn is(&self, fault: Fault) -> bool {
        self.0 == Some(fault)
    }

    /// The place of this reader's fault in a list.
    fn place_in(&self, faults: [Fault; 5]) -> Option<usize> {
        faults.into_iter().position(|fault| self.is(fault))
    }

    /// The order of the tests of a record.
    fn order(&self) -> [usize; 7] {
        match self.0 {
            Some(Fault::MarkBeforeHead) => [1, 0, 2, 3, 4, 5, 6],
            Some(Fault::LengthBeforePlace) => [0, 1, 3, 2, 4, 5, 6],
            Some(Fault::CutBeforeLength) => [0, 1, 2, 4, 3, 5, 6],
            Some(Fault::LabelByteBeforeCut) => [0, 1, 2, 3, 5, 4, 6],
            Some(Fault::CountBeforeLength) => [0, 1, 2, 6, 3, 4, 5],
            Some(Fault::CountBeforeCut) => [0, 1, 2, 3, 6, 4, 5],
            _ => [0, 1, 2, 3, 4, 5, 6],
        }
    }

    fn too_long(&self, length: usize) -> bool {
        match self.0 {
            Some(Fault::OneByteMore) => length > 65_537,
            Some(Fault::OneByteLess) => length > 65_535,
            Some(Fault::FileLengthOf17Bits) => length % (1 << 17) > 65_536,
            _ => length > 65_536,
        }
    }

    fn mark(&self, rest: &[u8]) -> Option<Mark> {
        let mut bytes = [*rest.first()?, *rest.get(1)?];
        if self.is(Fault::MarksInAnyCase) {
            bytes.make_ascii_uppercase();
        }
        let same = |mark: &Mark| match self.0 {
            Some(Fault::MarkByFirstLetter) => mark.bytes()[0] == bytes[0],
            Some(Fault::GroupUnknown) if *mark == Mark::Group => false,
            _ => mark.bytes() == bytes,
        };
        Mark::ALL.into_iter().find(same)
    }

    fn length(&self, rest: &[u8]) -> usize {
        let byte = |at: usize| usize::from(rest.get(at).copied().unwrap_or(0));
        match self.0 {
            Some(Fault::LengthOfOneByte) => byte(2),
            Some(Fault::LengthHighByteFirst) => 256 * byte(2) + byte(3),
            _ => byte(2) + 256 * byte(3),
        }
    }

    fn out_of_place(&self, mark: Mark, before: Option<Mark>) -> bool {
        use Mark::{Element, End, Group, Label, Node};
        match (self.0, before, mark) {
            (Some(Fault::NoLabel), None, _) => false,
            (Some(Fault::SecondLabel), Some(Label), Label) => false,
            (Some(Fault::NodesAfterElements), Some(Element), Node) => false,
            (Some(Fault::NoNodesRefused), Some(Label), Element) => true,
            (Some(Fault::GroupBeforeElementsRefused), Some(Label | Node), Group) => true,
            (Some(Fault::GroupAfterElementsRefused), Some(Element), Group) => true,
            (Some(Fault::SecondGroupRefused), Some(Group), Group) => true,
            (Some(Fault::ElementAfterGroupRefused), Some(Group), Element) => true,
            (Some(Fault::EndAfterGroupRefused), Some(Group), End) => true,
            (Some(Fault::LabelAfterGroup), Some(Group), Label) => false,
            (Some(Fault::NodesAfterGroup), Some(Group), Node) => false,
            (_, None, _) => mark != Label,
            (_, Some(Element | Group), Node) => true,
            _ => mark == Label,
        }
    }

    fn wrong_length(&self, mark: Mark, length: usize) -> bool {
        match (self.0, mark) {
            (Some(Fault::LabelOf33), Mark::Label) => length > 33,
            (Some(Fault::LabelNotOf32), Mark::Label) => length > 31,
            (Some(Fault::EmptyLabelRefused), Mark::Label) => length == 0 || length > 32,
            (Some(Fault::NameOf33), Mark::Group) => length > 33,
            (Some(Fault::NameNotOf32), Mark::Group) => length > 31,
            (Some(Fault::EmptyNameRefused), Mark::Group) => length == 0 || length > 32,
            (Some(Fault::LongerBodiesTaken), Mark::Node) => length < 12,
            (Some(Fault::LongerBodiesTaken), Mark::Element) => length < 32,
            (Some(Fault::LongerBodiesTaken), Mark::End) => false,
            (_, Mark::Label | Mark::Group) => length > 32,
            (_, Mark::Node) => length != 12,
            (_, Mark::Element) => length != 32,
            (_, Mark::End) => length != 0,
        }
    }

    /// Whether a label or name has a wrong byte.
    fn wrong_byte(&self, mark: Mark, label: &[u8]) -> bool {
        let (low, high) = match self.0 {
            Some(Fault::NameByteNotTested) if mark == Mark::Group => (0, 255),
            Some(Fault::Label31Accepted) => (31, 126),
            Some(Fault::Label32Refused) => (33, 126),
            Some(Fault::Label126Refused) => (32, 125),
            Some(Fault::Label127Accepted) => (32, 127),
            _ => (32, 126),
        };
        let tested =
            label.len() - usize::from(self.is(Fault::LastLabelByteNotTested)).min(label.len());
        label[..tested].iter().any(|byte| !(low..=high).contains(byte))
    }

    fn one_too_many(&self, seen: &Seen) -> bool {
        let elements = seen.elements();
        match self.0 {
            Some(Fault::ThousandthRefused) => elements >= 999,
            Some(Fault::OneElementMore) => elements >= 1001,
            Some(Fault::GroupsAreCounted) => elements + seen.lot.groups.lengths.len() >= 1000,
            _ => elements >= 1000,
        }
    }

    /// The record at the head of `rest`: all seven tests, the first fault in
    /// this reader's order, else the mark and the body.
    fn record<'a>(
        &self,
        rest: &'a [u8],
        before: Option<Mark>,
        seen: &Seen,
    ) -> Result<(Mark, &'a [u8]), u32> {
        let mark = self.mark(rest);
        let length = self.length(rest);
        let body = rest.get(4..4 + length);
        let there = body.or(rest.get(4..)).unwrap_or(&[]);
        let named = mark.filter(|mark| matches!(mark, Mark::Label | Mark::Group));
        let faults = [
            rest.len() < 4,
            mark.is_none(),
            mark.is_some_and(|mark| self.out_of_place(mark, before)),
            mark.is_some_and(|mark| self.wrong_length(mark, length)),
            body.is_none(),
            named.is_some_and(|mark| self.wrong_byte(mark, there)),
            mark == Some(Mark::Element) && self.one_too_many(seen),
        ];
        match self.order().into_iter().find(|&test| faults[test]) {
            Some(test) => Err(NUMBERS[test]),
            None => Ok((mark.expect("a known mark"), there)),
        }
    }

    fn node_word(&self, four: &[u8]) -> i32 {
        let four: [u8; 4] = four.try_into().expect("four bytes");
        let word = i32::from_le_bytes(four);
        match self.0 {
            Some(Fault::NodesHighByteFirst) => i32::from_be_bytes(four),
            Some(Fault::SignLost) => word & i32::MAX,
            Some(Fault::NegativeIsZero) => word.max(0),
            _ => word,
        }
    }

    fn element_word(&self, four: &[u8]) -> u32 {
        let four: [u8; 4] = four.try_into().expect("four bytes");
        match self.0 {
            Some(Fault::ElementsHighByteFirst) => u32::from_be_bytes(four),
            _ => u32::from_le_bytes(four),
        }
    }

    fn take_group(&self, seen: &mut Seen, name: &[u8]) {
        let before = seen.elements() as u32;
        let groups = &mut seen.lot.groups;
        match self.0 {
            Some(Fault::EmptyGroupsDropped) if name.is_empty() => {}
            Some(Fault::OneGroupToAPlace) if groups.offsets.last() == Some(&before) => {}
            Some(Fault::BeforesFromOne) => groups.push(before + 1, name),
            Some(Fault::BeforesInWords) => groups.push(8 * before, name),
            _ => groups.push(before, name),
        }
        match self.0 {
            Some(Fault::LengthsWithTheHead) => {
                groups.lengths.last_mut().into_iter().for_each(|length| *length += 4);
            }
            Some(Fault::NamesApart) => groups.names.push(0),
            _ => {}
        }
    }

    fn take(&self, seen: &mut Seen, mark: Mark, body: &[u8], at: usize) {
        let lot = &mut seen.lot;
        match mark {
            Mark::Label => seen.label = at..at + body.len(),
            Mark::Node => {
                let words = body[..12].chunks_exact(4).map(|four| self.node_word(four));
                lot.nodes.extend(words);
                if self.is(Fault::AxesExchanged) {
                    let last = lot.nodes.len() - 1;
                    lot.nodes.swap(last, last - 1);
                }
            }
            Mark::Element => {
                let words = body[..32].chunks_exact(4).map(|four| self.element_word(four));
                lot.elements.extend(words);
            }
            Mark::Group => self.take_group(seen, body),
            Mark::End if self.is(Fault::GroupAfterTheLastDropped) => {
                let last = lot.elements.len() as u32 / 8;
                lot.groups.offsets.retain(|&before| before < last);
                lot.groups.lengths.truncate(lot.groups.offsets.len());
                let kept: u32 = lot.groups.lengths.iter().sum();
                lot.groups.names.truncate(kept as usize);
            }
            Mark::End => {}
        }
    }

    /// Whether what has been read so far does not fit.
    fn no_space(&self, seen: &Seen, space: Space) -> bool {
        let needs = seen.lot.needs();
        let missing = self.place_in([
            Fault::OneNodeWordMissing,
            Fault::OneElementWordMissing,
            Fault::OneNameByteMissing,
            Fault::OneLengthMissing,
            Fault::OneBeforeMissing,
        ]);
        let too_small = |run: usize| needs[run] > space[run] + usize::from(missing == Some(run));
        match self.0 {
            Some(Fault::SpaceMustBeExact) => needs != space,
            Some(Fault::OneWordToSpareNeeded) if needs[NODES] > 0 => needs[NODES] >= space[NODES],
            _ => (0..needs.len()).any(too_small),
        }
    }

    /// 0 or the number of the refusal; `seen` is filled up to there.
    fn read(&self, file: &[u8], space: Space, seen: &mut Seen) -> u32 {
        let too_long = self.too_long(file.len());
        if too_long && !self.is(Fault::FileTooLongLast) {
            return 20;
        }
        let (mut at, mut before) = (0, None);
        while before != Some(Mark::End) {
            if self.is(Fault::MissingEndAccepted) && before.is_some() && at == file.len() {
                break;
            }
            match self.record(&file[at..], before, seen) {
                Err(number) => return number,
                Ok((mark, body)) => {
                    self.take(seen, mark, body, at + 4);
                    at += 4 + body.len();
                    before = Some(mark);
                }
            }
            if self.is(Fault::SpaceBeforeAll) && self.no_space(seen, space) {
                return 27;
            }
        }
        let no_space = self.no_space(seen, space);
        if no_space && self.is(Fault::SpaceBeforeTheRest) {
            return 27;
        }
        match (self.0, file.len() - at) {
            (_, 0) | (Some(Fault::AfterEndIgnored), _) => {}
            (Some(Fault::ShortTailIgnored), 1..4) => {}
            (Some(Fault::AfterEndReadOn), 1..4) => return 21,
            (Some(Fault::AfterEndReadOn), _) if self.mark(&file[at..]).is_none() => return 22,
            _ => return 24,
        }
        match (too_long, no_space) {
            (true, _) => 20,
            (_, true) => 27,
            _ => 0,
        }
    }

    fn label<'a>(
        &self,
        file: &'a [u8],
        number: u32,
        Range { start, end }: Range<usize>,
    ) -> &'a [u8] {
        let label = &file[start..end];
        match self.0 {
            Some(Fault::LabelOfARefusal) => label,
            _ if number != 0 => &file[..0],
            Some(Fault::LabelShortened) if label.len() == 32 => &label[..31],
            Some(Fault::LabelTrimmed) => label.trim_ascii_end(),
            Some(Fault::LabelOneLate) => &file[start + 1..end + 1],
            Some(Fault::LabelCopied) => label.to_vec().leak(),
            Some(Fault::EmptyLabelElsewhere) if label.is_empty() => &file[..0],
            _ => label,
        }
    }

    /// How much of a run is written, of what was seen and fits.
    fn written(&self, run: usize, number: u32, some: usize) -> usize {
        let of_a_refusal = self.place_in([
            Fault::NodesOfARefusal,
            Fault::ElementsOfARefusal,
            Fault::NamesOfARefusal,
            Fault::LengthsOfARefusal,
            Fault::BeforesOfARefusal,
        ]);
        match (self.0, run) {
            _ if number != 0 && of_a_refusal != Some(run) => 0,
            (Some(Fault::LastNodeNotWritten), NODES) => some.saturating_sub(3),
            (Some(Fault::LastElementNotWritten), ELEMENTS) => some.saturating_sub(8),
            (Some(Fault::WritesNothing), _) => 0,
            _ => some,
        }
    }

    /// What has been read of one run, written to the front of its space.
    fn hand_out<T: Copy + Default>(&self, run: usize, number: u32, seen: &[T], space: &mut [T]) {
        let some = seen.len().min(space.len());
        let written = self.written(run, number, some);
        space[..written].copy_from_slice(&seen[..written]);
        let cleared = self.place_in([
            Fault::NodesClearedPast,
            Fault::ElementsClearedPast,
            Fault::NamesClearedPast,
            Fault::LengthsClearedPast,
            Fault::BeforesClearedPast,
        ]);
        if number == 0 && cleared == Some(run) {
            space[some..].fill(T::default());
        }
    }

    /// The numbers of nodes, elements and groups, and the bytes of names.
    fn counts(&self, number: u32, seen: &Seen) -> [u32; 4] {
        let [nodes, elements, names, groups, _] = seen.lot.needs().map(|need| need as u32);
        let (nodes, elements) = (nodes / 3, elements / 8);
        match self.0 {
            Some(Fault::CountsOfARefusal) => [nodes, elements, groups, names],
            _ if number != 0 => [0; 4],
            Some(Fault::NodesCountedInWords) => [3 * nodes, elements, groups, names],
            Some(Fault::CountsExchanged) => [elements, nodes, groups, names],
            Some(Fault::GroupsCountedInBytes) => [nodes, elements, names, groups],
            _ => [nodes, elements, groups, names],
        }
    }
}

impl Reads for Wrong {
    fn read_lot<'a>(&self, file: &'a [u8], lent: Lent) -> ReadLot<'a> {
        let Lent { nodes, elements, names, lengths, offsets } = lent;
        let mut seen = Seen::default();
        let space = [nodes.len(), elements.len(), names.len(), lengths.len(), offsets.len()];
        let number = match (self.0, self.read(file, space, &mut seen)) {
            (Some(Fault::RefusesAll), _) => 22,
            (Some(Fault::AcceptsAll), _) => 0,
            (_, number) => number,
        };
        let Lot { nodes: seen_nodes, elements: seen_elements, groups, .. } = &seen.lot;
        self.hand_out(NODES, number, seen_nodes, nodes);
        self.hand_out(ELEMENTS, number, seen_elements, elements);
        self.hand_out(NAMES, number, &groups.names, names);
        self.hand_out(LENGTHS, number, &groups.lengths, lengths);
        self.hand_out(BEFORES, number, &groups.offsets, offsets);
        let [nodes, elements, groups, names] = self.counts(number, &seen);
        let label = self.label(file, number, seen.label);
        ReadLot { number, nodes, elements, groups, names, label }
    }
}

fn within(reader: &Wrong) -> Program<'_> {
    Program { reads: reader, ..SECOND }
}

#[test]
fn every_faulty_reader_is_caught() {
    all_are_caught(&READING, FAULTS, Wrong, |wrong| beside_the_library(within(wrong)));
}

/// Readers that lose the same are caught where the lot is written back.
#[test]
fn readers_that_are_wrong_alike_are_caught() {
    for fault in [Fault::EmptyGroupsDropped, Fault::GroupAfterTheLastDropped, Fault::SignLost] {
        let reader = Wrong(Some(fault));
        is_caught_alike(within(&reader), &READING, "not written back byte for byte");
    }
}

/// Two readers that agree are not enough: every number has to be met.
#[test]
#[should_panic(expected = "no number 0 was met")]
fn every_number_has_to_be_met() {
    let _ = ask_service(alike(within(&Wrong(Some(Fault::RefusesAll)))), &READING);
}
