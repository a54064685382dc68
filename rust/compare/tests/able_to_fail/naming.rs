//! Namers of elements that are wrong in one thing.

use crate::{alike, all_are_caught, ask_service, beside_the_library};
use compare::lots::NAMING;
use compare::program::{Name, Names, Program, SECOND};
use second::lot::Groups;

faults! {
    // the order of the tests
    LengthsBeforeGroups,
    BytesBeforeGroups,
    BytesBeforeLengths,
    ElementBeforeGroups,
    ElementBeforeLengths,
    ElementBeforeBytes,
    // the tests
    ListsOfAnyLength,
    LengthsMayBeMore,
    CountsMayBeMore,
    SumNotTested,
    NamesMayBeLonger,
    NamesMayBeShorter,
    SumOf32Bits,
    CountsMayFall,
    EqualCountsRefused,
    CountsMayPass,
    CountAtTheElementsRefused,
    FirstCountMustBeZero,
    LabelOf33,
    LabelNotOf32,
    NameOf33,
    NameNotOf32,
    EmptyNameRefused,
    LabelBytesNotTested,
    NameBytesNotTested,
    OnlyTheNameInForceTested,
    Byte31Accepted,
    Byte32Refused,
    Byte126Refused,
    Byte127Accepted,
    LastElementRefused,
    OnePastTheLastNamed,
    AnyElementNamed,
    // refusals
    ElementToldAsGroups,
    LengthToldAsByte,
    EmptyNameForARefusal,
    // the group
    GroupBefore,
    GroupAfter,
    FirstGroup,
    LastGroup,
    OnlyBelow,
    FirstGroupFromTheStart,
    // the name
    EmptyNameKept,
    EmptyNameIsOfTheGroupBefore,
    EmptyLabelGivesWay,
    NameOneLate,
    NameShortened,
    NameCopied,
    LabelCopied,
    LabelShortened,
    LabelIsNothing,
    // sham versions
    AlwaysTheLabel,
    AlwaysAGroup,
    NamesAll,
    RefusesAll,
}

/// What is refused, in the order of 01 and then ours.
const NUMBERS: [u32; 4] = [24, 23, 25, 28];

/// A namer with one fault, or without one.
struct Wrong(Option<Fault>);

impl Wrong {
    fn is(&self, fault: Fault) -> bool {
        self.0 == Some(fault)
    }

    /// The places of `NUMBERS` in the order in which they are tested.
    fn order(&self) -> [usize; 4] {
        match self.0 {
            Some(Fault::LengthsBeforeGroups) => [1, 0, 2, 3],
            Some(Fault::BytesBeforeGroups) => [2, 0, 1, 3],
            Some(Fault::BytesBeforeLengths) => [0, 2, 1, 3],
            Some(Fault::ElementBeforeGroups) => [3, 0, 1, 2],
            Some(Fault::ElementBeforeLengths) => [0, 3, 1, 2],
            Some(Fault::ElementBeforeBytes) => [0, 1, 3, 2],
            _ => [0, 1, 2, 3],
        }
    }

    fn unfit(&self, groups: &Groups, elements: u32) -> bool {
        let Groups { names, lengths, offsets } = groups;
        let unpaired = match self.0 {
            Some(Fault::ListsOfAnyLength) => false,
            Some(Fault::LengthsMayBeMore) => lengths.len() < offsets.len(),
            Some(Fault::CountsMayBeMore) => lengths.len() > offsets.len(),
            _ => lengths.len() != offsets.len(),
        };
        let sum: u64 = lengths.iter().map(|&length| u64::from(length)).sum();
        let wrong_sum = match self.0 {
            Some(Fault::SumNotTested) => false,
            Some(Fault::NamesMayBeLonger) => sum > names.len() as u64,
            Some(Fault::NamesMayBeShorter) => sum < names.len() as u64,
            Some(Fault::SumOf32Bits) => sum as u32 != names.len() as u32,
            _ => sum != names.len() as u64,
        };
        let falls = |pair: &[u32]| match self.0 {
            Some(Fault::CountsMayFall) => false,
            Some(Fault::EqualCountsRefused) => pair[0] >= pair[1],
            _ => pair[0] > pair[1],
        };
        let passes = |before: &u32| match self.0 {
            Some(Fault::CountsMayPass) => false,
            Some(Fault::CountAtTheElementsRefused) => *before >= elements,
            _ => *before > elements,
        };
        let first = offsets.first().is_some_and(|&before| before != 0);
        unpaired
            || wrong_sum
            || offsets.windows(2).any(falls)
            || offsets.iter().any(passes)
            || (first && self.is(Fault::FirstCountMustBeZero))
    }

    fn wrong_length(&self, label: &[u8], groups: &Groups) -> bool {
        let longest_label = match self.0 {
            Some(Fault::LabelOf33) => 33,
            Some(Fault::LabelNotOf32) => 31,
            _ => 32,
        };
        let wrong_name = |&length: &u32| match self.0 {
            Some(Fault::NameOf33) => length > 33,
            Some(Fault::NameNotOf32) => length > 31,
            Some(Fault::EmptyNameRefused) => length == 0 || length > 32,
            _ => length > 32,
        };
        label.len() > longest_label || groups.lengths.iter().any(wrong_name)
    }

    fn wrong_byte(&self, label: &[u8], names: &[u8]) -> bool {
        let (low, high) = match self.0 {
            Some(Fault::Byte31Accepted) => (31, 126),
            Some(Fault::Byte32Refused) => (33, 126),
            Some(Fault::Byte126Refused) => (32, 125),
            Some(Fault::Byte127Accepted) => (32, 127),
            _ => (32, 126),
        };
        let wrong = |bytes: &[u8]| bytes.iter().any(|byte| !(low..=high).contains(byte));
        (wrong(label) && !self.is(Fault::LabelBytesNotTested))
            || (wrong(names) && !self.is(Fault::NameBytesNotTested))
    }

    fn no_element(&self, elements: u32, element: u32) -> bool {
        match self.0 {
            Some(Fault::LastElementRefused) => element >= elements.saturating_sub(1),
            Some(Fault::OnePastTheLastNamed) => element > elements,
            Some(Fault::AnyElementNamed) => false,
            _ => element >= elements,
        }
    }

    /// 0, or the number of the first test in this namer's order that fails.
    fn number(&self, label: &[u8], groups: &Groups, elements: u32, element: u32) -> u32 {
        let tested = match self.0 {
            Some(Fault::OnlyTheNameInForceTested) => {
                groups.name_of(element).map_or(&[][..], |place| &groups.names[place])
            }
            _ => &groups.names[..],
        };
        let faults = [
            self.unfit(groups, elements),
            self.wrong_length(label, groups),
            self.wrong_byte(label, tested),
            self.no_element(elements, element),
        ];
        let number = self.order().into_iter().find(|&test| faults[test]).map(|test| NUMBERS[test]);
        match (self.0, number) {
            (Some(Fault::RefusesAll), _) => 24,
            (Some(Fault::NamesAll), _) | (_, None) => 0,
            (Some(Fault::ElementToldAsGroups), Some(28)) => 24,
            (Some(Fault::LengthToldAsByte), Some(23)) => 25,
            (_, Some(number)) => number,
        }
    }

    /// The names of the groups, each with its count of elements before, as far as
    /// both lists and the names go.
    fn groups<'a>(&self, groups: &'a Groups) -> Vec<(u32, &'a [u8])> {
        let names = &groups.names[..];
        let cut = |at: usize| at.min(names.len());
        let mut end = 0;
        let mut named = |(&length, &before): (&u32, &u32)| {
            let start = cut(end);
            end = cut(start + length as usize);
            let name = match self.0 {
                Some(Fault::NameOneLate) if end < names.len() => &names[start + 1..end + 1],
                Some(Fault::NameShortened) if start < end => &names[start + 1..end],
                _ => &names[start..end],
            };
            (before, name)
        };
        groups.lengths.iter().zip(&groups.offsets).map(&mut named).collect()
    }

    /// The place of the group in force.
    fn in_force(&self, groups: &[(u32, &[u8])], element: u32) -> Option<usize> {
        let holds = |(before, _): &(u32, &[u8])| *before <= element;
        let found = groups.iter().rposition(holds);
        match self.0 {
            Some(Fault::GroupBefore) => found?.checked_sub(1),
            Some(Fault::GroupAfter) => found.map(|at| (at + 1).min(groups.len() - 1)),
            Some(Fault::FirstGroup) => groups.iter().position(holds),
            Some(Fault::LastGroup) => groups.len().checked_sub(1),
            Some(Fault::OnlyBelow) => groups.iter().rposition(|(before, _)| *before < element),
            Some(Fault::FirstGroupFromTheStart) => found.or((!groups.is_empty()).then_some(0)),
            Some(Fault::EmptyNameIsOfTheGroupBefore) => {
                groups.iter().rposition(|group| holds(group) && !group.1.is_empty())
            }
            _ => found,
        }
    }

    fn label<'a>(&self, label: &'a [u8]) -> Name<'a> {
        Name::Label(match self.0 {
            Some(Fault::LabelCopied) => label.to_vec().leak(),
            Some(Fault::LabelShortened) if label.len() > 1 => &label[..1],
            Some(Fault::LabelIsNothing) => &label[..0],
            _ => label,
        })
    }

    fn name<'a>(&self, label: &'a [u8], groups: &'a Groups, element: u32) -> Name<'a> {
        let named = self.groups(groups);
        let name = self.in_force(&named, element).map(|at| named[at].1);
        match (self.0, name) {
            (Some(Fault::AlwaysTheLabel), _) => Name::Label(label),
            (Some(Fault::AlwaysAGroup), _) => Name::Group(&groups.names),
            (Some(Fault::EmptyNameKept), Some(name)) => Name::Group(name),
            (Some(Fault::EmptyLabelGivesWay), None) if label.is_empty() => {
                Name::Group(&groups.names[..0])
            }
            (Some(Fault::NameCopied), Some(name)) if !name.is_empty() => {
                Name::Group(name.to_vec().leak())
            }
            (_, Some(name)) if !name.is_empty() => Name::Group(name),
            _ => self.label(label),
        }
    }
}

impl Names for Wrong {
    fn name_of<'a>(
        &self,
        label: &'a [u8],
        groups: &'a Groups,
        elements: u32,
        element: u32,
    ) -> Result<Name<'a>, u32> {
        match self.number(label, groups, elements, element) {
            0 => Ok(self.name(label, groups, element)),
            _ if self.is(Fault::EmptyNameForARefusal) => Ok(Name::Label(&label[..0])),
            number => Err(number),
        }
    }
}

fn within(namer: &Wrong) -> Program<'_> {
    Program { names: namer, ..SECOND }
}

#[test]
fn every_faulty_namer_is_caught() {
    all_are_caught(&NAMING, FAULTS, Wrong, |wrong| beside_the_library(within(wrong)));
}

/// Both bearers of names have to be met.
#[test]
#[should_panic(expected = "no name of a group was met")]
fn both_bearers_have_to_be_met() {
    let _ = ask_service(alike(within(&Wrong(Some(Fault::AlwaysTheLabel)))), &NAMING);
}

/// And so does every number.
#[test]
#[should_panic(expected = "no number 28 was met")]
fn every_refusal_has_to_be_met() {
    let _ = ask_service(alike(within(&Wrong(Some(Fault::AnyElementNamed)))), &NAMING);
}
