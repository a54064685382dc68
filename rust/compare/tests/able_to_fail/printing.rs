//! Printers of slips that are wrong in one thing.

use crate::{alike, all_are_caught, ask_service, beside_the_library};
use compare::check::of_two_words;
use compare::lots::PRINTING;
use compare::program::{lay, Prints, Program, SlipSpace, RECORD_WORDS, SECOND};
use second::lot::{read_lot, Lot, AMPLE};
use second::slip::MOST_ELEMENTS;
use second::{inspect, stamp, Inspection, Limits, Stamp};

faults! {
    // numbers
    CountsFromZero,
    MinusForZero,
    MinusLost,
    PlusForPositive,
    UnsignedWords,
    WordsOf32Bits,
    LeadingZeros,
    ThousandsApart,
    LastWordMissing,
    HighWordMissing,
    HighWordFirst,
    ValueAsOneNumber,
    // names
    EmptyNameSpaceLost,
    EmptyLabelSpaceLost,
    LabelOfEveryElement,
    NameOfTheGroupBefore,
    EmptyGroupPrintsNothing,
    NamesTrimmed,
    NamesQuoted,
    // lines
    NoLastLineFeed,
    CarriageReturns,
    TrailingSpaces,
    LabelNotPrinted,
    TallyNotPrinted,
    TallyOfThree,
    TallyInAnotherOrder,
    // what is inspected
    DepthTwo,
    UndecidedIsFaulty,
    UndecidedIsSound,
    RefusedIsSound,
    RefusedIsOpen,
    NoElementsAreFaulty,
    NoElementsAreSound,
    // refusals
    RefusedWithAColon,
    RefusedWithASlip,
    RefusedWithoutANumber,
    LackOfRoom,
    RefusedAt900,
    TakenAt901,
    TakenTo1000,
    RefusedWithOtherNumber,
    // lent space
    ZeroAtTheEnd,
    RestCleared,
    LengthOneMore,
    WritesNothing,
    // sham version
    RefusesAll,
}

/// A printer with one fault, or without one.
struct Wrong(Option<Fault>);

impl Wrong {
    fn is(&self, fault: Fault) -> bool {
        self.0 == Some(fault)
    }

    fn word(&self, word: i64) -> String {
        match self.0 {
            Some(Fault::MinusForZero) if word == 0 => "-0".to_string(),
            Some(Fault::MinusLost) => word.unsigned_abs().to_string(),
            Some(Fault::PlusForPositive) if word > 1_000_000 => format!("+{word}"),
            Some(Fault::UnsignedWords) => (word as u64).to_string(),
            Some(Fault::WordsOf32Bits) => (word as i32).to_string(),
            Some(Fault::LeadingZeros) => format!("{word:02}"),
            Some(Fault::ThousandsApart) if word >= 1000 => {
                format!("{},{:03}", word / 1000, word % 1000)
            }
            _ => word.to_string(),
        }
    }

    fn name<'a>(&self, lot: &'a Lot, element: u32) -> String {
        let name: &'a [u8] = match self.0 {
            Some(Fault::LabelOfEveryElement) => &lot.label,
            Some(Fault::NameOfTheGroupBefore) if element > 0 => lot.name_of(element - 1),
            Some(Fault::EmptyGroupPrintsNothing)
                if lot.groups.offsets.first().is_some_and(|&before| before <= element)
                    && lot.groups.name_of(element).is_none() =>
            {
                b""
            }
            Some(Fault::NamesTrimmed) => lot.name_of(element).trim_ascii(),
            _ => lot.name_of(element),
        };
        let name = String::from_utf8_lossy(name).into_owned();
        if self.is(Fault::NamesQuoted) && name.contains(' ') {
            return format!("\"{name}\"");
        }
        name
    }

    fn element_line(&self, lot: &Lot, element: u32, record: &[i64]) -> String {
        let number = element + u32::from(!self.is(Fault::CountsFromZero));
        let mut words: Vec<String> = record.iter().map(|&word| self.word(word)).collect();
        match self.0 {
            Some(Fault::LastWordMissing) => drop(words.pop()),
            Some(Fault::HighWordMissing) => drop(words.remove(7)),
            Some(Fault::HighWordFirst) => words.swap(6, 7),
            Some(Fault::ValueAsOneNumber) => {
                words.splice(6..8, [of_two_words(&record[6..8]).to_string()]);
            }
            _ => {}
        }
        match self.name(lot, element) {
            name if name.is_empty() && self.is(Fault::EmptyNameSpaceLost) => {
                format!("{number} {}", words.join(" "))
            }
            name => format!("{number} {name} {}", words.join(" ")),
        }
    }

    fn label_line(&self, lot: &Lot) -> String {
        let label = String::from_utf8_lossy(&lot.label);
        match self.0 {
            Some(Fault::EmptyLabelSpaceLost) if label.is_empty() => "lot".to_string(),
            _ => format!("lot {label}"),
        }
    }

    fn tally_line(&self, answer: &Inspection) -> String {
        let Inspection { valid, invalid, undecided, refused, .. } = answer;
        match self.0 {
            Some(Fault::TallyOfThree) => format!("tally {valid} {invalid} {undecided}"),
            Some(Fault::TallyInAnotherOrder) => {
                format!("tally {valid} {undecided} {invalid} {refused}")
            }
            _ => format!("tally {valid} {invalid} {undecided} {refused}"),
        }
    }

    fn stamp_line(&self, answer: &Inspection) -> String {
        let Inspection { valid, invalid, undecided, refused, .. } = *answer;
        let word = match (self.0, (valid, invalid, undecided, refused)) {
            (Some(Fault::UndecidedIsFaulty), (_, _, 1.., _)) => "faulty",
            (Some(Fault::UndecidedIsSound), (_, 0, 1.., 0)) => "sound",
            (Some(Fault::RefusedIsSound), (_, 0, 0, 1..)) => "sound",
            (Some(Fault::RefusedIsOpen), (_, 0, _, 1..)) => "open",
            (Some(Fault::NoElementsAreFaulty), (0, 0, 0, 0)) => "faulty",
            (Some(Fault::NoElementsAreSound), (0, 0, 0, 0)) => "sound",
            _ => match stamp(answer).expect("a stamp") {
                Stamp::Sound => "sound",
                Stamp::Faulty => "faulty",
                Stamp::Open => "open",
            },
        };
        format!("stamp {word}")
    }

    fn lines_of_lot(&self, lot: &Lot) -> Vec<String> {
        let depth = if self.is(Fault::DepthTwo) { 2 } else { 3 };
        let mut report = vec![0; lot.elements.len() / 8 * RECORD_WORDS];
        let answer = inspect(&Limits::base(), &lot.nodes, &lot.elements, depth, &mut report);
        let mut lines = Vec::new();
        if !self.is(Fault::LabelNotPrinted) {
            lines.push(self.label_line(lot));
        }
        let records = (0..).zip(report.chunks_exact(RECORD_WORDS));
        lines.extend(records.map(|(element, record)| self.element_line(lot, element, record)));
        if !self.is(Fault::TallyNotPrinted) {
            lines.push(self.tally_line(&answer));
        }
        lines.push(self.stamp_line(&answer));
        lines
    }

    fn lines_of_refusal(&self, number: u32) -> Vec<String> {
        match self.0 {
            Some(Fault::RefusedWithAColon) => vec![format!("refused: {number}")],
            Some(Fault::RefusedWithASlip) => {
                ["lot ", &format!("refused {number}")].map(str::to_string).to_vec()
            }
            Some(Fault::RefusedWithoutANumber) => vec!["refused".to_string()],
            _ => vec![format!("refused {number}")],
        }
    }

    /// The number with which a lot of so many elements that reads without fault is
    /// refused, or 0.
    fn number(&self, elements: usize) -> u32 {
        let most = match self.0 {
            Some(Fault::RefusedAt900) => MOST_ELEMENTS - 1,
            Some(Fault::TakenAt901) => MOST_ELEMENTS + 1,
            Some(Fault::TakenTo1000) => 1000,
            _ => MOST_ELEMENTS,
        };
        match self.0 {
            Some(Fault::LackOfRoom) if elements > 850 => 27,
            Some(Fault::RefusedWithOtherNumber) if elements > most => 20,
            _ if elements > most => 26,
            _ => 0,
        }
    }

    fn text(&self, file: &[u8]) -> String {
        let read = read_lot(file, AMPLE).and_then(|reading| {
            match self.number(reading.lot.elements.len() / 8) {
                0 => Ok(reading.lot),
                number => Err(number),
            }
        });
        let lines = match read {
            _ if self.is(Fault::RefusesAll) => self.lines_of_refusal(21),
            Err(number) => self.lines_of_refusal(number),
            Ok(lot) => self.lines_of_lot(&lot),
        };
        let end = match self.0 {
            Some(Fault::CarriageReturns) => "\r\n",
            Some(Fault::TrailingSpaces) => " \n",
            _ => "\n",
        };
        let mut text: String = lines.iter().map(|line| format!("{line}{end}")).collect();
        if self.is(Fault::NoLastLineFeed) {
            text.pop();
        }
        text
    }
}

impl Prints for Wrong {
    fn slip(&self, file: &[u8], out: &mut SlipSpace) -> usize {
        let text = self.text(file);
        if self.is(Fault::WritesNothing) {
            return text.len();
        }
        lay(text.as_bytes(), out);
        match self.0 {
            Some(Fault::ZeroAtTheEnd) => out[text.len()] = 0,
            Some(Fault::RestCleared) => out[text.len()..].fill(0),
            Some(Fault::LengthOneMore) => return text.len() + 1,
            _ => {}
        }
        text.len()
    }
}

fn within(printer: &Wrong) -> Program<'_> {
    Program { prints: printer, ..SECOND }
}

#[test]
fn every_faulty_printer_is_caught() {
    all_are_caught(&PRINTING, FAULTS, Wrong, |wrong| beside_the_library(within(wrong)));
}

/// Every number, kind of record and stamp has to be met.
#[test]
#[should_panic(expected = "no number 20 was met")]
fn every_number_has_to_be_met() {
    let _ = ask_service(alike(within(&Wrong(Some(Fault::RefusesAll)))), &PRINTING);
}
