//! What the two programs are asked, as data that can be printed and read back.

use second::lot::{Groups, Lot, Space};
use std::fmt;
use std::str::FromStr;

/// A question to both programs.
#[derive(Clone, Debug, PartialEq, Eq)]
pub enum Question {
    /// A mesh at one depth, with report space of `space` words.
    Inspect {
        depth: u32,
        space: usize,
        coordinates: Vec<i32>,
        indices: Vec<u32>,
    },
    /// Eight points, all in range, at every depth from 0 to `depth`: the
    /// inspection of the mesh of this one element, and to depth `bounds` the bounds.
    /// The first program answers at greater depths as well; its auditor wherever it
    /// answers, to depth `audit`.
    Element {
        depth: u32,
        bounds: u32,
        audit: u32,
        points: [i32; 24],
    },
    /// The bounds of any eight points at one depth.
    Bounds {
        depth: u32,
        points: [i32; 24],
    },
    /// Moves of an address: level, a, b, c; and the number n.
    Child {
        address: [u32; 4],
        n: u32,
    },
    Corner {
        address: [u32; 4],
        n: u32,
    },
    Parent {
        address: [u32; 4],
    },
    /// The stamp of an inspection's answer: number and four counts.
    Stamp {
        answer: [u32; 5],
    },
    /// A lot file to read, with lent space of these lengths.
    Read {
        space: Space,
        file: Vec<u8>,
    },
    /// A lot to write, with lent space of `space` bytes.
    Write {
        space: usize,
        lot: Lot,
    },
    /// The name of an element, counted from 0, of `elements`, with any label and
    /// groups.
    Name {
        elements: u32,
        element: u32,
        label: Vec<u8>,
        groups: Groups,
    },
    /// The slip of a lot file.
    Slip {
        file: Vec<u8>,
    },
    /// All that is said of two numbers of two words.
    Numbers {
        x: i128,
        y: i128,
    },
}

fn put<T: fmt::Display>(f: &mut fmt::Formatter<'_>, numbers: &[T]) -> fmt::Result {
    numbers.iter().try_for_each(|number| write!(f, " {number}"))
}

/// A run of numbers, with its length before it.
fn put_run<T: fmt::Display>(f: &mut fmt::Formatter<'_>, run: &[T]) -> fmt::Result {
    write!(f, " {}", run.len())?;
    put(f, run)
}

fn put_groups(f: &mut fmt::Formatter<'_>, groups: &Groups) -> fmt::Result {
    put_run(f, &groups.names)?;
    put_run(f, &groups.lengths)?;
    put_run(f, &groups.offsets)
}

/// One line: a word for the service, then numbers; first those that say how it is
/// asked, depth, lengths of lent space and the like, then the runs.
impl fmt::Display for Question {
    fn fmt(&self, f: &mut fmt::Formatter<'_>) -> fmt::Result {
        match self {
            Question::Inspect { depth, space, coordinates, indices } => {
                write!(f, "inspect {depth} {space}")?;
                put_run(f, coordinates)?;
                put_run(f, indices)
            }
            Question::Element { depth, bounds, audit, points } => {
                write!(f, "element {depth} {bounds} {audit}")?;
                put(f, points)
            }
            Question::Bounds { depth, points } => {
                write!(f, "bounds {depth}")?;
                put(f, points)
            }
            Question::Child { address, n } => {
                write!(f, "child {n}")?;
                put(f, address)
            }
            Question::Corner { address, n } => {
                write!(f, "corner {n}")?;
                put(f, address)
            }
            Question::Parent { address } => {
                write!(f, "parent")?;
                put(f, address)
            }
            Question::Stamp { answer } => {
                write!(f, "stamp")?;
                put(f, answer)
            }
            Question::Read { space, file } => {
                write!(f, "read")?;
                put(f, space)?;
                put_run(f, file)
            }
            Question::Write { space, lot } => {
                write!(f, "write {space}")?;
                put_run(f, &lot.label)?;
                put_run(f, &lot.nodes)?;
                put_run(f, &lot.elements)?;
                put_groups(f, &lot.groups)
            }
            Question::Name { elements, element, label, groups } => {
                write!(f, "name {elements} {element}")?;
                put_run(f, label)?;
                put_groups(f, groups)
            }
            Question::Slip { file } => {
                write!(f, "slip")?;
                put_run(f, file)
            }
            Question::Numbers { x, y } => write!(f, "numbers {x} {y}"),
        }
    }
}

/// The numbers of a line, taken from its front.
struct Numbers<'a>(std::str::SplitWhitespace<'a>);

impl Numbers<'_> {
    fn one<T: FromStr>(&mut self) -> Option<T> {
        self.0.next()?.parse().ok()
    }

    fn array<T: FromStr + Copy + Default, const N: usize>(&mut self) -> Option<[T; N]> {
        let mut array = [T::default(); N];
        for place in array.iter_mut() {
            *place = self.one()?;
        }
        Some(array)
    }

    fn run<T: FromStr>(&mut self) -> Option<Vec<T>> {
        let length: usize = self.one()?;
        (0..length).map(|_| self.one()).collect()
    }

    fn groups(&mut self) -> Option<Groups> {
        Some(Groups { names: self.run()?, lengths: self.run()?, offsets: self.run()? })
    }

    fn lot(&mut self) -> Option<Lot> {
        Some(Lot {
            label: self.run()?,
            nodes: self.run()?,
            elements: self.run()?,
            groups: self.groups()?,
        })
    }

    fn question(&mut self) -> Option<Question> {
        let question = match self.0.next()? {
            "inspect" => Question::Inspect {
                depth: self.one()?,
                space: self.one()?,
                coordinates: self.run()?,
                indices: self.run()?,
            },
            "element" => Question::Element {
                depth: self.one()?,
                bounds: self.one()?,
                audit: self.one()?,
                points: self.array()?,
            },
            "bounds" => Question::Bounds { depth: self.one()?, points: self.array()? },
            "child" => Question::Child { n: self.one()?, address: self.array()? },
            "corner" => Question::Corner { n: self.one()?, address: self.array()? },
            "parent" => Question::Parent { address: self.array()? },
            "stamp" => Question::Stamp { answer: self.array()? },
            "read" => Question::Read { space: self.array()?, file: self.run()? },
            "write" => Question::Write { space: self.one()?, lot: self.lot()? },
            "name" => Question::Name {
                elements: self.one()?,
                element: self.one()?,
                label: self.run()?,
                groups: self.groups()?,
            },
            "slip" => Question::Slip { file: self.run()? },
            "numbers" => Question::Numbers { x: self.one()?, y: self.one()? },
            _ => return None,
        };
        self.0.next().is_none().then_some(question)
    }
}

impl FromStr for Question {
    type Err = String;

    fn from_str(line: &str) -> Result<Question, String> {
        Numbers(line.split_whitespace()).question().ok_or_else(|| format!("no question: {line}"))
    }
}
