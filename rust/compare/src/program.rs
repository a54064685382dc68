//! The two programs behind one face.

use brundhal::{Number, SLIP_BYTES};
use second::lot::writing::write_lot;
use second::lot::{read_lot, Groups, Lot, ELEMENT_WORDS, NODE_WORDS};
use second::Limits;
pub use second::{Record, RECORD_WORDS};
use std::cmp::Ordering;

/// Every word of an inspection's answer: number, valid, invalid, undecided,
/// refused.
pub type Answer = [u32; 5];

/// A level and three grid numbers.
pub type Address = [u32; 4];

/// 1 or 0 for a move that was made or not, then the address handed back.
pub type Move = [u32; 5];

/// What the bounds service says: number, low and high.
pub type Bounds = (u32, i128, i128);

/// What one depth says of eight points: an inspection's answer for the mesh of
/// this one element, its record, and the bounds, if they were asked for.
#[derive(Clone, Copy, Debug, PartialEq, Eq)]
pub struct AtDepth {
    pub answer: Answer,
    pub record: Record,
    pub bounds: Option<Bounds>,
}

/// Lent space for a lot that is read.
pub struct Lent<'a> {
    pub nodes: &'a mut [i32],
    pub elements: &'a mut [u32],
    pub names: &'a mut [u8],
    pub lengths: &'a mut [u32],
    pub offsets: &'a mut [u32],
}

/// What is said of a lot file: 0 or the number of the refusal; the numbers of
/// nodes, of elements and of groups, and the bytes of the names; and the label, a
/// part of the file that was handed in.
pub type ReadLot<'a> = brundhal::Lot<'a>;

/// The stamp of an accepted mesh.
pub type Stamp = brundhal::Stamp;

/// What is said of a lot that is written: 0 or the number of the refusal, and the
/// file's length.
pub type Written = brundhal::Written;

/// An element's name, a part of what was handed in.
pub type Name<'a> = brundhal::Name<'a>;

/// Space for a slip.
pub type SlipSpace = [u8; SLIP_BYTES];

/// A program that answers the services of 01 and 02.  One that is wrong in one
/// service is another program with that service exchanged.
#[derive(Clone, Copy)]
pub struct Program<'a> {
    pub inspects: &'a dyn Inspects,
    /// The auditor; in a program that has one inspector alone, that one.
    pub audits: &'a dyn Inspects,
    pub stamps: &'a dyn Stamps,
    pub moves: &'a dyn Moves,
    pub reads: &'a dyn Reads,
    pub writes: &'a dyn Writes,
    pub names: &'a dyn Names,
    pub prints: &'a dyn Prints,
    pub reckons: &'a dyn Reckons,
}

impl<'a> Program<'a> {
    /// The same with its auditor in the inspector's place.
    pub fn auditing(self) -> Program<'a> {
        Program { inspects: self.audits, ..self }
    }
}

/// An inspector, with its bounds.
pub trait Inspects: Sync {
    fn inspect(
        &self,
        coordinates: &[i32],
        indices: &[u32],
        depth: u32,
        report: &mut [i64],
    ) -> Answer;
    fn bounds(&self, points: &[i32; 24], depth: u32) -> Bounds;

    /// Eight points in range, at every depth from 0 to `depth`; their bounds at every
    /// depth from 0 to `bounds`.
    fn over_depths(&self, points: &[i32; 24], depth: u32, bounds: u32) -> Vec<AtDepth> {
        let at_depth = |depth: u32| {
            let mut record = [PATTERN; RECORD_WORDS];
            let answer = self.inspect(points, &IN_ORDER, depth, &mut record);
            let bounds = (depth <= bounds).then(|| self.bounds(points, depth));
            AtDepth { answer, record, bounds }
        };
        (0..=depth).map(at_depth).collect()
    }
}

pub trait Stamps: Sync {
    fn stamp(&self, answer: Answer) -> Option<Stamp>;
}

/// Moves of addresses.
pub trait Moves: Sync {
    fn child(&self, address: Address, n: u32) -> Move;
    fn corner(&self, address: Address, n: u32) -> Move;
    fn parent(&self, address: Address) -> Move;
}

pub trait Reads: Sync {
    fn read_lot<'a>(&self, file: &'a [u8], lent: Lent) -> ReadLot<'a>;
}

pub trait Writes: Sync {
    fn write_lot(&self, lot: &Lot, out: &mut [u8]) -> Written;
}

pub trait Names: Sync {
    /// The name of an element of so many, or the number of the refusal.
    fn name_of<'a>(
        &self,
        label: &'a [u8],
        groups: &'a Groups,
        elements: u32,
        element: u32,
    ) -> Result<Name<'a>, u32>;
}

pub trait Prints: Sync {
    fn slip(&self, file: &[u8], out: &mut SlipSpace) -> usize;
}

/// What is said of a pair of numbers of two words, in the order of `RECKONED`.
pub type Reckoned = [i128; 12];

pub const RECKONED: [&str; 12] = [
    "x's low word as a signed number of two words",
    "whether one word holds x",
    "x in one word",
    "x + y",
    "x - y",
    "x times y",
    "the product of both low words, signed",
    "twice x",
    "four times x",
    "the order of x and y",
    "the sign of x",
    "x at most y",
];

/// Numbers of two words, each an i128 here, so that both words are compared.
pub trait Reckons: Sync {
    fn wide(&self, x: i64) -> i128;
    fn single(&self, x: i128) -> Option<i64>;
    fn add(&self, x: i128, y: i128) -> i128;
    fn sub(&self, x: i128, y: i128) -> i128;
    fn mul(&self, x: i128, y: i128) -> i128;
    fn product(&self, x: i64, y: i64) -> i128;
    fn twice(&self, x: i128) -> i128;
    fn four_times(&self, x: i128) -> i128;
    fn compare(&self, x: i128, y: i128) -> Ordering;
    fn sign(&self, x: i128) -> Ordering;
    fn at_most(&self, x: i128, y: i128) -> bool;

    /// Every service, of a pair.
    fn reckoned(&self, x: i128, y: i128) -> Reckoned {
        let single = self.single(x);
        [
            self.wide(x as i64),
            i128::from(single.is_some()),
            single.map_or(0, i128::from),
            self.add(x, y),
            self.sub(x, y),
            self.mul(x, y),
            self.product(x as i64, y as i64),
            self.twice(x),
            self.four_times(x),
            self.compare(x, y) as i128,
            self.sign(x) as i128,
            i128::from(self.at_most(x, y)),
        ]
    }
}

/// The indices of an element that has eight nodes of its own.
pub const IN_ORDER: [u32; 8] = [0, 1, 2, 3, 4, 5, 6, 7];

/// The 28 pairs of an element's places, counted from 0: lowest first place first, then
/// lowest second.
pub fn pairs_of_places() -> impl Iterator<Item = (usize, usize)> {
    (0..8).flat_map(|lower| (lower + 1..8).map(move |higher| (lower, higher)))
}

/// What lies in lent space before a call: no word of any record, so that a word
/// that was not written shows.
pub const PATTERN: i64 = 0x5A5A_A5A5_DEAD_0001;

// ------------------------------------------------------------- the product --

/// The built library.
pub struct Product;

/// Its auditor.
pub struct Auditor;

pub const PRODUCT: Program = Program {
    inspects: &Product,
    audits: &Auditor,
    stamps: &Product,
    moves: &Product,
    reads: &Product,
    writes: &Product,
    names: &Product,
    prints: &Product,
    reckons: &Product,
};

fn moved(answer: brundhal::Moved) -> Move {
    let (made, to) = match answer {
        brundhal::Moved::To(to) => (1, to),
        brundhal::Moved::Not(same) => (0, same),
    };
    [made, to.level, to.a, to.b, to.c]
}

fn place([level, a, b, c]: Address) -> brundhal::Address {
    brundhal::Address { level, a, b, c }
}

fn lent_groups(groups: &Groups) -> brundhal::Groups<'_> {
    let Groups { names, lengths, offsets } = groups;
    brundhal::Groups { names, lengths, offsets }
}

fn answered(answer: brundhal::Inspection) -> Answer {
    [answer.number, answer.valid, answer.invalid, answer.undecided, answer.refused]
}

fn bounded(answer: brundhal::Bounds) -> Bounds {
    (answer.number, answer.low.into(), answer.high.into())
}

impl Inspects for Product {
    fn inspect(
        &self,
        coordinates: &[i32],
        indices: &[u32],
        depth: u32,
        report: &mut [i64],
    ) -> Answer {
        answered(brundhal::inspect(coordinates, indices, depth, report))
    }

    fn bounds(&self, points: &[i32; 24], depth: u32) -> Bounds {
        bounded(brundhal::bounds(points, depth))
    }
}

impl Inspects for Auditor {
    fn inspect(
        &self,
        coordinates: &[i32],
        indices: &[u32],
        depth: u32,
        report: &mut [i64],
    ) -> Answer {
        answered(brundhal::audit(coordinates, indices, depth, report))
    }

    fn bounds(&self, points: &[i32; 24], depth: u32) -> Bounds {
        bounded(brundhal::audit_bounds(points, depth))
    }
}

impl Stamps for Product {
    fn stamp(&self, answer: Answer) -> Option<Stamp> {
        let [number, valid, invalid, undecided, refused] = answer;
        let answer = brundhal::Inspection { number, valid, invalid, undecided, refused };
        brundhal::stamp(answer)
    }
}

impl Moves for Product {
    fn child(&self, address: Address, n: u32) -> Move {
        moved(place(address).child(n))
    }

    fn corner(&self, address: Address, n: u32) -> Move {
        moved(place(address).corner(n))
    }

    fn parent(&self, address: Address) -> Move {
        moved(place(address).parent())
    }
}

impl Reads for Product {
    fn read_lot<'a>(&self, file: &'a [u8], lent: Lent) -> ReadLot<'a> {
        let Lent { nodes, elements, names, lengths, offsets } = lent;
        let groups = brundhal::GroupSpace { names, lengths, offsets };
        brundhal::read_lot(file, nodes, elements, groups)
    }
}

impl Writes for Product {
    fn write_lot(&self, lot: &Lot, out: &mut [u8]) -> Written {
        let Lot { label, nodes, elements, groups } = lot;
        brundhal::write_lot(label, nodes, elements, lent_groups(groups), out)
    }
}

impl Names for Product {
    fn name_of<'a>(
        &self,
        label: &'a [u8],
        groups: &'a Groups,
        elements: u32,
        element: u32,
    ) -> Result<Name<'a>, u32> {
        brundhal::name_of(label, lent_groups(groups), elements, element)
    }
}

impl Prints for Product {
    fn slip(&self, file: &[u8], out: &mut SlipSpace) -> usize {
        brundhal::slip(file, out)
    }
}

/// A number by its words.
fn number(x: i128) -> Number {
    let [low, high] = second::two_words(x).map(|word| word as u64);
    Number { low, high }
}

impl Reckons for Product {
    fn wide(&self, x: i64) -> i128 {
        Number::from(x).into()
    }

    fn single(&self, x: i128) -> Option<i64> {
        number(x).to_i64()
    }

    fn add(&self, x: i128, y: i128) -> i128 {
        number(x).wrapping_add(number(y)).into()
    }

    fn sub(&self, x: i128, y: i128) -> i128 {
        number(x).wrapping_sub(number(y)).into()
    }

    fn mul(&self, x: i128, y: i128) -> i128 {
        number(x).wrapping_mul(number(y)).into()
    }

    fn product(&self, x: i64, y: i64) -> i128 {
        Number::product(x, y).into()
    }

    fn twice(&self, x: i128) -> i128 {
        number(x).twice().into()
    }

    fn four_times(&self, x: i128) -> i128 {
        number(x).four_times().into()
    }

    fn compare(&self, x: i128, y: i128) -> Ordering {
        number(x).cmp(&number(y))
    }

    fn sign(&self, x: i128) -> Ordering {
        number(x).sign()
    }

    fn at_most(&self, x: i128, y: i128) -> bool {
        number(x).at_most(number(y))
    }
}

// ------------------------------------------------------ the second program --

/// The second program.
pub struct Second;

pub const SECOND: Program = Program {
    inspects: &Second,
    audits: &Second,
    stamps: &Second,
    moves: &Second,
    reads: &Second,
    writes: &Second,
    names: &Second,
    prints: &Second,
    reckons: &Second,
};

fn said((to, made): (second::Address, bool)) -> Move {
    [u32::from(made), to.level, to.a, to.b, to.c]
}

/// The second program's stamp, by the first one's name.
pub fn stamped(stamp: second::Stamp) -> Stamp {
    match stamp {
        second::Stamp::Sound => Stamp::Sound,
        second::Stamp::Faulty => Stamp::Faulty,
        second::Stamp::Open => Stamp::Open,
    }
}

fn cube([level, a, b, c]: Address) -> second::Address {
    second::Address { level, a, b, c }
}

/// The answer for a mesh of one element with this record.
fn answer_of_one(record: &Record) -> Answer {
    let mut answer = [0; 5];
    match record[0] {
        0 => answer[1] = 1,
        1 => answer[2] = 1,
        2 => answer[3] = 1,
        _ => answer[4] = 1,
    }
    answer
}

/// An answer laid at the front of lent space.
pub fn lay<T: Copy>(answer: &[T], space: &mut [T]) {
    space[..answer.len()].copy_from_slice(answer);
}

/// What is said of a lot file that is refused.
pub fn refused_lot(file: &[u8], number: u32) -> ReadLot<'_> {
    ReadLot { number, nodes: 0, elements: 0, groups: 0, names: 0, label: &file[..0] }
}

impl Inspects for Second {
    fn inspect(
        &self,
        coordinates: &[i32],
        indices: &[u32],
        depth: u32,
        report: &mut [i64],
    ) -> Answer {
        let answer = second::inspect(&Limits::base(), coordinates, indices, depth, report);
        [answer.number, answer.valid, answer.invalid, answer.undecided, answer.refused]
    }

    fn bounds(&self, points: &[i32; 24], depth: u32) -> Bounds {
        let answer = second::bounds(&Limits::base(), points, depth);
        (answer.number, answer.low, answer.high)
    }

    /// Each level looked at once, for all depths: to `bounds` for both, which to depth
    /// `second::EVERY_CUBE` is by every cube, and then for the records alone.
    fn over_depths(&self, points: &[i32; 24], depth: u32, bounds: u32) -> Vec<AtDepth> {
        let points = points.map(i64::from);
        let said = |record: Record, bounds: Option<second::Bounds>| AtDepth {
            answer: answer_of_one(&record),
            record,
            bounds: bounds.map(|(low, high)| (0, low, high)),
        };
        let both = second::over_depths(&points, bounds.min(depth));
        let mut seen: Vec<AtDepth> =
            both.into_iter().map(|(record, bounds)| said(record, Some(bounds))).collect();
        if depth > bounds {
            let deeper = second::records(&points, depth).into_iter().skip(seen.len());
            seen.extend(deeper.map(|record| said(record, None)));
        }
        seen
    }
}

impl Stamps for Second {
    fn stamp(&self, answer: Answer) -> Option<Stamp> {
        let [number, valid, invalid, undecided, refused] = answer;
        let answer = second::Inspection { number, valid, invalid, undecided, refused };
        second::stamp(&answer).map(stamped)
    }
}

impl Moves for Second {
    fn child(&self, address: Address, n: u32) -> Move {
        said(cube(address).child(n, &Limits::base()))
    }

    fn corner(&self, address: Address, n: u32) -> Move {
        said(cube(address).corner(n, &Limits::base()))
    }

    fn parent(&self, address: Address) -> Move {
        said(cube(address).parent(&Limits::base()))
    }
}

impl Reads for Second {
    fn read_lot<'a>(&self, file: &'a [u8], lent: Lent) -> ReadLot<'a> {
        let Lent { nodes, elements, names, lengths, offsets } = lent;
        let space = [nodes.len(), elements.len(), names.len(), lengths.len(), offsets.len()];
        let reading = match read_lot(file, space) {
            Ok(reading) => reading,
            Err(number) => return refused_lot(file, number),
        };
        let Lot { label, groups, .. } = &reading.lot;
        lay(&reading.lot.nodes, nodes);
        lay(&reading.lot.elements, elements);
        lay(&groups.names, names);
        lay(&groups.lengths, lengths);
        lay(&groups.offsets, offsets);
        ReadLot {
            number: 0,
            nodes: (reading.lot.nodes.len() / NODE_WORDS) as u32,
            elements: (reading.lot.elements.len() / ELEMENT_WORDS) as u32,
            groups: groups.lengths.len() as u32,
            names: groups.names.len() as u32,
            label: &file[reading.label_at..][..label.len()],
        }
    }
}

impl Writes for Second {
    fn write_lot(&self, lot: &Lot, out: &mut [u8]) -> Written {
        match write_lot(lot, out.len()) {
            Err(number) => Written { number, len: 0 },
            Ok(file) => {
                lay(&file, out);
                Written { number: 0, len: file.len() as u32 }
            }
        }
    }
}

impl Names for Second {
    fn name_of<'a>(
        &self,
        label: &'a [u8],
        groups: &'a Groups,
        elements: u32,
        element: u32,
    ) -> Result<Name<'a>, u32> {
        Ok(match groups.named(label, elements, element)? {
            Some(place) => Name::Group(&groups.names[place]),
            None => Name::Label(label),
        })
    }
}

impl Prints for Second {
    fn slip(&self, file: &[u8], out: &mut SlipSpace) -> usize {
        let slip = second::slip::slip(file);
        lay(&slip, out);
        slip.len()
    }
}

/// Rust's own numbers of 128 bits.
impl Reckons for Second {
    fn wide(&self, x: i64) -> i128 {
        x.into()
    }

    fn single(&self, x: i128) -> Option<i64> {
        x.try_into().ok()
    }

    fn add(&self, x: i128, y: i128) -> i128 {
        x.wrapping_add(y)
    }

    fn sub(&self, x: i128, y: i128) -> i128 {
        x.wrapping_sub(y)
    }

    fn mul(&self, x: i128, y: i128) -> i128 {
        x.wrapping_mul(y)
    }

    fn product(&self, x: i64, y: i64) -> i128 {
        i128::from(x) * i128::from(y)
    }

    fn twice(&self, x: i128) -> i128 {
        x.wrapping_mul(2)
    }

    fn four_times(&self, x: i128) -> i128 {
        x.wrapping_mul(4)
    }

    fn compare(&self, x: i128, y: i128) -> Ordering {
        x.cmp(&y)
    }

    fn sign(&self, x: i128) -> Ordering {
        x.cmp(&0)
    }

    fn at_most(&self, x: i128, y: i128) -> bool {
        x <= y
    }
}
