//! The mesh inspector for Rust callers: a safe wrapper over libbrundhal.a.
//!
//! The library decides, in whole numbers and without rounding, whether the
//! Jacobian determinant of trilinear hexahedra is positive; it reads and writes the
//! lot files in which meshes arrive, prints slips of them, and reckons with numbers
//! of two words.  Its code is proved against the definitions of documents 01 and 02;
//! this crate adds the declarations, and cuts a lot's label and an element's name out
//! of the caller's own bytes where the library says that they stand.  Nothing has to
//! be checked before a call: every argument is taken, and every answer is laid down
//! there.

#![deny(warnings)]
#![deny(unsafe_op_in_unsafe_fn)]

use std::fmt;

mod number;
#[cfg(test)]
mod tests;

pub use number::Number;

/// The version that this crate is written for, as the header's `BRUNDHAL_VERSION`.  A
/// library whose `version()` differs has other layouts, limits or answers.
pub const VERSION: u32 = 2;

/// 02: "Raise coordinates to -1,048,576..1,048,576 and depth to 8".
pub const MAX_COORDINATE: i32 = 1_048_576;
pub const MAX_DEPTH: u32 = 8;

/// 01: "at most 5,000 nodes", "at most 1,000 elements".
pub const MAX_NODES: usize = 5000;
pub const MAX_ELEMENTS: usize = 1000;

/// The most elements on a slip.  02: "a program holding a report keeps to 900 elements;
/// the slip answers 26 to a longer lot without fault."
pub const SLIP_ELEMENTS: usize = 900;

/// Words in a record, and report words an element.  02: "a record is nine words."
pub const RECORD_WORDS: usize = 9;

/// Where the words of a record stand.
pub mod word {
    pub const KIND: usize = 0;
    pub const LEVEL: usize = 1;
    pub const A: usize = 2;
    pub const B: usize = 3;
    pub const C: usize = 4;
    pub const NUMBER: usize = 5;
    pub const VALUE_LOW: usize = 6;
    pub const VALUE_HIGH: usize = 7;
    pub const OPENED: usize = 8;
}

/// The kind of a record, its first word; any other is the refusal 5, 6 or 7.
pub mod kind {
    pub const VALID: i64 = 0;
    pub const INVALID: i64 = 1;
    pub const UNDECIDED: i64 = 2;
}

/// The numbers of refusals: 1 to 4 of a mesh, 5 to 7 of an element, 20 to 28 of lots
/// and names.
pub mod refusal {
    /// The depth is above `MAX_DEPTH`.
    pub const DEPTH: u32 = 1;
    /// The coordinates are no multiple of three, or of more than `MAX_NODES` nodes.
    pub const NODES: u32 = 2;
    /// The indices are no multiple of eight, or of more than `MAX_ELEMENTS` elements.
    pub const ELEMENTS: u32 = 3;
    /// The report space is not exactly `RECORD_WORDS` words an element.
    pub const REPORT: u32 = 4;
    /// An index names no node.
    pub const INDEX: u32 = 5;
    /// A coordinate is past `MAX_COORDINATE`, on either side of 0.
    pub const COORDINATE: u32 = 6;
    /// An index stands in two places.
    pub const TWICE: u32 = 7;
    /// The file is longer than `LOT_BYTES`.
    pub const LONG_FILE: u32 = 20;
    /// The file ends inside a record.
    pub const CUT_SHORT: u32 = 21;
    /// The mark is unknown.
    pub const MARK: u32 = 22;
    /// The length is not one of the mark, or a label or name is too long.
    pub const LENGTH: u32 = 23;
    /// A record is out of place, or the groups do not fit together.
    pub const OUT_OF_PLACE: u32 = 24;
    /// A byte of a label or name is not in 32..126.
    pub const BYTE: u32 = 25;
    /// More than `MAX_ELEMENTS` elements, or for a slip more than `SLIP_ELEMENTS`.
    pub const TOO_MANY: u32 = 26;
    /// The lent space is too small.
    pub const SPACE: u32 = 27;
    /// There is no such element.
    pub const NO_ELEMENT: u32 = 28;
}

/// The longest lot file.  02: "one file of at most 65,536 bytes."
pub const LOT_BYTES: usize = 65_536;

/// Lent space in which every lot fits: 4,095 nodes are the most that a file
/// holds, three words each, and 1,000 elements are allowed, eight words each; a
/// file holds 16,382 groups at most, and 58,244 bytes of their names.
pub const LOT_NODE_WORDS: usize = 3 * 4095;
pub const LOT_ELEMENT_WORDS: usize = 8 * MAX_ELEMENTS;
pub const LOT_GROUPS: usize = 16_382;
pub const LOT_NAME_BYTES: usize = 58_244;

/// Lent space in which every slip fits.
pub const SLIP_BYTES: usize = 262_144;

/// The answer of an inspection.  01: "An accepted mesh answers 0 with four
/// counts: valid, invalid, undecided, refused."
#[repr(C)]
#[derive(Clone, Copy, Debug, Default, PartialEq, Eq)]
#[must_use]
pub struct Inspection {
    /// 0, or 1 to 4 for a mesh that is refused; the counts are then 0.
    pub number: u32,
    pub valid: u32,
    pub invalid: u32,
    pub undecided: u32,
    pub refused: u32,
}

/// The answer of the bounds service.
#[repr(C)]
#[derive(Clone, Copy, Debug, Default, PartialEq, Eq)]
#[must_use]
pub struct Bounds {
    /// 0, or 1 or 6 for points that are refused; both bounds are then 0.
    pub number: u32,
    /// The least coefficient of all cubes of the depth, times 8 * 64^depth.
    pub low: Number,
    /// The least J over all grid points of the depth, times 8 * 64^depth.
    pub high: Number,
}

/// A cube's address.  01: "its level and the grid numbers of its lowest
/// corner."
#[repr(C)]
#[derive(Clone, Copy, Debug, Default, PartialEq, Eq)]
pub struct Address {
    pub level: u32,
    pub a: u32,
    pub b: u32,
    pub c: u32,
}

/// Where a move of an address led.
#[derive(Clone, Copy, Debug, PartialEq, Eq)]
#[must_use]
pub enum Moved {
    To(Address),
    /// 01: "A move that can't be made [...] hands back the same address and
    /// says so."
    Not(Address),
}

/// The stamp of a lot.  02: ""sound" needs at least one element and every record
/// valid; "faulty" if any record is invalid or refused; otherwise "open"."
#[derive(Clone, Copy, Debug, PartialEq, Eq)]
pub enum Stamp {
    Sound,
    Faulty,
    Open,
}

impl fmt::Display for Stamp {
    fn fmt(&self, f: &mut fmt::Formatter) -> fmt::Result {
        f.write_str(match self {
            Stamp::Sound => "sound",
            Stamp::Faulty => "faulty",
            Stamp::Open => "open",
        })
    }
}

/// The groups of a lot.  01: "names laid end to end, with each one's length and
/// the count of elements before it".
#[derive(Clone, Copy, Debug, Default, PartialEq, Eq)]
pub struct Groups<'a> {
    pub names: &'a [u8],
    pub lengths: &'a [u32],
    pub offsets: &'a [u32],
}

/// Lent space for the groups of a lot.
#[derive(Debug, Default, PartialEq, Eq)]
pub struct GroupSpace<'a> {
    pub names: &'a mut [u8],
    pub lengths: &'a mut [u32],
    pub offsets: &'a mut [u32],
}

/// The answer of reading a lot file.
#[derive(Clone, Copy, Debug, PartialEq, Eq)]
#[must_use]
pub struct Lot<'a> {
    /// 0, or 20 to 27 for a lot that is refused; all counts are then 0 and the
    /// label is empty.
    pub number: u32,
    /// The numbers of nodes, of elements and of groups, and the bytes of all
    /// groups' names together.
    pub nodes: u32,
    pub elements: u32,
    pub groups: u32,
    pub names: u32,
    /// 02: "the label comes back as the bytes in the file themselves, not as a
    /// copy."
    pub label: &'a [u8],
}

/// The answer of writing a lot file.
#[repr(C)]
#[derive(Clone, Copy, Debug, Default, PartialEq, Eq)]
#[must_use]
pub struct Written {
    /// 0, or 2, 3, 20 or 23 to 27 for a lot that is refused.
    pub number: u32,
    /// The file's length; 0 for a lot that is refused.
    pub len: u32,
}

/// The name that an element bears: a part of the caller's own bytes.
#[derive(Clone, Copy, Debug, PartialEq, Eq)]
pub enum Name<'a> {
    /// Its group's, which is not empty.
    Group(&'a [u8]),
    /// 02: "a group with an empty name bears the lot's label, and so does an
    /// element before any GR."
    Label(&'a [u8]),
}

impl<'a> Name<'a> {
    #[must_use]
    pub fn bytes(self) -> &'a [u8] {
        match self {
            Name::Group(bytes) | Name::Label(bytes) => bytes,
        }
    }
}

/// What the library exports, as include/brundhal.h declares it.
mod raw {
    use super::{Address, Bounds, Inspection, Number, Written, SLIP_BYTES};

    #[repr(C)]
    pub struct Move {
        pub made: u32,
        pub level: u32,
        pub a: u32,
        pub b: u32,
        pub c: u32,
    }

    #[repr(C)]
    pub struct Lot {
        pub number: u32,
        pub nodes: u32,
        pub elements: u32,
        pub groups: u32,
        pub names: u32,
        pub start: u32,
        pub len: u32,
    }

    #[repr(C)]
    pub struct Name {
        pub number: u32,
        pub grouped: u32,
        pub start: usize,
        pub len: usize,
    }

    #[repr(C)]
    pub struct Single {
        pub fits: u32,
        pub value: i64,
    }

    /// `brundhal_inspect` or `brundhal_audit`.
    pub type Inspector = unsafe extern "C" fn(
        coordinates: *const i32,
        coordinates_len: usize,
        indices: *const u32,
        indices_len: usize,
        depth: u32,
        report: *mut i64,
        report_len: usize,
    ) -> Inspection;

    extern "C" {
        pub fn brundhal_version() -> u32;
        pub fn brundhal_inspect(
            coordinates: *const i32,
            coordinates_len: usize,
            indices: *const u32,
            indices_len: usize,
            depth: u32,
            report: *mut i64,
            report_len: usize,
        ) -> Inspection;
        pub fn brundhal_audit(
            coordinates: *const i32,
            coordinates_len: usize,
            indices: *const u32,
            indices_len: usize,
            depth: u32,
            report: *mut i64,
            report_len: usize,
        ) -> Inspection;
        pub fn brundhal_bounds(points: *const i32, depth: u32) -> Bounds;
        pub fn brundhal_audit_bounds(points: *const i32, depth: u32) -> Bounds;
        pub fn brundhal_stamp(answer: Inspection) -> u32;
        pub fn brundhal_child(q: Address, n: u32) -> Move;
        pub fn brundhal_corner(q: Address, n: u32) -> Move;
        pub fn brundhal_parent(q: Address) -> Move;
        pub fn brundhal_read_lot(
            file: *const u8,
            file_len: usize,
            nodes: *mut i32,
            nodes_len: usize,
            elements: *mut u32,
            elements_len: usize,
            names: *mut u8,
            names_len: usize,
            lengths: *mut u32,
            lengths_len: usize,
            offsets: *mut u32,
            offsets_len: usize,
        ) -> Lot;
        pub fn brundhal_write_lot(
            label: *const u8,
            label_len: usize,
            nodes: *const i32,
            nodes_len: usize,
            elements: *const u32,
            elements_len: usize,
            names: *const u8,
            names_len: usize,
            lengths: *const u32,
            lengths_len: usize,
            offsets: *const u32,
            offsets_len: usize,
            out: *mut u8,
            out_len: usize,
        ) -> Written;
        pub fn brundhal_name(
            label: *const u8,
            label_len: usize,
            names: *const u8,
            names_len: usize,
            lengths: *const u32,
            lengths_len: usize,
            offsets: *const u32,
            offsets_len: usize,
            elements: u32,
            element: u32,
        ) -> Name;
        pub fn brundhal_slip(file: *const u8, file_len: usize, out: *mut [u8; SLIP_BYTES])
            -> usize;
        pub fn brundhal_number_from_i64(x: i64) -> Number;
        pub fn brundhal_number_to_i64(x: Number) -> Single;
        pub fn brundhal_number_add(x: Number, y: Number) -> Number;
        pub fn brundhal_number_sub(x: Number, y: Number) -> Number;
        pub fn brundhal_number_mul(x: Number, y: Number) -> Number;
        pub fn brundhal_number_product(x: i64, y: i64) -> Number;
        pub fn brundhal_number_twice(x: Number) -> Number;
        pub fn brundhal_number_four_times(x: Number) -> Number;
        pub fn brundhal_number_compare(x: Number, y: Number) -> i32;
        pub fn brundhal_number_sign(x: Number) -> i32;
        pub fn brundhal_number_at_most(x: Number, y: Number) -> u32;
    }
}

/// A library before version 2, whose layouts are others, does not have the function:
/// so no program links with it.
#[used]
static LINKED: unsafe extern "C" fn() -> u32 = raw::brundhal_version;

/// The version of the library that is linked; all else here is right only where it is
/// `VERSION`.
#[must_use]
pub fn version() -> u32 {
    // A number out.
    unsafe { raw::brundhal_version() }
}

/// Inspects a mesh: three coordinates a node, eight indices an element, a
/// depth, and report space of `RECORD_WORDS` words an element.
///
/// An accepted mesh has every word of the report written; a refused one has
/// none.
pub fn inspect(coordinates: &[i32], indices: &[u32], depth: u32, report: &mut [i64]) -> Inspection {
    inspect_by(raw::brundhal_inspect, coordinates, indices, depth, report)
}

/// Inspects a mesh by the auditor, a second inspector with its own cut, search and
/// bounds, so that anyone can run the two beside each other.  It takes what `inspect`
/// takes and gives the same, every word of the answer and of the report; it is slower.
pub fn audit(coordinates: &[i32], indices: &[u32], depth: u32, report: &mut [i64]) -> Inspection {
    inspect_by(raw::brundhal_audit, coordinates, indices, depth, report)
}

/// By one of the library's two inspectors.
fn inspect_by(
    inspector: raw::Inspector,
    coordinates: &[i32],
    indices: &[u32],
    depth: u32,
    report: &mut [i64],
) -> Inspection {
    // Three slices that are borrowed for the call, with their own lengths: the
    // library reads the first two and writes the third, each inside its length.
    unsafe {
        inspector(
            coordinates.as_ptr(),
            coordinates.len(),
            indices.as_ptr(),
            indices.len(),
            depth,
            report.as_mut_ptr(),
            report.len(),
        )
    }
}

/// The value of a record, times 8 * 64^level: J of an invalid one's point, the
/// coefficient of an undecided one; else 0.
#[must_use]
pub fn record_value(record: &[i64; RECORD_WORDS]) -> Number {
    Number::from_words(record[word::VALUE_LOW], record[word::VALUE_HIGH])
}

/// The low and the high bound of eight points, x, y, z of each, at a depth.  All 8^depth
/// cubes of the depth are gone through; at depth 8 that takes time.
pub fn bounds(points: &[i32; 24], depth: u32) -> Bounds {
    // 24 coordinates, borrowed for the call and only read.
    unsafe { raw::brundhal_bounds(points.as_ptr(), depth) }
}

/// The auditor's bounds: the same as those of `bounds`, found in its own way.
pub fn audit_bounds(points: &[i32; 24], depth: u32) -> Bounds {
    // 24 coordinates, as in `bounds`.
    unsafe { raw::brundhal_audit_bounds(points.as_ptr(), depth) }
}

/// The stamp of an inspection's answer; a refused mesh has none.
#[must_use]
pub fn stamp(answer: Inspection) -> Option<Stamp> {
    // Numbers in, a number out.
    match unsafe { raw::brundhal_stamp(answer) } {
        0 => Some(Stamp::Sound),
        1 => Some(Stamp::Faulty),
        2 => Some(Stamp::Open),
        3 => None,
        other => unreachable!("the library's stamp is 0 to 3, not {other}"),
    }
}

/// Reads a lot file into lent space: three words a node, eight an element, both
/// ready for `inspect`; and its groups, ready for `name_of` and `write_lot`.
///
/// An accepted lot has its nodes, elements and groups written from the front, and
/// the space past them untouched; a refused one has nothing written.
pub fn read_lot<'a>(
    file: &'a [u8],
    nodes: &mut [i32],
    elements: &mut [u32],
    groups: GroupSpace,
) -> Lot<'a> {
    // Slices that are borrowed for the call, with their own lengths: the library
    // reads the first and writes the other five, each inside its length.
    let raw::Lot { number, nodes, elements, groups, names, start, len } = unsafe {
        raw::brundhal_read_lot(
            file.as_ptr(),
            file.len(),
            nodes.as_mut_ptr(),
            nodes.len(),
            elements.as_mut_ptr(),
            elements.len(),
            groups.names.as_mut_ptr(),
            groups.names.len(),
            groups.lengths.as_mut_ptr(),
            groups.lengths.len(),
            groups.offsets.as_mut_ptr(),
            groups.offsets.len(),
        )
    };
    let label = &file[start as usize..][..len as usize];
    Lot { number, nodes, elements, groups, names, label }
}

/// Writes a lot file into lent space: a label, three words a node, eight an
/// element, and groups.
///
/// An accepted lot has its file written from the front, and the space past it
/// untouched; a refused one has nothing written.
pub fn write_lot(
    label: &[u8],
    nodes: &[i32],
    elements: &[u32],
    groups: Groups,
    out: &mut [u8],
) -> Written {
    // Slices that are borrowed for the call, with their own lengths: the library
    // reads the first six and writes the last, inside its length.
    unsafe {
        raw::brundhal_write_lot(
            label.as_ptr(),
            label.len(),
            nodes.as_ptr(),
            nodes.len(),
            elements.as_ptr(),
            elements.len(),
            groups.names.as_ptr(),
            groups.names.len(),
            groups.lengths.as_ptr(),
            groups.lengths.len(),
            groups.offsets.as_ptr(),
            groups.offsets.len(),
            out.as_mut_ptr(),
            out.len(),
        )
    }
}

/// The name that an element, counted from 0, bears in a lot with this label, these
/// groups and this many elements; or the number of the refusal: 24 for groups that
/// do not fit together, 23 for a label or name that is too long, 25 for a wrong byte
/// in them, 28 if there is no such element.
pub fn name_of<'a>(
    label: &'a [u8],
    groups: Groups<'a>,
    elements: u32,
    element: u32,
) -> Result<Name<'a>, u32> {
    // Slices that are borrowed for the call, with their own lengths, and only read.
    let raw::Name { number, grouped, start, len } = unsafe {
        raw::brundhal_name(
            label.as_ptr(),
            label.len(),
            groups.names.as_ptr(),
            groups.names.len(),
            groups.lengths.as_ptr(),
            groups.lengths.len(),
            groups.offsets.as_ptr(),
            groups.offsets.len(),
            elements,
            element,
        )
    };
    match (number, grouped) {
        (0, 0) => Ok(Name::Label(&label[start..][..len])),
        (0, 1) => Ok(Name::Group(&groups.names[start..][..len])),
        (0, other) => unreachable!("the library's name says 0 or 1, not {other}"),
        (number, _) => Err(number),
    }
}

/// Prints the slip of a lot file to the front of lent space, and answers its
/// length; the space past it is untouched.  The call needs about 340 KiB of stack.
#[must_use]
pub fn slip(file: &[u8], out: &mut [u8; SLIP_BYTES]) -> usize {
    // A slice with its own length, borrowed for the call and only read, and
    // `SLIP_BYTES` bytes that are written.
    unsafe { raw::brundhal_slip(file.as_ptr(), file.len(), out) }
}

impl Address {
    /// The whole: level 0.
    pub const WHOLE: Address = Address { level: 0, a: 0, b: 0, c: 0 };

    /// To child `n`, 1 to 8.
    pub fn child(self, n: u32) -> Moved {
        // Numbers in, numbers out; so in the two moves below.
        Moved::from(unsafe { raw::brundhal_child(self, n) })
    }

    /// To corner `n`, 1 to 8: the level stays.
    pub fn corner(self, n: u32) -> Moved {
        Moved::from(unsafe { raw::brundhal_corner(self, n) })
    }

    /// To the parent.
    pub fn parent(self) -> Moved {
        Moved::from(unsafe { raw::brundhal_parent(self) })
    }
}

impl From<raw::Move> for Moved {
    fn from(answer: raw::Move) -> Moved {
        let raw::Move { made, level, a, b, c } = answer;
        let address = Address { level, a, b, c };
        match made {
            0 => Moved::Not(address),
            1 => Moved::To(address),
            other => unreachable!("the library's move says 0 or 1, not {other}"),
        }
    }
}
