//! Lent space between fences, filled with a pattern before it is lent.

use crate::program::PATTERN;

/// Words on both sides of lent space that must stay as they were.
pub const FENCE: usize = 8;

/// What lies at each place before a call: different from place to place, so that a
/// word moved from elsewhere shows too.
pub trait Pattern: Copy + PartialEq + Into<i64> {
    fn at(place: usize) -> Self;
}

impl Pattern for i64 {
    fn at(place: usize) -> i64 {
        PATTERN ^ ((place as i64) << 8)
    }
}

impl Pattern for i32 {
    fn at(place: usize) -> i32 {
        i64::at(place) as i32
    }
}

impl Pattern for u32 {
    fn at(place: usize) -> u32 {
        i64::at(place) as u32
    }
}

/// No byte of a name or of a slip.
impl Pattern for u8 {
    fn at(place: usize) -> u8 {
        0x80 | (place as u8).wrapping_mul(37)
    }
}

/// A run of lent space with its fences.
#[derive(Clone)]
pub struct Fenced<T>(Vec<T>);

impl<T: Pattern> Fenced<T> {
    pub fn new(words: usize) -> Fenced<T> {
        Fenced((0..words + 2 * FENCE).map(T::at).collect())
    }

    /// What is lent.
    pub fn lent(&mut self) -> &mut [T] {
        let end = self.0.len() - FENCE;
        &mut self.0[FENCE..end]
    }

    /// What was lent.
    pub fn inner(&self) -> &[T] {
        &self.0[FENCE..self.0.len() - FENCE]
    }

    /// The lent space and its fences.
    pub fn whole(&self) -> &[T] {
        &self.0
    }
}
