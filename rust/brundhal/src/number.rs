//! Numbers of two words, and their services.

use crate::raw;
use std::cmp::Ordering;
use std::fmt;

/// A signed number of two words, as two's complement: from -2^127 to 2^127 - 1.  02:
/// "low 64 bits and then high".
///
/// Sums, differences and products are modulo 2^128.  They are the whole numbers
/// themselves wherever those are in that range; and of several of them in a row only
/// the last has to be.
#[repr(C)]
#[derive(Clone, Copy, Debug, Default, PartialEq, Eq, Hash)]
pub struct Number {
    pub low: u64,
    pub high: u64,
}

/// The library's order, -1, 0 or 1.
fn ordering(number: i32) -> Ordering {
    match number {
        -1 => Ordering::Less,
        0 => Ordering::Equal,
        1 => Ordering::Greater,
        other => unreachable!("the library's order is -1 to 1, not {other}"),
    }
}

// Every call of the library below: numbers in, numbers out.
impl Number {
    /// The number of a low word and a high one, as a record has them.
    #[must_use]
    pub fn from_words(low: i64, high: i64) -> Number {
        Number { low: low as u64, high: high as u64 }
    }

    /// The number in one word, if that holds it.
    #[must_use]
    pub fn to_i64(self) -> Option<i64> {
        let raw::Single { fits, value } = unsafe { raw::brundhal_number_to_i64(self) };
        match fits {
            0 => None,
            1 => Some(value),
            other => unreachable!("the library says 0 or 1, not {other}"),
        }
    }

    #[must_use]
    pub fn wrapping_add(self, y: Number) -> Number {
        unsafe { raw::brundhal_number_add(self, y) }
    }

    #[must_use]
    pub fn wrapping_sub(self, y: Number) -> Number {
        unsafe { raw::brundhal_number_sub(self, y) }
    }

    #[must_use]
    pub fn wrapping_mul(self, y: Number) -> Number {
        unsafe { raw::brundhal_number_mul(self, y) }
    }

    /// The whole product of two numbers of one word: it is always in range.
    #[must_use]
    pub fn product(x: i64, y: i64) -> Number {
        unsafe { raw::brundhal_number_product(x, y) }
    }

    /// Twice the number, modulo 2^128.
    #[must_use]
    pub fn twice(self) -> Number {
        unsafe { raw::brundhal_number_twice(self) }
    }

    /// Four times the number, modulo 2^128.
    #[must_use]
    pub fn four_times(self) -> Number {
        unsafe { raw::brundhal_number_four_times(self) }
    }

    /// The order of the number and 0.
    #[must_use]
    pub fn sign(self) -> Ordering {
        ordering(unsafe { raw::brundhal_number_sign(self) })
    }

    /// Whether the number is at most another.
    #[must_use]
    pub fn at_most(self, y: Number) -> bool {
        match unsafe { raw::brundhal_number_at_most(self, y) } {
            0 => false,
            1 => true,
            other => unreachable!("the library says 0 or 1, not {other}"),
        }
    }
}

/// By the library's order.
impl Ord for Number {
    fn cmp(&self, y: &Number) -> Ordering {
        ordering(unsafe { raw::brundhal_number_compare(*self, *y) })
    }
}

impl PartialOrd for Number {
    fn partial_cmp(&self, y: &Number) -> Option<Ordering> {
        Some(self.cmp(y))
    }
}

impl From<i64> for Number {
    fn from(x: i64) -> Number {
        unsafe { raw::brundhal_number_from_i64(x) }
    }
}

/// The same 128 bits, and so back.
impl From<i128> for Number {
    fn from(x: i128) -> Number {
        Number { low: x as u64, high: (x >> 64) as u64 }
    }
}

impl From<Number> for i128 {
    fn from(x: Number) -> i128 {
        (u128::from(x.high) << 64 | u128::from(x.low)) as i128
    }
}

/// As the whole number that it is.
impl fmt::Display for Number {
    fn fmt(&self, f: &mut fmt::Formatter) -> fmt::Result {
        i128::from(*self).fmt(f)
    }
}
