//! Refusals: the numbers of RULES.md 8.1, and the byte that each carries.

use std::fmt;

/// Why a question is refused, and where.
#[derive(Clone, Copy, Debug, PartialEq, Eq)]
pub struct Refusal {
    pub number: u8,
    /// Where the blamed field begins, in its file or in the index text. 0 where
    /// no field is blamed; a field may begin there too.
    pub byte: u64,
}

impl Refusal {
    /// Blames the field that begins at this byte.
    pub const fn at(number: u8, byte: usize) -> Self {
        Self { number, byte: byte as u64 }
    }

    const fn of_no_field(number: u8) -> Self {
        Self::at(number, 0)
    }
}

/// As request lines and the listing program have it.
impl fmt::Display for Refusal {
    fn fmt(&self, out: &mut fmt::Formatter<'_>) -> fmt::Result {
        write!(out, "refused {} {}", self.number, self.byte)
    }
}

// The numbers of refusals that blame a field.

/// The bytes, or the enclosing object, end before the field or object does;
/// or the file is shorter than its buckets.
pub const ENDS_EARLY: u8 = 1;
/// The mark or an object or table type name is not the expected one.
pub const WRONG_NAME: u8 = 2;
/// A version is not a listed one.
pub const WRONG_VERSION: u8 = 3;
/// A number or string length is outside its range.
pub const OUT_OF_RANGE: u8 = 4;
/// A column type string, data type number, options, dimensionality, shape,
/// Bool byte or endianness value does not fit.
pub const DOES_NOT_FIT: u8 = 5;
/// Two stated facts disagree.
pub const DISAGREES: u8 = 6;
/// An object, DMInfo or index text has a length other than its fields use.
pub const WRONG_LENGTH: u8 = 7;

// The others.

/// There is no such column or manager, or it is not of the asked kind.
pub const NO_SUCH: Refusal = Refusal::of_no_field(8);
/// The row is not below the row count.
pub const NO_ROW: Refusal = Refusal::of_no_field(9);
/// A bucket chain is wrong.
pub const WRONG_CHAIN: Refusal = Refusal::of_no_field(10);
/// The map of rows, buckets and extents is wrong.
pub const WRONG_MAP: Refusal = Refusal::of_no_field(11);
/// The plan is not the one that the files give.
pub const STALE_PLAN: Refusal = Refusal::of_no_field(12);
/// The lent index room is shorter than the index length.
pub const SHORT_ROOM: Refusal = Refusal::of_no_field(13);
/// The view of a Bool column in StandardStMan.
pub const BOOL_VIEW: Refusal = Refusal::of_no_field(14);
/// A record is held deeper than eight.
pub const TOO_DEEP: Refusal = Refusal::of_no_field(15);
/// There is no such keyword, or the path to it is none.
pub const NO_KEYWORD: Refusal = Refusal::of_no_field(16);
