//! The byte order of numbers: RULES.md 3 to 6.

/// The order in which the bytes of a number are stored.
#[derive(Clone, Copy, Debug, PartialEq, Eq)]
pub enum ByteOrder {
    Big,
    Little,
}

impl ByteOrder {
    /// As a file's header states it.
    pub fn of(is_big: bool) -> Self {
        if is_big { Self::Big } else { Self::Little }
    }

    pub fn is_big(self) -> bool {
        self == Self::Big
    }

    /// The number that these bytes store; an Int has the same bits.
    #[inline]
    pub fn uint(self, stored: [u8; 4]) -> u32 {
        match self {
            Self::Big => u32::from_be_bytes(stored),
            Self::Little => u32::from_le_bytes(stored),
        }
    }

    pub fn int64(self, stored: [u8; 8]) -> i64 {
        match self {
            Self::Big => i64::from_be_bytes(stored),
            Self::Little => i64::from_le_bytes(stored),
        }
    }
}

/// How a number is stored; versions tell it of row numbers.
#[derive(Clone, Copy, Debug, PartialEq, Eq)]
pub enum Width {
    UInt,
    Int64,
}

impl Width {
    /// Of the rows of an SSMIndex or ISMIndex of version 1 or 2.
    pub fn of_rows(version: u32) -> Self {
        if version == 1 { Self::UInt } else { Self::Int64 }
    }

    pub fn bytes(self) -> usize {
        match self {
            Self::UInt => 4,
            Self::Int64 => 8,
        }
    }
}

/// A run of numbers of one width, as they are stored; none is negative.
#[derive(Clone, Copy, Debug)]
pub struct Numbers<'a> {
    stored: &'a [u8],
    width: Width,
    order: ByteOrder,
}

impl<'a> Numbers<'a> {
    /// Of bytes that are a multiple of the width.
    pub fn new(stored: &'a [u8], width: Width, order: ByteOrder) -> Self {
        Self { stored, width, order }
    }

    pub fn count(&self) -> usize {
        self.stored.len() / self.width.bytes()
    }

    pub fn at(&self, index: usize) -> u64 {
        let stored = &self.stored[index * self.width.bytes()..];
        match self.width {
            Width::UInt => self.order.uint(first(stored)).into(),
            Width::Int64 => self.order.int64(first(stored)) as u64,
        }
    }

    pub fn iter(self) -> impl Iterator<Item = u64> + use<'a> {
        (0..self.count()).map(move |index| self.at(index))
    }

    /// How many numbers there are before the first for which `is_before` does
    /// not hold; after it there is none for which it does.
    pub fn partition_point(&self, is_before: impl Fn(u64) -> bool) -> usize {
        let (mut start, mut end) = (0, self.count());
        while start < end {
            let middle = start.midpoint(end);
            match is_before(self.at(middle)) {
                true => start = middle + 1,
                false => end = middle,
            }
        }
        start
    }
}

/// The first bytes, of which there are enough.
fn first<const N: usize>(bytes: &[u8]) -> [u8; N] {
    *bytes.first_chunk().expect("the number is there")
}
