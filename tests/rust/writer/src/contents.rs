//! The bytes of cells, made on purpose: with zero bytes at every place that
//! matters to a reader who looks for the first of them, and with none.

use crate::buckets::{Patch, Subject};
use crate::cells;
use crate::rng::Rng;
use crate::standard::StandardFile;
use crate::table::BOOL;

/// What a cell holds.
#[derive(Clone, Copy, Debug, PartialEq, Eq)]
pub enum Kind {
    /// A text to the last byte.
    Full,
    /// The same of bytes above 0x7f.
    FullHigh,
    /// The same of the lowest and highest bytes but zero.
    FullOdd,
    /// A text, and one zero byte behind it.
    OneZero,
    /// A text, and zeros from the middle on.
    Padded,
    /// The same of bytes above 0x7f.
    PaddedHigh,
    /// A text that ends with spaces, and zeros.
    PaddedSpaces,
    /// One byte, and zeros.
    OneByte,
    /// Zeros alone.
    Empty,
    /// A zero, and a text behind it to the last byte.
    ZeroFirst,
    /// A zero, a text behind it, and zeros again.
    ZeroFirstPadded,
    /// A text, a zero in the middle, and a text to the last byte.
    ZeroInside,
    /// A text, a zero in the middle, a text, and zeros again.
    ZeroInsidePadded,
    /// A text, a zero, one byte, and one zero at the last place.
    ZeroTwice,
}

pub const KINDS: [Kind; 14] = [
    Kind::Full,
    Kind::FullHigh,
    Kind::FullOdd,
    Kind::OneZero,
    Kind::Padded,
    Kind::PaddedHigh,
    Kind::PaddedSpaces,
    Kind::OneByte,
    Kind::Empty,
    Kind::ZeroFirst,
    Kind::ZeroFirstPadded,
    Kind::ZeroInside,
    Kind::ZeroInsidePadded,
    Kind::ZeroTwice,
];

/// The bytes of a cell.
#[derive(Clone, Debug, PartialEq, Eq)]
pub struct Content {
    pub bytes: Vec<u8>,
    /// How many of them were written before the first zero byte.
    pub text: usize,
}

impl Content {
    /// So many bytes of this kind; shorter ones where there is no room. Letters
    /// begin at one that the seed says.
    pub fn new(kind: Kind, size: usize, seed: usize) -> Self {
        let letters = |from: usize, count: usize| -> Vec<u8> {
            (from..from + count).map(|index| b'A' + ((seed + index) % 26) as u8).collect()
        };
        let high = |count: usize| -> Vec<u8> {
            (0..count).map(|index| 0x80 + ((seed + index) % 128) as u8).collect()
        };
        let odd = |count: usize| -> Vec<u8> {
            (0..count).map(|index| [0x01, 0xFF, 0x7F, 0x80][(seed + index) % 4]).collect()
        };
        let half = size / 2;
        let third = size / 3;
        let spaces = |count: usize| -> Vec<u8> {
            letters(0, count.div_ceil(2)).into_iter().chain(vec![b' '; count / 2]).collect()
        };
        // A text without a zero byte, and what stands behind the first one.
        let (text, behind) = match kind {
            Kind::Full => (letters(0, size), Vec::new()),
            Kind::FullHigh => (high(size), Vec::new()),
            Kind::FullOdd => (odd(size), Vec::new()),
            Kind::OneZero => (letters(0, size - 1), Vec::new()),
            Kind::Padded => (letters(0, half), Vec::new()),
            Kind::PaddedHigh => (high(half), Vec::new()),
            Kind::PaddedSpaces => (spaces(half), Vec::new()),
            Kind::OneByte => (letters(0, 1.min(size - 1)), Vec::new()),
            Kind::Empty => (Vec::new(), Vec::new()),
            Kind::ZeroFirst => (Vec::new(), letters(1, size - 1)),
            Kind::ZeroFirstPadded => (Vec::new(), letters(1, half)),
            Kind::ZeroInside => (letters(0, half), letters(half, size)),
            Kind::ZeroInsidePadded => (letters(0, third), letters(third, third)),
            Kind::ZeroTwice => (letters(0, size.saturating_sub(3)), letters(size, 1)),
        };
        let mut bytes = text.clone();
        if bytes.len() < size {
            bytes.push(0);
            bytes.extend(behind);
            bytes.resize(size, 0);
        }
        Self { bytes, text: text.len() }
    }
}

/// Writes all cells of the manager's columns; those of Bools, some of which share
/// a byte, stay as they are. The content of a cell depends on its column's
/// position and its row.
pub fn put(subject: &mut Subject<StandardFile>, mut content: impl FnMut(usize, u64) -> Content) {
    let mut patches = Vec::new();
    for position in subject.own_columns() {
        let column = &subject.table.columns()[position];
        let Some(index) = subject.file.indices.get(column.info.set as usize) else {
            continue;
        };
        if column.data_type == BOOL.number {
            continue;
        }
        let mut row = 0;
        for (last, bucket) in index.last_rows.elements.iter().zip(&index.buckets.elements) {
            let mut bytes = Vec::new();
            while row <= *last {
                let content = content(position, row);
                assert_eq!(8 * content.bytes.len() as u64, cells::bits(column));
                bytes.extend(content.bytes);
                row += 1;
            }
            let (bucket, offset) = (*bucket, column.info.offset as usize);
            patches.push(Patch { bucket, offset, bytes });
        }
    }
    subject.file.buckets.cells = patches;
}

/// Writes cells of all kinds.
pub fn put_some(rng: &mut Rng, subject: &mut Subject<StandardFile>) {
    let columns = subject.table.columns().iter();
    let sizes: Vec<usize> = columns.map(|column| cells::bits(column) as usize / 8).collect();
    put(subject, |position, _| Content::new(rng.pick(&KINDS), sizes[position], rng.below(200)));
}

#[cfg(test)]
mod tests {
    use super::*;

    #[test]
    fn contents_by_hand() {
        let of = |kind, size| {
            let Content { bytes, text } = Content::new(kind, size, 0);
            (bytes, text)
        };
        let expected: [(Kind, &[u8], usize); 14] = [
            (Kind::Full, b"ABCDEFGH", 8),
            (Kind::FullHigh, b"\x80\x81\x82\x83\x84\x85\x86\x87", 8),
            (Kind::FullOdd, b"\x01\xFF\x7F\x80\x01\xFF\x7F\x80", 8),
            (Kind::OneZero, b"ABCDEFG\0", 7),
            (Kind::Padded, b"ABCD\0\0\0\0", 4),
            (Kind::PaddedHigh, b"\x80\x81\x82\x83\0\0\0\0", 4),
            (Kind::PaddedSpaces, b"AB  \0\0\0\0", 4),
            (Kind::OneByte, b"A\0\0\0\0\0\0\0", 1),
            (Kind::Empty, b"\0\0\0\0\0\0\0\0", 0),
            (Kind::ZeroFirst, b"\0BCDEFGH", 0),
            (Kind::ZeroFirstPadded, b"\0BCDE\0\0\0", 0),
            (Kind::ZeroInside, b"ABCD\0EFG", 4),
            (Kind::ZeroInsidePadded, b"AB\0CD\0\0\0", 2),
            (Kind::ZeroTwice, b"ABCDE\0I\0", 5),
        ];
        for (kind, bytes, text) in expected {
            assert_eq!(of(kind, 8), (bytes.to_vec(), text), "{kind:?}");
        }
        for kind in KINDS {
            let is_full = [Kind::Full, Kind::FullHigh, Kind::FullOdd].contains(&kind);
            let (bytes, text) = of(kind, 1);
            assert_eq!((bytes == [0], text), (!is_full, is_full.into()), "{kind:?}");
            for size in [2, 3, 12] {
                assert_eq!(of(kind, size).0.len(), size, "{kind:?}");
            }
        }
    }
}
