//! Reading AipsIO: RULES.md 3, and Note 260, section 2.
//!
//! Each function reads one field and refuses with that field's lowest number,
//! at the byte at which the field begins. The reader alone knows the byte order
//! of the numbers that it reads.

use crate::byte_order::{ByteOrder, Numbers, Width};
use crate::refusal::{
    DISAGREES, DOES_NOT_FIT, ENDS_EARLY, OUT_OF_RANGE, Refusal, WRONG_LENGTH, WRONG_NAME,
    WRONG_VERSION,
};
use std::ops::{Range, RangeInclusive};

/// The longest string that is not a column name.
const MAX_STRING: usize = 4096;

/// The mark before an outermost object, alike in both byte orders.
const MARK: [u8; 4] = [0xBE; 4];

/// Reads the fields of a file, or of an object in it.
///
/// Its small functions are inlined: results that have room for a refusal's byte
/// are slow to hand on.
#[derive(Clone, Debug)]
pub struct Reader<'a> {
    /// What is still to be read, up to the container's end.
    rest: &'a [u8],
    /// Where that begins in the file or in the index text.
    at: usize,
    /// Where the header begins of the object that is read, if one is.
    header: usize,
    order: ByteOrder,
}

impl<'a> Reader<'a> {
    /// Reads these bytes from a place on, their numbers in this order.
    pub fn new(bytes: &'a [u8], at: usize, order: ByteOrder) -> Self {
        Self { rest: &bytes[at..], at, header: at, order }
    }

    /// Where the next field begins.
    pub fn at(&self) -> usize {
        self.at
    }

    /// The same without so many bytes, if there are so many.
    pub fn after(self, count: usize) -> Option<Self> {
        Some(Self { rest: self.rest.get(count..)?, at: self.at + count, ..self })
    }

    /// The next bytes of the field that begins at `field`.
    #[inline]
    fn take(&mut self, count: usize, field: usize) -> Result<&'a [u8], Refusal> {
        let (bytes, rest) =
            self.rest.split_at_checked(count).ok_or(Refusal::at(ENDS_EARLY, field))?;
        self.rest = rest;
        self.at += count;
        Ok(bytes)
    }

    /// A field of so many bytes.
    pub fn bytes(&mut self, count: usize) -> Result<&'a [u8], Refusal> {
        self.take(count, self.at)
    }

    #[inline]
    pub fn array<const N: usize>(&mut self) -> Result<[u8; N], Refusal> {
        let (field, rest) =
            self.rest.split_first_chunk().ok_or(Refusal::at(ENDS_EARLY, self.at))?;
        self.rest = rest;
        self.at += N;
        Ok(*field)
    }

    /// So many fields of one width; the first that does not fit is blamed.
    pub fn run(&mut self, count: usize, width: usize) -> Result<&'a [u8], Refusal> {
        let fitting = self.rest.len() / width;
        if fitting < count {
            return Err(Refusal::at(ENDS_EARLY, self.at + fitting * width));
        }
        self.bytes(count * width)
    }

    /// What a field stands for; if it is there and stands for nothing, it is
    /// refused with `number`.
    #[inline]
    pub fn meaning<T, U>(
        &mut self,
        read: impl FnOnce(&mut Self) -> Result<T, Refusal>,
        number: u8,
        meaning: impl FnOnce(T) -> Option<U>,
    ) -> Result<U, Refusal> {
        let field = self.at;
        meaning(read(self)?).ok_or(Refusal::at(number, field))
    }

    /// A field that is refused with `number` if it is there and does not fit.
    #[inline]
    pub fn judged<T>(
        &mut self,
        read: impl FnOnce(&mut Self) -> Result<T, Refusal>,
        number: u8,
        fits: impl FnOnce(&T) -> bool,
    ) -> Result<T, Refusal> {
        self.meaning(read, number, |value| fits(&value).then_some(value))
    }

    #[inline]
    pub fn uint(&mut self) -> Result<u32, Refusal> {
        let stored = self.array()?;
        Ok(self.order.uint(stored))
    }

    #[inline]
    pub fn uint_within(&mut self, range: RangeInclusive<u32>) -> Result<u32, Refusal> {
        self.judged(Self::uint, OUT_OF_RANGE, |value| range.contains(value))
    }

    /// A uInt of at most `most`.
    pub fn uint_up_to(&mut self, most: u32) -> Result<u32, Refusal> {
        self.uint_within(0..=most)
    }

    /// A uInt count of 1 to `most`.
    pub fn count(&mut self, most: u32) -> Result<usize, Refusal> {
        Ok(self.uint_within(1..=most)? as usize)
    }

    pub fn int(&mut self) -> Result<i32, Refusal> {
        Ok(self.uint()? as i32)
    }

    pub fn int64(&mut self) -> Result<i64, Refusal> {
        let stored = self.array()?;
        Ok(self.order.int64(stored))
    }

    /// A number of this width.
    #[inline]
    pub fn number(&mut self, width: Width) -> Result<i64, Refusal> {
        match width {
            Width::UInt => self.uint().map(i64::from),
            Width::Int64 => self.int64(),
        }
    }

    /// So many numbers of this width, judged one by one: the first that does
    /// not fit or is negative is blamed.
    pub fn numbers(&mut self, count: usize, width: Width) -> Result<Numbers<'a>, Refusal> {
        let run = self.rest;
        for _ in 0..count {
            self.judged(|fields| fields.number(width), OUT_OF_RANGE, |number| *number >= 0)?;
        }
        Ok(Numbers::new(&run[..count * width.bytes()], width, self.order))
    }

    pub fn bool(&mut self) -> Result<bool, Refusal> {
        self.meaning(Self::array, DOES_NOT_FIT, |[byte]| match byte {
            0 => Some(false),
            1 => Some(true),
            _ => None,
        })
    }

    /// A uInt length and that many bytes, as one field: a String without its
    /// range.
    #[inline]
    pub fn counted(&mut self) -> Result<&'a [u8], Refusal> {
        let field = self.at;
        let length = self.uint()?;
        self.take(length as usize, field)
    }

    /// The same as a container of its own, a DMInfo: bytes that are left over
    /// in it blame its length.
    pub fn part(&mut self) -> Result<Reader<'a>, Refusal> {
        let header = self.at;
        let rest = self.counted()?;
        Ok(Reader { rest, at: header + 4, header, order: self.order })
    }

    /// The bytes up to the container's end.
    pub fn left(&self) -> usize {
        self.rest.len()
    }

    /// A String of 0 to 4,096 bytes.
    #[inline]
    pub fn string(&mut self) -> Result<&'a [u8], Refusal> {
        self.judged(Self::counted, OUT_OF_RANGE, |string| string.len() <= MAX_STRING)
    }

    /// A String with an expected value; its length has no range.
    #[inline]
    pub fn expect_name(&mut self, expected: &[u8]) -> Result<(), Refusal> {
        self.judged(Self::counted, WRONG_NAME, |name| *name == expected).map(drop)
    }

    /// One of the listed versions.
    #[inline]
    fn version(&mut self, listed: &[u32]) -> Result<u32, Refusal> {
        self.judged(Self::uint, WRONG_VERSION, |version| listed.contains(version))
    }

    pub fn expect_version(&mut self, expected: u32) -> Result<(), Refusal> {
        self.version(&[expected]).map(drop)
    }

    pub fn expect_mark(&mut self) -> Result<(), Refusal> {
        self.judged(Self::array, WRONG_NAME, |mark| *mark == MARK).map(drop)
    }

    pub fn begins_with_mark(&self) -> bool {
        self.rest.starts_with(&MARK)
    }

    /// An object's header, read against its container: length, name, version,
    /// then the object's end against the container, then its length against
    /// the header's own size; these two blame the header. Gives the version
    /// and a reader of the object's fields; this reader moves on past the
    /// object.
    pub fn object(&mut self, name: &[u8], versions: &[u32]) -> Result<(u32, Reader<'a>), Refusal> {
        self.object_named(|stored| stored == name, versions)
    }

    /// The same where several names will do.
    pub fn object_named(
        &mut self,
        is_name: impl FnOnce(&[u8]) -> bool,
        versions: &[u32],
    ) -> Result<(u32, Reader<'a>), Refusal> {
        let (container, header) = (self.rest, self.at);
        let length = self.uint()? as usize;
        self.judged(Self::counted, WRONG_NAME, |name| is_name(name))?;
        let version = self.version(versions)?;
        let (object, rest) =
            container.split_at_checked(length).ok_or(Refusal::at(ENDS_EARLY, header))?;
        let fields = object.get(self.at - header..).ok_or(Refusal::at(WRONG_LENGTH, header))?;
        let fields = Reader { rest: fields, at: self.at, header, order: self.order };
        self.rest = rest;
        self.at = header + length;
        Ok((version, fields))
    }

    /// A Block of `count` numbers of this width; another count disagrees,
    /// before the numbers are looked at.
    pub fn block(&mut self, count: u64, width: Width) -> Result<Numbers<'a>, Refusal> {
        let (_, mut fields) = self.object(b"Block", &[1])?;
        let stated = fields.judged(Self::uint, DISAGREES, |stated| u64::from(*stated) == count)?;
        let numbers = fields.numbers(stated as usize, width)?;
        fields.finish()?;
        Ok(numbers)
    }

    /// A TableRecord is passed over by its length: where it stands.
    pub fn pass_table_record(&mut self) -> Result<Range<usize>, Refusal> {
        let start = self.at;
        self.object(b"TableRecord", &[1])?;
        Ok(start..self.at)
    }

    /// Whether these bytes stand so many bytes further on.
    pub fn has_ahead(&self, distance: usize, bytes: &[u8]) -> bool {
        self.rest.get(distance..).is_some_and(|ahead| ahead.starts_with(bytes))
    }

    /// After the last field of an object or a part: bytes that are left over
    /// blame its header.
    pub fn finish(self) -> Result<(), Refusal> {
        self.none_left(self.header)
    }

    /// After a text's last object: bytes that are left over are blamed
    /// themselves.
    pub fn finish_text(self) -> Result<(), Refusal> {
        self.none_left(self.at)
    }

    /// Blames the header of the object or part.
    pub fn wrong_length(&self) -> Refusal {
        Refusal::at(WRONG_LENGTH, self.header)
    }

    fn none_left(&self, blamed: usize) -> Result<(), Refusal> {
        if !self.rest.is_empty() {
            return Err(Refusal::at(WRONG_LENGTH, blamed));
        }
        Ok(())
    }
}
