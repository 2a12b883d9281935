//! What the files of StandardStMan and IncrementalStMan have in common: a
//! header, then buckets of one size, some of them in a list of free ones
//! (RULES.md 5 and 6; Note 260, sections 3.4.2 and 3.4.3).

use crate::aipsio::Reader;
use crate::byte_order::ByteOrder;
use crate::refusal::{DISAGREES, ENDS_EARLY, Refusal, WRONG_CHAIN, WRONG_MAP};
use std::ops::RangeInclusive;

/// The header stands in the file's first bytes; the buckets follow them.
const HEADER_ROOM: usize = 512;

// RULES.md 8.2, Ranges.
const BUCKET_SIZE: RangeInclusive<u32> = 16..=1_048_576;
const MAX_BUCKETS: u32 = 4096;

/// The next number of a chain's last bucket.
const CHAIN_END: i32 = -1;

/// The fields that both headers begin with.
#[derive(Clone, Copy, Debug)]
pub struct HeaderStart {
    pub bucket_size: u32,
    pub bucket_count: u32,
}

/// The header object of a file, in the table's byte order: a reader of its
/// fields after the first four.
pub fn header<'a>(
    file: &'a [u8],
    name: &[u8],
    versions: &[u32],
    order: ByteOrder,
) -> Result<(HeaderStart, Reader<'a>), Refusal> {
    let mut container = Reader::new(file.get(..HEADER_ROOM).unwrap_or(file), 0, order);
    container.expect_mark()?;
    let (_, mut fields) = container.object(name, versions)?;
    fields.judged(Reader::bool, DISAGREES, |is_big| ByteOrder::of(*is_big) == order)?;
    let bucket_size = fields.uint_within(BUCKET_SIZE)?;
    let bucket_count = fields.uint_up_to(MAX_BUCKETS)?;
    fields.uint()?; // cache size
    Ok((HeaderStart { bucket_size, bucket_count }, fields))
}

/// The buckets of a file that has them all.
#[derive(Clone, Copy, Debug)]
pub struct Buckets<'a> {
    file: &'a [u8],
    size: usize,
    count: usize,
    /// The table's.
    order: ByteOrder,
}

impl<'a> Buckets<'a> {
    /// A file that is too short for them is blamed at its end.
    pub fn new(file: &'a [u8], start: HeaderStart, order: ByteOrder) -> Result<Self, Refusal> {
        let size = start.bucket_size as usize;
        let count = start.bucket_count as usize;
        if file.len() < HEADER_ROOM + count * size {
            return Err(Refusal::at(ENDS_EARLY, file.len()));
        }
        Ok(Self { file, size, count, order })
    }

    pub fn size(&self) -> usize {
        self.size
    }

    /// Where a bucket starts in the file.
    pub fn start(&self, bucket: usize) -> usize {
        HEADER_ROOM + bucket * self.size
    }

    pub fn bucket(&self, bucket: usize) -> &'a [u8] {
        &self.file[self.start(bucket)..][..self.size]
    }

    /// A reader of a bucket, in the table's byte order.
    pub fn reader(&self, bucket: usize) -> Reader<'a> {
        self.reader_in(self.order, bucket)
    }

    /// A reader of a bucket's links, which are big endian in every table.
    pub fn links(&self, bucket: usize) -> Reader<'a> {
        self.reader_in(ByteOrder::Big, bucket)
    }

    fn reader_in(&self, order: ByteOrder, bucket: usize) -> Reader<'a> {
        Reader::new(&self.file[..self.start(bucket + 1)], self.start(bucket), order)
    }

    /// A reader of the bytes after the last bucket, in the table's byte order.
    pub fn after(&self) -> Reader<'a> {
        Reader::new(self.file, self.start(self.count), self.order)
    }

    pub fn contain(&self, bucket: usize) -> bool {
        bucket < self.count
    }

    /// The bucket that a link of a chain leads to.
    pub fn linked(&self, number: i32) -> Result<usize, Refusal> {
        match usize::try_from(number) {
            Ok(bucket) if self.contain(bucket) => Ok(bucket),
            _ => Err(WRONG_CHAIN),
        }
    }

    /// Follows a chain of exactly `length` buckets; `next` gets each of them
    /// and gives its link. A chain that returns does not end after them.
    pub fn follow(
        &self,
        first: i32,
        length: u32,
        mut next: impl FnMut(usize) -> Result<i32, Refusal>,
    ) -> Result<(), Refusal> {
        if length as usize > self.count {
            return Err(WRONG_CHAIN); // so many can not all be different
        }
        let mut number = first;
        for _ in 0..length {
            number = next(self.linked(number)?)?;
        }
        if number != CHAIN_END {
            return Err(WRONG_CHAIN);
        }
        Ok(())
    }

    /// The free list: its links are the first 4 bytes of its buckets.
    pub fn free_list(&self, first: i32, length: u32) -> Result<BucketSet, Refusal> {
        let mut free = BucketSet::default();
        self.follow(first, length, |bucket| {
            free.insert(bucket);
            self.links(bucket).int()
        })?;
        Ok(free)
    }

    /// Adds a bucket that the index names: in range, and not yet in the set.
    pub fn claim(&self, claimed: &mut BucketSet, number: u64) -> Result<(), Refusal> {
        let bucket = number as usize;
        if !self.contain(bucket) || !claimed.insert(bucket) {
            return Err(WRONG_MAP);
        }
        Ok(())
    }
}

/// A set of bucket numbers, all below 4,096.
#[derive(Clone, Copy, Debug)]
pub struct BucketSet {
    words: [u64; MAX_BUCKETS as usize / 64],
}

impl Default for BucketSet {
    fn default() -> Self {
        Self { words: [0; _] }
    }
}

impl BucketSet {
    /// Whether it was not yet there.
    pub fn insert(&mut self, bucket: usize) -> bool {
        let word = &mut self.words[bucket / 64];
        let bit = 1 << (bucket % 64);
        let is_new = *word & bit == 0;
        *word |= bit;
        is_new
    }

    pub fn meets(&self, other: &Self) -> bool {
        self.words.iter().zip(&other.words).any(|(word, others)| word & others != 0)
    }

    pub fn extend(&mut self, other: &Self) {
        for (word, others) in self.words.iter_mut().zip(&other.words) {
            *word |= others;
        }
    }
}
