//! The files of StandardStMan: RULES.md 5, and Note 260,
//! section 3.4.2.

use crate::aipsio::Reader;
use crate::buckets::{BucketSet, Buckets, HeaderStart, header};
use crate::byte_order::{ByteOrder, Numbers, Width};
use crate::looks;
use crate::refusal::{OUT_OF_RANGE, Refusal, SHORT_ROOM, WRONG_CHAIN, WRONG_MAP};
use crate::table::{Column, Description};

// RULES.md 8.2, Ranges.
const MAX_INDEX_LENGTH: u32 = 65_536;
const MAX_INDICES: u32 = 16;
const MAX_ROWS_PER_BUCKET: u32 = 8_388_608;

/// An index bucket of a chain begins with the next number, twice.
const LINKS: usize = 8;

#[derive(Clone, Copy, Debug)]
struct Header {
    start: HeaderStart,
    free_count: u32,
    first_free: i32,
    index_buckets: u32,
    first_index_bucket: i32,
    /// 0 for a chain, else at least 8.
    index_offset: u32,
    index_length: usize,
    indices: usize,
}

/// SSMIndex: which rows of a set of columns are in which buckets.
#[derive(Clone, Copy, Debug)]
struct Index<'a> {
    rows_per_bucket: u32,
    columns: i32,
    last_rows: Numbers<'a>,
    buckets: Numbers<'a>,
}

impl Index<'_> {
    /// The first entry whose last row is not below the row.
    fn entry(&self, row: u64) -> usize {
        self.last_rows.partition_point(|last| last < row)
    }
}

/// A file that was checked.
#[derive(Clone, Debug)]
pub struct StandardFile<'a> {
    buckets: Buckets<'a>,
    /// One for each set.
    indices: Vec<Index<'a>>,
}

impl<'a> StandardFile<'a> {
    /// Checks the file of a manager. The room then holds the index text, and
    /// zeros after it; if the file is refused, the room holds anything.
    pub fn check(
        description: &Description<'_>,
        manager: u32,
        file: &'a [u8],
        room: &'a mut [u8],
    ) -> Result<Self, Refusal> {
        let order = description.byte_order;
        let header = read_header(file, order)?;
        let buckets = Buckets::new(file, header.start, order)?;
        let (text, rest) = room.split_at_mut_checked(header.index_length).ok_or(SHORT_ROOM)?;
        let index_buckets = read_text(&buckets, &header, text)?;
        rest.fill(0);
        let indices = read_indices(text, header.indices, order)?;
        let free = buckets.free_list(header.first_free, header.free_count)?;
        let file = Self { buckets, indices };
        file.check_buckets(index_buckets, &free)?;
        file.check_rows(description.rows)?;
        file.check_columns(description.columns_of(manager))?;
        Ok(file)
    }

    /// Data, index and free buckets are in range and all different.
    fn check_buckets(&self, mut claimed: BucketSet, free: &BucketSet) -> Result<(), Refusal> {
        if claimed.meets(free) {
            return Err(WRONG_MAP);
        }
        claimed.extend(free);
        for number in self.indices.iter().flat_map(|index| index.buckets.iter()) {
            self.buckets.claim(&mut claimed, number)?;
        }
        Ok(())
    }

    /// The last rows of each set rise to the table's last row, at most rows
    /// per bucket at a time.
    fn check_rows(&self, rows: u64) -> Result<(), Refusal> {
        for index in &self.indices {
            let mut row = 0; // the next entry's first row
            for last in index.last_rows.iter() {
                let next = last + 1;
                if next <= row || next - row > index.rows_per_bucket.into() {
                    return Err(WRONG_MAP);
                }
                row = next;
            }
            if row != rows {
                return Err(WRONG_MAP);
            }
        }
        Ok(())
    }

    /// The manager's columns are in sets that are there, each set has as many
    /// as it says, and their extents lie in the bucket and do not meet.
    fn check_columns<'c>(
        &self,
        columns: impl Iterator<Item = &'c Column<'c>>,
    ) -> Result<(), Refusal> {
        let mut counts = [0; MAX_INDICES as usize];
        let mut extents = Vec::new();
        for column in columns {
            let set = column.set as usize;
            let index = self.indices.get(set).ok_or(WRONG_MAP)?;
            counts[set] += 1;
            let bits = u64::from(index.rows_per_bucket) * u64::from(column.cell_bits);
            let start = column.offset;
            extents.push((set, start, start + bits.div_ceil(8)));
        }
        if self.indices.iter().zip(counts).any(|(index, count)| index.columns != count) {
            return Err(WRONG_MAP);
        }
        extents.sort_unstable();
        let meet = extents.windows(2).any(|pair| pair[0].0 == pair[1].0 && pair[1].1 < pair[0].2);
        if meet || extents.iter().any(|(.., end)| *end > self.buckets.size() as u64) {
            return Err(WRONG_MAP);
        }
        Ok(())
    }

    pub fn bucket_size(&self) -> usize {
        self.buckets.size()
    }

    pub fn rows_per_bucket(&self, set: u64) -> u32 {
        self.indices[set as usize].rows_per_bucket
    }

    /// How many entries a set has.
    pub fn entries(&self, set: u64) -> u64 {
        self.indices[set as usize].last_rows.count() as u64
    }

    /// How many last rows of a set the search for a row looks at; the row is
    /// one of the table's.
    pub fn looks(&self, set: u64, row: u64) -> u64 {
        let index = self.indices[set as usize];
        let search = looks::search(index.last_rows.count(), |entry| index.last_rows.at(entry), row);
        debug_assert_eq!(search.entry, index.entry(row));
        search.looks
    }

    /// The first bit of a cell; the row is one of the table's.
    pub fn first_bit(&self, column: &Column<'_>, row: u64) -> u64 {
        let index = self.indices[column.set as usize];
        let entry = index.entry(row);
        let first_row = match entry.checked_sub(1) {
            Some(before) => index.last_rows.at(before) + 1,
            None => 0,
        };
        let bucket = index.buckets.at(entry) as usize;
        let extent = self.buckets.start(bucket) as u64 + column.offset;
        8 * extent + (row - first_row) * u64::from(column.cell_bits)
    }
}

fn read_header(file: &[u8], order: ByteOrder) -> Result<Header, Refusal> {
    let (start, mut fields) = header(file, b"StandardStMan", &[3, 4], order)?;
    let free_count = fields.uint()?;
    let first_free = fields.int()?;
    let index_buckets = fields.uint()?;
    let first_index_bucket = fields.int()?;
    let is_right = |offset: &u32| !(1..LINKS as u32).contains(offset);
    let index_offset = fields.judged(Reader::uint, OUT_OF_RANGE, is_right)?;
    fields.int()?; // last string heap bucket
    let index_length = fields.count(MAX_INDEX_LENGTH)?;
    let indices = fields.count(MAX_INDICES)?;
    fields.finish()?;
    Ok(Header {
        start,
        free_count,
        first_free,
        index_buckets,
        first_index_bucket,
        index_offset,
        index_length,
        indices,
    })
}

/// Gathers the index text; gives the index buckets.
fn read_text(
    buckets: &Buckets<'_>,
    header: &Header,
    text: &mut [u8],
) -> Result<BucketSet, Refusal> {
    let mut index_buckets = BucketSet::default();
    if header.index_offset > 0 {
        // The text is within one bucket, whose other bytes are not read.
        if header.index_buckets != 1 {
            return Err(WRONG_CHAIN);
        }
        let bucket = buckets.linked(header.first_index_bucket)?;
        index_buckets.insert(bucket);
        let part = buckets.bucket(bucket).get(header.index_offset as usize..);
        let part = part.and_then(|part| part.get(..text.len())).ok_or(WRONG_CHAIN)?;
        text.copy_from_slice(part);
        return Ok(index_buckets);
    }
    let mut missing = text;
    buckets.follow(header.first_index_bucket, header.index_buckets, |bucket| {
        index_buckets.insert(bucket);
        let mut links = buckets.links(bucket);
        let next = links.int()?;
        if links.int()? != next {
            return Err(WRONG_CHAIN);
        }
        let part = &buckets.bucket(bucket)[LINKS..];
        let length = missing.len().min(part.len());
        let (filled, rest) = std::mem::take(&mut missing).split_at_mut(length);
        filled.copy_from_slice(&part[..length]);
        missing = rest;
        Ok(next)
    })?;
    if !missing.is_empty() {
        return Err(WRONG_CHAIN);
    }
    Ok(index_buckets)
}

/// The index text: one SSMIndex for each set, in the table's byte order. Its
/// bytes count from its start.
fn read_indices(text: &[u8], count: usize, order: ByteOrder) -> Result<Vec<Index<'_>>, Refusal> {
    let mut text = Reader::new(text, 0, order);
    let mut indices = Vec::with_capacity(count);
    for _ in 0..count {
        indices.push(read_index(&mut text)?);
    }
    text.finish_text()?;
    Ok(indices)
}

fn read_index<'a>(text: &mut Reader<'a>) -> Result<Index<'a>, Refusal> {
    text.expect_mark()?;
    let (version, mut fields) = text.object(b"SSMIndex", &[1, 2])?;
    let width = Width::of_rows(version);
    let entries = fields.uint()?;
    let rows_per_bucket = fields.uint_within(1..=MAX_ROWS_PER_BUCKET)?;
    let columns = fields.int()?;
    pass_free_space(&mut fields)?;
    let last_rows = fields.block(entries.into(), width)?;
    let buckets = fields.block(entries.into(), Width::UInt)?;
    fields.finish()?;
    Ok(Index { rows_per_bucket, columns, last_rows, buckets })
}

/// The free-space map, whose contents are not judged. A key and a value are a
/// field each.
fn pass_free_space(container: &mut Reader<'_>) -> Result<(), Refusal> {
    let (_, mut fields) = container.object(b"SimpleOrderedMap", &[1])?;
    fields.int()?; // default value
    let pairs = fields.uint()? as usize;
    fields.uint()?; // increment
    fields.run(2 * pairs, 4)?;
    fields.finish()
}
