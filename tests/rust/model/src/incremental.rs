//! The files of IncrementalStMan: RULES.md 6, and Note 260,
//! section 3.4.3.

use crate::aipsio::Reader;
use crate::buckets::{BucketSet, Buckets, header};
use crate::byte_order::{Numbers, Width};
use crate::data_type::DataType;
use crate::refusal::{Refusal, WRONG_MAP};
use crate::table::{Column, Description};

/// A bucket begins with the offset of its index; the data part follows it.
const DATA_START: u32 = 4;

/// A file that was checked, with its buckets or without.
#[derive(Clone, Debug)]
pub struct IncrementalFile<'a> {
    buckets: Buckets<'a>,
    /// Of each bucket in the index, and the row count.
    first_rows: Numbers<'a>,
    /// The buckets in the index.
    numbers: Numbers<'a>,
    /// Of each column of the manager, the bytes of a value that are judged.
    sizes: Vec<u32>,
}

impl<'a> IncrementalFile<'a> {
    /// Checks the file of a manager.
    pub fn check(
        description: &Description<'_>,
        manager: u32,
        file: &'a [u8],
    ) -> Result<Self, Refusal> {
        let file = Self::check_but_buckets(description, manager, file)?;
        for entry in 0..file.numbers.count() {
            file.check_bucket(entry)?;
        }
        Ok(file)
    }

    /// All that comes before the buckets: header, length, index, free list,
    /// bucket numbers and first rows.
    pub fn check_but_buckets(
        description: &Description<'_>,
        manager: u32,
        file: &'a [u8],
    ) -> Result<Self, Refusal> {
        let order = description.byte_order;
        let (start, mut fields) = header(file, b"IncrementalStMan", &[5], order)?;
        fields.uint()?; // unique column number
        let free_count = fields.uint()?;
        let first_free = fields.int()?;
        fields.finish()?;
        let buckets = Buckets::new(file, start, order)?;
        let (first_rows, numbers) = read_index(buckets.after())?;
        let free = buckets.free_list(first_free, free_count)?;
        let sizes = description.columns_of(manager).map(judged_size).collect();
        let file = Self { buckets, first_rows, numbers, sizes };
        file.check_index(free, description.rows)?;
        Ok(file)
    }

    /// Bucket numbers are in range, all different and none is free; first rows
    /// rise from 0 to the row count.
    fn check_index(&self, mut claimed: BucketSet, rows: u64) -> Result<(), Refusal> {
        for number in self.numbers.iter() {
            self.buckets.claim(&mut claimed, number)?;
        }
        // There is one first row more than buckets.
        let ends = (self.first_row(0), self.first_row(self.numbers.count()));
        if ends != (0, rows) || !self.first_rows.iter().is_sorted_by(|row, next| row < next) {
            return Err(WRONG_MAP);
        }
        Ok(())
    }

    /// A bucket's index: the first rows and the offsets of each column's values.
    fn check_bucket(&self, entry: usize) -> Result<(), Refusal> {
        let Bucket { offset, starts, mut index } = self.bucket(entry)?;
        if offset < DATA_START {
            return Err(WRONG_MAP);
        }
        let rows = self.first_row(entry + 1) - self.first_row(entry);
        for size in &self.sizes {
            check_values(&mut index, starts, rows, *size, offset - DATA_START)?;
        }
        Ok(())
    }

    /// The bucket of an entry of the index. Its first number has the offset of
    /// its own index in three bytes; the high byte tells the width of starts.
    fn bucket(&self, entry: usize) -> Result<Bucket<'a>, Refusal> {
        let bucket = self.buckets.reader(self.numbers.at(entry) as usize);
        let number = bucket.clone().uint()?;
        let starts = if number >> 24 == 0 { Width::UInt } else { Width::Int64 };
        let offset = number & 0x00FF_FFFF;
        let index = bucket.after(offset as usize).ok_or(WRONG_MAP)?;
        Ok(Bucket { offset, starts, index })
    }

    fn first_row(&self, entry: usize) -> u64 {
        self.first_rows.at(entry)
    }

    pub fn bucket_size(&self) -> usize {
        self.buckets.size()
    }

    /// The last bucket whose first row is not above the row, which is one of the
    /// table's.
    fn entry(&self, row: u64) -> usize {
        self.first_rows.partition_point(|first| first <= row) - 1
    }

    /// The first bit of a cell, of whose file only what comes before the buckets
    /// was checked: now the row's own bucket is, for all columns.
    pub fn checked_first_bit(&self, column: usize, row: u64) -> Result<u64, Refusal> {
        self.check_bucket(self.entry(row))?;
        Ok(self.first_bit(column, row))
    }

    /// The first bit of a cell; the row is one of the table's, its bucket was
    /// checked, and the column is the manager's column number `column`.
    pub fn first_bit(&self, column: usize, row: u64) -> u64 {
        let entry = self.entry(row);
        let local_row = row - self.first_row(entry);
        let offset = self.value_offset(entry, column, local_row).expect("the bucket was checked");
        let bucket = self.numbers.at(entry) as usize;
        8 * (self.buckets.start(bucket) as u64 + u64::from(DATA_START) + offset)
    }

    /// The offset, in a bucket's data part, of the value that a row has.
    fn value_offset(&self, entry: usize, column: usize, local_row: u64) -> Result<u64, Refusal> {
        let Bucket { starts, mut index, .. } = self.bucket(entry)?;
        for _ in 0..column {
            values(&mut index, starts)?;
        }
        let (starts, offsets) = values(&mut index, starts)?;
        let value = starts.partition_point(|start| start <= local_row) - 1;
        Ok(offsets.at(value))
    }
}

/// A bucket in the index.
struct Bucket<'a> {
    /// Where its own index begins.
    offset: u32,
    /// The width of all its starts.
    starts: Width,
    /// What stands from there on.
    index: Reader<'a>,
}

/// The bytes that a value takes at least: a cell's whole bytes, none of a
/// String, of which only the offset is judged.
fn judged_size(column: &Column<'_>) -> u32 {
    match column.data_type {
        DataType::String => 0,
        _ => column.cell_bits.div_ceil(8),
    }
}

/// ISMIndex: the first rows and the numbers of the buckets.
fn read_index(mut container: Reader<'_>) -> Result<(Numbers<'_>, Numbers<'_>), Refusal> {
    container.expect_mark()?;
    let (version, mut fields) = container.object(b"ISMIndex", &[1, 2])?;
    let width = Width::of_rows(version);
    let count = u64::from(fields.uint()?);
    let first_rows = fields.block(count + 1, width)?;
    let numbers = fields.block(count, Width::UInt)?;
    fields.finish()?;
    Ok((first_rows, numbers))
}

/// A column's values in a bucket's index: the first row of each rises from 0
/// and is below `rows`; each stands, with `size` bytes, in `data` bytes.
fn check_values(
    index: &mut Reader<'_>,
    starts: Width,
    rows: u64,
    size: u32,
    data: u32,
) -> Result<(), Refusal> {
    let rows = rows as i64; // at most 2^62
    let count = index.uint()?;
    if count == 0 {
        return Err(WRONG_MAP);
    }
    let mut least = 0;
    for value in 0..count {
        let start = index.number(starts)?;
        if start < least || start >= rows || (value == 0 && start > 0) {
            return Err(WRONG_MAP);
        }
        least = start + 1;
    }
    for _ in 0..count {
        let offset = index.uint()?;
        if u64::from(offset) + u64::from(size) > u64::from(data) {
            return Err(WRONG_MAP);
        }
    }
    Ok(())
}

/// A column's values: their first rows and their offsets.
fn values<'a>(
    index: &mut Reader<'a>,
    starts: Width,
) -> Result<(Numbers<'a>, Numbers<'a>), Refusal> {
    let count = index.uint()? as usize;
    Ok((index.numbers(count, starts)?, index.numbers(count, Width::UInt)?))
}
