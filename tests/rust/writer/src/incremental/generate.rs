//! Pseudo random good tables with an IncrementalStMan file.

use super::{DataBucket, IncrementalFile, Values};
use crate::buckets::{Buckets, Subject};
use crate::cells;
use crate::generate::ROW_LIMITS;
use crate::lean;
use crate::rng::Rng;
use crate::table::{Column, STRING, Table};
use std::ops::Range;

/// A table and its IncrementalStMan file, mostly of few and small buckets.
pub fn subject(rng: &mut Rng) -> Subject<IncrementalFile> {
    let columns = match rng.below(12) {
        0 => 0,
        1 => rng.within(5..=9),
        _ => rng.within(1..=4),
    };
    // The sets and offsets of IncrementalStMan are not used.
    let any = |rng: &mut Rng| if rng.chance(1, 2) { 0 } else { rng.uint() >> rng.below(32) };
    let own = (0..columns).map(|_| lean::column(rng).at(any(rng), any(rng))).collect();
    let rows = match rng.below(12) {
        0 => 0,
        1 => 1,
        2 => rng.pick(&[0x7FFF_FFFE, 0x0100_0000]),
        3 => rng.uint().into(),
        4 | 5 => rng.pick(&ROW_LIMITS),
        6 => rng.pick(&ROW_LIMITS) - rng.within(1..=3) as u64,
        7 => rng.number() >> rng.within(2..=31),
        _ => rng.within(1..=40) as u64,
    };
    let endianness = rng.below(2) as u32;
    let (managers, number) = lean::managers(rng, "IncrementalStMan");
    let table = lean::table(rng, (rows, endianness), own, managers, number);
    let file = file(rng, &table, number);
    Subject { table, number, file }
}

/// The file of a table's manager.
pub fn file(rng: &mut Rng, table: &Table, number: u32) -> IncrementalFile {
    let rows = table.rows();
    let most = match rng.below(4) {
        0 => rows,
        _ => rows.div_ceil(rng.within(1..=6) as u64),
    };
    let mut first_rows = vec![0];
    for part in lean::parts(rng, rows, most.max(rows / 8).max(1)) {
        first_rows.push(first_rows.last().unwrap_or(&0) + part);
    }
    // Some of many rows begin beside 2^31 or 2^32.
    for _ in 0..rng.below(4) {
        let row = beside_a_power(rng);
        if row < rows && !first_rows.contains(&row) {
            first_rows.push(row);
        }
    }
    first_rows.sort_unstable();
    with_rows(rng, table, number, first_rows)
}

/// A row at one of both sides of 2^31, of 2^32 or of 2^33.
fn beside_a_power(rng: &mut Rng) -> u64 {
    (1 << rng.within(31..=33)) + rng.below(3) as u64 - 1
}

/// The same, with buckets of these first rows.
fn with_rows(rng: &mut Rng, table: &Table, number: u32, first_rows: Vec<u64>) -> IncrementalFile {
    let columns: Vec<&Column> =
        table.columns().iter().filter(|column| column.info.manager == number).collect();
    let mut data: Vec<DataBucket> =
        first_rows.windows(2).map(|rows| data_bucket(rng, &columns, rows[0]..rows[1])).collect();
    let needed = data.iter().map(DataBucket::length).max().unwrap_or(0).max(16);
    // Often the fullest bucket is full to the last byte.
    let slack = if rng.chance(1, 2) { 0 } else { rng.within(1..=30) };
    let free = if rng.chance(2, 5) { 0 } else { rng.within(1..=4) };
    let unused = if rng.chance(1, 2) { 0 } else { rng.within(1..=3) };
    let count = data.len() + free + unused;
    let mut numbers: Vec<u32> = (0..count as u32).collect();
    if !rng.chance(1, 6) {
        rng.shuffle(&mut numbers);
    }
    for (bucket, number) in data.iter_mut().zip(&numbers) {
        bucket.number = *number;
    }
    let size = (needed + slack) as u32;
    let mut buckets = Buckets::new("IncrementalStMan", 5, table.endianness, size, count as u32);
    buckets.free = numbers.split_off(count - free);
    buckets.filler = Some(rng.number());
    buckets.cache_size = rng.pick(&[0, 1, 2, u32::MAX]);
    if rng.chance(1, 8) {
        let count = rng.within(1..=40);
        buckets.trailing = rng.bytes(count);
    }
    let mut file = IncrementalFile::new(buckets, first_rows, data);
    file.unique_column = rng.pick(&[0, 1, 7, u32::MAX]);
    if rng.chance(1, 2) {
        file.index.widen();
    }
    file
}

/// A bucket of these rows; its number is chosen later. Its starts are Int64 if
/// one is too large for a uInt, and some others'.
fn data_bucket(rng: &mut Rng, columns: &[&Column], rows: Range<u64>) -> DataBucket {
    let mut length = 0;
    let mut values: Vec<Values> = Vec::with_capacity(columns.len());
    for column in columns {
        // A String has a length before its bytes.
        let size = match column.data_type == STRING.number {
            true => rng.within(4..=12),
            false => cells::extent(column, 1) as usize,
        };
        let starts = starts(rng, &rows, if size > 40 { 3 } else { 6 });
        let mut offsets: Vec<u32> = Vec::new();
        for _ in &starts {
            // Values may be shared.
            if !offsets.is_empty() && rng.chance(1, 10) {
                offsets.push(rng.pick(&offsets));
            } else {
                offsets.push(length as u32);
                length += size;
            }
        }
        if rng.chance(1, 6) {
            offsets.reverse();
        }
        values.push(Values::new(starts, offsets));
    }
    if rng.chance(1, 6) {
        length += rng.within(1..=9);
    }
    // A String's offset may stand at the data's end.
    for (column, values) in columns.iter().zip(&mut values) {
        if column.data_type == STRING.number && rng.chance(1, 6) {
            values.offsets.fill(length as u32);
        }
    }
    let is_large = |values: &Values| values.starts.iter().any(|start| *start > u32::MAX.into());
    let must_be_wide = values.iter().any(is_large);
    let mut data = rng.bytes(length);
    // Zero bytes in some, on which nothing else depends.
    let zeros = &mut rng.clone();
    if zeros.chance(1, 2) {
        data.iter_mut().filter(|_| zeros.chance(1, 2)).for_each(|byte| *byte = 0);
    }
    let mut bucket = DataBucket::new(0, data, values);
    if must_be_wide || rng.chance(1, 3) {
        bucket.widen(high_byte(rng));
    }
    bucket
}

/// A high byte that tells of Int64 starts.
pub fn high_byte(rng: &mut Rng) -> u8 {
    match rng.below(4) {
        0 => 1,
        1 => rng.pick(&[2, 0x7F, 0x80, 0xFF]),
        _ => rng.within(1..=255) as u8,
    }
}

/// The first rows of at most `most` values, counted in a bucket of these rows:
/// from 0, rising, below their number.
fn starts(rng: &mut Rng, bucket: &Range<u64>, most: usize) -> Vec<u64> {
    let rows = bucket.end - bucket.start;
    let count = match rng.below(5) {
        0 => 1,
        1 if rows as usize <= 2 * most => rows as usize, // a value for each row
        _ => rng.within(1..=most.min(rows as usize)),
    };
    if count == rows as usize {
        return (0..rows).collect();
    }
    let mut starts = vec![0];
    while starts.len() < count {
        let start = match rng.below(4) {
            0 => rows - 1,
            1 => starts[rng.below(starts.len())] + 1,
            // Beside 2^31 or 2^32 in the bucket, or in the table.
            2 if rows >= 1 << 31 => match rng.chance(1, 2) {
                true => beside_a_power(rng),
                false => beside_a_power(rng).saturating_sub(bucket.start),
            },
            _ => rng.below(rows as usize) as u64,
        };
        if start < rows && !starts.contains(&start) {
            starts.push(start);
        }
    }
    starts.sort_unstable();
    starts
}

/// The largest offset that a value of a column may have in this bucket.
pub fn last_offset(column: &Column, bucket: &DataBucket) -> Option<u32> {
    let size = if column.data_type == STRING.number { 0 } else { cells::extent(column, 1) };
    (bucket.data.len() as u64).checked_sub(size).map(|offset| offset as u32)
}
