//! Files at the limits of the Ranges (RULES.md 8.2): 4,096 buckets, an index text of
//! 65,536 bytes, 64 columns, 16 sets, buckets of 1,048,576 bytes, texts of 65,536
//! bytes; files with all of these buckets, which have more than 4 GiB; and more rows than 32 bits can
//! count.

use crate::buckets::{Buckets, Subject};
use crate::cells;
use crate::contents::{self, Content};
use crate::generate;
use crate::incremental::{self, DataBucket, IncrementalFile, Values};
use crate::lean;
use crate::questions::Asked;
use crate::rng::Rng;
use crate::standard::generate::{Set, with_parts};
use crate::standard::{self, FreeSpace, Index, LINKS, StandardFile};
use crate::table::{BOOL, Column, DCOMPLEX, DOUBLE, INT, Manager, SHORT, STRING, Table, UCHAR};

const BUCKETS: u32 = 4096;
const TEXT: usize = 65_536;
const LARGEST: u32 = 1_048_576;

/// Some question about such a case; about large texts, a view.
pub fn question(rng: &mut Rng, number: u64) -> String {
    let asked = case(rng, number);
    if number % 10 == OF_TEXTS { asked.view_question(rng) } else { asked.question(rng) }
}

/// Which of ten cases has large texts.
const OF_TEXTS: u64 = 6;

/// A table and a large file; often with a fault.
pub fn case(rng: &mut Rng, number: u64) -> Asked {
    match number % 10 {
        0 => Asked::new(&large_bucket(rng, number / 10)),
        number @ 1..=6 => {
            let mut subject = if number == OF_TEXTS { large_texts(rng) } else { standard(rng) };
            if rng.chance(1, 2) {
                (rng.pick(&standard::faults::faults()).apply)(rng, &mut subject);
            }
            Asked::new(&subject)
        }
        _ => {
            let mut subject = incremental(rng);
            if rng.chance(1, 2) {
                (rng.pick(&incremental::faults::faults()).apply)(rng, &mut subject);
            }
            Asked::new(&subject)
        }
    }
}

/// StandardStMan: 4,096 buckets of 72 bytes, of which 1,024 hold the index
/// text's 65,536 bytes; 64 columns in 16 sets.
pub fn standard(rng: &mut Rng) -> Subject<StandardFile> {
    let rows = rng.within(400..=500) as u64;
    let endianness = rng.below(2) as u32;
    let mut columns = Vec::new();
    let mut indices = Vec::new();
    for set in 0..16 {
        let rows_per_bucket = rng.within(4..=6) as u32;
        let mut offset = 0;
        // At most 6 x (4 + 2 + 1) bytes and 6 bits.
        for data_type in [INT, BOOL, SHORT, UCHAR] {
            let column = Column::scalar(data_type, "").at(set, offset);
            offset += cells::extent(&column, rows_per_bucket) as u32;
            columns.push(column);
        }
        let parts = lean::parts(rng, rows, rows_per_bucket.into());
        indices.push(Index::new(rows_per_bucket, 4, &standard::generate::entries(&parts)));
    }
    rng.shuffle(&mut columns);
    let manager = generate::info_form(rng, Manager::new("StandardStMan", 0));
    let table = lean::bare(rows, endianness, columns, vec![manager]);
    let size = LINKS as u32 + 64;
    let buckets = Buckets::new("StandardStMan", 3, endianness, size, BUCKETS);
    let mut file = StandardFile::new(buckets, Vec::new(), indices);
    fill_text(rng, &mut file);
    number_buckets(rng, &mut file, TEXT / 64);
    Subject { table, number: 0, file }
}

/// Pairs of free space until the text is as long as it may be.
fn fill_text(rng: &mut Rng, file: &mut StandardFile) {
    let sets = file.indices.len();
    let mut pairs = vec![Vec::new(); sets];
    for _ in 0..(TEXT - file.text().bytes.len()) / 8 {
        pairs[rng.below(sets)].push((rng.uint() as i32, rng.uint() as i32));
    }
    for (index, pairs) in file.indices.iter_mut().zip(pairs) {
        index.free_space = FreeSpace::new(pairs);
    }
}

/// Gives the buckets their numbers; those that are left are free or not used.
fn number_buckets(rng: &mut Rng, file: &mut StandardFile, index_buckets: usize) {
    let mut numbers: Vec<u32> = (0..file.buckets.count).collect();
    rng.shuffle(&mut numbers);
    let mut take = |count: usize| numbers.split_off(numbers.len().saturating_sub(count));
    file.index_chain = take(index_buckets);
    for index in &mut file.indices {
        index.buckets.elements = take(index.buckets.elements.len());
    }
    file.buckets.free = take(rng.within(1..=2000));
    file.buckets.filler = Some(rng.number());
}

/// IncrementalStMan: 4,096 buckets of one to three rows.
pub fn incremental(rng: &mut Rng) -> Subject<IncrementalFile> {
    let endianness = rng.below(2) as u32;
    let columns = vec![Column::scalar(INT, ""), Column::direct(BOOL, "", &[9])];
    let mut numbers: Vec<u32> = (0..BUCKETS).collect();
    rng.shuffle(&mut numbers);
    let free = rng.pick(&[0, 0, 1, 1000]);
    let free = numbers.split_off(numbers.len() - free);
    let mut first_rows = vec![0];
    let mut data = Vec::new();
    for number in numbers {
        let rows = rng.within(1..=3) as u64;
        first_rows.push(first_rows[data.len()] + rows);
        let count = rng.within(1..=rows as usize) as u32;
        let values = |start: u32, size: u32| {
            let offsets = (0..count).map(|value| start + size * value);
            Values::new((0..count.into()).collect(), offsets.collect())
        };
        // Four bytes of an Int, two of 9 Bools.
        let columns = vec![values(0, 4), values(4 * count, 2)];
        let data_part = rng.bytes(6 * count as usize);
        data.push(DataBucket::new(number, data_part, columns));
    }
    let rows = first_rows[data.len()];
    let manager = generate::info_form(rng, Manager::new("IncrementalStMan", 0));
    let table = lean::bare(rows, endianness, columns, vec![manager]);
    let size = 4 + 6 * 3 + 2 * (4 + 8 * 3);
    let mut buckets = Buckets::new("IncrementalStMan", 5, endianness, size, BUCKETS);
    buckets.free = free;
    buckets.filler = Some(rng.number());
    let file = IncrementalFile::new(buckets, first_rows, data);
    Subject { table, number: 0, file }
}

/// StandardStMan: buckets of 1,048,576 bytes, one of them filled by a Bool
/// column of 8,388,608 rows; or only the index's bucket and no rows.
pub fn large_bucket(rng: &mut Rng, variant: u64) -> Subject<StandardFile> {
    let rows = if variant.is_multiple_of(2) { 8_388_608 } else { 0 };
    let columns = vec![Column::scalar(BOOL, "")];
    let manager = generate::info_form(rng, Manager::new("StandardStMan", 0));
    let endianness = rng.below(2) as u32;
    let table = lean::bare(rows, endianness, columns, vec![manager]);
    let entries: &[(u64, u32)] = if rows > 0 { &[(rows - 1, 0)] } else { &[] };
    let count = if rows > 0 { 2 } else { 1 };
    let buckets = Buckets::new("StandardStMan", 3, endianness, LARGEST, count);
    let indices = vec![Index::new(8_388_608, 1, entries)];
    let mut file = StandardFile::new(buckets, vec![count - 1], indices);
    let length = file.text().bytes.len() as u32;
    file.index_offset = rng.pick(&[8, LARGEST - length]);
    Subject { table, number: 0, file }
}

/// StandardStMan: texts of up to 65,536 bytes, with padding and without.
pub fn large_texts(rng: &mut Rng) -> Subject<StandardFile> {
    let maximum = rng.pick(&[65_536, 65_535, 32_768, 300]);
    let rows_per_bucket = rng.within(2..=3) as u32;
    let columns = vec![
        Column::scalar(STRING, "").string_maximum(maximum),
        Column::scalar(UCHAR, "").string_maximum(maximum),
        Column::scalar(STRING, "").string_maximum(rng.within(1..=40) as u32),
    ];
    let rows = rng.within(1..=2 * rows_per_bucket as usize) as u64;
    let set = Set::new(rng, columns, rows_per_bucket);
    let parts = lean::parts(rng, rows, rows_per_bucket.into());
    let mut subject = with_parts(rng, rows, vec![(parts, set)]);
    contents::put_some(rng, &mut subject);
    subject
}

/// StandardStMan: a set of 4,095 entries, the most there can be, since the
/// index needs a bucket; it is just large enough for the text. They hold one
/// row to 100 of a bucket's 100.
pub fn most_entries(endianness: u32) -> Subject<StandardFile> {
    let rows_per_bucket = 100;
    let parts: Vec<u64> = (1..BUCKETS.into()).map(|entry| 1 + entry * entry % 101 % 100).collect();
    let rows = parts.iter().sum();
    let mut columns = Vec::new();
    let mut offset = 0;
    for data_type in [INT, BOOL, DOUBLE, UCHAR] {
        let column = Column::scalar(data_type, "").at(0, offset);
        offset += cells::extent(&column, rows_per_bucket) as u32;
        columns.push(column);
    }
    let table = lean::bare(rows, endianness, columns, vec![manager_3("StandardStMan", endianness)]);
    let mut index = Index::new(rows_per_bucket, 4, &standard::generate::entries(&parts));
    // In falling order, without the index's.
    index.buckets.elements = (0..BUCKETS).rev().filter(|bucket| *bucket != INDEX_BUCKET).collect();
    let buckets = Buckets::new("StandardStMan", 3, endianness, LARGEST, BUCKETS);
    let mut file = StandardFile::new(buckets, vec![INDEX_BUCKET], vec![index]);
    file.buckets.size = (LINKS + file.text().bytes.len()) as u32;
    of_manager_3(table, file)
}

/// Buckets from the first to the last, of which the last 512 bytes are above
/// 4 GiB, and the index's.
const SPREAD: [u32; 8] = [BUCKETS - 1, 0, 511, 512, 2048, 513, 4000, BUCKETS - 2];
const INDEX_BUCKET: u32 = 1;

/// StandardStMan above 4 GiB: columns at the end of buckets, 4 rows in each.
/// The bytes that are not zero are few.
pub fn standard_above_4_gib(endianness: u32) -> Subject<StandardFile> {
    let rows_per_bucket = 4;
    let rows = u64::from(rows_per_bucket) * SPREAD.len() as u64 - 1;
    let mut columns = vec![
        Column::scalar(INT, ""),
        Column::direct(BOOL, "", &[11]),
        Column::scalar(DOUBLE, ""),
        Column::direct(DCOMPLEX, "", &[3]),
        Column::scalar(STRING, "").string_maximum(16),
        Column::scalar(BOOL, ""),
        Column::scalar(SHORT, ""),
    ];
    let mut end = LARGEST;
    for column in columns.iter_mut().rev() {
        end -= cells::extent(column, rows_per_bucket) as u32;
        column.info.offset = end;
    }
    columns.push(Column::scalar(UCHAR, "").at(0, 0));
    let table = lean::bare(rows, endianness, columns, vec![manager_3("StandardStMan", endianness)]);
    let entries: Vec<(u64, u32)> = (1..)
        .zip(SPREAD)
        .map(|(count, bucket)| ((u64::from(rows_per_bucket) * count).min(rows) - 1, bucket))
        .collect();
    let index = Index::new(rows_per_bucket, table.columns().len(), &entries);
    let buckets = Buckets::new("StandardStMan", 3, endianness, LARGEST, BUCKETS);
    let file = StandardFile::new(buckets, vec![INDEX_BUCKET], vec![index]);
    let mut subject = of_manager_3(table, file);
    // Texts with padding and without, and cells of all kinds.
    let columns = subject.table.columns().iter();
    let sizes: Vec<usize> = columns.map(|column| cells::bits(column) as usize / 8).collect();
    contents::put(&mut subject, |position, row| {
        let kind = contents::KINDS[(position + row as usize) % contents::KINDS.len()];
        Content::new(kind, sizes[position], row as usize)
    });
    subject
}

/// StandardStMan above 4 GiB: a Bool in each of as many rows as a bucket may
/// have, in the last bucket and others.
pub fn bools_above_4_gib(endianness: u32) -> Subject<StandardFile> {
    let rows_per_bucket = 8 * LARGEST;
    let rows = u64::from(rows_per_bucket) * SPREAD.len() as u64;
    let columns = vec![Column::scalar(BOOL, "")];
    let table = lean::bare(rows, endianness, columns, vec![manager_3("StandardStMan", endianness)]);
    let entries: Vec<(u64, u32)> = (1..)
        .zip(SPREAD)
        .map(|(count, bucket)| (u64::from(rows_per_bucket) * count - 1, bucket))
        .collect();
    let buckets = Buckets::new("StandardStMan", 3, endianness, LARGEST, BUCKETS);
    let index = Index::new(rows_per_bucket, 1, &entries);
    of_manager_3(table, StandardFile::new(buckets, vec![INDEX_BUCKET], vec![index]))
}

/// Data buckets of which 2^32 rows fill 512; so many that a search by the low
/// halves of last rows takes other looks.
const PAST_32_BITS: u32 = 544;

/// StandardStMan: a Bool in each of more than 2^32 rows, with StandardStMan 4 and
/// SSMIndex 2. Some buckets are not full, so that a row divided by rows per
/// bucket is another entry. The bytes that are not zero are few.
pub fn past_32_bits(endianness: u32) -> Subject<StandardFile> {
    let rows_per_bucket = 8 * LARGEST;
    let part =
        |entry: u32| rows_per_bucket - if entry.is_multiple_of(40) { 1000 + entry } else { 0 };
    let parts: Vec<u64> = (0..PAST_32_BITS).map(|entry| part(entry).into()).collect();
    let rows = parts.iter().sum();
    let columns = vec![Column::scalar(BOOL, "")];
    let table = lean::bare(rows, endianness, columns, vec![manager_3("StandardStMan", endianness)]);
    let mut index = Index::new(rows_per_bucket, 1, &standard::generate::entries(&parts));
    // In falling order, without the index's.
    let numbers = (0..=PAST_32_BITS).rev().filter(|bucket| *bucket != INDEX_BUCKET);
    index.buckets.elements = numbers.collect();
    let buckets = Buckets::new("StandardStMan", 4, endianness, LARGEST, PAST_32_BITS + 1);
    of_manager_3(table, StandardFile::new(buckets, vec![INDEX_BUCKET], vec![index]))
}

/// The same, but the last rows have lost their high halves: it is refused (11).
pub fn low_halves(endianness: u32) -> Subject<StandardFile> {
    let mut subject = past_32_bits(endianness);
    for last in &mut subject.file.indices[0].last_rows.elements {
        *last &= u64::from(u32::MAX);
    }
    subject
}

/// IncrementalStMan above 4 GiB: values at the end of the data part, two for
/// the four rows of each bucket.
pub fn incremental_above_4_gib(endianness: u32) -> Subject<IncrementalFile> {
    let rows_of_bucket = 4;
    let columns = vec![
        Column::scalar(INT, ""),
        Column::direct(BOOL, "", &[9]),
        Column::scalar(STRING, ""),
        Column::scalar(DOUBLE, ""),
    ];
    let index = columns.len() * (4 + 2 * 8);
    let length = LARGEST - incremental::DATA_START - index as u32;
    let data = SPREAD.map(|number| {
        let mut end = length;
        let mut values = |column: &Column| {
            end -= 2 * cells::extent(column, 1) as u32;
            let second = end + cells::extent(column, 1) as u32;
            Values::new(vec![0, 3], vec![end, second])
        };
        let columns = columns.iter().map(&mut values).collect();
        DataBucket::new(number, vec![0; length as usize], columns)
    });
    let first_rows = (0..=SPREAD.len() as u64).map(|entry| rows_of_bucket * entry).collect();
    let rows = rows_of_bucket * SPREAD.len() as u64;
    let table =
        lean::bare(rows, endianness, columns, vec![manager_3("IncrementalStMan", endianness)]);
    let buckets = Buckets::new("IncrementalStMan", 5, endianness, LARGEST, BUCKETS);
    let file = IncrementalFile::new(buckets, first_rows, data.into());
    of_manager_3(table, file)
}

/// The manager of this kind with number 3; in little endian tables with an
/// object in its DMInfo.
fn manager_3(kind: &str, endianness: u32) -> Manager {
    let manager = Manager::new(kind, 3);
    if endianness == 0 { manager.with_object(kind) } else { manager }
}

/// The subject of a table's only manager, number 3.
fn of_manager_3<F>(mut table: Table, file: F) -> Subject<F> {
    for column in table.columns_mut() {
        column.info.manager = 3;
    }
    table.write_infos();
    Subject { table, number: 3, file }
}

#[cfg(test)]
mod tests {
    use super::*;
    use crate::buckets::BucketFile;

    /// Some cells begin above 2^32 bits, and some above 2^32 bytes; these are
    /// the largest that there are.
    fn assert_above<F: BucketFile>(subject: &Subject<F>) {
        let own = subject.own_columns().into_iter();
        let mut with_place =
            own.filter(|position| subject.file.has_place(&subject.table.columns()[*position]));
        let position = with_place.next().expect("a column with places");
        let place = |row| subject.file.place(&subject.table, position, row).0;
        assert!(place(2) > 1 << 35, "{}", place(2));
        let above =
            (0..subject.table.rows()).step_by(2).take(32).filter(|row| place(*row) > 1 << 32);
        assert!(above.count() > 10);
    }

    #[test]
    fn cells_are_above_4_gib() {
        assert_above(&standard_above_4_gib(0));
        assert_above(&incremental_above_4_gib(1));
        let bools = bools_above_4_gib(0);
        assert!(bools.file.place(&bools.table, 0, 8_388_607).0 > 1 << 35);
    }

    #[test]
    fn rows_are_past_32_bits() {
        let subject = past_32_bits(1);
        let last_rows = &subject.file.indices[0].last_rows;
        assert!(last_rows.wide && subject.table.rows() > (1 << 32) + 8_388_608);
        let other = low_halves(1).file.indices[0].last_rows.elements.clone();
        let differ = other.iter().zip(&last_rows.elements).filter(|(low, whole)| low != whole);
        assert!(differ.count() > 1);
    }

    #[test]
    fn files_are_at_the_limits() {
        for number in 0..3 {
            let rng = &mut Rng::new(22, number);
            let subject = standard(rng);
            assert_eq!(subject.file.text().bytes.len(), TEXT);
            assert_eq!(subject.file.text_room(), TEXT);
            assert_eq!(subject.table.columns().len(), 64);
            assert_eq!(subject.file.indices.len(), 16);
            assert_eq!(subject.file.encode().len(), 512 + 4096 * 72);
            assert_eq!(incremental(rng).file.buckets.count, 4096);
        }
        let subject = most_entries(1);
        let index = &subject.file.indices[0];
        assert_eq!(index.buckets.elements.len(), 4095);
        assert_eq!(subject.file.text().bytes.len(), 32_878);
        assert_eq!(subject.file.encode().len(), 134_701_568);
        assert_eq!(subject.file.looks(&subject.table, 0, 0), [12, 4095]);
    }
}
