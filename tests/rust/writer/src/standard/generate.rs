//! Pseudo random good tables with a StandardStMan file.

use super::{FreeSpace, Index, LINKS, StandardFile};
use crate::buckets::{Buckets, Subject};
use crate::cells;
use crate::contents;
use crate::lean;
use crate::rng::Rng;
use crate::table::Column;

/// What a set of columns needs.
pub struct Set {
    columns: Vec<Column>,
    rows_per_bucket: u32,
    /// Where the last extent ends.
    end: u32,
}

impl Set {
    /// Columns whose extents follow each other in any order, some with gaps
    /// between them.
    pub fn new(rng: &mut Rng, mut columns: Vec<Column>, rows_per_bucket: u32) -> Self {
        let end = lay_out(rng, &mut columns, rows_per_bucket);
        Self { columns, rows_per_bucket, end }
    }
}

/// A table and its StandardStMan file, mostly of few rows and small buckets.
pub fn subject(rng: &mut Rng) -> Subject<StandardFile> {
    if rng.chance(1, 150) {
        return many_rows(rng);
    }
    if rng.chance(1, 20) {
        return many_entries(rng);
    }
    let count = match rng.below(20) {
        0..=11 => 1,
        12..=18 => rng.within(2..=4),
        _ => rng.within(5..=16),
    };
    let mut sets: Vec<Set> = (0..count).map(|_| set(rng, count)).collect();
    if rng.chance(1, 40) {
        sets.iter_mut().for_each(|set| set.columns.clear());
    }
    let least = sets.iter().map(|set| set.rows_per_bucket).min().unwrap_or(1);
    let rows = match rng.below(12) {
        0 => 0,
        1 => 1,
        2 => least,
        3 => least + 1,
        _ => rng.within(1..=30.min(5 * least as usize)) as u32,
    };
    with_sets(rng, rows.into(), sets)
}

/// A set of few columns, or of none.
fn set(rng: &mut Rng, sets: usize) -> Set {
    let columns = match rng.below(8) {
        0 => 0,
        1..=5 => rng.within(1..=3),
        _ => rng.within(1..=if sets > 4 { 3 } else { 6 }),
    };
    let column = |_| if rng.chance(1, 3) { lean::text_column(rng) } else { lean::column(rng) };
    let columns: Vec<Column> = (0..columns).map(column).collect();
    let row_bytes: u64 = columns.iter().map(|column| cells::extent(column, 1)).sum();
    let rows_per_bucket = match rng.below(10) {
        _ if row_bytes > 60 => rng.within(1..=3),
        0 => 1,
        1 => 8,
        2 => 16,
        3 if columns.is_empty() => rng.pick(&[MOST_ROWS as usize - 1, MOST_ROWS as usize]),
        _ => rng.within(2..=9),
    } as u32;
    Set::new(rng, columns, rows_per_bucket)
}

/// Gives the columns their offsets; gives the end of the last extent.
fn lay_out(rng: &mut Rng, columns: &mut [Column], rows_per_bucket: u32) -> u32 {
    let gap = |rng: &mut Rng| if rng.chance(1, 8) { rng.within(1..=5) as u32 } else { 0 };
    let mut order: Vec<usize> = (0..columns.len()).collect();
    if rng.chance(1, 2) {
        rng.shuffle(&mut order);
    }
    let mut end = 0;
    for index in order {
        let column = &mut columns[index];
        column.info.offset = end + gap(rng);
        end = column.info.offset + cells::extent(column, rows_per_bucket) as u32;
    }
    end
}

/// As many rows as a bucket may hold.
pub const MOST_ROWS: u32 = 8_388_608;

/// Rows beside 2^31 and 2^32, and more, in a set without columns.
fn many_rows(rng: &mut Rng) -> Subject<StandardFile> {
    let rows = match rng.below(3) {
        0 => (1 << 31) + rng.within(0..=2) as u64 - 1,
        1 => (1 << 32) + rng.within(0..=2) as u64 - 1,
        _ => (1 << 32) + rng.below(20 * MOST_ROWS as usize) as u64,
    };
    without_columns(rng, rows)
}

/// So many rows in a set without columns, in full buckets.
pub fn without_columns(rng: &mut Rng, rows: u64) -> Subject<StandardFile> {
    let set = Set { columns: Vec::new(), rows_per_bucket: MOST_ROWS, end: 0 };
    with_sets(rng, rows, vec![set])
}

/// Tens or hundreds of entries in one to three sets, fewer where buckets are
/// large.
fn many_entries(rng: &mut Rng) -> Subject<StandardFile> {
    let count = rng.within(1..=3);
    let sets: Vec<Set> = (0..count).map(|_| set(rng, count)).collect();
    let least = sets.iter().map(|set| set.rows_per_bucket as usize).min().unwrap_or(1);
    let size = sets.iter().map(|set| set.end).max().unwrap_or(0).max(16);
    let most = rng.pick(&[20, 30, 40, 80, 150, 300]).min(30_000 / size as usize).max(10);
    let rows = (least * rng.within(10..=most)).min(1000) as u64;
    with_sets(rng, rows, sets)
}

/// The table and file of these sets.
fn with_sets(rng: &mut Rng, rows: u64, sets: Vec<Set>) -> Subject<StandardFile> {
    let parts = |set: Set| match rows {
        0..=1000 => (lean::parts(rng, rows, set.rows_per_bucket.into()), set),
        _ => (full_parts(rows, set.rows_per_bucket.into()), set),
    };
    let sets = sets.into_iter().map(parts).collect();
    with_parts(rng, rows, sets)
}

/// The same, of sets whose buckets hold so many rows each.
pub fn with_parts(rng: &mut Rng, rows: u64, sets: Vec<(Vec<u64>, Set)>) -> Subject<StandardFile> {
    let endianness = rng.below(2) as u32;
    let least_size = sets.iter().map(|(_, set)| set.end).max().unwrap_or(0).max(16);
    let mut columns = Vec::new();
    let mut indices = Vec::new();
    for (number, (parts, set)) in sets.into_iter().enumerate() {
        let mut index = Index::new(set.rows_per_bucket, set.columns.len(), &entries(&parts));
        index.free_space = free_space(rng);
        if rng.chance(1, 2) {
            index.widen();
        }
        indices.push(index);
        columns.extend(set.columns.into_iter().map(|column| {
            let offset = column.info.offset;
            column.at(number as u32, offset)
        }));
    }
    let (managers, number) = lean::managers(rng, "StandardStMan");
    let table = lean::table(rng, (rows, endianness), columns, managers, number);
    // Columns beyond the 64th were left out.
    for (set, index) in indices.iter_mut().enumerate() {
        let columns = table.columns().iter();
        let own = columns.filter(|c| c.info.manager == number && c.info.set == set as u32);
        index.columns = own.count() as i32;
    }
    let version = rng.pick(&[3, 4]);
    let buckets = Buckets::new("StandardStMan", version, endianness, 16, 0);
    let mut file = StandardFile::new(buckets, Vec::new(), indices);
    place_buckets(rng, &mut file, least_size);
    fill(rng, &mut file);
    let mut subject = Subject { table, number, file };
    if !rng.chance(1, 8) {
        contents::put_some(rng, &mut subject);
    }
    subject
}

/// The entries of buckets with so many rows each; their numbers are chosen
/// later.
pub fn entries(parts: &[u64]) -> Vec<(u64, u32)> {
    let mut rows = 0;
    let entry = |part: &u64| {
        rows += part;
        (rows - 1, 0)
    };
    parts.iter().map(entry).collect()
}

/// Full buckets only.
fn full_parts(rows: u64, most: u64) -> Vec<u64> {
    let mut parts = vec![most; (rows / most) as usize];
    if !rows.is_multiple_of(most) {
        parts.push(rows % most);
    }
    parts
}

fn free_space(rng: &mut Rng) -> FreeSpace {
    let count = rng.pick(&[0, 0, 0, 1, 2, 5]);
    let any = |rng: &mut Rng| {
        if rng.chance(1, 4) { rng.uint() as i32 } else { rng.below(64) as i32 }
    };
    let pairs = (0..count).map(|_| (any(rng), any(rng))).collect();
    FreeSpace { default: any(rng), increment: any(rng) as u32, ..FreeSpace::new(pairs) }
}

/// Chooses the bucket size and the index's buckets, and gives all buckets
/// their numbers, in any order.
fn place_buckets(rng: &mut Rng, file: &mut StandardFile, least_size: u32) {
    let length = file.text().bytes.len();
    let data: usize = file.indices.iter().map(|index| index.buckets.elements.len()).sum();
    let links = LINKS as u32;
    // At most 4,096 buckets, of which nine may be more than are needed.
    let least_size = least_size.max(links + length.div_ceil(4096 - 9 - data) as u32);
    let whole = links + length as u32;
    let slack = |rng: &mut Rng| if rng.chance(1, 2) { 0 } else { rng.within(1..=40) as u32 };
    let is_small = |size: u32| size as usize * (data + 1) < 8000;
    let mut index_buckets = 1;
    if is_small(least_size.max(whole)) && rng.chance(1, 4) {
        // At an offset.
        let size = least_size.max(whole) + slack(rng);
        let last = size - length as u32;
        file.buckets.size = size;
        file.index_offset = match rng.below(3) {
            0 => links,
            1 => last,
            _ => rng.within(LINKS..=last as usize) as u32,
        };
    } else {
        // In a chain, which the text may fill exactly.
        let sizes: Vec<u32> = (1..=8)
            .filter(|part| (length as u32).is_multiple_of(*part))
            .map(|part| links + length as u32 / part)
            .filter(|size| *size >= least_size && is_small(*size))
            .collect();
        file.buckets.size = if !sizes.is_empty() && rng.chance(1, 3) {
            rng.pick(&sizes)
        } else {
            least_size + slack(rng)
        };
        index_buckets = length.div_ceil(file.buckets.size as usize - LINKS);
        if rng.chance(1, 8) {
            index_buckets += rng.within(1..=2);
        }
    }
    let free = if rng.chance(2, 5) { 0 } else { rng.within(1..=4) };
    let unused = if rng.chance(1, 2) { 0 } else { rng.within(1..=3) };
    let count = index_buckets + free + data + unused;
    let mut numbers: Vec<u32> = (0..count as u32).collect();
    if !rng.chance(1, 6) {
        rng.shuffle(&mut numbers);
    }
    let mut take = |count: usize| numbers.split_off(numbers.len() - count);
    for index in &mut file.indices {
        index.buckets.elements = take(index.buckets.elements.len());
    }
    file.index_chain = take(index_buckets);
    file.buckets.free = take(free);
    file.buckets.count = count as u32;
}

/// The fields that are not judged.
fn fill(rng: &mut Rng, file: &mut StandardFile) {
    file.buckets.filler = Some(rng.number());
    file.buckets.cache_size = rng.pick(&[0, 1, 2, u32::MAX]);
    file.last_heap = rng.pick(&[-1, -1, 0, 7, i32::MAX, i32::MIN]);
    if rng.chance(1, 8) {
        let count = rng.within(1..=40);
        file.buckets.trailing = rng.bytes(count);
    }
}
