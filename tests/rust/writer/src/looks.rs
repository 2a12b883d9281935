//! Request lines about the looks of a search: good files whose sets have one
//! entry to thousands, most of them of fewer rows than a bucket may hold.
//!
//! A set of 4,095 entries leaves one bucket for an index text of 32,878 bytes,
//! so that its file has at least 134,701,568 bytes, too many for lines:
//! [`crate::large_files::most_entries`].

use crate::buckets::{BucketFile, Subject};
use crate::incremental::{self, IncrementalFile};
use crate::questions::Asked;
use crate::rng::Rng;
use crate::standard::StandardFile;
use crate::standard::generate::{Set, with_parts};
use crate::table::{BOOL, Column, DOUBLE, INT, SHORT, STRING, Type, UCHAR};

const SEED: u64 = 2;

/// One set of each count up to this one.
const FEW: usize = 70;
/// Around each power of two, as far as lines are short enough.
const MANY: [usize; 18] = [
    127, 128, 129, 255, 256, 257, 511, 512, 513, 1023, 1024, 1025, 2047, 2048, 2049, 3000, 3500,
    3900,
];
/// The counts of the sets of a file, and the least rows.
const SETS: [(&[usize], u64); 20] = [
    (&[1, 2], 0),
    (&[2, 1], 0),
    (&[5, 7], 0),
    (&[7, 5], 0),
    (&[5, 5], 0), // with other last rows
    (&[7, 7, 7], 0),
    (&[3, 2, 1, 4], 0),
    (&[1, 1, 9], 0),
    (&[8, 1, 1], 0),
    (&[16, 17], 0),
    (&[17, 16, 15], 0),
    (&[33, 1, 32], 0),
    (&[64, 65], 0),
    (&[65, 3, 64], 0),
    (&[1, 40, 1, 20, 10], 0),
    (&[1, 2, 3, 4, 5, 6, 7, 8, 9, 10, 11, 12, 13, 14, 15, 16], 0),
    (&[16, 15, 14, 13, 12, 11, 10, 9, 8, 7, 6, 5, 4, 3, 2, 1], 0),
    (&[31, 100, 63], 0),
    (&[20], 70_000), // rows of more than 16 bits
    (&[9, 12], 66_000),
];
/// Files with some counts below 40 in two to five sets.
const MIXED: usize = 40;
/// Files of IncrementalStMan, beside those of the tables above that have it.
const INCREMENTAL: usize = 40;

/// How many digits the lines about a file may have together, but for those of
/// few entries; and how many rows of each set are asked all the same.
const DIGITS: usize = 800_000;
const LEAST_ROWS: usize = 5;

/// All lines: of StandardStMan files, then of IncrementalStMan files.
pub fn lines() -> impl Iterator<Item = String> + Send {
    let standard = (0..).zip(standard_files());
    let standard = standard.flat_map(|(number, subject)| standard_lines(number, &subject));
    let incremental = (0..).zip(incremental_files());
    let incremental = incremental.flat_map(|(number, subject)| incremental_lines(number, &subject));
    standard.chain(incremental)
}

/// The entry counts of each file's sets, and the least rows.
fn counts() -> impl Iterator<Item = (Vec<usize>, u64)> + Send {
    let few = (1..=FEW).map(|count| (vec![count], 0));
    let sets = SETS.into_iter().map(|(counts, rows)| (counts.to_vec(), rows));
    let mixed = (0..MIXED as u64).map(|number| {
        let rng = &mut Rng::new(SEED + 1, number);
        ((0..rng.within(2..=5)).map(|_| rng.within(1..=39)).collect(), 0)
    });
    let many = MANY.into_iter().map(|count| (vec![count], 0));
    few.chain(sets).chain(mixed).chain(many)
}

/// Good files of StandardStMan.
pub fn standard_files() -> impl Iterator<Item = Subject<StandardFile>> + Send {
    (0..).zip(counts()).map(|(number, (counts, rows))| {
        let rng = &mut Rng::new(SEED, number);
        of_counts(rng, &counts, rows)
    })
}

/// A file whose sets have these entry counts.
fn of_counts(rng: &mut Rng, counts: &[usize], least_rows: u64) -> Subject<StandardFile> {
    let most = counts.iter().copied().max().unwrap_or(1);
    let rows = least_rows.max((most + rng.within(most / 2..=2 * most)) as u64);
    let sets = counts.iter().map(|count| {
        let parts = parts(rng, rows, *count);
        let rows_per_bucket = *parts.iter().max().unwrap_or(&1) as u32 + rng.pick(&[0, 0, 1]);
        let columns = (0..rng.pick(&[1, 1, 2])).map(|_| column(rng, rows_per_bucket)).collect();
        (parts, Set::new(rng, columns, rows_per_bucket))
    });
    let sets = sets.collect();
    with_parts(rng, rows, sets)
}

/// So many parts of the rows.
fn parts(rng: &mut Rng, rows: u64, count: usize) -> Vec<u64> {
    let mut ends: Vec<u64> = (1..rows).collect();
    rng.shuffle(&mut ends);
    ends.truncate(count - 1);
    ends.push(rows);
    ends.sort_unstable();
    let starts = [0].into_iter().chain(ends.iter().copied());
    starts.zip(&ends).map(|(start, end)| end - start).collect()
}

/// A column that keeps the buckets small.
fn column(rng: &mut Rng, rows_per_bucket: u32) -> Column {
    if rows_per_bucket <= 12 && rng.chance(1, 6) {
        return Column::scalar(STRING, "").string_maximum(rng.within(1..=3) as u32);
    }
    let types: &[Type] = match rows_per_bucket {
        0..=4 => &[BOOL, UCHAR, SHORT, INT, DOUBLE],
        5..=12 => &[BOOL, UCHAR, SHORT],
        13..=40 => &[BOOL, UCHAR],
        _ => &[BOOL],
    };
    Column::scalar(rng.pick(types), "")
}

/// Good files of IncrementalStMan, with rows and places.
pub fn incremental_files() -> impl Iterator<Item = Subject<IncrementalFile>> + Send {
    let both = (0..).zip(standard_files()).filter_map(|(number, subject)| {
        let mut managers = subject.table.managers().iter();
        let manager = managers.find(|manager| manager.name.bytes == b"IncrementalStMan")?;
        let (number, rng) = (manager.number, &mut Rng::new(SEED + 2, number));
        let file = incremental::generate::file(rng, &subject.table, number);
        Some(Subject { table: subject.table, number, file })
    });
    let alone = (0..).map(|number| incremental::generate::subject(&mut Rng::new(SEED + 3, number)));
    let alone = alone.filter(has_places).take(INCREMENTAL);
    both.filter(has_places).chain(alone)
}

fn has_places(subject: &Subject<IncrementalFile>) -> bool {
    let columns = subject.table.columns();
    let mut own = subject.own_columns().into_iter();
    subject.table.rows() > 0 && own.any(|position| subject.file.has_place(&columns[position]))
}

/// The rows that are asked: the first and last of each entry and the one past
/// the end, or some of these.
fn asked_rows(last_rows: &[u64], most: usize) -> Vec<u64> {
    let rows = last_rows.last().map_or(0, |last| last + 1);
    let borders = last_rows.iter().flat_map(|last| [*last, last + 1]);
    let borders: Vec<u64> = [0].into_iter().chain(borders).collect();
    if borders.len() <= most {
        return borders;
    }
    let some = (0..most - 1).map(|index| borders[index * (borders.len() - 2) / (most - 2)]);
    some.chain([rows]).collect()
}

/// Place of the rows of each set, by position and by plan, some views, and
/// what is refused.
fn standard_lines(number: u64, subject: &Subject<StandardFile>) -> Vec<String> {
    let rng = &mut Rng::new(SEED + 4, number);
    let asked = Asked::new(subject);
    let room = asked.index_length + rng.pick(&[0, 0, 0, 1, 7]);
    let digits = 2 * (asked.table.len() + asked.file.len());
    let indices = &subject.file.indices;
    let most = (DIGITS / digits / indices.len()).max(LEAST_ROWS);
    let mut lines = Vec::new();
    for (set, index) in indices.iter().enumerate() {
        let mut own = subject.own_columns();
        own.retain(|position| subject.table.columns()[*position].info.set == set as u32);
        if own.is_empty() {
            continue; // beyond the 64th
        }
        let last_rows = &index.last_rows.elements;
        let is_alone = indices.len() == 1;
        let rows: Vec<u64> = match last_rows.len() {
            1..=12 if is_alone => (0..=asked.rows).collect(),
            13..=FEW if is_alone => asked_rows(last_rows, usize::MAX),
            _ => asked_rows(last_rows, most),
        };
        for (count, row) in rows.into_iter().enumerate() {
            let position = rng.pick(&own);
            let plan = &asked.plans[position];
            let place = asked.cell("place", row, position as u64, room);
            let planned = asked.planned_cell("placeplan", row, plan, room);
            match count % 3 {
                _ if last_rows.len() <= 12 => lines.extend([place, planned]),
                2 => lines.push(planned),
                _ => lines.push(place),
            }
            match count % 16 {
                0 => lines.push(asked.planned_cell("paddedplan", row, plan, room)),
                4 => lines.push(asked.cell("view", row, position as u64, room)),
                8 => lines.push(asked.cell("padded", row, position as u64, room)),
                12 => lines.push(asked.planned_cell("viewplan", row, plan, room)),
                _ => {}
            }
        }
    }
    if digits < 100_000 {
        lines.extend(refused_lines(rng, &asked, room));
    }
    lines
}

/// Rows that are not there, stale plans, columns that are not there, short
/// rooms and torn files; and the check and plans, which have no looks.
fn refused_lines(rng: &mut Rng, asked: &Asked, room: usize) -> Vec<String> {
    let position = rng.pick(&asked.own[0]);
    let (row, rows) = (rng.number() % asked.rows, asked.rows);
    let fresh = asked.plans[position];
    let position = position as u64;
    let mut lines = vec![
        asked.check(asked.number.into(), room),
        asked.plan(rng.pick(&asked.own[0]) as u64, room),
    ];
    for row in [rows, rows + 1, row | 1 << 32, u64::MAX] {
        lines.push(asked.cell("place", row, position, room));
        lines.push(asked.planned_cell("placeplan", row, &fresh, room));
    }
    let mut stale = fresh;
    stale[rng.below(9)] += 1;
    lines.push(asked.planned_cell("placeplan", row, &stale, room));
    lines.push(asked.planned_cell("placeplan", rows, &stale, room));
    let mut others = rng.pick(&asked.plans);
    others[0] = position;
    lines.push(asked.planned_cell("placeplan", row, &others, room));
    lines.push(asked.cell("place", row, asked.plans.len() as u64, room));
    lines.push(asked.cell("place1", row, position, room));
    let short = asked.index_length.saturating_sub(1);
    lines.push(asked.cell("place", row, position, short));
    lines.push(asked.planned_cell("placeplan", row, &fresh, short));
    let file = asked.file[..asked.file.len() - rng.within(1..=40)].to_vec();
    let torn = Asked { file, ..asked.clone() };
    lines.push(torn.cell("place", row, position, room));
    lines.push(torn.planned_cell("placeplan", row, &fresh, room));
    lines
}

/// Place of rows in each bucket, by position, by plan and in one bucket.
fn incremental_lines(number: u64, subject: &Subject<IncrementalFile>) -> Vec<String> {
    let rng = &mut Rng::new(SEED + 5, number);
    let asked = Asked::new(subject);
    let room = rng.pick(&[0, 0, 3]);
    let mut lines = Vec::new();
    for first in &subject.file.index.first_rows.elements {
        let (row, position) = (*first, rng.pick(&asked.own[0]));
        lines.push(asked.cell("place", row, position as u64, room));
        lines.push(asked.planned_cell("placeplan", row, &asked.plans[position], room));
        // It tells no looks.
        if rng.chance(1, 2) {
            lines.push(asked.cell("place1", row, position as u64, room));
        }
    }
    lines.extend(refused_lines(rng, &asked, room));
    lines
}
