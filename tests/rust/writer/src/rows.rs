//! Request lines about row numbers of 64 bits: row counts of both widths, every
//! mixture of the versions that tell them, tables of more rows than 32 bits can
//! count, and their refused neighbours.

use crate::buckets::{BucketFile, Buckets, Subject};
use crate::hex::hex;
use crate::incremental::{DataBucket, IncrementalFile, Values};
use crate::layout::{OBJECT_VERSION, Part};
use crate::lean;
use crate::objects::{Expect, SIGN, WRONG_MAP};
use crate::questions::Asked;
use crate::rng::Rng;
use crate::samples;
use crate::standard::{self, StandardFile};
use crate::table::{BOOL, Column, INT, Manager, Table};

use Expect::{Accepted, Refused};

const SEED: u64 = 9;

/// The most rows.
const MOST: u64 = 1 << 62;

/// Plenty of room for files of few entries.
const ROOM: usize = 600;

/// A table or a file, and what a reader must answer to its description or its
/// check.
pub type Case<T> = (T, Expect);

/// All lines.
pub fn lines() -> impl Iterator<Item = String> + Send {
    let tables = table_cases().into_iter().enumerate().map(|(turn, (table, _))| {
        let word = if turn.is_multiple_of(8) { "listing" } else { "describe" };
        format!("{word} {}", hex(&table.encode()))
    });
    let standard = standard_cases().chain(past_32_bits()).flat_map(|case| case_lines(&case));
    let incremental = incremental_cases().flat_map(|case| case_lines(&case));
    let many = many_rows().flat_map(|subject| row_lines(&subject));
    tables.chain(standard).chain(incremental).chain(many)
}

/// The check; of a good file of few rows, Place of every cell; and of other files
/// of IncrementalStMan, Place in one bucket.
fn case_lines<F: BucketFile>((subject, expect): &Case<Subject<F>>) -> Vec<String> {
    let asked = Asked::new(subject);
    let room = if asked.index_length <= ROOM { ROOM } else { asked.index_length };
    let mut lines = vec![asked.check(asked.number.into(), room)];
    if *expect == Accepted && asked.rows < 20 {
        for position in &asked.own[0] {
            // In IncrementalStMan one of three in one bucket.
            let word = |row: u64| match (F::IS_INCREMENTAL, (row + *position as u64) % 3) {
                (true, 0) => "place1",
                _ => "place",
            };
            let rows = 0..=asked.rows;
            lines.extend(rows.map(|row| asked.cell(word(row), row, *position as u64, room)));
        }
    } else if F::IS_INCREMENTAL {
        let position = asked.own[0][0] as u64;
        lines.push(asked.cell("place1", asked.rows / 2, position, 1));
    }
    lines
}

// Row counts in `table.dat`.

/// Every version of ColumnSet near the good ones with row counts of both
/// widths, and other counts in Table's header.
pub fn table_cases() -> Vec<Case<Table>> {
    let mut cases = Vec::new();
    for table in [samples::small(), samples::little()] {
        for version in [-5, -4, -3, -2, -1, 0, 1, 2, 3, i32::MIN, i32::MAX] {
            for wide in [false, true] {
                let with_rows = |rows: u64, header_rows: u32| {
                    let mut table = table.clone();
                    table.header_rows = header_rows;
                    table.column_set.version = version;
                    table.column_set.wide = wide;
                    table.column_set.rows = rows;
                    table
                };
                for rows in row_counts(wide) {
                    for header_rows in [rows as u32, rows as u32 ^ 1, 0, u32::MAX] {
                        let table = with_rows(rows, header_rows);
                        let expect = judge_rows(&table);
                        cases.push((table, expect));
                    }
                }
            }
        }
    }
    cases
}

/// Row counts at limits; those of 64 bits with negative ones.
fn row_counts(wide: bool) -> Vec<u64> {
    let narrow = [0, 1, 7, (1 << 31) - 1, 1 << 31, (1 << 31) + 1, (1 << 32) - 1];
    let large = [1 << 32, (1 << 32) + 7, 1 << 33, 1 << 40, MOST - 1, MOST];
    let bad = [MOST + 1, MOST | 7, SIGN - 1, SIGN, SIGN | 7, u64::MAX, u64::MAX << 32];
    if wide { [&narrow[..], &large, &bad].concat() } else { narrow.into() }
}

fn judge_rows(table: &Table) -> Expect {
    let set = &table.column_set;
    let blame = Part::ColumnSet.field("rows");
    match set.version {
        -3 if set.wide && set.rows > MOST => Refused(4, blame),
        -3 if set.wide => Accepted,
        -2 if set.wide => Expect::Open, // the next field is the other half
        -3 => Expect::Open,
        -2 if set.rows != table.header_rows.into() => Refused(6, blame),
        -2 => Accepted,
        _ => Refused(3, Part::ColumnSet.field("version")),
    }
}

// Versions of StandardStMan.

/// Two sets in every mixture of versions, the versions beside them, and Blocks
/// of last rows that end at every byte, with negative elements in them.
pub fn standard_cases() -> impl Iterator<Item = Case<Subject<StandardFile>>> + Send {
    let mut cases = Vec::new();
    for mixture in 0..64 {
        let bit = |bit: u32| mixture >> bit & 1;
        let mut subject = samples::two_sets(bit(0), [bit(1) == 1, bit(2) == 1]);
        subject.table = formed(subject.table, bit(3) == 1, bit(4) == 1);
        subject.file.buckets.header.version = 3 + bit(5);
        cases.push((subject.clone(), Accepted));
        if bit(5) == 0 {
            continue;
        }
        for (set, index) in subject.file.indices.iter().enumerate() {
            for version in [0, 3, 4, u32::MAX] {
                let mut wrong = subject.clone();
                wrong.file.indices[set].header.version = version;
                cases.push((wrong, Refused(3, Part::Index(set).field(OBJECT_VERSION))));
            }
            // The version of the other width.
            let mut other = subject.clone();
            other.file.indices[set].header.version = if index.last_rows.wide { 1 } else { 2 };
            let blame = match index.last_rows.wide {
                true => Refused(7, Part::Rows(set).header()),
                false => Refused(1, Part::Rows(set).nth("element", 2)), // of three
            };
            cases.push((other, blame));
        }
        for version in [0, 2, 5, 6, u32::MAX] {
            let mut wrong = subject.clone();
            wrong.file.buckets.header.version = version;
            cases.push((wrong, Refused(3, Part::Header.field(OBJECT_VERSION))));
        }
    }
    for table in [samples::small(), samples::little()] {
        let subject = samples::wide_small(table);
        for (negative, cut, expect) in torn_rows(Part::Rows(0), 2) {
            let mut torn = subject.clone();
            let last_rows = &mut torn.file.indices[0].last_rows;
            negative.iter().for_each(|element| last_rows.elements[*element] |= SIGN);
            last_rows.header.cut = cut;
            cases.push((torn, expect));
        }
    }
    cases.into_iter()
}

/// The table with ColumnSet -3 or -2, with an object in its DMInfo or without.
fn formed(mut table: Table, wide: bool, object: bool) -> Table {
    if object {
        for manager in table.managers_mut() {
            *manager = manager.clone().with_object("Data");
        }
        table.write_infos();
    }
    if wide {
        table.widen(99);
    }
    table
}

/// For a Block of so many Int64 rows: which are negative, how many bytes are cut
/// off its end, and what a reader then says. What it reads first decides.
fn torn_rows(of: Part, count: usize) -> Vec<(Vec<usize>, usize, Expect)> {
    let mut cases = Vec::new();
    let single = (0..count).map(|element| vec![element]);
    let negatives = [vec![], (0..count).collect()].into_iter().chain(single);
    for negative in negatives {
        for cut in 0..=8 * count {
            let whole = count - cut.div_ceil(8); // elements that fit
            let first = negative.iter().copied().min().filter(|element| *element < whole);
            let expect = match first {
                Some(element) => Refused(4, of.nth("element", element)),
                None if cut == 0 => Accepted,
                None => Refused(1, of.nth("element", whole)),
            };
            cases.push((negative.clone(), cut, expect));
        }
    }
    cases
}

/// Sets without columns whose entries reach 2^32 rows and more, and neighbours
/// that are right in their low halves.
pub fn past_32_bits() -> impl Iterator<Item = Case<Subject<StandardFile>>> + Send {
    const BUCKET: u64 = standard::generate::MOST_ROWS as u64;
    let rows = [(1 << 32) - 1, 1 << 32, (1 << 32) + 1, (1 << 32) + 3 * BUCKET + 5];
    let rows = (0..).zip(rows.into_iter().flat_map(|rows| [rows; 2]));
    rows.flat_map(|(number, rows)| {
        let rng = &mut Rng::new(SEED, number);
        let good = standard::generate::without_columns(rng, rows);
        neighbours(&good).into_iter().chain([(good, Accepted)])
    })
}

fn neighbours(good: &Subject<StandardFile>) -> Vec<Case<Subject<StandardFile>>> {
    let mut cases = Vec::new();
    let mut add = |expect: Expect, change: &dyn Fn(&mut Subject<StandardFile>)| {
        let mut subject = good.clone();
        subject.file.indices[0].widen();
        subject.table.widen(0);
        change(&mut subject);
        cases.push((subject, expect));
    };
    let entries = good.file.indices[0].last_rows.elements.len();
    let with_row = |entry: usize, change: fn(u64) -> u64| {
        move |subject: &mut Subject<StandardFile>| {
            let row = &mut subject.file.indices[0].last_rows.elements[entry];
            *row = change(*row);
        }
    };
    for entry in [0, 255, 511, entries - 1] {
        add(WRONG_MAP, &with_row(entry, |row| row ^ 1 << 32));
        add(WRONG_MAP, &with_row(entry, |row| row | 1 << 62));
        add(WRONG_MAP, &with_row(entry, |_| SIGN - 1));
        let negative = Refused(4, Part::Rows(0).nth("element", entry));
        add(negative, &with_row(entry, |row| row | SIGN));
    }
    // The table's rows have the same low half, or are one more or less.
    for change in [|rows: u64| rows ^ 1 << 32, |rows: u64| rows + (1 << 33)] {
        add(WRONG_MAP, &|subject| subject.table.set_rows(change(subject.table.rows())));
    }
    add(WRONG_MAP, &|subject| subject.table.set_rows(subject.table.rows() + 1));
    add(WRONG_MAP, &|subject| subject.table.set_rows(subject.table.rows() - 1));
    add(WRONG_MAP, &|subject| subject.file.indices[0].rows_per_bucket -= 1);
    add(Accepted, &|_| ());
    cases
}

// Versions of IncrementalStMan.

/// Three buckets with high bytes in every mixture, in files of both versions;
/// and ISMIndex objects as the SSMIndex objects above.
pub fn incremental_cases() -> impl Iterator<Item = Case<Subject<IncrementalFile>>> + Send {
    let mut cases = Vec::new();
    const HIGH: [u8; 3] = [0, 1, 200];
    for mixture in 0..27 {
        let highs = [HIGH[mixture % 3], HIGH[mixture / 3 % 3], HIGH[mixture / 9]];
        for form in 0..8 {
            let bit = |bit: u32| form >> bit & 1;
            let few =
                Runs { first_rows: vec![0, 4, 5, 9], highs: highs.into(), endianness: bit(0) };
            let mut subject = few.subject(|rows, column| match (rows, column) {
                (1, _) => vec![0],
                (rows, 0) => vec![0, rows - 2],
                (rows, _) => vec![0, 1, rows - 1],
            });
            subject.table = formed(subject.table, bit(1) == 1, mixture % 2 == 1);
            if bit(2) == 1 {
                subject.file.index.widen();
            }
            cases.push((subject, Accepted));
        }
    }
    for subject in samples::incremental_files() {
        for version in [0, 3, 4, u32::MAX] {
            let mut wrong = subject.clone();
            wrong.file.index.header.version = version;
            cases.push((wrong, Refused(3, Part::Index(0).field(OBJECT_VERSION))));
        }
        for version in [0, 3, 4, 6, u32::MAX] {
            let mut wrong = subject.clone();
            wrong.file.buckets.header.version = version;
            cases.push((wrong, Refused(3, Part::Header.field(OBJECT_VERSION))));
        }
    }
    for subject in samples::incremental_files().into_iter().skip(2) {
        for (negative, cut, expect) in torn_rows(Part::Rows(0), 4) {
            let mut torn = subject.clone();
            let first_rows = &mut torn.file.index.first_rows;
            negative.iter().for_each(|element| first_rows.elements[*element] |= SIGN);
            first_rows.header.cut = cut;
            cases.push((torn, expect));
        }
        cases.extend(bad_starts(&subject));
    }
    cases.into_iter()
}

/// Each start of the survey's first bucket with values beside others, at limits
/// and negative.
fn bad_starts(survey: &Subject<IncrementalFile>) -> Vec<Case<Subject<IncrementalFile>>> {
    let mut cases = Vec::new();
    let rows = survey.file.index.first_rows.elements[1];
    for (column, values) in survey.file.data[0].columns.iter().enumerate() {
        for (value, start) in values.starts.iter().enumerate() {
            let before = if value > 0 { values.starts[value - 1] } else { 0 };
            let near = [before, before + 1, start + 1, rows - 1, rows, rows + 1];
            let far = [start ^ 1 << 32, start | 1 << 33, MOST, MOST + 1, SIGN - 1];
            let negative = [SIGN, start | SIGN, u64::MAX];
            for other in [&near[..], &far, &negative].concat() {
                let mut changed = survey.clone();
                let starts = &mut changed.file.data[0].columns[column].starts;
                starts[value] = other;
                let rises = starts.is_sorted_by(|start, next| start < next);
                let is_good = rises && starts[0] == 0 && starts.iter().all(|start| *start < rows);
                cases.push((changed, if is_good { Accepted } else { WRONG_MAP }));
            }
        }
    }
    cases
}

/// A table of an Int and 9 Bools, kept in a file of IncrementalStMan.
struct Runs {
    first_rows: Vec<u64>,
    /// Of each bucket; 0 for uInt starts.
    highs: Vec<u8>,
    endianness: u32,
}

impl Runs {
    /// With the starts of a bucket of so many rows, of each column.
    fn subject(&self, starts: impl Fn(u64, usize) -> Vec<u64>) -> Subject<IncrementalFile> {
        let columns = vec![Column::scalar(INT, ""), Column::direct(BOOL, "", &[9])];
        let parts = self.first_rows.windows(2).map(|rows| rows[1] - rows[0]);
        let data: Vec<DataBucket> = (0..)
            .zip(parts.zip(&self.highs))
            .map(|(number, (rows, high))| {
                let mut end = 0;
                let values = [4, 2].into_iter().enumerate().map(|(column, size)| {
                    let starts = starts(rows, column);
                    let first = end;
                    end += size * starts.len() as u32;
                    Values::new(starts, (first..end).step_by(size as usize).collect())
                });
                let values = values.collect();
                let mut bucket = DataBucket::new(number, vec![number as u8; end as usize], values);
                if *high > 0 {
                    bucket.widen(*high);
                }
                bucket
            })
            .collect();
        let size = data.iter().map(DataBucket::length).max().unwrap_or(16) as u32;
        let count = data.len() as u32;
        let buckets = Buckets::new("IncrementalStMan", 5, self.endianness, size, count);
        let rows = self.first_rows[self.first_rows.len() - 1];
        let manager = Manager::new("IncrementalStMan", 0);
        let table = lean::bare(rows, self.endianness, columns, vec![manager]);
        let file = IncrementalFile::new(buckets, self.first_rows.clone(), data);
        Subject { table, number: 0, file }
    }
}

/// Good files of many rows in few buckets, whose borders lie at both sides of
/// 2^31 and of 2^32.
pub fn many_rows() -> impl Iterator<Item = Subject<IncrementalFile>> + Send {
    let counts = [
        (1 << 31) - 1,
        1 << 31,
        (1 << 31) + 1,
        (1 << 32) - 1,
        1 << 32,
        (1 << 32) + 1,
        (1 << 33) + 2,
        1 << 40,
        MOST - 1,
        MOST,
    ];
    let borders: [&[u64]; 4] =
        [&[], &[1 << 31], &[(1 << 31) - 1, 1 << 32], &[5, (1 << 32) - 1, (1 << 32) + 1]];
    counts.into_iter().flat_map(move |rows| {
        borders.into_iter().flat_map(move |borders| {
            let mut first_rows = [&[0], borders, &[rows]].concat();
            first_rows.retain(|row| *row <= rows);
            first_rows.dedup();
            // An Int64 is needed where a start is too large.
            let high = |rows: &[u64]| if rows[1] - rows[0] > 1 << 32 { 1 } else { 0 };
            let highs: Vec<u8> = first_rows.windows(2).map(high).collect();
            [0, 1].map(|endianness| {
                let first_rows = first_rows.clone();
                Runs { first_rows, highs: highs.clone(), endianness }.subject(beside_powers)
            })
        })
    })
}

/// Starts at the ends of the rows, and beside 2^31 and 2^32.
fn beside_powers(rows: u64, column: usize) -> Vec<u64> {
    let beside = |power: u64| [power - 1, power, power + 1];
    let mut starts = match column {
        0 => [&[0, 1][..], &beside(1 << 31), &beside(1 << 32), &[rows - 1]].concat(),
        _ => vec![0, rows / 3, 1 << 31, 1 << 32, rows / 2],
    };
    starts.retain(|start| *start < rows);
    starts.sort_unstable();
    starts.dedup();
    starts
}

/// Place, by position, by plan and in one bucket, and View of rows beside borders
/// and powers of two, at the end and past it, and of those that have the same low half.
fn row_lines(subject: &Subject<IncrementalFile>) -> Vec<String> {
    let asked = Asked::new(subject);
    let mut lines = vec![asked.check(0, 0)];
    for (turn, row) in asked_rows(&asked).into_iter().enumerate() {
        let position = turn / 2 % 2;
        let plan = &asked.plans[position];
        lines.push(match turn % 5 {
            0 => asked.planned_cell("placeplan", row, plan, 0),
            1 if turn % 2 == 0 => asked.cell("padded", row, position as u64, 1),
            1 => asked.cell("view", row, position as u64, 1),
            2 => asked.cell("place1", row, position as u64, 1),
            _ => asked.cell("place", row, position as u64, 0),
        });
    }
    lines
}

fn asked_rows(asked: &Asked) -> Vec<u64> {
    let powers = [31, 32, 33, 62, 63].map(|power| 1 << power);
    let mut rows = [&asked.border_rows[..], &powers, &[asked.rows, u64::MAX]].concat();
    rows.extend(
        rows.clone().into_iter().flat_map(|row| [row.wrapping_sub(1), row.wrapping_add(1)]),
    );
    let low =
        rows.clone().into_iter().flat_map(|row| [row & 0xFFFF_FFFF, row | 1 << 32, row | SIGN]);
    rows.extend(low.step_by(4));
    rows.sort_unstable();
    rows.dedup();
    rows
}
