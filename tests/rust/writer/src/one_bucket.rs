//! Request lines about Place in one bucket: IncrementalStMan files of several
//! buckets, good and with faults in the row's own bucket, in another one and in
//! what is read before the buckets; rows in every bucket and past the end; and
//! columns that have no such place.
//!
//! The place of a cell is that of the good file, as long as its own bucket has no
//! fault.

use crate::bucket_faults::{Fault, Step};
use crate::buckets::{BucketFile, Subject};
use crate::faults;
use crate::hex::hex;
use crate::incremental::faults::{
    BAD_OFFSET, BucketFault, IN_BUCKET, Incremental, judge_turned, rows_rise, starts_fit, strings,
};
use crate::incremental::{self, IncrementalFile};
use crate::layout::Blame;
use crate::objects::Expect;
use crate::rng::Rng;
use crate::rows;
use crate::samples;
use crate::standard;
use crate::table::{STRING, Table};

const SEED: u64 = 13;

/// The lengths of rooms.
const ROOMS: [usize; 7] = [0, 0, 1, 1, 7, 40, 300];

/// How many files: good ones, and of each fault.
const GOOD: u64 = 60;
const OF_BUCKET_FAULT: u64 = 26;
const OF_TWO_BUCKETS: u64 = 60;
const OF_WHOLE_FAULT: u64 = 16;
const OF_EARLY_FAULT: u64 = 8;
const OF_TABLE_FAULT: u64 = 1;
const OF_NO_ROWS: u64 = 60;
const OF_COLUMNS: u64 = 120;

/// The most bytes of a table and its file.
const SHORT: usize = 3000;

/// What a reader must answer.
#[derive(Clone, Copy, Debug, PartialEq, Eq)]
pub enum Answer {
    /// First bit, bit count and bucket size.
    Placed([u64; 3]),
    /// The number and the byte.
    Refused(u8, u64),
    /// It depends on other fields.
    Open,
}

const NO_SUCH: Answer = Answer::Refused(8, 0);
const NO_ROW: Answer = Answer::Refused(9, 0);
const WRONG_MAP: Answer = Answer::Refused(11, 0);

/// A question, and what a reader must answer.
#[derive(Clone, Debug)]
pub struct Case {
    pub table: Vec<u8>,
    pub file: Vec<u8>,
    pub row: u64,
    pub position: u64,
    pub room: usize,
    pub answer: Answer,
    /// The fault's name.
    pub what: &'static str,
}

impl Case {
    fn line(&self) -> String {
        let Self { table, file, row, position, room, .. } = self;
        format!("place1 {} {} {row} {position} {room}", hex(table), hex(file))
    }
}

/// All lines.
pub fn lines() -> impl Iterator<Item = String> + Send {
    cases().map(|case| case.line())
}

/// All questions.
pub fn cases() -> impl Iterator<Item = Case> + Send {
    let pool = Pool::new();
    let each = |seed: u64, count: u64| (0..count).map(move |number| Rng::new(SEED + seed, number));
    let early: Vec<Fault<IncrementalFile>> =
        incremental::faults::faults().into_iter().filter(|f| f.step < Step::Buckets).collect();
    let whole = incremental::faults::faults().into_iter().filter(|f| WHOLE.contains(&f.name));
    let whole: Vec<Fault<IncrementalFile>> = whole.collect();
    let mut cases = Vec::new();
    for subject in samples::incremental_files().iter().chain(&pool.many_rows) {
        cases.extend(good_file(&mut Rng::new(SEED, 0), subject));
    }
    for mut rng in each(1, GOOD) {
        let subject = pool.subject(&mut rng);
        cases.extend(good_file(&mut rng, &subject));
    }
    for mut rng in each(2, OF_BUCKET_FAULT) {
        for fault in IN_BUCKET {
            cases.extend(bucket_fault(&mut rng, &pool, fault));
        }
    }
    for mut rng in each(3, OF_TWO_BUCKETS) {
        cases.extend(two_buckets(&mut rng, &pool));
    }
    for mut rng in each(4, OF_WHOLE_FAULT) {
        for fault in &whole {
            cases.extend(whole_fault(&mut rng, &pool, fault));
        }
    }
    for mut rng in each(5, OF_EARLY_FAULT) {
        for fault in &early {
            let subject = pool.subject(&mut rng);
            cases.extend(early_fault(&mut rng, subject, fault));
        }
    }
    for mut rng in each(6, OF_NO_ROWS) {
        let fault = rng.pick(&early);
        cases.extend(no_rows(&mut rng, &fault));
    }
    for mut rng in each(7, OF_TABLE_FAULT) {
        for (what, fault) in faults::FAULTS {
            cases.extend(table_fault(&mut rng, &pool, what, *fault));
        }
    }
    for mut rng in each(8, OF_COLUMNS) {
        cases.extend(columns(&mut rng));
    }
    cases.into_iter()
}

/// Good files to choose from.
struct Pool {
    /// Of more rows than 31 bits can count, with borders at both sides of 2^31 and
    /// of 2^32.
    many_rows: Vec<Incremental>,
}

impl Pool {
    fn new() -> Self {
        Self { many_rows: rows::many_rows().filter(has_several).step_by(3).collect() }
    }

    /// A good file of several buckets and columns.
    fn subject(&self, rng: &mut Rng) -> Incremental {
        if rng.chance(1, 6) {
            return self.many_rows[rng.below(self.many_rows.len())].clone();
        }
        loop {
            let subject = incremental::generate::subject(rng);
            if has_several(&subject) && is_short(&subject) {
                return subject;
            }
        }
    }
}

fn has_several(subject: &Incremental) -> bool {
    let own = subject.own_columns();
    subject.file.data.len() > 1 && own.len() > 1 && !placed_columns(subject).is_empty()
}

fn is_short(subject: &Incremental) -> bool {
    subject.table.encode().len() + subject.file.encode().len() <= SHORT
}

/// The positions of the manager's columns that have places.
fn placed_columns(subject: &Incremental) -> Vec<usize> {
    let columns = subject.table.columns();
    let own = subject.own_columns().into_iter();
    own.filter(|position| subject.file.has_place(&columns[*position])).collect()
}

/// The bytes of a table and its file, for several questions.
struct Files {
    table: Vec<u8>,
    file: Vec<u8>,
    what: &'static str,
}

impl Files {
    fn new(subject: &Incremental, what: &'static str) -> Self {
        Self { table: subject.table.encode(), file: subject.file.encode(), what }
    }

    fn ask(&self, rng: &mut Rng, row: u64, position: usize, answer: Answer) -> Case {
        Case {
            table: self.table.clone(),
            file: self.file.clone(),
            row,
            position: position as u64,
            room: rng.pick(&ROOMS),
            answer,
            what: self.what,
        }
    }
}

/// Where the writer put a cell of a file whose own bucket is good.
fn placed(subject: &Incremental, position: usize, row: u64) -> Answer {
    let (first_bit, bit_count) = subject.file.place(&subject.table, position, row);
    Answer::Placed([first_bit, bit_count, subject.file.buckets.size.into()])
}

/// What a reader says of a bucket; a good one has the cell where the writer put it.
fn of_bucket(subject: &Incremental, expect: Expect, position: usize, row: u64) -> Answer {
    match expect.at_byte(|blame| subject.file.byte(blame)) {
        Expect::Accepted => placed(subject, position, row),
        expect => refused(expect),
    }
}

fn refused(expect: Expect) -> Answer {
    match expect {
        Expect::Refused(number, Blame::Byte(byte)) => Answer::Refused(number, byte as u64),
        _ => Answer::Open,
    }
}

/// The entry of a row of the table: the one with the last first row that is not
/// above it.
fn entry_of(subject: &Incremental, row: u64) -> usize {
    let first_rows = &subject.file.index.first_rows.elements;
    let after = (1..first_rows.len() - 1).find(|entry| first_rows[*entry] > row);
    after.unwrap_or(first_rows.len() - 1) - 1
}

/// The first and the last row of a bucket.
fn ends(subject: &Incremental, entry: usize) -> [u64; 2] {
    let first_rows = &subject.file.index.first_rows.elements;
    [first_rows[entry], first_rows[entry + 1] - 1]
}

/// A row of a bucket, often beside a border of its values.
fn some_row(rng: &mut Rng, subject: &Incremental, entry: usize) -> u64 {
    let [first, last] = ends(subject, entry);
    let starts: Vec<u64> =
        subject.file.data[entry].columns.iter().flat_map(|values| values.starts.clone()).collect();
    match rng.below(4) {
        0 => first + rng.number() % (last - first + 1),
        1 if !starts.is_empty() => first + rng.pick(&starts),
        2 if !starts.is_empty() => (first + rng.pick(&starts)).saturating_sub(1).max(first),
        _ => (first + 1).min(last),
    }
}

/// A row that is not there; some have the same low half as one that is.
fn past_end(rng: &mut Rng, rows: u64) -> u64 {
    let row = if rows > 0 { rng.number() % rows } else { 0 };
    let past = match rng.below(7) {
        0 | 1 => rows,
        2 => rows + 1,
        3 => u64::MAX,
        4 => 1 << 63 | row,
        5 => rows + (1 << 32),
        _ => row | 1 << 62,
    };
    past.max(rows)
}

/// Rows in every bucket, at its ends and in it; past the end; and the position
/// past the last.
fn good_file(rng: &mut Rng, subject: &Incremental) -> Vec<Case> {
    let files = Files::new(subject, "none");
    let positions = placed_columns(subject);
    let mut cases = Vec::new();
    for entry in 0..subject.file.data.len() {
        let [first, last] = ends(subject, entry);
        let rows = [first, last, some_row(rng, subject, entry), some_row(rng, subject, entry)];
        for row in rows {
            let position = rng.pick(&positions);
            cases.push(files.ask(rng, row, position, placed(subject, position, row)));
        }
    }
    for _ in 0..2 {
        let row = past_end(rng, subject.table.rows());
        let position = rng.pick(&positions);
        cases.push(files.ask(rng, row, position, NO_ROW));
    }
    cases.push(files.ask(rng, 0, subject.table.columns().len(), NO_SUCH));
    cases
}

/// A fault in one bucket: asked about rows of this bucket, in the column that has
/// the fault and in another, about rows of others, and past the end.
fn bucket_fault(rng: &mut Rng, pool: &Pool, fault: BucketFault) -> Vec<Case> {
    let (good, column) = loop {
        let good = pool.subject(rng);
        let columns: Vec<usize> = match fault.is_of_strings() {
            true => strings(&good),
            false => (0..good.own_columns().len()).collect(),
        };
        if !columns.is_empty() {
            break (good, rng.pick(&columns));
        }
    };
    let entry = rng.below(good.file.data.len());
    let mut bad = good.clone();
    let expect = (fault.apply)(rng, &mut bad, (entry, column));
    let files = Files::new(&bad, fault.name);
    let positions = placed_columns(&good);
    let [first, last] = ends(&good, entry);
    let mut cases = Vec::new();
    for row in [first, last, some_row(rng, &good, entry)] {
        let spoilt = good.own_columns()[column];
        let spoilt = if positions.contains(&spoilt) { spoilt } else { positions[0] };
        for position in [spoilt, rng.pick(&positions)] {
            cases.push(files.ask(rng, row, position, of_bucket(&bad, expect, position, row)));
        }
    }
    for other in (0..good.file.data.len()).filter(|other| *other != entry) {
        // The rows beside the spoilt bucket's.
        let [first, last] = ends(&good, other);
        let row = match other {
            _ if other + 1 == entry => last,
            _ if other == entry + 1 => first,
            _ if other > 6 => continue,
            _ => some_row(rng, &good, other),
        };
        let position = rng.pick(&positions);
        cases.push(files.ask(rng, row, position, placed(&good, position, row)));
    }
    let row = past_end(rng, good.table.rows());
    let position = rng.pick(&positions);
    cases.push(files.ask(rng, row, position, NO_ROW));
    cases
}

/// Faults in two buckets: each has its own.
fn two_buckets(rng: &mut Rng, pool: &Pool) -> Vec<Case> {
    let good = pool.subject(rng);
    let count = good.file.data.len();
    let first = rng.below(count - 1);
    let second = rng.within(first + 1..=count - 1);
    let mut bad = good.clone();
    let mut spoil = |entry: usize| {
        let fault = loop {
            let fault = rng.pick(&IN_BUCKET);
            if !fault.is_of_strings() {
                break fault;
            }
        };
        let column = rng.below(good.own_columns().len());
        (entry, (fault.apply)(rng, &mut bad, (entry, column)))
    };
    let expects = [spoil(first), spoil(second)];
    let files = Files::new(&bad, "two buckets");
    let positions = placed_columns(&good);
    let mut cases = Vec::new();
    for entry in 0..count {
        let row = some_row(rng, &good, entry);
        let position = rng.pick(&positions);
        let answer = match expects.iter().find(|(spoilt, _)| *spoilt == entry) {
            Some((_, expect)) => of_bucket(&bad, *expect, position, row),
            None => placed(&good, position, row),
        };
        cases.push(files.ask(rng, row, position, answer));
    }
    let row = past_end(rng, good.table.rows());
    cases.push(files.ask(rng, row, positions[0], NO_ROW));
    cases
}

/// Faults of the buckets that are not of one alone.
const WHOLE: [&str; 4] = [
    "border of rows",
    "bucket not in the index",
    "index offset before the data",
    "other byte order",
];

fn whole_fault(rng: &mut Rng, pool: &Pool, fault: &Fault<IncrementalFile>) -> Vec<Case> {
    let mut bad = pool.subject(rng);
    (fault.apply)(rng, &mut bad);
    let files = Files::new(&bad, fault.name);
    let positions = placed_columns(&bad);
    let mut cases = Vec::new();
    for entry in 0..bad.file.data.len() {
        for row in ends(&bad, entry) {
            let position = rng.pick(&positions);
            let answer = match fault.name {
                "index offset before the data" => WRONG_MAP,
                "other byte order" => refused(judge_turned(&bad.file, entry).at_byte(|_| 0)),
                _ => of_row(&bad, None, position, row),
            };
            cases.push(files.ask(rng, row, position, answer));
        }
    }
    let row = past_end(rng, bad.table.rows());
    cases.push(files.ask(rng, row, positions[0], NO_ROW));
    cases
}

/// What a reader says of a row if all that comes before it is good: the bucket of
/// one entry may be spoilt, and borders may stand elsewhere.
fn of_row(subject: &Incremental, spoilt: Option<usize>, position: usize, row: u64) -> Answer {
    if row >= subject.table.rows() {
        return NO_ROW;
    }
    let entry = entry_of(subject, row);
    match spoilt == Some(entry) || !starts_fit(&subject.file, entry) {
        true => WRONG_MAP,
        false => placed(subject, position, row),
    }
}

/// A fault of what is read before the row and the buckets; often with a bucket that
/// is spoilt too. Asked about rows in this bucket and in others, and past the end.
fn early_fault(rng: &mut Rng, good: Incremental, fault: &Fault<IncrementalFile>) -> Vec<Case> {
    let mut bad = good.clone();
    let mut spoilt = None;
    if rng.chance(1, 2) {
        let entry = rng.below(good.file.data.len());
        let expect = (BAD_OFFSET.apply)(rng, &mut bad, (entry, 0));
        spoilt = Some(entry).filter(|_| expect == crate::objects::WRONG_MAP);
        if spoilt.is_none() {
            bad = good.clone();
        }
    }
    let mut expect = (fault.apply)(rng, &mut bad);
    // Some of these leave the first rows good, and some starts too large.
    if ["first rows", "large first row"].contains(&fault.name)
        && rows_rise(&bad.file, bad.table.rows())
    {
        expect = Expect::Accepted;
    }
    let files = Files::new(&bad, fault.name);
    let positions = placed_columns(&good);
    let before = expect.at_byte(|blame| bad.file.byte(blame));
    let answer = |position: usize, row: u64| match before {
        Expect::Accepted => of_row(&bad, spoilt, position, row),
        expect => refused(expect),
    };
    let entry = spoilt.unwrap_or(0);
    let other = rng.below(good.file.data.len());
    let past = [past_end(rng, good.table.rows()), u64::MAX];
    let mut cases = Vec::new();
    for row in [some_row(rng, &good, entry), some_row(rng, &good, other), past[0], past[1]] {
        let position = rng.pick(&positions);
        cases.push(files.ask(rng, row, position, answer(position, row)));
    }
    if rng.chance(1, 3) {
        let columns = good.table.columns().len();
        let position = rng.pick(&[columns, columns + 1, usize::MAX, 1 << 32 | positions[0]]);
        let row = rng.pick(&past);
        cases.push(files.ask(rng, row, position, NO_SUCH));
    }
    cases
}

/// No rows: every row is past the end, if all that comes before is good.
fn no_rows(rng: &mut Rng, fault: &Fault<IncrementalFile>) -> Vec<Case> {
    let good = loop {
        let subject = incremental::generate::subject(rng);
        if subject.table.rows() == 0 && !placed_columns(&subject).is_empty() {
            break subject;
        }
    };
    let position = placed_columns(&good)[0];
    let mut cases = Vec::new();
    let files = Files::new(&good, "no rows");
    for row in [0, past_end(rng, 0)] {
        cases.push(files.ask(rng, row, position, NO_ROW));
    }
    let mut bad = good;
    let expect = (fault.apply)(rng, &mut bad).at_byte(|blame| bad.file.byte(blame));
    let files = Files::new(&bad, fault.name);
    let answer = match expect {
        Expect::Accepted if bad.table.rows() == 0 => NO_ROW,
        expect => refused(expect),
    };
    for row in [0, past_end(rng, 0)] {
        cases.push(files.ask(rng, row, position, answer));
    }
    cases
}

/// A fault of the table comes before the column, the file and the row.
fn table_fault(rng: &mut Rng, pool: &Pool, what: &'static str, fault: faults::Fault) -> Vec<Case> {
    let subject = pool.subject(rng);
    let mut table = subject.table.clone();
    let expect = fault(rng, &mut table).at_byte(|blame| table.byte(blame));
    let mut files = Files { table: table.encode(), ..Files::new(&subject, what) };
    if rng.chance(1, 2) {
        let length = rng.below(files.file.len());
        files.file.truncate(length);
    }
    let is_long = files.table.len() > faults::MAX_FILE;
    let answer = refused(if is_long { faults::TOO_LONG } else { expect });
    let position = placed_columns(&subject)[0];
    let mut cases = vec![files.ask(rng, 0, position, answer)];
    if answer != Answer::Open && !is_long {
        cases.push(files.ask(rng, u64::MAX, position, answer));
        cases.push(files.ask(rng, 0, usize::MAX, answer));
    }
    cases
}

/// Columns of StandardStMan, of other kinds, and of Strings that are kept
/// incrementally, with good, torn and other files: 8, before the file is looked
/// at.
fn columns(rng: &mut Rng) -> Vec<Case> {
    let (table, file) = if rng.chance(1, 2) {
        let Subject { table, file, .. } = standard::generate::subject(rng);
        (table, file.encode())
    } else {
        let Subject { table, file, .. } = incremental::generate::subject(rng);
        (table, file.encode())
    };
    let mut files = Files { table: table.encode(), file, what: "column" };
    if files.file.len() > SHORT {
        return Vec::new();
    }
    let without: Vec<usize> =
        (0..table.columns().len()).filter(|position| !may_have_place(&table, *position)).collect();
    let mut cases = Vec::new();
    for turn in 0..4 {
        let position = match without.len() {
            0 => table.columns().len(),
            count => without[(turn + rng.below(count)) % count],
        };
        match turn {
            1 => drop(files.file.pop()),
            2 => files.file.truncate(files.file.len() / 2),
            3 => files.file.clear(),
            _ => {}
        }
        let past = past_end(rng, table.rows());
        let row = rng.pick(&[0, past]);
        cases.push(files.ask(rng, row, position, NO_SUCH));
    }
    cases
}

/// Whether a column is one of IncrementalStMan, and not of Strings.
fn may_have_place(table: &Table, position: usize) -> bool {
    let column = &table.columns()[position];
    let mut managers = table.managers().iter();
    let manager = managers.find(|manager| manager.number == column.info.manager);
    let is_incremental = manager.is_some_and(|m| m.name.bytes == b"IncrementalStMan");
    is_incremental && column.data_type != STRING.number
}
