//! Questions about keywords, and what a reader must answer.

use crate::faults as table_faults;
use crate::hex::hex;
use crate::keywords::faults::{self, FAULTS};
use crate::keywords::generate;
use crate::keywords::paths;
use crate::keywords::record::{Place, TableRecord};
use crate::layout::{Blame, Part};
use crate::lean;
use crate::objects::Expect;
use crate::rng::Rng;
use crate::table::{Manager, Record, Table};
use crate::texts::Answer;
use std::sync::Arc;

/// Whose keywords are asked.
#[derive(Clone, Copy, Debug, PartialEq, Eq)]
pub enum Scope {
    Table,
    /// The column at this position.
    Column(u64),
}

impl Scope {
    pub fn part(self) -> Part {
        match self {
            Self::Table => Part::Keywords,
            Self::Column(position) => Part::ColumnKeywords(position as usize),
        }
    }
}

/// The bytes of a table, for several questions.
#[derive(Debug)]
pub struct Bytes {
    pub bytes: Vec<u8>,
    digits: String,
}

impl Bytes {
    pub fn new(bytes: Vec<u8>) -> Arc<Self> {
        let digits = hex(&bytes);
        Arc::new(Self { bytes, digits })
    }
}

/// A question, and what a reader must answer.
#[derive(Clone, Debug)]
pub struct Case {
    pub table: Arc<Bytes>,
    pub scope: Scope,
    pub path: Vec<u8>,
    /// Of a field by its number.
    pub number: Option<u64>,
    pub answer: Answer,
    /// The fault's name.
    pub what: &'static str,
}

impl Case {
    pub fn word(&self) -> &'static str {
        if self.number.is_some() { "field" } else { "keyword" }
    }

    pub fn line(&self) -> String {
        let scope = match self.scope {
            Scope::Table => "table".to_string(),
            Scope::Column(position) => position.to_string(),
        };
        let number = self.number.map(|number| format!(" {number}")).unwrap_or_default();
        format!("{} {} {scope} {}{number}", self.word(), self.table.digits, hex(&self.path))
    }

    /// The line that a reader must answer with, if it does not depend on others.
    pub fn expected(&self) -> Option<String> {
        Some(match &self.answer {
            Answer::Told(numbers) => {
                let numbers: Vec<String> = numbers.iter().map(u64::to_string).collect();
                format!("ok {}", numbers.join(" "))
            }
            Answer::Refused(number, byte) => format!("refused {number} {byte}"),
            Answer::Open => return None,
        })
    }
}

/// A table with a record among its keywords, and what a reader says of that.
#[derive(Clone, Debug)]
pub struct Subject {
    pub table: Arc<Bytes>,
    pub scope: Scope,
    /// Where the record begins.
    pub start: usize,
    pub places: Vec<Place>,
    /// With the byte counted from the record's start.
    pub expect: Expect,
    pub what: &'static str,
}

impl Subject {
    /// The record in a table's place for it.
    pub fn new(table: &Table, scope: Scope, record: &TableRecord, expect: Expect) -> Self {
        let mut table = table.clone();
        *keywords_mut(&mut table, scope) = record.encode();
        let layout = table.layout();
        let start = layout.object(scope.part()).start;
        let expect = expect.at_byte(|blame| record.byte(blame));
        let places = record.layout().1;
        Self { table: Bytes::new(layout.bytes), scope, start, places, expect, what: "none" }
    }

    /// What a reader must answer.
    fn answer(&self, path: &[u8], number: Option<u64>) -> Answer {
        match self.expect {
            Expect::Accepted => match number {
                None => paths::keyword(&self.places, self.start, path),
                Some(number) => paths::field(&self.places, self.start, path, number),
            },
            Expect::Refused(number @ 1..=7, Blame::Byte(byte)) => {
                Answer::Refused(number, (self.start + byte) as u64)
            }
            Expect::Refused(number, _) => Answer::Refused(number, 0),
            Expect::Open => Answer::Open,
        }
    }

    pub fn ask(&self, path: Vec<u8>, number: Option<u64>) -> Case {
        let answer = self.answer(&path, number);
        let (table, scope, what) = (self.table.clone(), self.scope, self.what);
        Case { table, scope, path, number, answer, what }
    }

    /// A question with a right path, one near it, or any.
    pub fn question(&self, rng: &mut Rng) -> Case {
        let known = paths::all(&self.places);
        let hidden = paths::hidden(&self.places);
        if !hidden.is_empty() && rng.chance(1, 3) {
            let path = hidden[rng.below(hidden.len())].clone();
            let number = rng.chance(1, 3).then(|| rng.below(3) as u64);
            return self.ask(path, number);
        }
        let right = |rng: &mut Rng| match known.len() {
            0 => paths::string(b"UNIT"),
            count => known[rng.below(count)].0.clone(),
        };
        if rng.chance(3, 5) {
            let path = right(rng);
            let path = if rng.chance(1, 2) { path } else { paths::near(rng, &path) };
            return self.ask(path, None);
        }
        let records = paths::records(&self.places);
        let (path, count) = records[rng.below(records.len())].clone();
        let number = match rng.below(12) {
            0 => count as u64,
            1 => rng.pick(&[count as u64 + 1, 1 << 32, 1 << 63, u64::MAX]),
            2 => rng.number() >> rng.below(64),
            _ => rng.below(count.max(1)) as u64,
        };
        let path = match rng.below(12) {
            0 => right(rng),
            1 => paths::near(rng, &path),
            _ => path,
        };
        self.ask(path, Some(number))
    }
}

/// The place of a table for the keywords of a scope.
pub fn keywords_mut(table: &mut Table, scope: Scope) -> &mut Record {
    match scope {
        Scope::Table => &mut table.description.keywords,
        Scope::Column(position) => &mut table.columns_mut()[position as usize].keywords,
    }
}

/// A good table of few bytes and one to three columns.
fn table(rng: &mut Rng) -> Table {
    let columns = (0..rng.within(1..=3)).map(|_| lean::column(rng)).collect();
    let kind = rng.pick(&["StandardStMan", "IncrementalStMan", "TiledShapeStMan"]);
    lean::bare(rng.below(9) as u64, rng.below(2) as u32, columns, vec![Manager::new(kind, 0)])
}

/// A record that is not asked: good, without contents, or any bytes.
fn unasked(rng: &mut Rng) -> Record {
    match rng.below(4) {
        0 => Record::new(Vec::new()),
        1 => {
            let count = rng.within(1..=30);
            Record::new(rng.bytes(count))
        }
        2 => {
            let mut record = generate::record(rng);
            FAULTS[rng.below(FAULTS.len())].1(rng, &mut record);
            match record.encode() {
                record if record.header.stated.is_none() && record.contents.len() < 600 => record,
                _ => Record::new(Vec::new()),
            }
        }
        _ => Record::new(vec![0; 4]),
    }
}

/// A generated question.
pub fn case(rng: &mut Rng) -> Case {
    let mut table = table(rng);
    let columns = table.columns().len() as u64;
    let scopes: Vec<Scope> =
        [Scope::Table].into_iter().chain((0..columns).map(Scope::Column)).collect();
    let scope = if rng.chance(2, 5) { Scope::Table } else { rng.pick(&scopes) };
    for other in scopes {
        *keywords_mut(&mut table, other) = unasked(rng);
    }
    table.description.private_keywords = unasked(rng);
    if rng.chance(1, 300) {
        return large(rng, &table, scope);
    }
    let mut record = generate::record(rng);
    match rng.below(100) {
        0..=32 => Subject::new(&table, scope, &record, Expect::Accepted).question(rng),
        33..=79 => {
            let (what, fault) = rng.pick(FAULTS);
            let expect = fault(rng, &mut record);
            let subject = Subject { what, ..Subject::new(&table, scope, &record, expect) };
            subject.question(rng)
        }
        80..=86 => {
            faults::freeze_lengths(rng, &mut record);
            rng.pick(FAULTS).1(rng, &mut record);
            let what = "fault with lengths that do not follow";
            let subject = Subject { what, ..Subject::new(&table, scope, &record, Expect::Open) };
            subject.question(rng)
        }
        87..=90 => {
            rng.pick(FAULTS).1(rng, &mut record);
            rng.pick(FAULTS).1(rng, &mut record);
            let subject = Subject::new(&table, scope, &record, Expect::Open);
            Subject { what: "two faults", ..subject }.question(rng)
        }
        91..=94 => changed_bytes(rng, table, scope, &record),
        95..=96 => faulty_table(rng, table, scope, &record),
        _ => no_column(rng, &table, &record),
    }
}

/// Some bytes of the record changed, removed or inserted.
fn changed_bytes(rng: &mut Rng, mut table: Table, scope: Scope, record: &TableRecord) -> Case {
    let subject = Subject::new(&table, scope, record, Expect::Open);
    let mut contents = record.encode().contents;
    for _ in 0..rng.within(1..=3) {
        if !contents.is_empty() {
            let index = rng.below(contents.len());
            table_faults::spoil(rng, &mut contents, index);
        }
    }
    keywords_mut(&mut table, scope).contents = contents;
    let bytes = Bytes::new(table.encode());
    Subject { table: bytes, what: "changed bytes", ..subject }.question(rng)
}

/// A fault of the table comes before all that is asked.
fn faulty_table(rng: &mut Rng, mut table: Table, scope: Scope, record: &TableRecord) -> Case {
    *keywords_mut(&mut table, scope) = record.encode();
    let (what, fault) = rng.pick(table_faults::FAULTS);
    let expect = fault(rng, &mut table).at_byte(|blame| table.byte(blame));
    let answer = match expect {
        Expect::Refused(number, Blame::Byte(byte)) => Answer::Refused(number, byte as u64),
        _ => Answer::Open, // the keywords may have changed
    };
    let scope = if rng.chance(1, 3) { Scope::Column(rng.number()) } else { scope };
    let number = rng.chance(1, 3).then(|| rng.number());
    let path = rng.pick(&[&[][..], &[0], &[0; 4]]).to_vec();
    let bytes = Bytes::new(table.encode());
    Case { table: bytes, scope, path, number, answer, what }
}

/// A position that no column has comes before the keywords, which may be faulty.
fn no_column(rng: &mut Rng, table: &Table, record: &TableRecord) -> Case {
    let subject = Subject::new(table, Scope::Table, record, Expect::Accepted);
    let columns = table.columns().len() as u64;
    let position = rng.pick(&[columns, columns + 1, 64, 1 << 32, (1 << 32) + 1, 1 << 63, u64::MAX]);
    let case = subject.question(rng);
    let (answer, what) = (Answer::Refused(8, 0), "no such column");
    Case { scope: Scope::Column(position), answer, what, ..case }
}

/// A record of nearly as many bytes as a table may have, or of some thousands; half
/// of them with a fault.
fn large(rng: &mut Rng, table: &Table, scope: Scope) -> Case {
    let length = rng.pick(&[5000, 10_000, 30_000, 62_000]);
    let mut record = generate::large(rng, length);
    let mut expect = Expect::Accepted;
    let mut what = "large";
    if rng.chance(1, 2) {
        let (name, fault) = rng.pick(FAULTS);
        (what, expect) = (name, fault(rng, &mut record));
    }
    let subject = Subject { what, ..Subject::new(table, scope, &record, expect) };
    let case = subject.question(rng);
    if case.table.bytes.len() > table_faults::MAX_FILE {
        return Case { answer: Answer::Refused(4, table_faults::MAX_FILE as u64), ..case };
    }
    case
}
