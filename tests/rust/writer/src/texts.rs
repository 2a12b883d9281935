//! Request lines about views: texts with padding behind them, and cells of
//! other columns whose zero bytes are none.
//!
//! What a reader must answer comes from what was written: a text's length is that
//! of the bytes that were put before its first zero byte.

use crate::buckets::{BucketFile, Buckets, Subject};
use crate::cells;
use crate::contents::{self, Content, KINDS, Kind};
use crate::faults;
use crate::generate::info_form;
use crate::hex::hex;
use crate::incremental::{DataBucket, IncrementalFile, Values};
use crate::layout::Blame;
use crate::lean;
use crate::objects::Expect;
use crate::rng::Rng;
use crate::samples;
use crate::standard::{self, Index, StandardFile};
use crate::table::{
    BOOL, COMPLEX, Column, DCOMPLEX, DOUBLE, FLOAT, INT, INT64, Manager, SHORT, STRING, UCHAR,
    UINT, USHORT,
};
use std::sync::Arc;

const SEED: u64 = 10;

/// The words of the two views, by position and by plan.
pub const VIEWS: [&str; 2] = ["view", "viewplan"];
pub const PADDED: [&str; 2] = ["padded", "paddedplan"];
const PLACES: [&str; 2] = ["place", "placeplan"];

/// Maxima of texts in one file.
const MAXIMA: [&[u32]; 4] = [&[1, 2, 3, 4, 5, 6], &[1, 7, 8, 9, 12], &[10, 16, 24, 31], &[32, 48]];
/// Large ones, and the rows of their file.
const LARGE: [(&[u32], u64); 6] = [
    (&[127, 128, 129], 14),
    (&[255, 256, 257], 14),
    (&[1000], 14),
    (&[4096], 7),
    (&[65_535], 4),
    (&[65_536], 4),
];

/// The contents of the cells of a column, by row. A text without a zero byte is
/// followed by one that begins with a byte other than zero, and by one that begins
/// with zero.
const BY_ROW: [Kind; 17] = [
    Kind::Full,
    Kind::Padded,
    Kind::FullHigh,
    Kind::ZeroFirst,
    Kind::Full,
    Kind::Empty,
    Kind::OneZero,
    Kind::FullOdd,
    Kind::ZeroInside,
    Kind::ZeroInsidePadded,
    Kind::OneByte,
    Kind::PaddedHigh,
    Kind::ZeroFirstPadded,
    Kind::PaddedSpaces,
    Kind::ZeroTwice,
    Kind::Full,
    Kind::Full,
];
/// The rows of a bucket, and where cells are large.
const ROWS_PER_BUCKET: u32 = 5;
const FEW_ROWS: u32 = 2;

/// What a reader must answer.
#[derive(Clone, Debug, PartialEq, Eq)]
pub enum Answer {
    /// The numbers of the line: start and length in bytes, or first bit, bit count
    /// and looks.
    Told(Vec<u64>),
    /// The number and the byte.
    Refused(u8, u64),
    /// It depends on other fields.
    Open,
}

const NO_SUCH: Answer = Answer::Refused(8, 0);
const NO_ROW: Answer = Answer::Refused(9, 0);
const STALE_PLAN: Answer = Answer::Refused(12, 0);
const SHORT_ROOM: Answer = Answer::Refused(13, 0);
const BOOL_VIEW: Answer = Answer::Refused(14, 0);

/// The column of a cell.
#[derive(Clone, Copy, Debug, PartialEq, Eq)]
pub enum Of {
    Position(u64),
    Plan([u64; 9]),
}

/// The bytes of a table and its file, for several questions.
#[derive(Clone, Debug)]
pub struct Files {
    pub table: Vec<u8>,
    pub file: Vec<u8>,
    /// The index text, which an accepted question leaves in the room.
    pub text: Vec<u8>,
    digits: [String; 2],
}

impl Files {
    fn new(table: Vec<u8>, file: Vec<u8>, text: Vec<u8>) -> Arc<Self> {
        let digits = [hex(&table), hex(&file)];
        Arc::new(Self { table, file, text, digits })
    }

    fn of(subject: &Subject<StandardFile>) -> Arc<Self> {
        Self::new(subject.table.encode(), subject.file.encode(), subject.file.text().bytes)
    }
}

/// A question, and what a reader must answer.
#[derive(Clone, Debug)]
pub struct Case {
    pub word: &'static str,
    pub files: Arc<Files>,
    pub row: u64,
    pub of: Of,
    pub room: usize,
    pub answer: Answer,
}

impl Case {
    pub fn line(&self) -> String {
        let Self { word, files, row, of, room, .. } = self;
        let [table, file] = &files.digits;
        let of = match of {
            Of::Position(position) => position.to_string(),
            Of::Plan(plan) => plan.map(|number| number.to_string()).join(","),
        };
        format!("{word} {table} {file} {row} {of} {room}")
    }

    /// The line that a reader must answer with, if it does not depend on others.
    pub fn expected(&self) -> Option<String> {
        let zeros = vec![0; self.room];
        Some(match &self.answer {
            Answer::Told(numbers) => {
                let mut room = self.files.text.clone();
                room.resize(self.room, 0);
                let numbers: Vec<String> = numbers.iter().map(u64::to_string).collect();
                format!("ok {} {}", numbers.join(" "), hex(&room))
            }
            Answer::Refused(number, byte) => format!("refused {number} {byte} {}", hex(&zeros)),
            Answer::Open => return None,
        })
    }
}

/// All lines.
pub fn lines() -> impl Iterator<Item = String> + Send {
    cases().map(|case| case.line())
}

/// All questions.
pub fn cases() -> impl Iterator<Item = Case> + Send {
    let small = forms().flat_map(|form| {
        let files = MAXIMA.into_iter().map(move |maxima| of_maxima(form, maxima, 17));
        files.flat_map(|written| written.every_cell(false))
    });
    let large = forms().step_by(3).flat_map(|form| {
        let files = LARGE.into_iter().map(move |(maxima, rows)| of_maxima(form, maxima, rows));
        files.flat_map(|written| written.every_cell(true))
    });
    let others = forms().flat_map(|form| others(form).every_cell(true));
    let ends = forms().flat_map(ends).flat_map(|written| written.every_cell(false));
    let refused = forms().flat_map(|form| [of_maxima(form, MAXIMA[1], 17), others_than(form)]);
    let refused = refused.flat_map(|written| written.refused());
    let faulty = (0..2).flat_map(faulty);
    let samples = sample_texts().chain(sample_stations());
    small
        .chain(large)
        .chain(others)
        .chain(ends)
        .chain(refused)
        .chain(faulty)
        .chain(samples)
        .chain([0, 1].into_iter().flat_map(incremental))
}

/// How a table and its file are written.
#[derive(Clone, Copy, Debug)]
struct Form {
    endianness: u32,
    /// Whether row numbers have 64 bits.
    wide: bool,
}

/// Each byte order with each width of row numbers.
fn forms() -> impl Iterator<Item = Form> + Send {
    let form = |number: u32| Form { endianness: number % 2, wide: number / 2 == 1 };
    (0..4).map(form)
}

/// A table and its file, and the contents of its cells.
struct Written {
    subject: Subject<StandardFile>,
    /// By position, then by row; none for Bools.
    contents: Vec<Vec<Content>>,
}

impl Written {
    /// One set of these columns and so many rows; the index's buckets come first,
    /// the data buckets last, so that the last of them ends the file. The first
    /// column's first cell has the first of these contents.
    fn new(form: Form, columns: Vec<Column>, rows: u64, kinds: &[Kind]) -> Self {
        let is_large = |column: &Column| cells::bits(column) > 8 * 1000;
        let most = if columns.iter().any(is_large) { FEW_ROWS } else { ROWS_PER_BUCKET };
        let mut offset = 0;
        let mut placed = Vec::new();
        for column in columns {
            let column = column.at(0, offset);
            offset += cells::extent(&column, most) as u32;
            placed.push(column);
        }
        let entries: Vec<(u64, u32)> = (0..rows)
            .step_by(most as usize)
            .map(|first| ((first + u64::from(most)).min(rows) - 1, 0))
            .collect();
        let mut index = Index::new(most, placed.len(), &entries);
        let manager = Manager::new("StandardStMan", 0);
        let manager = if form.wide { manager.with_object("SSM") } else { manager };
        let mut table = lean::bare(rows, form.endianness, placed, vec![manager]);
        if form.wide {
            index.widen();
            table.widen(3);
        }
        let version = if form.wide { 4 } else { 3 };
        let size = offset.max(64);
        let buckets = Buckets::new("StandardStMan", version, form.endianness, size, 0);
        let mut file = StandardFile::new(buckets, Vec::new(), vec![index]);
        file.settle();
        for number in (0..entries.len()).rev() {
            file.indices[0].buckets.elements[number] = file.buckets.add();
        }
        let sizes: Vec<usize> =
            table.columns().iter().map(|column| cells::bits(column) as usize / 8).collect();
        let of_column = |(position, size): (usize, &usize)| {
            let content = |row: usize| {
                let kind = kinds[(row + 3 * position) % kinds.len()];
                Content::new(kind, *size, row + 5 * position)
            };
            match table.columns()[position].data_type == BOOL.number {
                true => Vec::new(),
                false => (0..rows as usize).map(content).collect(),
            }
        };
        let contents: Vec<Vec<Content>> = sizes.iter().enumerate().map(of_column).collect();
        let mut subject = Subject { table, number: 0, file };
        contents::put(&mut subject, |position, row| contents[position][row as usize].clone());
        Self { subject, contents }
    }

    /// Where the view of a cell stands, and how long it is.
    fn view(&self, word: &str, position: usize, row: u64) -> Answer {
        let Subject { table, file, .. } = &self.subject;
        let (first_bit, bit_count) = file.place(table, position, row);
        if PLACES.contains(&word) {
            let [looks, _] = file.looks(table, position, row);
            return Answer::Told(vec![first_bit, bit_count, looks]);
        }
        let column = &table.columns()[position];
        if column.data_type == BOOL.number {
            return BOOL_VIEW;
        }
        let content = &self.contents[position][row as usize];
        let length = match VIEWS.contains(&word) && cells::has_padding(column) {
            true => content.text,
            false => content.bytes.len(),
        };
        Answer::Told(vec![first_bit / 8, length as u64])
    }

    /// Every cell: its views, all four or by position and by plan in turn, and of
    /// some its place.
    fn every_cell(&self, in_turn: bool) -> Vec<Case> {
        let files = Files::of(&self.subject);
        let room = files.text.len();
        let Subject { table, file, .. } = &self.subject;
        let mut cases = Vec::new();
        for position in self.subject.own_columns() {
            let plan = file.plan(table, position);
            for row in 0..table.rows() {
                let turn = row as usize + position;
                let (mut words, places) = match in_turn {
                    true => (vec![VIEWS[turn % 2], PADDED[turn / 2 % 2]], 6),
                    false => ([VIEWS, PADDED].concat(), 3),
                };
                if turn.is_multiple_of(places) {
                    words.push(PLACES[turn / 3 % 2]);
                }
                for word in words {
                    cases.push(Case {
                        word,
                        files: files.clone(),
                        row,
                        of: asked_by(word, position as u64, plan),
                        room: room + turn % 3,
                        answer: self.view(word, position, row),
                    });
                }
            }
        }
        cases
    }

    /// What is refused though the files are good: rows, columns and plans that are
    /// not there, and short rooms; and what is not.
    fn refused(&self) -> Vec<Case> {
        let files = Files::of(&self.subject);
        let Subject { table, file, .. } = &self.subject;
        let (rows, columns) = (table.rows(), table.columns().len() as u64);
        let length = files.text.len();
        let mut cases = Vec::new();
        let mut ask = |word: &'static str, row: u64, of: Of, room: usize, answer: Answer| {
            cases.push(Case { word, files: files.clone(), row, of, room, answer });
        };
        for position in 0..table.columns().len() {
            let plan = file.plan(table, position);
            let is_held = table.columns()[position].info.manager == self.subject.number;
            let is_bool = table.columns()[position].data_type == BOOL.number;
            for word in [VIEWS, PADDED].as_flattened() {
                let of = asked_by(word, position as u64, plan);
                if !is_held {
                    ask(word, 0, of, length, NO_SUCH);
                    continue;
                }
                // The row comes before the view of a Bool, the room before both.
                for row in [rows, rows + 1, 1 << 32, u64::MAX] {
                    ask(word, row, of, length, NO_ROW);
                }
                for room in [0, length - 1] {
                    ask(word, 0, of, room, SHORT_ROOM);
                    ask(word, rows, of, room, SHORT_ROOM);
                }
                ask(word, rows - 1, of, length + 40, self.view(word, position, rows - 1));
                let stale = if let Of::Plan(_) = of { 0..9 } else { 0..0 };
                for field in stale {
                    let mut stale = plan;
                    stale[field] += if field == 0 { columns } else { 1 };
                    let answer = if field == 0 { NO_SUCH } else { STALE_PLAN };
                    ask(word, 0, Of::Plan(stale), length, answer.clone());
                    // Before the row, and before the view of a Bool.
                    ask(word, rows, Of::Plan(stale), length, answer);
                }
                if is_bool {
                    ask(word, rows / 2, of, length, BOOL_VIEW);
                }
            }
        }
        for word in [VIEWS, PADDED].as_flattened() {
            for position in [columns, 1 << 32, u64::MAX] {
                let mut plan = file.plan(table, 0);
                plan[0] = position;
                ask(word, 0, asked_by(word, position, plan), length, NO_SUCH);
            }
        }
        cases
    }
}

/// By plan where the word says so, else by position.
fn asked_by(word: &str, position: u64, plan: [u64; 9]) -> Of {
    if word.ends_with("plan") { Of::Plan(plan) } else { Of::Position(position) }
}

/// Texts of these maxima; of the first, options and dimensionality say nothing.
fn of_maxima(form: Form, maxima: &[u32], rows: u64) -> Written {
    let text = |maximum: &u32| Column::scalar(STRING, "").string_maximum(*maximum);
    let mut columns: Vec<Column> = maxima.iter().map(text).collect();
    (columns[0].options, columns[0].dimensionality) = (7, -1);
    Written::new(form, columns, rows, &BY_ROW)
}

/// Columns that have no padding, though they have a string maximum or are Strings.
/// Plans of some are like those of texts with a maximum of 12 or 8, but for
/// position and offset.
fn others(form: Form) -> Written {
    let scalar = |data_type, maximum| Column::scalar(data_type, "").string_maximum(maximum);
    let columns = vec![
        scalar(STRING, 0),
        scalar(STRING, 12), // a text
        Column::direct(STRING, "", &[1]).string_maximum(12),
        Column::fixed(STRING, "", &[1]).string_maximum(8),
        scalar(STRING, 8), // a text
        Column::direct(STRING, "", &[2, 2]).string_maximum(5),
        Column::direct(STRING, "", &[3]),
        Column::fixed(STRING, "", &[4]).string_maximum(3),
        Column::array(STRING, "").string_maximum(7),
        scalar(UCHAR, 1),
        scalar(UCHAR, 9),
        scalar(SHORT, 2),
        scalar(USHORT, 8),
        scalar(INT, 4),
        scalar(UINT, 1),
        scalar(FLOAT, 4),
        scalar(DOUBLE, 8),
        scalar(COMPLEX, 12),
        scalar(DCOMPLEX, 16),
        scalar(INT64, 65_536),
        Column::direct(UCHAR, "", &[7]).string_maximum(7),
        Column::direct(INT, "", &[3]).string_maximum(4),
        Column::array(INT, "").string_maximum(8),
        scalar(BOOL, 3),
        Column::direct(BOOL, "", &[8]).string_maximum(8),
        Column::array(BOOL, "").string_maximum(8),
    ];
    Written::new(form, columns, 17, &BY_ROW)
}

/// A text, a Bool and a String without a maximum, and columns of other managers,
/// of which no place is known.
fn others_than(form: Form) -> Written {
    let text = || Column::scalar(STRING, "").string_maximum(8);
    let columns = vec![text(), Column::scalar(BOOL, ""), Column::scalar(STRING, "")];
    let mut written = Written::new(form, columns, 9, &BY_ROW);
    let table = &written.subject.table;
    let mut managers = table.managers().to_vec();
    managers.push(Manager::new("IncrementalStMan", 1));
    managers.push(Manager::new("TiledShapeStMan", 2));
    let mut columns = table.columns().to_vec();
    columns.extend([1, 2].map(|number| text().of_manager(number)));
    let mut changed = lean::bare(table.rows(), form.endianness, columns, managers);
    if form.wide {
        changed.widen(0);
    }
    written.subject.table = changed;
    written
}

/// Texts that end with their bucket and with the file, without a zero byte, with
/// one at the last place, and empty.
fn ends(form: Form) -> Vec<Written> {
    let texts = |kinds: &[Kind]| {
        let columns = vec![Column::scalar(STRING, "").string_maximum(16)];
        // The last bucket of the file holds the first rows.
        Written::new(form, columns, 10, kinds)
    };
    vec![texts(&[Kind::Full]), texts(&[Kind::OneZero]), texts(&[Kind::Empty])]
}

/// Each fault of a file and of a table, with each view of a text.
fn faulty(number: u64) -> Vec<Case> {
    let rng = &mut Rng::new(SEED, number);
    let mut cases = Vec::new();
    let mut ask = |subject: &Subject<StandardFile>, plan: [u64; 9], expect: Expect| {
        let files = Files::of(subject);
        // As long as the index text is said to be, if it may be.
        let room = Some(subject.file.index_length()).filter(|length| *length <= 65_536);
        let room = room.unwrap_or(files.text.len());
        let answer = match expect {
            Expect::Refused(number, Blame::Byte(byte)) => Answer::Refused(number, byte as u64),
            _ => Answer::Open,
        };
        for word in [VIEWS, PADDED].as_flattened() {
            let of = asked_by(word, 1, plan);
            let (files, answer) = (files.clone(), answer.clone());
            cases.push(Case { word, files, row: 6, of, room, answer });
        }
    };
    let good = |rng: &mut Rng, turn: usize| {
        let form = forms().nth(turn % 4).expect("there are four");
        let mut subject = of_maxima(form, MAXIMA[1], 17).subject;
        let manager = info_form(rng, subject.table.managers()[0].clone());
        subject.table.managers_mut()[0] = manager;
        subject.table.write_infos();
        subject.file.buckets.free = vec![subject.file.buckets.add(), subject.file.buckets.add()];
        subject
    };
    for (turn, fault) in standard::faults::faults().into_iter().enumerate() {
        let mut subject = good(rng, turn + number as usize);
        let plan = subject.file.plan(&subject.table, 1);
        let expect = (fault.apply)(rng, &mut subject);
        let expect = expect.at_byte(|blame| subject.file.byte(blame));
        // A fault may take the column away, which comes before the file.
        let column = subject.table.columns().get(1);
        let is_there = column.is_some_and(|column| column.info.manager == subject.number);
        ask(&subject, plan, if is_there { expect } else { Expect::Open });
    }
    for (turn, (_, fault)) in faults::FAULTS.iter().enumerate() {
        let mut subject = good(rng, turn + number as usize);
        let plan = subject.file.plan(&subject.table, 1);
        let expect = fault(rng, &mut subject.table);
        let expect = expect.at_byte(|blame| subject.table.byte(blame));
        ask(&subject, plan, expect);
    }
    cases
}

/// The lengths of the texts in the sample's NAME cells, by row.
const NAME_LENGTHS: [u64; 7] = [4, 8, 0, 1, 5, 5, 0];

/// All views of the sample `texts`: of NAME the texts, of the others the cells.
fn sample_texts() -> impl Iterator<Item = Case> + Send {
    sample_cells(samples::texts_file(), 1, |name, row| match name {
        b"NAME" => Some(NAME_LENGTHS[row as usize]),
        _ => None,
    })
}

/// The same of some rows of the StandardStMan file of the sample `arrays`: of
/// STATION the texts, which have three bytes, of the others the cells.
fn sample_stations() -> impl Iterator<Item = Case> + Send {
    sample_cells(samples::arrays_standard(), 3, |name, _| (name == b"STATION").then_some(3))
}

/// All views of a sample's cells in each so many rows; of texts with their lengths.
fn sample_cells(
    subject: Subject<StandardFile>,
    every: usize,
    length: fn(&[u8], u64) -> Option<u64>,
) -> impl Iterator<Item = Case> + Send {
    let files = Files::of(&subject);
    let rows = subject.table.rows();
    subject.own_columns().into_iter().flat_map(move |position| {
        let Subject { table, file, .. } = &subject;
        let column = &table.columns()[position];
        let plan = file.plan(table, position);
        let answer = |word: &str, row: u64| {
            if column.data_type == BOOL.number {
                return BOOL_VIEW;
            }
            let (first_bit, bit_count) = file.place(table, position, row);
            let text = length(&column.name.bytes, row).filter(|_| VIEWS.contains(&word));
            Answer::Told(vec![first_bit / 8, text.unwrap_or(bit_count / 8)])
        };
        let mut cases = Vec::new();
        for row in (0..rows).step_by(every) {
            for word in [VIEWS, PADDED].as_flattened() {
                let of = asked_by(word, position as u64, plan);
                let (files, room) = (files.clone(), files.text.len());
                cases.push(Case { word, files, row, of, room, answer: answer(word, row) });
            }
        }
        cases
    })
}

/// IncrementalStMan: cells of zeros and others stay whole, and a String has no
/// place.
fn incremental(endianness: u32) -> Vec<Case> {
    let columns = vec![
        Column::scalar(INT, "").string_maximum(4),
        Column::scalar(UCHAR, "").string_maximum(1),
        Column::scalar(DOUBLE, "").string_maximum(8),
        Column::direct(BOOL, "", &[9]).string_maximum(2),
        Column::scalar(STRING, "").string_maximum(8),
        Column::array(STRING, "").string_maximum(8),
    ];
    let rows = KINDS.len() as u64;
    let mut data = Vec::new();
    let mut values = Vec::new();
    for column in &columns {
        let size = cells::extent(column, 1) as usize;
        let start = data.len() as u32;
        for (row, kind) in KINDS.into_iter().enumerate() {
            data.extend(Content::new(kind, size, row).bytes);
        }
        let offsets = (0..rows as u32).map(|row| start + row * size as u32);
        values.push(Values::new((0..rows).collect(), offsets.collect()));
    }
    let bucket = DataBucket::new(0, data, values);
    let buckets = Buckets::new("IncrementalStMan", 5, endianness, bucket.length() as u32, 1);
    let file = IncrementalFile::new(buckets, vec![0, rows], vec![bucket]);
    let table = lean::bare(rows, endianness, columns, vec![Manager::new("IncrementalStMan", 0)]);
    let files = Files::new(table.encode(), file.encode(), Vec::new());
    let mut cases = Vec::new();
    for (position, column) in table.columns().iter().enumerate() {
        for (row, word) in (0..rows)
            .flat_map(|row| [VIEWS, PADDED].concat().into_iter().map(move |word| (row, word)))
        {
            let answer = match column.data_type == STRING.number {
                true => NO_SUCH,
                false => {
                    let (first_bit, bit_count) = file.place(&table, position, row);
                    Answer::Told(vec![first_bit / 8, bit_count / 8])
                }
            };
            let of = asked_by(word, position as u64, file.plan(&table, position));
            let room = row as usize % 3;
            cases.push(Case { word, files: files.clone(), row, of, room, answer });
        }
    }
    cases
}
