//! Compares every number of every C function with the model's: the number that it gives, and where it asks of files what it
//! writes into `out` of every length, and the room. The first difference ends it.

use crate::Question::{self, *};
use crate::{fields, PLAN_NUMBERS, SHORT};
use model::numbers::{self, written};
use model::{Refusal, Scope};
use std::collections::{BTreeMap, BTreeSet, VecDeque};
use std::fmt::{self, Write as _};
use std::path::{Path, PathBuf};
use std::process::ExitCode;
use writer::buckets::{BucketFile, Subject};
use writer::keywords::{self, cases};
use writer::questions::Asked;
use writer::rng::Rng;
use writer::sets::Set;
use writer::texts::{self, Of};
use writer::{file_cases, large_files, sets, small_file};

const OUT_FILL: u64 = 0xA5A5_A5A5_A5A5_A5A5;
const ROOM_FILL: u8 = 0xA5;
/// What is not lent, before and behind `out` and the room.
const MARGIN: usize = 4;
/// `out` has from none to these many numbers more than the answer.
const LONGER: usize = 3;
/// A plan has from none to these many numbers more than it needs.
const LONGER_PLAN: usize = 2;
/// The refusal of a path that leads to no keyword.
const NO_KEYWORD: u8 = 16;
/// The type number of a record.
const RECORD: u32 = 25;

/// A table, a file that may be one of its managers', and what is asked of them.
struct Case {
    table: Vec<u8>,
    file: Vec<u8>,
    /// The room that the file needs, if it is right.
    room: usize,
    /// Rows that are asked for, besides those that are not there.
    rows: Vec<u64>,
    /// Whether every column is asked for each of these rows, or only some.
    is_whole: bool,
}

impl Case {
    /// Some of the rows.
    fn some(asked: Asked, rng: &mut Rng) -> Self {
        let mut rows = vec![0, asked.rows.saturating_sub(1)];
        if !asked.border_rows.is_empty() {
            rows.extend([0; 2].map(|_| rng.pick(&asked.border_rows)));
        }
        rows.push(rng.number() % asked.rows.max(1));
        rows.dedup();
        Self { room: room_for(asked.index_length), table: asked.table, file: asked.file, rows, is_whole: false }
    }

    /// Rows beside all borders, of a good file.
    fn whole<F: BucketFile>(subject: &Subject<F>) -> Self {
        let rows = subject.table.rows();
        let borders = subject.file.border_rows().into_iter().filter(|row| *row < rows);
        let mut rows: Vec<u64> = [0, 1, 2, rows - 1].into_iter().chain(borders).collect();
        rows.sort_unstable();
        rows.dedup();
        let room = subject.file.index_length();
        Self { table: subject.table.encode(), file: subject.file.encode(), room, rows, is_whole: true }
    }
}

/// A stated index length may be out of range.
fn room_for(index_length: usize) -> usize {
    if index_length <= 65_536 {
        index_length
    } else {
        200
    }
}

/// A call whose answer is not the model's.
struct Difference {
    question: String,
    function: &'static str,
    lent: String,
    model: String,
    library: String,
}

impl fmt::Display for Difference {
    fn fmt(&self, f: &mut fmt::Formatter<'_>) -> fmt::Result {
        let Self { question, function, lent, model, library } = self;
        write!(f, "difference in {function}: {question}, {lent}\n  model:   {model}\n  library: {library}")
    }
}

type Compared = Result<(), Difference>;

/// What a function leaves behind: its number, and `out` and the room with what is not lent around them.
struct Left {
    number: u64,
    out: Vec<u64>,
    room: Vec<u8>,
}

impl Left {
    /// The number, and the first of `out` and of the room that is not as in the other.
    fn shown(&self, other: &Self) -> String {
        let mut text = self.number.to_string();
        if let Some(k) = (0..self.out.len()).find(|k| self.out[*k] != other.out[*k]) {
            let _ = write!(text, ", out[{}] is {:#x}", k as i64 - MARGIN as i64, self.out[k]);
        }
        if let Some(k) = (0..self.room.len()).find(|k| self.room[*k] != other.room[*k]) {
            let _ = write!(text, ", room[{}] is {:#04x}", k as i64 - MARGIN as i64, self.room[k]);
        }
        text
    }
}

/// An answer of the model: what the function gives, and what it writes into `out`.
struct Expected {
    number: u64,
    numbers: Vec<u64>,
}

impl Expected {
    fn new<const N: usize>(answer: Result<[u64; N], Refusal>) -> Self {
        let number = answer.err().map_or(0, |refusal| refusal.number.into());
        Self { number, numbers: written(answer).into() }
    }

    /// Nothing is written where a plan is too short.
    fn planned<const N: usize>(
        plan: &[u64],
        answer: impl FnOnce([u64; PLAN_NUMBERS]) -> Result<[u64; N], Refusal>,
    ) -> Self {
        match plan.first_chunk() {
            Some(numbers) => Self::new(answer(*numbers)),
            None => Self { number: SHORT, numbers: Vec::new() },
        }
    }

    /// The model's answer. Where the plan is too short, the room stays as it is.
    fn of(question: &Question<'_>, table: &[u8], file: &[u8], room: &mut [u8]) -> Self {
        match *question {
            Description => Self::new(numbers::description(table)),
            Column { position } => Self::new(numbers::column(table, position)),
            Manager { index } => Self::new(numbers::manager(table, index)),
            ColumnByName { name } => Self::new(numbers::column_by_name(table, name)),
            Check { sequence } => Self::new(numbers::check(table, file, sequence, room)),
            Plan { position } => Self::new(numbers::plan(table, file, position, room)),
            Place { row, position } => Self::new(numbers::place(table, file, row, position, room)),
            PlacePlanned { row, plan } => {
                Self::planned(plan, |plan| numbers::place_planned(table, file, row, plan, room))
            }
            PlaceInBucket { row, position } => Self::new(numbers::place_in_bucket(table, file, row, position, room)),
            View { row, position } => Self::new(numbers::view(table, file, row, position, room)),
            ViewPlanned { row, plan } => {
                Self::planned(plan, |plan| numbers::view_planned(table, file, row, plan, room))
            }
            PaddedView { row, position } => Self::new(numbers::padded_view(table, file, row, position, room)),
            PaddedViewPlanned { row, plan } => {
                Self::planned(plan, |plan| numbers::padded_view_planned(table, file, row, plan, room))
            }
            TableKeyword { path } => Self::new(numbers::table_keyword(table, path)),
            ColumnKeyword { position, path } => Self::new(numbers::column_keyword(table, position, path)),
            TableField { path, number } => Self::new(numbers::table_field(table, path, number)),
            ColumnField { position, path, number } => Self::new(numbers::column_field(table, position, path, number)),
        }
    }

    /// The byte of a refusal, 0 where nothing is refused.
    fn byte(&self) -> u64 {
        self.numbers.last().copied().unwrap_or(0)
    }
}

/// What was compared so far.
#[derive(Default)]
pub struct Comparison {
    calls: u64,
    /// How often each function returned each number, by questions.
    given: BTreeMap<(&'static str, u64), u64>,
    /// The largest byte that each function told with each number, if it told one above 0.
    bytes: BTreeMap<(&'static str, u64), u64>,
    /// The largest first number that each function gave.
    largest: BTreeMap<&'static str, u64>,
    /// How many places were given in one bucket of files that are refused.
    accepted_in_part: u64,
    /// The functions that gave an accepted view of no bytes.
    empty: BTreeSet<&'static str>,
}

impl Comparison {
    /// Asks a question with `out` of every length.
    fn ask(&mut self, table: &[u8], file: &[u8], room_len: usize, question: Question<'_>) -> Compared {
        let mut room = vec![ROOM_FILL; MARGIN + room_len + MARGIN];
        let lent = MARGIN..MARGIN + room_len;
        let expected = Expected::of(&question, table, file, &mut room[lent.clone()]);
        self.count(question.function(), &expected);
        let Expected { number, numbers: written } = expected;
        let n = question.answer_len();
        let most = MARGIN + n + LONGER + MARGIN;
        let mut model = Left { number, out: vec![OUT_FILL; most], room };
        let mut library = Left { number: 0, out: vec![OUT_FILL; most], room: vec![ROOM_FILL; model.room.len()] };
        for out_len in 0..=n + LONGER {
            let count = written.len().min(out_len);
            model.out.fill(OUT_FILL);
            model.out[MARGIN..][..count].copy_from_slice(&written[..count]);
            library.out.fill(OUT_FILL);
            library.room.fill(ROOM_FILL);
            let out = &mut library.out[MARGIN..][..out_len];
            library.number = question.ask(table, file, &mut library.room[lent.clone()], out);
            self.calls += 1;
            if (library.number, &library.out, &library.room) != (model.number, &model.out, &model.room) {
                return Err(Difference {
                    question: format!("{question:?}"),
                    function: question.function(),
                    lent: format!("room of {room_len}, out of {out_len}, files of {} and {}", table.len(), file.len()),
                    model: model.shown(&library),
                    library: library.shown(&model),
                });
            }
        }
        Ok(())
    }

    fn count(&mut self, function: &'static str, expected: &Expected) {
        let given = (function, expected.number);
        *self.given.entry(given).or_default() += 1;
        if expected.byte() > 0 {
            let largest = self.bytes.entry(given).or_default();
            *largest = expected.byte().max(*largest);
        }
        if expected.number == 0 {
            let largest = self.largest.entry(function).or_default();
            *largest = expected.numbers[0].max(*largest);
            if function.contains("view") && expected.numbers[1] == 0 {
                self.empty.insert(function);
            }
        }
    }

    /// What table.dat says: all columns and managers and some that are not there, and names.
    fn table(&mut self, table: &[u8]) -> Compared {
        let described = model::describe(table);
        let (columns, managers) =
            described.as_ref().map_or((1, 1), |d| (d.columns.len() as u64, d.managers.len() as u64));
        let mut ask = |question: Question<'_>| self.ask(table, &[], 0, question);
        ask(Description)?;
        for position in (0..columns).chain(absent(columns, columns - 1)) {
            ask(Column { position })?;
        }
        for index in (0..managers).chain(absent(managers, managers - 1)) {
            ask(Manager { index })?;
        }
        for name in [&b"TIME"[..], b"", b"NO_SUCH_COLUMN"] {
            ask(ColumnByName { name })?;
        }
        for column in described.iter().flat_map(|d| &d.columns) {
            ask(ColumnByName { name: column.name })?;
            ask(ColumnByName { name: &column.name[1..] })?;
            ask(ColumnByName { name: &[column.name, b"S"].concat() })?;
        }
        Ok(())
    }

    /// What the file says, and the table before it.
    fn file(&mut self, case: &Case, rng: &mut Rng) -> Compared {
        let Case { table, file, room, rows, is_whole } = case;
        let room = *room;
        self.table(table)?;
        let described = model::describe(table).ok();
        let (columns, row_count) = described.as_ref().map_or((1, 1), |d| (d.columns.len() as u64, d.rows));
        let mut accepted_in_part = 0;
        let mut ask = |room, question: Question<'_>| self.ask(table, file, room, question);

        let managers = described.iter().flat_map(|d| &d.managers);
        let mut sequences: Vec<u64> = managers.map(|manager| manager.number.into()).collect();
        let absent_sequences: Vec<u64> = absent(1000, sequences.first().copied().unwrap_or(0)).collect();
        sequences.extend(absent_sequences);
        for sequence in sequences {
            for room in [room, room + 9, room.saturating_sub(1), 0] {
                ask(room, Check { sequence })?;
            }
        }

        // Columns with a plan in this file; if there is none, the file is refused or is another manager's.
        let mut planned = Vec::new();
        for position in (0..columns).chain(absent(columns, columns - 1)) {
            ask(room, Plan { position })?;
            if let Ok(plan) = model::plan(table, file, position, &mut vec![0; room]) {
                planned.push(plan.numbers());
            }
        }
        let mut cells = planned.clone();
        if cells.is_empty() {
            cells.push([rng.below(columns as usize) as u64, 0, 5, 1, 32, 0, 0, 4, 64]);
        } else if !is_whole {
            rng.shuffle(&mut cells);
            cells.truncate(3);
        }
        for plan in &cells {
            let position = plan[0];
            for row in rows.iter().copied().chain(absent(row_count, rows[0])) {
                ask(room, Place { row, position })?;
                ask(room, PlacePlanned { row, plan })?;
                ask(room, PlaceInBucket { row, position })?;
                ask(room, View { row, position })?;
                ask(room, ViewPlanned { row, plan })?;
                ask(room, PaddedView { row, position })?;
                ask(room, PaddedViewPlanned { row, plan })?;
            }
        }

        // Of a file that is refused, every column of IncrementalStMan: some of its buckets may be good. Other columns give 8, with
        // no file too.
        if planned.is_empty() {
            let in_bucket = |row, position| model::place_in_bucket(table, file, row, position, &mut []);
            let is_kept = |position: &u64| {
                model::place_in_bucket(table, &[], 0, *position, &mut []).is_err_and(|refusal| refusal.number != 8)
            };
            for position in (0..columns).filter(is_kept) {
                for row in rows.iter().copied().chain([row_count]) {
                    ask(room, PlaceInBucket { row, position })?;
                    accepted_in_part += u64::from(in_bucket(row, position).is_ok());
                }
            }
        }

        // One column with other rooms, plans that are stale or too short or too long, and positions that are not there.
        let fresh = cells[0];
        let row = rows[rng.below(rows.len())];
        for position in absent(columns, fresh[0]) {
            let plan = &mut fresh.clone();
            plan[0] = position;
            ask(room, Place { row, position })?;
            ask(room, PlacePlanned { row, plan })?;
            ask(room, PlaceInBucket { row, position })?;
            ask(room, View { row, position })?;
            ask(room, ViewPlanned { row, plan })?;
            ask(room, PaddedView { row, position })?;
            ask(room, PaddedViewPlanned { row, plan })?;
        }
        for room in [room + 9, room.saturating_sub(1), 0] {
            ask(room, Plan { position: fresh[0] })?;
            ask(room, Place { row, position: fresh[0] })?;
            ask(room, PlacePlanned { row, plan: &fresh })?;
            ask(room, PlaceInBucket { row, position: fresh[0] })?;
            ask(room, View { row, position: fresh[0] })?;
            ask(room, ViewPlanned { row, plan: &fresh })?;
            ask(room, PaddedView { row, position: fresh[0] })?;
            ask(room, PaddedViewPlanned { row, plan: &fresh })?;
        }
        for number in 0..PLAN_NUMBERS {
            for other in [fresh[number] + 1, fresh[number] + (1 << 32), fresh[number] ^ 1 << rng.below(64), 0] {
                let mut plan = fresh;
                plan[number] = other;
                ask(room, PlacePlanned { row, plan: &plan })?;
                ask(room, ViewPlanned { row, plan: &plan })?;
                ask(room, PaddedViewPlanned { row, plan: &plan })?;
            }
        }
        for plan_len in 0..=PLAN_NUMBERS + LONGER_PLAN {
            let mut plan = fresh.to_vec();
            plan.extend([rng.number(), rng.number()]);
            for row in [row, row_count] {
                ask(room, PlacePlanned { row, plan: &plan[..plan_len] })?;
                ask(room, ViewPlanned { row, plan: &plan[..plan_len] })?;
                ask(room, PaddedViewPlanned { row, plan: &plan[..plan_len] })?;
            }
        }
        self.accepted_in_part += accepted_in_part;
        Ok(())
    }

    /// A question about texts and their padding.
    fn text(&mut self, case: &texts::Case) -> Compared {
        let row = case.row;
        let question = match (case.word, &case.of) {
            ("place", Of::Position(position)) => Place { row, position: *position },
            ("placeplan", Of::Plan(plan)) => PlacePlanned { row, plan },
            ("view", Of::Position(position)) => View { row, position: *position },
            ("viewplan", Of::Plan(plan)) => ViewPlanned { row, plan },
            ("padded", Of::Position(position)) => PaddedView { row, position: *position },
            ("paddedplan", Of::Plan(plan)) => PaddedViewPlanned { row, plan },
            (word, of) => panic!("{word} with {of:?} is no question"),
        };
        self.ask(&case.files.table, &case.files.file, case.room, question)
    }

    /// All keywords of a table and of its columns: every path, and some that lead nowhere; every field by its number, and some
    /// that are not there; columns that are not there.
    fn keywords(&mut self, table: &[u8]) -> Compared {
        let columns = model::describe(table).map_or(1, |description| description.columns.len() as u64);
        let positions = (0..columns).chain(absent(columns, columns - 1));
        for scope in [Scope::Table].into_iter().chain(positions.map(Scope::Column)) {
            self.keyword(table, scope, &[])?;
            self.field(table, scope, &[], 0)?;
            for (path, names) in records(table, scope) {
                let count = names.len() as u64;
                for number in (0..count).chain(absent(count, count.saturating_sub(1))) {
                    self.field(table, scope, &path, number)?;
                }
                self.field(table, scope, &[&path[..], &[0]].concat(), 0)?;
                for name in names {
                    let path = with_name(&path, name);
                    self.keyword(table, scope, &path)?;
                    self.keyword(table, scope, &path[..path.len() - 1])?;
                    self.keyword(table, scope, &[&path[..], &[0]].concat())?;
                    self.keyword(table, scope, &with_name(&path, b""))?;
                }
            }
        }
        Ok(())
    }

    fn keyword(&mut self, table: &[u8], scope: Scope, path: &[u8]) -> Compared {
        let question = match scope {
            Scope::Table => TableKeyword { path },
            Scope::Column(position) => ColumnKeyword { position, path },
        };
        self.ask(table, &[], 0, question)
    }

    fn field(&mut self, table: &[u8], scope: Scope, path: &[u8], number: u64) -> Compared {
        let question = match scope {
            Scope::Table => TableField { path, number },
            Scope::Column(position) => ColumnField { position, path, number },
        };
        self.ask(table, &[], 0, question)
    }

    /// A question of the writer's about keywords.
    fn of_keywords(&mut self, case: &cases::Case) -> Compared {
        let scope = match case.scope {
            cases::Scope::Table => Scope::Table,
            cases::Scope::Column(position) => Scope::Column(position),
        };
        match case.number {
            None => self.keyword(&case.table.bytes, scope, &case.path),
            Some(number) => self.field(&case.table.bytes, scope, &case.path, number),
        }
    }

    /// The bits of an element, from a type's number.
    fn element_bits(&mut self, number: u64) -> Compared {
        let function = "hv_element_bits";
        let (model, library) = (numbers::element_bits(number), crate::element_bits(number));
        self.calls += 1;
        *self.given.entry((function, model)).or_default() += 1;
        if model == library {
            return Ok(());
        }
        Err(Difference {
            question: format!("number {number}"),
            function,
            lent: "nothing lent".to_string(),
            model: model.to_string(),
            library: library.to_string(),
        })
    }

    /// What must have been asked: each function accepted, and refused with each number that the header names for it, with
    /// those from 1 to 7 at a byte above 0 too; a place in one bucket of a file that is refused; an empty text, which no padded
    /// view is; of the bits of an element, every size.
    fn missing(&self) -> Vec<String> {
        let of_file = [1, 2, 3, 4, 5, 6, 7, 8, 10, 11, 13];
        let (of_table, of_position) = (&of_file[..7], &of_file[..8]);
        let with = |more: &[u64]| [&of_file, more].concat();
        let of_keywords = |of_scope: &[u64]| [of_scope, &[15, 16]].concat();
        let needed = [
            ("hv_description", of_table.to_vec()),
            ("hv_column", of_position.to_vec()),
            ("hv_manager", of_position.to_vec()),
            ("hv_column_by_name", of_position.to_vec()),
            ("hv_check", with(&[])),
            ("hv_plan", with(&[])),
            ("hv_place", with(&[9])),
            ("hv_place_planned", with(&[9, 12, SHORT])),
            ("hv_place_in_bucket", [of_position, &[9, 10, 11]].concat()),
            ("hv_view", with(&[9, 14])),
            ("hv_view_planned", with(&[9, 12, 14, SHORT])),
            ("hv_padded_view", with(&[9, 14])),
            ("hv_padded_view_planned", with(&[9, 12, 14, SHORT])),
            ("hv_table_keyword", of_keywords(of_table)),
            ("hv_column_keyword", of_keywords(of_position)),
            ("hv_table_field", of_keywords(of_table)),
            ("hv_column_field", of_keywords(of_position)),
            ("hv_element_bits", vec![1, 8, 16, 32, 64, 128]),
        ];
        let mut missing = Vec::new();
        if self.accepted_in_part == 0 {
            missing.push("hv_place_in_bucket gave no place in a file that is refused".to_string());
        }
        let empty = BTreeSet::from(["hv_view", "hv_view_planned"]);
        if self.empty != empty {
            missing.push(format!("{empty:?} are to give an empty text, and {:?} did", self.empty));
        }
        for (function, numbers) in needed {
            let given: Vec<u64> =
                self.given.keys().filter(|(f, n)| *f == function && *n > 0).map(|(_, n)| *n).collect();
            let mut numbers = numbers;
            numbers.sort_unstable();
            if given != numbers {
                missing.push(format!("{function} is to give {numbers:?}, and gave {given:?}"));
            }
            if !self.given.contains_key(&(function, 0)) {
                missing.push(format!("{function} did not give 0"));
            }
            let bytes: Vec<u64> = self.bytes.keys().filter(|(f, _)| *f == function).map(|(_, n)| *n).collect();
            if function != "hv_element_bits" && bytes != of_table {
                missing.push(format!("{function} is to give {of_table:?} with a byte, and gave {bytes:?}"));
            }
        }
        missing
    }

    /// A file above 4 GiB: cells of it that begin above 4 GiB must be among the answers of each of these functions.
    fn above_4_gib(&mut self, case: &Case, rng: &mut Rng, functions: &[&'static str]) -> Result<(), String> {
        self.largest.clear();
        self.file(case, rng).map_err(|difference| difference.to_string())?;
        for function in functions {
            let in_bytes = if function.contains("view") { 1 } else { 8 };
            if self.largest.get(function).is_none_or(|largest| largest / in_bytes <= 1 << 32) {
                return Err(format!("{function} gave no cell above 4 GiB"));
            }
        }
        Ok(())
    }
}

/// Files above 4 GiB that are refused there: one without its last byte, and one with another version of its ISMIndex.
fn faulty_above_4_gib() -> [(u64, fn() -> Case); 2] {
    let torn = || {
        let mut case = Case::whole(&large_files::standard_above_4_gib(1));
        case.file.pop();
        case
    };
    let version = || {
        let mut subject = large_files::incremental_above_4_gib(0);
        subject.file.index.header.version = 3;
        Case::whole(&subject)
    };
    [(1, torn), (3, version)]
}

/// Numbers that are not below `count`, some of which are the `good` one, cut to 32 bits or less.
fn absent(count: u64, good: u64) -> impl Iterator<Item = u64> {
    let far = [1 << 31, 1 << 32, (1 << 32) + good, 1 << 63, (1 << 63) + good, u64::MAX];
    [count, count + 1].into_iter().chain(far.into_iter().filter(move |number| *number > count + 1))
}

/// The records among the keywords of a scope: the path to each, that to the asked one being empty, and the names of its fields.
/// None where the asked one is refused.
fn records(table: &[u8], scope: Scope) -> Vec<(Vec<u8>, Vec<&[u8]>)> {
    let mut records = Vec::new();
    let mut paths = VecDeque::new();
    if model::keyword(table, scope, &[]).is_err_and(|refusal| refusal.number == NO_KEYWORD) {
        paths.push_back(Vec::new());
    }
    while let Some(path) = paths.pop_front() {
        let mut names = Vec::new();
        for field in (0..).map_while(|number| model::field(table, scope, &path, number).ok()) {
            let name = &table[field.name];
            names.push(name);
            if field.value.data_type == RECORD {
                paths.push_back(with_name(&path, name));
            }
        }
        records.push((path, names));
    }
    records
}

/// A path with one name more.
fn with_name(path: &[u8], name: &[u8]) -> Vec<u8> {
    [path, &(name.len() as u32).to_be_bytes(), name].concat()
}

fn read(path: &Path) -> Vec<u8> {
    std::fs::read(path).unwrap_or_else(|error| panic!("{}: {error}", path.display()))
}

fn entries(path: &Path) -> Vec<PathBuf> {
    let mut paths: Vec<PathBuf> = std::fs::read_dir(path)
        .expect("samples are in samples/")
        .map(|entry| entry.expect("an entry").path())
        .collect();
    paths.sort();
    paths
}

fn sample_folders() -> Vec<PathBuf> {
    entries(Path::new("samples"))
}

/// The samples: each table with each file, and with none.
fn samples() -> Vec<(PathBuf, Case)> {
    let mut cases = Vec::new();
    for sample in sample_folders() {
        let table = read(&sample.join("table.dat"));
        let rows = sample_rows(model::describe(&table).map_or(1, |description| description.rows));
        let is_file =
            |path: &PathBuf| path.file_name().is_some_and(|name| name.to_string_lossy().starts_with("table.f"));
        let files = entries(&sample).into_iter().filter(is_file).map(|path| (read(&path), path));
        for (file, path) in files.chain([(Vec::new(), sample)]) {
            let room = room_needed(&table, &file);
            cases.push((path, Case { table: table.clone(), file, room, rows: rows.clone(), is_whole: true }));
        }
    }
    cases
}

/// All rows, or of many the first and the last and those beside powers of two.
fn sample_rows(rows: u64) -> Vec<u64> {
    if rows <= 100 {
        return (0..rows).collect();
    }
    let powers = (5..63).flat_map(|power| [(1 << power) - 1, 1 << power, (1 << power) + 1]);
    let some = (0..4).chain(powers).filter(|row| *row < rows - 2);
    some.chain(rows - 2..rows).collect()
}

/// The shortest room with which the model accepts a file for one of the managers.
fn room_needed(table: &[u8], file: &[u8]) -> usize {
    let managers = model::describe(table).map_or(Vec::new(), |d| d.managers.iter().map(|m| m.number.into()).collect());
    let is_enough =
        |len: usize| managers.iter().any(|number| model::check(table, *number, file, &mut vec![0; len]).is_ok());
    let (mut low, mut high) = (0, 65_536);
    while low < high {
        let middle = (low + high) / 2;
        if is_enough(middle) {
            high = middle;
        } else {
            low = middle + 1;
        }
    }
    if is_enough(low) {
        low
    } else {
        200
    }
}

fn compare(comparison: &mut Comparison, seed: u64, count: u64) -> Result<(), String> {
    let rng = |number| Rng::new(seed, number);
    let at = |what: &str, number: u64, compared: Compared| compared.map_err(|d| format!("{what} {number}: {d}"));
    for line in Set::Types.lines().chain(Set::SomeTypes { seed, count }.lines()) {
        let number = line.strip_prefix("elementbits ").and_then(fields::signed).expect("a line about a type's number");
        comparison.element_bits(number as u64).map_err(|difference| difference.to_string())?;
    }
    for (number, (path, case)) in (0..).zip(samples()) {
        comparison.file(&case, &mut rng(number)).map_err(|d| format!("{}: {d}", path.display()))?;
    }
    for sample in sample_folders() {
        let compared = comparison.keywords(&read(&sample.join("table.dat")));
        compared.map_err(|d| format!("{}: {d}", sample.display()))?;
    }
    for (number, case) in (0..).zip(texts::cases()) {
        at("texts", number, comparison.text(&case))?;
    }
    // Above 4 GiB: few bytes of each file are not zero, and memory that is not touched costs nothing. One file at a time.
    let places = ["hv_place", "hv_place_planned"];
    let views = ["hv_view", "hv_view_planned", "hv_padded_view", "hv_padded_view_planned"];
    let all = [&places[..], &views].concat();
    let incremental = [&all[..], &["hv_place_in_bucket"]].concat();
    for endianness in [0, 1] {
        let above: [(&dyn Fn() -> Case, &[&str]); 3] = [
            (&|| Case::whole(&large_files::standard_above_4_gib(endianness)), &all),
            (&|| Case::whole(&large_files::bools_above_4_gib(endianness)), &places), // Bools have no views
            (&|| Case::whole(&large_files::incremental_above_4_gib(endianness)), &incremental),
        ];
        for (number, (make, functions)) in (0..).zip(above) {
            let compared = comparison.above_4_gib(&make(), &mut rng(number), functions);
            compared.map_err(|what| format!("above 4 GiB {number}: {what}"))?;
        }
    }
    for (number, make) in faulty_above_4_gib() {
        at("refused above 4 GiB", number, comparison.file(&make(), &mut rng(number)))?;
        if comparison.bytes.get(&("hv_check", number)).is_none_or(|byte| *byte <= 1 << 32) {
            return Err(format!("refused above 4 GiB: {number} has no byte there"));
        }
    }
    // A set with the most entries that there can be: 134 MB, nearly all zero. Of some first and last rows of entries.
    for endianness in [0, 1] {
        let mut case = Case::whole(&large_files::most_entries(endianness));
        let last = case.rows[case.rows.len() - 1];
        case.rows = case.rows.into_iter().step_by(601).chain([last]).collect();
        at("4,095 entries", endianness.into(), comparison.file(&case, &mut rng(0)))?;
        let first = numbers::place(&case.table, &case.file, 0, 0, &mut vec![0; case.room]);
        if first.map(|[.., looks, entries, _]| [looks, entries]) != Ok([12, 4095]) {
            return Err("4,095 entries: row 0 is not found after 12 looks".to_string());
        }
    }
    // More rows than 32 bits can count: 571 MB, nearly all zero. Then the same with the low halves of its last rows alone.
    for endianness in [0, 1] {
        let mut case = Case::whole(&large_files::past_32_bits(endianness));
        let is_large = |row: &u64| *row >= (1 << 32) - (1 << 23);
        let (large, others): (Vec<u64>, Vec<u64>) = case.rows.into_iter().partition(is_large);
        let powers = [31, 32].map(|power| 1 << power).into_iter().flat_map(|row| row - 1..=row + 1);
        case.rows = others.into_iter().step_by(89).chain(large).chain(powers).collect();
        at("past 32 bits", endianness.into(), comparison.file(&case, &mut rng(0)))?;
        let low = Case { rows: vec![0, 1 << 32], ..Case::whole(&large_files::low_halves(endianness)) };
        at("low halves", endianness.into(), comparison.file(&low, &mut rng(0)))?;
    }
    for number in 0..count {
        let table = sets::case(&mut rng(number)).bytes;
        at("tables", number, comparison.table(&table).and_then(|()| comparison.keywords(&table)))?;
    }
    for (number, asked) in (0..).zip(small_file::cases()) {
        let rng = &mut rng(number);
        at("small file", number, comparison.file(&Case::some(asked, rng), rng))?;
    }
    for number in 0..count {
        let rng = &mut rng(number);
        let case = Case::some(file_cases::standard(rng), rng);
        at("standard", number, comparison.file(&case, rng))?;
    }
    for number in 0..count {
        let rng = &mut rng(number);
        let case = Case::some(file_cases::incremental(rng), rng);
        at("incremental", number, comparison.file(&case, rng))?;
    }
    // At the limits of the ranges.
    for number in 0..count.min(10) {
        let rng = &mut rng(number);
        let table = sets::large_case(rng).bytes;
        at("large tables", number, comparison.table(&table).and_then(|()| comparison.keywords(&table)))?;
        let case = Case::some(large_files::case(rng, number), rng);
        at("large files", number, comparison.file(&case, rng))?;
    }
    for (number, case) in (0..).zip(keywords::fields::cases()) {
        at("keyword fields", number, comparison.of_keywords(&case))?;
    }
    for number in 0..count {
        at("keywords", number, comparison.of_keywords(&cases::case(&mut rng(number))))?;
    }
    Ok(())
}

pub fn main() -> ExitCode {
    let words: Vec<String> = std::env::args().skip(1).collect();
    let numbers: Option<Vec<u64>> = words.iter().map(|word| word.parse().ok()).collect();
    let (seed, count) = match numbers.as_deref() {
        Some([]) => (1, 2000),
        Some([seed, count]) => (*seed, *count),
        _ => {
            eprintln!("usage: numbers [SEED COUNT]");
            return ExitCode::from(2);
        }
    };
    let mut comparison = Comparison::default();
    if let Err(difference) = compare(&mut comparison, seed, count) {
        println!("numbers: {difference}");
        return ExitCode::FAILURE;
    }
    for ((function, number), count) in &comparison.given {
        println!("{function} {number}: {count}");
    }
    let missing = comparison.missing();
    for what in &missing {
        println!("numbers: {what}");
    }
    println!("numbers: {} calls, no difference", comparison.calls);
    if missing.is_empty() {
        ExitCode::SUCCESS
    } else {
        ExitCode::FAILURE
    }
}
