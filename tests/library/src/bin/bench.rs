//! Times the proved library against the independent model: same inputs, one run, the best of many short rounds each. The
//! rounds alternate, so that both see the same state of the machine. Each lends one room, as long as the index text, over and
//! over; it is not cleared in between.

use model::Scope;
use std::hint::black_box;
use std::time::{Duration, Instant};
use writer::buckets::{BucketFile, Buckets, Subject};
use writer::cells;
use writer::incremental::{DataBucket, IncrementalFile, Values};
use writer::keywords::paths;
use writer::keywords::record::{Desc, Key, TableRecord};
use writer::lean;
use writer::standard::{Index, StandardFile};
use writer::table::{Column, Manager, BOOL, DOUBLE, FLOAT, INT, SHORT, STRING};

const ROUNDS: usize = 300;

fn round(work: &mut impl FnMut(), calls: u32) -> Duration {
    let start = Instant::now();
    for _ in 0..calls {
        work();
    }
    start.elapsed() / calls
}

fn compare(what: &str, calls: u32, mut library: impl FnMut(), mut model: impl FnMut()) {
    let mut ours = Duration::MAX;
    let mut theirs = Duration::MAX;
    for _ in 0..ROUNDS {
        ours = ours.min(round(&mut library, calls));
        theirs = theirs.min(round(&mut model, calls));
    }
    println!(
        "{what:<60} {:>9.3} us {:>9.3} us  {:>5.2} {:>11.0}",
        ours.as_secs_f64() * 1e6,
        theirs.as_secs_f64() * 1e6,
        ours.as_secs_f64() / theirs.as_secs_f64(),
        1.0 / ours.as_secs_f64()
    );
}

/// The last column is the library's calls per second.
fn title(question: &str) {
    println!("{question:<60} {:>12} {:>12}  {:>5} {:>11}", "library", "model", "ratio", "calls/s");
}

fn description(what: &str, table: &[u8], calls: u32) {
    assert!(model::describe(table).is_ok() && library::description(table).is_ok(), "{what} is accepted");
    compare(
        &format!("{what} ({} bytes)", table.len()),
        calls,
        || _ = black_box(library::description(black_box(table))),
        || _ = black_box(model::describe(black_box(table))),
    );
}

/// The numbers of a place as the model has them.
fn placed_as([first_bit, bit_count, looks, entries, _]: [u64; library::PLACE]) -> model::Placed {
    model::Placed { first_bit, bit_count, looks, entries }
}

/// Those of a place in one bucket.
fn in_bucket_as([first_bit, bit_count, bucket_size, _]: [u64; library::IN_BUCKET]) -> model::InBucket {
    model::InBucket { first_bit, bit_count, bucket_size }
}

/// The last column of a table, by its name.
fn column(what: &str, table: &[u8], calls: u32) {
    let described = model::describe(table).expect("an accepted table");
    let name = &described.columns[described.columns.len() - 1].name;
    let (ours, theirs) = (library::column_by_name(table, name), model::column(table, name));
    assert_eq!(ours.ok(), theirs.ok().map(|position| position as u64), "{what}");
    compare(
        what,
        calls,
        || _ = black_box(library::column_by_name(black_box(table), name)),
        || _ = black_box(model::column(black_box(table), name)),
    );
}

/// A keyword of a scope by its path.
fn keyword(what: &str, table: &[u8], scope: Scope, path: &[u8], calls: u32) {
    let of_library = |table: &[u8]| match scope {
        Scope::Table => library::table_keyword(table, path),
        Scope::Column(position) => library::column_keyword(table, position, path),
    };
    let of_model = |table: &[u8]| model::keyword(table, scope, path);
    let numbers = |keyword: model::Keyword| (u64::from(keyword.data_type), keyword.part.start as u64);
    let ours = of_library(table).ok().map(|[data_type, start, ..]| (data_type, start));
    assert_eq!(ours, Some(numbers(of_model(table).expect("a keyword"))), "{what}");
    compare(
        &format!("{what} ({} bytes)", table.len()),
        calls,
        || _ = black_box(of_library(black_box(table))),
        || _ = black_box(of_model(black_box(table))),
    );
}

/// A field of a record among the table's keywords by its number.
fn field(what: &str, table: &[u8], path: &[u8], number: u64, calls: u32) {
    let of_model = |table: &[u8]| model::field(table, Scope::Table, path, number);
    let ours = library::table_field(table, path, number).ok().map(|[name, ..]| name);
    assert_eq!(ours, Some(of_model(table).expect("a field").name.start as u64), "{what}");
    compare(
        &format!("{what} ({} bytes)", table.len()),
        calls,
        || _ = black_box(library::table_field(black_box(table), path, number)),
        || _ = black_box(of_model(black_box(table))),
    );
}

/// Each of the numbers from 0. The library's function stands behind a call, so the model's does too.
fn element_bits(what: &str, numbers: u64, calls: u32) {
    #[inline(never)]
    fn of_model(number: u64) -> u64 {
        model::numbers::element_bits(number)
    }
    assert!((0..numbers).all(|number| library::element_bits(number) == of_model(number)), "{what}");
    compare(
        what,
        calls,
        || (0..numbers).for_each(|number| _ = black_box(library::element_bits(black_box(number)))),
        || (0..numbers).for_each(|number| _ = black_box(of_model(black_box(number)))),
    );
}

/// A table, its one file, and what is asked of them.
struct Files {
    what: &'static str,
    table: Vec<u8>,
    file: Vec<u8>,
    room: usize,
    rows: u64,
    column: u64,
    calls: u32,
}

impl Files {
    fn new(what: &'static str, subject: &Subject<impl BucketFile>, column: u64, calls: u32) -> Self {
        Self {
            what,
            table: subject.table.encode(),
            file: subject.file.encode(),
            room: subject.file.index_length(),
            rows: subject.table.rows(),
            column,
            calls,
        }
    }

    fn check(&self) {
        let Self { table, file, .. } = self;
        let (mut room, mut other) = (vec![0; self.room], vec![0; self.room]);
        assert!(library::check(table, file, 0, &mut room).is_ok(), "{} is accepted", self.what);
        assert!(model::check(table, 0, file, &mut other).is_ok() && room == other);
        compare(
            self.what,
            self.calls,
            || _ = black_box(library::check(black_box(table), black_box(file), 0, &mut room)),
            || _ = black_box(model::check(black_box(table), 0, black_box(file), &mut other)),
        );
    }

    fn plan(&self) {
        let Self { table, file, column, .. } = self;
        let (mut room, mut other) = (vec![0; self.room], vec![0; self.room]);
        let (ours, theirs) =
            (library::plan(table, file, *column, &mut room), model::plan(table, file, *column, &mut other));
        assert_eq!(ours.ok().map(|plan| plan[6]), theirs.ok().map(|plan| plan.offset), "{}", self.what);
        compare(
            self.what,
            self.calls,
            || _ = black_box(library::plan(black_box(table), black_box(file), *column, &mut room)),
            || _ = black_box(model::plan(black_box(table), black_box(file), *column, &mut other)),
        );
    }

    /// Place of the last row by a prepared plan.
    fn place_planned(&self) {
        let Self { table, file, column, rows, .. } = self;
        let (mut room, mut other) = (vec![0; self.room], vec![0; self.room]);
        let plan = library::plan(table, file, *column, &mut room).expect("a plan");
        let expected = model::plan(table, file, *column, &mut other).expect("a plan");
        let row = rows - 1;
        let ours = library::place_planned(table, file, row, &plan, &mut room);
        let theirs = model::place_by_plan(table, file, row, &expected, &mut other);
        assert_eq!(ours.ok().map(placed_as), theirs.ok(), "{}", self.what);
        compare(
            self.what,
            self.calls,
            || _ = black_box(library::place_planned(black_box(table), black_box(file), row, &plan, &mut room)),
            || _ = black_box(model::place_by_plan(black_box(table), black_box(file), row, &expected, &mut other)),
        );
    }

    /// View of the last row.
    fn view(&self) {
        self.part(library::view, model::view);
    }

    /// Padded view of the last row.
    fn padded_view(&self) {
        self.part(library::padded_view, model::padded_view);
    }

    /// The part of the file that holds the cell of the last row, or its text.
    fn part(
        &self,
        library: impl Fn(&[u8], &[u8], u64, u64, &mut [u8]) -> Result<[u64; library::VIEW], library::Refusal>,
        model: impl for<'a> Fn(&[u8], &'a [u8], u64, u64, &mut [u8]) -> Result<&'a [u8], model::Refusal>,
    ) {
        let Self { table, file, column, rows, .. } = self;
        let (mut room, mut other) = (vec![0; self.room], vec![0; self.room]);
        let row = rows - 1;
        let ours = library(table, file, row, *column, &mut room);
        let theirs = model(table, file, row, *column, &mut other);
        assert_eq!(ours.ok().map(|[_, length, _]| length), theirs.ok().map(|part| part.len() as u64), "{}", self.what);
        compare(
            self.what,
            self.calls,
            || _ = black_box(library(black_box(table), black_box(file), row, *column, &mut room)),
            || _ = black_box(model(black_box(table), black_box(file), row, *column, &mut other)),
        );
    }

    /// The last row's cell is a text without a zero byte.
    fn full(mut self) -> Self {
        let cell = library::padded_view(&self.table, &self.file, self.rows - 1, self.column, &mut vec![0; self.room]);
        let [start, length, _] = cell.expect("a cell");
        self.file[start as usize..][..length as usize].fill(b'A');
        self
    }

    /// Some of the rows, over the whole of the table.
    fn some_rows(&self) -> impl Iterator<Item = u64> {
        (0..self.rows).step_by(1 + self.rows as usize / 100)
    }

    /// Another row at each call, the same rows for each who asks.
    fn rows_in_turn(&self) -> impl FnMut() -> u64 {
        let (mut row, rows) = (0, self.rows);
        move || {
            row = (row + (rows / 1000).max(7919)) % rows;
            row
        }
    }

    fn place(&self) {
        let Self { table, file, column, .. } = self;
        let (mut room, mut other) = (vec![0; self.room], vec![0; self.room]);
        for row in self.some_rows() {
            let placed = library::place(table, file, row, *column, &mut room);
            let expected = model::place(table, file, row, *column, &mut other);
            assert_eq!(placed.ok().map(placed_as), expected.ok(), "{} row {row}", self.what);
        }
        let (mut ours, mut theirs) = (self.rows_in_turn(), self.rows_in_turn());
        compare(
            self.what,
            self.calls,
            || _ = black_box(library::place(black_box(table), black_box(file), ours(), *column, &mut room)),
            || _ = black_box(model::place(black_box(table), black_box(file), theirs(), *column, &mut other)),
        );
    }

    /// Of a file of IncrementalStMan, without a room. It is quick, so there are more calls.
    fn place_in_bucket(&self) {
        let Self { table, file, column, .. } = self;
        for row in self.some_rows() {
            let placed = library::place_in_bucket(table, file, row, *column, &mut []);
            let expected = model::place_in_bucket(table, file, row, *column, &mut []);
            assert_eq!(placed.ok().map(in_bucket_as), expected.ok(), "{} row {row}", self.what);
        }
        let (mut ours, mut theirs) = (self.rows_in_turn(), self.rows_in_turn());
        compare(
            self.what,
            self.calls.max(20),
            || _ = black_box(library::place_in_bucket(black_box(table), black_box(file), ours(), *column, &mut [])),
            || _ = black_box(model::place_in_bucket(black_box(table), black_box(file), theirs(), *column, &mut [])),
        );
    }
}

fn main() {
    let read = |path: &str| std::fs::read(path).expect(path);
    title("Bits of an element for");
    element_bits("32 numbers from 0", 32, 10_000);
    title("Description of");
    description("the small table", &read("samples/small/table.dat"), 2_000);
    description("the little endian small table", &read("samples/little/table.dat"), 2_000);
    description("the survey's table, ColumnSet -3", &read("samples/survey/table.dat"), 2_000);
    description("the table with arrays", &read("samples/arrays/table.dat"), 500);
    let large = large_table();
    description("a table of 64 columns", &large, 100);
    title("Column by name, the last of");
    column("the small table", &read("samples/small/table.dat"), 2_000);
    column("a table of 64 columns", &large, 100);
    let sample = read("samples/keywords/table.dat");
    let deep = paths::path(&["NESTED", "L3", "L4", "L5", "L6", "L7", "L8", "depth"]);
    let (many, last) = many_keywords();
    title("Keyword of");
    keyword("a column: its unit", &sample, Scope::Column(2), &paths::path(&["UNIT"]), 500);
    keyword("the table: MS_VERSION", &sample, Scope::Table, &paths::path(&["MS_VERSION"]), 500);
    keyword("the table: the depth at depth 8", &sample, Scope::Table, &deep, 500);
    keyword("a table with 2,200: the last", &many, Scope::Table, &paths::path(&[&last]), 20);
    title("Field of");
    field("the table: number 4", &sample, &[], 4, 500);
    field("the record at depth 8: number 0", &sample, &deep[..deep.len() - 9], 0, 500);
    field("a table with 2,200: the last", &many, &[], 2_199, 20);

    let (small, little) = (writer::samples::small_file(), writer::samples::little_file());
    let files = [
        Files::new("the small file", &small, 2, 1_000),
        Files::new("the little endian small file", &little, 2, 1_000),
        Files::new("64 columns, 16 sets, 2,000 entries in an index chain", &many_sets(), 63, 20),
        Files::new("the same with rows of 64 bits, SSMIndex 2", &wide(many_sets()), 63, 20),
        Files::new("6 columns, 1 set, 1,349 buckets of 32,768 bytes", &large_buckets(), 5, 20),
        Files::new("Incremental: the survey, 5,000,000,000 rows", &writer::samples::survey_file(), 0, 1_000),
        Files::new("Incremental: 10 columns, 1 bucket of 32,768 bytes", &incremental(1, 20), 5, 200),
        Files::new("Incremental: 10 columns, 4,000 buckets of 32,768 bytes", &incremental(4_000, 20), 5, 1),
    ];
    // The index of the last of them, and more in each bucket: a check reads ten times as much, the place in one bucket only in that.
    let more = Files::new("the same index, buckets with 10 times as many values", &incremental(4_000, 200), 5, 1);
    title("File check of");
    files.iter().chain([&more]).for_each(Files::check);
    title("Plan of a column in");
    files.iter().for_each(Files::plan);
    title("Place in");
    files.iter().for_each(Files::place);
    title("Place in one bucket of");
    files[5..].iter().chain([&more]).for_each(Files::place_in_bucket);
    title("Place by a plan in");
    files.iter().for_each(Files::place_planned);
    // The whole of the text is looked at for a zero byte.
    let texts = [
        Files::new("a text of 64 bytes, which is its maximum", &one_text(64), 0, 1_000).full(),
        Files::new("a text of 65,536 bytes, which is its maximum", &one_text(65_536), 0, 20).full(),
    ];
    title("View in");
    files.iter().for_each(Files::view);
    title("View of");
    texts.iter().for_each(Files::view);
    title("Padded view of");
    texts.iter().for_each(Files::padded_view);
}

/// The first accepted table of the writer's large ones that has 64 columns and is near 65,536 bytes.
fn large_table() -> Vec<u8> {
    let set = writer::sets::Set::Large { seed: 1, count: 10_000 };
    set.lines()
        .find_map(|line| {
            let hex = line.split(' ').nth(1)?;
            let byte = |i: usize| u8::from_str_radix(hex.get(2 * i..2 * i + 2)?, 16).ok();
            let table: Vec<u8> = (0..hex.len() / 2).map(byte).collect::<Option<_>>()?;
            let accepted = model::describe(&table).ok()?;
            (accepted.columns.len() == 64 && table.len() > 60_000 && table.len() <= 65_536).then_some(table)
        })
        .expect("a large accepted table")
}

/// A table with 2,200 keywords, and the name of the last.
fn many_keywords() -> (Vec<u8>, String) {
    let name = |number: u32| format!("KEY{number:04}");
    let key = |number: u32| Key::scalar(name(number).as_bytes(), DOUBLE, &f64::from(number).to_be_bytes());
    let record = TableRecord::new(Desc::new(2, (0..2_200).map(key).collect()));
    let columns = vec![Column::scalar(INT, "")];
    let mut table = lean::bare(7, 1, columns, vec![Manager::new("StandardStMan", 0)]);
    table.description.keywords = record.encode();
    let table = table.encode();
    assert!(table.len() > 59_000 && table.len() <= 65_536, "a large table");
    (table, name(2_199))
}

/// Columns one after the other in the buckets of a set.
fn placed(set: u32, columns: &[Column], rows_per_bucket: u32) -> Vec<Column> {
    let mut offset = 0;
    let mut place = |column: &Column| {
        let placed = column.clone().at(set, offset as u32);
        offset += cells::extent(column, rows_per_bucket);
        placed
    };
    columns.iter().map(&mut place).collect()
}

/// Full buckets: so many rows in each of these.
fn entries(rows_per_bucket: u32, buckets: impl Iterator<Item = u32>) -> Vec<(u64, u32)> {
    (1..).zip(buckets).map(|(count, bucket)| (u64::from(rows_per_bucket) * count - 1, bucket)).collect()
}

/// 125 buckets of 8 rows in each set; the sets take turns, and the index buckets follow.
fn many_sets() -> Subject<StandardFile> {
    const SETS: u32 = 16;
    const ENTRIES: u32 = 125;
    const PER: u32 = 8;
    let kinds = [INT, BOOL, SHORT, DOUBLE].map(|kind| Column::scalar(kind, ""));
    let columns = (0..SETS).flat_map(|set| placed(set, &kinds, PER)).collect();
    let index = |set| Index::new(PER, kinds.len(), &entries(PER, (0..ENTRIES).map(|entry| entry * SETS + set)));
    let buckets = Buckets::new("StandardStMan", 3, 1, 128, SETS * ENTRIES);
    let file = StandardFile::new(buckets, Vec::new(), (0..SETS).map(index).collect());
    let table = lean::bare((ENTRIES * PER).into(), 1, columns, vec![Manager::new("StandardStMan", 0)]);
    Subject { table, number: 0, file }
}

/// The same file with SSMIndex 2 in each set; the index chain grows.
fn wide(mut subject: Subject<StandardFile>) -> Subject<StandardFile> {
    subject.file.indices.iter_mut().for_each(Index::widen);
    subject
}

/// 1,348 data buckets of 740 rows, then the index bucket.
fn large_buckets() -> Subject<StandardFile> {
    const DATA: u32 = 1_348;
    const PER: u32 = 740;
    let kinds = [
        Column::scalar(DOUBLE, ""),
        Column::scalar(INT, ""),
        Column::scalar(INT, ""),
        Column::direct(DOUBLE, "", &[3]),
        Column::scalar(BOOL, ""),
        Column::scalar(FLOAT, ""),
    ];
    let index = Index::new(PER, kinds.len(), &entries(PER, 0..DATA));
    let buckets = Buckets::new("StandardStMan", 3, 1, 32_768, DATA + 1);
    let file = StandardFile::new(buckets, vec![DATA], vec![index]);
    let table = lean::bare((DATA * PER).into(), 1, placed(0, &kinds, PER), vec![Manager::new("StandardStMan", 0)]);
    Subject { table, number: 0, file }
}

/// A String with this maximum in 8 rows, two in each bucket; then the index bucket.
fn one_text(maximum: u32) -> Subject<StandardFile> {
    const PER: u32 = 2;
    const DATA: u32 = 4;
    let text = [Column::scalar(STRING, "").string_maximum(maximum)];
    let index = Index::new(PER, text.len(), &entries(PER, 0..DATA));
    let buckets = Buckets::new("StandardStMan", 3, 1, PER * maximum, DATA + 1);
    let file = StandardFile::new(buckets, vec![DATA], vec![index]);
    let table = lean::bare((DATA * PER).into(), 1, placed(0, &text, PER), vec![Manager::new("StandardStMan", 0)]);
    Subject { table, number: 0, file }
}

/// So many buckets of 200 rows, each with so many values, 200 at most, of each of ten columns.
fn incremental(buckets: u32, values: u32) -> Subject<IncrementalFile> {
    const ROWS: u32 = 200;
    const BYTES: u32 = 8;
    let columns = vec![Column::scalar(DOUBLE, ""); 10];
    let of_column = |column| {
        let starts = (0..values).map(|value| (value * (ROWS / values)).into());
        let offsets = (0..values).map(|value| (column * values + value) * BYTES);
        Values::new(starts.collect(), offsets.collect())
    };
    let bucket = |number| {
        let data = vec![0; (10 * values * BYTES) as usize];
        DataBucket::new(number, data, (0..10).map(of_column).collect())
    };
    let first_rows = (0..=buckets).map(|bucket| (bucket * ROWS).into()).collect();
    let layout = Buckets::new("IncrementalStMan", 5, 1, 32_768, buckets);
    let file = IncrementalFile::new(layout, first_rows, (0..buckets).map(bucket).collect());
    let table = lean::bare((buckets * ROWS).into(), 1, columns, vec![Manager::new("IncrementalStMan", 0)]);
    Subject { table, number: 0, file }
}
