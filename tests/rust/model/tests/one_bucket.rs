//! Place in one bucket, in a file of IncrementalStMan that is written here byte by
//! byte, in both byte orders and with row numbers of both widths: every place is
//! counted by hand.

mod common;

use common::{Column, FLAG, SCAN, refused, small_table, table_with};
use model::{InBucket, Refusal, answer, hex, numbers, place, place_in_bucket};

/// How the numbers of a file are written.
#[derive(Clone, Copy, Debug)]
struct Form {
    big: bool,
    /// Whether starts and first rows have eight bytes.
    wide: bool,
}

const FORMS: [Form; 4] = [
    Form { big: true, wide: false },
    Form { big: true, wide: true },
    Form { big: false, wide: false },
    Form { big: false, wide: true },
];

impl Form {
    fn numbers(self, numbers: &[u32]) -> Vec<u8> {
        let bytes = |number: &u32| match self.big {
            true => number.to_be_bytes(),
            false => number.to_le_bytes(),
        };
        numbers.iter().flat_map(bytes).collect()
    }

    fn rows(self, rows: &[i64]) -> Vec<u8> {
        let bytes = |row: &i64| match (self.wide, self.big) {
            (false, _) => self.numbers(&[*row as u32]),
            (true, true) => row.to_be_bytes().to_vec(),
            (true, false) => row.to_le_bytes().to_vec(),
        };
        rows.iter().flat_map(bytes).collect()
    }

    fn object(self, name: &str, version: u32, fields: &[Vec<u8>]) -> Vec<u8> {
        let name = [self.numbers(&[name.len() as u32]), name.as_bytes().to_vec()].concat();
        let rest = [name, self.numbers(&[version]), fields.concat()].concat();
        [self.numbers(&[4 + rest.len() as u32]), rest].concat()
    }

    fn endianness(self) -> u32 {
        self.big.into()
    }
}

/// An Int, then 9 Bools, of nine rows.
fn table(form: Form) -> Vec<u8> {
    table_with(form.endianness(), "IncrementalStMan", vec![0; 16], 9, &COLUMNS)
}

const COLUMNS: [Column; 2] = [SCAN, Column { elements: Some(9), ..FLAG }];

/// The starts and offsets of a column's values.
type Values = (Vec<i64>, Vec<u32>);

/// What a test can change of the file.
#[derive(Clone)]
struct File {
    form: Form,
    /// The header's version, Bool (as that of a good one), bucket size, and
    /// number of free buckets.
    header_version: u32,
    other_bool: bool,
    size: u32,
    free_count: u32,
    index_version: u32,
    first_rows: Vec<i64>,
    numbers: Vec<u32>,
    /// The data part's length and the values of each column, of the buckets in
    /// the index's order.
    buckets: [(usize, [Values; 2]); 3],
    /// Where it is cut off.
    length: usize,
}

impl File {
    /// Rows 0 to 3 in bucket 2, row 4 in bucket 0, rows 5 to 8 in bucket 1;
    /// bucket 3 is free. Buckets have 72 bytes: so bucket 0 is at 512, 1 at 584,
    /// 2 at 656, 3 at 728, the ISMIndex at 800.
    fn new(form: Form) -> Self {
        let values = |starts: &[i64], offsets: &[u32]| (starts.to_vec(), offsets.to_vec());
        Self {
            form,
            header_version: 5,
            other_bool: false,
            size: 72,
            free_count: 1,
            index_version: if form.wide { 2 } else { 1 },
            first_rows: vec![0, 4, 5, 9],
            numbers: vec![2, 0, 1],
            buckets: [
                // x is 16: four bytes of it, eight of Ints, four of Bools.
                (12, [values(&[0, 2], &[0, 4]), values(&[0, 3], &[8, 10])]),
                (6, [values(&[0], &[2]), values(&[0], &[0])]), // x is 10
                (10, [values(&[0, 1], &[0, 4]), values(&[0], &[8])]), // x is 14
            ],
            length: usize::MAX,
        }
    }

    fn bucket(&self, entry: usize) -> Vec<u8> {
        let form = self.form;
        let (data, columns) = &self.buckets[entry];
        let high = if form.wide { 0x0300_0000 } else { 0 };
        let mut bucket = form.numbers(&[high | (4 + *data as u32)]);
        bucket.resize(4 + data, 0x77);
        for (starts, offsets) in columns {
            bucket.extend(form.numbers(&[starts.len() as u32]));
            bucket.extend(form.rows(starts));
            bucket.extend(form.numbers(offsets));
        }
        bucket.resize(72, 0x66);
        bucket
    }

    fn bytes(&self) -> Vec<u8> {
        let form = self.form;
        let fields = [self.size, 4, 1, 1, self.free_count, 3];
        let is_big = u8::from(form.big != self.other_bool);
        let fields = [vec![is_big], form.numbers(&fields)];
        let header = form.object("IncrementalStMan", self.header_version, &fields);
        let mut file = [vec![0xBE; 4], header].concat();
        file.resize(800, 0);
        for (entry, start) in [(0, 656), (1, 512), (2, 584)] {
            file[start..start + 72].copy_from_slice(&self.bucket(entry));
        }
        file[728..732].fill(0xFF); // the free list ends
        let block = |count: usize, elements: Vec<u8>| {
            form.object("Block", 1, &[form.numbers(&[count as u32]), elements])
        };
        let index = [
            form.numbers(&[3]),
            block(self.first_rows.len(), form.rows(&self.first_rows)),
            block(self.numbers.len(), form.numbers(&self.numbers)),
        ];
        let index = form.object("ISMIndex", self.index_version, &index);
        file.extend([vec![0xBE; 4], index].concat());
        file.truncate(self.length);
        file
    }
}

/// The answer to a question with rooms of several lengths, all zero afterwards.
fn ask(table: &[u8], file: &[u8], row: u64, position: u64) -> Result<InBucket, Refusal> {
    let [answer, others @ ..] = [0, 1, 7, 100].map(|length| {
        let mut room = vec![0xA5; length];
        let answer = place_in_bucket(table, file, row, position, &mut room);
        assert_eq!(room, vec![0; length]);
        answer
    });
    assert_eq!(others, [answer; 3]);
    answer
}

/// The same about the file after a change, in every form.
fn assert_answer(
    change: impl Fn(&mut File),
    (row, position): (u64, u64),
    expected: Result<InBucket, Refusal>,
) {
    for form in FORMS {
        let mut file = File::new(form);
        change(&mut file);
        let answer = ask(&table(form), &file.bytes(), row, position);
        assert_eq!(answer, expected, "{form:?} {row} {position}");
    }
}

/// Where each cell of the good file begins, by row; an Int and 9 Bools.
const BYTES: [[u64; 9]; 2] =
    [[660, 660, 664, 664, 518, 588, 592, 592, 592], [668, 668, 668, 670, 516, 596, 596, 596, 596]];

fn placed(row: u64, position: u64) -> Result<InBucket, Refusal> {
    let first_bit = 8 * BYTES[position as usize][row as usize];
    Ok(InBucket { first_bit, bit_count: [32, 16][position as usize], bucket_size: 72 })
}

/// All cells: those of these rows are refused so, the others placed.
fn assert_cells(change: impl Fn(&mut File), rows: &[u64], refusal: (u8, u64)) {
    for cell in (0..9).flat_map(|row| [(row, 0), (row, 1)]) {
        let expected = match rows.contains(&cell.0) {
            true => refused(refusal.0, refusal.1),
            false => placed(cell.0, cell.1),
        };
        assert_answer(&change, cell, expected);
    }
    // The row comes before the bucket.
    for row in [9, 10, 1 << 32, 1 << 63, u64::MAX] {
        assert_answer(&change, (row, 1), refused(9, 0));
    }
}

const FIRST: [u64; 4] = [0, 1, 2, 3];
const SECOND: [u64; 1] = [4];
const THIRD: [u64; 4] = [5, 6, 7, 8];

#[test]
fn a_good_file() {
    assert_cells(|_| (), &[], (0, 0));
    for form in FORMS {
        let (table, file) = (table(form), File::new(form).bytes());
        assert_eq!(file.len(), if form.wide { 914 } else { 898 });
        for cell in (0..9).flat_map(|row| [(row, 0), (row, 1)]) {
            let whole = place(&table, &file, cell.0, cell.1, &mut []).unwrap();
            let one = place_in_bucket(&table, &file, cell.0, cell.1, &mut []).unwrap();
            assert_eq!([one.first_bit, one.bit_count], [whole.first_bit, whole.bit_count]);
        }
    }
}

/// A fault of a bucket refuses its own rows, in every column.
#[test]
fn faults_of_buckets() {
    // The Int's second start, then the Bools'; their only one.
    assert_cells(|file| file.buckets[0].1[0].0[1] = 4, &FIRST, (11, 0));
    assert_cells(|file| file.buckets[0].1[1].0[1] = 4, &FIRST, (11, 0));
    assert_cells(|file| file.buckets[1].1[0].0[0] = 1, &SECOND, (11, 0));
    assert_cells(|file| file.buckets[2].1[1].0[0] = 1, &THIRD, (11, 0));
    // Offsets: a value ends one byte after the data.
    assert_cells(|file| file.buckets[0].1[0].1[0] = 9, &FIRST, (11, 0));
    assert_cells(|file| file.buckets[1].1[1].1[0] = 5, &SECOND, (11, 0));
    assert_cells(|file| file.buckets[2].1[1].1[0] = 9, &THIRD, (11, 0));
    // No values.
    assert_cells(|file| file.buckets[2].1[0] = (vec![], vec![]), &THIRD, (11, 0));
    assert_cells(|file| file.buckets[0].1[1] = (vec![], vec![]), &FIRST, (11, 0));
}

/// A bucket that ends in its index: the field that does not fit, counted from the
/// file's start.
#[test]
fn ends_of_buckets() {
    // The last of the Bools' offsets, in bucket 2, stands at 71 in it.
    let data = |wide: bool| if wide { 15 } else { 31 };
    let last_offset = |file: &mut File| file.buckets[0].0 = data(file.form.wide);
    assert_cells(last_offset, &FIRST, (1, 656 + 71));
    // x is the bucket's end, or 69, where the Int's number of values does not fit.
    assert_cells(|file| file.buckets[2].0 = 68, &THIRD, (1, 584 + 72));
    assert_cells(|file| file.buckets[1].0 = 65, &SECOND, (1, 512 + 69));
    // x is past the end.
    assert_cells(|file| file.buckets[1].0 = 69, &SECOND, (11, 0));
    // The first fault of two buckets does not count, but that of the row's own.
    let two = |file: &mut File| {
        file.buckets[0].1[0].0[1] = 4;
        file.buckets[2].0 = 68;
    };
    assert_answer(two, (3, 0), refused(11, 0));
    assert_answer(two, (4, 0), placed(4, 0));
    assert_answer(two, (5, 0), refused(1, 656));
}

/// What comes before the row and the bucket, with rows that are there and with
/// others, in a file whose buckets are all bad.
#[test]
fn order() {
    let assert_first = |change: &dyn Fn(&mut File), number: u8, byte: u64| {
        let bad = |file: &mut File| {
            file.buckets.iter_mut().for_each(|bucket| bucket.0 = 69);
            change(file);
        };
        for row in [0, 4, 8, 9, u64::MAX] {
            assert_answer(bad, (row, 0), refused(number, byte));
            assert_answer(bad, (row, 1), refused(number, byte));
        }
    };
    // The header: its version at 28, the Bool, the bucket size.
    assert_first(&|file| file.header_version = 4, 3, 28);
    assert_first(&|file| file.other_bool = true, 6, 32);
    assert_first(&|file| file.size = 15, 4, 33);
    // The length.
    assert_first(&|file| file.length = 0, 1, 0);
    assert_first(&|file| file.length = 56, 1, 4);
    for length in [57, 512, 799] {
        assert_first(&|file| file.length = length, 1, length as u64);
    }
    // The index: its mark at 800, the version at 820, the counts of the Blocks at
    // 845 and, after four first rows, at 882 or 898.
    assert_first(&|file| file.length = 800, 1, 800);
    assert_first(&|file| file.index_version = 3, 3, 820);
    assert_first(&|file| file.first_rows.truncate(3), 6, 845);
    // The free list, the bucket numbers and the first rows.
    assert_first(&|file| file.free_count = 2, 10, 0);
    assert_first(&|file| file.numbers[2] = 4, 11, 0);
    assert_first(&|file| file.numbers[0] = 3, 11, 0);
    assert_first(&|file| file.first_rows[3] = 10, 11, 0);
    assert_first(&|file| file.first_rows[2] = 4, 11, 0);
    for form in FORMS {
        let mut file = File::new(form);
        file.numbers.push(3);
        let answer = ask(&table(form), &file.bytes(), 9, 0);
        assert_eq!(answer, refused(6, if form.wide { 898 } else { 882 }));
        let mut file = File::new(form);
        file.first_rows[1] = -1;
        let answer = ask(&table(form), &file.bytes(), 9, 0);
        assert_eq!(answer, if form.wide { refused(4, 857) } else { refused(11, 0) });
    }
    // The index comes before the free list, this before the numbers.
    assert_first(
        &|file| {
            file.index_version = 0;
            file.free_count = 0;
        },
        3,
        820,
    );
    assert_first(
        &|file| {
            file.free_count = 0;
            file.numbers[0] = 9;
        },
        10,
        0,
    );
}

/// The column comes before the file, the table before the column.
#[test]
fn columns() {
    for form in FORMS {
        let (table, good) = (table(form), File::new(form).bytes());
        let files = [good.clone(), good[..700].to_vec(), good[..30].to_vec(), vec![]];
        let ask_each = |table: &[u8], position: u64, expected: Result<InBucket, Refusal>| {
            for file in &files {
                for row in [0, 9, u64::MAX] {
                    assert_eq!(ask(table, file, row, position), expected, "{position}");
                }
            }
        };
        for position in [2, 63, 64, 1 << 32, 1 << 63, u64::MAX] {
            ask_each(&table, position, refused(8, 0));
        }
        // Strings, a scalar and an array.
        let string = Column { data_type: ("String", 11), default: 4, elements: None, ..SCAN };
        let strings = Column { name: "S", elements: Some(2), ..string };
        let columns = [string, strings, FLAG];
        let of_kind = |kind: &str, columns: &[Column]| {
            table_with(form.endianness(), kind, vec![0; 8 * columns.len()], 9, columns)
        };
        let with_strings = of_kind("IncrementalStMan", &columns);
        ask_each(&with_strings, 0, refused(8, 0));
        ask_each(&with_strings, 1, refused(8, 0));
        assert_eq!(ask(&with_strings, &[], 0, 2), refused(1, 0));
        for kind in ["StandardStMan", "TiledShapeStMan", "IncrementalStMa"] {
            ask_each(&of_kind(kind, &COLUMNS), 0, refused(8, 0));
            ask_each(&of_kind(kind, &COLUMNS), 1, refused(8, 0));
        }
        for position in 0..4 {
            ask_each(&small_table(), position, refused(8, 0)); // of StandardStMan
        }
        let mut torn = table.clone();
        torn[20] = 9; // Table's version
        ask_each(&torn, 0, refused(3, 17));
        ask_each(&torn, 99, refused(3, 17));
        ask_each(&table[..3], 99, refused(1, 0));
    }
}

#[test]
fn no_rows() {
    for form in FORMS {
        let none = table_with(form.endianness(), "IncrementalStMan", vec![0; 16], 0, &COLUMNS);
        let fields = [vec![form.big.into()], form.numbers(&[72, 0, 1, 1, 0, u32::MAX])];
        let header = form.object("IncrementalStMan", 5, &fields);
        let mut file = [vec![0xBE; 4], header].concat();
        file.resize(512, 0);
        let first_rows = form.object("Block", 1, &[form.numbers(&[1]), form.rows(&[0])]);
        let buckets = form.object("Block", 1, &[form.numbers(&[0])]);
        let version = if form.wide { 2 } else { 1 };
        let index = form.object("ISMIndex", version, &[form.numbers(&[0]), first_rows, buckets]);
        file.extend([vec![0xBE; 4], index].concat());
        for row in [0, 1, u64::MAX] {
            assert_eq!(ask(&none, &file, row, 1), refused(9, 0));
        }
        assert_eq!(ask(&none, &file, 0, 2), refused(8, 0));
        assert_eq!(ask(&table(form), &file, 0, 1), refused(11, 0));
    }
}

#[test]
fn numbers_and_lines() {
    for form in FORMS {
        let table = table(form);
        let good = File::new(form).bytes();
        let mut file = File::new(form);
        file.buckets[2].0 = 68;
        let bad = file.bytes();
        let numbers_of = |file: &[u8], row, position| {
            let mut room = [0xA5; 3];
            let answer = numbers::place_in_bucket(&table, file, row, position, &mut room);
            assert_eq!(room, [0; 3]);
            (answer.map_or_else(|refusal| refusal.number, |_| 0), numbers::written(answer))
        };
        assert_eq!(numbers_of(&good, 4, 0), (0, [8 * 518, 32, 72, 0]));
        assert_eq!(numbers_of(&good, 3, 1), (0, [8 * 670, 16, 72, 0]));
        assert_eq!(numbers_of(&bad, 3, 1), (0, [8 * 670, 16, 72, 0]));
        assert_eq!(numbers_of(&bad, 5, 1), (1, [0, 0, 0, 656]));
        assert_eq!(numbers_of(&bad, 9, 1), (9, [0; 4]));
        assert_eq!(numbers_of(&bad, 0, 2), (8, [0; 4]));
        let line = |file: &[u8], rest: &str| {
            answer(&format!("place1 {} {} {rest}", hex::encode(&table), hex::encode(file)))
        };
        assert_eq!(line(&good, "4 0 2"), "ok 4144 32 0000");
        assert_eq!(line(&bad, "3 1 0"), "ok 5360 16 -");
        assert_eq!(line(&bad, "5 1 1"), "refused 1 656 00");
        assert_eq!(line(&bad, "9 1 0"), "refused 9 0 -");
        assert_eq!(line(&bad, "18446744073709551615 2 3"), "refused 8 0 000000");
        for rest in ["4 0", "4 0 0 0", "-4 0 0", "4 -1 0", "4 0 1048577"] {
            assert_eq!(line(&good, rest), "bad request", "{rest}");
        }
    }
}
