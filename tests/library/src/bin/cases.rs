//! Cases A to L (RULES.md 11.2), and A to K of the little endian small file, asked of the proved library: a line for each question
//! with its answer. The bytes are those of the proved lists of cases, read out of crates/cases/specs/SmallFile.antt, and so are
//! the changes.

use std::fmt::Write as _;

const ROOM_FILL: u8 = 0xA5;
/// The length of the small file's index text.
const ROOM: usize = 134;
/// Buckets of 64 bytes after 512; those of the index, and the next number, twice, before its text.
const HEADER_ROOM: usize = 512;
const BUCKET: usize = 64;
const INDEX_BUCKETS: [usize; 3] = [1, 3, 4];
const LINKS: usize = 8;

enum Question {
    Check,
    Place { row: u64, column: &'static str },
    View { row: u64, column: &'static str },
}

use Question::{Check, Place, View};

/// The two files of a case, and how their numbers are read.
#[derive(Clone)]
struct Pair {
    table: Vec<u8>,
    file: Vec<u8>,
    number: fn([u8; 4]) -> u32,
}

/// The small file in one byte order, and where the low bytes stand of the numbers that the cases change: TIME's offset in
/// table.dat; in table.f0 the second last row, and in its header the number of index buckets, the object's length and the number
/// of indices.
struct SmallFile {
    name: &'static str,
    pair: Pair,
    offset: usize,
    last: usize,
    buckets: usize,
    length: usize,
    indices: usize,
}

/// The bytes of a definition of SmallFile.antt: lines `row COUNT 0xNUMBER`, joined by `++`.
fn list(text: &str, name: &str) -> Vec<u8> {
    let (_, after) = text.split_once(&format!("\n{name} =\n")).expect("the definition");
    let mut bytes = Vec::new();
    for line in after.lines().take_while(|line| !line.is_empty()) {
        let line = line.trim();
        let words: Vec<&str> = line.strip_prefix("++ ").unwrap_or(line).split(' ').collect();
        let ["row", count, number] = words[..] else { panic!("no row of {name}: {line}") };
        let digits = number.strip_prefix("0x").expect("a number in hex");
        assert_eq!(Ok(digits.len()), count.parse().map(|count: usize| 2 * count), "{line}");
        bytes.extend(
            (0..digits.len()).step_by(2).map(|i| u8::from_str_radix(&digits[i..i + 2], 16).expect("hex digits")),
        );
    }
    bytes
}

/// The index text: what the index buckets hold after their links, in the order of the chain.
fn index_text(Pair { file, number, .. }: &Pair) -> Vec<u8> {
    let length = number(file[66..70].try_into().expect("four bytes"));
    let bucket = |b: usize| &file[HEADER_ROOM + b * BUCKET..][LINKS..BUCKET];
    let mut text = INDEX_BUCKETS.map(bucket).concat();
    text.truncate(length as usize);
    text
}

/// The answer in words. The room must hold the index text and zeros, or after a refusal zeros alone.
fn answer(pair: &Pair, question: &Question) -> String {
    let Pair { table, file, .. } = pair;
    let position = |name: &str| library::column_by_name(table, name.as_bytes());
    let mut room = vec![ROOM_FILL; ROOM];
    let told = match *question {
        Check => library::check(table, file, 0, &mut room).map(|_| "accepted".to_string()),
        Place { row, column } => position(column)
            .and_then(|position| library::place(table, file, row, position, &mut room))
            .map(|[first, count, ..]| format!("bits {first} to {}", first + count - 1)),
        View { row, column } => position(column)
            .and_then(|position| library::view(table, file, row, position, &mut room))
            .map(|[start, length, _]| format!("bytes {start} to {}", start + length - 1)),
    };
    let mut text = if told.is_ok() { index_text(pair) } else { Vec::new() };
    text.resize(ROOM, 0);
    assert_eq!(room, text, "the room");
    told.unwrap_or_else(|refusal| refusal.to_string())
}

/// A line: the case, the bytes that the variant changes, the question and the answer.
fn line(case: &str, unchanged: &Pair, in_table: &[(usize, u8)], in_file: &[(usize, u8)], question: Question) -> String {
    let mut pair = unchanged.clone();
    let mut changes = String::new();
    for (name, bytes, values) in [("table.dat", &mut pair.table, in_table), ("table.f0", &mut pair.file, in_file)] {
        for (at, value) in values {
            bytes[*at] = *value;
            let separator = if changes.is_empty() { "" } else { ", " };
            let _ = write!(changes, "{separator}{name} byte {at} is {value}");
        }
    }
    if changes.is_empty() {
        changes.push_str("no change");
    }
    let asked = match question {
        Check => "check of 0".to_string(),
        Place { row, column } => format!("place of {column} row {row}"),
        View { row, column } => format!("view of {column} row {row}"),
    };
    format!("{case}: {changes}: {asked}: {}", answer(&pair, &question))
}

/// A to K.
fn lines(small: &SmallFile) -> Vec<String> {
    let SmallFile { name, pair, offset, last, buckets, length, indices } = small;
    let line = |case, in_table: &[_], in_file: &[_], question| {
        line(&format!("{name}{case}"), pair, in_table, in_file, question)
    };
    let time = |row| Place { row, column: "TIME" };
    vec![
        line("A", &[], &[], time(5)),
        line("B", &[], &[], time(2)),
        line("C", &[], &[], Place { row: 5, column: "FLAG" }),
        line("D", &[], &[], Place { row: 6, column: "SCAN" }),
        line("E", &[], &[], time(7)),
        line("F", &[], &[], View { row: 5, column: "FLAG" }),
        line("G", &[(*offset, 16)], &[], time(5)),
        line("H", &[(24, 9), (816, 9)], &[(*last, 8)], time(5)),
        line("I", &[], &[(*buckets, 2)], time(5)),
        line("J", &[(*offset, 32)], &[], Check),
        line("J", &[(*offset, 32)], &[], time(0)),
        line("J", &[(*offset, 33)], &[], time(0)),
        // The header object is the 70 bytes that its length, from byte 4 on, says; 73 is its last byte.
        line("K", &[], &[(*length, 69)], Check),
        line("K", &[], &[(*length, 70)], Check),
        line("K", &[], &[(*length, 71)], Check),
        line("K", &[], &[(*indices, 0)], Check),
        line("K", &[], &[(74, 255)], Check),
    ]
}

fn main() {
    let path = "crates/cases/specs/SmallFile.antt";
    let text = std::fs::read_to_string(path).expect(path);
    let pair = |table, file, number| Pair { table: list(&text, table), file: list(&text, file), number };
    let small = SmallFile {
        name: "",
        pair: pair("table_dat", "f0", u32::from_be_bytes),
        offset: 933,
        last: 760,
        buckets: 53,
        length: 7,
        indices: 73,
    };
    let little = SmallFile {
        name: "little ",
        pair: pair("little_dat", "little_f0", u32::from_le_bytes),
        offset: 978,
        last: 757,
        buckets: 50,
        length: 4,
        indices: 70,
    };
    for (sample, bytes) in [
        ("samples/small/table.dat", &small.pair.table),
        ("samples/small/table.f0", &small.pair.file),
        ("samples/little/table.dat", &little.pair.table),
        ("samples/little/table.f0", &little.pair.file),
    ] {
        assert_eq!(&std::fs::read(sample).expect(sample), bytes, "{sample} is that of {path}");
    }

    let bools = pair("bools_dat", "bools_f0", u32::from_be_bytes);
    let last = line("L", &bools, &[], &[], Place { row: 1, column: "FLAG" });
    for line in lines(&small).into_iter().chain([last]).chain(lines(&little)) {
        println!("{line}");
    }
}
