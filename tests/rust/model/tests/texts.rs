//! Views of texts, and of other cells with zero bytes, in files written here byte
//! by byte: each sentence of RULES.md 7.10.

mod common;
mod incremental;
mod little;
mod standard;

use common::{
    Column, FLAG, SCAN, TIME, refused, small_table, table, table_of, table_rows, uint, uints,
};
use model::{
    Plan, Refusal, answer, hex, numbers, padded_view, padded_view_by_plan, place, plan, view,
    view_by_plan,
};
use standard::{HEADER, Header, file_of, header, index_object, index_text};

/// A text of at most 8 bytes, whose cells stand where those of TIME do in the
/// small file.
const NAME: Column =
    Column { name: "NAME", data_type: ("String  ", 11), default: 4, maximum: 8, ..TIME };

/// A column that stands alone, at the buckets' start.
const ALONE: Column = Column { offset: 0, ..NAME };

/// Writes the cells of a column, from row 0 on: four rows in bucket 2, the others
/// in bucket 0.
fn put(file: &mut [u8], offset: usize, cells: &[&[u8]]) {
    for (row, cell) in cells.iter().enumerate() {
        let bucket = if row < 4 { 640 } else { 512 };
        file[bucket + offset + row % 4 * cell.len()..][..cell.len()].copy_from_slice(cell);
    }
}

/// A table of this one column, and its file with these cells; the other bytes of
/// the buckets are not zero.
fn alone(column: Column, cells: &[&[u8]]) -> (Vec<u8>, Vec<u8>) {
    let mut file = file_of(header(HEADER), &index_text(1, &[3, 6], &[2, 0]));
    put(&mut file, 0, cells);
    (table(7, &[column]), file)
}

/// What each question says of a cell of the first column: by position and by plan,
/// as a part of the file and as numbers. They say the same.
fn views(table: &[u8], file: &[u8], row: u64) -> [[u64; 2]; 2] {
    let room = &mut [0xA5; 150];
    let fresh = plan(table, file, 0, room).unwrap();
    let place_of =
        |part: &[u8]| [(part.as_ptr().addr() - file.as_ptr().addr()) as u64, part.len() as u64];
    let told = |numbers: Result<[u64; 3], Refusal>| {
        let [start, length, byte] = numbers.unwrap();
        assert_eq!(byte, 0);
        [start, length]
    };
    let text = place_of(view(table, file, row, 0, room).unwrap());
    assert_eq!(place_of(view_by_plan(table, file, row, &fresh, room).unwrap()), text);
    assert_eq!(told(numbers::view(table, file, row, 0, room)), text);
    assert_eq!(told(numbers::view_planned(table, file, row, fresh.numbers(), room)), text);
    let cell = place_of(padded_view(table, file, row, 0, room).unwrap());
    assert_eq!(place_of(padded_view_by_plan(table, file, row, &fresh, room).unwrap()), cell);
    assert_eq!(told(numbers::padded_view(table, file, row, 0, room)), cell);
    assert_eq!(told(numbers::padded_view_planned(table, file, row, fresh.numbers(), room)), cell);
    [text, cell]
}

/// "The padded view is the bytes first bit / 8 on, bit count / 8 of them: the whole
/// cell."
#[test]
fn the_padded_view_is_the_whole_cell() {
    let zeros: &[u8] = &[0; 8];
    let (table, file) = alone(ALONE, &[zeros; 7]);
    for (row, start) in [(0, 640), (3, 664), (4, 512), (6, 528)] {
        let placed = place(&table, &file, row, 0, &mut [0; 134]).unwrap();
        assert_eq!((placed.first_bit, placed.bit_count), (8 * start, 64));
        assert_eq!(views(&table, &file, row)[1], [start, 8]);
    }
}

/// "The view of a String scalar with a maximum, in StandardStMan, stops before the
/// first zero byte, or runs to the maximum if there is none."
#[test]
fn a_text_stops_before_the_first_zero_byte() {
    // Behind the second the third begins with another byte than zero; behind the
    // fourth no cell stands.
    let cells: [&[u8]; 7] = [
        b"RA01\0\0\0\0",
        b"PARKES64",
        b"ABCDEFG\0",
        b"\x01\x7F\x80\xFF \xC3\xA9\"",
        b"WESTERBO",
        b"\0\0\0\0\0\0\0\0",
        b"X\0\0\0\0\0\0\0",
    ];
    let (table, file) = alone(ALONE, &cells);
    assert_eq!(file[672], 0x77); // behind the fourth
    let lengths = [4, 8, 7, 8, 8, 0, 1];
    let starts = [640, 648, 656, 664, 512, 520, 528];
    for (row, (start, length)) in starts.into_iter().zip(lengths).enumerate() {
        assert_eq!(views(&table, &file, row as u64), [[start, length], [start, 8]], "row {row}");
    }
    assert_eq!(view(&table, &file, 0, 0, &mut [0; 134]), Ok(&b"RA01"[..]));
    assert_eq!(padded_view(&table, &file, 0, 0, &mut [0; 134]), Ok(cells[0]));
}

/// Maxima of 1 and 2, and the largest that the bucket has room for.
#[test]
fn texts_of_other_maxima() {
    let (table, file) = alone(Column { maximum: 1, ..ALONE }, &[b"A", b"\0", b"B", b"C"]);
    let text = |row| views(&table, &file, row)[0];
    assert_eq!([0, 1, 2, 3].map(text), [[640, 1], [641, 0], [642, 1], [643, 1]]);
    let (table, file) = alone(Column { maximum: 2, ..ALONE }, &[b"AB", b"\0B", b"C\0", b"\0\0"]);
    let text = |row| views(&table, &file, row)[0];
    assert_eq!([0, 1, 2, 3].map(text), [[640, 2], [642, 0], [644, 1], [646, 0]]);
    // Four of 16 bytes fill the bucket, behind which an index bucket begins.
    let long: &[u8] = b"ABCDEFGHIJKLMNOP";
    let (table, mut file) = alone(Column { maximum: 16, ..ALONE }, &[long; 7]);
    assert_eq!(views(&table, &file, 3), [[688, 16], [688, 16]]);
    file[703] = 0;
    assert_eq!(views(&table, &file, 3), [[688, 15], [688, 16]]);
    // As many bytes as a String without a maximum.
    let padded: &[u8] = b"ABC\0\0\0\0\0\0\0\0\x03";
    let (table, file) = alone(Column { maximum: 12, ..ALONE }, &[padded; 7]);
    assert_eq!(views(&table, &file, 0), [[640, 3], [640, 12]]);
}

/// "Zero bytes that stand behind the first one do not count, and neither does what
/// stands between them."
#[test]
fn what_stands_behind_a_zero_byte_does_not_count() {
    let cells: [&[u8]; 7] = [
        b"A\0B\0\0\0\0\0",
        b"AB\0CDEFG",
        b"\0OLD\0\0\0\0",
        b"\0ABCDEFG",
        b"ABC\0D\0E\0",
        b"ABCDEF\0G",
        b"A\0\0\0\0\0\0B",
    ];
    let (table, file) = alone(ALONE, &cells);
    let lengths = [0, 1, 2, 3, 4, 5, 6].map(|row| views(&table, &file, row)[0][1]);
    assert_eq!(lengths, [1, 2, 0, 0, 3, 6, 1]);
}

/// "Every other view is the padded one: a String without a maximum, and a String
/// array, have no padding, whatever bytes their cells hold."
#[test]
fn every_other_view_is_the_padded_one() {
    let string = Column { maximum: 0, ..ALONE };
    let array = |elements| Column { elements: Some(elements), ..ALONE };
    let of = |data_type, default| Column { data_type, default, ..ALONE };
    let columns = [
        (string, 12),
        (array(1), 12),
        (Column { maximum: 12, ..array(1) }, 12),
        (Column { maximum: 0, ..array(3) }, 12),
        (Column { is_direct: false, ..array(1) }, 8),
        (Column { is_direct: false, maximum: 3, ..array(5) }, 8),
        (of(("uChar   ", 2), 1), 1),
        (of(("Short   ", 3), 2), 2),
        (of(("uShort  ", 4), 2), 2),
        (of(("Int     ", 5), 4), 4),
        (of(("uInt    ", 6), 4), 4),
        (of(("float   ", 7), 4), 4),
        (of(("double  ", 8), 8), 8),
        (of(("Complex ", 9), 8), 8),
        (of(("DComplex", 10), 16), 16),
        (of(("Int64   ", 29), 8), 8),
        (Column { elements: Some(5), ..of(("uChar   ", 2), 1) }, 5),
    ];
    for (column, size) in columns {
        let zeros = vec![0; size];
        let mut inside = vec![b'A'; size];
        inside[size / 2] = 0;
        let mut last = vec![b'A'; size];
        last[size - 1] = 0;
        let (table, file) = alone(column, &[&zeros, &inside, &last]);
        for row in 0..3 {
            let cell = [640 + row * size as u64, size as u64];
            let (data_type, maximum) = (column.data_type, column.maximum);
            assert_eq!(views(&table, &file, row), [cell; 2], "{data_type:?}, {maximum}");
        }
    }
}

/// TIME of the small file, whose bytes are zero here, in both byte orders.
#[test]
fn the_small_file_has_no_texts() {
    let big = (small_table(), standard::small_file());
    let little = (little::small_table(), little::small_file());
    for (table, mut file) in [big, little] {
        let zeros: &[u8] = &[0; 8];
        put(&mut file, 17, &[zeros; 7]);
        let room = &mut [0; 134];
        assert_eq!(view(&table, &file, 5, 2, room), Ok(&file[537..545]));
        assert_eq!(padded_view(&table, &file, 5, 2, room), Ok(&file[537..545]));
    }
}

/// "In IncrementalStMan no String has a place." Other cells are whole.
#[test]
fn in_incremental_no_string_has_a_place() {
    let file = incremental::small_file(); // an Int of 7, and one of 8
    let room = &mut [0xA5; 3];
    let with = |column: Column| table_of("IncrementalStMan", 3, &[column]);
    for int in [incremental::small_table(), with(Column { maximum: 4, offset: 0, ..SCAN })] {
        assert_eq!(views(&int, &file, 0), [[516, 4], [516, 4]]);
        assert_eq!(view(&int, &file, 2, 0, room), Ok(&uint(8)[..]));
    }
    for column in [ALONE, Column { elements: Some(2), ..ALONE }] {
        for maximum in [0, 4] {
            let table = with(Column { maximum, ..column });
            let plan = Plan::of([0, 0, 11, 1, 32, 0, 0, 0, 20]);
            assert_eq!(view(&table, &file, 0, 0, room), refused(8, 0));
            assert_eq!(padded_view(&table, &file, 0, 0, room), refused(8, 0));
            assert_eq!(view_by_plan(&table, &file, 0, &plan, room), refused(8, 0));
            assert_eq!(padded_view_by_plan(&table, &file, 0, &plan, room), refused(8, 0));
        }
    }
}

/// "A text that begins with a zero byte is an accepted view of length 0, at the
/// cell's start. A refused view is empty too: the second question, which is the same
/// for both views, tells the two apart."
#[test]
fn an_empty_text_is_accepted() {
    let (table, file) = alone(ALONE, &[&[0; 8], b"\0BCDEFGH"]);
    let room = &mut [0xA5; 140];
    for (row, start) in [(0, 640), (1, 648)] {
        let empty = view(&table, &file, row, 0, room).unwrap();
        assert_eq!(empty.as_ptr_range(), file[start..start].as_ptr_range());
        assert_eq!(room[..134], index_text(1, &[3, 6], &[2, 0]));
        assert_eq!(room[134..], [0; 6]);
        assert_eq!(views(&table, &file, row), [[start as u64, 0], [start as u64, 8]]);
    }
    // Of numbers, all but the byte are 0 where it is refused.
    let empty = numbers::view(&table, &file, 1, 0, room);
    assert_eq!((empty, numbers::written(empty)), (Ok([648, 0, 0]), [648, 0, 0]));
    for row in [7, u64::MAX] {
        let text = numbers::view(&table, &file, row, 0, room);
        assert_eq!((text, numbers::written(text)), (refused(9, 0), [0, 0, 0]));
        assert_eq!(numbers::padded_view(&table, &file, row, 0, room), refused(9, 0));
    }
    let torn = &file[..831];
    let text = numbers::view(&table, torn, 1, 0, room);
    assert_eq!((text, numbers::written(text)), (refused(1, 831), [0, 0, 831]));
    let cell = numbers::padded_view(&table, torn, 1, 0, room);
    assert_eq!((cell, numbers::written(cell)), (refused(1, 831), [0, 0, 831]));
}

/// What the four views say of a cell that is refused; the room is all zero.
fn refusals(table: &[u8], file: &[u8], row: u64, plan: [u64; 9], room: usize) -> [Refusal; 4] {
    let room = &mut vec![0xA5; room];
    let plan = Plan::of(plan);
    let mut asked = |question: &dyn Fn(&mut [u8]) -> Result<(), Refusal>| {
        room.fill(0xA5);
        let refusal = question(room).unwrap_err();
        assert!(room.iter().all(|byte| *byte == 0));
        refusal
    };
    [
        asked(&|room| view(table, file, row, plan.position, room).map(drop)),
        asked(&|room| padded_view(table, file, row, plan.position, room).map(drop)),
        asked(&|room| view_by_plan(table, file, row, &plan, room).map(drop)),
        asked(&|room| padded_view_by_plan(table, file, row, &plan, room).map(drop)),
    ]
}

/// "Refusals, room and place are the same for both."
#[test]
fn refusals_are_the_same_for_both() {
    let columns = [SCAN, FLAG, NAME];
    let table = table(7, &columns);
    let file = standard::small_file();
    let of_name = [2, 0, 11, 1, 64, 0, 17, 4, 64];
    let of_flag = [1, 0, 0, 1, 1, 0, 16, 4, 64];
    let all = |number, byte| [Refusal { number, byte }; 4];
    assert_eq!(plan(&table, &file, 2, &mut [0; 134]), Ok(Plan::of(of_name)));
    assert_eq!(refusals(&table, &file, 7, of_name, 134), all(9, 0));
    assert_eq!(refusals(&table, &file, 0, of_name, 133), all(13, 0));
    assert_eq!(refusals(&table, &file, 0, of_name, 0), all(13, 0));
    assert_eq!(refusals(&table, &file, 0, of_flag, 134), all(14, 0));
    assert_eq!(refusals(&table, &file, 7, of_flag, 134), all(9, 0));
    assert_eq!(refusals(&table, &file, 0, [3, 0, 11, 1, 64, 0, 17, 4, 64], 134), all(8, 0));
    assert_eq!(refusals(&table, &file[..831], 0, of_name, 134), all(1, 831));
    assert_eq!(refusals(&table[..table.len() - 1], &file, 0, of_name, 134), all(1, 4));
    let other = file_of(header(Header { index_buckets: 2, ..HEADER }), &standard::small_text());
    assert_eq!(refusals(&table, &other, 0, of_name, 134), all(10, 0));
    let other = file_of(header(HEADER), &index_text(3, &[3, 6], &[2, 2]));
    assert_eq!(refusals(&table, &other, 0, of_name, 134), all(11, 0));
    // By plan alone: stale, also of a row that is not there and of a Bool.
    for (row, plan) in [(0, of_name), (7, of_name), (0, of_flag)] {
        for field in 1..9 {
            let mut stale = plan;
            stale[field] += 1;
            let plan = Plan::of(stale);
            let room = &mut [0xA5; 134];
            assert_eq!(view_by_plan(&table, &file, row, &plan, room), refused(12, 0));
            assert_eq!(padded_view_by_plan(&table, &file, row, &plan, room), refused(12, 0));
            assert_eq!(
                numbers::padded_view_planned(&table, &file, row, stale, room),
                refused(12, 0)
            );
            assert_eq!(room, &[0; 134]);
        }
    }
}

/// The same in a little endian table, and with row numbers of 64 bits.
#[test]
fn texts_of_other_tables() {
    let cells: [&[u8]; 7] = [
        b"RA01\0\0\0\0",
        b"PARKES64",
        b"\0OLD\0\0\0\0",
        b"A\0B\0\0\0\0\0",
        b"ABCDEFG\0",
        b"ABCDEFGH",
        b"\0\0\0\0\0\0\0\0",
    ];
    let lengths = [4, 8, 0, 1, 7, 8, 0];
    let starts = [657, 665, 673, 681, 529, 537, 545];
    let little = (little::table(7, &[SCAN, FLAG, NAME]), little::small_file());
    let last_rows = [3_i64, 6].map(i64::to_be_bytes).concat();
    let text = index_object(2, 3, last_rows, &[2, 0]);
    let wide_file = file_of(header(Header { version: 4, index_length: 142, ..HEADER }), &text);
    let column_set = [(-3_i32).to_be_bytes().to_vec(), 7_i64.to_be_bytes().to_vec()].concat();
    let info = uints(&[0, 0, 0, 0, 16, 17]);
    let columns = [SCAN, FLAG, NAME];
    let wide_table = table_rows(1, "StandardStMan", info, (0, column_set), &columns);
    for (table, mut file) in [little, (wide_table, wide_file)] {
        put(&mut file, 17, &cells);
        let room = &mut [0; 142];
        for (row, (start, length)) in (0..).zip(starts.into_iter().zip(lengths)) {
            assert_eq!(numbers::view(&table, &file, row, 2, room), Ok([start, length, 0]));
            assert_eq!(numbers::padded_view(&table, &file, row, 2, room), Ok([start, 8, 0]));
        }
    }
}

#[test]
fn lines() {
    let (table, file) = alone(ALONE, &[b"RA01\0\0\0\0", b"PARKES64", &[0; 8]]);
    let text = hex::encode(&index_text(1, &[3, 6], &[2, 0]));
    let files = format!("{} {}", hex::encode(&table), hex::encode(&file));
    let plan = "0,0,11,1,64,0,0,4,64";
    let ask = |word: &str, rest: &str| answer(&format!("{word} {files} {rest}"));
    assert_eq!(ask("view", "0 0 134"), format!("ok 640 4 {text}"));
    assert_eq!(ask("viewplan", &format!("0 {plan} 134")), format!("ok 640 4 {text}"));
    assert_eq!(ask("padded", "0 0 134"), format!("ok 640 8 {text}"));
    assert_eq!(ask("paddedplan", &format!("0 {plan} 135")), format!("ok 640 8 {text}00"));
    assert_eq!(ask("view", "1 0 134"), format!("ok 648 8 {text}"));
    assert_eq!(ask("view", "2 0 134"), format!("ok 656 0 {text}"));
    assert_eq!(ask("viewplan", &format!("2 {plan} 134")), format!("ok 656 0 {text}"));
    assert_eq!(ask("place", "2 0 134"), format!("ok 5248 64 1 {text}"));
    assert_eq!(ask("padded", "7 0 2"), "refused 13 0 0000");
    assert_eq!(ask("padded", "0 1 2"), "refused 8 0 0000");
    assert_eq!(ask("paddedplan", "0 0,0,11,1,64,0,0,4,65 0"), "refused 13 0 -");
    let zeros = "00".repeat(134);
    let stale = ask("paddedplan", "0 0,0,11,1,64,0,0,4,65 134");
    assert_eq!(stale, format!("refused 12 0 {zeros}"));
    assert_eq!(answer("padded - - 0 0 1"), "refused 1 0 00");
    assert_eq!(answer("paddedplan - - 0 0,0,0,0,0,0,0,0,0 0"), "refused 1 0 -");
}

#[test]
fn lines_that_are_no_requests() {
    for line in [
        "padded - - 0 0",
        "padded - - 0 0 0 0",
        "padded - - 0 0 -",
        "padded - - 0 0,0,0,0,0,0,0,0,0 0",
        "padded - - -1 0 0",
        "padded - - 0 0 1048577",
        "paddedplan - - 0 0 0",
        "paddedplan - - 0 0,0,0,0,0,0,0,0 0",
        "paddedplan - - 0 0,0,0,0,0,0,0,0,0",
        "Padded - - 0 0 0",
        "paddedview - - 0 0 0",
    ] {
        assert_eq!(answer(line), "bad request", "{line:?}");
    }
}
