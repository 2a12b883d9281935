//! The byte that each refusal blames, in files written here byte by byte: every
//! place is counted by hand.

mod common;
mod incremental;
mod little;
mod standard;

use common::{
    Column, FLAG, SCAN, TIME, object, refused, small_table, string, table, table_with, uint,
};
use model::refusal::{BOOL_VIEW, NO_ROW, NO_SUCH, SHORT_ROOM, STALE_PLAN, WRONG_CHAIN, WRONG_MAP};
use model::{Refusal, answer, check, describe, hex, listing, numbers};
use standard::{HEADER, Header, file_of, header, small_file, small_text};

/// A number of 4 bytes that is put at a place, the refusal that follows, and
/// the byte that it blames.
type Change = (usize, u32, u8, u64);

fn with_number(bytes: &[u8], at: usize, number: u32) -> Vec<u8> {
    let mut changed = bytes.to_vec();
    changed[at..at + 4].copy_from_slice(&number.to_be_bytes());
    changed
}

fn with_byte(bytes: &[u8], at: usize, byte: u8) -> Vec<u8> {
    let mut changed = bytes.to_vec();
    changed[at] = byte;
    changed
}

/// Reads a file: accepted or refused.
type Read = fn(&[u8]) -> Result<(), Refusal>;

/// Each change by itself.
fn assert_changes(bytes: &[u8], changes: &[Change], read: Read) {
    assert_eq!(read(bytes), Ok(()));
    for (at, value, number, byte) in changes {
        let changed = with_number(bytes, *at, *value);
        assert_eq!(read(&changed), refused(*number, *byte), "{value} at {at}");
    }
}

fn described(table: &[u8]) -> Result<(), Refusal> {
    describe(table).map(drop)
}

#[test]
fn of_table() {
    assert_changes(
        &small_table(),
        &[
            (0, 0, 2, 0), // the mark
            // Table: past the file's end, below its header, and an end that
            // DMInfo crosses.
            (4, 812, 1, 4),
            (4, 16, 7, 4),
            (4, 810, 1, 787),
            (8, 4, 2, 8),
            (8, 4000, 1, 8),
            (17, 3, 3, 17),
            (21, 8, 6, 694), // rows: not those of ColumnSet
            (21, 1 << 31, 6, 694),
            (25, 2, 5, 25), // endianness
            (29, 9, 2, 29), // table type
            // TableDesc. The last default value crosses its end.
            (43, 5000, 1, 43),
            (43, 20, 7, 43),
            (43, 648, 7, 43),
            (43, 646, 1, 682),
            (47, 8, 2, 47),
            (60, 1, 3, 60),
            (64, 5000, 1, 64), // name
            (68, 5000, 1, 68), // version
            (72, 5000, 1, 72), // comment
            (76, 22, 7, 76),   // keywords
            (76, 5000, 1, 76),
            (80, 10, 2, 80),
            (95, 2, 3, 95),
            (129, 22, 7, 129), // private keywords
            (133, 12, 2, 133),
            (148, 0, 3, 148),
            (182, 0, 4, 182), // columns
            (182, 65, 4, 182),
            (182, 2, 7, 43),
            (182, 4, 1, 690), // a fourth one is not there
        ],
        described,
    );
}

#[test]
fn of_bytes_left_over_in_table() {
    let mut longer = with_number(&small_table(), 4, 812);
    longer.push(0);
    assert_eq!(described(&longer), refused(7, 4));
}

#[test]
fn of_a_column() {
    assert_changes(
        &small_table(),
        &[
            (186, 2, 3, 186),    // version
            (190, 24, 5, 190),   // type: one space less
            (190, 5000, 1, 190), // of which there are fewer bytes
            (219, 0, 3, 219),    // version
            (223, 0, 4, 223),    // name
            (223, 65, 4, 223),
            (231, 5000, 1, 231),   // comment
            (244, 5000, 1, 244),   // manager type
            (261, 5000, 1, 261),   // manager group
            (278, 6, 5, 278),      // data type
            (282, 8, 5, 282),      // options
            (286, 1, 5, 286),      // dimensionality
            (290, 65_537, 4, 290), // string maximum
            (294, 22, 7, 294),     // keywords
            (298, 10, 2, 298),
            (313, 2, 3, 313),
            (347, 2, 3, 347), // version
            // The names of the next two columns: as the first, as the second.
            (392, u32::from_be_bytes(*b"SCAN"), 6, 388),
            (558, u32::from_be_bytes(*b"FLAG"), 6, 554),
        ],
        described,
    );
    let flag = with_byte(&small_table(), 516, 2);
    assert_eq!(described(&flag), refused(5, 516)); // FLAG's default value
}

#[test]
fn of_an_array() {
    let table = table(2, &[Column { elements: Some(8), offset: 0, ..FLAG }]);
    assert_changes(
        &table,
        &[
            (277, 1, 5, 277),    // direct without a fixed shape
            (281, 2, 5, 306),    // a dimensionality that is not the count
            (285, 5000, 1, 285), // IPosition
            (285, 20, 7, 285),
            (285, 30, 7, 285),
            (285, 28, 1, 310),
            (289, 8, 2, 289),
            (302, 3, 3, 302),
            (302, 2, 1, 310), // an axis of eight bytes
            (306, 0, 4, 306), // count
            (306, 9, 4, 306),
            (306, 2, 5, 306),
            (310, 0, 4, 310), // axis
            (310, 1_048_577, 4, 310),
        ],
        described,
    );
    assert_eq!(described(&with_byte(&table, 375, 2)), refused(5, 375)); // flag
    assert_eq!(described(&with_byte(&table, 433, 2)), refused(5, 433)); // shapeColDef
    // There the shape begins, with an empty name.
    assert_eq!(described(&with_byte(&table, 433, 1)), refused(2, 438));
}

#[test]
fn of_column_set() {
    assert_changes(
        &small_table(),
        &[
            (690, 2, 3, 690), // version
            (690, 0, 3, 690),
            (690, u32::MAX, 3, 690),
            (690, u32::MAX - 3, 3, 690),
            (694, 1 << 31, 6, 694), // rows
            (694, 6, 6, 694),
            (702, 0, 4, 702), // managers
            (702, 17, 4, 702),
            (706, 5000, 1, 706), // name
            (723, 2, 6, 723),    // number, above the highest
            (723, 1, 6, 743),    // or not that of the first column
            (727, 1, 3, 727),    // ColumnInfo
            (731, 5000, 1, 731),
            (739, 2, 3, 739),
            (743, 1, 6, 743),
            (787, 25, 1, 787), // DMInfo
            (787, 23, 7, 787),
            (787, 5000, 1, 787),
        ],
        described,
    );
}

/// The small table with an object in DMInfo: its length at 787, the mark at
/// 791, the object at 795, its name, the offsets at 827 and the sets at 860.
#[test]
fn of_an_object_in_dm_info() {
    assert_changes(
        &little::small_table(),
        &[
            // Past Table's end; without the mark, of a wrong length.
            (787, 103, 1, 787),
            (791, 0xBEBE_BEBF, 7, 787),
            (795, 99, 1, 795), // the object: past DMInfo's end
            (795, 14, 7, 795), // below its header
            (795, 97, 1, 860), // an end that the sets cross
            (799, 2, 2, 799),
            (799, 500, 1, 799),
            (806, 1, 3, 806),
            (806, 3, 3, 806),
            (810, 80, 1, 810), // the name
            (810, 79, 1, 893), // after it the offsets are not there
            (827, 67, 1, 827), // offsets
            (827, 16, 7, 827),
            (827, 32, 1, 856),
            (827, 34, 7, 827),
            (831, 4, 2, 831),
            (840, 2, 3, 840),
            (844, 2, 6, 844),
            (844, 4, 6, 844),
            (860, 34, 1, 860), // set numbers
            (860, 32, 1, 889),
            (864, 4, 2, 864),
            (873, 0, 3, 873),
            (877, 4, 6, 877),
        ],
        described,
    );
}

/// The small table with these bytes in DMInfo.
fn described_with(manager: &str, info: &[u8]) -> Result<(), Refusal> {
    let columns = [SCAN, FLAG, TIME];
    described(&table_with(1, manager, info.to_vec(), 7, &columns))
}

#[test]
fn of_dm_info_by_its_length() {
    let info = little::info(&[SCAN, FLAG, TIME]);
    for length in 0..=info.len() {
        let expected = match length {
            0..4 => refused(7, 787),
            4..8 => refused(1, 795),
            8..15 => refused(1, 799),
            15..19 => refused(1, 806),
            19..102 => refused(1, 795),
            _ => Ok(()),
        };
        assert_eq!(described_with("StandardStMan", &info[..length]), expected, "{length}");
    }
    // After the object: the length. In IncrementalStMan it is another object.
    assert_eq!(described_with("StandardStMan", &[&info[..], &[0]].concat()), refused(7, 787));
    assert_eq!(described_with("IncrementalStMan", &info), refused(2, 802));
    assert_eq!(described_with("TiledShapeStMan", &info[..50]), Ok(()));
    // Three bytes of the mark in set numbers.
    let bare = [&[0xBE, 0xBE, 0xBE, 0xBF][..], &[0; 20]].concat();
    assert_eq!(described_with("StandardStMan", &bare), Ok(()));
    assert_eq!(
        described_with("StandardStMan", &[&[0xBE; 4][..], &[0; 20]].concat()),
        refused(2, 799)
    );
}

#[test]
fn of_an_incremental_dm_info() {
    let info = |fields: &[Vec<u8>]| [vec![0xBE; 4], object("ISM", 3, fields)].concat();
    let manager = "IncrementalStMan"; // three letters longer
    let named = info(&[string("ISMData")]);
    assert_eq!(described_with(manager, &named), Ok(()));
    assert_eq!(described_with(manager, &with_byte(&named, 18, 2)), refused(3, 809));
    assert_eq!(described_with(manager, &with_byte(&named, 18, 4)), refused(3, 809));
    assert_eq!(described_with(manager, &with_byte(&named, 22, 8)), refused(1, 813));
    assert_eq!(described_with(manager, &info(&[string("I"), uint(0)])), refused(7, 798));
    assert_eq!(described_with(manager, &[named, vec![0xBE; 4]].concat()), refused(7, 790));
    assert_eq!(described_with(manager, &info(&[])), refused(1, 813));
    let name = |length| described_with(manager, &info(&[string(&"x".repeat(length))]));
    assert_eq!(name(4096), Ok(()));
    assert_eq!(name(4097), refused(4, 813));
    assert_eq!(described_with("StandardStMan", &info(&[string("")])), refused(2, 799));
}

#[test]
fn of_a_little_endian_file() {
    let check = |file: &[u8]| check(&little::small_table(), 0, file, &mut [0; 200]).map(drop);
    // Other numbers, little endian; then some that are big endian.
    let changes: [Change; 18] = [
        (0, 0, 2, 0),
        (4, 509, 1, 4),
        (4, 24, 7, 4),
        (4, 71, 7, 4),
        (4, 69, 1, 70),
        (8, 12, 2, 8),
        (8, 501, 1, 8),
        (25, 2, 3, 25),
        (30, 15, 4, 30),
        (34, 6, 1, 832),
        (58, 7, 4, 58),
        (66, 135, 7, 134),
        (70, 17, 4, 70),
        (8, 13 << 24, 1, 8),
        (25, 3 << 24, 3, 25),
        (30, 64 << 24, 4, 30),
        (66, 134 << 24, 4, 66),
        (50, 3 << 24, 10, 0),
    ];
    let file = little::small_file();
    assert_eq!(check(&file), Ok(()));
    for (at, value, number, byte) in changes {
        let changed = with_number(&file, at, value.swap_bytes());
        assert_eq!(check(&changed), refused(number, byte), "{value} at {at}");
    }
    assert_eq!(check(&with_byte(&file, 29, 2)), refused(5, 29));
    assert_eq!(check(&with_byte(&file, 29, 1)), refused(6, 29));
}

#[test]
fn of_little_endian_index_text() {
    let changes: [Change; 10] = [
        (4, 131, 1, 4),
        (8, 8 << 24, 1, 8),
        (20, 1 << 24, 3, 20),
        (24, 3, 6, 93),
        (28, 4 << 24, 4, 28),
        (40, 16 << 24, 1, 40),
        (68, 1, 1, 76),
        (80, 5 << 24, 1, 80),
        (93, 2 << 24, 6, 93),
        (97, 3 << 24, 11, 0),
    ];
    for (at, value, number, byte) in changes {
        let text = with_number(&little::text([3, 6]), at, value.swap_bytes());
        let file = file_of(little::header(3), &text);
        let answer = check(&little::small_table(), 0, &file, &mut [0; 200]).map(drop);
        assert_eq!(answer, refused(number, byte), "{value} at {at}");
    }
    // Nine rows; the last row is one more than a bucket holds.
    let nine = little::table(9, &[SCAN, FLAG, TIME]);
    let file = file_of(little::header(3), &little::text([3, 8]));
    assert_eq!(check(&nine, 0, &file, &mut [0; 200]).map(drop), refused(11, 0));
}

fn small_check(file: &[u8]) -> Result<(), Refusal> {
    check(&small_table(), 0, file, &mut [0; 200]).map(drop)
}

#[test]
fn of_a_header() {
    let file = small_file();
    assert_changes(
        &file,
        &[
            (0, 0, 2, 0),
            // Past the first 512 bytes, below its own size, bytes left over,
            // and an end that the last field crosses.
            (4, 509, 1, 4),
            (4, 24, 7, 4),
            (4, 71, 7, 4),
            (4, 69, 1, 70),
            (8, 12, 2, 8),
            (8, 501, 1, 8),
            (25, 2, 3, 25),
            (25, 5, 3, 25),
            (30, 15, 4, 30),   // bucket size
            (34, 4097, 4, 34), // buckets
            (34, 6, 1, 832),   // one more than the file has
            (58, 7, 4, 58),    // index offset
            (66, 0, 4, 66),    // index length
            (70, 17, 4, 70),   // indices
            (42, 1, 10, 0),    // free buckets
            (50, 2, 10, 0),    // index buckets
        ],
        small_check,
    );
    assert_eq!(small_check(&with_byte(&file, 29, 2)), refused(5, 29));
    assert_eq!(small_check(&with_byte(&file, 29, 0)), refused(6, 29));
}

#[test]
fn of_a_torn_file() {
    let file = small_file();
    for length in 0..file.len() {
        // The header's fields, the header, the file's end.
        let byte = match length {
            0..4 => 0,
            4..8 => 4,
            8..25 => 8,
            25..29 => 25,
            29..74 => 4,
            _ => length,
        };
        assert_eq!(small_check(&file[..length]), refused(1, byte as u64), "{length}");
    }
}

/// The small file with another index text.
fn check_text(text: &[u8]) -> Result<(), Refusal> {
    small_check(&file_of(header(HEADER), text))
}

#[test]
fn of_index_text() {
    assert_changes(
        &small_text(),
        &[
            (0, 0, 2, 0),
            // SSMIndex, and ends that its first field and last Block cross.
            (4, 131, 1, 4),
            (4, 23, 1, 24),
            (4, 19, 7, 4),
            (4, 129, 1, 105),
            (8, 7, 2, 8),
            (20, 0, 3, 20),
            (20, 3, 3, 20),
            (20, 2, 1, 105), // last rows of eight bytes
            (24, 3, 6, 93),  // entries that are not those of the first Block
            (28, 0, 4, 28),  // rows per bucket
            (32, 4, 11, 0),  // columns
            (36, 41, 7, 36), // the free-space map
            (36, 39, 1, 72),
            (36, 99, 1, 36),
            (40, 15, 2, 40),
            (60, 2, 3, 60),
            (68, 1, 1, 76),  // its first key is not there
            (76, 30, 7, 76), // last rows
            (76, 28, 1, 101),
            (80, 4, 2, 80),
            (89, 0, 3, 89),
            (93, 3, 6, 93),
            (105, 30, 1, 105), // bucket numbers
            (105, 24, 1, 126),
            (109, 4, 2, 109),
            (118, 2, 3, 118),
            (122, 1, 6, 122),
        ],
        check_text,
    );
}

#[test]
fn of_index_text_by_its_length() {
    for length in 1..=168 {
        let file = file_of(header(Header { index_length: length, ..HEADER }), &small_text());
        let expected = match length {
            0..4 => refused(1, 0),
            4..8 => refused(1, 4),
            8..20 => refused(1, 8),
            20..24 => refused(1, 20),
            24..134 => refused(1, 4),
            134 => Ok(()),
            _ => refused(7, 134), // left over
        };
        assert_eq!(small_check(&file), expected, "{length}");
    }
    // The mark of a second index is not there.
    let file = with_number(&small_file(), 70, 2);
    assert_eq!(small_check(&file), refused(1, 134));
}

fn check_incremental(file: &[u8]) -> Result<(), Refusal> {
    check(&incremental::small_table(), 0, file, &mut []).map(drop)
}

#[test]
fn of_an_incremental_file() {
    assert_changes(
        &incremental::small_file(),
        &[
            (0, 0, 2, 0),
            (4, 52, 1, 53), // first free bucket
            (4, 54, 7, 4),
            (8, 15, 2, 8),
            (28, 4, 3, 28),
            (28, 6, 3, 28),
            (33, 15, 4, 33),   // bucket size
            (37, 4097, 4, 37), // buckets
            (37, 8, 1, 642),
            (49, 1, 10, 0),
            // ISMIndex, after the buckets.
            (552, 0, 2, 552),
            (556, 87, 1, 556),
            (556, 85, 1, 613),
            (560, 7, 2, 560),
            (572, 0, 3, 572),
            (572, 3, 3, 572),
            (572, 2, 1, 609), // first rows of eight bytes
            (576, 3, 6, 597),
            (580, 32, 1, 609), // first rows
            (580, 34, 7, 580),
            (584, 4, 2, 584),
            (593, 2, 3, 593),
            (597, 2, 6, 597),
            (601, 1, 11, 0),
            (613, 30, 1, 613), // bucket numbers
            (617, 4, 2, 617),
            (626, 2, 3, 626),
            (630, 3, 6, 630),
            (634, 2, 11, 0),
            // The buckets: the offset of the index, and a number of values
            // that stands at it.
            // With a high byte the start and the offset are one number, and
            // the offset is not there.
            (512, 0x0100_0008, 1, 532),
            (532, 0xFF00_0008, 1, 552),
            (512, 0x0100_0003, 11, 0),
            (512, 0x0100_0015, 11, 0),
            (512, 7, 11, 0),
            (512, 21, 11, 0),
            (512, 17, 1, 529),
            (512, 20, 1, 532),
            (532, 18, 1, 550),
            (520, 0, 11, 0),
        ],
        check_incremental,
    );
    // Two values; the offset of the first is not there.
    let file = with_number(&with_number(&incremental::small_file(), 520, 2), 528, 1);
    assert_eq!(check_incremental(&file), refused(1, 532));
}

#[test]
fn of_a_torn_incremental_file() {
    let file = incremental::small_file();
    for length in 57..file.len() {
        // The file's end, then the mark and the header of ISMIndex.
        let byte = match length {
            0..552 => length,
            552..556 => 552,
            556..560 => 556,
            560..572 => 560,
            572..576 => 572,
            _ => 556,
        };
        assert_eq!(check_incremental(&file[..length]), refused(1, byte as u64), "{length}");
    }
}

#[test]
fn of_other_refusals() {
    let others = [NO_SUCH, NO_ROW, WRONG_CHAIN, WRONG_MAP, STALE_PLAN, SHORT_ROOM, BOOL_VIEW];
    for (number, refusal) in (8..).zip(others) {
        assert_eq!(refusal, Refusal { number, byte: 0 });
    }
}

#[test]
fn in_numbers() {
    // The last number, after as many zeros as the answer has others.
    assert_eq!(numbers::written(Err(Refusal::at(7, 43))), [0, 0, 0, 0, 43]);
    assert_eq!(numbers::written::<2>(Err(Refusal::at(1, 0))), [0; 2]);
    assert_eq!(numbers::written(Err(NO_SUCH)), [0; 12]);
    assert_eq!(numbers::written(numbers::description(&small_table())), [7, 1, 3, 1, 0]);
    let torn = &small_file()[..831];
    let check = numbers::check(&small_table(), torn, 0, &mut []);
    assert_eq!(numbers::written(check), [0, 831]);
    let view = numbers::view(&small_table(), torn, 5, 2, &mut []);
    assert_eq!(numbers::written(view), [0, 0, 831]);
}

#[test]
fn in_lines() {
    let faulty = with_number(&small_table(), 694, 6);
    let (table, file) = (hex::encode(&faulty), hex::encode(&small_file()));
    assert_eq!(listing(&faulty), b"refused 6 694\n");
    assert_eq!(answer(&format!("describe {table}")), "refused 6 694");
    assert_eq!(answer(&format!("column {table} 53")), "refused 6 694");
    assert_eq!(answer(&format!("check {table} 0 {file} 2")), "refused 6 694 0000");
    assert_eq!(answer(&format!("plan {table} {file} 0 1")), "refused 6 694 00");
    let table = hex::encode(&small_table());
    let torn = hex::encode(&small_file()[..100]);
    assert_eq!(answer(&format!("place {table} {torn} 0 0 1")), "refused 1 100 00");
    assert_eq!(answer(&format!("view {table} {torn} 0 0 0")), "refused 1 100 -");
}
