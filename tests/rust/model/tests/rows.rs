//! Row numbers of 64 bits, in files written here byte by byte: every place is
//! counted by hand.

mod common;
mod incremental;
mod standard;

use common::{Column, FLAG, SCAN, TIME, refused, small_table, table, table_rows, uint, uints};
use model::{Placed, Refusal, answer, check, describe, hex, listing, numbers, place, view};
use standard::{HEADER, Header, file_of, header, index_object, small_file, small_text};

/// Numbers of eight bytes.
fn int64s(numbers: &[i64]) -> Vec<u8> {
    numbers.iter().flat_map(|number| number.to_be_bytes()).collect()
}

/// A table of this manager with ColumnSet -3; `header` is the row count in
/// Table's header.
fn wide_table(manager: &str, header: u32, rows: i64, columns: &[Column]) -> Vec<u8> {
    let sets = vec![0; columns.len()];
    let offsets: Vec<u32> = columns.iter().map(|column| column.offset).collect();
    let column_set = [(-3_i32).to_be_bytes().to_vec(), int64s(&[rows])].concat();
    table_rows(1, manager, uints(&[sets, offsets].concat()), (header, column_set), columns)
}

/// The small table (RULES.md 11.1) so.
fn small_wide(header: u32, rows: i64) -> Vec<u8> {
    wide_table("StandardStMan", header, rows, &[SCAN, FLAG, TIME])
}

fn described_rows(table: &[u8]) -> Result<u64, Refusal> {
    describe(table).map(|description| description.rows)
}

const MOST: i64 = 1 << 62;

#[test]
fn row_counts() {
    for rows in [0, 7, (1 << 31) - 1, 1 << 31, 1 << 32, (1 << 32) + 7, MOST - 1, MOST] {
        // The count in Table's header is not compared.
        for header in [0, 7, rows as u32, u32::MAX] {
            assert_eq!(described_rows(&small_wide(header, rows)), Ok(rows as u64));
        }
    }
    for rows in [-1, -7, i64::MIN, MOST + 1, i64::MAX] {
        assert_eq!(described_rows(&small_wide(rows as u32, rows)), refused(4, 694), "{rows}");
    }
    // The count is one field of eight bytes.
    for length in 698..702 {
        let mut torn = small_wide(0, 7)[..length].to_vec();
        torn[4..8].copy_from_slice(&uint(length as u32 - 4));
        assert_eq!(described_rows(&torn), refused(1, 694), "{length}");
    }
    let wide = small_wide(5, 5_000_000_000);
    assert_eq!(listing(&wide)[..25], *b"rows 5000000000 columns 3");
    assert_eq!(numbers::description(&wide), Ok([5_000_000_000, 1, 3, 1, 0]));
    assert!(answer(&format!("describe {}", hex::encode(&wide))).starts_with("ok rows=5000000000 "));
}

#[test]
fn row_counts_of_four_bytes() {
    // They have no range left, and are compared.
    for rows in [0, 0x7FFF_FFFF, 0x8000_0000, u32::MAX] {
        let table = table(rows, &[SCAN, FLAG, TIME]);
        assert_eq!(described_rows(&table), Ok(rows.into()));
        let other = [&table[..24], &[table[24] ^ 1], &table[25..]].concat();
        assert_eq!(described_rows(&other), refused(6, 694));
    }
}

/// The small file with an SSMIndex of version 2: its text has 142 bytes, of
/// which the last rows begin at 97 and at 105.
fn check_last_rows(rows: i64, last_rows: Vec<u8>) -> Result<(), Refusal> {
    let text = index_object(2, 3, last_rows, &[2, 0]);
    let index_length = text.len() as u32;
    let file = file_of(header(Header { version: 4, index_length, ..HEADER }), &text);
    check(&small_wide(0, rows), 0, &file, &mut [0; 200]).map(drop)
}

#[test]
fn last_rows() {
    let rows = |numbers: [i64; 2]| check_last_rows(7, int64s(&numbers));
    assert_eq!(rows([3, 6]), Ok(()));
    assert_eq!(rows([-1, 6]), refused(4, 97));
    assert_eq!(rows([3, -1]), refused(4, 105));
    assert_eq!(rows([i64::MIN, -1]), refused(4, 97));
    // Above the range, and right in their low halves: the map.
    for high in [1 << 32, 1 << 62, i64::MAX - 6] {
        assert_eq!(rows([3, high + 6]), refused(11, 0));
        assert_eq!(rows([high + 3, 6]), refused(11, 0));
        assert_eq!(rows([high + 3, high + 6]), refused(11, 0));
    }
    assert_eq!(check_last_rows((1 << 32) + 7, int64s(&[3, 6])), refused(11, 0));
    assert_eq!(check_last_rows((1 << 32) + 7, int64s(&[3, (1 << 32) + 6])), refused(11, 0));
    // Four bytes for each: the second does not fit. A negative one comes before.
    assert_eq!(check_last_rows(7, uints(&[3, 6])), refused(1, 105));
    assert_eq!(check_last_rows(7, [int64s(&[-1]), uint(6)].concat()), refused(4, 97));
    assert_eq!(check_last_rows(7, [int64s(&[3]), uint(6)].concat()), refused(1, 105));
    assert_eq!(check_last_rows(7, int64s(&[3, 6, 7])), refused(7, 76)); // left over
}

/// Each version on its own: the others are the old ones.
#[test]
fn each_on_its_own() {
    let checked = |table: &[u8], file: &[u8]| check(table, 0, file, &mut [0; 200]).map(drop);
    assert_eq!(checked(&small_wide(9, 7), &small_file()), Ok(()));
    let header_4 = file_of(header(Header { version: 4, ..HEADER }), &small_text());
    assert_eq!(checked(&small_table(), &header_4), Ok(()));
    let text = index_object(2, 3, int64s(&[3, 6]), &[2, 0]);
    let index_2 = file_of(header(Header { index_length: 142, ..HEADER }), &text);
    assert_eq!(checked(&small_table(), &index_2), Ok(()));
    let table = incremental::small_table();
    assert_eq!(checked(&incremental_table(3), &incremental::small_file()), Ok(()));
    let buckets = [7, 8].map(|value| uints(&[8, value, 1, 0, 0]));
    let index_2 = incremental::file_of(&buckets, 2, int64s(&[0, 2, 3]));
    assert_eq!(checked(&table, &index_2), Ok(()));
    let buckets = [7, 8].map(|value| uints(&[0x0300_0008, value, 1, 0, 0, 0]));
    let starts = incremental::file_of(&buckets, 1, uints(&[0, 2, 3]));
    assert_eq!(checked(&table, &starts), Ok(()));
}

#[test]
fn versions_of_sets() {
    // SCAN and TIME; FLAG is in the second set.
    let columns = [SCAN, Column { set: 1, offset: 0, ..FLAG }, Column { offset: 16, ..TIME }];
    let table = table(4, &columns);
    let text = |version: u32, columns: u32, bucket: u32| {
        let last = if version == 1 { uint(3) } else { int64s(&[3]) };
        index_object(version, columns, last, &[bucket])
    };
    for [first, second] in [[1, 1], [1, 2], [2, 1], [2, 2]] {
        let text = [text(first, 2, 0), text(second, 1, 2)].concat();
        let index_length = text.len() as u32;
        // The number of indices is the header's last field. Without the map,
        // the text would have room in the chain.
        let mut header = header(Header { index_length, index_buckets: 5, ..HEADER });
        header[73] = 2;
        header[33] = 128; // bucket size
        let mut file = header;
        file.resize(512 + 5 * 128, 0);
        for (bucket, next, part) in [(1, 3, 0), (3, 4, 1), (4, -1, 2)] {
            let start = 512 + 128 * bucket;
            let part = text.chunks(120).nth(part).unwrap_or_default();
            file[start..start + 8].copy_from_slice(&[i32::to_be_bytes(next); 2].concat());
            file[start + 8..][..part.len()].copy_from_slice(part);
        }
        file[53] = 3; // index buckets
        let place = |position| place(&table, &file, 3, position, &mut [0; 300]);
        let placed =
            |first_bit, bit_count| Ok(Placed { first_bit, bit_count, looks: 0, entries: 1 });
        assert_eq!(place(0), placed(8 * (512 + 12), 32), "{first} {second}");
        assert_eq!(place(1), placed(8 * (512 + 256) + 3, 1), "{first} {second}");
        assert_eq!(place(2), placed(8 * (512 + 16 + 24), 64), "{first} {second}");
    }
}

/// A Bool in each of more than 2^32 rows, in full buckets; the index in bucket 0.
/// Only the bytes that are not zero are touched.
fn past_32_bits() -> (Vec<u8>, Vec<u8>) {
    let buckets: Vec<u32> = (1..=ENTRIES).rev().collect();
    let last_rows: Vec<i64> = (1..=i64::from(ENTRIES)).map(|count| (count << 23) - 1).collect();
    let mut text = index_object(2, 1, int64s(&last_rows), &buckets);
    text[28..32].copy_from_slice(&uint(1 << 23)); // rows per bucket
    let index_length = text.len() as u32;
    let fields = Header { version: 4, index_buckets: 1, first_index: 0, index_length, ..HEADER };
    let mut header = header(fields);
    header[30..38].copy_from_slice(&uints(&[1 << 20, ENTRIES + 1])); // size and buckets
    let mut file = vec![0; 512 + ((ENTRIES as usize + 1) << 20)];
    file[..header.len()].copy_from_slice(&header);
    file[512..520].fill(0xFF); // links
    file[520..520 + text.len()].copy_from_slice(&text);
    let columns = [Column { offset: 0, ..FLAG }];
    (wide_table("StandardStMan", 0, i64::from(ENTRIES) << 23, &columns), file)
}

/// So many that a search by the low halves of last rows takes other looks: for
/// entry 527.
const ENTRIES: u32 = 544;

/// The looks that lead to an entry: one decides between two halves, of which the
/// first has one more if they are odd.
fn looks(count: u64, entry: u64) -> u64 {
    let half = count.div_ceil(2);
    match count {
        1 => 0,
        _ if entry < half => 1 + looks(half, entry),
        _ => 1 + looks(count - half, entry - half),
    }
}

#[test]
fn places_past_32_bits() {
    let (table, file) = past_32_bits();
    let mut room = vec![0; 65_536];
    let entries = u64::from(ENTRIES);
    let rows = entries << 23;
    let powers =
        [31, 32].map(|power| 1 << power).into_iter().flat_map(|row| [row - 1, row, row + 1]);
    for row in powers.chain([0, 1 << 23, (1 << 32) + (1 << 23), 527 << 23, rows - 1]) {
        let entry = row >> 23;
        let first_bit = 8 * (512 + ((entries - entry) << 20)) + row % (1 << 23);
        let looks = looks(entries, entry);
        let expected = Ok(Placed { first_bit, bit_count: 1, looks, entries });
        assert_eq!(place(&table, &file, row, 0, &mut room), expected, "{row}");
    }
    for row in [rows, rows + 1, 1 << 33, 1 << 62, 1 << 63, u64::MAX] {
        assert_eq!(place(&table, &file, row, 0, &mut room), refused(9, 0), "{row}");
    }
}

/// A table of one Int in IncrementalStMan.
fn incremental_table(rows: i64) -> Vec<u8> {
    wide_table("IncrementalStMan", 0, rows, &[Column { offset: 0, ..SCAN }])
}

/// A bucket of 60 bytes with two values: data at 4, its index at 12 with the
/// number of values, starts of eight bytes at 16, offsets at 32.
fn wide_bucket(high: u32, starts: [i64; 2]) -> Vec<u8> {
    let bucket =
        [uints(&[high << 24 | 12, 70, 71, 2]), int64s(&starts), uints(&[0, 4, 9, 9, 9, 9, 9])];
    bucket.concat()
}

/// The same with starts of four bytes at 16, offsets at 24.
fn narrow_bucket(starts: [u32; 2]) -> Vec<u8> {
    let bucket = [uints(&[12, 70, 71, 2]), uints(&starts), uints(&[0, 4, 9, 9, 9, 9, 9, 9, 9])];
    bucket.concat()
}

/// Rows of the survey, of which the first bucket has 4,300,000,000.
const SURVEY: [i64; 3] = [0, 4_300_000_000, 5_000_000_000];

fn survey(starts: [i64; 2]) -> Vec<u8> {
    let buckets = [wide_bucket(1, starts), narrow_bucket([0, 699_999_999])];
    incremental::file_of(&buckets, 2, int64s(&SURVEY))
}

#[test]
fn places() {
    let table = incremental_table(SURVEY[2]);
    let file = survey([0, 4_294_967_297]);
    let byte = |row| Ok(place(&table, &file, row, 0, &mut [])?.first_bit / 8);
    for row in [0, 1, 1 << 31, (1 << 32) - 1, 1 << 32] {
        assert_eq!(byte(row), Ok(512 + 4), "{row}");
    }
    for row in [(1 << 32) + 1, 4_299_999_999] {
        assert_eq!(byte(row), Ok(512 + 8), "{row}");
    }
    for row in [4_300_000_000, 4_999_999_998] {
        assert_eq!(byte(row), Ok(512 + 60 + 4), "{row}");
    }
    assert_eq!(byte(4_999_999_999), Ok(512 + 60 + 8));
    assert_eq!(view(&table, &file, 4_999_999_999, 0, &mut []), Ok(&uint(71)[..]));
    for row in [5_000_000_000, 1 << 33, 1 << 62, 1 << 63, (1 << 63) + 1, u64::MAX] {
        assert_eq!(byte(row), refused(9, 0), "{row}");
    }
}

/// The survey with these bytes of first rows, which begin at 681.
fn check_first_rows(first_rows: Vec<u8>) -> Result<(), Refusal> {
    let buckets = [wide_bucket(255, [0, 1]), narrow_bucket([0, 1])];
    let file = incremental::file_of(&buckets, 2, first_rows);
    check(&incremental_table(SURVEY[2]), 0, &file, &mut []).map(drop)
}

#[test]
fn first_rows() {
    let [_, second, rows] = SURVEY;
    let check = |numbers: [i64; 3]| check_first_rows(int64s(&numbers));
    assert_eq!(check(SURVEY), Ok(()));
    assert_eq!(check([-1, second, rows]), refused(4, 681));
    assert_eq!(check([0, -1, rows]), refused(4, 689));
    assert_eq!(check([0, second, i64::MIN]), refused(4, 697));
    assert_eq!(check([0, second, -1]), refused(4, 697));
    for numbers in [
        [1 << 32, second, rows],
        [0, rows, rows],
        [0, second, rows + (1 << 32)],
        [0, second, rows - (1 << 32)],
        [0, i64::MAX, rows],
        [0, second, i64::MAX],
        [0, (1 << 62) + 1, rows],
        [0, 0, rows],
    ] {
        assert_eq!(check(numbers), refused(11, 0), "{numbers:?}");
    }
    // Four bytes for each: the second does not fit. A negative one comes before.
    assert_eq!(check_first_rows(uints(&[0, 1, 2])), refused(1, 689));
    assert_eq!(check_first_rows([int64s(&[0, -5]), uint(0)].concat()), refused(4, 689));
    assert_eq!(check_first_rows([int64s(&[0, 5]), uint(0)].concat()), refused(1, 697));
}

#[test]
fn starts() {
    let table = incremental_table(SURVEY[2]);
    let check = |file: &[u8]| check(&table, 0, file, &mut []).map(drop);
    for last in [1, (1 << 31) - 1, 1 << 31, 1 << 32, (1 << 32) + 1, SURVEY[1] - 1] {
        assert_eq!(check(&survey([0, last])), Ok(()));
    }
    for starts in [
        [0, SURVEY[1]],
        [0, 0],
        [0, -1],
        [0, i64::MIN],
        [0, i64::MAX],
        [1, 2],
        [-1, 2],
        [1 << 32, SURVEY[1] - 1],
        [0, SURVEY[1] + (1 << 32)],
    ] {
        assert_eq!(check(&survey(starts)), refused(11, 0), "{starts:?}");
    }
}

#[test]
fn words_of_buckets() {
    let table = incremental_table(SURVEY[2]);
    let check_word = |word: u32| {
        let mut file = survey([0, 1 << 32]);
        file[512..516].copy_from_slice(&uint(word));
        check(&table, 0, &file, &mut []).map(drop)
    };
    for high in [1, 2, 0x7F, 0x80, 0xFF] {
        assert_eq!(check_word(high << 24 | 12), Ok(()), "{high}");
        for offset in [0, 3, 61, 0x00FF_FFFF] {
            assert_eq!(check_word(high << 24 | offset), refused(11, 0), "{high} {offset}");
        }
        // At the bucket's end there is no number of values.
        assert_eq!(check_word(high << 24 | 60), refused(1, 572), "{high}");
        assert_eq!(check_word(high << 24 | 57), refused(1, 569), "{high}");
    }
    // Without a high byte the first start's halves are two starts.
    assert_eq!(check_word(12), refused(11, 0));
}

#[test]
fn starts_at_a_buckets_end() {
    let table = incremental_table(SURVEY[2]);
    // The index begins at 40, 8 bytes of it are the number and half a start.
    for (starts, expected) in [
        (int64s(&[0]), refused(1, 512 + 56)), // the second start has four bytes
        (int64s(&[-1]), refused(11, 0)),      // the first one comes before
        (int64s(&[1]), refused(11, 0)),
    ] {
        let bucket = [uint(0x0100_002C), vec![0; 40], uint(2), starts, uint(0)].concat();
        assert_eq!(bucket.len(), 60);
        let buckets = [bucket, narrow_bucket([0, 1])];
        let file = incremental::file_of(&buckets, 2, int64s(&SURVEY));
        assert_eq!(check(&table, 0, &file, &mut []).map(drop), expected);
    }
}

#[test]
fn widths_are_independent() {
    // ISMIndex 1 with Int64 starts, ISMIndex 2 with uInt starts.
    let table = incremental_table(9);
    for (version, first_rows) in [(1, uints(&[0, 5, 9])), (2, int64s(&[0, 5, 9]))] {
        for bucket in [wide_bucket(9, [0, 3]), narrow_bucket([0, 3])] {
            let buckets = [bucket, narrow_bucket([0, 3])];
            let file = incremental::file_of(&buckets, version, first_rows.clone());
            let byte = |row| place(&table, &file, row, 0, &mut []).unwrap().first_bit / 8;
            assert_eq!([2, 3, 5].map(byte), [516, 520, 576]);
        }
    }
}
