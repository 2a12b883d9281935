//! The looks and entries that Place tells, in files written here byte by byte.

mod common;
mod incremental;

use common::{Column, FLAG, SCAN, TIME, object, refused, small_table, table, uint, uints};
use incremental::block;
use model::{Placed, Plan, answer, hex, numbers, place, place_by_plan, plan, view};

/// A set of columns: rows per bucket, columns, and the last row of each entry.
struct Set<'a>(u32, u32, &'a [u32]);

/// The index text of these sets. The data buckets follow each other.
fn index_text(sets: &[Set<'_>]) -> Vec<u8> {
    let mut text = Vec::new();
    let mut bucket = 0;
    for Set(rows_per_bucket, columns, last_rows) in sets {
        let entries = last_rows.len() as u32;
        let buckets: Vec<u32> = (bucket..bucket + entries).collect();
        bucket += entries;
        let fields = [
            uints(&[entries, *rows_per_bucket, *columns]),
            object("SimpleOrderedMap", 1, &[uints(&[0, 0, 1])]),
            block(last_rows),
            block(&buckets),
        ];
        text.extend([vec![0xBE; 4], object("SSMIndex", 1, &fields)].concat());
    }
    text
}

/// A file whose last bucket has the index, at offset 8, and ends with it.
fn file_of(sets: &[Set<'_>]) -> Vec<u8> {
    let text = index_text(sets);
    let data: usize = sets.iter().map(|set| set.2.len()).sum();
    let size = 8 + text.len();
    let numbers = [
        size as u32,
        data as u32 + 1, // buckets
        1,               // cache size
        0,               // free buckets
        u32::MAX,
        1, // index buckets
        data as u32,
        8,
        u32::MAX, // no string heap
        text.len() as u32,
        sets.len() as u32,
    ];
    let header = [vec![0xBE; 4], object("StandardStMan", 3, &[vec![1], uints(&numbers)])].concat();
    let mut file = vec![0; 512 + (data + 1) * size];
    file[..header.len()].copy_from_slice(&header);
    let start = file.len() - text.len();
    file[start..].copy_from_slice(&text);
    file
}

/// The looks and the entries that are told for a cell, by position and by plan,
/// the same from `question` and from `numbers`.
fn told(table: &[u8], file: &[u8], row: u64, position: u64) -> (u64, u64) {
    let room = &mut vec![0; 65_536];
    let placed = place(table, file, row, position, room).unwrap();
    let plan = plan(table, file, position, room).unwrap();
    assert_eq!(place_by_plan(table, file, row, &plan, room), Ok(placed));
    let Placed { first_bit, bit_count, looks, entries } = placed;
    let in_numbers = Ok([first_bit, bit_count, looks, entries, 0]);
    assert_eq!(numbers::place(table, file, row, position, room), in_numbers);
    assert_eq!(numbers::place_planned(table, file, row, plan.numbers(), room), in_numbers);
    (looks, entries)
}

#[test]
fn of_every_entry() {
    let sets: [(&[u32], &[u64]); 6] = [
        (&[8], &[0]),
        (&[3, 6], &[1, 1]),
        (&[0, 4, 5], &[2, 2, 1]),
        (&[0, 1, 2, 3], &[2, 2, 2, 2]),
        (&[2, 3, 9, 10, 12], &[3, 3, 2, 2, 2]),
        (&[0, 8, 9, 10, 18, 20, 21], &[3, 3, 3, 3, 3, 3, 2]),
    ];
    for (last_rows, looks) in sets {
        let rows = last_rows.last().unwrap() + 1;
        let table = table(rows, &[Column { offset: 0, ..FLAG }]);
        let file = file_of(&[Set(9, 1, last_rows)]);
        let mut first_row = 0;
        for (last, looks) in last_rows.iter().zip(looks) {
            for row in first_row..=*last {
                let told = told(&table, &file, row.into(), 0);
                assert_eq!(told, (*looks, last_rows.len() as u64), "row {row} of {last_rows:?}");
            }
            first_row = last + 1;
        }
    }
}

#[test]
fn of_the_small_table() {
    let (table, file) = (small_table(), file_of(&[Set(4, 3, &[3, 6])]));
    for row in 0..7 {
        for position in 0..3 {
            assert_eq!(told(&table, &file, row, position), (1, 2));
        }
    }
}

/// Three sets of 13 rows: SCAN's has an entry, TIME's five, FLAG's three.
fn three_sets() -> (Vec<u8>, Vec<u8>) {
    let columns = [
        Column { set: 1, offset: 0, ..TIME },
        Column { set: 2, offset: 0, ..FLAG },
        Column { set: 0, offset: 0, ..SCAN },
    ];
    let sets = [Set(13, 1, &[12]), Set(6, 1, &[2, 3, 9, 10, 12]), Set(8, 1, &[0, 4, 12])];
    (table(13, &columns), file_of(&sets))
}

#[test]
fn of_the_columns_own_set() {
    let (table, file) = three_sets();
    let time = [3, 3, 3, 3, 2, 2, 2, 2, 2, 2, 2, 2, 2];
    let flag = [2, 2, 2, 2, 2, 1, 1, 1, 1, 1, 1, 1, 1];
    for row in 0..13 {
        assert_eq!(told(&table, &file, row, 0), (time[row as usize], 5), "row {row}");
        assert_eq!(told(&table, &file, row, 1), (flag[row as usize], 3), "row {row}");
        assert_eq!(told(&table, &file, row, 2), (0, 1), "row {row}");
    }
}

#[test]
fn in_lines() {
    let (table, file) = three_sets();
    let room =
        index_text(&[Set(13, 1, &[12]), Set(6, 1, &[2, 3, 9, 10, 12]), Set(8, 1, &[0, 4, 12])]);
    let size = 8 + room.len();
    let (lent, text) = (room.len(), hex::encode(&room));
    let zeros = "00".repeat(lent);
    let asked = format!("{} {}", hex::encode(&table), hex::encode(&file));
    // Row 8 of TIME is the fifth of its entry's, in bucket 1 + 2.
    let start = 512 + 3 * size + 8 * 4;
    let plan = format!("0,0,8,1,64,1,0,6,{size}");
    let answers = [
        (format!("place {asked} 8 0 {lent}"), format!("ok {} 64 2 {text}", 8 * start)),
        (format!("placeplan {asked} 8 {plan} {lent}"), format!("ok {} 64 2 {text}", 8 * start)),
        // A view tells no looks, nor does a refusal.
        (format!("view {asked} 8 0 {lent}"), format!("ok {start} 8 {text}")),
        (format!("viewplan {asked} 8 {plan} {lent}"), format!("ok {start} 8 {text}")),
        (format!("place {asked} 13 0 {lent}"), format!("refused 9 0 {zeros}")),
        (format!("place {asked} 8 3 {lent}"), format!("refused 8 0 {zeros}")),
        (format!("placeplan {asked} 13 {plan} {lent}"), format!("refused 9 0 {zeros}")),
        (format!("placeplan {asked} 8 {plan}1 {lent}"), format!("refused 12 0 {zeros}")),
        (format!("place {asked} 8 0 1"), "refused 13 0 00".to_string()),
    ];
    for (line, expected) in answers {
        assert_eq!(answer(&line), expected);
    }
}

#[test]
fn the_most_entries() {
    // Entries of one row and of two.
    let last_rows: Vec<u32> = (0..4095_u32).map(|entry| entry + entry.div_ceil(2)).collect();
    let rows = last_rows[4094] + 1;
    let table = table(rows, &[Column { offset: 0, ..SCAN }]);
    let file = file_of(&[Set(2, 1, &last_rows)]);
    assert_eq!(file.len(), 512 + 4096 * 32_886);
    for row in [0, 1, 2, 3071, rows - 3, rows - 2] {
        let entry = last_rows.iter().position(|last| row <= *last).unwrap();
        let looks = if entry == 4094 { 11 } else { 12 };
        assert_eq!(told(&table, &file, row.into(), 0), (looks, 4095), "row {row}");
    }
    assert_eq!(told(&table, &file, u64::from(rows) - 1, 0), (11, 4095));
}

#[test]
fn incremental_places_have_none() {
    let (table, file) = (incremental::small_table(), incremental::small_file());
    for (row, value) in [(0, 7), (1, 7), (2, 8)] {
        assert_eq!(view(&table, &file, row, 0, &mut []), Ok(&uint(value)[..]));
        assert_eq!(told(&table, &file, row, 0), (0, 0));
    }
    assert_eq!(place(&table, &file, 3, 0, &mut []), refused(9, 0));
    let stale = Plan::of([0, 0, 5, 1, 32, 0, 0, 0, 21]);
    assert_eq!(place_by_plan(&table, &file, 2, &stale, &mut []), refused(12, 0));
    let line = format!("place {} {} 2 0 1", hex::encode(&table), hex::encode(&file));
    assert_eq!(answer(&line), format!("ok {} 32 0 00", 8 * (532 + 4)));
}
