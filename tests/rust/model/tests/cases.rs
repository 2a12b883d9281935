//! The small file of RULES.md 11, written here byte by byte, and its cases A to L.

mod common;
mod little;
mod standard;

use common::{Column, FLAG, SCAN, TIME, refused, small_table, table, table_with, uint, uints};
use model::{
    Kind, Placed, Plan, Refusal, answer, check, hex, numbers, place, place_by_plan, plan, view,
    view_by_plan,
};
use standard::{HEADER, Header, file_of, header, index_text, small_file, small_text};

/// A place in the small file: its set has two entries, of which the search
/// looks at the first.
fn placed(first_bit: u64, bit_count: u64) -> Result<Placed, Refusal> {
    Ok(Placed { first_bit, bit_count, looks: 1, entries: 2 })
}

/// The answers of these questions about the small file.
fn small_place(row: u64, position: u64) -> Result<Placed, Refusal> {
    place(&small_table(), &small_file(), row, position, &mut [0xA5; 134])
}

fn small_check(table: &[u8], file: &[u8]) -> Result<Kind, Refusal> {
    check(table, 0, file, &mut [0xA5; 200])
}

/// The small table with TIME at another offset.
fn with_time_at(offset: u32) -> Vec<u8> {
    table(7, &[SCAN, FLAG, Column { offset, ..TIME }])
}

#[test]
fn the_small_file_is_accepted() {
    assert_eq!(small_file().len(), 832);
    assert_eq!(small_text().len(), 134);
    let mut room = [0xA5; 140];
    assert_eq!(check(&small_table(), 0, &small_file(), &mut room), Ok(Kind::Standard));
    // The room holds the text, then zeros.
    assert_eq!(room[..134], small_text());
    assert_eq!(room[134..], [0; 6]);
}

#[test]
fn case_a() {
    // TIME row 5 is bytes 537 to 544.
    assert_eq!(small_place(5, 2), placed(8 * 537, 64));
    let file = small_file();
    let part = view(&small_table(), &file, 5, 2, &mut [0; 134]).unwrap();
    assert_eq!(part.as_ptr_range(), file[537..=544].as_ptr_range());
}

#[test]
fn case_b() {
    // TIME row 2 begins at byte 640 + 17 + 16 = 673, in bucket 2.
    assert_eq!(small_place(2, 2), placed(8 * 673, 64));
}

#[test]
fn case_c() {
    // FLAG row 5 is bit 4,225.
    assert_eq!(small_place(5, 1), placed(4225, 1));
}

#[test]
fn case_d() {
    // SCAN row 6 begins at byte 520.
    assert_eq!(small_place(6, 0), placed(8 * 520, 32));
}

#[test]
fn case_e() {
    // Row 7 gives 9.
    assert_eq!(small_place(7, 2), refused(9, 0));
    assert_eq!(small_place(7, 1), refused(9, 0));
}

#[test]
fn case_f() {
    // View of FLAG gives 14.
    let (table, file) = (small_table(), small_file());
    let mut room = [0xA5; 140];
    assert_eq!(view(&table, &file, 5, 1, &mut room), refused(14, 0));
    assert_eq!(room, [0; 140]);
    // The row comes before.
    assert_eq!(view(&table, &file, 7, 1, &mut room), refused(9, 0));
}

#[test]
fn case_g() {
    // TIME at 16 gives 11.
    assert_eq!(small_check(&with_time_at(16), &small_file()), refused(11, 0));
}

#[test]
fn case_h() {
    // Last rows 3, 8 with 9 rows give 11.
    let table = table(9, &[SCAN, FLAG, TIME]);
    let file = file_of(header(HEADER), &index_text(3, &[3, 8], &[2, 0]));
    assert_eq!(small_check(&table, &file), refused(11, 0));
}

#[test]
fn case_i() {
    // Index number 2 for three links gives 10.
    let file = file_of(header(Header { index_buckets: 2, ..HEADER }), &small_text());
    assert_eq!(small_check(&small_table(), &file), refused(10, 0));
}

#[test]
fn case_j() {
    // TIME at 32 is accepted, at 33 gives 11.
    assert_eq!(small_check(&with_time_at(32), &small_file()), Ok(Kind::Standard));
    assert_eq!(small_check(&with_time_at(33), &small_file()), refused(11, 0));
}

#[test]
fn case_k() {
    // The header object is 70 bytes, 74 with mark.
    assert_eq!(header(HEADER).len(), 74);
    assert_eq!(header(HEADER)[4..8], uint(70));
}

#[test]
fn case_l() {
    // 8 Bools per row, row 1, offset 0, bucket 0: bits 4,104 to 4,111.
    let flags = Column { elements: Some(8), offset: 0, ..FLAG };
    let table = table(2, &[flags]);
    let text = index_text(1, &[1], &[0]);
    let file = file_of(header(Header { index_length: 126, ..HEADER }), &text);
    let mut room = [0; 126];
    let bools = Placed { first_bit: 4104, bit_count: 8, looks: 0, entries: 1 };
    assert_eq!(place(&table, &file, 1, 0, &mut room), Ok(bools));
    assert_eq!(room[..], text);
    assert_eq!(view(&table, &file, 1, 0, &mut room), refused(14, 0));
}

/// The same questions of the little endian file.
#[test]
fn little_endian() {
    let (table, file) = (little::small_table(), little::small_file());
    assert_eq!(file.len(), 832);
    let mut room = [0xA5; 140];
    assert_eq!(check(&table, 0, &file, &mut room), Ok(Kind::Standard));
    assert_eq!(room[..134], little::text([3, 6]));
    assert_eq!(room[134..], [0; 6]);
    let place = |row, position| place(&table, &file, row, position, &mut [0; 134]);
    assert_eq!(place(5, 2), placed(8 * 537, 64)); // A
    assert_eq!(place(2, 2), placed(8 * 673, 64)); // B
    assert_eq!(place(5, 1), placed(4225, 1)); // C
    assert_eq!(place(6, 0), placed(8 * 520, 32)); // D
    assert_eq!(place(7, 2), refused(9, 0)); // E
    assert_eq!(view(&table, &file, 5, 1, &mut room), refused(14, 0)); // F
    let with_time_at = |offset| little::table(7, &[SCAN, FLAG, Column { offset, ..TIME }]);
    assert_eq!(small_check(&with_time_at(16), &file), refused(11, 0)); // G
    let nine = little::table(9, &[SCAN, FLAG, TIME]);
    let rows = file_of(little::header(3), &little::text([3, 8]));
    assert_eq!(small_check(&nine, &rows), refused(11, 0)); // H
    let two = file_of(little::header(2), &little::text([3, 6]));
    assert_eq!(small_check(&table, &two), refused(10, 0)); // I
    assert_eq!(small_check(&with_time_at(32), &file), Ok(Kind::Standard)); // J
    assert_eq!(small_check(&with_time_at(33), &file), refused(11, 0));
    assert_eq!(little::header(3)[4..8], [70, 0, 0, 0]); // K
    // The form of DMInfo and the byte order are apart.
    let info = little::info(&[SCAN, FLAG, TIME]);
    let big = table_with(1, "StandardStMan", info, 7, &[SCAN, FLAG, TIME]);
    assert_eq!(small_check(&big, &small_file()), Ok(Kind::Standard));
    let bare = uints(&[0, 0, 0, 0, 16, 17]);
    let bare = table_with(0, "StandardStMan", bare, 7, &[SCAN, FLAG, TIME]);
    assert_eq!(small_check(&bare, &file), Ok(Kind::Standard));
    // The table's endianness alone decides.
    assert_eq!(small_check(&table, &small_file()), refused(1, 8));
    assert_eq!(small_check(&small_table(), &file), refused(1, 8));
}

/// Links are big endian in both.
#[test]
fn links_in_a_little_endian_table() {
    let mut file = little::small_file();
    file[512 + 64..][..8].copy_from_slice(&[3, 0, 0, 0, 3, 0, 0, 0]);
    assert_eq!(small_check(&little::small_table(), &file), refused(10, 0));
}

#[test]
fn rooms() {
    let (table, file) = (small_table(), small_file());
    let mut room = [0xA5; 133];
    assert_eq!(check(&table, 0, &file, &mut room), refused(13, 0));
    assert_eq!(room, [0; 133]);
    assert_eq!(check(&table, 0, &file, &mut []), refused(13, 0));
    assert_eq!(check(&table, 0, &file, &mut [0xA5; 134]), Ok(Kind::Standard));
    // The header and the length come before, the chain after.
    assert_eq!(check(&table, 0, &file[..831], &mut []), refused(1, 831));
    let broken = file_of(header(Header { first_index: -1, ..HEADER }), &small_text());
    assert_eq!(check(&table, 0, &broken, &mut []), refused(13, 0));
    assert_eq!(check(&table, 0, &broken, &mut [0; 134]), refused(10, 0));
}

#[test]
fn plans() {
    let (table, file) = (small_table(), small_file());
    let room = &mut [0; 134];
    let fresh = Plan {
        position: 2,
        manager: 0,
        data_type: 8,
        elements: 1,
        cell_bits: 64,
        set: 0,
        offset: 17,
        rows_per_bucket: 4,
        bucket_size: 64,
    };
    assert_eq!(plan(&table, &file, 2, room), Ok(fresh));
    assert_eq!(plan(&table, &file, 3, room), refused(8, 0));
    assert_eq!(plan(&table, &file, 1 << 32, room), refused(8, 0));
    assert_eq!(place_by_plan(&table, &file, 5, &fresh, room), placed(8 * 537, 64));
    assert_eq!(view_by_plan(&table, &file, 5, &fresh, room), Ok(&file[537..545]));
    // A stale plan comes before the row.
    let stale = Plan { manager: 1, ..fresh };
    assert_eq!(place_by_plan(&table, &file, 7, &stale, room), refused(12, 0));
    assert_eq!(place_by_plan(&table, &file, 7, &fresh, room), refused(9, 0));
    // No such column, or another one.
    assert_eq!(view_by_plan(&table, &file, 5, &Plan { position: 3, ..fresh }, room), refused(8, 0));
    assert_eq!(
        view_by_plan(&table, &file, 5, &Plan { position: 1, ..fresh }, room),
        refused(12, 0)
    );
}

#[test]
fn answers_in_numbers() {
    let (table, file) = (small_table(), small_file());
    let room = &mut [0; 134];
    assert_eq!(numbers::check(&table, &file, 0, room), Ok([64, 0]));
    assert_eq!(room[..], small_text());
    assert_eq!(numbers::check(&table, &file, 1, room), refused(8, 0));
    assert_eq!(room, &[0; 134]);
    let fresh = [2, 0, 8, 1, 64, 0, 17, 4, 64];
    assert_eq!(numbers::plan(&table, &file, 2, room), Ok([2, 0, 8, 1, 64, 0, 17, 4, 64, 0]));
    assert_eq!(numbers::place(&table, &file, 5, 2, room), Ok([8 * 537, 64, 1, 2, 0]));
    assert_eq!(numbers::place_planned(&table, &file, 5, fresh, room), Ok([8 * 537, 64, 1, 2, 0]));
    assert_eq!(numbers::view(&table, &file, 5, 2, room), Ok([537, 8, 0]));
    assert_eq!(numbers::view_planned(&table, &file, 5, fresh, room), Ok([537, 8, 0]));
    // Each number of a plan stands for its own field.
    for number in 0..9 {
        let mut stale = fresh;
        stale[number] += 1;
        let refusal = if number == 0 { 8 } else { 12 };
        assert_eq!(numbers::place_planned(&table, &file, 5, stale, room), refused(refusal, 0));
        assert_eq!(numbers::view_planned(&table, &file, 5, stale, room), refused(refusal, 0));
    }
}

#[test]
fn misreadings() {
    let (table, file) = (small_table(), small_file());
    // A chain that returns to an earlier bucket.
    let mut returning = file.clone();
    returning[512 + 256..][..8].copy_from_slice(&uints(&[3, 3]));
    assert_eq!(small_check(&table, &returning), refused(10, 0));
    // The next number twice, equal.
    let mut unequal = file.clone();
    unequal[512 + 64 + 7] = 4;
    assert_eq!(small_check(&table, &unequal), refused(10, 0));
    // A sequence number that no manager has.
    assert_eq!(check(&table, 1, &file, &mut [0; 134]), refused(8, 0));
    assert_eq!(check(&table, 1 << 32, &file, &mut [0; 134]), refused(8, 0));
    // A free list where there is none, and none where there is one.
    let free = |free_buckets, first_free| {
        file_of(header(Header { free_buckets, first_free, ..HEADER }), &small_text())
    };
    assert_eq!(small_check(&table, &free(0, 1)), refused(10, 0));
    assert_eq!(small_check(&table, &free(1, -1)), refused(10, 0));
    // The last index bucket ends this list, but is not free.
    assert_eq!(small_check(&table, &free(1, 4)), refused(11, 0));
    // An index offset of 8 with a chain of three.
    let at_offset = file_of(header(Header { index_offset: 8, ..HEADER }), &small_text());
    assert_eq!(small_check(&table, &at_offset), refused(10, 0));
    let below = file_of(header(Header { index_offset: 7, ..HEADER }), &small_text());
    assert_eq!(small_check(&table, &below), refused(4, 58));
}

#[test]
fn lines() {
    let table = hex::encode(&small_table());
    let file = hex::encode(&small_file());
    let text = hex::encode(&small_text());
    assert_eq!(answer(&format!("check {table} 0 {file} 135")), format!("ok SSM {text}00"));
    assert_eq!(answer(&format!("check {table} 0 {file} 0")), "refused 13 0 -");
    assert_eq!(answer(&format!("check {table} 9 {file} 2")), "refused 8 0 0000");
    assert_eq!(
        answer(&format!("plan {table} {file} 1 134")),
        format!("ok 1,0,0,1,1,0,16,4,64 {text}")
    );
    assert_eq!(answer(&format!("place {table} {file} 5 2 134")), format!("ok 4296 64 1 {text}"));
    assert_eq!(
        answer(&format!("placeplan {table} {file} 5 1,0,0,1,1,0,16,4,64 134")),
        format!("ok 4225 1 1 {text}")
    );
    assert_eq!(
        answer(&format!("placeplan {table} {file} 5 1,0,0,1,1,0,16,4,65 1")),
        "refused 13 0 00"
    );
    assert_eq!(answer(&format!("view {table} {file} 5 2 134")), format!("ok 537 8 {text}"));
    assert_eq!(
        answer(&format!("viewplan {table} {file} 6 0,0,5,1,32,0,0,4,64 134")),
        format!("ok 520 4 {text}")
    );
    assert_eq!(answer("check - 0 - 3"), "refused 1 0 000000");
    assert_eq!(answer("check - 18446744073709551615 - 0"), "refused 1 0 -");
}

#[test]
fn lines_that_are_no_requests() {
    for line in [
        "check - 0 -",
        "check - 0 - 0 0",
        "check - -1 - 0",
        "check - +1 - 0",
        "check -  - 0",
        "check - 18446744073709551616 - 0",
        "check - 0 - 1048577",
        "check - 0 0 0",
        "plan - - 0",
        "plan - - x 0",
        "place - - 0 0",
        "place - - 0 0x0 0",
        "placeplan - - 0 0 0",
        "placeplan - - 0 0,0,0,0,0,0,0,0 0",
        "placeplan - - 0 0,0,0,0,0,0,0,0,0,0 0",
        "placeplan - - 0 0,0,0,0,,0,0,0,0 0",
        "viewplan - - 0 0,0,0,0,0,0,0,0,18446744073709551616 0",
        "view - - - 0 0",
        "Check - 0 - 0",
    ] {
        assert_eq!(answer(line), "bad request", "{line:?}");
    }
    assert_eq!(answer("check - 0 - 1048576").len(), "refused 1 0 ".len() + 2 * 1_048_576);
}
