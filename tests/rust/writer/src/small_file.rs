//! Questions about the small file (RULES.md 11): its cases A to L, and variants of
//! each of them.

use crate::buckets::{BucketFile, Subject};
use crate::questions::Asked;
use crate::samples;
use crate::standard::{Index, StandardFile};
use crate::table::{BOOL, Column, Table};

type Small = Subject<StandardFile>;

// Positions of the columns.
const SCAN: usize = 0;
const FLAG: usize = 1;
const TIME: usize = 2;

/// The index text's length.
const TEXT: usize = 134;
/// Plenty of room.
const ROOM: usize = 150;

/// All lines.
pub fn lines() -> impl Iterator<Item = String> + Send {
    let answers = both().into_iter().flat_map(|subject| {
        let asked = Asked::new(&subject);
        [rooms(&asked), cells(&asked)].concat()
    });
    let variants = both().into_iter().flat_map(|small| variants(&small));
    let spoilt = spoilt().map(|asked| asked.check(0, ROOM));
    answers.chain(variants.flat_map(variant_lines)).chain(spoilt)
}

/// The file in both byte orders, and of each its variants, its prefixes, and
/// its changes of one byte.
pub fn cases() -> impl Iterator<Item = Asked> + Send {
    let variants = both().into_iter().flat_map(|small| variants(&small));
    let files = both().into_iter().chain(variants);
    files.map(|subject| Asked::new(&subject)).chain(spoilt())
}

/// The file in both byte orders.
fn both() -> [Small; 2] {
    [samples::small_file(), samples::little_file()]
}

fn spoilt() -> impl Iterator<Item = Asked> + Send {
    both().into_iter().flat_map(|small| torn(&small).chain(changes(small)))
}

/// Every question with every kind of room.
fn rooms(asked: &Asked) -> Vec<String> {
    let mut lines = Vec::new();
    for room in [0, 1, 56, TEXT - 1, TEXT, TEXT + 1, TEXT + 66] {
        lines.push(asked.check(0, room));
        lines.push(asked.check(1, room));
        lines.push(asked.plan(TIME as u64, room));
        lines.push(asked.plan(3, room));
        lines.push(asked.cell("place", 5, TIME as u64, room));
        lines.push(asked.cell("view", 5, TIME as u64, room));
        lines.push(asked.planned_cell("placeplan", 5, &asked.plans[TIME], room));
        lines.push(asked.planned_cell("viewplan", 5, &asked.plans[TIME], room));
        lines.push(asked.cell("padded", 5, TIME as u64, room));
        lines.push(asked.planned_cell("paddedplan", 5, &asked.plans[TIME], room));
    }
    lines.push(asked.check(0, 1_048_576)); // the longest room that is lent
    lines
}

/// A to F: every cell, rows past the end, and columns that are not there.
fn cells(asked: &Asked) -> Vec<String> {
    let mut lines = Vec::new();
    for position in 0..4 {
        for row in (0..9).chain([1 << 32, u64::MAX]) {
            let position = position as u64;
            lines.push(asked.cell("place", row, position, TEXT));
            lines.push(asked.cell("view", row, position, TEXT));
            lines.push(asked.cell("padded", row, position, TEXT));
            let fresh = asked.plans.get(position as usize).copied().unwrap_or([position; 9]);
            lines.push(asked.planned_cell("placeplan", row, &fresh, TEXT));
            lines.push(asked.planned_cell("viewplan", row, &fresh, TEXT));
            lines.push(asked.planned_cell("paddedplan", row, &fresh, TEXT));
        }
    }
    // Plans that are stale in each field, for a row that is there and one
    // that is not.
    for field in 0..9 {
        for value in [0, 1, 2, 7, 1 << 32, u64::MAX] {
            let words = [("placeplan", 5), ("viewplan", 5), ("paddedplan", 5), ("placeplan", 7)];
            for (word, row) in words {
                let mut plan = asked.plans[FLAG];
                plan[field] = value;
                lines.push(asked.planned_cell(word, row, &plan, TEXT));
            }
        }
    }
    lines
}

/// A variant: its check, and a place and view of each column in its last row.
fn variant_lines(subject: Small) -> Vec<String> {
    let asked = Asked::new(&subject);
    let mut lines = vec![asked.check(0, ROOM)];
    let row = subject.table.rows().saturating_sub(1);
    for position in 0..subject.table.columns().len() as u64 {
        lines.push(asked.cell("place", row, position, ROOM));
        lines.push(asked.cell("view", row, position, ROOM));
    }
    lines
}

/// G to L, and values beside those that they name.
fn variants(small: &Small) -> Vec<Small> {
    let mut variants = Vec::new();
    let mut add = |change: &dyn Fn(&mut Small)| {
        let mut subject = small.clone();
        change(&mut subject);
        subject.table.write_infos();
        variants.push(subject);
    };
    let at = |position: usize, offset: u32| {
        move |subject: &mut Small| subject.table.columns_mut()[position].info.offset = offset
    };
    // G and J: TIME at 16 and 33 are wrong, at 17 to 32 right; the others too.
    for offset in 0..=40 {
        add(&at(TIME, offset));
    }
    for offset in [0, 1, 15, 16, 17, 48, 49, 50, 63, 64, u32::MAX] {
        add(&at(FLAG, offset));
        add(&at(SCAN, offset));
    }
    // H: last rows, with the rows that go with them.
    for first in 0..=5 {
        for second in 0..=9 {
            for rows in [second + 1, 7] {
                add(&|subject| {
                    subject.table.set_rows(rows);
                    subject.file.indices[0].last_rows.elements = vec![first, second];
                });
            }
        }
    }
    // I: the number of index buckets, and the chain.
    for count in (0..=6).chain([4096, u32::MAX]) {
        add(&|subject| subject.file.index_buckets = Some(count));
    }
    for link in -2..=6 {
        add(&|subject| subject.file.first_index = Some(link));
        for bucket in [1, 3, 4] {
            add(&|subject| {
                subject.file.buckets.patch(bucket, 0, &[link.to_be_bytes(); 2].concat());
            });
            add(&|subject| subject.file.buckets.patch(bucket, 4, &link.to_be_bytes()));
        }
    }
    for length in [0, 1, TEXT - 1, TEXT, TEXT + 1, 167, 168, 169, 65_536, 65_537] {
        add(&|subject| subject.file.index_length = Some(length as u32));
    }
    for offset in 0..=10 {
        add(&|subject| subject.file.index_offset = offset);
    }
    // K: the header's length.
    for length in [0, 24, 25, 66, 69, 70, 71, 508, 509] {
        add(&|subject| subject.file.buckets.header.stated = Some(length));
    }
    // Buckets of the entries, free buckets, and the numbers of the header.
    for first in 0..=5 {
        for second in 0..=5 {
            add(&|subject| subject.file.indices[0].buckets.elements = vec![first, second]);
        }
    }
    for first in -2..=5 {
        for count in 0..=2 {
            add(&|subject| {
                subject.file.buckets.first_free = Some(first);
                subject.file.buckets.free_count = Some(count);
            });
        }
    }
    for value in 0..=5 {
        add(&|subject| subject.file.buckets.header.version = value);
        add(&|subject| subject.file.buckets.big_endian = value as u8);
        add(&|subject| subject.file.buckets.stated_count = Some(value));
        add(&|subject| subject.file.index_count = Some(value));
        add(&|subject| subject.file.indices[0].columns = value as i32 - 1);
        add(&|subject| subject.file.indices[0].rows_per_bucket = value);
        add(&|subject| subject.file.indices[0].entries = Some(value));
        add(&|subject| subject.table.set_rows(value.into()));
        add(&|subject| subject.table.columns_mut()[FLAG].info.set = value);
    }
    for size in [15, 16, 63, 64, 65, 1_048_576, 1_048_577] {
        add(&|subject| subject.file.buckets.stated_size = Some(size));
    }
    add(&eight_bools);
    variants
}

/// L: 8 Bools in each row, at offset 0 of bucket 0.
fn eight_bools(subject: &mut Small) {
    let columns = vec![Column::direct(BOOL, "FLAG", &[8])];
    let managers = subject.table.managers().to_vec();
    subject.table = Table::new(2, subject.table.endianness, columns, managers);
    subject.file.indices = vec![Index::new(4, 1, &[(1, 0)])];
}

/// Every prefix of the file.
fn torn(small: &Small) -> impl Iterator<Item = Asked> + Send + use<> {
    let whole = Asked::new(small);
    (0..=whole.file.len())
        .map(move |length| Asked { file: whole.file[..length].to_vec(), ..whole.clone() })
}

/// Changes of each byte of the header and of the index buckets.
fn changes(subject: Small) -> impl Iterator<Item = Asked> + Send {
    let whole = Asked::new(&subject);
    let header = 0..subject.file.header().bytes.len();
    let index = [1, 3, 4].into_iter().flat_map(move |bucket| {
        let start = subject.file.buckets.start(bucket);
        start..start + 64
    });
    header.chain(index).flat_map(move |place| {
        let byte = whole.file[place];
        let mut values = vec![0, 1, 2, 255, byte ^ 1, byte ^ 0x80, byte.wrapping_add(1)];
        values.sort_unstable();
        values.dedup();
        values.retain(|value| *value != byte);
        let whole = whole.clone();
        values.into_iter().map(move |value| {
            let mut changed = whole.clone();
            changed.file[place] = value;
            changed
        })
    })
}
