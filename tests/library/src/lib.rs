//! The proved library's C functions: every question of the files as a value, and a safe function for each.

pub mod fields;
pub mod numbers;

use std::fmt;

extern "C" {
    fn hv_description(table: *const u8, table_len: usize, out: *mut u64, out_len: usize) -> u32;
    fn hv_column(table: *const u8, table_len: usize, position: u64, out: *mut u64, out_len: usize) -> u32;
    fn hv_manager(table: *const u8, table_len: usize, index: u64, out: *mut u64, out_len: usize) -> u32;
    fn hv_column_by_name(
        table: *const u8,
        table_len: usize,
        name: *const u8,
        name_len: usize,
        out: *mut u64,
        out_len: usize,
    ) -> u32;
    fn hv_check(
        table: *const u8,
        table_len: usize,
        file: *const u8,
        file_len: usize,
        sequence: u64,
        room: *mut u8,
        room_len: usize,
        out: *mut u64,
        out_len: usize,
    ) -> u32;
    fn hv_plan(
        table: *const u8,
        table_len: usize,
        file: *const u8,
        file_len: usize,
        position: u64,
        room: *mut u8,
        room_len: usize,
        out: *mut u64,
        out_len: usize,
    ) -> u32;
    fn hv_place(
        table: *const u8,
        table_len: usize,
        file: *const u8,
        file_len: usize,
        row: u64,
        position: u64,
        room: *mut u8,
        room_len: usize,
        out: *mut u64,
        out_len: usize,
    ) -> u32;
    fn hv_place_planned(
        table: *const u8,
        table_len: usize,
        file: *const u8,
        file_len: usize,
        row: u64,
        plan: *const u64,
        plan_len: usize,
        room: *mut u8,
        room_len: usize,
        out: *mut u64,
        out_len: usize,
    ) -> u32;
    fn hv_place_in_bucket(
        table: *const u8,
        table_len: usize,
        file: *const u8,
        file_len: usize,
        row: u64,
        position: u64,
        room: *mut u8,
        room_len: usize,
        out: *mut u64,
        out_len: usize,
    ) -> u32;
    fn hv_view(
        table: *const u8,
        table_len: usize,
        file: *const u8,
        file_len: usize,
        row: u64,
        position: u64,
        room: *mut u8,
        room_len: usize,
        out: *mut u64,
        out_len: usize,
    ) -> u32;
    fn hv_view_planned(
        table: *const u8,
        table_len: usize,
        file: *const u8,
        file_len: usize,
        row: u64,
        plan: *const u64,
        plan_len: usize,
        room: *mut u8,
        room_len: usize,
        out: *mut u64,
        out_len: usize,
    ) -> u32;
    fn hv_padded_view(
        table: *const u8,
        table_len: usize,
        file: *const u8,
        file_len: usize,
        row: u64,
        position: u64,
        room: *mut u8,
        room_len: usize,
        out: *mut u64,
        out_len: usize,
    ) -> u32;
    fn hv_padded_view_planned(
        table: *const u8,
        table_len: usize,
        file: *const u8,
        file_len: usize,
        row: u64,
        plan: *const u64,
        plan_len: usize,
        room: *mut u8,
        room_len: usize,
        out: *mut u64,
        out_len: usize,
    ) -> u32;
    fn hv_table_keyword(
        table: *const u8,
        table_len: usize,
        path: *const u8,
        path_len: usize,
        out: *mut u64,
        out_len: usize,
    ) -> u32;
    fn hv_column_keyword(
        table: *const u8,
        table_len: usize,
        position: u64,
        path: *const u8,
        path_len: usize,
        out: *mut u64,
        out_len: usize,
    ) -> u32;
    fn hv_table_field(
        table: *const u8,
        table_len: usize,
        path: *const u8,
        path_len: usize,
        number: u64,
        out: *mut u64,
        out_len: usize,
    ) -> u32;
    fn hv_column_field(
        table: *const u8,
        table_len: usize,
        position: u64,
        path: *const u8,
        path_len: usize,
        number: u64,
        out: *mut u64,
        out_len: usize,
    ) -> u32;
    fn hv_element_bits(number: u64) -> u64;
}

// How many numbers the answers have. The last of each is the byte that a refusal blames.

/// Row count, byte order (1: big endian), number of columns, number of managers, byte.
pub const DESCRIPTION: usize = 5;
/// Name start, name length, data type number, array, options, elements, string maximum, cell bits, sequence number, set,
/// offset, byte.
pub const COLUMN: usize = 12;
/// Sequence number, kind (1 StandardStMan, 2 IncrementalStMan, 0 other), name start, name length, byte.
pub const MANAGER: usize = 5;
/// The position, byte.
pub const POSITION: usize = 2;
/// The bucket size, byte.
pub const CHECK: usize = 2;
/// Position, sequence number, data type, element count, cell bits, set, offset, rows per bucket, bucket size; byte.
pub const PLAN: usize = 10;
/// First bit, bit count, looks, entries, byte.
pub const PLACE: usize = 5;
/// First bit, bit count, bucket size, byte.
pub const IN_BUCKET: usize = 4;
/// Start and length in bytes, byte.
pub const VIEW: usize = 3;
/// Type number, start and length of the value, byte.
pub const KEYWORD: usize = 4;
/// Name start, name length, type number, start and length of the value, byte.
pub const FIELD: usize = 6;

/// The numbers of a plan: those of its answer but for the byte.
pub const PLAN_NUMBERS: usize = PLAN - 1;

/// A plan has too few numbers.
pub const SHORT: u64 = 255;

/// A refusal: the number that the function gives, and the byte that it writes.
#[derive(Clone, Copy, Debug, PartialEq, Eq)]
pub struct Refusal {
    pub number: u64,
    pub byte: u64,
}

impl fmt::Display for Refusal {
    fn fmt(&self, out: &mut fmt::Formatter<'_>) -> fmt::Result {
        write!(out, "refused {} {}", self.number, self.byte)
    }
}

/// A call of one of the functions that ask of files, but for the files, the room and `out`.
#[derive(Clone, Copy, Debug, PartialEq, Eq)]
pub enum Question<'a> {
    Description,
    Column { position: u64 },
    Manager { index: u64 },
    ColumnByName { name: &'a [u8] },
    Check { sequence: u64 },
    Plan { position: u64 },
    Place { row: u64, position: u64 },
    PlacePlanned { row: u64, plan: &'a [u64] },
    PlaceInBucket { row: u64, position: u64 },
    View { row: u64, position: u64 },
    ViewPlanned { row: u64, plan: &'a [u64] },
    PaddedView { row: u64, position: u64 },
    PaddedViewPlanned { row: u64, plan: &'a [u64] },
    TableKeyword { path: &'a [u8] },
    ColumnKeyword { position: u64, path: &'a [u8] },
    TableField { path: &'a [u8], number: u64 },
    ColumnField { position: u64, path: &'a [u8], number: u64 },
}

use Question::{
    Check, Column, ColumnByName, ColumnField, ColumnKeyword, Description, Manager, PaddedView, PaddedViewPlanned,
    Place, PlaceInBucket, PlacePlanned, Plan, TableField, TableKeyword, View, ViewPlanned,
};

impl Question<'_> {
    /// The function's name.
    pub fn function(&self) -> &'static str {
        match self {
            Description => "hv_description",
            Column { .. } => "hv_column",
            Manager { .. } => "hv_manager",
            ColumnByName { .. } => "hv_column_by_name",
            Check { .. } => "hv_check",
            Plan { .. } => "hv_plan",
            Place { .. } => "hv_place",
            PlacePlanned { .. } => "hv_place_planned",
            PlaceInBucket { .. } => "hv_place_in_bucket",
            View { .. } => "hv_view",
            ViewPlanned { .. } => "hv_view_planned",
            PaddedView { .. } => "hv_padded_view",
            PaddedViewPlanned { .. } => "hv_padded_view_planned",
            TableKeyword { .. } => "hv_table_keyword",
            ColumnKeyword { .. } => "hv_column_keyword",
            TableField { .. } => "hv_table_field",
            ColumnField { .. } => "hv_column_field",
        }
    }

    /// How many numbers the answer has.
    pub fn answer_len(&self) -> usize {
        match self {
            Description => DESCRIPTION,
            Column { .. } => COLUMN,
            Manager { .. } => MANAGER,
            ColumnByName { .. } => POSITION,
            Check { .. } => CHECK,
            Plan { .. } => PLAN,
            Place { .. } | PlacePlanned { .. } => PLACE,
            PlaceInBucket { .. } => IN_BUCKET,
            View { .. } | ViewPlanned { .. } | PaddedView { .. } | PaddedViewPlanned { .. } => VIEW,
            TableKeyword { .. } | ColumnKeyword { .. } => KEYWORD,
            TableField { .. } | ColumnField { .. } => FIELD,
        }
    }

    /// What the function gives. The file and the room are not lent where the question is about table.dat alone.
    pub fn ask(&self, table: &[u8], file: &[u8], room: &mut [u8], out: &mut [u64]) -> u64 {
        let (t, t_len, f, f_len) = (table.as_ptr(), table.len(), file.as_ptr(), file.len());
        let (r, r_len, o, o_len) = (room.as_mut_ptr(), room.len(), out.as_mut_ptr(), out.len());
        // Every pointer is that of a slice, with the slice's length.
        let number = unsafe {
            match *self {
                Description => hv_description(t, t_len, o, o_len),
                Column { position } => hv_column(t, t_len, position, o, o_len),
                Manager { index } => hv_manager(t, t_len, index, o, o_len),
                ColumnByName { name } => hv_column_by_name(t, t_len, name.as_ptr(), name.len(), o, o_len),
                Check { sequence } => hv_check(t, t_len, f, f_len, sequence, r, r_len, o, o_len),
                Plan { position } => hv_plan(t, t_len, f, f_len, position, r, r_len, o, o_len),
                Place { row, position } => hv_place(t, t_len, f, f_len, row, position, r, r_len, o, o_len),
                PlacePlanned { row, plan } => {
                    hv_place_planned(t, t_len, f, f_len, row, plan.as_ptr(), plan.len(), r, r_len, o, o_len)
                }
                PlaceInBucket { row, position } => {
                    hv_place_in_bucket(t, t_len, f, f_len, row, position, r, r_len, o, o_len)
                }
                View { row, position } => hv_view(t, t_len, f, f_len, row, position, r, r_len, o, o_len),
                ViewPlanned { row, plan } => {
                    hv_view_planned(t, t_len, f, f_len, row, plan.as_ptr(), plan.len(), r, r_len, o, o_len)
                }
                PaddedView { row, position } => hv_padded_view(t, t_len, f, f_len, row, position, r, r_len, o, o_len),
                PaddedViewPlanned { row, plan } => {
                    hv_padded_view_planned(t, t_len, f, f_len, row, plan.as_ptr(), plan.len(), r, r_len, o, o_len)
                }
                TableKeyword { path } => hv_table_keyword(t, t_len, path.as_ptr(), path.len(), o, o_len),
                ColumnKeyword { position, path } => {
                    hv_column_keyword(t, t_len, position, path.as_ptr(), path.len(), o, o_len)
                }
                TableField { path, number } => hv_table_field(t, t_len, path.as_ptr(), path.len(), number, o, o_len),
                ColumnField { position, path, number } => {
                    hv_column_field(t, t_len, position, path.as_ptr(), path.len(), number, o, o_len)
                }
            }
        };
        number.into()
    }

    /// The answer's numbers, or the refusal.
    fn answer<const N: usize>(&self, table: &[u8], file: &[u8], room: &mut [u8]) -> Result<[u64; N], Refusal> {
        let mut out = [0xA5A5_A5A5_A5A5_A5A5; N];
        let number = self.ask(table, file, room, &mut out);
        let byte = out[N - 1];
        if number == 0 {
            assert_eq!(byte, 0, "an answer that is not refused carries no byte");
            return Ok(out);
        }
        assert!(out[..N - 1].iter().all(|&n| n == 0), "a refusal carries zeros");
        Err(Refusal { number, byte })
    }
}

pub fn description(table: &[u8]) -> Result<[u64; DESCRIPTION], Refusal> {
    Description.answer(table, &[], &mut [])
}

pub fn column(table: &[u8], position: u64) -> Result<[u64; COLUMN], Refusal> {
    Column { position }.answer(table, &[], &mut [])
}

pub fn manager(table: &[u8], index: u64) -> Result<[u64; MANAGER], Refusal> {
    Manager { index }.answer(table, &[], &mut [])
}

pub fn column_by_name(table: &[u8], name: &[u8]) -> Result<u64, Refusal> {
    ColumnByName { name }.answer(table, &[], &mut []).map(|[position, _]: [u64; POSITION]| position)
}

/// File check, for a manager's sequence number: the bucket size.
pub fn check(table: &[u8], file: &[u8], sequence: u64, room: &mut [u8]) -> Result<u64, Refusal> {
    Check { sequence }.answer(table, file, room).map(|[bucket_size, _]: [u64; CHECK]| bucket_size)
}

pub fn plan(table: &[u8], file: &[u8], position: u64, room: &mut [u8]) -> Result<[u64; PLAN_NUMBERS], Refusal> {
    let plan: [u64; PLAN] = Plan { position }.answer(table, file, room)?;
    let [numbers @ .., _] = plan;
    Ok(numbers)
}

type Placed = Result<[u64; PLACE], Refusal>;
type InBucket = Result<[u64; IN_BUCKET], Refusal>;
type Viewed = Result<[u64; VIEW], Refusal>;

/// A cell's first bit and its bit count, the looks of the search for it and the entries of its set.
pub fn place(table: &[u8], file: &[u8], row: u64, position: u64, room: &mut [u8]) -> Placed {
    Place { row, position }.answer(table, file, room)
}

/// The same for the plan's column.
pub fn place_planned(table: &[u8], file: &[u8], row: u64, plan: &[u64; PLAN_NUMBERS], room: &mut [u8]) -> Placed {
    PlacePlanned { row, plan }.answer(table, file, room)
}

/// A cell's first bit and its bit count in IncrementalStMan, and the file's bucket size; of the buckets the row's own is checked.
pub fn place_in_bucket(table: &[u8], file: &[u8], row: u64, position: u64, room: &mut [u8]) -> InBucket {
    PlaceInBucket { row, position }.answer(table, file, room)
}

/// Where the part of the file that holds a cell starts, and its length in bytes; of a padded String that of its text.
pub fn view(table: &[u8], file: &[u8], row: u64, position: u64, room: &mut [u8]) -> Viewed {
    View { row, position }.answer(table, file, room)
}

/// The same for the plan's column.
pub fn view_planned(table: &[u8], file: &[u8], row: u64, plan: &[u64; PLAN_NUMBERS], room: &mut [u8]) -> Viewed {
    ViewPlanned { row, plan }.answer(table, file, room)
}

/// Where a cell starts, and its length in bytes, padding and all.
pub fn padded_view(table: &[u8], file: &[u8], row: u64, position: u64, room: &mut [u8]) -> Viewed {
    PaddedView { row, position }.answer(table, file, room)
}

/// The same for the plan's column.
pub fn padded_view_planned(table: &[u8], file: &[u8], row: u64, plan: &[u64; PLAN_NUMBERS], room: &mut [u8]) -> Viewed {
    PaddedViewPlanned { row, plan }.answer(table, file, room)
}

type Keyword = Result<[u64; KEYWORD], Refusal>;
type Field = Result<[u64; FIELD], Refusal>;

/// The type number of a keyword of the table, and where its value starts, and its length in bytes.
pub fn table_keyword(table: &[u8], path: &[u8]) -> Keyword {
    TableKeyword { path }.answer(table, &[], &mut [])
}

/// The same of the column at a position.
pub fn column_keyword(table: &[u8], position: u64, path: &[u8]) -> Keyword {
    ColumnKeyword { position, path }.answer(table, &[], &mut [])
}

/// Where the name of a field starts, and its length; then the same as of a keyword. The field is that with this number in a
/// record of the table's keywords.
pub fn table_field(table: &[u8], path: &[u8], number: u64) -> Field {
    TableField { path, number }.answer(table, &[], &mut [])
}

/// The same of the column at a position.
pub fn column_field(table: &[u8], position: u64, path: &[u8], number: u64) -> Field {
    ColumnField { position, path, number }.answer(table, &[], &mut [])
}

/// The bits of an element, from the number of its type. It is so short that a call around it would count in `bench`.
#[inline]
pub fn element_bits(number: u64) -> u64 {
    // It is lent nothing.
    unsafe { hv_element_bits(number) }
}

#[cfg(test)]
mod tests {
    use super::*;

    const QUESTIONS: [Question<'static>; 17] = [
        Description,
        Column { position: 0 },
        Manager { index: 0 },
        ColumnByName { name: b"TIME" },
        TableKeyword { path: b"\0\0\0\x04UNIT" },
        ColumnKeyword { position: 0, path: b"\0\0\0\x04UNIT" },
        TableField { path: b"", number: 0 },
        ColumnField { position: 0, path: b"", number: 0 },
        Check { sequence: 0 },
        Plan { position: 0 },
        Place { row: 0, position: 0 },
        PlacePlanned { row: 0, plan: &[0; PLAN_NUMBERS] },
        PlaceInBucket { row: 0, position: 0 },
        View { row: 0, position: 0 },
        ViewPlanned { row: 0, plan: &[0; PLAN_NUMBERS] },
        PaddedView { row: 0, position: 0 },
        PaddedViewPlanned { row: 0, plan: &[0; PLAN_NUMBERS] },
    ];

    // A refusal writes zeros and the byte, as many numbers as the answer has or as fit, and clears the room.
    fn assert_refused(table: &[u8], number: u64, byte: u64) {
        for (k, question) in QUESTIONS.iter().enumerate() {
            for out_len in 0..20 {
                let (mut out, mut room) = ([7; 20], [7; 5]);
                assert_eq!(question.ask(table, &[], &mut room, &mut out[..out_len]), number, "{question:?}");
                let mut answer = vec![0; question.answer_len()];
                answer[question.answer_len() - 1] = byte;
                let mut expected = [7; 20];
                let written = out_len.min(answer.len());
                expected[..written].copy_from_slice(&answer[..written]);
                assert_eq!(out, expected, "{question:?}, {out_len}");
                assert_eq!(room, if k < 8 { [7; 5] } else { [0; 5] }, "{question:?}");
            }
        }
    }

    // The mark is at byte 0; after it the header's length, its name and its version.
    #[test]
    fn torn_table() {
        let header = b"\xBE\xBE\xBE\xBE\0\0\0\x11\0\0\0\x05Table\0\0\0\x02";
        for (length, byte) in [(0, 0), (3, 0), (4, 4), (7, 4), (8, 8), (16, 8), (17, 17), (20, 17), (21, 21)] {
            assert_refused(&header[..length], 1, byte);
        }
    }

    #[test]
    fn wrong_mark() {
        assert_refused(b"\xBE\xBE\xBE\xBF", 2, 0);
    }

    #[test]
    fn long_table() {
        assert_refused(&[0; 65_537], 4, 65_536);
    }

    // A plan of too few numbers: nothing is written, the room included.
    #[test]
    fn short_plan() {
        for plan_len in 0..PLAN_NUMBERS {
            let plan = &[0; PLAN_NUMBERS][..plan_len];
            for question in
                [PlacePlanned { row: 0, plan }, ViewPlanned { row: 0, plan }, PaddedViewPlanned { row: 0, plan }]
            {
                let (mut out, mut room) = ([7; 3], [7; 5]);
                let number = question.ask(&[], &[], &mut room, &mut out);
                assert_eq!((number, out, room), (SHORT, [7; 3], [7; 5]), "{question:?}");
            }
        }
    }
}
