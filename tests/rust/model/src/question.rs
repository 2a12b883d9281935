//! The questions File check, Plan, Place, Place in one bucket, View and Padded
//! view: RULES.md 7.
//!
//! Each is lent an index room. After a refusal it is all zero, and for
//! IncrementalStMan always; after acceptance in StandardStMan it holds the
//! index text, then zeros.

use crate::data_type::DataType;
use crate::incremental::IncrementalFile;
use crate::refusal::{BOOL_VIEW, NO_ROW, NO_SUCH, Refusal, STALE_PLAN};
use crate::standard::StandardFile;
use crate::table::{Column, Description, Kind, Manager, describe};
use std::ops::Range;

/// What places the cells of a column, but for the rows' buckets.
#[derive(Clone, Copy, Debug, PartialEq, Eq)]
pub struct Plan {
    /// The column's position.
    pub position: u64,
    /// The sequence number of the column's manager.
    pub manager: u64,
    /// The number of the data type.
    pub data_type: u64,
    pub elements: u64,
    /// In IncrementalStMan, whole bytes.
    pub cell_bits: u64,
    /// 0 in IncrementalStMan, as the next two.
    pub set: u64,
    pub offset: u64,
    pub rows_per_bucket: u64,
    pub bucket_size: u64,
}

impl Plan {
    /// The plan with these numbers, in the order of its fields.
    pub fn of(numbers: [u64; 9]) -> Self {
        let [position, manager, data_type, elements, cell_bits, set, offset, rows_per_bucket, size] =
            numbers;
        Self {
            position,
            manager,
            data_type,
            elements,
            cell_bits,
            set,
            offset,
            rows_per_bucket,
            bucket_size: size,
        }
    }

    /// Its numbers, in the order of its fields.
    pub fn numbers(&self) -> [u64; 9] {
        [
            self.position,
            self.manager,
            self.data_type,
            self.elements,
            self.cell_bits,
            self.set,
            self.offset,
            self.rows_per_bucket,
            self.bucket_size,
        ]
    }
}

/// The answer of Place.
#[derive(Clone, Copy, Debug, PartialEq, Eq)]
pub struct Placed {
    /// Counted from the file's start.
    pub first_bit: u64,
    pub bit_count: u64,
    /// How many last rows the search for the row's entry looked at, those of
    /// the check not counted; 0 in IncrementalStMan, as the next.
    pub looks: u64,
    /// How many entries the column's set has.
    pub entries: u64,
}

/// The answer of Place in one bucket.
#[derive(Clone, Copy, Debug, PartialEq, Eq)]
pub struct InBucket {
    /// Counted from the file's start.
    pub first_bit: u64,
    pub bit_count: u64,
    pub bucket_size: u64,
}

/// Checks the file of the manager with this sequence number; gives its kind.
pub fn check(table: &[u8], number: u64, file: &[u8], room: &mut [u8]) -> Result<Kind, Refusal> {
    Ok(check_file(table, number, file, room)?.0)
}

/// The kind of the manager, and the bucket size of its file.
pub(crate) fn check_file(
    table: &[u8],
    number: u64,
    file: &[u8],
    room: &mut [u8],
) -> Result<(Kind, u64), Refusal> {
    zero_if_refused(room, |room| {
        let description = describe(table)?;
        let mut managers = description.managers.iter();
        let manager =
            managers.find(|manager| u64::from(manager.number) == number).ok_or(NO_SUCH)?;
        let file = File::check(&description, manager, file, room)?;
        Ok((manager.kind, file.bucket_size() as u64))
    })
}

/// The plan of the column at this position.
pub fn plan(table: &[u8], file: &[u8], position: u64, room: &mut [u8]) -> Result<Plan, Refusal> {
    ask(table, file, position, room, |asked| Ok(asked.plan()))
}

/// A cell's bits, and the looks of the search for them.
pub fn place(
    table: &[u8],
    file: &[u8],
    row: u64,
    position: u64,
    room: &mut [u8],
) -> Result<Placed, Refusal> {
    ask(table, file, position, room, |asked| asked.place(row))
}

/// The same for the plan's column, if the plan is the one that the files give.
pub fn place_by_plan(
    table: &[u8],
    file: &[u8],
    row: u64,
    plan: &Plan,
    room: &mut [u8],
) -> Result<Placed, Refusal> {
    ask(table, file, plan.position, room, |asked| {
        asked.expect_plan(plan)?;
        asked.place(row)
    })
}

/// A cell's bits in IncrementalStMan, where of all buckets only the row's own is
/// checked; the row comes before it.
pub fn place_in_bucket(
    table: &[u8],
    file: &[u8],
    row: u64,
    position: u64,
    room: &mut [u8],
) -> Result<InBucket, Refusal> {
    room.fill(0);
    let description = describe(table)?;
    let target = Target::new(&description, position)?;
    if target.manager.kind != Kind::Incremental {
        return Err(NO_SUCH);
    }
    let number = target.manager.number;
    let file = IncrementalFile::check_but_buckets(&description, number, file)?;
    target.expect_row(row)?;
    let first_bit = file.checked_first_bit(target.number_in_manager(), row)?;
    let (bit_count, bucket_size) = (target.cell_bits(), file.bucket_size() as u64);
    Ok(InBucket { first_bit, bit_count, bucket_size })
}

/// The part of the file that holds a cell; of a String scalar with a maximum, only
/// the text before its first zero byte.
pub fn view<'a>(
    table: &[u8],
    file: &'a [u8],
    row: u64,
    position: u64,
    room: &mut [u8],
) -> Result<&'a [u8], Refusal> {
    Ok(&file[view_range(table, file, row, position, room)?])
}

/// The same for the plan's column, if the plan is the one that the files give.
pub fn view_by_plan<'a>(
    table: &[u8],
    file: &'a [u8],
    row: u64,
    plan: &Plan,
    room: &mut [u8],
) -> Result<&'a [u8], Refusal> {
    Ok(&file[view_range_by_plan(table, file, row, plan, room)?])
}

/// The part of the file that holds a whole cell.
pub fn padded_view<'a>(
    table: &[u8],
    file: &'a [u8],
    row: u64,
    position: u64,
    room: &mut [u8],
) -> Result<&'a [u8], Refusal> {
    Ok(&file[padded_range(table, file, row, position, room)?])
}

/// The same for the plan's column, if the plan is the one that the files give.
pub fn padded_view_by_plan<'a>(
    table: &[u8],
    file: &'a [u8],
    row: u64,
    plan: &Plan,
    room: &mut [u8],
) -> Result<&'a [u8], Refusal> {
    Ok(&file[padded_range_by_plan(table, file, row, plan, room)?])
}

/// Where the part that [`view`] gives stands in the file.
pub(crate) fn view_range(
    table: &[u8],
    file: &[u8],
    row: u64,
    position: u64,
    room: &mut [u8],
) -> Result<Range<usize>, Refusal> {
    ask(table, file, position, room, |asked| asked.view(file, row))
}

/// Where the part that [`view_by_plan`] gives stands in the file.
pub(crate) fn view_range_by_plan(
    table: &[u8],
    file: &[u8],
    row: u64,
    plan: &Plan,
    room: &mut [u8],
) -> Result<Range<usize>, Refusal> {
    ask(table, file, plan.position, room, |asked| {
        asked.expect_plan(plan)?;
        asked.view(file, row)
    })
}

/// Where the part that [`padded_view`] gives stands in the file.
pub(crate) fn padded_range(
    table: &[u8],
    file: &[u8],
    row: u64,
    position: u64,
    room: &mut [u8],
) -> Result<Range<usize>, Refusal> {
    ask(table, file, position, room, |asked| asked.padded_view(row))
}

/// Where the part that [`padded_view_by_plan`] gives stands in the file.
pub(crate) fn padded_range_by_plan(
    table: &[u8],
    file: &[u8],
    row: u64,
    plan: &Plan,
    room: &mut [u8],
) -> Result<Range<usize>, Refusal> {
    ask(table, file, plan.position, room, |asked| {
        asked.expect_plan(plan)?;
        asked.padded_view(row)
    })
}

/// The room is all zero after every refusal.
fn zero_if_refused<T>(
    room: &mut [u8],
    question: impl FnOnce(&mut [u8]) -> Result<T, Refusal>,
) -> Result<T, Refusal> {
    let answer = question(room);
    if answer.is_err() {
        room.fill(0);
    }
    answer
}

/// Answers a question about a column, after the table, the column and the file
/// of its manager were checked.
fn ask<T>(
    table: &[u8],
    file: &[u8],
    position: u64,
    room: &mut [u8],
    question: impl FnOnce(&Asked<'_>) -> Result<T, Refusal>,
) -> Result<T, Refusal> {
    zero_if_refused(room, |room| {
        let description = describe(table)?;
        let target = Target::new(&description, position)?;
        let file = File::check(&description, target.manager, file, room)?;
        question(&Asked { target, file })
    })
}

/// A column that is asked about, and its manager.
struct Target<'a> {
    description: &'a Description<'a>,
    position: usize,
    column: &'a Column<'a>,
    manager: &'a Manager<'a>,
}

impl<'a> Target<'a> {
    /// The column at this position, if cells of its type have places.
    fn new(description: &'a Description<'a>, position: u64) -> Result<Self, Refusal> {
        let position = usize::try_from(position).map_err(|_| NO_SUCH)?;
        let column = description.columns.get(position).ok_or(NO_SUCH)?;
        let mut managers = description.managers.iter();
        let manager = managers.find(|manager| manager.number == column.manager).ok_or(NO_SUCH)?;
        if manager.kind == Kind::Incremental && column.data_type == DataType::String {
            return Err(NO_SUCH);
        }
        Ok(Self { description, position, column, manager })
    }

    /// How many columns of the manager come before it.
    fn number_in_manager(&self) -> usize {
        let earlier = &self.description.columns[..self.position];
        earlier.iter().filter(|column| column.manager == self.manager.number).count()
    }

    /// In IncrementalStMan, cells take whole bytes.
    fn cell_bits(&self) -> u64 {
        let bits = u64::from(self.column.cell_bits);
        match self.manager.kind {
            Kind::Incremental => bits.next_multiple_of(8),
            _ => bits,
        }
    }

    /// Whether a cell may have padding: a String scalar with a maximum. In
    /// IncrementalStMan no String has a place.
    fn is_padded(&self) -> bool {
        let column = self.column;
        column.data_type == DataType::String && !column.is_array && column.string_maximum > 0
    }

    fn expect_row(&self, row: u64) -> Result<(), Refusal> {
        if row >= self.description.rows {
            return Err(NO_ROW);
        }
        Ok(())
    }
}

/// A file that was checked.
enum File<'a> {
    Standard(StandardFile<'a>),
    Incremental(IncrementalFile<'a>),
}

impl<'a> File<'a> {
    fn check(
        description: &Description<'_>,
        manager: &Manager<'_>,
        file: &'a [u8],
        room: &'a mut [u8],
    ) -> Result<Self, Refusal> {
        let number = manager.number;
        Ok(match manager.kind {
            Kind::Standard => Self::Standard(StandardFile::check(description, number, file, room)?),
            Kind::Incremental => {
                room.fill(0);
                Self::Incremental(IncrementalFile::check(description, number, file)?)
            }
            Kind::Other => return Err(NO_SUCH),
        })
    }

    fn bucket_size(&self) -> usize {
        match self {
            Self::Standard(file) => file.bucket_size(),
            Self::Incremental(file) => file.bucket_size(),
        }
    }
}

/// A column that is asked about, and its manager's file.
struct Asked<'a> {
    target: Target<'a>,
    file: File<'a>,
}

impl Asked<'_> {
    fn plan(&self) -> Plan {
        let column = self.target.column;
        let (set, offset, rows_per_bucket) = match &self.file {
            File::Standard(file) => (column.set, column.offset, file.rows_per_bucket(column.set)),
            File::Incremental(_) => (0, 0, 0),
        };
        Plan {
            position: self.target.position as u64,
            manager: column.manager.into(),
            data_type: column.data_type.number() as u64,
            elements: column.elements.into(),
            cell_bits: self.target.cell_bits(),
            set,
            offset,
            rows_per_bucket: rows_per_bucket.into(),
            bucket_size: self.file.bucket_size() as u64,
        }
    }

    fn expect_plan(&self, plan: &Plan) -> Result<(), Refusal> {
        if *plan != self.plan() {
            return Err(STALE_PLAN);
        }
        Ok(())
    }

    fn place(&self, row: u64) -> Result<Placed, Refusal> {
        self.target.expect_row(row)?;
        let column = self.target.column;
        let set = column.set;
        let (first_bit, looks, entries) = match &self.file {
            File::Standard(file) => {
                (file.first_bit(column, row), file.looks(set, row), file.entries(set))
            }
            File::Incremental(file) => (file.first_bit(self.target.number_in_manager(), row), 0, 0),
        };
        Ok(Placed { first_bit, bit_count: self.target.cell_bits(), looks, entries })
    }

    /// The bytes of a cell; of a text with padding, those before the padding.
    fn view(&self, file: &[u8], row: u64) -> Result<Range<usize>, Refusal> {
        let cell = self.padded_view(row)?;
        if !self.target.is_padded() {
            return Ok(cell);
        }
        let length = text_length(&file[cell.clone()]);
        Ok(cell.start..cell.start + length)
    }

    /// The bytes of a whole cell.
    fn padded_view(&self, row: u64) -> Result<Range<usize>, Refusal> {
        let Placed { first_bit, bit_count, .. } = self.place(row)?;
        if matches!(self.file, File::Standard(_)) && self.target.column.data_type == DataType::Bool
        {
            return Err(BOOL_VIEW);
        }
        let start = (first_bit / 8) as usize;
        Ok(start..start + (bit_count / 8) as usize)
    }
}

/// How many bytes of a cell stand before its first zero byte; all of them if
/// there is none.
fn text_length(cell: &[u8]) -> usize {
    cell.iter().take_while(|byte| **byte != 0).count()
}
