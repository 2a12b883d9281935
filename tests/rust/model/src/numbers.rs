//! The answers as runs of numbers, in the order of include/helvidrane.h. The last
//! number of each is the byte that a refusal blames.

use crate::keywords::{self, Field, Keyword, Scope};
use crate::question::{self, InBucket, Placed, Plan};
use crate::refusal::{NO_SUCH, Refusal};
use crate::table::{self, Kind, describe};
use std::ops::Range;

/// The byte of an answer that is not refused.
const NO_BYTE: u64 = 0;

/// What is written for an answer: its numbers, or zeros and the byte.
pub fn written<const N: usize>(answer: Result<[u64; N], Refusal>) -> [u64; N] {
    answer.unwrap_or_else(|refusal| {
        let mut numbers = [0; N];
        numbers[N - 1] = refusal.byte;
        numbers
    })
}

/// Row count, byte order (1: big endian), columns, managers.
pub fn description(table: &[u8]) -> Result<[u64; 5], Refusal> {
    let description = describe(table)?;
    Ok([
        description.rows,
        description.byte_order.is_big().into(),
        description.columns.len() as u64,
        description.managers.len() as u64,
        NO_BYTE,
    ])
}

/// Name start and length, data type, array, options, elements, string maximum,
/// cell bits, sequence number, set, offset of the column at a position.
pub fn column(table: &[u8], position: u64) -> Result<[u64; 12], Refusal> {
    let description = describe(table)?;
    let column = at(&description.columns, position)?;
    let [start, length] = place_in(table, column.name);
    Ok([
        start,
        length,
        column.data_type.number() as u64,
        column.is_array.into(),
        column.options as u64,
        column.elements.into(),
        column.string_maximum.into(),
        column.cell_bits.into(),
        column.manager.into(),
        column.set,
        column.offset,
        NO_BYTE,
    ])
}

/// Sequence number, kind, name start and length of the manager at an index.
pub fn manager(table: &[u8], index: u64) -> Result<[u64; 5], Refusal> {
    let description = describe(table)?;
    let manager = at(&description.managers, index)?;
    let kind = match manager.kind {
        Kind::Other => 0,
        Kind::Standard => 1,
        Kind::Incremental => 2,
    };
    let [start, length] = place_in(table, manager.name);
    Ok([manager.number.into(), kind, start, length, NO_BYTE])
}

/// The position of the column with this name.
pub fn column_by_name(table: &[u8], name: &[u8]) -> Result<[u64; 2], Refusal> {
    Ok([table::column(table, name)? as u64, NO_BYTE])
}

/// The bucket size of the file of the manager with this sequence number.
pub fn check(
    table: &[u8],
    file: &[u8],
    sequence: u64,
    room: &mut [u8],
) -> Result<[u64; 2], Refusal> {
    let (_, bucket_size) = question::check_file(table, sequence, file, room)?;
    Ok([bucket_size, NO_BYTE])
}

/// The plan of the column at a position.
pub fn plan(
    table: &[u8],
    file: &[u8],
    position: u64,
    room: &mut [u8],
) -> Result<[u64; 10], Refusal> {
    let mut numbers = [NO_BYTE; 10];
    numbers[..9].copy_from_slice(&question::plan(table, file, position, room)?.numbers());
    Ok(numbers)
}

/// First bit and bit count of a cell, looks, and entries of its set.
pub fn place(
    table: &[u8],
    file: &[u8],
    row: u64,
    position: u64,
    room: &mut [u8],
) -> Result<[u64; 5], Refusal> {
    question::place(table, file, row, position, room).map(placed)
}

/// The same for the plan's column.
pub fn place_planned(
    table: &[u8],
    file: &[u8],
    row: u64,
    plan: [u64; 9],
    room: &mut [u8],
) -> Result<[u64; 5], Refusal> {
    question::place_by_plan(table, file, row, &Plan::of(plan), room).map(placed)
}

/// First bit and bit count of a cell, and bucket size, where only the row's own
/// bucket is checked.
pub fn place_in_bucket(
    table: &[u8],
    file: &[u8],
    row: u64,
    position: u64,
    room: &mut [u8],
) -> Result<[u64; 4], Refusal> {
    let InBucket { first_bit, bit_count, bucket_size } =
        question::place_in_bucket(table, file, row, position, room)?;
    Ok([first_bit, bit_count, bucket_size, NO_BYTE])
}

/// Start and length, in bytes, of the part of the file that holds a cell; of a
/// String scalar with a maximum, only of the text before its first zero byte.
pub fn view(
    table: &[u8],
    file: &[u8],
    row: u64,
    position: u64,
    room: &mut [u8],
) -> Result<[u64; 3], Refusal> {
    question::view_range(table, file, row, position, room).map(start_and_length)
}

/// The same for the plan's column.
pub fn view_planned(
    table: &[u8],
    file: &[u8],
    row: u64,
    plan: [u64; 9],
    room: &mut [u8],
) -> Result<[u64; 3], Refusal> {
    question::view_range_by_plan(table, file, row, &Plan::of(plan), room).map(start_and_length)
}

/// Start and length, in bytes, of the part of the file that holds a whole cell.
pub fn padded_view(
    table: &[u8],
    file: &[u8],
    row: u64,
    position: u64,
    room: &mut [u8],
) -> Result<[u64; 3], Refusal> {
    question::padded_range(table, file, row, position, room).map(start_and_length)
}

/// The same for the plan's column.
pub fn padded_view_planned(
    table: &[u8],
    file: &[u8],
    row: u64,
    plan: [u64; 9],
    room: &mut [u8],
) -> Result<[u64; 3], Refusal> {
    question::padded_range_by_plan(table, file, row, &Plan::of(plan), room).map(start_and_length)
}

/// Type number of a keyword of the table, and start and length of its value.
pub fn table_keyword(table: &[u8], path: &[u8]) -> Result<[u64; 4], Refusal> {
    keyword(table, Scope::Table, path)
}

/// The same of a keyword of the column at a position.
pub fn column_keyword(table: &[u8], position: u64, path: &[u8]) -> Result<[u64; 4], Refusal> {
    keyword(table, Scope::Column(position), path)
}

/// Name start and length, type number, start and length of the value of the field
/// with this number, in the table's keywords or in a record among them.
pub fn table_field(table: &[u8], path: &[u8], number: u64) -> Result<[u64; 6], Refusal> {
    field(table, Scope::Table, path, number)
}

/// The same of the keywords of the column at a position.
pub fn column_field(
    table: &[u8],
    position: u64,
    path: &[u8],
    number: u64,
) -> Result<[u64; 6], Refusal> {
    field(table, Scope::Column(position), path, number)
}

/// The bits of an element of the type with this number, whose 64 bits are taken
/// as signed.
pub fn element_bits(number: u64) -> u64 {
    crate::element_bits(number as i64)
}

/// What stands at a place that may be any 64-bit number.
fn at<T>(items: &[T], index: u64) -> Result<&T, Refusal> {
    usize::try_from(index).ok().and_then(|index| items.get(index)).ok_or(NO_SUCH)
}

/// Where a part of the table's bytes begins in them, and its length.
fn place_in(table: &[u8], part: &[u8]) -> [u64; 2] {
    let start = part.as_ptr().addr() - table.as_ptr().addr();
    [start as u64, part.len() as u64]
}

fn keyword(table: &[u8], scope: Scope, path: &[u8]) -> Result<[u64; 4], Refusal> {
    let Keyword { data_type, part } = keywords::keyword(table, scope, path)?;
    let [start, length, _] = start_and_length(part);
    Ok([data_type.into(), start, length, NO_BYTE])
}

fn field(table: &[u8], scope: Scope, path: &[u8], number: u64) -> Result<[u64; 6], Refusal> {
    let Field { name, value } = keywords::field(table, scope, path, number)?;
    let [name, name_length, _] = start_and_length(name);
    let [start, length, _] = start_and_length(value.part);
    Ok([name, name_length, value.data_type.into(), start, length, NO_BYTE])
}

fn placed(placed: Placed) -> [u64; 5] {
    [placed.first_bit, placed.bit_count, placed.looks, placed.entries, NO_BYTE]
}

fn start_and_length(range: Range<usize>) -> [u64; 3] {
    [range.start as u64, range.len() as u64, NO_BYTE]
}
