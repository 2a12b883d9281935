//! Answers to request lines: one question a line, its fields separated by one
//! space, bytes in lower-case hex, numbers in decimal digits.

use crate::keywords::{self, Field, Keyword, Scope};
use crate::question::{self, InBucket, Placed, Plan};
use crate::refusal::Refusal;
use crate::table::{Description, Kind, column, describe};
use crate::{element_bits, hex, listing};
use std::fmt::Write;
use std::ops::Range;

/// The longest room that is lent.
const MAX_ROOM: u64 = 1_048_576;
/// What the room is filled with before a question.
const ROOM_FILL: u8 = 0xA5;

/// The answer line to one request line, both without their newline.
pub fn answer(line: &str) -> String {
    answer_request(line).unwrap_or_else(|| "bad request".to_string())
}

/// None if the line is no request.
fn answer_request(line: &str) -> Option<String> {
    let fields: Vec<&str> = line.split(' ').collect();
    Some(match fields[..] {
        ["describe", table] => describe_line(describe(&hex::decode(table)?)),
        ["column", table, name] => column_line(column(&hex::decode(table)?, &hex::decode(name)?)),
        ["listing", table] => hex::encode(&listing(&hex::decode(table)?)),
        ["check", table, manager, file, room] => {
            let (table, file) = (hex::decode(table)?, hex::decode(file)?);
            let (manager, mut room) = (number(manager)?, lent(room)?);
            let answer = question::check(&table, manager, &file, &mut room);
            room_line(answer.map(kind_name), &room)
        }
        ["plan", table, file, position, room] => {
            let (table, file) = (hex::decode(table)?, hex::decode(file)?);
            let (position, mut room) = (number(position)?, lent(room)?);
            let answer = question::plan(&table, &file, position, &mut room);
            room_line(answer.map(plan_text), &room)
        }
        ["place", table, file, row, position, room] => {
            let (table, file) = (hex::decode(table)?, hex::decode(file)?);
            let (row, position, mut room) = (number(row)?, number(position)?, lent(room)?);
            let answer = question::place(&table, &file, row, position, &mut room);
            room_line(answer.map(place_text), &room)
        }
        ["placeplan", table, file, row, plan, room] => {
            let (table, file) = (hex::decode(table)?, hex::decode(file)?);
            let (row, plan, mut room) = (number(row)?, plan_of(plan)?, lent(room)?);
            let answer = question::place_by_plan(&table, &file, row, &plan, &mut room);
            room_line(answer.map(place_text), &room)
        }
        ["place1", table, file, row, position, room] => {
            let (table, file) = (hex::decode(table)?, hex::decode(file)?);
            let (row, position, mut room) = (number(row)?, number(position)?, lent(room)?);
            let answer = question::place_in_bucket(&table, &file, row, position, &mut room);
            room_line(answer.map(in_bucket_text), &room)
        }
        ["view", table, file, row, position, room] => {
            let (table, file) = (hex::decode(table)?, hex::decode(file)?);
            let (row, position, mut room) = (number(row)?, number(position)?, lent(room)?);
            let answer = question::view_range(&table, &file, row, position, &mut room);
            room_line(answer.map(range_text), &room)
        }
        ["viewplan", table, file, row, plan, room] => {
            let (table, file) = (hex::decode(table)?, hex::decode(file)?);
            let (row, plan, mut room) = (number(row)?, plan_of(plan)?, lent(room)?);
            let answer = question::view_range_by_plan(&table, &file, row, &plan, &mut room);
            room_line(answer.map(range_text), &room)
        }
        ["padded", table, file, row, position, room] => {
            let (table, file) = (hex::decode(table)?, hex::decode(file)?);
            let (row, position, mut room) = (number(row)?, number(position)?, lent(room)?);
            let answer = question::padded_range(&table, &file, row, position, &mut room);
            room_line(answer.map(range_text), &room)
        }
        ["paddedplan", table, file, row, plan, room] => {
            let (table, file) = (hex::decode(table)?, hex::decode(file)?);
            let (row, plan, mut room) = (number(row)?, plan_of(plan)?, lent(room)?);
            let answer = question::padded_range_by_plan(&table, &file, row, &plan, &mut room);
            room_line(answer.map(range_text), &room)
        }
        ["keyword", table, scope, path] => {
            let (table, scope, path) = (hex::decode(table)?, scope_of(scope)?, hex::decode(path)?);
            keyword_line(keywords::keyword(&table, scope, &path).map(keyword_text))
        }
        ["field", table, scope, path, index] => {
            let (table, scope, path) = (hex::decode(table)?, scope_of(scope)?, hex::decode(path)?);
            let answer = keywords::field(&table, scope, &path, number(index)?);
            keyword_line(answer.map(field_text))
        }
        ["elementbits", data_type] => format!("ok {}", element_bits(signed(data_type)?)),
        _ => return None,
    })
}

/// A number: decimal digits alone, up to 64 bits.
fn number(field: &str) -> Option<u64> {
    if !field.bytes().all(|digit| digit.is_ascii_digit()) {
        return None;
    }
    field.parse().ok()
}

/// A number that may have a `-` before its digits, of 64 bits with the sign.
fn signed(field: &str) -> Option<i64> {
    let digits = field.strip_prefix('-').unwrap_or(field);
    if !digits.bytes().all(|digit| digit.is_ascii_digit()) {
        return None;
    }
    field.parse().ok()
}

/// The room of the asked length, filled.
fn lent(field: &str) -> Option<Vec<u8>> {
    let length = number(field).filter(|length| *length <= MAX_ROOM)?;
    Some(vec![ROOM_FILL; length as usize])
}

/// A plan: its nine fields in the order of RULES.md 7.4.
fn plan_of(field: &str) -> Option<Plan> {
    let fields: Vec<u64> = field.split(',').map(number).collect::<Option<_>>()?;
    fields.try_into().ok().map(Plan::of)
}

/// `table`, or the position of a column.
fn scope_of(field: &str) -> Option<Scope> {
    if field == "table" {
        return Some(Scope::Table);
    }
    number(field).map(Scope::Column)
}

fn plan_text(plan: Plan) -> String {
    plan.numbers().map(|number| number.to_string()).join(",")
}

fn kind_name(kind: Kind) -> String {
    match kind {
        Kind::Standard => "SSM",
        Kind::Incremental => "ISM",
        Kind::Other => unreachable!("a file of another kind is refused"),
    }
    .to_string()
}

/// The entries of a set are no part of a line.
fn place_text(placed: Placed) -> String {
    format!("{} {} {}", placed.first_bit, placed.bit_count, placed.looks)
}

/// The bucket size is no part of a line.
fn in_bucket_text(placed: InBucket) -> String {
    format!("{} {}", placed.first_bit, placed.bit_count)
}

/// A part's start in its file and its length.
fn range_text(range: Range<usize>) -> String {
    format!("{} {}", range.start, range.len())
}

/// A keyword's type number, and its part's start and length.
fn keyword_text(keyword: Keyword) -> String {
    format!("{} {}", keyword.data_type, range_text(keyword.part))
}

/// The start and length of a field's name, then the same of its value.
fn field_text(field: Field) -> String {
    format!("{} {}", range_text(field.name), keyword_text(field.value))
}

/// An answer, then the room's bytes.
fn room_line(answer: Result<String, Refusal>, room: &[u8]) -> String {
    let mut line = answer.map_or_else(refused, |answer| format!("ok {answer}"));
    line.push(' ');
    hex::encode_to(&mut line, room);
    line
}

fn describe_line(answer: Result<Description<'_>, Refusal>) -> String {
    let description = match answer {
        Ok(description) => description,
        Err(refusal) => return refused(refusal),
    };
    let mut line = String::new();
    write_description(&mut line, &description).expect("writing to memory succeeds");
    line
}

fn write_description(line: &mut String, description: &Description<'_>) -> std::fmt::Result {
    write!(
        line,
        "ok rows={} be={} cols=[",
        description.rows,
        u8::from(description.byte_order.is_big())
    )?;
    for (position, column) in description.columns.iter().enumerate() {
        if position > 0 {
            line.push(';');
        }
        hex::encode_to(line, column.name);
        let data_type = column.data_type.name();
        write!(line, ",{data_type},{},{},{}", column.elements, column.manager, column.cell_bits)?;
    }
    line.push_str("] dms=[");
    for (position, manager) in description.managers.iter().enumerate() {
        if position > 0 {
            line.push(';');
        }
        write!(line, "{},", manager.number)?;
        hex::encode_to(line, manager.name);
    }
    line.push(']');
    Ok(())
}

fn column_line(answer: Result<usize, Refusal>) -> String {
    answer.map_or_else(refused, |position| format!("ok {position}"))
}

fn keyword_line(answer: Result<String, Refusal>) -> String {
    answer.map_or_else(refused, |answer| format!("ok {answer}"))
}

fn refused(refusal: Refusal) -> String {
    refusal.to_string()
}
