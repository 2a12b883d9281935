//! Answers request lines with the proved library. The listing is what the proved program prints; HELVIDRANE_LISTING names it.

use library::fields::{bytes, hex, number, signed};
use library::{Refusal, FIELD, IN_BUCKET, KEYWORD, PLACE, PLAN_NUMBERS, VIEW};
use std::fmt::Write as _;
use std::io::{self, BufRead, BufWriter, Write};
use std::process::{Command, Stdio};

const NAMES: [(u64, &str); 12] = [
    (0, "Bool"),
    (2, "uChar"),
    (3, "Short"),
    (4, "uShort"),
    (5, "Int"),
    (6, "uInt"),
    (7, "float"),
    (8, "double"),
    (9, "Complex"),
    (10, "DComplex"),
    (11, "String"),
    (29, "Int64"),
];

/// The longest room that is lent, and what it is filled with before a question.
const MAX_ROOM: u64 = 1_048_576;
const ROOM_FILL: u8 = 0xA5;

fn lent(field: &str) -> Option<Vec<u8>> {
    number(field).filter(|len| *len <= MAX_ROOM).map(|len| vec![ROOM_FILL; len as usize])
}

fn part(table: &[u8], start: u64, len: u64) -> &[u8] {
    &table[start as usize..(start + len) as usize]
}

fn describe(table: &[u8]) -> Result<String, Refusal> {
    let [rows, big, columns, managers, _] = library::description(table)?;
    let mut text = format!("ok rows={rows} be={big} cols=[");
    for position in 0..columns {
        let c = library::column(table, position)?;
        let name = NAMES.iter().find(|(number, _)| *number == c[2]).map_or("?", |(_, name)| name);
        let separator = if position > 0 { ";" } else { "" };
        let _ = write!(text, "{separator}{},{name},{},{},{}", hex(part(table, c[0], c[1])), c[5], c[8], c[7]);
    }
    text.push_str("] dms=[");
    for index in 0..managers {
        let m = library::manager(table, index)?;
        let separator = if index > 0 { ";" } else { "" };
        let _ = write!(text, "{separator}{},{}", m[0], hex(part(table, m[2], m[3])));
    }
    text.push(']');
    Ok(text)
}

fn listing(program: &str, table: &[u8]) -> io::Result<Vec<u8>> {
    let mut child = Command::new(program).stdin(Stdio::piped()).stdout(Stdio::piped()).spawn()?;
    let mut input = child.stdin.take().expect("a piped input");
    // The program stops reading after 65,537 bytes: a longer table breaks the pipe, which is no fault.
    match input.write_all(table) {
        Err(e) if e.kind() != io::ErrorKind::BrokenPipe => return Err(e),
        _ => drop(input),
    }
    Ok(child.wait_with_output()?.stdout)
}

/// The kind of the manager that a check accepted.
fn kind(table: &[u8], sequence: u64) -> Result<&'static str, Refusal> {
    let [_, _, _, managers, _] = library::description(table)?;
    for index in 0..managers {
        let m = library::manager(table, index)?;
        if m[0] == sequence {
            return Ok(if m[1] == 1 { "SSM" } else { "ISM" });
        }
    }
    unreachable!("an accepted check is of a manager of the table")
}

fn check(table: &str, sequence: &str, file: &str, room: &str) -> Option<String> {
    let (table, sequence, file, mut room) = (bytes(table)?, number(sequence)?, bytes(file)?, lent(room)?);
    let answer = library::check(&table, &file, sequence, &mut room).and_then(|_| kind(&table, sequence));
    Some(with_room(answer.map(str::to_string), &room))
}

fn plan(table: &str, file: &str, position: &str, room: &str) -> Option<String> {
    let (table, file, position, mut room) = (bytes(table)?, bytes(file)?, number(position)?, lent(room)?);
    let answer = library::plan(&table, &file, position, &mut room);
    Some(with_room(answer.map(|plan| plan.map(|n| n.to_string()).join(",")), &room))
}

/// Nine numbers.
fn plan_of(field: &str) -> Option<[u64; PLAN_NUMBERS]> {
    field.split(',').map(number).collect::<Option<Vec<u64>>>()?.try_into().ok()
}

/// Place and View: the question about a row and a position or a plan, and the answer in a line.
fn cell<T, const N: usize>(
    [table, file, row, room]: [&str; 4],
    of: Option<T>,
    ask: fn(&[u8], &[u8], u64, T, &mut [u8]) -> Result<[u64; N], Refusal>,
    text: fn([u64; N]) -> String,
) -> Option<String> {
    let (table, file, row, mut room) = (bytes(table)?, bytes(file)?, number(row)?, lent(room)?);
    let answer = ask(&table, &file, row, of?, &mut room);
    Some(with_room(answer.map(text), &room))
}

/// A line does not have the entries.
fn place_text([first, count, looks, ..]: [u64; PLACE]) -> String {
    format!("{first} {count} {looks}")
}

/// Nor the bucket size.
fn in_bucket_text([first, count, ..]: [u64; IN_BUCKET]) -> String {
    format!("{first} {count}")
}

fn view_text([start, length, _]: [u64; VIEW]) -> String {
    format!("{start} {length}")
}

/// `table`, or the position of a column.
enum Scope {
    Table,
    Column(u64),
}

fn scope_of(field: &str) -> Option<Scope> {
    if field == "table" {
        return Some(Scope::Table);
    }
    number(field).map(Scope::Column)
}

fn keyword(table: &str, scope: &str, path: &str) -> Option<String> {
    let (table, scope, path) = (bytes(table)?, scope_of(scope)?, bytes(path)?);
    let answer = match scope {
        Scope::Table => library::table_keyword(&table, &path),
        Scope::Column(position) => library::column_keyword(&table, position, &path),
    };
    Some(answer.map_or_else(refused, |[data_type, start, length, _]: [u64; KEYWORD]| {
        format!("ok {data_type} {start} {length}")
    }))
}

fn field(table: &str, scope: &str, path: &str, index: &str) -> Option<String> {
    let (table, scope, path, index) = (bytes(table)?, scope_of(scope)?, bytes(path)?, number(index)?);
    let answer = match scope {
        Scope::Table => library::table_field(&table, &path, index),
        Scope::Column(position) => library::column_field(&table, position, &path, index),
    };
    Some(answer.map_or_else(refused, |[name, name_length, data_type, start, length, _]: [u64; FIELD]| {
        format!("ok {name} {name_length} {data_type} {start} {length}")
    }))
}

fn refused(refusal: Refusal) -> String {
    refusal.to_string()
}

/// An answer, then the whole room.
fn with_room(answer: Result<String, Refusal>, room: &[u8]) -> String {
    format!("{} {}", answer.map_or_else(refused, |text| format!("ok {text}")), hex(room))
}

/// None for a line that is no request.
fn answer(program: &str, line: &str) -> io::Result<Option<String>> {
    let fields: Vec<&str> = line.split(' ').collect();
    Ok(match fields[..] {
        ["describe", table] => bytes(table).map(|table| describe(&table).unwrap_or_else(refused)),
        ["column", table, name] => bytes(table).zip(bytes(name)).map(|(table, name)| {
            library::column_by_name(&table, &name).map_or_else(refused, |position| format!("ok {position}"))
        }),
        ["listing", table] => match bytes(table) {
            Some(table) => Some(hex(&listing(program, &table)?)),
            None => None,
        },
        ["check", table, sequence, file, room] => check(table, sequence, file, room),
        ["plan", table, file, position, room] => plan(table, file, position, room),
        ["place", table, file, row, position, room] => {
            cell([table, file, row, room], number(position), library::place, place_text)
        }
        ["placeplan", table, file, row, plan, room] => {
            cell([table, file, row, room], plan_of(plan).as_ref(), library::place_planned, place_text)
        }
        ["place1", table, file, row, position, room] => {
            cell([table, file, row, room], number(position), library::place_in_bucket, in_bucket_text)
        }
        ["view", table, file, row, position, room] => {
            cell([table, file, row, room], number(position), library::view, view_text)
        }
        ["viewplan", table, file, row, plan, room] => {
            cell([table, file, row, room], plan_of(plan).as_ref(), library::view_planned, view_text)
        }
        ["padded", table, file, row, position, room] => {
            cell([table, file, row, room], number(position), library::padded_view, view_text)
        }
        ["paddedplan", table, file, row, plan, room] => {
            cell([table, file, row, room], plan_of(plan).as_ref(), library::padded_view_planned, view_text)
        }
        ["keyword", table, scope, path] => keyword(table, scope, path),
        ["field", table, scope, path, index] => field(table, scope, path, index),
        // A negative number is asked as C passes it, by its 64 bits.
        ["elementbits", field] => signed(field).map(|number| format!("ok {}", library::element_bits(number as u64))),
        _ => None,
    })
}

fn main() -> io::Result<()> {
    let program = std::env::var("HELVIDRANE_LISTING").unwrap_or_else(|_| "crates/listing/out/listing".to_string());
    let mut input = io::stdin().lock();
    let mut out = BufWriter::new(io::stdout().lock());
    let mut line = Vec::new();
    while input.read_until(b'\n', &mut line)? > 0 {
        // A line that is not text is no request, as the empty line is.
        let request = std::str::from_utf8(line.strip_suffix(b"\n").unwrap_or(&line)).unwrap_or_default();
        let answer = answer(&program, request)?;
        writeln!(out, "{}", answer.as_deref().unwrap_or("bad request"))?;
        line.clear();
    }
    out.flush()
}
