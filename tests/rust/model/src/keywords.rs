//! Keywords: RULES.md 4.12 to 4.17, and Note 260, sections 2.1 and 2.4.
//!
//! The whole asked TableRecord is read, field by field, before the path is looked
//! at. A record is held as a description in its holder's RecordDesc and, among the
//! holder's values, as its own values or as a whole TableRecord.

use crate::aipsio::Reader;
use crate::byte_order::ByteOrder;
use crate::element_bits;
use crate::refusal::{DOES_NOT_FIT, NO_KEYWORD, NO_SUCH, OUT_OF_RANGE, Refusal, TOO_DEEP};
use crate::table::{any_shape, describe};
use std::ops::Range;

/// The depth of the deepest records; that of an asked one is 1.
const DEEPEST: u32 = 8;

/// The String by which an IPosition is known.
const IPOSITION: &[u8] = b"\0\0\0\x09IPosition";

/// Whose keywords are asked.
#[derive(Clone, Copy, Debug, PartialEq, Eq)]
pub enum Scope {
    Table,
    /// The column at this position.
    Column(u64),
}

/// A keyword's type, and where its value is.
#[derive(Clone, Debug, PartialEq, Eq)]
pub struct Keyword {
    /// The number as stored.
    pub data_type: u32,
    /// The part of `table.dat` that holds the value.
    pub part: Range<usize>,
}

/// A keyword by its number in its record.
#[derive(Clone, Debug, PartialEq, Eq)]
pub struct Field {
    /// Where the bytes of its name stand in `table.dat`, behind their length.
    pub name: Range<usize>,
    pub value: Keyword,
}

/// The keyword that a path leads to.
pub fn keyword(table: &[u8], scope: Scope, path: &[u8]) -> Result<Keyword, Refusal> {
    let record = asked_record(table, scope)?;
    let stored = find(&record, &names(path)?).ok_or(NO_KEYWORD)?;
    Ok(stored.field.value.clone())
}

/// The field with this number, from 0 in stored order, of the record that a path
/// leads to; the empty path leads to the asked one.
pub fn field(table: &[u8], scope: Scope, path: &[u8], number: u64) -> Result<Field, Refusal> {
    let record = asked_record(table, scope)?;
    let names = names(path)?;
    let fields = match names.is_empty() {
        true => Some(&record),
        false => find(&record, &names).and_then(|stored| stored.held.as_ref()),
    };
    let number = usize::try_from(number).map_err(|_| NO_KEYWORD)?;
    let stored = fields.and_then(|fields| fields.get(number)).ok_or(NO_KEYWORD)?;
    Ok(stored.field.clone())
}

/// The fields of the asked TableRecord.
fn asked_record(table: &[u8], scope: Scope) -> Result<Vec<Stored<'_>>, Refusal> {
    let description = describe(table)?;
    let place = match scope {
        Scope::Table => description.keywords,
        Scope::Column(position) => {
            let position = usize::try_from(position).map_err(|_| NO_SUCH)?;
            description.columns.get(position).ok_or(NO_SUCH)?.keywords.clone()
        }
    };
    table_record(&mut Reader::new(&table[..place.end], place.start, ByteOrder::Big), 1)
}

/// The names of a path, if it is a run of whole Strings.
fn names(path: &[u8]) -> Result<Vec<&[u8]>, Refusal> {
    let mut strings = Reader::new(path, 0, ByteOrder::Big);
    let mut names = Vec::new();
    while strings.left() > 0 {
        names.push(strings.counted().map_err(|_| NO_KEYWORD)?);
    }
    Ok(names)
}

/// What these names lead to; of equal names the first counts.
fn find<'r, 'a>(record: &'r [Stored<'a>], names: &[&[u8]]) -> Option<&'r Stored<'a>> {
    let (name, rest) = names.split_first()?;
    let stored = record.iter().find(|stored| stored.name == *name)?;
    if rest.is_empty() {
        return Some(stored);
    }
    find(stored.held.as_ref()?, rest)
}

/// What a type number stands for.
#[derive(Clone, Copy, Debug)]
enum Type {
    /// Of the type with this number, as the next.
    Scalar(i32),
    Array(i32),
    Table,
    Record,
}

impl Type {
    fn of(number: i32) -> Option<Self> {
        Some(match number {
            0 | 2..=11 | 29 => Self::Scalar(number),
            13 | 15..=24 => Self::Array(number - 13),
            30 => Self::Array(29),
            12 => Self::Table,
            25 => Self::Record,
            _ => return None,
        })
    }
}

/// A field in a RecordDesc.
struct Described<'a> {
    name: &'a [u8],
    /// Where the name's bytes stand.
    name_place: Range<usize>,
    data_type: Type,
    number: i32,
    /// The fields of a held record.
    held: Vec<Described<'a>>,
}

/// A field with its value.
struct Stored<'a> {
    name: &'a [u8],
    field: Field,
    /// The fields of a held record; none where it is no record.
    held: Option<Vec<Stored<'a>>>,
}

/// A whole TableRecord at this depth.
fn table_record<'a>(container: &mut Reader<'a>, depth: u32) -> Result<Vec<Stored<'a>>, Refusal> {
    let (_, mut fields) = container.object(b"TableRecord", &[1])?;
    let description = record_desc(&mut fields, depth)?;
    fields.int()?; // record type, not judged
    let record = values(&mut fields, description, depth)?;
    fields.finish()?;
    Ok(record)
}

/// The RecordDesc of a record at this depth. The count may be far above the number
/// of fields that are there.
fn record_desc<'a>(container: &mut Reader<'a>, depth: u32) -> Result<Vec<Described<'a>>, Refusal> {
    let (version, mut fields) = container.object(b"RecordDesc", &[1, 2])?;
    let count = fields.judged(Reader::int, OUT_OF_RANGE, |count| *count >= 0)?;
    let mut described = Vec::new();
    for _ in 0..count {
        described.push(field_desc(&mut fields, depth)?);
        if version == 2 {
            fields.string()?; // comment
        }
    }
    fields.finish()?;
    Ok(described)
}

/// A field's name, type, and what the type asks for.
fn field_desc<'a>(fields: &mut Reader<'a>, depth: u32) -> Result<Described<'a>, Refusal> {
    let name = fields.string()?;
    let name_place = fields.at() - name.len()..fields.at();
    let (number, data_type) =
        fields.meaning(Reader::int, DOES_NOT_FIT, |number| Some((number, Type::of(number)?)))?;
    let mut held = Vec::new();
    match data_type {
        Type::Scalar(_) => (),
        Type::Array(_) => shape(fields)?,
        Type::Table => drop(fields.string()?), // TableDesc name
        Type::Record if depth == DEEPEST => return Err(TOO_DEEP),
        Type::Record => held = record_desc(fields, depth + 1)?,
    }
    Ok(Described { name, name_place, data_type, number, held })
}

/// The shape of an array in a RecordDesc, whose numbers are not judged: an
/// IPosition where its name is there, else a count and Ints.
fn shape(fields: &mut Reader<'_>) -> Result<(), Refusal> {
    if fields.has_ahead(4, IPOSITION) {
        return any_shape(fields);
    }
    let count = fields.uint()? as usize;
    fields.run(count, 4).map(drop)
}

/// The values of a record at this depth, one after the other.
fn values<'a>(
    fields: &mut Reader<'a>,
    description: Vec<Described<'a>>,
    depth: u32,
) -> Result<Vec<Stored<'a>>, Refusal> {
    let mut record = Vec::new();
    for Described { name, name_place, data_type, number, held } in description {
        let start = fields.at();
        let held = match data_type {
            Type::Scalar(element) => scalar(fields, element).map(|()| None)?,
            Type::Array(element) => array(fields, element).map(|()| None)?,
            Type::Table => fields.string().map(|_| None)?,
            Type::Record if held.is_empty() => Some(table_record(fields, depth + 1)?),
            Type::Record => Some(values(fields, held, depth + 1)?),
        };
        let value = Keyword { data_type: number as u32, part: start..fields.at() };
        record.push(Stored { name, field: Field { name: name_place, value }, held });
    }
    Ok(record)
}

/// A scalar of the type with this number.
fn scalar(fields: &mut Reader<'_>, number: i32) -> Result<(), Refusal> {
    match element_bits(number.into()) {
        0 => fields.string().map(drop),
        1 => fields.bool().map(drop), // a byte
        bits => fields.bytes(bits as usize / 8).map(drop),
    }
}

/// An Array object, of elements of the type with this number.
fn array(container: &mut Reader<'_>, number: i32) -> Result<(), Refusal> {
    let (version, mut fields) = container.object_named(is_array_name, &[1, 2, 3])?;
    let axes = fields.uint()? as usize;
    if version < 3 {
        fields.run(axes, 4)?; // origin, not judged
    }
    // Without axes there are no elements. A product that is cut off does not fit,
    // and is 0 with an axis of 0.
    let mut count = u64::from(axes > 0);
    for _ in 0..axes {
        let axis = fields.judged(Reader::int, DOES_NOT_FIT, |axis| *axis >= 0)?;
        count = count.saturating_mul(axis as u64);
    }
    elements(&mut fields, number, count as usize)?;
    fields.finish()
}

/// `Array`, or the old name: with any bytes in angle brackets.
fn is_array_name(name: &[u8]) -> bool {
    let old = name.strip_prefix(b"Array<").and_then(|rest| rest.strip_suffix(b">"));
    name == b"Array" || old.is_some()
}

/// So many elements, of which Bools are bits in whole bytes.
fn elements(fields: &mut Reader<'_>, number: i32, count: usize) -> Result<(), Refusal> {
    match element_bits(number.into()) {
        0 => (0..count).try_for_each(|_| fields.string().map(drop)),
        1 => fields.run(count.div_ceil(8), 1).map(drop),
        bits => fields.run(count, bits as usize / 8).map(drop),
    }
}
