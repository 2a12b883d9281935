//! The questions Description and Column by name: RULES.md 4, and
//! Note 260, section 3.1.

use crate::aipsio::Reader;
use crate::byte_order::{ByteOrder, Numbers, Width};
use crate::data_type::DataType;
use crate::refusal::{DISAGREES, DOES_NOT_FIT, NO_SUCH, OUT_OF_RANGE, Refusal, WRONG_VERSION};
use std::ops::{Range, RangeInclusive};

// RULES.md 8.2, Ranges.
const MAX_FILE: usize = 65_536;
const ROWS: RangeInclusive<i64> = 0..=1 << 62;
const MAX_COLUMNS: u32 = 64;
const MAX_MANAGERS: u32 = 16;
const COLUMN_NAME: RangeInclusive<usize> = 1..=64;
const MAX_DIMENSIONS: u32 = 8;
const ELEMENTS: RangeInclusive<i64> = 1..=1_048_576;
const MAX_STRING_MAXIMUM: u32 = 65_536;

// Column options (Note 260, 3.1.1); 2, undefined values, has no effect.
const DIRECT: i32 = 1;
const FIXED_SHAPE: i32 = 4;

/// What `table.dat` says of a table.
#[derive(Clone, Debug, PartialEq, Eq)]
pub struct Description<'a> {
    /// ColumnSet's.
    pub rows: u64,
    /// Of the cells, and of the headers and indices of the managers' files.
    pub byte_order: ByteOrder,
    /// In stored order.
    pub columns: Vec<Column<'a>>,
    /// In stored order.
    pub managers: Vec<Manager<'a>>,
    /// Where the TableRecord of the table's keywords stands.
    pub keywords: Range<usize>,
}

impl<'a> Description<'a> {
    /// The columns bound to a manager, in stored order.
    pub fn columns_of(&self, manager: u32) -> impl Iterator<Item = &Column<'a>> {
        self.columns.iter().filter(move |column| column.manager == manager)
    }
}

#[derive(Clone, Debug, PartialEq, Eq)]
pub struct Column<'a> {
    pub name: &'a [u8],
    pub data_type: DataType,
    pub is_array: bool,
    /// 0 to 7.
    pub options: i32,
    /// 1 for a scalar, the shape's product with a fixed shape, else 0.
    pub elements: u32,
    pub string_maximum: u32,
    /// Not rounded up to whole bytes.
    pub cell_bits: u32,
    /// The sequence number of its manager.
    pub manager: u32,
    /// From the DMInfo of StandardStMan and IncrementalStMan, if it has set
    /// numbers and offsets; 0 otherwise.
    pub set: u64,
    /// As the set.
    pub offset: u64,
    /// Where the TableRecord of its keywords stands.
    pub keywords: Range<usize>,
}

#[derive(Clone, Debug, PartialEq, Eq)]
pub struct Manager<'a> {
    /// The sequence number, as in the file name `table.f<i>`.
    pub number: u32,
    pub name: &'a [u8],
    pub kind: Kind,
}

#[derive(Clone, Copy, Debug, PartialEq, Eq)]
pub enum Kind {
    Standard,
    Incremental,
    Other,
}

impl Kind {
    /// A manager's kind is its exact name.
    fn of(name: &[u8]) -> Self {
        match name {
            b"StandardStMan" => Self::Standard,
            b"IncrementalStMan" => Self::Incremental,
            _ => Self::Other,
        }
    }
}

/// The description of a table, from the bytes of `table.dat`.
pub fn describe(table: &[u8]) -> Result<Description<'_>, Refusal> {
    if table.len() > MAX_FILE {
        return Err(Refusal::at(OUT_OF_RANGE, MAX_FILE));
    }
    let mut file = Reader::new(table, 0, ByteOrder::Big); // in every table
    file.expect_mark()?;
    let (_, mut fields) = file.object(b"Table", &[2])?;
    let header_rows = fields.uint()?;
    let byte_order = fields.meaning(Reader::uint, DOES_NOT_FIT, |number| match number {
        0 => Some(ByteOrder::Little),
        1 => Some(ByteOrder::Big),
        _ => None,
    })?;
    fields.expect_name(b"PlainTable")?;
    let (keywords, mut columns) = table_desc(&mut fields)?;
    let (rows, managers) = column_set(&mut fields, header_rows, &mut columns)?;
    fields.finish()?;
    Ok(Description { rows, byte_order, columns, managers, keywords })
}

/// The position of the column with this name, from 0 in stored order.
pub fn column(table: &[u8], name: &[u8]) -> Result<usize, Refusal> {
    describe(table)?.columns.iter().position(|column| column.name == name).ok_or(NO_SUCH)
}

/// TableDesc: where the keywords stand, and the columns, not yet bound to a
/// manager.
fn table_desc<'a>(container: &mut Reader<'a>) -> Result<(Range<usize>, Vec<Column<'a>>), Refusal> {
    let (_, mut fields) = container.object(b"TableDesc", &[2])?;
    fields.string()?; // name
    fields.string()?; // version info
    fields.string()?; // comment
    let keywords = fields.pass_table_record()?;
    fields.pass_table_record()?; // private keywords
    let count = fields.count(MAX_COLUMNS)?;
    let mut columns = Vec::with_capacity(count);
    for _ in 0..count {
        let column = column_desc(&mut fields, &columns)?;
        columns.push(column);
    }
    fields.finish()?;
    Ok((keywords, columns))
}

/// A ColumnDesc, after the `earlier` ones.
fn column_desc<'a>(fields: &mut Reader<'a>, earlier: &[Column<'a>]) -> Result<Column<'a>, Refusal> {
    fields.expect_version(1)?; // ColumnDesc
    let (is_array, data_type) = fields.meaning(Reader::string, DOES_NOT_FIT, column_type)?;
    fields.expect_version(1)?; // BaseColumnDesc
    let name = column_name(fields, earlier)?;
    fields.string()?; // comment
    fields.string()?; // default manager type
    fields.string()?; // default manager group
    fields.judged(Reader::int, DOES_NOT_FIT, |number| *number == data_type.number())?;
    let options =
        fields.judged(Reader::int, DOES_NOT_FIT, |options| options_fit(*options, is_array))?;
    let elements = elements(fields, options, is_array)?;
    let string_maximum = fields.uint_up_to(MAX_STRING_MAXIMUM)?;
    let keywords = fields.pass_table_record()?;
    fields.expect_version(1)?; // ScalarColumnDesc or ArrayColumnDesc
    if is_array {
        fields.bool()?; // a flag without use
    } else {
        default_value(fields, data_type)?;
    }
    let cell_bits = match data_type.element_bits() {
        _ if is_array && options & DIRECT == 0 => 64,
        Some(bits) => elements * bits,
        None if !is_array && string_maximum > 0 => string_maximum * 8,
        None => 96,
    };
    Ok(Column {
        name,
        data_type,
        is_array,
        options,
        elements,
        string_maximum,
        cell_bits,
        manager: 0,
        set: 0,
        offset: 0,
        keywords,
    })
}

/// A column type string: whether it is an array's, and its data type.
fn column_type(string: &[u8]) -> Option<(bool, DataType)> {
    let (is_array, mut name) = match string.strip_prefix(b"ScalarColumnDesc<") {
        Some(name) => (false, name),
        None => (true, string.strip_prefix(b"ArrayColumnDesc<")?),
    };
    // T stands bare, or is filled with spaces to exactly eight characters.
    if name.len() == 8 {
        while let [shorter @ .., b' '] = name {
            name = shorter;
        }
    }
    Some((is_array, DataType::from_name(name)?))
}

/// A column's name, which none of the `earlier` ones has.
fn column_name<'a>(fields: &mut Reader<'a>, earlier: &[Column<'a>]) -> Result<&'a [u8], Refusal> {
    let in_range = |fields: &mut Reader<'a>| {
        fields.judged(Reader::counted, OUT_OF_RANGE, |name| COLUMN_NAME.contains(&name.len()))
    };
    let is_new = |name: &&[u8]| earlier.iter().all(|column| column.name != *name);
    fields.judged(in_range, DISAGREES, is_new)
}

/// Options have no effect on scalars; a direct array has a fixed shape.
fn options_fit(options: i32, is_array: bool) -> bool {
    let is_direct = is_array && options & DIRECT != 0;
    (0..=7).contains(&options) && (!is_direct || options & FIXED_SHAPE != 0)
}

/// The dimensionality, and an array's IPosition: the element count.
fn elements(fields: &mut Reader<'_>, options: i32, is_array: bool) -> Result<u32, Refusal> {
    if !is_array {
        fields.judged(Reader::int, DOES_NOT_FIT, |number| matches!(number, 0 | -1))?;
        return Ok(1);
    }
    let dimensionality = fields.int()?;
    if options & FIXED_SHAPE != 0 {
        return fixed_shape(fields, dimensionality);
    }
    any_shape(fields)?;
    Ok(0)
}

/// The default value of a scalar column, stored by its type: a Bool in a byte,
/// a Complex as one field.
fn default_value(fields: &mut Reader<'_>, data_type: DataType) -> Result<(), Refusal> {
    match data_type.element_bits() {
        None => fields.string().map(drop),
        Some(1) => fields.bool().map(drop),
        Some(bits) => fields.bytes(bits as usize / 8).map(drop),
    }
}

/// The IPosition of a fixed shape: its product.
fn fixed_shape(container: &mut Reader<'_>, dimensionality: i32) -> Result<u32, Refusal> {
    let (version, mut fields) = container.object(b"IPosition", &[1, 2])?;
    let in_range = |fields: &mut Reader<'_>| fields.count(MAX_DIMENSIONS);
    let count = fields.judged(in_range, DOES_NOT_FIT, |count| *count as i32 == dimensionality)?;
    let mut product = 1;
    for _ in 0..count {
        let axis = |fields: &mut Reader<'_>| match version {
            1 => fields.int().map(i64::from),
            _ => fields.int64(),
        };
        let product_with = |axis: i64| in_elements(product * in_elements(axis)?);
        product = fields.meaning(axis, OUT_OF_RANGE, product_with)?;
    }
    fields.finish()?;
    Ok(product as u32)
}

/// An axis or a product of axes, if it is in range.
fn in_elements(number: i64) -> Option<i64> {
    Some(number).filter(|number| ELEMENTS.contains(number))
}

/// Another IPosition: its count and axes are read and not judged.
pub(crate) fn any_shape(container: &mut Reader<'_>) -> Result<(), Refusal> {
    let (version, mut fields) = container.object(b"IPosition", &[1, 2])?;
    let count = fields.uint()? as usize;
    let width = if version == 1 { 4 } else { 8 };
    fields.run(count, width)?;
    fields.finish()
}

/// ColumnSet: the row count and the managers. Binds the columns to them.
fn column_set<'a>(
    fields: &mut Reader<'a>,
    header_rows: u32,
    columns: &mut [Column<'a>],
) -> Result<(u64, Vec<Manager<'a>>), Refusal> {
    let width = fields.meaning(Reader::int, WRONG_VERSION, |version| match version {
        -2 => Some(Width::UInt),
        -3 => Some(Width::Int64),
        _ => None,
    })?;
    let rows = row_count(fields, width, header_rows)?;
    let highest = fields.uint()?;
    let count = fields.count(MAX_MANAGERS)?;
    let mut managers: Vec<Manager> = Vec::with_capacity(count);
    for _ in 0..count {
        let name = fields.string()?;
        let is_new = |number: &u32| managers.iter().all(|manager| manager.number != *number);
        let fits = |number: &u32| *number <= highest && is_new(number);
        let number = fields.judged(Reader::uint, DISAGREES, fits)?;
        managers.push(Manager { number, name, kind: Kind::of(name) });
    }
    for column in columns.iter_mut() {
        column_info(fields, &managers, column)?;
    }
    for manager in &managers {
        manager_info(fields, manager, columns)?;
    }
    Ok((rows, managers))
}

/// The row count. A uInt is compared with the count in Table's header.
fn row_count(fields: &mut Reader<'_>, width: Width, header_rows: u32) -> Result<u64, Refusal> {
    let in_range = |fields: &mut Reader<'_>| {
        fields.judged(|fields| fields.number(width), OUT_OF_RANGE, |rows| ROWS.contains(rows))
    };
    let agrees = |rows: &i64| width == Width::Int64 || *rows == i64::from(header_rows);
    Ok(fields.judged(in_range, DISAGREES, agrees)? as u64)
}

/// ColumnInfo: the column's manager.
fn column_info(
    fields: &mut Reader<'_>,
    managers: &[Manager<'_>],
    column: &mut Column<'_>,
) -> Result<(), Refusal> {
    fields.expect_version(2)?;
    fields.string()?; // original column name
    fields.expect_version(1)?; // derived column info
    let is_known = |number: &u32| managers.iter().any(|manager| manager.number == *number);
    column.manager = fields.judged(Reader::uint, DISAGREES, is_known)?;
    if column.is_array && fields.bool()? {
        any_shape(fields)?;
    }
    Ok(())
}

/// DMInfo, of which other kinds' is not looked at: the columns bound to the
/// manager get their set numbers and offsets.
fn manager_info(
    fields: &mut Reader<'_>,
    manager: &Manager<'_>,
    columns: &mut [Column<'_>],
) -> Result<(), Refusal> {
    let info = fields.part()?;
    let bound = columns.iter().filter(|column| column.manager == manager.number).count();
    let (sets, offsets) = match manager.kind {
        Kind::Other => return Ok(()),
        Kind::Standard if info.begins_with_mark() => ssm_info(info, bound)?,
        Kind::Incremental if info.begins_with_mark() => return ism_info(info),
        Kind::Standard | Kind::Incremental => bare_info(info, bound)?,
    };
    let columns = columns.iter_mut().filter(|column| column.manager == manager.number);
    for (column, (set, offset)) in columns.zip(sets.iter().zip(offsets.iter())) {
        column.set = set;
        column.offset = offset;
    }
    Ok(())
}

/// A DMInfo without the mark: the set numbers of the bound columns, then their
/// offsets. A length other than theirs, shorter too, is blamed itself.
fn bare_info<'a>(
    mut info: Reader<'a>,
    bound: usize,
) -> Result<(Numbers<'a>, Numbers<'a>), Refusal> {
    if info.left() != 8 * bound {
        return Err(info.wrong_length());
    }
    Ok((info.numbers(bound, Width::UInt)?, info.numbers(bound, Width::UInt)?))
}

/// A DMInfo of StandardStMan with the mark: the manager's name, the offsets of
/// the bound columns, then their set numbers, which it gives first.
fn ssm_info<'a>(mut info: Reader<'a>, bound: usize) -> Result<(Numbers<'a>, Numbers<'a>), Refusal> {
    info.expect_mark()?;
    let (_, mut fields) = info.object(b"SSM", &[2])?;
    fields.string()?; // not judged
    let offsets = fields.block(bound as u64, Width::UInt)?;
    let sets = fields.block(bound as u64, Width::UInt)?;
    fields.finish()?;
    info.finish()?;
    Ok((sets, offsets))
}

/// A DMInfo of IncrementalStMan with the mark: the manager's name alone.
fn ism_info(mut info: Reader<'_>) -> Result<(), Refusal> {
    info.expect_mark()?;
    let (_, mut fields) = info.object(b"ISM", &[3])?;
    fields.string()?; // not judged
    fields.finish()?;
    info.finish()
}
