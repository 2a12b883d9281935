//! Pseudo random good tables.

use crate::info::InfoObject;
use crate::record::{self, Value};
use crate::rng::Rng;
use crate::table::{
    BOOL, Column, DefaultValue, Manager, Record, STRING, Shape, TYPES, Table, Text, Type,
};

const MAX_ELEMENTS: usize = 1_048_576;

/// Names of a MeasurementSet's columns.
const NAMES: [&str; 16] = [
    "TIME",
    "TIME_CENTROID",
    "ANTENNA1",
    "ANTENNA2",
    "UVW",
    "FLAG",
    "FLAG_ROW",
    "FLAG_CATEGORY",
    "DATA",
    "WEIGHT",
    "SIGMA",
    "SCAN_NUMBER",
    "INTERVAL",
    "OBSERVER",
    "STATE_ID",
    "time",
];

/// Kinds of managers other than the two with a DMInfo; some nearly theirs.
pub const OTHER_KINDS: [&str; 12] = [
    "TiledShapeStMan",
    "TiledColumnStMan",
    "TiledCellStMan",
    "StManAipsIO",
    "ForwardColumnEngine",
    "MemoryStMan",
    "",
    "standardStMan",
    "StandardStMan ",
    "StandardStMa",
    "IncrementalStMan\0",
    "IncrementalStma",
];

/// A good table of few columns and managers; sometimes of many.
pub fn table(rng: &mut Rng) -> Table {
    let columns = if rng.chance(1, 150) { rng.within(20..=64) } else { rng.within(1..=5) };
    let managers = if rng.chance(1, 60) { rng.within(4..=16) } else { rng.within(1..=3) };
    table_of(rng, columns, managers)
}

/// A good table of that many columns (1 to 64) and managers (1 to 16).
pub fn table_of(rng: &mut Rng, columns: usize, managers: usize) -> Table {
    let managers = self::managers(rng, managers);
    let mut described: Vec<Column> = Vec::with_capacity(columns);
    while described.len() < columns {
        let mut column = if rng.chance(1, 2) { scalar(rng) } else { array(rng) };
        name_unlike(rng, &mut column, &described);
        column.info.manager = managers[rng.below(managers.len())].number;
        described.push(column);
    }
    let highest = managers.iter().map(|manager| manager.number).max().unwrap_or(0);
    let rows = match rng.below(8) {
        0 => 0,
        1 => rng.pick(&ROW_LIMITS),
        2 => rng.uint().into(),
        3 => rng.number() >> rng.within(2..=40),
        _ => rng.below(5000) as u64,
    };
    let endianness = rng.below(2) as u32;
    let mut table = Table::new(rows, endianness, described, managers);
    rows_form(rng, &mut table);
    table.column_set.highest = match rng.below(4) {
        0 => highest,
        1 => u32::MAX,
        _ => highest + 1,
    };
    table.description.name = short_text(rng);
    table.description.version = short_text(rng);
    table.description.comment = short_text(rng);
    table.description.keywords = record(rng);
    table.description.private_keywords = record(rng);
    if rng.chance(1, 8) {
        let count = rng.within(1..=40);
        table.trailing = rng.bytes(count);
    }
    table
}

/// Row counts at limits: of Int, of uInt, and of the row range.
pub const ROW_LIMITS: [u64; 9] = [
    0x7FFF_FFFF,
    0x8000_0000,
    0xFFFF_FFFF,
    1 << 32,
    (1 << 32) + 1,
    1 << 33,
    1 << 40,
    (1 << 62) - 1,
    1 << 62,
];

/// With ColumnSet -2 or -3; with -3 the count in Table's header is often
/// another one.
pub fn rows_form(rng: &mut Rng, table: &mut Table) {
    if !table.column_set.wide && rng.chance(1, 2) {
        return;
    }
    let rows = table.rows() as u32;
    let header_rows = match rng.below(4) {
        0 => rows,
        1 => 0,
        2 => rows ^ 1 << rng.below(32),
        _ => rng.uint(),
    };
    table.widen(header_rows);
}

/// Managers with different numbers below 4 billion.
fn managers(rng: &mut Rng, count: usize) -> Vec<Manager> {
    let mut managers: Vec<Manager> = Vec::with_capacity(count);
    while managers.len() < count {
        let number = match rng.below(6) {
            0 => rng.uint() >> rng.below(32),
            1 => rng.below(100) as u32,
            _ => managers.len() as u32,
        };
        if number < u32::MAX && managers.iter().all(|manager| manager.number != number) {
            managers.push(manager(rng, number));
        }
    }
    managers
}

pub fn manager(rng: &mut Rng, number: u32) -> Manager {
    match rng.below(8) {
        0..=3 => info_form(rng, Manager::new("StandardStMan", number)),
        4..=5 => info_form(rng, Manager::new("IncrementalStMan", number)),
        _ => {
            let name = rng.pick(&OTHER_KINDS);
            Manager { info: any_info(rng).into(), ..Manager::new(name, number) }
        }
    }
}

/// A manager of one of the two kinds, with an object in its DMInfo or without.
pub fn info_form(rng: &mut Rng, manager: Manager) -> Manager {
    if rng.chance(1, 2) {
        return manager;
    }
    let name = match rng.below(4) {
        0 => manager.name.clone(),
        1 => "Data".into(),
        _ => short_text(rng), // it is not judged
    };
    manager.with_object(name)
}

/// The DMInfo of another kind, which is not looked at: any bytes, the mark and
/// any bytes, or an object of one of the two kinds.
fn any_info(rng: &mut Rng) -> Vec<u8> {
    let count = rng.pick(&[0, 0, 1, 7, 8, 16, 30]);
    match rng.below(4) {
        0 => [vec![0xBE; 4], rng.bytes(count)].concat(),
        1 => InfoObject::incremental("").layout(0).bytes,
        _ => rng.bytes(count),
    }
}

/// A scalar column.
pub fn scalar(rng: &mut Rng) -> Column {
    let data_type = rng.pick(&TYPES);
    scalar_of(rng, data_type)
}

pub fn scalar_of(rng: &mut Rng, data_type: Type) -> Column {
    let mut column = Column::scalar(data_type, "");
    if rng.chance(1, 3) {
        column.type_name = format!("ScalarColumnDesc<{}", data_type.name).as_bytes().into();
    }
    column.options = if rng.chance(1, 2) { 0 } else { rng.below(8) as i32 };
    column.dimensionality = rng.pick(&[0, -1]);
    column.default = match data_type {
        STRING => DefaultValue::Text(short_text(rng)),
        BOOL => DefaultValue::Bytes(vec![rng.below(2) as u8]),
        _ => DefaultValue::Bytes(rng.bytes(data_type.size)),
    };
    fill(rng, &mut column);
    column
}

/// An array column: direct, of fixed shape or of free shape.
pub fn array(rng: &mut Rng) -> Column {
    if rng.chance(3, 5) { fixed(rng) } else { free(rng) }
}

/// An array column of fixed shape, direct or not.
pub fn fixed(rng: &mut Rng) -> Column {
    let data_type = rng.pick(&TYPES);
    let dimensions = rng.within(1..=8);
    let axes = axes(rng, dimensions);
    let mut column = Column::fixed(data_type, "", &axes);
    column.shape = Some(Shape::new(rng.within(1..=2) as u32, &axes));
    column.options = rng.pick(&[4, 5, 6, 7]);
    fill_array(rng, &mut column, data_type);
    column
}

/// An array column of free shape: its dimensionality and IPosition say nothing.
pub fn free(rng: &mut Rng) -> Column {
    let data_type = rng.pick(&TYPES);
    let mut column = Column::array(data_type, "");
    column.options = rng.pick(&[0, 0, 2]);
    column.dimensionality = match rng.below(3) {
        0 => -1,
        1 => rng.below(12) as i32,
        _ => rng.uint() as i32,
    };
    column.shape = Some(any_shape(rng));
    fill_array(rng, &mut column, data_type);
    column
}

/// Axes whose product is at most 1,048,576, sometimes exactly.
pub fn axes(rng: &mut Rng, dimensions: usize) -> Vec<i64> {
    let largest = rng.pick(&[4, 30, 1000, MAX_ELEMENTS]);
    let mut left = MAX_ELEMENTS;
    let mut axes: Vec<usize> = Vec::with_capacity(dimensions);
    for _ in 0..dimensions {
        let axis = rng.within(1..=left.min(largest));
        left /= axis;
        axes.push(axis);
    }
    if rng.chance(1, 6) {
        axes.fill(1);
        for _ in 0..20 {
            axes[rng.below(dimensions)] *= 2;
        }
    }
    axes.iter().map(|axis| *axis as i64).collect()
}

/// A shape that is read and not judged.
pub fn any_shape(rng: &mut Rng) -> Shape {
    let count = rng.pick(&[0, 0, 1, 2, 3, 9, 12]);
    let axes: Vec<i64> = (0..count)
        .map(|_| match rng.below(3) {
            0 => rng.below(100) as i64,
            1 => i64::from(rng.uint() as i32),
            _ => rng.number() as i64,
        })
        .collect();
    Shape::new(rng.within(1..=2) as u32, &axes)
}

fn fill_array(rng: &mut Rng, column: &mut Column, data_type: Type) {
    if rng.chance(1, 3) {
        column.type_name = format!("ArrayColumnDesc<{}", data_type.name).as_bytes().into();
    }
    if rng.chance(1, 8) {
        column.default = DefaultValue::Bytes(vec![1]); // the flag may be either
    }
    if rng.chance(1, 2) {
        column.info.shape_defined = 1;
        column.info.shape = Some(any_shape(rng));
    }
    fill(rng, column);
}

/// The fields that scalars and arrays have in common, but for the name.
fn fill(rng: &mut Rng, column: &mut Column) {
    column.comment = short_text(rng);
    column.manager_type = short_text(rng);
    column.manager_group = short_text(rng);
    if rng.chance(1, 2) {
        column.string_maximum = match rng.below(4) {
            0 => 1,
            1 => 65_536,
            _ => rng.below(65_536) as u32,
        };
    }
    column.keywords = record(rng);
    column.info.set = match rng.below(3) {
        0 => 0,
        1 => rng.below(4) as u32,
        _ => rng.uint(),
    };
    column.info.offset = if rng.chance(1, 3) { rng.uint() } else { rng.below(1000) as u32 };
}

/// Gives the column a name that none of the others has.
pub fn name_unlike(rng: &mut Rng, column: &mut Column, others: &[Column]) {
    let name = loop {
        let name = column_name(rng, others);
        if others.iter().all(|other| other.name.bytes != name) {
            break name;
        }
    };
    // Original names are never compared.
    let original =
        if rng.chance(1, 6) { rng.pick(&NAMES).as_bytes().to_vec() } else { name.clone() };
    column.name = name.into();
    column.info.original_name = original.into();
}

fn column_name(rng: &mut Rng, others: &[Column]) -> Vec<u8> {
    match rng.below(10) {
        // Any bytes.
        0 => {
            let length = rng.pick(&[1, 2, 3, 10, 63, 64]);
            rng.bytes(length)
        }
        // Nearly another column's name: longer or shorter by one byte.
        1 if !others.is_empty() => {
            let mut name = others[rng.below(others.len())].name.bytes.clone();
            if name.len() < 2 || (name.len() < 64 && rng.chance(1, 2)) {
                name.push(rng.byte());
            } else {
                name.pop();
            }
            name
        }
        2 => format!("{}_{}", rng.pick(&NAMES), rng.below(100)).into_bytes(),
        _ if others.len() > 8 => format!("COLUMN{}", rng.below(1000)).into_bytes(),
        _ => rng.pick(&NAMES).as_bytes().to_vec(),
    }
}

fn short_text(rng: &mut Rng) -> Text {
    let length = if rng.chance(1, 2) { 0 } else { rng.within(1..=16) };
    if rng.chance(1, 8) { rng.bytes(length).into() } else { rng.letters(length).into() }
}

/// A TableRecord; a reader only looks at its header.
fn record(rng: &mut Rng) -> Record {
    match rng.below(5) {
        0 | 1 => record::empty(),
        2 => record::keywords(&[
            ("QuantumUnits", Value::Strings(vec!["s"])),
            ("MEASINFO", Value::Record(vec![("type", Value::String("epoch"))])),
        ]),
        3 => Record::new(Vec::new()),
        _ => {
            let count = rng.within(1..=40);
            Record::new(rng.bytes(count))
        }
    }
}

/// Lengthens comments and records until the table has that many bytes.
pub fn grow(rng: &mut Rng, table: &mut Table, length: usize) {
    let mut missing = length.saturating_sub(table.encode().len());
    while missing > 0 {
        let count = missing.min(rng.within(1..=1500));
        let index = rng.below(table.columns().len());
        let column = &mut table.columns_mut()[index];
        if column.comment.bytes.len() + count <= 4096 && rng.chance(1, 2) {
            column.comment.bytes.extend(rng.letters(count));
        } else {
            column.keywords.contents.extend(rng.bytes(count));
        }
        missing -= count;
    }
}
