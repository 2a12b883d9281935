//! Pseudo random tables with files: their `table.dat` has few bytes, so that
//! request lines stay short.

use crate::generate::{OTHER_KINDS, info_form, rows_form};
use crate::rng::Rng;
use crate::table::{
    BOOL, Column, DOUBLE, INT, Manager, Record, SHORT, STRING, TYPES, Table, UCHAR,
};

/// A manager of this kind, its sequence number, and sometimes other managers
/// before and after it.
pub fn managers(rng: &mut Rng, kind: &str) -> (Vec<Manager>, u32) {
    let others = if rng.chance(1, 2) { 0 } else { rng.within(1..=3) };
    let mut managers: Vec<Manager> = Vec::new();
    while managers.len() < others + 1 {
        let number = match rng.below(8) {
            0 => rng.uint() >> 1,
            1 => rng.below(100) as u32,
            _ => managers.len() as u32,
        };
        if managers.iter().any(|manager| manager.number == number) {
            continue;
        }
        let name = match rng.below(4) {
            _ if managers.is_empty() => kind,
            0 => "StandardStMan",
            1 | 2 => "IncrementalStMan",
            _ => rng.pick(&OTHER_KINDS),
        };
        managers.push(info_form(rng, Manager::new(name, number)));
    }
    let number = managers[0].number;
    rng.shuffle(&mut managers);
    (managers, number)
}

/// A column with cells of few bytes, often Bool; without a name.
pub fn column(rng: &mut Rng) -> Column {
    let data_type = rng.pick(&TYPES);
    match rng.below(12) {
        0 | 1 => Column::scalar(BOOL, ""),
        2 => {
            let axes = axes(rng, 19);
            Column::direct(BOOL, "", &axes)
        }
        3..=5 => Column::scalar(data_type, "").string_maximum(maximum(rng)),
        6 => Column::scalar(STRING, "").string_maximum(rng.within(1..=12) as u32),
        7 => Column::scalar(STRING, ""),
        8 | 9 => {
            let axes = axes(rng, 5);
            Column::direct(data_type, "", &axes).string_maximum(maximum(rng))
        }
        // Arrays in the array file, often of Bools.
        indirect => {
            let data_type = if rng.chance(1, 3) { BOOL } else { data_type };
            let column = match indirect {
                10 => Column::fixed(data_type, "", &axes(rng, 1000)),
                _ => Column::array(data_type, ""),
            };
            column.string_maximum(maximum(rng))
        }
    }
}

/// A String scalar with a maximum, or a column that is nearly one; without a name.
pub fn text_column(rng: &mut Rng) -> Column {
    let column = match rng.below(14) {
        0..=7 => {
            // Options, and which of the two dimensionalities, have no effect.
            let options = if rng.chance(1, 4) { rng.below(8) as i32 } else { 0 };
            let dimensionality = rng.pick(&[0, -1]);
            Column { options, dimensionality, ..Column::scalar(STRING, "") }
        }
        8 => return Column::scalar(STRING, ""),
        9 => {
            let axes = axes(rng, 5);
            Column::direct(STRING, "", &axes)
        }
        10 if rng.chance(1, 2) => Column::array(STRING, ""),
        10 => {
            let axes = axes(rng, 5);
            Column::fixed(STRING, "", &axes)
        }
        _ => Column::scalar(rng.pick(&[UCHAR, SHORT, INT, DOUBLE]), ""),
    };
    column.string_maximum(text_maximum(rng))
}

/// A string maximum: often very small, seldom some hundreds.
fn text_maximum(rng: &mut Rng) -> u32 {
    (match rng.below(14) {
        0 | 1 => 1,
        2 | 3 => rng.pick(&[2, 3]),
        4..=8 => rng.within(4..=12),
        9..=12 => rng.within(4..=48),
        _ => rng.within(49..=300),
    }) as u32
}

/// A string maximum; none for most columns.
fn maximum(rng: &mut Rng) -> u32 {
    if rng.chance(1, 4) { rng.within(1..=9) as u32 } else { 0 }
}

/// One to three axes with a product of at most `most`.
fn axes(rng: &mut Rng, most: usize) -> Vec<i64> {
    let mut left = most;
    let count = rng.pick(&[1, 1, 2, 3]);
    let mut axes = Vec::new();
    for _ in 0..count {
        let axis = rng.within(1..=left);
        left /= axis;
        axes.push(axis as i64);
    }
    axes
}

/// A table of these columns, bound to the manager with this number, and of
/// some columns of the other managers, in any order; at most 64. ColumnSet has
/// either version.
pub fn table(
    rng: &mut Rng,
    (rows, endianness): (u64, u32),
    own: Vec<Column>,
    mut managers: Vec<Manager>,
    number: u32,
) -> Table {
    let mut columns: Vec<Column> = own.into_iter().map(|c| c.of_manager(number)).collect();
    let others: Vec<u32> =
        managers.iter().map(|manager| manager.number).filter(|other| *other != number).collect();
    for other in others {
        for _ in 0..rng.pick(&[0, 1, 1, 2]) {
            let (set, offset) = (rng.below(2) as u32, rng.below(100) as u32);
            columns.push(column(rng).of_manager(other).at(set, offset));
        }
    }
    if columns.is_empty() {
        // A table has a column, here one without a place.
        let other = managers.iter().map(|manager| manager.number).max().unwrap_or(0) + 1;
        managers.push(Manager::new("TiledShapeStMan", other));
        columns.push(column(rng).of_manager(other));
    }
    rng.shuffle(&mut columns);
    columns.truncate(64);
    let mut table = bare(rows, endianness, columns, managers);
    rows_form(rng, &mut table);
    table
}

/// A table with empty texts and records; the columns are named by position.
pub fn bare(rows: u64, endianness: u32, columns: Vec<Column>, managers: Vec<Manager>) -> Table {
    let named = columns.into_iter().enumerate().map(|(position, column)| {
        let name = format!("C{position}");
        let mut column = Column {
            name: name.as_bytes().into(),
            manager_type: "".into(),
            manager_group: "".into(),
            keywords: Record::new(Vec::new()),
            ..column
        };
        column.info.original_name = "".into();
        column
    });
    let mut table = Table::new(rows, endianness, named.collect(), managers);
    table.description.keywords = Record::new(Vec::new());
    table.description.private_keywords = Record::new(Vec::new());
    table
}

/// Parts of `rows`, each of at least one and at most `most` rows; many are
/// full, as they are before rows are deleted.
pub fn parts(rng: &mut Rng, rows: u64, most: u64) -> Vec<u64> {
    let mut left = rows;
    let mut parts = Vec::new();
    while left > 0 {
        let full = most.min(left);
        let part = if rng.chance(3, 5) { full } else { rng.within(1..=full as usize) as u64 };
        left -= part;
        parts.push(part);
    }
    parts
}
