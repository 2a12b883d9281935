//! The cells of a column: RULES.md 4.5 and 7.10.

use crate::table::{BOOL, Column, STRING, TYPES};

/// 1 for a scalar, the shape's product for a fixed shape, else 0.
pub fn elements(column: &Column) -> u64 {
    match &column.shape {
        None => 1,
        Some(shape) if column.is_fixed() => shape.axes.iter().product::<i64>() as u64,
        Some(_) => 0,
    }
}

/// The bits of a cell, not rounded.
pub fn bits(column: &Column) -> u64 {
    let is_direct = column.is_array() && column.options & 1 != 0;
    if column.is_array() && !is_direct {
        return 64; // an offset in the array file
    }
    if column.data_type == STRING.number {
        let maximum = if column.is_array() { 0 } else { column.string_maximum };
        return if maximum > 0 { 8 * u64::from(maximum) } else { 96 };
    }
    if column.data_type == BOOL.number {
        return elements(column);
    }
    let data_type = TYPES.into_iter().find(|data_type| data_type.number == column.data_type);
    8 * elements(column) * data_type.expect("the column has a data type").size as u64
}

/// The whole bytes that `rows` cells take when they are stored together.
pub fn extent(column: &Column, rows: u32) -> u64 {
    (u64::from(rows) * bits(column)).div_ceil(8)
}

/// Whether a cell is a text with padding behind it: a String scalar with a
/// maximum (RULES.md 7.10).
pub fn has_padding(column: &Column) -> bool {
    column.data_type == STRING.number && !column.is_array() && column.string_maximum > 0
}
