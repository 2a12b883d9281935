//! The listing program: RULES.md 10.

use crate::table::describe;
use std::io::Write;

/// What the listing program prints for these bytes of `table.dat`.
pub fn listing(table: &[u8]) -> Vec<u8> {
    let mut text = Vec::new();
    print(table, &mut text).expect("writing to memory succeeds");
    text
}

fn print(table: &[u8], out: &mut impl Write) -> std::io::Result<()> {
    let description = match describe(table) {
        Ok(description) => description,
        Err(refusal) => return writeln!(out, "{refusal}"),
    };
    writeln!(out, "rows {} columns {}", description.rows, description.columns.len())?;
    for (position, column) in description.columns.iter().enumerate() {
        write!(out, "{position} ")?;
        out.write_all(column.name)?; // as it is, not necessarily text
        writeln!(out, " {} {} {}", column.data_type.name(), column.elements, column.manager)?;
    }
    Ok(())
}
