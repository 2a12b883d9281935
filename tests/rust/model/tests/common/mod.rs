//! Files written byte by byte.

use model::Refusal;

/// A question that is refused with this number, at this byte.
pub fn refused<T>(number: u8, byte: u64) -> Result<T, Refusal> {
    Err(Refusal { number, byte })
}

pub fn uint(number: u32) -> Vec<u8> {
    number.to_be_bytes().to_vec()
}

pub fn uints(numbers: &[u32]) -> Vec<u8> {
    numbers.iter().flat_map(|number| number.to_be_bytes()).collect()
}

pub fn string(text: &str) -> Vec<u8> {
    [uint(text.len() as u32), text.as_bytes().to_vec()].concat()
}

/// An object's length counts itself, the name and version, and the fields.
pub fn object(name: &str, version: u32, fields: &[Vec<u8>]) -> Vec<u8> {
    let rest = [string(name), uint(version), fields.concat()].concat();
    [uint(4 + rest.len() as u32), rest].concat()
}

/// The TableRecord without keywords, as Casacore writes it.
pub fn record() -> Vec<u8> {
    object("TableRecord", 1, &[object("RecordDesc", 2, &[uint(0)]), uint(1)])
}

/// A column of the only manager.
#[derive(Clone, Copy)]
pub struct Column {
    pub name: &'static str,
    /// T, and its number.
    pub data_type: (&'static str, u32),
    /// The bytes of a default value.
    pub default: usize,
    /// The elements of an array; none for a scalar.
    pub elements: Option<u32>,
    /// Whether an array stands in the cell, not in the array file.
    pub is_direct: bool,
    /// The string maximum.
    pub maximum: u32,
    pub set: u32,
    pub offset: u32,
}

pub const SCAN: Column = scalar("SCAN", ("Int     ", 5), 4, 0);
pub const FLAG: Column = scalar("FLAG", ("Bool", 0), 1, 16);
pub const TIME: Column = scalar("TIME", ("double  ", 8), 8, 17);

const fn scalar(
    name: &'static str,
    data_type: (&'static str, u32),
    default: usize,
    offset: u32,
) -> Column {
    Column { name, data_type, default, elements: None, is_direct: true, maximum: 0, set: 0, offset }
}

impl Column {
    fn description(&self) -> Vec<u8> {
        let kind = if self.elements.is_some() { "Array" } else { "Scalar" };
        let (data_type, number) = self.data_type;
        let options_and_shape = match self.elements {
            // Options 1 and 4, or 4 alone, and one dimension.
            Some(elements) => {
                let options = if self.is_direct { 5 } else { 4 };
                [uints(&[options, 1]), object("IPosition", 1, &[uints(&[1, elements])])].concat()
            }
            None => uints(&[0, 0]),
        };
        [
            uint(1), // ColumnDesc version
            string(&format!("{kind}ColumnDesc<{data_type}")),
            uint(1), // BaseColumnDesc version
            string(self.name),
            string("a comment"),
            string("StandardStMan"),
            string("StandardStMan"),
            uint(number), // data type
            options_and_shape,
            uint(self.maximum),
            record(),
            uint(1), // ScalarColumnDesc or ArrayColumnDesc version
            vec![0; if self.elements.is_some() { 1 } else { self.default }],
        ]
        .concat()
    }

    fn info(&self) -> Vec<u8> {
        let shape = if self.elements.is_some() { vec![0] } else { Vec::new() };
        [uint(2), string(self.name), uint(1), uint(0), shape].concat()
    }
}

/// A big endian table of one StandardStMan with sequence number 0.
pub fn table(rows: u32, columns: &[Column]) -> Vec<u8> {
    table_of("StandardStMan", rows, columns)
}

/// The same of a manager of another kind.
pub fn table_of(manager: &str, rows: u32, columns: &[Column]) -> Vec<u8> {
    let sets: Vec<u32> = columns.iter().map(|column| column.set).collect();
    let offsets: Vec<u32> = columns.iter().map(|column| column.offset).collect();
    table_with(1, manager, uints(&[sets, offsets].concat()), rows, columns)
}

/// The same of this endianness, with these bytes in its DMInfo.
pub fn table_with(
    endianness: u32,
    manager: &str,
    info: Vec<u8>,
    rows: u32,
    columns: &[Column],
) -> Vec<u8> {
    let column_set = [(-2_i32).to_be_bytes().to_vec(), uint(rows)].concat();
    table_rows(endianness, manager, info, (rows, column_set), columns)
}

/// The same with this row count in Table's header, and these bytes of
/// ColumnSet's version and row count.
pub fn table_rows(
    endianness: u32,
    manager: &str,
    info: Vec<u8>,
    (rows, column_set): (u32, Vec<u8>),
    columns: &[Column],
) -> Vec<u8> {
    let descriptions: Vec<Vec<u8>> = columns.iter().map(Column::description).collect();
    let infos: Vec<Vec<u8>> = columns.iter().map(Column::info).collect();
    let description = object(
        "TableDesc",
        2,
        &[
            string(""),
            string(""),
            string(""),
            record(),
            record(),
            uint(columns.len() as u32),
            descriptions.concat(),
        ],
    );
    let column_set = [
        column_set,
        uint(1), // highest sequence number
        uint(1), // managers
        string(manager),
        uint(0),
        infos.concat(),
        uint(info.len() as u32), // DMInfo
        info,
    ]
    .concat();
    let fields = [uint(rows), uint(endianness), string("PlainTable"), description, column_set];
    [vec![0xBE; 4], object("Table", 2, &fields)].concat()
}

/// The table of the small file (RULES.md 11.1).
pub fn small_table() -> Vec<u8> {
    table(7, &[SCAN, FLAG, TIME])
}
