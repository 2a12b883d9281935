//! The content of a `table.dat` file, field by field: Note 260, section 3.1.
//!
//! Every field is free, so that each can be wrong by itself. The builder
//! functions make good tables. Lengths are computed when the table is encoded,
//! unless another one is stated.

use crate::info::InfoObject;
use crate::layout::{Blame, Layout, Part};
use crate::order::Order;

/// A String: its bytes, and a length other than theirs if one is stated.
/// A DMInfo has the same form.
#[derive(Clone, Debug, Default, PartialEq, Eq)]
pub struct Text {
    pub bytes: Vec<u8>,
    pub stated: Option<u32>,
}

impl From<&[u8]> for Text {
    fn from(bytes: &[u8]) -> Self {
        bytes.to_vec().into()
    }
}

impl From<Vec<u8>> for Text {
    fn from(bytes: Vec<u8>) -> Self {
        Self { bytes, stated: None }
    }
}

impl From<&str> for Text {
    fn from(text: &str) -> Self {
        text.as_bytes().into()
    }
}

/// An AipsIO object's header, and changes to the object's end.
#[derive(Clone, Debug)]
pub struct Header {
    pub name: Text,
    pub version: u32,
    /// The length, if it is stated other than it is.
    pub stated: Option<u32>,
    /// Bytes cut off the object's end, not of its header.
    pub cut: usize,
    /// Bytes added at the object's end.
    pub extra: Vec<u8>,
    /// The byte order of the whole object, if it is other than that of what
    /// holds it.
    pub order: Option<Order>,
    /// The byte order of what follows the header, if it is other than the
    /// header's.
    pub fields_order: Option<Order>,
}

impl Header {
    pub fn new(name: &str, version: u32) -> Self {
        Self {
            name: name.into(),
            version,
            stated: None,
            cut: 0,
            extra: Vec::new(),
            order: None,
            fields_order: None,
        }
    }

    /// The header's own size: length, name, version.
    pub fn size(&self) -> usize {
        4 + 4 + self.name.bytes.len() + 4
    }
}

/// A TableRecord; see [`crate::record`] for contents.
#[derive(Clone, Debug)]
pub struct Record {
    pub header: Header,
    pub contents: Vec<u8>,
}

impl Record {
    pub fn new(contents: Vec<u8>) -> Self {
        Self { header: Header::new("TableRecord", 1), contents }
    }
}

/// An IPosition.
#[derive(Clone, Debug)]
pub struct Shape {
    pub header: Header,
    /// The count, if it is stated other than it is.
    pub count: Option<u32>,
    pub axes: Vec<i64>,
    /// Whether the axes are written as Int64 (version 2) or Int (version 1).
    pub wide: bool,
}

impl Shape {
    pub fn new(version: u32, axes: &[i64]) -> Self {
        Self {
            header: Header::new("IPosition", version),
            count: None,
            axes: axes.to_vec(),
            wide: version == 2,
        }
    }
}

/// A data type of RULES.md 4.3: T, its number, and the bytes of a default value.
#[derive(Clone, Copy, Debug, PartialEq, Eq)]
pub struct Type {
    pub name: &'static str,
    pub number: i32,
    pub size: usize,
}

impl Type {
    const fn new(name: &'static str, number: i32, size: usize) -> Self {
        Self { name, number, size }
    }
}

pub const BOOL: Type = Type::new("Bool", 0, 1);
pub const UCHAR: Type = Type::new("uChar", 2, 1);
pub const SHORT: Type = Type::new("Short", 3, 2);
pub const USHORT: Type = Type::new("uShort", 4, 2);
pub const INT: Type = Type::new("Int", 5, 4);
pub const UINT: Type = Type::new("uInt", 6, 4);
pub const FLOAT: Type = Type::new("float", 7, 4);
pub const DOUBLE: Type = Type::new("double", 8, 8);
pub const COMPLEX: Type = Type::new("Complex", 9, 8);
pub const DCOMPLEX: Type = Type::new("DComplex", 10, 16);
pub const STRING: Type = Type::new("String", 11, 0);
pub const INT64: Type = Type::new("Int64", 29, 8);

pub const TYPES: [Type; 12] =
    [BOOL, UCHAR, SHORT, USHORT, INT, UINT, FLOAT, DOUBLE, COMPLEX, DCOMPLEX, STRING, INT64];

/// The last field of a ColumnDesc.
#[derive(Clone, Debug)]
pub enum DefaultValue {
    /// A default value of fixed size, or an array's flag.
    Bytes(Vec<u8>),
    /// A String.
    Text(Text),
}

/// A column: its ColumnDesc, its ColumnInfo and its place in DMInfo.
#[derive(Clone, Debug)]
pub struct Column {
    pub version: u32,
    pub type_name: Text,
    pub base_version: u32,
    pub name: Text,
    pub comment: Text,
    pub manager_type: Text,
    pub manager_group: Text,
    pub data_type: i32,
    pub options: i32,
    pub dimensionality: i32,
    /// Arrays have an IPosition, scalars have none.
    pub shape: Option<Shape>,
    pub string_maximum: u32,
    pub keywords: Record,
    pub derived_version: u32,
    pub default: DefaultValue,
    pub info: ColumnInfo,
}

/// ColumnInfo, and the column's set number and offset in DMInfo.
#[derive(Clone, Debug)]
pub struct ColumnInfo {
    pub version: i32,
    pub original_name: Text,
    pub derived_version: u32,
    pub manager: u32,
    /// For arrays only: the byte of shapeColDef.
    pub shape_defined: u8,
    /// Written for arrays if `shape_defined` is 1.
    pub shape: Option<Shape>,
    pub set: u32,
    pub offset: u32,
}

impl Column {
    /// A scalar column of manager 0, its type string filled to eight
    /// characters as Casacore does.
    pub fn scalar(data_type: Type, name: &str) -> Self {
        let default = match data_type {
            STRING => DefaultValue::Text(Text::default()),
            _ => DefaultValue::Bytes(vec![0; data_type.size]),
        };
        Self {
            version: 1,
            type_name: format!("ScalarColumnDesc<{:8}", data_type.name).as_bytes().into(),
            base_version: 1,
            name: name.into(),
            comment: Text::default(),
            manager_type: "StandardStMan".into(),
            manager_group: "StandardStMan".into(),
            data_type: data_type.number,
            options: 0,
            dimensionality: 0,
            shape: None,
            string_maximum: 0,
            keywords: crate::record::empty(),
            derived_version: 1,
            default,
            info: ColumnInfo {
                version: 2,
                original_name: name.into(),
                derived_version: 1,
                manager: 0,
                shape_defined: 0,
                shape: None,
                set: 0,
                offset: 0,
            },
        }
    }

    /// An array column of free shape.
    pub fn array(data_type: Type, name: &str) -> Self {
        Self {
            type_name: format!("ArrayColumnDesc<{:8}", data_type.name).as_bytes().into(),
            dimensionality: -1,
            shape: Some(Shape::new(1, &[])),
            default: DefaultValue::Bytes(vec![0]),
            ..Self::scalar(data_type, name)
        }
    }

    /// An array column of fixed shape.
    pub fn fixed(data_type: Type, name: &str, axes: &[i64]) -> Self {
        Self {
            options: 4,
            dimensionality: axes.len() as i32,
            shape: Some(Shape::new(1, axes)),
            ..Self::array(data_type, name)
        }
    }

    /// A direct array column.
    pub fn direct(data_type: Type, name: &str, axes: &[i64]) -> Self {
        Self { options: 5, ..Self::fixed(data_type, name, axes) }
    }

    /// Binds the column to a manager's sequence number.
    pub fn of_manager(mut self, number: u32) -> Self {
        self.info.manager = number;
        self
    }

    /// The column's set and its offset in the set's buckets.
    pub fn at(mut self, set: u32, offset: u32) -> Self {
        self.info.set = set;
        self.info.offset = offset;
        self
    }

    pub fn comment(mut self, comment: &str) -> Self {
        self.comment = comment.into();
        self
    }

    pub fn keywords(mut self, keywords: Record) -> Self {
        self.keywords = keywords;
        self
    }

    pub fn string_maximum(mut self, maximum: u32) -> Self {
        self.string_maximum = maximum;
        self
    }

    pub fn is_array(&self) -> bool {
        self.shape.is_some()
    }

    /// An array with option 4.
    pub fn is_fixed(&self) -> bool {
        self.is_array() && self.options & 4 != 0
    }
}

/// A data manager: its entry in ColumnSet and its DMInfo.
#[derive(Clone, Debug)]
pub struct Manager {
    pub name: Text,
    pub number: u32,
    /// What is written.
    pub info: Text,
    /// What is written there, if that begins with the mark.
    pub object: Option<InfoObject>,
}

impl Manager {
    /// Without the mark in its DMInfo.
    pub fn new(name: &str, number: u32) -> Self {
        Self { name: name.into(), number, info: Text::default(), object: None }
    }

    /// With the mark and an object in its DMInfo, if it is of one of the two
    /// kinds; the object has this name.
    pub fn with_object(mut self, name: impl Into<Text>) -> Self {
        self.object = InfoObject::of_kind(&self.name.bytes, name);
        self
    }

    pub fn is_standard(&self) -> bool {
        self.name.bytes == b"StandardStMan"
    }

    /// StandardStMan and IncrementalStMan have a DMInfo that is judged.
    pub fn has_column_info(&self) -> bool {
        matches!(&self.name.bytes[..], b"StandardStMan" | b"IncrementalStMan")
    }

    /// Whether its DMInfo tells the set numbers and offsets of its columns.
    pub fn tells_places(&self) -> bool {
        let blocks = self.object.as_ref().map(|object| object.blocks.is_some());
        self.has_column_info() && blocks.unwrap_or(true)
    }

    /// Writes the DMInfo: the object, or set numbers, then offsets.
    pub fn write_info(&mut self, bound: &[&Column]) {
        self.info = match &mut self.object {
            Some(object) => {
                object.bind(bound);
                object.layout(0).bytes
            }
            None => {
                let sets = bound.iter().map(|column| column.info.set);
                let offsets = bound.iter().map(|column| column.info.offset);
                sets.chain(offsets).flat_map(u32::to_be_bytes).collect()
            }
        }
        .into();
    }

    /// Writes set numbers where offsets stand, and offsets where set numbers
    /// stand.
    pub fn exchange(&mut self) {
        match &mut self.object {
            Some(InfoObject { blocks: Some(blocks), .. }) => {
                std::mem::swap(&mut blocks.offsets.elements, &mut blocks.sets.elements);
                self.write_object();
            }
            Some(_) => {}
            None => {
                let half = self.info.bytes.len() / 2;
                self.info.bytes.rotate_left(half);
            }
        }
    }

    /// Writes the object once more, after a change of it; its Blocks stay.
    pub fn write_object(&mut self) {
        if let Some(object) = &self.object {
            self.info = object.layout(0).bytes.into();
        }
    }
}

/// A whole `table.dat`.
#[derive(Clone, Debug)]
pub struct Table {
    pub mark: [u8; 4],
    pub header: Header,
    /// The row count in Table's header.
    pub header_rows: u32,
    pub endianness: u32,
    pub table_type: Text,
    pub description: TableDesc,
    pub column_set: ColumnSet,
    /// Bytes after the Table object.
    pub trailing: Vec<u8>,
    /// Where the file is cut off, if it is.
    pub torn_at: Option<usize>,
}

#[derive(Clone, Debug)]
pub struct TableDesc {
    pub header: Header,
    pub name: Text,
    pub version: Text,
    pub comment: Text,
    pub keywords: Record,
    pub private_keywords: Record,
    /// The number of columns, if it is stated other than it is.
    pub column_count: Option<u32>,
    pub columns: Vec<Column>,
}

#[derive(Clone, Debug)]
pub struct ColumnSet {
    pub version: i32,
    /// A negative one is that of the same bits.
    pub rows: u64,
    /// Whether the row count is written as Int64 (version -3) or uInt (-2).
    pub wide: bool,
    pub highest: u32,
    /// The number of managers, if it is stated other than it is.
    pub manager_count: Option<u32>,
    pub managers: Vec<Manager>,
}

impl Table {
    /// With ColumnSet -2, unless the rows are too many for a uInt.
    pub fn new(rows: u64, endianness: u32, columns: Vec<Column>, managers: Vec<Manager>) -> Self {
        let wide = rows > u32::MAX.into();
        let mut table = Self {
            mark: [0xBE; 4],
            header: Header::new("Table", 2),
            header_rows: if wide { 0 } else { rows as u32 },
            endianness,
            table_type: "PlainTable".into(),
            description: TableDesc {
                header: Header::new("TableDesc", 2),
                name: Text::default(),
                version: Text::default(),
                comment: Text::default(),
                keywords: crate::record::empty(),
                private_keywords: crate::record::empty(),
                column_count: None,
                columns,
            },
            column_set: ColumnSet {
                version: if wide { -3 } else { -2 },
                rows,
                wide,
                // As Casacore has it: the next number to give.
                highest: managers.iter().map(|manager| manager.number + 1).max().unwrap_or(0),
                manager_count: None,
                managers,
            },
            trailing: Vec::new(),
            torn_at: None,
        };
        table.write_infos();
        table
    }

    /// ColumnSet -3, and any row count in Table's header.
    pub fn widen(&mut self, header_rows: u32) {
        self.header_rows = header_rows;
        self.column_set.version = -3;
        self.column_set.wide = true;
    }

    /// The table's row count: ColumnSet's.
    pub fn rows(&self) -> u64 {
        self.column_set.rows
    }

    /// Another row count; Table's header has it too where it is compared.
    pub fn set_rows(&mut self, rows: u64) {
        self.column_set.rows = rows;
        if !self.column_set.wide {
            self.header_rows = rows as u32;
        }
    }

    /// Writes the DMInfo of StandardStMan and IncrementalStMan, of the columns
    /// bound to each.
    pub fn write_infos(&mut self) {
        let columns = &self.description.columns;
        for manager in &mut self.column_set.managers {
            if manager.has_column_info() {
                let bound = columns.iter().filter(|c| c.info.manager == manager.number);
                manager.write_info(&bound.collect::<Vec<_>>());
            }
        }
    }

    /// The object in the DMInfo of the manager at a position: where it begins
    /// in the file, with its mark, and where its fields stand.
    pub fn info_layout(&self, manager: usize) -> Option<(usize, Layout)> {
        let object = self.managers()[manager].object.as_ref()?;
        let start = self.layout().field(Part::Manager(manager), "info", 0).start + 4;
        Some((start, object.layout(manager)))
    }

    /// Where what a refusal blames begins.
    pub fn byte(&self, blame: Blame) -> usize {
        match blame.part() {
            Some(Part::Info(index) | Part::InfoOffsets(index) | Part::InfoSets(index)) => {
                let (start, layout) = self.info_layout(index).expect("there is an object");
                start + layout.byte(blame)
            }
            _ => self.layout().byte(blame),
        }
    }

    /// The number of columns bound to a manager.
    pub fn bound_to(&self, number: u32) -> usize {
        self.columns().iter().filter(|column| column.info.manager == number).count()
    }

    pub fn columns(&self) -> &[Column] {
        &self.description.columns
    }

    pub fn columns_mut(&mut self) -> &mut Vec<Column> {
        &mut self.description.columns
    }

    pub fn managers(&self) -> &[Manager] {
        &self.column_set.managers
    }

    pub fn managers_mut(&mut self) -> &mut Vec<Manager> {
        &mut self.column_set.managers
    }

    /// The headers of all objects, in file order.
    pub fn headers_mut(&mut self) -> Vec<&mut Header> {
        let mut headers = vec![
            &mut self.header,
            &mut self.description.header,
            &mut self.description.keywords.header,
            &mut self.description.private_keywords.header,
        ];
        let mut later = Vec::new();
        for column in &mut self.description.columns {
            let is_array = column.shape.is_some();
            headers.extend(column.shape.as_mut().map(|shape| &mut shape.header));
            headers.push(&mut column.keywords.header);
            if is_array && column.info.shape_defined == 1 {
                later.extend(column.info.shape.as_mut().map(|shape| &mut shape.header));
            }
        }
        headers.append(&mut later);
        headers
    }

    /// All strings, names of objects and DMInfos too, with the rule for each,
    /// in file order.
    pub fn texts_mut(&mut self) -> Vec<(Rule, &mut Text)> {
        let description = &mut self.description;
        let mut texts = vec![
            (Rule::Expected, &mut self.header.name),
            (Rule::Expected, &mut self.table_type),
            (Rule::Expected, &mut description.header.name),
            (Rule::Free, &mut description.name),
            (Rule::Free, &mut description.version),
            (Rule::Free, &mut description.comment),
            (Rule::Expected, &mut description.keywords.header.name),
            (Rule::Expected, &mut description.private_keywords.header.name),
        ];
        let mut later = Vec::new();
        for column in &mut description.columns {
            let is_array = column.shape.is_some();
            texts.push((Rule::ColumnType, &mut column.type_name));
            texts.push((Rule::ColumnName, &mut column.name));
            texts.push((Rule::Free, &mut column.comment));
            texts.push((Rule::Free, &mut column.manager_type));
            texts.push((Rule::Free, &mut column.manager_group));
            if let Some(shape) = &mut column.shape {
                texts.push((Rule::Expected, &mut shape.header.name));
            }
            texts.push((Rule::Expected, &mut column.keywords.header.name));
            if let DefaultValue::Text(text) = &mut column.default {
                texts.push((Rule::Free, text));
            }
            later.push((Rule::Free, &mut column.info.original_name));
            if is_array
                && column.info.shape_defined == 1
                && let Some(shape) = &mut column.info.shape
            {
                later.push((Rule::Expected, &mut shape.header.name));
            }
        }
        let mut infos = Vec::new();
        for manager in &mut self.column_set.managers {
            let rule = Rule::Info { judged: manager.has_column_info() };
            texts.push((Rule::Free, &mut manager.name));
            infos.push((rule, &mut manager.info));
        }
        texts.append(&mut later);
        texts.append(&mut infos);
        texts
    }
}

/// The rule for a string.
#[derive(Clone, Copy, Debug, PartialEq, Eq)]
pub enum Rule {
    /// The name of an object or the table type: one value only.
    Expected,
    ColumnType,
    /// 1 to 64 bytes.
    ColumnName,
    /// 0 to 4,096 bytes.
    Free,
    /// A DMInfo, whose length is judged for two kinds of managers.
    Info {
        judged: bool,
    },
}
