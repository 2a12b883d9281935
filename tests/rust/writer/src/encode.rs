//! The bytes of a table: AipsIO (Note 260, section 2; RULES.md 3).

use crate::layout::{Field, LENGTH, Layout, OBJECT_NAME, OBJECT_VERSION, Object, Part};
use crate::order::Order;
use crate::table::{Column, DefaultValue, Header, Record, Shape, Table, Text};

/// Writes fields, and records where each begins.
#[derive(Debug, Default)]
pub struct Encoder {
    bytes: Vec<u8>,
    objects: Vec<Object>,
    fields: Vec<Field>,
    /// Whose fields are written.
    part: Part,
    /// The objects that they stand in, the innermost last.
    open: Vec<usize>,
    order: Order,
}

impl Encoder {
    pub fn new(order: Order) -> Self {
        Self { order, ..Self::default() }
    }

    pub fn order(&self) -> Order {
        self.order
    }

    /// What `fields` writes has this byte order.
    pub fn in_order(&mut self, order: Order, fields: impl FnOnce(&mut Self)) {
        let outer = std::mem::replace(&mut self.order, order);
        fields(self);
        self.order = outer;
    }

    /// Bytes that are no field.
    pub fn raw(&mut self, bytes: &[u8]) {
        self.bytes.extend_from_slice(bytes);
    }

    fn record_field(&mut self, name: &'static str, number: usize, start: usize, is_text: bool) {
        self.fields.push(Field {
            of: self.part,
            name,
            number,
            start,
            end: self.bytes.len(),
            container: self.open.last().copied(),
            is_text,
        });
    }

    /// A field that is one of several with its name.
    pub fn nth(&mut self, name: &'static str, number: usize, bytes: &[u8]) {
        let start = self.bytes.len();
        self.raw(bytes);
        self.record_field(name, number, start, false);
    }

    pub fn field(&mut self, name: &'static str, bytes: &[u8]) {
        self.nth(name, 0, bytes);
    }

    /// A number that is one of several with its name.
    pub fn nth_uint(&mut self, name: &'static str, number: usize, value: u32) {
        self.nth(name, number, &self.order.number(value));
    }

    /// The same, of 8 bytes if it is wide.
    pub fn nth_number(&mut self, name: &'static str, number: usize, value: u64, wide: bool) {
        match wide {
            true => self.nth(name, number, &self.order.turn(value.to_be_bytes())),
            false => self.nth_uint(name, number, value as u32),
        }
    }

    pub fn uint(&mut self, name: &'static str, number: u32) {
        self.nth_uint(name, 0, number);
    }

    pub fn int(&mut self, name: &'static str, number: i32) {
        self.nth_uint(name, 0, number as u32);
    }

    pub fn text(&mut self, name: &'static str, text: &Text) {
        self.nth_text(name, 0, text);
    }

    /// A String that is one of several with its name.
    pub fn nth_text(&mut self, name: &'static str, number: usize, text: &Text) {
        let start = self.bytes.len();
        let length = text.stated.unwrap_or(text.bytes.len() as u32);
        self.raw(&self.order.number(length));
        self.raw(&text.bytes);
        self.record_field(name, number, start, true);
    }

    /// Where the next field begins.
    pub fn at(&self) -> usize {
        self.bytes.len()
    }

    /// What `fields` writes is of this part.
    pub fn of(&mut self, part: Part, fields: impl FnOnce(&mut Self)) {
        let outer = std::mem::replace(&mut self.part, part);
        fields(self);
        self.part = outer;
    }

    /// An object: its header, then the fields that `fields` writes.
    pub fn object(&mut self, part: Part, header: &Header, fields: impl FnOnce(&mut Self)) {
        let order = header.order.unwrap_or(self.order);
        self.of(part, |out| out.in_order(order, |out| out.open_object(header, fields)));
    }

    fn open_object(&mut self, header: &Header, fields: impl FnOnce(&mut Self)) {
        let start = self.bytes.len();
        let object = self.objects.len();
        self.objects.push(Object {
            of: self.part,
            start,
            end: start,
            length: 0,
            container: self.open.last().copied(),
            fields: 0..0,
        });
        self.uint(LENGTH, 0); // known at the end
        self.text(OBJECT_NAME, &header.name);
        self.uint(OBJECT_VERSION, header.version);
        let (header_end, first_field) = (self.bytes.len(), self.fields.len());
        self.open.push(object);
        self.in_order(header.fields_order.unwrap_or(self.order), fields);
        self.open.pop();
        let kept = self.bytes.len().saturating_sub(header.cut).max(header_end);
        self.bytes.truncate(kept);
        self.raw(&header.extra);
        let end = self.bytes.len();
        let length = header.stated.unwrap_or((end - start) as u32);
        self.bytes[start..start + 4].copy_from_slice(&self.order.number(length));
        let object = &mut self.objects[object];
        (object.end, object.length) = (end, length as usize);
        object.fields = first_field..self.fields.len();
    }

    pub fn record(&mut self, part: Part, record: &Record) {
        self.object(part, &record.header, |out| out.raw(&record.contents));
    }

    pub fn shape(&mut self, part: Part, shape: &Shape) {
        self.object(part, &shape.header, |out| {
            out.uint("count", shape.count.unwrap_or(shape.axes.len() as u32));
            for (number, axis) in shape.axes.iter().enumerate() {
                out.nth_number("axis", number, *axis as u64, shape.wide);
            }
        });
    }

    /// What was written, and where.
    pub fn layout(self) -> Layout {
        let Self { bytes, objects, fields, order, .. } = self;
        Layout { bytes, objects, fields, order }
    }

    fn column_desc(&mut self, position: usize, column: &Column) {
        self.uint("version", column.version);
        self.text("type", &column.type_name);
        self.uint("base version", column.base_version);
        self.text("name", &column.name);
        self.text("comment", &column.comment);
        self.text("manager type", &column.manager_type);
        self.text("manager group", &column.manager_group);
        self.int("data type", column.data_type);
        self.int("options", column.options);
        self.int("dimensionality", column.dimensionality);
        if let Some(shape) = &column.shape {
            self.shape(Part::Shape(position), shape);
        }
        self.uint("string maximum", column.string_maximum);
        self.record(Part::ColumnKeywords(position), &column.keywords);
        self.uint("derived version", column.derived_version);
        match &column.default {
            DefaultValue::Bytes(bytes) => self.field("default", bytes),
            DefaultValue::Text(text) => self.text("default", text),
        }
    }

    fn table_desc(&mut self, table: &Table) {
        let description = &table.description;
        self.object(Part::TableDesc, &description.header, |out| {
            out.text("name", &description.name);
            out.text("version", &description.version);
            out.text("comment", &description.comment);
            out.record(Part::Keywords, &description.keywords);
            out.record(Part::PrivateKeywords, &description.private_keywords);
            let count = description.columns.len() as u32;
            out.uint("column count", description.column_count.unwrap_or(count));
            for (position, column) in description.columns.iter().enumerate() {
                out.of(Part::Column(position), |out| out.column_desc(position, column));
            }
        });
    }

    fn column_set(&mut self, table: &Table) {
        let set = &table.column_set;
        self.int("version", set.version);
        self.nth_number("rows", 0, set.rows, set.wide);
        self.uint("highest", set.highest);
        self.uint("manager count", set.manager_count.unwrap_or(set.managers.len() as u32));
        for (index, manager) in set.managers.iter().enumerate() {
            self.of(Part::Manager(index), |out| {
                out.text("name", &manager.name);
                out.uint("number", manager.number);
            });
        }
        for (position, column) in table.description.columns.iter().enumerate() {
            self.of(Part::ColumnInfo(position), |out| out.column_info(position, column));
        }
        for (index, manager) in set.managers.iter().enumerate() {
            self.of(Part::Manager(index), |out| out.text("info", &manager.info));
        }
    }

    fn column_info(&mut self, position: usize, column: &Column) {
        let info = &column.info;
        self.int("version", info.version);
        self.text("original name", &info.original_name);
        self.uint("derived version", info.derived_version);
        self.uint("manager", info.manager);
        if !column.is_array() {
            return;
        }
        self.field("shape defined", &[info.shape_defined]);
        if info.shape_defined == 1
            && let Some(shape) = &info.shape
        {
            self.shape(Part::InfoShape(position), shape);
        }
    }

    fn table(&mut self, table: &Table) {
        self.of(Part::Table, |out| out.field("mark", &table.mark));
        self.object(Part::Table, &table.header, |out| {
            out.uint("rows", table.header_rows);
            out.uint("endianness", table.endianness);
            out.text("table type", &table.table_type);
            out.table_desc(table);
            out.of(Part::ColumnSet, |out| out.column_set(table));
        });
        self.raw(&table.trailing);
        if let Some(length) = table.torn_at {
            self.bytes.truncate(length);
        }
    }
}

impl Table {
    pub fn layout(&self) -> Layout {
        let mut out = Encoder::default();
        out.table(self);
        out.layout()
    }

    pub fn encode(&self) -> Vec<u8> {
        self.layout().bytes
    }
}
