//! A TableRecord, field by field, every field free; and where each keyword of it
//! stands.
//!
//! What belongs together has a number: an object, or what one keyword has in a
//! RecordDesc and as its value. [`TableRecord::number`] gives them out.

use crate::encode::Encoder;
use crate::layout::{Blame, Field, LENGTH, Layout, OBJECT_NAME, OBJECT_VERSION, Part};
use crate::table::{BOOL, Header, INT64, Record, STRING, Shape, Text, Type};
use std::ops::Range;

/// The type numbers of a Table and of a record.
pub const TABLE: i32 = 12;
pub const RECORD: i32 = 25;

/// The number of an array's type.
pub fn array_number(element: Type) -> i32 {
    if element == INT64 { 30 } else { element.number + 13 }
}

#[derive(Clone, Debug)]
pub struct TableRecord {
    pub id: usize,
    pub header: Header,
    pub desc: Desc,
    pub record_type: i32,
}

/// A RecordDesc, and the values of what it describes.
#[derive(Clone, Debug)]
pub struct Desc {
    pub id: usize,
    pub header: Header,
    /// The number of keywords, if it is stated other than it is.
    pub count: Option<u32>,
    pub keys: Vec<Key>,
    /// Whether comments are written (version 2) or not (version 1).
    pub commented: bool,
}

/// What an object is, whatever its name says.
#[derive(Clone, Copy, Debug, PartialEq, Eq)]
pub enum Kind {
    TableRecord,
    RecordDesc,
    /// The IPosition of a keyword in its RecordDesc.
    Shape,
    Array,
}

/// A keyword. Its number is followed by that of an IPosition and of an Array.
#[derive(Clone, Debug)]
pub struct Key {
    pub id: usize,
    pub name: Text,
    pub data_type: i32,
    pub comment: Text,
    pub value: Value,
}

/// What a keyword's type asks for in the RecordDesc, and the value.
#[derive(Clone, Debug)]
pub enum Value {
    /// A scalar other than a String.
    Bytes(Vec<u8>),
    Text(Text),
    Table {
        /// The TableDesc name.
        described: Text,
        name: Text,
    },
    Array(FieldShape, Array),
    /// A record with fields.
    Record(Desc),
    /// A record with an empty description, and its TableRecord.
    Whole(Desc, Box<TableRecord>),
}

/// The shape in a RecordDesc.
#[derive(Clone, Debug)]
pub enum FieldShape {
    Ints {
        /// The count, if it is stated other than it is.
        count: Option<u32>,
        axes: Vec<i32>,
    },
    Position(Shape),
    /// Anything in a shape's place.
    Bytes(Vec<u8>),
}

impl FieldShape {
    pub fn ints(axes: &[i32]) -> Self {
        Self::Ints { count: None, axes: axes.to_vec() }
    }
}

/// An Array object.
#[derive(Clone, Debug)]
pub struct Array {
    pub header: Header,
    /// The number of axes, if it is stated other than it is.
    pub count: Option<u32>,
    /// Versions 1 and 2 have one.
    pub origin: Option<Vec<i32>>,
    pub axes: Vec<i32>,
    pub elements: Elements,
}

#[derive(Clone, Debug)]
pub enum Elements {
    /// Of so many bytes each; Bools are bits in whole bytes.
    Bytes(usize, Vec<u8>),
    Texts(Vec<Text>),
}

impl Elements {
    /// Bools as bits, the first in the lowest.
    pub fn bits(bools: &[bool]) -> Self {
        let byte = |bools: &[bool]| {
            bools.iter().rev().fold(0, |byte, is_true| byte << 1 | u8::from(*is_true))
        };
        Self::Bytes(1, bools.chunks(8).map(byte).collect())
    }

    pub fn texts(texts: &[&str]) -> Self {
        Self::Texts(texts.iter().map(|text| (*text).into()).collect())
    }

    /// How many bytes or texts there are.
    pub fn len(&self) -> usize {
        match self {
            Self::Bytes(_, bytes) => bytes.len(),
            Self::Texts(texts) => texts.len(),
        }
    }

    pub fn is_empty(&self) -> bool {
        self.len() == 0
    }
}

impl Array {
    /// With this name, version, and an origin of zeros where the version has one.
    pub fn new(name: &str, version: u32, axes: &[i32], elements: Elements) -> Self {
        Self {
            header: Header::new(name, version),
            count: None,
            origin: (version < 3).then(|| vec![0; axes.len()]),
            axes: axes.to_vec(),
            elements,
        }
    }

    /// How many elements the axes tell, which must be few.
    pub fn count(axes: &[i32]) -> usize {
        let product = axes.iter().fold(1, |count: usize, axis| count.wrapping_mul(*axis as usize));
        if axes.is_empty() { 0 } else { product }
    }
}

impl Key {
    pub fn new(name: impl Into<Text>, data_type: i32, value: Value) -> Self {
        Self { id: 0, name: name.into(), data_type, comment: Text::default(), value }
    }

    /// A scalar other than a String.
    pub fn scalar(name: impl Into<Text>, data_type: Type, value: &[u8]) -> Self {
        Self::new(name, data_type.number, Value::Bytes(value.to_vec()))
    }

    pub fn string(name: impl Into<Text>, value: impl Into<Text>) -> Self {
        Self::new(name, STRING.number, Value::Text(value.into()))
    }

    pub fn table(name: impl Into<Text>, value: impl Into<Text>) -> Self {
        let value = Value::Table { described: Text::default(), name: value.into() };
        Self::new(name, TABLE, value)
    }

    pub fn array(name: impl Into<Text>, element: Type, shape: FieldShape, array: Array) -> Self {
        Self::new(name, array_number(element), Value::Array(shape, array))
    }

    pub fn record(name: impl Into<Text>, desc: Desc) -> Self {
        Self::new(name, RECORD, Value::Record(desc))
    }

    /// A record with an empty description.
    pub fn whole(name: impl Into<Text>, desc: Desc, record: TableRecord) -> Self {
        Self::new(name, RECORD, Value::Whole(desc, Box::new(record)))
    }

    pub fn comment(self, comment: &str) -> Self {
        Self { comment: comment.into(), ..self }
    }

    /// Whether its value is one byte that is a Bool.
    pub fn is_bool(&self) -> bool {
        self.data_type == BOOL.number
    }

    fn number(&mut self, next: &mut usize) {
        self.id = *next;
        *next += 3;
        match &mut self.value {
            Value::Record(desc) => desc.number(next),
            Value::Whole(desc, record) => {
                desc.number(next);
                record.number_from(next);
            }
            _ => {}
        }
    }

    /// The keywords of a held record.
    fn held(&self) -> Option<&Desc> {
        match &self.value {
            Value::Record(desc) => Some(desc),
            Value::Whole(_, record) => Some(&record.desc),
            _ => None,
        }
    }

    fn held_mut(&mut self) -> Option<&mut Desc> {
        match &mut self.value {
            Value::Record(desc) => Some(desc),
            Value::Whole(_, record) => Some(&mut record.desc),
            _ => None,
        }
    }

    fn object_mut(&mut self, id: usize) -> Option<(Kind, &mut Header)> {
        let (of_shape, of_array) = (self.id + 1 == id, self.id + 2 == id);
        match &mut self.value {
            Value::Array(FieldShape::Position(shape), _) if of_shape => {
                Some((Kind::Shape, &mut shape.header))
            }
            Value::Array(_, array) if of_array => Some((Kind::Array, &mut array.header)),
            Value::Record(desc) => desc.object_mut(id),
            Value::Whole(desc, _) if desc.id == id => Some((Kind::RecordDesc, &mut desc.header)),
            Value::Whole(_, record) => record.object_mut(id),
            _ => None,
        }
    }
}

impl Desc {
    /// Of version 1, without comments, or 2.
    pub fn new(version: u32, keys: Vec<Key>) -> Self {
        let header = Header::new("RecordDesc", version);
        Self { id: 0, header, count: None, keys, commented: version == 2 }
    }

    fn number(&mut self, next: &mut usize) {
        self.id = *next;
        *next += 1;
        for key in &mut self.keys {
            key.number(next);
        }
    }

    /// All keywords, those of held records after their holders.
    pub fn all(&self) -> Vec<&Key> {
        let with_held =
            |key| [key].into_iter().chain(Key::held(key).map(Desc::all).unwrap_or_default());
        self.keys.iter().flat_map(with_held).collect()
    }

    /// The descriptions of the record and of those that it holds; of whole ones
    /// the empty description and that of the TableRecord.
    pub fn descs(&self) -> Vec<&Desc> {
        let mut descs = vec![self];
        for key in &self.keys {
            match &key.value {
                Value::Record(desc) => descs.extend(desc.descs()),
                Value::Whole(desc, record) => {
                    descs.push(desc);
                    descs.extend(record.desc.descs());
                }
                _ => {}
            }
        }
        descs
    }

    pub fn key_mut(&mut self, id: usize) -> Option<&mut Key> {
        for key in &mut self.keys {
            if key.id == id {
                return Some(key);
            }
            if let Some(found) = key.held_mut().and_then(|held| held.key_mut(id)) {
                return Some(found);
            }
        }
        None
    }

    pub fn desc_mut(&mut self, id: usize) -> Option<&mut Desc> {
        if self.id == id {
            return Some(self);
        }
        self.keys.iter_mut().find_map(|key| match &mut key.value {
            Value::Record(desc) => desc.desc_mut(id),
            Value::Whole(desc, _) if desc.id == id => Some(desc),
            Value::Whole(_, record) => record.desc.desc_mut(id),
            _ => None,
        })
    }

    fn object_mut(&mut self, id: usize) -> Option<(Kind, &mut Header)> {
        if self.id == id {
            return Some((Kind::RecordDesc, &mut self.header));
        }
        self.keys.iter_mut().find_map(|key| key.object_mut(id))
    }
}

/// A keyword's place: its name, and the part that holds its value.
#[derive(Clone, Debug)]
pub struct Place {
    pub name: Vec<u8>,
    /// Where the bytes of the name begin.
    pub name_start: usize,
    pub data_type: i32,
    pub part: Range<usize>,
    /// The keywords of a held record.
    pub held: Option<Vec<Place>>,
}

/// Where the name of a keyword begins, and those of a held record.
struct Named {
    start: usize,
    held: Vec<Named>,
}

impl TableRecord {
    pub fn new(desc: Desc) -> Self {
        let header = Header::new("TableRecord", 1);
        let mut record = Self { id: 0, header, desc, record_type: 1 };
        record.number();
        record
    }

    /// Numbers what it holds, after a change.
    pub fn number(&mut self) {
        self.number_from(&mut 0);
    }

    fn number_from(&mut self, next: &mut usize) {
        self.id = *next;
        *next += 1;
        self.desc.number(next);
    }

    pub fn header_mut(&mut self, id: usize) -> Option<&mut Header> {
        self.object_mut(id).map(|(_, header)| header)
    }

    /// The object of this number: what it is, and its header.
    pub fn object_mut(&mut self, id: usize) -> Option<(Kind, &mut Header)> {
        if self.id == id {
            return Some((Kind::TableRecord, &mut self.header));
        }
        self.desc.object_mut(id)
    }

    /// The String of this number and name among the fields.
    pub fn text_mut(&mut self, of: Part, name: &str, number: usize) -> &mut Text {
        let Part::Keyword(id) = of else { panic!("{of:?} is of no TableRecord") };
        // The elements of an Array have the Array's number.
        let id = if name == "element" { id - 2 } else { id };
        let key = self.desc.key_mut(id).expect("there is this keyword");
        match (name, &mut key.value) {
            ("name", _) => &mut key.name,
            ("comment", _) => &mut key.comment,
            ("TableDesc name", Value::Table { described, .. }) => described,
            ("value", Value::Table { name, .. }) => name,
            ("value", Value::Text(text)) => text,
            ("element", Value::Array(_, Array { elements: Elements::Texts(texts), .. })) => {
                &mut texts[number]
            }
            _ => panic!("{name} is no String"),
        }
    }

    /// The IPositions in its RecordDescs.
    pub fn shapes(&self) -> Vec<Part> {
        let is_shape = |key: &&Key| match &key.value {
            Value::Array(FieldShape::Position(shape), _) => shape.header.name.bytes == b"IPosition",
            _ => false,
        };
        let keys = self.desc.all().into_iter().filter(is_shape);
        keys.map(|key| Part::Keyword(key.id + 1)).collect()
    }

    /// Its bytes and what stands where in them, counted from its own start, and the
    /// places of its keywords.
    pub fn layout(&self) -> (Layout, Vec<Place>) {
        let mut out = Encoder::default();
        let places = self.put(&mut out);
        (out.layout(), places)
    }

    /// As a part of a table: with the changes at its end among its contents.
    pub fn encode(&self) -> Record {
        let (layout, _) = self.layout();
        let contents = layout.bytes[self.header.size()..].to_vec();
        let header = Header { cut: 0, extra: Vec::new(), ..self.header.clone() };
        Record { header, contents }
    }

    fn put(&self, out: &mut Encoder) -> Vec<Place> {
        let mut places = Vec::new();
        out.object(Part::Keyword(self.id), &self.header, |out| {
            let named = self.desc.put(out);
            out.int("record type", self.record_type);
            places = self.desc.put_values(out, &named);
        });
        places
    }

    /// Where what a refusal blames begins, counted from the record's start.
    pub fn byte(&self, blame: Blame) -> usize {
        let (layout, _) = self.layout();
        match blame {
            Blame::Past(of) => {
                let object = layout.object(of);
                let end = object.start + object.length;
                first_past(&layout, &self.shapes(), end, object.fields.clone())
            }
            _ => layout.byte(blame),
        }
    }
}

/// The first of these fields, or of the objects that begin with them, that passes
/// this end. An IPosition (of which these are some) whose name passes it is none:
/// its length is a count, and of so many Ints not all are there.
pub fn first_past(layout: &Layout, shapes: &[Part], end: usize, fields: Range<usize>) -> usize {
    let passing = |field: &Field| {
        if field.end > end {
            return Some(field.start);
        }
        if field.name == LENGTH
            && shapes.contains(&field.of)
            && layout.field(field.of, OBJECT_NAME, 0).end > end
        {
            return Some(missing_int(field.start, end));
        }
        let object = (field.name == OBJECT_VERSION).then(|| layout.object(field.of))?;
        (object.start + object.length > end).then_some(object.start)
    };
    layout.fields[fields].iter().find_map(passing).expect("something passes the end")
}

/// The first Int behind a count at this place that is not there before the end.
pub fn missing_int(count: usize, end: usize) -> usize {
    count + 4 + end.saturating_sub(count + 4) / 4 * 4
}

impl Desc {
    fn put(&self, out: &mut Encoder) -> Vec<Named> {
        let mut named = Vec::new();
        out.object(Part::Keyword(self.id), &self.header, |out| {
            out.uint("count", self.count.unwrap_or(self.keys.len() as u32));
            for key in &self.keys {
                out.of(Part::Keyword(key.id), |out| {
                    named.push(key.describe(out));
                    if self.commented {
                        out.text("comment", &key.comment);
                    }
                });
            }
        });
        named
    }

    fn put_values(&self, out: &mut Encoder, named: &[Named]) -> Vec<Place> {
        let put = |(key, named): (&Key, &Named)| {
            let mut place = None;
            out.of(Part::Keyword(key.id), |out| place = Some(key.put_value(out, named)));
            place.expect("the value was put")
        };
        self.keys.iter().zip(named).map(put).collect()
    }
}

impl Key {
    fn describe(&self, out: &mut Encoder) -> Named {
        let start = out.at() + 4;
        out.text("name", &self.name);
        out.int("type", self.data_type);
        let mut held = Vec::new();
        match &self.value {
            Value::Bytes(_) | Value::Text(_) => {}
            Value::Table { described, .. } => out.text("TableDesc name", described),
            Value::Array(FieldShape::Ints { count, axes }, _) => {
                out.uint("shape count", count.unwrap_or(axes.len() as u32));
                for (number, axis) in axes.iter().enumerate() {
                    out.nth_uint("shape axis", number, *axis as u32);
                }
            }
            Value::Array(FieldShape::Position(shape), _) => {
                out.shape(Part::Keyword(self.id + 1), shape);
            }
            Value::Array(FieldShape::Bytes(bytes), _) => out.field("shape", bytes),
            Value::Record(desc) => held = desc.put(out),
            Value::Whole(desc, _) => drop(desc.put(out)),
        }
        Named { start, held }
    }

    fn put_value(&self, out: &mut Encoder, named: &Named) -> Place {
        let start = out.at();
        let mut held = None;
        match &self.value {
            Value::Bytes(bytes) => out.field("value", bytes),
            Value::Text(text) | Value::Table { name: text, .. } => out.text("value", text),
            Value::Array(_, array) => array.put(out, Part::Keyword(self.id + 2)),
            Value::Record(desc) => held = Some(desc.put_values(out, &named.held)),
            Value::Whole(_, record) => held = Some(record.put(out)),
        }
        Place {
            name: self.name.bytes.clone(),
            name_start: named.start,
            data_type: self.data_type,
            part: start..out.at(),
            held,
        }
    }
}

impl Array {
    fn put(&self, out: &mut Encoder, of: Part) {
        out.object(of, &self.header, |out| {
            out.uint("axes", self.count.unwrap_or(self.axes.len() as u32));
            for (number, start) in self.origin.iter().flatten().enumerate() {
                out.nth_uint("origin", number, *start as u32);
            }
            for (number, axis) in self.axes.iter().enumerate() {
                out.nth_uint("axis", number, *axis as u32);
            }
            match &self.elements {
                Elements::Bytes(width, bytes) => {
                    for (number, element) in bytes.chunks(*width).enumerate() {
                        out.nth("element", number, element);
                    }
                }
                Elements::Texts(texts) => {
                    for (number, text) in texts.iter().enumerate() {
                        out.nth_text("element", number, text);
                    }
                }
            }
        });
    }
}
