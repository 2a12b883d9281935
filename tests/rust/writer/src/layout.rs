//! Where the fields of a file stand, as the writer put them there, and which of
//! them a refusal blames.

use crate::order::Order;
use std::ops::Range;

/// Whose a field is: an object, or fields that belong together; by number where
/// there are several.
#[derive(Clone, Copy, Debug, Default, PartialEq, Eq)]
pub enum Part {
    /// What readers pass over.
    #[default]
    Contents,
    Table,
    TableDesc,
    Keywords,
    PrivateKeywords,
    /// A ColumnDesc by its column's position, as the next two.
    Column(usize),
    Shape(usize),
    ColumnKeywords(usize),
    ColumnSet,
    Manager(usize),
    /// The object in a DMInfo by its manager's position, and its Blocks.
    Info(usize),
    InfoOffsets(usize),
    InfoSets(usize),
    /// By the column's position, as the next.
    ColumnInfo(usize),
    InfoShape(usize),
    /// The header of a manager's file.
    Header,
    /// An SSMIndex by its set, as the next three. The ISMIndex is number 0.
    Index(usize),
    FreeSpace(usize),
    /// The Block of last rows or of first rows.
    Rows(usize),
    /// The Block of bucket numbers.
    Numbers(usize),
    /// A bucket of IncrementalStMan by its entry in the index, and the values
    /// of one of the manager's columns in it.
    Bucket(usize),
    Values(usize, usize),
    /// What stands in a TableRecord: an object, or what belongs to one field, by
    /// the number that [`crate::keywords::record`] gives it.
    Keyword(usize),
}

// The fields of every object's header.
pub const LENGTH: &str = "length";
pub const OBJECT_NAME: &str = "object name";
pub const OBJECT_VERSION: &str = "object version";

impl Part {
    /// Blames its only field of this name.
    pub fn field(self, name: &'static str) -> Blame {
        self.nth(name, 0)
    }

    /// Blames one of its fields of this name.
    pub fn nth(self, name: &'static str, number: usize) -> Blame {
        Blame::Field(self, name, number)
    }

    /// Blames the object's header, which begins with its length.
    pub fn header(self) -> Blame {
        self.field(LENGTH)
    }
}

/// What a refusal blames.
#[derive(Clone, Copy, Debug, PartialEq, Eq)]
pub enum Blame {
    /// No field: the byte is 0.
    Nothing,
    /// The field with this name and number of a part.
    Field(Part, &'static str, usize),
    /// What begins so many bytes after the only field of this name does.
    Within(Part, &'static str, usize),
    /// The first field or object that passes the end of this object, as its
    /// length is stated.
    Past(Part),
    /// A field that is missing at the end of this object.
    End(Part),
    /// The first field or object that passes the end of what holds this part,
    /// if so many bytes of that are left.
    Torn(Part, usize),
    /// The file's length.
    FileEnd,
    Byte(usize),
}

impl Blame {
    /// The part that it names.
    pub fn part(self) -> Option<Part> {
        match self {
            Self::Field(part, ..)
            | Self::Within(part, ..)
            | Self::Past(part)
            | Self::End(part)
            | Self::Torn(part, _) => Some(part),
            Self::Nothing | Self::FileEnd | Self::Byte(_) => None,
        }
    }
}

/// A field: a number, or a String with its length.
#[derive(Clone, Copy, Debug)]
pub struct Field {
    pub of: Part,
    pub name: &'static str,
    /// Among several with this name.
    pub number: usize,
    pub start: usize,
    pub end: usize,
    /// The object it stands in, by its position among the objects.
    pub container: Option<usize>,
    pub is_text: bool,
}

#[derive(Clone, Debug)]
pub struct Object {
    pub of: Part,
    pub start: usize,
    pub end: usize,
    /// As it is stated.
    pub length: usize,
    /// The object it stands in, by its position among the objects.
    pub container: Option<usize>,
    /// Its fields after the header, and those of the objects in it, by their
    /// positions among the fields.
    pub fields: Range<usize>,
}

/// The bytes of a file or of a part of one, and what stands where in them, in
/// file order. A field that was cut off stands where it would.
#[derive(Clone, Debug)]
pub struct Layout {
    pub bytes: Vec<u8>,
    pub objects: Vec<Object>,
    pub fields: Vec<Field>,
    /// The byte order of its numbers.
    pub order: Order,
}

impl Layout {
    /// The bytes from a place in a container to the container's end.
    pub fn room(&self, start: usize, container: Option<usize>) -> usize {
        let end = container.map_or(self.bytes.len(), |object| self.objects[object].end);
        end.saturating_sub(start)
    }

    /// The Strings, names of objects and DMInfos too.
    pub fn texts(&self) -> Vec<Field> {
        self.fields.iter().filter(|field| field.is_text).copied().collect()
    }

    pub fn object(&self, of: Part) -> &Object {
        let object = self.objects.iter().find(|object| object.of == of);
        object.unwrap_or_else(|| panic!("no object {of:?}"))
    }

    pub fn field(&self, of: Part, name: &str, number: usize) -> &Field {
        let is_it = |field: &&Field| (field.of, field.name, field.number) == (of, name, number);
        let field = self.fields.iter().find(is_it);
        field.unwrap_or_else(|| panic!("no field {name} {number} of {of:?}"))
    }

    /// Where what a refusal blames begins.
    pub fn byte(&self, blame: Blame) -> usize {
        match blame {
            Blame::Nothing => 0,
            Blame::Field(of, name, number) => self.field(of, name, number).start,
            Blame::Within(of, name, bytes) => self.field(of, name, 0).start + bytes,
            Blame::Past(of) => {
                let object = self.object(of);
                self.first_past(object.start + object.length, object.fields.clone())
            }
            Blame::End(of) => self.object(of).end,
            Blame::Torn(_, length) => self.first_past(length, 0..self.fields.len()),
            Blame::FileEnd => self.bytes.len(),
            Blame::Byte(byte) => byte,
        }
    }

    /// The first of these fields, or of the objects that begin with them, that
    /// passes this end. An object's own end is looked at after its version.
    fn first_past(&self, end: usize, fields: Range<usize>) -> usize {
        let passing = |field: &Field| {
            if field.end > end {
                return Some(field.start);
            }
            let object = (field.name == OBJECT_VERSION).then(|| self.object(field.of))?;
            (object.start + object.length > end).then_some(object.start)
        };
        self.fields[fields].iter().find_map(passing).expect("something passes the end")
    }

    /// The first bytes, with the lengths of the objects that are cut off cut
    /// too, so that a reader gets as far as there are fields.
    pub fn cut(&self, length: usize) -> Vec<u8> {
        let mut bytes = self.bytes[..length].to_vec();
        for object in &self.objects {
            if object.start + 4 <= length && length < object.end {
                let left = (length - object.start) as u32;
                bytes[object.start..object.start + 4].copy_from_slice(&self.order.number(left));
            }
        }
        bytes
    }

    /// Where the field begins that is missing in these first bytes. After
    /// contents that were cut off it begins at their end.
    pub fn missing(&self, length: usize) -> usize {
        let field = self.fields.iter().find(|field| field.end > length);
        field.expect("a field is missing").start.min(length)
    }
}
