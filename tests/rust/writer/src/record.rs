//! Contents of TableRecords as Casacore writes them: Note 260, section 2.4. Those of
//! all kinds, and faulty ones, are in [`crate::keywords`].

use crate::encode::Encoder;
use crate::layout::Part;
use crate::table::{Header, Record, Shape};

/// A keyword's value.
#[derive(Clone, Debug)]
pub enum Value {
    Float(f32),
    String(&'static str),
    Strings(Vec<&'static str>),
    Record(Vec<(&'static str, Value)>),
}

/// The TableRecord without keywords.
pub fn empty() -> Record {
    keywords(&[])
}

pub fn keywords(keywords: &[(&str, Value)]) -> Record {
    let mut contents = Encoder::default();
    describe(&mut contents, keywords);
    contents.int("record type", 1); // of variable format
    put_values(&mut contents, keywords);
    Record::new(contents.layout().bytes)
}

/// RecordDesc.
fn describe(out: &mut Encoder, keywords: &[(&str, Value)]) {
    out.object(Part::Contents, &Header::new("RecordDesc", 2), |out| {
        out.uint("field count", keywords.len() as u32);
        for (name, value) in keywords {
            out.text("name", &(*name).into());
            match value {
                Value::Float(_) => out.int("type", 7),   // TpFloat
                Value::String(_) => out.int("type", 11), // TpString
                Value::Strings(strings) => {
                    out.int("type", 24); // TpArrayString
                    out.shape(Part::Contents, &Shape::new(1, &[strings.len() as i64]));
                }
                Value::Record(nested) => {
                    out.int("type", 25); // TpRecord
                    describe(out, nested);
                }
            }
            out.text("comment", &"".into());
        }
    });
}

fn put_values(out: &mut Encoder, keywords: &[(&str, Value)]) {
    for (_, value) in keywords {
        match value {
            Value::Float(number) => out.field("value", &number.to_be_bytes()),
            Value::String(string) => out.text("value", &(*string).into()),
            Value::Strings(strings) => put_strings(out, strings),
            Value::Record(nested) => put_values(out, nested),
        }
    }
}

fn put_strings(out: &mut Encoder, strings: &[&str]) {
    out.object(Part::Contents, &Header::new("Array", 3), |out| {
        out.uint("dimensions", 1);
        out.uint("axis", strings.len() as u32);
        for string in strings {
            out.text("element", &(*string).into());
        }
    });
}
