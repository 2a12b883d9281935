//! Pseudo random good TableRecords.

use crate::keywords::record::{Array, Desc, Elements, FieldShape, Key, TableRecord};
use crate::rng::Rng;
use crate::table::{BOOL, STRING, Shape, TYPES, Text, Type};

/// The deepest that a record may be; the asked one is 1.
pub const DEEPEST: usize = 8;

/// Names of keywords; some begin as others do.
const NAMES: [&str; 16] = [
    "UNIT",
    "UNITS",
    "UNI",
    "QuantumUnits",
    "MEASINFO",
    "type",
    "Ref",
    "A",
    "AB",
    "ABC",
    "",
    "MS_VERSION",
    "ANTENNA",
    "\0",
    "UNIT ",
    "unit",
];

/// A good record of few keywords; sometimes of none, or of records to depth eight.
pub fn record(rng: &mut Rng) -> TableRecord {
    let mut left = match rng.below(12) {
        0 => 0,
        1..=3 => rng.within(1..=2),
        4..=9 => rng.within(3..=8),
        _ => rng.within(9..=24),
    };
    let mut desc = desc(rng, 1, &mut left);
    if rng.chance(1, 8) {
        let depth = if rng.chance(1, 2) { DEEPEST } else { rng.within(2..=DEEPEST) };
        let deep = chain(rng, 1, depth);
        let place = rng.below(desc.keys.len() + 1);
        desc.keys.insert(place, deep);
    }
    let mut record = TableRecord::new(desc);
    if rng.chance(1, 4) {
        record.record_type = rng.pick(&[0, 2, -1, i32::MAX, i32::MIN, 256]);
    }
    record
}

/// A RecordDesc of a record at this depth, with at most so many keywords.
fn desc(rng: &mut Rng, depth: usize, left: &mut usize) -> Desc {
    let most = if depth == 1 { *left } else { rng.within(1..=4) };
    let mut keys: Vec<Key> = Vec::new();
    while *left > 0 && keys.len() < most {
        *left -= 1;
        let name = name(rng, &keys);
        keys.push(key(rng, name, depth, left));
    }
    Desc::new(rng.within(1..=2) as u32, keys)
}

/// A name; sometimes an earlier one, or nearly.
fn name(rng: &mut Rng, earlier: &[Key]) -> Text {
    match rng.below(10) {
        0 if !earlier.is_empty() => earlier[rng.below(earlier.len())].name.clone(),
        1 if !earlier.is_empty() => {
            let mut name = earlier[rng.below(earlier.len())].name.clone();
            name.bytes.push(rng.pick(b"S\0 2"));
            name
        }
        2 => {
            let length = rng.within(0..=12);
            rng.bytes(length).into()
        }
        3 => format!("KEY{}", rng.below(1000)).as_bytes().into(),
        _ => rng.pick(&NAMES).into(),
    }
}

/// A keyword of a record at this depth, of any type.
fn key(rng: &mut Rng, name: Text, depth: usize, left: &mut usize) -> Key {
    let key = match rng.below(20) {
        0..=6 => scalar(rng, name),
        7 | 8 => string(rng, name),
        9 => {
            let mut key = Key::table(name, rng.pick(&["././ANTENNA", "./FEED", ""]));
            if let crate::keywords::record::Value::Table { described, .. } = &mut key.value {
                *described = rng.pick(&["", "MS", "ANTENNA"]).into();
            }
            key
        }
        10..=15 => array(rng, name),
        _ if depth >= DEEPEST => scalar(rng, name),
        form => {
            let held = desc(rng, depth + 1, left);
            hold(rng, name, held, form < 18)
        }
    };
    if rng.chance(1, 3) {
        let length = rng.below(12);
        return Key { comment: rng.letters(length).into(), ..key };
    }
    key
}

/// A held record: as its values, or as a whole TableRecord, which one without
/// fields always is.
fn hold(rng: &mut Rng, name: Text, held: Desc, as_values: bool) -> Key {
    if as_values && !held.keys.is_empty() {
        return Key::record(name, held);
    }
    let empty = Desc::new(rng.within(1..=2) as u32, Vec::new());
    Key::whole(name, empty, TableRecord::new(held))
}

/// A keyword of a record at this depth that holds records down to another depth, in
/// either form.
pub fn chain(rng: &mut Rng, depth: usize, to: usize) -> Key {
    let mut keys = Vec::new();
    if rng.chance(1, 3) || depth + 1 >= to && rng.chance(3, 4) {
        keys.push(scalar(rng, "S".into()));
    }
    if depth + 1 < to {
        let deeper = chain(rng, depth + 1, to);
        let place = rng.below(keys.len() + 1);
        keys.insert(place, deeper);
    }
    let held = Desc::new(rng.within(1..=2) as u32, keys);
    let as_values = rng.chance(2, 3);
    hold(rng, "R".into(), held, as_values)
}

/// A scalar other than a String.
pub fn scalar(rng: &mut Rng, name: Text) -> Key {
    let data_type = loop {
        let data_type = rng.pick(&TYPES);
        if data_type != STRING {
            break data_type;
        }
    };
    let value = match data_type {
        BOOL => vec![rng.below(2) as u8],
        _ => rng.bytes(data_type.size),
    };
    Key::scalar(name, data_type, &value)
}

pub fn string(rng: &mut Rng, name: Text) -> Key {
    let text = text(rng);
    Key::string(name, text)
}

fn text(rng: &mut Rng) -> Text {
    let length = rng.pick(&[0, 1, 1, 2, 5, 12]);
    if rng.chance(1, 4) { rng.bytes(length).into() } else { rng.letters(length).into() }
}

/// An array of any type and version, with either form of shape.
pub fn array(rng: &mut Rng, name: Text) -> Key {
    let data_type = if rng.chance(1, 5) { BOOL } else { rng.pick(&TYPES) };
    let axes = axes(rng);
    array_of(rng, name, data_type, &axes)
}

/// Few axes with few elements, or none.
fn axes(rng: &mut Rng) -> Vec<i32> {
    match rng.below(10) {
        0 => Vec::new(),
        1 => vec![0],
        2 => vec![rng.below(3) as i32, 0, rng.below(1000) as i32],
        3 => vec![rng.within(1..=3) as i32, rng.within(1..=3) as i32],
        4 => vec![1, rng.within(1..=2) as i32, 1, 2],
        5 => vec![rng.within(8..=17) as i32],
        _ => vec![rng.within(1..=4) as i32],
    }
}

pub fn array_of(rng: &mut Rng, name: Text, data_type: Type, axes: &[i32]) -> Key {
    let count = Array::count(axes);
    let elements = match data_type {
        BOOL => Elements::Bytes(1, rng.bytes(count.div_ceil(8))),
        STRING => Elements::Texts((0..count).map(|_| text(rng)).collect()),
        _ => Elements::Bytes(data_type.size, rng.bytes(count * data_type.size)),
    };
    let version = rng.pick(&[1, 2, 3, 3]);
    let mut array = Array::new(array_name(rng), version, axes, elements);
    if let Some(origin) = &mut array.origin
        && rng.chance(1, 2)
    {
        origin.iter_mut().for_each(|start| *start = rng.uint() as i32);
    }
    Key::array(name, data_type, shape(rng, axes), array)
}

pub fn array_name(rng: &mut Rng) -> &'static str {
    match rng.below(3) {
        0 => rng.pick(&["Array<Int>", "Array<float>", "Array<>", "Array<Array<x>>", "Array<\0>"]),
        _ => "Array",
    }
}

/// A shape in a RecordDesc: that of the value, the free one, or any other.
pub fn shape(rng: &mut Rng, axes: &[i32]) -> FieldShape {
    let axes: Vec<i32> = match rng.below(4) {
        0 => vec![-1],
        1 => (0..rng.below(4)).map(|_| rng.uint() as i32).collect(),
        _ => axes.to_vec(),
    };
    match rng.below(2) {
        0 => FieldShape::ints(&axes),
        _ => {
            let axes: Vec<i64> = axes.into_iter().map(i64::from).collect();
            FieldShape::Position(Shape::new(rng.within(1..=2) as u32, &axes))
        }
    }
}

/// A good record of about so many bytes.
pub fn large(rng: &mut Rng, length: usize) -> TableRecord {
    let mut keys = Vec::new();
    let mut missing = length;
    while missing > 200 {
        let most = missing - 100;
        let name = name(rng, &[]);
        let key = match rng.below(6) {
            0 => Key::string(name, rng.letters(most.min(4096))),
            1 => {
                let data_type = rng.pick(&TYPES);
                let count = most.min(3000) / data_type.size.max(8);
                array_of(rng, name, data_type, &[count as i32])
            }
            2 => chain(rng, 1, 8),
            3 => {
                let left = &mut rng.within(5..=20);
                let held = desc(rng, 2, left);
                hold(rng, name, held, true)
            }
            _ => key(rng, name, 1, &mut 3),
        };
        let used = TableRecord::new(Desc::new(2, vec![key.clone()])).layout().0.bytes.len();
        missing = missing.saturating_sub(used - 53);
        keys.push(key);
    }
    TableRecord::new(Desc::new(2, keys))
}
