//! The keywords of the sample `keywords`.

use crate::keywords::record::{Array, Desc, Elements, FieldShape, Key, TableRecord};
use crate::table::{
    BOOL, COMPLEX, DCOMPLEX, DOUBLE, FLOAT, INT, INT64, SHORT, STRING, Shape, Type, UCHAR, UINT,
    USHORT,
};

/// A String with characters that a program must escape: a quote, a backslash, a
/// newline, a tab, a byte below the space, a character that is not ASCII, and a
/// byte that is no text.
pub const ESCAPED: &[u8] = b"say \"hi\" \\ \n\t\x01 \xC3\xA9 \xFF";

/// Units in a String array.
pub fn units(units: &[&str]) -> TableRecord {
    TableRecord::new(Desc::new(2, vec![units_key(units)]))
}

/// Units and a measure's type and reference.
pub fn measure(units: &[&str], kind: &str, reference: &str) -> TableRecord {
    let info = vec![Key::string("type", kind), Key::string("Ref", reference)];
    let keys = vec![units_key(units), Key::record("MEASINFO", Desc::new(2, info))];
    TableRecord::new(Desc::new(2, keys))
}

fn units_key(units: &[&str]) -> Key {
    let shape = FieldShape::Position(Shape::new(1, &[units.len() as i64]));
    let array = Array::new("Array", 3, &[units.len() as i32], Elements::texts(units));
    Key::array("QuantumUnits", STRING, shape, array)
}

/// The unit as a String.
pub fn unit(unit: &str) -> TableRecord {
    let key = Key::string("UNIT", unit).comment("unit of the column");
    TableRecord::new(Desc::new(2, vec![key]))
}

/// Those of the columns TIME, UVW, EXPOSURE, ANTENNA1 and FLAG_ROW.
pub fn of_columns() -> [TableRecord; 5] {
    let none = || TableRecord::new(Desc::new(2, Vec::new()));
    [
        measure(&["s"], "epoch", "UTC"),
        measure(&["m", "m", "m"], "uvw", "ITRF"),
        unit("s"),
        none(),
        none(),
    ]
}

/// Those of the table.
pub fn of_table() -> TableRecord {
    let keys = vec![
        Key::scalar("MS_VERSION", FLOAT, &2_f32.to_be_bytes()).comment("version of the definition"),
        Key::table("ANTENNA", "././ANTENNA"),
        Key::record("TYPES", types()),
        Key::record("ARRAYS", arrays()),
        Key::record("NESTED", nested()),
    ];
    TableRecord::new(Desc::new(2, keys))
}

/// A value of each scalar type, of whole numbers both ends of the range.
fn types() -> Desc {
    let complex = [1.5_f32, -2.0].map(f32::to_be_bytes);
    let dcomplex = [0.1_f64, -1e300].map(f64::to_be_bytes);
    let keys = vec![
        Key::scalar("False", BOOL, &[0]),
        Key::scalar("True", BOOL, &[1]),
        Key::scalar("uCharLeast", UCHAR, &[0]),
        Key::scalar("uCharMost", UCHAR, &[255]),
        Key::scalar("ShortLeast", SHORT, &i16::MIN.to_be_bytes()),
        Key::scalar("ShortMost", SHORT, &i16::MAX.to_be_bytes()),
        Key::scalar("uShortLeast", USHORT, &u16::MIN.to_be_bytes()),
        Key::scalar("uShortMost", USHORT, &u16::MAX.to_be_bytes()),
        Key::scalar("IntLeast", INT, &i32::MIN.to_be_bytes()),
        Key::scalar("IntMost", INT, &i32::MAX.to_be_bytes()),
        Key::scalar("uIntLeast", UINT, &u32::MIN.to_be_bytes()),
        Key::scalar("uIntMost", UINT, &u32::MAX.to_be_bytes()),
        Key::scalar("float", FLOAT, &(-0.25_f32).to_be_bytes()),
        Key::scalar("floatNaN", FLOAT, &0x7FC0_0001_u32.to_be_bytes()),
        Key::scalar("double", DOUBLE, &4_895_000_000.5_f64.to_be_bytes()),
        Key::scalar("doubleInfinity", DOUBLE, &f64::NEG_INFINITY.to_be_bytes()),
        Key::scalar("Complex", COMPLEX, complex.as_flattened()),
        Key::scalar("DComplex", DCOMPLEX, dcomplex.as_flattened()),
        Key::string("String", ESCAPED),
        Key::string("StringEmpty", ""),
        Key::scalar("Int64Least", INT64, &i64::MIN.to_be_bytes()),
        Key::scalar("Int64Most", INT64, &i64::MAX.to_be_bytes()),
    ];
    Desc::new(2, keys)
}

/// A shape as Note 260 has it: a count and Ints.
fn ints(axes: &[i32]) -> FieldShape {
    FieldShape::ints(axes)
}

/// A shape as Casacore writes it.
fn position(version: u32, axes: &[i64]) -> FieldShape {
    FieldShape::Position(Shape::new(version, axes))
}

/// An array of each type, with both forms of shapes and all versions.
fn arrays() -> Desc {
    // Its object's name and version, its axes and elements.
    type Object<'a> = (&'a str, u32, &'a [i32], Elements);
    let array = |data_type: Type, shape: FieldShape, object: Object<'_>| {
        let (name, version, axes, elements) = object;
        Key::array(data_type.name, data_type, shape, Array::new(name, version, axes, elements))
    };
    fn of<const N: usize>(numbers: impl IntoIterator<Item = [u8; N]>) -> Elements {
        Elements::Bytes(N, numbers.into_iter().flatten().collect())
    }
    let flags: Vec<bool> = (0..10).map(|number| number % 3 == 0).collect();
    let shorts = [i16::MIN, -1, 0, 1, 2, i16::MAX].map(i16::to_be_bytes);
    let complex = [1.0_f32, -1.0, 0.5, -0.5].map(f32::to_be_bytes);
    let complex = [0, 2].map(|first| [complex[first], complex[first + 1]].concat());
    let dcomplex = [2.5_f64, -2.5].map(f64::to_be_bytes).concat();
    let mut origin = Array::new("Array<Int>", 1, &[3], of([7, 8, 9].map(i32::to_be_bytes)));
    origin.origin = Some(vec![-1]);
    let keys = vec![
        array(BOOL, position(1, &[10]), ("Array", 3, &[10], Elements::bits(&flags))),
        array(UCHAR, ints(&[4]), ("Array", 3, &[4], Elements::Bytes(1, vec![0, 1, 254, 255]))),
        array(SHORT, position(1, &[3, 2]), ("Array", 3, &[3, 2], of(shorts))),
        array(USHORT, ints(&[-1]), ("Array", 2, &[2], of([0, 65_535_u16].map(u16::to_be_bytes)))),
        Key::array(INT.name, INT, ints(&[3]), origin),
        array(
            UINT,
            position(2, &[20]),
            ("Array", 3, &[20], of((1..=20_u32).map(u32::to_be_bytes))),
        ),
        array(
            FLOAT,
            ints(&[]),
            ("Array<float>", 2, &[1, 2], of([0.5_f32, -0.5].map(f32::to_be_bytes))),
        ),
        array(DOUBLE, position(1, &[-1]), ("Array", 3, &[0], of::<8>([]))),
        array(COMPLEX, ints(&[2]), ("Array", 3, &[2], Elements::Bytes(8, complex.concat()))),
        array(DCOMPLEX, position(1, &[1]), ("Array", 1, &[1], Elements::Bytes(16, dcomplex))),
        array(STRING, position(1, &[3]), ("Array", 3, &[3], Elements::texts(&["m", "", "rad"]))),
        array(
            INT64,
            ints(&[2]),
            ("Array", 3, &[2], of([i64::MIN, i64::MAX].map(i64::to_be_bytes))),
        ),
        Key::array("none", INT, ints(&[]), Array::new("Array", 3, &[], of::<4>([]))),
    ];
    Desc::new(1, keys)
}

/// Records to depth eight, in both forms in turn, equal names and an empty record.
/// This one is at depth 2.
fn nested() -> Desc {
    let depth_key = |depth: i32| Key::scalar("depth", INT, &depth.to_be_bytes());
    let mut held = Desc::new(2, vec![depth_key(8)]);
    for depth in (3..8).rev() {
        let name = format!("L{}", depth + 1);
        let key = match depth % 2 {
            0 => Key::record(name.as_bytes(), held),
            _ => Key::whole(name.as_bytes(), Desc::new(2, vec![]), TableRecord::new(held)),
        };
        held = Desc::new(1 + depth as u32 % 2, vec![depth_key(depth), key]);
    }
    let empty = TableRecord::new(Desc::new(2, vec![]));
    let keys = vec![
        depth_key(2),
        Key::string("same", "first"),
        Key::string("same", "second"),
        Key::record("L3", held),
        Key::whole("EMPTY", Desc::new(2, vec![]), empty),
    ];
    Desc::new(2, keys)
}
