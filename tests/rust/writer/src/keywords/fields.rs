//! Request lines about some records, field by field: each with other bytes, each
//! fault, each beginning of them, and all paths.

use crate::fields::changes;
use crate::keywords::cases::{Bytes, Case, Scope, Subject, keywords_mut};
use crate::keywords::faults::FAULTS;
use crate::keywords::paths;
use crate::keywords::record::{
    Array, Desc, Elements, FieldShape, Key, TableRecord, Value, first_past,
};
use crate::keywords::sample;
use crate::layout::{Blame, Layout, Part};
use crate::lean;
use crate::objects::Expect;
use crate::rng::Rng;
use crate::samples;
use crate::table::{
    BOOL, Column, DOUBLE, FLOAT, INT, Manager, Record, SHORT, STRING, Shape, TYPES, Table, Type,
    UCHAR,
};

const SEED: u64 = 1;
/// How often each fault is put into each record.
const ROUNDS: u64 = 3;

/// The table that the records are put into, and another record in each place.
fn table() -> Table {
    let columns = vec![Column::scalar(INT, ""), Column::scalar(DOUBLE, "")];
    let mut table = lean::bare(7, 1, columns, vec![Manager::new("StandardStMan", 0)]);
    table.description.private_keywords = Record::new(vec![0xFF; 3]);
    table
}

/// The records, and whose keywords they are.
pub fn records() -> [(Scope, TableRecord); 4] {
    [
        (Scope::Table, scalars()),
        (Scope::Column(1), arrays()),
        (Scope::Column(0), nested()),
        (Scope::Table, deep()),
    ]
}

/// A value of each scalar type, a String and a Table, with comments.
fn scalars() -> TableRecord {
    let mut keys: Vec<Key> = Vec::new();
    for (number, data_type) in TYPES.into_iter().enumerate() {
        let name = data_type.name;
        let bytes: Vec<u8> = (1..=data_type.size as u8).map(|byte| byte + number as u8).collect();
        keys.push(match data_type {
            BOOL => Key::scalar(name, data_type, &[1]),
            STRING => Key::string(name, "UTC").comment("reference"),
            _ => Key::scalar(name, data_type, &bytes),
        });
    }
    keys.push(Key::table("ANTENNA", "././ANTENNA"));
    TableRecord::new(Desc::new(2, keys))
}

/// An array, with elements of any bytes.
fn array(
    name: &str,
    data_type: Type,
    shape: FieldShape,
    (object, version): (&str, u32),
    axes: &[i32],
) -> Key {
    let count = Array::count(axes);
    let elements = match data_type {
        BOOL => Elements::bits(&(0..count).map(|number| number % 3 == 0).collect::<Vec<_>>()),
        STRING => Elements::texts(&["m", "", "rad", "Jy"][..count]),
        _ => {
            let bytes = (0..count * data_type.size).map(|number| 0x80 | number as u8);
            Elements::Bytes(data_type.size, bytes.collect())
        }
    };
    Key::array(name, data_type, shape, Array::new(object, version, axes, elements))
}

/// Arrays of each version, with shapes of both forms; without comments.
fn arrays() -> TableRecord {
    let position = |version, axes: &[i64]| FieldShape::Position(Shape::new(version, axes));
    let keys = vec![
        array("B", BOOL, FieldShape::ints(&[-1]), ("Array", 3), &[3, 3]),
        array("S", STRING, position(1, &[2]), ("Array", 3), &[2]),
        array("I", INT, FieldShape::ints(&[2, 1]), ("Array<Int>", 1), &[2, 1]),
        array("F", FLOAT, position(2, &[1]), ("Array<float>", 2), &[1]),
        array("D", DOUBLE, position(1, &[]), ("Array", 3), &[]),
        array("U", UCHAR, FieldShape::ints(&[]), ("Array<>", 2), &[5, 0]),
        array("SH", SHORT, position(1, &[-1]), ("Array", 1), &[3]),
    ];
    TableRecord::new(Desc::new(1, keys))
}

/// Records in both forms, one with shapes, equal names, an empty one, and names that
/// begin alike.
fn nested() -> TableRecord {
    let position = FieldShape::Position(Shape::new(1, &[1]));
    let units = vec![
        array("U", STRING, position, ("Array", 3), &[1]),
        array("V", INT, FieldShape::ints(&[1]), ("Array<Int>", 2), &[1]),
    ];
    let info =
        |version| Desc::new(version, vec![Key::string("type", "epoch"), Key::string("Ref", "UTC")]);
    let whole = vec![
        Key::scalar("N", INT, &[0, 0, 0, 7]),
        Key::record("MEASINFO", info(1)),
        Key::whole("E", Desc::new(2, vec![]), TableRecord::new(Desc::new(1, vec![]))),
    ];
    let keys = vec![
        Key::string("UNIT", "s"),
        Key::record("MEASINFO", info(2)),
        Key::record("UNIT", info(2)),
        Key::whole("MEAS", Desc::new(1, vec![]), TableRecord::new(Desc::new(2, whole))),
        Key::scalar("", BOOL, &[0]),
        Key::record("H", Desc::new(1, units)),
        Key::string("MEASINFO", "second"),
        Key::string("UNITS", "m"),
    ];
    TableRecord::new(Desc::new(2, keys))
}

/// Records to depth eight, in both forms.
fn deep() -> TableRecord {
    let mut held = Desc::new(2, vec![Key::scalar("I", INT, &[0, 0, 0, 8])]);
    for depth in (1..8).rev() {
        let version = 1 + depth % 2;
        let key = match depth {
            3 | 7 => Key::whole("R", Desc::new(version, vec![]), TableRecord::new(held)),
            _ => Key::record("R", held),
        };
        held = Desc::new(version, vec![Key::scalar("A", BOOL, &[1]), key]);
    }
    TableRecord::new(held)
}

/// All lines.
pub fn lines() -> impl Iterator<Item = String> + Send {
    cases().map(|case| case.line())
}

/// All questions.
pub fn cases() -> impl Iterator<Item = Case> + Send {
    let changed = records().into_iter().flat_map(changed_fields);
    let faulty = (0..ROUNDS).flat_map(|round| {
        records().into_iter().zip(0..).flat_map(move |(record, number)| {
            every_fault(record, &mut Rng::new(SEED, 4 * round + number))
        })
    });
    let cut = records().into_iter().flat_map(beginnings);
    let shorter = records().into_iter().skip(1).take(2).flat_map(shorter_objects);
    let asked = records().into_iter().flat_map(|(scope, record)| {
        every_path(&Subject::new(&table(), scope, &record, Expect::Accepted))
    });
    let samples = sample_subjects().into_iter().flat_map(|subject| every_path(&subject));
    let all = changed.chain(faulty).chain(cut).chain(shorter).chain(asked);
    all.chain(samples).chain(held_elsewhere())
}

/// The questions of a subject, in turn: by path and by number.
fn in_turn(subject: &Subject, turn: usize) -> Case {
    let known = paths::all(&subject.places);
    let records = paths::records(&subject.places);
    if turn.is_multiple_of(3) {
        let (path, count) = records[turn / 3 % records.len()].clone();
        return subject.ask(path, Some((turn / 7 % (count + 1)) as u64));
    }
    let (path, _) = &known[turn % known.len()];
    subject.ask(path.clone(), None)
}

/// The record after each change of a field; the last value is then asked, or
/// another. What a reader answers depends on other bytes.
fn changed_fields((scope, record): (Scope, TableRecord)) -> Vec<Case> {
    let (layout, _) = record.layout();
    let subject = Subject::new(&table(), scope, &record, Expect::Open);
    let change = |(turn, change): (usize, crate::fields::Change)| {
        let changed = change.of(&subject.table.bytes, |index| subject.start + index);
        let subject = Subject { table: Bytes::new(changed), what: "field", ..subject.clone() };
        in_turn(&subject, turn)
    };
    changes(&layout).into_iter().enumerate().map(change).collect()
}

/// Each fault of a record.
fn every_fault((scope, record): (Scope, TableRecord), rng: &mut Rng) -> Vec<Case> {
    let fault = |(what, fault): &(&'static str, crate::keywords::faults::Fault)| {
        let mut record = record.clone();
        let expect = fault(rng, &mut record);
        let subject = Subject { what, ..Subject::new(&table(), scope, &record, expect) };
        subject.question(rng)
    };
    FAULTS.iter().map(fault).collect()
}

/// Every beginning of a record's contents, with the lengths of the objects that it
/// cuts off cut too, and only that of the record.
fn beginnings((scope, record): (Scope, TableRecord)) -> Vec<Case> {
    let (layout, places) = record.layout();
    let (shapes, size) = (record.shapes(), record.header.size());
    let mut cases = Vec::new();
    let mut turn = 0;
    let mut ask = |bytes: &[u8], byte: usize| {
        let mut table = table();
        *keywords_mut(&mut table, scope) = Record::new(bytes[size..].to_vec());
        let expect = Expect::Refused(1, Blame::Byte(byte));
        let start = table.layout().object(scope.part()).start;
        let bytes = Bytes::new(table.encode());
        let places = places.clone();
        let subject = Subject { table: bytes, scope, start, places, expect, what: "cut" };
        turn += 1;
        cases.push(in_turn(&subject, turn));
    };
    for length in size..layout.bytes.len() {
        ask(&layout.cut(length), missing(&layout, &shapes, length));
        ask(&layout.bytes[..length], first_past(&layout, &shapes, length, inside(&layout)));
    }
    cases
}

/// The fields behind the record's header.
fn inside(layout: &Layout) -> std::ops::Range<usize> {
    layout.objects[0].fields.clone()
}

/// Where the field begins that is missing in these first bytes, if the lengths of
/// all objects that are cut off are cut too.
fn missing(layout: &Layout, shapes: &[Part], length: usize) -> usize {
    let mut cut = layout.clone();
    for object in &mut cut.objects {
        if object.start + 4 <= length && length < object.end {
            object.length = length - object.start;
        }
    }
    first_past(&cut, shapes, length, inside(layout))
}

/// Each object in a record with every shorter length; what follows stays where it
/// is.
fn shorter_objects((scope, record): (Scope, TableRecord)) -> Vec<Case> {
    let (layout, _) = record.layout();
    let mut cases = Vec::new();
    for object in &layout.objects[1..] {
        let Part::Keyword(id) = object.of else { panic!("it is of a record") };
        for length in 0..object.end - object.start {
            let mut record = record.clone();
            let header = record.header_mut(id).expect("there is this object");
            header.stated = Some(length as u32);
            let expect = match length < header.size() {
                true => Expect::Refused(7, object.of.header()),
                false => Expect::Refused(1, Blame::Past(object.of)),
            };
            let subject = Subject::new(&table(), scope, &record, expect);
            let subject = Subject { what: "shorter object", ..subject };
            cases.push(in_turn(&subject, cases.len()));
        }
    }
    cases
}

/// All paths, the beginnings of each, and others near it, those to the second of
/// equal names too; and the fields of all records by number.
fn every_path(subject: &Subject) -> Vec<Case> {
    let mut cases = vec![subject.ask(Vec::new(), None)];
    for (path, place) in paths::all(&subject.places) {
        for length in 1..=path.len() {
            cases.push(subject.ask(path[..length].to_vec(), None));
        }
        let ends: [&[u8]; 7] =
            [&[0], &[0; 3], &[0; 4], &[0, 0, 0, 1], &[0, 0, 0, 1, b'A'], &[255; 4], &path];
        for end in ends {
            cases.push(subject.ask([&path, end].concat(), None));
        }
        // A name that is longer or shorter by a byte, or much too long.
        let before = &path[..path.len() - 4 - place.name.len()];
        let long = [&place.name[..], &[b'x'; 4097]].concat();
        let longer = [&place.name[..], b"S"].concat();
        let shorter = &place.name[..place.name.len().saturating_sub(1)];
        for name in [&longer[..], shorter, &long] {
            cases.push(subject.ask([before, &paths::string(name)].concat(), None));
        }
        cases.push(subject.ask(path.clone(), Some(0)));
        cases.push(subject.ask(path[..path.len() - 1].to_vec(), Some(0)));
    }
    for path in paths::hidden(&subject.places) {
        cases.push(subject.ask(path.clone(), None));
        cases.push(subject.ask(path, Some(0)));
    }
    for (path, count) in paths::records(&subject.places) {
        for number in paths::numbers(count) {
            cases.push(subject.ask(path.clone(), Some(number)));
        }
    }
    cases
}

/// The keywords of the samples' tables and columns.
pub fn sample_subjects() -> Vec<Subject> {
    let subjects = |table: &Table, keywords: Vec<(Scope, TableRecord)>| {
        keywords
            .into_iter()
            .map(|(scope, record)| Subject::new(table, scope, &record, Expect::Accepted))
            .collect::<Vec<_>>()
    };
    let mut all = subjects(&samples::arrays(), arrays_keywords());
    all.extend(subjects(&samples::keywords(), sample_keywords()));
    all
}

/// Those of the sample `keywords`.
pub fn sample_keywords() -> Vec<(Scope, TableRecord)> {
    let mut keywords = vec![(Scope::Table, sample::of_table())];
    let columns = sample::of_columns().into_iter().zip(0..);
    keywords.extend(columns.map(|(record, position)| (Scope::Column(position), record)));
    keywords
}

/// Those of the sample `arrays`, as its table has them.
pub fn arrays_keywords() -> Vec<(Scope, TableRecord)> {
    let version = Key::scalar("MS_VERSION", FLOAT, &2.0_f32.to_be_bytes());
    vec![
        (Scope::Table, TableRecord::new(Desc::new(2, vec![version]))),
        (Scope::Column(0), sample::measure(&["s"], "epoch", "UTC")),
        (Scope::Column(1), TableRecord::new(Desc::new(2, vec![]))),
        (Scope::Column(3), sample::measure(&["m", "m", "m"], "uvw", "J2000")),
        (Scope::Column(5), sample::units(&["s"])),
    ]
}

/// A record that is faulty among the private keywords, or of another column, is not
/// looked at; columns that are not there come before faulty records.
fn held_elsewhere() -> Vec<Case> {
    let rng = &mut Rng::new(SEED, 99);
    let mut cases = Vec::new();
    for (turn, (what, fault)) in FAULTS.iter().enumerate() {
        let mut spoilt = nested();
        fault(rng, &mut spoilt);
        spoilt.header.stated = None;
        let mut table = table();
        let (scope, other) = match turn % 3 {
            0 => (Scope::Table, Scope::Column(0)),
            1 => (Scope::Column(0), Scope::Column(1)),
            _ => (Scope::Column(1), Scope::Table),
        };
        table.description.private_keywords = spoilt.encode();
        *keywords_mut(&mut table, other) = spoilt.encode();
        let subject = Subject { what, ..Subject::new(&table, scope, &scalars(), Expect::Accepted) };
        cases.push(in_turn(&subject, turn));
        cases.push(in_turn(&subject, turn + 1));
        let (answer, number) = (crate::texts::Answer::Refused(8, 0), (turn % 2 == 0).then_some(0));
        let position = [2, 3, 1 << 32, 1 << 63, u64::MAX][turn % 5];
        let (scope, path) = (Scope::Column(position), Vec::new());
        let table = subject.table.clone();
        cases.push(Case { table, scope, path, number, answer, what });
    }
    // A shape that ends the RecordDesc with the name of an IPosition, and what is
    // said there in its place.
    for (length, name) in [(17, "IPosition"), (2, "IPosition"), (0, "IPosition"), (25, "Position")]
    {
        let mut shape = u32::to_be_bytes(length).to_vec();
        shape.extend(paths::string(name.as_bytes()));
        let mut record = arrays();
        record.desc.keys.truncate(1);
        if let Value::Array(described, _) = &mut record.desc.keys[0].value {
            *described = FieldShape::Bytes(shape);
        }
        record.number();
        let subject = Subject::new(&table(), Scope::Table, &record, Expect::Open);
        cases.push(Subject { what: "name at the end", ..subject }.ask(paths::path(&["B"]), None));
    }
    cases
}
