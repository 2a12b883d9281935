//! The byte that a refusal blames: the model's, against where the writer put the
//! field.

use model::Refusal;
use std::collections::{BTreeMap, BTreeSet};
use writer::buckets::{BucketFile, Subject};
use writer::fields::{changed_files, changed_infos, changes};
use writer::incremental::{self, DATA_START, IncrementalFile};
use writer::info::InfoObject;
use writer::layout::{Blame, Layout, OBJECT_NAME, OBJECT_VERSION, Part};
use writer::order::Order;
use writer::rng::Rng;
use writer::sets::tiny;
use writer::standard::{self, StandardFile};
use writer::table::{Column, DCOMPLEX, DefaultValue, INT, Manager, STRING, Shape, Table, Text};
use writer::{generate, large_files, samples};

const ROOM: usize = 65_536;

fn describe(table: &[u8]) -> Option<Refusal> {
    model::describe(table).err()
}

fn check<F>(subject: &Subject<F>, file: &[u8]) -> Option<Refusal> {
    let (table, number) = (subject.table.encode(), subject.number.into());
    model::check(&table, number, file, &mut vec![0; ROOM]).err()
}

fn ends_early(byte: usize) -> Option<Refusal> {
    Some(Refusal::at(1, byte))
}

// Files that are cut off.

fn tables() -> Vec<Table> {
    let generated = (0..20).map(|number| generate::table(&mut Rng::new(81, number)));
    let samples =
        [samples::small(), samples::little(), samples::arrays(), samples::survey(), tiny()];
    samples.into_iter().chain(generated).collect()
}

/// Those with an object in a DMInfo.
fn tables_with_objects() -> Vec<Table> {
    let has_object = |table: &Table| table.managers().iter().any(|m| m.object.is_some());
    let with_objects = [samples::little(), samples::arrays_with_objects()];
    with_objects.into_iter().chain(tables()).filter(has_object).collect()
}

#[test]
fn of_torn_tables() {
    for layout in tables().iter().map(Table::layout) {
        for length in 0..layout.object(Part::Table).end {
            let byte = layout.byte(Blame::Torn(Part::Table, length));
            assert_eq!(describe(&layout.bytes[..length]), ends_early(byte), "{length}");
        }
    }
}

/// Cut off with the lengths of objects that this cuts off: every field is
/// blamed, at every byte of it.
fn assert_every_field_is_missed(
    layout: &Layout,
    read: impl Fn(&[u8]) -> Option<Refusal>,
    start: usize,
) {
    let mut missed = BTreeSet::new();
    for length in 0..layout.fields.iter().map(|field| field.end).max().unwrap_or(0) {
        let byte = layout.missing(length);
        assert_eq!(read(&layout.cut(length)), ends_early(start + byte), "{length}");
        missed.insert(byte);
    }
    assert!(layout.fields.iter().all(|field| missed.contains(&field.start)));
}

#[test]
fn of_every_field_of_a_table() {
    for layout in tables().iter().map(Table::layout) {
        assert_every_field_is_missed(&layout, describe, 0);
    }
}

#[test]
fn of_every_field_of_a_dm_info() {
    for table in tables_with_objects() {
        for index in 0..table.managers().len() {
            let Some((start, layout)) = table.info_layout(index) else {
                continue;
            };
            let with_info = |bytes: &[u8]| {
                let mut table = table.clone();
                table.managers_mut()[index].info = bytes.into();
                describe(&table.encode())
            };
            let columns = table.bound_to(table.managers()[index].number);
            // Of fewer than four bytes its length is judged, at its length.
            let wrong_length = Some(Refusal::at(7, start - 4));
            let short = |length| if length == 8 * columns { None } else { wrong_length };
            for length in 0..4 {
                assert_eq!(with_info(&layout.bytes[..length]), short(length));
            }
            for length in 4..layout.bytes.len() {
                let byte = start + layout.byte(Blame::Torn(Part::Info(index), length));
                assert_eq!(with_info(&layout.bytes[..length]), ends_early(byte), "{length}");
            }
            let read = |cut: &[u8]| match cut.len() {
                0..4 => ends_early(start),
                _ => with_info(cut),
            };
            assert_every_field_is_missed(&layout, read, start);
        }
    }
}

fn standard_files() -> Vec<Subject<StandardFile>> {
    let generated = (0..30).map(|number| standard::generate::subject(&mut Rng::new(82, number)));
    samples::standard_files().into_iter().chain(generated).collect()
}

fn incremental_files() -> Vec<Subject<IncrementalFile>> {
    let generated = (0..30).map(|number| incremental::generate::subject(&mut Rng::new(83, number)));
    samples::incremental_files().into_iter().chain(generated).collect()
}

/// Cut off in the header, then before the buckets' end.
fn assert_torn<F: BucketFile>(subject: &Subject<F>) {
    let file = subject.file.encode();
    let header = subject.file.header().bytes.len();
    let buckets = subject.file.buckets();
    for length in
        (0..buckets.start(buckets.count)).filter(|length| *length < 1000 || length % 7 == 0)
    {
        let byte = match length < header {
            true => subject.file.byte(Blame::Torn(Part::Header, length)),
            false => length,
        };
        assert_eq!(check(subject, &file[..length]), ends_early(byte), "{length}");
    }
    // A header without its last fields.
    let read = |cut: &[u8]| check(subject, cut);
    assert_every_field_is_missed(&subject.file.header(), read, 0);
}

#[test]
fn of_torn_files() {
    standard_files().iter().for_each(assert_torn);
    incremental_files().iter().for_each(assert_torn);
}

#[test]
fn of_every_field_of_an_index_text() {
    for mut subject in standard_files() {
        subject.file.settle();
        let text = subject.file.text();
        for length in 1..text.bytes.len() {
            let byte = subject.file.byte(Blame::Torn(Part::Index(0), length));
            let file = subject.file.with_text(&text.bytes[..length]);
            assert_eq!(check(&subject, &file), ends_early(byte), "{length}");
        }
        // An empty text is out of range; here it blames the first mark.
        let read = |cut: &[u8]| match cut {
            [] => ends_early(0),
            _ => check(&subject, &subject.file.with_text(cut)),
        };
        assert_every_field_is_missed(&text, read, 0);
    }
}

#[test]
fn of_every_field_of_an_ism_index() {
    for subject in incremental_files() {
        let (start, layout) = subject.file.layout_of(Part::Index(0));
        let file = subject.file.encode();
        for length in 0..layout.object(Part::Index(0)).end {
            let byte = subject.file.byte(Blame::Torn(Part::Index(0), length));
            assert_eq!(check(&subject, &file[..start + length]), ends_early(byte), "{length}");
        }
        let read = |cut: &[u8]| check(&subject, &[&file[..start], cut].concat());
        assert_every_field_is_missed(&layout, read, start);
    }
}

#[test]
fn of_every_field_of_a_bucket() {
    for subject in incremental_files() {
        let size = subject.file.buckets.size as usize;
        for (entry, bucket) in subject.file.data.iter().enumerate() {
            let index = bucket.length() - DATA_START as usize - bucket.data.len();
            // The bucket ends so many bytes after the beginning of its index.
            for kept in 0..index {
                let mut changed = subject.clone();
                changed.file.data[entry].data.resize(size - DATA_START as usize - kept, 0);
                let byte = changed.file.byte(Blame::Torn(Part::Bucket(entry), size));
                assert_eq!(check(&changed, &changed.file.encode()), ends_early(byte), "{kept}");
            }
        }
    }
}

// Which number blames which field, one field at a time.

/// The refusal numbers that blame the changed field itself, by its part and
/// name.
type Blamed = BTreeMap<(String, &'static str), BTreeSet<u8>>;

/// The part's name without its number.
fn kind(part: Part) -> String {
    let name = format!("{part:?}");
    name.split('(').next().unwrap_or_default().to_string()
}

/// Each field's line: its part, its name, and its numbers.
fn lines(blamed: &Blamed) -> Vec<String> {
    let line = |((part, name), numbers): (&(String, &str), &BTreeSet<u8>)| {
        let numbers: Vec<String> = numbers.iter().map(u8::to_string).collect();
        format!("{part} {name}: {}", numbers.join(" "))
    };
    blamed.iter().map(line).collect()
}

#[test]
fn every_judged_field_of_a_table_is_blamed() {
    let mut blamed = Blamed::new();
    for layout in [samples::small(), samples::arrays(), samples::survey()].map(|t| t.layout()) {
        for change in changes(&layout) {
            let refusal = describe(&change.of(&layout.bytes, |index| index));
            let itself = |refusal: &Refusal| refusal.byte == change.field.start as u64;
            if let Some(refusal) = refusal.filter(itself) {
                let field = (kind(change.field.of), change.field.name);
                blamed.entry(field).or_default().insert(refusal.number);
            }
        }
    }
    for table in [samples::little(), samples::arrays_with_objects()] {
        for (change, start, changed) in changed_infos(&table) {
            let itself = |r: &Refusal| r.byte == (start + change.field.start) as u64;
            if let Some(refusal) = describe(&changed).filter(itself) {
                let field = (kind(change.field.of), change.field.name);
                blamed.entry(field).or_default().insert(refusal.number);
            }
        }
    }
    let expected = [
        "Column base version: 3",
        "Column comment: 1",
        "Column data type: 5",
        "Column default: 1 5",
        "Column derived version: 3",
        "Column dimensionality: 5",
        "Column manager group: 1",
        "Column manager type: 1",
        "Column name: 1 4",
        "Column options: 5",
        "Column string maximum: 4",
        "Column type: 1 5",
        "Column version: 3",
        "ColumnInfo derived version: 3",
        "ColumnInfo manager: 6",
        "ColumnInfo original name: 1",
        "ColumnInfo shape defined: 5",
        "ColumnInfo version: 3",
        "ColumnKeywords length: 1 7",
        "ColumnKeywords object name: 1 2",
        "ColumnKeywords object version: 3",
        "ColumnSet manager count: 4",
        "ColumnSet rows: 4 6",
        "ColumnSet version: 3",
        "Info length: 1 7",
        "Info name: 1",
        "Info object name: 1 2",
        "Info object version: 3",
        "InfoOffsets count: 6",
        "InfoOffsets length: 1 7",
        "InfoOffsets object name: 1 2",
        "InfoOffsets object version: 3",
        "InfoSets count: 6",
        "InfoSets length: 1 7",
        "InfoSets object name: 1 2",
        "InfoSets object version: 3",
        "InfoShape length: 1 7",
        "InfoShape object name: 1 2",
        "InfoShape object version: 3",
        "Keywords length: 1 7",
        "Keywords object name: 1 2",
        "Keywords object version: 3",
        "Manager info: 1 7",
        "Manager name: 1",
        "Manager number: 6",
        "PrivateKeywords length: 1 7",
        "PrivateKeywords object name: 1 2",
        "PrivateKeywords object version: 3",
        "Shape axis: 4",
        "Shape count: 4 5",
        "Shape length: 1 7",
        "Shape object name: 1 2",
        "Shape object version: 3",
        "Table endianness: 5",
        "Table length: 1 7",
        "Table mark: 2",
        "Table object name: 1 2",
        "Table object version: 3",
        "Table table type: 1 2",
        "TableDesc column count: 4",
        "TableDesc comment: 1",
        "TableDesc length: 1 7",
        "TableDesc name: 1",
        "TableDesc object name: 1 2",
        "TableDesc object version: 3",
        "TableDesc version: 1",
    ];
    assert_eq!(lines(&blamed), expected);
}

/// The same of the files of managers.
fn blamed_in<F: BucketFile>(subjects: &[Subject<F>]) -> Vec<String> {
    let mut blamed = Blamed::new();
    for subject in subjects {
        for part in subject.file.parts() {
            let (start, _) = subject.file.layout_of(part);
            for (change, file) in changed_files(subject, part) {
                let byte = (start + change.field.start) as u64;
                // 0 may blame no field.
                let itself = |refusal: &Refusal| refusal.number < 8 && refusal.byte == byte;
                if let Some(refusal) = check(subject, &file).filter(itself) {
                    let field = (kind(change.field.of), change.field.name);
                    blamed.entry(field).or_default().insert(refusal.number);
                }
            }
        }
    }
    lines(&blamed)
}

#[test]
fn every_judged_field_of_a_file_is_blamed() {
    let expected = [
        "FreeSpace length: 1 7",
        "FreeSpace object name: 1 2",
        "FreeSpace object version: 3",
        "Header big endian: 5 6",
        "Header bucket count: 4",
        "Header bucket size: 4",
        "Header index length: 4",
        "Header index offset: 4",
        "Header indices: 4",
        "Header length: 1 7",
        "Header mark: 2",
        "Header object name: 1 2",
        "Header object version: 3",
        "Index length: 1 7",
        "Index mark: 2",
        "Index object name: 1 2",
        "Index object version: 3",
        "Index rows per bucket: 4",
        "Numbers count: 6",
        "Numbers length: 1 7",
        "Numbers object name: 1 2",
        "Numbers object version: 3",
        "Rows count: 6",
        "Rows element: 4",
        "Rows length: 1 7",
        "Rows object name: 1 2",
        "Rows object version: 3",
    ];
    assert_eq!(blamed_in(&samples::standard_files()), expected);
    let of_standard = |line: &&str| {
        ["FreeSpace", "Header ind", "Index rows"].iter().any(|start| line.starts_with(start))
    };
    let expected: Vec<&str> = expected.into_iter().filter(|line| !of_standard(line)).collect();
    assert_eq!(blamed_in(&samples::incremental_files()), expected);
}

// What is blamed where a rule leaves a choice.

/// The small table after a change.
fn assert_table(change: impl FnOnce(&mut Table), number: u8, blame: Blame) {
    let mut table = samples::small();
    change(&mut table);
    let expected = Refusal::at(number, table.byte(blame));
    assert_eq!(describe(&table.encode()), Some(expected), "{blame:?}");
}

/// A table of one column after a change to it.
fn assert_column(column: Column, change: impl FnOnce(&mut Column), number: u8, blame: Blame) {
    let change = |table: &mut Table| {
        *table.columns_mut() = vec![column];
        table.write_infos();
        change(&mut table.columns_mut()[0]);
    };
    assert_table(change, number, blame);
}

fn assert_shape(axes: &[i64], change: impl FnOnce(&mut Shape), number: u8, blame: Blame) {
    let change = |column: &mut Column| change(column.shape.as_mut().unwrap());
    assert_column(Column::fixed(INT, "A", axes), change, number, blame);
}

/// The file of a subject after a change.
fn assert_file<F: BucketFile>(
    mut subject: Subject<F>,
    change: impl FnOnce(&mut F),
    number: u8,
    blame: Blame,
) {
    change(&mut subject.file);
    let expected = Refusal::at(number, subject.file.byte(blame));
    assert_eq!(check(&subject, &subject.file.encode()), Some(expected), "{blame:?}");
}

fn assert_standard(change: impl FnOnce(&mut StandardFile), number: u8, blame: Blame) {
    assert_file(samples::small_file(), change, number, blame);
}

/// The incremental file of arrays after a change, in both byte orders.
fn assert_incremental(change: impl Fn(&mut IncrementalFile), number: u8, blame: Blame) {
    for subject in samples::incremental_files().into_iter().take(2) {
        assert_file(subject, &change, number, blame);
    }
}

/// The same of the survey.
fn assert_survey(change: impl Fn(&mut IncrementalFile), number: u8, blame: Blame) {
    for subject in samples::incremental_files().into_iter().skip(2) {
        assert_file(subject, &change, number, blame);
    }
}

/// The small file with row numbers of 64 bits after a change, in both byte
/// orders.
fn assert_wide(change: impl Fn(&mut StandardFile), number: u8, blame: Blame) {
    for table in [samples::small(), samples::little()] {
        assert_file(samples::wide_small(table), &change, number, blame);
    }
}

fn of_length(length: usize) -> Text {
    vec![b'x'; length].into()
}

#[test]
fn a_string_is_one_field() {
    let name = Part::Column(1).field("name");
    let named = |name: Text| |table: &mut Table| table.columns_mut()[1].name = name;
    assert_table(named(Text { stated: Some(3000), ..of_length(4) }), 1, name);
    assert_table(named(of_length(0)), 4, name);
    assert_table(named(of_length(65)), 4, name);
    assert_table(named("SCAN".into()), 6, name);
    let kind = Part::Column(2).field("type");
    assert_table(|table| table.columns_mut()[2].type_name = of_length(4096), 5, kind);
    assert_table(|table| table.columns_mut()[2].type_name = of_length(4097), 4, kind);
    assert_table(|table| table.table_type.bytes[9] = b'E', 2, Part::Table.field("table type"));
    let comment = Part::TableDesc.field("comment");
    assert_table(|table| table.description.comment = of_length(4097), 4, comment);
}

#[test]
fn a_header_has_three_fields() {
    let of = Part::Keywords;
    let keywords = |change: fn(&mut writer::table::Header), number, blame| {
        assert_table(|table| change(&mut table.description.keywords.header), number, blame);
    };
    keywords(|header| header.name = "Record".into(), 2, of.field(OBJECT_NAME));
    keywords(|header| header.name.stated = Some(5000), 1, of.field(OBJECT_NAME));
    keywords(|header| header.version = 2, 3, of.field(OBJECT_VERSION));
    // Its end and its own size blame all of it.
    keywords(|header| header.stated = Some(5000), 1, of.header());
    keywords(|header| header.stated = Some(22), 7, of.header());
    // So does what is left over, in Table behind the mark.
    assert_table(|table| table.header.extra = vec![0; 9], 7, Part::Table.header());
    assert_standard(|file| file.buckets.header.extra = vec![0], 7, Part::Header.header());
    let index = Part::Index(0);
    assert_standard(|file| file.indices[0].header.extra = vec![0], 7, index.header());
    assert_standard(|file| file.indices[0].header.stated = Some(131), 1, index.header());
    assert_incremental(|file| file.index.header.extra = vec![0; 4], 7, index.header());
}

#[test]
fn of_equal_fields_the_first_that_does_not_fit() {
    let axes = [1, 2, 3];
    for (cut, axis) in [(1, 2), (4, 2), (5, 1), (12, 0)] {
        let blame = Part::Shape(0).nth("axis", axis);
        assert_shape(&axes, |shape| shape.header.cut = cut, 1, blame);
        // Axes that are not judged, of eight bytes.
        let mut wide = Shape::new(2, &axes);
        wide.header.cut = 2 * cut;
        assert_column(Column::array(INT, "A"), |column| column.shape = Some(wide), 1, blame);
    }
    for (cut, element) in [(1, 1), (4, 1), (5, 0), (8, 0)] {
        let (rows, numbers) = (Part::Rows(0), Part::Numbers(0));
        let blame = rows.nth("element", element);
        assert_standard(|file| file.indices[0].last_rows.header.cut = cut, 1, blame);
        let blame = numbers.nth("element", element);
        assert_standard(|file| file.indices[0].buckets.header.cut = cut, 1, blame);
        assert_incremental(|file| file.index.buckets.header.cut = cut, 1, blame);
        let blame = rows.nth("element", element + 1); // one more than buckets
        assert_incremental(|file| file.index.first_rows.header.cut = cut, 1, blame);
    }
}

#[test]
fn a_key_and_a_value_are_two_fields() {
    for (cut, name, number) in [(3, "value", 1), (4, "value", 1), (5, "key", 1), (9, "value", 0)] {
        let change = |file: &mut StandardFile| {
            let space = &mut file.indices[0].free_space;
            space.pairs = vec![(1, 2), (3, 4)];
            space.header.cut = cut;
        };
        assert_standard(change, 1, Part::FreeSpace(0).nth(name, number));
    }
}

#[test]
fn a_default_value_is_one_field() {
    let default = Part::Column(0).field("default");
    for cut in [1, 8, 15, 16] {
        // The two doubles of a DComplex stand together at TableDesc's end.
        let change = |table: &mut Table| {
            *table.columns_mut() = vec![Column::scalar(DCOMPLEX, "C")];
            table.write_infos();
            table.description.header.cut = cut;
        };
        assert_table(change, 1, default);
    }
    let string = |text: Text| |column: &mut Column| column.default = DefaultValue::Text(text);
    assert_column(Column::scalar(STRING, "S"), string(of_length(4097)), 4, default);
    let flag = |column: &mut Column| column.default = DefaultValue::Bytes(vec![2]);
    assert_column(Column::array(INT, "A"), flag, 5, default);
}

#[test]
fn of_two_facts_the_later() {
    assert_table(|table| table.header_rows = 8, 6, Part::ColumnSet.field("rows"));
    assert_table(|table| table.column_set.rows = 8, 6, Part::ColumnSet.field("rows"));
    let twice = |table: &mut Table| table.columns_mut()[0].name = "TIME".into();
    assert_table(twice, 6, Part::Column(2).field("name"));
    let second = |number| {
        move |table: &mut Table| {
            table.column_set.highest = 5;
            table.managers_mut().push(Manager::new("TiledShapeStMan", number));
        }
    };
    assert_table(second(0), 6, Part::Manager(1).field("number")); // twice
    assert_table(second(6), 6, Part::Manager(1).field("number")); // above the highest
    let unknown = |table: &mut Table| table.columns_mut()[1].info.manager = 1;
    assert_table(unknown, 6, Part::ColumnInfo(1).field("manager"));
    // Entry counts and Blocks, in the file.
    assert_standard(|file| file.indices[0].entries = Some(3), 6, Part::Rows(0).field("count"));
    let numbers = Part::Numbers(0).field("count");
    assert_standard(|file| file.indices[0].buckets.count = Some(3), 6, numbers);
    assert_incremental(|file| file.index.count = Some(3), 6, Part::Rows(0).field("count"));
    assert_incremental(|file| file.index.buckets.count = Some(1), 6, numbers);
    // The endianness of the file.
    let endianness = Part::Header.field("big endian");
    assert_standard(|file| file.buckets.big_endian ^= 1, 6, endianness);
    assert_incremental(|file| file.buckets.big_endian ^= 1, 6, endianness);
}

#[test]
fn of_shapes_and_options() {
    let count = Part::Shape(0).field("count");
    let dimensionality = |column: &mut Column| column.dimensionality = 3;
    assert_column(Column::fixed(INT, "A", &[2, 2]), dimensionality, 5, count);
    assert_shape(&[1; 9], |_| (), 4, count);
    // The axis at which the product passes its range.
    assert_shape(&[1024, 1024, 2, 1], |_| (), 4, Part::Shape(0).nth("axis", 2));
    assert_shape(&[1, 1_048_577, 1], |_| (), 4, Part::Shape(0).nth("axis", 1));
    assert_shape(&[1_048_576, 0, 2], |_| (), 4, Part::Shape(0).nth("axis", 1));
    let options = Part::Column(0).field("options");
    assert_column(Column::array(INT, "A"), |column| column.options = 1, 5, options);
    assert_column(Column::scalar(INT, "A"), |column| column.options = 8, 5, options);
}

#[test]
fn of_dm_info_its_length() {
    let info = Part::Manager(0).field("info");
    assert_table(|table| table.managers_mut()[0].info.stated = Some(25), 1, info);
    assert_table(|table| table.managers_mut()[0].info.bytes.truncate(23), 7, info);
    assert_table(|table| table.managers_mut()[0].info.bytes.push(0), 7, info);
    // The second one.
    let second = |table: &mut Table| {
        let info = of_length(8);
        table.managers_mut().push(Manager { info, ..Manager::new("IncrementalStMan", 1) });
    };
    assert_table(second, 7, Part::Manager(1).field("info"));
}

/// The little endian small table after a change of the object in its DMInfo.
fn assert_object(change: impl FnOnce(&mut InfoObject), number: u8, blame: Blame) {
    let mut table = samples::little();
    let manager = &mut table.managers_mut()[0];
    change(manager.object.as_mut().unwrap());
    manager.write_object();
    let expected = Refusal::at(number, table.byte(blame));
    assert_eq!(describe(&table.encode()), Some(expected), "{blame:?}");
}

#[test]
fn of_an_object_in_dm_info_its_field() {
    let (object, info) = (Part::Info(0), Part::Manager(0).field("info"));
    assert_object(|object| object.header.name = "ISM".into(), 2, object.field(OBJECT_NAME));
    for version in [1, 3] {
        let blame = object.field(OBJECT_VERSION);
        assert_object(|object| object.header.version = version, 3, blame);
    }
    assert_object(|object| object.name = of_length(4097), 4, object.field("name"));
    assert_object(|object| object.header.stated = Some(99), 1, object.header());
    // Left over: in the object its header, after it the length of DMInfo.
    assert_object(|object| object.header.extra = vec![0; 4], 7, object.header());
    assert_object(|object| object.after = vec![0], 7, info);
    assert_object(|object| object.mark[3] = 0xBF, 7, info);
    let counted = |count: [u32; 2]| {
        move |object: &mut InfoObject| {
            let blocks = object.blocks.as_mut().unwrap();
            [blocks.offsets.count, blocks.sets.count] = count.map(Some);
        }
    };
    assert_object(counted([2, 3]), 6, Part::InfoOffsets(0).field("count"));
    assert_object(counted([3, 4]), 6, Part::InfoSets(0).field("count"));
    assert_object(counted([4, 2]), 6, Part::InfoOffsets(0).field("count"));
}

#[test]
fn of_another_byte_order_the_name() {
    let other = |order: Order| Some(order.other());
    for subject in samples::standard_files() {
        let header = |file: &mut StandardFile| {
            file.buckets.header.order = other(file.buckets.order);
        };
        assert_file(subject.clone(), header, 1, Blame::Byte(8));
        let index = |file: &mut StandardFile| {
            file.indices[0].header.order = other(file.buckets.order);
        };
        assert_file(subject.clone(), index, 1, Part::Index(0).field(OBJECT_NAME));
        let space = |file: &mut StandardFile| {
            file.indices[0].free_space.header.order = other(file.buckets.order);
        };
        assert_file(subject.clone(), space, 1, Part::FreeSpace(0).field(OBJECT_NAME));
        let rows = |file: &mut StandardFile| {
            file.indices[0].last_rows.elements_order = other(file.buckets.order);
        };
        assert_file(subject, rows, 11, Blame::Nothing);
    }
    for subject in samples::incremental_files() {
        let header = |file: &mut IncrementalFile| {
            file.buckets.header.order = other(file.buckets.order);
        };
        assert_file(subject.clone(), header, 1, Blame::Byte(8));
        let block = |file: &mut IncrementalFile| {
            file.index.buckets.header.order = other(file.buckets.order);
        };
        assert_file(subject, block, 1, Part::Numbers(0).field(OBJECT_NAME));
    }
}

#[test]
fn of_a_file_without_its_buckets_the_end() {
    assert_standard(|file| file.buckets.torn_at = Some(831), 1, Blame::Byte(831));
    assert_standard(|file| file.buckets.stated_count = Some(6), 1, Blame::Byte(832));
    // Bytes after the last bucket, but not those of another.
    let longer = |file: &mut StandardFile| {
        file.buckets.stated_count = Some(6);
        file.buckets.trailing = vec![0; 63];
    };
    assert_standard(longer, 1, Blame::Byte(895));
}

#[test]
fn of_files_above_4_gib() {
    let subject = large_files::standard_above_4_gib(1);
    let needed = 512 + (4096 << 20);
    assert_file(
        subject,
        |file| file.buckets.torn_at = Some(needed - 1),
        1,
        Blame::Byte(needed - 1),
    );
    let subject = large_files::incremental_above_4_gib(0);
    let version = |file: &mut IncrementalFile| file.index.header.version = 3;
    assert_file(subject, version, 3, Blame::Byte(needed + 4 + 16)); // behind the mark, length and name
}

#[test]
fn of_index_text_left_over_its_first_byte() {
    assert_standard(|file| file.index_length = Some(135), 7, Blame::Byte(134));
    assert_standard(|file| file.text_after = vec![0xBE; 4], 7, Blame::Byte(134));
    // In the file it would stand elsewhere.
    let first = |file: &mut StandardFile| file.index_count = Some(1);
    let subject = samples::arrays_standard();
    assert_file(subject, first, 7, Blame::End(Part::Index(0)));
}

#[test]
fn of_a_table_that_is_too_long_its_longest_length() {
    for more in [1, 2, 1000] {
        let trailing = |table: &mut Table| {
            table.trailing = vec![0; 65_536 + more - table.encode().len()];
        };
        assert_table(trailing, 4, Blame::Byte(65_536));
    }
}

#[test]
fn of_buckets_in_the_file() {
    let offset = |entry: usize, offset| {
        move |file: &mut IncrementalFile| file.data[entry].index_offset = Some(offset)
    };
    // Bucket 2 of 128 bytes is the first of the index; its number of values
    // does not fit.
    assert_incremental(offset(0, 126), 1, Blame::Byte(512 + 2 * 128 + 126));
    assert_incremental(offset(0, 128), 1, Blame::Byte(512 + 3 * 128));
    assert_incremental(offset(0, 129), 11, Blame::Nothing);
    // The survey's first bucket is 2 as well, of 272 bytes, with a high byte.
    assert_survey(offset(0, 270), 1, Blame::Byte(512 + 2 * 272 + 270));
    assert_survey(offset(0, 272), 1, Blame::Byte(512 + 3 * 272));
    assert_survey(offset(0, 273), 11, Blame::Nothing);
    assert_survey(offset(0, 3), 11, Blame::Nothing);
}

#[test]
fn of_row_numbers_the_negative_one() {
    let rows = Part::Rows(0);
    const NEGATIVE: u64 = 1 << 63;
    for element in 0..2 {
        let blame = rows.nth("element", element);
        assert_wide(|file| file.indices[0].last_rows.elements[element] |= NEGATIVE, 4, blame);
        assert_wide(|file| file.indices[0].last_rows.elements[element..].fill(u64::MAX), 4, blame);
    }
    for element in 0..4 {
        let blame = rows.nth("element", element);
        assert_survey(|file| file.index.first_rows.elements[element] |= NEGATIVE, 4, blame);
        assert_survey(|file| file.index.first_rows.elements[element..].fill(u64::MAX), 4, blame);
    }
    // One that does not fit comes after a negative one, and before a later one.
    let torn = |negative: usize, cut: usize| {
        move |file: &mut IncrementalFile| {
            file.index.first_rows.elements[negative] = NEGATIVE;
            file.index.first_rows.header.cut = cut;
        }
    };
    assert_survey(torn(1, 1), 4, rows.nth("element", 1));
    assert_survey(torn(1, 16), 4, rows.nth("element", 1));
    assert_survey(torn(1, 17), 1, rows.nth("element", 1));
    assert_survey(torn(1, 24), 1, rows.nth("element", 1));
    assert_survey(torn(3, 1), 1, rows.nth("element", 3));
    // Above the row range: the map.
    for row in [(1 << 62) + 1, NEGATIVE - 1] {
        assert_survey(|file| file.index.first_rows.elements[3] = row, 11, Blame::Nothing);
        assert_wide(|file| file.indices[0].last_rows.elements[1] = row, 11, Blame::Nothing);
    }
}

#[test]
fn of_the_other_width_what_does_not_fit_or_is_left_over() {
    let rows = Part::Rows(0);
    assert_survey(|file| file.index.header.version = 1, 7, rows.header());
    assert_survey(|file| file.index.first_rows.wide = false, 1, Blame::End(rows));
    assert_survey(|file| file.index.buckets.wide = true, 7, Part::Numbers(0).header());
    assert_incremental(|file| file.index.header.version = 2, 1, rows.nth("element", 2));
    assert_incremental(|file| file.index.first_rows.wide = true, 7, rows.header());
    assert_wide(|file| file.indices[0].header.version = 1, 7, rows.header());
    assert_wide(|file| file.indices[0].last_rows.wide = false, 1, Blame::End(rows));
    assert_standard(|file| file.indices[0].header.version = 2, 1, Blame::End(rows));
    assert_standard(|file| file.indices[0].last_rows.wide = true, 7, rows.header());
}

#[test]
fn of_starts_the_one_that_does_not_fit() {
    // The first bucket's data grow until its index passes its end.
    let starts = |start: u64, kept: usize| {
        move |file: &mut IncrementalFile| {
            let size = file.buckets.size as usize;
            let bucket = &mut file.data[0];
            bucket.columns[0].starts[2] = start;
            bucket.data.resize(size - DATA_START as usize - kept, 0);
        }
    };
    let blame = |value| Part::Values(0, 0).nth("start", value);
    // The number of values has 4 bytes, the starts before the third have 16.
    let good = 1 << 31;
    assert_survey(starts(good, 4 + 16 + 7), 1, blame(2));
    assert_survey(starts(good, 4 + 16 + 8), 1, blame(3));
    for bad in [0, good - 1, 1 << 62, (1 << 63) - 1, 1 << 63, u64::MAX] {
        assert_survey(starts(bad, 4 + 16 + 7), 1, blame(2));
        assert_survey(starts(bad, 4 + 16 + 8), 11, Blame::Nothing);
    }
}

#[test]
fn of_other_refusals_nothing() {
    assert_standard(|file| file.first_index = Some(0), 10, Blame::Nothing);
    assert_standard(|file| file.buckets.free_count = Some(1), 10, Blame::Nothing);
    assert_standard(|file| file.indices[0].columns = 2, 11, Blame::Nothing);
    assert_incremental(|file| file.index.buckets.elements[0] = 9, 11, Blame::Nothing);
    assert_incremental(|file| file.data[1].columns[0].starts[0] = 1, 11, Blame::Nothing);
}
