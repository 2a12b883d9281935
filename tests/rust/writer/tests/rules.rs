//! Rules of RULES.md 4, each by hand on a small table.

use model::describe;
use writer::samples;
use writer::table::{
    BOOL, COMPLEX, Column, DCOMPLEX, DOUBLE, DefaultValue, INT, Manager, Record, STRING, Shape,
    TYPES, Table, Text, USHORT,
};

/// The refusal number of a table after a change, 0 if it is accepted.
fn after(mut table: Table, change: impl FnOnce(&mut Table)) -> u8 {
    change(&mut table);
    describe(&table.encode()).err().map_or(0, |refusal| refusal.number)
}

/// The small table (RULES.md 11.1) after a change.
fn small(change: impl FnOnce(&mut Table)) -> u8 {
    after(samples::small(), change)
}

/// A table of one column after a change to it.
fn column(column: Column, change: impl FnOnce(&mut Column)) -> u8 {
    let table = Table::new(7, 0, vec![column], vec![Manager::new("StandardStMan", 3)]);
    after(table, |table| {
        table.columns_mut()[0].info.manager = 3;
        table.write_infos();
        change(&mut table.columns_mut()[0]);
    })
}

fn fixed(axes: &[i64], change: impl FnOnce(&mut Column)) -> u8 {
    column(Column::fixed(INT, "A", axes), change)
}

fn shape(column: &mut Column) -> &mut Shape {
    column.shape.as_mut().unwrap()
}

fn filled(length: usize) -> Text {
    vec![b'x'; length].into()
}

#[test]
fn samples_are_listed() {
    let listings =
        samples::all().map(|(_, bytes)| String::from_utf8(model::listing(&bytes)).unwrap());
    assert_eq!(
        listings[0],
        "rows 7 columns 3\n0 SCAN Int 1 0\n1 FLAG Bool 1 0\n2 TIME double 1 0\n"
    );
    assert_eq!(listings[1], listings[0]); // the same little endian
    assert_eq!(
        listings[2],
        "rows 20 columns 15\n\
         0 TIME double 1 1\n\
         1 ANTENNA1 Int 1 0\n\
         2 ANTENNA2 Int 1 0\n\
         3 UVW double 3 0\n\
         4 SCAN_NUMBER Int 1 1\n\
         5 INTERVAL double 1 1\n\
         6 FLAG Bool 0 2\n\
         7 DATA Complex 0 2\n\
         8 WEIGHT float 4 0\n\
         9 FLAG_ROW Bool 1 0\n\
         10 OBSERVER String 1 0\n\
         11 STATION String 1 0\n\
         12 SCHEDULE String 2 0\n\
         13 FLAG_CORR Bool 4 0\n\
         14 CORR_PRODUCT Int 8 4\n"
    );
    // Too long; no mark; Table passes the file's end.
    assert_eq!(listings[3..6], ["refused 4 65536\n", "refused 1 0\n", "refused 1 4\n"]);
    assert_eq!(
        listings[6],
        "rows 5000000000 columns 4\n\
         0 TIME double 1 0\n\
         1 ANTENNA1 Int 1 0\n\
         2 SCAN_NUMBER Int 1 0\n\
         3 FLAG_ROW Bool 1 0\n"
    );
}

#[test]
fn cell_bits() {
    let bits = |column: Column| {
        let table = Table::new(7, 0, vec![column], vec![Manager::new("TiledShapeStMan", 0)]);
        let bytes = table.encode();
        let description = describe(&bytes).unwrap();
        (description.columns[0].elements, description.columns[0].cell_bits)
    };
    let sizes = TYPES.map(|data_type| bits(Column::scalar(data_type, "S")).1);
    assert_eq!(sizes, [1, 8, 16, 16, 32, 32, 32, 64, 64, 128, 96, 64]);
    assert_eq!(bits(Column::scalar(STRING, "S").string_maximum(5)), (1, 40));
    assert_eq!(bits(Column::scalar(INT, "S").string_maximum(5)), (1, 32));
    assert_eq!(bits(Column::direct(BOOL, "A", &[3, 3])), (9, 9));
    assert_eq!(bits(Column::direct(DCOMPLEX, "A", &[1024, 1024])), (1_048_576, 134_217_728));
    assert_eq!(bits(Column::direct(STRING, "A", &[4]).string_maximum(5)), (4, 96));
    assert_eq!(bits(Column::fixed(USHORT, "A", &[4])), (4, 64));
    assert_eq!(bits(Column::array(COMPLEX, "A")), (0, 64));
    // Options have no effect on scalars.
    assert_eq!(bits(Column { options: 7, ..Column::scalar(INT, "S") }), (1, 32));
}

#[test]
fn header_faults_in_order() {
    let header = |change: fn(&mut writer::table::Header)| small(|table| change(&mut table.header));
    // A name that does not fit gives 1, any other wrong name 2, never 4.
    assert_eq!(header(|header| header.name.stated = Some(70_000)), 1);
    assert_eq!(header(|header| header.name = filled(5000)), 2);
    // Name, version, the end against the container, the header's own size.
    assert_eq!(header(|h| (h.name, h.version, h.stated) = ("table".into(), 3, Some(0))), 2);
    assert_eq!(header(|h| (h.version, h.stated) = (3, Some(u32::MAX))), 3);
    assert_eq!(header(|h| (h.version, h.stated) = (3, Some(0))), 3);
    assert_eq!(header(|h| h.stated = Some(u32::MAX)), 1);
    assert_eq!(header(|h| h.stated = Some(16)), 7);
    // With the header's size it is the first field that does not fit.
    assert_eq!(header(|h| h.stated = Some(17)), 1);
}

#[test]
fn objects_are_as_long_as_their_fields() {
    assert_eq!(small(|table| table.header.extra = vec![0]), 7);
    assert_eq!(small(|table| table.header.cut = 1), 1);
    assert_eq!(small(|table| table.description.header.extra = vec![0]), 7);
    assert_eq!(small(|table| table.description.header.cut = 1), 1);
    // Bytes after the Table object are not read.
    assert_eq!(small(|table| table.trailing = vec![0; 9]), 0);
    // The last field's own fault comes before 7.
    assert_eq!(fixed(&[2, 0], |column| shape(column).header.extra = vec![0]), 4);
    assert_eq!(fixed(&[2, 1], |column| shape(column).header.extra = vec![0]), 7);
}

#[test]
fn records_are_passed_over() {
    let record = |contents: Vec<u8>, stated| {
        small(|table| {
            table.description.keywords = Record::new(contents);
            table.description.keywords.header.stated = stated;
        })
    };
    assert_eq!(record(Vec::new(), None), 0);
    assert_eq!(record(vec![7; 9], None), 0);
    assert_eq!(record(vec![7; 9], Some(23 + 9)), 0);
    assert_eq!(record(Vec::new(), Some(22)), 7);
}

#[test]
fn table_fields() {
    assert_eq!(small(|table| table.set_rows(1 << 31)), 0);
    assert_eq!(small(|table| table.set_rows(u32::MAX.into())), 0);
    assert_eq!(small(|table| table.header_rows = 1 << 31), 6);
    assert_eq!(small(|table| table.column_set.rows = 8), 6);
    // Of 64 bits: not compared, but in range.
    let wide = |rows: i64, header_rows: u32| {
        small(|table| {
            table.widen(header_rows);
            table.set_rows(rows as u64);
        })
    };
    assert_eq!(wide(7, 8), 0);
    assert_eq!(wide(1 << 62, u32::MAX), 0);
    assert_eq!([-1, i64::MIN, (1 << 62) + 1, i64::MAX].map(|rows| wide(rows, 7)), [4; 4]);
    assert_eq!(small(|table| table.endianness = 2), 5);
    assert_eq!(small(|table| table.table_type = "RefTable".into()), 2);
    assert_eq!(small(|table| table.table_type = filled(4097)), 2);
    assert_eq!(small(|table| table.description.comment = filled(4096)), 0);
    assert_eq!(small(|table| table.description.comment = filled(4097)), 4);
    assert_eq!(small(|table| table.description.comment.stated = Some(60_000)), 1);
    assert_eq!(small(|table| table.description.column_count = Some(0)), 4);
    assert_eq!(small(|table| table.description.column_count = Some(65)), 4);
    assert_eq!(small(|table| table.description.column_count = Some(2)), 7);
    assert_eq!(small(|table| table.description.column_count = Some(4)), 1);
}

#[test]
fn column_types() {
    let of_type = |name: &str| column(Column::scalar(INT, "S"), |c| c.type_name = name.into());
    assert_eq!(of_type("ScalarColumnDesc<Int"), 0);
    assert_eq!(of_type("ScalarColumnDesc<Int     "), 0);
    assert_eq!(of_type("ScalarColumnDesc<Int    "), 5);
    assert_eq!(of_type("ScalarColumnDesc<Int      "), 5);
    assert_eq!(of_type("ScalarColumnDesc<Int     >"), 5);
    assert_eq!(of_type("ScalarColumnDesc<Int>"), 5);
    assert_eq!(of_type("ScalarColumnDesc<int"), 5);
    assert_eq!(of_type("ScalarRecordColumnDesc"), 5);
    assert_eq!(of_type("SubTableDesc"), 5);
    // A good string, but not the data type's.
    assert_eq!(of_type("ScalarColumnDesc<uInt"), 5);
    // The string does not fit: 1. Too long: 4. Not a type: 5.
    let text = |text: Text| column(Column::scalar(INT, "S"), |column| column.type_name = text);
    assert_eq!(text(Text { stated: Some(60_000), ..filled(24) }), 1);
    assert_eq!(text(filled(4097)), 4);
    assert_eq!(text(filled(4096)), 5);
}

#[test]
fn column_names() {
    let named = |name: Text| small(|table| table.columns_mut()[1].name = name);
    assert_eq!(named(filled(0)), 4);
    assert_eq!(named(filled(64)), 0);
    assert_eq!(named(filled(65)), 4);
    assert_eq!(named("SCAN".into()), 6);
    assert_eq!(named("TIME".into()), 6);
    assert_eq!(named("Scan".into()), 0);
    assert_eq!(small(|table| table.columns_mut()[1].info.original_name = "SCAN".into()), 0);
    // The second name is a fault before the data type that follows it.
    assert_eq!(
        small(|table| {
            table.columns_mut()[1].name = "SCAN".into();
            table.columns_mut()[1].data_type = 99;
        }),
        6
    );
}

#[test]
fn options_and_dimensionality() {
    let scalar = |change: fn(&mut Column)| column(Column::scalar(INT, "S"), change);
    assert_eq!(scalar(|column| column.options = 7), 0);
    assert_eq!(scalar(|column| column.options = 1), 0);
    assert_eq!(scalar(|column| column.options = 8), 5);
    assert_eq!(scalar(|column| column.options = -1), 5);
    assert_eq!(scalar(|column| column.dimensionality = -1), 0);
    assert_eq!(scalar(|column| column.dimensionality = 1), 5);
    let array = |change: fn(&mut Column)| column(Column::array(INT, "A"), change);
    assert_eq!(array(|column| column.options = 1), 5);
    assert_eq!(array(|column| column.options = 3), 5);
    assert_eq!(array(|column| column.options = 2), 0);
    assert_eq!(array(|column| column.dimensionality = -77), 0);
    assert_eq!(array(|column| column.shape = Some(Shape::new(2, &[-1; 20]))), 0);
    assert_eq!(array(|column| shape(column).count = Some(1)), 1);
    assert_eq!(array(|column| shape(column).count = Some(0x4000_0000)), 1);
    assert_eq!(array(|column| shape(column).axes = vec![1; 2]), 0);
    assert_eq!(
        array(|column| {
            shape(column).axes = vec![1; 2];
            shape(column).count = Some(1);
        }),
        7
    );
}

#[test]
fn fixed_shapes() {
    assert_eq!(fixed(&[], |_| ()), 4);
    assert_eq!(fixed(&[1; 8], |_| ()), 0);
    assert_eq!(fixed(&[1; 9], |_| ()), 4);
    // The count's range comes before its agreement with the dimensionality.
    assert_eq!(fixed(&[1; 9], |column| column.dimensionality = 2), 4);
    assert_eq!(fixed(&[1; 2], |column| column.dimensionality = 3), 5);
    assert_eq!(fixed(&[1_048_576], |_| ()), 0);
    assert_eq!(fixed(&[1_048_577], |_| ()), 4);
    assert_eq!(fixed(&[2, 524_288], |_| ()), 0);
    assert_eq!(fixed(&[2, 524_289], |_| ()), 4);
    assert_eq!(fixed(&[65_536, 65_536], |_| ()), 4);
    assert_eq!(fixed(&[0], |_| ()), 4);
    assert_eq!(fixed(&[-1, -1], |_| ()), 4);
    let wide = |axes: &[i64]| fixed(axes, |column| column.shape = Some(Shape::new(2, axes)));
    assert_eq!(wide(&[3, 4]), 0);
    assert_eq!(wide(&[1 << 32 | 3, 4]), 4);
    assert_eq!(wide(&[i64::MIN]), 4);
    // Axes are judged one by one, before a later one that is not there.
    assert_eq!(fixed(&[0, 1], |column| shape(column).header.cut = 4), 4);
    assert_eq!(fixed(&[1, 0], |column| shape(column).header.cut = 4), 1);
    assert_eq!(fixed(&[1, 1], |column| shape(column).header.version = 3), 3);
}

#[test]
fn last_fields_of_a_column() {
    let string = |change: fn(&mut Column)| column(Column::scalar(STRING, "S"), change);
    assert_eq!(string(|column| column.string_maximum = 65_536), 0);
    assert_eq!(string(|column| column.string_maximum = 65_537), 4);
    assert_eq!(column(Column::scalar(DOUBLE, "S"), |column| column.string_maximum = 65_537), 4);
    // The default is limited by 4,096 and not by the maximum.
    assert_eq!(
        string(|c| (c.string_maximum, c.default) = (1, DefaultValue::Text(filled(4096)))),
        0
    );
    assert_eq!(string(|column| column.default = DefaultValue::Text(filled(4097))), 4);
    let flag = |column: Column, byte| {
        self::column(column, |c| c.default = DefaultValue::Bytes(vec![byte]))
    };
    assert_eq!(flag(Column::scalar(BOOL, "S"), 1), 0);
    assert_eq!(flag(Column::scalar(BOOL, "S"), 2), 5);
    assert_eq!(flag(Column::array(INT, "A"), 1), 0);
    assert_eq!(flag(Column::array(INT, "A"), 2), 5);
    assert_eq!(column(Column::scalar(INT, "S"), |column| column.derived_version = 2), 3);
}

#[test]
fn managers() {
    for version in [-4, -1, 0, 2] {
        assert_eq!(small(|table| table.column_set.version = version), 3);
    }
    assert_eq!(small(|table| table.column_set.manager_count = Some(0)), 4);
    assert_eq!(small(|table| table.column_set.manager_count = Some(17)), 4);
    let two = |change: fn(&mut Table)| {
        small(|table| {
            table.column_set.highest = 5;
            table.managers_mut().push(Manager::new("TiledShapeStMan", 5));
            change(table);
        })
    };
    assert_eq!(two(|_| ()), 0);
    assert_eq!(two(|table| table.column_set.highest = u32::MAX), 0);
    assert_eq!(two(|table| table.column_set.highest = 4), 6);
    assert_eq!(two(|table| table.managers_mut()[1].number = 0), 6);
    assert_eq!(two(|table| table.columns_mut()[2].info.manager = 4), 6);
    assert_eq!(two(|table| table.columns_mut()[2].info.version = 1), 3);
    assert_eq!(two(|table| table.columns_mut()[2].info.derived_version = 2), 3);
    // Any DMInfo of another kind.
    assert_eq!(two(|table| table.managers_mut()[1].info = filled(77)), 0);
    assert_eq!(two(|table| table.managers_mut()[1].info.stated = Some(1)), 1);
}

#[test]
fn manager_infos() {
    let info = |length| small(|table| table.managers_mut()[0].info = vec![0; length].into());
    assert_eq!(info(24), 0);
    assert_eq!([0, 16, 23, 25, 32].map(info), [7; 5]);
    assert_eq!(small(|table| table.managers_mut()[0].info.stated = Some(25)), 1);
    // No columns, no bytes.
    let second = |name: &str, length| {
        small(|table| {
            table.managers_mut().push(Manager { info: filled(length), ..Manager::new(name, 1) })
        })
    };
    assert_eq!(second("IncrementalStMan", 0), 0);
    assert_eq!(second("IncrementalStMan", 8), 7);
    assert_eq!(second("IncrementalStMan ", 8), 0);
    assert_eq!(second("standardStMan", 8), 0);
}

#[test]
fn shapes_in_the_column_set() {
    let defined = |value, shape: Option<Shape>| {
        column(Column::array(INT, "A"), |column| {
            column.info.shape_defined = value;
            column.info.shape = shape;
        })
    };
    assert_eq!(defined(0, None), 0);
    assert_eq!(defined(2, None), 5);
    assert_eq!(defined(1, Some(Shape::new(1, &[-1, 0]))), 0);
    assert_eq!(defined(1, Some(Shape::new(2, &[-1; 12]))), 0);
    assert_eq!(defined(1, Some(Shape::new(3, &[1]))), 3);
    let counted = |count| Some(Shape { count: Some(count), ..Shape::new(1, &[1, 1]) });
    assert_eq!(defined(1, counted(1)), 7);
    assert_eq!(defined(1, counted(3)), 1);
}
