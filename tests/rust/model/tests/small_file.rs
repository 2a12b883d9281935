//! The `table.dat` of the small file (RULES.md 11.1), written here byte by byte.

mod common;

use common::{FLAG, SCAN, refused, small_table as small_file, string, table};
use model::{ByteOrder, DataType, Kind, answer, column, describe, listing, numbers};

/// The file after a change of the only place where these bytes stand.
fn changed(old: &[u8], new: &[u8]) -> Vec<u8> {
    let mut file = small_file();
    let places: Vec<usize> =
        (0..file.len()).filter(|place| file[*place..].starts_with(old)).collect();
    assert_eq!((places.len(), old.len()), (1, new.len()));
    file[places[0]..][..new.len()].copy_from_slice(new);
    file
}

#[test]
fn is_listed_as_in_document_01() {
    let text = "rows 7 columns 3\n0 SCAN Int 1 0\n1 FLAG Bool 1 0\n2 TIME double 1 0\n";
    assert_eq!(listing(&small_file()), text.as_bytes());
}

#[test]
fn is_described() {
    let file = small_file();
    let description = describe(&file).unwrap();
    assert_eq!((description.rows, description.byte_order), (7, ByteOrder::Big));
    let columns: Vec<_> = description
        .columns
        .iter()
        .map(|c| (c.name, c.data_type, c.elements, c.cell_bits, c.manager, c.set, c.offset))
        .collect();
    assert_eq!(
        columns,
        [
            (&b"SCAN"[..], DataType::Int, 1, 32, 0, 0, 0),
            (&b"FLAG"[..], DataType::Bool, 1, 1, 0, 0, 16),
            (&b"TIME"[..], DataType::Double, 1, 64, 0, 0, 17),
        ]
    );
    assert_eq!(description.managers.len(), 1);
    assert_eq!(description.managers[0].number, 0);
    assert_eq!(description.managers[0].name, b"StandardStMan");
    assert_eq!(description.managers[0].kind, Kind::Standard);
}

/// The small table with another manager, whose name stands once after the
/// columns' descriptions.
fn of_manager(name: &str) -> (Vec<u8>, usize) {
    let mut file = small_file();
    let old = string("StandardStMan");
    let place = file.windows(old.len()).rposition(|bytes| bytes == old).unwrap();
    file.splice(place..place + old.len(), string(name));
    let length = file.len() as u32 - 4; // without the mark
    file[4..8].copy_from_slice(&length.to_be_bytes());
    (file, place + 4)
}

#[test]
fn is_described_in_numbers() {
    let file = small_file();
    assert_eq!(numbers::description(&file), Ok([7, 1, 3, 1, 0]));
    // The name stands in the description before it stands in the binding.
    let start = |name| {
        let name = string(name);
        file.windows(name.len()).position(|bytes| bytes == name).unwrap() as u64 + 4
    };
    let columns = [
        [start("SCAN"), 4, 5, 0, 0, 1, 0, 32, 0, 0, 0, 0],
        [start("FLAG"), 4, 0, 0, 0, 1, 0, 1, 0, 0, 16, 0],
        [start("TIME"), 4, 8, 0, 0, 1, 0, 64, 0, 0, 17, 0],
    ];
    for (position, column) in columns.into_iter().enumerate() {
        assert_eq!(numbers::column(&file, position as u64), Ok(column));
    }
    for position in [3, 64, 1 << 32, 1 << 63, u64::MAX] {
        assert_eq!(numbers::column(&file, position), refused(8, 0));
        assert_eq!(numbers::column(&file[..100], position), refused(1, 4));
        assert_eq!(numbers::manager(&file, position), refused(8, 0));
        assert_eq!(numbers::manager(&file[..100], position), refused(1, 4));
    }
    assert_eq!(numbers::column_by_name(&file, b"TIME"), Ok([2, 0]));
    assert_eq!(numbers::column_by_name(&file, b"TIM"), refused(8, 0));
    assert_eq!(numbers::description(&file[..100]), refused(1, 4));
}

#[test]
fn a_direct_array_in_numbers() {
    let flags = common::Column { elements: Some(8), offset: 0, ..FLAG };
    let file = table(2, &[SCAN, flags]);
    let column = numbers::column(&file, 1).unwrap();
    assert_eq!(column[1..], [4, 0, 1, 5, 8, 0, 8, 0, 0, 0, 0]);
}

#[test]
fn managers_in_numbers() {
    let kinds = [("StandardStMan", 1), ("IncrementalStMan", 2), ("TiledShapeStMan", 0), ("", 0)];
    for (name, kind) in kinds {
        let (file, start) = of_manager(name);
        let manager = [0, kind, start as u64, name.len() as u64, 0];
        assert_eq!(numbers::manager(&file, 0), Ok(manager), "{name}");
        assert_eq!(numbers::manager(&file, 1), refused(8, 0));
    }
}

#[test]
fn has_its_columns_by_name() {
    let file = small_file();
    assert_eq!(column(&file, b"SCAN"), Ok(0));
    assert_eq!(column(&file, b"TIME"), Ok(2));
    assert_eq!(column(&file, b"TIM"), refused(8, 0));
    assert_eq!(column(&file, b"time"), refused(8, 0));
    assert_eq!(column(&file, b""), refused(8, 0));
    // The table comes before the column.
    assert_eq!(column(&file[..100], b"TIM"), refused(1, 4));
}

#[test]
fn is_refused_at_every_prefix() {
    let file = small_file();
    for length in 0..file.len() {
        // In the mark, the length, the name or the version, or after them.
        let byte = match length {
            0..4 => 0,
            4..8 => 4,
            8..17 => 8,
            17..21 => 17,
            _ => 4,
        };
        assert_eq!(describe(&file[..length]), refused(1, byte), "{length}");
    }
}

#[test]
fn is_refused_after_changes() {
    let assert = |old: &[u8], new: &[u8], number, byte| {
        assert_eq!(describe(&changed(old, new)), refused(number, byte));
    };
    assert(&[0xBE; 4], &[0xBE, 0xBE, 0xBE, 0xBF], 2, 0);
    assert(b"PlainTable", b"plainTable", 2, 29);
    assert(b"TableDesc\0\0\0\x02", b"TableDesc\0\0\0\x01", 3, 60);
    assert(b"\0\0\0\x03\0\0\0\x01\0\0\0\x19", b"\0\0\0\0\0\0\0\x01\0\0\0\x19", 4, 182);
    assert(b"<Int     ", b"<Int    >", 5, 190);
    assert(b"<double  ", b"<Double  ", 5, 521);
    // ColumnSet's version, then its row count.
    assert(&[255, 255, 255, 254], &[255, 255, 255, 252], 3, 690);
    let rows = [255, 255, 255, 254, 0, 0, 0, 7];
    assert(&rows, &[255, 255, 255, 254, 0, 0, 0, 8], 6, 694);
    assert(&rows, &[255, 255, 255, 254, 128, 0, 0, 7], 6, 694);
    // Of eight bytes: with the next field; then a manager's name is too long.
    assert(&rows, &[255, 255, 255, 253, 128, 0, 0, 7], 4, 694);
    assert(&rows, &[255, 255, 255, 253, 0, 0, 0, 7], 1, 710);
}

#[test]
fn has_at_most_65_536_bytes() {
    let mut file = small_file();
    file.resize(65_536, 0xBE);
    assert!(describe(&file).is_ok());
    file.push(0);
    assert_eq!(describe(&file), refused(4, 65_536));
    file[0] = 0; // nothing is read before
    assert_eq!(describe(&file), refused(4, 65_536));
}

#[test]
fn is_answered_in_lines() {
    let table = model::hex::encode(&small_file());
    assert_eq!(
        answer(&format!("describe {table}")),
        "ok rows=7 be=1 cols=[5343414e,Int,1,0,32;464c4147,Bool,1,0,1;54494d45,double,1,0,64] \
         dms=[0,5374616e6461726453744d616e]"
    );
    assert_eq!(answer(&format!("column {table} 464c4147")), "ok 1");
    assert_eq!(answer(&format!("column {table} -")), "refused 8 0");
    assert_eq!(answer(&format!("listing {table}")), model::hex::encode(&listing(&small_file())));
    assert_eq!(answer("listing -"), model::hex::encode(b"refused 1 0\n"));
    assert_eq!(answer("describe bebebebf"), "refused 2 0");
}

#[test]
fn lines_that_are_no_requests() {
    for line in [
        "",
        "describe",
        "describe ",
        "describe be be",
        "describe BE",
        "describe b",
        "describe bg",
        "column be",
        "listing",
        "Describe be",
        " describe be",
        "describe be ",
    ] {
        assert_eq!(answer(line), "bad request", "{line:?}");
    }
}
