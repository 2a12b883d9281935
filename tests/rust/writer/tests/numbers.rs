//! The model's numbers of good tables, against what the writer wrote.

use model::numbers;
use model::refusal::NO_SUCH;
use writer::cells;
use writer::generate;
use writer::rng::Rng;

/// A String with this text stands here, and its text begins at `start`.
fn assert_text(bytes: &[u8], [start, length]: [u64; 2], text: &[u8]) {
    let start = start as usize;
    assert_eq!(length, text.len() as u64);
    assert_eq!(bytes[start - 4..start], (text.len() as u32).to_be_bytes());
    assert_eq!(&bytes[start..][..text.len()], text);
}

#[test]
fn every_number_is_what_was_written() {
    for number in 0..300 {
        let table = generate::table(&mut Rng::new(51, number));
        let bytes = table.encode();
        let (columns, managers) = (table.columns(), table.managers());
        let counts = [columns.len() as u64, managers.len() as u64];
        let description = [table.rows(), table.endianness.into(), counts[0], counts[1], 0];
        assert_eq!(numbers::description(&bytes), Ok(description), "table {number}");
        let mut before = 0; // columns are described in stored order
        for (position, column) in columns.iter().enumerate() {
            let numbers = numbers::column(&bytes, position as u64).unwrap();
            let [start, length, numbers @ ..] = numbers;
            assert_text(&bytes, [start, length], &column.name.bytes);
            assert!(start > before);
            before = start;
            let manager = managers.iter().find(|manager| manager.number == column.info.manager);
            let told = manager.is_some_and(|manager| manager.tells_places());
            let info = if told { [column.info.set, column.info.offset] } else { [0; 2] };
            let expected = [
                column.data_type as u64,
                column.is_array().into(),
                column.options as u64,
                cells::elements(column),
                column.string_maximum.into(),
                cells::bits(column),
                column.info.manager.into(),
                info[0].into(),
                info[1].into(),
                0, // no byte
            ];
            assert_eq!(numbers, expected, "table {number}, column {position}");
            let found = numbers::column_by_name(&bytes, &column.name.bytes);
            assert_eq!(found, Ok([position as u64, 0]));
        }
        for (index, manager) in managers.iter().enumerate() {
            let numbers = numbers::manager(&bytes, index as u64).unwrap();
            let [sequence, kind, start, length, byte] = numbers;
            assert_text(&bytes, [start, length], &manager.name.bytes);
            assert!(start > before); // managers stand after the columns' descriptions
            before = start;
            let expected = match &manager.name.bytes[..] {
                b"StandardStMan" => 1,
                b"IncrementalStMan" => 2,
                _ => 0,
            };
            let expected = [manager.number.into(), expected, 0];
            assert_eq!([sequence, kind, byte], expected, "table {number}");
        }
        assert_eq!(numbers::column(&bytes, counts[0]), Err(NO_SUCH));
        assert_eq!(numbers::manager(&bytes, counts[1]), Err(NO_SUCH));
    }
}
