//! Rules of RULES.md 6 for IncrementalStMan, each by hand on a small file.

use model::refusal::{NO_ROW, NO_SUCH};
use model::{Kind, check, place, plan, view};
use writer::buckets::{BucketFile, Buckets, Subject};
use writer::incremental::{DataBucket, IncrementalFile, Values};
use writer::samples;
use writer::table::{BOOL, Column, INT, Manager, STRING, Table};

type Small = Subject<IncrementalFile>;

/// An Int, a String and 9 Bools, of 7 rows: 4 in bucket 2, and 3 in bucket 0.
/// The buckets are full: 4 bytes of offset, 15 of data, 60 of index.
fn subject(endianness: u32) -> Small {
    let columns = vec![
        Column::scalar(INT, "I").of_manager(1),
        Column::scalar(STRING, "S").of_manager(1),
        Column::scalar(INT, "T").of_manager(2),
        Column::direct(BOOL, "B", &[9]).of_manager(1).at(3, 77), // not used
    ];
    let managers = vec![Manager::new("IncrementalStMan", 1), Manager::new("TiledShapeStMan", 2)];
    let table = Table::new(7, endianness, columns, managers);
    let values = |starts: &[u64], offsets: &[u32]| Values::new(starts.to_vec(), offsets.to_vec());
    let columns = vec![
        values(&[0, 1, 2], &[0, 4, 8]),
        values(&[0], &[15]), // at the data part's end
        values(&[0, 2], &[13, 13]),
    ];
    let bucket = |number| DataBucket::new(number, vec![7; 15], columns.clone());
    let buckets = Buckets::new("IncrementalStMan", 5, endianness, 79, 4);
    let mut file = IncrementalFile::new(buckets, vec![0, 4, 7], vec![bucket(2), bucket(0)]);
    file.buckets.free = vec![3];
    Subject { table, number: 1, file }
}

/// The refusal number of the file after a change, 0 if it is accepted; in
/// both byte orders.
fn small(change: impl Fn(&mut Small)) -> u8 {
    let [big, little] = [1, 0].map(|endianness| {
        let mut subject = subject(endianness);
        change(&mut subject);
        subject.table.write_infos();
        let (table, file) = (subject.table.encode(), subject.file.encode());
        let mut room = [0xA5; 5];
        let answer = check(&table, 1, &file, &mut room);
        assert_eq!(room, [0; 5]);
        answer.err().map_or(0, |refusal| refusal.number)
    });
    assert_eq!(big, little);
    big
}

fn file(change: fn(&mut IncrementalFile)) -> u8 {
    small(|subject| change(&mut subject.file))
}

/// A change of the first bucket of the index, and of one of its columns.
fn bucket(change: fn(&mut DataBucket)) -> u8 {
    small(|subject| change(&mut subject.file.data[0]))
}

fn values(column: usize, change: impl Fn(&mut Values)) -> u8 {
    small(|subject| change(&mut subject.file.data[0].columns[column]))
}

#[test]
fn samples_are_accepted() {
    let subject = samples::arrays_incremental();
    let (table, file) = (subject.table.encode(), subject.file.encode());
    assert_eq!(table, samples::all()[2].1);
    assert_eq!(check(&table, 1, &file, &mut []), Ok(Kind::Incremental));
    let times: Vec<f64> = (0..20)
        .map(|row| view(&table, &file, row, 0, &mut []).unwrap().try_into().unwrap())
        .map(f64::from_le_bytes)
        .collect();
    assert_eq!(times[..4], [4_895_000_000.0; 4]);
    assert_eq!(times[8..12], [4_895_000_020.0; 4]);
    assert_eq!(times[12..16], [4_895_000_030.0; 4]);
    assert_eq!(view(&table, &file, 19, 4, &mut []), Ok(&2_i32.to_le_bytes()[..]));
    assert_eq!(view(&table, &file, 0, 5, &mut []), Ok(&10.0_f64.to_le_bytes()[..]));
}

#[test]
fn values_of_the_survey() {
    let subject = samples::survey_file();
    let (table, file) = (subject.table.encode(), subject.file.encode());
    assert_eq!(table, samples::all()[6].1);
    let cell = |row, position| view(&table, &file, row, position, &mut []).unwrap();
    let time =
        |row| (f64::from_le_bytes(cell(row, 0).try_into().unwrap()) - 4_895_000_000.0) as u32;
    let int = |row, position| i32::from_le_bytes(cell(row, position).try_into().unwrap());
    // The rows of each time, in steps of ten seconds; antenna, scan and flag of
    // the first and the last of them.
    let runs = [
        (0, (1 << 31) - 2, [0, 1, 0], [0, 1, 0]),
        ((1 << 31) - 1, (1 << 31) - 1, [0, 1, 1], [0, 1, 1]),
        (1 << 31, (1 << 32) - 2, [1, 1, 0], [1, 1, 0]),
        ((1 << 32) - 1, (1 << 32) - 1, [1, 2, 0], [1, 2, 0]),
        (1 << 32, 4_499_999_999, [2, 2, 1], [2, 2, 0]),
        (4_500_000_000, 4_649_999_999, [3, 2, 0], [3, 3, 0]),
        (4_650_000_000, 4_799_999_999, [3, 3, 0], [3, 3, 0]),
        (4_800_000_000, 4_999_999_999, [3, 4, 0], [4, 4, 1]),
    ];
    for (step, (first, last, of_first, of_last)) in (0..).zip(runs) {
        for (row, values) in [(first, of_first), (last, of_last)] {
            assert_eq!(time(row), 10 * step, "{row}");
            assert_eq!([int(row, 1), int(row, 2), cell(row, 3)[0].into()], values, "{row}");
        }
    }
    assert_eq!(view(&table, &file, 5_000_000_000, 0, &mut []), Err(NO_ROW));
}

#[test]
fn places() {
    for endianness in [0, 1] {
        let subject = subject(endianness);
        let (table, file) = (subject.table.encode(), subject.file.encode());
        let mut room = [0xA5; 3];
        assert_eq!(check(&table, 1, &file, &mut room), Ok(Kind::Incremental));
        assert_eq!(room, [0; 3]);
        let byte = |row, position| {
            let placed = place(&table, &file, row, position, &mut [])?;
            assert_eq!((placed.looks, placed.entries), (0, 0));
            Ok((placed.first_bit, placed.bit_count))
        };
        // Bucket 2 starts at 512 + 2 x 79, its data four bytes later.
        assert_eq!(byte(0, 0), Ok((8 * (670 + 4), 32)));
        assert_eq!(byte(1, 0), Ok((8 * (670 + 8), 32)));
        assert_eq!(byte(2, 0), Ok((8 * (670 + 12), 32)));
        assert_eq!(byte(3, 0), Ok((8 * (670 + 12), 32)));
        assert_eq!(byte(4, 0), Ok((8 * (512 + 4), 32)));
        // 9 Bools take two bytes, and have a view.
        assert_eq!(byte(6, 3), Ok((8 * (512 + 17), 16)));
        assert_eq!(view(&table, &file, 6, 3, &mut []), Ok(&file[529..531]));
        let fields = plan(&table, &file, 3, &mut []).unwrap();
        assert_eq!((fields.position, fields.manager, fields.data_type), (3, 1, 0));
        assert_eq!((fields.elements, fields.cell_bits), (9, 16));
        assert_eq!((fields.set, fields.offset, fields.rows_per_bucket), (0, 0, 0));
        assert_eq!(fields.bucket_size, 79);
        // A String has none, nor has another manager's column.
        assert_eq!(byte(0, 1), Err(NO_SUCH));
        assert_eq!(byte(0, 2), Err(NO_SUCH));
        assert_eq!(byte(7, 0), Err(NO_ROW));
        assert_eq!(byte(1 << 32, 0), Err(NO_ROW));
    }
}

#[test]
fn header_and_length() {
    assert_eq!(file(|_| ()), 0);
    assert_eq!(file(|file| file.buckets.header.version = 4), 3);
    assert_eq!(file(|file| file.buckets.header.name = "StandardStMan".into()), 2);
    assert_eq!(file(|file| file.buckets.header.extra = vec![0; 4]), 7);
    assert_eq!(file(|file| file.buckets.big_endian ^= 1), 6);
    assert_eq!(file(|file| file.buckets.big_endian |= 2), 5);
    assert_eq!(file(|file| file.buckets.stated_size = Some(15)), 4);
    assert_eq!(file(|file| file.buckets.stated_count = Some(4097)), 4);
    assert_eq!(file(|file| file.unique_column = u32::MAX), 0);
    assert_eq!(file(|file| file.buckets.torn_at = Some(512 + 4 * 79 - 1)), 1);
    // There the ISMIndex begins; its mark is not there.
    assert_eq!(file(|file| file.buckets.torn_at = Some(512 + 4 * 79)), 1);
    assert_eq!(file(|file| file.buckets.trailing = vec![1; 3]), 0);
}

#[test]
fn index_object() {
    assert_eq!(file(|file| file.index.mark[1] = 0), 2);
    assert_eq!(file(|file| file.index.header.version = 0), 3);
    assert_eq!(file(|file| file.index.header.version = 3), 3);
    assert_eq!(file(|file| file.index.header.version = 2), 1); // of first rows of 4 bytes
    assert_eq!(file(|file| file.index.first_rows.wide = true), 7);
    assert_eq!(file(|file| file.index.widen()), 0);
    assert_eq!(file(|file| file.index.header.name = "SSMIndex".into()), 2);
    assert_eq!(file(|file| file.index.header.extra = vec![0]), 7);
    assert_eq!(file(|file| file.index.header.cut = 1), 1);
    assert_eq!(file(|file| file.index.count = Some(3)), 6);
    assert_eq!(file(|file| file.index.first_rows.count = Some(2)), 6);
    assert_eq!(file(|file| file.index.buckets.count = Some(3)), 6);
    assert_eq!(file(|file| file.index.first_rows.header.extra = vec![0]), 7);
    assert_eq!(file(|file| file.index.buckets.header.version = 2), 3);
    // n + 1 does not wrap.
    assert_eq!(
        file(|file| {
            file.index.count = Some(u32::MAX);
            file.index.first_rows.elements.clear();
            file.index.buckets.count = Some(u32::MAX);
        }),
        6
    );
    // The index comes before the free list, and that before the map.
    assert_eq!(
        file(|file| {
            file.buckets.first_free = Some(9);
            file.index.buckets.elements[0] = 9;
            file.index.header.version = 3;
        }),
        3
    );
    assert_eq!(
        file(|file| {
            file.buckets.first_free = Some(9);
            file.index.buckets.elements[0] = 9;
        }),
        10
    );
}

#[test]
fn rows_and_buckets() {
    assert_eq!(file(|file| file.index.buckets.elements[1] = 4), 11);
    assert_eq!(file(|file| file.index.buckets.elements[1] = 2), 11);
    assert_eq!(file(|file| file.index.buckets.elements[1] = 3), 11); // free
    assert_eq!(file(|file| file.index.first_rows.elements[0] = 1), 11);
    assert_eq!(file(|file| file.index.first_rows.elements[1] = 7), 11);
    assert_eq!(file(|file| file.index.first_rows.elements[2] = 8), 11); // rows + 1
    assert_eq!(small(|subject| subject.table.set_rows(8)), 11);
    // Without rows there is no bucket.
    let without_rows = |first_rows: &[u64], buckets: &[u32]| {
        small(|subject| {
            subject.table.set_rows(0);
            subject.file.index.first_rows.elements = first_rows.to_vec();
            subject.file.index.buckets.elements = buckets.to_vec();
        })
    };
    assert_eq!(without_rows(&[0], &[]), 0);
    assert_eq!(without_rows(&[1], &[]), 11);
    assert_eq!(without_rows(&[0, 0], &[2]), 11);
    assert_eq!(without_rows(&[], &[]), 6);
    assert_eq!(file(|file| file.buckets.free_count = Some(0)), 10);
    assert_eq!(file(|file| file.buckets.free = vec![3, 1]), 0);
}

#[test]
fn index_offsets_of_buckets() {
    // 79 is the bucket size.
    assert_eq!(bucket(|bucket| bucket.index_offset = Some(3)), 11);
    assert_eq!(bucket(|bucket| bucket.index_offset = Some(80)), 11);
    assert_eq!(bucket(|bucket| bucket.index_offset = Some(0x0080_0000)), 11);
    // There is no number of values.
    assert_eq!(bucket(|bucket| bucket.index_offset = Some(79)), 1);
    assert_eq!(bucket(|bucket| bucket.index_offset = Some(76)), 1);
    // Three bytes of the index, or the last offset, are past the end.
    assert_eq!(bucket(|bucket| bucket.data.resize(18, 0)), 1);
    // A data part that is too small for the last value.
    assert_eq!(bucket(|bucket| bucket.data.truncate(14)), 11);
    // A bucket that no list names is not judged.
    assert_eq!(small(|subject| subject.file.buckets.patch(1, 0, &[0xFF; 79])), 0);
    // Without columns only the offset is judged.
    let no_columns = |offset| {
        small(|subject| {
            subject.table.columns_mut().iter_mut().for_each(|column| column.info.manager = 2);
            subject.file.data[0].index_offset = Some(offset);
        })
    };
    assert_eq!([3, 4, 79, 80].map(no_columns), [11, 0, 0, 11]);
    // With a high byte it is that of the low three.
    let high = |offset| {
        small(|subject| {
            subject.table.columns_mut().iter_mut().for_each(|column| column.info.manager = 2);
            subject.file.data[0].high = 0x80;
            subject.file.data[0].index_offset = Some(offset);
        })
    };
    assert_eq!([0, 3, 4, 79, 80].map(high), [11, 11, 0, 0, 11]);
}

#[test]
fn values_of_columns() {
    assert_eq!(values(0, |values| values.count = Some(0)), 11);
    assert_eq!(values(0, |values| values.starts[0] = 1), 11);
    assert_eq!(values(0, |values| values.starts[1] = 2), 11);
    assert_eq!(values(0, |values| values.starts[2] = 3), 0);
    assert_eq!(values(0, |values| values.starts[2] = 4), 11); // not below the rows
    assert_eq!(values(2, |values| values.starts[1] = 0), 11);
    assert_eq!(values(0, |values| values.offsets[0] = 11), 0);
    assert_eq!(values(0, |values| values.offsets[0] = 12), 11);
    assert_eq!(values(0, |values| values.offsets[0] = u32::MAX), 11);
    assert_eq!(values(2, |values| values.offsets[0] = 14), 11);
    // Of a String, the offset alone.
    assert_eq!(values(1, |values| values.offsets[0] = 15), 0);
    assert_eq!(values(1, |values| values.offsets[0] = 16), 11);
    // Five values: the fifth start is the first offset, 13.
    assert_eq!(values(2, |values| values.count = Some(5)), 11);
    // A bad start comes before a start that is not there.
    let torn = |bad: usize| {
        small(|subject| {
            let bucket = &mut subject.file.data[0];
            bucket.columns[2].starts[bad] = 4;
            bucket.data.resize(15 + 12, 0); // both offsets and the second start
        })
    };
    assert_eq!([0, 1].map(torn), [11, 1]);
    // The buckets are judged in the index's order, bucket 2 before bucket 0.
    let both = |first: u32, second: u32| {
        small(|subject| {
            subject.file.data[0].index_offset = Some(first);
            subject.file.data[1].index_offset = Some(second);
        })
    };
    assert_eq!(both(79, 0), 1);
    assert_eq!(both(0, 79), 11);
}

#[test]
fn limits() {
    // The last row of tables of many rows, and the one past it, as starts of the
    // second bucket, which has all but four.
    let last_start = |rows: u64, start: u64| {
        small(|subject| {
            subject.table.widen(0);
            subject.table.set_rows(rows);
            subject.file.buckets.size += 24; // Int64 for six starts
            subject.file.index.widen();
            subject.file.index.first_rows.elements = vec![0, 4, rows];
            subject.file.data[1].widen(1);
            subject.file.data[1].columns[2].starts = vec![0, start];
        })
    };
    for rows in [(1 << 31) - 1, 1 << 31, 1 << 32, (1 << 32) + 5, (1 << 62) - 1, 1 << 62] {
        assert_eq!(last_start(rows, rows - 5), 0);
        assert_eq!(last_start(rows, rows - 4), 11);
        assert_eq!(last_start(rows, (rows - 5) | 1 << 63), 11);
    }
}
