//! Rules of RULES.md 5 for StandardStMan, each by hand on its small file.

use model::refusal::{BOOL_VIEW, NO_ROW, NO_SUCH, STALE_PLAN};
use model::{
    Kind, Plan, Refusal, check, padded_view, place, place_by_plan, plan, view, view_by_plan,
};
use writer::buckets::{BucketFile, Subject};
use writer::samples;
use writer::standard::{FreeSpace, Index, StandardFile};
use writer::table::{BOOL, Column, DOUBLE, INT, Manager, STRING, Table};

type Small = Subject<StandardFile>;

const ROOM: usize = 70_000;

/// The refusal number of a file's check, 0 if it is accepted.
fn refusal(subject: &Small) -> u8 {
    let (table, file) = (subject.table.encode(), subject.file.encode());
    let answer = check(&table, subject.number.into(), &file, &mut vec![0; ROOM]);
    answer.err().map_or(0, |refusal| refusal.number)
}

/// The refusal number of the small file after a change; in both byte orders.
fn small(change: impl Fn(&mut Small)) -> u8 {
    let [big, little] = [samples::small_file(), samples::little_file()].map(|mut subject| {
        change(&mut subject);
        subject.table.write_infos();
        refusal(&subject)
    });
    assert_eq!(big, little);
    big
}

/// A change of the only SSMIndex.
fn index(change: impl Fn(&mut Index)) -> u8 {
    small(|subject| change(&mut subject.file.indices[0]))
}

#[test]
fn samples_are_accepted() {
    let subject = samples::small_file();
    let (table, file) = (subject.table.encode(), subject.file.encode());
    assert_eq!(table, samples::all()[0].1);
    assert_eq!(file.len(), 832);
    let room = &mut [0; 134];
    assert_eq!(check(&table, 0, &file, room), Ok(Kind::Standard));
    // The cells have the values that the sample gives them.
    let time = view(&table, &file, 5, 2, room).unwrap();
    assert_eq!(time, 4_895_000_050.0_f64.to_be_bytes());
    assert_eq!(view(&table, &file, 6, 0, room).unwrap(), 2_i32.to_be_bytes());
    let flags: Vec<bool> = (0..7)
        .map(|row| {
            let bit = place(&table, &file, row, 1, room).unwrap().first_bit;
            file[bit as usize / 8] >> (bit % 8) & 1 == 1
        })
        .collect();
    assert_eq!(flags, [false, false, true, false, false, true, false]);

    // The little endian one has the same values in the same places.
    let big = samples::small_file();
    let little = samples::little_file();
    let (big_table, big_file) = (big.table.encode(), big.file.encode());
    let (table, file) = (little.table.encode(), little.file.encode());
    assert_eq!(table, samples::all()[1].1);
    assert_eq!(check(&table, 0, &file, room), Ok(Kind::Standard));
    for row in 0..7 {
        for position in [0, 2] {
            let cell = view(&table, &file, row, position, room).unwrap();
            let turned: Vec<u8> = cell.iter().rev().copied().collect();
            assert_eq!(view(&big_table, &big_file, row, position, room), Ok(&turned[..]));
        }
        let flag = place(&table, &file, row, 1, room).unwrap();
        assert_eq!(place(&big_table, &big_file, row, 1, room), Ok(flag));
        let byte = flag.first_bit as usize / 8;
        assert_eq!(file[byte], big_file[byte]);
    }

    let subject = samples::arrays_standard();
    let (table, file) = (subject.table.encode(), subject.file.encode());
    assert_eq!(table, samples::all()[2].1);
    let room = &mut [0; 252];
    assert_eq!(check(&table, 0, &file, room), Ok(Kind::Standard));
    let station = padded_view(&table, &file, 3, 11, room).unwrap();
    assert_eq!(station, b"RT3\0\0\0\0\0\0\0\0\0\0\0\0\0");
    assert_eq!(view(&table, &file, 3, 11, room).unwrap(), b"RT3");
    assert_eq!(view(&table, &file, 1, 10, room).unwrap(), b"observer\x08\0\0\0");
    let uvw = [25.0, -80.5, 6.0_f64].map(f64::to_le_bytes).concat();
    assert_eq!(view(&table, &file, 1, 3, room).unwrap(), uvw);
}

#[test]
fn header_object() {
    let header = |change: fn(&mut StandardFile)| small(|subject| change(&mut subject.file));
    assert_eq!(header(|file| file.buckets.mark[3] = 0), 2);
    assert_eq!(header(|file| file.buckets.header.name = "StandardStman".into()), 2);
    assert_eq!(header(|file| file.buckets.header.version = 2), 3);
    assert_eq!(header(|file| file.buckets.header.version = 4), 0);
    assert_eq!(header(|file| file.buckets.header.version = 5), 3);
    // Its container is the file's first 512 bytes.
    assert_eq!(header(|file| file.buckets.header.stated = Some(509)), 1);
    assert_eq!(header(|file| file.buckets.header.stated = Some(508)), 7);
    assert_eq!(header(|file| file.buckets.header.stated = Some(69)), 1);
    assert_eq!(header(|file| file.buckets.header.stated = Some(24)), 7);
    assert_eq!(header(|file| file.buckets.header.name.stated = Some(501)), 1);
    assert_eq!(header(|file| file.buckets.header.name.stated = Some(500)), 2);
    // Or the whole file if it is shorter.
    assert_eq!(header(|file| file.buckets.torn_at = Some(73)), 1);
    assert_eq!(
        header(|file| {
            file.buckets.torn_at = Some(74);
            file.buckets.header.version = 2;
        }),
        3
    );
}

#[test]
fn header_fields() {
    let header = |change: fn(&mut StandardFile)| small(|subject| change(&mut subject.file));
    assert_eq!(header(|file| file.buckets.big_endian = 2), 5);
    assert_eq!(header(|file| file.buckets.big_endian ^= 1), 6);
    assert_eq!(header(|file| file.buckets.stated_size = Some(15)), 4);
    assert_eq!(header(|file| file.buckets.stated_size = Some(1_048_577)), 4);
    assert_eq!(header(|file| file.buckets.stated_size = Some(1_048_576)), 1);
    assert_eq!(header(|file| file.buckets.stated_count = Some(4097)), 4);
    assert_eq!(header(|file| file.buckets.stated_count = Some(4096)), 1);
    assert_eq!(header(|file| file.buckets.cache_size = u32::MAX), 0);
    assert_eq!(header(|file| file.last_heap = 77), 0);
    assert_eq!(header(|file| file.index_length = Some(0)), 4);
    assert_eq!(header(|file| file.index_length = Some(65_537)), 4);
    assert_eq!(header(|file| file.index_count = Some(0)), 4);
    assert_eq!(header(|file| file.index_count = Some(17)), 4);
    // A longer file is accepted, a shorter one is not.
    assert_eq!(header(|file| file.buckets.trailing = vec![0; 9]), 0);
    assert_eq!(header(|file| file.buckets.torn_at = Some(831)), 1);
    // The chains are not judged in the header: the length of the text is.
    assert_eq!(header(|file| (file.first_index, file.index_length) = (Some(-9), Some(0))), 4);
}

#[test]
fn index_chain() {
    let chain = |change: fn(&mut StandardFile)| small(|subject| change(&mut subject.file));
    // The stated number has no range, but the chain must have it.
    assert_eq!(chain(|file| file.index_buckets = Some(0)), 10);
    assert_eq!(chain(|file| file.index_buckets = Some(2)), 10);
    assert_eq!(chain(|file| file.index_buckets = Some(4)), 10);
    assert_eq!(chain(|file| file.index_buckets = Some(u32::MAX)), 10);
    let empty = |file: &mut StandardFile| {
        file.index_buckets = Some(0);
        file.first_index = Some(-1);
    };
    assert_eq!(chain(empty), 10);
    assert_eq!(chain(|file| file.first_index = Some(5)), 10);
    assert_eq!(chain(|file| file.first_index = Some(-2)), 10);
    assert_eq!(chain(|file| file.first_index = Some(3)), 10);
    assert_eq!(chain(|file| file.buckets.patch(3, 0, &[0, 0, 0, 5, 0, 0, 0, 5])), 10);
    assert_eq!(chain(|file| file.buckets.patch(3, 3, &[0])), 10); // 0 and 4
    assert_eq!(chain(|file| file.buckets.patch(3, 7, &[0])), 10); // 4 and 0
    // 168 bytes are there: what is left over after the text is 7.
    assert_eq!(chain(|file| file.index_length = Some(168)), 7);
    assert_eq!(chain(|file| file.index_length = Some(169)), 10);
    // A chain longer than the text needs.
    let longer = |file: &mut StandardFile| {
        file.buckets.count = 6;
        file.index_chain.push(5);
    };
    assert_eq!(chain(longer), 0);
    // A chain that returns, with the number that goes round once.
    let cycle = |file: &mut StandardFile| {
        file.buckets.patch(4, 0, &[0, 0, 0, 1, 0, 0, 0, 1]);
        file.index_buckets = Some(6);
    };
    assert_eq!(chain(cycle), 10);
}

#[test]
fn index_at_an_offset() {
    // One bucket of 150 bytes holds the text of 134.
    let at = |offset: u32, change: fn(&mut StandardFile)| {
        small(|subject| {
            let file = &mut subject.file;
            file.buckets.size = 150;
            file.index_chain = vec![3];
            file.index_offset = offset;
            file.chain_grows = false;
            file.buckets.filler = Some(5); // the prefix is not read
            file.buckets.patches.clear();
            change(file);
        })
    };
    assert_eq!([8, 9, 16].map(|offset| at(offset, |_| ())), [0; 3]);
    assert_eq!([1, 7].map(|offset| at(offset, |_| ())), [4; 2]);
    assert_eq!([17, 150, 151, u32::MAX].map(|offset| at(offset, |_| ())), [10; 4]);
    assert_eq!(at(8, |file| file.index_buckets = Some(0)), 10);
    assert_eq!(at(8, |file| file.index_buckets = Some(2)), 10);
    assert_eq!(at(8, |file| file.first_index = Some(-1)), 10);
    assert_eq!(at(8, |file| file.first_index = Some(5)), 10);
    assert_eq!(at(8, |file| file.index_length = Some(142)), 7);
    assert_eq!(at(8, |file| file.index_length = Some(143)), 10);
}

#[test]
fn index_text() {
    // The container is the index length.
    assert_eq!(small(|subject| subject.file.index_length = Some(133)), 1);
    assert_eq!(small(|subject| subject.file.index_length = Some(135)), 7);
    assert_eq!(small(|subject| subject.file.index_count = Some(2)), 1);
    assert_eq!(index(|index| index.mark[0] = 0xBF), 2);
    assert_eq!(index(|index| index.header.version = 0), 3);
    assert_eq!(index(|index| index.header.version = 3), 3);
    assert_eq!(index(|index| index.header.version = 2), 1); // of last rows of 4 bytes
    assert_eq!(index(|index| index.last_rows.wide = true), 7);
    assert_eq!(index(Index::widen), 0);
    assert_eq!(index(|index| index.header.stated = Some(131)), 1);
    assert_eq!(index(|index| index.header.extra = vec![0]), 7);
    assert_eq!(index(|index| index.rows_per_bucket = 0), 4);
    assert_eq!(index(|index| index.rows_per_bucket = 8_388_609), 4);
    // The free-space map's structure is judged, its contents are not.
    let space = |change: fn(&mut FreeSpace)| index(|index| change(&mut index.free_space));
    assert_eq!(space(|space| space.pairs = vec![(-1, i32::MIN); 3]), 0);
    assert_eq!(space(|space| space.header.name = "OrderedMap".into()), 2);
    assert_eq!(space(|space| space.header.version = 2), 3);
    assert_eq!(space(|space| space.count = Some(1)), 1);
    assert_eq!(space(|space| space.count = Some(0x2000_0000)), 1);
    assert_eq!(space(|space| (space.pairs, space.count) = (vec![(1, 1)], Some(0))), 7);
    // A Block's count that is not the entry count, before its elements.
    assert_eq!(index(|index| index.entries = Some(3)), 6);
    assert_eq!(index(|index| index.last_rows.count = Some(3)), 6);
    assert_eq!(index(|index| index.buckets.count = Some(1)), 6);
    assert_eq!(
        index(|index| {
            index.last_rows.count = Some(3);
            index.last_rows.header.cut = 8;
        }),
        6
    );
    let counts = |count| {
        index(|index| {
            index.entries = Some(count);
            index.last_rows.count = Some(count);
        })
    };
    assert_eq!(counts(3), 1);
    assert_eq!(counts(1), 7);
    assert_eq!(counts(0x4000_0002), 1);
}

#[test]
fn order_of_the_check() {
    // The text comes before the free list, and that before the map.
    let wrong_map = |subject: &mut Small| subject.file.indices[0].columns = 4;
    let wrong_free = |subject: &mut Small| subject.file.buckets.first_free = Some(7);
    let wrong_text = |subject: &mut Small| subject.file.indices[0].header.version = 3;
    assert_eq!(small(wrong_map), 11);
    let both = |subject: &mut Small| {
        wrong_map(subject);
        wrong_free(subject);
    };
    assert_eq!(small(both), 10);
    let all = |subject: &mut Small| {
        both(subject);
        wrong_text(subject);
    };
    assert_eq!(small(all), 3);
}

#[test]
fn free_list() {
    let free = |buckets: &[u32], change: fn(&mut StandardFile)| {
        small(|subject| {
            subject.file.buckets.count = 8;
            subject.file.buckets.free = buckets.to_vec();
            subject.file.buckets.patches.clear(); // cells, in place of links
            change(&mut subject.file);
        })
    };
    assert_eq!(free(&[6, 5, 7], |_| ()), 0);
    assert_eq!(free(&[6, 5, 7], |file| file.buckets.free_count = Some(2)), 10);
    assert_eq!(free(&[6, 5, 7], |file| file.buckets.free_count = Some(4)), 10);
    assert_eq!(free(&[6, 5, 7], |file| file.buckets.first_free = Some(5)), 10);
    assert_eq!(free(&[6, 5, 7], |file| file.buckets.patch_link(5, 8)), 10);
    assert_eq!(free(&[6, 5, 7], |file| file.buckets.patch_link(5, -2)), 10);
    assert_eq!(free(&[6, 5, 7], |file| file.buckets.patch_link(7, 6)), 10);
    let cycle = |file: &mut StandardFile| {
        file.buckets.patch_link(7, 6);
        file.buckets.free_count = Some(6);
    };
    assert_eq!(free(&[6, 5, 7], cycle), 10);
    assert_eq!(free(&[], |file| file.buckets.first_free = Some(5)), 10);
    assert_eq!(free(&[], |file| file.buckets.free_count = Some(1)), 10);
    // A free bucket that is a data or index bucket.
    assert_eq!(free(&[6, 2, 7], |_| ()), 11);
    assert_eq!(free(&[6, 4], |_| ()), 11);
}

#[test]
fn rows_and_buckets() {
    let entries = |rows: u64, last_rows: &[u64], buckets: &[u32]| {
        small(|subject| {
            subject.table.set_rows(rows);
            subject.file.indices[0].last_rows.elements = last_rows.to_vec();
            subject.file.indices[0].buckets.elements = buckets.to_vec();
        })
    };
    assert_eq!(entries(7, &[3, 6], &[2, 0]), 0);
    assert_eq!(entries(8, &[3, 7], &[2, 0]), 0);
    assert_eq!(entries(7, &[2, 6], &[2, 0]), 0);
    assert_eq!(entries(7, &[4, 6], &[2, 0]), 11); // spans five rows
    assert_eq!(entries(7, &[1, 6], &[2, 0]), 11);
    assert_eq!(entries(7, &[3, 5], &[2, 0]), 11);
    assert_eq!(entries(7, &[3, 7], &[2, 0]), 11);
    assert_eq!(entries(4, &[3, 3], &[2, 0]), 11);
    assert_eq!(entries(7, &[], &[]), 11);
    assert_eq!(entries(0, &[], &[]), 0);
    assert_eq!(entries(0, &[u32::MAX.into()], &[2]), 11);
    assert_eq!(entries(7, &[3, 6], &[2, 2]), 11);
    assert_eq!(entries(7, &[3, 6], &[2, 5]), 11);
    assert_eq!(entries(7, &[3, 6], &[2, 3]), 11); // an index bucket
    // Sets without columns are judged too.
    let second = |index: Index| {
        small(|subject| {
            subject.file.buckets.count = 8;
            subject.file.indices.push(index.clone());
        })
    };
    assert_eq!(second(Index::new(8_388_608, 0, &[(6, 5)])), 0);
    assert_eq!(second(Index::new(6, 0, &[(6, 5)])), 11);
    assert_eq!(second(Index::new(8, 0, &[(6, 0)])), 11); // of the first set
    assert_eq!(second(Index::new(8, 1, &[(6, 5)])), 11);
    assert_eq!(second(Index::new(8, 0, &[])), 11);
}

#[test]
fn columns_and_extents() {
    let column = |position: usize, set, offset| {
        small(|subject| {
            let info = &mut subject.table.columns_mut()[position].info;
            (info.set, info.offset) = (set, offset);
        })
    };
    assert_eq!(index(|index| index.columns = 2), 11);
    assert_eq!(index(|index| index.columns = -1), 11);
    assert_eq!(column(2, 1, 17), 11);
    assert_eq!(column(2, u32::MAX, 17), 11);
    // SCAN has bytes 0 to 15, FLAG 16, TIME 32 bytes from 17.
    assert_eq!(column(1, 0, 15), 11);
    assert_eq!(column(1, 0, 49), 0);
    assert_eq!(column(1, 0, 48), 11);
    assert_eq!(column(1, 0, 63), 0);
    assert_eq!(column(1, 0, 64), 11);
    assert_eq!(column(0, 0, 48), 11);
    assert_eq!(column(0, 0, u32::MAX - 15), 11); // ends at 2^32
    // Extents are judged without rows too.
    let no_rows = |offset| {
        small(|subject| {
            subject.table.set_rows(0);
            subject.file.indices = vec![Index::new(4, 3, &[])];
            subject.table.columns_mut()[2].info.offset = offset;
        })
    };
    assert_eq!(no_rows(32), 0);
    assert_eq!(no_rows(33), 11);
}

/// A table with all kinds of managers; the numbers are positions.
fn mixed() -> Table {
    let columns = vec![
        Column::scalar(INT, "I").of_manager(3),                  // 0
        Column::scalar(STRING, "S").of_manager(5),               // 1
        Column::array(BOOL, "B").of_manager(3).at(0, 16),        // 2
        Column::scalar(DOUBLE, "D").of_manager(7),               // 3
        Column::direct(STRING, "A", &[2]).of_manager(5),         // 4
        Column::direct(BOOL, "F", &[3]).of_manager(3).at(0, 48), // 5
        Column::scalar(STRING, "N").of_manager(3).at(1, 0),      // 6
    ];
    let managers = vec![
        Manager::new("StandardStMan", 3),
        Manager::new("IncrementalStMan", 5),
        Manager::new("TiledShapeStMan", 7),
    ];
    Table::new(7, 1, columns, managers)
}

#[test]
fn managers_and_columns_come_before_the_file() {
    let table = mixed().encode();
    let room = &mut [0xA5; 4];
    for (position, answer) in [(0, 1), (1, 8), (2, 1), (3, 8), (4, 8), (5, 1), (7, 8)] {
        assert_eq!(plan(&table, &[], position, room), Err(Refusal::at(answer, 0)), "{position}");
        assert_eq!(
            place(&table, &[], 99, position, room),
            Err(Refusal::at(answer, 0)),
            "{position}"
        );
        assert_eq!(
            view(&table, &[], 99, position, room),
            Err(Refusal::at(answer, 0)),
            "{position}"
        );
    }
    for (number, answer) in [(3, 1), (5, 1), (7, 8), (4, 8), (1 << 32 | 3, 8), (u64::MAX, 8)] {
        assert_eq!(check(&table, number, &[], room), Err(Refusal::at(answer, 0)), "{number}");
    }
    assert_eq!(*room, [0; 4]);
    // The table comes before them.
    assert_eq!(check(&table[..50], 7, &[], room), Err(Refusal::at(1, 4)));
}

#[test]
fn bools_and_arrays() {
    let mut file = samples::small_file().file;
    file.indices = vec![Index::new(4, 3, &[(3, 2), (6, 0)]), Index::new(5, 1, &[(4, 5), (6, 6)])];
    file.buckets.size = 80;
    file.buckets.count = 7;
    let subject = Subject { table: mixed(), number: 3, file };
    let (table, file) = (subject.table.encode(), subject.file.encode());
    let room = &mut vec![0; ROOM];
    let position = |position: u64, row, room: &mut [u8]| {
        let placed = place(&table, &file, row, position, room)?;
        // Each set has two entries.
        assert_eq!((placed.looks, placed.entries), (1, 2));
        Ok::<_, Refusal>((placed.first_bit, placed.bit_count))
    };
    // An array in the array file takes 64 bits; its view is refused all the same.
    assert_eq!(position(2, 5, room), Ok((8 * (512 + 16) + 64, 64)));
    assert_eq!(view(&table, &file, 5, 2, room), Err(BOOL_VIEW));
    // Three Bools in a row cross a byte's border.
    assert_eq!(position(5, 2, room), Ok((8 * (512 + 2 * 80 + 48) + 6, 3)));
    assert_eq!(view(&table, &file, 2, 5, room), Err(BOOL_VIEW));
    assert_eq!(view(&table, &file, 7, 5, room), Err(NO_ROW));
    // A String without maximum has a place in StandardStMan.
    assert_eq!(position(6, 6, room), Ok((8 * (512 + 6 * 80) + 96, 96)));
    assert_eq!(view(&table, &file, 6, 6, room), Ok(&file[512 + 6 * 80 + 12..][..12]));
    let fields = plan(&table, &file, 5, room).unwrap();
    assert_eq!((fields.manager, fields.cell_bits, fields.elements), (3, 3, 3));
    assert_eq!((fields.set, fields.offset, fields.rows_per_bucket), (0, 48, 4));
    // Stale in any field: 12, before the row and before 14.
    for change in [
        |plan: &mut Plan| plan.manager = 5,
        |plan: &mut Plan| plan.data_type = 2,
        |plan: &mut Plan| plan.elements = 4,
        |plan: &mut Plan| plan.cell_bits = 8,
        |plan: &mut Plan| plan.set = 1,
        |plan: &mut Plan| plan.offset |= 1 << 32,
        |plan: &mut Plan| plan.rows_per_bucket = 5,
        |plan: &mut Plan| plan.bucket_size = 0,
        |plan: &mut Plan| plan.position = 6,
    ] {
        let mut stale = fields;
        change(&mut stale);
        assert_eq!(place_by_plan(&table, &file, 0, &stale, room), Err(STALE_PLAN));
        assert_eq!(view_by_plan(&table, &file, 7, &stale, room), Err(STALE_PLAN));
        assert!(room.iter().all(|byte| *byte == 0));
    }
    assert_eq!(view_by_plan(&table, &file, 7, &fields, room), Err(NO_ROW));
    assert_eq!(view_by_plan(&table, &file, 6, &fields, room), Err(BOOL_VIEW));
    // Columns of other kinds give 8, whatever the plan says.
    for position in [1, 3, 4, 7, u64::MAX] {
        let other = Plan { position, ..fields };
        assert_eq!(place_by_plan(&table, &file, 0, &other, room), Err(NO_SUCH));
    }
    // The file of StandardStMan is not IncrementalStMan's.
    assert_eq!(check(&table, 5, &file, room), Err(Refusal::at(2, 8)));
}
