//! Row numbers of 64 bits: what the writer expects of each table and file of the
//! set, against the model.

mod common;

use common::assert_answer;
use std::collections::BTreeSet;
use writer::buckets::{BucketFile, Subject};
use writer::objects::Expect;
use writer::rows::{self, Case};
use writer::sets::Set;
use writer::{incremental, rng::Rng, standard};

#[test]
fn tables_are_answered_as_expected() {
    for (number, (table, expect)) in rows::table_cases().into_iter().enumerate() {
        let expect = expect.at_byte(|blame| table.byte(blame));
        let answer = model::describe(&table.encode()).map(|description| description.rows);
        assert_answer(answer.err(), expect, &format!("case {number}"));
        if expect == Expect::Accepted {
            assert_eq!(answer, Ok(table.rows()));
        }
    }
}

fn assert_cases<F: BucketFile>(cases: impl Iterator<Item = Case<Subject<F>>>) {
    for (number, (subject, expect)) in cases.enumerate() {
        let expect = expect.at_byte(|blame| subject.file.byte(blame));
        let (table, file) = (subject.table.encode(), subject.file.encode());
        let answer = model::check(&table, subject.number.into(), &file, &mut [0; 65_536]);
        assert_answer(answer.err(), expect, &format!("case {number}"));
    }
}

#[test]
fn files_are_answered_as_expected() {
    assert_cases(rows::standard_cases());
    assert_cases(rows::past_32_bits());
    assert_cases(rows::incremental_cases());
}

#[test]
fn cells_are_where_they_were_put() {
    for subject in rows::many_rows() {
        let (table, file) = (subject.table.encode(), subject.file.encode());
        let rows = subject.table.rows();
        let mut asked = subject.file.border_rows();
        asked.extend([1 << 31, 1 << 32, rows - 1].map(|row: u64| row.min(rows - 1)));
        for row in asked {
            for position in subject.own_columns() {
                let expected = subject.file.place(&subject.table, position, row);
                let placed = model::place(&table, &file, row, position as u64, &mut []).unwrap();
                assert_eq!((placed.first_bit, placed.bit_count), expected, "row {row} of {rows}");
            }
        }
    }
}

#[test]
fn lines_are_short() {
    let longest = Set::Rows.lines().map(|line| line.len()).max();
    assert!(longest < Some(300_000), "{longest:?}");
}

/// Every mixture of the versions that tell of row numbers is generated.
#[test]
fn generated_files_have_every_mixture() {
    let standard: BTreeSet<_> = (0..1000)
        .map(|number| standard::generate::subject(&mut Rng::new(91, number)))
        .map(|subject| {
            let Subject { table, file, .. } = subject;
            let wide: BTreeSet<u32> = file.indices.iter().map(|i| i.header.version).collect();
            (table.endianness, table.column_set.version, file.buckets.header.version, wide)
        })
        .collect();
    assert_eq!(standard.len(), 2 * 2 * 2 * 3);
    let incremental: BTreeSet<_> = (0..1000)
        .map(|number| incremental::generate::subject(&mut Rng::new(92, number)))
        .filter(|subject| !subject.file.data.is_empty())
        .map(|subject| {
            let Subject { table, file, .. } = subject;
            let wide: BTreeSet<bool> = file.data.iter().map(|bucket| bucket.wide).collect();
            (table.endianness, table.column_set.version, file.index.header.version, wide)
        })
        .collect();
    assert_eq!(incremental.len(), 2 * 2 * 2 * 3);
}

/// Tables of many rows, and starts of 64 bits that need them, are often met.
#[test]
fn many_rows_are_generated_often() {
    let subjects = || (0..1000).map(|n| incremental::generate::subject(&mut Rng::new(93, n)));
    let many = subjects().filter(|subject| subject.table.rows() > u32::MAX.into()).count();
    let is_large = |subject: &Subject<incremental::IncrementalFile>| {
        let values = subject.file.data.iter().flat_map(|bucket| &bucket.columns);
        values.flat_map(|values| &values.starts).any(|start| *start > u32::MAX.into())
    };
    let large = subjects().filter(is_large).count();
    let other = |subject: &Subject<_>| u64::from(subject.table.header_rows) != subject.table.rows();
    let others = subjects().filter(other).count();
    assert!(many > 200 && large > 150 && others > 400, "{many} {large} {others}");
}
