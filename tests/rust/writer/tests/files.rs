//! What the writer expects of each file it makes, against the model.

mod common;

use common::assert_answer;
use model::refusal::{BOOL_VIEW, NO_SUCH, WRONG_MAP};
use model::{InBucket, Placed, Refusal};
use writer::bucket_faults::{Fault, two_faults};
use writer::buckets::{BucketFile, Subject};
use writer::cells::has_padding;
use writer::objects::Expect;
use writer::rng::Rng;
use writer::sets::Set;
use writer::table::{BOOL, STRING};
use writer::{incremental, large_files, looks, standard};

const ROOM: usize = 65_536;

/// The model's answer to the check.
fn refusal<F: BucketFile>(subject: &Subject<F>) -> Option<Refusal> {
    let (table, file) = (subject.table.encode(), subject.file.encode());
    let mut room = vec![0xA5; ROOM];
    let answer = model::check(&table, subject.number.into(), &file, &mut room);
    if answer.is_err() {
        assert!(room.iter().all(|byte| *byte == 0));
    }
    answer.err()
}

fn assert_refusal<F: BucketFile>(subject: &Subject<F>, expect: Expect, what: &str, number: u64) {
    let expect = expect.at_byte(|blame| subject.file.byte(blame));
    assert_answer(refusal(subject), expect, &format!("{what}, case {number}"));
}

/// A good file is accepted, every cell is where the writer put it, in
/// IncrementalStMan also if one bucket is checked, the search looks at as many
/// last rows as the writer counts, and a view ends with its text.
fn assert_cells<F: BucketFile>(subject: &Subject<F>, number: u64, is_standard: bool) {
    let table = subject.table.encode();
    let file = subject.file.encode();
    let length = subject.file.index_length();
    let mut room = vec![0xA5; length];
    let checked = model::numbers::check(&table, &file, subject.number.into(), &mut room);
    assert_eq!(checked, Ok([subject.file.buckets().size.into(), 0]), "case {number}");
    let mut rows = subject.file.border_rows();
    let count = subject.table.rows();
    rows.extend([0, 1, count / 2, count.wrapping_sub(1)]);
    rows.retain(|row| *row < count);
    let step = rows.len().div_ceil(60).max(1);
    let rows: Vec<u64> = rows.into_iter().step_by(step).collect();
    for position in subject.own_columns() {
        let column = &subject.table.columns()[position];
        let plan = model::plan(&table, &file, position as u64, &mut room);
        let position = position as u64;
        assert_eq!(
            subject.file.has_place(column),
            is_standard || column.data_type != STRING.number
        );
        if !subject.file.has_place(column) {
            assert_eq!(plan, Err(NO_SUCH), "case {number}");
            assert_eq!(model::place(&table, &file, 0, position, &mut room), Err(NO_SUCH));
            let answer = model::place_in_bucket(&table, &file, 0, position, &mut room);
            assert_eq!(answer, Err(NO_SUCH), "case {number}");
            continue;
        }
        let plan = plan.unwrap();
        assert_eq!(plan.numbers(), subject.file.plan(&subject.table, position as usize));
        for row in rows.iter().copied() {
            let (first, bits) = subject.file.place(&subject.table, position as usize, row);
            let [looks, entries] = subject.file.looks(&subject.table, position as usize, row);
            let expected = Ok(Placed { first_bit: first, bit_count: bits, looks, entries });
            let place = model::place(&table, &file, row, position, &mut room);
            assert_eq!(place, expected, "case {number}, row {row}");
            let place = model::place_by_plan(&table, &file, row, &plan, &mut room);
            assert_eq!(place, expected, "case {number}, row {row}");
            let bucket_size = subject.file.buckets().size.into();
            let in_bucket = match is_standard {
                true => Err(NO_SUCH),
                false => Ok(InBucket { first_bit: first, bit_count: bits, bucket_size }),
            };
            let place = model::place_in_bucket(&table, &file, row, position, &mut room);
            assert_eq!(place, in_bucket, "case {number}, row {row}");
            let views = [
                model::padded_view(&table, &file, row, position, &mut room),
                model::padded_view_by_plan(&table, &file, row, &plan, &mut room),
                model::view(&table, &file, row, position, &mut room),
                model::view_by_plan(&table, &file, row, &plan, &mut room),
            ];
            if is_standard && column.data_type == BOOL.number {
                assert_eq!(views, [Err(BOOL_VIEW); 4], "case {number}, row {row}");
                continue;
            }
            let cell = &file[first as usize / 8..][..bits as usize / 8];
            let mut text = cell;
            if is_standard && has_padding(column) {
                // The bytes up to the first zero byte, which splits it.
                text = cell.split(|byte| *byte == 0).next().unwrap();
            }
            let expected = [cell, cell, text, text].map(|view| view.as_ptr_range());
            assert_eq!(views.map(|view| view.unwrap().as_ptr_range()), expected, "case {number}");
        }
    }
}

#[test]
fn standard_cells_are_where_they_were_put() {
    for number in 0..600 {
        assert_cells(&standard::generate::subject(&mut Rng::new(31, number)), number, true);
    }
}

#[test]
fn incremental_cells_are_where_they_were_put() {
    for number in 0..600 {
        assert_cells(&incremental::generate::subject(&mut Rng::new(32, number)), number, false);
    }
}

#[test]
fn files_with_many_entries_are_accepted() {
    for (number, subject) in (0..).zip(looks::standard_files()) {
        assert_cells(&subject, number, true);
    }
    for (number, subject) in (0..).zip(looks::incremental_files()) {
        assert_cells(&subject, number, false);
    }
}

fn assert_faults<F: BucketFile>(faults: &[Fault<F>], generate: fn(&mut Rng) -> Subject<F>) {
    for fault in faults {
        for number in 0..200 {
            let rng = &mut Rng::new(33, number);
            let mut subject = generate(rng);
            let expect = (fault.apply)(rng, &mut subject);
            assert_refusal(&subject, expect, fault.name, number);
        }
    }
    for number in 0..4000 {
        let rng = &mut Rng::new(34, number);
        let mut subject = generate(rng);
        let (expect, names) = two_faults(rng, &mut subject, faults);
        assert_refusal(&subject, expect, &names.join(" and "), number);
    }
}

#[test]
fn every_standard_fault_is_refused_as_expected() {
    assert_faults(&standard::faults::faults(), standard::generate::subject);
}

#[test]
fn every_incremental_fault_is_refused_as_expected() {
    assert_faults(&incremental::faults::faults(), incremental::generate::subject);
}

/// Each fault gives at least one refusal, but for those that are none.
fn assert_reached<F: BucketFile>(
    faults: &[Fault<F>],
    generate: fn(&mut Rng) -> Subject<F>,
    harmless: &[&str],
) {
    for fault in faults {
        let refused = (0..100).any(|number| {
            let rng = &mut Rng::new(35, number);
            let mut subject = generate(rng);
            (fault.apply)(rng, &mut subject);
            refusal(&subject).is_some()
        });
        assert_eq!(refused, !harmless.contains(&fault.name), "{}", fault.name);
    }
}

#[test]
fn every_standard_fault_is_reached() {
    let harmless = [
        "cache size",
        "last heap bucket",
        "index chain longer",
        "entry split in two",
        "prefix before the offset",
        "free-space contents",
        "more free buckets",
        "DMInfo of the other form",
        "rows in Table's header",
        "SSMIndex of the other version",
    ];
    assert_reached(&standard::faults::faults(), standard::generate::subject, &harmless);
}

#[test]
fn every_incremental_fault_is_reached() {
    let harmless = [
        "cache size",
        "unique column number",
        "trailing bytes",
        "more free buckets",
        "bucket not in the index",
        "rows in Table's header",
        "ISMIndex of the other version",
    ];
    assert_reached(&incremental::faults::faults(), incremental::generate::subject, &harmless);
}

#[test]
fn large_files_are_accepted() {
    for number in 0..3 {
        let rng = &mut Rng::new(36, number);
        assert_cells(&large_files::standard(rng), number, true);
        assert_cells(&large_files::incremental(rng), number, false);
        assert_eq!(refusal(&large_files::large_bucket(rng, number)), None);
        assert_cells(&large_files::large_texts(rng), number, true);
    }
    for endianness in [0, 1] {
        assert_cells(&large_files::most_entries(endianness), endianness.into(), true);
    }
}

#[test]
fn files_above_4_gib_are_accepted() {
    for endianness in [0, 1] {
        assert_cells(&large_files::standard_above_4_gib(endianness), 0, true);
        assert_cells(&large_files::bools_above_4_gib(endianness), 1, true);
        assert_cells(&large_files::incremental_above_4_gib(endianness), 2, false);
    }
}

#[test]
fn more_rows_than_32_bits_can_count() {
    for endianness in [0, 1] {
        assert_cells(&large_files::past_32_bits(endianness), 0, true);
        assert_eq!(refusal(&large_files::low_halves(endianness)), Some(WRONG_MAP));
    }
}

/// How often the answers to a set's lines are each refusal number; 0 is for
/// accepted ones.
fn refusals(set: Set) -> [usize; 15] {
    let mut counts = [0; 15];
    for line in set.lines() {
        let answer = model::answer(&line);
        let mut words = answer.split(' ');
        match words.next() {
            Some("refused") => counts[words.next().unwrap().parse::<usize>().unwrap()] += 1,
            Some("bad") => panic!("no request: {}", &line[..40]),
            _ => counts[0] += 1,
        }
    }
    counts
}

#[test]
fn every_refusal_number_occurs_often() {
    let counts = refusals(Set::Standard { seed: 41, count: 8000 });
    assert!(counts.iter().all(|count| *count >= 50), "{counts:?}");
    let counts = refusals(Set::Incremental { seed: 41, count: 6000 });
    assert!(counts[..=12].iter().all(|count| *count >= 30), "{counts:?}");
    let counts = refusals(Set::SmallFile);
    assert!(counts.iter().all(|count| *count >= 10), "{counts:?}");
}
