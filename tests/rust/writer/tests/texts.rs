//! Views of texts and of other cells: what the writer expects of each question of
//! the set, from what it wrote, against the model.

use model::{Plan, Refusal, numbers, padded_view, padded_view_by_plan, place, view, view_by_plan};
use std::collections::BTreeMap;
use writer::buckets::{BucketFile, Subject};
use writer::cells::has_padding;
use writer::contents::{Content, KINDS};
use writer::rng::Rng;
use writer::samples;
use writer::sets::Set;
use writer::standard::{self, StandardFile};
use writer::table::{BOOL, STRING};
use writer::texts::{Answer, Case, Of, PADDED, VIEWS, cases};

#[test]
fn questions_are_answered_as_expected() {
    for (number, case) in cases().enumerate() {
        let answer = model::answer(&case.line());
        let (word, row, of) = (case.word, case.row, case.of);
        if let Some(expected) = case.expected() {
            assert_eq!(answer, expected, "case {number}: {word}, row {row}, {of:?}");
        }
        assert_ne!(answer, "bad request");
    }
}

/// The part of the file that a question of a view gives.
fn part(case: &Case) -> Option<Result<&[u8], Refusal>> {
    let (table, file, room) = (&case.files.table, &case.files.file, &mut vec![0; case.room]);
    Some(match (case.word, case.of) {
        ("view", Of::Position(position)) => view(table, file, case.row, position, room),
        ("viewplan", Of::Plan(plan)) => view_by_plan(table, file, case.row, &Plan::of(plan), room),
        ("padded", Of::Position(position)) => padded_view(table, file, case.row, position, room),
        ("paddedplan", Of::Plan(plan)) => {
            padded_view_by_plan(table, file, case.row, &Plan::of(plan), room)
        }
        _ => return None,
    })
}

/// As numbers.
fn told(case: &Case) -> Result<[u64; 3], Refusal> {
    let (table, file, room) = (&case.files.table, &case.files.file, &mut vec![0; case.room]);
    match (case.word, case.of) {
        ("view", Of::Position(position)) => numbers::view(table, file, case.row, position, room),
        ("viewplan", Of::Plan(plan)) => numbers::view_planned(table, file, case.row, plan, room),
        ("padded", Of::Position(position)) => {
            numbers::padded_view(table, file, case.row, position, room)
        }
        (_, Of::Plan(plan)) => numbers::padded_view_planned(table, file, case.row, plan, room),
        _ => panic!("{} is no view", case.word),
    }
}

/// A view is the part of the caller's file that was told, and lies there; as
/// numbers it is the same, with no byte. A refusal is the same in both.
#[test]
fn parts_and_numbers_are_those_of_the_lines() {
    for case in cases() {
        let Some(part) = part(&case) else { continue };
        let told = told(&case);
        let place_of = |part: &[u8]| {
            let start = part.as_ptr().addr() - case.files.file.as_ptr().addr();
            [start as u64, part.len() as u64, 0]
        };
        assert_eq!(told, part.map(place_of));
        match &case.answer {
            Answer::Told(numbers) => assert_eq!(told.unwrap()[..2], numbers[..]),
            Answer::Refused(number, byte) => {
                assert_eq!(told, Err(Refusal { number: *number, byte: *byte }));
            }
            Answer::Open => {}
        }
    }
}

/// A view begins where the padded view begins and is no longer. Both are refused
/// alike, and Place, which tells of the whole cell, but for 14.
#[test]
fn views_begin_where_cells_do() {
    for mut case in cases() {
        let Some(of_view) = VIEWS.iter().position(|word| *word == case.word) else { continue };
        let view = told(&case);
        case.word = PADDED[of_view];
        let padded = told(&case);
        match (view, padded) {
            (Ok([start, length, 0]), Ok([cell, size, 0])) => {
                assert!(start == cell && length <= size);
            }
            (Err(view), Err(padded)) => assert_eq!(view, padded),
            _ => panic!("{view:?}, {padded:?}"),
        }
        if let Of::Position(position) = case.of {
            let (table, file) = (&case.files.table, &case.files.file);
            let placed = place(table, file, case.row, position, &mut vec![0; case.room]);
            match (placed, padded) {
                (Ok(placed), Ok([start, length, _])) => {
                    assert_eq!([placed.first_bit, placed.bit_count], [8 * start, 8 * length]);
                }
                (Ok(_), Err(refusal)) => assert_eq!(refusal.number, 14),
                (Err(place), Err(padded)) => assert_eq!(place, padded),
                (Err(_), Ok(_)) => panic!("a view of no place"),
            }
        }
    }
}

/// How often each word is accepted, and refused with each number: as the writer
/// expects it.
#[test]
fn every_refusal_number_occurs() {
    let mut counts: BTreeMap<&str, [usize; 15]> = BTreeMap::new();
    let [mut open, mut total] = [0; 2];
    for case in cases() {
        let counts = counts.entry(case.word).or_default();
        total += 1;
        match case.answer {
            Answer::Told(_) => counts[0] += 1,
            Answer::Refused(number, _) => counts[number as usize] += 1,
            Answer::Open => open += 1,
        }
    }
    for word in [VIEWS, PADDED].as_flattened() {
        let counts = counts[word];
        let by_plan = usize::from(word.ends_with("plan"));
        for (number, count) in counts.iter().enumerate() {
            let least = if number == 12 { 200 * by_plan } else { 10 };
            assert!(*count >= least, "{word}: {number}: {counts:?}");
        }
        assert!(counts[0] > 1500 && [9, 13, 14].iter().all(|n| counts[*n] > 100), "{counts:?}");
        assert!(by_plan == 1 || counts[12] == 0);
    }
    assert!(counts["place"][0] > 200 && counts["placeplan"][0] > 200);
    assert!(open < total / 20, "{open} of {total}");
}

/// How long views are beside their cells.
#[derive(Debug, Default)]
struct Lengths {
    whole: usize,
    shorter: usize,
    empty: usize,
}

/// Texts of every length there is occur, by position and by plan.
#[test]
fn texts_are_long_short_and_empty() {
    let mut lengths: BTreeMap<&str, Lengths> = BTreeMap::new();
    for case in cases() {
        let Answer::Told(numbers) = &case.answer else { continue };
        let (Some(_), Ok(cell)) =
            (part(&case), told(&Case { word: padded(case.word), ..case.clone() }))
        else {
            continue;
        };
        let lengths = lengths.entry(case.word).or_default();
        match numbers[1] {
            0 => lengths.empty += 1,
            length if length < cell[1] => lengths.shorter += 1,
            _ => lengths.whole += 1,
        }
    }
    for word in VIEWS {
        let Lengths { whole, shorter, empty } = lengths[word];
        assert!(whole > 1000 && shorter > 300 && empty > 200, "{word}: {:?}", lengths[word]);
    }
    for word in PADDED {
        let Lengths { shorter, empty, .. } = lengths[word];
        assert_eq!([shorter, empty], [0, 0], "{word}");
    }
}

/// The word of the padded view, by position or by plan.
fn padded(word: &str) -> &'static str {
    PADDED[usize::from(word.ends_with("plan"))]
}

/// The writer's contents have no zero byte in their texts, and one right behind
/// them.
#[test]
fn contents_end_with_their_texts() {
    for kind in KINDS {
        for size in (1..=40).chain([300]) {
            for seed in [0, 7, 100] {
                let Content { bytes, text } = Content::new(kind, size, seed);
                assert_eq!(bytes.len(), size);
                assert!(bytes[..text].iter().all(|byte| *byte != 0), "{kind:?}, {size}");
                assert!(bytes.get(text).is_none_or(|byte| *byte == 0), "{kind:?}, {size}");
            }
        }
    }
}

/// The sample for readers of texts: its bytes, and the lines about them.
#[test]
fn the_sample_has_the_texts() {
    let subject = samples::texts_file();
    let (table, file) = (subject.table.encode(), subject.file.encode());
    assert_eq!((table.len(), file.len()), (1052, 1024));
    let room = &mut [0; 134];
    let texts: [&[u8]; 7] = [b"RA01", b"PARKES64", b"", b"A", b"caf\xC3\xA9", b"A\"B\\C", b""];
    let starts = [528, 536, 544, 552, 656, 664, 672];
    for (row, (text, start)) in (0..).zip(texts.into_iter().zip(starts)) {
        assert_eq!(view(&table, &file, row, 1, room), Ok(text));
        let numbers = numbers::view(&table, &file, row, 1, room);
        assert_eq!(numbers, Ok([start, text.len() as u64, 0]));
        let cell = padded_view(&table, &file, row, 1, room);
        assert_eq!(cell, Ok(&samples::NAMES[row as usize][..]));
        let station = [b"PAD ", &[b'1' + row as u8][..], &[0, 0, 0, 0, 0, 0, 5]].concat();
        assert_eq!(view(&table, &file, row, 2, room), Ok(&station[..]));
        assert_eq!(view(&table, &file, row, 3, room), Err(Refusal { number: 14, byte: 0 }));
    }
    assert_eq!(room, &[0; 134]); // after the last refusal
}

/// Generated files have texts of all kinds, and full ones beside others that begin
/// with zero and with another byte.
#[test]
fn generated_files_have_texts() {
    let mut lengths = Lengths::default();
    let mut maxima: BTreeMap<u32, usize> = BTreeMap::new();
    // Behind a text without a zero byte: one that begins with zero, or not.
    let mut neighbours = [0; 2];
    let mut others = [0; 2]; // String arrays, and other columns, with a maximum
    for number in 0..1500 {
        let subject = standard::generate::subject(&mut Rng::new(91, number));
        let Subject { table, file, .. } = &subject;
        let bytes = file.encode();
        for position in subject.own_columns() {
            let column = &table.columns()[position];
            if !has_padding(column) {
                let has_maximum = column.string_maximum > 0 && column.data_type != BOOL.number;
                others[0] += usize::from(has_maximum && column.data_type == STRING.number);
                others[1] += usize::from(has_maximum && column.data_type != STRING.number);
                continue;
            }
            *maxima.entry(column.string_maximum).or_default() += 1;
            for row in 0..table.rows() {
                let cell = cell(&subject, &bytes, position, row);
                let text = cell.split(|byte| *byte == 0).next().unwrap();
                match text.len() {
                    0 => lengths.empty += 1,
                    length if length < cell.len() => lengths.shorter += 1,
                    _ => {
                        lengths.whole += 1;
                        let end = cell.as_ptr_range().end.addr() - bytes.as_ptr().addr();
                        let behind = bytes.get(end).unwrap_or(&0);
                        neighbours[usize::from(*behind != 0)] += 1;
                    }
                }
            }
        }
    }
    let Lengths { whole, shorter, empty } = lengths;
    assert!(whole > 1000 && shorter > 2000 && empty > 1000, "{lengths:?}");
    assert!(neighbours.iter().all(|count| *count > 300), "{neighbours:?}");
    assert!([1, 2, 3].iter().all(|maximum| maxima[maximum] > 20), "{maxima:?}");
    let above = |least: u32| maxima.range(least..).map(|(_, count)| count).sum::<usize>();
    assert!(above(20) > 100 && above(49) > 20, "{maxima:?}");
    assert!(others.iter().all(|count| *count > 100), "{others:?}");
}

/// The bytes of a cell.
fn cell<'a>(
    subject: &Subject<StandardFile>,
    bytes: &'a [u8],
    position: usize,
    row: u64,
) -> &'a [u8] {
    let (first, bits) = subject.file.place(&subject.table, position, row);
    &bytes[first as usize / 8..][..bits as usize / 8]
}

#[test]
fn lines_are_short_enough() {
    let lines: Vec<usize> = Set::Texts.lines().map(|line| line.len()).collect();
    assert!(lines.iter().all(|length| *length < 1_000_000));
    assert!(lines.iter().filter(|length| **length > 100_000).count() < 100);
    assert_eq!(lines.len(), cases().count());
}
