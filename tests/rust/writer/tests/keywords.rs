//! Keywords: what the writer expects of each question, from what it wrote, against
//! the model.

use model::{Field, Keyword, Scope as Asked, describe, field, keyword, numbers};
use std::collections::BTreeMap;
use writer::buckets::BucketFile;
use writer::keywords::cases::{Case, Scope, case};
use writer::keywords::fields::{arrays_keywords, cases, sample_keywords, sample_subjects};
use writer::keywords::paths::{self, path};
use writer::keywords::sample;
use writer::keywords::{faults::FAULTS, generate};
use writer::layout::Part;
use writer::rng::Rng;
use writer::samples;
use writer::sets::Set;
use writer::texts::Answer;

/// The generated questions, and those of the set without seed.
fn all_cases() -> impl Iterator<Item = Case> {
    let generated = (0..12_000).map(|number| case(&mut Rng::new(7, number)));
    generated.chain(cases())
}

fn asked(scope: Scope) -> Asked {
    match scope {
        Scope::Table => Asked::Table,
        Scope::Column(position) => Asked::Column(position),
    }
}

/// What the library's functions say, as a line.
fn told(case: &Case) -> String {
    let (table, scope) = (&case.table.bytes, asked(case.scope));
    let value = |Keyword { data_type, part }: &Keyword| {
        format!("{data_type} {} {}", part.start, part.len())
    };
    let answer = match case.number {
        None => keyword(table, scope, &case.path).map(|keyword| value(&keyword)),
        Some(number) => {
            field(table, scope, &case.path, number).map(|Field { name, value: told }| {
                format!("{} {} {}", name.start, name.len(), value(&told))
            })
        }
    };
    answer.map_or_else(|refusal| refusal.to_string(), |answer| format!("ok {answer}"))
}

/// The same as the C functions have it.
fn told_in_numbers(case: &Case) -> String {
    fn line<const N: usize>(answer: Result<[u64; N], model::Refusal>) -> String {
        let numbers = numbers::written(answer);
        match answer {
            Ok(_) => {
                assert_eq!(numbers[N - 1], 0);
                let numbers = numbers[..N - 1].iter().map(u64::to_string);
                format!("ok {}", numbers.collect::<Vec<_>>().join(" "))
            }
            Err(refusal) => {
                assert!(numbers[..N - 1].iter().all(|number| *number == 0));
                format!("refused {} {}", refusal.number, numbers[N - 1])
            }
        }
    }
    let (table, path) = (&case.table.bytes, &case.path);
    match (case.scope, case.number) {
        (Scope::Table, None) => line(numbers::table_keyword(table, path)),
        (Scope::Column(at), None) => line(numbers::column_keyword(table, at, path)),
        (Scope::Table, Some(number)) => line(numbers::table_field(table, path, number)),
        (Scope::Column(at), Some(number)) => line(numbers::column_field(table, at, path, number)),
    }
}

#[test]
fn questions_are_answered_as_expected() {
    answered_as_expected(all_cases());
}

/// The same of two million questions; it takes minutes.
#[test]
#[ignore = "long"]
fn many_questions_are_answered_as_expected() {
    for seed in 1..=10 {
        answered_as_expected((0..200_000).map(|number| case(&mut Rng::new(seed, number))));
    }
}

fn answered_as_expected(cases: impl Iterator<Item = Case>) {
    for (number, case) in cases.enumerate() {
        let answer = model::answer(&case.line());
        let (word, what, path) = (case.word(), case.what, &case.path);
        if let Some(expected) = case.expected() {
            assert_eq!(answer, expected, "case {number}: {word}, {what}, {path:?}");
        }
        assert_ne!(answer, "bad request");
        assert_eq!(told(&case), answer);
        assert_eq!(told_in_numbers(&case), answer);
    }
}

/// How often each question is accepted, and refused with each number: as the
/// writer expects it.
#[test]
fn every_refusal_number_occurs() {
    let mut counts: BTreeMap<&str, [usize; 17]> = BTreeMap::new();
    let [mut open, mut total] = [0; 2];
    for number in 0..12_000 {
        let case = case(&mut Rng::new(1, number));
        let counts = counts.entry(case.word()).or_default();
        total += 1;
        match case.answer {
            Answer::Told(_) => counts[0] += 1,
            Answer::Refused(number, _) => counts[number as usize] += 1,
            Answer::Open => open += 1,
        }
    }
    for (word, counts) in &counts {
        for number in [1, 2, 3, 4, 5, 7, 8, 15, 16] {
            assert!(counts[number] >= 40, "{word}: {number}: {counts:?}");
        }
        assert!(counts[0] > 1000, "{word}: {counts:?}");
    }
    assert!(open < 3 * total / 10, "{open} of {total}");
}

/// Every fault says what it expects at least sometimes, but for these.
#[test]
fn faults_say_what_they_expect() {
    let open = [
        "string length near its own",
        "another type",
        "count of axes",
        "Ints like an IPosition",
        "held record with fields and a TableRecord",
    ];
    for (name, fault) in FAULTS {
        let expects = (0..60).map(|number| {
            let rng = &mut Rng::new(11, number);
            let mut record = generate::record(rng);
            fault(rng, &mut record)
        });
        let known = expects.filter(|expect| *expect != writer::objects::Expect::Open).count();
        assert_eq!(known > 5, !open.contains(name), "{name}: {known}");
    }
}

/// A fault may come after each other one: it finds what it changes, whatever the
/// other one changed.
#[test]
fn faults_follow_each_other() {
    for (first, fault) in FAULTS.iter().enumerate() {
        for (second, other) in FAULTS.iter().enumerate() {
            for number in 0..40 {
                let rng = &mut Rng::new((64 * first + second) as u64, number);
                let mut record = generate::record(rng);
                fault.1(rng, &mut record);
                other.1(rng, &mut record);
                record.encode();
            }
        }
    }
}

/// Good records are accepted, each keyword is found by its path, and each field by
/// its number; the name is where it is told.
#[test]
fn good_records_are_read() {
    let mut depths = [0; 9];
    for number in 0..600 {
        let rng = &mut Rng::new(3, number);
        let record = generate::record(rng);
        let table = samples::small();
        let subject = writer::keywords::cases::Subject::new(
            &table,
            Scope::Column(1),
            &record,
            writer::objects::Expect::Accepted,
        );
        let bytes = &subject.table.bytes;
        for (path, place) in paths::all(&subject.places) {
            let keyword = keyword(bytes, Asked::Column(1), &path).unwrap();
            assert_eq!(keyword.part.start, subject.start + place.part.start);
        }
        for (path, count) in paths::records(&subject.places) {
            let mut depth = 1;
            let mut rest = &path[..];
            while let Some((length, _)) = rest.split_first_chunk::<4>() {
                rest = &rest[4 + u32::from_be_bytes(*length) as usize..];
                depth += 1;
            }
            depths[depth] += 1;
            for number in 0..count as u64 {
                let field = field(bytes, Asked::Column(1), &path, number).unwrap();
                let name = paths::string(&bytes[field.name.clone()]);
                assert_eq!(bytes[field.name.start - 4..field.name.end], name);
            }
        }
    }
    assert!(depths[1..].iter().all(|count| *count > 20), "{depths:?}");
}

/// The keywords that the samples' tables have are those that the writer asks for.
#[test]
fn the_samples_have_the_keywords() {
    for (table, keywords) in
        [(samples::arrays(), arrays_keywords()), (samples::keywords(), sample_keywords())]
    {
        for (scope, record) in keywords {
            let encoded = record.encode();
            let stored = match scope {
                Scope::Table => &table.description.keywords,
                Scope::Column(position) => &table.columns()[position as usize].keywords,
            };
            assert_eq!(stored.contents, encoded.contents);
        }
    }
    assert_eq!(sample_subjects().len(), 11);
}

/// What the sample for keywords holds.
#[test]
fn the_sample_is_as_documented() {
    let subject = samples::keywords_file();
    let (table, file) = (subject.table.encode(), subject.file.encode());
    assert_eq!(file.len(), 1280);
    assert!(table.len() < 6000, "{}", table.len());
    assert!(model::check(&table, 0, &file, &mut [0; 200]).is_ok());
    assert_eq!(describe(&table).unwrap().columns.len(), 5);
    let value = |scope, names: &[&str]| {
        let keyword = keyword(&table, scope, &path(names)).unwrap();
        (keyword.data_type, &table[keyword.part])
    };
    let string = |text: &str| paths::string(text.as_bytes());
    assert_eq!(value(Asked::Table, &["MS_VERSION"]), (7, &[0x40, 0, 0, 0][..]));
    assert_eq!(value(Asked::Table, &["ANTENNA"]), (12, &string("././ANTENNA")[..]));
    assert_eq!(
        value(Asked::Table, &["TYPES", "String"]),
        (11, &paths::string(sample::ESCAPED)[..])
    );
    assert_eq!(value(Asked::Table, &["TYPES", "Int64Least"]).1, [0x80, 0, 0, 0, 0, 0, 0, 0]);
    assert_eq!(value(Asked::Table, &["NESTED", "same"]), (11, &string("first")[..]));
    let deepest = ["NESTED", "L3", "L4", "L5", "L6", "L7", "L8", "depth"];
    assert_eq!(value(Asked::Table, &deepest), (5, &[0, 0, 0, 8][..]));
    assert_eq!(value(Asked::Column(0), &["MEASINFO", "Ref"]), (11, &string("UTC")[..]));
    assert_eq!(value(Asked::Column(1), &["MEASINFO", "Ref"]), (11, &string("ITRF")[..]));
    assert_eq!(value(Asked::Column(2), &["UNIT"]), (11, &string("s")[..]));
    let (number, units) = value(Asked::Column(1), &["QuantumUnits"]);
    assert_eq!((number, units.len()), (24, 17 + 8 + 15));
    let count = |scope, names: &[&str]| {
        (0..).take_while(|number| field(&table, scope, &path(names), *number).is_ok()).count()
    };
    let counts = [&[][..], &["TYPES"], &["ARRAYS"], &["NESTED"], &["NESTED", "EMPTY"]];
    assert_eq!(counts.map(|names| count(Asked::Table, names)), [5, 22, 13, 5, 0]);
    assert_eq!([3, 4].map(|position| count(Asked::Column(position), &[])), [0, 0]);
}

#[test]
fn lines_are_short_enough() {
    let lines: Vec<usize> = Set::KeywordFields.lines().map(|line| line.len()).collect();
    assert_eq!(lines.len(), cases().count());
    let generated = Set::Keywords { seed: 1, count: 4000 }.lines().map(|line| line.len());
    let lines: Vec<usize> = lines.into_iter().chain(generated).collect();
    let longer = |length: usize| lines.iter().filter(|line| **line > length).count();
    assert!(longer(170_000) == 0 && longer(17_000) < 60, "{} {}", longer(170_000), longer(17_000));
    assert!(longer(6000) < lines.len() / 4, "{} of {}", longer(6000), lines.len());
}

/// A record's place in the table, from the writer.
#[test]
fn records_stand_where_the_model_finds_them() {
    let table = samples::keywords();
    let (layout, bytes) = (table.layout(), table.encode());
    let description = describe(&bytes).unwrap();
    let place = |part: Part| layout.object(part).start..layout.object(part).end;
    assert_eq!(description.keywords, place(Part::Keywords));
    for (position, column) in description.columns.iter().enumerate() {
        assert_eq!(column.keywords, place(Part::ColumnKeywords(position)));
    }
}
