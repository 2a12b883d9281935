//! What the set of lines about looks holds.

use std::collections::{BTreeMap, BTreeSet};
use writer::buckets::BucketFile;
use writer::looks::standard_files;
use writer::rng::Rng;
use writer::sets::Set;
use writer::standard;
use writer::standard::Index;

fn entries(index: &Index) -> usize {
    index.last_rows.elements.len()
}

#[test]
fn sets_have_one_entry_to_thousands() {
    let mut counts = BTreeSet::new();
    for subject in standard_files() {
        counts.extend(subject.file.indices.iter().map(entries));
    }
    assert!((1..=70).all(|count| counts.contains(&count)));
    for power in 1..=11 {
        assert!(
            [-1, 0, 1].iter().all(|beside| counts.contains(&(((1 << power) + beside) as usize)))
        );
    }
    assert_eq!(counts.last(), Some(&3900));
}

#[test]
fn most_entries_are_short() {
    // The row divided by rows per bucket is not the entry's number.
    let divided = |index: &Index| {
        let last_rows = (0..).zip(&index.last_rows.elements);
        last_rows
            .filter(|(entry, last)| **last / u64::from(index.rows_per_bucket) == *entry)
            .count()
    };
    for subject in standard_files() {
        for index in subject.file.indices.iter().filter(|index| entries(index) > 12) {
            assert!(2 * divided(index) < entries(index), "{:?}", index.last_rows);
        }
    }
}

#[test]
fn sets_of_one_file_differ() {
    let files = standard_files().filter(|subject| subject.file.indices.len() > 1);
    let mut differing = 0;
    for subject in files {
        let own = subject.own_columns();
        let looks = |row| -> BTreeSet<u64> {
            own.iter()
                .map(|position| subject.file.looks(&subject.table, *position, row)[0])
                .collect()
        };
        let rows = subject.file.border_rows().into_iter().filter(|row| *row < subject.table.rows());
        assert!(rows.into_iter().any(|row| looks(row).len() > 1));
        differing += 1;
    }
    assert!(differing > 50);
}

/// The answers to the set's lines, by the question's word and the refusal, or
/// for an accepted place its looks.
fn answers() -> BTreeMap<(String, String), usize> {
    let mut counts = BTreeMap::new();
    for line in Set::Looks.lines() {
        assert!(line.len() < 4_000_000);
        let word = line.split(' ').next().unwrap_or_default();
        let answer = model::answer(&line);
        let fields: Vec<&str> = answer.split(' ').collect();
        let counted = match fields[..] {
            ["refused", number, _, _] => format!("refused {number}"),
            ["ok", _, _, looks, _] => looks.to_string(),
            ["ok", ..] => "ok".to_string(),
            _ => panic!("no request: {}", &line[..40]),
        };
        *counts.entry((word.to_string(), counted)).or_default() += 1;
    }
    counts
}

#[test]
fn all_looks_and_refusals_occur() {
    let answers = answers();
    let total: usize = answers.values().sum();
    assert!((10_000..30_000).contains(&total), "{total}");
    let count = |word: &str, counted: &str| {
        *answers.get(&(word.to_string(), counted.to_string())).unwrap_or(&0)
    };
    for word in ["place", "placeplan"] {
        for looks in 0..=12 {
            assert!(count(word, &looks.to_string()) > 0, "{word}: {looks} looks");
        }
        assert_eq!(count(word, "13") + count(word, "ok"), 0);
        for refusal in [1, 9, 13] {
            assert!(count(word, &format!("refused {refusal}")) > 100, "{word}: {refusal}");
        }
    }
    assert!(count("place", "refused 8") > 100);
    assert!(count("placeplan", "refused 12") > 100);
    for word in ["view", "viewplan"] {
        assert!(count(word, "ok") > 100);
        assert!(count(word, "refused 14") > 100);
    }
}

#[test]
fn generated_files_have_many_entries_sometimes() {
    let subjects = (0..4000).map(|number| standard::generate::subject(&mut Rng::new(71, number)));
    let most: Vec<usize> = subjects
        .map(|subject| subject.file.indices.iter().map(entries).max().unwrap_or(0))
        .collect();
    let above = |least| most.iter().filter(|entries| **entries >= least).count();
    assert!(above(10) > 150, "{}", above(10));
    assert!(above(60) > 30, "{}", above(60));
    assert!(above(130) > 5, "{}", above(130));
}
