//! The lines about type numbers, and lines that are no requests.

use std::collections::HashSet;
use writer::sets::Set;
use writer::table::{BOOL, TYPES};

/// The number that a line asks about.
fn number(line: &str) -> i64 {
    line.strip_prefix("elementbits ").unwrap().parse().unwrap()
}

/// The bits of an element as the writer writes it.
fn written_bits(number: i64) -> u64 {
    let data_type = TYPES.into_iter().find(|data_type| i64::from(data_type.number) == number);
    match data_type {
        Some(BOOL) => 1,
        Some(data_type) => 8 * data_type.size as u64,
        None => 0,
    }
}

/// A type's number, also negated, or one beside them.
fn is_near(number: impl Into<i64>) -> bool {
    (-35..=35).contains(&number.into())
}

#[test]
fn bits_are_those_of_what_is_written() {
    let lines = Set::Types.lines().chain(Set::SomeTypes { seed: 61, count: 2000 }.lines());
    for line in lines {
        assert_eq!(model::answer(&line), format!("ok {}", written_bits(number(&line))), "{line}");
    }
}

#[test]
fn near_and_far_numbers_are_asked() {
    let lines: Vec<String> = Set::Types.lines().collect();
    let different: HashSet<&String> = lines.iter().collect();
    assert_eq!(different.len(), lines.len());
    let asked: HashSet<i64> = lines.iter().map(|line| number(line)).collect();
    assert!((-1_000..=100_000).all(|number| asked.contains(&number)));
    for number in 0..=31 {
        assert!(asked.contains(&-number));
        for power in [8, 16, 31, 32, 33, 48] {
            for distance in [1 << power, 2 << power, -1 << power, -2 << power] {
                assert!(asked.contains(&(number + distance)), "{number} + {distance}");
            }
        }
        assert!(asked.contains(&(i64::MIN + number)));
        assert!(asked.contains(&(i64::MAX - number)));
    }
}

#[test]
fn generated_numbers_are_near_types_and_far_away() {
    let numbers: Vec<i64> =
        Set::SomeTypes { seed: 62, count: 4000 }.lines().map(|line| number(&line)).collect();
    let count = |test: fn(i64) -> bool| numbers.iter().filter(|number| test(**number)).count();
    assert!(count(|number| written_bits(number) > 0) >= 40);
    assert!(count(|number| !is_near(number) && is_near(number as i8)) >= 1000);
    assert!(count(|number| !is_near(number) && is_near(number as i32)) >= 500);
    assert!(count(|number| !is_near(number as i8)) >= 1000);
    assert!(count(|number| number < 0) >= 1000);
}

#[test]
fn no_bad_line_is_a_request() {
    for line in Set::Bad.lines() {
        assert_eq!(model::answer(&line), "bad request", "{line}");
    }
}
