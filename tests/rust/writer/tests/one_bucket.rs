//! Place in one bucket: what the writer expects of each question of the set,
//! against the model.

use model::refusal::{NO_ROW, NO_SUCH};
use model::{InBucket, Refusal, numbers, place, place_in_bucket};
use std::collections::BTreeMap;
use writer::incremental::faults::IN_BUCKET;
use writer::one_bucket::{Answer, Case, cases};
use writer::sets::Set;

/// The model's answer; the room is all zero.
fn answer(case: &Case) -> Result<InBucket, Refusal> {
    let mut room = vec![0xA5; case.room];
    let Case { table, file, row, position, .. } = case;
    let answer = place_in_bucket(table, file, *row, *position, &mut room);
    assert!(room.iter().all(|byte| *byte == 0), "{}", case.what);
    let told = numbers::place_in_bucket(table, file, *row, *position, &mut room);
    let same = answer.map(|placed| [placed.first_bit, placed.bit_count, placed.bucket_size, 0]);
    assert_eq!(told, same);
    answer
}

#[test]
fn questions_are_answered_as_expected() {
    for (number, case) in cases().enumerate() {
        let expected = match case.answer {
            Answer::Open => {
                let _ = answer(&case);
                continue;
            }
            Answer::Placed([first_bit, bit_count, bucket_size]) => {
                Ok(InBucket { first_bit, bit_count, bucket_size })
            }
            Answer::Refused(number, byte) => Err(Refusal { number, byte }),
        };
        let Case { row, position, what, .. } = case;
        assert_eq!(answer(&case), expected, "case {number}, {what}, row {row}, column {position}");
    }
}

/// Where Place answers, this answers the same. What it refuses, the row apart, Place
/// refuses too: in the same way where only one bucket has a fault. What it places
/// and Place refuses, is refused for another bucket.
#[test]
fn places_are_those_of_the_full_check() {
    for (number, case) in cases().enumerate() {
        let Case { table, file, row, position, what, .. } = &case;
        let full = place(table, file, *row, *position, &mut vec![0; 65_536]);
        let full = full.map(|placed| [placed.first_bit, placed.bit_count]);
        let one = answer(&case).map(|placed| [placed.first_bit, placed.bit_count]);
        let is_of_one = IN_BUCKET.iter().any(|fault| fault.name == *what);
        let is_right = match (one, full) {
            (Err(NO_SUCH), _) => true, // of StandardStMan
            (Err(NO_ROW), Err(full)) => full == NO_ROW || [1, 11].contains(&full.number),
            (Err(one), Err(full)) => one == full || !is_of_one,
            (Ok(one), Ok(full)) => one == full,
            (Ok(_), Err(full)) => [1, 11].contains(&full.number),
            (Err(_), Ok(_)) => false,
        };
        assert!(is_right, "case {number}, {what}, row {row}: {one:?}, {full:?}");
    }
}

/// Each refusal number that there can be, and how often the writer expects it.
#[test]
fn every_refusal_number_occurs() {
    let mut expected = [0; 12];
    let mut open = 0;
    let mut total = 0;
    for case in cases() {
        total += 1;
        match case.answer {
            Answer::Placed(_) => expected[0] += 1,
            Answer::Refused(number, _) => expected[number as usize] += 1,
            Answer::Open => open += 1,
        }
    }
    assert!(expected.iter().all(|count| *count >= 30), "{expected:?}");
    assert!(expected[0] > total / 4 && open < total / 10, "{expected:?} {open} of {total}");
}

/// Faults of a bucket are met in the row's own bucket, and in others that do not
/// count.
#[test]
fn every_fault_of_a_bucket_is_met() {
    let mut faults: BTreeMap<&str, [usize; 2]> = BTreeMap::new();
    for case in cases() {
        let counts = faults.entry(case.what).or_default();
        match case.answer {
            Answer::Refused(1 | 11, _) => counts[0] += 1,
            Answer::Placed(_) => counts[1] += 1,
            _ => {}
        }
    }
    for fault in IN_BUCKET {
        let counts = faults[fault.name];
        // What a reader says of these in the row's bucket depends on other fields.
        let is_open = ["high byte of the offset", "index offset near its own"];
        let least = if is_open.contains(&fault.name) { 0 } else { 4 };
        assert!(counts[0] >= least && counts[1] >= 40, "{}: {counts:?}", fault.name);
    }
}

#[test]
fn lines_are_short() {
    let lines: Vec<usize> = Set::OneBucket.lines().map(|line| line.len()).collect();
    assert!(lines.iter().all(|length| *length < 100_000));
    assert_eq!(lines.len(), cases().count());
}
