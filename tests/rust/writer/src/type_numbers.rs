//! Request lines about the bits of an element by its type's number.

use crate::rng::Rng;
use std::collections::BTreeSet;
use std::fmt::Display;
use std::ops::RangeInclusive;

/// Each of these is asked.
const NEAR: RangeInclusive<i64> = -1_000..=100_000;
/// The numbers of Casacore's DataType.h, 0 to 30, and some around them; also
/// negated.
const TYPES: RangeInclusive<i64> = -35..=35;
/// Numbers that differ by a multiple of 2 to such a power are the same where
/// only a low byte, half or word of them is looked at, or not the sign.
const POWERS: [u32; 7] = [8, 16, 31, 32, 33, 48, 63];
const MULTIPLES: [i128; 9] = [1, 2, 3, 5, 127, 128, 255, 256, 32_767];
/// More digits than are needed, or a sign that is not.
const WRITTEN: [&str; 8] = [
    "-0",
    "00",
    "-00",
    "03",
    "-03",
    "0029",
    "000000000000000000000000000000010",
    "-000009223372036854775808",
];

/// The numbers near 0, those that end as a type's does, and some that are
/// written in another way.
pub fn lines() -> impl Iterator<Item = String> + Send {
    NEAR.chain(far()).map(question).chain(WRITTEN.into_iter().map(question))
}

/// The ends of the range and what is a few multiples of a power from a type's
/// number, each once.
fn far() -> BTreeSet<i64> {
    let mut numbers = BTreeSet::from([i64::MIN, i64::MIN + 1, i64::MAX - 1, i64::MAX]);
    for number in TYPES {
        for power in POWERS {
            for multiple in MULTIPLES {
                let distance = multiple << power;
                let both = [i128::from(number) + distance, i128::from(number) - distance];
                numbers.extend(both.into_iter().filter_map(|sum| i64::try_from(sum).ok()));
            }
        }
    }
    numbers.retain(|number| !NEAR.contains(number));
    numbers
}

/// Half are any 64 bits; of the others some are a type's number or beside one,
/// the rest end as such a number does.
pub fn some_question(rng: &mut Rng) -> String {
    let any = rng.number();
    if rng.chance(1, 2) {
        return question(any as i64);
    }
    let types: Vec<i64> = TYPES.collect();
    let multiple = if rng.chance(1, 4) { 0 } else { any >> rng.below(64) };
    question(rng.pick(&types).wrapping_add((multiple << rng.pick(&POWERS)) as i64))
}

fn question(number: impl Display) -> String {
    format!("elementbits {number}")
}
