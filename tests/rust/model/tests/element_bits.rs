//! The bits of an element by its type's number: RULES.md 4.3 and the table of
//! Note 260, 3.4.2.

use model::{DataType, answer, element_bits, numbers};

/// The note's table in its order, with a Bool and a Short as RULES.md has them.
const SIZES: [(i64, u64); 11] = [
    (0, 1),
    (2, 8),
    (3, 16),
    (4, 16),
    (5, 32),
    (6, 32),
    (29, 64),
    (7, 32),
    (8, 64),
    (9, 64),
    (10, 128),
];

const ALL_TYPES: [DataType; 12] = [
    DataType::Bool,
    DataType::UChar,
    DataType::Short,
    DataType::UShort,
    DataType::Int,
    DataType::UInt,
    DataType::Float,
    DataType::Double,
    DataType::Complex,
    DataType::DComplex,
    DataType::String,
    DataType::Int64,
];

#[test]
fn types_have_their_bits_and_all_others_none() {
    for number in -100_000..=100_000 {
        let bits = SIZES.iter().find(|size| size.0 == number).map_or(0, |size| size.1);
        assert_eq!(element_bits(number), bits, "{number}");
    }
}

#[test]
fn are_those_of_the_columns() {
    for data_type in ALL_TYPES {
        let bits = data_type.element_bits().map_or(0, u64::from);
        assert_eq!(element_bits(data_type.number().into()), bits, "{}", data_type.name());
    }
    assert_eq!(element_bits(11), 0);
}

#[test]
fn the_whole_number_counts() {
    for (number, _) in SIZES {
        for power in [8, 16, 31, 32, 33, 48, 62] {
            assert_eq!(element_bits(number + (1 << power)), 0, "{number} + 2^{power}");
            assert_eq!(element_bits(number - (1 << power)), 0, "{number} - 2^{power}");
        }
        assert_eq!(element_bits(i64::MIN + number), 0);
        assert_eq!(element_bits(i64::MAX - number), 0);
        assert_eq!(element_bits(-number), u64::from(number == 0));
    }
}

#[test]
fn answers_in_numbers() {
    for (number, bits) in SIZES {
        let number = number as u64;
        assert_eq!(numbers::element_bits(number), bits);
        for far in [1 << 8, 1 << 31, 1 << 32, 1 << 63, u64::MAX << 32] {
            assert_eq!(numbers::element_bits(number | far), 0, "{number} | {far}");
        }
        assert_eq!(numbers::element_bits(number.wrapping_neg()), u64::from(number == 0));
    }
    assert_eq!(numbers::element_bits(11), 0);
    assert_eq!(numbers::element_bits(u64::MAX), 0);
}

#[test]
fn lines() {
    for (line, expected) in [
        ("elementbits 0", "ok 1"),
        ("elementbits -0", "ok 1"),
        ("elementbits 3", "ok 16"),
        ("elementbits 0000000000000000000000000000003", "ok 16"),
        ("elementbits -3", "ok 0"),
        ("elementbits 11", "ok 0"),
        ("elementbits 259", "ok 0"),
        ("elementbits 4294967299", "ok 0"),
        ("elementbits 9223372036854775807", "ok 0"),
        ("elementbits -9223372036854775808", "ok 0"),
    ] {
        assert_eq!(answer(line), expected, "{line:?}");
    }
}

#[test]
fn lines_that_are_no_requests() {
    for line in [
        "elementbits",
        "elementbits ",
        "elementbits 5 ",
        "elementbits  5",
        "elementbits 5 5",
        "elementbits -",
        "elementbits - 5",
        "elementbits --5",
        "elementbits +5",
        "elementbits -+5",
        "elementbits 5-",
        "elementbits 0x5",
        "elementbits 5.0",
        "elementbits 1_0",
        "elementbits \t5",
        "elementbits \u{663}", // a digit 3, but not ASCII's
        "elementbits 9223372036854775808",
        "elementbits -9223372036854775809",
        "elementbits 18446744073709551619",
        "Elementbits 5",
    ] {
        assert_eq!(answer(line), "bad request", "{line:?}");
    }
}
