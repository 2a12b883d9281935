//! Keywords in TableRecords written here byte by byte: each sentence of RULES.md
//! 4.12 to 4.17, with bytes counted by hand.

mod common;

use common::{object, record, refused, small_table, string, uint, uints};
use model::{Keyword, Refusal, Scope, answer, describe, field, hex, keyword, numbers};

/// Where the TableRecord of the table's keywords begins in these tables.
const RECORD: u64 = 76;
/// Where its RecordDesc begins, and in this the count and the first field.
const DESC: u64 = RECORD + 23;
const COUNT: u64 = DESC + 22;
const FIRST: u64 = COUNT + 4;

/// The small table with these TableRecords in place of the table's keywords, the
/// private ones and those of its three columns.
fn table_with(records: [Vec<u8>; 5]) -> Vec<u8> {
    let (empty, mut rest) = (record(), small_table());
    let mut bytes = Vec::new();
    for record in &records {
        let start = rest.windows(empty.len()).position(|window| window == empty).unwrap();
        bytes.extend_from_slice(&rest[..start]);
        bytes.extend_from_slice(record);
        rest = rest.split_off(start + empty.len());
    }
    let more = records.concat().len() as u32 - 5 * empty.len() as u32;
    bytes.extend_from_slice(&rest);
    for length in [4, 43] {
        let stored = u32::from_be_bytes(bytes[length..length + 4].try_into().unwrap());
        bytes[length..length + 4].copy_from_slice(&uint(stored + more));
    }
    bytes
}

/// The table with these keywords of its own.
fn with_keywords(keywords: Vec<u8>) -> Vec<u8> {
    table_with([keywords, record(), record(), record(), record()])
}

fn path(names: &[&str]) -> Vec<u8> {
    names.iter().flat_map(|name| string(name)).collect()
}

/// A field of a RecordDesc without comment.
fn described(name: &str, data_type: u32, more: &[u8]) -> Vec<u8> {
    [string(name), uint(data_type), more.to_vec()].concat()
}

/// A RecordDesc of version 1.
fn desc(fields: &[Vec<u8>]) -> Vec<u8> {
    object("RecordDesc", 1, &[uint(fields.len() as u32), fields.concat()])
}

/// A TableRecord with this description and these values.
fn record_of(desc: Vec<u8>, values: &[Vec<u8>]) -> Vec<u8> {
    object("TableRecord", 1, &[desc, uint(1), values.concat()])
}

/// The answer about one keyword of the table.
fn ask(keywords: Vec<u8>, names: &[&str]) -> Result<(u32, u64, u64), Refusal> {
    let table = with_keywords(keywords);
    assert!(describe(&table).is_ok());
    keyword(&table, Scope::Table, &path(names))
        .map(|Keyword { data_type, part }| (data_type, part.start as u64, part.len() as u64))
}

/// A record with the one field `A`, of this type: what its type asks for, its value.
fn one(data_type: u32, more: &[u8], value: &[u8]) -> Vec<u8> {
    record_of(desc(&[described("A", data_type, more)]), &[value.to_vec()])
}

/// Where the value of that field stands: after name, type, what the type asks for,
/// and the record type.
fn value_of_one(more: usize) -> u64 {
    FIRST + 5 + 4 + more as u64 + 4
}

#[test]
fn scalars() {
    for (data_type, bytes) in
        [(0, 1), (2, 1), (3, 2), (4, 2), (5, 4), (6, 4), (7, 4), (8, 8), (9, 8), (10, 16), (29, 8)]
    {
        let whole = vec![1; bytes];
        let expected = (data_type, value_of_one(0), bytes as u64);
        assert_eq!(ask(one(data_type, &[], &whole), &["A"]), Ok(expected));
        assert_eq!(ask(one(data_type, &[], &whole[1..]), &["A"]), refused(1, value_of_one(0)));
    }
    // A Bool byte is 0 or 1. A String's length is part of it, a Table's too.
    assert_eq!(ask(one(0, &[], &[2]), &["A"]), refused(5, value_of_one(0)));
    assert_eq!(ask(one(11, &[], &string("metre")), &["A"]), Ok((11, value_of_one(0), 9)));
    let name = string("MS");
    assert_eq!(ask(one(12, &name, &string("T")), &["A"]), Ok((12, value_of_one(6), 5)));
}

#[test]
fn strings_have_at_most_4096_bytes() {
    let (most, more) = (string(&"x".repeat(4096)), string(&"x".repeat(4097)));
    assert_eq!(ask(one(11, &[], &most), &["A"]), Ok((11, value_of_one(0), 4100)));
    assert_eq!(ask(one(11, &[], &more), &["A"]), refused(4, value_of_one(0)));
    assert_eq!(ask(one(12, &more, &most), &["A"]), refused(4, FIRST + 9));
    let elements = [uints(&[1, 2]), string("s"), more.clone()].concat();
    let value = object("Array", 3, &[elements]);
    let second = value_of_one(8) + 17 + 8 + 5;
    assert_eq!(ask(one(24, &uints(&[1, 2]), &value), &["A"]), refused(4, second));
    let long = "n".repeat(4097);
    assert_eq!(
        ask(record_of(desc(&[described(&long, 5, &[])]), &[uint(1)]), &[]),
        refused(4, FIRST)
    );
    let commented = |comment: Vec<u8>| {
        let fields = [uint(1), described("A", 5, &[]), comment];
        record_of(object("RecordDesc", 2, &fields), &[uint(1)])
    };
    assert_eq!(ask(commented(more), &["A"]), refused(4, FIRST + 9));
    assert_eq!(ask(commented(most), &["A"]), Ok((5, FIRST + 9 + 4100 + 4, 4)));
}

/// Other numbers than those of the list give 5 at the type number.
#[test]
fn types() {
    for number in (0..40).chain([255, 256, 1 << 16, 1 << 31, u32::MAX]) {
        let answer = ask(one(number, &[], &[]), &["A"]);
        match number {
            0 | 2..=13 | 15..=25 | 29 | 30 => {
                assert!(answer.is_err_and(|refusal| refusal.byte > FIRST + 5))
            }
            _ => assert_eq!(answer, refused(5, FIRST + 5)),
        }
    }
}

#[test]
fn arrays() {
    let unfixed = uints(&[1, u32::MAX]);
    let value = |name: &str, version: u32, fields: Vec<u8>| {
        ask(one(20, &unfixed, &object(name, version, &[fields])), &["A"])
    };
    let start = value_of_one(8);
    let fields = start + 17;
    let elements = vec![7; 24];
    // Two axes, 3 and 2, of floats; versions 1 and 2 have an origin before them.
    let whole = [uints(&[2, 3, 2]), elements.clone()].concat();
    let with_origin = [uints(&[2, u32::MAX, 9, 3, 2]), elements.clone()].concat();
    assert_eq!(value("Array", 3, whole.clone()), Ok((20, start, 53)));
    assert_eq!(value("Array", 2, with_origin.clone()), Ok((20, start, 61)));
    assert_eq!(value("Array", 1, with_origin.clone()), Ok((20, start, 61)));
    assert_eq!(value("Array", 4, whole.clone()), refused(3, start + 13));
    assert_eq!(value("Array", 0, whole.clone()), refused(3, start + 13));
    assert_eq!(value("Array<float>", 3, whole.clone()), Ok((20, start, 60)));
    assert_eq!(value("Array<>", 1, with_origin), Ok((20, start, 63)));
    assert_eq!(value("Array<<>>>", 3, whole.clone()), Ok((20, start, 58)));
    for name in ["", "Arra", "Array<", "Array>", "Array<float", "Arrays", "Array<>x", "array"] {
        assert_eq!(value(name, 3, whole.clone()), refused(2, start + 4));
    }
    // An axis may be 0, not negative; the next axis is not looked at.
    assert_eq!(value("Array", 3, uints(&[2, 0, 5])), Ok((20, start, 29)));
    assert_eq!(value("Array", 3, uints(&[3, 1, u32::MAX])), refused(5, fields + 8));
    assert_eq!(value("Array", 3, uints(&[2, 1])), refused(1, fields + 8));
    assert_eq!(value("Array", 3, uint(0)), Ok((20, start, 21)));
    assert_eq!(value("Array", 3, uints(&[0, 1])), refused(7, start));
    // Elements that are not there, or left over.
    assert_eq!(value("Array", 3, whole[..35].to_vec()), refused(1, fields + 12 + 20));
    assert_eq!(value("Array", 3, [whole, vec![0]].concat()), refused(7, start));
    // Counts and products of any size.
    assert_eq!(value("Array", 3, uint(u32::MAX)), refused(1, fields + 4));
    assert_eq!(value("Array", 2, uints(&[u32::MAX, 1, 1])), refused(1, fields + 12));
    let huge = i32::MAX as u32;
    assert_eq!(value("Array", 3, uints(&[3, huge, huge, huge])), refused(1, fields + 16));
    assert_eq!(value("Array", 3, uints(&[4, huge, huge, huge, 0])), Ok((20, start, 37)));
}

#[test]
fn elements_of_bools_and_strings() {
    let value = |data_type: u32, fields: Vec<u8>| {
        ask(one(data_type, &uint(0), &object("Array", 3, &[fields])), &["A"])
    };
    let start = value_of_one(4);
    // Nine Bools take two bytes, whose spare bits may be anything.
    assert_eq!(value(13, [uints(&[1, 9]), vec![255; 2]].concat()), Ok((13, start, 27)));
    assert_eq!(value(13, [uints(&[1, 8]), vec![255]].concat()), Ok((13, start, 26)));
    assert_eq!(value(13, [uints(&[1, 9]), vec![255]].concat()), refused(1, start + 26));
    assert_eq!(value(13, [uints(&[1, 9]), vec![255; 3]].concat()), refused(7, start));
    let strings = [uints(&[1, 2]), string("s"), string("")].concat();
    assert_eq!(value(24, strings.clone()), Ok((24, start, 34)));
    assert_eq!(value(24, strings[..16].to_vec()), refused(1, start + 30));
    assert_eq!(value(30, [uints(&[1, 1]), vec![1; 8]].concat()), Ok((30, start, 33)));
    assert_eq!(value(23, [uints(&[1, 1]), vec![1; 16]].concat()), Ok((23, start, 41)));
}

/// An IPosition is one where its name stands 4 bytes behind the shape's start, in
/// the RecordDesc; all else is a count and Ints.
#[test]
fn shapes_of_both_forms() {
    let value = object("Array", 3, &[uint(0)]);
    let with = |shape: &[u8]| ask(one(18, shape, &value), &["A"]);
    let shape = FIRST + 9;
    for good in [
        uint(0),
        uints(&[2, 3, 4]),
        object("IPosition", 1, &[uints(&[2, 3, 4])]),
        object("IPosition", 2, &[uints(&[1, 0, u32::MAX])]),
        object("IPosition", 1, &[uint(0)]),
    ] {
        assert_eq!(with(&good), Ok((18, value_of_one(good.len()), 21)));
    }
    assert_eq!(with(&object("IPosition", 3, &[uint(0)])), refused(3, shape + 17));
    assert_eq!(with(&object("IPosition", 1, &[uints(&[1, 2, 3])])), refused(7, shape));
    assert_eq!(with(&object("IPosition", 2, &[uints(&[1, 2])])), refused(1, shape + 25));
    // Its length is the count: 25 Ints, of which four or fewer are there.
    assert_eq!(with(&object("IPositiom", 1, &[uint(0)])), refused(1, shape + 24));
    assert_eq!(with(&object("Array", 3, &[uint(0)])), refused(1, shape + 20));
    // The name ends with the RecordDesc, or is torn by its end.
    let name = [uint(17), string("IPosition")].concat();
    assert_eq!(with(&name), refused(1, shape + 17));
    assert_eq!(with(&name[..16]), refused(1, shape + 16));
    assert_eq!(with(&[uint(2), string("IPosition")].concat()), refused(1, shape + 17));
    // A count of two Ints before a comment that has the name: the count decides.
    assert_eq!(with(&uints(&[3, 1])), refused(1, shape + 8));
}

#[test]
fn descriptions() {
    // A count that is negative, or of more fields than there are.
    let counted = |count: i32| {
        let fields = [uint(count as u32), described("A", 2, &[])];
        ask(record_of(object("RecordDesc", 1, &fields), &[vec![9]]), &["A"])
    };
    assert_eq!(counted(1), Ok((2, value_of_one(0), 1)));
    assert_eq!(counted(-1), refused(4, COUNT));
    assert_eq!(counted(i32::MIN), refused(4, COUNT));
    assert_eq!(counted(i32::MAX), refused(1, FIRST + 9));
    assert_eq!(counted(0), refused(7, DESC));
    // Its header, and what follows it.
    let header = |name: &str, version: u32| record_of(object(name, version, &[uint(0)]), &[]);
    assert_eq!(ask(header("RecordDesk", 1), &[]), refused(2, DESC + 4));
    assert_eq!(ask(header("RecordDesc", 0), &[]), refused(3, DESC + 18));
    assert_eq!(ask(header("RecordDesc", 3), &[]), refused(3, DESC + 18));
    assert_eq!(ask(object("TableRecord", 1, &[]), &[]), refused(1, DESC));
    assert_eq!(ask(object("TableRecord", 1, &[desc(&[])]), &[]), refused(1, DESC + 26));
    assert_eq!(ask(record_of(desc(&[]), &[vec![0]]), &[]), refused(7, RECORD));
    for record_type in [0, 1, 2, u32::MAX] {
        let keywords = object("TableRecord", 1, &[desc(&[]), uint(record_type)]);
        assert_eq!(ask(keywords, &["A"]), refused(16, 0));
    }
    let long = [uint(27), desc(&[])[4..].to_vec()].concat();
    assert_eq!(ask(object("TableRecord", 1, &[long]), &[]), refused(1, DESC));
    let short = [uint(21), desc(&[])[4..].to_vec()].concat();
    assert_eq!(ask(record_of(short, &[]), &[]), refused(7, DESC));
}

/// Records of one field `R` each, so many deep; the innermost has the field `I`, or
/// an empty description and a whole TableRecord as its value.
fn deep(depth: u32, innermost: Vec<u8>, value: Vec<u8>) -> Vec<u8> {
    let desc = (1..depth).fold(innermost, |held, _| desc(&[described("R", 25, &held)]));
    record_of(desc, &[value])
}

#[test]
fn at_most_eight_deep() {
    let innermost = desc(&[described("I", 2, &[])]);
    let names = ["R", "R", "R", "R", "R", "R", "R", "I"];
    for depth in [1, 2, 7, 8] {
        let names = &names[8 - depth..];
        let described = 22 + 4 + 9 + (depth as u64 - 1) * (22 + 4 + 9);
        let expected = Ok((2, DESC + described + 4, 1));
        assert_eq!(ask(deep(depth as u32, innermost.clone(), vec![5]), names), expected);
    }
    assert_eq!(ask(deep(9, innermost.clone(), vec![5]), &["R"]), refused(15, 0));
    assert_eq!(ask(deep(9, desc(&[]), record()), &["R"]), refused(15, 0));
    assert_eq!(ask(deep(10, innermost, vec![5]), &["R"]), refused(15, 0));
    assert!(ask(deep(8, desc(&[]), record()), &["R", "R"]).is_ok());
    // Before anything behind the type number, which is judged first.
    assert_eq!(ask(deep(9, vec![], vec![]), &["R"]), refused(15, 0));
    let unknown = desc(&[described("I", 26, &[])]);
    let byte = FIRST + 5 + 7 * (4 + 22 + 4 + 5);
    assert_eq!(ask(deep(8, unknown, vec![]), &["R"]), refused(5, byte));
    // A whole TableRecord has the depth of the record that it is the value of.
    let whole = record_of(desc(&[described("R", 25, &desc(&[]))]), &[record()]);
    assert_eq!(ask(deep(8, desc(&[]), whole.clone()), &["R"]), refused(15, 0));
    assert!(ask(deep(7, desc(&[]), whole), &["R", "R", "R", "R", "R", "R", "R"]).is_ok());
}

/// `A` Int; `R` with `B` Bool and `S` String; `A` once more, a record; `W` with an
/// empty description, whose TableRecord has `C`; `` (no name) uChar.
fn nested() -> Vec<u8> {
    let inner = desc(&[described("B", 0, &[]), described("S", 11, &[])]);
    let fields = [
        described("A", 5, &[]),
        described("R", 25, &inner),
        described("A", 25, &inner),
        described("W", 25, &desc(&[])),
        described("", 2, &[]),
    ];
    let values = [vec![1], string("m")].concat();
    record_of(desc(&fields), &[uint(3), values.clone(), values, one(3, &[], &[0, 4]), vec![8]])
}

/// Where the values of that record begin.
const NESTED: u64 = FIRST + 9 + 2 * (9 + 44) + 9 + 26 + 8 + 4;

#[test]
fn paths() {
    let ask = |names: &[&str]| ask(nested(), names);
    assert_eq!(ask(&["A"]), Ok((5, NESTED, 4)));
    assert_eq!(ask(&["R"]), Ok((25, NESTED + 4, 6)));
    assert_eq!(ask(&["R", "B"]), Ok((0, NESTED + 4, 1)));
    assert_eq!(ask(&["R", "S"]), Ok((11, NESTED + 5, 5)));
    assert_eq!(ask(&["W"]), Ok((25, NESTED + 16, 64)));
    assert_eq!(ask(&["W", "A"]), Ok((3, NESTED + 16 + 62, 2)));
    assert_eq!(ask(&[""]), Ok((2, NESTED + 80, 1)));
    // Nothing has the name, a step through what is no record, and of equal names
    // the first, even where only a later one is a record.
    for names in [
        &[][..],
        &["B"],
        &["a"],
        &["A "],
        &["A", "B"],
        &["R", "A"],
        &["R", ""],
        &["R", "B", "B"],
        &["W", "C"],
        &["", ""],
    ] {
        assert_eq!(ask(names), refused(16, 0), "{names:?}");
    }
}

/// Torn anywhere, also behind a name that is found.
#[test]
fn torn_paths() {
    let table = with_keywords(nested());
    let whole = path(&["R", "S"]);
    for end in 0..whole.len() {
        let answer = keyword(&table, Scope::Table, &whole[..end]);
        assert_eq!(answer.is_ok(), end == 5, "{end}");
    }
    for more in [&[0][..], &[0, 0, 0], &[0, 0, 0, 1], &[255; 9]] {
        let path = [&whole, more].concat();
        assert_eq!(keyword(&table, Scope::Table, &path), refused(16, 0));
    }
    // A name in a path has no length range.
    let long = path(&[&"n".repeat(5000)]);
    assert_eq!(keyword(&table, Scope::Table, &long), refused(16, 0));
}

#[test]
fn fields_by_number() {
    let table = with_keywords(nested());
    let ask = |names: &[&str], number| {
        let path = path(names);
        let answer = numbers::table_field(&table, &path, number);
        let told = field(&table, Scope::Table, &path, number);
        assert_eq!(answer.map(|numbers| numbers[0]), told.map(|field| field.name.start as u64));
        answer
    };
    assert_eq!(ask(&[], 0), Ok([FIRST + 4, 1, 5, NESTED, 4, 0]));
    assert_eq!(ask(&[], 1), Ok([FIRST + 13, 1, 25, NESTED + 4, 6, 0]));
    assert_eq!(ask(&[], 2), Ok([FIRST + 66, 1, 25, NESTED + 10, 6, 0]));
    assert_eq!(ask(&[], 4), Ok([FIRST + 154, 0, 2, NESTED + 80, 1, 0]));
    assert_eq!(ask(&["R"], 1), Ok([FIRST + 57, 1, 11, NESTED + 5, 5, 0]));
    assert_eq!(ask(&["W"], 0), Ok([NESTED + 69, 1, 3, NESTED + 78, 2, 0]));
    for (names, number) in [
        (&[][..], 5),
        (&[], 1 << 32),
        (&[], u64::MAX),
        (&["R"], 2),
        (&["W"], 1),
        (&["A"], 0), // the first of equal names is no record
        (&["B"], 0),
        (&["R", "S"], 0),
    ] {
        assert_eq!(ask(names, number), refused(16, 0), "{names:?} {number}");
    }
    assert_eq!(field(&table, Scope::Table, &[0, 0], 0), refused(16, 0));
}

/// Each scope has its own record; the others, and the private one, may be anything
/// that is passed over.
#[test]
fn scopes() {
    let bad = object("TableRecord", 1, &[vec![1, 2, 3]]);
    let unit = one(11, &[], &string("s"));
    let table = table_with([bad.clone(), bad.clone(), unit.clone(), bad.clone(), unit]);
    let ask = |scope| keyword(&table, scope, &path(&["A"])).map(|keyword| keyword.data_type);
    assert_eq!(ask(Scope::Table), refused(1, DESC));
    assert_eq!(ask(Scope::Column(0)), Ok(11));
    assert!(ask(Scope::Column(1)).is_err_and(|refusal| refusal.number == 1));
    assert_eq!(ask(Scope::Column(2)), Ok(11));
    for position in [3, 1 << 32, u64::MAX] {
        assert_eq!(ask(Scope::Column(position)), refused(8, 0));
    }
    // The table comes first.
    assert_eq!(keyword(&table[..50], Scope::Column(9), &[]), refused(1, 4));
    let long = [table.clone(), vec![0; 65_537 - table.len()]].concat();
    assert_eq!(keyword(&long, Scope::Column(9), &[]), refused(4, 65_536));
}

#[test]
fn request_lines() {
    let bytes = with_keywords(nested());
    let table = hex::encode(&bytes);
    for (line, expected) in [
        ("keyword TABLE table 0000000152", format!("ok 25 {} 6", NESTED + 4)),
        ("keyword TABLE table -", "refused 16 0".to_string()),
        ("keyword TABLE 2 -", "refused 16 0".to_string()),
        ("keyword TABLE 3 -", "refused 8 0".to_string()),
        ("keyword TABLE 18446744073709551615 -", "refused 8 0".to_string()),
        ("keyword TABLE 18446744073709551616 -", "bad request".to_string()),
        ("keyword TABLE tables -", "bad request".to_string()),
        ("keyword TABLE table", "bad request".to_string()),
        ("keyword - table -", "refused 1 0".to_string()),
        ("field TABLE table - 4", format!("ok {} 0 2 {} 1", FIRST + 154, NESTED + 80)),
        ("field TABLE table - 5", "refused 16 0".to_string()),
        ("field TABLE 0 - 0", "refused 16 0".to_string()),
        ("field TABLE 0 -", "bad request".to_string()),
        ("field TABLE table - -1", "bad request".to_string()),
    ] {
        assert_eq!(answer(&line.replace("TABLE", &table)), expected, "{line}");
    }
    let unit = [FIRST + 13, 1, 25, NESTED + 4, 6, 0];
    assert_eq!(numbers::table_field(&bytes, &[], 1), Ok(unit));
    let keyword = numbers::table_keyword(&bytes, &path(&["R"]));
    assert_eq!(keyword, Ok([25, NESTED + 4, 6, 0]));
    let third = table_with([record(), record(), record(), record(), nested()]);
    let [type_number, start, length, byte] =
        numbers::column_keyword(&third, 2, &path(&["R"])).unwrap();
    assert_eq!((type_number, length, byte), (25, 6, 0));
    let name = start - (NESTED + 4) + FIRST + 13;
    assert_eq!(numbers::column_field(&third, 2, &[], 1), Ok([name, 1, 25, start, 6, 0]));
    assert_eq!(numbers::written(numbers::column_keyword(&third, 3, &[])), [0; 4]);
    assert_eq!(
        numbers::written(numbers::column_field(&third[..50], 3, &[], 0)),
        [0, 0, 0, 0, 0, 4]
    );
}
