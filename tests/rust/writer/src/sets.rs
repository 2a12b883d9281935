//! Sets of request lines.

use crate::faults::{self, Expect, FAULTS, LARGE_FAULTS};
use crate::fields;
use crate::file_cases;
use crate::generate;
use crate::hex::hex;
use crate::keywords;
use crate::large_files;
use crate::layout::{Layout, Part};
use crate::lean;
use crate::looks;
use crate::one_bucket;
use crate::rng::Rng;
use crate::rows;
use crate::samples;
use crate::small_file;
use crate::table::{BOOL, COMPLEX, Column, DCOMPLEX, INT, Manager, Record, Table};
use crate::texts;
use crate::torn;
use crate::type_numbers;
use std::ops::Range;

/// How to ask for a set, for usage texts.
pub const USAGE: &str = "\
tables SEED COUNT  generated questions about good tables and tables with faults
prefixes           Description of every prefix of good tables, and with every prefix
                   of a DMInfo's object, as it is and with the lengths of cut
                   objects cut too; and of long ones
bytes              Description after every change of one byte of a small table,
                   and of the object in its DMInfo
large [SEED COUNT] tables of 64 columns and 16 managers, near 65,536 bytes
types [SEED COUNT] the bits of an element, by type number: -1,000 to 100,000
                   and far numbers that end as a type's does, or generated ones
bad                lines that are no requests
standard SEED COUNT
                   generated questions about good and faulty StandardStMan files
incremental SEED COUNT
                   the same about IncrementalStMan files
fields             every named field of the samples with other bytes
torn               the samples' files, cut off at one byte after the other
looks              Place in good files whose sets have 1 to 3,900 entries
rows               row numbers of 64 bits: every mixture of versions, tables of more
                   rows than 32 bits can count, and their refused neighbours
one-bucket         Place in one bucket: IncrementalStMan files of several buckets, good
                   and with faults in the row's bucket, in another one, and before
texts              views and padded views: texts of all kinds with a maximum, and cells
                   of other columns that hold zero bytes
keywords SEED COUNT
                   generated questions about keywords: good and faulty TableRecords
                   of the table and its columns, and paths of all kinds
keyword-fields     some TableRecords with every field changed, every fault, cut off at
                   every byte, and every path; the keywords of the samples
files-large [SEED COUNT]
                   files of 4,096 buckets, or with the largest buckets
small-file         the small file of RULES.md 11, its cases and variants of them";

#[derive(Clone, Copy, Debug, PartialEq, Eq)]
pub enum Set {
    Tables { seed: u64, count: u64 },
    Prefixes,
    Bytes,
    Large { seed: u64, count: u64 },
    Types,
    SomeTypes { seed: u64, count: u64 },
    Bad,
    Standard { seed: u64, count: u64 },
    Incremental { seed: u64, count: u64 },
    Fields,
    Torn,
    Looks,
    Rows,
    OneBucket,
    Texts,
    Keywords { seed: u64, count: u64 },
    KeywordFields,
    FilesLarge { seed: u64, count: u64 },
    SmallFile,
}

pub type Lines = Box<dyn Iterator<Item = String> + Send>;

impl Set {
    /// The set that these words ask for.
    pub fn parse(words: &[&str]) -> Result<Self, String> {
        let number = |word: &str| word.parse().map_err(|_| format!("no number: {word}"));
        Ok(match *words {
            ["tables", seed, count] => Self::Tables { seed: number(seed)?, count: number(count)? },
            ["prefixes"] => Self::Prefixes,
            ["bytes"] => Self::Bytes,
            ["large"] => Self::Large { seed: 1, count: 300 },
            ["large", seed, count] => Self::Large { seed: number(seed)?, count: number(count)? },
            ["types"] => Self::Types,
            ["types", seed, count] => {
                Self::SomeTypes { seed: number(seed)?, count: number(count)? }
            }
            ["bad"] => Self::Bad,
            ["standard", seed, count] => {
                Self::Standard { seed: number(seed)?, count: number(count)? }
            }
            ["incremental", seed, count] => {
                Self::Incremental { seed: number(seed)?, count: number(count)? }
            }
            ["fields"] => Self::Fields,
            ["torn"] => Self::Torn,
            ["looks"] => Self::Looks,
            ["rows"] => Self::Rows,
            ["one-bucket"] => Self::OneBucket,
            ["texts"] => Self::Texts,
            ["keywords", seed, count] => {
                Self::Keywords { seed: number(seed)?, count: number(count)? }
            }
            ["keyword-fields"] => Self::KeywordFields,
            ["files-large"] => Self::FilesLarge { seed: 1, count: 60 },
            ["files-large", seed, count] => {
                Self::FilesLarge { seed: number(seed)?, count: number(count)? }
            }
            ["small-file"] => Self::SmallFile,
            _ => return Err(format!("no set of requests: {}", words.join(" "))),
        })
    }

    /// The set's request lines, without newlines; the same at every call.
    pub fn lines(self) -> Lines {
        match self {
            Self::Tables { seed, count } => Box::new((0..count).map(move |number| {
                let rng = &mut Rng::new(seed, number);
                let case = case(rng);
                question(rng, &case)
            })),
            Self::Prefixes => {
                let tables = [
                    samples::small(),
                    samples::arrays(),
                    samples::little(),
                    samples::survey(),
                    complex_scalars(),
                ];
                let tables = tables.into_iter().flat_map(|table| prefixes(table.layout()));
                let infos = [samples::little(), samples::arrays_with_objects()];
                let infos = infos.into_iter().flat_map(info_prefixes);
                Box::new(tables.chain(infos).chain(long_prefixes(samples::overlong())))
            }
            Self::Bytes => {
                let mut with_object = tiny();
                let manager = &mut with_object.managers_mut()[0];
                *manager = manager.clone().with_object("T");
                with_object.write_infos();
                let bytes = with_object.encode();
                let start = with_object.byte(Part::Manager(0).field("info"));
                let end = bytes.len();
                let table = tiny().encode();
                let places = 0..table.len();
                Box::new(changes(table, places).chain(changes(bytes, start..end)))
            }
            Self::Large { seed, count } => Box::new((0..count).map(move |number| {
                let rng = &mut Rng::new(seed, number);
                let case = large_case(rng);
                question(rng, &case)
            })),
            Self::Types => Box::new(type_numbers::lines()),
            Self::SomeTypes { seed, count } => Box::new((0..count).map(move |number| {
                let rng = &mut Rng::new(seed, number);
                type_numbers::some_question(rng)
            })),
            Self::Bad => Box::new(bad().into_iter()),
            Self::Standard { seed, count } => Box::new((0..count).map(move |number| {
                let rng = &mut Rng::new(seed, number);
                file_cases::standard(rng).question(rng)
            })),
            Self::Incremental { seed, count } => Box::new((0..count).map(move |number| {
                let rng = &mut Rng::new(seed, number);
                file_cases::incremental(rng).question(rng)
            })),
            Self::Fields => Box::new(fields::lines()),
            Self::Torn => Box::new(torn::lines()),
            Self::Looks => Box::new(looks::lines()),
            Self::Rows => Box::new(rows::lines()),
            Self::OneBucket => Box::new(one_bucket::lines()),
            Self::Texts => Box::new(texts::lines()),
            Self::Keywords { seed, count } => Box::new((0..count).map(move |number| {
                let rng = &mut Rng::new(seed, number);
                keywords::cases::case(rng).line()
            })),
            Self::KeywordFields => Box::new(keywords::fields::lines()),
            Self::FilesLarge { seed, count } => Box::new((0..count).map(move |number| {
                let rng = &mut Rng::new(seed, number);
                large_files::question(rng, number)
            })),
            Self::SmallFile => Box::new(small_file::lines()),
        }
    }
}

/// A `table.dat` and what a reader must answer.
#[derive(Clone, Debug)]
pub struct Case {
    pub bytes: Vec<u8>,
    /// With the byte of a refusal.
    pub expect: Expect,
    /// The fault's name.
    pub what: &'static str,
    /// The column names of the table, or of what it was made from.
    pub names: Vec<Vec<u8>>,
}

impl Case {
    pub fn new(table: &Table, expect: Expect, what: &'static str) -> Self {
        let names = table.columns().iter().map(|column| column.name.bytes.clone()).collect();
        let expect = expect.at_byte(|blame| table.byte(blame));
        Self { bytes: table.encode(), expect, what, names }
    }
}

/// A good table, or one with a fault or more.
pub fn case(rng: &mut Rng) -> Case {
    let mut table = generate::table(rng);
    match rng.below(300) {
        0..=59 => Case::new(&table, Expect::Accepted, "none"),
        60..=221 => single_fault(rng, &mut table),
        222..=257 => {
            faults::freeze_lengths(rng, &mut table);
            let (_, fault) = rng.pick(FAULTS);
            fault(rng, &mut table);
            Case::new(&table, Expect::Open, "fault with lengths that do not follow")
        }
        258..=275 => {
            let (_, first) = rng.pick(FAULTS);
            first(rng, &mut table);
            if !table.columns().is_empty() && !table.managers().is_empty() {
                let (_, second) = rng.pick(FAULTS);
                second(rng, &mut table);
            }
            Case::new(&table, Expect::Open, "two faults")
        }
        276..=293 => {
            let mut case = Case::new(&table, Expect::Open, "changed bytes");
            change_bytes(rng, &mut case.bytes);
            case
        }
        294..=298 => {
            let mut case = Case::new(&table, Expect::Open, "any bytes");
            let kept = rng.pick(&[0, 4, 8, 17, 21]);
            case.bytes.truncate(kept);
            let count = rng.below(300);
            case.bytes.extend(rng.bytes(count));
            case
        }
        _ => {
            let (what, fault) = rng.pick(LARGE_FAULTS);
            let expect = fault(rng, &mut table);
            Case::new(&table, expect, what)
        }
    }
}

fn single_fault(rng: &mut Rng, table: &mut Table) -> Case {
    let (what, fault) = rng.pick(FAULTS);
    let expect = fault(rng, table);
    let case = Case::new(table, expect, what);
    if case.bytes.len() > faults::MAX_FILE {
        return Case { expect: faults::TOO_LONG, ..case };
    }
    case
}

/// A table of 64 columns and 16 managers, near 65,536 bytes; often with a
/// fault.
pub fn large_case(rng: &mut Rng) -> Case {
    let mut table = generate::table_of(rng, 64, 16);
    let length = if rng.chance(1, 3) { 65_536 } else { rng.within(65_000..=65_535) };
    generate::grow(rng, &mut table, length);
    if rng.chance(2, 5) {
        return Case::new(&table, Expect::Accepted, "none");
    }
    single_fault(rng, &mut table)
}

/// Changes, removes or inserts a few bytes anywhere.
fn change_bytes(rng: &mut Rng, bytes: &mut Vec<u8>) {
    let length = bytes.len();
    for _ in 0..rng.within(1..=3) {
        let index = rng.below(bytes.len());
        faults::spoil(rng, bytes, index);
    }
    // The Table object's length may follow what was removed or inserted.
    if bytes.len() >= 8 && rng.chance(1, 2) {
        let table_length = u32::from_be_bytes([bytes[4], bytes[5], bytes[6], bytes[7]]);
        let changed = table_length.wrapping_add(bytes.len() as u32).wrapping_sub(length as u32);
        bytes[4..8].copy_from_slice(&changed.to_be_bytes());
    }
}

/// A question about the case's table.
fn question(rng: &mut Rng, case: &Case) -> String {
    let table = hex(&case.bytes);
    match rng.below(8) {
        0..=3 => format!("describe {table}"),
        4..=5 => format!("listing {table}"),
        _ => format!("column {table} {}", hex(&asked_name(rng, case))),
    }
}

/// A column name to ask for, often one that is there.
fn asked_name(rng: &mut Rng, case: &Case) -> Vec<u8> {
    let mut name = match case.names.len() {
        0 => b"TIME".to_vec(),
        count => case.names[rng.below(count)].clone(),
    };
    match rng.below(12) {
        0 => name.clear(),
        1 => drop(name.pop()),
        2 => name.push(b' '),
        3 => name.make_ascii_lowercase(),
        4 => name = b"NO_SUCH_COLUMN".to_vec(),
        _ => {}
    }
    name
}

/// Every prefix as it is, and with the lengths of the objects that it cuts off
/// cut too.
fn prefixes(layout: Layout) -> impl Iterator<Item = String> + Send {
    (0..=layout.bytes.len()).flat_map(move |length| {
        [layout.bytes[..length].to_vec(), layout.cut(length)]
            .map(|bytes| format!("describe {}", hex(&bytes)))
    })
}

/// Every prefix of the object in each DMInfo, as it is and with the lengths of
/// the objects that it cuts off cut too; the DMInfo's own length and Table's
/// follow.
fn info_prefixes(table: Table) -> impl Iterator<Item = String> + Send {
    let infos = (0..table.managers().len()).filter_map(|index| {
        let (_, layout) = table.info_layout(index)?;
        Some((index, layout))
    });
    let infos: Vec<(usize, Layout)> = infos.collect();
    infos.into_iter().flat_map(move |(index, layout)| {
        let table = table.clone();
        (0..=layout.bytes.len()).flat_map(move |length| {
            [layout.bytes[..length].to_vec(), layout.cut(length)].map(|bytes| {
                let mut table = table.clone();
                table.managers_mut()[index].info = bytes.into();
                format!("describe {}", hex(&table.encode()))
            })
        })
    })
}

/// Some prefixes of a table with bytes after it, and those beside the longest.
fn long_prefixes(table: Vec<u8>) -> impl Iterator<Item = String> + Send {
    let longest = faults::MAX_FILE;
    let lengths = (1000..longest - 1).step_by(4096).chain(longest - 1..=table.len());
    lengths.map(move |length| format!("describe {}", hex(&table[..length])))
}

/// A small table of a scalar and an array.
pub fn tiny() -> Table {
    let array = Column::direct(BOOL, "F", &[2, 3]).at(0, 16);
    let columns = [Column::scalar(INT, "S"), array].map(|column| Column {
        manager_type: "".into(),
        manager_group: "".into(),
        ..column.keywords(Record::new(Vec::new()))
    });
    let mut table = Table::new(7, 1, columns.into(), vec![Manager::new("StandardStMan", 0)]);
    table.description.private_keywords = Record::new(Vec::new());
    table
}

/// A small table of complex scalars, whose default values are one field each.
fn complex_scalars() -> Table {
    let columns = [COMPLEX, DCOMPLEX].map(|data_type| Column::scalar(data_type, ""));
    let manager = Manager::new("IncrementalStMan", 0).with_object("ISMData");
    lean::bare(7, 0, columns.into(), vec![manager])
}

/// Every change of one of these bytes to one of the 255 other values.
fn changes(bytes: Vec<u8>, places: Range<usize>) -> impl Iterator<Item = String> + Send {
    let good = format!("describe {}", hex(&bytes));
    let start = good.len() - 2 * bytes.len();
    places.flat_map(move |index| {
        let good = good.clone();
        let byte = bytes[index];
        (0..=255).filter(move |value| *value != byte).map(move |value| {
            let digits = start + 2 * index;
            let mut line = good.clone();
            line.replace_range(digits..digits + 2, &hex(&[value]));
            line
        })
    })
}

/// A wrong word, a wrong number of fields, fields that are not bytes.
fn bad() -> Vec<String> {
    let mut lines: Vec<String> = [
        "",
        "-",
        "describe",
        "describe - -",
        "Describe -",
        "describes -",
        "describe bebebebe bebebebe",
        "describe b",
        "describe beb",
        "describe BEBEBEBE",
        "describe beBe",
        "describe bg",
        "describe 0x",
        "describe --",
        "describe -0",
        "describe 0-",
        "column",
        "column -",
        "column - - -",
        "column be 4",
        "column b 41",
        "column be 4A",
        "column be ~~",
        "listing",
        "listing - -",
        "listing 0",
        "listing 0G",
        "list -",
        "rows -",
        "check",
        "check - 0 -",
        "check - 0 - 0 0",
        "check - - - 0",
        "check - x - 0",
        "check - -1 - 0",
        "check - 1.0 - 0",
        "check - 0x1 - 0",
        "check - 18446744073709551616 - 0",
        "check - 99999999999999999999999 - 0",
        "check - 0 0 0",
        "check - 0 BE 0",
        "check - 0 - -",
        "check - 0 - -1",
        "check - 0 - 1048577",
        "check - 0 - 18446744073709551616",
        "plan - - 0",
        "plan - - 0 0 0",
        "plan - - - 0",
        "plan - 0 0 0",
        "place - - 0 0",
        "place - - 0 0 0 0",
        "place - - 0 y 0",
        "place - - 0, 0 0",
        "place1",
        "place1 - - 0 0",
        "place1 - - 0 0 0 0",
        "place1 - - 0 0 - 0",
        "place1 - - 0 0 -",
        "place1 - - - 0 0",
        "place1 - - -1 0 0",
        "place1 - - 0 -1 0",
        "place1 - - 0 z 0",
        "place1 - 0 0 0 0",
        "place1 0 - 0 0 0",
        "place1 - - 18446744073709551616 0 0",
        "place1 - - 0 18446744073709551616 0",
        "place1 - - 0 0 1048577",
        "place1 - - 0 0,0,0,0,0,0,0,0,0 0",
        "Place1 - - 0 0 0",
        "place2 - - 0 0 0",
        "place 1 - - 0 0 0",
        "placein - - 0 0 0",
        "view - - 0 0",
        "view - - 18446744073709551616 0 0",
        "padded",
        "padded - - 0 0",
        "padded - - 0 0 0 0",
        "padded - - 0 0 -",
        "padded - - - 0 0",
        "padded - - -1 0 0",
        "padded - - 0 z 0",
        "padded - 0 0 0 0",
        "padded 0 - 0 0 0",
        "padded - - 18446744073709551616 0 0",
        "padded - - 0 18446744073709551616 0",
        "padded - - 0 0 1048577",
        "padded - - 0 0,0,0,0,0,0,0,0,0 0",
        "Padded - - 0 0 0",
        "paddedview - - 0 0 0",
        "padded view - - 0 0 0",
        "trimmed - - 0 0 0",
        "text - - 0 0 0",
        "placeplan - - 0 0 0",
        "placeplan - - 0 0,0,0,0,0,0,0,0 0",
        "placeplan - - 0 0,0,0,0,0,0,0,0,0,0 0",
        "placeplan - - 0 0,0,0,0,0,0,0,0, 0",
        "placeplan - - 0 ,0,0,0,0,0,0,0,0 0",
        "placeplan - - 0 0,0,0,0,x,0,0,0,0 0",
        "placeplan - - 0 0,0,0,0,-1,0,0,0,0 0",
        "viewplan - - 0 0;0;0;0;0;0;0;0;0 0",
        "viewplan - - 0 0,0,0,0,0,0,0,0,18446744073709551616 0",
        "viewplan - - 0 18446744073709551616,0,0,0,0,0,0,0,0 0",
        "viewplan - - 0 0,0,0,0,0,0,0,0,0",
        "viewplan - - 0 0,0,0,0,0,0,0,0,0 0 0",
        "paddedplan",
        "paddedplan - - 0 0 0",
        "paddedplan - - 0 0,0,0,0,0,0,0,0 0",
        "paddedplan - - 0 0,0,0,0,0,0,0,0,0,0 0",
        "paddedplan - - 0 0;0;0;0;0;0;0;0;0 0",
        "paddedplan - - 0 0,0,0,0,0,0,0,0,18446744073709551616 0",
        "paddedplan - - 0 0,0,0,0,0,0,0,0,0",
        "paddedplan - - 0 0,0,0,0,0,0,0,0,0 0 0",
        "paddedplan - - 0 0,0,0,0,0,0,0,0,0 1048577",
        "planpadded - - 0 0,0,0,0,0,0,0,0,0 0",
        "checkplan - 0 - 0",
        "keyword",
        "keyword -",
        "keyword - table",
        "keyword - table - -",
        "keyword - table - 0",
        "keyword - Table -",
        "keyword - tables -",
        "keyword - tabl -",
        "keyword - column -",
        "keyword - - -",
        "keyword -  -",
        "keyword - -1 -",
        "keyword - +1 -",
        "keyword - 0x1 -",
        "keyword - 0,0 -",
        "keyword - 18446744073709551616 -",
        "keyword - table 0",
        "keyword - table 000",
        "keyword - table AB",
        "keyword - table 0g",
        "keyword - table ",
        "keyword 0 table -",
        "keyword table - -",
        "Keyword - table -",
        "keywords - table -",
        "field",
        "field - table -",
        "field - table 0",
        "field - table - -",
        "field - table - -1",
        "field - table - +1",
        "field - table - x",
        "field - table - 0 0",
        "field - table - 18446744073709551616",
        "field - table 0 0",
        "field - table AB 0",
        "field - Table - 0",
        "field - -1 - 0",
        "field - 18446744073709551616 - 0",
        "field 0 table - 0",
        "Field - table - 0",
        "fields - table - 0",
        "elementbits",
        "elementbits 5 5",
        "elementbits - 5",
        "elementbits -",
        "elementbits --5",
        "elementbits -+5",
        "elementbits +5",
        "elementbits 5-",
        "elementbits 0x5",
        "elementbits 0b1",
        "elementbits 1e1",
        "elementbits 5.0",
        "elementbits 5,",
        "elementbits 1,000",
        "elementbits be",
        "elementbits 0a",
        "elementbits Int",
        "elementbits 9223372036854775808",
        "elementbits -9223372036854775809",
        "elementbits 18446744073709551615",
        "elementbits 18446744073709551616",
        "elementbits 18446744073709551619", // 2^64 and a Short's number
        "elementbits -18446744073709551613",
        "elementBits 5",
        "elementbit 5",
        "typebits 5",
    ]
    .map(String::from)
    .into();
    let good = hex(&tiny().encode());
    lines.push(format!("describe {good}0"));
    lines.push(format!("describe {}", good.to_uppercase()));
    lines.push(format!("column {good}"));
    lines.push(format!("column {good} 5"));
    lines.push(format!("check {good} 0 {good} -"));
    lines.push(format!("plan {good} {good} 0"));
    lines.push(format!("place {good} {good} 0 0 1048577"));
    lines.push(format!("place1 {good} {good} 0 0 1048577"));
    lines.push(format!("place1 {good} {good} 0 0"));
    lines.push(format!("padded {good} {good} 0 0 1048577"));
    lines.push(format!("paddedplan {good} {good} 0 0 0"));
    lines.push(format!("keyword {good} table"));
    lines.push(format!("keyword {good} table 0"));
    lines.push(format!("keyword {good} {good} -"));
    lines.push(format!("field {good} table -"));
    lines.push(format!("field {good} table - {good}"));
    lines.push(format!("elementbits {good}"));
    for digit in ["9", "1"] {
        let digits = digit.repeat(4096);
        lines.push(format!("elementbits {digits}"));
        lines.push(format!("elementbits -{digits}"));
    }
    lines.push(format!("elementbits 1{}", "0".repeat(64)));
    lines
}
