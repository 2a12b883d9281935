//! The small file of RULES.md 11.1 as a little endian table, with an object in its
//! DMInfo.

use crate::common::{Column, FLAG, SCAN, TIME, object, string, table_with, uint, uints};
use crate::standard::file_of;

fn numbers(numbers: &[u32]) -> Vec<u8> {
    numbers.iter().flat_map(|number| number.to_le_bytes()).collect()
}

/// A little endian object.
fn turned(name: &str, version: u32, fields: &[Vec<u8>]) -> Vec<u8> {
    let name = [numbers(&[name.len() as u32]), name.as_bytes().to_vec()].concat();
    let rest = [name, numbers(&[version]), fields.concat()].concat();
    [numbers(&[4 + rest.len() as u32]), rest].concat()
}

/// DMInfo, big endian: the name, the offsets, the sets.
pub fn info(columns: &[Column]) -> Vec<u8> {
    let block = |number: fn(&Column) -> u32| {
        let elements: Vec<u32> = columns.iter().map(number).collect();
        object("Block", 1, &[uint(elements.len() as u32), uints(&elements)])
    };
    let fields = [string("StandardStMan"), block(|c| c.offset), block(|c| c.set)];
    [vec![0xBE; 4], object("SSM", 2, &fields)].concat()
}

pub fn table(rows: u32, columns: &[Column]) -> Vec<u8> {
    table_with(0, "StandardStMan", info(columns), rows, columns)
}

pub fn small_table() -> Vec<u8> {
    table(7, &[SCAN, FLAG, TIME])
}

/// The header, with so many index buckets.
pub fn header(index_buckets: u32) -> Vec<u8> {
    let fields = [64, 5, 1, 0, u32::MAX, index_buckets, 1, 0, u32::MAX, 134, 1];
    [vec![0xBE; 4], turned("StandardStMan", 3, &[vec![0], numbers(&fields)])].concat()
}

/// The index text with these last rows.
pub fn text(last_rows: [u32; 2]) -> Vec<u8> {
    let block = |elements: [u32; 2]| turned("Block", 1, &[numbers(&[2]), numbers(&elements)]);
    let fields = [
        numbers(&[2, 4, 3]), // entries, rows per bucket, columns
        turned("SimpleOrderedMap", 1, &[numbers(&[0, 0, 1])]),
        block(last_rows),
        block([2, 0]),
    ];
    [vec![0xBE; 4], turned("SSMIndex", 1, &fields)].concat()
}

pub fn small_file() -> Vec<u8> {
    file_of(header(3), &text([3, 6]))
}
