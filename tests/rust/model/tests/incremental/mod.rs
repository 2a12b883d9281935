//! A small file of IncrementalStMan: two rows in bucket 0, one in bucket 1, with a
//! value each.

use crate::common::{Column, SCAN, object, table_of, uint, uints};

pub fn block(numbers: &[u32]) -> Vec<u8> {
    object("Block", 1, &[uint(numbers.len() as u32), uints(numbers)])
}

pub fn small_table() -> Vec<u8> {
    table_of("IncrementalStMan", 3, &[Column { offset: 0, ..SCAN }])
}

pub fn small_file() -> Vec<u8> {
    let buckets = [7, 8].map(|value| uints(&[8, value, 1, 0, 0]));
    file_of(&buckets, 1, uints(&[0, 2, 3]))
}

/// These buckets, all of one size, and an ISMIndex of this version with the
/// bytes of its first rows.
pub fn file_of(buckets: &[Vec<u8>], version: u32, first_rows: Vec<u8>) -> Vec<u8> {
    let count = buckets.len() as u32;
    let numbers = [buckets[0].len() as u32, count, 1, 1, 0, u32::MAX];
    let header = [vec![0xBE; 4], object("IncrementalStMan", 5, &[vec![1], uints(&numbers)])];
    let mut file = header.concat();
    file.resize(512, 0);
    file.extend(buckets.concat());
    let first_rows = object("Block", 1, &[uint(count + 1), first_rows]);
    let index = [uint(count), first_rows, block(&(0..count).collect::<Vec<_>>())];
    file.extend([vec![0xBE; 4], object("ISMIndex", version, &index)].concat());
    file
}
