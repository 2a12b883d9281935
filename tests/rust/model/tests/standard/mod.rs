//! The small file of RULES.md 11.1, and others like it.

use crate::common::{object, uint, uints};

/// The header's numbers after its Bool.
#[derive(Clone, Copy)]
pub struct Header {
    pub version: u32,
    pub free_buckets: u32,
    pub first_free: i32,
    pub index_buckets: u32,
    pub first_index: i32,
    pub index_offset: u32,
    pub index_length: u32,
}

pub const HEADER: Header = Header {
    version: 3,
    free_buckets: 0,
    first_free: -1,
    index_buckets: 3,
    first_index: 1,
    index_offset: 0,
    index_length: 134,
};

pub fn header(header: Header) -> Vec<u8> {
    let numbers = [
        64, // bucket size
        5,  // buckets
        1,  // cache size
        header.free_buckets,
        header.first_free as u32,
        header.index_buckets,
        header.first_index as u32,
        header.index_offset,
        u32::MAX, // no string heap
        header.index_length,
        1, // indices
    ];
    [vec![0xBE; 4], object("StandardStMan", header.version, &[vec![1], uints(&numbers)])].concat()
}

/// The index text of one set.
pub fn index_text(columns: u32, last_rows: &[u32], buckets: &[u32]) -> Vec<u8> {
    index_object(1, columns, uints(last_rows), buckets)
}

/// The same of this version, with the bytes of its last rows.
pub fn index_object(version: u32, columns: u32, last_rows: Vec<u8>, buckets: &[u32]) -> Vec<u8> {
    let count = uint(buckets.len() as u32);
    let block = |elements: Vec<u8>| object("Block", 1, &[count.clone(), elements]);
    let fields = [
        count.clone(),
        uint(4), // rows per bucket
        uint(columns),
        object("SimpleOrderedMap", 1, &[uints(&[0, 0, 1])]),
        block(last_rows),
        block(uints(buckets)),
    ];
    [vec![0xBE; 4], object("SSMIndex", version, &fields)].concat()
}

/// Five buckets of 64 bytes; the text is in 1, 3 and 4, with 56 bytes each.
pub fn file_of(header: Vec<u8>, text: &[u8]) -> Vec<u8> {
    let mut file = header;
    file.resize(832, 0x77);
    let links = [(1, 3), (3, 4), (4, -1_i32)];
    let mut parts = text.chunks(56);
    for (bucket, next) in links {
        let bytes = [next.to_be_bytes(), next.to_be_bytes()].concat();
        let part = parts.next().unwrap_or_default();
        let start = 512 + 64 * bucket;
        file[start..start + 8].copy_from_slice(&bytes);
        file[start + 8..start + 8 + part.len()].copy_from_slice(part);
    }
    file
}

pub fn small_text() -> Vec<u8> {
    index_text(3, &[3, 6], &[2, 0])
}

pub fn small_file() -> Vec<u8> {
    file_of(header(HEADER), &small_text())
}
