//! A StandardStMan file, field by field: Note 260, section 3.4.2.

pub mod faults;
pub mod generate;

use crate::buckets::{Block, BucketFile, Buckets};
use crate::cells;
use crate::encode::Encoder;
use crate::layout::{Layout, Part};
use crate::table::{Column, Header, Table};

/// An index bucket of a chain begins with the next number, twice.
pub const LINKS: usize = 8;

#[derive(Clone, Debug)]
pub struct StandardFile {
    pub buckets: Buckets,
    /// The chain of index buckets; one if there is an index offset.
    pub index_chain: Vec<u32>,
    /// Whether index buckets are added for a text that the chain does not hold.
    pub chain_grows: bool,
    /// The number of index buckets, if it is stated other than it is.
    pub index_buckets: Option<u32>,
    /// The first index bucket, if it is stated other than it is.
    pub first_index: Option<i32>,
    pub index_offset: u32,
    pub last_heap: i32,
    /// The length of the index text, if it is stated other than it is.
    pub index_length: Option<u32>,
    /// The number of indices, if it is stated other than it is.
    pub index_count: Option<u32>,
    /// One for each set of columns.
    pub indices: Vec<Index>,
    /// Bytes of the index text after the last index.
    pub text_after: Vec<u8>,
}

/// An SSMIndex.
#[derive(Clone, Debug)]
pub struct Index {
    pub mark: [u8; 4],
    pub header: Header,
    /// The number of entries, if it is stated other than it is.
    pub entries: Option<u32>,
    pub rows_per_bucket: u32,
    pub columns: i32,
    pub free_space: FreeSpace,
    pub last_rows: Block<u64>,
    pub buckets: Block,
}

impl Index {
    /// The entries are a last row and a bucket each. Of version 1, unless there
    /// are too many rows.
    pub fn new(rows_per_bucket: u32, columns: usize, entries: &[(u64, u32)]) -> Self {
        let last_rows = Block::new(entries.iter().map(|(last, _)| *last).collect());
        Self {
            mark: [0xBE; 4],
            header: Header::new("SSMIndex", if last_rows.wide { 2 } else { 1 }),
            entries: None,
            rows_per_bucket,
            columns: columns as i32,
            free_space: FreeSpace::new(Vec::new()),
            last_rows,
            buckets: Block::new(entries.iter().map(|(_, bucket)| *bucket).collect()),
        }
    }

    /// Version 2, with Int64 last rows.
    pub fn widen(&mut self) {
        self.header.version = 2;
        self.last_rows.wide = true;
    }

    fn encode(&self, set: usize, out: &mut Encoder) {
        out.of(Part::Index(set), |out| out.field("mark", &self.mark));
        out.object(Part::Index(set), &self.header, |out| {
            out.uint("entries", self.entries.unwrap_or(self.last_rows.elements.len() as u32));
            out.uint("rows per bucket", self.rows_per_bucket);
            out.int("columns", self.columns);
            self.free_space.encode(Part::FreeSpace(set), out);
            self.last_rows.encode(Part::Rows(set), out);
            self.buckets.encode(Part::Numbers(set), out);
        });
    }
}

/// The free-space map: a SimpleOrderedMap of offsets and lengths.
#[derive(Clone, Debug)]
pub struct FreeSpace {
    pub header: Header,
    pub default: i32,
    /// The number of pairs, if it is stated other than it is.
    pub count: Option<u32>,
    pub increment: u32,
    pub pairs: Vec<(i32, i32)>,
}

impl FreeSpace {
    pub fn new(pairs: Vec<(i32, i32)>) -> Self {
        let header = Header::new("SimpleOrderedMap", 1);
        Self { header, default: 0, count: None, increment: 16, pairs }
    }

    fn encode(&self, part: Part, out: &mut Encoder) {
        out.object(part, &self.header, |out| {
            out.int("default", self.default);
            out.uint("count", self.count.unwrap_or(self.pairs.len() as u32));
            out.uint("increment", self.increment);
            for (number, (offset, length)) in self.pairs.iter().enumerate() {
                out.nth_uint("key", number, *offset as u32);
                out.nth_uint("value", number, *length as u32);
            }
        });
    }
}

impl StandardFile {
    /// A file whose index is in a chain of buckets.
    pub fn new(buckets: Buckets, index_chain: Vec<u32>, indices: Vec<Index>) -> Self {
        Self {
            buckets,
            index_chain,
            chain_grows: true,
            index_buckets: None,
            first_index: None,
            index_offset: 0,
            last_heap: -1,
            index_length: None,
            index_count: None,
            indices,
            text_after: Vec::new(),
        }
    }

    /// The index text, and where its objects stand.
    pub fn text(&self) -> Layout {
        let mut out = Encoder::new(self.buckets.order);
        for (set, index) in self.indices.iter().enumerate() {
            index.encode(set, &mut out);
        }
        out.raw(&self.text_after);
        out.layout()
    }

    /// The bytes of text that the index buckets hold.
    pub fn text_room(&self) -> usize {
        let size = self.buckets.size as usize;
        match self.index_offset as usize {
            0 => self.index_chain.len() * (size - LINKS),
            offset => size.saturating_sub(offset),
        }
    }

    /// Makes room for the text: more index buckets, or a chain if the one
    /// bucket is too small.
    pub fn settle(&mut self) {
        let length = self.text().bytes.len();
        if !self.chain_grows || length <= self.text_room() {
            return;
        }
        self.index_offset = 0;
        while self.text_room() < length {
            let bucket = self.buckets.add();
            self.index_chain.push(bucket);
        }
    }

    /// The file with other bytes in place of the index text; the header has the
    /// text's own length.
    pub fn with_text(&self, text: &[u8]) -> Vec<u8> {
        let index_length = Some(text.len() as u32);
        Self { index_length, ..self.clone() }.encode_with(text)
    }

    fn encode_with(&self, text: &[u8]) -> Vec<u8> {
        let mut bytes = self.buckets.blank();
        self.put_text(&mut bytes, text);
        self.buckets.finish(bytes, &self.header().bytes, &self.buckets.trailing)
    }

    fn put_text(&self, bytes: &mut [u8], text: &[u8]) {
        if self.index_offset > 0 {
            if let [bucket, ..] = self.index_chain[..] {
                self.buckets.write(bytes, bucket, self.index_offset as usize, text);
            }
            return;
        }
        let mut parts = text.chunks(self.buckets.size as usize - LINKS);
        for (index, bucket) in self.index_chain.iter().enumerate() {
            let next = self.index_chain.get(index + 1).map_or(-1, |next| *next as i32);
            self.buckets.write(bytes, *bucket, 0, &[next.to_be_bytes(); 2].concat());
            self.buckets.write(bytes, *bucket, LINKS, parts.next().unwrap_or_default());
        }
    }
}

impl BucketFile for StandardFile {
    const IS_INCREMENTAL: bool = false;

    fn buckets(&self) -> &Buckets {
        &self.buckets
    }

    fn buckets_mut(&mut self) -> &mut Buckets {
        &mut self.buckets
    }

    fn header(&self) -> Layout {
        self.buckets.header(|out| {
            self.buckets.free_fields(out);
            out.uint("index buckets", self.index_buckets.unwrap_or(self.index_chain.len() as u32));
            let first = self.index_chain.first().map_or(-1, |first| *first as i32);
            out.int("first index bucket", self.first_index.unwrap_or(first));
            out.uint("index offset", self.index_offset);
            out.int("last heap bucket", self.last_heap);
            out.uint("index length", self.index_length() as u32);
            out.uint("indices", self.index_count.unwrap_or(self.indices.len() as u32));
        })
    }

    fn encode(&self) -> Vec<u8> {
        let mut file = self.clone();
        file.settle();
        file.encode_with(&file.text().bytes)
    }

    fn parts(&self) -> Vec<Part> {
        vec![Part::Header, Part::Index(0)]
    }

    /// The bytes of the index text count from its start.
    fn layout_of(&self, part: Part) -> (usize, Layout) {
        (0, if part == Part::Header { self.header() } else { self.text() })
    }

    fn place_of(&self, part: Part, byte: usize) -> usize {
        if part == Part::Header {
            return byte;
        }
        if self.index_offset > 0 {
            return self.buckets.start(self.index_chain[0]) + self.index_offset as usize + byte;
        }
        let in_bucket = self.buckets.size as usize - LINKS;
        self.buckets.start(self.index_chain[byte / in_bucket]) + LINKS + byte % in_bucket
    }

    fn border_rows(&self) -> Vec<u64> {
        let last_rows = self.indices.iter().flat_map(|index| &index.last_rows.elements);
        last_rows.flat_map(|last| [*last, last.saturating_add(1)]).collect()
    }

    fn index_layout(&self) -> Layout {
        self.text()
    }

    fn index_headers_mut(&mut self) -> Vec<&mut Header> {
        let mut headers = Vec::new();
        for index in &mut self.indices {
            headers.push(&mut index.header);
            headers.push(&mut index.free_space.header);
            headers.push(&mut index.last_rows.header);
            headers.push(&mut index.buckets.header);
        }
        headers
    }

    fn index_length(&self) -> usize {
        self.index_length.map_or_else(|| self.text().bytes.len(), |length| length as usize)
    }

    fn has_place(&self, _: &Column) -> bool {
        true
    }

    fn plan(&self, table: &Table, position: usize) -> [u64; 9] {
        let column = &table.columns()[position];
        let index = self.indices.get(column.info.set as usize);
        [
            position as u64,
            column.info.manager.into(),
            column.data_type as u64,
            cells::elements(column),
            cells::bits(column),
            column.info.set.into(),
            column.info.offset.into(),
            index.map_or(0, |index| index.rows_per_bucket.into()),
            self.buckets.size.into(),
        ]
    }

    fn place(&self, table: &Table, position: usize, row: u64) -> (u64, u64) {
        let column = &table.columns()[position];
        let index = &self.indices[column.info.set as usize];
        let mut first_row = 0;
        for (last, bucket) in index.last_rows.elements.iter().zip(&index.buckets.elements) {
            if row <= *last {
                let byte = self.buckets.start(*bucket) as u64 + u64::from(column.info.offset);
                let bits = cells::bits(column);
                return (8 * byte + (row - first_row) * bits, bits);
            }
            first_row = last + 1;
        }
        panic!("row {row} is in no bucket")
    }

    fn looks(&self, table: &Table, position: usize, row: u64) -> [u64; 2] {
        let set = table.columns()[position].info.set;
        let last_rows = &self.indices[set as usize].last_rows.elements;
        let entry = last_rows.iter().filter(|last| **last < row).count();
        [looks(last_rows.len(), entry), last_rows.len() as u64]
    }
}

/// The looks that lead to an entry, by its number alone. The middle one of
/// `count` entries is the last of their first half, which has one more than the
/// second if they are odd; one look decides between the halves (RULES.md 5.9).
fn looks(count: usize, entry: usize) -> u64 {
    if count == 1 {
        return 0;
    }
    let half = count.div_ceil(2);
    match entry.checked_sub(half) {
        None => 1 + looks(half, entry),
        Some(entry) => 1 + looks(count - half, entry),
    }
}

#[cfg(test)]
mod tests {
    use super::*;

    #[test]
    fn looks_by_hand() {
        let all = |count| (0..count).map(|entry| looks(count, entry)).collect::<Vec<_>>();
        assert_eq!(all(1), [0]);
        assert_eq!(all(2), [1, 1]);
        assert_eq!(all(3), [2, 2, 1]);
        assert_eq!(all(4), [2, 2, 2, 2]);
        assert_eq!(all(5), [3, 3, 2, 2, 2]);
        assert_eq!(all(6), [3, 3, 2, 3, 3, 2]);
        assert_eq!(all(7), [3, 3, 3, 3, 3, 3, 2]);
    }
}
