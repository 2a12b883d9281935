//! What the files of StandardStMan and IncrementalStMan have in common, field
//! by field: Note 260, sections 3.4.2 and 3.4.3.
//!
//! As in [`crate::table`], every field is free. Numbers of the header are
//! computed when the file is encoded, unless others are stated.

use crate::encode::Encoder;
use crate::layout::{Blame, Layout, Part};
use crate::order::Order;
use crate::rng::Rng;
use crate::table::{Column, Header, Table};

/// The buckets follow the header's part of the file.
pub const HEADER_ROOM: usize = 512;

/// A table and the file of one of its managers.
#[derive(Clone, Debug)]
pub struct Subject<F> {
    pub table: Table,
    /// The manager's sequence number.
    pub number: u32,
    pub file: F,
}

impl<F> Subject<F> {
    /// The positions of the manager's columns.
    pub fn own_columns(&self) -> Vec<usize> {
        let columns = self.table.columns().iter().enumerate();
        columns.filter(|(_, c)| c.info.manager == self.number).map(|(index, _)| index).collect()
    }
}

/// A file of either kind. Its cells can be placed as long as it is good.
pub trait BucketFile: Clone {
    const IS_INCREMENTAL: bool;

    fn buckets(&self) -> &Buckets;
    fn buckets_mut(&mut self) -> &mut Buckets;
    /// The mark and the header's object.
    fn header(&self) -> Layout;
    fn encode(&self) -> Vec<u8>;
    /// A part of each run of bytes that fields stand in.
    fn parts(&self) -> Vec<Part>;
    /// The run of bytes that has this part, and where bytes that are blamed in
    /// it count from.
    fn layout_of(&self, part: Part) -> (usize, Layout);
    /// Where a byte of that run stands in the file.
    fn place_of(&self, part: Part, byte: usize) -> usize;
    /// Rows at both sides of each border between buckets or values.
    fn border_rows(&self) -> Vec<u64>;
    /// The index text, or the ISMIndex and the bytes after it.
    fn index_layout(&self) -> Layout;
    /// The headers of the index's objects, in file order.
    fn index_headers_mut(&mut self) -> Vec<&mut Header>;
    /// The length of the index text; 0 where no room is needed.
    fn index_length(&self) -> usize;
    /// Whether the cells of a column of the manager have a place.
    fn has_place(&self, column: &Column) -> bool;
    /// The plan of a column, as if it were one of the manager's.
    fn plan(&self, table: &Table, position: usize) -> [u64; 9];
    /// The first bit and bit count of a cell of one of the manager's columns.
    fn place(&self, table: &Table, position: usize, row: u64) -> (u64, u64);
    /// How many last rows the search for that cell looks at, and how many
    /// entries there are to look at; none in IncrementalStMan.
    fn looks(&self, table: &Table, position: usize, row: u64) -> [u64; 2];

    /// Where what a refusal blames begins.
    fn byte(&self, blame: Blame) -> usize {
        match (blame, blame.part()) {
            (_, Some(part)) => {
                let (start, layout) = self.layout_of(part);
                start + layout.byte(blame)
            }
            (Blame::FileEnd, _) => self.encode().len(),
            (Blame::Byte(byte), _) => byte,
            _ => 0,
        }
    }
}

/// A Block of uInts, or of row numbers (u64), of which a negative one is that of
/// the same bits.
#[derive(Clone, Debug)]
pub struct Block<T = u32> {
    pub header: Header,
    /// The count, if it is stated other than it is.
    pub count: Option<u32>,
    pub elements: Vec<T>,
    /// Whether they are written as Int64 or uInt.
    pub wide: bool,
    /// Their byte order, if it is other than the count's.
    pub elements_order: Option<Order>,
}

impl<T: Copy + Into<u64>> Block<T> {
    /// Of uInts, unless one of them is too large.
    pub fn new(elements: Vec<T>) -> Self {
        let header = Header::new("Block", 1);
        let wide = elements.iter().any(|element| (*element).into() > u32::MAX.into());
        Self { header, count: None, elements, wide, elements_order: None }
    }

    /// The bytes of an element.
    pub fn width(&self) -> usize {
        if self.wide { 8 } else { 4 }
    }

    pub fn encode(&self, part: Part, out: &mut Encoder) {
        out.object(part, &self.header, |out| {
            out.uint("count", self.count.unwrap_or(self.elements.len() as u32));
            out.in_order(self.elements_order.unwrap_or(out.order()), |out| {
                for (number, element) in self.elements.iter().enumerate() {
                    out.nth_number("element", number, (*element).into(), self.wide);
                }
            });
        });
    }
}

/// Bytes of a bucket.
#[derive(Clone, Debug)]
pub struct Patch {
    pub bucket: u32,
    pub offset: usize,
    pub bytes: Vec<u8>,
}

/// The first fields of a file's header, the buckets, and the free list.
#[derive(Clone, Debug)]
pub struct Buckets {
    pub mark: [u8; 4],
    pub header: Header,
    /// The byte order of the header and the index, which the Bool tells.
    pub order: Order,
    pub big_endian: u8,
    pub size: u32,
    /// The bucket size, if it is stated other than it is.
    pub stated_size: Option<u32>,
    pub count: u32,
    /// The number of buckets, if it is stated other than it is.
    pub stated_count: Option<u32>,
    pub cache_size: u32,
    pub free: Vec<u32>,
    /// The number of free buckets, if it is stated other than it is.
    pub free_count: Option<u32>,
    /// The first free bucket, if it is stated other than it is.
    pub first_free: Option<i32>,
    /// The seed of all bytes that no field stands in; zeros if there is none.
    pub filler: Option<u64>,
    /// Cells, over which all others are written.
    pub cells: Vec<Patch>,
    /// Bytes that are written last.
    pub patches: Vec<Patch>,
    /// Bytes after the file's last part.
    pub trailing: Vec<u8>,
    /// Where the file is cut off, if it is.
    pub torn_at: Option<usize>,
}

impl Buckets {
    pub fn new(name: &str, version: u32, endianness: u32, size: u32, count: u32) -> Self {
        Self {
            mark: [0xBE; 4],
            header: Header::new(name, version),
            order: Order::of(endianness),
            big_endian: endianness as u8,
            size,
            stated_size: None,
            count,
            stated_count: None,
            cache_size: 1,
            free: Vec::new(),
            free_count: None,
            first_free: None,
            filler: None,
            cells: Vec::new(),
            patches: Vec::new(),
            trailing: Vec::new(),
            torn_at: None,
        }
    }

    /// Writes the header and the index in the byte order of this endianness,
    /// which the Bool tells.
    pub fn turn(&mut self, endianness: u32) {
        self.order = Order::of(endianness);
        self.big_endian = endianness as u8;
    }

    /// Where a bucket starts.
    pub fn start(&self, bucket: u32) -> usize {
        HEADER_ROOM + bucket as usize * self.size as usize
    }

    /// A new bucket at the end.
    pub fn add(&mut self) -> u32 {
        self.count += 1;
        self.count - 1
    }

    pub fn patch(&mut self, bucket: u32, offset: usize, bytes: &[u8]) {
        self.patches.push(Patch { bucket, offset, bytes: bytes.to_vec() });
    }

    /// Another link in a bucket of the free list, big endian as all links.
    pub fn patch_link(&mut self, bucket: u32, link: i32) {
        self.patch(bucket, 0, &link.to_be_bytes());
    }

    /// The file's first bytes and its buckets, with cells and the free list.
    pub fn blank(&self) -> Vec<u8> {
        let length = self.start(self.count);
        let mut bytes = match self.filler {
            Some(seed) => Rng::new(seed, 0).bytes(length),
            None => vec![0; length],
        };
        for cells in &self.cells {
            self.write(&mut bytes, cells.bucket, cells.offset, &cells.bytes);
        }
        for (index, bucket) in self.free.iter().enumerate() {
            let next = self.free.get(index + 1).map_or(-1, |next| *next as i32);
            self.write(&mut bytes, *bucket, 0, &next.to_be_bytes());
        }
        bytes
    }

    /// Writes bytes into a bucket, as many as there is room for.
    pub fn write(&self, file: &mut [u8], bucket: u32, offset: usize, bytes: &[u8]) {
        let start = self.start(bucket) + offset.min(self.size as usize);
        let length = bytes.len().min(self.start(bucket + 1) - start);
        if let Some(place) = file.get_mut(start..start + length) {
            place.copy_from_slice(&bytes[..length]);
        }
    }

    /// The header's object: the fields that both kinds begin with, then the
    /// others.
    pub fn header(&self, others: impl FnOnce(&mut Encoder)) -> Layout {
        let mut out = Encoder::new(self.order);
        out.of(Part::Header, |out| out.field("mark", &self.mark));
        out.object(Part::Header, &self.header, |out| {
            out.field("big endian", &[self.big_endian]);
            out.uint("bucket size", self.stated_size.unwrap_or(self.size));
            out.uint("bucket count", self.stated_count.unwrap_or(self.count));
            out.uint("cache size", self.cache_size);
            others(out);
        });
        out.layout()
    }

    pub fn free_fields(&self, out: &mut Encoder) {
        out.uint("free count", self.free_count.unwrap_or(self.free.len() as u32));
        let first = self.free.first().map_or(-1, |first| *first as i32);
        out.int("first free", self.first_free.unwrap_or(first));
    }

    /// The whole file: the header over its first bytes, the changes that come
    /// last, and what follows the buckets.
    pub fn finish(&self, mut bytes: Vec<u8>, header: &[u8], after: &[u8]) -> Vec<u8> {
        for patch in &self.patches {
            self.write(&mut bytes, patch.bucket, patch.offset, &patch.bytes);
        }
        let length = header.len().min(bytes.len());
        bytes[..length].copy_from_slice(&header[..length]);
        bytes.reserve_exact(after.len()); // the file may have gigabytes
        bytes.extend_from_slice(after);
        if let Some(length) = self.torn_at {
            bytes.truncate(length);
        }
        bytes
    }
}
