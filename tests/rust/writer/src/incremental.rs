//! An IncrementalStMan file, field by field: Note 260, section 3.4.3.

pub mod faults;
pub mod generate;

use crate::buckets::{Block, BucketFile, Buckets};
use crate::cells;
use crate::encode::Encoder;
use crate::layout::{Layout, Part};
use crate::order::Order;
use crate::table::{Column, Header, STRING, Table};

/// A bucket begins with the offset of its index; the data part follows it.
pub const DATA_START: u32 = 4;

#[derive(Clone, Debug)]
pub struct IncrementalFile {
    pub buckets: Buckets,
    pub unique_column: u32,
    pub index: Index,
    /// The buckets that hold data, in the index's order.
    pub data: Vec<DataBucket>,
    /// The byte order of the numbers in the buckets.
    pub order: Order,
}

/// The ISMIndex.
#[derive(Clone, Debug)]
pub struct Index {
    pub mark: [u8; 4],
    pub header: Header,
    /// The number of buckets, if it is stated other than it is.
    pub count: Option<u32>,
    pub first_rows: Block<u64>,
    pub buckets: Block,
}

impl Index {
    /// Version 2, with Int64 first rows.
    pub fn widen(&mut self) {
        self.header.version = 2;
        self.first_rows.wide = true;
    }
}

#[derive(Clone, Debug)]
pub struct DataBucket {
    pub number: u32,
    /// The high byte of the bucket's first number: above 0 with Int64 starts.
    pub high: u8,
    /// Whether all starts are written as Int64 or uInt.
    pub wide: bool,
    /// The offset of the bucket's index, if it is stated other than it is.
    pub index_offset: Option<u32>,
    pub data: Vec<u8>,
    /// For each of the manager's columns.
    pub columns: Vec<Values>,
}

impl DataBucket {
    /// With uInt starts.
    pub fn new(number: u32, data: Vec<u8>, columns: Vec<Values>) -> Self {
        Self { number, high: 0, wide: false, index_offset: None, data, columns }
    }

    /// With Int64 starts, which this high byte tells.
    pub fn widen(&mut self, high: u8) {
        self.high = high;
        self.wide = true;
    }

    /// The bytes of a start.
    pub fn width(&self) -> usize {
        if self.wide { 8 } else { 4 }
    }

    /// The offset of its index, without the high byte.
    pub fn index_offset(&self) -> u32 {
        self.index_offset.unwrap_or(DATA_START + self.data.len() as u32)
    }

    /// The bytes that the index takes up to a column's values.
    pub fn index_before(&self, column: usize) -> usize {
        self.columns[..column].iter().map(|values| values.length(self.width())).sum()
    }

    /// The bytes that the whole index takes.
    pub fn index_length(&self) -> usize {
        self.index_before(self.columns.len())
    }

    /// The bytes that the offset, the data and the index take.
    pub fn length(&self) -> usize {
        DATA_START as usize + self.data.len() + self.index_length()
    }
}

/// The values of a column in a bucket.
#[derive(Clone, Debug, Default)]
pub struct Values {
    /// The number of values, if it is stated other than it is.
    pub count: Option<u32>,
    /// The first row of each, counted in the bucket; a negative one is that of
    /// the same bits.
    pub starts: Vec<u64>,
    /// Where each stands in the data part.
    pub offsets: Vec<u32>,
}

impl Values {
    pub fn new(starts: Vec<u64>, offsets: Vec<u32>) -> Self {
        Self { count: None, starts, offsets }
    }

    fn length(&self, start: usize) -> usize {
        4 + start * self.starts.len() + 4 * self.offsets.len()
    }

    fn encode(&self, wide: bool, out: &mut Encoder) {
        out.uint("count", self.count.unwrap_or(self.starts.len() as u32));
        for (number, start) in self.starts.iter().enumerate() {
            out.nth_number("start", number, *start, wide);
        }
        for (number, offset) in self.offsets.iter().enumerate() {
            out.nth_uint("offset", number, *offset);
        }
    }
}

impl IncrementalFile {
    /// A file whose data buckets hold the rows from each first row to the next;
    /// the last of these is the row count. With ISMIndex 1, unless there are too
    /// many rows.
    pub fn new(buckets: Buckets, first_rows: Vec<u64>, data: Vec<DataBucket>) -> Self {
        let order = buckets.order;
        let first_rows = Block::new(first_rows);
        let index = Index {
            mark: [0xBE; 4],
            header: Header::new("ISMIndex", if first_rows.wide { 2 } else { 1 }),
            count: None,
            first_rows,
            buckets: Block::new(data.iter().map(|bucket| bucket.number).collect()),
        };
        Self { buckets, unique_column: 0, index, data, order }
    }

    /// The bucket of an entry; its index may pass the bucket's end.
    pub fn bucket(&self, entry: usize) -> Layout {
        let bucket = &self.data[entry];
        let number = u32::from(bucket.high) << 24 | bucket.index_offset();
        let mut out = Encoder::new(self.order);
        out.of(Part::Bucket(entry), |out| out.uint("index offset", number));
        out.raw(&bucket.data);
        for (column, values) in bucket.columns.iter().enumerate() {
            out.of(Part::Values(entry, column), |out| values.encode(bucket.wide, out));
        }
        out.layout()
    }
}

impl BucketFile for IncrementalFile {
    const IS_INCREMENTAL: bool = true;

    fn buckets(&self) -> &Buckets {
        &self.buckets
    }

    fn buckets_mut(&mut self) -> &mut Buckets {
        &mut self.buckets
    }

    fn header(&self) -> Layout {
        self.buckets.header(|out| {
            out.uint("unique column", self.unique_column);
            self.buckets.free_fields(out);
        })
    }

    fn encode(&self) -> Vec<u8> {
        let mut bytes = self.buckets.blank();
        for (entry, bucket) in self.data.iter().enumerate() {
            self.buckets.write(&mut bytes, bucket.number, 0, &self.bucket(entry).bytes);
        }
        self.buckets.finish(bytes, &self.header().bytes, &self.index_layout().bytes)
    }

    fn parts(&self) -> Vec<Part> {
        let buckets = (0..self.data.len()).map(Part::Bucket);
        [Part::Header, Part::Index(0)].into_iter().chain(buckets).collect()
    }

    fn place_of(&self, part: Part, byte: usize) -> usize {
        self.layout_of(part).0 + byte
    }

    fn layout_of(&self, part: Part) -> (usize, Layout) {
        match part {
            Part::Header => (0, self.header()),
            Part::Bucket(entry) | Part::Values(entry, _) => {
                (self.buckets.start(self.data[entry].number), self.bucket(entry))
            }
            _ => (self.buckets.start(self.buckets.count), self.index_layout()),
        }
    }

    fn border_rows(&self) -> Vec<u64> {
        let mut rows = Vec::new();
        for (bucket, first) in self.data.iter().zip(&self.index.first_rows.elements) {
            let starts = bucket.columns.iter().flat_map(|values| &values.starts);
            rows.extend(starts.map(|start| first.saturating_add(*start)));
        }
        let before: Vec<u64> = rows.iter().map(|row| row.saturating_sub(1)).collect();
        rows.extend(before);
        rows
    }

    fn index_layout(&self) -> Layout {
        let mut out = Encoder::new(self.buckets.order);
        out.of(Part::Index(0), |out| out.field("mark", &self.index.mark));
        out.object(Part::Index(0), &self.index.header, |out| {
            let count = self.index.buckets.elements.len() as u32;
            out.uint("count", self.index.count.unwrap_or(count));
            self.index.first_rows.encode(Part::Rows(0), out);
            self.index.buckets.encode(Part::Numbers(0), out);
        });
        out.raw(&self.buckets.trailing);
        out.layout()
    }

    fn index_headers_mut(&mut self) -> Vec<&mut Header> {
        let index = &mut self.index;
        vec![&mut index.header, &mut index.first_rows.header, &mut index.buckets.header]
    }

    fn index_length(&self) -> usize {
        0
    }

    fn has_place(&self, column: &Column) -> bool {
        column.data_type != STRING.number
    }

    fn plan(&self, table: &Table, position: usize) -> [u64; 9] {
        let column = &table.columns()[position];
        [
            position as u64,
            column.info.manager.into(),
            column.data_type as u64,
            cells::elements(column),
            8 * cells::extent(column, 1),
            0,
            0,
            0,
            self.buckets.size.into(),
        ]
    }

    fn place(&self, table: &Table, position: usize, row: u64) -> (u64, u64) {
        let column = &table.columns()[position];
        let manager = column.info.manager;
        let earlier = &table.columns()[..position];
        let own = earlier.iter().filter(|column| column.info.manager == manager).count();
        let mut place = None;
        for (bucket, first) in self.data.iter().zip(&self.index.first_rows.elements) {
            let values = &bucket.columns[own];
            for (start, offset) in values.starts.iter().zip(&values.offsets) {
                if first + start <= row {
                    place = Some(self.buckets.start(bucket.number) as u64 + u64::from(*offset));
                }
            }
        }
        let byte = place.expect("some value is at or before the row") + u64::from(DATA_START);
        (8 * byte, 8 * cells::extent(column, 1))
    }

    fn looks(&self, _: &Table, _: usize, _: u64) -> [u64; 2] {
        [0; 2]
    }
}
