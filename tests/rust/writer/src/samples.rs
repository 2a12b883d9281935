//! Sample tables.

use crate::buckets::{BucketFile, Buckets, HEADER_ROOM, Subject};
use crate::incremental::{DataBucket, IncrementalFile, Values};
use crate::keywords::sample;
use crate::order::Order;
use crate::record::{self, Value};
use crate::standard::{Index, StandardFile};
use crate::table::{
    BOOL, COMPLEX, Column, DOUBLE, FLOAT, INT, Manager, Record, STRING, Shape, Table,
};

/// The sample files: a name and the bytes of its `table.dat`.
pub fn all() -> [(&'static str, Vec<u8>); 9] {
    [
        ("small", small().encode()),
        ("little", little().encode()),
        ("arrays", arrays().encode()),
        ("overlong", overlong()),
        ("empty", Vec::new()),
        ("torn", torn()),
        ("survey", survey().encode()),
        ("texts", texts().encode()),
        ("keywords", keywords().encode()),
    ]
}

/// The files of a sample's managers: the sequence number and the bytes of each.
pub fn files(name: &str) -> Vec<(u32, Vec<u8>)> {
    match name {
        "small" => vec![(0, small_file().file.encode())],
        "little" => vec![(0, little_file().file.encode())],
        "survey" => vec![(0, survey_file().file.encode())],
        "texts" => vec![(0, texts_file().file.encode())],
        "keywords" => vec![(0, keywords_file().file.encode())],
        "arrays" => {
            vec![(0, arrays_standard().file.encode()), (1, arrays_incremental().file.encode())]
        }
        _ => Vec::new(),
    }
}

/// The small file of RULES.md 11.
pub fn small() -> Table {
    small_table(1, Manager::new("StandardStMan", 0))
}

/// The same little endian, with an object in its DMInfo.
pub fn little() -> Table {
    small_table(0, Manager::new("StandardStMan", 0).with_object("StandardStMan"))
}

fn small_table(endianness: u32, manager: Manager) -> Table {
    let columns = vec![
        Column::scalar(INT, "SCAN").at(0, 0).comment("scan number"),
        Column::scalar(BOOL, "FLAG").at(0, 16).comment("true if the row is not to be used"),
        Column::scalar(DOUBLE, "TIME").at(0, 17).comment("time of the row").keywords(units(&["s"])),
    ];
    Table::new(7, endianness, columns, vec![manager])
}

/// A little endian table like a MeasurementSet, with scalars, strings and
/// arrays of every form in several managers; there is no mark in its DMInfos.
pub fn arrays() -> Table {
    let managers = vec![
        Manager::new("StandardStMan", 0),
        Manager::new("IncrementalStMan", 1),
        Manager::new("TiledShapeStMan", 2),
        Manager::new("TiledColumnStMan", 4), // 3 was deleted
    ];
    // 32 rows a bucket: each column of StandardStMan begins where the one
    // before it ends.
    let columns = vec![
        incremental(Column::scalar(DOUBLE, "TIME"))
            .comment("Modified Julian Day")
            .keywords(measure(&["s"], "epoch", "UTC")),
        Column::scalar(INT, "ANTENNA1").at(0, 0).comment("ID of first antenna in interferometer"),
        Column::scalar(INT, "ANTENNA2").at(0, 128).comment("ID of second antenna"),
        Column::direct(DOUBLE, "UVW", &[3])
            .at(0, 256)
            .comment("Vector with uvw coordinates (in meters)")
            .keywords(measure(&["m", "m", "m"], "uvw", "J2000")),
        incremental(Column::scalar(INT, "SCAN_NUMBER"))
            .comment("Sequential scan number from on-line system"),
        incremental(Column::scalar(DOUBLE, "INTERVAL"))
            .comment("The sampling interval")
            .keywords(units(&["s"])),
        tiled(Column::array(BOOL, "FLAG"))
            .comment("The data flags, array of bools with same shape"),
        tiled(Column::array(COMPLEX, "DATA")).comment("The data column"),
        Column::fixed(FLOAT, "WEIGHT", &[4]).at(0, 1024).comment("Weight for each polarization"),
        Column::scalar(BOOL, "FLAG_ROW")
            .at(0, 1280)
            .comment("Row flag - flag all data in this row"),
        Column::scalar(STRING, "OBSERVER").at(0, 1284).comment("Name of observer"),
        Column::scalar(STRING, "STATION").at(0, 1668).string_maximum(16).comment("Station name"),
        Column::direct(STRING, "SCHEDULE", &[2]).at(0, 2180).comment("Observing schedule"),
        Column::direct(BOOL, "FLAG_CORR", &[2, 2]).at(1, 0).comment("Flag of each correlation"),
        products(),
    ];
    let mut table = Table::new(20, 0, columns, managers);
    table.description.name = "MS".into();
    table.description.version = "2".into();
    table.description.comment = "Sample with columns of a MeasurementSet".into();
    table.description.keywords = record::keywords(&[("MS_VERSION", Value::Float(2.0))]);
    table
}

/// The small file of RULES.md 11: five buckets of 64 bytes, the index in 1, 3 and 4.
pub fn small_file() -> Subject<StandardFile> {
    file_of_small(small())
}

/// The same values in the little endian table.
pub fn little_file() -> Subject<StandardFile> {
    file_of_small(little())
}

fn file_of_small(table: Table) -> Subject<StandardFile> {
    let order = Order::of(table.endianness);
    let buckets = Buckets::new("StandardStMan", 3, table.endianness, 64, 5);
    let indices = vec![Index::new(4, 3, &[(3, 2), (6, 0)])];
    let file = StandardFile::new(buckets, vec![1, 3, 4], indices);
    let mut subject = Subject { table, number: 0, file };
    for row in 0..7 {
        let scan = 1 + row / 4;
        let time = 4_895_000_000.0 + 10.0 * f64::from(row);
        put(&mut subject, "SCAN", row, &order.number(scan));
        put(&mut subject, "TIME", row, &order.turn(time.to_be_bytes()));
    }
    put_bits(&mut subject, "FLAG", |row| vec![row == 2 || row == 5]);
    subject
}

/// The StandardStMan file of the arrays table: two sets, a bucket with strings,
/// a free bucket, and the index in the second half of a bucket.
pub fn arrays_standard() -> Subject<StandardFile> {
    let buckets = Buckets::new("StandardStMan", 3, 0, 2564, 5);
    // 32 rows of the first set, and 5,128 cells of 4 bits, fill a bucket.
    let indices = vec![Index::new(32, 8, &[(19, 0)]), Index::new(5128, 1, &[(19, 2)])];
    let mut file = StandardFile::new(buckets, vec![4], indices);
    file.index_offset = 1282;
    file.last_heap = 1;
    file.buckets.free = vec![3];
    let mut subject = Subject { table: arrays(), number: 0, file };
    let mut heap = Heap::new();
    for row in 0..20 {
        let (antenna1, antenna2) = (row as i32 % 4, 1 + row as i32 % 5);
        put(&mut subject, "ANTENNA1", row, &antenna1.to_le_bytes());
        put(&mut subject, "ANTENNA2", row, &antenna2.to_le_bytes());
        let uvw = [12.5, -40.25, 3.0].map(|axis| axis * f64::from(row + 1));
        put(&mut subject, "UVW", row, uvw.map(f64::to_le_bytes).as_flattened());
        let array = 16 + 24 * u64::from(row); // its place in the array file
        put(&mut subject, "WEIGHT", row, &array.to_le_bytes());
        put(&mut subject, "OBSERVER", row, &short_string(b"observer", Order::Little));
        put(&mut subject, "STATION", row, format!("RT{:X}\0", antenna1).as_bytes());
        let schedule = heap.strings(&[format!("block {}", row / 8), format!("row {row}")]);
        put(&mut subject, "SCHEDULE", row, &schedule);
    }
    put_bits(&mut subject, "FLAG_ROW", |row| vec![row == 7]);
    put_bits(&mut subject, "FLAG_CORR", |row| vec![false, row == 3, row % 5 == 4, false]);
    subject.file.buckets.patch(1, 0, &heap.bucket());
    subject
}

/// The IncrementalStMan file of the arrays table: two buckets of 12 and 8 rows,
/// and a free one between them.
pub fn arrays_incremental() -> Subject<IncrementalFile> {
    let bucket = |number, rows: u32, first_time: f64, scan: i32| {
        let times = rows / 4; // four rows have the same time
        let mut data = Vec::new();
        for time in 0..times {
            data.extend((first_time + 10.0 * f64::from(time)).to_le_bytes());
        }
        data.extend(scan.to_le_bytes());
        data.extend(10.0_f64.to_le_bytes());
        let starts = (0..times).map(|time| 4 * u64::from(time));
        let columns = vec![
            Values::new(starts.collect(), (0..times).map(|time| 8 * time).collect()),
            Values::new(vec![0], vec![8 * times]),
            Values::new(vec![0], vec![8 * times + 4]),
        ];
        DataBucket::new(number, data, columns)
    };
    let data = vec![bucket(2, 12, 4_895_000_000.0, 1), bucket(0, 8, 4_895_000_030.0, 2)];
    let mut buckets = Buckets::new("IncrementalStMan", 5, 0, 128, 3);
    buckets.free = vec![1];
    let file = IncrementalFile::new(buckets, vec![0, 12, 20], data);
    Subject { table: arrays(), number: 1, file }
}

/// The NAME cells of the texts sample, by row: padded; without a zero byte;
/// empty; a zero in the middle; bytes that are not ASCII; a quote and a
/// backslash; a zero first, and a text behind it.
pub const NAMES: [&[u8; 8]; 7] = [
    b"RA01\0\0\0\0",
    b"PARKES64",
    b"\0\0\0\0\0\0\0\0",
    b"A\0B\0\0\0\0\0",
    b"caf\xC3\xA9\0\0\0",
    b"A\"B\\C\0\0\0",
    b"\0OLD\0\0\0\0",
];

/// A small big endian table with texts: a String with a maximum, and one
/// without.
pub fn texts() -> Table {
    let columns = vec![
        Column::scalar(INT, "ANTENNA").at(0, 0).comment("ID of the antenna"),
        Column::scalar(STRING, "NAME").at(0, 16).string_maximum(8).comment("Name of the antenna"),
        Column::scalar(STRING, "STATION").at(0, 48).comment("Station name"),
        Column::scalar(BOOL, "FLAG_ROW").at(0, 96).comment("Row flag"),
    ];
    Table::new(7, 1, columns, vec![Manager::new("StandardStMan", 0)])
}

/// Its StandardStMan file: four buckets of 128 bytes, four rows in bucket 0,
/// three in bucket 1, the index in 2 and 3.
pub fn texts_file() -> Subject<StandardFile> {
    let table = texts();
    let order = Order::of(table.endianness);
    let buckets = Buckets::new("StandardStMan", 3, table.endianness, 128, 4);
    let indices = vec![Index::new(4, 4, &[(3, 0), (6, 1)])];
    let file = StandardFile::new(buckets, vec![2, 3], indices);
    let mut subject = Subject { table, number: 0, file };
    for (row, name) in (0..).zip(NAMES) {
        put(&mut subject, "ANTENNA", row, &order.number(row));
        put(&mut subject, "NAME", row, name);
        let station = short_string(format!("PAD {}", row + 1).as_bytes(), order);
        put(&mut subject, "STATION", row, &station);
    }
    put_bits(&mut subject, "FLAG_ROW", |row| vec![row == 2 || row == 6]);
    subject
}

/// A small big endian table like a MeasurementSet, with keywords of every kind.
pub fn keywords() -> Table {
    let mut columns = vec![
        Column::scalar(DOUBLE, "TIME").at(0, 0).comment("Modified Julian Day"),
        Column::direct(DOUBLE, "UVW", &[3]).at(0, 32).comment("Vector with uvw coordinates"),
        Column::scalar(DOUBLE, "EXPOSURE").at(0, 128).comment("The effective integration time"),
        Column::scalar(INT, "ANTENNA1").at(0, 160).comment("ID of first antenna"),
        Column::scalar(BOOL, "FLAG_ROW").at(0, 176).comment("Row flag"),
    ];
    for (column, keywords) in columns.iter_mut().zip(sample::of_columns()) {
        column.keywords = keywords.encode();
    }
    let mut table = Table::new(6, 1, columns, vec![Manager::new("StandardStMan", 0)]);
    table.description.keywords = sample::of_table().encode();
    table
}

/// Its StandardStMan file: three buckets of 256 bytes, four rows in bucket 0, two
/// in bucket 1, the index in 2.
pub fn keywords_file() -> Subject<StandardFile> {
    let table = keywords();
    let buckets = Buckets::new("StandardStMan", 3, table.endianness, 256, 3);
    let indices = vec![Index::new(4, 5, &[(3, 0), (5, 1)])];
    let file = StandardFile::new(buckets, vec![2], indices);
    let mut subject = Subject { table, number: 0, file };
    for row in 0..6 {
        let time = 4_895_000_000.0 + 10.0 * f64::from(row);
        put(&mut subject, "TIME", row, &time.to_be_bytes());
        let uvw = [12.5, -40.25, 3.0].map(|axis| axis * f64::from(row + 1));
        put(&mut subject, "UVW", row, uvw.map(f64::to_be_bytes).as_flattened());
        put(&mut subject, "EXPOSURE", row, &10.0_f64.to_be_bytes());
        put(&mut subject, "ANTENNA1", row, &(row % 3).to_be_bytes());
    }
    put_bits(&mut subject, "FLAG_ROW", |row| vec![row == 4]);
    subject
}

/// The rows of the survey, more than a uInt can count.
pub const SURVEY_ROWS: u64 = 5_000_000_000;

/// A little endian table of very many rows: ColumnSet -3, and no count in
/// Table's header.
pub fn survey() -> Table {
    let column = |column: Column, comment: &str| incremental(column).of_manager(0).comment(comment);
    let columns = vec![
        column(Column::scalar(DOUBLE, "TIME"), "Modified Julian Day").keywords(measure(
            &["s"],
            "epoch",
            "UTC",
        )),
        column(Column::scalar(INT, "ANTENNA1"), "ID of first antenna in interferometer"),
        column(Column::scalar(INT, "SCAN_NUMBER"), "Sequential scan number from on-line system"),
        column(Column::scalar(BOOL, "FLAG_ROW"), "Row flag - flag all data in this row"),
    ];
    let manager = Manager::new("IncrementalStMan", 0).with_object("ISMData");
    Table::new(SURVEY_ROWS, 0, columns, vec![manager])
}

/// Its IncrementalStMan file: ISMIndex 2, three buckets and a free one. Values
/// change at both sides of 2^31 and of 2^32, in a bucket of Int64 starts; the
/// other two have uInt starts.
pub fn survey_file() -> Subject<IncrementalFile> {
    survey_of(survey())
}

fn survey_of(table: Table) -> Subject<IncrementalFile> {
    const INT_END: u64 = 1 << 31;
    const UINT_END: u64 = 1 << 32;
    let order = Order::of(table.endianness);
    let double = |value: f64| order.turn(value.to_be_bytes()).to_vec();
    let times = |first: u32, count: u32| -> Vec<Vec<u8>> {
        (first..first + count).map(|t| double(4_895_000_000.0 + 10.0 * f64::from(t))).collect()
    };
    let ints = |values: &[u32]| -> Vec<Vec<u8>> {
        values.iter().map(|value| order.number(*value).to_vec()).collect()
    };
    let flags = |values: &[u8]| -> Vec<Vec<u8>> { values.iter().map(|v| vec![*v]).collect() };
    let mut first = values_bucket(
        2,
        &[
            (&[0, INT_END - 1, INT_END, UINT_END - 1, UINT_END], times(0, 5)),
            (&[0, INT_END, UINT_END], ints(&[0, 1, 2])),
            (&[0, UINT_END - 1], ints(&[1, 2])),
            (&[0, INT_END - 1, INT_END, UINT_END, UINT_END + 1], flags(&[0, 1, 0, 1, 0])),
        ],
    );
    first.widen(1);
    let second = values_bucket(
        0,
        &[
            (&[0, 150_000_000], times(5, 2)),
            (&[0], ints(&[3])),
            (&[0, 100_000_000], ints(&[2, 3])),
            (&[0], flags(&[0])),
        ],
    );
    let third = values_bucket(
        3,
        &[
            (&[0], times(7, 1)),
            (&[0, 199_999_999], ints(&[3, 4])),
            (&[0], ints(&[4])),
            (&[0, 199_999_999], flags(&[0, 1])),
        ],
    );
    let first_rows = vec![0, 4_500_000_000, 4_800_000_000, SURVEY_ROWS];
    let mut buckets = Buckets::new("IncrementalStMan", 5, table.endianness, 272, 4);
    buckets.free = vec![1];
    let file = IncrementalFile::new(buckets, first_rows, vec![first, second, third]);
    Subject { table, number: 0, file }
}

/// A bucket with the starts and values of each column; equal values of a
/// column are stored once.
fn values_bucket(number: u32, columns: &[(&[u64], Vec<Vec<u8>>)]) -> DataBucket {
    let mut data = Vec::new();
    let values = columns.iter().map(|(starts, values)| {
        let mut stored: Vec<(&[u8], u32)> = Vec::new();
        let offsets = values.iter().map(|value| {
            let earlier = stored.iter().find(|(bytes, _)| bytes == value);
            let offset = earlier.map_or(data.len() as u32, |(_, offset)| *offset);
            if earlier.is_none() {
                stored.push((value, offset));
                data.extend(value);
            }
            offset
        });
        Values::new(starts.to_vec(), offsets.collect())
    });
    let values = values.collect();
    DataBucket::new(number, data, values)
}

/// The arrays table with objects in its DMInfos, one of each kind.
pub fn arrays_with_objects() -> Table {
    let mut table = arrays();
    for (manager, name) in table.managers_mut().iter_mut().zip(["", "ISMData", "", ""]) {
        *manager = manager.clone().with_object(name);
    }
    table.write_infos();
    table
}

/// The small file in the byte order and the form of DMInfo of a table, with
/// ColumnSet -3, StandardStMan 4 and SSMIndex 2.
pub fn wide_small(table: Table) -> Subject<StandardFile> {
    let mut subject = file_of_small(table);
    subject.table.widen(1);
    subject.file.buckets.header.version = 4;
    subject.file.indices[0].widen();
    // The text is eight bytes longer, and fits into the chain.
    subject
}

/// Two sets of the small file's columns, with SSMIndex of these versions.
pub fn two_sets(endianness: u32, wide: [bool; 2]) -> Subject<StandardFile> {
    let mut table = small_table(endianness, Manager::new("StandardStMan", 0));
    for (column, (set, offset)) in table.columns_mut().iter_mut().zip([(0, 0), (1, 0), (1, 1)]) {
        (column.info.set, column.info.offset) = (set, offset);
    }
    table.write_infos();
    let buckets = Buckets::new("StandardStMan", 4, endianness, 64, 12);
    let sets = [(1, &[(2, 2), (5, 0), (6, 7)]), (2, &[(3, 6), (4, 9), (6, 8)])];
    let indices = sets.into_iter().zip(wide).map(|((columns, entries), wide)| {
        let mut index = Index::new(4, columns, entries);
        if wide {
            index.widen();
        }
        index
    });
    let file = StandardFile::new(buckets, vec![1, 3, 4, 5, 11, 10], indices.collect());
    Subject { table, number: 0, file }
}

/// The samples' StandardStMan files with their tables, and the small one in
/// both byte orders with free space, each with the other's form of DMInfo; and
/// with row numbers of 64 bits, in one of two sets too.
pub fn standard_files() -> Vec<Subject<StandardFile>> {
    let with_free_space = |mut subject: Subject<StandardFile>| {
        subject.file.indices[0].free_space.pairs = vec![(49, 15), (64, 0)];
        subject
    };
    let big = small_table(1, Manager::new("StandardStMan", 0).with_object("StandardStMan"));
    let little = small_table(0, Manager::new("StandardStMan", 0));
    vec![
        small_file(),
        little_file(),
        arrays_standard(),
        texts_file(),
        with_free_space(file_of_small(big)),
        with_free_space(file_of_small(little)),
        wide_small(small()),
        wide_small(self::little()),
        two_sets(1, [false, true]),
        two_sets(0, [true, false]),
    ]
}

/// The samples' IncrementalStMan files with their tables, in both byte orders;
/// the big endian one of arrays with objects in its DMInfos.
pub fn incremental_files() -> Vec<Subject<IncrementalFile>> {
    let mut big = Subject { table: arrays_with_objects(), ..arrays_incremental() };
    big.table.endianness = 1;
    big.file.buckets.turn(1);
    big.file.order = Order::Big;
    let big_survey = Table { endianness: 1, ..survey() };
    vec![arrays_incremental(), big, survey_file(), survey_of(big_survey)]
}

/// Where a cell of a named column stands: its first bit.
fn first_bit(subject: &Subject<StandardFile>, name: &str, row: u64) -> usize {
    let columns = subject.table.columns();
    let position = columns.iter().position(|column| column.name.bytes == name.as_bytes());
    let position = position.expect("there is this column");
    subject.file.place(&subject.table, position, row).0 as usize
}

/// Writes bytes of a data bucket, by their place in the file.
fn put_at(subject: &mut Subject<StandardFile>, byte: usize, bytes: &[u8]) {
    let size = subject.file.buckets.size as usize;
    let place = byte - HEADER_ROOM;
    subject.file.buckets.patch((place / size) as u32, place % size, bytes);
}

/// Writes a cell.
fn put(subject: &mut Subject<StandardFile>, name: &str, row: u32, value: &[u8]) {
    let byte = first_bit(subject, name, row.into()) / 8;
    put_at(subject, byte, value);
}

/// Writes the cells of a Bool column, some of which share a byte.
fn put_bits(subject: &mut Subject<StandardFile>, name: &str, value: fn(u64) -> Vec<bool>) {
    let mut bytes = std::collections::BTreeMap::new();
    for row in 0..subject.table.rows() {
        let first = first_bit(subject, name, row);
        for (element, is_true) in value(row).into_iter().enumerate() {
            let bit = first + element;
            *bytes.entry(bit / 8).or_insert(0) |= u8::from(is_true) << (bit % 8);
        }
    }
    for (byte, value) in bytes {
        put_at(subject, byte, &[value]);
    }
}

/// A String of at most 8 bytes: the bytes and the length.
fn short_string(text: &[u8], order: Order) -> Vec<u8> {
    let mut cell = text.to_vec();
    cell.resize(8, 0);
    cell.extend(order.number(text.len() as u32));
    cell
}

/// The string heap in bucket 1.
struct Heap {
    strings: Vec<u8>,
}

impl Heap {
    fn new() -> Self {
        Self { strings: Vec::new() }
    }

    /// Adds an array of strings; gives its bucket, offset and length.
    fn strings(&mut self, strings: &[String]) -> Vec<u8> {
        let offset = self.strings.len() as i32;
        for string in strings {
            self.strings.extend((string.len() as i32).to_le_bytes());
            self.strings.extend(string.as_bytes());
        }
        let length = self.strings.len() as i32 - offset;
        [1, offset, length].map(i32::to_le_bytes).concat()
    }

    /// The bucket: the free list's link, the used length, the length of gaps
    /// and the next bucket, then the strings.
    fn bucket(&self) -> Vec<u8> {
        let header = [0, self.strings.len() as i32, 0, -1].map(i32::to_le_bytes).concat();
        [header, self.strings.clone()].concat()
    }
}

/// A good table, and bytes after it: one more than a file may have.
pub fn overlong() -> Vec<u8> {
    let mut bytes = small().encode();
    bytes.resize(65_537, 0);
    bytes
}

/// The arrays table, cut off in the description of the column UVW.
fn torn() -> Vec<u8> {
    let mut bytes = arrays().encode();
    let name = bytes.windows(3).position(|name| name == b"UVW").expect("there is this column");
    bytes.truncate(name + 10);
    bytes
}

fn incremental(column: Column) -> Column {
    Column { manager_type: "IncrementalStMan".into(), manager_group: "ISMData".into(), ..column }
        .of_manager(1)
}

/// An array of free shape with two dimensions.
fn tiled(column: Column) -> Column {
    Column {
        manager_type: "TiledShapeStMan".into(),
        manager_group: "TiledData".into(),
        dimensionality: 2,
        ..column
    }
    .of_manager(2)
}

/// A fixed shape in Int64, which the column's binding repeats in Int.
fn products() -> Column {
    let mut column = Column::fixed(INT, "CORR_PRODUCT", &[2, 4]).of_manager(4);
    column.manager_type = "TiledColumnStMan".into();
    column.manager_group = "TiledProduct".into();
    column.shape = Some(Shape::new(2, &[2, 4]));
    column.info.shape_defined = 1;
    column.info.shape = Some(Shape::new(1, &[2, 4]));
    column.comment("Indices describing receptors of feed going into correlation")
}

fn units(units: &[&'static str]) -> Record {
    record::keywords(&[("QuantumUnits", Value::Strings(units.to_vec()))])
}

fn measure(units: &[&'static str], kind: &'static str, reference: &'static str) -> Record {
    let info = vec![("type", Value::String(kind)), ("Ref", Value::String(reference))];
    record::keywords(&[
        ("QuantumUnits", Value::Strings(units.to_vec())),
        ("MEASINFO", Value::Record(info)),
    ])
}
