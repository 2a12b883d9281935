//! Request lines about the samples: each named field of `table.dat` and of the
//! managers' files with other bytes, one at a time.

use crate::buckets::{BucketFile, Subject};
use crate::hex::hex;
use crate::layout::{Field, LENGTH, Layout, OBJECT_VERSION, Part};
use crate::questions::Asked;
use crate::samples;
use crate::table::Table;

/// Other bytes in place of a field's first ones; what follows stays where it
/// is.
#[derive(Clone, Debug)]
pub struct Change {
    pub field: Field,
    bytes: Vec<u8>,
}

impl Change {
    /// A file with the change; the field's bytes stand there at `place`.
    pub fn of(&self, file: &[u8], place: impl Fn(usize) -> usize) -> Vec<u8> {
        let mut file = file.to_vec();
        for (byte, index) in self.bytes.iter().zip(self.field.start..) {
            file[place(index)] = *byte;
        }
        file
    }
}

/// Changes of every field, in file order.
pub fn changes(layout: &Layout) -> Vec<Change> {
    let of_field = |field: &Field| {
        let old = &layout.bytes[field.start..field.end];
        let mut values = match old {
            _ if field.is_text => texts(layout, field),
            [_, _, _, _] => numbers(layout, field),
            [_, _, _, _, _, _, _, _] => wide_numbers(layout, field),
            _ => [0, 1, 2, 0xFF].map(|byte| vec![byte; old.len()]).into(),
        };
        values.sort_unstable();
        values.dedup();
        values.retain(|value| !old.starts_with(value));
        values.into_iter().map(|bytes| Change { field: *field, bytes }).collect::<Vec<_>>()
    };
    layout.fields.iter().flat_map(of_field).collect()
}

/// Numbers near limits and near the field's own; for an object's length, those
/// of its header and of its container too.
fn numbers(layout: &Layout, field: &Field) -> Vec<Vec<u8>> {
    let old = &layout.bytes[field.start..field.end];
    let own = layout.order.turn(old.try_into().expect("four bytes"));
    let own = u32::from_be_bytes(own);
    let mut numbers = vec![0, 1, 2, 7, 17, 65, u32::MAX, own ^ 0x8000_0000];
    numbers.extend([own.wrapping_add(1), own.wrapping_sub(1)]);
    if field.name == LENGTH {
        let size = layout.field(field.of, OBJECT_VERSION, 0).end - field.start;
        let room = layout.room(field.start, field.container);
        numbers.extend([size, size - 1, room, room + 1].map(|length| length as u32));
        numbers.extend([own.wrapping_add(4), own.wrapping_sub(4)]);
    }
    numbers.into_iter().map(|number| layout.order.number(number).into()).collect()
}

/// The same of 8 bytes: also at the limits of uInt and of the row range, and
/// beside the own number in the high half.
fn wide_numbers(layout: &Layout, field: &Field) -> Vec<Vec<u8>> {
    let old = &layout.bytes[field.start..field.end];
    let own = u64::from_be_bytes(layout.order.turn(old.try_into().expect("eight bytes")));
    let signs = [u64::MAX, 1 << 63, own ^ 1 << 63];
    let limits = [0, 1, 2, 1 << 32, 1 << 62, (1 << 62) + 1, (1 << 63) - 1];
    let near = [own.wrapping_add(1), own.wrapping_sub(1), own ^ 1 << 32, own & 0xFFFF_FFFF];
    let numbers = [&signs[..], &limits, &near].concat();
    numbers.into_iter().map(|number| layout.order.turn(number.to_be_bytes()).into()).collect()
}

/// Other lengths, and another first letter.
fn texts(layout: &Layout, field: &Field) -> Vec<Vec<u8>> {
    let old = &layout.bytes[field.start..field.end];
    let length = (old.len() - 4) as u32;
    let room = layout.room(field.start + 4, field.container) as u32;
    let near = [length.wrapping_sub(1), length + 1, length + 4];
    let limits = [0, 64, 65, 4096, 4097, room, room + 1, u32::MAX];
    let mut texts: Vec<Vec<u8>> =
        near.into_iter().chain(limits).map(|length| layout.order.number(length).into()).collect();
    if let Some(letter) = old.get(4) {
        texts.push([&old[..4], &[letter ^ 0x20]].concat());
    }
    texts
}

/// A table after each change of a field of its DMInfos' objects.
pub fn changed_infos(table: &Table) -> Vec<(Change, usize, Vec<u8>)> {
    let bytes = table.encode();
    let infos = (0..table.managers().len()).filter_map(|index| table.info_layout(index));
    let of_info = |(start, layout): (usize, Layout)| {
        let changed = |change: Change| {
            let table = change.of(&bytes, |index| start + index);
            (change, start, table)
        };
        changes(&layout).into_iter().map(changed).collect::<Vec<_>>()
    };
    infos.flat_map(of_info).collect()
}

/// The file of a subject after each change of what has this part.
pub fn changed_files<F: BucketFile>(
    subject: &Subject<F>,
    part: Part,
) -> impl Iterator<Item = (Change, Vec<u8>)> {
    let file = subject.file.encode();
    let (_, layout) = subject.file.layout_of(part);
    changes(&layout).into_iter().map(move |change| {
        let changed = change.of(&file, |index| subject.file.place_of(part, index));
        (change, changed)
    })
}

/// All lines.
pub fn lines() -> impl Iterator<Item = String> + Send {
    let small = (samples::small(), Asked::new(&samples::small_file()));
    let little = (samples::little(), Asked::new(&samples::little_file()));
    let arrays = (samples::arrays(), Asked::new(&samples::arrays_incremental()));
    let objects = (samples::arrays_with_objects(), arrays.1.clone());
    let survey = (samples::survey(), Asked::new(&samples::survey_file()));
    let whole = [small, arrays, survey].into_iter().flat_map(|(table, asked)| {
        let layout = table.layout();
        let changed = |change: Change| change.of(&layout.bytes, |index| index);
        table_lines(changes(&layout).into_iter().map(changed), &asked)
    });
    let infos = [little, objects].into_iter().flat_map(|(table, asked)| {
        table_lines(changed_infos(&table).into_iter().map(|(.., changed)| changed), &asked)
    });
    let tables = whole.chain(infos);
    let standard = samples::standard_files().into_iter();
    let incremental = samples::incremental_files().into_iter();
    tables
        .chain(standard.flat_map(|subject| file_lines(&subject)))
        .chain(incremental.flat_map(|subject| file_lines(&subject)))
}

/// Mostly Description, but each question in its turn.
fn table_lines(tables: impl Iterator<Item = Vec<u8>>, asked: &Asked) -> Vec<String> {
    let line = |(turn, table): (usize, Vec<u8>)| match turn % 16 {
        0 => format!("listing {}", hex(&table)),
        1 => format!("column {} {}", hex(&table), hex(b"TIME")),
        2 | 3 => Asked { table, ..asked.clone() }.in_turn(turn / 16),
        _ => format!("describe {}", hex(&table)),
    };
    tables.enumerate().map(line).collect()
}

fn file_lines<F: BucketFile>(subject: &Subject<F>) -> Vec<String> {
    let asked = Asked::new(subject);
    let changed = subject.file.parts().into_iter().flat_map(|part| changed_files(subject, part));
    let line = |(turn, (_, file))| Asked { file, ..asked.clone() }.in_turn(turn);
    changed.enumerate().map(line).collect()
}
