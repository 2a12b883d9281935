//! Faults, one at a time, at every field of a good TableRecord, and changes that
//! are no fault but stand at a limit.
//!
//! Each function changes a good record and says what a reader must answer by
//! RULES.md 4.12 to 4.17; what is blamed counts from the record's start. The
//! lengths of the enclosing objects follow the change, unless [`freeze_lengths`]
//! came before. A fault may come after another one, and then says nothing: numbers
//! that the other one took out of their range wrap around.

use crate::faults::refused_unless;
use crate::keywords::generate::{self, DEEPEST, array_name, chain};
use crate::keywords::record::{
    Array, Desc, Elements, FieldShape, Key, Kind, RECORD, TableRecord, Value, missing_int,
};
use crate::layout::{Blame, Field, OBJECT_NAME, Part};
use crate::objects::{Expect, Target, misspell, other_uint};
use crate::rng::Rng;
use crate::table::{BOOL, Header, INT, Shape, TYPES, Text};

use Expect::{Accepted, Open, Refused};

pub type Fault = fn(&mut Rng, &mut TableRecord) -> Expect;

/// A record deeper than eight.
const TOO_DEEP: Expect = Refused(15, Blame::Nothing);

/// All faults, with names for messages.
pub const FAULTS: &[(&str, Fault)] = &[
    ("object name", object_name),
    ("Array name", wrong_array_name),
    ("old Array name", old_array_name),
    ("object version", object_version),
    ("RecordDesc version exchanged", desc_version_exchanged),
    ("Array version exchanged", array_version_exchanged),
    ("object past its container", past_container),
    ("object to its container's end", to_container_end),
    ("object too short", too_short),
    ("object below its header", below_header),
    ("object with bytes left over", with_extra),
    ("object cut", cut),
    ("object header with several faults", several),
    ("record without contents", without_contents),
    ("string past its container", text_past_container),
    ("string over 4,096", text_over),
    ("string of 4,096", text_at_limit),
    ("string length near its own", text_near),
    ("negative count of fields", negative_count),
    ("more fields than there are", count_above),
    ("fewer fields than there are", count_below),
    ("type number", type_number),
    ("another type", another_type),
    ("deeper than eight", too_deep),
    ("deeper than eight, torn", too_deep_torn),
    ("deeper than eight in a whole record", too_deep_whole),
    ("eight deep", eight_deep),
    ("Bool byte", bool_byte),
    ("count of axes", axis_count),
    ("huge count of axes", huge_axis_count),
    ("negative axis", negative_axis),
    ("axis above its own", axis_above),
    ("axis below its own", axis_below),
    ("axis of 0", axis_zero),
    ("huge axes", huge_axes),
    ("huge axes and one of 0", huge_axes_and_zero),
    ("no axes and elements", no_axes),
    ("origin", origin),
    ("spare bits", spare_bits),
    ("shape's numbers", shape_numbers),
    ("shape of the other form", shape_form),
    ("shape's count", shape_count),
    ("IPosition misspelt", misspelt_shape),
    ("IPosition at the description's end", shape_at_end),
    ("IPosition version", shape_version),
    ("Array for a shape", array_for_shape),
    ("Ints like an IPosition", ints_like_position),
    ("record type", record_type),
    ("equal names", equal_names),
    ("held record without its TableRecord", held_without_record),
    ("held record with fields and a TableRecord", held_with_both),
    ("value left out", value_left_out),
];

/// States the lengths of objects as they are now, each one or only some, so that
/// they do not follow a later change; not the record's own, which the table needs.
pub fn freeze_lengths(rng: &mut Rng, record: &mut TableRecord) {
    let (layout, _) = record.layout();
    let all = rng.chance(1, 2);
    for object in &layout.objects[1..] {
        let Part::Keyword(id) = object.of else { continue };
        if (all || rng.chance(1, 2))
            && let Some(header) = record.header_mut(id)
        {
            header.stated = Some((object.end - object.start) as u32);
        }
    }
}

// Choosing.

/// The number of some keyword for which `fits` holds; if there is none, `make`
/// makes one.
fn key_that(
    rng: &mut Rng,
    record: &mut TableRecord,
    fits: impl Fn(&Key) -> bool,
    make: impl FnOnce(&mut Rng) -> Key,
) -> usize {
    let fitting: Vec<usize> =
        record.desc.all().into_iter().filter(|key| fits(key)).map(|key| key.id).collect();
    if !fitting.is_empty() {
        return rng.pick(&fitting);
    }
    let made = make(rng);
    let place = rng.below(record.desc.keys.len() + 1);
    record.desc.keys.insert(place, made);
    record.number();
    record.desc.keys[place].id
}

/// Some keyword.
fn any_key<'a>(rng: &mut Rng, record: &'a mut TableRecord) -> &'a mut Key {
    let id = key_that(rng, record, |_| true, |rng| generate::scalar(rng, "A".into()));
    key(record, id)
}

fn key(record: &mut TableRecord, id: usize) -> &mut Key {
    record.desc.key_mut(id).expect("there is this keyword")
}

/// Some array for which `fits` holds, of which there is one: its number.
fn array_that(
    rng: &mut Rng,
    record: &mut TableRecord,
    fits: impl Fn(&FieldShape, &Array) -> bool,
) -> usize {
    let fits = |key: &Key| matches!(&key.value, Value::Array(shape, array) if fits(shape, array));
    key_that(rng, record, fits, |rng| {
        let data_type = rng.pick(&TYPES);
        let axes = [rng.within(1..=5) as i32, 2];
        let mut key = generate::array_of(rng, "UNITS".into(), data_type, &axes);
        if let Value::Array(shape, _) = &mut key.value {
            *shape = FieldShape::ints(&axes);
        }
        key
    })
}

fn array(record: &mut TableRecord, id: usize) -> &mut Array {
    match &mut key(record, id).value {
        Value::Array(_, array) => array,
        _ => panic!("it is an array"),
    }
}

fn shape(record: &mut TableRecord, id: usize) -> &mut FieldShape {
    match &mut key(record, id).value {
        Value::Array(shape, _) => shape,
        _ => panic!("it is an array"),
    }
}

/// Some array with an IPosition in its RecordDesc: its number.
fn with_position(rng: &mut Rng, record: &mut TableRecord) -> usize {
    let id = array_that(rng, record, |_, _| true);
    if !matches!(shape(record, id), FieldShape::Position(_)) {
        let axes: Vec<i64> = (0..rng.below(3)).map(|_| rng.below(9) as i64).collect();
        *shape(record, id) = FieldShape::Position(Shape::new(rng.within(1..=2) as u32, &axes));
    }
    id
}

/// Some object but the record itself: its number.
fn any_object(rng: &mut Rng, record: &TableRecord) -> usize {
    let (layout, _) = record.layout();
    let index = if rng.chance(1, 6) { 1 } else { rng.within(1..=layout.objects.len() - 1) };
    let Part::Keyword(id) = layout.objects[index].of else { panic!("it is of a record") };
    id
}

/// What the object of this number is. Its name does not tell: it may be faulty already.
fn kind(record: &mut TableRecord, id: usize) -> Kind {
    record.object_mut(id).expect("there is this object").0
}

fn header(record: &mut TableRecord, id: usize) -> &mut Header {
    record.header_mut(id).expect("there is this object")
}

fn target(record: &mut TableRecord, id: usize) -> Target<'_> {
    let (layout, _) = record.layout();
    let of = Part::Keyword(id);
    let object = layout.object(of);
    let room = layout.room(object.start, object.container);
    let length = object.end - object.start;
    Target { of, header: header(record, id), length, room }
}

/// Some RecordDesc: its number.
fn any_desc(rng: &mut Rng, record: &TableRecord, fits: fn(&Desc) -> bool) -> Option<usize> {
    let descs = record.desc.descs().into_iter().filter(|desc| fits(desc));
    let descs: Vec<usize> = descs.map(|desc| desc.id).collect();
    (!descs.is_empty()).then(|| rng.pick(&descs))
}

/// What a reader says of a shape that is a count and Ints, in place of an
/// IPosition or by a wrong count: if so many do not fit, the first is missing.
fn as_ints(record: &TableRecord, id: usize) -> Expect {
    let (layout, _) = record.layout();
    let field = layout
        .fields
        .iter()
        .skip_while(|field| (field.of, field.name) != (Part::Keyword(id), "type"))
        .nth(1)
        .expect("a shape follows the type");
    let desc = &layout.objects[field.container.expect("it stands in a RecordDesc")];
    let Some(count) = layout.bytes.get(field.start..field.start + 4) else { return Open };
    let count = u32::from_be_bytes(count.try_into().expect("four bytes")) as usize;
    let missing = missing_int(field.start, desc.end);
    if field.start + 4 + 4 * count > missing {
        return Refused(1, Blame::Byte(missing));
    }
    Open
}

// Headers.

fn object_name(rng: &mut Rng, record: &mut TableRecord) -> Expect {
    let id = any_object(rng, record);
    match kind(record, id) {
        Kind::RecordDesc | Kind::TableRecord => {
            let names = ["TableRecord", "RecordDesc", "Array", "IPosition", "Record", "TableDesc"];
            target(record, id).name(rng, &names)
        }
        Kind::Shape => {
            misspell(rng, &mut header(record, id).name);
            as_ints(record, id - 1)
        }
        Kind::Array => bad_array_name(rng, record, id),
    }
}

fn wrong_array_name(rng: &mut Rng, record: &mut TableRecord) -> Expect {
    let id = array_that(rng, record, |_, _| true);
    bad_array_name(rng, record, id + 2)
}

fn bad_array_name(rng: &mut Rng, record: &mut TableRecord, id: usize) -> Expect {
    header(record, id).name = rng
        .pick(&[
            "",
            "Arra",
            "Array<",
            "Array>",
            "Array<Int",
            "Array<Int> ",
            "Array <Int>",
            "array",
            "Arrays",
            "Array\0",
            "ArrayInt>",
            "Array(Int)",
            "IPosition",
            "TableRecord",
            "<Int>",
            "Array><",
        ])
        .into();
    Refused(2, Part::Keyword(id).field(OBJECT_NAME))
}

fn old_array_name(rng: &mut Rng, record: &mut TableRecord) -> Expect {
    let id = array_that(rng, record, |_, _| true);
    let length = rng.pick(&[0, 1, 3, 20]);
    let mut name = b"Array<".to_vec();
    name.extend(if rng.chance(1, 2) { rng.bytes(length) } else { vec![b'>'; length] });
    name.push(b'>');
    if rng.chance(1, 20) {
        // An object's name has no length range.
        let long = vec![b'x'; 5000];
        name.splice(6..6, long);
    }
    array(record, id).header.name = name.into();
    Accepted
}

fn object_version(rng: &mut Rng, record: &mut TableRecord) -> Expect {
    let id = any_object(rng, record);
    let good: &[u32] = match kind(record, id) {
        Kind::RecordDesc | Kind::Shape => &[1, 2],
        Kind::TableRecord => &[1],
        Kind::Array => &[1, 2, 3],
    };
    target(record, id).version(rng, good)
}

/// The other version, and comments as before.
fn desc_version_exchanged(rng: &mut Rng, record: &mut TableRecord) -> Expect {
    let Some(id) = any_desc(rng, record, |_| true) else { return Accepted };
    let desc = record.desc.desc_mut(id).expect("there is this RecordDesc");
    desc.header.version = 3_u32.wrapping_sub(desc.header.version);
    if desc.keys.is_empty() { Accepted } else { Open }
}

/// Another version, and an origin as before.
fn array_version_exchanged(rng: &mut Rng, record: &mut TableRecord) -> Expect {
    let id = array_that(rng, record, |_, _| true);
    let array = array(record, id);
    let old = array.header.version;
    array.header.version = if old < 3 { rng.pick(&[3 - old, 3]) } else { rng.pick(&[1, 2]) };
    let is_like = (old < 3) == (array.header.version < 3);
    if is_like || array.axes.is_empty() { Accepted } else { Open }
}

fn past_container(rng: &mut Rng, record: &mut TableRecord) -> Expect {
    let id = any_object(rng, record);
    target(record, id).past_container(rng)
}

fn too_short(rng: &mut Rng, record: &mut TableRecord) -> Expect {
    let id = any_object(rng, record);
    target(record, id).too_short(rng)
}

fn below_header(rng: &mut Rng, record: &mut TableRecord) -> Expect {
    let id = any_object(rng, record);
    target(record, id).below_header(rng)
}

fn to_container_end(rng: &mut Rng, record: &mut TableRecord) -> Expect {
    let id = any_object(rng, record);
    target(record, id).to_container_end()
}

/// Of any object, the record too.
fn with_extra(rng: &mut Rng, record: &mut TableRecord) -> Expect {
    let id = if rng.chance(1, 4) { 0 } else { any_object(rng, record) };
    target(record, id).with_extra(rng)
}

fn cut(rng: &mut Rng, record: &mut TableRecord) -> Expect {
    let id = if rng.chance(1, 4) { 0 } else { any_object(rng, record) };
    target(record, id).cut(rng)
}

fn several(rng: &mut Rng, record: &mut TableRecord) -> Expect {
    let id = any_object(rng, record);
    let versions: &[u32] = match kind(record, id) {
        Kind::RecordDesc => &[1, 2],
        Kind::TableRecord => &[1],
        Kind::Shape => return target(record, id).below_header(rng),
        Kind::Array => &[1, 2, 3],
    };
    target(record, id).several(rng, versions)
}

/// A TableRecord of 23 bytes, or in which a field begins and is torn.
fn without_contents(rng: &mut Rng, record: &mut TableRecord) -> Expect {
    let length = record.layout().0.bytes.len() - record.header.size();
    record.header.cut = length.wrapping_sub(rng.pick(&[0, 0, 1, 3]));
    Refused(1, Blame::Byte(record.header.size()))
}

// Strings.

/// Some String that is no object's name: whose it is, its name and number, and the
/// bytes from its text to its container's end.
fn any_text(rng: &mut Rng, record: &mut TableRecord) -> (Part, &'static str, usize, usize) {
    key_that(rng, record, |_| true, |rng| generate::string(rng, "Ref".into()));
    let (layout, _) = record.layout();
    let keys: Vec<usize> = record.desc.all().into_iter().map(|key| key.id).collect();
    let is_of_key = |field: &Field| match field.of {
        Part::Keyword(id) if field.name == "element" => keys.contains(&(id - 2)),
        Part::Keyword(id) => keys.contains(&id) && field.name != OBJECT_NAME,
        _ => false,
    };
    let texts: Vec<_> = layout.texts().into_iter().filter(is_of_key).collect();
    let field = texts[rng.below(texts.len())];
    (field.of, field.name, field.number, layout.room(field.start + 4, field.container))
}

fn text_past_container(rng: &mut Rng, record: &mut TableRecord) -> Expect {
    let (of, name, number, room) = any_text(rng, record);
    let room = room as u32;
    let length = rng.pick(&[room + 1, room + 1, room + 7, 0x7FFF_FFFF, 0x8000_0000, u32::MAX]);
    record.text_mut(of, name, number).stated = Some(length);
    Refused(1, of.nth(name, number))
}

fn text_over(rng: &mut Rng, record: &mut TableRecord) -> Expect {
    let (of, name, number, _) = any_text(rng, record);
    let length = rng.pick(&[4097, 4097, 4100]);
    record.text_mut(of, name, number).bytes = rng.letters(length);
    Refused(4, of.nth(name, number))
}

fn text_at_limit(rng: &mut Rng, record: &mut TableRecord) -> Expect {
    let (of, name, number, _) = any_text(rng, record);
    let length = rng.pick(&[4095, 4096, 4096]);
    record.text_mut(of, name, number).bytes = rng.letters(length);
    Accepted
}

fn text_near(rng: &mut Rng, record: &mut TableRecord) -> Expect {
    let (of, name, number, room) = any_text(rng, record);
    let text = record.text_mut(of, name, number);
    let length = text.bytes.len() as u32;
    let others = [length + 1, length.wrapping_sub(1), length + 4, 0, room as u32];
    text.stated = Some(rng.pick(&others));
    Open
}

// RecordDescs.

fn negative_count(rng: &mut Rng, record: &mut TableRecord) -> Expect {
    let id = any_desc(rng, record, |_| true).expect("there is one");
    let desc = record.desc.desc_mut(id).expect("there is this RecordDesc");
    desc.count =
        Some(rng.pick(&[u32::MAX, 0x8000_0000, 0xFFFF_0000, desc.keys.len() as u32 | 1 << 31]));
    Refused(4, Part::Keyword(id).field("count"))
}

fn count_above(rng: &mut Rng, record: &mut TableRecord) -> Expect {
    let id = any_desc(rng, record, |_| true).expect("there is one");
    let desc = record.desc.desc_mut(id).expect("there is this RecordDesc");
    let count = desc.keys.len() as u32;
    desc.count = Some(rng.pick(&[count + 1, count + 1, count + 256, 0x7FFF_FFFF, 0x7FFF_FFFE]));
    Refused(1, Blame::End(Part::Keyword(id)))
}

fn count_below(rng: &mut Rng, record: &mut TableRecord) -> Expect {
    any_key(rng, record);
    let id = any_desc(rng, record, |desc| !desc.keys.is_empty()).expect("there is one");
    let desc = record.desc.desc_mut(id).expect("there is this RecordDesc");
    desc.count = Some(rng.below(desc.keys.len()) as u32);
    Refused(7, Part::Keyword(id).header())
}

fn type_number(rng: &mut Rng, record: &mut TableRecord) -> Expect {
    let key = any_key(rng, record);
    key.data_type = match rng.below(4) {
        0 => rng.pick(&[1, 14, 26, 27, 28, 31, 32, -1]),
        1 => rng.pick(&[i32::MIN, i32::MAX, 256, 1 << 16, -256, 1 << 24]) | key.data_type,
        2 => rng.within(31..=300) as i32,
        _ => -(rng.within(1..=40) as i32),
    };
    let is_known = matches!(key.data_type, 0 | 2..=13 | 15..=25 | 29 | 30);
    if is_known { Open } else { Refused(5, Part::Keyword(key.id).field("type")) }
}

fn another_type(rng: &mut Rng, record: &mut TableRecord) -> Expect {
    let key = any_key(rng, record);
    key.data_type = rng.pick(&[0, 2, 5, 8, 9, 10, 11, 12, 13, 15, 20, 24, 25, 29, 30]);
    Open
}

/// A keyword of the record that holds records to this depth.
fn hold(rng: &mut Rng, record: &mut TableRecord, depth: usize) {
    let deep = chain(rng, 1, depth);
    let place = rng.below(record.desc.keys.len() + 1);
    record.desc.keys.insert(place, deep);
    record.number();
}

/// In the outermost RecordDesc alone, so that nothing comes before.
fn too_deep(rng: &mut Rng, record: &mut TableRecord) -> Expect {
    let depth = rng.pick(&[9, 9, 9, 10, 12]);
    let mut deep = values_chain(rng, 1, depth);
    deep.comment = "deep".into();
    let place = rng.below(record.desc.keys.len() + 1);
    record.desc.keys.insert(place, deep);
    record.number();
    TOO_DEEP
}

/// Descriptions down to a depth; the last has fields, or none and a TableRecord.
fn values_chain(rng: &mut Rng, depth: usize, to: usize) -> Key {
    if depth + 1 < to {
        let deeper = values_chain(rng, depth + 1, to);
        return Key::record("R", Desc::new(rng.within(1..=2) as u32, vec![deeper]));
    }
    let last = Desc::new(rng.within(1..=2) as u32, vec![generate::scalar(rng, "A".into())]);
    match rng.below(2) {
        0 => Key::record("R", last),
        _ => Key::whole("R", Desc::new(1, Vec::new()), TableRecord::new(last)),
    }
}

/// The description that is too deep is faulty too, or not there.
fn too_deep_torn(rng: &mut Rng, record: &mut TableRecord) -> Expect {
    too_deep(rng, record);
    let mut deepest = record.desc.all().into_iter().filter(|key| key.data_type == RECORD);
    // Descriptions without fields are the deepest, or those that hold no record.
    let id = deepest.rfind(|key| match &key.value {
        Value::Record(desc) => desc.keys.iter().all(|key| key.data_type != RECORD),
        Value::Whole(desc, _) => desc.keys.is_empty(),
        _ => false,
    });
    let id = id.expect("there is a record").id;
    let desc = match &key(record, id).value {
        Value::Record(desc) | Value::Whole(desc, _) => desc.id,
        _ => panic!("it is a record"),
    };
    let header = header(record, desc);
    match rng.below(4) {
        0 => header.name = "".into(),
        1 => header.version = other_uint(rng, &[1, 2]),
        2 => header.stated = Some(rng.pick(&[0, u32::MAX])),
        _ => header.cut = 4,
    }
    // It may be another record of the same kind that was spoilt.
    if is_deepest(record, id) { TOO_DEEP } else { Open }
}

/// Whether this keyword stands in a description at depth eight or deeper that is
/// part of the outermost RecordDesc.
fn is_deepest(record: &TableRecord, id: usize) -> bool {
    fn depth_of(desc: &Desc, id: usize, depth: usize) -> Option<usize> {
        desc.keys.iter().find_map(|key| match &key.value {
            _ if key.id == id => Some(depth),
            Value::Record(held) => depth_of(held, id, depth + 1),
            _ => None,
        })
    }
    depth_of(&record.desc, id, 1).is_some_and(|depth| depth >= DEEPEST)
}

/// A whole TableRecord at a depth, whose description goes deeper than eight.
fn too_deep_whole(rng: &mut Rng, record: &mut TableRecord) -> Expect {
    let held_at = rng.within(2..=8);
    let mut deep = values_chain(rng, held_at, 9);
    let rest = [generate::scalar(rng, "B".into())];
    for depth in (1..held_at).rev() {
        let mut keys = vec![deep];
        keys.extend(rest.iter().take(rng.below(2)).cloned());
        let held = Desc::new(rng.within(1..=2) as u32, keys);
        deep = match depth == held_at - 1 || rng.chance(1, 3) {
            true => Key::whole("R", Desc::new(2, Vec::new()), TableRecord::new(held)),
            false => Key::record("R", held),
        };
    }
    let place = rng.below(record.desc.keys.len() + 1);
    record.desc.keys.insert(place, deep);
    record.number();
    TOO_DEEP
}

fn eight_deep(rng: &mut Rng, record: &mut TableRecord) -> Expect {
    hold(rng, record, DEEPEST);
    Accepted
}

// Values.

fn bool_byte(rng: &mut Rng, record: &mut TableRecord) -> Expect {
    let id = key_that(rng, record, Key::is_bool, |_| Key::scalar("FLAG", BOOL, &[1]));
    key(record, id).value = Value::Bytes(vec![rng.within(2..=255) as u8]);
    Refused(5, Part::Keyword(id).field("value"))
}

/// One axis more or less than there are; what follows is taken for others.
fn axis_count(rng: &mut Rng, record: &mut TableRecord) -> Expect {
    let id = array_that(rng, record, |_, array| !array.axes.is_empty());
    let array = array(record, id);
    let count = array.axes.len() as u32;
    array.count = Some(rng.pick(&[count + 1, count - 1, count + 2]));
    Open
}

fn huge_axis_count(rng: &mut Rng, record: &mut TableRecord) -> Expect {
    let id = array_that(rng, record, |_, _| true);
    let array = array(record, id);
    array.count = Some(rng.pick(&[u32::MAX, 0x7FFF_FFFF, 0x8000_0000, 0x4000_0001]));
    if array.origin.is_none() {
        return Open; // elements are taken for axes, which may be negative
    }
    let (layout, _) = record.layout();
    let of = Part::Keyword(id + 2);
    let missing = missing_int(layout.field(of, "axes", 0).start, layout.object(of).end);
    Refused(1, Blame::Byte(missing))
}

fn negative_axis(rng: &mut Rng, record: &mut TableRecord) -> Expect {
    let id = array_that(rng, record, |_, array| !array.axes.is_empty());
    let axes = &mut array(record, id).axes;
    let index = rng.below(axes.len());
    axes[index] = rng.pick(&[-1, i32::MIN, -256, axes[index] | i32::MIN]);
    Refused(5, Part::Keyword(id + 2).nth("axis", index))
}

fn has_elements(_: &FieldShape, array: &Array) -> bool {
    !array.elements.is_empty() && !array.axes.is_empty()
}

fn is_bools(record: &mut TableRecord, id: usize) -> bool {
    key(record, id).data_type == 13
}

fn axis_above(rng: &mut Rng, record: &mut TableRecord) -> Expect {
    let id = array_that(rng, record, has_elements);
    let is_bools = is_bools(record, id);
    let array = array(record, id);
    let index = rng.below(array.axes.len());
    array.axes[index] = array.axes[index].wrapping_add(rng.pick(&[1, 1, 2, 1000]));
    let fits = is_bools && Array::count(&array.axes).div_ceil(8) == array.elements.len();
    refused_unless(fits, 1, Blame::End(Part::Keyword(id + 2)))
}

fn axis_below(rng: &mut Rng, record: &mut TableRecord) -> Expect {
    let id = array_that(rng, record, has_elements);
    let is_bools = is_bools(record, id);
    let array = array(record, id);
    let index = rng.below(array.axes.len());
    array.axes[index] = array.axes[index].wrapping_sub(1);
    let fits = is_bools && Array::count(&array.axes).div_ceil(8) == array.elements.len();
    refused_unless(fits, 7, Part::Keyword(id + 2).header())
}

fn axis_zero(rng: &mut Rng, record: &mut TableRecord) -> Expect {
    let id = array_that(rng, record, has_elements);
    let array = array(record, id);
    let index = rng.below(array.axes.len());
    array.axes[index] = 0;
    if rng.chance(1, 2) {
        match &mut array.elements {
            Elements::Bytes(_, bytes) => bytes.clear(),
            Elements::Texts(texts) => texts.clear(),
        }
        return Accepted;
    }
    Refused(7, Part::Keyword(id + 2).header())
}

/// Axes whose product passes 2^32 or 2^64, or whose bits do.
fn huge_axes(rng: &mut Rng, record: &mut TableRecord) -> Expect {
    let id = array_that(rng, record, has_elements);
    let array = array(record, id);
    let axes = rng.pick(&[
        &[i32::MAX][..],
        &[1 << 16, 1 << 16],
        &[1 << 30, 1 << 30, 16],
        &[i32::MAX, i32::MAX, i32::MAX],
        &[1 << 21, 1 << 21, 1 << 22],
        &[1 << 30, 1 << 30, 1 << 30, 1 << 30, 1 << 8],
        &[1 << 29, 8],
        // With 16, 8, 4 and 2 bytes an element: 2^64 and 2^32 bytes.
        &[1 << 30, 1 << 30, 1],
        &[1 << 30, 1 << 30, 2],
        &[1 << 30, 1 << 30, 4],
        &[1 << 30, 1 << 30, 8],
        &[1 << 28],
        &[1 << 29],
        &[1 << 30],
    ]);
    array.axes = axes.to_vec();
    array.origin = array.origin.as_ref().map(|_| vec![0; axes.len()]);
    // The elements that are there end with the object, Strings too.
    Refused(1, Blame::End(Part::Keyword(id + 2)))
}

fn huge_axes_and_zero(rng: &mut Rng, record: &mut TableRecord) -> Expect {
    let id = array_that(rng, record, |_, _| true);
    let array = array(record, id);
    let mut axes = vec![i32::MAX; rng.within(1..=5)];
    let place = rng.below(axes.len() + 1);
    axes.insert(place, 0);
    array.origin = array.origin.as_ref().map(|_| vec![i32::MIN; axes.len()]);
    array.axes = axes;
    match &mut array.elements {
        Elements::Bytes(_, bytes) => bytes.clear(),
        Elements::Texts(texts) => texts.clear(),
    }
    Accepted
}

/// Without axes there are no elements.
fn no_axes(rng: &mut Rng, record: &mut TableRecord) -> Expect {
    let id = array_that(rng, record, has_elements);
    let array = array(record, id);
    array.axes.clear();
    array.origin = array.origin.as_ref().map(|_| Vec::new());
    match &mut array.elements {
        Elements::Bytes(width, bytes) => bytes.truncate(*width),
        Elements::Texts(texts) => texts.truncate(1),
    }
    Refused(7, Part::Keyword(id + 2).header())
}

fn origin(rng: &mut Rng, record: &mut TableRecord) -> Expect {
    let id = array_that(rng, record, |_, array| !array.axes.is_empty());
    let array = array(record, id);
    array.header.version = rng.within(1..=2) as u32;
    let starts = array.axes.iter().map(|_| rng.pick(&[-1, 0, 7, i32::MIN, i32::MAX]));
    array.origin = Some(starts.collect());
    Accepted
}

fn spare_bits(rng: &mut Rng, record: &mut TableRecord) -> Expect {
    let count = rng.within(1..=20) as i32;
    let id = key_that(
        rng,
        record,
        |key| key.data_type == 13 && matches!(key.value, Value::Array(..)),
        |rng| generate::array_of(rng, "FLAGS".into(), BOOL, &[count]),
    );
    if let Elements::Bytes(_, bytes) = &mut array(record, id).elements
        && let Some(last) = bytes.last_mut()
    {
        *last = 0xFF;
    }
    Accepted
}

// Shapes in RecordDescs.

fn shape_numbers(rng: &mut Rng, record: &mut TableRecord) -> Expect {
    let id = array_that(rng, record, |_, _| true);
    match shape(record, id) {
        FieldShape::Position(shape) => {
            shape.axes.iter_mut().for_each(|axis| *axis = rng.number() as i64);
        }
        shape => {
            let axes = (0..rng.below(5)).map(|_| rng.uint() as i32);
            *shape = FieldShape::Ints { count: None, axes: axes.collect() };
        }
    }
    Accepted
}

fn shape_form(rng: &mut Rng, record: &mut TableRecord) -> Expect {
    let id = array_that(rng, record, |_, _| true);
    let shape = shape(record, id);
    *shape = match shape {
        FieldShape::Position(shape) => {
            FieldShape::ints(&shape.axes.iter().map(|axis| *axis as i32).collect::<Vec<_>>())
        }
        FieldShape::Ints { axes, .. } => {
            let axes: Vec<i64> = axes.iter().map(|axis| i64::from(*axis)).collect();
            FieldShape::Position(Shape::new(rng.within(1..=2) as u32, &axes))
        }
        FieldShape::Bytes(_) => FieldShape::ints(&[]),
    };
    Accepted
}

fn shape_count(rng: &mut Rng, record: &mut TableRecord) -> Expect {
    let id = array_that(rng, record, |_, _| true);
    let more = rng.pick(&[1, 50, 0x7FFF_FFFF, 0x4000_0000, u32::MAX]);
    match shape(record, id) {
        FieldShape::Ints { count, axes } => {
            *count = Some((axes.len() as u32).saturating_add(more));
            as_ints(record, id)
        }
        FieldShape::Position(shape) => {
            shape.count = Some((shape.axes.len() as u32).saturating_add(more));
            Refused(1, Blame::End(Part::Keyword(id + 1)))
        }
        FieldShape::Bytes(_) => Open,
    }
}

fn misspelt_shape(rng: &mut Rng, record: &mut TableRecord) -> Expect {
    let id = with_position(rng, record);
    misspell(rng, &mut header(record, id + 1).name);
    as_ints(record, id)
}

/// The RecordDesc ends with the name, in it, or a byte or more behind it.
fn shape_at_end(rng: &mut Rng, record: &mut TableRecord) -> Expect {
    let id = with_position(rng, record);
    let descs = record.desc.descs();
    let desc = descs.into_iter().find(|desc| desc.keys.iter().any(|key| key.id == id));
    let desc = desc.expect("it is described").id;
    let (layout, _) = record.layout();
    let start = layout.object(Part::Keyword(id + 1)).start;
    let kept = start + rng.pick(&[0, 2, 4, 5, 8, 12, 15, 16, 17, 18, 20, 21, 23]);
    let end = layout.object(Part::Keyword(desc)).end;
    header(record, desc).cut = end.saturating_sub(kept);
    if end <= kept { Open } else { Refused(1, Blame::Past(Part::Keyword(desc))) }
}

fn shape_version(rng: &mut Rng, record: &mut TableRecord) -> Expect {
    let id = with_position(rng, record);
    target(record, id + 1).version(rng, &[1, 2])
}

/// An Array object where a shape stands, or another one: a count and Ints.
fn array_for_shape(rng: &mut Rng, record: &mut TableRecord) -> Expect {
    let id = array_that(rng, record, |_, _| true);
    let axes = [2, 3];
    let elements = Elements::Bytes(4, vec![0; 24]);
    let array = Array::new(array_name(rng), 3, &axes, elements);
    let object = Key::array("", INT, FieldShape::ints(&[]), array);
    let alone = TableRecord::new(Desc::new(1, vec![object]));
    let (layout, places) = alone.layout();
    let bytes = layout.bytes[places[0].part.clone()].to_vec();
    *shape(record, id) = FieldShape::Bytes(bytes);
    as_ints(record, id)
}

/// Ints that have the name of an IPosition where it would have it.
fn ints_like_position(rng: &mut Rng, record: &mut TableRecord) -> Expect {
    let id = array_that(rng, record, |_, _| true);
    let mut axes = vec![9, 0x4950_6F73, 0x6974_696F, 0x6E00_0000, 0x0100_0000, 0, 0];
    if rng.chance(1, 3) {
        axes.truncate(rng.within(3..=6));
    }
    if rng.chance(1, 4) {
        let index = rng.below(4.min(axes.len()));
        axes[index] ^= 1 << rng.below(31);
    }
    *shape(record, id) = FieldShape::Ints { count: None, axes };
    Open
}

// Others.

fn record_type(rng: &mut Rng, record: &mut TableRecord) -> Expect {
    record.record_type = rng.pick(&[0, 1, 2, 3, -1, i32::MIN, i32::MAX]);
    Accepted
}

fn equal_names(rng: &mut Rng, record: &mut TableRecord) -> Expect {
    let name: Text = rng.pick(&["UNIT", "", "MEASINFO"]).into();
    let held = Desc::new(2, vec![Key::string("type", "epoch"), Key::string("Ref", "UTC")]);
    let mut keys =
        vec![generate::scalar(rng, name.clone()), Key::record(name, held), Key::string("Ref", "x")];
    rng.shuffle(&mut keys);
    record.desc.keys.extend(keys);
    record.number();
    Accepted
}

/// An empty description, and nothing or only values where the TableRecord stands.
fn held_without_record(rng: &mut Rng, record: &mut TableRecord) -> Expect {
    let count = rng.pick(&[0, 1, 4, 22]);
    let value = Value::Record(Desc::new(2, Vec::new()));
    let mut keys = vec![Key::new("R", RECORD, value)];
    if count > 0 {
        keys.push(Key::string("S", rng.bytes(count)));
    }
    record.desc.keys.extend(keys);
    record.number();
    if record.desc.keys.last().is_some_and(|key| key.data_type == RECORD) {
        return Refused(1, Blame::End(Part::Keyword(0)));
    }
    Open
}

/// A description with fields, and a TableRecord where its values stand.
fn held_with_both(rng: &mut Rng, record: &mut TableRecord) -> Expect {
    let described = Desc::new(2, vec![generate::scalar(rng, "A".into())]);
    let whole = TableRecord::new(described.clone());
    let key = Key::new("R", RECORD, Value::Whole(described, Box::new(whole)));
    record.desc.keys.push(key);
    record.number();
    Open
}

/// The last value, or a byte of it, is not there.
fn value_left_out(rng: &mut Rng, record: &mut TableRecord) -> Expect {
    any_key(rng, record);
    let (layout, places) = record.layout();
    let last = places.last().expect("there is a keyword").part.clone();
    let length = layout.bytes.len().wrapping_sub(last.start);
    record.header.cut = if rng.chance(1, 3) { 1 } else { length };
    Refused(1, Blame::Past(Part::Keyword(0)))
}
