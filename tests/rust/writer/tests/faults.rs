//! What the writer expects of each table it makes, against the model.

mod common;

use common::assert_answer;
use model::Refusal;
use std::collections::BTreeMap;
use writer::faults::{FAULTS, LARGE_FAULTS};
use writer::rng::Rng;
use writer::sets::{Case, case, large_case};
use writer::{generate, table::Table};

fn refusal(bytes: &[u8]) -> Option<Refusal> {
    model::describe(bytes).err()
}

fn assert_case(case: &Case, number: u64) {
    assert_answer(refusal(&case.bytes), case.expect, &format!("{}, case {number}", case.what));
}

#[test]
fn every_fault_is_refused_as_expected() {
    for (what, fault) in FAULTS.iter().chain(LARGE_FAULTS) {
        for number in 0..300 {
            let rng = &mut Rng::new(11, number);
            let mut table = generate::table(rng);
            let expect = fault(rng, &mut table);
            assert_case(&Case::new(&table, expect, what), number);
        }
    }
}

#[test]
fn every_fault_is_reached() {
    // Each fault gives at least one refusal, but for those that are none.
    for (what, fault) in FAULTS {
        let refused = (0..100).any(|number| {
            let rng = &mut Rng::new(12, number);
            let mut table = generate::table(rng);
            fault(rng, &mut table);
            refusal(&table.encode()).is_some()
        });
        let harmless = [
            "original names twice",
            "DMInfo of the other form",
            "DMInfo sets and offsets exchanged",
            "trailing bytes",
            "record contents",
        ];
        let is_harmless = harmless.contains(what);
        assert_eq!(refused, !is_harmless, "{what}");
    }
}

#[test]
fn generated_cases_are_answered_as_expected() {
    let mut found = BTreeMap::new();
    for number in 0..8000 {
        let case = case(&mut Rng::new(13, number));
        assert_case(&case, number);
        let refusal = refusal(&case.bytes).map_or(0, |refusal| refusal.number);
        *found.entry(refusal).or_insert(0) += 1;
    }
    assert_eq!(found.keys().copied().collect::<Vec<_>>(), (0..=7).collect::<Vec<_>>());
    assert!(found.values().all(|count| *count > 200), "{found:?}");
}

/// A good table is described as it was written.
#[test]
fn descriptions_are_as_written() {
    for number in 0..1000 {
        let table = generate::table(&mut Rng::new(16, number));
        let bytes = table.encode();
        let description = model::describe(&bytes).unwrap();
        assert_eq!(description.rows, table.rows());
        assert_eq!(u32::from(description.byte_order.is_big()), table.endianness);
        assert_eq!(description.columns.len(), table.columns().len());
        for (column, written) in description.columns.iter().zip(table.columns()) {
            let info = &written.info;
            let mut managers = table.managers().iter();
            let manager = managers.find(|manager| manager.number == info.manager).unwrap();
            let place = if manager.tells_places() { [info.set, info.offset] } else { [0; 2] };
            assert_eq!(column.name, written.name.bytes);
            assert_eq!(column.data_type.number(), written.data_type);
            assert_eq!(column.is_array, written.is_array());
            assert_eq!(column.options, written.options);
            assert_eq!(column.string_maximum, written.string_maximum);
            assert_eq!(column.manager, info.manager);
            assert_eq!([column.set, column.offset], place.map(u64::from));
            let elements = match &written.shape {
                None => 1,
                Some(shape) if written.is_fixed() => shape.axes.iter().product(),
                Some(_) => 0,
            };
            assert_eq!(i64::from(column.elements), elements);
        }
        let managers: Vec<_> = description.managers.iter().map(|m| (m.number, m.name)).collect();
        let written: Vec<_> =
            table.managers().iter().map(|m| (m.number, &m.name.bytes[..])).collect();
        assert_eq!(managers, written);
    }
}

#[test]
fn large_cases_are_answered_as_expected() {
    for number in 0..60 {
        assert_case(&large_case(&mut Rng::new(14, number)), number);
    }
}

/// The objects and strings that faults choose from are those of the layout.
#[test]
fn layout_is_in_file_order() {
    for number in 0..200 {
        let mut table: Table = generate::table(&mut Rng::new(15, number));
        let layout = table.layout();
        let headers = table.headers_mut();
        assert_eq!(headers.len(), layout.objects.len());
        for (header, object) in headers.iter().zip(&layout.objects) {
            let name = &layout.bytes[object.start + 8..][..header.name.bytes.len()];
            assert_eq!(name, header.name.bytes);
        }
        let texts = table.texts_mut();
        let written = layout.texts();
        assert_eq!(texts.len(), written.len());
        for ((_, text), field) in texts.iter().zip(&written) {
            assert_eq!(&layout.bytes[field.start + 4..field.end], text.bytes);
        }
        assert!(layout.fields.is_sorted_by_key(|field| field.start));
        assert!(layout.objects.is_sorted_by_key(|object| object.start));
    }
}
