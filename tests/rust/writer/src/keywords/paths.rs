//! Paths to keywords: right ones, and such that lead nowhere; and what a reader
//! must answer to each, from where the keywords were put.

use crate::keywords::record::Place;
use crate::rng::Rng;
use crate::texts::Answer;

/// No such keyword.
pub const NO_KEYWORD: Answer = Answer::Refused(16, 0);

/// An AipsIO String.
pub fn string(text: &[u8]) -> Vec<u8> {
    [&(text.len() as u32).to_be_bytes()[..], text].concat()
}

/// The bytes of a path.
pub fn path(names: &[&str]) -> Vec<u8> {
    names.iter().flat_map(|name| string(name.as_bytes())).collect()
}

/// Every path that leads to a keyword, and the keyword: of equal names the first.
pub fn all(places: &[Place]) -> Vec<(Vec<u8>, &Place)> {
    let mut found = Vec::new();
    add(places, &[], &mut found);
    found
}

fn add<'a>(places: &'a [Place], before: &[u8], found: &mut Vec<(Vec<u8>, &'a Place)>) {
    for (number, place) in places.iter().enumerate() {
        if places[..number].iter().any(|earlier| earlier.name == place.name) {
            continue;
        }
        let path = [before, &string(&place.name)].concat();
        found.push((path.clone(), place));
        add(place.held.as_deref().unwrap_or_default(), &path, found);
    }
}

/// The paths to keywords of a record whose name an earlier keyword has, which they
/// do not lead to.
pub fn hidden(places: &[Place]) -> Vec<Vec<u8>> {
    let mut hidden = Vec::new();
    for (number, place) in places.iter().enumerate() {
        let name = string(&place.name);
        let held = place.held.as_deref().unwrap_or_default();
        let is_later = places[..number].iter().any(|earlier| earlier.name == place.name);
        let below = if is_later { every(held) } else { self::hidden(held) };
        hidden.extend(below.into_iter().map(|path| [&name[..], &path].concat()));
    }
    hidden
}

/// The paths to all keywords, by their own names.
fn every(places: &[Place]) -> Vec<Vec<u8>> {
    let of_place = |place: &Place| {
        let name = string(&place.name);
        let held = every(place.held.as_deref().unwrap_or_default());
        let held = held.into_iter().map(|path| [&name[..], &path].concat());
        [name.clone()].into_iter().chain(held.collect::<Vec<_>>()).collect::<Vec<_>>()
    };
    places.iter().flat_map(of_place).collect()
}

/// The answer about a keyword of a record that begins at `start`.
pub fn keyword(places: &[Place], start: usize, path: &[u8]) -> Answer {
    let found = all(places).into_iter().find(|(known, _)| known == path);
    found.map_or(NO_KEYWORD, |(_, place)| Answer::Told(value(place, start).into()))
}

/// The answer about a field by its number.
pub fn field(places: &[Place], start: usize, path: &[u8], number: u64) -> Answer {
    let found = all(places);
    let record = match path {
        [] => Some(places),
        _ => found.iter().find(|(known, _)| known == path).and_then(|(_, at)| at.held.as_deref()),
    };
    let number = usize::try_from(number).unwrap_or(usize::MAX);
    let Some(place) = record.and_then(|record| record.get(number)) else {
        return NO_KEYWORD;
    };
    let name = [start + place.name_start, place.name.len()].map(|number| number as u64);
    Answer::Told([&name[..], &value(place, start)].concat())
}

/// The type number, and the part's start and length.
fn value(place: &Place, start: usize) -> [u64; 3] {
    let part = [start + place.part.start, place.part.len()].map(|number| number as u64);
    [place.data_type as u64, part[0], part[1]]
}

/// The paths of the records, the asked one's too, which is empty.
pub fn records(places: &[Place]) -> Vec<(Vec<u8>, usize)> {
    let held = all(places)
        .into_iter()
        .filter_map(|(path, place)| Some((path, place.held.as_ref()?.len())));
    [(Vec::new(), places.len())].into_iter().chain(held).collect()
}

/// A path near a right one.
pub fn near(rng: &mut Rng, right: &[u8]) -> Vec<u8> {
    let mut path = right.to_vec();
    match rng.below(14) {
        // In the middle of a String or of a length, or after fewer Strings.
        0..=2 => path.truncate(rng.below(right.len() + 1)),
        3 => drop(path.pop()),
        // Behind a name that is found: parts of a String, and whole ones.
        4 => {
            let count = rng.within(1..=3);
            path.extend(rng.bytes(count));
        }
        5 => path.extend([0, 0, 0]),
        6 => path.extend([0, 0, 0, 1]),
        7 => path.extend(string(b"")),
        8 => path.extend(rng.pick(&[&string(b"type")[..], &string(b"UNIT"), &path.clone()])),
        // Another byte, and another length.
        9 if !path.is_empty() => {
            let index = rng.below(path.len());
            path[index] ^= 1 << rng.below(8);
        }
        // A name that is longer or shorter by a byte.
        10 => longer_by(&mut path, rng.pick(&[0, b' ', b'S'])),
        11 => shorter(&mut path),
        // A long name.
        12 => {
            let length = rng.pick(&[4096, 4097, 5000]);
            let name = vec![b'N'; length];
            path = if rng.chance(1, 2) { string(&name) } else { [path, string(&name)].concat() };
        }
        _ => path = rng.pick(&[&[][..], &[0; 4], &[0; 8], &[255; 4], &[0, 0, 0, 200, 65]]).to_vec(),
    }
    path
}

/// Where the last String of a whole path begins.
fn last(path: &[u8]) -> Option<usize> {
    let mut at = 0;
    loop {
        let length = path.get(at..at + 4)?;
        let next = at + 4 + u32::from_be_bytes(length.try_into().ok()?) as usize;
        if next >= path.len() {
            return Some(at);
        }
        at = next;
    }
}

fn longer_by(path: &mut Vec<u8>, byte: u8) {
    if let Some(at) = last(path) {
        path[at + 3] = path[at + 3].wrapping_add(1);
        path.push(byte);
    }
}

fn shorter(path: &mut Vec<u8>) {
    if let Some(at) = last(path)
        && path[at + 3] > 0
    {
        path[at + 3] -= 1;
        path.pop();
    }
}

/// Numbers of fields to ask for: each, the count, and some that are far above.
pub fn numbers(count: usize) -> impl Iterator<Item = u64> {
    let count = count as u64;
    (0..=count + 1).chain([1 << 32, (1 << 32) + count.saturating_sub(1), 1 << 63, u64::MAX])
}
