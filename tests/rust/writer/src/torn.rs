//! Request lines about the samples' files, cut off at one byte after the other:
//! the file, its header, its index and the indices of its buckets.

use crate::buckets::{BucketFile, HEADER_ROOM, Subject};
use crate::incremental::{DATA_START, IncrementalFile};
use crate::questions::Asked;
use crate::samples;
use crate::standard::StandardFile;

/// Every byte up to here, behind the header's part, and then in steps.
const EVERY: usize = 1000;
const STEP: usize = 61;

/// All lines.
pub fn lines() -> impl Iterator<Item = String> + Send {
    let standard = samples::standard_files().into_iter().flat_map(|subject| {
        let files = [torn_files(&subject), headers(&subject), texts(&subject)];
        in_turn(&subject, files.concat())
    });
    let incremental = samples::incremental_files().into_iter().flat_map(|subject| {
        let files = [torn_files(&subject), headers(&subject), indices(&subject), buckets(&subject)];
        in_turn(&subject, files.concat())
    });
    standard.chain(incremental)
}

/// Each question in its turn.
fn in_turn<F: BucketFile>(subject: &Subject<F>, files: Vec<Vec<u8>>) -> Vec<String> {
    let asked = Asked::new(subject);
    let line = |(turn, file)| Asked { file, ..asked.clone() }.in_turn(turn);
    files.into_iter().enumerate().map(line).collect()
}

/// The file cut off: at every byte if it is small; else also in steps and
/// beside each bucket's start and end.
fn torn_files<F: BucketFile>(subject: &Subject<F>) -> Vec<Vec<u8>> {
    let file = subject.file.encode();
    let size = subject.file.buckets().size as usize;
    let is_beside = |length: usize| (length + 1 - HEADER_ROOM) % size <= 2;
    let is_asked =
        |length: &usize| *length < EVERY || length.is_multiple_of(STEP) || is_beside(*length);
    (0..file.len()).filter(is_asked).map(|length| file[..length].to_vec()).collect()
}

/// The header's object with every length up to a few bytes more than its own,
/// and with those that end it with its part of the file or one byte later.
fn headers<F: BucketFile>(subject: &Subject<F>) -> Vec<Vec<u8>> {
    let layout = subject.file.header();
    let length = layout.bytes.len() as u32;
    let with_length = |length: u32| {
        let mut changed = subject.file.clone();
        changed.buckets_mut().header.stated = Some(length);
        changed.encode()
    };
    (0..length).chain([HEADER_ROOM as u32 - 4, HEADER_ROOM as u32 - 3]).map(with_length).collect()
}

/// The index text by a stated length, shorter or longer than its own; and cut
/// off with the lengths of the objects that this cuts off.
fn texts(subject: &Subject<StandardFile>) -> Vec<Vec<u8>> {
    let text = subject.file.text();
    let stated = (0..=text.bytes.len() as u32 + 40).map(|length| {
        let index_length = Some(length);
        StandardFile { index_length, ..subject.file.clone() }.encode()
    });
    let cut = (1..text.bytes.len()).map(|length| subject.file.with_text(&text.cut(length)));
    stated.chain(cut).collect()
}

/// The ISMIndex cut off with the lengths of the objects that this cuts off.
fn indices(subject: &Subject<IncrementalFile>) -> Vec<Vec<u8>> {
    let layout = subject.file.index_layout();
    let file = subject.file.encode();
    let before = &file[..file.len() - layout.bytes.len()];
    (0..layout.bytes.len()).map(|length| [before, &layout.cut(length)].concat()).collect()
}

/// Data parts so long that the bucket ends at every byte of its index.
fn buckets(subject: &Subject<IncrementalFile>) -> Vec<Vec<u8>> {
    let size = subject.file.buckets.size as usize;
    let of_bucket = |entry: usize| {
        let bucket = &subject.file.data[entry];
        let index = bucket.length() - DATA_START as usize - bucket.data.len();
        (0..=index).map(move |kept| {
            let mut changed = subject.file.clone();
            changed.data[entry].data.resize(size - DATA_START as usize - kept, 0);
            changed.encode()
        })
    };
    (0..subject.file.data.len()).flat_map(of_bucket).collect()
}
