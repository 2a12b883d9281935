//! How often each question was accepted and refused, and with a byte.

use crate::part::Part;
use std::collections::BTreeMap;
use std::fmt;
use std::ops::RangeInclusive;

/// Refusal numbers are below this; 0 stands for accepted.
pub const NUMBERS: usize = 17;

#[derive(Clone, Debug, Default)]
pub struct Tally {
    /// By question word: how often each refusal number was the answer.
    questions: BTreeMap<String, [u64; NUMBERS]>,
    /// By what the byte counts in: how often each refusal number had one.
    /// Byte 0, which may be a field's or none, does not count.
    bytes: BTreeMap<Part, [u64; NUMBERS]>,
    /// By question word: how many views were shorter than their cell, and how many
    /// of these were empty.
    trimmed: BTreeMap<&'static str, [u64; 2]>,
    no_requests: u64,
}

/// The words of views, and of the padded views of the same cells.
const VIEWS: [(&str, &str); 2] = [("view", "padded"), ("viewplan", "paddedplan")];

impl Tally {
    pub fn add(&mut self, request: &str, answer: &str) {
        if answer == "bad request" {
            self.no_requests += 1;
            return;
        }
        let question = request.split(' ').next().unwrap_or_default();
        if !self.questions.contains_key(question) {
            self.questions.insert(question.to_string(), [0; NUMBERS]);
        }
        let counts = self.questions.get_mut(question).expect("it was just put there");
        let [number, byte] = refusal(question, answer);
        counts[number] += 1;
        if byte > 0 {
            self.bytes.entry(Part::of(request, byte)).or_insert([0; NUMBERS])[number] += 1;
        }
        let view = VIEWS.into_iter().find(|(word, _)| *word == question && number == 0);
        if let Some((word, padded)) = view {
            let cell = model::answer(&request.replacen(word, padded, 1));
            let [length, cell] = [answer, &cell].map(byte_length);
            let counts = self.trimmed.entry(word).or_default();
            counts[0] += u64::from(length < cell);
            counts[1] += u64::from(length == 0);
        }
    }

    pub fn total(&self) -> u64 {
        self.questions.values().flatten().sum::<u64>() + self.no_requests
    }

    fn occurrences(&self, number: usize) -> u64 {
        self.questions.values().map(|counts| counts[number]).sum()
    }

    /// How often a refusal number had a byte of this part.
    fn with_byte(&self, part: Part, number: usize) -> u64 {
        self.bytes.get(&part).map_or(0, |counts| counts[number])
    }

    /// Fails if a refusal number of this question is missing.
    pub fn check_question(
        &self,
        question: &str,
        each: RangeInclusive<usize>,
    ) -> Result<(), String> {
        let counts = self.questions.get(question).copied().unwrap_or_default();
        let missing = each.filter(|number| counts[*number] == 0);
        none(missing, &format!("refusal numbers that did not occur with {question}"))
    }

    /// Fails if fewer views were shorter than their cell, or empty, by position or
    /// by plan.
    pub fn check_trimmed(&self, least: u64) -> Result<(), String> {
        for (word, _) in VIEWS {
            let counts = self.trimmed.get(word).copied().unwrap_or_default();
            if let Some((count, what)) =
                counts.into_iter().zip(["shorter", "empty"]).find(|(count, _)| *count < least)
            {
                return Err(format!(
                    "only {count} answers of {word} were {what}, {least} are needed"
                ));
            }
        }
        Ok(())
    }

    /// Fails if there were too few requests, or a refusal number is missing, at
    /// all or with a byte of one of these parts.
    pub fn check(
        &self,
        min: u64,
        each: RangeInclusive<usize>,
        bytes: &[Part],
    ) -> Result<(), String> {
        if self.total() < min {
            return Err(format!("only {} requests, {min} are needed", self.total()));
        }
        let missing = each.filter(|number| self.occurrences(*number) == 0);
        none(missing, "refusal numbers that did not occur")?;
        for part in bytes {
            let numbers = part.numbers().iter().copied();
            let missing = numbers.filter(|number| self.with_byte(*part, *number) == 0);
            let what =
                format!("refusal numbers that did not occur with a byte of the {}", part.name());
            none(missing, &what)?;
        }
        Ok(())
    }
}

/// Fails if there is one of these numbers.
fn none(numbers: impl Iterator<Item = usize>, what: &str) -> Result<(), String> {
    let numbers: Vec<String> = numbers.map(|number| number.to_string()).collect();
    if numbers.is_empty() { Ok(()) } else { Err(format!("{what}: {}", numbers.join(", "))) }
}

/// The refusal number of an answer and its byte, 0 and 0 if it is none.
fn refusal(question: &str, answer: &str) -> [usize; 2] {
    // A listing has its refusal in its output, in hex.
    let output = if question == "listing" { model::hex::decode(answer) } else { None };
    let answer = match &output {
        Some(bytes) => str::from_utf8(bytes).unwrap_or_default().trim_end(),
        None => answer,
    };
    let Some(refused) = answer.strip_prefix("refused ") else {
        return [0; 2];
    };
    let mut numbers = refused.split(' ').map(str::parse);
    [(); 2].map(|()| match numbers.next() {
        Some(Ok(number)) => number,
        _ => panic!("the model refuses with a number and a byte"),
    })
}

/// The length of an accepted view.
fn byte_length(answer: &str) -> u64 {
    let length = answer.split(' ').nth(2).and_then(|length| length.parse().ok());
    length.expect("a view tells start and length")
}

impl fmt::Display for Tally {
    fn fmt(&self, out: &mut fmt::Formatter<'_>) -> fmt::Result {
        let last = (1..NUMBERS).rev().find(|number| self.occurrences(*number) > 0).unwrap_or(0);
        let numbers: Vec<usize> = (1..=last).collect();
        line(out, "question", "accepted", &numbers)?;
        for (question, counts) in &self.questions {
            line(out, question, counts[0], &counts[1..=last])?;
        }
        for (part, counts) in &self.bytes {
            line(out, &format!("byte of {}", part.name()), "", &counts[1..=last])?;
        }
        for (word, [shorter, empty]) in &self.trimmed {
            line(out, &format!("{word}, shorter"), shorter, &[0; 0])?;
            line(out, &format!("{word}, empty"), empty, &[0; 0])?;
        }
        if self.no_requests > 0 {
            line(out, "no request", self.no_requests, &[0; 0])?;
        }
        writeln!(out, "{} requests compared, no difference", self.total())
    }
}

/// A line of the table.
fn line(
    out: &mut fmt::Formatter<'_>,
    name: &str,
    accepted: impl fmt::Display,
    refused: &[impl fmt::Display],
) -> fmt::Result {
    write!(out, "{name:19}{accepted:>8}")?;
    for count in refused {
        write!(out, "{count:>8}")?;
    }
    writeln!(out)
}

#[cfg(test)]
mod tests {
    use super::*;
    use model::hex;
    use writer::buckets::{BucketFile, Subject};
    use writer::standard::StandardFile;

    #[test]
    fn answers_are_counted() {
        let mut tally = Tally::default();
        tally.add("describe be", "refused 1 0");
        tally.add("listing -", &model::answer("listing -"));
        tally.add("column - -", "ok 3");
        tally.add("check - 0 - 1", "refused 14 0 00");
        tally.add("elementbits 3", "ok 16");
        tally.add("elementbits +3", "bad request");
        tally.add("nothing", "bad request");
        assert_eq!(tally.total(), 7);
        assert_eq!([0, 1, 2, 14].map(|number| tally.occurrences(number)), [2, 2, 0, 1]);
        assert!(tally.check(7, 1..=1, &[]).is_ok());
        assert!(tally.check(8, 1..=1, &[]).is_err());
        assert!(tally.check(7, 1..=2, &[]).is_err());
        assert!(tally.to_string().contains("\nelementbits               1 "));
        assert!(tally.check_question("check", 14..=14).is_ok());
        assert!(tally.check_question("column", 14..=14).is_err());
        let missing = tally.check_question("place1", 8..=9).unwrap_err();
        assert!(missing.ends_with("with place1: 8, 9"), "{missing}");
    }

    #[test]
    fn trimmed_views_are_counted() {
        let subject = writer::samples::texts_file();
        let files =
            [subject.table.encode(), subject.file.encode()].map(|bytes| hex::encode(&bytes));
        let plan = subject.file.plan(&subject.table, 1).map(|number| number.to_string()).join(",");
        let mut tally = Tally::default();
        // Of NAME shorter, whole, empty and shorter ones; a Bool; an Int.
        for (word, row, column) in [
            ("view", 0, "1"),
            ("view", 1, "1"),
            ("view", 2, "1"),
            ("view", 3, "1"),
            ("view", 0, "3"),
            ("view", 0, "0"),
            ("padded", 0, "1"),
            ("viewplan", 0, &plan),
            ("paddedplan", 2, &plan),
        ] {
            let request = format!("{word} {} {row} {column} 134", files.join(" "));
            let answer = model::answer(&request);
            tally.add(&request, &answer);
        }
        assert_eq!(tally.trimmed, BTreeMap::from([("view", [3, 1]), ("viewplan", [1, 0])]));
        assert!(tally.to_string().contains("\nview, shorter             3\nview, empty "));
        let missing = tally.check_trimmed(1).unwrap_err();
        assert_eq!(missing, "only 0 answers of viewplan were empty, 1 are needed");
        let request = format!("viewplan {} 6 {plan} 134", files.join(" "));
        tally.add(&request, &model::answer(&request));
        assert!(tally.check_trimmed(1).is_ok());
        assert!(tally.check_trimmed(2).is_err());
        assert!(tally.check_trimmed(0).is_ok() && Tally::default().check_trimmed(0).is_ok());
    }

    /// The answer of the model to a question about a sample after a change.
    fn add_check(tally: &mut Tally, change: impl FnOnce(&mut Vec<u8>, &mut Vec<u8>)) {
        add_sample(tally, writer::samples::small_file(), change);
    }

    fn add_sample(
        tally: &mut Tally,
        subject: Subject<StandardFile>,
        change: impl FnOnce(&mut Vec<u8>, &mut Vec<u8>),
    ) {
        let (mut table, mut file) = (subject.table.encode(), subject.file.encode());
        change(&mut table, &mut file);
        let request = format!("check {} 0 {} 200", hex::encode(&table), hex::encode(&file));
        let answer = model::answer(&request);
        tally.add(&request, &answer);
    }

    #[test]
    fn bytes_are_counted() {
        let mut tally = Tally::default();
        add_check(&mut tally, |_, _| ());
        add_check(&mut tally, |table, _| table[20] = 9); // Table's version
        add_check(&mut tally, |table, _| table.truncate(3)); // at byte 0
        add_check(&mut tally, |_, file| file.truncate(831));
        add_check(&mut tally, |_, file| file[69] = 133); // the index length
        add_check(&mut tally, |_, file| file[69] = 135);
        add_check(&mut tally, |_, file| file[53] = 2); // a chain has no byte
        assert_eq!([0, 1, 3, 7, 10].map(|number| tally.occurrences(number)), [1, 3, 1, 1, 1]);
        let parts = [Part::Table, Part::File, Part::Text];
        let with_byte = |number| parts.map(|part| tally.with_byte(part, number));
        assert_eq!([1, 3, 7, 10].map(with_byte), [[0, 1, 1], [1, 0, 0], [0, 0, 1], [0; 3]]);
        assert!(tally.check(7, 1..=1, &[]).is_ok());
        let missing = tally.check(7, 1..=1, &[Part::Text]).unwrap_err();
        assert!(missing.ends_with("a byte of the text: 2, 3, 4, 6"), "{missing}");
        assert!(tally.to_string().contains("\nbyte of text                      1       0 "));
    }

    #[test]
    fn bytes_of_a_little_endian_table_are_counted() {
        let mut tally = Tally::default();
        let mut add = |change: fn(&mut Vec<u8>, &mut Vec<u8>)| {
            add_sample(&mut tally, writer::samples::little_file(), change);
        };
        add(|_, _| ());
        add(|table, _| table[20] = 9); // Table's version
        add(|table, _| table[909] = 103); // the length of DMInfo
        add(|table, _| table[913] = 0); // the mark in it
        add(|table, _| table[928] = 3); // the version of its object
        add(|table, _| table[966] = 2); // the count of offsets
        add(|_, file| file[25] = 2); // the header's version
        add(|_, file| file[66] = 135); // the index length
        let with_byte = |part| [1, 3, 6, 7].map(|number| tally.with_byte(part, number));
        let expected = [
            [1, 1, 0, 1], // table
            [0, 1, 1, 0], // info
            [0; 4],
            [0; 4],
            [0, 1, 0, 0], // little-file
            [0, 0, 0, 1], // little-text
            [0; 4],
        ];
        assert_eq!(Part::ALL.map(with_byte), expected);
    }
    /// A byte in the keywords that are asked, and one before them.
    #[test]
    fn bytes_of_keywords_are_counted() {
        let table = writer::samples::keywords();
        let start = table.layout().object(writer::layout::Part::ColumnKeywords(0)).start;
        let mut tally = Tally::default();
        for (place, byte) in [(usize::MAX, 0), (20, 9), (start + 44, 3), (start + 45, 0x80)] {
            let mut bytes = table.encode();
            if let Some(stored) = bytes.get_mut(place) {
                *stored = byte;
            }
            for question in ["keyword", "field"] {
                let number = if question == "field" { " 0" } else { "" };
                let request = format!("{question} {} 0 -{number}", hex::encode(&bytes));
                tally.add(&request, &model::answer(&request));
            }
        }
        // Table's version, that of the RecordDesc, and its count.
        assert_eq!([0, 3, 4, 16].map(|number| tally.occurrences(number)), [1, 4, 2, 1]);
        let with_byte = |part| [3, 4].map(|number| tally.with_byte(part, number));
        assert_eq!([Part::Table, Part::Keywords].map(with_byte), [[2, 0], [2, 2]]);
        assert!(tally.check_question("keyword", 16..=16).is_ok());
        assert!(tally.check_question("field", 15..=16).is_err());
        let missing = tally.check(8, 3..=4, &[Part::Keywords]).unwrap_err();
        assert!(missing.ends_with("a byte of the keywords: 1, 2, 5, 7"), "{missing}");
    }
}
