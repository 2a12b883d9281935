//! The command line.

use crate::part::Part;
use std::ops::RangeInclusive;
use std::path::PathBuf;
use writer::sets::{self, Set};

#[derive(Clone, Debug, PartialEq, Eq)]
pub struct Options {
    /// The least number of requests.
    pub min: u64,
    /// The refusal numbers that must occur.
    pub each: RangeInclusive<usize>,
    /// The same of one question, by its word.
    pub each_of: Vec<(String, RangeInclusive<usize>)>,
    /// The least number of views that are shorter than their cell, and of empty
    /// ones, by position and by plan.
    pub trimmed: u64,
    /// Where each refusal number that can blame a field there must do so.
    pub bytes: Vec<Part>,
    /// Where the first request with a difference goes.
    pub save: PathBuf,
    /// A file of request lines, which come before those of the sets.
    pub replay: Option<PathBuf>,
    pub sets: Vec<Set>,
    pub command: Vec<String>,
}

pub fn usage() -> String {
    let sets: Vec<String> = sets::USAGE.lines().map(|line| format!("  {line}")).collect();
    format!(
        "usage: compare [OPTION]... SET [, SET]... -- COMMAND [ARGUMENT]...
       compare [OPTION]... --replay FILE [SET [, SET]...] -- COMMAND [ARGUMENT]...

Gives the sets' request lines to COMMAND, one a line, and compares its answers,
one a line, with the model's. Prints how often each question was accepted and
refused with each number, and how often each number had a byte above 0, in
table.dat, in the object of a DMInfo, in a manager's file or in index text, these
two apart for little endian tables, or in the asked keywords; and how many views
were shorter than their cell, and how many empty. Fails at the first difference, and also if COMMAND
gives too few or too many answers or ends with an error.

  --min TOTAL      fail if there are fewer requests
  --each FROM..TO  fail if one of these refusal numbers does not occur
  --each-of QUESTION:FROM..TO
                   the same of one question; may be given for several
  --trimmed COUNT  fail if fewer views are shorter than their cell, or empty, by
                   position or by plan
  --bytes PART[,PART]..
                   fail if a refusal number does not occur with a byte above 0
                   in this part, though it can: table, info, file, text,
                   little-file, little-text or keywords
  --save FILE      where to put the request with the first difference;
                   target/tests/difference.txt if not given
  --replay FILE    ask the request lines of this file, before the sets

Sets, with commas between them:
{}",
        sets.join("\n")
    )
}

impl Options {
    pub fn parse(arguments: &[String]) -> Result<Self, String> {
        let dashes = arguments.iter().position(|argument| argument == "--");
        let (own, command) = arguments.split_at(dashes.ok_or("no `--` before the command")?);
        let mut options = Self {
            min: 0,
            each: RangeInclusive::new(1, 0),
            each_of: Vec::new(),
            trimmed: 0,
            bytes: Vec::new(),
            save: PathBuf::from("target/tests/difference.txt"),
            replay: None,
            sets: Vec::new(),
            command: command[1..].to_vec(),
        };
        if options.command.is_empty() {
            return Err("no command".to_string());
        }
        let mut own = own;
        while let [option, value, rest @ ..] = own
            && option.starts_with("--")
        {
            match option.as_str() {
                "--min" => {
                    options.min = value.parse().map_err(|_| format!("no number: {value}"))?
                }
                "--each" => options.each = range(value).ok_or(format!("no range: {value}"))?,
                "--each-of" => {
                    options.each_of.push(of_question(value).ok_or(format!("no range: {value}"))?)
                }
                "--trimmed" => {
                    options.trimmed = value.parse().map_err(|_| format!("no number: {value}"))?
                }
                "--bytes" => options.bytes = parts(value).ok_or(format!("no parts: {value}"))?,
                "--save" => options.save = PathBuf::from(value),
                "--replay" => options.replay = Some(PathBuf::from(value)),
                _ => return Err(format!("no such option: {option}")),
            }
            own = rest;
        }
        if own.is_empty() && options.replay.is_some() {
            return Ok(options);
        }
        for set in own.join(" ").split(',') {
            options.sets.push(Set::parse(&set.split_whitespace().collect::<Vec<_>>())?);
        }
        Ok(options)
    }
}

/// `FROM..TO`, both included.
fn range(text: &str) -> Option<RangeInclusive<usize>> {
    let (from, to) = text.split_once("..")?;
    let range = from.parse().ok()?..=to.parse().ok()?;
    (*range.start() > 0 && *range.end() < crate::tally::NUMBERS).then_some(range)
}

/// `QUESTION:FROM..TO`.
fn of_question(text: &str) -> Option<(String, RangeInclusive<usize>)> {
    let (question, numbers) = text.split_once(':')?;
    Some((question.to_string(), range(numbers)?))
}

/// Names of parts with commas between them.
fn parts(text: &str) -> Option<Vec<Part>> {
    text.split(',').map(Part::from_name).collect()
}

#[cfg(test)]
mod tests {
    use super::*;

    fn parse(line: &str) -> Result<Options, String> {
        Options::parse(&line.split(' ').map(String::from).collect::<Vec<_>>())
    }

    #[test]
    fn options_sets_and_command() {
        let options =
            parse("--min 10 --each 1..8 tables 1 20, prefixes , large -- sh -c x").unwrap();
        assert_eq!((options.min, options.each, options.bytes), (10, 1..=8, vec![]));
        let large = Set::Large { seed: 1, count: 300 };
        assert_eq!(options.sets, [Set::Tables { seed: 1, count: 20 }, Set::Prefixes, large]);
        assert_eq!(options.command, ["sh", "-c", "x"]);
    }

    #[test]
    fn parts_of_bytes() {
        assert_eq!(parse("--bytes table bad -- cat").unwrap().bytes, [Part::Table]);
        let options = parse("--bytes text,little-file,info bad -- cat").unwrap();
        assert_eq!(options.bytes, [Part::Text, Part::LittleFile, Part::Info]);
    }

    #[test]
    fn saved_requests() {
        let options = parse("--replay a.txt -- cat").unwrap();
        assert_eq!((options.replay, options.sets), (Some("a.txt".into()), vec![]));
        let options = parse("--replay a.txt standard 1 2, small-file -- cat").unwrap();
        assert_eq!(options.sets, [Set::Standard { seed: 1, count: 2 }, Set::SmallFile]);
    }

    #[test]
    fn type_numbers() {
        let options = parse("types, types 3 0 -- cat").unwrap();
        assert_eq!(options.sets, [Set::Types, Set::SomeTypes { seed: 3, count: 0 }]);
        assert!(usage().contains("\n  types [SEED COUNT] "));
    }

    #[test]
    fn looks_and_rows() {
        assert_eq!(parse("looks, rows -- cat").unwrap().sets, [Set::Looks, Set::Rows]);
        assert!(usage().contains("\n  looks ") && usage().contains("\n  rows "));
    }

    #[test]
    fn one_question() {
        let options =
            parse("--each-of place1:1..11 --each-of plan:8..8 one-bucket -- cat").unwrap();
        let expected = [("place1".to_string(), 1..=11), ("plan".to_string(), 8..=8)];
        assert_eq!((options.each_of, options.sets), (expected.into(), vec![Set::OneBucket]));
        assert!(usage().contains("\n  one-bucket "));
    }

    #[test]
    fn trimmed_views() {
        let options = parse("--trimmed 20 texts, texts -- cat").unwrap();
        assert_eq!((options.trimmed, options.sets), (20, vec![Set::Texts, Set::Texts]));
        assert_eq!(parse("texts -- cat").unwrap().trimmed, 0);
        assert!(usage().contains("\n  texts "));
    }

    #[test]
    fn keywords() {
        let options =
            parse("--each-of field:15..16 --bytes keywords keywords 1 2, keyword-fields -- cat")
                .unwrap();
        assert_eq!(options.sets, [Set::Keywords { seed: 1, count: 2 }, Set::KeywordFields]);
        assert_eq!(options.each_of, [("field".to_string(), 15..=16)]);
        assert_eq!(options.bytes, [Part::Keywords]);
        assert!(usage().contains("\n  keywords SEED COUNT\n") && usage().contains("\n  keyword-"));
    }

    #[test]
    fn faulty_lines() {
        for line in [
            "prefixes",
            "prefixes --",
            "-- cat",
            "tables 1 -- cat",
            "tables 1 x -- cat",
            "prefixes, -- cat",
            "--each 0..8 prefixes -- cat",
            "--each 1-8 prefixes -- cat",
            "--every 1..8 prefixes -- cat",
            "--each 1..17 prefixes -- cat",
            "--each-of 1..8 prefixes -- cat",
            "--each-of place1 prefixes -- cat",
            "--each-of place1:0..8 prefixes -- cat",
            "--bytes  prefixes -- cat",
            "--bytes table,index prefixes -- cat",
            "--replay -- cat",
            "standard 1 -- cat",
            "types 1 -- cat",
            "looks 1 2 -- cat",
            "rows 1 -- cat",
            "one-bucket 1 2 -- cat",
            "texts 1 2 -- cat",
            "keywords -- cat",
            "keywords 1 -- cat",
            "keyword-fields 1 2 -- cat",
            "--trimmed texts -- cat",
            "--trimmed x texts -- cat",
        ] {
            assert!(parse(line).is_err(), "{line}");
        }
    }
}
