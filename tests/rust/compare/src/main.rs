//! Compares a program that answers request lines with the model.
//!
//! The request lines are made twice, once for the program's input and once for
//! the model, so that no more than one line of each is held at a time.

mod options;
mod part;
mod tally;

use options::Options;
use std::fs;
use std::io::{self, BufRead, BufReader, BufWriter, Write};
use std::path::Path;
use std::process::{Child, ChildStdin, Command, ExitCode, Stdio};
use std::thread;
use tally::Tally;
use writer::sets::Set;

const SHOWN: usize = 300;

fn main() -> ExitCode {
    let arguments: Vec<String> = std::env::args().skip(1).collect();
    if arguments.iter().any(|argument| argument == "--help") {
        println!("{}", options::usage());
        return ExitCode::SUCCESS;
    }
    let options = match Options::parse(&arguments) {
        Ok(options) => options,
        Err(message) => {
            eprintln!("compare: {message}\n\n{}", options::usage());
            return ExitCode::from(2);
        }
    };
    match run(&options) {
        Ok(()) => ExitCode::SUCCESS,
        Err(message) => {
            eprintln!("compare: {message}");
            ExitCode::FAILURE
        }
    }
}

fn run(options: &Options) -> Result<(), String> {
    let mut child = Command::new(&options.command[0])
        .args(&options.command[1..])
        .stdin(Stdio::piped())
        .stdout(Stdio::piped())
        .spawn()
        .map_err(|error| format!("{} does not start: {error}", options.command[0]))?;
    let compared = compare(options, &mut child);
    if compared.is_err() {
        // It may have ended by itself.
        let _ = child.kill();
    }
    let status = child.wait().map_err(|error| error.to_string())?;
    let tally = compared?;
    if !status.success() {
        return Err(format!("the command answered all requests, but ended with {status}"));
    }
    print!("{tally}");
    for (question, each) in &options.each_of {
        tally.check_question(question, each.clone())?;
    }
    tally.check_trimmed(options.trimmed)?;
    tally.check(options.min, options.each.clone(), &options.bytes)
}

/// The request lines of the saved file and of all sets, one after the other.
fn requests(options: &Options) -> Result<impl Iterator<Item = String> + use<>, String> {
    let saved = options.replay.as_deref().map(read_lines).transpose()?.unwrap_or_default();
    let sets = options.sets.clone();
    Ok(saved.into_iter().chain(sets.into_iter().flat_map(Set::lines)))
}

/// The lines of a file of requests.
fn read_lines(path: &Path) -> Result<Vec<String>, String> {
    let text = fs::read_to_string(path)
        .map_err(|error| format!("{} can not be read: {error}", path.display()))?;
    Ok(text.split_terminator('\n').map(String::from).collect())
}

fn compare(options: &Options, child: &mut Child) -> Result<Tally, String> {
    let input = child.stdin.take().expect("the input is a pipe");
    let mut answers = BufReader::new(child.stdout.take().expect("the output is a pipe"));
    let fed_requests = requests(options)?;
    let feeder = thread::spawn(move || feed(fed_requests, input));

    let mut tally = Tally::default();
    let mut line = Vec::new();
    for request in requests(options)? {
        let expected = model::answer(&request);
        let read = next_answer(&mut answers, &mut line)?;
        let difference = match read {
            Some(answer) if answer == expected.as_bytes() => {
                tally.add(&request, &expected);
                continue;
            }
            Some(answer) => shown(answer),
            None => "no answer, the command has ended".to_string(),
        };
        save(options, &request)?;
        return Err(format!(
            "difference at request {} ({}), saved in {}\n  model:   {}\n  command: {difference}",
            tally.total() + 1,
            request.split(' ').next().unwrap_or_default(),
            options.save.display(),
            shown(expected.as_bytes()),
        ));
    }
    if next_answer(&mut answers, &mut line)?.is_some() {
        return Err(format!("more than {} answers: {}", tally.total(), shown(&line)));
    }
    let fed = feeder.join().map_err(|_| "the requests could not be made".to_string())?;
    fed.map_err(|error| format!("the command did not read all requests: {error}"))?;
    Ok(tally)
}

/// Writes the request lines to the command.
fn feed(requests: impl Iterator<Item = String>, input: ChildStdin) -> io::Result<()> {
    let mut input = BufWriter::with_capacity(1 << 16, input);
    for request in requests {
        input.write_all(request.as_bytes())?;
        input.write_all(b"\n")?;
    }
    input.flush()
}

/// The next whole line of the answers, if there is one.
fn next_answer<'a>(
    answers: &mut impl BufRead,
    line: &'a mut Vec<u8>,
) -> Result<Option<&'a [u8]>, String> {
    line.clear();
    answers.read_until(b'\n', line).map_err(|error| error.to_string())?;
    Ok(line.strip_suffix(b"\n"))
}

fn save(options: &Options, request: &str) -> Result<(), String> {
    let path = &options.save;
    let write = || {
        if let Some(directory) = path.parent() {
            fs::create_dir_all(directory)?;
        }
        fs::write(path, format!("{request}\n"))
    };
    write().map_err(|error| format!("{} can not be written: {error}", path.display()))
}

/// An answer for a message, cut to a readable length.
fn shown(answer: &[u8]) -> String {
    let text = String::from_utf8_lossy(answer);
    match text.char_indices().nth(SHOWN) {
        Some((end, _)) => format!("{}...", &text[..end]),
        None => text.into_owned(),
    }
}
