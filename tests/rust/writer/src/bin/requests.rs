//! Prints request lines, or writes the sample tables.

use std::io::{self, BufWriter, Write};
use std::path::Path;
use std::process::ExitCode;
use writer::samples;
use writer::sets::{Set, USAGE};

fn main() -> ExitCode {
    let words: Vec<String> = std::env::args().skip(1).collect();
    let words: Vec<&str> = words.iter().map(String::as_str).collect();
    let done = match words[..] {
        ["sample", directory] => write_samples(Path::new(directory)),
        _ => match Set::parse(&words) {
            Ok(set) => print(set),
            Err(message) => {
                eprintln!("{message}\nusage: requests SET | requests sample DIRECTORY\n\n{USAGE}");
                return ExitCode::from(2);
            }
        },
    };
    match done {
        Ok(()) => ExitCode::SUCCESS,
        Err(error) => {
            eprintln!("requests: {error}");
            ExitCode::FAILURE
        }
    }
}

fn print(set: Set) -> io::Result<()> {
    let mut output = BufWriter::new(io::stdout().lock());
    for line in set.lines() {
        writeln!(output, "{line}")?;
    }
    output.flush()
}

/// Each sample's `table.dat`, the files of its managers, and in `expected` what
/// the listing program prints for it.
fn write_samples(directory: &Path) -> io::Result<()> {
    for (name, bytes) in samples::all() {
        let sample = directory.join(name);
        std::fs::create_dir_all(&sample)?;
        std::fs::write(sample.join("expected"), model::listing(&bytes))?;
        std::fs::write(sample.join("table.dat"), bytes)?;
        for (number, bytes) in samples::files(name) {
            std::fs::write(sample.join(format!("table.f{number}")), bytes)?;
        }
    }
    Ok(())
}
