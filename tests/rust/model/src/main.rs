//! Answers request lines: reads them from standard input, one a line, and
//! writes one answer a line to standard output, in the same order.

use std::io::{self, BufRead, BufWriter, Write};

fn main() -> io::Result<()> {
    let mut input = io::stdin().lock();
    let mut output = BufWriter::new(io::stdout().lock());
    let mut line = Vec::new();
    while input.read_until(b'\n', &mut line)? > 0 {
        let request = line.strip_suffix(b"\n").unwrap_or(&line);
        // A line that is not text is no request, as the empty line is.
        let answer = model::answer(str::from_utf8(request).unwrap_or_default());
        writeln!(output, "{answer}")?;
        line.clear();
    }
    output.flush()
}
