//! Reads requests, one a line, and answers each with one line. README.md has the protocol.

mod answer;
mod laid;
mod request;
mod verdict;

use std::io::{self, BufRead, BufReader, BufWriter, Write};

fn main() -> io::Result<()> {
    // A panic of the Rust is an answer; its report on standard error would only be noise.
    std::panic::set_hook(Box::new(|_| {}));
    let mut input = BufReader::with_capacity(1 << 20, io::stdin().lock());
    let mut output = BufWriter::with_capacity(1 << 20, io::stdout().lock());
    let mut line = String::new();
    while input.read_line(&mut line)? != 0 {
        let answer = request::answer(line.trim_end_matches('\n'));
        writeln!(output, "{answer}")?;
        line.clear();
        // A client that waits for its answer gets it; one that sends a batch costs one write.
        if input.buffer().is_empty() {
            output.flush()?;
        }
    }
    output.flush()
}
