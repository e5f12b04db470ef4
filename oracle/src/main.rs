//! Reads requests from standard input, one a line, and answers each with one line.

use std::io::{self, BufRead, BufReader, BufWriter, Write};

fn main() -> io::Result<()> {
    // A panic is an answer; nothing is said of it elsewhere.
    std::panic::set_hook(Box::new(|_| ()));
    let mut input = BufReader::with_capacity(1 << 16, io::stdin().lock());
    let mut output = BufWriter::with_capacity(1 << 16, io::stdout().lock());
    let mut line = Vec::new();
    loop {
        // Whoever waits for the answers before the next request has them.
        if !input.buffer().contains(&b'\n') {
            output.flush()?;
        }
        line.clear();
        if input.read_until(b'\n', &mut line)? == 0 {
            return output.flush();
        }
        let request = line.strip_suffix(b"\n").unwrap_or(&line);
        output.write_all(oracle::answer(request).as_bytes())?;
        output.write_all(b"\n")?;
    }
}
