//! Reads commands from stdin, one a line, and writes one answer line each. `oracle::text` says how.

use oracle::text;
use std::io::{self, BufRead, Write};

fn main() -> io::Result<()> {
    let mut output = io::stdout().lock();
    for line in io::stdin().lock().lines() {
        writeln!(output, "{}", text::answer(&line?))?;
    }
    Ok(())
}
