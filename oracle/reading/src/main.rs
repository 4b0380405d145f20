//! The reading as a program: lines in, lines out.

use std::io::{self, BufWriter};

fn main() -> io::Result<()> {
    let output = BufWriter::new(io::stdout().lock());
    reading::program::run(io::stdin().lock(), output)
}
