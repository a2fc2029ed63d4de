//! Answers the records of standard input as the Rust does.

use compare::{oracle, record};
use std::io;

fn main() -> io::Result<()> {
    let mut input = io::BufReader::with_capacity(1 << 16, io::stdin().lock());
    let mut output = io::BufWriter::with_capacity(1 << 16, io::stdout().lock());
    record::serve(&mut input, &mut output, oracle::answer)
}
