//! Writes the records of a seed to standard output: `generate [SEED] [N]`.

use compare::generate::Generator;
use std::io::{self, Write};

fn main() -> io::Result<()> {
    let mut numbers = std::env::args().skip(1).map(|word| word.parse::<u64>().expect("a number"));
    let (seed, cases) = (numbers.next().unwrap_or(1), numbers.next().unwrap_or(1_000_000));
    let mut output = io::BufWriter::new(io::stdout().lock());
    for record in Generator::new(seed).take(cases as usize) {
        output.write_all(&record.bytes())?;
    }
    output.flush()
}
