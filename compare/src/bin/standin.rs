//! Answers the records of standard input as the model does: `standin [FAULT]`.

use compare::{record, standin};
use std::{env, io};

fn main() -> io::Result<()> {
    let mut input = io::BufReader::with_capacity(1 << 16, io::stdin().lock());
    let mut output = io::BufWriter::with_capacity(1 << 16, io::stdout().lock());
    let fault = env::args()
        .nth(1)
        .map(|name| standin::fault(&name).unwrap_or_else(|| panic!("no fault {name}")));
    record::serve(&mut input, &mut output, standin::answering(fault))
}
