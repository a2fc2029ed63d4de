//! Makes the cases of the cuts anew: `cut_cases FOLDER` reads FOLDER/stdin and FOLDER/stdout, keeps
//! their first lines, and writes both with what `cuts.rs` puts behind them. FOLDER is crates/cut_cases.

use compare::cuts::{LONGEST, Run, kept, made, sweeps};
use std::path::Path;
use std::{env, fs, io};

fn main() -> io::Result<()> {
    let folder = env::args().nth(1).expect("cut_cases FOLDER");
    let [stdin, stdout] = ["stdin", "stdout"].map(|name| Path::new(&folder).join(name));
    let (asked, told) = (fs::read_to_string(&stdin)?, fs::read_to_string(&stdout)?);
    let (input, output) = made(&asked, &told);
    let texts: usize = (0..=LONGEST).map(|length| length + 1).sum();
    let unquoted = sweeps().iter().filter(|sweep| sweep.run == Run::Unquoted).count();
    let quoted = sweeps().len() - unquoted;
    let once_more = input.lines().count() - kept(&asked, &told).len() - unquoted - quoted;
    println!("kept {}, once more by strides {once_more}", kept(&asked, &told).len());
    println!("{unquoted} sweeps of unquoted runs and {quoted} of quoted ones, {texts} texts each");
    println!("stdin {} bytes, stdout {} bytes", input.len(), output.len());
    fs::write(stdin, input)?;
    fs::write(stdout, output)
}
