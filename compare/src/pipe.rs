//! A program at the other end of a pipe, and its answers told apart.

use std::io::{self, Read, Write};
use std::process::{Command, Stdio};
use std::thread;

/// Gives the program this input and takes all of its output, and what its end says if it is no
/// good end. A program that stops at a bad record need not read on.
pub fn ask(command: &[String], input: &[u8]) -> io::Result<(Vec<u8>, Option<String>)> {
    let mut child = Command::new(&command[0])
        .args(&command[1..])
        .stdin(Stdio::piped())
        .stdout(Stdio::piped())
        .spawn()
        .map_err(|error| io::Error::new(error.kind(), format!("{}: {error}", command[0])))?;
    let mut to = child.stdin.take().unwrap();
    let mut from = child.stdout.take().unwrap();
    let mut output = Vec::new();
    thread::scope(|scope| {
        scope.spawn(move || drop(to.write_all(input)));
        from.read_to_end(&mut output)
    })?;
    let status = child.wait()?;
    Ok((output, (!status.success()).then(|| status.to_string())))
}

/// The answers one by one: the header of a tape or of a sheet is followed by a line for each token.
pub fn answers(output: &[u8]) -> Vec<&[u8]> {
    let mut lines = output.split_inclusive(|&b| b == b'\n');
    let mut answers = Vec::new();
    while let Some(head) = lines.next() {
        let length =
            tokens(head).map_or(0, |count| lines.by_ref().take(count).map(<[u8]>::len).sum());
        let start = head.as_ptr() as usize - output.as_ptr() as usize;
        answers.push(&output[start..start + head.len() + length]);
    }
    answers
}

/// How many tokens a header says that there are.
fn tokens(line: &[u8]) -> Option<usize> {
    let mut words = std::str::from_utf8(line).ok()?.split_whitespace();
    match words.next()? {
        "tokens" => words.next()?.parse().ok(),
        "sheet" => words.nth(1)?.parse().ok(),
        _ => None,
    }
}

pub fn hex(bytes: &[u8]) -> String {
    bytes.iter().map(|b| format!("{b:02x}")).collect()
}

pub fn from_hex(hex: &str) -> Option<Vec<u8>> {
    let digits: Option<Vec<u32>> = hex.chars().map(|c| c.to_digit(16)).collect();
    let digits = digits?;
    (digits.len() % 2 == 0).then(|| digits.chunks(2).map(|d| (d[0] * 16 + d[1]) as u8).collect())
}
