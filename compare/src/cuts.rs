//! The input of `crates/cut_cases` behind its first lines, and what must be written for it: document
//! 01, 'How bytes are cut', read as a plain program. Of ours it has nothing.
//!
//! The first lines, each with a small letter, were written with the Rust's answers and are kept as they
//! stand. Behind them stands each of their unquoted and quoted runs once more, with a capital letter,
//! for the cuts by strides; and then the sweeps, whose texts `cut_cases` makes by itself and cuts by
//! strides and one byte at a time.

use crate::model::boundary;
use crate::pipe::{from_hex, hex};

/// The length of the longest texts of a sweep, which have two strides of sixteen bytes and a rest.
pub const LONGEST: usize = 40;

/// How long the unquoted run at the head of a text is.
pub fn unquoted(text: &[u8]) -> usize {
    let end = text.iter().position(|&byte| boundary(byte)).unwrap_or(text.len());
    end.max(1).min(text.len())
}

/// How many bytes stand before the quote that closes a run, and whether a backslash is among them;
/// nothing where no quote closes it.
pub fn quoted(text: &[u8]) -> Option<(usize, bool)> {
    let mut skipped = false;
    for (at, &byte) in text.iter().enumerate() {
        match byte {
            _ if skipped => skipped = false,
            b'\\' => skipped = true,
            b'"' => return Some((at, text[..at].contains(&b'\\'))),
            _ => {}
        }
    }
    None
}

// ---- The sweeps ----

/// Which run of its texts a sweep asks for.
#[derive(Clone, Copy, Debug, PartialEq, Eq)]
pub enum Run {
    Unquoted,
    Quoted,
}

/// What the texts of a sweep are made of: the byte that they are full of, the one that they end with,
/// and those that are laid at every place in turn, and past the end last.
#[derive(Clone, Debug)]
pub struct Sweep {
    pub run: Run,
    full_of: u8,
    last: u8,
    laid: Vec<u8>,
}

impl Sweep {
    fn new(run: Run, full_of: u8, last: u8, laid: &[u8]) -> Sweep {
        Sweep { run, full_of, last, laid: laid.to_vec() }
    }

    /// The texts of a length: a place for each byte, and the end.
    pub fn texts(&self, length: usize) -> Vec<Vec<u8>> {
        (0..=length).map(|place| self.text(length, place)).collect()
    }

    fn text(&self, length: usize, place: usize) -> Vec<u8> {
        let mut text = vec![self.full_of; length];
        text.pop();
        text.extend((length > 0).then_some(self.last));
        for (byte, laid) in text[place..].iter_mut().zip(&self.laid) {
            *byte = *laid;
        }
        text
    }

    fn line(&self) -> String {
        let letter = match self.run {
            Run::Unquoted => 'U',
            Run::Quoted => 'D',
        };
        format!("{letter} 0 {}{}", hex(&[self.full_of, self.last]), hex(&self.laid))
    }

    fn answers(&self, length: usize) -> String {
        let answer = |text: &Vec<u8>| match self.run {
            Run::Unquoted => format!(" {}", unquoted(text)),
            Run::Quoted => match quoted(text) {
                Some((length, escaped)) => format!(" {length}{}", if escaped { "e" } else { "" }),
                None => String::from(" -"),
            },
        };
        self.texts(length).iter().map(answer).collect()
    }
}

/// Bytes of ASCII that a look at some of their bits may take for a boundary byte.
const NEAR: [u8; 10] = [0, 0x0b, 0x0c, 0x1b, b'!', b'"', b'\\', b'^', b'|', b'~'];

/// Other bytes that end no run: some over 0x7f that are like a boundary byte or a quote but for that bit, the first and
/// the last of these, and some of ASCII.
const FAR: [u8; 12] = [0x80, 0xa2, 0xa3, 0xbd, 0xdb, 0xdc, 0xfb, 0xff, b'$', b'?', b'Z', 0x7f];

/// Every boundary byte at every place; `=` among bytes that are none, and at the end behind them; bytes
/// over 0x7f that differ from a boundary byte in that bit alone; and another byte right before one.
fn unquoted_sweeps() -> Vec<Sweep> {
    let new = |full_of, last, laid: &[u8]| Sweep::new(Run::Unquoted, full_of, last, laid);
    let boundaries: Vec<u8> = (0..=u8::MAX).filter(|&byte| boundary(byte)).collect();
    let ends = boundaries.iter().map(|&byte| new(b'a', b'a', &[byte]));
    let among = NEAR.iter().chain(&FAR).map(|&byte| new(byte, byte, b"="));
    let behind = NEAR.iter().map(|&byte| new(b'a', b'=', &[byte]));
    let high = boundaries.iter().map(|&byte| new(b'a', b'a', &[byte | 0x80]));
    let before = [b"!=", b"\xbd=", b"\\}"].map(|laid| new(b'a', b'a', laid));
    ends.chain(among).chain(behind).chain(high).chain(before).collect()
}

/// A quote at every place among bytes that are none; one, two and three backslashes there, with a quote
/// at the end or right behind them; a backslash behind the quote; and texts full of either.
fn quoted_sweeps() -> Vec<Sweep> {
    let new = |full_of, last, laid: &[u8]| Sweep::new(Run::Quoted, full_of, last, laid);
    let fills = [b'a', 0, b'!', b'#', b'[', b']', 0x80, 0xa2, 0xdc, 0xff];
    let quotes = fills.iter().map(|&byte| new(byte, byte, b"\""));
    let laid = [&b"\\"[..], b"\\\\", b"\\\\\\", b"\\\"", b"\\\\\"", b"\\\\\\\"", b"\"\\"];
    let escapes = laid.iter().map(|laid| new(b'a', b'"', laid));
    let high = [0xa2, 0xdc].into_iter().flat_map(|byte| {
        let among = [&b"\\"[..], b"\\\\", b"\\\""].map(|laid| new(byte, b'"', laid));
        let laid = [vec![byte], vec![b'\\', byte, b'"']].map(|laid| new(b'a', b'"', &laid));
        among.into_iter().chain(laid)
    });
    let full = [new(b'\\', b'\\', b"\""), new(b'\\', b'"', b"a"), new(b'"', b'"', b"\\")];
    quotes.chain(escapes).chain(high).chain(full).collect()
}

pub fn sweeps() -> Vec<Sweep> {
    unquoted_sweeps().into_iter().chain(quoted_sweeps()).collect()
}

// ---- The files ----

/// What is written behind a line that asks for one run, of the letter given: `s` or `q`.
pub fn answer(letter: char, text: &[u8]) -> String {
    match (letter, quoted(text)) {
        ('s', _) => format!(" {}", unquoted(text)),
        (_, Some((length, true))) => format!(" closed {length} escaped"),
        (_, Some((length, false))) => format!(" closed {length}"),
        (_, None) => String::from(" unclosed"),
    }
}

/// A line's letter, and its text.
pub fn parts(line: &str) -> (char, Vec<u8>) {
    let letter = line.chars().next().expect("a letter");
    let text = line.rsplit(' ').next().and_then(from_hex).expect("a text in hex");
    (letter, text)
}

/// The first lines of the input and of what is written for it.
pub fn kept<'f>(stdin: &'f str, stdout: &'f str) -> Vec<(&'f str, &'f str)> {
    let first = stdin.lines().take_while(|line| line.starts_with(|c: char| c.is_lowercase()));
    let kept: Vec<_> = first.zip(stdout.lines()).collect();
    assert!(kept.iter().all(|(asked, told)| told.starts_with(asked)), "a line without its answer");
    kept
}

/// Both files anew: what is kept of them, and all that stands behind it.
pub fn made(stdin: &str, stdout: &str) -> (String, String) {
    let kept = kept(stdin, stdout);
    let mut input: Vec<String> = kept.iter().map(|(asked, _)| asked.to_string()).collect();
    let mut output: Vec<String> = kept.iter().map(|(_, told)| told.to_string()).collect();
    for (asked, _) in &kept {
        let (letter, text) = parts(asked);
        if letter == 's' || letter == 'q' {
            let line = format!("{}{}", letter.to_uppercase(), &asked[1..]);
            output.push(format!("{line}{}", answer(letter, &text)));
            input.push(line);
        }
    }
    for sweep in sweeps() {
        output.push(sweep.line());
        let lengths = (0..=LONGEST).map(|length| format!("of {length}:{}", sweep.answers(length)));
        output.extend(lengths);
        input.push(sweep.line());
    }
    let file = |lines: Vec<String>| lines.join("\n") + "\n";
    (file(input), file(output))
}
