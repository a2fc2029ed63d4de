//! The records: a kind, a capacity, a length, and that many bytes. Whoever answers them fills in
//! one function a kind; what a record is, and where the answering stops, is said here once.

use crate::numbers::{LONGEST, MOST_TOKENS, NO_SCALAR, WORDS, name};
use std::fmt::Write as _;
use std::io::{self, Read, Write};

#[derive(Clone, Debug, PartialEq, Eq)]
pub struct Record {
    pub kind: u8,
    pub capacity: u16,
    pub body: Vec<u8>,
}

impl Record {
    pub fn text(text: Vec<u8>, capacity: u16) -> Self {
        Record { kind: b'T', capacity, body: text }
    }

    pub fn scalar(bytes: Vec<u8>) -> Self {
        Record { kind: b'S', capacity: 0, body: bytes }
    }

    /// A scalar whose leading number is asked.
    pub fn leading(bytes: Vec<u8>) -> Self {
        Record { kind: b'N', capacity: 0, body: bytes }
    }

    /// A scalar that is read as a date.
    pub fn date(scalar: Vec<u8>) -> Self {
        Record { kind: b'D', capacity: 0, body: scalar }
    }

    /// A day count whose date is asked.
    pub fn day(count: u32) -> Self {
        Record { kind: b'Y', capacity: 0, body: count.to_be_bytes().to_vec() }
    }

    pub fn check(length: u32, count: u32, words: &[u32]) -> Self {
        let body = [length, count].iter().chain(words).flat_map(|w| w.to_be_bytes()).collect();
        Record { kind: b'C', capacity: 0, body }
    }

    pub fn view(index: u32, count: u32, words: &[u32], text: &[u8]) -> Self {
        let mut body: Vec<u8> = [index, count].iter().flat_map(|w| w.to_be_bytes()).collect();
        body.extend((words.len() as u16).to_be_bytes());
        body.extend(words.iter().flat_map(|w| w.to_be_bytes()));
        body.extend(text);
        Record { kind: b'V', capacity: 0, body }
    }

    /// A sheet to be written out, with `room` bytes for its text and a scratch of so many words.
    pub fn write(room: u16, scratch: u16, count: u32, words: &[u32], text: &[u8]) -> Self {
        let mut body = scratch.to_be_bytes().to_vec();
        body.extend(count.to_be_bytes());
        body.extend((words.len() as u16).to_be_bytes());
        body.extend(words.iter().flat_map(|w| w.to_be_bytes()));
        body.extend(text);
        Record { kind: b'W', capacity: room, body }
    }

    /// A sheet to put on file, with `room` bytes for the file.
    pub fn pack(room: u16, length: u32, count: u32, words: &[u32]) -> Self {
        Record { kind: b'F', capacity: room, ..Record::check(length, count, words) }
    }

    /// A file to read, with `room` words for its sheet.
    pub fn unpack(room: u16, file: Vec<u8>) -> Self {
        Record { kind: b'R', capacity: room, body: file }
    }

    pub fn bytes(&self) -> Vec<u8> {
        let mut bytes = vec![self.kind];
        bytes.extend(self.capacity.to_be_bytes());
        bytes.extend((self.body.len() as u16).to_be_bytes());
        bytes.extend(&self.body);
        bytes
    }
}

/// Whether the Rust itself answers a record, given as its bytes: a text, a scalar or a leading number. Of the others
/// the answer comes from the comparison's own readings of the papers.
pub fn rust_answers(record: &[u8]) -> bool {
    matches!(record.first(), Some(b'T' | b'S' | b'N'))
}

/// A record's body, taken apart.
pub enum Question<'r> {
    Text { text: &'r [u8], capacity: usize },
    Scalar { bytes: &'r [u8] },
    Leading { bytes: &'r [u8] },
    Date { scalar: &'r [u8] },
    Day { count: u32 },
    Check { length: u32, count: u32, words: Vec<u32> },
    View { index: u32, count: u32, words: Vec<u32>, text: &'r [u8] },
    Write(ToWrite<'r>),
    Pack(ToPack),
    Unpack(ToUnpack<'r>),
}

/// A sheet that is to be written out: the room for its text in bytes, the scratch in words.
pub struct ToWrite<'r> {
    pub room: usize,
    pub scratch: usize,
    pub count: u32,
    pub words: Vec<u32>,
    pub text: &'r [u8],
}

/// A sheet that is to be put on file: the room for the file in bytes, the text's length.
pub struct ToPack {
    pub room: usize,
    pub length: u32,
    pub count: u32,
    pub words: Vec<u32>,
}

/// A file that is to be read: the room for its sheet in words. It may be any bytes.
pub struct ToUnpack<'r> {
    pub room: usize,
    pub file: &'r [u8],
}

fn words(bytes: &[u8]) -> Vec<u32> {
    bytes.chunks_exact(4).map(|w| u32::from_be_bytes(w.try_into().unwrap())).collect()
}

impl Record {
    /// What the record asks, or nothing where it is a bad record.
    pub fn question(&self) -> Option<Question<'_>> {
        let body = self.body.as_slice();
        if body.len() > LONGEST {
            return None;
        }
        match self.kind {
            b'T' => {
                let capacity = usize::from(self.capacity.min(MOST_TOKENS));
                Some(Question::Text { text: body, capacity })
            }
            b'S' => Some(Question::Scalar { bytes: body }),
            b'N' => Some(Question::Leading { bytes: body }),
            b'D' => Some(Question::Date { scalar: body }),
            b'Y' => {
                let count = body.try_into().ok()?;
                Some(Question::Day { count: u32::from_be_bytes(count) })
            }
            b'C' => {
                let (length, count, words) = sheet_to_end(body)?;
                Some(Question::Check { length, count, words })
            }
            b'V' => asked_view(body),
            b'W' => asked_write(self.capacity, body),
            b'F' => {
                let room = usize::from(self.capacity);
                let (length, count, words) = sheet_to_end(body)?;
                Some(Question::Pack(ToPack { room, length, count, words }))
            }
            b'R' => {
                let room = usize::from(self.capacity);
                Some(Question::Unpack(ToUnpack { room, file: body }))
            }
            _ => None,
        }
    }
}

/// A text length, a count, and words to the end.
fn sheet_to_end(body: &[u8]) -> Option<(u32, u32, Vec<u32>)> {
    let (head, rest) = body.split_first_chunk::<8>()?;
    let head = words(head);
    let even = rest.len() % 4 == 0;
    even.then(|| (head[0], head[1], words(rest)))
}

/// A view: an index, a count, how many words, the words, and the text to the end.
fn asked_view(body: &[u8]) -> Option<Question<'_>> {
    let (head, rest) = body.split_first_chunk::<10>()?;
    let bytes = 4 * usize::from(u16::from_be_bytes([head[8], head[9]]));
    let (sheet, text) = rest.split_at_checked(bytes)?;
    let head = words(&head[..8]);
    Some(Question::View { index: head[0], count: head[1], words: words(sheet), text })
}

/// A sheet to write out: the scratch, a count, how many words, the words, and the text to the end.
fn asked_write(room: u16, body: &[u8]) -> Option<Question<'_>> {
    let (head, rest) = body.split_first_chunk::<8>()?;
    let &[s0, s1, c0, c1, c2, c3, w0, w1] = head;
    let bytes = 4 * usize::from(u16::from_be_bytes([w0, w1]));
    let (sheet, text) = rest.split_at_checked(bytes)?;
    Some(Question::Write(ToWrite {
        room: usize::from(room),
        scratch: usize::from(u16::from_be_bytes([s0, s1])),
        count: u32::from_be_bytes([c0, c1, c2, c3]),
        words: words(sheet),
        text,
    }))
}

impl Record {
    /// What an answerer writes of it alone, where it is no bad record.
    pub fn answered_by(&self, answer: impl Fn(Question<'_>, &mut String)) -> String {
        let mut line = String::new();
        answer(self.question().expect("a good record"), &mut line);
        line
    }
}

/// The next record: nothing at the input's end, an error where it is cut short.
fn read(input: &mut impl Read) -> io::Result<Option<Record>> {
    let mut kind = [0];
    if input.read(&mut kind)? == 0 {
        return Ok(None);
    }
    let mut head = [0; 4];
    input.read_exact(&mut head)?;
    let length = u16::from_be_bytes([head[2], head[3]]);
    let mut body = vec![0; usize::from(length)];
    input.read_exact(&mut body)?;
    Ok(Some(Record { kind: kind[0], capacity: u16::from_be_bytes([head[0], head[1]]), body }))
}

/// Answers every record of the input; `bad record` is the last line where one is bad.
pub fn serve(
    input: &mut impl Read,
    output: &mut impl Write,
    answer: impl Fn(Question<'_>, &mut String),
) -> io::Result<()> {
    let mut line = String::new();
    loop {
        let record = match read(input) {
            Ok(None) => return output.flush(),
            Ok(Some(record)) => Some(record),
            Err(_) => None,
        };
        line.clear();
        let Some(question) = record.as_ref().and_then(Record::question) else {
            output.write_all(b"bad record\n")?;
            return output.flush();
        };
        answer(question, &mut line);
        output.write_all(line.as_bytes())?;
    }
}

// ---- What the answers look like ----

/// The dump's lines for a tape.
pub fn write_tape(out: &mut String, words: &[u32], bom: bool) {
    writeln!(out, "tokens {} bom {}", words.len() / WORDS, u8::from(bom)).unwrap();
    write_tokens(out, words);
}

/// A line a token.
fn write_tokens(out: &mut String, words: &[u32]) {
    for (i, token) in words.chunks_exact(WORDS).enumerate() {
        writeln!(out, "{i} {} {} {}", name(token[0]), token[1], token[2]).unwrap();
    }
}

pub fn write_refusal(out: &mut String, number: u8, place: usize) {
    writeln!(out, "refused {number} {place}").unwrap();
}

/// A reading's value after `=`, or its refusal's number.
pub fn reading<T: ToString>(reading: Result<T, u8>) -> String {
    reading.map_or_else(|number| number.to_string(), |value| format!("={}", value.to_string()))
}

/// The number at a scalar's front and how many bytes are left behind it, or the refusal's number.
pub type Leading = Result<(i64, usize), u8>;

/// One line for a leading number and how many bytes are left, or for the refusal's number.
pub fn write_leading(out: &mut String, leading: Leading) {
    let told = leading.map(|(number, left)| format!("{number} {left}"));
    writeln!(out, "{}", reading(told)).unwrap();
}

/// A scalar's date: year, month, day, hour and day count, or the refusal's number. The hour is 0 where
/// no fourth part stands.
pub type Dated = Result<[u32; 5], u8>;

/// One line for a date and its day count, or for the refusal's number.
pub fn write_date(out: &mut String, dated: Dated) {
    writeln!(out, "{}", reading(dated.map(spaced))).unwrap();
}

/// The year, month and day of a day count, or the refusal's number.
pub type Day = Result<[u32; 3], u8>;

/// One line for the date of a day count, or for its refusal.
pub fn write_day(out: &mut String, day: Day) {
    match day {
        Err(number) => write_number(out, number),
        Ok(date) => writeln!(out, "={}", spaced(date)).unwrap(),
    }
}

/// Numbers with one space between them.
fn spaced<const N: usize>(numbers: [u32; N]) -> String {
    numbers.map(|number| number.to_string()).join(" ")
}

pub fn bits(float: f64) -> String {
    format!("{:016x}", float.to_bits())
}

/// One line for a view; the empty view is `view` and a space, with nothing after it.
pub fn write_view<E>(out: &mut String, view: Result<&[u8], E>) {
    match view {
        Err(_) => write_number(out, NO_SCALAR),
        Ok(bytes) => write_hex(out, "view", bytes),
    }
}

/// One line for a sheet's text, or for the refusal to write it.
pub fn write_written(out: &mut String, written: Result<Vec<u8>, u8>) {
    match written {
        Err(number) => write_number(out, number),
        Ok(bytes) => write_hex(out, "text", &bytes),
    }
}

/// One line for a sheet's file, or for the refusal to make it.
pub fn write_packed(out: &mut String, packed: Result<Vec<u8>, u8>) {
    match packed {
        Err(number) => write_number(out, number),
        Ok(bytes) => write_hex(out, "file", &bytes),
    }
}

/// The text length and the words that a file holds, as a line for the length and the count and a line a
/// token; or the refusal to read it.
pub fn write_unpacked(out: &mut String, unpacked: Result<(u32, Vec<u32>), u8>) {
    match unpacked {
        Err(number) => write_number(out, number),
        Ok((length, words)) => {
            writeln!(out, "sheet {length} {}", words.len() / WORDS).unwrap();
            write_tokens(out, &words);
        }
    }
}

/// A refusal that has no place.
fn write_number(out: &mut String, number: u8) {
    writeln!(out, "refused {number}").unwrap();
}

/// A word, a space, and the bytes in hex: none leave the space at the line's end.
fn write_hex(out: &mut String, word: &str, bytes: &[u8]) {
    write!(out, "{word} ").unwrap();
    bytes.iter().for_each(|b| write!(out, "{b:02x}").unwrap());
    out.push('\n');
}

pub fn write_sound(out: &mut String, sound: bool) {
    out.push_str(if sound { "sound\n" } else { "unsound\n" });
}

#[cfg(test)]
mod tests {
    use super::*;

    fn served(input: &[u8]) -> String {
        let mut output = Vec::new();
        serve(&mut &input[..], &mut output, |_, line| line.push_str("answer\n")).unwrap();
        String::from_utf8(output).unwrap()
    }

    #[test]
    fn good_records_are_answered_to_the_end() {
        let good = [
            Record::text(vec![b' '; LONGEST], u16::MAX),
            Record::scalar(Vec::new()),
            Record::leading(Vec::new()),
            Record::leading(vec![b'0'; LONGEST]),
            Record::check(0, 0, &[]),
            Record::view(0, 0, &[1], b""),
            Record::write(0, 0, u32::MAX, &[1], b""),
            Record::pack(0, u32::MAX, u32::MAX, &[1]),
            Record::unpack(0, Vec::new()),
            Record::unpack(u16::MAX, vec![0; 13]),
            Record { capacity: 65_535, ..Record::scalar(Vec::new()) },
            Record { capacity: 65_535, ..Record::leading(Vec::new()) },
            Record { capacity: 65_535, ..Record::date(Vec::new()) },
            Record { capacity: 65_535, ..Record::day(u32::MAX) },
        ];
        let input: Vec<u8> = good.iter().flat_map(Record::bytes).collect();
        assert_eq!(served(&input), "answer\n".repeat(good.len()));
        assert_eq!(
            served(&input[..input.len() - 1]),
            "answer\n".repeat(good.len() - 1) + "bad record\n"
        );
    }

    #[test]
    fn the_rust_answers_three_kinds() {
        let by_the_rust =
            [Record::text(Vec::new(), 0), Record::scalar(Vec::new()), Record::leading(Vec::new())];
        assert!(by_the_rust.iter().all(|record| rust_answers(&record.bytes())));
        let by_others = [
            Record::date(Vec::new()),
            Record::day(0),
            Record::check(0, 0, &[]),
            Record::view(0, 0, &[], b""),
            Record::write(0, 0, 0, &[], b""),
            Record::pack(0, 0, 0, &[]),
            Record::unpack(0, Vec::new()),
        ];
        assert!(by_others.iter().all(|record| !rust_answers(&record.bytes())));
        assert!(!rust_answers(b""));
    }

    #[test]
    fn a_larger_capacity_is_taken_for_the_most() {
        for (capacity, lent) in [(4_999, 4_999), (5_000, 5_000), (5_001, 5_000), (65_535, 5_000)] {
            let record = Record::text(Vec::new(), capacity);
            let asked = record.question().expect("a good record");
            assert!(matches!(asked, Question::Text { capacity, .. } if capacity == lent));
        }
    }

    #[test]
    fn a_bad_record_ends_it() {
        let good = Record::scalar(b"1".to_vec());
        let body = |kind, length| Record { kind, capacity: 0, body: vec![0; length] };
        for bad in [
            body(b'X', 0),
            body(b'O', 0),
            body(b'n', 0),
            body(b'd', 0),
            body(b'y', 4),
            body(b'T', LONGEST + 1),
            body(b'N', LONGEST + 1),
            body(b'D', LONGEST + 1),
            body(b'Y', 0),
            body(b'Y', 3),
            body(b'Y', 5),
            body(b'Y', 8),
            body(b'C', 7),
            body(b'C', 9),
            body(b'V', 9),
            body(b'W', 7),
            body(b'F', 7),
            body(b'F', 9),
            body(b'R', LONGEST + 1),
            Record { body: vec![0, 0, 0, 0, 0, 0, 0, 0, 0, 1, 0, 0, 0], ..body(b'V', 0) },
            Record { body: vec![0, 0, 0, 0, 0, 0, 0, 1, 0, 0, 0], ..body(b'W', 0) },
        ] {
            let input = [good.bytes(), bad.bytes(), good.bytes()].concat();
            assert_eq!(served(&input), "answer\nbad record\n");
        }
    }
}
