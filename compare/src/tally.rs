//! What a run reached: cases by kind, refusals, token codes, operators, escapes, readings, numbers of
//! document 01 that are names now, leading numbers, dates and day counts, faults of sheets, what sheets
//! that were to be written out came to, and what became of sheets to put on file and of files to read.

use crate::date_tally;
use crate::file::{self, Cause};
use crate::kind::{self, NoNumber};
use crate::numbers::*;
use crate::record::{Question, Record, ToPack, ToUnpack, ToWrite};
use crate::sheet::{self, FAULTS, NoScalar};
use crate::writer::{self, Judged};
use std::collections::BTreeMap;
use std::fmt;

/// How often each thing was seen, by a heading and a name under it.
#[derive(Default)]
pub struct Tally(BTreeMap<(&'static str, String), usize>);

impl Tally {
    fn add(&mut self, heading: &'static str, name: impl ToString) {
        *self.0.entry((heading, name.to_string())).or_default() += 1;
    }

    /// Counts a record and the Rust's answer to it.
    pub fn count(&mut self, record: &Record, answer: &str) {
        for (heading, name) in features(record, answer) {
            self.add(heading, name);
        }
    }

    /// What a long run should have reached and did not.
    pub fn missing(&self) -> Vec<String> {
        self.not_reached(expected())
    }

    /// What a long run of scalars whose leading number is asked should have reached and did not.
    pub fn missing_of_leading(&self) -> Vec<String> {
        self.not_reached(expected_of_leading())
    }

    /// What a long run of dates and day counts should have reached and did not.
    pub fn missing_of_dates(&self) -> Vec<String> {
        self.not_reached(date_tally::expected())
    }

    fn not_reached(&self, expected: Vec<Feature>) -> Vec<String> {
        let missing = expected.into_iter().filter(|feature| !self.0.contains_key(feature));
        missing.map(|(heading, name)| format!("{heading} {name}")).collect()
    }
}

impl fmt::Display for Tally {
    fn fmt(&self, f: &mut fmt::Formatter<'_>) -> fmt::Result {
        let mut last = "";
        for ((heading, name), times) in &self.0 {
            if *heading != last {
                write!(f, "{}{heading}:", if last.is_empty() { "" } else { "\n" })?;
                last = heading;
            }
            write!(f, "  {name} {times}")?;
        }
        Ok(())
    }
}

pub type Feature = (&'static str, String);

/// The readings, with the values that are told apart and the numbers that each can answer.
const READINGS: [(&str, &[&str], &[u8]); 5] = [
    ("yes/no", &["=1", "=0"], &[INVALID_BOOL]),
    ("u64", &["="], &[ALL_DIGITS, OVERFLOW]),
    ("i64", &["=", "=-"], &[ALL_DIGITS, OVERFLOW]),
    ("f64", &["="], &[ALL_DIGITS, OVERFLOW, PRECISION_LOSS]),
    ("kind", &[], &[BOOL, WHOLE, DECIMAL, NAME]),
];

const CAUSES: [NoScalar; 4] = [
    NoScalar::IndexNotBelowCount,
    NoScalar::CountOverWords,
    NoScalar::NoScalarThere,
    NoScalar::OutsideText,
];

/// All that records can reach. Refusal 1 needs a text longer than a record holds.
fn expected() -> Vec<Feature> {
    let mut all: Vec<Feature> = Vec::new();
    let kinds = ["T", "S", "N", "D", "Y", "C", "V", "W", "F", "R"];
    all.extend(kinds.map(|kind| ("cases", kind.to_string())));
    all.extend((EOF..=FULL).map(|number| ("refusals", number.to_string())));
    all.extend(NAMES.map(|(_, name)| ("tokens", name.to_string())));
    all.extend((LESS_THAN..=EXISTS).map(|kind| ("operators", kind.to_string())));
    all.extend(ESCAPE_PLACES.map(|at| ("escapes", format!("at {at}"))));
    let others = ["last", "two in a row", "in a key", "in a value", "in an entry"];
    all.extend(others.map(|name| ("escapes", name.to_string())));
    for opener in OPENER_CODES.map(name) {
        all.extend([0, 1].map(|flag| ("flags", format!("{opener} {flag}"))));
    }
    all.extend(["0", "1"].map(|bom| ("bom", bom.to_string())));
    for (reading, values, numbers) in READINGS {
        all.extend(values.iter().map(|value| (reading, value.to_string())));
        all.extend(numbers.iter().map(|number| (reading, number.to_string())));
    }
    all.push(("no number any more", format!("{WHOLE} {:?}", NoNumber::NoDigit)));
    all.extend(kind::WHY.map(|why| ("no number any more", format!("{DECIMAL} {why:?}"))));
    all.extend(["sound", "unsound"].map(|word| ("sheets", word.to_string())));
    all.extend(FAULTS.map(|fault| ("failing this alone", format!("{fault:?}"))));
    all.extend(["empty", "bytes"].map(|view| ("views", view.to_string())));
    all.extend(CAUSES.map(|cause| ("no view for", format!("{cause:?}"))));
    all.extend(expected_of_leading());
    all.extend(date_tally::expected());
    all.extend(expected_of_written());
    all.extend(expected_of_files());
    all
}

/// All that sheets to write out can reach.
fn expected_of_written() -> Vec<Feature> {
    let mut all: Vec<Feature> = Vec::new();
    all.extend(["empty", "bytes", "plain"].map(|text| ("written", text.to_string())));
    all.extend(writer::CAUSES.map(|cause| ("not written for", format!("{cause:?}"))));
    all.extend(AT_ONCE.map(|(first, then)| ("two refusals", format!("{first} and {then}"))));
    let written = NAMES.iter().filter(|(code, _)| !is_parameter(*code));
    all.extend(written.map(|(_, name)| ("written tokens", name.to_string())));
    all.extend((LESS_THAN..=EXISTS).map(|kind| ("written operators", kind.to_string())));
    for rooms in ["bytes", "words"] {
        all.extend(["one less", "the need", "one more"].map(|room| (rooms, room.to_string())));
    }
    for levels in MOST_LEVELS - 1..=MOST_LEVELS + 2 {
        let answer = if levels > MOST_LEVELS { "refused" } else { "written" };
        all.push(("levels", format!("{levels} {answer}")));
    }
    all
}

/// All that scalars whose leading number is asked can reach.
fn expected_of_leading() -> Vec<Feature> {
    let mut all: Vec<Feature> = Vec::new();
    for left in [NOTHING_LEFT, A_REST] {
        let numbers = ["positive", "zero", "negative"].map(|number| format!("{number}, {left}"));
        let refusals = [ALL_DIGITS, OVERFLOW].map(|number| format!("{number}, {left}"));
        all.extend(numbers.into_iter().chain(refusals).map(|name| ("leading number", name)));
    }
    for sign in ["no sign", "plus", "minus"] {
        all.extend(["digits", "no digit"].map(|what| ("leading sign", format!("{sign}, {what}"))));
        all.extend(LIMITS.map(|limit| ("leading limit", format!("{sign}, {limit}"))));
    }
    all.extend(DIGITS.map(|count| ("leading digits", count.to_string())));
    all.extend(FIRST_LEFT.map(|(name, _)| ("rest begins with", name.to_string())));
    all
}

/// Whether bytes are left behind a number, in words.
const NOTHING_LEFT: &str = "nothing left";
const A_REST: &str = "a rest";

/// How many digits a number is looked for with, and what became of it: over 19 are read where zeros
/// stand in front.
const DIGITS: [&str; 7] =
    ["18 read", "19 read", "19 refused", "20 read", "20 refused", "more read", "more refused"];

/// The largest number that is read, the largest that 64 bits hold, and one more than each.
const LIMITS: [&str; 4] =
    ["9223372036854775807", "9223372036854775808", "18446744073709551615", "18446744073709551616"];

/// Whether a byte is of some kind.
type ByteTest = fn(u8) -> bool;

/// What a rest can begin with, and how it is told: the first test that holds.
const FIRST_LEFT: [(&str, ByteTest); 6] = [
    ("a point", |byte| byte == b'.'),
    ("a sign", |byte| matches!(byte, b'+' | b'-')),
    ("a letter", |byte| byte.is_ascii_alphabetic()),
    ("a blank", |byte| byte.is_ascii_whitespace()),
    ("a byte past ASCII", |byte| !byte.is_ascii()),
    ("another byte", |_| true),
];

/// All that sheets to put on file and files to read can reach. A file has the words that its count asks
/// for, so that its sheet cannot fail for them.
fn expected_of_files() -> Vec<Feature> {
    let mut all: Vec<Feature> = Vec::new();
    for heading in ["files written", "files read"] {
        all.extend(["no tokens", "tokens"].map(|tokens| (heading, tokens.to_string())));
    }
    all.extend(file::PACK_CAUSES.map(|cause| ("no file for", format!("{cause:?}"))));
    all.extend(file::UNPACK_CAUSES.map(|cause| ("not read for", format!("{cause:?}"))));
    all.push(("not read for", IN_32_BITS.to_string()));
    let numbers = [FILE_NOT_SOUND, FILE_TOO_LARGE, FILE_NO_ROOM];
    all.extend(numbers.map(|number| ("writing refused", number.to_string())));
    let numbers = [FILE_LENGTH, UNKNOWN_VERSION, FILE_COUNT, FILE_NOT_SOUND, FILE_NO_ROOM];
    all.extend(numbers.map(|number| ("reading refused", number.to_string())));
    let two = |(first, then): (u8, u8)| format!("{first} and {then}");
    all.extend(AT_ONCE_IN_WRITING.map(|pair| ("two refusals in writing", two(pair))));
    all.extend(AT_ONCE_IN_READING.map(|pair| ("two refusals in reading", two(pair))));
    for (_, name) in NAMES {
        all.extend(["tokens on file", "tokens read"].map(|heading| (heading, name.to_string())));
    }
    let faults = FAULTS.into_iter().filter(|fault| *fault != sheet::Fault::CountOverWords);
    all.extend(faults.map(|fault| ("in a file failing this alone", format!("{fault:?}"))));
    for rooms in ["room for a file", "room for a sheet"] {
        all.extend(["one less", "the need", "one more"].map(|room| (rooms, room.to_string())));
    }
    all.extend(TEXT_LENGTHS.map(|length| ("text lengths to file", length.to_string())));
    all
}

/// Refusals to write a file that are looked for together, the one that is given first.
const AT_ONCE_IN_WRITING: [(u8, u8); 3] = [
    (FILE_NOT_SOUND, FILE_TOO_LARGE),
    (FILE_NOT_SOUND, FILE_NO_ROOM),
    (FILE_TOO_LARGE, FILE_NO_ROOM),
];

/// Refusals to read a file that are looked for together, the one that is given first.
const AT_ONCE_IN_READING: [(u8, u8); 7] = [
    (FILE_LENGTH, UNKNOWN_VERSION),
    (FILE_LENGTH, FILE_COUNT),
    (FILE_LENGTH, FILE_NOT_SOUND),
    (UNKNOWN_VERSION, FILE_COUNT),
    (UNKNOWN_VERSION, FILE_NOT_SOUND),
    (FILE_COUNT, FILE_NOT_SOUND),
    (FILE_NOT_SOUND, FILE_NO_ROOM),
];

/// The name of a file whose count agrees with its length in 32 bits and not in whole numbers.
const IN_32_BITS: &str = "OtherCount that agrees in 32 bits";

/// The text lengths that are looked for in sheets to put on file.
const TEXT_LENGTHS: [u32; 4] = [0, MOST_OF_THREE, MOST_OF_THREE + 1, u32::MAX];

/// Refusals to write that are looked for together, the one that is given first.
const AT_ONCE: [(u8, u8); 6] = [
    (NOT_SOUND, NO_ROOM),
    (OTHER_FORM, TOO_DEEP),
    (OTHER_FORM, NO_ROOM),
    (TOO_DEEP, NO_ROOM),
    (TOO_DEEP, READS_DIFFERENTLY),
    (NO_ROOM, READS_DIFFERENTLY),
];

/// What one case shows.
pub fn features(record: &Record, answer: &str) -> Vec<Feature> {
    let mut found: Vec<Feature> = vec![("cases", char::from(record.kind).to_string())];
    match record.question() {
        None => {}
        Some(Question::Text { text, .. }) => text_features(text, answer, &mut found),
        Some(Question::Scalar { bytes }) => {
            for (answer, (reading, ..)) in answer.split_whitespace().zip(READINGS) {
                found.push((reading, reading_name(reading, answer).to_string()));
            }
            let (old, why) = (kind::by_readings(bytes), kind::no_number(bytes));
            if let (WHOLE | DECIMAL, Some(why)) = (old, why) {
                found.push(("no number any more", format!("{old} {why:?}")));
            }
        }
        Some(Question::Leading { bytes }) => found.extend(leading_features(bytes, answer)),
        Some(Question::Date { scalar }) => found.extend(date_tally::of_date(scalar, answer)),
        Some(Question::Day { count }) => found.extend(date_tally::of_day(count)),
        Some(Question::Check { length, count, words }) => {
            found.push(("sheets", answer.trim_end().to_string()));
            if let [fault] = sheet::faults(length, &words, count)[..] {
                found.push(("failing this alone", format!("{fault:?}")));
            }
        }
        Some(Question::View { index, count, words, text }) => {
            found.push(match sheet::view(text, &words, count, index) {
                Ok([]) => ("views", "empty".to_string()),
                Ok(_) => ("views", "bytes".to_string()),
                Err(cause) => ("no view for", format!("{cause:?}")),
            });
        }
        Some(Question::Write(asked)) => found.extend(write_features(&asked)),
        Some(Question::Pack(asked)) => found.extend(pack_features(&asked)),
        Some(Question::Unpack(asked)) => found.extend(unpack_features(&asked, answer)),
    }
    found
}

/// What a scalar whose leading number is asked shows: the number's sign or the refusal, with a rest or
/// without; what stands in front, how many digits from 18 up, whether they are a limit, and how the
/// rest begins.
fn leading_features(bytes: &[u8], answer: &str) -> Vec<Feature> {
    let (sign, unsigned) = match bytes {
        [b'+', unsigned @ ..] => ("plus", unsigned),
        [b'-', unsigned @ ..] => ("minus", unsigned),
        _ => ("no sign", bytes),
    };
    let end = unsigned.iter().position(|byte| !byte.is_ascii_digit()).unwrap_or(unsigned.len());
    let (digits, rest) = unsigned.split_at(end);
    let left = if rest.is_empty() { NOTHING_LEFT } else { A_REST };
    let what = if digits.is_empty() { "no digit" } else { "digits" };
    let mut found: Vec<Feature> = vec![
        ("leading number", format!("{}, {left}", number_name(answer))),
        ("leading sign", format!("{sign}, {what}")),
    ];
    let became = if answer.starts_with('=') { "read" } else { "refused" };
    match digits.len() {
        ..18 => {}
        count @ 18..=20 => found.push(("leading digits", format!("{count} {became}"))),
        _ => found.push(("leading digits", format!("more {became}"))),
    }
    let limit = LIMITS.into_iter().find(|limit| digits == limit.as_bytes());
    found.extend(limit.map(|limit| ("leading limit", format!("{sign}, {limit}"))));
    let first = rest.first().and_then(|&byte| FIRST_LEFT.iter().find(|(_, is)| is(byte)));
    found.extend(first.map(|(name, _)| ("rest begins with", name.to_string())));
    found
}

/// A leading number's sign in words, or the refusal.
fn number_name(answer: &str) -> &str {
    match answer.split_whitespace().next() {
        Some("=0") => "zero",
        Some(told) if told.starts_with("=-") => "negative",
        Some(told) if told.starts_with('=') => "positive",
        refusal => refusal.unwrap_or_default(),
    }
}

/// What a sheet that is to be put on file shows: that it was, or why it was not and what else stood against
/// it, how near the room came to the need, and the text length where it is one that is looked for.
fn pack_features(asked: &ToPack) -> Vec<Feature> {
    let causes = file::against_packing(asked);
    let mut found: Vec<Feature> = Vec::new();
    match causes.first() {
        None => {
            let names = asked.words.chunks_exact(WORDS).take(asked.count as usize);
            let names = names.map(|token| name(token[0]).to_string());
            found.push(("files written", some_tokens(asked.count)));
            found.extend(names.map(|name| ("tokens on file", name)));
        }
        Some(first) => {
            found.push(("no file for", format!("{first:?}")));
            found.push(("writing refused", first.number().to_string()));
            found.extend(others(&causes).map(|two| ("two refusals in writing", two)));
        }
    }
    if !causes.contains(&Cause::NotSound) {
        let room = beside(asked.room, file::length_of(asked.count) as usize);
        found.extend(room.map(|room| ("room for a file", room.to_string())));
    }
    let length = TEXT_LENGTHS.contains(&asked.length);
    found.extend(length.then(|| ("text lengths to file", asked.length.to_string())));
    found
}

/// What a file that is to be read shows: that it was, or why it was not and what else stood against it, and how
/// near the room came to the need; which sentence alone an unsound one fails.
fn unpack_features(asked: &ToUnpack<'_>, answer: &str) -> Vec<Feature> {
    let causes = file::against_unpacking(asked);
    let mut found: Vec<Feature> = Vec::new();
    match causes.first() {
        None => {
            let names = answer.lines().skip(1).filter_map(|line| line.split(' ').nth(1));
            found.push(("files read", some_tokens(file::count(asked.file).unwrap_or(0))));
            found.extend(names.map(|name| ("tokens read", name.to_string())));
        }
        Some(first) => {
            found.push(("not read for", format!("{first:?}")));
            found.push(("reading refused", first.number().to_string()));
            found.extend(others(&causes).map(|two| ("two refusals in reading", two)));
        }
    }
    match causes.first() {
        Some(Cause::OtherCount) if file::agrees_in_32_bits_alone(asked.file) => {
            found.push(("not read for", IN_32_BITS.to_string()));
        }
        Some(Cause::NotSound) => {
            let (length, words) = file::sheet_in(asked.file);
            if let [fault] = sheet::faults(length, &words, (words.len() / WORDS) as u32)[..] {
                found.push(("in a file failing this alone", format!("{fault:?}")));
            }
        }
        None | Some(Cause::NoRoom) => {
            let need = WORDS * file::count(asked.file).unwrap_or(0) as usize;
            let room = beside(asked.room, need);
            found.extend(room.map(|room| ("room for a sheet", room.to_string())));
        }
        _ => {}
    }
    found
}

/// Whether there are tokens, in words.
fn some_tokens(count: u32) -> String {
    if count == 0 { "no tokens" } else { "tokens" }.to_string()
}

/// The refusal that was given with each other one that held as well.
fn others(causes: &[Cause]) -> impl Iterator<Item = String> {
    let first = causes[0].number();
    let others = causes.iter().map(|cause| cause.number()).filter(move |&number| number != first);
    others.map(move |number| format!("{first} and {number}"))
}

/// A room that is what is needed, or one beside it.
fn beside(room: usize, need: usize) -> Option<&'static str> {
    match (room + 1).checked_sub(need) {
        Some(0) => Some("one less"),
        Some(1) => Some("the need"),
        Some(2) => Some("one more"),
        _ => None,
    }
}

/// What a sheet that is to be written out shows: what was written, or why it was not and what else stood
/// against it, and how near the room and the depth came to their limits.
fn write_features(asked: &ToWrite<'_>) -> Vec<Feature> {
    let judged = writer::judge(asked);
    let mut found: Vec<Feature> = Vec::new();
    match judged.causes.first() {
        None => {
            let text =
                if judged.text.as_ref().is_some_and(Vec::is_empty) { "empty" } else { "bytes" };
            found.push(("written", text.to_string()));
            found.extend(judged.plain.then(|| ("written", "plain".to_string())));
            found.extend(written_tokens(asked));
        }
        Some(first) => {
            found.push(("not written for", format!("{first:?}")));
            let others = judged.causes.iter().map(|cause| cause.number());
            let other = others.filter(|number| *number != first.number());
            found.extend(other.map(|n| ("two refusals", format!("{} and {n}", first.number()))));
        }
    }
    found.extend(near_limits(asked, &judged));
    found
}

/// The tokens and operators that came back from the text that was written.
fn written_tokens(asked: &ToWrite<'_>) -> Vec<Feature> {
    let mut found = Vec::new();
    for token in asked.words.chunks_exact(WORDS).take(asked.count as usize) {
        found.push(("written tokens", name(token[0]).to_string()));
        if token[0] == OPERATOR {
            found.push(("written operators", token[1].to_string()));
        }
    }
    found
}

/// A buffer, a scratch or a depth that is just at its limit or beside it.
fn near_limits(asked: &ToWrite<'_>, judged: &Judged) -> Vec<Feature> {
    let bytes = judged.text.as_ref().and_then(|text| beside(asked.room, text.len()));
    let words =
        judged.text.as_ref().and_then(|_| beside(asked.scratch, WORDS * asked.count as usize));
    let mut found: Vec<Feature> = Vec::new();
    found.extend(bytes.map(|room| ("bytes", room.to_string())));
    found.extend(words.map(|room| ("words", room.to_string())));
    if (MOST_LEVELS - 1..=MOST_LEVELS + 2).contains(&judged.levels) {
        let answer = if judged.causes.is_empty() { "written" } else { "refused" };
        found.push(("levels", format!("{} {answer}", judged.levels)));
    }
    found
}

fn text_features(text: &[u8], answer: &str, found: &mut Vec<Feature>) {
    let mut lines = answer.lines().map(|line| line.split(' ').collect::<Vec<_>>());
    let head = lines.next().unwrap_or_default();
    match head[..] {
        ["refused", number, _] => found.push(("refusals", number.to_string())),
        ["tokens", _, "bom", bom] => found.push(("bom", bom.to_string())),
        _ => {}
    }
    for token in lines {
        let [_, token, a, b] = token[..] else { continue };
        found.push(("tokens", token.to_string()));
        if OPENER_CODES.map(name).contains(&token) {
            found.push(("flags", format!("{token} {b}")));
        } else if token == name(OPERATOR) {
            found.push(("operators", a.to_string()));
        } else if token == name(QUOTED_ESCAPE) {
            let view = a.parse().ok().zip(b.parse().ok());
            found.extend(view.into_iter().flat_map(|(a, b)| escapes(text, a, b)));
        }
    }
}

/// The places of a run's first escape that are looked for: its first byte, and the edges of strides.
const ESCAPE_PLACES: [usize; 6] = [0, 7, 8, 15, 16, 17];

/// Where a quoted run has its escapes, and what it stands for.
fn escapes(text: &[u8], offset: usize, length: usize) -> Vec<Feature> {
    let (before, view, after) =
        (&text[..offset - 1], &text[offset..offset + length], &text[offset + length + 1..]);
    let mut places = Vec::new();
    let mut at = 0;
    while at < view.len() {
        if view[at] == b'\\' {
            places.push(at);
            at += 1;
        }
        at += 1;
    }
    let mut found: Vec<String> = Vec::new();
    found.extend(
        places.first().filter(|at| ESCAPE_PLACES.contains(at)).map(|at| format!("at {at}")),
    );
    found.extend(places.last().filter(|&&at| at + 2 == view.len()).map(|_| "last".to_string()));
    found.extend(
        places.windows(2).any(|two| two[0] + 2 == two[1]).then(|| "two in a row".to_string()),
    );
    found.push(format!("in {}", role(before.trim_ascii_end(), after.trim_ascii_start())));
    found.into_iter().map(|name| ("escapes", name)).collect()
}

/// What a scalar stands for, by the bytes before and behind it.
fn role(before: &[u8], after: &[u8]) -> &'static str {
    match (before.last(), after.first()) {
        (_, Some(b'=' | b'<' | b'>' | b'!' | b'?')) => "a key",
        (Some(b'=' | b'<' | b'>'), _) => "a value",
        _ => "an entry",
    }
}

/// A reading's answer without its value, but with its sign, and with yes and no.
fn reading_name<'a>(reading: &str, answer: &'a str) -> &'a str {
    match (reading, answer.as_bytes()) {
        ("yes/no" | "kind", _) => answer,
        ("i64", [b'=', b'-', ..]) => "=-",
        (_, [b'=', ..]) => "=",
        // behind the number 24 stands the float
        _ => answer.split(':').next().unwrap_or(answer),
    }
}
