//! The crate beside the Rust's own types, on the records of the comparison: every token and its place in
//! the text, every reading bit for bit, every number in front with what is left over, every refusal by
//! number and place, every sheet and view, what is written of a text, and sheets on file. Dates, of which
//! the Rust's files at hand have nothing, are held against the comparison's own reading and calendar.
//! `SEED` and `CASES` choose others than are tried by themselves.

use compare::generate::Generator;
use compare::record::{Question, ToPack, ToUnpack, ToWrite};
use compare::rng::Rng;
use compare::{kind, oracle, texts};
use std::env;
use std::ops::Range;
use tackacorn::sheet::{self, Sheet};
use tackacorn::{Date, DateError, FileError, Scalar, ScalarError, TextTape, TextToken, WriteError};
use tackacorn::{LAST_DAY, WORDS_PER_TOKEN};

fn number(name: &str, default: u64) -> u64 {
    env::var(name).map_or(default, |word| word.parse().expect("a number"))
}

fn shown(bytes: &[u8]) -> String {
    String::from_utf8_lossy(&bytes[..bytes.len().min(400)]).into_owned()
}

// ---- scalars ----

/// Whether both have the same answer, by what is compared of it: of a float its bits.
fn same_answer<T, U: PartialEq>(
    ours: Result<T, ScalarError>,
    theirs: Result<T, jomini::ScalarError>,
    compared: impl Fn(T) -> U,
) -> bool {
    use jomini::ScalarError as Theirs;
    match (ours, theirs) {
        (Ok(ours), Ok(theirs)) => compared(ours) == compared(theirs),
        (Err(ScalarError::PrecisionLoss(ours)), Err(Theirs::PrecisionLoss(theirs))) => {
            ours.to_bits() == theirs.to_bits()
        }
        (Err(ours), Err(theirs)) => {
            ours.to_string() == theirs.to_string()
                && ours.number() == u32::from(oracle::scalar_number(&theirs))
        }
        _ => false,
    }
}

/// A number in front, and where the bytes behind it lie: the Rust's empty rest is no part of the scalar.
fn placed((number, rest): (i64, &[u8])) -> (i64, Option<Range<*const u8>>) {
    (number, (!rest.is_empty()).then(|| rest.as_ptr_range()))
}

/// The number that a scalar begins with and the bytes behind it, here and by the Rust's inner routine.
fn same_part_read(bytes: &[u8]) {
    let (ours, theirs) = (Scalar::new(bytes).to_i64_part(), jomini::leading_number(bytes));
    assert!(same_answer(ours, theirs, placed), "the number in front of {:?} differs", shown(bytes));
}

fn same_readings(bytes: &[u8]) {
    same_part_read(bytes);
    let (ours, theirs) = (Scalar::new(bytes), jomini::Scalar::new(bytes));
    let same = same_answer(ours.to_bool(), theirs.to_bool(), u64::from)
        && same_answer(ours.to_u64(), theirs.to_u64(), |value| value)
        && same_answer(ours.to_i64(), theirs.to_i64(), |value| value as u64)
        && same_answer(ours.to_f64(), theirs.to_f64(), f64::to_bits)
        && ours.kind() as u8 == kind::by_form(bytes)
        && ours.is_ascii() == theirs.is_ascii()
        // ASCII goes through the Rust's decoder, which is not among the files at hand
        && (ours.is_ascii() || format!("{ours} {ours:?}") == format!("{theirs} {theirs:?}"));
    assert!(same, "the readings of {:?} differ", shown(bytes));
}

// ---- dates ----

/// Year, month and day.
fn parts(date: Date) -> [u32; 3] {
    [date.year(), date.month(), date.day()]
}

/// A scalar as a date with its count, here and by the comparison's own reading.
fn same_date(scalar: &[u8]) {
    let told = |date: Date| {
        let [year, month, day] = parts(date);
        [year, month, day, date.hour().unwrap_or(0), date.days()]
    };
    let ours = Scalar::new(scalar).to_date().map(told).map_err(DateError::number);
    assert_eq!(ours, compare::date::read(scalar).map_err(u32::from), "{:?}", shown(scalar));
}

/// The date of a count, here and by the comparison's own calendar.
fn same_day(count: u32) {
    let ours = Date::from_days(count).map(parts).map_err(DateError::number);
    assert_eq!(ours, compare::date::of(count).map_err(u32::from), "{count}");
}

// ---- tokens ----

/// Whether both are the same part of the same text.
fn same_part(ours: &Scalar<'_>, theirs: &jomini::Scalar<'_>) -> bool {
    ours.as_bytes().as_ptr_range() == theirs.as_bytes().as_ptr_range()
}

fn same_token(ours: &TextToken<'_>, theirs: &jomini::TextToken<'_>) -> bool {
    use jomini::TextToken as Theirs;
    match (ours, theirs) {
        (TextToken::Array { end, mixed }, Theirs::Array { end: e, mixed: m })
        | (TextToken::Object { end, mixed }, Theirs::Object { end: e, mixed: m }) => {
            end == e && mixed == m
        }
        (TextToken::MixedContainer, Theirs::MixedContainer) => true,
        (TextToken::Unquoted(s), Theirs::Unquoted(t))
        | (TextToken::Quoted(s), Theirs::Quoted(t))
        | (TextToken::Parameter(s), Theirs::Parameter(t))
        | (TextToken::UndefinedParameter(s), Theirs::UndefinedParameter(t))
        | (TextToken::Header(s), Theirs::Header(t)) => same_part(s, t),
        (TextToken::Operator(s), Theirs::Operator(t)) => {
            format!("{s:?} {s} {} {}", s.symbol(), s.name())
                == format!("{t:?} {t} {} {}", t.symbol(), t.name())
        }
        (TextToken::End(i), Theirs::End(j)) => i == j,
        _ => false,
    }
}

fn same_tape(text: &[u8], ours: &TextTape<'_>, theirs: &jomini::TextTape<'_>) {
    let of = || shown(text);
    assert_eq!(ours.utf8_bom(), theirs.utf8_bom(), "the BOM of {:?}", of());
    assert_eq!(ours.tokens().len(), theirs.tokens().len(), "the tokens of {:?}", of());
    for (i, (ours, theirs)) in ours.tokens().iter().zip(theirs.tokens()).enumerate() {
        assert!(same_token(ours, theirs), "token {i} of {:?}: {ours:?}, {theirs:?}", of());
        let parts = (ours.as_scalar(), theirs.as_scalar());
        let parts = (parts.0.map(Scalar::as_bytes), parts.1.map(jomini::Scalar::as_bytes));
        assert_eq!(parts.0, parts.1, "the scalar of token {i} of {:?}", of());
    }
}

/// The tape of a text, refusal included; what it holds is read both ways. Answers how many tokens.
fn same_parse<'a>(text: &'a [u8], used: &mut TextTape<'a>) -> usize {
    let again = TextTape::parser().parse_slice_into_tape(text, used);
    match (TextTape::from_slice(text), jomini::TextTape::from_slice(text)) {
        (Ok(ours), Ok(theirs)) => {
            same_tape(text, &ours, &theirs);
            assert_eq!(again, Ok(()));
            same_tape(text, used, &theirs);
            let scalars = theirs.tokens().iter().filter_map(jomini::TextToken::as_scalar);
            scalars.for_each(|scalar| same_readings(scalar.as_bytes()));
            ours.tokens().len()
        }
        (Err(ours), Err(theirs)) => {
            let (number, place) = oracle::refusal(&theirs.0);
            let told = (ours.number(), ours.place());
            assert_eq!(told, (number.into(), place), "{:?}", shown(text));
            assert_eq!(again, Err(ours));
            assert!(used.tokens().is_empty() && !used.utf8_bom());
            0
        }
        (ours, theirs) => panic!("{:?}: ours {ours:?}, the Rust's {theirs:?}", shown(text)),
    }
}

/// The words of a text on a tape with so much room, and the sheet that they are.
fn same_words(text: &[u8], capacity: usize) {
    let theirs = oracle::parse(text);
    let mut tape = vec![u32::MAX; WORDS_PER_TOKEN * capacity + capacity % WORDS_PER_TOKEN];
    match (sheet::parse_into(text, &mut tape), theirs.refusal_within(capacity)) {
        (Ok(parsed), None) => {
            let (words, rest) = tape.split_at(theirs.words.len());
            assert_eq!((words, parsed.utf8_bom), (&theirs.words[..], theirs.bom));
            assert!(parsed.count == theirs.need() && rest.iter().all(|&word| word == 0));
            let sheet =
                Sheet::new(text, &tape, parsed.count).expect("what parsing leaves is sound");
            let tape = TextTape::from_slice(text).unwrap();
            assert!(sheet.tokens().eq(tape.tokens().iter().cloned()), "{:?}", shown(text));
            for (i, token) in tape.tokens().iter().enumerate() {
                assert_eq!(sheet.view(i).ok(), token.as_scalar());
            }
        }
        (Err(ours), Some((number, place))) => {
            assert_eq!((ours.number(), ours.place()), (number.into(), place));
            assert!(tape.iter().all(|&word| word == 0));
        }
        (ours, theirs) => panic!("{:?} in {capacity}: {ours:?}, {theirs:?}", shown(text)),
    }
}

/// What is written of a text, where it is: the same tokens come back, here and in the Rust, and the tape and
/// its words are written alike. Answers whether it is written.
fn same_back(text: &[u8]) -> bool {
    let Ok(tape) = TextTape::from_slice(text) else { return false };
    let mut words = Vec::new();
    let parsed = sheet::parse(text, &mut words).expect("it parses");
    let written = sheet::write(text, &words, parsed.count);
    assert_eq!(tape.write(), written, "{:?}", shown(text));
    let Ok(written) = written else { return false };
    let back = TextTape::from_slice(&written).expect("what is written parses");
    assert_eq!(back.tokens(), tape.tokens(), "{:?}", shown(text));
    if compare::domain::inside(&written) {
        same_parse(&written, &mut TextTape::new());
    }
    true
}

/// What is written of a sheet, with just the room that a record lends: the text or the refusal, and zeros
/// behind it and on the scratch.
fn same_write(asked: ToWrite<'_>) {
    let theirs = compare::writer::write(&asked).map_err(u32::from);
    let ToWrite { room, scratch, count, words, text } = asked;
    let (mut out, mut tape) = (vec![255u8; room], vec![u32::MAX; scratch]);
    let ours = sheet::write_into(text, &words, count as usize, &mut out, &mut tape);
    let size = ours.unwrap_or(0);
    assert_eq!(
        ours.map(|size| out[..size].to_vec()).map_err(WriteError::number),
        theirs,
        "{:?}",
        shown(text)
    );
    assert!(out[size..].iter().all(|&byte| byte == 0) && tape.iter().all(|&word| word == 0));
}

/// A sheet put on file, with just the room that a record lends: the file or the refusal, and zeros behind it.
fn same_pack(asked: &ToPack) {
    let theirs = compare::file::pack(asked).map_err(u32::from);
    let mut out = vec![255u8; asked.room];
    let (length, count) = (asked.length as usize, asked.count as usize);
    let ours = sheet::pack_into(length, &asked.words, count, &mut out);
    let size = ours.unwrap_or(0);
    assert_eq!(ours.map(|size| out[..size].to_vec()).map_err(FileError::number), theirs);
    assert!(out[size..].iter().all(|&byte| byte == 0));
}

/// A file, read with just the room that a record lends: the sheet or the refusal, and zeros behind it.
fn same_unpack(asked: &ToUnpack<'_>) {
    let theirs = compare::file::unpack(asked).map_err(u32::from);
    let mut words = vec![u32::MAX; asked.room];
    let ours = sheet::unpack_into(asked.file, &mut words);
    let taken = WORDS_PER_TOKEN * ours.map_or(0, |sheet| sheet.count);
    let told = ours.map(|sheet| (sheet.text_length as u32, words[..taken].to_vec()));
    assert_eq!(told.map_err(FileError::number), theirs, "{:?}", asked.file);
    assert!(words[taken..].iter().all(|&word| word == 0));
}

/// Whether a sheet is sound, here and by the comparison's own check.
fn same_check(length: u32, count: u32, words: &[u32]) {
    let sound = compare::sheet::sound(length, words, count);
    assert_eq!(sheet::is_sound(length as usize, words, count as usize), sound);
}

/// The part of the text that a view is, or none.
fn same_view(index: u32, count: u32, words: &[u32], text: &[u8]) {
    let theirs = compare::sheet::view(text, words, count, index).ok();
    let ours = sheet::view(text, words, count as usize, index as usize).ok().map(Scalar::as_bytes);
    assert_eq!(ours.map(<[u8]>::as_ptr_range), theirs.map(<[u8]>::as_ptr_range));
}

// ---- what is tried ----

/// What records of each kind ask for.
const KINDS: [(u8, &str); 10] = [
    (b'T', "texts"),
    (b'S', "scalars"),
    (b'N', "numbers in front"),
    (b'D', "dates"),
    (b'Y', "day counts"),
    (b'C', "sheets"),
    (b'V', "views"),
    (b'W', "sheets to write"),
    (b'F', "sheets to put on file"),
    (b'R', "files to read"),
];

/// Asks both sides what a record asks. Answers whether it is a text that is written back.
fn try_record(asked: Question<'_>) -> bool {
    match asked {
        Question::Text { text, capacity } => {
            same_parse(text, &mut TextTape::new());
            same_words(text, capacity);
            return same_back(text);
        }
        Question::Scalar { bytes } => same_readings(bytes),
        Question::Leading { bytes } => same_part_read(bytes),
        Question::Date { scalar } => same_date(scalar),
        Question::Day { count } => same_day(count),
        Question::Check { length, count, words } => same_check(length, count, &words),
        Question::View { index, count, words, text } => same_view(index, count, &words, text),
        Question::Write(asked) => same_write(asked),
        Question::Pack(asked) => same_pack(&asked),
        Question::Unpack(asked) => same_unpack(&asked),
    }
    false
}

#[test]
fn the_records_of_the_comparison() {
    let (seed, cases) = (number("SEED", 2026), number("CASES", 500_000));
    let (mut tried, mut written) = ([0; KINDS.len()], 0);
    for record in Generator::new(seed).take(cases as usize) {
        let kind = KINDS.iter().position(|&(kind, _)| kind == record.kind);
        tried[kind.expect("a kind that is named")] += 1;
        written += u64::from(try_record(record.question().expect("a good record")));
    }
    let tried = KINDS.iter().zip(tried).map(|((_, what), times)| format!("{times} {what}"));
    let tried: Vec<String> = tried.collect();
    println!("seed {seed}: {}; {written} texts written back; no difference", tried.join(", "));
}

/// Every day that there is, and the first counts that are none.
#[test]
fn every_day_by_the_calendar_of_the_comparison() {
    (0..=LAST_DAY + 1000).for_each(same_day);
}

/// One tape for many texts, long ones among them: what it held before never shows.
#[test]
fn a_tape_that_is_used_again() {
    let mut rng = Rng::new(number("SEED", 2026) ^ 1);
    let mut texts: Vec<Vec<u8>> = Vec::new();
    for _ in 0..20_000 {
        texts.push(if rng.chance(1) { texts::large(&mut rng) } else { texts::any(&mut rng) });
    }
    texts.retain(|text| compare::domain::inside(text));
    let mut tape = TextTape::new();
    let tokens: usize = texts.iter().map(|text| same_parse(text, &mut tape)).sum();
    println!("one tape for {} texts with {tokens} tokens, no difference", texts.len());
}

/// A text of megabytes that needs a tape several times as large as is tried first.
#[test]
fn a_large_dense_text() {
    let mut text = b"a={".to_vec();
    text.extend(b"{c}".repeat(700_000));
    text.push(b'}');
    let tokens = same_parse(&text, &mut TextTape::new());
    assert_eq!(tokens, 2_100_003);
}
