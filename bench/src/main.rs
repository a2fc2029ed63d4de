//! bench [BYTES] [SEED]: our calls and the Rust's on one save, in MB/s, the parse onto tapes of three sizes; the way
//! back beside our parse, and sheet files beside a plain copy of their bytes.
//! bench cuts: each cut alone, the plain one beside the fast one, in nanoseconds a cut.
//!
//! Each pair is run in turns, and the best round of each counts. Both sides write into memory that they
//! have written before, so that no round pays for fresh pages: the Rust empties its `Vec` of tokens and
//! keeps what it holds, ours is lent the same words again with the old tokens in them, and clears, as a
//! part of its work, all words that the new tokens leave.

mod cuts;
mod ours;
mod save;
mod theirs;

use compare::numbers::{WORDS, is_scalar, room_for};
use jomini::TextTape;
use std::hint::black_box;
use std::time::{Duration, Instant};

/// The best of several rounds of some pieces of work, in turns, for a second and a half at the least.
fn in_turns<const N: usize>(works: [&mut dyn FnMut(); N]) -> [Duration; N] {
    in_turns_for(Duration::from_millis(1500), works)
}

/// The same for a time at the least.
fn in_turns_for<const N: usize>(
    least: Duration,
    mut works: [&mut dyn FnMut(); N],
) -> [Duration; N] {
    let mut best = [Duration::MAX; N];
    let began = Instant::now();
    let mut rounds = 0;
    while rounds < 7 || began.elapsed() < least {
        for (work, best) in works.iter_mut().zip(&mut best) {
            let start = Instant::now();
            work();
            *best = start.elapsed().min(*best);
        }
        rounds += 1;
    }
    best
}

/// The best of several rounds of two pieces of work, in turns.
fn race(mut ours: impl FnMut(), mut theirs: impl FnMut()) -> (Duration, Duration) {
    let [ours, theirs] = in_turns([&mut ours, &mut theirs]);
    (ours, theirs)
}

fn show(what: &str, bytes: usize, (ours, theirs): (Duration, Duration)) {
    let rate = |time: Duration| bytes as f64 / 1e6 / time.as_secs_f64();
    let (ours, theirs) = (rate(ours), rate(theirs));
    println!("{what:<34} {ours:>9.1} {theirs:>9.1} {:>7.2}", ours / theirs);
}

/// The parts of the text that the tape's scalars view.
fn scalars<'a>(text: &'a [u8], words: &[u32]) -> Vec<&'a [u8]> {
    let scalars = words.chunks_exact(WORDS).filter(|token| is_scalar(token[0]));
    scalars.map(|token| &text[token[1] as usize..][..token[2] as usize]).collect()
}

/// One reading of all scalars, with what it answers folded into a number.
fn read_all(scalars: &[&[u8]], read: impl Fn(&[u8]) -> (u32, u64)) -> u64 {
    scalars.iter().fold(0, |sum, scalar| {
        let (refusal, value) = read(scalar);
        sum.rotate_left(5) ^ value.wrapping_add(u64::from(refusal))
    })
}

/// A number and how many bytes are left over behind it as one, by which two answers are compared.
fn told_together(value: i64, left: usize) -> u64 {
    value as u64 ^ (left as u64) << 32
}

macro_rules! reading {
    ($scalars:expr, $bytes:expr, $read:ident) => {{
        let (ours, theirs) = (read_all($scalars, ours::$read), read_all($scalars, theirs::$read));
        assert_eq!(ours, theirs, concat!(stringify!($read), " answers otherwise"));
        let times = race(
            || _ = black_box(read_all(black_box($scalars), ours::$read)),
            || _ = black_box(read_all(black_box($scalars), theirs::$read)),
        );
        show(concat!("  ", stringify!($read)), $bytes, times);
        times
    }};
}

/// The way back beside our parse of the same save, which is made as the other but has no parameters. The text
/// written is parsed within the time, and all that was lent is cleared behind what is used.
fn way_back(size: usize, seed: u64) {
    let text = &save::save(size, seed, false)[..];
    let mut tape = vec![1u32; text.len()];
    let count = ours::parse(text, &mut tape).expect("the save parses");
    let words = &tape[..WORDS * count].to_vec()[..];
    let mut out = vec![1u8; ours::bytes_for(text.len(), count)];
    let mut scratch = vec![1u32; words.len()];
    let length = ours::write(text, words, count, &mut out, &mut scratch).expect("it is written");
    let back = compare::oracle::parse(&out[..length]);
    assert_eq!((back.refusal, back.need()), (None, count), "the Rust reads the text otherwise");
    assert!(out[length..].iter().all(|&byte| byte == 0), "a byte is left");
    assert!(scratch.iter().all(|&word| word == 0), "a word is left");
    let times = race(
        || {
            let answer = ours::write(black_box(text), words, count, &mut out, &mut scratch);
            assert_eq!(answer, Ok(length));
        },
        || assert_eq!(ours::parse(black_box(text), &mut tape), Ok(count)),
    );
    show("write (beside it: our parse)", text.len(), times);
    let (write, parse) = (times.0.as_secs_f64(), times.1.as_secs_f64());
    println!(
        "  of {} bytes without parameters, {count} tokens, {length} bytes written: {:.2} ms, a parse of it \
         {:.2} ms, so {:.2} parses",
        text.len(),
        1e3 * write,
        1e3 * parse,
        write / parse
    );
}

/// A save's sheet put on file and read from it, each beside a plain copy of the file's bytes; and both, and the
/// copy, beside the check of the same words. All four take turns, each into memory of its own that was written
/// before, with no room to spare.
fn on_file(text_length: usize, words: &[u32]) {
    let count = words.len() / WORDS;
    let laid = compare::file::laid(text_length as u32, words);
    let (mut packed, mut copied) = (vec![1u8; laid.len()], vec![1u8; laid.len()]);
    let mut unpacked = vec![1u32; words.len()];
    assert_eq!(ours::pack(text_length, words, count, &mut packed), Ok(laid.len()));
    assert!(packed == laid, "the files differ");
    assert_eq!(ours::unpack(&laid, &mut unpacked), Ok((text_length, count)));
    assert!(unpacked == words, "the words differ");
    // the copy comes behind the reading, so that it has no colder file than that
    let [check, unpack, copy, pack] = in_turns([
        &mut || assert!(ours::check(text_length, black_box(words), count)),
        &mut || {
            let answer = ours::unpack(black_box(&laid), &mut unpacked);
            assert_eq!(answer, Ok((text_length, count)));
        },
        &mut || black_box(&mut copied).copy_from_slice(black_box(&laid)),
        &mut || {
            let answer = ours::pack(text_length, black_box(words), count, &mut packed);
            assert_eq!(answer, Ok(laid.len()));
        },
    ]);
    show("pack (beside it: a plain copy)", laid.len(), (pack, copy));
    show("unpack (beside it: a plain copy)", laid.len(), (unpack, copy));
    let milliseconds = |time: Duration| 1e3 * time.as_secs_f64();
    println!(
        "  of a file of {} bytes, {count} tokens: packed in {:.3} ms, unpacked in {:.3} ms; a copy of its bytes \
         {:.3} ms, a check of its words {:.3} ms",
        laid.len(),
        milliseconds(pack),
        milliseconds(unpack),
        milliseconds(copy),
        milliseconds(check)
    );
    let allowed = check + 2 * copy;
    println!(
        "  unpacking takes {} than a check and two copies: {:.3} ms beside {:.3} ms, {:.2} of it",
        if unpack <= allowed { "no longer" } else { "longer" },
        milliseconds(unpack),
        milliseconds(allowed),
        unpack.as_secs_f64() / allowed.as_secs_f64()
    );
}

/// The kind of each scalar, by its form, beside document 01's, which asks the Rust's readings in turn.
fn kinds(scalars: &[&[u8]], bytes: usize) {
    let alike = |scalar: &&&[u8]| ours::kind(scalar).0 == u32::from(compare::kind::by_form(scalar));
    assert_eq!(scalars.iter().filter(alike).count(), scalars.len(), "a kind is another");
    let times = race(
        || _ = black_box(read_all(black_box(scalars), ours::kind)),
        || _ = black_box(read_all(black_box(scalars), theirs::kind)),
    );
    show("  kind (the Rust: its readings)", bytes, times);
}

/// Our parse beside the Rust's, with half a word of tape for each byte, with a whole one, and with room for any text.
fn parses(text: &[u8], tokens: &[u32]) {
    let count = tokens.len() / WORDS;
    let mut tape = TextTape::new();
    for (what, room) in [
        ("parse, half a word for each byte", text.len() / 2),
        ("parse, a word for each byte", text.len()),
        ("parse, room for 2n + 1 tokens", room_for(text.len())),
    ] {
        let words = &mut vec![1u32; room][..];
        assert_eq!(ours::parse(text, words), Ok(count));
        assert!(words[..tokens.len()] == *tokens, "the tapes differ");
        assert!(words[tokens.len()..].iter().all(|&word| word == 0), "a word is left");
        let times = race(
            || assert_eq!(ours::parse(black_box(text), words), Ok(count)),
            || assert_eq!(theirs::parse(black_box(text), &mut tape), Some(count)),
        );
        show(what, text.len(), times);
    }
}

/// The check of a tape with a word for each byte, beside the parse onto it.
fn check(text: &[u8]) {
    let mut tape = vec![1u32; text.len()];
    let count = ours::parse(text, &mut tape).expect("the save parses");
    let words = &tape.clone()[..];
    let times = race(
        || assert!(ours::check(text.len(), black_box(words), count)),
        || assert_eq!(ours::parse(black_box(text), &mut tape), Ok(count)),
    );
    show("check (beside it: our parse)", text.len(), times);
    let check = times.0.as_secs_f64();
    println!("  a check takes {:.3} ms, {:.2} ns a token", 1e3 * check, 1e9 * check / count as f64);
}

/// The readings of every scalar, and its kind.
fn readings(scalars: &[&[u8]]) {
    let bytes = scalars.iter().map(|scalar| scalar.len()).sum();
    println!("readings of {} scalars, {bytes} bytes", scalars.len());
    let all = [
        reading!(scalars, bytes, to_bool),
        reading!(scalars, bytes, to_u64),
        reading!(scalars, bytes, to_i64),
        reading!(scalars, bytes, to_f64),
    ];
    let sum = all.iter().fold((Duration::ZERO, Duration::ZERO), |s, t| (s.0 + t.0, s.1 + t.1));
    show("  all four", 4 * bytes, sum);
    reading!(scalars, bytes, to_i64_part);
    kinds(scalars, bytes);
}

/// All that is measured on a save of a size by a seed.
fn on_a_save(size: usize, seed: u64) {
    let text = &save::save(size, seed, true)[..];
    let parsed = compare::oracle::parse(text);
    assert_eq!(parsed.refusal, None, "the Rust refuses the save");
    let tokens = &parsed.words[..];
    println!("save: {} bytes, seed {seed}, {} tokens", text.len(), tokens.len() / WORDS);
    println!(
        "each parse: the Rust's Vec is emptied and keeps its memory; our tape holds old tokens, and"
    );
    println!(
        "the words behind the new ones are cleared within the time; no other buffer is cleared"
    );
    println!("{:<34} {:>9} {:>9} {:>7}", "MB/s", "ours", "the Rust", "ratio");
    parses(text, tokens);
    check(text);
    way_back(text.len(), seed);
    on_file(text.len(), tokens);
    readings(&scalars(text, tokens));
}

fn main() {
    let args: Vec<String> = std::env::args().skip(1).collect();
    if args == ["cuts"] {
        cuts::show();
        return;
    }
    let number = |place: usize| args.get(place).map(|a| a.parse().expect("a number"));
    on_a_save(number(0).unwrap_or(1_000_000) as usize, number(1).unwrap_or(1));
}
