//! Request W13: the reading of document 01 that the cases of the cuts are written by, against the Rust,
//! against the answers that the Rust gave to their first lines, and against the files as they stand.

use compare::cuts::{LONGEST, Run, answer, kept, made, parts, quoted, sweeps, unquoted};
use compare::numbers::{EOF, HEADER, QUOTED, QUOTED_ESCAPE, UNQUOTED, WORDS};
use compare::rng::Rng;
use compare::{domain, oracle};
use std::fs;

const MOST_RANDOM: usize = 70;

fn files() -> (String, String) {
    let read = |name| {
        let path = format!("{}/../crates/cut_cases/{name}", env!("CARGO_MANIFEST_DIR"));
        fs::read_to_string(path).expect("a file of cut_cases")
    };
    (read("stdin"), read("stdout"))
}

/// The value of the key `k`, before which its text stands: its code, offset and length.
fn value(before: &str, text: &[u8]) -> (Option<Vec<u32>>, Option<(u8, usize)>) {
    let parsed = oracle::parse(&[before.as_bytes(), text].concat());
    (parsed.words.get(WORDS..2 * WORDS).map(<[u32]>::to_vec), parsed.refusal)
}

/// Whether the Rust cuts an unquoted run where a value's text begins so, and by the thirteen bytes.
fn asked(text: &[u8]) -> bool {
    let elsewhere = b"\t\n\r ;#{}\"@";
    text.first().is_some_and(|head| !elsewhere.contains(head))
        && !text.iter().any(|&byte| domain::disputed(byte))
}

fn try_unquoted(text: &[u8]) {
    let (laid, _) = value("k= ", text);
    let laid = laid.expect("a value");
    assert!([UNQUOTED, HEADER].contains(&laid[0]), "{text:?}");
    assert_eq!(laid[1..], [3, unquoted(text) as u32], "{text:?}");
}

fn try_quoted(text: &[u8]) {
    match (quoted(text), value("k=\"", text)) {
        (Some((length, escaped)), (Some(laid), _)) => {
            let code = if escaped { QUOTED_ESCAPE } else { QUOTED };
            assert_eq!(laid, [code, 3, length as u32], "{text:?}");
        }
        (None, (None, refusal)) => assert_eq!(refusal, Some((EOF, 0)), "{text:?}"),
        _ => panic!("one of them closes it: {text:?}"),
    }
}

#[test]
fn the_rust_cuts_the_sweeps_alike() {
    let (mut runs, mut quotes) = (0, 0);
    for sweep in sweeps() {
        for text in (0..=LONGEST).flat_map(|length| sweep.texts(length)) {
            match sweep.run {
                Run::Quoted => {
                    try_quoted(&text);
                    quotes += 1;
                }
                Run::Unquoted if asked(&text) => {
                    try_unquoted(&text);
                    runs += 1;
                }
                Run::Unquoted => {}
            }
        }
    }
    println!("unquoted runs {runs}, quoted runs {quotes}");
    assert!(runs > 30_000 && quotes > 20_000);
}

/// Texts of a few bytes that a cut tells apart, and of any.
#[test]
fn the_rust_cuts_any_text_alike() {
    let mut rng = Rng::new(13);
    let few = b"aaaaaaaaaaaa\"\"\\\\=\xa2\xdc\xbd~^";
    let mut runs = 0;
    for _ in 0..300_000 {
        let any = rng.chance(30);
        let length = rng.below(MOST_RANDOM);
        let byte = |_| if any { rng.below(256) as u8 } else { *rng.pick(few) };
        let text: Vec<u8> = (0..length).map(byte).collect();
        try_quoted(&text);
        if asked(&text) {
            try_unquoted(&text);
            runs += 1;
        }
    }
    assert!(runs > 100_000);
}

#[test]
fn the_first_lines_have_their_answers() {
    let (stdin, stdout) = files();
    let mut runs = 0;
    for (line, told) in kept(&stdin, &stdout) {
        let (letter, text) = parts(line);
        if letter == 's' || letter == 'q' {
            assert_eq!(told, format!("{line}{}", answer(letter, &text)));
            runs += 1;
        }
    }
    assert_eq!(runs, 201);
}

#[test]
fn the_files_are_as_they_are_made() {
    let (stdin, stdout) = files();
    let (input, output) = made(&stdin, &stdout);
    assert!(stdin == input && stdout == output, "compare/run --cut_cases crates/cut_cases");
}
