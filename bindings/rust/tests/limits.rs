//! What a user meets at the limits: of a text, of a tape, of words from elsewhere.

use tackacorn::sheet::{self, Sheet};
use tackacorn::{
    Error, ErrorKind, FileError, Scalar, ScalarError, TextTape, TextToken, WriteError,
};
use tackacorn::{FILE_HEAD, LEVEL_LIMIT, TEXT_LIMIT, WORDS_PER_TOKEN};
use tackacorn::{bytes_for, file_bytes_for, file_words_for, words_for};

#[test]
fn the_text_limit_from_both_sides() {
    let mut text = b"a=b".to_vec();
    text.resize(TEXT_LIMIT, b' ');
    let tape = TextTape::from_slice(&text).unwrap();
    assert_eq!(tape.tokens().len(), 2);
    text.push(b' ');
    let refused = TextTape::from_slice(&text).unwrap_err();
    assert_eq!((refused.kind(), refused.place(), refused.offset()), (ErrorKind::TooLong, 0, None));
    let words = format!("refusal 1: the text has more than {TEXT_LIMIT} bytes");
    assert_eq!(refused.to_string(), words);
}

/// Texts of each density are parsed onto a tape that begins with nothing, and with too little.
#[test]
fn a_tape_grows_as_it_must() {
    for (piece, tokens) in [("abcdefgh=ijklmnop ", 2), ("a=b ", 2), ("a={} ", 3), ("a<b ", 3)] {
        let text = piece.repeat(5_000).into_bytes();
        for begin in [0, 1, WORDS_PER_TOKEN, 30_000] {
            let mut words = vec![u32::MAX; begin];
            let parsed = sheet::parse(&text, &mut words).unwrap();
            assert_eq!(parsed.count, 5_000 * tokens);
            assert_eq!(words.len(), WORDS_PER_TOKEN * parsed.count);
            assert!(sheet::is_sound(text.len(), &words, parsed.count));
        }
    }
}

/// `=[{]?` lays more tokens than it has bytes; a tape for any text of its length has room, and one with
/// a token less than it needs has not.
#[test]
fn more_tokens_than_bytes() {
    let text = b"=[{]?";
    let mut words = vec![0; words_for(text.len())];
    let answered = sheet::parse_into(text, &mut words);
    let grown = sheet::parse(text, &mut Vec::new());
    assert_eq!(answered, grown);
    assert_ne!(answered.map_err(|refused| refused.kind()), Err(ErrorKind::Full));
    let short = sheet::parse_into(text, &mut [0; 6 * WORDS_PER_TOKEN]).unwrap_err();
    assert_eq!(short.kind(), ErrorKind::Full);
}

fn refusal(text: &[u8]) -> (u32, usize, Option<(usize, usize)>) {
    let refused = TextTape::from_slice(text).unwrap_err();
    (refused.number(), refused.place(), refused.line_and_column(text))
}

#[test]
fn each_refusal_of_a_text() {
    assert_eq!(refusal(b"a={\n b"), (2, 0, Some((2, 3))));
    assert_eq!(refusal(b"a }"), (3, 2, Some((1, 3))));
    assert_eq!(refusal(b"{ a }"), (4, 2, Some((1, 3))));
    assert_eq!(refusal(b"a=}"), (5, 2, Some((1, 3))));
    assert_eq!(refusal(b"a={b c=d {[[x] y]}}"), (6, 10, Some((1, 11))));
    // the format's place is one before the sign, the line and the column are the sign's
    assert_eq!(refusal(b"a={{b}\n<c}"), (7, 6, Some((2, 1))));
    assert_eq!(refusal(b"a={b !c}"), (8, 4, Some((1, 6))));
    assert_eq!(refusal(b"[x"), (9, 0, Some((1, 1))));
    assert_eq!(refusal(b"\xef\xbb\xbf[x"), (9, 3, Some((1, 1))));
    assert_eq!(refusal(b"\xef\xbb\xbf#\r\n [[a b"), (10, 10, Some((2, 5))));
}

#[test]
fn an_error_is_one_to_others() {
    fn takes(_: impl std::error::Error + Send + Sync + 'static) {}
    takes(TextTape::from_slice(b"a").unwrap_err());
    takes(Scalar::new(b"").to_u64().unwrap_err());
    fn asks(text: &[u8]) -> Result<usize, Box<dyn std::error::Error>> {
        Ok(TextTape::from_slice(text)?.tokens().len())
    }
    assert_eq!(asks(b"a=b").unwrap(), 2);
    assert_eq!(asks(b"a").unwrap_err().to_string(), "refusal 2: the text ends too early");
    let refused: Error = *asks(b"a=}").unwrap_err().downcast().unwrap();
    assert_eq!(refused.words(), ErrorKind::NoValue.to_string());
}

/// Words from elsewhere: whatever they are, nothing is read outside the text, and a sheet is made of
/// sound ones alone.
#[test]
fn words_from_elsewhere() {
    let text = b"ab";
    let edges = [0, 1, 2, 3, 4, 5, 8, 9, 10, 11, 0x7fff_ffff, 0x8000_0000, u32::MAX];
    let mut sound = 0;
    for code in edges {
        for a in edges {
            for b in edges {
                let words = [code, a, b, 7];
                for count in [0, 1, 2, usize::MAX, usize::MAX / 3 + 1] {
                    let view = sheet::view(text, &words, count, 0);
                    assert!(view.is_err() || count == 1 && [4, 5, 6, 7, 10, 11].contains(&code));
                    let Some(sheet) = Sheet::new(text, &words, count) else { continue };
                    assert!(sheet.len() == count && sheet.words().len() == WORDS_PER_TOKEN * count);
                    assert_eq!(sheet.tokens().count(), count);
                    assert!(sheet.get(count).is_none() && sheet.view(count).is_err());
                    sound += count;
                }
            }
        }
    }
    // a MixedContainer, six of the eight operators, three Unquoted, and six in quotes of either code
    assert_eq!(sound, 1 + 6 + 3 + 6 + 6);
}

/// The text of a save by its tape, which is that of its sheet, or its refusal's number.
fn written(text: &[u8]) -> Result<String, u32> {
    let mut words = Vec::new();
    let parsed = sheet::parse(text, &mut words).unwrap();
    let by_sheet = Sheet::new(text, &words, parsed.count).unwrap().write();
    let by_tape = TextTape::from_slice(text).unwrap().write();
    assert_eq!(by_tape, by_sheet);
    by_sheet.map(|bytes| String::from_utf8(bytes).unwrap()).map_err(WriteError::number)
}

#[test]
fn the_way_back() {
    let same =
        ["", "a={b=1 c={1 \"2 3\" d}}", "a < 1 b ?= 2", "a={1 b = 2 c < 3 {d}}", "a=\"\" b={\"\"}"];
    for text in same {
        assert_eq!(written(text.as_bytes()).as_deref(), Ok(text));
    }
    assert_eq!(written(b"\xef\xbb\xbfa = rgb{ 1 } # x").as_deref(), Ok("a=rgb {1}"));
    assert_eq!(written(br#"a="b\"c""#).as_deref(), Ok(r#"a="b\"c""#));
    assert_eq!(written(b"GER={ fighter=19").as_deref(), Ok("GER={fighter=19}"), "cut short");
    for text in ["a b{}c=d", "a= =", "a=b{{}}", "a={{{}}}"] {
        assert_eq!(written(text.as_bytes()), Err(45), "{text}");
    }
    assert_eq!(written(b"[[x] y]"), Err(46));
    assert_eq!(written(b"a={[[!x] y=1 ]}"), Err(46));
}

#[test]
fn the_levels_from_both_sides() {
    let nested = |levels| format!("k={}a{}", "{".repeat(levels), "}".repeat(levels));
    let deepest = nested(LEVEL_LIMIT);
    assert_eq!(written(deepest.as_bytes()), Ok(deepest));
    assert_eq!(written(nested(LEVEL_LIMIT + 1).as_bytes()), Err(42));
}

/// 17 bytes to each of so many entries, and what is before them: just the limit, and one byte over it.
#[test]
fn the_text_limit_of_what_is_written() {
    let entries = "\"12345678901234\"".repeat(986_894);
    let at_limit = format!("abcdefghijklmno={{{entries}}}");
    assert_eq!(written(at_limit.as_bytes()).map(|text| text.len()), Ok(TEXT_LIMIT));
    assert_eq!(written(format!("a{at_limit}").as_bytes()), Err(43));
}

/// What is lent to a write holds the text and zeros, or zeros alone, and the scratch zeros.
#[test]
fn what_a_write_leaves() {
    let (text, words) = (b"k v w", [4, 0, 1, 5, 2, 3]);
    assert_eq!(bytes_for(text.len(), 2), 11);
    for bytes in 0..12 {
        for scratch_words in 0..8 {
            let (mut out, mut scratch) = (vec![7; bytes], vec![7; scratch_words]);
            let answer = sheet::write_into(text, &words, 2, &mut out, &mut scratch);
            let room = bytes >= 7 && scratch_words >= 6;
            assert_eq!(answer, if room { Ok(7) } else { Err(WriteError::NoRoom) });
            assert!(!room || out.starts_with(b"k=\"v w\""));
            assert!(out[answer.unwrap_or(0)..].iter().all(|&byte| byte == 0));
            assert!(scratch.iter().all(|&word| word == 0));
        }
    }
    for count in [3, usize::MAX / 3 + 1, usize::MAX] {
        assert_eq!(sheet::write(text, &words, count), Err(WriteError::NotSound));
    }
    assert_eq!(sheet::write(text, &words, 1), Err(WriteError::OtherForm), "a key without an entry");
}

/// Tokens that were changed: what the text would not say is refused.
#[test]
fn an_edited_tape() {
    let save = b"order={ amount=240 } leader={ name=\"Erik\" }";
    let edited = |index: usize, token: TextToken<'static>| {
        let mut tape = TextTape::from_slice(save).unwrap();
        tape.tokens_mut()[index] = token;
        tape.write().map(|text| String::from_utf8(text).unwrap()).map_err(WriteError::number)
    };
    let (unquoted, quoted) = (
        |bytes| TextToken::Unquoted(Scalar::new(bytes)),
        |bytes| TextToken::Quoted(Scalar::new(bytes)),
    );
    let with = |amount, name| format!("order={{amount={amount}}} leader={{name={name}}}");
    assert_eq!(edited(3, unquoted(b"300")), Ok(with("300", "\"Erik\"")));
    assert_eq!(edited(8, quoted(b"")), Ok(with("240", "\"\"")));
    assert_eq!(edited(8, quoted(br#"Erik \"L\""#)), Ok(with("240", r#""Erik \"L\"""#)));
    assert_eq!(edited(8, unquoted(b"@[1 2]")), Ok(with("240", "@[1 2]")));
    assert_eq!(edited(3, unquoted(b"3 00")), Err(45));
    assert_eq!(edited(8, quoted(b"Erik \"L\"")), Err(45));
    assert_eq!(edited(8, quoted(b"Erik\\")), Err(45));
    assert_eq!(edited(3, unquoted(b"")), Err(41));
    assert_eq!(edited(1, TextToken::Object { end: 5, mixed: false }), Err(41));
    assert_eq!(edited(1, TextToken::Object { end: usize::MAX, mixed: false }), Err(41));
    assert_eq!(edited(1, TextToken::Object { end: 4, mixed: true }), Err(45), "a flag of nothing");
    assert_eq!(edited(2, TextToken::MixedContainer), Err(45));
}

/// The sheet of `a=b`, and its file.
const PAIR: [u32; 6] = [4, 0, 1, 4, 2, 1];
const PAIR_FILE: [u8; 30] =
    [0, 0, 0, 30, 1, 0, 0, 3, 0, 0, 0, 2, 4, 0, 0, 0, 0, 0, 0, 0, 1, 4, 0, 0, 0, 2, 0, 0, 0, 1];

#[test]
fn there_and_back_on_file() {
    for text in ["", "a=b", "a=\"\" b={\"c\\\"\" 1=2}", "a=rgb{1} [[x] y]", "\u{feff}a<{b c={}}"] {
        let mut words = Vec::new();
        let parsed = sheet::parse(text.as_bytes(), &mut words).unwrap();
        let file = sheet::pack(text.len(), &words, parsed.count).unwrap();
        assert_eq!(file.len(), file_bytes_for(parsed.count));
        assert_eq!(
            Sheet::new(text.as_bytes(), &words, parsed.count).unwrap().pack(),
            Ok(file.clone())
        );
        let mut again = vec![7; 5];
        let unpacked = sheet::unpack(&file, &mut again).unwrap();
        assert_eq!((unpacked.text_length, unpacked.count), (text.len(), parsed.count));
        assert_eq!(again, words);
    }
    assert_eq!(sheet::pack(3, &PAIR, 2), Ok(PAIR_FILE.to_vec()));
    let most = sheet::pack(TEXT_LIMIT, &[], 0).unwrap();
    assert_eq!(sheet::unpack(&most, &mut Vec::new()).unwrap().text_length, TEXT_LIMIT);
}

/// What is lent to either call holds the file or the tokens and zeros, or zeros alone.
#[test]
fn what_the_calls_on_files_leave() {
    for bytes in 0..=32 {
        let mut out = vec![7; bytes];
        let answer = sheet::pack_into(3, &PAIR, 2, &mut out);
        assert_eq!(answer, if bytes >= 30 { Ok(30) } else { Err(FileError::NoRoom) });
        assert!(bytes < 30 || out.starts_with(&PAIR_FILE));
        assert!(out[answer.unwrap_or(0)..].iter().all(|&byte| byte == 0));
    }
    assert!(file_words_for(PAIR_FILE.len()) >= PAIR.len());
    for room in 0..=8 {
        let mut words = vec![7; room];
        let answer = sheet::unpack_into(&PAIR_FILE, &mut words);
        let taken = if room >= 6 { 6 } else { 0 };
        assert_eq!(answer.map(|unpacked| unpacked.count).ok(), (room >= 6).then_some(2));
        assert!(room >= 6 || answer == Err(FileError::NoRoom));
        assert!(words[..taken] == PAIR[..taken] && words[taken..].iter().all(|&word| word == 0));
    }
}

#[test]
fn sheets_that_are_not_put_on_file() {
    for count in [3, usize::MAX / 9 + 1, usize::MAX / 3 + 1, usize::MAX] {
        assert_eq!(sheet::pack(3, &PAIR, count), Err(FileError::NotSound));
    }
    assert_eq!(sheet::pack(2, &PAIR, 2), Err(FileError::NotSound), "a view out of the text");
    for length in [TEXT_LIMIT + 1, usize::MAX] {
        assert_eq!(sheet::pack(length, &PAIR, 2), Err(FileError::TooLarge));
        assert_eq!(
            sheet::pack_into(length, &PAIR, 2, &mut []),
            Err(FileError::TooLarge),
            "no room"
        );
        assert_eq!(sheet::pack(length, &PAIR, 3), Err(FileError::NotSound), "before too large");
    }
}

/// The refusal of the file of a pair with other bytes in it, from a place on, which says its own length.
fn unread(at: usize, bytes: &[u8], length: usize) -> Result<usize, u32> {
    let mut file = PAIR_FILE.to_vec();
    file.resize(length.max(FILE_HEAD), 0);
    file[3] = length as u8;
    file[at..at + bytes.len()].copy_from_slice(bytes);
    let mut words = vec![7; 3];
    let answer = sheet::unpack(&file[..length], &mut words);
    assert!(answer.is_ok() || words.is_empty());
    answer.map(|unpacked| unpacked.text_length).map_err(FileError::number)
}

#[test]
fn files_that_are_not_read() {
    assert_eq!(unread(4, &[1], 30), Ok(3));
    assert_eq!(unread(4, &[2], 11), Err(31), "before the version");
    assert_eq!((unread(0, &[1], 30), unread(3, &[31], 30)), (Err(31), Err(31)));
    assert_eq!((unread(4, &[0], 30), unread(4, &[2], 31)), (Err(32), Err(32)));
    assert_eq!((unread(4, &[1], 29), unread(4, &[1], 31)), (Err(36), Err(36)));
    assert_eq!(unread(8, &[255; 4], 30), Err(36));
    assert_eq!(unread(8, &954_437_177_u32.to_be_bytes(), 13), Err(36), "13 modulo 2^32");
    assert_eq!((unread(7, &[2], 30), unread(12, &[12], 30)), (Err(33), Err(33)));
    assert_eq!(unread(21, &[11], 30), Ok(3), "code 11 is taken");
    assert_eq!(unread(5, &[255, 255, 255], 30), Ok(TEXT_LIMIT), "of another text, and as sound");
    let mut unsound = PAIR_FILE;
    unsound[12] = 0;
    assert_eq!(sheet::unpack_into(&unsound, &mut []), Err(FileError::NotSound), "before no room");
    for length in 0..30 {
        assert_eq!(sheet::unpack(&PAIR_FILE[..length], &mut Vec::new()), Err(FileError::Length));
    }
}

/// The table of [`Scalar`]: numbers that have no digit.
#[test]
fn numbers_without_a_digit() {
    use ScalarError::AllDigits;
    let table = [
        ("+", Ok(0), Ok(0), Ok(0.0)),
        ("-", Err(AllDigits), Ok(0), Ok(0.0)),
        (".", Err(AllDigits), Err(AllDigits), Ok(0.0)),
        (".f", Err(AllDigits), Err(AllDigits), Ok(0.0)),
        ("-.", Err(AllDigits), Err(AllDigits), Ok(-0.0)),
        ("+f", Err(AllDigits), Err(AllDigits), Ok(0.0)),
        ("-f", Err(AllDigits), Err(AllDigits), Ok(0.0)),
        ("f", Err(AllDigits), Err(AllDigits), Err(AllDigits)),
        ("", Err(AllDigits), Err(AllDigits), Err(AllDigits)),
    ];
    for (bytes, whole, signed, decimal) in table {
        let scalar = Scalar::new(bytes.as_bytes());
        assert_eq!((scalar.to_u64(), scalar.to_i64()), (whole, signed), "{bytes}");
        assert_eq!(scalar.to_f64().map(f64::to_bits), decimal.map(f64::to_bits), "{bytes}");
    }
}

/// Holds the number in front of a scalar, and the whole scalar, against the value of its digits, which is none
/// where they are too large.
fn try_leading(sign: &str, digits: &str, tail: &str, value: Option<i64>) {
    let bytes = format!("{sign}{digits}{tail}");
    let scalar = Scalar::new(bytes.as_bytes());
    let number = value.map(|value| if sign == "-" { -value } else { value });
    let number = number.ok_or(ScalarError::Overflow);
    let part = number.clone().map(|number| (number, tail.as_bytes()));
    assert_eq!(scalar.to_i64_part(), part, "{bytes}");
    let no_tail = if tail.is_empty() { Ok(()) } else { Err(ScalarError::AllDigits) };
    assert_eq!(scalar.to_i64(), number.and_then(|number| no_tail.map(|()| number)), "{bytes}");
}

#[test]
fn the_number_that_a_scalar_begins_with() {
    let table = [
        ("0", Some(0)),
        ("12", Some(12)),
        ("007", Some(7)),
        ("9223372036854775807", Some(i64::MAX)),
        ("000000000000000000009223372036854775807", Some(i64::MAX)),
        ("9223372036854775808", None),
        ("18446744073709551628", None), // 12 in 64 bits
        ("99999999999999999999", None),
    ];
    for (digits, value) in table {
        for sign in ["", "+", "-"] {
            for tail in ["", ".", ".1.12", "x", " ", "-1", "E4", "\0", "/", ":"] {
                try_leading(sign, digits, tail, value);
            }
        }
    }
}

/// A sign needs no digit behind it, another first byte is refused, and the rest is of the scalar's own bytes.
#[test]
fn the_edges_of_a_leading_number() {
    let part = |bytes: &'static str| Scalar::new(bytes.as_bytes()).to_i64_part();
    for (bytes, rest) in [("-", ""), ("+", ""), ("-x", "x"), ("+.5", ".5"), ("--5", "-5")] {
        assert_eq!(part(bytes), Ok((0, rest.as_bytes())), "{bytes}");
    }
    for bytes in ["", ".5", "x12", " 12", "/1", ":1", "\0", "yes"] {
        assert_eq!(part(bytes), Err(ScalarError::AllDigits), "{bytes}");
    }
    let scalar = b"1936.1.12";
    let (year, rest) = Scalar::new(scalar).to_i64_part().unwrap();
    assert!(year == 1936 && rest.as_ptr_range() == scalar[4..].as_ptr_range());
    let (whole, none) = Scalar::new(&scalar[..4]).to_i64_part().unwrap();
    assert!(whole == 1936 && none.as_ptr_range() == scalar[4..4].as_ptr_range());
}

#[test]
fn the_library_is_of_this_version() {
    let first = |version: &'static str| version.split('.').next();
    assert_eq!(first(tackacorn::version()), first(env!("CARGO_PKG_VERSION")));
}

#[test]
fn a_token_takes_as_much_as_in_the_rust() {
    assert_eq!(size_of::<TextToken<'_>>(), 24);
}
