//! Texts to parse: every short one, shapes of the grammar, soups, and damaged copies of good ones.

use crate::numbers::{LONGEST, MOST_TOKENS};
use crate::rng::Rng;

/// The bytes that decide something, and a letter and a digit for all that do not.
pub const BYTES: &[u8] = b"{}[]=<>!?\"\\@#;\n a1";

/// The pieces that saves are made of, whole and half.
pub const PIECES: &[&str] = &[
    "a",
    "=",
    "{",
    "}",
    " ",
    "b ",
    "<",
    ">=",
    "!=",
    "?=",
    "==",
    "\"q\"",
    "[[x]",
    "]",
    "!",
    "[[!y]",
    "@[1+2]",
    "@v",
    "#c\n",
    "{}",
    "<=",
    ">",
    "[",
    "?",
    ";",
    "\"\"",
    "1.5",
    "yes",
    "\"a\\\"b\"",
    "name",
    "\t",
    "\r\n",
    "= {",
    "} =",
    "\\",
    "\"",
    "@",
    "#",
    "rgb {",
    "}}",
    "109E4",
    "-3",
    "[[",
    "#\rb\n",
];

/// The pieces whose every short sequence is tried.
pub const FIRST_PIECES: usize = 16;

/// Counts through all sequences of `length` signs out of `base`: the sequence with this number.
pub fn sequence(mut number: usize, base: usize, length: usize) -> impl Iterator<Item = usize> {
    (0..length).map(move |_| {
        let sign = number % base;
        number /= base;
        sign
    })
}

/// The short texts in order: all of up to three bytes, all of up to four pieces in a container, all
/// of four bytes.
pub fn short(number: usize) -> Option<Vec<u8>> {
    let mut left = number;
    for (pieces, lengths) in [(false, 0..4), (true, 1..5), (false, 4..5)] {
        for length in lengths {
            let base = if pieces { FIRST_PIECES } else { BYTES.len() };
            let all = base.pow(length);
            if left < all {
                let signs = sequence(left, base, length as usize);
                return Some(if pieces {
                    let inside = signs.flat_map(|i| PIECES[i].bytes());
                    b"k={".iter().copied().chain(inside).chain(*b"}").collect()
                } else {
                    signs.map(|i| BYTES[i]).collect()
                });
            }
            left -= all;
        }
    }
    None
}

/// A text of some shape, of at most a few hundred bytes.
pub fn any(rng: &mut Rng) -> Vec<u8> {
    let mut text = match rng.weighted(&[30, 22, 28, 10, 3, 7]) {
        0 => pieces(rng),
        1 => good(rng),
        2 => {
            let mut text = if rng.chance(70) { good(rng) } else { pieces(rng) };
            damage(rng, &mut text);
            text
        }
        3 => soup(rng, BYTES),
        4 => (0..rng.between(1, 60)).map(|_| rng.below(256) as u8).collect(),
        _ => strides(rng),
    };
    match rng.below(100) {
        0..5 => drop(text.splice(0..0, [0xef, 0xbb, 0xbf])),
        5 => drop(text.splice(0..0, [0xef, 0xbb])),
        6 => drop(text.splice(0..0, *b"\xef\xbb\xbf\xef\xbb\xbf")),
        _ => {}
    }
    text
}

fn soup(rng: &mut Rng, bytes: &[u8]) -> Vec<u8> {
    (0..rng.between(1, 40)).map(|_| *rng.pick(bytes)).collect()
}

/// Pieces in any order, as the grammar would never have them; often in a container, and often
/// with all that is open closed at the end.
fn pieces(rng: &mut Rng) -> Vec<u8> {
    let before = *rng.pick(&["", "", "a={", "a={b={", "a={{", "a={b c=d ", "a={b=c ", "a={1 "]);
    let mut text = before.as_bytes().to_vec();
    let spaced = rng.chance(50);
    let most = if rng.chance(50) { FIRST_PIECES } else { PIECES.len() };
    for _ in 0..rng.between(1, 24) {
        text.extend(PIECES[rng.below(most)].bytes());
        if spaced && rng.chance(70) {
            text.push(b' ');
        }
    }
    if rng.chance(60) {
        let count = |byte| text.iter().filter(|&&b| b == byte).count();
        let open = count(b'{').saturating_sub(count(b'}'));
        text.extend(std::iter::repeat_n(b'}', open));
    }
    text
}

/// Scatters a few of these bytes over the text.
pub fn sprinkle(rng: &mut Rng, text: &mut Vec<u8>, bytes: &[u8]) {
    for _ in 0..rng.between(1, 3) {
        let at = rng.between(0, text.len());
        text.insert(at, *rng.pick(bytes));
    }
}

/// Cut short, a byte changed, inserted or removed, two swapped, or a part told twice.
pub fn damage(rng: &mut Rng, text: &mut Vec<u8>) {
    for _ in 0..rng.between(1, 3) {
        if text.is_empty() {
            return;
        }
        let (at, other) = (rng.below(text.len()), rng.below(text.len()));
        match rng.below(6) {
            0 => text.truncate(at),
            1 => text[at] = *rng.pick(BYTES),
            2 => text.insert(at, *rng.pick(BYTES)),
            3 => drop(text.remove(at)),
            4 => text.swap(at, other),
            _ => {
                let part = text[at.min(other)..at.max(other)].to_vec();
                text.splice(at..at, part);
            }
        }
    }
}

/// Runs, quotes, comments and interpolations whose lengths lie about the strides of sixteen bytes.
fn strides(rng: &mut Rng) -> Vec<u8> {
    let mut text = Vec::new();
    for _ in 0..rng.between(1, 4) {
        let length = 16 * rng.below(4) + rng.between(0, 4);
        let mut long: Vec<u8> =
            (0..length.saturating_sub(2)).map(|i| b'a' + (i % 26) as u8).collect();
        if !long.is_empty() && rng.chance(40) {
            let at = rng.below(long.len());
            long[at] = *rng.pick(b"\\\"]=}{ #\n\\<;\t");
        }
        let (before, after) =
            *rng.pick(&[("", ""), ("\"", "\""), ("#", "\n"), ("@[", "]"), ("@", "")]);
        text.extend(before.bytes());
        text.append(&mut long);
        text.extend(after.bytes());
        text.extend(rng.pick(&["=", " ", "=b ", "={", "}", " = "]).bytes());
    }
    text
}

// ---- Shapes of the grammar ----

/// A text as a game writes it, or as a modder does.
pub fn good(rng: &mut Rng) -> Vec<u8> {
    let mut text = Vec::new();
    for _ in 0..rng.between(1, 4) {
        pair(rng, &mut text, 4);
        blank(rng, &mut text);
    }
    if rng.chance(6) {
        text.extend(b"} ");
        pair(rng, &mut text, 2);
    }
    text
}

fn blank(rng: &mut Rng, text: &mut Vec<u8>) {
    let blank = *rng.pick(&[
        " ",
        " ",
        " ",
        " ",
        "\n",
        "\n",
        "\t",
        "\r\n",
        ";",
        " # note\n",
        "#\n",
        "#\ra=\n",
    ]);
    text.extend(blank.bytes());
}

fn maybe_blank(rng: &mut Rng, text: &mut Vec<u8>) {
    if rng.chance(35) {
        blank(rng, text);
    }
}

fn name(rng: &mut Rng, text: &mut Vec<u8>) {
    let name = *rng.pick(&[
        "a",
        "b",
        "name",
        "core",
        "yes",
        "no",
        "1",
        "-5",
        "1936.1.12",
        "109E4",
        "0.5",
        "foo:bar",
        "a_long_name_that_runs_over_sixteen",
        "rgb",
        "hsv",
        "\\",
        "a\"b",
        "\u{e9}",
        "x?",
        "?",
    ]);
    text.extend(name.bytes());
}

fn scalar(rng: &mut Rng, text: &mut Vec<u8>) {
    match rng.weighted(&[60, 10, 6, 4, 4, 3, 5]) {
        0 => name(rng, text),
        1 => text.extend(rng.pick(&["\"\"", "\"a b\"", "\"{=}\"", "\"a#b\""]).bytes()),
        2 => text
            .extend(rng.pick(&["\"a\\\"b\"", "\"\\\\\"", "\"\\a\"", "\"wide\\\\open!\""]).bytes()),
        3 => text.extend(rng.pick(&["@[a + b]", "@[]", "@[1!=2]", "@[[x]"]).bytes()),
        4 => text.extend(rng.pick(&["@v", "@", "@a@b"]).bytes()),
        5 => text.extend(b"\"a quoted text over sixteen bytes\""),
        _ => escaped(rng, text),
    }
}

/// A quoted run with an escape, most often at an edge of a stride of eight or sixteen bytes.
fn escaped(rng: &mut Rng, text: &mut Vec<u8>) {
    let before = *rng.pick(&[0, 1, 6, 7, 8, 9, 14, 15, 16, 17, 24, 31, 32]);
    let escape = *rng.pick(&["\\\"", "\\\\", "\\n", "\\\\\\\"", "\\\\\\\\"]);
    let after = *rng.pick(&[0, 0, 0, 1, 7, 20]);
    text.push(b'"');
    text.extend(std::iter::repeat_n(b'a', before));
    text.extend(escape.bytes());
    text.extend(std::iter::repeat_n(b'b', after));
    text.push(b'"');
}

fn operator(rng: &mut Rng, text: &mut Vec<u8>) {
    let sign =
        *rng.pick(&["=", "=", "=", "=", "=", "==", "<", "<=", ">", ">=", " !=", "?=", " ?="]);
    maybe_blank(rng, text);
    text.extend(sign.bytes());
    maybe_blank(rng, text);
}

fn pair(rng: &mut Rng, text: &mut Vec<u8>, depth: usize) {
    match rng.weighted(&[50, 6, 5, 4, 3, 3]) {
        0 => {
            scalar(rng, text);
            operator(rng, text);
            value(rng, text, depth);
        }
        // a header before its container
        1 => {
            name(rng, text);
            text.push(b'=');
            text.extend(rng.pick(&["rgb", "hsv", "list", "cylindrical"]).bytes());
            maybe_blank(rng, text);
            container(rng, text, depth);
        }
        2 => parameter(rng, text, depth),
        // a key whose container follows without a sign
        3 => {
            name(rng, text);
            maybe_blank(rng, text);
            container(rng, text, depth);
        }
        4 => text.extend(b"{ }"),
        // what was an object goes on as a mixed container
        _ => {
            name(rng, text);
            text.push(b' ');
            scalar(rng, text);
        }
    }
}

fn value(rng: &mut Rng, text: &mut Vec<u8>, depth: usize) {
    if depth == 0 || rng.chance(55) { scalar(rng, text) } else { container(rng, text, depth) }
}

fn container(rng: &mut Rng, text: &mut Vec<u8>, depth: usize) {
    let depth = depth.saturating_sub(1);
    text.push(b'{');
    maybe_blank(rng, text);
    match rng.weighted(&[30, 25, 20, 8, 6, 5, 6]) {
        0 => many(rng, text, depth, pair),
        1 => many(rng, text, depth, value),
        2 => many(rng, text, depth, either),
        3 => {}
        // a hidden object: an array whose tail has keys
        4 => {
            many(rng, text, depth, value);
            many(rng, text, depth, pair);
        }
        // an array of containers, empty ones first
        5 => {
            text.extend(rng.pick(&["{}", "{ } ", "{}{}", "{#\n}"]).bytes());
            many(rng, text, depth, container);
        }
        // a template: a container for a key
        _ => {
            container(rng, text, depth);
            text.extend(rng.pick(&["=", " = ", "==", " "]).bytes());
            value(rng, text, depth);
        }
    }
    maybe_blank(rng, text);
    text.push(b'}');
}

type Part = fn(&mut Rng, &mut Vec<u8>, usize);

fn many(rng: &mut Rng, text: &mut Vec<u8>, depth: usize, part: Part) {
    for i in 0..rng.between(1, 4) {
        if i > 0 {
            blank(rng, text);
        }
        part(rng, text, depth);
    }
    if rng.chance(50) {
        text.push(b' ');
    }
}

fn either(rng: &mut Rng, text: &mut Vec<u8>, depth: usize) {
    match rng.below(5) {
        0 | 1 => pair(rng, text, depth),
        2 | 3 => value(rng, text, depth),
        _ => operator(rng, text),
    }
}

fn parameter(rng: &mut Rng, text: &mut Vec<u8>, depth: usize) {
    text.extend(if rng.chance(50) { b"[[".as_slice() } else { b"[[!" });
    text.extend(rng.pick(&["a", "skill", "]", "a_long_parameter_name"]).bytes());
    text.push(b']');
    maybe_blank(rng, text);
    if rng.chance(40) {
        name(rng, text);
    } else {
        many(rng, text, depth.saturating_sub(1), pair);
    }
    maybe_blank(rng, text);
    text.push(b']');
}

// ---- Texts about the limits of a record ----

/// A text of thousands of tokens, or one that fills a record.
pub fn large(rng: &mut Rng) -> Vec<u8> {
    let mut text = Vec::new();
    let tokens = usize::from(MOST_TOKENS);
    match rng.below(4) {
        // about as many tokens as there is room for
        0 => {
            let unit = *rng.pick(&["a=b ", "a=\"\" ", "a<b "]);
            let most = tokens.div_ceil(if unit == "a<b " { 3 } else { 2 });
            (0..rng.between(most - 1, most + 1)).for_each(|_| text.extend(unit.bytes()));
            text.extend(rng.pick(&["", "a={}", "a={b", "a={b=c"]).bytes());
        }
        1 => {
            text.extend(b"a={");
            (0..rng.between(tokens - 7, tokens - 1)).for_each(|_| text.extend(b"1 "));
            text.extend(b"}");
        }
        // nested as deep as there is room
        2 => {
            let depth = rng.between(1, tokens / 2 + 100);
            (0..depth).for_each(|_| text.extend(b"a={"));
            text.extend(b"b=c");
            (0..depth.saturating_sub(rng.below(3))).for_each(|_| text.push(b'}'));
        }
        _ => {
            let length = rng.between(20_000, LONGEST - 768);
            while text.len() < length {
                text.append(&mut good(rng));
                text.push(b'\n');
            }
        }
    }
    if rng.chance(30) {
        let blank = *rng.pick(b" \n;");
        text.resize(LONGEST, blank);
    }
    text.truncate(LONGEST);
    text
}
