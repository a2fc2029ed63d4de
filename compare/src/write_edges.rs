//! The edges of request W5, each with the answer that its words give: texts that are parsed and written
//! back, sheets made by hand, rooms, depths, and two refusals at once. Every run and the sample have them;
//! `tests/written.rs` holds both writers against the answers.
//!
//! One case is not here: the keys and entries `a!` and `b` are written as `a!=b`, which our thirteen bytes
//! read back and the Rust does not, so that it is outside the domain of demand 2. The test has it for the
//! model's writer alone.

use crate::numbers::*;
use crate::oracle;
use crate::record::Record;
use crate::sheets::Sheet;
use crate::tree::{self, Node, array, object, scalar};

/// The text that is written, or the refusal.
type Answer = Result<Vec<u8>, u8>;

/// The same where it stands in the table below.
type Told = Result<&'static [u8], u8>;

/// A text that does not come back.
const DIFFERS: Told = Err(READS_DIFFERENTLY);

/// Texts that parse, and what their sheets come to.
const PARSED: [(&[u8], Told); 41] = [
    (b"", Ok(b"")),
    (b"a=b", Ok(b"a=b")),
    (b"a={b c=d}\n", Ok(b"a={b c = d}")),
    (b"color=rgb{1 2}", Ok(b"color=rgb {1 2}")),
    (b"a<b", Ok(b"a < b")),
    (b"a<=b c>d e>=f g != h i==j k ?=l", Ok(b"a <= b c > d e >= f g != h i == j k ?= l")),
    (b"a={x b<c<=d>e>=f != g==h=i}", Ok(b"a={x b < c <= d > e >= f != g == h = i}")),
    // a scalar or a Header that is one boundary byte reads back, but for a `=` behind a `=`
    (b"a={b<c<=d}", Ok(b"a={b < c <=d}")),
    (b"a=< b=[ c=]", Ok(b"a=< b=[ c=]")),
    (b"a < =", Ok(b"a < =")),
    (b"= =b", Ok(b"==b")),
    (b"a={]}", Ok(b"a={]}")),
    (b"a=]{b}", Ok(b"a=] {b}")),
    (b"a= =", DIFFERS),
    (b"a= ={b}", DIFFERS),
    // quotes, with and without an escape, as a key and as an entry
    (b"name=\"a \\\"b\\\" c\"", Ok(b"name=\"a \\\"b\\\" c\"")),
    (b"\"\\\\\" = { \"\\n\" \"\" }", Ok(b"\"\\\\\"={\"\\n\" \"\"}")),
    // blanks, comments and the byte order mark are not written
    (b"\xef\xbb\xbfa = b # c\n;\td=e", Ok(b"a=b d=e")),
    (b"a={ }", Ok(b"a={}")),
    (b"a { b }", Ok(b"a={b}")),
    (b"a={ b=c ", Ok(b"a={b=c}")),
    // braces that the parse drops stay dropped
    (b"a=b {} c=d", Ok(b"a=b c=d")),
    (b"a={{}}", Ok(b"a={}")),
    (b"a={{} b}", Ok(b"a={b}")),
    (b"a={b {}}", Ok(b"a={b {}}")),
    // a MixedContainer in the root, in an object and in an array
    (b"a b {c}", Ok(b"a b {c}")),
    (b"a={b=c d e}", Ok(b"a={b=c d e}")),
    (b"a={b=c d e=f}", Ok(b"a={b=c d e = f}")),
    (b"a={b c=d {}}", Ok(b"a={b c = d {}}")),
    (b"a={{b}={c}}", Ok(b"a={{b} {c}}")),
    // keys that are taken up again behind a container of a mixed part, where a `=` is not written
    (b"a b{}c=d", DIFFERS),
    (b"a b{}c<d", Ok(b"a b {} c < d")),
    (b"a b{}c={d}", Ok(b"a b {} c {d}")),
    (b"a={b=c d e{}f=g}", DIFFERS),
    (b"a={b=c d e{f}g=h}", Ok(b"a={b=c d e {f} g = h}")),
    // braces that are not read again, and a second byte order mark
    (b"a=b{{}}", DIFFERS),
    (b"a={{{}}}", DIFFERS),
    (b"\xef\xbb\xbf\xef\xbb\xbfa=b", DIFFERS),
    // a parameter
    (b"[[x]y]", Err(OTHER_FORM)),
    (b"a={[[!x]b=c]}", Err(OTHER_FORM)),
    (b"a=@[b c] @d=e", Ok(b"a=@[b c] @d=e")),
];

/// An unquoted scalar.
fn unquoted(bytes: &[u8]) -> Node {
    scalar(UNQUOTED, bytes)
}

/// The nodes in so many arrays, one in another, as the entry of a key.
fn in_arrays(levels: usize, inside: Vec<Node>) -> Vec<Node> {
    let nested = (0..levels).fold(inside, |inside, _| vec![array(inside)]);
    [vec![unquoted(b"k")], nested].concat()
}

/// The text of so many arrays, one in another, with this in the innermost.
fn arrays_text(levels: usize, inside: &[u8]) -> Answer {
    Ok([b"k=", b"{".repeat(levels).as_slice(), inside, &b"}".repeat(levels)].concat())
}

/// Sheets made by hand that are not of the form.
fn of_another_form() -> Vec<Vec<Node>> {
    let (a, b) = (unquoted(b"a"), unquoted(b"b"));
    let (less, header) = (Node::Operator(LESS_THAN), scalar(HEADER, b"rgb"));
    let shapes = vec![
        // a key without an entry: the body's end, a MixedContainer, a second operator
        vec![a.clone()],
        vec![a.clone(), less.clone()],
        vec![a.clone(), Node::Mixed, b.clone()],
        vec![a.clone(), less.clone(), Node::Mixed, b.clone()],
        vec![a.clone(), less.clone(), less.clone(), b.clone()],
        // what is no key
        vec![header.clone(), array(vec![b.clone()])],
        vec![less.clone(), a.clone(), b.clone()],
        vec![a.clone(), b.clone(), array(Vec::new())],
        // a parameter, as a key, as an entry, and behind a MixedContainer
        vec![scalar(PARAMETER, b"p"), b.clone()],
        vec![a.clone(), scalar(UNDEFINED_PARAMETER, b"p")],
        vec![Node::Mixed, a.clone(), scalar(PARAMETER, b"p")],
    ];
    let inside = shapes.clone().into_iter().map(|shape| vec![a.clone(), object(shape)]);
    shapes.clone().into_iter().chain(inside).collect()
}

/// Sheets made by hand that are of the form, and what they come to.
fn of_the_form() -> Vec<(Vec<Node>, Answer)> {
    let differs = || Err(READS_DIFFERENTLY);
    let written = |text: &[u8]| Ok(text.to_vec());
    let (a, b, k) = (unquoted(b"a"), unquoted(b"b"), unquoted(b"k"));
    let header = scalar(HEADER, b"rgb");
    let flagged = |code, inside| Node::Container { code, flag: 1, inside };
    vec![
        // a Header in an array, and one before an empty container
        (vec![k.clone(), array(vec![header.clone(), array(vec![a.clone()])])], differs()),
        (vec![k.clone(), header.clone(), array(Vec::new())], differs()),
        (vec![k.clone(), header.clone(), array(vec![a.clone()])], written(b"k=rgb {a}")),
        (
            vec![k.clone(), Node::Operator(LESS_THAN), header, array(vec![a.clone()])],
            written(b"k < rgb {a}"),
        ),
        // an empty object, and an empty container first in an array
        (vec![k.clone(), object(Vec::new())], differs()),
        (vec![k.clone(), array(vec![array(Vec::new()), a.clone()])], differs()),
        (vec![k.clone(), array(vec![a.clone(), array(Vec::new())])], written(b"k={a {}}")),
        // a flag that no reading sets, and none where a reading sets one
        (vec![k.clone(), flagged(ARRAY, vec![a.clone()])], differs()),
        (vec![k.clone(), flagged(OBJECT, vec![a.clone(), b.clone()])], differs()),
        (
            vec![k.clone(), array(vec![Node::Mixed, a.clone(), Node::Operator(EQUAL), b.clone()])],
            differs(),
        ),
        // a MixedContainer alone writes nothing
        (vec![Node::Mixed], differs()),
        // an operator that a key cannot have, and one that an array cannot
        (vec![a.clone(), Node::Operator(EQUAL), b.clone()], differs()),
        (
            vec![
                k.clone(),
                flagged(ARRAY, vec![Node::Mixed, a.clone(), Node::Operator(EXISTS), b.clone()]),
            ],
            differs(),
        ),
        // bytes of a key that read back, and bytes that do not
        (vec![unquoted(b"a b"), b.clone()], differs()),
        (vec![unquoted(b"@[a b]"), b.clone()], written(b"@[a b]=b")),
        (vec![unquoted(b"\xef\xbb\xbfa"), b.clone()], differs()),
        (vec![a.clone(), unquoted(b"\xef\xbb\xbfb")], written(b"a=\xef\xbb\xbfb")),
        (vec![unquoted(b"\"a\""), b.clone()], differs()),
        // a blank for a key: `;={}` has the key `=`, so that nothing but its byte is another
        (vec![unquoted(b";"), array(Vec::new())], differs()),
        // quoted bytes and the code that they have
        (vec![a.clone(), scalar(QUOTED, b"{ = # }")], written(b"a=\"{ = # }\"")),
        (vec![a.clone(), scalar(QUOTED, b"b\"c")], differs()),
        (vec![a.clone(), scalar(QUOTED, b"b\\nc")], differs()),
        (vec![a.clone(), scalar(QUOTED_ESCAPE, b"bc")], differs()),
        (vec![a.clone(), scalar(QUOTED_ESCAPE, b"")], differs()),
        (vec![a.clone(), scalar(QUOTED_ESCAPE, b"b\\")], differs()),
        (vec![a.clone(), scalar(QUOTED_ESCAPE, b"\\\\")], written(b"a=\"\\\\\"")),
    ]
}

/// Sheets about as deep as they may be, and what they come to.
fn deep() -> Vec<(Vec<Node>, Answer)> {
    let (a, header) = (unquoted(b"a"), scalar(HEADER, b"rgb"));
    let parameter = || vec![scalar(PARAMETER, b"p")];
    let headed = || object(vec![a.clone(), header.clone(), array(vec![a.clone()])]);
    let deepest = MOST_LEVELS;
    vec![
        (in_arrays(deepest - 1, vec![a.clone()]), arrays_text(deepest - 1, b"a")),
        (in_arrays(deepest, vec![a.clone()]), arrays_text(deepest, b"a")),
        (in_arrays(deepest + 1, vec![a.clone()]), Err(TOO_DEEP)),
        // an empty container is a level
        (
            in_arrays(deepest - 1, vec![a.clone(), array(Vec::new())]),
            arrays_text(deepest - 1, b"a {}"),
        ),
        (in_arrays(deepest, vec![a.clone(), array(Vec::new())]), Err(TOO_DEEP)),
        // too deep comes before reading differently
        (in_arrays(deepest, vec![object(Vec::new())]), Err(TOO_DEEP)),
        // a Header is none
        (in_arrays(deepest - 2, vec![headed()]), arrays_text(deepest - 2, b"{a=rgb {a}}")),
        (in_arrays(deepest - 1, vec![headed()]), Err(TOO_DEEP)),
        // the form is looked at below level 64 too
        (in_arrays(deepest + 1, parameter()), Err(OTHER_FORM)),
        (in_arrays(deepest + 1, vec![object(vec![a.clone()])]), Err(OTHER_FORM)),
        (in_arrays(deepest, parameter()), Err(OTHER_FORM)),
    ]
}

/// Sheets with a room in bytes and a scratch in words, and what they come to: just enough, too little, and
/// two refusals at once.
fn rooms() -> Vec<(Sheet, usize, usize, Answer)> {
    let (a, b) = (unquoted(b"a"), unquoted(b"b"));
    let pair = tree::laid(&[a.clone(), b.clone()], b"");
    let seven = tree::laid(&[a.clone(), Node::Operator(EQUAL), b.clone()], b"");
    let unsound = Sheet { count: pair.count + 1, ..pair.clone() };
    let too_deep = tree::laid(&in_arrays(MOST_LEVELS + 1, vec![a.clone()]), b"");
    let key_alone = tree::laid(&[a], b"");
    let (words, bytes, text) = (2 * WORDS, 3, || Ok(b"a=b".to_vec()));
    vec![
        (pair.clone(), bytes, words, text()),
        (pair.clone(), bytes - 1, words, Err(NO_ROOM)),
        (pair.clone(), bytes, words - 1, Err(NO_ROOM)),
        (pair.clone(), bytes, words + WORDS - 1, text()),
        (pair.clone(), 0, 0, Err(NO_ROOM)),
        (tree::laid(&[], b""), 0, 0, Ok(Vec::new())),
        // an operator 7 has its spaces, so the text has five bytes
        (seven.clone(), 4, 3 * WORDS, Err(NO_ROOM)),
        (seven.clone(), 5, 3 * WORDS, Err(READS_DIFFERENTLY)),
        (seven, 5, 3 * WORDS - 1, Err(NO_ROOM)),
        // the first that holds
        (unsound, 0, 0, Err(NOT_SOUND)),
        (key_alone, 0, 0, Err(OTHER_FORM)),
        (too_deep.clone(), 0, MOST_SCRATCH, Err(TOO_DEEP)),
        (too_deep, MOST_ROOM, 0, Err(TOO_DEEP)),
    ]
}

/// The record that asks for a sheet's text with so much room.
fn record(sheet: &Sheet, room: usize, scratch: usize) -> Record {
    Record::write(room as u16, scratch as u16, sheet.count, &sheet.words, &sheet.text)
}

/// All of them as records, each with its answer.
pub fn cases() -> Vec<(Record, Answer)> {
    let mut cases: Vec<(Record, Answer)> = Vec::new();
    for (text, answer) in PARSED {
        let words = oracle::parse(text).words;
        let sheet = Sheet { count: (words.len() / WORDS) as u32, words, text: text.to_vec() };
        cases.push((record(&sheet, MOST_ROOM, MOST_SCRATCH), answer.map(<[u8]>::to_vec)));
    }
    let other = of_another_form().into_iter().map(|root| (root, Err(OTHER_FORM)));
    for (root, answer) in other.chain(of_the_form()).chain(deep()) {
        let sheet = tree::laid(&root, b"");
        cases.push((record(&sheet, MOST_ROOM, MOST_SCRATCH), answer));
    }
    for (sheet, room, scratch, answer) in rooms() {
        cases.push((record(&sheet, room, scratch), answer));
    }
    cases
}
