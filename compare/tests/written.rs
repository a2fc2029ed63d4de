//! Request W5: both writers against the answers that its words give, what holds of every sheet that is
//! written, and what the comparison leaves out.

use compare::generate::Generator;
use compare::model::{self, Refusal};
use compare::numbers::*;
use compare::record::{Question, Record, ToWrite};
use compare::rng::Rng;
use compare::sheets::Sheet;
use compare::tree::{self, Node, scalar};
use compare::writer::{self, Pair, pairs, parts};
use compare::{domain, edits, model_writer, oracle, texts, write_edges};

fn asked(record: &Record) -> ToWrite<'_> {
    match record.question() {
        Some(Question::Write(asked)) => asked,
        _ => panic!("a record that asks for no text"),
    }
}

/// A sheet with as much room as a record may lend.
fn with_room(sheet: &Sheet) -> ToWrite<'_> {
    let Sheet { text, words, count } = sheet;
    let (room, scratch) = (MOST_ROOM, MOST_SCRATCH);
    ToWrite { room, scratch, count: *count, words: words.clone(), text }
}

#[test]
fn the_edges_have_their_answers() {
    for (record, answer) in write_edges::cases() {
        let asked = asked(&record);
        let shown = format!("{:?} {:?}", String::from_utf8_lossy(asked.text), asked.words);
        assert_eq!(writer::write(&asked), answer, "beside the Rust: {shown}");
        assert_eq!(model_writer::write(&asked, None), answer, "the model: {shown}");
    }
}

#[test]
fn the_record_of_the_paper() {
    let record = Record::write(3, 6, 2, &[4, 0, 1, 4, 2, 1], b"a=b");
    let hex: String = record.bytes().iter().map(|byte| format!("{byte:02x}")).collect();
    let paper = "57000300230006000000020006000000040000000000000001000000040000000200000001613d62";
    assert_eq!(hex, paper);
    let mut answer = String::new();
    oracle::answer(record.question().expect("a good record"), &mut answer);
    assert_eq!(answer, "text 613d62\n");
}

/// `a!` and `b` are written as `a!=b`. Our thirteen bytes read it back, the Rust reads an operator: so it
/// lies outside the domain, and the comparison leaves it out.
#[test]
fn a_text_outside_the_domain() {
    let sheet = tree::laid(&[scalar(UNQUOTED, b"a!"), scalar(UNQUOTED, b"b")], b"");
    let asked = with_room(&sheet);
    assert_eq!(model_writer::write(&asked, None), Ok(b"a!=b".to_vec()));
    assert_eq!(writer::write(&asked), Err(READS_DIFFERENTLY));
    assert!(!domain::inside(b"a!=b"));
}

/// A text that was written is written again to the byte, and has at most three bytes for each token beside
/// those of the sheet's text.
#[test]
fn what_was_written_is_written_again() {
    let mut rng = Rng::new(13);
    let mut written = 0;
    for _ in 0..100_000 {
        let sheet = edits::any(&mut rng);
        let Ok(text) = writer::write(&with_room(&sheet)) else { continue };
        let words = oracle::parse(&text).words;
        let again = Sheet { count: (words.len() / WORDS) as u32, words, text: text.clone() };
        let shown = String::from_utf8_lossy(&text);
        assert_eq!(writer::write(&with_room(&again)).as_ref(), Ok(&text), "{shown:?}");
        assert!(text.len() <= sheet.text.len() + 3 * sheet.count as usize, "{shown:?}");
        written += 1;
    }
    assert!(written > 30_000, "{written} were written");
}

fn is_container(node: &Node) -> bool {
    matches!(node, Node::Container { .. })
}

fn is_empty_container(node: &Node) -> bool {
    matches!(node, Node::Container { inside, .. } if inside.is_empty())
}

/// Whether a pair is written with two `=` side by side, which read as one operator: it has none, and its
/// entry, a scalar or a Header, is the one byte `=`.
fn doubles_equal((_, operator, entry): &Pair<'_>) -> bool {
    operator.is_none()
        && matches!(&entry[0], Node::Scalar(UNQUOTED | HEADER, bytes) if bytes == b"=")
}

/// Whether braces that are written are passed over: those of an empty container behind a Header, or first in
/// an array.
fn drops_braces(body: &[Node], keyed: bool) -> bool {
    let header =
        |two: &[Node]| matches!(two[0], Node::Scalar(HEADER, _)) && is_empty_container(&two[1]);
    body.windows(2).any(header) || !keyed && body.first().is_some_and(is_empty_container)
}

/// Whether root or an object loses a `=`. Behind a container of the mixed part the parse takes up keys again,
/// but what stands there is written as entries, and only a container behind a key needs no `=`. In an object
/// a container of the mixed part that begins with a scalar sets the flag, and no keys are taken up any more.
fn loses_equal(body: &[Node], root: bool) -> bool {
    let mut rest = parts(body, true).1;
    while let [node, behind @ ..] = rest {
        rest = behind;
        let Node::Container { inside, .. } = node else { continue };
        if !root && matches!(inside.first(), Some(Node::Scalar(..) | Node::Mixed)) {
            return false;
        }
        let (again, others) = parts(behind, true);
        let mut again = pairs(again).expect("pairs up to the next MixedContainer").into_iter();
        if again.any(|(_, operator, entry)| operator.is_none() && !is_container(&entry[0])) {
            return true;
        }
        rest = others;
    }
    false
}

/// Whether a body that was parsed, without parameters, reads differently when it is written.
fn is_lost(body: &[Node], keyed: bool, root: bool) -> bool {
    pairs(parts(body, keyed).0).expect("a save is of the form").iter().any(doubles_equal)
        || drops_braces(body, keyed)
        || keyed && loses_equal(body, root)
        || body.iter().any(|node| {
            matches!(node, Node::Container { code, inside, .. }
                if is_lost(inside, *code == OBJECT, false))
        })
}

/// Whether the first scalar begins with a byte order mark, as behind another one.
fn begins_with_bom(sheet: &Sheet) -> bool {
    let first = sheet.words.chunks_exact(WORDS).find(|token| is_scalar(token[0]));
    first.is_some_and(|token| {
        token[0] == UNQUOTED && sheet.text[token[1] as usize..].starts_with(b"\xef\xbb\xbf")
    })
}

/// A save without parameters is of the form, and it comes back exactly where it has none of the shapes above
/// and no second byte order mark.
#[test]
fn saves_come_back_but_for_known_shapes() {
    let mut rng = Rng::new(17);
    let (mut parsed, mut lost) = (0, 0);
    let any = (0..300_000).map(|_| texts::any(&mut rng));
    for text in (0..).map_while(texts::short).chain(any) {
        let laid = oracle::parse(&text);
        if laid.refusal.is_some()
            || laid.words.iter().step_by(WORDS).any(|&code| is_parameter(code))
        {
            continue;
        }
        let sheet = Sheet { count: laid.need() as u32, words: laid.words, text };
        let root = tree::of_sheet(&sheet.text, &sheet.words, sheet.count);
        let refusal = model_writer::write(&with_room(&sheet), None).err();
        let differs = is_lost(&root, true, true) || begins_with_bom(&sheet);
        let shown = String::from_utf8_lossy(&sheet.text);
        assert_eq!(refusal, differs.then_some(READS_DIFFERENTLY), "{shown:?}");
        lost += usize::from(differs);
        parsed += 1;
    }
    println!("{parsed} saves without parameters, {lost} of them do not come back");
    assert!(parsed > 100_000 && lost > 2_000, "{lost} of {parsed}");
}

/// A line of host/cases.txt as printf's %b reads it, as far as it is used there.
fn text_of_case(line: &[u8]) -> Vec<u8> {
    let (mut text, mut rest) = (Vec::new(), line);
    while let [first, behind @ ..] = rest {
        let (byte, left) = match (first, behind) {
            (b'\\', [b'0', octal @ ..]) => {
                let digits = octal.iter().take(3).take_while(|b| (b'0'..=b'7').contains(b)).count();
                let byte = octal[..digits].iter().fold(0, |byte, digit| 8 * byte + (digit - b'0'));
                (byte, &octal[digits..])
            }
            (b'\\', [b'n', left @ ..]) => (b'\n', left),
            (b'\\', [b'r', left @ ..]) => (b'\r', left),
            (b'\\', [b't', left @ ..]) => (b'\t', left),
            (b'\\', [b'\\', left @ ..]) => (b'\\', left),
            _ => (*first, behind),
        };
        text.push(byte);
        rest = left;
    }
    text
}

/// What is written of a text, or the refusal with its place, by the model; and by the writer beside the Rust,
/// where the Rust tells how it reads back.
fn written_of(text: &[u8]) -> Vec<u8> {
    let mut words = vec![0; room_for(text.len())];
    let count = match model::parse(text, &mut words, model::cut).answer {
        Err(Refusal(number, place)) => return format!("refused {number} {place}").into_bytes(),
        Ok((count, _)) => count as u32,
    };
    let sheet = Sheet { text: text.to_vec(), words, count };
    let asked = with_room(&sheet);
    let written = model_writer::write(&asked, None);
    if written.as_ref().is_ok_and(|written| domain::inside(written)) {
        assert_eq!(writer::write(&asked), written);
    }
    written.unwrap_or_else(|number| format!("refused {number} 0").into_bytes())
}

/// The texts that `host/test` holds the command to are what the request's own words give.
#[test]
fn the_texts_of_the_host_tests() {
    let line = |line: &'static [u8]| line.strip_suffix(b"\n").unwrap_or(line);
    let lines = |file: &'static [u8]| file.split_inclusive(|&b| b == b'\n').map(line);
    let cases = lines(include_bytes!("../../host/cases.txt"));
    let written: Vec<&[u8]> = lines(include_bytes!("../../host/written.out")).collect();
    assert_eq!(cases.clone().count(), written.len());
    for (case, line) in cases.zip(written) {
        let told = written_of(&text_of_case(case)).into_iter().filter(|&byte| byte != b'\n');
        let told: Vec<u8> = told.map(|byte| if byte == 0 { b'~' } else { byte }).collect();
        assert_eq!(told, line, "{:?}", String::from_utf8_lossy(case));
    }
}

/// No record asks for more than a program must be able to lend.
#[test]
fn records_keep_to_their_limits() {
    for record in Generator::new(3).take(60_000).filter(|record| record.kind == b'W') {
        let asked = asked(&record);
        assert!(asked.room <= MOST_ROOM && asked.scratch <= MOST_SCRATCH);
    }
}
