//! Request W5 read from its own words: a sheet as a tree, a test for each refusal, and a text that is put
//! together from the texts of its parts. The Rust reads the text back, so a text outside the domain of
//! demand 2 must not be asked for: there our thirteen bytes decide and not the Rust. It shares nothing
//! with the writer of the model, which walks the tokens, but the paper's numbers.

use crate::numbers::*;
use crate::record::ToWrite;
use crate::tree::{self, Node};
use crate::{oracle, sheet};

/// What a refusal is given for, in the order in which the request looks.
#[derive(Clone, Copy, Debug, PartialEq, Eq)]
pub enum Cause {
    NotSound,
    Parameter,
    NoKey,
    NoEntry,
    TooDeep,
    TooLong,
    ShortBuffer,
    ShortScratch,
    NotRead,
    OtherCount,
    OtherCode,
    OtherWord,
    OtherLength,
    OtherBytes,
}

/// All but TooLong, which needs a text longer than a record holds.
pub const CAUSES: [Cause; 13] = [
    Cause::NotSound,
    Cause::Parameter,
    Cause::NoKey,
    Cause::NoEntry,
    Cause::TooDeep,
    Cause::ShortBuffer,
    Cause::ShortScratch,
    Cause::NotRead,
    Cause::OtherCount,
    Cause::OtherCode,
    Cause::OtherWord,
    Cause::OtherLength,
    Cause::OtherBytes,
];

impl Cause {
    /// The refusal that is given for it.
    pub fn number(self) -> u8 {
        match self {
            Cause::NotSound => NOT_SOUND,
            Cause::Parameter | Cause::NoKey | Cause::NoEntry => OTHER_FORM,
            Cause::TooDeep => TOO_DEEP,
            Cause::TooLong => TEXT_TOO_LONG,
            Cause::ShortBuffer | Cause::ShortScratch => NO_ROOM,
            Cause::NotRead
            | Cause::OtherCount
            | Cause::OtherCode
            | Cause::OtherWord
            | Cause::OtherLength
            | Cause::OtherBytes => READS_DIFFERENTLY,
        }
    }
}

/// What a sheet that is to be written out comes to.
#[derive(Default)]
pub struct Judged {
    /// Its text, where it is sound and of the form.
    pub text: Option<Vec<u8>>,
    pub levels: usize,
    /// Whether it is one of those that the request says must be accepted.
    pub plain: bool,
    /// All that speaks against it; the first decides.
    pub causes: Vec<Cause>,
}

/// The text that is written, or the refusal's number.
pub fn write(asked: &ToWrite<'_>) -> Result<Vec<u8>, u8> {
    let judged = judge(asked);
    match judged.causes.first() {
        Some(cause) => Err(cause.number()),
        None => Ok(judged.text.expect("a text that nothing refuses")),
    }
}

/// Holds every sentence of the request against the sheet. A refusal that only a sheet of the form can have
/// is not looked for in others, and of an unsound one nothing is known but its count. That a plain sheet is
/// accepted is the request's own promise, so it ends the program where it is broken.
pub fn judge(asked: &ToWrite<'_>) -> Judged {
    let (text, words, count) = (asked.text, asked.words.as_slice(), asked.count);
    let short_scratch = asked.scratch / WORDS < count as usize;
    let mut causes = Vec::new();
    if !sheet::sound(text.len() as u32, words, count) {
        causes.push(Cause::NotSound);
        causes.extend(short_scratch.then_some(Cause::ShortScratch));
        return Judged { causes, ..Judged::default() };
    }
    let root = tree::of_sheet(text, words, count);
    let other_form = form_fault(&root, true);
    let written = other_form.is_none().then(|| body_text(&root, true));
    let length = written.as_ref().map_or(0, Vec::len);
    let (levels, plain) = (levels(&root), is_plain(&root, true));
    causes.extend(other_form);
    causes.extend((levels > MOST_LEVELS).then_some(Cause::TooDeep));
    causes.extend((length > TEXT_LIMIT).then_some(Cause::TooLong));
    causes.extend((length > asked.room).then_some(Cause::ShortBuffer));
    causes.extend(short_scratch.then_some(Cause::ShortScratch));
    if let Some(written) = &written {
        let differs = difference(text, &words[..WORDS * count as usize], written);
        assert!(!plain || differs.is_none(), "a plain sheet reads differently: {differs:?}");
        causes.extend(differs);
    }
    assert!(!plain || other_form.is_none(), "a plain sheet is of another form: {other_form:?}");
    Judged { text: written, levels, plain, causes }
}

/// The text of a sheet that is sound, of the form and not too deep, whatever room there is and however
/// it reads.
pub fn text_of(text: &[u8], words: &[u32], count: u32) -> Option<Vec<u8>> {
    if !sheet::sound(text.len() as u32, words, count) {
        return None;
    }
    let root = tree::of_sheet(text, words, count);
    let of_form = form_fault(&root, true).is_none() && levels(&root) <= MOST_LEVELS;
    of_form.then(|| body_text(&root, true))
}

// ---- The form ----

/// A body's keys with their entries, and then its entries alone: in root and objects the first
/// MixedContainer parts them, an array has no keys.
pub fn parts(body: &[Node], keyed: bool) -> (&[Node], &[Node]) {
    let mixed = || body.iter().position(|node| *node == Node::Mixed).unwrap_or(body.len());
    body.split_at(if keyed { mixed() } else { 0 })
}

/// A key, its operator if it has one, and its entry.
pub type Pair<'n> = (&'n Node, Option<u32>, &'n [Node]);

/// The pairs of a body's first part, or why it has others.
pub fn pairs(mut part: &[Node]) -> Result<Vec<Pair<'_>>, Cause> {
    let mut pairs = Vec::new();
    while let [key, rest @ ..] = part {
        if !matches!(key, Node::Scalar(code, _) if is_written(*code)) {
            return Err(Cause::NoKey);
        }
        let (operator, rest) = match rest {
            [Node::Operator(number), rest @ ..] => (Some(*number), rest),
            _ => (None, rest),
        };
        let nodes = entry_nodes(rest).ok_or(Cause::NoEntry)?;
        let (entry, rest) = rest.split_at(nodes);
        pairs.push((key, operator, entry));
        part = rest;
    }
    Ok(pairs)
}

/// How many nodes the entry has that stands first, where one does: a Header's container belongs to it.
fn entry_nodes(part: &[Node]) -> Option<usize> {
    match part {
        [Node::Scalar(HEADER, _), Node::Container { .. }, ..] => Some(2),
        [Node::Scalar(code, _), ..] if is_written(*code) => Some(1),
        [Node::Container { .. }, ..] => Some(1),
        _ => None,
    }
}

/// Why the body is not of the form, at whatever depth: a parameter, or a part that is not pairs.
fn form_fault(body: &[Node], keyed: bool) -> Option<Cause> {
    if body.iter().any(|node| matches!(node, Node::Scalar(code, _) if is_parameter(*code))) {
        return Some(Cause::Parameter);
    }
    pairs(parts(body, keyed).0)
        .err()
        .or_else(|| containers(body).find_map(|(code, inside)| form_fault(inside, code == OBJECT)))
}

/// The containers directly in a body, each with its code and what is inside.
fn containers(body: &[Node]) -> impl Iterator<Item = (u32, &[Node])> {
    body.iter().filter_map(|node| match node {
        Node::Container { code, inside, .. } => Some((*code, inside.as_slice())),
        _ => None,
    })
}

/// How many containers stand one in another; an empty one counts.
fn levels(body: &[Node]) -> usize {
    containers(body).map(|(_, inside)| 1 + levels(inside)).max().unwrap_or(0)
}

// ---- The text ----

/// A body's text: its pairs and entries with one space between.
fn body_text(body: &[Node], keyed: bool) -> Vec<u8> {
    let (first, mut rest) = parts(body, keyed);
    let mut texts: Vec<Vec<u8>> = Vec::new();
    for (key, operator, entry) in pairs(first).expect("a body of the form") {
        let sign = operator.map_or("=".to_string(), |number| format!(" {} ", sign(number)));
        texts.push([node_text(key), sign.into_bytes(), entry_text(entry)].concat());
    }
    while let [node, behind @ ..] = rest {
        let nodes = match node {
            Node::Mixed => 0,
            Node::Operator(_) => 1,
            _ => entry_nodes(rest).expect("an entry of the form"),
        };
        if nodes == 0 {
            rest = behind;
            continue;
        }
        texts.push(entry_text(&rest[..nodes]));
        rest = &rest[nodes..];
    }
    texts.join(&b' ')
}

/// An entry's text: one node, or a Header, a space and its container.
fn entry_text(entry: &[Node]) -> Vec<u8> {
    entry.iter().map(node_text).collect::<Vec<_>>().join(&b' ')
}

/// A node's text: bytes with their quotes, a sign, or a body in braces.
fn node_text(node: &Node) -> Vec<u8> {
    match node {
        Node::Mixed => Vec::new(),
        Node::Operator(number) => sign(*number).as_bytes().to_vec(),
        Node::Scalar(code, bytes) if is_quoted(*code) => [b"\"", bytes.as_slice(), b"\""].concat(),
        Node::Scalar(_, bytes) => bytes.clone(),
        Node::Container { code, inside, .. } => {
            [b"{", body_text(inside, *code == OBJECT).as_slice(), b"}"].concat()
        }
    }
}

// ---- Reading it back ----

/// How the written text reads differently, if it does: codes, words and scalar bytes, offsets aside.
fn difference(text: &[u8], words: &[u32], written: &[u8]) -> Option<Cause> {
    let read = oracle::parse(written);
    if read.refusal.is_some() {
        return Some(Cause::NotRead);
    }
    if read.words.len() != words.len() {
        return Some(Cause::OtherCount);
    }
    let tokens = || words.chunks_exact(WORDS).zip(read.words.chunks_exact(WORDS));
    let scalars = || tokens().filter(|(given, _)| is_scalar(given[0]));
    let mut others = tokens().filter(|(given, _)| !is_scalar(given[0]));
    if tokens().any(|(given, read)| given[0] != read[0]) {
        Some(Cause::OtherCode)
    } else if others.any(|(given, read)| given[1..] != read[1..]) {
        Some(Cause::OtherWord)
    } else if scalars().any(|(given, read)| given[2] != read[2]) {
        Some(Cause::OtherLength)
    } else {
        let differ = scalars().any(|(given, read)| view(text, given) != view(written, read));
        differ.then_some(Cause::OtherBytes)
    }
}

/// A scalar's bytes.
fn view<'t>(text: &'t [u8], token: &[u32]) -> &'t [u8] {
    &text[token[1] as usize..][..token[2] as usize]
}

// ---- The plain sheets ----

/// Whether the request says that a sheet like this must be accepted.
fn is_plain(body: &[Node], keyed: bool) -> bool {
    let key = |node: &Node| matches!(node, Node::Scalar(UNQUOTED | QUOTED, _));
    let in_turn = body.len().is_multiple_of(2) && body.iter().step_by(2).all(key);
    let empty = |node: &Node| matches!(node, Node::Container { inside, .. } if inside.is_empty());
    let shaped = if keyed { in_turn } else { !body.first().is_some_and(empty) };
    shaped && body.iter().all(is_plain_node)
}

/// Whether a plain sheet may have this node.
fn is_plain_node(node: &Node) -> bool {
    match node {
        Node::Scalar(UNQUOTED, bytes) => {
            bytes.iter().all(|b| b.is_ascii_alphanumeric() || b"_.-".contains(b))
        }
        Node::Scalar(QUOTED, bytes) => !bytes.iter().any(|b| b"\"\\".contains(b)),
        Node::Container { code: OBJECT, flag: 0, inside } => {
            !inside.is_empty() && is_plain(inside, true)
        }
        Node::Container { code: ARRAY, flag: 0, inside } => is_plain(inside, false),
        _ => false,
    }
}
