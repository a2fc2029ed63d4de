//! Sheets to write out: every small one, parsed saves, whole and with an edit, plain ones, deep ones and
//! wild ones. An edit is made in the tape's words, where the links may come apart, or in the tree, which
//! mends them.

use crate::numbers::*;
use crate::rng::Rng;
use crate::sheets::{self, Sheet};
use crate::tree::{self, Node, array, object, scalar};
use crate::{domain, oracle, texts};

// ---- Every small one ----

/// The signs of which every short sequence is tried: six nodes, and then what opens an array, opens an
/// object and closes what is open.
const SIGNS: usize = 9;

/// The node of one of the first six signs.
fn small_node(sign: usize) -> Node {
    match sign {
        0 => scalar(UNQUOTED, b"a"),
        1 => scalar(QUOTED, b"b c"),
        2 => Node::Operator(LESS_THAN_EQUAL),
        3 => Node::Operator(EQUAL),
        4 => Node::Mixed,
        _ => scalar(HEADER, b"rgb"),
    }
}

/// The nodes of a sequence of signs; what is open at its end is closed.
fn small_body(signs: impl Iterator<Item = usize>) -> Vec<Node> {
    let mut open: Vec<(u32, Vec<Node>)> = vec![(0, Vec::new())];
    let close = |open: &mut Vec<(u32, Vec<Node>)>| {
        let (code, inside) = open.pop().expect("an open body");
        open.last_mut().expect("the root").1.push(Node::Container { code, flag: 0, inside });
    };
    for sign in signs {
        match sign {
            6 => open.push((ARRAY, Vec::new())),
            7 => open.push((OBJECT, Vec::new())),
            8 if open.len() > 1 => close(&mut open),
            8 => {}
            sign => open.last_mut().expect("the root").1.push(small_node(sign)),
        }
    }
    while open.len() > 1 {
        close(&mut open);
    }
    open.remove(0).1
}

/// The small sheets in order: all of up to five signs, as the root and in a container of either kind and
/// flag.
pub fn short(number: usize) -> Option<Sheet> {
    const FRAMES: usize = 5;
    let (mut left, frame) = (number / FRAMES, number % FRAMES);
    for length in 0..=5 {
        let all = SIGNS.pow(length);
        if left < all {
            let body = small_body(texts::sequence(left, SIGNS, length as usize));
            let root = match frame {
                0 => body,
                _ => {
                    let (code, flag) = (OPENER_CODES[frame % 2], (frame > 2).into());
                    vec![scalar(UNQUOTED, b"k"), Node::Container { code, flag, inside: body }]
                }
            };
            return Some(tree::laid(&root, b""));
        }
        left -= all;
    }
    None
}

// ---- A mix ----

/// A sheet to write out, of some hundred tokens at most but where it is large.
pub fn any(rng: &mut Rng) -> Sheet {
    if rng.below(12_000) == 0 {
        return large(rng);
    }
    let mut sheet = match rng.weighted(&[26, 14, 6, 24, 12, 14, 2]) {
        0 => save(rng),
        1 => {
            let mut sheet = save(rng);
            twist(rng, &mut sheet);
            sheet
        }
        2 => unmended(rng),
        3 => edited(rng),
        4 => {
            let root = wild(rng, 3);
            laid(rng, &root)
        }
        5 => {
            let root = plain_pairs(rng, 3);
            laid(rng, &root)
        }
        _ => deep(rng),
    };
    if rng.chance(15) {
        sheets::spare(rng, &mut sheet);
    }
    sheet
}

/// The sheet of a save, half of the time of one as a game or a modder writes it. Few are empty or have a
/// parameter.
fn save(rng: &mut Rng) -> Sheet {
    loop {
        let sheet = if rng.chance(50) { sheets::parsed(rng) } else { good(rng) };
        let parameter = sheet.words.iter().step_by(WORDS).any(|&code| is_parameter(code));
        if sheet.count > 0 && !parameter || rng.chance(10) {
            return sheet;
        }
    }
}

/// The sheet of a text of good shape that parses.
fn good(rng: &mut Rng) -> Sheet {
    loop {
        let text = domain::some(|| texts::good(rng));
        let parsed = oracle::parse(&text);
        if parsed.refusal.is_none() {
            let count = parsed.need() as u32;
            return Sheet { text, words: parsed.words, count };
        }
    }
}

/// A tree laid out, its scalars touching or with bytes between that the writer must not look at.
fn laid(rng: &mut Rng, root: &[Node]) -> Sheet {
    tree::laid(root, rng.pick(&["", " ", "=", "\"", "\\\" {"]).as_bytes())
}

// ---- Edits of the words ----

/// One token becomes another of its form, in its place. A MixedContainer and an End have but one.
fn twist(rng: &mut Rng, sheet: &mut Sheet) {
    let has_others = |&token: &usize| ![MIXED_CONTAINER, END].contains(&sheet.words[token]);
    let tokens: Vec<usize> =
        (0..sheet.count as usize).map(|i| WORDS * i).filter(has_others).collect();
    if tokens.is_empty() {
        return;
    }
    let at = *rng.pick(&tokens);
    let token = &mut sheet.words[at..at + WORDS];
    let before = token.to_vec();
    while token == before {
        twist_token(rng, token);
    }
}

/// Another flag, kind of container or scalar, operator, or a view one byte longer, shorter or further; by
/// chance the same.
fn twist_token(rng: &mut Rng, token: &mut [u32]) {
    let (code, a, b) = (token[0], token[1], token[2]);
    let (word, value) = match (code, rng.below(3)) {
        (ARRAY | OBJECT, 0) => (0, ARRAY + OBJECT - code),
        (ARRAY | OBJECT, _) => (2, 1 - b.min(1)),
        (OPERATOR, _) => (1, operator(rng)),
        (_, 0) => (2, b + 1),
        (_, 1) => (2, b.saturating_sub(1)),
        _ => (0, scalar_code(rng)),
    };
    token[word] = value;
    if is_scalar(code) && word == 2 && rng.chance(30) {
        token[1] = if value > b { a.saturating_sub(1) } else { a + 1 };
    }
}

/// A save with a word changed as it comes, which most often makes it unsound.
fn unmended(rng: &mut Rng) -> Sheet {
    let mut sheet = save(rng);
    match rng.below(4) {
        0 => sheet.count = sheets::near(rng, sheet.count),
        1 => sheets::bend(rng, &mut sheet),
        _ => sheets::change(rng, &mut sheet),
    }
    sheet
}

// ---- Edits of the tree ----

/// A save's tree with one edit, seldom two, laid out again.
fn edited(rng: &mut Rng) -> Sheet {
    let sheet = loop {
        let sheet = save(rng);
        if crate::sheet::sound(sheet.text.len() as u32, &sheet.words, sheet.count) {
            break sheet;
        }
    };
    let before = tree::of_sheet(&sheet.text, &sheet.words, sheet.count);
    let mut root = before.clone();
    while root == before {
        edit(rng, &mut root);
        if rng.chance(15) {
            edit(rng, &mut root);
        }
    }
    laid(rng, &root)
}

/// A node or a pair taken out, a node put in that stands elsewhere or is new, one moved elsewhere, two
/// exchanged, or one changed; by chance nothing.
fn edit(rng: &mut Rng, root: &mut Vec<Node>) {
    let elsewhere = any_body(rng, root).clone();
    let body = any_body(rng, root);
    let at = rng.below(body.len() + 1);
    if at == body.len() {
        body.push(wild_node(rng, 1));
        return;
    }
    match rng.below(9) {
        0 => drop(body.remove(at)),
        1 => drop(body.drain(at..body.len().min(at + 2))),
        2 if !elsewhere.is_empty() => body.insert(at, rng.pick(&elsewhere).clone()),
        3 => body.insert(at, wild_node(rng, 1)),
        4 => {
            let other = rng.below(body.len());
            body.swap(at, other);
        }
        5 => {
            let node = body.remove(at);
            let body = any_body(rng, root);
            body.insert(rng.below(body.len() + 1), node);
        }
        _ => change_node(rng, &mut body[at]),
    }
}

/// Another scalar, operator, flag or kind in place of this one.
fn change_node(rng: &mut Rng, node: &mut Node) {
    let second = rng.chance(50);
    match node {
        Node::Scalar(code, _) if second => *code = scalar_code(rng),
        Node::Scalar(_, bytes) => *bytes = rng.pick(ODD).to_vec(),
        Node::Operator(number) => *number = operator(rng),
        Node::Mixed => *node = wild_node(rng, 0),
        Node::Container { flag, .. } if second => *flag = 1 - (*flag).min(1),
        Node::Container { code, .. } => *code = ARRAY + OBJECT - *code,
    }
}

/// One of all bodies of the tree, the root among them.
fn any_body<'n>(rng: &mut Rng, root: &'n mut Vec<Node>) -> &'n mut Vec<Node> {
    let mut left = rng.below(bodies(root));
    body(root, &mut left).expect("a body of this number")
}

/// How many bodies there are, this one and all inside it.
fn bodies(nodes: &[Node]) -> usize {
    let inside = |node: &Node| match node {
        Node::Container { inside, .. } => bodies(inside),
        _ => 0,
    };
    1 + nodes.iter().map(inside).sum::<usize>()
}

/// The body that is so many behind this one, counted from the root inward.
fn body<'n>(nodes: &'n mut Vec<Node>, left: &mut usize) -> Option<&'n mut Vec<Node>> {
    if *left == 0 {
        return Some(nodes);
    }
    *left -= 1;
    nodes.iter_mut().find_map(|node| match node {
        Node::Container { inside, .. } => body(inside, left),
        _ => None,
    })
}

// ---- Wild ones ----

/// A scalar's code: most often one that is written, seldom a Header's or a parameter's.
fn scalar_code(rng: &mut Rng) -> u32 {
    match rng.weighted(&[50, 20, 20, 7, 3]) {
        0 => UNQUOTED,
        1 => QUOTED,
        2 => QUOTED_ESCAPE,
        3 => HEADER,
        _ => *rng.pick(&[PARAMETER, UNDEFINED_PARAMETER]),
    }
}

/// An operator's number, one of the eight.
fn operator(rng: &mut Rng) -> u32 {
    rng.between(LESS_THAN as usize, EXISTS as usize) as u32
}

/// Bytes that read as they are written, or not: by their code, by their place or never.
const ODD: &[&[u8]] = &[
    b"a",
    b"name",
    b"-1.5",
    b"a_long_name_that_runs_over_sixteen",
    b"a b",
    b"@[a b]",
    b"@[a",
    b"@[a]b",
    b"@v",
    b"=",
    b"<",
    b"?",
    b"x?",
    b"!",
    b"!=",
    b"a!",
    b"{",
    b"}",
    b"{}",
    b"[",
    b"]",
    b"[[x]",
    b"#",
    b"a#b",
    b"#\n",
    b";",
    b"\n",
    b"\"",
    b"\"q\"",
    b"a\"b",
    b"\\",
    b"a\\",
    b"\\\"",
    b"\\\\",
    b"a\\nb",
    b"\xef\xbb\xbf",
    b"\xef\xbb\xbfa",
    b"\xef\xbb",
    b"\xe9",
    b"\0",
    b"",
];

/// Nodes in any order, with a Header's container behind it most of the time.
fn wild(rng: &mut Rng, depth: usize) -> Vec<Node> {
    let mut nodes = Vec::new();
    for _ in 0..rng.below(5) {
        nodes.push(wild_node(rng, depth));
        if matches!(nodes.last(), Some(Node::Scalar(HEADER, _))) && rng.chance(90) {
            nodes.push(array(wild(rng, depth.saturating_sub(1))));
        }
    }
    nodes
}

/// A node of any kind, a container only while there is depth left.
fn wild_node(rng: &mut Rng, depth: usize) -> Node {
    match rng.weighted(&[60, 12, 8, if depth > 0 { 25 } else { 0 }]) {
        0 => {
            let code = scalar_code(rng);
            let plain = rng.chance(60);
            Node::Scalar(code, if plain { plain_bytes(rng) } else { rng.pick(ODD).to_vec() })
        }
        1 => Node::Operator(operator(rng)),
        2 => Node::Mixed,
        _ => {
            let (code, flag) = (*rng.pick(&OPENER_CODES), rng.chance(20).into());
            Node::Container { code, flag, inside: wild(rng, depth - 1) }
        }
    }
}

// ---- Plain ones ----

/// Letters, digits, `_`, `.` and `-`, at least one.
fn plain_bytes(rng: &mut Rng) -> Vec<u8> {
    let length = if rng.chance(5) { rng.between(15, 34) } else { rng.between(1, 4) };
    (0..length).map(|_| *rng.pick(b"abzAZ019_.-")).collect()
}

/// An unquoted scalar of those bytes, or a quoted one of any but quote and backslash.
fn plain_scalar(rng: &mut Rng) -> Node {
    if rng.chance(70) {
        return Node::Scalar(UNQUOTED, plain_bytes(rng));
    }
    let allowed = |rng: &mut Rng| match rng.below(4) {
        0 => *rng.pick(b"{}[]=<>!?#;@ \n\0"),
        1 => rng.below(256) as u8,
        _ => *rng.pick(b"ab1"),
    };
    let bytes = (0..rng.below(6)).map(|_| allowed(rng)).filter(|b| !b"\"\\".contains(b));
    Node::Scalar(QUOTED, bytes.collect())
}

/// Keys and entries in turn, at least one of each.
fn plain_pairs(rng: &mut Rng, depth: usize) -> Vec<Node> {
    (0..rng.between(1, 3)).flat_map(|_| [plain_scalar(rng), plain_entry(rng, depth)]).collect()
}

/// A scalar, an object, or an array whose first entry is no empty container.
fn plain_entry(rng: &mut Rng, depth: usize) -> Node {
    if depth == 0 || rng.chance(50) {
        return plain_scalar(rng);
    }
    if rng.chance(50) {
        return object(plain_pairs(rng, depth - 1));
    }
    let mut entries: Vec<Node> = (0..rng.below(4)).map(|_| plain_entry(rng, depth - 1)).collect();
    if entries.first() == Some(&array(Vec::new())) {
        entries[0] = plain_scalar(rng);
    }
    array(entries)
}

// ---- Deep ones ----

/// Containers one in another, about as many as there may be, and something in the innermost.
fn deep(rng: &mut Rng) -> Sheet {
    let levels = rng.between(MOST_LEVELS - 1, MOST_LEVELS + 2);
    let objects = *rng.pick(&[0, 0, 3, 30]);
    let inside = bottom(rng);
    let mut node = array(inside);
    for _ in 1..levels {
        node = if rng.chance(objects) {
            let mut pair = vec![scalar(UNQUOTED, b"k")];
            let header = matches!(node, Node::Container { code: ARRAY, .. }) && rng.chance(20);
            pair.extend(header.then(|| scalar(HEADER, b"rgb")));
            pair.push(node);
            object(pair)
        } else {
            array(vec![node])
        };
    }
    laid(rng, &[scalar(UNQUOTED, b"k"), node])
}

/// What stands in the innermost container: a scalar, or beside it an empty container, which is a level
/// more, a Header with its container, a parameter or a key without an entry.
fn bottom(rng: &mut Rng) -> Vec<Node> {
    let a = scalar(UNQUOTED, b"a");
    match rng.below(8) {
        0 => vec![a, array(Vec::new())],
        1 => vec![object(vec![a.clone(), scalar(HEADER, b"rgb"), array(vec![a])])],
        2 => vec![a, scalar(PARAMETER, b"p")],
        3 => vec![object(vec![a.clone(), Node::Operator(LESS_THAN), Node::Operator(EXACT), a])],
        4 => vec![object(vec![a])],
        5 => vec![a, Node::Operator(EQUAL)],
        _ => vec![a],
    }
}

/// A plain sheet of many keys and arrays: some seven hundred to two thousand tokens.
fn large(rng: &mut Rng) -> Sheet {
    let nodes = rng.between(300, 900);
    let mut root = Vec::new();
    let mut inside = Vec::new();
    while root.len() < nodes {
        if rng.chance(60) {
            inside.push(plain_scalar(rng));
        } else {
            root.extend([plain_scalar(rng), array(std::mem::take(&mut inside))]);
        }
    }
    tree::laid(&root, b"")
}

#[cfg(test)]
mod tests {
    use super::*;

    #[test]
    fn a_twist_changes_the_sheet() {
        let mut rng = Rng::new(19);
        for _ in 0..5_000 {
            let before = save(&mut rng);
            let mut sheet = before.clone();
            twist(&mut rng, &mut sheet);
            let text = String::from_utf8_lossy(&before.text);
            assert_eq!(sheet.words == before.words, before.count == 0, "{text:?}");
        }
    }
}
