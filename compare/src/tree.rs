//! A sheet as a tree, and a tree as a sheet. The writer that is asked beside the Rust walks the tree, and
//! the edits are made in it, since laying it out again mends every link.

use crate::numbers::*;
use crate::sheets::Sheet;

/// What stands in a body, one after another. A Header and its container are two neighbours, as on the
/// tape.
#[derive(Clone, Debug, PartialEq, Eq)]
pub enum Node {
    /// A scalar's code and bytes; Headers and parameters are scalars.
    Scalar(u32, Vec<u8>),
    Operator(u32),
    Mixed,
    Container {
        code: u32,
        flag: u32,
        inside: Vec<Node>,
    },
}

pub fn scalar(code: u32, bytes: &[u8]) -> Node {
    Node::Scalar(code, bytes.to_vec())
}

pub fn array(inside: Vec<Node>) -> Node {
    Node::Container { code: ARRAY, flag: 0, inside }
}

pub fn object(inside: Vec<Node>) -> Node {
    Node::Container { code: OBJECT, flag: 0, inside }
}

/// The tree of a sheet, which must be sound.
pub fn of_sheet(text: &[u8], words: &[u32], count: u32) -> Vec<Node> {
    body(text, words, 0, count as usize)
}

/// The nodes of the tokens from `at` up to `end`.
fn body(text: &[u8], words: &[u32], mut at: usize, end: usize) -> Vec<Node> {
    let mut nodes = Vec::new();
    while at < end {
        let token = &words[WORDS * at..][..WORDS];
        let (code, a, b) = (token[0], token[1] as usize, token[2] as usize);
        nodes.push(match code {
            MIXED_CONTAINER => Node::Mixed,
            OPERATOR => Node::Operator(token[1]),
            _ if is_opener(code) => {
                let inside = body(text, words, at + 1, a);
                at = a;
                Node::Container { code, flag: token[2], inside }
            }
            _ => scalar(code, &text[a..a + b]),
        });
        at += 1;
    }
    nodes
}

/// The sheet of a tree, over a text that holds the scalars in order with `gap` before each. Where the gap
/// is empty the views touch. A tree that begins with a container, or has a Header without one or an empty
/// scalar without quotes, gives an unsound sheet.
pub fn laid(root: &[Node], gap: &[u8]) -> Sheet {
    let mut sheet = Sheet { text: Vec::new(), words: Vec::new(), count: 0 };
    lay(root, gap, &mut sheet);
    sheet.count = (sheet.words.len() / WORDS) as u32;
    sheet
}

/// Puts a body's tokens behind those of the sheet.
fn lay(body: &[Node], gap: &[u8], sheet: &mut Sheet) {
    for node in body {
        match node {
            Node::Mixed => sheet.words.extend(token(MIXED_CONTAINER, 0, 0)),
            Node::Operator(number) => sheet.words.extend(token(OPERATOR, *number, 0)),
            Node::Scalar(code, bytes) => {
                sheet.text.extend(gap);
                let offset = sheet.text.len() as u32;
                sheet.words.extend(token(*code, offset, bytes.len() as u32));
                sheet.text.extend(bytes);
                if bytes.is_empty() {
                    // starts must rise
                    sheet.text.push(b'"');
                }
            }
            Node::Container { code, flag, inside } => {
                let opener = sheet.words.len() / WORDS;
                sheet.words.extend(token(*code, 0, *flag));
                lay(inside, gap, sheet);
                sheet.words[WORDS * opener + 1] = (sheet.words.len() / WORDS) as u32;
                sheet.words.extend(token(END, opener as u32, 0));
            }
        }
    }
}
