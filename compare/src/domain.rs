//! The domain of demand 2: no unquoted run of two or more bytes, cut by the Rust or by us, holds a
//! byte on which the Rust's fallback table disagrees with the thirteen boundary bytes.
//!
//! Both cuts are run to the letter: the model parses the text once with our cut and once with the
//! Rust's, and every run on either way is looked at, also those that lead to a refusal.

use crate::model::{self, Cut, boundary};
use crate::numbers::room_for;

/// The bytes on which the Rust's fallback table disagrees with the thirteen.
pub fn disputed(byte: u8) -> bool {
    jomini::fallback_boundary(byte) != boundary(byte)
}

/// The Rust's cut on x86-64: strides of sixteen bytes look for the thirteen while more than sixteen
/// bytes are left; where they find none, the fallback table looks again from the start.
pub fn rust_cut(rest: &[u8]) -> usize {
    let strided = rest.len().saturating_sub(16).div_ceil(16) * 16;
    let found = rest[..strided].iter().position(|&b| boundary(b));
    let fallback = || rest.iter().position(|&b| jomini::fallback_boundary(b));
    found.or_else(fallback).unwrap_or(rest.len()).max(1)
}

fn clean(text: &[u8], cut: Cut) -> bool {
    let mut tape = vec![0; room_for(text.len())];
    let runs = model::parse(text, &mut tape, cut).runs;
    runs.iter()
        .all(|&(at, length)| length < 2 || !text[at..at + length].iter().any(|&b| disputed(b)))
}

/// Whether the text lies in the domain.
pub fn inside(text: &[u8]) -> bool {
    !text.iter().any(|&b| disputed(b)) || clean(text, model::cut) && clean(text, rust_cut)
}

/// The first of some texts that lies in it. What the Rust makes of such a text it makes on every machine, so that
/// a seed has the same cases everywhere.
pub fn some(mut text: impl FnMut() -> Vec<u8>) -> Vec<u8> {
    loop {
        let text = text();
        if inside(&text) {
            return text;
        }
    }
}

#[cfg(test)]
mod tests {
    use super::*;
    use crate::{numbers::WORDS, oracle, rng::Rng, texts};

    #[test]
    fn three_bytes_are_disputed() {
        let disputed: Vec<u8> = (0..=255).filter(|&b| disputed(b)).collect();
        assert_eq!(disputed, [0x0b, 0x0c, b'!']);
    }

    #[test]
    fn a_disputed_byte_alone_is_inside() {
        for text in [
            "",
            "a=b",
            "!",
            "a !b",
            "a != b",
            "a={b !c}",
            "[[!a]b=c]",
            "[[!a] ! ]",
            "a=\"b!c\"",
            "a=b #!!!",
            "a=@[b!c]",
            "\x0b \x0c",
            "a= ! b=c",
            "{ a! }",
            "a=b [a!b",
        ] {
            assert!(inside(text.as_bytes()), "{text}");
        }
    }

    #[test]
    fn a_disputed_byte_in_a_run_is_outside() {
        for text in [
            "a!",
            "!a",
            "a!=b",
            "a=b!",
            "a=!b",
            "[[a!b]c]",
            "[[a!b",
            "[[!!a]b=c]",
            "[[a]b!",
            "!!",
            "a={b!c}",
            "a\x0bb=c",
            "a=\x0c\x0c",
            "@a!=b",
            "a=b!c ddddddddddddddddddddddddddddddd",
            "a=bbbbbbbbbbbbbbbbbbbbbbbbbbbbbbbbbbbbbbb!",
        ] {
            assert!(!inside(text.as_bytes()), "{text}");
        }
    }

    fn same(text: &[u8], cut: Cut) -> bool {
        let mut tape = vec![0; room_for(text.len())];
        let ours = model::parse(text, &mut tape, cut).answer;
        let rust = oracle::parse(text);
        match (ours, rust.refusal) {
            (Ok((count, bom)), None) => tape[..WORDS * count] == rust.words && bom == rust.bom,
            (Err(refusal), Some((number, place))) => refusal == model::Refusal(number, place),
            _ => false,
        }
    }

    /// The Rust's cut is the one above, inside and outside; our cut gives the Rust's answer inside;
    /// outside it need not, so there is something to leave out. Where our runs are clean, so are the
    /// Rust's.
    #[test]
    fn both_cuts_are_run() {
        let mut rng = Rng::new(7);
        let (mut disputed_inside, mut outside, mut differ) = (0, 0, 0);
        for _ in 0..300_000 {
            let mut text = texts::any(&mut rng);
            texts::sprinkle(&mut rng, &mut text, b"!!!\x0b\x0c");
            let shown = String::from_utf8_lossy(&text);
            assert!(same(&text, rust_cut), "the Rust's cut is another on {shown:?}");
            assert!(!clean(&text, model::cut) || clean(&text, rust_cut), "ours alone: {shown:?}");
            if inside(&text) {
                assert!(same(&text, model::cut), "inside, and not the same: {shown:?}");
                disputed_inside += usize::from(text.iter().any(|&b| disputed(b)));
            } else {
                outside += 1;
                differ += usize::from(!same(&text, model::cut));
            }
        }
        assert!(disputed_inside > 1_000 && outside > 1_000 && differ > 1_000);
        println!(
            "inside with a disputed byte {disputed_inside}, outside {outside}, differ {differ}"
        );
    }
}
