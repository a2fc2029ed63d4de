//! What holds of every tape that the Rust lays, over many texts: the sentences that the port proves,
//! tried on the Rust itself.

use compare::numbers::*;
use compare::{oracle, rng::Rng, sheet, texts};

fn opens(token: &[u32]) -> bool {
    is_opener(token[0])
}

fn try_text(text: &[u8]) {
    let shown = String::from_utf8_lossy(text);
    let parsed = oracle::parse(text);
    let tokens: Vec<&[u32]> = parsed.words.chunks_exact(WORDS).collect();
    let count = tokens.len() as u32;
    assert!(tokens.len() <= 2 * text.len() + 1, "more tokens than 2n + 1: {shown:?}");
    assert!(!tokens.first().is_some_and(|token| opens(token)), "token 0 opens: {shown:?}");
    let ends = tokens.iter().filter(|token| token[0] == END);
    assert!(ends.into_iter().all(|end| opens(tokens[end[1] as usize])), "a loose End: {shown:?}");
    if parsed.refusal.is_none() {
        assert!(sheet::sound(text.len() as u32, &parsed.words, count), "not sound: {shown:?}");
        for (i, opener) in tokens.iter().enumerate().filter(|(_, token)| opens(token)) {
            assert!(opener[2] == 0 || holds_mixed(&tokens, i), "a flag for nothing: {shown:?}");
        }
    }
}

/// Whether a MixedContainer stands directly inside the container that opens at `i`.
fn holds_mixed(tokens: &[&[u32]], i: usize) -> bool {
    let mut at = i + 1;
    while at < tokens[i][1] as usize {
        if tokens[at][0] == MIXED_CONTAINER {
            return true;
        }
        at = if opens(tokens[at]) { tokens[at][1] as usize + 1 } else { at + 1 };
    }
    false
}

#[test]
fn every_short_text() {
    (0..).map_while(texts::short).for_each(|text| try_text(&text));
}

#[test]
fn many_texts() {
    let mut rng = Rng::new(11);
    (0..300_000).for_each(|_| try_text(&texts::any(&mut rng)));
}
