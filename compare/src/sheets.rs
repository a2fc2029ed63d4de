//! Sheets to check and views to ask for: made by parsing, whole and with something changed.

use crate::numbers::*;
use crate::record::Record;
use crate::rng::Rng;
use crate::{domain, oracle, texts};

#[derive(Clone)]
pub struct Sheet {
    pub text: Vec<u8>,
    pub words: Vec<u32>,
    pub count: u32,
}

/// The sheet of some text that parses. What the Rust laid before a refusal counts as one, too.
pub fn parsed(rng: &mut Rng) -> Sheet {
    loop {
        let text = domain::some(|| texts::any(rng));
        let parsed = oracle::parse(&text);
        if parsed.words.len() <= 200 * WORDS && (parsed.refusal.is_none() || rng.chance(4)) {
            let count = (parsed.words.len() / WORDS) as u32;
            return Sheet { text, words: parsed.words, count };
        }
    }
}

/// How many codes, first words, second words and text lengths the lone tokens have: codes and operators go
/// from none to past the last.
const LONE: [usize; 4] = [LAST_CODE as usize + 3, EXISTS as usize + 2, 4, 3];

/// How many lone tokens there are.
pub const LONE_TOKENS: usize = LONE[0] * LONE[1] * LONE[2] * LONE[3];

/// The small sheets in order: every lone token with small words, over texts of up to two bytes.
pub fn lone_token(number: usize) -> Option<(u32, [u32; WORDS])> {
    let mut left = number;
    let [code, a, b, length] = LONE.map(|numbers| {
        let digit = left % numbers;
        left /= numbers;
        digit as u32
    });
    (number < LONE_TOKENS).then_some((length, token(code, a, b)))
}

pub fn short(number: usize) -> Option<Record> {
    lone_token(number).map(|(length, words)| Record::check(length, 1, &words))
}

pub fn check(rng: &mut Rng) -> Record {
    let (length, sheet) = any(rng);
    Record::check(length, sheet.count, &sheet.words)
}

/// A sheet and the length of its text, whole or with something changed.
pub fn any(rng: &mut Rng) -> (u32, Sheet) {
    let mut sheet = parsed(rng);
    let mut length = sheet.text.len() as u32;
    match rng.weighted(&[16, 18, 8, 6, 6, 6, 6, 6, 3, 35]) {
        0 => {}
        1 => change(rng, &mut sheet),
        2 => {
            change(rng, &mut sheet);
            change(rng, &mut sheet);
        }
        3 => sheet.count = near(rng, sheet.count),
        4 => length = shorter(rng, &sheet),
        5 => cross(rng, &mut sheet),
        6 => move_tokens(rng, &mut sheet),
        7 => scalars_only(rng, &mut sheet),
        8 => behead(&mut sheet),
        _ => bend(rng, &mut sheet),
    }
    spare(rng, &mut sheet);
    (length, sheet)
}

pub fn view(rng: &mut Rng) -> Record {
    let mut sheet = parsed(rng);
    match rng.weighted(&[45, 25, 15, 15]) {
        0 => {}
        1 => change(rng, &mut sheet),
        2 => sheet.count = near(rng, sheet.count),
        _ => edge_view(rng, &mut sheet),
    }
    spare(rng, &mut sheet);
    let index = match rng.below(5) {
        0 => near(rng, sheet.count),
        _ => rng.below(sheet.count.clamp(1, 1000) as usize) as u32,
    };
    Record::view(index, sheet.count, &sheet.words, &sheet.text)
}

/// Words behind the tokens, which are ignored, or words that are missing.
pub fn spare(rng: &mut Rng, sheet: &mut Sheet) {
    match rng.below(12) {
        0 => sheet.words.resize(sheet.words.len() + rng.between(1, 7), 0),
        1 => (0..rng.between(1, 4)).for_each(|_| sheet.words.push(rng.word() as u32)),
        2 => sheet.words.truncate(sheet.words.len().saturating_sub(rng.between(1, 4))),
        _ => {}
    }
}

/// A number beside this one, or one that three times makes run over.
pub fn near(rng: &mut Rng, number: u32) -> u32 {
    match rng.below(8) {
        0 => 0,
        1 => number.saturating_add(1),
        2 => number.saturating_sub(1),
        3 => number.saturating_add(rng.below(4) as u32),
        4 => rng.below(number as usize + 1) as u32,
        5 => {
            // counts whose words are about as many as 32 bits tell
            let most = u32::MAX / WORDS as u32;
            *rng.pick(&[most, most + 1, 2 * most + 1, most + 2, 0x8000_0000, u32::MAX])
        }
        6 => rng.word() as u32,
        _ => number,
    }
}

/// A code, none, or the number past the last.
fn small(rng: &mut Rng) -> u32 {
    rng.below(LAST_CODE as usize + 2) as u32
}

/// One word becomes another: beside it, out of the sheet, or out of all bounds.
pub fn change(rng: &mut Rng, sheet: &mut Sheet) {
    if sheet.words.is_empty() {
        sheet.words.extend(token(small(rng), rng.below(3) as u32, rng.below(3) as u32));
        sheet.count = 1;
        return;
    }
    let at = rng.below(sheet.words.len());
    sheet.words[at] = match rng.below(8) {
        0 | 1 => sheet.words[at].wrapping_add(1),
        2 | 3 => sheet.words[at].wrapping_sub(1),
        4 => small(rng),
        5 => *rng.pick(&sheet.words),
        6 => sheet.text.len() as u32 - rng.below(2).min(sheet.text.len()) as u32,
        _ => *rng.pick(&[0, 1, 2, 2, u32::MAX, 0x8000_0000, 0x7fff_ffff]),
    };
}

/// One token is bent where its kind can be: just past a limit, or to its neighbour.
pub fn bend(rng: &mut Rng, sheet: &mut Sheet) {
    if sheet.words.is_empty() {
        return;
    }
    let token = WORDS * rng.below(sheet.words.len() / WORDS);
    let one_off = if rng.chance(50) { 1 } else { u32::MAX };
    let (code, a) = (sheet.words[token], sheet.words[token + 1]);
    let (word, value) = match (code, rng.below(4)) {
        (ARRAY | OBJECT, 0) => (0, ARRAY + OBJECT - code),
        (ARRAY | OBJECT, 1) => (2, 2),
        (MIXED_CONTAINER, i @ 0..2) => (1 + i, 1),
        (code, 0) if is_scalar(code) => (0, scalar_or_header(rng)),
        (code, 1) if is_scalar(code) => (2, 0),
        (code, 2) if is_scalar(code) => {
            (2, (sheet.text.len() as u32 + rng.below(2) as u32).wrapping_sub(a))
        }
        (OPERATOR, 0) => (1, *rng.pick(&[0, EXISTS + 1])),
        (OPERATOR, 1) => (1, rng.between(LESS_THAN as usize, EXISTS as usize) as u32),
        (OPERATOR | END, 2) => (2, 1),
        _ => (1, a.wrapping_add(one_off)),
    };
    sheet.words[token + word] = value;
    if sheet.words[token] == HEADER && rng.chance(30) {
        sheet.count = (token / WORDS) as u32 + 1;
    }
}

/// A scalar's code, three times as often a Header's as one of the others.
fn scalar_or_header(rng: &mut Rng) -> u32 {
    let number = rng.below(SCALAR_CODES.len() + 2);
    SCALAR_CODES.get(number).copied().unwrap_or(HEADER)
}

fn shorter(rng: &mut Rng, sheet: &Sheet) -> u32 {
    let scalars = sheet.words.chunks_exact(WORDS).filter(|token| is_scalar(token[0]));
    let end = scalars.map(|token| token[1] + token[2]).max().unwrap_or(0);
    match rng.below(4) {
        0 => end.saturating_sub(1),
        1 => end,
        2 => rng.below(end as usize + 1) as u32,
        _ => *rng.pick(&[0, end + 1, u32::MAX]),
    }
}

/// Two containers, one in the other, exchange their Ends, and all four links say so.
fn cross(rng: &mut Rng, sheet: &mut Sheet) {
    let opens = |words: &[u32], i: u32| is_opener(words[WORDS * i as usize]);
    let openers: Vec<u32> = (0..sheet.count).filter(|&i| opens(&sheet.words, i)).collect();
    if openers.len() < 2 {
        return;
    }
    let (i, j) = (*rng.pick(&openers) as usize, *rng.pick(&openers) as usize);
    let (end_i, end_j) = (sheet.words[WORDS * i + 1], sheet.words[WORDS * j + 1]);
    if end_i < sheet.count && end_j < sheet.count {
        sheet.words[WORDS * i + 1] = end_j;
        sheet.words[WORDS * j + 1] = end_i;
        sheet.words[WORDS * end_j as usize + 1] = i as u32;
        sheet.words[WORDS * end_i as usize + 1] = j as u32;
    }
}

/// Two tokens change places, one is doubled, or one goes.
fn move_tokens(rng: &mut Rng, sheet: &mut Sheet) {
    if sheet.count == 0 {
        return;
    }
    let (i, j) = (WORDS * rng.below(sheet.count as usize), WORDS * rng.below(sheet.count as usize));
    match rng.below(3) {
        0 => (0..WORDS).for_each(|word| sheet.words.swap(i + word, j + word)),
        1 => {
            let token = sheet.words[i..i + WORDS].to_vec();
            sheet.words.splice(i..i, token);
            sheet.count += 1;
        }
        _ => {
            sheet.words.drain(i..i + WORDS);
            sheet.count -= 1;
        }
    }
}

/// The tokens before the first opener go, and all links move with them.
fn behead(sheet: &mut Sheet) {
    let tokens = sheet.words.chunks_exact(WORDS);
    let Some(first) = tokens.clone().position(|token| is_opener(token[0])) else { return };
    let links = |token: &[u32]| is_opener(token[0]) || token[0] == END;
    let moved =
        |token: &[u32]| if links(token) { token[1].saturating_sub(first as u32) } else { token[1] };
    sheet.words =
        tokens.skip(first).flat_map(|words| token(words[0], moved(words), words[2])).collect();
    sheet.count -= first as u32;
}

/// Mostly scalars, and among them most that may be empty.
const CLOSE_TOGETHER: [u32; 11] = [
    UNQUOTED,
    QUOTED,
    QUOTED,
    QUOTED_ESCAPE,
    QUOTED_ESCAPE,
    PARAMETER,
    UNDEFINED_PARAMETER,
    MIXED_CONTAINER,
    OPERATOR,
    UNQUOTED,
    HEADER,
];

/// A sheet of scalars alone, close together, whose views touch, overlap or are empty.
fn scalars_only(rng: &mut Rng, sheet: &mut Sheet) {
    sheet.words.clear();
    let mut at = 0;
    for _ in 0..rng.between(1, 6) {
        let code = *rng.pick(&CLOSE_TOGETHER);
        let length = if is_quoted(code) && rng.chance(50) { 0 } else { rng.below(3) as u32 };
        match code {
            MIXED_CONTAINER => sheet.words.extend(token(code, 0, 0)),
            OPERATOR => sheet.words.extend(token(code, rng.below(EXISTS as usize + 2) as u32, 0)),
            _ => {
                sheet.words.extend(token(code, at, length));
                at = (at + length + rng.below(3) as u32).saturating_sub(rng.below(2) as u32);
            }
        }
    }
    sheet.count = (sheet.words.len() / WORDS) as u32;
    sheet.text.resize(at as usize + rng.below(3), b'a');
}

/// A scalar whose view ends just at the text's end, just past it, or past every number.
fn edge_view(rng: &mut Rng, sheet: &mut Sheet) {
    let length = sheet.text.len() as u32;
    let code = *rng.pick(&SCALAR_CODES);
    let (a, b) = match rng.below(6) {
        0 => (0, length),
        1 => (length, 0),
        2 => (length, 1),
        3 => (length + 1, 0),
        4 => (u32::MAX, rng.between(1, 3) as u32),
        _ => (rng.below(3) as u32, u32::MAX - rng.below(3) as u32),
    };
    sheet.words.splice(0..0, token(code, a, b));
    sheet.count += 1;
}
