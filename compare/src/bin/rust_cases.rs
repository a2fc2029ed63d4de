//! Writes what the real Rust answers to some texts as a list that the definition of its parser is
//! worked out against: `rust_cases FILE`, where FILE is crates/rust_tape/specs/RustRows.antt.
//!
//! Document 01's own cases and the edges, and then short texts of seed 1 in order: each whose answer
//! shows something that fewer than enough of those before it showed. A row has the text, the refusal's
//! number and place, the BOM, and all words that stand on the Rust's tape, at a refusal too.

use compare::generate::Generator;
use compare::numbers::{QUOTED, WORDS, is_quoted};
use compare::oracle::{Parsed, parse};
use compare::record::Question;
use compare::{domain, edges};
use std::collections::{BTreeSet, HashMap};
use std::{env, fs, io};

const LOOKED_AT: usize = 200_000;
const LONGEST_CHOSEN: usize = 48;
const MOST: usize = 240;
const ENOUGH: usize = 4;
/// A line is broken behind so many bytes, so that none has more than 160.
const LINE: usize = 120;

const HEAD: &str = "\
-- What the Rust (x86-64, its files compiled unchanged) answers to some texts, in the domain and past it: refusal number, place and BOM, and then the words
-- of all tokens that its `Vec` held when it returned, at a refusal too. Written by compare's `rust_cases`; not to be edited by hand.
use Rattle.std.specs.Prelude.{ℕ, List, [], ◌∷◌}
use Rattle.promises.specs.Cases.{bytes}

pub record Row : Type 0 where
  pub text : List ℕ
  pub answer : List ℕ

abbrev pub row : List ℕ → List ℕ → Row
row text answer = record { text = text; answer = answer }

unfoldable pub rows : List Row
rows =
";

fn main() -> io::Result<()> {
    let file = env::args().nth(1).expect("rust_cases FILE");
    let mut seen: HashMap<String, usize> = HashMap::new();
    let mut chosen: Vec<Vec<u8>> = Vec::new();
    let edges = edges::records();
    let texts = edges.iter().cloned().chain(Generator::new(1).take(LOOKED_AT));
    for (i, record) in texts.enumerate() {
        let Some(Question::Text { text, .. }) = record.question() else { continue };
        if text.len() > LONGEST_CHOSEN
            || chosen.iter().any(|other| other == text)
            || chosen.len() >= MOST
        {
            continue;
        }
        let shown = shown(text, &parse(text));
        let more = shown.iter().any(|name| seen.get(name).is_none_or(|times| *times < ENOUGH));
        if i < edges.len() || more {
            for name in shown {
                *seen.entry(name).or_default() += 1;
            }
            chosen.push(text.to_vec());
        }
    }
    let rows: Vec<String> = chosen.iter().map(|text| row(text, &parse(text))).collect();
    println!("{} rows", rows.len());
    fs::write(file, format!("{HEAD}    {}\n    ∷ []\n", rows.join("\n    ∷ ")))
}

/// What a text shows: how it ends, in the domain or past it, and which tokens stand beside each
/// other when it does.
fn shown(text: &[u8], parsed: &Parsed) -> BTreeSet<String> {
    let end = parsed.refusal.map_or(0, |(number, _)| number);
    let codes: Vec<u32> = parsed.words.chunks(WORDS).map(|token| token[0]).collect();
    let pairs = codes.windows(2).map(|pair| format!("{} then {}", pair[0], pair[1]));
    let ends = [format!("end {end}"), format!("end {end} in the domain {}", domain::inside(text))];
    let last = codes.last().map(|code| format!("end {end} after {code}"));
    pairs.chain(ends).chain(last).collect()
}

fn row(text: &[u8], parsed: &Parsed) -> String {
    let (number, place) = parsed.refusal.unwrap_or((0, 0));
    let bom = parsed.refusal.is_none() && parsed.bom;
    let mut answer = vec![usize::from(number), place, usize::from(bom)];
    // the Rust has one Quoted, with an escape or without
    let code = |code: u32| if is_quoted(code) { QUOTED } else { code };
    let tokens = parsed.words.chunks(WORDS);
    let told = tokens.flat_map(|token| std::iter::once(code(token[0])).chain(token[1..].to_vec()));
    answer.extend(told.map(|word| word as usize));
    format!("row {}\n    {}", written(text), list(&answer))
}

/// A text as the definitions write it: its characters where all are of ASCII and print, and else its
/// bytes.
fn written(text: &[u8]) -> String {
    if !text.is_empty() && text.iter().all(|byte| matches!(byte, b'\n' | b' '..=b'~')) {
        return format!("(bytes {:?})", String::from_utf8_lossy(text));
    }
    list(&text.iter().map(|byte| usize::from(*byte)).collect::<Vec<usize>>())
}

/// A list as the definitions write it, in lines that are broken.
fn list(numbers: &[usize]) -> String {
    let mut lines = vec![String::from("(")];
    for (i, number) in numbers.iter().enumerate() {
        if lines.last().is_some_and(|line| line.len() > LINE) {
            lines.push(String::new());
        }
        let before = if i == 0 {
            ""
        } else if lines.last().is_some_and(String::is_empty) {
            "∷ "
        } else {
            " ∷ "
        };
        lines.last_mut().expect("a line").push_str(&format!("{before}{number}"));
    }
    lines.last_mut().expect("a line").push_str(if numbers.is_empty() { "[])" } else { " ∷ [])" });
    lines.join("\n    ")
}
