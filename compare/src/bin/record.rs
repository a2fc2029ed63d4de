//! Chooses the sample of recorded answers: `record FOLDER` writes FOLDER/stdin and FOLDER/stdout.
//!
//! The edges, the limits of a record, and then cases of seed 1 in order: each that
//! shows something that fewer than enough of those before it showed, and some at random. A record
//! of an unknown kind is the last that is answered.

use compare::generate::Generator;
use compare::numbers::*;
use compare::record::{Question, Record, serve};
use compare::rng::Rng;
use compare::tally::{Tally, features};
use compare::tree::{self, scalar};
use compare::{edges, file, oracle};
use std::collections::{BTreeSet, HashMap};
use std::path::Path;
use std::{env, fs, io};

const LOOKED_AT: usize = 400_000;
const LONGEST_CHOSEN: usize = 160;
const ENOUGH: usize = 20;
const ENOUGH_OF_A_FORM: usize = 3;
/// The edges have most of what a date can show.
const ENOUGH_OF_A_DATE: usize = 2;

fn main() -> io::Result<()> {
    let folder = env::args().nth(1).expect("record FOLDER");
    let mut sample = edges::records();
    sample.extend(limits());
    let mut tally = Tally::default();
    let mut seen: HashMap<String, usize> = HashMap::new();
    let mut chance = Rng::new(1);
    for record in sample.clone() {
        choose(&record, &mut seen, &mut tally);
    }
    for record in Generator::new(1).take(LOOKED_AT) {
        if record.body.len() > LONGEST_CHOSEN || sample.contains(&record) {
            continue;
        }
        if shows_more(&record, &seen) || chance.below(400) == 0 {
            choose(&record, &mut seen, &mut tally);
            sample.push(record);
        }
    }
    let mut input: Vec<u8> = sample.iter().flat_map(Record::bytes).collect();
    input.extend(Record { kind: b'?', capacity: 0, body: Vec::new() }.bytes());
    input.extend(Record::scalar(b"10".to_vec()).bytes());
    let mut output = Vec::new();
    serve(&mut input.as_slice(), &mut output, oracle::answer)?;
    println!("{tally}\n{} records, {} bytes", sample.len(), input.len());
    println!("never reached: {:?}", tally.missing());
    fs::write(Path::new(&folder).join("stdin"), input)?;
    fs::write(Path::new(&folder).join("stdout"), output)
}

/// Texts, sheets, files, a scalar and a date at the limits of a record: as many bytes and as many tokens as
/// it may have.
fn limits() -> Vec<Record> {
    let longest = [b"a=".as_slice(), &[b'b'; LONGEST - 2]].concat();
    let just_room = b"a=b ".repeat(usize::from(MOST_TOKENS) / 2);
    let texts = [longest, just_room].map(|text| Record::text(text, MOST_TOKENS));
    let token_bytes = 4 * WORDS;
    let (head, a) = (8, scalar(UNQUOTED, b"a"));
    let most_tokens = vec![a.clone(); (LONGEST - head) / (token_bytes + 1)];
    let longest = vec![a, scalar(QUOTED, &vec![b'b'; LONGEST - head - 2 * token_bytes - 1])];
    let sheets = [most_tokens, longest].map(|root| {
        let sheet = tree::laid(&root, b"");
        let (room, scratch) = (MOST_ROOM as u16, MOST_SCRATCH as u16);
        Record::write(room, scratch, sheet.count, &sheet.words, &sheet.text)
    });
    let scalars = [leading_limit(), date_limit()];
    texts.into_iter().chain(sheets).chain(file_limits()).chain(scalars).collect()
}

/// A scalar as long as a record may be: one half is a digit behind zeros, and the other is left.
fn leading_limit() -> Record {
    let half = LONGEST / 2;
    Record::leading([vec![b'0'; half - 1], vec![b'7'], vec![b'x'; half]].concat())
}

/// A date as long as a record may be: zeros in front of each part.
fn date_limit() -> Record {
    let date = ["1936", "1", "12", "24"];
    let points = date.len() - 1;
    let most = (LONGEST - points) / date.len();
    let first = LONGEST - points - (date.len() - 1) * most;
    let widths = [first, most, most, most];
    let parts = date.iter().zip(widths).map(|(part, width)| format!("{part:0>width$}"));
    Record::date(parts.collect::<Vec<_>>().join(".").into_bytes())
}

/// The largest sheet to put on file and the largest file, each with just room, and a file as long as a record
/// may be, which has bytes over.
fn file_limits() -> [Record; 3] {
    let scalars = |count: u32| (0..count).flat_map(|i| token(UNQUOTED, i, 1)).collect::<Vec<u32>>();
    let head = 8;
    let sheet = ((LONGEST - head) / (4 * WORDS)) as u32;
    let count = ((LONGEST - FILE_HEAD) / FILE_TOKEN) as u32;
    let words = scalars(count);
    let largest = file::laid(count, &words);
    let mut longest = largest.clone();
    longest.resize(LONGEST, 0);
    file::put_total(&mut longest);
    [
        Record::pack(file::length_of(sheet) as u16, sheet, sheet, &scalars(sheet)),
        Record::unpack(words.len() as u16, largest),
        Record::unpack(words.len() as u16, longest),
    ]
}

fn answer(record: &Record) -> String {
    let mut answer = String::new();
    oracle::answer(record.question().expect("a good record"), &mut answer);
    answer
}

/// What a case shows, each with how many of it are enough: the features that a run counts, which
/// tokens stand beside each other, and which answers come together.
fn shown(record: &Record) -> BTreeSet<(String, usize)> {
    let answer = answer(record);
    let found = features(record, &answer);
    let forms = match record.kind {
        b'S' => vec![found.iter().map(|(_, name)| name.as_str()).collect::<Vec<_>>().join(" ")],
        // a file's sheet has a line before its tokens
        b'R' => pairs(answer.lines().skip(1), "read "),
        _ => {
            let mut forms = pairs(answer.lines(), "");
            forms.extend(written_forms(record, &answer));
            forms
        }
    };
    let enough = if matches!(record.kind, b'D' | b'Y') { ENOUGH_OF_A_DATE } else { ENOUGH };
    let features = found.iter().map(|(heading, name)| (format!("{heading} {name}"), enough));
    features.chain(forms.into_iter().map(|form| (form, ENOUGH_OF_A_FORM))).collect()
}

/// The second words of lines that stand beside each other: those of token lines are names.
fn pairs<'a>(lines: impl Iterator<Item = &'a str>, before: &str) -> Vec<String> {
    let names: Vec<&str> = lines.filter_map(|line| line.split(' ').nth(1)).collect();
    names.windows(2).map(|pair| format!("{before}{}", pair.join(" then "))).collect()
}

/// Which tokens stand beside each other in a sheet whose text was written.
fn written_forms(record: &Record, answer: &str) -> Vec<String> {
    match record.question() {
        Some(Question::Write(asked)) if answer.starts_with("text ") => {
            let tokens = asked.words.chunks_exact(WORDS).take(asked.count as usize);
            let names: Vec<&str> = tokens.map(|token| name(token[0])).collect();
            names.windows(2).map(|pair| format!("written {}", pair.join(" then "))).collect()
        }
        _ => Vec::new(),
    }
}

fn shows_more(record: &Record, seen: &HashMap<String, usize>) -> bool {
    shown(record).iter().any(|(name, enough)| seen.get(name).is_none_or(|times| times < enough))
}

fn choose(record: &Record, seen: &mut HashMap<String, usize>, tally: &mut Tally) {
    for (name, _) in shown(record) {
        *seen.entry(name).or_default() += 1;
    }
    tally.count(record, &answer(record));
}
