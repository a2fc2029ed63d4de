//! The Rust and our program beside each other: see `compare/run`.

use compare::generate::{self, Generator, LeftOut};
use compare::model::boundary;
use compare::numbers::{LAST_COUNT, OUT_OF_RANGE};
use compare::pipe::{answers, ask, from_hex, hex};
use compare::record::{Record, rust_answers};
use compare::rng::Rng;
use compare::tally::Tally;
use compare::{date, dates, kind, leading, oracle, scalars, standin};
use std::time::Instant;
use std::{env, io, process};

/// How many cases go through the pipes at once.
const BATCH: usize = 4_000;

/// How many days go through the pipe at once, each both ways.
const DAYS_AT_ONCE: usize = 50_000;

/// How many counts behind the last day are asked, one after another.
const PAST_THE_END: u32 = 1_000;

fn main() {
    let status = match run() {
        Ok(good) => i32::from(!good),
        Err(error) => {
            eprintln!("compare/run: {error}");
            2
        }
    };
    process::exit(status);
}

/// Does what the arguments ask, and says whether nothing was found.
fn run() -> io::Result<bool> {
    let arguments: Vec<String> = env::args().skip(1).collect();
    let number = |i: usize, default: u64| match arguments.get(i) {
        Some(word) => word.parse().unwrap_or_else(|_| usage()),
        None => default,
    };
    match arguments.first().map(String::as_str) {
        Some("--case") => replay(arguments.get(1).unwrap_or_else(|| usage())),
        Some("--probe") => Ok(probe()),
        Some("--kinds") => kinds(&ours()),
        Some("--leading") => leading(&ours(), number(1, 1), number(2, 300_000) as usize),
        Some("--dates") => dates(&ours(), number(1, 1), number(2, 300_000) as usize),
        Some("--days") => days(&ours()),
        Some("--self-test") => self_test(number(1, 1), number(2, 1_000_000) as usize),
        _ => compare(&ours(), number(0, 1), number(1, 1_000_000) as usize),
    }
}

fn usage() -> ! {
    eprintln!(
        "run [SEED] [N] | --case HEX | --probe | --kinds | --leading [SEED] [N] | \
         --dates [SEED] [N] | --days | --self-test [SEED] [N]"
    );
    process::exit(2);
}

/// Our program, as a command: its path, with what it runs under in front where it needs that.
fn ours() -> Vec<String> {
    let command = env::var("ANSWERS").unwrap_or_else(|_| "crates/answers/out/answers".to_string());
    command.split_whitespace().map(str::to_string).collect()
}

/// A program that was built with this one.
fn beside(name: &str) -> String {
    env::current_exe().unwrap().with_file_name(name).display().to_string()
}

/// The first case on which two sides differ: what was asked, and both answers.
struct Difference {
    case: usize,
    record: Vec<u8>,
    rust: String,
    ours: String,
}

/// Asks both sides the same and finds the first answer that differs.
fn ask_both(ours: &[String], records: &[Vec<u8>]) -> io::Result<(Vec<u8>, Option<Difference>)> {
    let input = records.concat();
    let rust = ask(&[beside("oracle")], &input)?;
    let our = ask(ours, &input)?;
    if rust.0 == our.0 && our.1.is_none() {
        let (output, end) = rust;
        return Ok((output, end.map(|end| panic!("the oracle ended with {end}"))));
    }
    let difference = first_unlike(records, &rust, &our);
    Ok((rust.0, Some(difference)))
}

/// What a side wrote, and what its end says if it is no good end.
type Written = (Vec<u8>, Option<String>);

/// The first of these whose answers differ.
fn first_unlike(records: &[Vec<u8>], rust: &Written, ours: &Written) -> Difference {
    let ((rust, rust_end), (our, our_end)) = (rust, ours);
    let (rust_answers, our_answers) = (answers(rust), answers(our));
    let shown = |answers: &[&[u8]], i: usize, end: &Option<String>| match answers.get(i) {
        Some(answer) => String::from_utf8_lossy(answer).into_owned(),
        None => format!("no answer ({})\n", end.as_deref().unwrap_or("ended well")),
    };
    let all = rust_answers.len().max(our_answers.len());
    let case = (0..all).find(|&i| rust_answers.get(i) != our_answers.get(i)).unwrap_or(all);
    Difference {
        case,
        record: records.get(case).cloned().unwrap_or_default(),
        rust: shown(&rust_answers, case, rust_end),
        ours: shown(&our_answers, case, our_end),
    }
}

fn show(difference: &Difference) {
    let Difference { record, rust, ours, .. } = difference;
    let body = record.get(5..).unwrap_or_default();
    println!("asked  {}", hex(record));
    println!("body   {:?}", String::from_utf8_lossy(&body[..body.len().min(400)]));
    let by = if rust_answers(record) { "the Rust" } else { "expected" };
    println!("{by}:\n{rust}ours:\n{ours}replay with  compare/run --case {}", hex(record));
}

/// Runs cases until a side differs; the number of the case that did, counted from 1, and it.
fn first_difference(
    ours: &[String],
    seed: u64,
    cases: usize,
    tally: &mut Tally,
) -> io::Result<(Generator, Option<(usize, Difference)>)> {
    let mut generator = Generator::new(seed);
    let mut chance = Rng::new(!seed);
    let mut done = 0;
    while done < cases {
        let batch = BATCH.min(cases - done);
        let asked: Vec<Record> = generator.by_ref().take(batch).collect();
        let mut records: Vec<Vec<u8>> = asked.iter().map(Record::bytes).collect();
        records.push(generate::bad(&mut chance));
        let (output, difference) = ask_both(ours, &records)?;
        if let Some(difference) = difference {
            return Ok((generator, Some((done + difference.case + 1, difference))));
        }
        for (record, answer) in asked.iter().zip(answers(&output)) {
            tally.count(record, &String::from_utf8_lossy(answer));
        }
        done += batch;
    }
    Ok((generator, None))
}

fn compare(ours: &[String], seed: u64, cases: usize) -> io::Result<bool> {
    let start = Instant::now();
    let mut tally = Tally::default();
    let (generator, found) = first_difference(ours, seed, cases, &mut tally)?;
    if let Some((case, difference)) = &found {
        println!("seed {seed}: case {case} of {cases} differs");
        show(difference);
        return Ok(false);
    }
    println!("{tally}");
    for missing in tally.missing() {
        println!("never reached: {missing}");
    }
    let seconds = start.elapsed().as_secs();
    println!("seed {seed}: {cases} cases, no difference, {seconds} s");
    println!("files to read: {}", generator.files.how);
    let LeftOut { texts, sheets } = generator.left_out;
    println!(
        "a bad record after each {BATCH}; left out as outside the domain: {texts} texts to parse, {sheets} \
         sheets by the text that they write"
    );
    Ok(true)
}

fn replay(case: &str) -> io::Result<bool> {
    let record = from_hex(case).unwrap_or_else(|| usage());
    let (output, difference) = ask_both(&ours(), &[record])?;
    match &difference {
        Some(difference) => show(difference),
        None => print!("both:\n{}", String::from_utf8_lossy(&output)),
    }
    Ok(difference.is_none())
}

/// Asks the Rust about each of the 256 bytes: its table, its strides, and the thirteen.
fn probe() -> bool {
    let strides = |byte: u8| {
        let text = [b"k=x".as_slice(), &[byte], b"xxx ", &[b'y'; 40]].concat();
        oracle::parse(&text).words[5] == 1
    };
    let all = |test: &dyn Fn(u8) -> bool| -> Vec<u8> { (0..=255).filter(|&b| test(b)).collect() };
    println!("boundary bytes of document 01:  {:?}", all(&boundary));
    println!("boundary bytes of the strides:  {:?}", all(&strides));
    println!("boundary bytes of the fallback: {:?}", all(&jomini::fallback_boundary));
    println!("strides and thirteen disagree:  {:?}", all(&|b| strides(b) != boundary(b)));
    let disputed = all(&|b| jomini::fallback_boundary(b) != boundary(b));
    println!("fallback and thirteen disagree: {disputed:?}");
    true
}

/// Every scalar of up to five of the bytes that tell the kinds apart: our readings and kind against the Rust's
/// readings and the request's form, and the kind against what the request makes of document 01's.
fn kinds(ours: &[String]) -> io::Result<bool> {
    let records: Vec<Record> = scalars::kinds().map(Record::scalar).collect();
    let mut moved = 0;
    let alike = ask_all(ours, &records, |Record { body, .. }, answer| {
        let (old, new) = (kind::by_readings(body), kind::amended(body));
        moved += usize::from(old != new);
        let holds = answer.ends_with(format!(" {new}\n").as_bytes());
        if !holds {
            println!("{:?}: the theorem has {new}", String::from_utf8_lossy(body));
        }
        holds
    })?;
    if !alike {
        return Ok(false);
    }
    println!(
        "{} scalars, no difference; document 01 has a number in {moved} of them that are a name now",
        records.len()
    );
    Ok(true)
}

/// Scalars whose leading number is asked, the edges and every short one and then others of a seed:
/// our answers against those of the Rust's own inner routine.
fn leading(ours: &[String], seed: u64, cases: usize) -> io::Result<bool> {
    let records: Vec<Record> = leading::all(seed).take(cases).map(Record::leading).collect();
    if !ask_and_tell(ours, &records, Tally::missing_of_leading)? {
        return Ok(false);
    }
    let in_order = leading::in_order().count().min(cases);
    println!(
        "seed {seed}: {cases} scalars, no difference; the first {in_order} of them are the edges \
         and short ones in order"
    );
    Ok(true)
}

/// Scalars that are read as dates, and day counts, the edges and every short scalar and then others of a seed:
/// our answers against those of the comparison's own reading and calendar.
fn dates(ours: &[String], seed: u64, cases: usize) -> io::Result<bool> {
    let records: Vec<Record> = dates::all(seed).take(cases).collect();
    if !ask_and_tell(ours, &records, Tally::missing_of_dates)? {
        return Ok(false);
    }
    let in_order = dates::in_order().count().min(cases);
    println!(
        "seed {seed}: {cases} dates and day counts, no difference; the first {in_order} of them \
         are the edges and short scalars in order"
    );
    Ok(true)
}

/// Asks both sides all of these, and tells what they reached and did not; whether nothing differs.
fn ask_and_tell(
    ours: &[String],
    records: &[Record],
    missing: fn(&Tally) -> Vec<String>,
) -> io::Result<bool> {
    let mut tally = Tally::default();
    let alike = ask_all(ours, records, |record, answer| {
        tally.count(record, &String::from_utf8_lossy(answer));
        true
    })?;
    if !alike {
        return Ok(false);
    }
    println!("{tally}");
    for missing in missing(&tally) {
        println!("never reached: {missing}");
    }
    Ok(true)
}

/// Every day of the calendar both ways, and counts past its end: our answers against the comparison's
/// calendar.
fn days(ours: &[String]) -> io::Result<bool> {
    let start = Instant::now();
    for first in (0..=LAST_COUNT).step_by(DAYS_AT_ONCE) {
        let last = LAST_COUNT.min(first + DAYS_AT_ONCE as u32 - 1);
        let both_ways: Vec<(Record, String)> = (first..=last).flat_map(there_and_back).collect();
        if !answers_these(ours, &both_ways)? {
            return Ok(false);
        }
    }
    let next = (1..=PAST_THE_END).map(|past| LAST_COUNT + past);
    let powers = (22..32).flat_map(|bits| [1 << bits, (1 << bits) + 1]);
    let past: Vec<(Record, String)> = next
        .chain(powers)
        .chain([u32::MAX])
        .map(|count| (Record::day(count), format!("refused {OUT_OF_RANGE}\n")))
        .collect();
    if !answers_these(ours, &past)? {
        return Ok(false);
    }
    let (days, seconds) = (LAST_COUNT + 1, start.elapsed().as_secs());
    println!(
        "{days} days both ways, count to date and date to count, no difference; {} counts past the \
         last day, all refused; {seconds} s",
        past.len()
    );
    Ok(true)
}

/// A day count, whose answer is the calendar's date; and that date as a scalar, whose answer is the date
/// without an hour and the count.
fn there_and_back(count: u32) -> [(Record, String); 2] {
    let [year, month, day] = date::of(count).expect("a day of the calendar");
    let scalar = format!("{year}.{month}.{day}").into_bytes();
    [
        (Record::day(count), format!("={year} {month} {day}\n")),
        (Record::date(scalar), format!("={year} {month} {day} 0 {count}\n")),
    ]
}

/// Whether our program answers each of these with its line; the first that it does not is shown.
fn answers_these(ours: &[String], asked: &[(Record, String)]) -> io::Result<bool> {
    let records: Vec<Vec<u8>> = asked.iter().map(|(record, _)| record.bytes()).collect();
    let told: String = asked.iter().map(|(_, line)| line.as_str()).collect();
    let (told, our) = ((told.into_bytes(), None), ask(ours, &records.concat())?);
    if our == told {
        return Ok(true);
    }
    show(&first_unlike(&records, &told, &our));
    Ok(false)
}

/// Asks both sides all of these, until they differ or an answer does not hold; whether none did.
fn ask_all(
    ours: &[String],
    records: &[Record],
    mut holds: impl FnMut(&Record, &[u8]) -> bool,
) -> io::Result<bool> {
    for batch in records.chunks(BATCH) {
        let asked: Vec<Vec<u8>> = batch.iter().map(Record::bytes).collect();
        let (output, difference) = ask_both(ours, &asked)?;
        if let Some(difference) = &difference {
            show(difference);
            return Ok(false);
        }
        if !batch.iter().zip(answers(&output)).all(|(record, answer)| holds(record, answer)) {
            return Ok(false);
        }
    }
    Ok(true)
}

/// The comparison tried on the model: no difference, and each fault found within 10,000 cases.
fn self_test(seed: u64, cases: usize) -> io::Result<bool> {
    let mut good = compare(&[beside("standin")], seed, cases)?;
    for (fault, _) in standin::FAULTS {
        let ours = [beside("standin"), fault.to_string()];
        match first_difference(&ours, seed, 10_000, &mut Tally::default())?.1 {
            Some((case, _)) => println!("fault {fault}: found by case {case}"),
            None => {
                println!("fault {fault}: not found in 10000 cases");
                good = false;
            }
        }
    }
    Ok(good)
}
