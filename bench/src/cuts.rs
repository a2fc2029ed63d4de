//! Each cut alone, the plain one beside the fast one, over runs of some lengths. Both pairs are called through
//! crate `cut_calls`, which is no part of the library. The fast one is the public pair of `cut::strides`, which asks
//! for a short run first; the parser's own cuts, by the same strides, do not, and are not timed here.

use crate::in_turns_for;
use compare::model::boundary;
use compare::rng::Rng;
use std::hint::black_box;
use std::time::Duration;

unsafe extern "C" {
    fn cuts_plain_run(part: *const u8, length: usize, classes: &[u8; 256]) -> usize;
    fn cuts_fast_run(part: *const u8, length: usize) -> usize;
    fn cuts_plain_quote(part: *const u8, length: usize) -> usize;
    fn cuts_fast_quote(part: *const u8, length: usize) -> usize;
}

/// How long the runs are.
const LENGTHS: [usize; 6] = [1, 4, 8, 16, 64, 4096];

/// How many bytes the runs of one length have together, or a run more.
const BYTES: usize = 200_000;

/// How long plain and fast take turns, at the least.
const LEAST: Duration = Duration::from_millis(200);

/// Runs of letters, each with the byte behind it that ends it, and where each starts.
struct Runs {
    text: Vec<u8>,
    starts: Vec<usize>,
}

impl Runs {
    fn new(end: u8, mut length: impl FnMut() -> usize) -> Self {
        let mut runs = Runs { text: Vec::new(), starts: Vec::new() };
        while runs.text.len() < BYTES {
            runs.starts.push(runs.text.len());
            runs.text.extend((b'a'..=b'z').cycle().take(length()));
            runs.text.push(end);
        }
        runs
    }

    /// The text from the start of each run on.
    fn parts(&self) -> impl Iterator<Item = &[u8]> {
        self.starts.iter().map(|&at| &self.text[at..])
    }

    /// Every run cut. No cut waits for the answer of another.
    fn apart(&self, cut: impl Fn(&[u8]) -> usize) -> usize {
        self.parts().map(cut).sum()
    }

    /// Every run cut where the answer of the cut before says that it starts.
    fn in_a_row(&self, cut: impl Fn(&[u8]) -> usize) -> usize {
        let mut at = 0;
        while at < self.text.len() {
            at += cut(&self.text[at..]) + 1;
        }
        at
    }

    /// Nanoseconds a run of two ways to cut all runs, in turns.
    fn race(&self, plain: impl Fn() -> usize, fast: impl Fn() -> usize) -> [f64; 2] {
        let times =
            in_turns_for(LEAST, [&mut || _ = black_box(plain()), &mut || _ = black_box(fast())]);
        times.map(|time| 1e9 * time.as_secs_f64() / self.starts.len() as f64)
    }
}

/// A line for each length: the four ways to cut, plain and fast.
fn lines(what: &str, end: u8, plain: impl Fn(&[u8]) -> usize, fast: impl Fn(&[u8]) -> usize) {
    for length in LENGTHS {
        let mut rng = Rng::new(length as u64);
        let alike = Runs::new(end, || length);
        let drawn = Runs::new(end, || rng.between(1, 2 * length - 1));
        for part in alike.parts().chain(drawn.parts()) {
            assert_eq!(plain(part), fast(part), "a cut answers otherwise");
        }
        let ways = [
            alike.race(|| alike.apart(&plain), || alike.apart(&fast)),
            drawn.race(|| drawn.apart(&plain), || drawn.apart(&fast)),
            alike.race(|| alike.in_a_row(&plain), || alike.in_a_row(&fast)),
            drawn.race(|| drawn.in_a_row(&plain), || drawn.in_a_row(&fast)),
        ];
        print!("{:<16}", format!("{what}, {length}"));
        for [plain, fast] in ways {
            print!(" {plain:>9.2} {fast:>8.2} {:>6.2}", plain / fast);
        }
        println!();
    }
}

/// What the table's columns are.
fn head() {
    println!(
        "cuts alone: nanoseconds a cut, plain and fast, and how many times as fast the fast one is"
    );
    println!("  fast is the public pair; a text's scalars are cut by its strides, with no short run asked for");
    println!("  apart: all runs are of the length, and each cut knows its start beforehand");
    println!(
        "  drawn: each run's length is drawn from 1 to twice the length less 1, as a save has it"
    );
    println!(
        "  in a row: each cut starts by the answer of the one before, with runs all alike and drawn"
    );
    print!("{:<16}", "");
    for way in ["apart", "apart, drawn", "in a row", "in a row, drawn"] {
        print!(" {way:>25}");
    }
    print!("\n{:<16}", "run, its bytes");
    for _ in 0..4 {
        print!(" {:>9} {:>8} {:>6}", "plain", "fast", "times");
    }
    println!();
}

/// The table of both kinds of run.
pub fn show() {
    head();
    let classes = std::array::from_fn(|byte| boundary(byte as u8).into());
    lines(
        "unquoted",
        b'=',
        |part| unsafe { cuts_plain_run(part.as_ptr(), part.len(), &classes) },
        |part| unsafe { cuts_fast_run(part.as_ptr(), part.len()) },
    );
    lines(
        "quoted",
        b'"',
        |part| unsafe { cuts_plain_quote(part.as_ptr(), part.len()) },
        |part| unsafe { cuts_fast_quote(part.as_ptr(), part.len()) },
    );
}
