//! Scalars whose leading number is asked: the edges, every short one in order, and a mix of numbers
//! about the limits, dates, several signs, and digits with any byte behind them.

use crate::generate::Series;
use crate::record::Record;
use crate::rng::Rng;
use crate::scalars::{digits, spelt};
use crate::{leading_edges, scalars};
use std::iter;

/// The scalars of one seed whose leading number is asked.
pub fn series(rng: Rng) -> Series {
    Series::new(rng, |number| short(number).map(Record::leading), |rng| Record::leading(any(rng)))
}

/// The edges and every short scalar.
pub fn in_order() -> impl Iterator<Item = Vec<u8>> {
    let edges = leading_edges::cases().into_iter().map(|(scalar, _)| scalar);
    edges.chain((0..).map_while(short))
}

/// Those in order and then the mix of a seed, without end.
pub fn all(seed: u64) -> impl Iterator<Item = Vec<u8>> {
    let mut rng = Rng::new(seed);
    in_order().chain(iter::repeat_with(move || any(&mut rng)))
}

// ---- The short ones in order ----

/// The bytes of which every short scalar is made: signs, digits, and what may stand behind them.
const SIGNS: &[u8] = b"+-.019fx ";

/// What every one of the 256 bytes is put behind.
const FRONTS: [&[u8]; 4] = [b"", b"5", b"-", b"+"];
const BYTES: usize = 256;

/// Every byte alone and behind a digit or a sign, and then all scalars of up to five signs.
fn short(number: usize) -> Option<Vec<u8>> {
    match FRONTS.get(number / BYTES) {
        Some(front) => Some([*front, &[(number % BYTES) as u8]].concat()),
        None => spelt(SIGNS, 5, number - BYTES * FRONTS.len()).ok(),
    }
}

// ---- A mix ----

/// A scalar that begins with a number, or nearly.
fn any(rng: &mut Rng) -> Vec<u8> {
    match rng.weighted(&[30, 30, 15, 10, 15]) {
        0 => scalars::any(rng),
        1 => {
            let number = near_limit(rng);
            dressed(rng, &number)
        }
        2 => date(rng),
        3 => {
            let (signs, length) = (rng.between(1, 4), rng.below(21));
            let signs: Vec<u8> = (0..signs).map(|_| *rng.pick(b"+-")).collect();
            [signs, digits(rng, length).into_bytes()].concat()
        }
        _ => {
            let (length, behind) = (rng.between(1, 21), rng.between(1, 6));
            let front = digits(rng, length).into_bytes();
            front.into_iter().chain((0..behind).map(|_| rng.below(BYTES) as u8)).collect()
        }
    }
}

/// The first number that is not read, the first that 64 bits do not hold, and two that are these
/// modulo 2^64.
const LIMITS: [u128; 4] = [1 << 63, 1 << 64, 3 << 63, 1 << 65];

/// A number beside a limit, or one that has a digit of it changed.
fn near_limit(rng: &mut Rng) -> String {
    let (over, under) = (rng.below(12) as u128, rng.below(12) as u128);
    let mut number = (*rng.pick(&LIMITS) + over - under).to_string();
    if rng.chance(30) {
        let at = rng.below(number.len());
        number.replace_range(at..=at, &rng.below(10).to_string());
    }
    number
}

/// A number with a sign, with zeros in front, and with something behind it, or without.
fn dressed(rng: &mut Rng, number: &str) -> Vec<u8> {
    let sign = *rng.pick(&["", "", "+", "-"]);
    let zeros = match rng.weighted(&[70, 25, 5]) {
        0 => 0,
        1 => rng.between(1, 9),
        _ => rng.between(10, 300),
    };
    let front = format!("{sign}{}{number}", "0".repeat(zeros)).into_bytes();
    [front, tail(rng)].concat()
}

/// What stands behind a number: nothing, what may in saves or reads on like a number, or any bytes.
fn tail(rng: &mut Rng) -> Vec<u8> {
    match rng.weighted(&[30, 40, 28, 2]) {
        0 => Vec::new(),
        1 => rng
            .pick(&[
                "x",
                ".1",
                " ",
                ".",
                "f",
                ".5f",
                "-",
                "+1",
                ".1.12",
                "E4",
                "_000",
                "%",
                ".99999999999999999999",
            ])
            .bytes()
            .collect(),
        2 => (0..rng.between(1, 12)).map(|_| rng.below(BYTES) as u8).collect(),
        _ => (0..rng.between(256, 2_000)).map(|_| rng.below(BYTES) as u8).collect(),
    }
}

/// A year, or more of a date, with parts out of range among them; now and then with zeros in front
/// of a part, and with something in front or behind.
fn date(rng: &mut Rng) -> Vec<u8> {
    let most = [10_000, 13, 32, 25];
    let parts = rng.between(1, most.len());
    let written: Vec<String> = most[..parts]
        .iter()
        .map(|&most| {
            let (part, width) = (rng.between(0, most), if rng.chance(15) { 4 } else { 0 });
            format!("{part:0width$}")
        })
        .collect();
    let front = if rng.chance(20) { *rng.pick(&["-", "+", ".", " "]) } else { "" };
    let behind = if rng.chance(20) { *rng.pick(&[".", "x", " ", "-"]) } else { "" };
    format!("{front}{}{behind}", written.join(".")).into_bytes()
}
