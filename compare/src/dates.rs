//! Scalars that are read as dates and day counts whose date is asked: the edges, every short scalar in order,
//! and a mix of right dates, parts out of range, other shapes, both together, and any bytes.

use crate::date::{self, LAST_MONTH, last_day};
use crate::generate::Series;
use crate::numbers::{LAST_COUNT, LAST_HOUR, LAST_YEAR, YEAR_DAYS};
use crate::record::Record;
use crate::rng::Rng;
use crate::scalars::{digits, spelt};
use crate::{date_edges, scalars};
use std::iter;

/// The dates and day counts of one seed.
pub fn series(rng: Rng) -> Series {
    Series::new(rng, |number| short(number).map(Record::date), any)
}

/// The edges and every short scalar.
pub fn in_order() -> impl Iterator<Item = Record> {
    let edges = date_edges::cases().into_iter().map(|(record, _)| record);
    edges.chain((0..).map_while(short).map(Record::date))
}

/// Those in order and then the mix of a seed, without end.
pub fn all(seed: u64) -> impl Iterator<Item = Record> {
    let mut rng = Rng::new(seed);
    in_order().chain(iter::repeat_with(move || any(&mut rng)))
}

// ---- The short ones in order ----

/// What every one of the 256 bytes is put between: in front of a date, behind it, in the place of each part
/// and each point, and behind each part.
const AROUND: [(&[u8], &[u8]); 13] = [
    (b"", b""),
    (b"", b".1.1"),
    (b"", b"1.1.1"),
    (b"1", b"1.1"),
    (b"1", b".1.1"),
    (b"1.", b".1"),
    (b"1.1", b"1"),
    (b"1.1", b".1"),
    (b"1.1.", b""),
    (b"1.1.1", b""),
    (b"1.1.1", b"1"),
    (b"1.1.1.", b""),
    (b"1.1.1.1", b""),
];
const BYTES: usize = 256;

/// The bytes of which every scalar of up to eight is made, which is room for four parts.
const POINTS: &[u8] = b".01";

/// The bytes of which every scalar of up to five is made, which is room for three.
const SIGNS: &[u8] = b".01239-x";

/// Every byte in and about a date, and then all scalars of up to eight and of up to five signs.
fn short(number: usize) -> Option<Vec<u8>> {
    match AROUND.get(number / BYTES) {
        Some((front, behind)) => Some([*front, &[(number % BYTES) as u8], *behind].concat()),
        None => {
            let left = number - BYTES * AROUND.len();
            spelt(POINTS, 8, left).or_else(|left| spelt(SIGNS, 5, left)).ok()
        }
    }
}

// ---- A mix ----

/// A scalar that is a date, or nearly, or a day count.
fn any(rng: &mut Rng) -> Record {
    if rng.chance(18) { Record::day(count(rng)) } else { Record::date(scalar(rng)) }
}

fn scalar(rng: &mut Rng) -> Vec<u8> {
    match rng.weighted(&[26, 20, 8, 12, 14, 8, 5, 4, 3]) {
        0 => {
            let parts = right(rng);
            dressed(rng, parts)
        }
        1 => {
            let mut parts = right(rng);
            spoil(rng, &mut parts);
            dressed(rng, parts)
        }
        2 => {
            let mut parts = right(rng);
            spoil(rng, &mut parts);
            spoil(rng, &mut parts);
            dressed(rng, parts)
        }
        3 => {
            let mut parts = right(rng);
            spoil(rng, &mut parts);
            let date = dressed(rng, parts);
            misshapen(rng, date)
        }
        4 => {
            let parts = right(rng);
            let date = dressed(rng, parts);
            misshapen(rng, date)
        }
        5 => {
            let parts = end_of_month(rng);
            dressed(rng, parts)
        }
        6 => (0..rng.between(1, 16)).map(|_| *rng.pick(b"....00112345678999")).collect(),
        7 => (0..rng.between(1, 16)).map(|_| rng.below(BYTES) as u8).collect(),
        _ => scalars::any(rng),
    }
}

/// A number from 1 to `most`, often one of these two or one beside.
fn part(rng: &mut Rng, most: u32) -> u32 {
    match rng.weighted(&[70, 8, 14, 4, 4]) {
        0 => rng.between(1, most as usize) as u32,
        1 => 1,
        2 => most,
        3 => 2,
        _ => most - 1,
    }
}

/// The parts of a date in range, two of five times with an hour.
fn right(rng: &mut Rng) -> Vec<String> {
    let (year, month) = (part(rng, LAST_YEAR), part(rng, LAST_MONTH));
    let day = part(rng, last_day(month));
    let hour = rng.chance(40).then(|| part(rng, LAST_HOUR));
    [year, month, day].into_iter().chain(hour).map(|part| part.to_string()).collect()
}

/// The last day of a month or a day past it, to 32; in any year, also in one that others have a leap day in.
fn end_of_month(rng: &mut Rng) -> Vec<String> {
    let (year, month) = (part(rng, LAST_YEAR), part(rng, LAST_MONTH));
    let month = if rng.chance(20) { 2 } else { month };
    let day = rng.between(last_day(month) as usize, 32) as u32;
    [year, month, day].map(|part| part.to_string()).to_vec()
}

/// Puts one part, as it comes, out of its range, or nearly always: 0, just past the range, far past it, or
/// such that it is in range again in 8 to 96 bits.
fn spoil(rng: &mut Rng, parts: &mut [String]) {
    let place = rng.below(parts.len());
    let month = parts[1].parse().ok().filter(|month| (1..=LAST_MONTH).contains(month));
    let most = [LAST_YEAR, LAST_MONTH, month.map_or(31, last_day), LAST_HOUR][place];
    let inside = u128::from(part(rng, most));
    parts[place] = match rng.weighted(&[18, 30, 12, 30, 10]) {
        0 => "0".to_string(),
        1 => (most + 1).to_string(),
        2 => (most as usize + rng.between(2, 100)).to_string(),
        3 => {
            let times = rng.between(1, 5) as u128;
            (inside + times * (1 << *rng.pick(&[8, 16, 31, 32, 63, 64, 65, 96]))).to_string()
        }
        _ => {
            let length = rng.between(5, 40);
            format!("{}{}", rng.between(1, 9), digits(rng, length))
        }
    };
}

/// A date of these parts, now and then with zeros in front of them, no more than a record holds.
fn dressed(rng: &mut Rng, parts: Vec<String>) -> Vec<u8> {
    let written: Vec<String> = parts
        .into_iter()
        .map(|part| {
            let zeros = match rng.weighted(&[8_800, 1_000, 150, 48, 2]) {
                0 => 0,
                1 => rng.between(1, 4),
                2 => rng.between(5, 30),
                3 => rng.between(31, 400),
                _ => rng.between(401, 8_000),
            };
            "0".repeat(zeros) + &part
        })
        .collect();
    written.join(".").into_bytes()
}

/// A date that is given another shape, or nearly always.
fn misshapen(rng: &mut Rng, date: Vec<u8>) -> Vec<u8> {
    let mut bytes = date;
    let points: Vec<usize> = (0..bytes.len()).filter(|&at| bytes[at] == b'.').collect();
    let starts: Vec<usize> = iter::once(0).chain(points.iter().map(|at| at + 1)).collect();
    let (at, point, start) = (rng.below(bytes.len()), *rng.pick(&points), *rng.pick(&starts));
    match rng.weighted(&[12, 12, 8, 8, 6, 12, 8, 8, 8, 8, 10]) {
        0 => bytes[at] = rng.below(BYTES) as u8,
        1 => bytes.insert(at, *rng.pick(b" \t\0x-+/:,\xb1\xff")),
        2 => drop(bytes.remove(point)),
        3 => bytes.insert(point, b'.'),
        4 => bytes.insert(0, *rng.pick(b". ")),
        5 => bytes.push(*rng.pick(b"..x f-/:\n\0\xb0")),
        6 => bytes.truncate(point),
        7 => bytes.insert(start, *rng.pick(b"+-")),
        8 => bytes[point] = *rng.pick(b"/-,: \xae"),
        9 => bytes.extend(*rng.pick(&[b".1.1", b".0.0", b"..24"])),
        _ => {
            let end = points.iter().find(|&&point| point >= start).copied().unwrap_or(bytes.len());
            drop(bytes.drain(start..end));
        }
    }
    bytes
}

/// A day count: in range, at its ends, where years and months end, about a power of two, one whose bytes
/// make another, or any.
fn count(rng: &mut Rng) -> u32 {
    let inside = rng.below(LAST_COUNT as usize + 1) as u32;
    match rng.weighted(&[30, 12, 15, 15, 10, 5, 5, 8]) {
        0 => inside,
        1 => *rng.pick(&[6, LAST_COUNT + 1]) + rng.below(6) as u32 - rng.below(7) as u32,
        2 => (YEAR_DAYS * rng.between(1, LAST_YEAR as usize) as u32) + 1 - rng.below(3) as u32,
        3 => {
            let (year, month) = (part(rng, LAST_YEAR), part(rng, LAST_MONTH));
            let day = *rng.pick(&[1, last_day(month)]);
            date::count(year, month, day).unwrap_or(0)
        }
        4 => (1_u32 << rng.below(32)).wrapping_add(rng.below(3) as u32).wrapping_sub(1),
        5 => inside.swap_bytes(),
        6 => inside | (rng.between(1, 255) as u32) << 24,
        _ => rng.word() as u32,
    }
}
