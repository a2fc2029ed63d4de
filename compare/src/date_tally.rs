//! What dates and day counts show: what became of each, why a scalar is no date, which part is out of range,
//! and which ends of months and of the calendar were come to.

use crate::date::{self, LAST_MONTH, is_digits, last_day, within};
use crate::numbers::*;
use crate::tally::Feature;

const PARTS: [&str; 4] = ["year", "month", "day", "hour"];

/// The parts as pairs: two that are out of range together.
const PAIRS: [(usize, usize); 6] = [(0, 1), (0, 2), (0, 3), (1, 2), (1, 3), (2, 3)];

/// Why a scalar is no date, in words.
const FEW: &str = "too few parts";
const MANY: &str = "too many parts";
const EMPTY: &str = "an empty part";
const SIGN: &str = "a sign before digits";
const OTHER: &str = "another byte";

/// The powers of two in which a part that is too large is looked for as one in range.
const POWERS: [u32; 4] = [8, 16, 32, 64];

/// The day counts that are looked for.
const COUNTS: [u32; 4] = [0, LAST_COUNT, LAST_COUNT + 1, u32::MAX];

/// All that scalars which are read as dates, and day counts, can reach.
pub fn expected() -> Vec<Feature> {
    let mut all: Vec<Feature> = Vec::new();
    all.extend(["with an hour", "without an hour"].map(|date| ("dates", date.to_string())));
    all.extend([NO_DATE, OUT_OF_RANGE].map(|number| ("dates", number.to_string())));
    all.extend([FEW, MANY, EMPTY, SIGN, OTHER].map(|why| ("no date for", why.to_string())));
    for part in PARTS {
        all.push(("no date and out of range", part.to_string()));
        all.push(("zeros in front of", part.to_string()));
        all.extend(["0", "too large"].map(|what| ("alone out of range", format!("{part} {what}"))));
    }
    all.extend(PAIRS.map(|pair| ("both out of range", both(pair))));
    all.extend(POWERS.map(|bits| ("out of range but for", format!("2^{bits}"))));
    for month in 1..=LAST_MONTH {
        all.push(("last day of month", month.to_string()));
        all.push(("day after the last of month", month.to_string()));
        all.extend(["first", "last"].map(|day| ("days of months", format!("{day} of {month}"))));
    }
    all.extend([1, LAST_HOUR].map(|hour| ("hours", hour.to_string())));
    all.extend(["1.1.1", "9999.12.31"].map(|date| ("ends of the calendar", date.to_string())));
    all.extend(["answered", "refused"].map(|what| ("days", what.to_string())));
    all.extend(COUNTS.map(|count| ("day counts", count.to_string())));
    all
}

fn both((first, then): (usize, usize)) -> String {
    format!("{} and {}", PARTS[first], PARTS[then])
}

/// What a scalar that is read as a date shows.
pub fn of_date(scalar: &[u8], answer: &str) -> Vec<Feature> {
    let parts = date::parts(scalar);
    match date::read(scalar) {
        Ok(date) => of_a_date(&parts, date),
        Err(refusal) => {
            let mut found: Vec<Feature> = vec![("dates", answer.trim_end().to_string())];
            let out = out_of_range(&parts);
            if refusal == NO_DATE {
                found.extend(shape(&parts).into_iter().map(|why| ("no date for", why.to_string())));
                let out = out.iter().map(|&(place, _)| PARTS[place].to_string());
                found.extend(out.map(|part| ("no date and out of range", part)));
            } else {
                found.extend(of_range(&parts, &out));
            }
            found
        }
    }
}

/// What a date that is read shows: an hour, zeros in front of parts, and whether it is the last day of its
/// month, or the first or last day of all.
fn of_a_date(parts: &[&[u8]], date: [u32; 5]) -> Vec<Feature> {
    let [year, month, day, hour, _] = date;
    let with = if hour > 0 { "with an hour" } else { "without an hour" };
    let mut found: Vec<Feature> = vec![("dates", with.to_string())];
    let zeros = parts.iter().zip(PARTS).filter(|(part, _)| part[0] == b'0');
    found.extend(zeros.map(|(_, name)| ("zeros in front of", name.to_string())));
    found.extend((day == last_day(month)).then(|| ("last day of month", month.to_string())));
    found.extend([1, LAST_HOUR].contains(&hour).then(|| ("hours", hour.to_string())));
    if [[1, 1, 1], [LAST_YEAR, LAST_MONTH, 31]].contains(&[year, month, day]) {
        found.push(("ends of the calendar", format!("{year}.{month}.{day}")));
    }
    found
}

/// Why parts have not the shape, where there is one reason alone.
fn shape(parts: &[&[u8]]) -> Option<&'static str> {
    let mut why: Vec<&str> = Vec::new();
    why.extend((parts.len() < 3).then_some(FEW));
    why.extend((parts.len() > 4).then_some(MANY));
    why.extend(parts.iter().filter_map(|part| match part {
        [] => Some(EMPTY),
        [b'+' | b'-', digits @ ..] if is_digits(digits) => Some(SIGN),
        _ => (!is_digits(part)).then_some(OTHER),
    }));
    why.dedup();
    if let [why] = why[..] { Some(why) } else { None }
}

/// The largest number that a part in this place may be; of a day where its month is none, 31.
fn most(parts: &[&[u8]], place: usize) -> u32 {
    let month =
        || parts.get(1).filter(|part| is_digits(part)).and_then(|part| within(part, LAST_MONTH));
    match place {
        0 => LAST_YEAR,
        1 => LAST_MONTH,
        2 => month().map_or(31, last_day),
        _ => LAST_HOUR,
    }
}

/// The parts that are digits and out of range, with their places.
fn out_of_range<'p>(parts: &[&'p [u8]]) -> Vec<(usize, &'p [u8])> {
    let placed = parts.iter().copied().enumerate().take(PARTS.len());
    placed
        .filter(|&(place, part)| is_digits(part) && within(part, most(parts, place)).is_none())
        .collect()
}

/// What a date out of range shows: the part that is, or two of them; whether it would be in range in fewer
/// bits; and whether it is the day after a month's last.
fn of_range(parts: &[&[u8]], out: &[(usize, &[u8])]) -> Vec<Feature> {
    let &[(place, part)] = out else {
        let is_out = |place| out.iter().any(|&(other, _)| other == place);
        let pairs = PAIRS.into_iter().filter(|&(first, then)| is_out(first) && is_out(then));
        return pairs.map(|pair| ("both out of range", both(pair))).collect();
    };
    let zero = part.iter().all(|&digit| digit == b'0');
    let what = if zero { "0" } else { "too large" };
    let mut found: Vec<Feature> = vec![("alone out of range", format!("{} {what}", PARTS[place]))];
    let most = most(parts, place);
    let low = part
        .iter()
        .fold(0, |n: u64, &digit| n.wrapping_mul(10).wrapping_add(u64::from(digit - b'0')));
    let in_range = |bits: u32| {
        let left = u128::from(low) % (1 << bits);
        (1..=u128::from(most)).contains(&left)
    };
    let powers = POWERS.into_iter().filter(|&bits| !zero && in_range(bits));
    found.extend(powers.map(|bits| ("out of range but for", format!("2^{bits}"))));
    if place == 2 && within(part, most + 1).is_some() {
        let month = within(parts[1], LAST_MONTH).unwrap_or(0);
        found.push(("day after the last of month", month.to_string()));
    }
    found
}

/// What a day count shows: an answer or none, the first and the last day of a month, and whether the count is
/// one that is looked for.
pub fn of_day(count: u32) -> Vec<Feature> {
    let mut found: Vec<Feature> = Vec::new();
    match date::of(count) {
        Err(_) => found.push(("days", "refused".to_string())),
        Ok([_, month, day]) => {
            found.push(("days", "answered".to_string()));
            found.extend((day == 1).then(|| ("days of months", format!("first of {month}"))));
            let last = day == last_day(month);
            found.extend(last.then(|| ("days of months", format!("last of {month}"))));
        }
    }
    found.extend(COUNTS.contains(&count).then(|| ("day counts", count.to_string())));
    found
}
