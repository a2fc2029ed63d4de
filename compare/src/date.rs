//! Request W8 read from its own words: a date's parts between points, held against their ranges as they
//! are written, and a calendar that is walked day by day. It stands beside the Rust, whose dates
//! (`common/date`) are not in the copy. With the dates of the model it shares nothing but the paper's
//! numbers.

use crate::numbers::*;
use crate::record::{Dated, Day};
use std::iter;
use std::sync::LazyLock;

// ---- The shape ----

/// What stands between the points, whatever it is.
pub fn parts(scalar: &[u8]) -> Vec<&[u8]> {
    scalar.split(|&byte| byte == b'.').collect()
}

/// Whether a part is digits, at least one, and nothing else.
pub fn is_digits(part: &[u8]) -> bool {
    !part.is_empty() && part.iter().all(u8::is_ascii_digit)
}

/// Whether these are a date's parts: year, month and day, or an hour with them.
fn has_shape(parts: &[&[u8]]) -> bool {
    matches!(parts.len(), 3 | 4) && parts.iter().all(|part| is_digits(part))
}

// ---- The ranges ----

/// The days of the months, January first. No year has others.
const MONTHS: [u32; 12] = [31, 28, 31, 30, 31, 30, 31, 31, 30, 31, 30, 31];

pub const LAST_MONTH: u32 = MONTHS.len() as u32;

/// The last day of a month, which is from 1 to 12.
pub fn last_day(month: u32) -> u32 {
    MONTHS[month as usize - 1]
}

/// The number of a part that is digits, where it is from 1 to `most`. It is compared as it is written, so
/// that none is too long.
pub fn within(part: &[u8], most: u32) -> Option<u32> {
    let zeros = part.iter().take_while(|&&digit| digit == b'0').count();
    let digits = &part[zeros..];
    let most = most.to_string();
    let fits = !digits.is_empty() && (digits.len(), digits) <= (most.len(), most.as_bytes());
    fits.then(|| std::str::from_utf8(digits).expect("digits").parse().expect("a small number"))
}

/// The date of parts that have the shape, where each is in range.
fn in_range(parts: &[&[u8]]) -> Option<[u32; 5]> {
    let year = within(parts[0], LAST_YEAR)?;
    let month = within(parts[1], LAST_MONTH)?;
    let day = within(parts[2], last_day(month))?;
    let hour = match parts.get(3) {
        Some(hour) => within(hour, LAST_HOUR)?,
        None => 0,
    };
    Some([year, month, day, hour, count(year, month, day)?])
}

/// A scalar's date with its day count. The shape of the whole is looked at first.
pub fn read(scalar: &[u8]) -> Dated {
    let parts = parts(scalar);
    if has_shape(&parts) { in_range(&parts).ok_or(OUT_OF_RANGE) } else { Err(NO_DATE) }
}

// ---- The calendar ----

/// A year, a month and a day, in the order in which they are compared.
#[derive(Clone, Copy, PartialEq, Eq, PartialOrd, Ord)]
struct Date(u16, u8, u8);

/// The day after a date, while there is one.
fn next(Date(year, month, day): Date) -> Option<Date> {
    if u32::from(day) < last_day(month.into()) {
        Some(Date(year, month, day + 1))
    } else if u32::from(month) < LAST_MONTH {
        Some(Date(year, month + 1, 1))
    } else {
        (u32::from(year) < LAST_YEAR).then(|| Date(year + 1, 1, 1))
    }
}

/// All days from 1.1.1 on, each at the place that is its count.
static CALENDAR: LazyLock<Vec<Date>> =
    LazyLock::new(|| iter::successors(Some(Date(1, 1, 1)), |&date| next(date)).collect());

/// The count of a date, where the calendar has it: its place, which is looked for by the order of dates.
pub fn count(year: u32, month: u32, day: u32) -> Option<u32> {
    let date = Date(year.try_into().ok()?, month.try_into().ok()?, day.try_into().ok()?);
    CALENDAR.binary_search(&date).ok().map(|place| place as u32)
}

/// The date of a day count.
pub fn of(count: u32) -> Day {
    let &Date(year, month, day) = CALENDAR.get(count as usize).ok_or(OUT_OF_RANGE)?;
    Ok([year.into(), month.into(), day.into()])
}
