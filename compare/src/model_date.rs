//! Request W8 as a plain program, for the model: a scalar's bytes one after another with numbers that stop
//! at the largest, and day counts by the days before each month. It is written from the paper, and has
//! nothing of the calendar that it is held against.

use crate::numbers::*;
use crate::record::{Dated, Day};

/// How many days of a year are before each month, and before the next year.
pub const DAYS_BEFORE: [u32; 13] = [0, 31, 59, 90, 120, 151, 181, 212, 243, 273, 304, 334, 365];

/// The numbers of a date's parts, and whether the fourth stood there. One that is too large for its word is
/// the largest of all, which is in no range.
#[derive(Clone, Copy)]
pub struct Parts {
    pub year: u32,
    pub month: u32,
    pub day: u32,
    pub hour: Option<u32>,
}

/// The parts of a scalar that has the shape, or 51.
pub fn parts(scalar: &[u8]) -> Result<Parts, u8> {
    let mut numbers = [0_u32; 4];
    let mut part = 0;
    let mut digit_seen = false;
    for &byte in scalar {
        match byte {
            b'0'..=b'9' => {
                let digit = u32::from(byte - b'0');
                numbers[part] = numbers[part].saturating_mul(10).saturating_add(digit);
                digit_seen = true;
            }
            b'.' if digit_seen && part < 3 => {
                part += 1;
                digit_seen = false;
            }
            _ => return Err(NO_DATE),
        }
    }
    if part < 2 || !digit_seen {
        return Err(NO_DATE);
    }
    let [year, month, day, hour] = numbers;
    Ok(Parts { year, month, day, hour: (part == 3).then_some(hour) })
}

/// The date of these parts with its day count, or 52.
pub fn dated(parts: Parts) -> Dated {
    let Parts { year, month, day, hour } = parts;
    let count = to_days(year, month, day)?;
    match hour {
        None => Ok([year, month, day, 0, count]),
        Some(hour @ 1..=LAST_HOUR) => Ok([year, month, day, hour, count]),
        Some(_) => Err(OUT_OF_RANGE),
    }
}

pub fn read(scalar: &[u8]) -> Dated {
    dated(parts(scalar)?)
}

/// The day count of a date that a caller put together.
pub fn to_days(year: u32, month: u32, day: u32) -> Result<u32, u8> {
    if !(1..=LAST_YEAR).contains(&year) || !(1..=12).contains(&month) {
        return Err(OUT_OF_RANGE);
    }
    let (before, through) = (DAYS_BEFORE[month as usize - 1], DAYS_BEFORE[month as usize]);
    if day < 1 || day > through - before {
        return Err(OUT_OF_RANGE);
    }
    Ok((year - 1) * YEAR_DAYS + before + day - 1)
}

/// The date of a day count.
pub fn from_days(count: u32) -> Day {
    if count > LAST_COUNT {
        return Err(OUT_OF_RANGE);
    }
    let (year, within) = (count / YEAR_DAYS + 1, count % YEAR_DAYS);
    let month = DAYS_BEFORE.iter().filter(|&&before| before <= within).count();
    Ok([year, month as u32, within - DAYS_BEFORE[month - 1] + 1])
}
