//! Request W8's dates as wrong programs have them: what each reads for the scalar that was asked, and what it
//! makes of the model's answer, which stands where there is no fault.

use crate::model;
use crate::model_date::{self, DAYS_BEFORE, Parts};
use crate::numbers::*;
use crate::record::{Dated, Day};

/// What a wrong program does otherwise.
#[derive(Clone, Copy, Debug, PartialEq, Eq)]
pub enum Fault {
    // -- what has the shape --
    /// Takes a plus before a part.
    PlusTaken,
    /// Reads a part with a minus, and finds it out of range.
    MinusRead,
    /// Takes an empty part for 0, which is out of range.
    EmptyPartIsZero,
    /// Passes over empty parts.
    EmptyPartDropped,
    /// Takes a point in front.
    PointInFrontTaken,
    /// Takes a point behind the last part.
    ClosingPointTaken,
    /// Takes a date with a fifth part, which it does not look at.
    FivePartsTaken,
    /// Takes a year and a month for the month's first day.
    TwoPartsTaken,
    /// Refuses a date without an hour.
    HourWanted,
    /// Refuses a date with an hour.
    HourRefused,
    /// Takes what stands behind the last part's digits.
    RestTaken,
    /// Takes blanks about a date.
    BlanksTaken,
    /// Refuses zeros in front of a part.
    ZerosRefused,
    /// Takes the byte before `0` for a digit.
    SlashIsADigit,
    /// Takes the byte behind `9` for a digit.
    ColonIsADigit,
    /// Takes this byte for a point.
    IsAPoint(u8),
    /// Does not look at the high bit of a byte.
    HighBitDropped,
    // -- which refusal --
    /// Answers 52 where a part in front of what has not the shape is out of range.
    RangeBeforeShape,
    /// Answers 52 where such a part is too large for W7's number.
    OverflowBeforeShape,
    /// Answers 51 where a part is too large for W7's number.
    OverflowIsNoDate,
    /// Answers 51 for 52.
    RangeIsNoDate,
    // -- the ranges --
    /// Takes this number for the part in this place.
    Takes(usize, u32),
    /// Refuses this number for the part in this place.
    Refuses(usize, u32),
    /// Takes a day more in this month.
    Longer(u32),
    /// Refuses the last day of this month.
    Shorter(u32),
    /// Takes February 29 in every fourth year.
    LeapYears,
    /// Takes 31 days in every month.
    EveryMonthOf31,
    /// Goes by how many digits there are, zeros in front among them.
    DigitsCounted,
    /// Gathers the digits modulo a power of two; in 8 bits those of a year are not.
    Modulo(u32),
    // -- what is told --
    /// Reads the day before the month.
    DayBeforeMonth,
    /// Tells hour 1 where no hour stands.
    HourMissingIsOne,
    /// Counts from 1.
    CountFromOne,
    /// Counts from a year 0.
    CountFromYearZero,
    /// Counts hour 24 to the next day.
    HourCounted,
    /// Counts a leap day for each fourth year that is over.
    LeapDaysCounted,
    /// Counts 29 days for February.
    FebruaryOf29,
    /// Counts 30 days for each month that is over.
    MonthsOf30,
    // -- the way back --
    /// Refuses the last day.
    BackLastRefused,
    /// Answers one day past the last.
    BackOneOverTaken,
    /// Begins anew past the last day.
    BackBeginsAnew,
    /// Takes a count with its highest bit set for one below 0, and that for day 0.
    BackSigned,
    /// Looks at the last three bytes of the count alone.
    BackOfThreeBytes,
    /// Takes the smallest byte of the count first.
    BackLittleEndian,
    /// Takes 1 for the first day, and refuses 0.
    BackFromOne,
    /// Takes a leap day for each fourth year.
    BackLeapDays,
    /// Takes 30 days for each month.
    BackMonthsOf30,
    /// Tells a month's first day as one day more of the month before.
    BackFirstIsLast,
    /// Tells the years from 0.
    BackYearFromZero,
    /// Tells the days of a month from 0.
    BackDayFromZero,
    /// Tells the day before the month.
    BackDayBeforeMonth,
}

/// The largest number that W7 reads.
const MOST_READ: u128 = i64::MAX as u128;

/// How many digits the parts have where none is a zero in front.
const MOST_DIGITS: [usize; 4] = [4, 2, 2, 2];

/// A scalar's date.
pub fn read(scalar: &[u8], fault: Option<Fault>) -> Dated {
    let Some(fault) = fault else { return model_date::read(scalar) };
    let taken = instead_of_the_scalar(fault, scalar);
    match model_date::read(&taken) {
        Ok(date) => instead_of_a_date(fault, &taken, date),
        Err(NO_DATE) => instead_of_no_date(fault, scalar),
        Err(refusal) => instead_of_no_range(fault, scalar, refusal),
    }
}

// ---- What is read ----

/// The scalar that a wrong program takes another for.
fn instead_of_the_scalar(fault: Fault, scalar: &[u8]) -> Vec<u8> {
    let mut taken: Vec<u8> = scalar.iter().map(|&byte| instead_of_a_byte(fault, byte)).collect();
    if fault == Fault::BlanksTaken {
        taken = taken.trim_ascii().to_vec();
    }
    let split = taken.split(|&byte| byte == b'.');
    let mut parts: Vec<Vec<u8>> =
        split.enumerate().map(|(place, part)| instead_of_a_part(fault, place, part)).collect();
    let last = parts.len() - 1;
    match fault {
        Fault::EmptyPartDropped => parts.retain(|part| !part.is_empty()),
        Fault::PointInFrontTaken if parts[0].is_empty() => drop(parts.remove(0)),
        Fault::ClosingPointTaken if parts[last].is_empty() => drop(parts.pop()),
        Fault::FivePartsTaken => parts.truncate(MOST_DIGITS.len()),
        Fault::TwoPartsTaken if last == 1 => parts.push(b"1".to_vec()),
        Fault::RestTaken => {
            let digits = parts[last].iter().take_while(|byte| byte.is_ascii_digit()).count();
            parts[last].truncate(digits);
        }
        Fault::DayBeforeMonth if last >= 2 => parts.swap(1, 2),
        _ => {}
    }
    parts.join(&b'.')
}

fn instead_of_a_byte(fault: Fault, byte: u8) -> u8 {
    match (fault, byte) {
        (Fault::SlashIsADigit, b'/') => b'0',
        (Fault::ColonIsADigit, b':') => b'9',
        (Fault::IsAPoint(point), _) if byte == point => b'.',
        (Fault::HighBitDropped, _) => byte & 0x7f,
        _ => byte,
    }
}

fn instead_of_a_part(fault: Fault, place: usize, part: &[u8]) -> Vec<u8> {
    match (fault, part) {
        (Fault::PlusTaken, [b'+', digits @ ..]) => digits.to_vec(),
        (Fault::MinusRead, [b'-', digits @ ..]) if is_digits(digits) => b"0".to_vec(),
        (Fault::EmptyPartIsZero, []) => b"0".to_vec(),
        (Fault::Modulo(bits), _) if is_digits(part) && (place, bits) != (0, 8) => {
            let gathered = u128::from(model::gathered(part));
            (gathered % (1 << bits)).to_string().into_bytes()
        }
        _ => part.to_vec(),
    }
}

fn is_digits(part: &[u8]) -> bool {
    !part.is_empty() && part.iter().all(u8::is_ascii_digit)
}

// ---- What is made of the model's answer ----

/// What a wrong program makes of a scalar that is a date.
fn instead_of_a_date(fault: Fault, scalar: &[u8], date: [u32; 5]) -> Dated {
    let [year, month, day, hour, count] = date;
    let counted = |count| Ok([year, month, day, hour, count]);
    let mut parts = scalar.split(|&byte| byte == b'.');
    match fault {
        Fault::HourWanted if hour == 0 => Err(NO_DATE),
        Fault::HourRefused if hour > 0 => Err(NO_DATE),
        Fault::ZerosRefused if parts.any(|part| part[0] == b'0') => Err(NO_DATE),
        Fault::DigitsCounted if parts.zip(MOST_DIGITS).any(|(part, most)| part.len() > most) => {
            Err(OUT_OF_RANGE)
        }
        Fault::Refuses(place, number) if date[place] == number => Err(OUT_OF_RANGE),
        Fault::Shorter(short) if month == short && day == last_day(month) => Err(OUT_OF_RANGE),
        Fault::HourMissingIsOne if hour == 0 => Ok([year, month, day, 1, count]),
        Fault::CountFromOne => counted(count + 1),
        Fault::CountFromYearZero => counted(count + YEAR_DAYS),
        Fault::HourCounted if hour == LAST_HOUR => counted(count + 1),
        Fault::LeapDaysCounted => counted(count + (year - 1) / 4),
        Fault::FebruaryOf29 if month > 2 => counted(count + 1),
        Fault::MonthsOf30 => counted((year - 1) * YEAR_DAYS + 30 * (month - 1) + day - 1),
        _ => Ok(date),
    }
}

/// What a wrong program makes of a scalar that has not the shape: the parts in front of what has not are
/// looked at.
fn instead_of_no_date(fault: Fault, scalar: &[u8]) -> Dated {
    let most = [LAST_YEAR, 12, 31, LAST_HOUR];
    let parts = scalar.split(|&byte| byte == b'.').take_while(|part| is_digits(part));
    let mut numbers = parts.map(model::number).zip(most);
    let range_first = match fault {
        Fault::RangeBeforeShape => {
            numbers.any(|(number, most)| number == 0 || number > u128::from(most))
        }
        Fault::OverflowBeforeShape => numbers.any(|(number, _)| number > MOST_READ),
        _ => false,
    };
    Err(if range_first { OUT_OF_RANGE } else { NO_DATE })
}

/// What a wrong program makes of a scalar with a part out of range.
fn instead_of_no_range(fault: Fault, scalar: &[u8], refusal: u8) -> Dated {
    let Ok(parts) = model_date::parts(scalar) else { return Err(refusal) };
    let Parts { year, month, day, hour } = parts;
    let in_february = month == 2 && year.is_multiple_of(4);
    let mut digits = scalar.split(|&byte| byte == b'.');
    match fault {
        Fault::OverflowIsNoDate if digits.any(|part| model::number(part) > MOST_READ) => {
            Err(NO_DATE)
        }
        Fault::RangeIsNoDate => Err(NO_DATE),
        Fault::Takes(0, number) if year == number => {
            taken(parts, Parts { year: beside(number), ..parts })
        }
        Fault::Takes(1, number) if month == number => {
            taken(parts, Parts { month: beside(number), ..parts })
        }
        Fault::Takes(2, number) if day == number => {
            taken(parts, Parts { day: beside(number), ..parts })
        }
        Fault::Takes(3, number) if hour == Some(number) => {
            taken(parts, Parts { hour: Some(beside(number)), ..parts })
        }
        Fault::Longer(long) if month == long && day == last_day(month) + 1 => {
            taken(parts, Parts { day: beside(day), ..parts })
        }
        Fault::LeapYears if in_february && day == 29 => taken(parts, Parts { day: 28, ..parts }),
        Fault::EveryMonthOf31 if (29..=31).contains(&day) => {
            taken(parts, Parts { day: 28, ..parts })
        }
        _ => Err(refusal),
    }
}

/// The number in range that is beside this one, which is not.
fn beside(number: u32) -> u32 {
    if number == 0 { 1 } else { number - 1 }
}

/// A date that is taken, with the count of another that is in range, where that is one.
fn taken(parts: Parts, instead: Parts) -> Dated {
    let Parts { year, month, day, hour } = parts;
    let [.., count] = model_date::dated(instead)?;
    Ok([year, month, day, hour.unwrap_or(0), count])
}

/// The last day of a month that is one.
fn last_day(month: u32) -> u32 {
    DAYS_BEFORE[month as usize] - DAYS_BEFORE[month as usize - 1]
}

// ---- The way back ----

/// The date of a day count.
pub fn of(count: u32, fault: Option<Fault>) -> Day {
    let right = model_date::from_days(count);
    match (fault, right) {
        (None, _) => right,
        (Some(Fault::BackLittleEndian), _) => model_date::from_days(count.swap_bytes()),
        (Some(Fault::BackFromOne), _) => {
            model_date::from_days(count.checked_sub(1).ok_or(OUT_OF_RANGE)?)
        }
        (Some(fault), Ok(date)) => instead_of_a_day(fault, count, date),
        (Some(fault), Err(refusal)) => instead_of_no_day(fault, count, refusal),
    }
}

/// What a wrong program makes of a count in range.
fn instead_of_a_day(fault: Fault, count: u32, date: [u32; 3]) -> Day {
    let [year, month, day] = date;
    let within = count % YEAR_DAYS;
    match fault {
        Fault::BackLastRefused if count == LAST_COUNT => Err(OUT_OF_RANGE),
        Fault::BackLeapDays => model_date::from_days(count - count / (4 * YEAR_DAYS + 1)),
        Fault::BackMonthsOf30 => Ok([year, within / 30 + 1, within % 30 + 1]),
        Fault::BackFirstIsLast if day == 1 && month > 1 => {
            Ok([year, month - 1, last_day(month - 1) + 1])
        }
        Fault::BackYearFromZero => Ok([year - 1, month, day]),
        Fault::BackDayFromZero => Ok([year, month, day - 1]),
        Fault::BackDayBeforeMonth => Ok([year, day, month]),
        _ => Ok(date),
    }
}

/// What a wrong program makes of a count past the last day.
fn instead_of_no_day(fault: Fault, count: u32, refusal: u8) -> Day {
    match fault {
        Fault::BackOneOverTaken if count == LAST_COUNT + 1 => Ok([LAST_YEAR + 1, 1, 1]),
        Fault::BackBeginsAnew => model_date::from_days(count % (LAST_COUNT + 1)),
        Fault::BackSigned if count >= 1 << 31 => model_date::from_days(0),
        Fault::BackOfThreeBytes => model_date::from_days(count % (1 << 24)),
        _ => Err(refusal),
    }
}
