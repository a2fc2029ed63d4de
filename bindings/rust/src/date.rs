//! Dates in the calendar of the saves, which has no leap years, and their day counts.

use crate::calls;
use crate::error::DateError;
use std::fmt;
use std::str::FromStr;

/// A day of the calendar, from 1.1.1 to 9999.12.31, and perhaps an hour of it.
///
/// Every year has 365 days, and its months have 31, 28, 31, 30, 31, 30, 31, 31, 30, 31, 30 and 31. A date that there is
/// not cannot be made: [`Scalar::to_date`](crate::Scalar::to_date), `parse` of a `str`, [`new`](Date::new),
/// [`with_hour`](Date::with_hour), [`from_days`](Date::from_days) and [`plus_days`](Date::plus_days) refuse it.
///
/// ```
/// use tackacorn::{Date, DateError, Scalar};
///
/// let start = Scalar::new(b"1936.1.12").to_date()?;
/// let war = Scalar::new(b"1939.9.1.12").to_date()?;
/// assert_eq!((war.year(), war.month(), war.day(), war.hour()), (1939, 9, 1, Some(12)));
/// assert_eq!(start.hour(), None);
/// assert_eq!((start.days(), war.days()), (706_286, 707_613));
/// assert_eq!((start.days_until(war), war.days_until(start)), (1327, -1327));
/// // ninety days on
/// assert_eq!(start.plus_days(90)?.to_string(), "1936.4.12");
/// // and from a count or a `str`
/// assert_eq!(Date::from_days(706_286)?, "1936.1.12".parse()?);
/// # Ok::<(), DateError>(())
/// ```
///
/// # Before you reckon with dates
///
/// - **This is not the world's calendar.** It has no leap years: from 1936.2.28 to 1936.3.1 it is one day. Never hand a
///   count to what reckons by that, nor a count of that to [`from_days`](Date::from_days).
/// - **The hour is left out of the count.** Two dates may differ, and have the same [`days`](Date::days). Dates are
///   ordered by their day, then by their hour, one without an hour before those with one, though nothing is known of
///   which of these is the earlier.
/// - **Zeros in front are read.** `1936.1.12` and `1936.01.012` are the same date: compare dates, never the bytes.
/// - **Counts have no sign.** [`days_until`](Date::days_until) subtracts them in a type that has one.
///
/// ```
/// # use tackacorn::{Date, DateError, Scalar};
/// let date = |bytes: &'static str| Scalar::new(bytes.as_bytes()).to_date();
/// let (morning, night) = (date("1936.1.12.8")?, date("1936.1.12.24")?);
/// assert!(morning < night && morning.days() == night.days());
/// assert_eq!(date("1936.2.28")?.days_until(date("1936.3.1")?), 1);
/// assert_eq!(date("1936.1.12"), date("1936.01.012"));
/// # Ok::<(), DateError>(())
/// ```
#[derive(Clone, Copy, Debug, PartialEq, Eq, PartialOrd, Ord, Hash)]
pub struct Date {
    year: u32,
    month: u32,
    day: u32,
    hour: Option<u32>,
}

/// The hours of a day, from 1 on; the header has no number for it, and a test holds it against the library.
const LAST_HOUR: u32 = 24;

/// An answer's value where it is not refused, else why not.
fn answered<T>((refusal, value): (u32, T)) -> Result<T, DateError> {
    if refusal == 0 { Ok(value) } else { Err(DateError::new(refusal)) }
}

impl Date {
    /// The date that a scalar's bytes are: see [`Scalar::to_date`](crate::Scalar::to_date).
    pub(crate) fn read(scalar: &[u8]) -> Result<Date, DateError> {
        let [year, month, day, hour] = answered(calls::to_date(scalar))?;
        Ok(Date { year, month, day, hour: (hour != 0).then_some(hour) })
    }

    /// The date of these parts, without an hour.
    ///
    /// ```
    /// use tackacorn::{Date, DateError};
    ///
    /// assert_eq!(Date::new(1936, 1, 12).map(Date::days), Ok(706_286));
    /// assert_eq!(Date::new(1936, 2, 29), Err(DateError::OutOfRange));
    /// assert_eq!(Date::new(10_000, 1, 1), Err(DateError::OutOfRange));
    /// ```
    #[inline]
    pub fn new(year: u32, month: u32, day: u32) -> Result<Date, DateError> {
        answered(calls::to_days(year, month, day))?;
        Ok(Date { year, month, day, hour: None })
    }

    /// The same day with this hour, from 1 to 24, whether it had one or not.
    ///
    /// ```
    /// use tackacorn::{Date, DateError};
    ///
    /// let day = Date::new(1936, 1, 12)?;
    /// assert_eq!(day.with_hour(24)?.to_string(), "1936.1.12.24");
    /// assert_eq!(day.with_hour(0), Err(DateError::OutOfRange));
    /// assert_eq!(day.with_hour(25), Err(DateError::OutOfRange));
    /// # Ok::<(), DateError>(())
    /// ```
    #[inline]
    pub fn with_hour(self, hour: u32) -> Result<Date, DateError> {
        if !(1..=LAST_HOUR).contains(&hour) {
            return Err(DateError::OutOfRange);
        }
        Ok(Date { hour: Some(hour), ..self })
    }

    /// The date of a day count, without an hour. Counts above [`LAST_DAY`](crate::LAST_DAY) have none.
    ///
    /// ```
    /// use tackacorn::{Date, DateError, LAST_DAY};
    ///
    /// assert_eq!(Date::from_days(0), Date::new(1, 1, 1));
    /// assert_eq!(Date::from_days(LAST_DAY), Date::new(9999, 12, 31));
    /// assert_eq!(Date::from_days(LAST_DAY + 1), Err(DateError::OutOfRange));
    /// ```
    #[inline]
    pub fn from_days(days: u32) -> Result<Date, DateError> {
        let [year, month, day] = answered(calls::from_days(days))?;
        Ok(Date { year, month, day, hour: None })
    }

    /// The year, from 1 to 9999.
    #[inline]
    pub fn year(self) -> u32 {
        self.year
    }

    /// The month, from 1 to 12.
    #[inline]
    pub fn month(self) -> u32 {
        self.month
    }

    /// The day of the month, from 1 on.
    #[inline]
    pub fn day(self) -> u32 {
        self.day
    }

    /// The hour, from 1 to 24, where there is one.
    #[inline]
    pub fn hour(self) -> Option<u32> {
        self.hour
    }

    /// The day count: how many days it is behind 1.1.1, which is day 0. The hour has no part in it.
    #[inline]
    pub fn days(self) -> u32 {
        let count = answered(calls::to_days(self.year, self.month, self.day));
        count.expect("every date that there is has a count")
    }

    /// How many days it is until another date, below 0 where that is the earlier. Hours have no part in it.
    #[inline]
    pub fn days_until(self, other: Date) -> i64 {
        i64::from(other.days()) - i64::from(self.days())
    }

    /// The date so many days on, or back where they are below 0, with the same hour or none. Past either end of the
    /// calendar there is no date.
    ///
    /// ```
    /// use tackacorn::{Date, DateError};
    ///
    /// let start = Date::new(1936, 1, 12)?;
    /// assert_eq!(start.plus_days(90), Date::new(1936, 4, 12));
    /// assert_eq!(start.plus_days(-12), Date::new(1935, 12, 31));
    /// assert_eq!(Date::new(1, 1, 1)?.plus_days(-1), Err(DateError::OutOfRange));
    /// assert_eq!(Date::new(9999, 12, 31)?.plus_days(1), Err(DateError::OutOfRange));
    /// # Ok::<(), DateError>(())
    /// ```
    #[inline]
    pub fn plus_days(self, days: i64) -> Result<Date, DateError> {
        let sum = i64::from(self.days()).checked_add(days);
        let count = sum.and_then(|sum| u32::try_from(sum).ok()).ok_or(DateError::OutOfRange)?;
        let date = Date::from_days(count)?;
        Ok(Date { hour: self.hour, ..date })
    }
}

impl FromStr for Date {
    type Err = DateError;

    /// As [`Scalar::to_date`](crate::Scalar::to_date) reads the bytes.
    #[inline]
    fn from_str(scalar: &str) -> Result<Date, DateError> {
        Date::read(scalar.as_bytes())
    }
}

impl fmt::Display for Date {
    /// As a save has it, without zeros in front: `1936.1.12`, and with an hour `1936.1.12.24`.
    fn fmt(&self, f: &mut fmt::Formatter<'_>) -> fmt::Result {
        write!(f, "{}.{}.{}", self.year, self.month, self.day)?;
        match self.hour {
            Some(hour) => write!(f, ".{hour}"),
            None => Ok(()),
        }
    }
}
