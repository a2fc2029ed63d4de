//! Dates at their edges, and every day that there is, both ways. The Rust that this crate is held against elsewhere has
//! nothing of dates in the files at hand, so that they are held against a plain list of months here.

use tackacorn::{Date, DateError, LAST_DAY, Scalar};

const MONTHS: [u32; 12] = [31, 28, 31, 30, 31, 30, 31, 31, 30, 31, 30, 31];

fn date(bytes: &str) -> Result<Date, DateError> {
    Scalar::new(bytes.as_bytes()).to_date()
}

/// Every date of the calendar in its order.
fn calendar() -> impl Iterator<Item = (u32, u32, u32)> {
    (1..=9999).flat_map(|year| {
        let months = (1..).zip(MONTHS);
        months.flat_map(move |(month, days)| (1..=days).map(move |day| (year, month, day)))
    })
}

/// The day count of a date, by the list of months.
fn reckoned(date: Date) -> u32 {
    let before = &MONTHS[..date.month() as usize - 1];
    365 * (date.year() - 1) + before.iter().sum::<u32>() + date.day() - 1
}

#[test]
fn every_day_both_ways() {
    let mut count = 0;
    for (year, month, day) in calendar() {
        let date = Date::new(year, month, day).unwrap();
        assert_eq!((date.year(), date.month(), date.day(), date.hour()), (year, month, day, None));
        assert_eq!(date.days(), count);
        assert_eq!(Date::from_days(count), Ok(date));
        count += 1;
    }
    assert_eq!(count, LAST_DAY + 1);
}

/// What a date prints is read as the same date, with each hour and without one; later ones are larger.
#[test]
fn a_date_is_read_as_it_prints() {
    let mut before = None;
    for (year, month, day) in calendar().step_by(97) {
        for hour in 0..=24 {
            let written = match hour {
                0 => format!("{year}.{month}.{day}"),
                hour => format!("{year}.{month}.{day}.{hour}"),
            };
            let read = date(&written).unwrap();
            assert_eq!(read.to_string(), written);
            assert_eq!((read.hour().unwrap_or(0), read.days()), (hour, reckoned(read)));
            assert!(before < Some(read), "{written} is the later");
            before = Some(read);
        }
    }
}

/// Scalars of another shape, between blanks.
const OTHER_SHAPES: &str = "\
    . .. ... x 1936 1936. 1936.1 1.1. 1..1 .1.1 1.1.1. 1.1.1..1 1.1.1.1. 1.1.1.1.1 \
    -1.1.1 +1.1.1 1.-1.1 1.1.+1 1.1.1.-1 1.-.1 1.1.1x 1.x.1 1,1,1 1/1/1 1:1:1 1.1.1/ 1.1.1: 1.1.\u{e9} \
    0.1.x 10000.1. 1.13.x 1.2.29. 1.1.1.25x 0.0.0.0.0 99999999999999999999.1.x 1.99999999999999999999";

/// Scalars with a part out of range, some of them in range modulo a power of two.
const OUT_OF_RANGE: &str = "\
    0.1.1 0000.1.1 10000.1.1 1.0.1 1.13.1 1.1.0 1.1.32 1.2.29 4.2.29 2000.2.29 1.4.31 1.1.1.0 1.1.1.25 \
    9999.12.32 0.0.0.0 65537.1.1 1.257.1 1.1.257 1.1.1.257 4294967297.1.1 1.1.4294967297 \
    18446744073709551617.1.1 1.1.1.18446744073709551617 99999999999999999999.1.1 \
    1.99999999999999999999.1 1.1.99999999999999999999 1.1.1.99999999999999999999";

/// The shape comes before the range: of some of these a part is out of it, too.
#[test]
fn scalars_that_are_no_date() {
    for bytes in OTHER_SHAPES.split(' ').chain(["", " 1.1.1", "1.1.1 ", "1.1. 1", "1.1.1\0"]) {
        assert_eq!(date(bytes), Err(DateError::NotADate), "{bytes}");
    }
    for bytes in OUT_OF_RANGE.split(' ') {
        assert_eq!(date(bytes), Err(DateError::OutOfRange), "{bytes}");
    }
}

#[test]
fn parts_and_counts_that_are_no_date() {
    let refused = |year, month, day| {
        assert_eq!(Date::new(year, month, day), Err(DateError::OutOfRange));
    };
    for (month, days) in (1..).zip(MONTHS) {
        for year in [1, 4, 1936, 2000, 9999] {
            assert!(Date::new(year, month, days).is_ok());
            refused(year, month, days + 1);
            refused(year, month, 0);
        }
    }
    [0, 10_000, 65_537, u32::MAX].into_iter().for_each(|year| refused(year, 1, 1));
    [0, 13, 257, 65_537, u32::MAX].into_iter().for_each(|month| refused(1, month, 1));
    [0, 32, 257, 65_537, u32::MAX].into_iter().for_each(|day| refused(1, 1, day));
    for days in [LAST_DAY + 1, LAST_DAY + 365, 1 << 31, u32::MAX] {
        assert_eq!(Date::from_days(days), Err(DateError::OutOfRange));
    }
}

/// Every hour that the library reads can be given to a date, and no other.
#[test]
fn hours_given_to_a_date() {
    let (day, last) = (date("1936.1.12").unwrap(), date("1936.1.12.24").unwrap());
    for hour in (0..=300).chain([65_537, 1 << 31, u32::MAX]) {
        let read = date(&format!("1936.1.12.{hour}"));
        assert_eq!((day.with_hour(hour), last.with_hour(hour)), (read, read), "{hour}");
    }
    assert_eq!(day.with_hour(24), Ok(last));
    let first = day.with_hour(1).unwrap();
    assert!(day < first && first < last);
}

/// A `str` is read as its bytes are as a scalar.
#[test]
fn a_str_is_read_as_a_scalar() {
    let dates = ["1936.1.12", "1936.01.012.024", "9999.12.31", "1.1.1.1"];
    let others = ["", " 1.1.1", "1.1.1 ", "1.1.\u{e9}"];
    let all = dates.into_iter().chain(OTHER_SHAPES.split(' ')).chain(OUT_OF_RANGE.split(' '));
    for bytes in all.chain(others) {
        assert_eq!(bytes.parse(), date(bytes), "{bytes}");
    }
}

/// Days on and back, to either end of the calendar and past it, with the hour that there was.
#[test]
fn days_on_and_back() {
    let all = i64::from(LAST_DAY);
    let (first, last) = (date("1.1.1").unwrap(), date("9999.12.31").unwrap());
    assert_eq!((first.plus_days(all), last.plus_days(-all)), (Ok(last), Ok(first)));
    let out = Err(DateError::OutOfRange);
    for past in [1, 2, 365, all, 1 << 31, 1 << 32, (1 << 32) + 1, i64::MAX - all] {
        assert_eq!((first.plus_days(-past), first.plus_days(all + past)), (out, out), "{past}");
        assert_eq!((last.plus_days(past), last.plus_days(-all - past)), (out, out), "{past}");
    }
    for far in [i64::MIN, i64::MIN + 1, i64::MAX] {
        assert_eq!((first.plus_days(far), last.plus_days(far)), (out, out));
    }
    let night = date("1936.2.28.24").unwrap();
    assert_eq!((night.plus_days(0), night.plus_days(1)), (Ok(night), date("1936.3.1.24")));
    for (year, month, day) in calendar().step_by(997) {
        let to = Date::new(year, month, day).unwrap();
        assert_eq!(night.plus_days(night.days_until(to)), to.with_hour(24));
    }
}

#[test]
fn zeros_hours_and_days_between() {
    let zeros = "0".repeat(1000);
    let read = date(&format!("{zeros}1936.{zeros}1.{zeros}12.{zeros}24")).unwrap();
    assert_eq!((read.to_string().as_str(), read.days()), ("1936.1.12.24", 706_286));
    assert_eq!(Date::from_days(read.days()), date("1936.1.12"), "the count has no hour");
    let (first, last) = (date("1.1.1.24").unwrap(), date("9999.12.31.1").unwrap());
    let all = i64::from(LAST_DAY);
    assert_eq!((first.days_until(last), last.days_until(first)), (all, -all));
    let (no_hour, next) = (date("1.1.1").unwrap(), date("1.1.2").unwrap());
    assert_eq!((first.days_until(no_hour), first.days_until(next)), (0, 1));
    assert!(no_hour < first && first < next);
}
