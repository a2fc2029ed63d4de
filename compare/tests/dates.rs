//! Request W8: both readings of it against the answers that its words give and against each other, over short
//! scalars, many others and every day; what holds of every date, with the Rust's inner routine for its parts,
//! on which the request builds; and the faults that its cases must find by themselves.

use compare::numbers::*;
use compare::pipe::from_hex;
use compare::record::{Question, Record};
use compare::rng::Rng;
use compare::standin::{self, FAULTS, Wrong};
use compare::{date, date_edges, dates, model_date, oracle};

#[test]
fn the_edges_have_their_answers() {
    for (record, told) in date_edges::cases() {
        let shown = String::from_utf8_lossy(&record.body);
        assert_eq!(record.answered_by(oracle::answer), told, "beside the Rust: {shown:?}");
        assert_eq!(record.answered_by(standin::answering(None)), told, "the model: {shown:?}");
    }
}

/// The paper's own records in hex, and one for each other form of an answer.
const RECORDS: [(&str, &str); 7] = [
    ("440000000c313933362e312e31322e3234", "=1936 1 12 24 706286\n"),
    ("4400000009313933362e312e3132", "=1936 1 12 0 706286\n"),
    ("4400000000", "51\n"),
    ("4400000005302e312e31", "52\n"),
    ("590000000400000000", "=1 1 1\n"),
    ("59000000040037b062", "=9999 12 31\n"),
    ("59000000040037b063", "refused 52\n"),
];

#[test]
fn records_and_answers_to_the_byte() {
    for (record, told) in RECORDS {
        let bytes = from_hex(record).expect("hex");
        let body = bytes[5..].to_vec();
        let record = match bytes[0] {
            b'D' => Record::date(body),
            _ => Record::day(u32::from_be_bytes(body.try_into().expect("four bytes"))),
        };
        assert_eq!(record.bytes(), bytes);
        assert_eq!(record.answered_by(oracle::answer), told);
        assert_eq!(record.answered_by(standin::answering(None)), told);
    }
}

/// The capacity is ignored.
#[test]
fn any_capacity_will_do() {
    let record = Record { capacity: u16::MAX, ..Record::date(b"1.1.1".to_vec()) };
    assert!(matches!(record.question(), Some(Question::Date { scalar: b"1.1.1" })));
    assert_eq!(record.answered_by(oracle::answer), "=1 1 1 0 0\n");
    let record = Record { capacity: u16::MAX, ..Record::day(31) };
    assert!(matches!(record.question(), Some(Question::Day { count: 31 })));
    assert_eq!(record.answered_by(oracle::answer), "=1 2 1\n");
}

/// A day count has four bytes, and else the record is bad.
#[test]
fn a_count_has_four_bytes() {
    for length in 0..20 {
        let record = Record { body: vec![0; length], ..Record::day(0) };
        assert_eq!(record.question().is_some(), length == 4);
    }
}

// ---- What holds of every scalar ----

/// The number of a part that is too large for W7: it is in no range.
const TOO_LARGE: i64 = i64::MAX;

/// The request once more, on the Rust's own leading number: a part begins with a digit, its number is W7's, and
/// a point or the end is behind it. W7 tells no rest of a number that is too large, so its digits are passed here.
fn by_leading_numbers(scalar: &[u8]) -> Result<Vec<i64>, u8> {
    let mut numbers = Vec::new();
    let mut left = scalar;
    loop {
        if !left.first().is_some_and(u8::is_ascii_digit) {
            return Err(NO_DATE);
        }
        let (number, rest) = match oracle::leading(left) {
            Ok((number, rest)) => (number, &left[left.len() - rest..]),
            Err(_) => {
                let digits = left.iter().take_while(|byte| byte.is_ascii_digit()).count();
                (TOO_LARGE, &left[digits..])
            }
        };
        numbers.push(number);
        match rest {
            [] => break,
            [b'.', rest @ ..] => left = rest,
            _ => return Err(NO_DATE),
        }
    }
    if matches!(numbers.len(), 3 | 4) { Ok(numbers) } else { Err(NO_DATE) }
}

/// The readings agree, and with the Rust's leading numbers; a date is written again without zeros and reads the
/// same, its count leaves the hour out and leads back. The place of its answer: 0 for a date, 1 or 2 for 51 and 52.
fn try_scalar(scalar: &[u8]) -> usize {
    let (told, shown) = (date::read(scalar), String::from_utf8_lossy(scalar));
    assert_eq!(model_date::read(scalar), told, "the model: {shown:?}");
    let numbers = by_leading_numbers(scalar);
    match told {
        Err(NO_DATE) => {
            assert_eq!(numbers, Err(NO_DATE), "{shown:?}");
            1
        }
        Err(refusal) => {
            assert_eq!(refusal, OUT_OF_RANGE, "{shown:?}");
            assert!(numbers.is_ok(), "{shown:?}");
            2
        }
        Ok([year, month, day, hour, count]) => {
            let mut parts = [year, month, day].map(i64::from).to_vec();
            parts.extend((hour > 0).then_some(i64::from(hour)));
            let again = parts.iter().map(i64::to_string).collect::<Vec<_>>().join(".");
            assert_eq!(numbers, Ok(parts), "{shown:?}");
            assert_eq!(date::read(again.as_bytes()), told, "{shown:?}");
            assert_eq!(date::of(count), Ok([year, month, day]), "{shown:?}");
            assert_eq!(model_date::from_days(count), Ok([year, month, day]), "{shown:?}");
            0
        }
    }
}

/// A day count is told alike by both, and in both the count of the date that is told is this one.
fn try_count(count: u32) {
    let told = date::of(count);
    assert_eq!(model_date::from_days(count), told, "{count}");
    match told {
        Ok([year, month, day]) => {
            assert!(count <= LAST_COUNT, "{count}");
            assert_eq!(date::count(year, month, day), Some(count));
            assert_eq!(model_date::to_days(year, month, day), Ok(count));
        }
        Err(refusal) => assert_eq!((refusal, count > LAST_COUNT), (OUT_OF_RANGE, true), "{count}"),
    }
}

/// Each answer came, over these records.
fn try_all(records: impl Iterator<Item = Record>) {
    let mut reached = [0; 3];
    for record in records {
        match record.question() {
            Some(Question::Date { scalar }) => reached[try_scalar(scalar)] += 1,
            Some(Question::Day { count }) => try_count(count),
            _ => panic!("another kind"),
        }
    }
    println!("dates, 51, 52: {reached:?}");
    assert!(reached.iter().all(|&times| times > 0), "{reached:?}");
}

#[test]
fn every_short_scalar() {
    let bytes_about = 13 * 256;
    let points: usize = (0..=8).map(|length| 3_usize.pow(length)).sum();
    let signs: usize = (0..=5).map(|length| 8_usize.pow(length)).sum();
    let edges = date_edges::cases().len();
    assert_eq!(dates::in_order().count(), edges + bytes_about + points + signs);
    try_all(dates::in_order());
}

#[test]
fn many_scalars() {
    try_all(dates::all(41).skip(dates::in_order().count()).take(1_000_000));
}

/// Every date that a caller can put together in and about the ranges has a count exactly where the calendar has
/// the date.
#[test]
fn any_date_put_together() {
    for year in [0, 1, 2, 4, 1936, 9_998, 9_999, 10_000, 65_537, u32::MAX] {
        for month in (0..=14).chain([257, u32::MAX]) {
            for day in (0..=33).chain([257, u32::MAX]) {
                let count = date::count(year, month, day).ok_or(OUT_OF_RANGE);
                assert_eq!(model_date::to_days(year, month, day), count, "{year}.{month}.{day}");
            }
        }
    }
}

// ---- Every day ----

/// All days both ways in both readings: a later date has a larger count, by just one from day to day.
#[test]
fn every_day_both_ways() {
    let mut before = [0; 3];
    for count in 0..=LAST_COUNT {
        let told @ [year, month, day] = date::of(count).expect("a day of the calendar");
        assert!(before < told, "{count}");
        before = told;
        assert_eq!(model_date::from_days(count), Ok(told));
        assert_eq!(date::count(year, month, day), Some(count));
        assert_eq!(model_date::to_days(year, month, day), Ok(count));
        let scalar = format!("{year}.{month}.{day}").into_bytes();
        assert_eq!(date::read(&scalar), Ok([year, month, day, 0, count]));
        assert_eq!(model_date::read(&scalar), Ok([year, month, day, 0, count]));
    }
    assert_eq!(before, [9_999, 12, 31]);
    assert_eq!((date::of(LAST_COUNT + 1), date::of(u32::MAX)), (Err(52), Err(52)));
}

// ---- The faults ----

/// The faults that have to do with dates: of reading them, and of how the answers are written.
fn of_dates(wrong: Wrong, name: &str) -> bool {
    let written = ["hour_0_not_told", "no_date_with_a_word", "past_days_without_a_word"];
    matches!(wrong, Wrong::Date(_)) || written.contains(&name)
}

/// The cases find every fault that has to do with dates without the edges' help.
#[test]
fn the_cases_find_the_faults() {
    let mut asked = dates::series(Rng::new(42));
    let cases: Vec<(Record, String)> = std::iter::repeat_with(|| asked.record())
        .take(10_000)
        .map(|record| (record.clone(), record.answered_by(oracle::answer)))
        .collect();
    let faults = FAULTS.into_iter().filter(|&(name, wrong)| of_dates(wrong, name));
    let mut latest = 0;
    for fault in faults {
        let differs = |(record, told): &(Record, String)| {
            record.answered_by(standin::answering(Some(fault))) != *told
        };
        let found = cases.iter().position(differs);
        println!("fault {}: {found:?}", fault.0);
        latest = latest.max(found.unwrap_or_else(|| panic!("{} is not found", fault.0)));
    }
    println!("the latest: {latest}");
}
