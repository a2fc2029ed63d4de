//! The edges of request W8, each with the answer that its words give. Every run and the sample have them;
//! `tests/dates.rs` holds both readings of the request against the answers.

use crate::numbers::*;
use crate::record::{self, Dated, Day, Record};

const NO: Dated = Err(NO_DATE);
const OUT: Dated = Err(OUT_OF_RANGE);

/// Scalars that have the shape, with the date that each comes to or 52.
const SHAPED: [(&[u8], Dated); 39] = [
    // the paper's own, with the hour and without
    (b"1936.1.12.24", Ok([1936, 1, 12, 24, 706_286])),
    (b"1936.1.12", Ok([1936, 1, 12, 0, 706_286])),
    // the first days and the last ones, and what is beside them
    (b"1.1.1", Ok([1, 1, 1, 0, 0])),
    (b"1.1.2", Ok([1, 1, 2, 0, 1])),
    (b"2.1.1", Ok([2, 1, 1, 0, 365])),
    (b"9998.12.31", Ok([9998, 12, 31, 0, 3_649_269])),
    (b"9999.1.1", Ok([9999, 1, 1, 0, 3_649_270])),
    (b"9999.12.30", Ok([9999, 12, 30, 0, 3_649_633])),
    (b"9999.12.31", Ok([9999, 12, 31, 0, 3_649_634])),
    (b"9999.12.32", OUT),
    (b"0.1.1", OUT),
    (b"0.12.31", OUT),
    (b"10000.1.1", OUT),
    // the other ranges
    (b"1.0.1", OUT),
    (b"1.13.1", OUT),
    (b"1.1.0", OUT),
    (b"1.1.1.0", OUT),
    (b"1.1.1.1", Ok([1, 1, 1, 1, 0])),
    (b"1.1.1.23", Ok([1, 1, 1, 23, 0])),
    (b"1.1.1.24", Ok([1, 1, 1, 24, 0])),
    (b"1.1.1.25", OUT),
    (b"9999.12.31.24", Ok([9999, 12, 31, 24, 3_649_634])),
    (b"0.0.0.0", OUT),
    (b"10000.13.32.25", OUT),
    // no year is a leap year
    (b"4.2.29", OUT),
    (b"1936.2.29", OUT),
    (b"2000.2.29.1", OUT),
    (b"1936.2.28", Ok([1936, 2, 28, 0, 706_333])),
    (b"1936.3.1", Ok([1936, 3, 1, 0, 706_334])),
    // month and day are not to be exchanged
    (b"1936.12.1", Ok([1936, 12, 1, 0, 706_609])),
    (b"1936.31.1", OUT),
    // zeros in front, and nothing but zeros
    (b"0001.01.01.024", Ok([1, 1, 1, 24, 0])),
    (b"01936.001.0012", Ok([1936, 1, 12, 0, 706_286])),
    (b"000.1.1", OUT),
    (b"1.00.1", OUT),
    (b"1.1.00", OUT),
    (b"1.1.1.00", OUT),
    (b"010000.1.1", OUT),
    (b"1.013.1", OUT),
];

/// Scalars that have not the shape.
const MISSHAPEN: [&[u8]; 80] = [
    // too few parts, too many, and empty ones
    b"",
    b".",
    b"..",
    b"...",
    b"....",
    b"1",
    b"1936",
    b"1.1",
    b"1.",
    b"1.1.",
    b"1..",
    b".1.1",
    b"1..1",
    b"1.1.1.",
    b"1.1..1",
    b"1..1.1",
    b".1.1.1",
    b"1.1.1..",
    b"1.1.1..1",
    b"1.1.1.1.",
    b"1.1.1.1.1",
    b".1.1.1.1",
    // a sign is no number
    b"1.-.1",
    b"1.1.+",
    b"-1936.1.12",
    b"1936.1.-12.24",
    // bytes behind a date, before it and in it
    b"x",
    b"1.1.x",
    b"1.x.1",
    b"1.1.1x",
    b"1.1.1.x",
    b"1.1.1.1x",
    b"x1.1.1",
    b" 1.1.1",
    b"1.1.1 ",
    b"1. 1.1",
    b"1 .1.1",
    b"1.1.1\n",
    b"\t1.1.1",
    b"1.1.1\0",
    b"\x001.1.1",
    b"\"1.1.1\"",
    b"1.1.1f",
    b"1e1.1.1",
    b"0x1.1.1",
    b"1_0.1.1",
    b"1.1.1h",
    // the bytes beside the digits and beside the point, and other points
    b"/.1.1",
    b":.1.1",
    b"1./.1",
    b"1.1.:",
    b"1.1.1/",
    b"1.1.1:",
    b"1.1.1.2/",
    b"1.1.1.2:",
    b"1-1-1",
    b"1/1/1",
    b"1.1-1",
    b"1.1/1",
    b"1,1,1",
    b"1:1:1",
    b"1936-01-12",
    b"1936.1.12-24",
    // bytes past ASCII: digits and points with the high bit, an Arabic digit, a full-width point
    b"\xb1.1.1",
    b"1.1.\xb1",
    b"1\xae1.1",
    b"1.1.1\xae1",
    b"1.1.1\x80",
    b"1.1.1\xff",
    b"\xd9\xa1.1.1",
    b"1\xef\xbc\x8e1.1",
    // a part out of range as well: the shape is told
    b"0.1",
    b"10000.1.1.",
    b"1.13",
    b"1.13.1x",
    b"1.1.32.",
    b"1.1.0.-1",
    b"1.1.1.25.",
    b"1.1.1.0x",
    b"0.0.0.0.0",
];

/// The last day of each month, January first, and its count in year 1.
const MONTHS: [(u32, u32); 12] = [
    (31, 30),
    (28, 58),
    (31, 89),
    (30, 119),
    (31, 150),
    (30, 180),
    (31, 211),
    (31, 242),
    (30, 272),
    (31, 303),
    (30, 333),
    (31, 364),
];

/// Each month with its number, its last day, and that day's count in year 1.
fn months() -> impl Iterator<Item = (u32, u32, u32)> {
    (1..).zip(MONTHS).map(|(month, (last, count))| (month, last, count))
}

/// Seven, which every part may be, with so many more that it is seven again in 8, 16, 32 or 64 bits; and
/// one that is seven in 192 bits.
const SEVENS: [&str; 5] = [
    "263",
    "65543",
    "4294967303",
    "18446744073709551623",
    "6277101735386680763835789423207666416102355444464034512903",
];

/// How many parts a date has with its hour.
const PARTS: usize = 4;

/// `7.7.7.7` with another part in this place.
fn with_part(place: usize, part: &str) -> Vec<u8> {
    let mut parts = ["7"; PARTS];
    parts[place] = part;
    parts.join(".").into_bytes()
}

/// Each part in turn: with a sign, with many zeros, far too large, and that with something behind it.
fn each_part() -> Vec<(Vec<u8>, Dated)> {
    let mut cases: Vec<(Vec<u8>, Dated)> = Vec::new();
    let whole = Ok([7, 7, 7, 7, 2_377]);
    for place in 0..PARTS {
        cases.extend(["+7", "-7"].map(|part| (with_part(place, part), NO)));
        cases.push((with_part(place, &format!("{}7", "0".repeat(300))), whole));
        for part in SEVENS {
            // 263 is a year
            let year = part == SEVENS[0] && place == 0;
            let told = if year { Ok([263, 7, 7, 7, 95_817]) } else { OUT };
            cases.push((with_part(place, part), told));
        }
        let huge = with_part(place, "99999999999999999999");
        cases.extend([([huge.as_slice(), b"x"].concat(), NO), (huge, OUT)]);
    }
    // without an hour: the paper's pair
    cases.push((b"99999999999999999999.1.1".to_vec(), OUT));
    cases.push((b"99999999999999999999.1.x".to_vec(), NO));
    cases
}

/// All scalars, each with its answer.
pub fn dates() -> Vec<(Vec<u8>, Dated)> {
    let shaped = SHAPED.map(|(scalar, told)| (scalar.to_vec(), told));
    let misshapen = MISSHAPEN.map(|scalar| (scalar.to_vec(), NO));
    let mut cases: Vec<(Vec<u8>, Dated)> = shaped.into_iter().chain(misshapen).collect();
    for (month, last, count) in months() {
        let told = Ok([1, month, last, 0, count]);
        cases.push((format!("1.{month}.{last}").into_bytes(), told));
        cases.push((format!("1.{month}.{}", last + 1).into_bytes(), OUT));
    }
    cases.extend(each_part());
    cases
}

const PAST: Day = Err(OUT_OF_RANGE);

/// Day counts and the date that each comes to.
const DAYS: [(u32, Day); 27] = [
    (706_286, Ok([1936, 1, 12])),
    // both ends
    (1, Ok([1, 1, 2])),
    (LAST_COUNT - 1, Ok([9999, 12, 30])),
    (LAST_COUNT, Ok([9999, 12, 31])),
    (LAST_COUNT + 1, PAST),
    (LAST_COUNT + 2, PAST),
    (LAST_COUNT + YEAR_DAYS, PAST),
    (u32::MAX, PAST),
    (u32::MAX - 1, PAST),
    // years that end and begin, one that others would have a leap day in among them
    (365, Ok([2, 1, 1])),
    (366, Ok([2, 1, 2])),
    (729, Ok([2, 12, 31])),
    (730, Ok([3, 1, 1])),
    (1_459, Ok([4, 12, 31])),
    (1_460, Ok([5, 1, 1])),
    (1_461, Ok([5, 1, 2])),
    (729_999, Ok([2000, 12, 31])),
    (730_000, Ok([2001, 1, 1])),
    (3_649_269, Ok([9998, 12, 31])),
    (3_649_270, Ok([9999, 1, 1])),
    // counts whose bytes make others: turned round, or without the first of them
    (256, Ok([1, 9, 14])),
    (65_536, Ok([180, 7, 21])),
    (1 << 24, PAST),
    (LAST_COUNT.swap_bytes(), PAST),
    ((1 << 24) + LAST_COUNT, PAST),
    (1 << 31, PAST),
    ((1 << 31) + LAST_COUNT, PAST),
];

/// All counts, each with its answer; the first and the last day of each month of year 1 among them.
pub fn days() -> Vec<(u32, Day)> {
    let mut cases = DAYS.to_vec();
    for (month, last, count) in months() {
        let first = count + 1 - last;
        cases.extend([(first, Ok([1, month, 1])), (count, Ok([1, month, last]))]);
    }
    cases
}

/// All of them as records, each with its line.
pub fn cases() -> Vec<(Record, String)> {
    let mut cases = Vec::new();
    for (scalar, told) in dates() {
        let mut line = String::new();
        record::write_date(&mut line, told);
        cases.push((Record::date(scalar), line));
    }
    for (count, told) in days() {
        let mut line = String::new();
        record::write_day(&mut line, told);
        cases.push((Record::day(count), line));
    }
    cases
}
