//! The edges of request W7, each with the answer that its words give. Every run and the sample have
//! them; `tests/leading.rs` holds the Rust's inner routine and the model against the answers.

use crate::numbers::*;
use crate::record::Leading;

const NONE: Leading = Err(ALL_DIGITS);

/// Scalars, and the number and the bytes left that each comes to.
const EDGES: [(&[u8], Leading); 57] = [
    // the paper's own
    (b"1936.1.12", Ok((1936, 5))),
    // with nothing left, and with a byte
    (b"12", Ok((12, 0))),
    (b"+12", Ok((12, 0))),
    (b"-12", Ok((-12, 0))),
    (b"12.", Ok((12, 1))),
    (b"12x", Ok((12, 1))),
    (b"+12 ", Ok((12, 1))),
    (b"-12x", Ok((-12, 1))),
    (b"00012x", Ok((12, 1))),
    (b"0", Ok((0, 0))),
    (b"-0", Ok((0, 0))),
    (b"+0x", Ok((0, 1))),
    // a sign with no digit behind it
    (b"-", Ok((0, 0))),
    (b"+", Ok((0, 0))),
    (b"-x", Ok((0, 1))),
    (b"+x", Ok((0, 1))),
    (b"-.5", Ok((0, 2))),
    (b"+ 5", Ok((0, 2))),
    (b"+-1", Ok((0, 2))),
    (b"--1", Ok((0, 2))),
    (b"++", Ok((0, 1))),
    // neither a sign nor a digit first
    (b"", NONE),
    (b"x", NONE),
    (b".5", NONE),
    (b".", NONE),
    (b"f", NONE),
    (b" 1", NONE),
    (b"yes", NONE),
    // the bytes beside the digits and beside the signs, and bytes that are far from ASCII
    (b"/5", NONE),
    (b":5", NONE),
    (b"*5", NONE),
    (b",5", NONE),
    (b"5/", Ok((5, 1))),
    (b"5:", Ok((5, 1))),
    (b"-/", Ok((0, 1))),
    (b"+:", Ok((0, 1))),
    (b"\x005", NONE),
    (b"\xb15", NONE),
    (b"5\0", Ok((5, 1))),
    (b"5\xb1", Ok((5, 1))),
    (b"-\xff", Ok((0, 1))),
    // what reads on like a number
    (b"12f", Ok((12, 1))),
    (b"12.5f", Ok((12, 3))),
    (b"109E4", Ok((109, 2))),
    (b"0x10", Ok((0, 3))),
    (b"1_000", Ok((1, 4))),
    (b"1,5", Ok((1, 2))),
    (b"1-", Ok((1, 1))),
    (b"1+2", Ok((1, 2))),
    (b"1 2", Ok((1, 2))),
    // dates
    (b"1936.1.12.24", Ok((1936, 8))),
    (b"-1936.1.12", Ok((-1936, 5))),
    (b"0001.1.1", Ok((1, 4))),
    (b"1936..12", Ok((1936, 4))),
    // what is left has digits enough for a refusal, and bytes enough
    (b"1.99999999999999999999", Ok((1, 21))),
    (b"-x99999999999999999999", Ok((0, 21))),
    (b"7 bytes and many more behind them", Ok((7, 32))),
];

/// Digits, and the number that they come to where it is not too large.
const NUMBERS: [(&str, Option<i64>); 14] = [
    ("999999999999999999", Some(999_999_999_999_999_999)),
    ("1000000000000000000", Some(1_000_000_000_000_000_000)),
    ("9223372036854775806", Some(i64::MAX - 1)),
    ("9223372036854775807", Some(i64::MAX)),
    ("9223372036854775808", None),
    ("9999999999999999999", None),
    ("10000000000000000000", None),
    ("18446744073709551615", None),
    ("18446744073709551616", None),
    // 5 and 7 modulo 2^64
    ("18446744073709551621", None),
    ("680564733841876926926749214863536422912000000000000000000007", None),
    // zeros in front
    ("0000000000000000000000012", Some(12)),
    ("0000009223372036854775807", Some(i64::MAX)),
    ("0000009223372036854775808", None),
];

const TAILS: [&str; 4] = ["", "x", ".1", " "];

/// All of them as scalars, each with its answer.
pub fn cases() -> Vec<(Vec<u8>, Leading)> {
    let mut cases: Vec<(Vec<u8>, Leading)> =
        EDGES.map(|(scalar, told)| (scalar.to_vec(), told)).into();
    for (digits, number) in NUMBERS {
        for (sign, times) in [("", 1), ("+", 1), ("-", -1)] {
            cases.extend(TAILS.map(|tail| {
                let told = number.map(|number| (times * number, tail.len())).ok_or(OVERFLOW);
                (format!("{sign}{digits}{tail}").into_bytes(), told)
            }));
        }
    }
    cases
}
