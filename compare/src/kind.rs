//! Request W2 read from its own words: the kind of a scalar by its form, with no reading asked. Beside it document
//! 01's kind, which goes by the Rust's readings, and where the two may differ.

use crate::numbers::*;
use jomini::{Scalar, ScalarError};

/// `yes` or `no`; or an optional sign, digits and at most one point; or a name.
pub fn by_form(bytes: &[u8]) -> u8 {
    if matches!(bytes, b"yes" | b"no") {
        return BOOL;
    }
    let (minus, unsigned) = match bytes {
        [b'-', rest @ ..] => (true, rest),
        [b'+', rest @ ..] => (false, rest),
        _ => (false, bytes),
    };
    let parts: Vec<&[u8]> = unsigned.split(|&byte| byte == b'.').collect();
    match parts[..] {
        [digits] => without_point(minus, digits),
        // a closing `f` counts where there is a point
        [whole, [fraction @ .., b'f'] | fraction] => with_point(whole, fraction),
        _ => NAME,
    }
}

fn without_point(minus: bool, digits: &[u8]) -> u8 {
    if digits.is_empty() || !digits.iter().all(u8::is_ascii_digit) {
        NAME
    } else if at_most(digits, b"9223372036854775807") {
        WHOLE
    } else if !minus && at_most(digits, b"18446744073709551615") {
        DECIMAL
    } else {
        NAME
    }
}

/// Whether a number is at most another, both as they are written.
fn at_most(digits: &[u8], most: &[u8]) -> bool {
    let zeros = digits.iter().take_while(|&&digit| digit == b'0').count();
    let digits = &digits[zeros..];
    (digits.len(), digits) <= (most.len(), most)
}

/// The whole part counts modulo 2^64; from there the fraction may not carry past 2^64 - 1, nor have over 22 digits.
fn with_point(whole: &[u8], fraction: &[u8]) -> u8 {
    let digits = whole.iter().chain(fraction);
    if !digits.clone().all(u8::is_ascii_digit) || digits.count() == 0 || fraction.len() > 22 {
        return NAME;
    }
    let value = |digit: &u8| u128::from(digit - b'0');
    let start = whole.iter().fold(0, |n, digit| (n * 10 + value(digit)) % (1 << 64));
    let all = fraction.iter().try_fold(start, |n: u128, digit| {
        n.checked_mul(10)?.checked_add(value(digit)).filter(|&n| n < 1 << 64)
    });
    if all.is_some() { DECIMAL } else { NAME }
}

/// Document 01, 'Reading kind, added', over the Rust's own readings.
pub fn by_readings(bytes: &[u8]) -> u8 {
    let scalar = Scalar::new(bytes);
    if scalar.to_bool().is_ok() {
        BOOL
    } else if scalar.to_i64().is_ok() {
        WHOLE
    } else if matches!(scalar.to_f64(), Ok(_) | Err(ScalarError::PrecisionLoss(_))) {
        DECIMAL
    } else {
        NAME
    }
}

/// Why a number of document 01 is a name by request W2.
#[derive(Clone, Copy, Debug, PartialEq, Eq)]
pub enum NoNumber {
    NoDigit,
    ClosedWithoutPoint,
}

pub const WHY: [NoNumber; 2] = [NoNumber::NoDigit, NoNumber::ClosedWithoutPoint];

pub fn no_number(bytes: &[u8]) -> Option<NoNumber> {
    if !bytes.iter().any(u8::is_ascii_digit) {
        Some(NoNumber::NoDigit)
    } else if bytes.ends_with(b"f") && !bytes.contains(&b'.') {
        Some(NoNumber::ClosedWithoutPoint)
    } else {
        None
    }
}

/// What request W2 makes of document 01's kind: a name of each number that is none.
pub fn amended(bytes: &[u8]) -> u8 {
    match by_readings(bytes) {
        WHOLE | DECIMAL if no_number(bytes).is_some() => NAME,
        old => old,
    }
}

/// Both sides of each sentence of the request and of the ranges that it names, with the kind.
pub const EDGES: [(&str, u8); 57] = [
    ("yes", BOOL),
    ("no", BOOL),
    ("yes.", NAME),
    ("no0", NAME),
    ("", NAME),
    ("f", NAME),
    // at least one digit
    ("-", NAME),
    ("+", NAME),
    (".", NAME),
    ("-.", NAME),
    ("+.", NAME),
    (".f", NAME),
    ("-.f", NAME),
    ("+f", NAME),
    ("-f", NAME),
    ("0", WHOLE),
    ("-0", WHOLE),
    ("+007", WHOLE),
    ("5.", DECIMAL),
    (".5", DECIMAL),
    ("-.5", DECIMAL),
    ("+5.", DECIMAL),
    // a closing f only where there is a point
    ("109f", NAME),
    ("-109f", NAME),
    ("+0f", NAME),
    ("9007199254740993f", NAME),
    ("10.0f", DECIMAL),
    ("5.f", DECIMAL),
    (".5f", DECIMAL),
    ("10.0ff", NAME),
    ("10f.0", NAME),
    ("10.0F", NAME),
    // one sign, one point, and no other byte
    ("+-1", NAME),
    ("1-", NAME),
    ("1936.1.12", NAME),
    ("1..", NAME),
    ("109E4", NAME),
    ("109F", NAME),
    ("1 ", NAME),
    // the ranges without a point
    ("9223372036854775807", WHOLE),
    ("-9223372036854775807", WHOLE),
    ("+0009223372036854775807", WHOLE),
    ("9223372036854775808", DECIMAL),
    ("+9223372036854775808", DECIMAL),
    ("-9223372036854775808", NAME),
    ("18446744073709551615", DECIMAL),
    ("-18446744073709551615", NAME),
    ("18446744073709551616", NAME),
    ("00000000000000000000000000000018446744073709551615", DECIMAL),
    // and with one
    ("-18446744073709551615.", DECIMAL),
    ("18446744073709551616.0", DECIMAL),
    ("1844674407370955161.5", DECIMAL),
    ("1844674407370955161.6", NAME),
    ("36893488147419103233.5f", DECIMAL),
    ("0.0000000000000000000000", DECIMAL),
    ("0.00000000000000000000000", NAME),
    ("0.00000000000000000000000f", NAME),
];
