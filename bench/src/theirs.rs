//! The Rust's parser and readings, and its readings' answers in document 01's numbers.

use crate::told_together;
use compare::kind::by_readings;
use compare::oracle::scalar_number;
use jomini::{Scalar, ScalarError, TextTape, leading_number};

/// The count of a parsed text.
pub fn parse<'a>(text: &'a [u8], tape: &mut TextTape<'a>) -> Option<usize> {
    TextTape::parser().parse_slice_into_tape(text, tape).ok()?;
    Some(tape.tokens().len())
}

/// The bits of the float that a lost precision carries.
fn lost_bits(error: &ScalarError) -> u64 {
    match error {
        ScalarError::PrecisionLoss(value) => value.to_bits(),
        _ => 0,
    }
}

fn told<T>(read: Result<T, ScalarError>, bits: impl Fn(T) -> u64) -> (u32, u64) {
    match read {
        Ok(value) => (0, bits(value)),
        Err(error) => (scalar_number(&error).into(), lost_bits(&error)),
    }
}

pub fn to_bool(scalar: &[u8]) -> (u32, u64) {
    told(Scalar::new(scalar).to_bool(), u64::from)
}

pub fn to_u64(scalar: &[u8]) -> (u32, u64) {
    told(Scalar::new(scalar).to_u64(), |value| value)
}

pub fn to_i64(scalar: &[u8]) -> (u32, u64) {
    told(Scalar::new(scalar).to_i64(), |value| value as u64)
}

/// The Rust's inner routine, which its own `to_i64` stands on.
pub fn to_i64_part(scalar: &[u8]) -> (u32, u64) {
    told(leading_number(scalar), |(value, rest)| told_together(value, rest.len()))
}

pub fn to_f64(scalar: &[u8]) -> (u32, u64) {
    told(Scalar::new(scalar).to_f64(), f64::to_bits)
}

/// The Rust has no kind: the number of document 01's, by the first of its readings that answers, and no value.
pub fn kind(scalar: &[u8]) -> (u32, u64) {
    (by_readings(scalar).into(), 0)
}
