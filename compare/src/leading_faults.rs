//! Request W7's two calls as wrong programs have them: what each makes of the model's answer, which
//! stands where there is no fault.

use crate::model::{self, Split};
use crate::numbers::*;
use crate::record::Leading;

/// What a wrong program does otherwise.
#[derive(Clone, Copy, Debug, PartialEq, Eq)]
pub enum Fault {
    // -- what has the form --
    /// Takes a number with nothing behind it alone, as the i64 reading does.
    RestRefused,
    /// Refuses a sign with no digit behind it.
    LoneSignRefused,
    /// Refuses a plus.
    PlusRefused,
    /// Takes the empty scalar for 0.
    EmptyIsZero,
    /// Takes a scalar that begins with neither a sign nor a digit for 0, with all of it left.
    NameIsZero,
    /// Reads on behind a second sign.
    SecondSignTaken,
    // -- what is too large --
    /// Answers 21 where a number that is too large has a rest.
    RestBeforeOverflow,
    /// Refuses 2^63 - 1.
    MostRefused,
    /// Takes 2^63 where no minus stands before it, and answers -2^63.
    OneOverTaken,
    /// Takes -2^63.
    LeastTaken,
    /// Gathers the digits modulo 2^64, and refuses what is too large then.
    Modulo,
    /// Goes by how many digits there are, zeros in front among them.
    DigitsCounted,
    /// Goes by how many bytes there are, the rest among them.
    BytesCounted,
    // -- what is told of it --
    /// Forgets a minus.
    MinusLost,
    /// Leaves the last digit behind, too.
    LastDigitLeft,
    /// Counts a sign into what is left.
    SignLeft,
    /// Takes a point behind the number.
    PointTaken,
    /// Takes an `f` that closes the scalar.
    ClosingFTaken,
    /// Tells how many bytes were taken.
    TakenForLeft,
    // -- the i64 reading --
    /// Does not look whether anything is left.
    I64OfAnyRest,
    /// Answers 21 where a number that is too large has a rest.
    I64RestBeforeOverflow,
}

/// The first number that is not read.
const ONE_OVER: u128 = 1 << 63;

/// The most digits that a number which is read can have, but for zeros in front.
const MOST_DIGITS: usize = 19;

/// The leading number.
pub fn leading(bytes: &[u8], fault: Option<Fault>) -> Leading {
    let (right, parts) = (model::leading(bytes), model::split(bytes));
    match (fault, right) {
        (None, _) => right,
        (Some(fault), Ok(told)) => instead_of_a_number(fault, parts, told),
        (Some(fault), Err(number)) => instead_of_a_refusal(fault, parts, number),
    }
}

/// What a wrong program makes of a scalar with a leading number.
fn instead_of_a_number(fault: Fault, parts: Split<'_>, (number, left): (i64, usize)) -> Leading {
    let Split { sign, digits, rest } = parts;
    let taken = sign.len() + digits.len();
    match fault {
        Fault::RestRefused if left > 0 => Err(ALL_DIGITS),
        Fault::LoneSignRefused if digits.is_empty() => Err(ALL_DIGITS),
        Fault::PlusRefused if sign == b"+" => Err(ALL_DIGITS),
        Fault::SecondSignTaken if digits.is_empty() && !model::split(rest).sign.is_empty() => {
            model::leading(rest)
        }
        Fault::MostRefused if model::number(digits) + 1 == ONE_OVER => Err(OVERFLOW),
        Fault::DigitsCounted if digits.len() > MOST_DIGITS => Err(OVERFLOW),
        Fault::BytesCounted if digits.len() + left > MOST_DIGITS => Err(OVERFLOW),
        Fault::MinusLost => Ok((number.abs(), left)),
        Fault::LastDigitLeft if !digits.is_empty() => Ok((number, left + 1)),
        Fault::SignLeft => Ok((number, left + sign.len())),
        Fault::PointTaken if rest.starts_with(b".") => Ok((number, left - 1)),
        Fault::ClosingFTaken if rest == b"f" => Ok((number, 0)),
        Fault::TakenForLeft => Ok((number, taken)),
        _ => Ok((number, left)),
    }
}

/// What a wrong program makes of a scalar that is refused.
fn instead_of_a_refusal(fault: Fault, parts: Split<'_>, refusal: u8) -> Leading {
    let Split { sign, digits, rest } = parts;
    let (left, minus) = (rest.len(), sign == b"-");
    let one_over = model::number(digits) == ONE_OVER;
    match fault {
        Fault::EmptyIsZero if refusal == ALL_DIGITS && left == 0 => Ok((0, 0)),
        Fault::NameIsZero if refusal == ALL_DIGITS && left > 0 => Ok((0, left)),
        Fault::RestBeforeOverflow if refusal == OVERFLOW && left > 0 => Err(ALL_DIGITS),
        Fault::OneOverTaken if one_over && !minus => Ok((i64::MIN, left)),
        Fault::LeastTaken if one_over && minus => Ok((i64::MIN, left)),
        Fault::Modulo if refusal == OVERFLOW => {
            let value = i64::try_from(model::gathered(digits)).map_err(|_| OVERFLOW)?;
            Ok((if minus { -value } else { value }, left))
        }
        _ => Err(refusal),
    }
}

/// The i64 reading.
pub fn to_i64(bytes: &[u8], fault: Option<Fault>) -> Result<i64, u8> {
    match (fault, model::leading(bytes)) {
        (Some(Fault::I64OfAnyRest), Ok((number, _))) => Ok(number),
        (Some(Fault::I64RestBeforeOverflow), Err(OVERFLOW))
            if !model::split(bytes).rest.is_empty() =>
        {
            Err(ALL_DIGITS)
        }
        _ => model::to_i64(bytes),
    }
}
