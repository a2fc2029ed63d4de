//! The Rust's answers, in document 01's words and numbers.

use crate::numbers::*;
use crate::record::{self, Leading, Question, bits, reading};
use crate::{date, file, kind, sheet, writer};
use jomini::text::Operator;
use jomini::{ErrorKind, Scalar, ScalarError, TextTape, TextToken};

/// What the Rust makes of a text: its tokens, also those that it laid before it refused.
pub struct Parsed {
    pub words: Vec<u32>,
    pub bom: bool,
    pub refusal: Option<(u8, usize)>,
}

impl Parsed {
    /// How many tokens the Rust lays before its end or its refusal. It takes none up again: its
    /// tape grows by `push` and `insert` alone.
    pub fn need(&self) -> usize {
        self.words.len() / WORDS
    }

    /// The refusal with room for `capacity` tokens. Full is its own when the Rust would lay one
    /// token more; a refusal that comes before that token is the Rust's.
    pub fn refusal_within(&self, capacity: usize) -> Option<(u8, usize)> {
        if self.need() > capacity { Some((FULL, 0)) } else { self.refusal }
    }
}

pub fn parse(text: &[u8]) -> Parsed {
    if text.len() > TEXT_LIMIT {
        return Parsed { words: Vec::new(), bom: false, refusal: Some((TOO_LONG, 0)) };
    }
    let mut tape = TextTape::new();
    let outcome = TextTape::parser().parse_slice_into_tape(text, &mut tape);
    let words = tape.tokens().iter().flat_map(|token| token_words(text, token)).collect();
    let refusal = outcome.err().map(|error| refusal(&error.0));
    Parsed { words, bom: tape.utf8_bom(), refusal }
}

fn token_words(text: &[u8], laid: &TextToken<'_>) -> [u32; WORDS] {
    let scalar = |code, scalar: &Scalar<'_>| {
        let bytes = scalar.as_bytes();
        let offset = bytes.as_ptr() as usize - text.as_ptr() as usize;
        token(code, offset as u32, bytes.len() as u32)
    };
    match laid {
        TextToken::Array { end, mixed } => token(ARRAY, *end as u32, u32::from(*mixed)),
        TextToken::Object { end, mixed } => token(OBJECT, *end as u32, u32::from(*mixed)),
        TextToken::MixedContainer => token(MIXED_CONTAINER, 0, 0),
        TextToken::Unquoted(s) => scalar(UNQUOTED, s),
        TextToken::Quoted(s) => scalar(quoted_code(s.as_bytes()), s),
        TextToken::Parameter(s) => scalar(PARAMETER, s),
        TextToken::UndefinedParameter(s) => scalar(UNDEFINED_PARAMETER, s),
        TextToken::Operator(operator) => token(OPERATOR, operator_number(*operator), 0),
        TextToken::End(opener) => token(END, *opener as u32, 0),
        TextToken::Header(s) => scalar(HEADER, s),
    }
}

/// The Rust has one Quoted and no flag: a backslash took part exactly when the view holds one.
fn quoted_code(view: &[u8]) -> u32 {
    if view.contains(&b'\\') { QUOTED_ESCAPE } else { QUOTED }
}

fn operator_number(operator: Operator) -> u32 {
    match operator {
        Operator::LessThan => LESS_THAN,
        Operator::LessThanEqual => LESS_THAN_EQUAL,
        Operator::GreaterThan => GREATER_THAN,
        Operator::GreaterThanEqual => GREATER_THAN_EQUAL,
        Operator::NotEqual => NOT_EQUAL,
        Operator::Exact => EXACT,
        Operator::Equal => EQUAL,
        Operator::Exists => EXISTS,
    }
}

/// A refusal's number is known by the Rust's message.
pub fn refusal(kind: &ErrorKind) -> (u8, usize) {
    match kind {
        ErrorKind::Eof => (EOF, 0),
        ErrorKind::StackEmpty { offset } => (STACK_EMPTY, *offset),
        ErrorKind::InvalidSyntax { msg, offset } => {
            let number = match msg.as_str() {
                "invalid syntax for token headers" => NO_HEADER,
                "encountered '}' for object value" => NO_VALUE,
                "mixed object and array container not expected" => PARAMETER_IN_MIXED,
                "expected a scalar to precede an operator" => NOTHING_BEFORE_OPERATOR,
                "unrecognized operator" => UNKNOWN_OPERATOR,
                "expected start of parameter definition" => NO_PARAMETER,
                "expected end of parameter name" => OPEN_PARAMETER_NAME,
                other => panic!("a message without a number: {other}"),
            };
            (number, *offset)
        }
    }
}

pub fn scalar_number(error: &ScalarError) -> u8 {
    match error {
        ScalarError::AllDigits => ALL_DIGITS,
        ScalarError::Overflow => OVERFLOW,
        ScalarError::InvalidBool => INVALID_BOOL,
        ScalarError::PrecisionLoss(_) => PRECISION_LOSS,
    }
}

fn readings(bytes: &[u8]) -> String {
    let scalar = Scalar::new(bytes);
    let float = match scalar.to_f64() {
        Ok(float) => format!("={}", bits(float)),
        Err(ScalarError::PrecisionLoss(float)) => format!("{PRECISION_LOSS}:{}", bits(float)),
        Err(error) => scalar_number(&error).to_string(),
    };
    let number = |error| scalar_number(&error);
    let yes = reading(scalar.to_bool().map(u8::from).map_err(number));
    let whole = reading(scalar.to_u64().map_err(number));
    let signed = reading(scalar.to_i64().map_err(number));
    format!("{yes} {whole} {signed} {float} {}\n", kind::by_form(bytes))
}

/// What the Rust's inner routine makes of a scalar. The bytes that it leaves are the scalar's own,
/// at its end; where it leaves none, its empty rest lies elsewhere.
pub fn leading(bytes: &[u8]) -> Leading {
    let (number, rest) = jomini::leading_number(bytes).map_err(|error| scalar_number(&error))?;
    let end = &bytes[bytes.len() - rest.len()..];
    assert!(rest.is_empty() || std::ptr::eq(rest, end), "a rest from elsewhere: {bytes:?}");
    Ok((number, rest.len()))
}

pub fn answer(question: Question<'_>, out: &mut String) {
    match question {
        Question::Text { text, capacity } => {
            let parsed = parse(text);
            match parsed.refusal_within(capacity) {
                Some((number, place)) => record::write_refusal(out, number, place),
                None => record::write_tape(out, &parsed.words, parsed.bom),
            }
        }
        Question::Scalar { bytes } => out.push_str(&readings(bytes)),
        Question::Leading { bytes } => record::write_leading(out, leading(bytes)),
        Question::Date { scalar } => record::write_date(out, date::read(scalar)),
        Question::Day { count } => record::write_day(out, date::of(count)),
        Question::Check { length, count, words } => {
            record::write_sound(out, sheet::sound(length, &words, count));
        }
        Question::View { index, count, words, text } => {
            record::write_view(out, sheet::view(text, &words, count, index));
        }
        Question::Write(asked) => record::write_written(out, writer::write(&asked)),
        Question::Pack(asked) => record::write_packed(out, file::pack(&asked)),
        Question::Unpack(asked) => record::write_unpacked(out, file::unpack(&asked)),
    }
}
