//! Request W7: the Rust's inner routine and the model against the answers that its words give and
//! against each other, what holds of every leading number and of the i64 reading that stands on it,
//! tried on the Rust, and the faults that its cases must find by themselves.

use compare::numbers::{ALL_DIGITS, OVERFLOW};
use compare::pipe::from_hex;
use compare::record::{Question, Record};
use compare::rng::Rng;
use compare::standin::{self, FAULTS, Wrong};
use compare::{leading, leading_edges, model, oracle};
use jomini::Scalar;

#[test]
fn the_edges_have_their_answers() {
    for (scalar, told) in leading_edges::cases() {
        let shown = String::from_utf8_lossy(&scalar);
        assert_eq!(oracle::leading(&scalar), told, "the Rust: {shown:?}");
        assert_eq!(model::leading(&scalar), told, "the model: {shown:?}");
    }
}

/// The paper's own record in hex, and one for each other form of an answer.
const RECORDS: [(&str, &str); 4] = [
    ("4e00000009313933362e312e3132", "=1936 5\n"),
    ("4e000000032d3132", "=-12 0\n"),
    ("4e00000000", "21\n"),
    ("4e000000143932323333373230333638353437373538303878", "22\n"),
];

#[test]
fn records_and_answers_to_the_byte() {
    for (record, told) in RECORDS {
        let bytes = from_hex(record).expect("hex");
        let record = Record::leading(bytes[5..].to_vec());
        assert_eq!(record.bytes(), bytes);
        assert_eq!(record.answered_by(oracle::answer), told);
        assert_eq!(record.answered_by(standin::answering(None)), told);
    }
}

/// The capacity is ignored.
#[test]
fn any_capacity_will_do() {
    let record = Record { capacity: u16::MAX, ..Record::leading(b"12x".to_vec()) };
    assert!(matches!(record.question(), Some(Question::Leading { bytes: b"12x" })));
    assert_eq!(record.answered_by(oracle::answer), "=12 1\n");
}

// ---- What holds of every scalar ----

/// What became of a scalar: a number with nothing left, one with a rest, or a refusal.
enum Became {
    Whole,
    WithRest,
    Refused,
}

/// The model answers as the Rust does, a number is what its digits say, a refusal has its cause,
/// and the Rust's i64 reading is a leading number with nothing left.
fn try_scalar(scalar: &[u8]) -> Became {
    let (told, shown) = (oracle::leading(scalar), String::from_utf8_lossy(scalar));
    assert_eq!(model::leading(scalar), told, "the model: {shown:?}");
    let reading = Scalar::new(scalar).to_i64().map_err(|error| oracle::scalar_number(&error));
    let begins = matches!(scalar.first(), Some(b'+' | b'-' | b'0'..=b'9'));
    match told {
        Ok((number, left)) => {
            is_split(scalar, number, left);
            assert_eq!(reading, if left == 0 { Ok(number) } else { Err(ALL_DIGITS) }, "{shown:?}");
            if left == 0 { Became::Whole } else { Became::WithRest }
        }
        Err(refusal) => {
            assert_eq!(refusal, if begins { OVERFLOW } else { ALL_DIGITS }, "{shown:?}");
            assert_eq!(reading, Err(refusal), "{shown:?}");
            Became::Refused
        }
    }
}

/// A scalar is a sign or none, the number's digits with zeros or none in front, and a rest that
/// begins with no digit.
fn is_split(scalar: &[u8], number: i64, left: usize) {
    let shown = String::from_utf8_lossy(scalar);
    let (front, rest) = scalar.split_at(scalar.len() - left);
    assert!(!rest.first().is_some_and(u8::is_ascii_digit), "a digit is left: {shown:?}");
    let (minus, digits) = match front {
        [b'-', digits @ ..] => (true, digits),
        [b'+', digits @ ..] => (false, digits),
        digits => (false, digits),
    };
    let zeros = digits.iter().take_while(|&&digit| digit == b'0').count();
    let written = number.unsigned_abs().to_string();
    let written = if number == 0 { "" } else { &written };
    assert_eq!(&digits[zeros..], written.as_bytes(), "other digits: {shown:?}");
    assert_eq!(number < 0, minus && number != 0, "another sign: {shown:?}");
}

/// Each way to end came, over these scalars.
fn try_all(scalars: impl Iterator<Item = Vec<u8>>) {
    let mut reached = [0; 3];
    scalars.for_each(|scalar| reached[try_scalar(&scalar) as usize] += 1);
    assert!(reached.iter().all(|&times| times > 0), "{reached:?}");
}

#[test]
fn every_short_scalar() {
    let bytes_behind = 4 * 256;
    let spelt: usize = (0..=5).map(|length| 9_usize.pow(length)).sum();
    let edges = leading_edges::cases().len();
    assert_eq!(leading::in_order().count(), edges + bytes_behind + spelt);
    try_all(leading::in_order());
}

#[test]
fn many_scalars() {
    try_all(leading::all(31).skip(leading::in_order().count()).take(1_000_000));
}

// ---- The faults ----

/// The cases find every fault that has to do with leading numbers without the edges' help, those of
/// the i64 reading where it is asked of the same scalars.
#[test]
fn the_cases_find_the_faults() {
    let mut scalars = leading::series(Rng::new(32));
    let asked = std::iter::repeat_with(|| scalars.record());
    let cases: Vec<[(Record, String); 2]> = asked
        .take(10_000)
        .map(|record| {
            [Record::scalar(record.body.clone()), record].map(|record| {
                let told = record.answered_by(oracle::answer);
                (record, told)
            })
        })
        .collect();
    for fault in FAULTS.into_iter().filter(|fault| matches!(fault.1, Wrong::Leading(_))) {
        let differs = |(record, told): &(Record, String)| {
            record.answered_by(standin::answering(Some(fault))) != *told
        };
        let found = cases.iter().position(|both| both.iter().any(differs));
        println!("fault {}: {found:?}", fault.0);
        assert!(found.is_some(), "{} is not found", fault.0);
    }
}
