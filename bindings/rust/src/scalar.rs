//! The bytes of one value, and what they can be read as.

use crate::calls;
use crate::date::Date;
use crate::error::DateError;
use crate::numbers::{ALL_DIGITS, INVALID_BOOL, OVERFLOW, PRECISION_LOSS};
use std::{error, fmt};

/// Why a scalar is not what was asked for.
#[derive(Debug, Clone, PartialEq)]
pub enum ScalarError {
    /// The bytes are no number of the form that was asked for
    AllDigits,

    /// The number is too large for what was asked for
    Overflow,

    /// The bytes are neither `yes` nor `no`
    InvalidBool,

    /// No `f64` is this number: the nearest is given
    PrecisionLoss(f64),
}

impl ScalarError {
    /// The refusal's number, from 21 to 24, as the C header has it.
    pub fn number(&self) -> u32 {
        match self {
            ScalarError::AllDigits => ALL_DIGITS,
            ScalarError::Overflow => OVERFLOW,
            ScalarError::InvalidBool => INVALID_BOOL,
            ScalarError::PrecisionLoss(_) => PRECISION_LOSS,
        }
    }
}

impl fmt::Display for ScalarError {
    fn fmt(&self, f: &mut fmt::Formatter<'_>) -> fmt::Result {
        f.write_str(match self {
            ScalarError::AllDigits => "did not contain all digits",
            ScalarError::InvalidBool => "is not a valid bool",
            ScalarError::Overflow => "caused an overflow",
            ScalarError::PrecisionLoss(_) => "precision loss",
        })
    }
}

impl error::Error for ScalarError {}

/// What an unquoted scalar's bytes are, by their form and size alone: no reading is asked.
///
/// ```
/// use tackacorn::{ReadingKind, Scalar};
///
/// assert_eq!(Scalar::new(b"no").kind(), ReadingKind::Bool);
/// assert_eq!(Scalar::new(b"-45").kind(), ReadingKind::Whole);
/// assert_eq!(Scalar::new(b"0.5").kind(), ReadingKind::Decimal);
/// assert_eq!(Scalar::new(b"109E4").kind(), ReadingKind::Name);
/// // a number has a digit, and an `f` closes it only where there is a point
/// assert_eq!(Scalar::new(b"10.0f").kind(), ReadingKind::Decimal);
/// assert_eq!(Scalar::new(b"109f").kind(), ReadingKind::Name);
/// assert_eq!(Scalar::new(b"-").kind(), ReadingKind::Name);
/// assert_eq!(Scalar::new(b".").kind(), ReadingKind::Name);
/// // which the readings answer all the same
/// assert_eq!(Scalar::new(b"109f").to_f64(), Ok(109.0));
/// assert_eq!(Scalar::new(b"-").to_i64(), Ok(0));
/// ```
#[derive(Clone, Copy, Debug, PartialEq, Eq, Hash)]
pub enum ReadingKind {
    /// `yes` or `no`
    Bool = 1,
    /// An optional sign and digits, at least one, up to 2^63 - 1: `to_i64` reads it
    Whole = 2,
    /// Digits without a point above that, up to 2^64 - 1 and never with a minus, which `to_f64` reads with a loss
    /// of precision; or digits about a point, at least one, and perhaps a closing `f`, as far as `to_f64` reads them
    Decimal = 3,
    /// All else
    Name = 4,
}

impl ReadingKind {
    /// The kind of a number that the library answers, which is one of these.
    fn numbered(number: u32) -> Self {
        let kinds =
            [ReadingKind::Bool, ReadingKind::Whole, ReadingKind::Decimal, ReadingKind::Name];
        let kind = kinds.into_iter().find(|&kind| kind as u32 == number);
        kind.unwrap_or_else(|| {
            panic!("the library answers kind {number}, which no version that this crate knows does")
        })
    }
}

/// The bytes of a single value: a part of the text, with the escapes that stood there, in no particular
/// encoding.
///
/// ```
/// use tackacorn::Scalar;
///
/// let v1 = Scalar::new(b"10");
/// assert_eq!(v1.to_u64(), Ok(10));
/// assert_eq!(v1.to_i64(), Ok(10));
/// assert_eq!(v1.to_f64(), Ok(10.0));
/// assert!(v1.to_bool().is_err());
/// ```
///
/// # A number may have no digit
///
/// The readings answer what the Rust's do. That a scalar has a digit is none of their conditions:
///
/// | bytes | `to_u64` | `to_i64` | `to_f64` |
/// |---|---|---|---|
/// | `+` | 0 | 0 | 0.0 |
/// | `-` | `AllDigits` | 0 | 0.0 |
/// | `.` and `.f` | `AllDigits` | `AllDigits` | 0.0 |
/// | `-.` | `AllDigits` | `AllDigits` | -0.0 |
/// | `+f` and `-f` | `AllDigits` | `AllDigits` | 0.0 |
/// | `f` and nothing | `AllDigits` | `AllDigits` | `AllDigits` |
///
/// Where a number must have one, ask for the [`kind`](Scalar::kind) first: none of these is a number to it.
/// [`to_i64_part`](Scalar::to_i64_part) takes a sign with no digit behind it for 0 as well: see there.
#[derive(PartialEq, Eq, Copy, Clone)]
pub struct Scalar<'a> {
    data: &'a [u8],
}

/// A reading's answer: its value where it is not refused, else why not.
fn answered<T>(
    (refusal, value): (u32, T),
    loss: impl Fn(T) -> Option<f64>,
) -> Result<T, ScalarError> {
    match refusal {
        0 => Ok(value),
        ALL_DIGITS => Err(ScalarError::AllDigits),
        OVERFLOW => Err(ScalarError::Overflow),
        INVALID_BOOL => Err(ScalarError::InvalidBool),
        _ => match loss(value) {
            Some(nearest) if refusal == PRECISION_LOSS => Err(ScalarError::PrecisionLoss(nearest)),
            _ => {
                panic!("the library answers {refusal}, which no version that this crate knows does")
            }
        },
    }
}

impl<'a> Scalar<'a> {
    /// A scalar of these bytes.
    #[inline]
    pub fn new(data: &'a [u8]) -> Scalar<'a> {
        Scalar { data }
    }

    /// The bytes.
    #[inline]
    pub fn as_bytes(self) -> &'a [u8] {
        self.data
    }

    /// Reads a decimal: a sign, digits, a point, digits and a closing `f`, each as it may be left out.
    ///
    /// ```
    /// use tackacorn::{Scalar, ScalarError};
    ///
    /// assert_eq!(Scalar::new(b"1.000").to_f64(), Ok(1.0));
    /// assert_eq!(Scalar::new(b"-5.67821").to_f64(), Ok(-5.67821));
    /// assert_eq!(Scalar::new(b"10.0f").to_f64(), Ok(10.0));
    /// // no letter is an exponent
    /// assert_eq!(Scalar::new(b"109E4").to_f64(), Err(ScalarError::AllDigits));
    /// // without a point, what is over 2^53 - 1 loses precision: the nearest is told
    /// let lost = ScalarError::PrecisionLoss(9007199254740992.0);
    /// assert_eq!(Scalar::new(b"9007199254740993").to_f64(), Err(lost));
    /// // over 22 digits behind the point are too many
    /// assert_eq!(Scalar::new(b"0.00000000000000000000000").to_f64(), Err(ScalarError::Overflow));
    /// ```
    ///
    /// # A decimal can be another number than was written
    ///
    /// With a point, a whole part over 2^64 - 1 is taken modulo 2^64 and **not refused**: the Rust
    /// gathers the digits before the point without a look at their size and begins to look behind it,
    /// and this answers as the Rust. It takes at least 20 digits before the point. Where a stranger
    /// wrote the number, ask `to_u64` of those digits too:
    ///
    /// ```
    /// use tackacorn::{Scalar, ScalarError};
    ///
    /// let long = Scalar::new(b"18446744073709551616.5");
    /// assert_eq!(long.to_f64(), Ok(0.5));
    ///
    /// /// A decimal whose whole part is the one that was written.
    /// fn careful(scalar: Scalar<'_>) -> Result<f64, ScalarError> {
    ///     let digits = match scalar.as_bytes() {
    ///         [b'+' | b'-', rest @ ..] => rest,
    ///         all => all,
    ///     };
    ///     match digits.iter().position(|&byte| byte == b'.') {
    ///         None | Some(0) => {}
    ///         Some(point) => _ = Scalar::new(&digits[..point]).to_u64()?,
    ///     }
    ///     scalar.to_f64()
    /// }
    /// assert_eq!(careful(long), Err(ScalarError::Overflow));
    /// assert_eq!(careful(Scalar::new(b"-19.5")), Ok(-19.5));
    /// assert_eq!(careful(Scalar::new(b".5")), Ok(0.5));
    /// ```
    ///
    /// # A decimal may have no digit
    ///
    /// `+`, `-`, `.`, `.f`, `+f` and `-f` are 0, and `-.` is -0; `f` alone is none. `-0` is 0 and
    /// `-0.0` is -0. `-9223372036854775808` is refused with `Overflow`, as by [`to_i64`](Self::to_i64).
    ///
    /// ```
    /// # use tackacorn::{Scalar, ScalarError};
    /// for bytes in [b"+".as_slice(), b"-", b".", b".f", b"+f", b"-f", b"-0"] {
    ///     assert_eq!(Scalar::new(bytes).to_f64().map(f64::to_bits), Ok(0));
    /// }
    /// assert!(Scalar::new(b"-.").to_f64().is_ok_and(|zero| zero.is_sign_negative()));
    /// assert_eq!(Scalar::new(b"f").to_f64(), Err(ScalarError::AllDigits));
    /// assert_eq!(Scalar::new(b"-9223372036854775808").to_f64(), Err(ScalarError::Overflow));
    /// ```
    #[inline]
    pub fn to_f64(self) -> Result<f64, ScalarError> {
        answered(calls::to_f64(self.data), Some)
    }

    /// Reads `yes` or `no`; all else is refused.
    ///
    /// ```
    /// use tackacorn::{Scalar, ScalarError};
    ///
    /// assert_eq!(Scalar::new(b"yes").to_bool(), Ok(true));
    /// assert_eq!(Scalar::new(b"no").to_bool(), Ok(false));
    /// assert_eq!(Scalar::new(b"Yes").to_bool(), Err(ScalarError::InvalidBool));
    /// ```
    #[inline]
    pub fn to_bool(self) -> Result<bool, ScalarError> {
        answered(calls::to_bool(self.data), |_| None)
    }

    /// Reads a whole number: an optional sign and digits.
    ///
    /// ```
    /// use tackacorn::{Scalar, ScalarError};
    ///
    /// assert_eq!(Scalar::new(b"-50").to_i64(), Ok(-50));
    /// assert_eq!(Scalar::new(b"120").to_i64(), Ok(120));
    /// // a sign is enough
    /// assert_eq!(Scalar::new(b"-").to_i64(), Ok(0));
    /// // -2^63 is refused though an i64 could hold it: the digits are read before the minus
    /// assert_eq!(Scalar::new(b"-9223372036854775808").to_i64(), Err(ScalarError::Overflow));
    /// // digits that are too large are told before what stands behind them
    /// assert_eq!(Scalar::new(b"9223372036854775808x").to_i64(), Err(ScalarError::Overflow));
    /// ```
    #[inline]
    pub fn to_i64(self) -> Result<i64, ScalarError> {
        answered(calls::to_i64(self.data), |_| None)
    }

    /// Reads the number that the scalar begins with: an optional sign and digits. With it comes the rest of the
    /// scalar behind them, which begins with no digit. [`to_i64`](Self::to_i64) is this reading where the rest is
    /// empty. It is the Rust's `to_i64_t`, which stands behind the Rust's own `to_i64` and is not public there.
    ///
    /// ```
    /// use tackacorn::{Scalar, ScalarError};
    ///
    /// assert_eq!(Scalar::new(b"1.14.2").to_i64_part(), Ok((1, b".14.2".as_slice())));
    /// assert_eq!(Scalar::new(b"-50").to_i64_part(), Ok((-50, b"".as_slice())));
    /// // the first byte is a sign or a digit
    /// assert_eq!(Scalar::new(b".5").to_i64_part(), Err(ScalarError::AllDigits));
    /// assert_eq!(Scalar::new(b"").to_i64_part(), Err(ScalarError::AllDigits));
    /// // digits over 2^63 - 1 are too large, after a minus too, whatever follows them
    /// assert_eq!(Scalar::new(b"-9223372036854775808x").to_i64_part(), Err(ScalarError::Overflow));
    /// ```
    ///
    /// # Before you take the number
    ///
    /// Nothing of the rest is looked at: the airframe `109E4` is 109 with `E4` left over. And **a sign with no
    /// digit behind it is 0**, so that the version `1.-.2`, read part by part, has a second part of 0, and `1.-14.2`
    /// one of -14, with no refusal. A reader of versions looks at the byte that a part begins with. (A date is read
    /// by [`to_date`](Self::to_date), which knows the calendar.)
    ///
    /// ```
    /// use tackacorn::Scalar;
    ///
    /// /// The three parts of a game version, `1.14.2`: digits, a point between them, and nothing behind them.
    /// fn version(scalar: &[u8]) -> Option<[i64; 3]> {
    ///     let (mut parts, mut rest) = ([0; 3], scalar);
    ///     for (i, part) in parts.iter_mut().enumerate() {
    ///         if i > 0 {
    ///             rest = rest.strip_prefix(b".")?;
    ///         }
    ///         rest.first().filter(|byte| byte.is_ascii_digit())?;
    ///         (*part, rest) = Scalar::new(rest).to_i64_part().ok()?;
    ///     }
    ///     rest.is_empty().then_some(parts)
    /// }
    /// assert_eq!(version(b"1.14.2"), Some([1, 14, 2]));
    /// assert_eq!(version(b"1.014.02"), Some([1, 14, 2]));
    /// // the last has a fourth part: read it in the same way where you want one
    /// for none in ["1.14", "1..2", "1.-.2", "1.-14.2", "1.14.2b", "1.14.2.3"] {
    ///     assert_eq!(version(none.as_bytes()), None);
    /// }
    /// // without that look a sign is a part
    /// assert_eq!(Scalar::new(b"-.2").to_i64_part(), Ok((0, b".2".as_slice())));
    /// assert_eq!(Scalar::new(b"109E4").to_i64_part(), Ok((109, b"E4".as_slice())));
    /// ```
    #[inline]
    pub fn to_i64_part(self) -> Result<(i64, &'a [u8]), ScalarError> {
        let (refusal, value, left) = calls::to_i64_part(self.data);
        let rest = &self.data[self.data.len() - left..];
        answered((refusal, (value, rest)), |_| None)
    }

    /// Reads a number that is not negative: an optional `+` and digits.
    ///
    /// ```
    /// use tackacorn::{Scalar, ScalarError};
    ///
    /// assert_eq!(Scalar::new(b"50").to_u64(), Ok(50));
    /// assert_eq!(Scalar::new(b"18446744073709551616").to_u64(), Err(ScalarError::Overflow));
    /// // a minus is no digit, not even before a zero; a plus is enough
    /// assert_eq!(Scalar::new(b"-0").to_u64(), Err(ScalarError::AllDigits));
    /// assert_eq!(Scalar::new(b"+").to_u64(), Ok(0));
    /// ```
    #[inline]
    pub fn to_u64(self) -> Result<u64, ScalarError> {
        answered(calls::to_u64(self.data), |_| None)
    }

    /// Reads a date: year, month and day, and perhaps an hour from 1 to 24, with points between them. A part is
    /// digits without a sign, at least one, and zeros in front count for nothing.
    ///
    /// That the whole has this shape is looked for first ([`DateError::NotADate`]), then that every part is in range,
    /// however large it is ([`DateError::OutOfRange`]). [`Date`] says what must be known before one reckons with
    /// dates: the calendar has no leap years, and the day count leaves the hour out. To [`kind`](Self::kind) a date is
    /// a name.
    ///
    /// ```
    /// use tackacorn::{Date, DateError, Scalar};
    ///
    /// let date = |bytes: &'static str| Scalar::new(bytes.as_bytes()).to_date();
    /// assert_eq!(date("1936.1.12"), Date::new(1936, 1, 12));
    /// assert_eq!(date("0001.01.01.024")?.hour(), Some(24));
    /// for none in ["", "1936.1", "1936..12", "1936.1.12.", "1.1.1.1.1", "-1.1.1", " 1.1.1"] {
    ///     assert_eq!(date(none), Err(DateError::NotADate));
    /// }
    /// for none in ["1936.2.29", "0.1.1", "10000.1.1", "1.13.1", "1.1.1.0", "1.1.1.25"] {
    ///     assert_eq!(date(none), Err(DateError::OutOfRange));
    /// }
    /// assert_eq!(date("99999999999999999999.1.1"), Err(DateError::OutOfRange));
    /// assert_eq!(date("99999999999999999999.1.x"), Err(DateError::NotADate));
    /// # Ok::<(), DateError>(())
    /// ```
    #[inline]
    pub fn to_date(self) -> Result<Date, DateError> {
        Date::read(self.data)
    }

    /// What an unquoted scalar's bytes are. The Rust has no such call.
    #[inline]
    pub fn kind(self) -> ReadingKind {
        ReadingKind::numbered(calls::kind(self.data))
    }

    /// Whether all bytes are ASCII.
    ///
    /// ```
    /// use tackacorn::Scalar;
    ///
    /// assert!(Scalar::new(b"a").is_ascii());
    /// assert!(!Scalar::new(&[255]).is_ascii());
    /// ```
    #[inline]
    pub fn is_ascii(self) -> bool {
        self.data.is_ascii()
    }
}

impl fmt::Debug for Scalar<'_> {
    fn fmt(&self, f: &mut fmt::Formatter<'_>) -> fmt::Result {
        write!(f, "Scalar {{ {self} }}")
    }
}

impl fmt::Display for Scalar<'_> {
    /// ASCII as it stands, escapes too; of all else only the length, as the Rust has it.
    fn fmt(&self, f: &mut fmt::Formatter<'_>) -> fmt::Result {
        match std::str::from_utf8(self.data) {
            Ok(text) if text.is_ascii() => f.write_str(text),
            _ => write!(f, "non-ascii string of {} length", self.data.len()),
        }
    }
}
