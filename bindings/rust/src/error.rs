//! Why a text, a view, a sheet, a sheet file or a date is refused.

use crate::calls;
use std::fmt;

/// Why a text or a view is refused: which refusal it is, and where in the text it stands.
///
/// It prints itself with number, place and words, and [`line_and_column`](Error::line_and_column) tells
/// the place as an editor does.
///
/// ```
/// use tackacorn::{ErrorKind, TextTape};
///
/// let text = b"GER={\n  fighter=}\n";
/// let error = TextTape::from_slice(text).unwrap_err();
/// assert_eq!(error.kind(), ErrorKind::NoValue);
/// assert_eq!((error.number(), error.place()), (5, 16));
/// assert_eq!(error.line_and_column(text), Some((2, 11)));
/// assert_eq!(error.to_string(), "refusal 5 at byte 16: a '}' where a value is due");
/// ```
#[derive(Clone, Copy, Debug, PartialEq, Eq, Hash)]
pub struct Error {
    kind: ErrorKind,
    place: usize,
}

/// Which refusal it is. The numbers are those of the C header and of the command.
#[derive(Clone, Copy, Debug, PartialEq, Eq, Hash)]
#[non_exhaustive]
pub enum ErrorKind {
    /// The text has more than [`TEXT_LIMIT`](crate::TEXT_LIMIT) bytes. The Rust has no such limit.
    TooLong = 1,
    /// The text ends too early. jomini's `Eof`.
    Eof = 2,
    /// A `}` with nothing open. jomini's `StackEmpty`.
    StackEmpty = 3,
    /// A `{` with neither a key nor a header before it.
    NoHeader = 4,
    /// A `}` where a value is due.
    NoValue = 5,
    /// A `[` that opens a mixed container.
    MixedParameter = 6,
    /// An operator with no scalar before it. Its place is one before the operator, as in the Rust.
    NothingPrecedes = 7,
    /// Bytes that begin as an operator and are none. Its place is one before them, as in the Rust.
    UnknownOperator = 8,
    /// A `[` that no `[` follows.
    NoParameter = 9,
    /// A parameter's name that no `]` ends.
    OpenName = 10,
    /// A token finds no room on a tape of words that was lent. A tape that grows never says so.
    Full = 11,
    /// No scalar stands there: see [`sheet::view`](crate::sheet::view).
    NoScalar = 12,
}

const KINDS: [ErrorKind; 12] = [
    ErrorKind::TooLong,
    ErrorKind::Eof,
    ErrorKind::StackEmpty,
    ErrorKind::NoHeader,
    ErrorKind::NoValue,
    ErrorKind::MixedParameter,
    ErrorKind::NothingPrecedes,
    ErrorKind::UnknownOperator,
    ErrorKind::NoParameter,
    ErrorKind::OpenName,
    ErrorKind::Full,
    ErrorKind::NoScalar,
];

impl ErrorKind {
    /// The refusal's number.
    pub fn number(self) -> u32 {
        self as u32
    }

    /// The refusal in words, without a full stop.
    pub fn words(self) -> &'static str {
        calls::refusal_text(self.number())
    }
}

impl fmt::Display for ErrorKind {
    fn fmt(&self, f: &mut fmt::Formatter<'_>) -> fmt::Result {
        f.write_str(self.words())
    }
}

/// Ends the program where the library answers what it should not.
fn unknown(number: u32) -> ! {
    panic!(
        "the library answers {number}, which no version that this crate knows does: {}",
        calls::version()
    )
}

impl Error {
    /// The refusal of this number, which the library has answered.
    pub(crate) fn new(number: u32, place: usize) -> Self {
        let kind = KINDS.into_iter().find(|kind| kind.number() == number);
        Error { kind: kind.unwrap_or_else(|| unknown(number)), place }
    }

    /// Which refusal it is.
    pub fn kind(&self) -> ErrorKind {
        self.kind
    }

    /// The refusal's number, from 1 to 12.
    pub fn number(&self) -> u32 {
        self.kind.number()
    }

    /// The refusal in words, without a full stop.
    pub fn words(&self) -> &'static str {
        self.kind.words()
    }

    /// The place as the format defines it: an offset in the text from its first byte on, the BOM
    /// included, and 0 where the refusal has none.
    pub fn place(&self) -> usize {
        self.place
    }

    /// The place where the refusal has one: not for a text that is too long or ends too early, a tape
    /// without room, and a view that is none.
    pub fn offset(&self) -> Option<usize> {
        match self.kind {
            ErrorKind::TooLong | ErrorKind::Eof | ErrorKind::Full | ErrorKind::NoScalar => None,
            _ => Some(self.place),
        }
    }

    /// Line and column where a person looks for what is refused: its place, for an operator the
    /// operator's own, and for a text that ends too early its end. Both count from 1, a column is a
    /// byte, and a BOM has none. The command `tackacorn` shows the same. `text` is the text that was
    /// refused.
    pub fn line_and_column(&self, text: &[u8]) -> Option<(usize, usize)> {
        let place = match self.kind {
            ErrorKind::Eof => text.len(),
            ErrorKind::NothingPrecedes | ErrorKind::UnknownOperator => self.place + 1,
            _ => self.offset()?,
        };
        let before = text.get(..place)?;
        let line = 1 + before.iter().filter(|&&byte| byte == b'\n').count();
        let bom = if text.starts_with(b"\xef\xbb\xbf") { 3 } else { 0 };
        let begin = before.iter().rposition(|&byte| byte == b'\n').map_or(bom, |feed| feed + 1);
        Some((line, place.saturating_sub(begin) + 1))
    }
}

impl fmt::Display for Error {
    fn fmt(&self, f: &mut fmt::Formatter<'_>) -> fmt::Result {
        write!(f, "refusal {}", self.number())?;
        if let Some(offset) = self.offset() {
            write!(f, " at byte {offset}")?;
        }
        write!(f, ": {}", self.words())
    }
}

impl std::error::Error for Error {}

/// What the errors share that are a number and no more: the way from the number, and how they print.
macro_rules! numbered {
    ($error:ident, $numbers:literal, $($variant:ident)+) => {
        impl $error {
            /// The refusal of this number, which the library has answered.
            pub(crate) fn new(number: u32) -> Self {
                let all = [$($error::$variant),+];
                let error = all.into_iter().find(|error| error.number() == number);
                error.unwrap_or_else(|| unknown(number))
            }

            #[doc = concat!("The refusal's number, ", $numbers, ".")]
            pub fn number(self) -> u32 {
                self as u32
            }

            /// The refusal in words, without a full stop.
            pub fn words(self) -> &'static str {
                calls::refusal_text(self.number())
            }
        }

        impl fmt::Display for $error {
            fn fmt(&self, f: &mut fmt::Formatter<'_>) -> fmt::Result {
                write!(f, "refusal {}: {}", self.number(), self.words())
            }
        }

        impl std::error::Error for $error {}
    };
}

/// Why a sheet is not written. Each is looked for in the whole sheet before the next, in this order.
///
/// ```
/// use tackacorn::{TextTape, WriteError};
///
/// let refused = |save: &[u8]| TextTape::from_slice(save).unwrap().write().unwrap_err();
/// assert_eq!(refused(b"[[x] y]"), WriteError::OtherForm);
/// assert_eq!(refused(b"a b{}c=d"), WriteError::ReadsOtherwise);
/// assert_eq!(refused(b"a= =").number(), 45);
/// assert_eq!(refused(b"a= =").to_string(), "refusal 45: the text to write would read differently");
/// ```
#[derive(Clone, Copy, Debug, PartialEq, Eq, Hash)]
#[non_exhaustive]
pub enum WriteError {
    /// The sheet is not sound: see [`sheet::is_sound`](crate::sheet::is_sound).
    NotSound = 41,
    /// A parameter; or, at the top level or in an object before its first `MixedContainer`, what stands
    /// for a key is none, or a key has no entry.
    OtherForm = 46,
    /// Containers stand in each other deeper than [`LEVEL_LIMIT`](crate::LEVEL_LIMIT).
    TooDeep = 42,
    /// The text to write has more than [`TEXT_LIMIT`](crate::TEXT_LIMIT) bytes.
    TooLong = 43,
    /// A buffer that was lent is under the text, or a scratch under the tokens. Memory of the crate's own
    /// is always enough.
    NoRoom = 44,
    /// The text to write would be refused, or read as something else. Of what was parsed these are told in
    /// `tackacorn.h`; of what was edited it is a scalar with bytes that end it, a quote in a quoted one, an
    /// object left empty, and so on.
    ReadsOtherwise = 45,
}

numbered!(WriteError, "from 41 to 46", NotSound OtherForm TooDeep TooLong NoRoom ReadsOtherwise);

/// Why a sheet is not put on file, or a file is not read. The first that holds is told, in this order.
///
/// ```
/// use tackacorn::{FileError, sheet};
///
/// let file = sheet::pack(3, &[4, 0, 1, 4, 2, 1], 2).unwrap();
/// let refused = |file: &[u8]| sheet::unpack(file, &mut Vec::new()).unwrap_err();
/// assert_eq!(refused(&file[..29]), FileError::Length);
/// assert_eq!(refused(b"").number(), 31);
/// let words = "refusal 31: the file is cut short or has another length than it says";
/// assert_eq!(refused(b"").to_string(), words);
/// ```
#[derive(Clone, Copy, Debug, PartialEq, Eq, Hash)]
#[non_exhaustive]
pub enum FileError {
    /// A file has fewer bytes than any, or another length than it says.
    Length = 31,
    /// A file is of a version that is not known.
    UnknownVersion = 32,
    /// A file's length is not that of a file of so many tokens.
    Count = 36,
    /// The sheet is not sound: see [`sheet::is_sound`](crate::sheet::is_sound).
    NotSound = 33,
    /// The text or the file is too large for a sheet file: over 16,777,215 and 4,294,967,295 bytes.
    TooLarge = 35,
    /// A buffer that was lent is under the file, or words under its tokens. Memory of the crate's own is
    /// always enough.
    NoRoom = 34,
}

numbered!(FileError, "from 31 to 36", Length UnknownVersion Count NotSound TooLarge NoRoom);

/// Why bytes, parts or a count are no date. The first that holds is told, in this order.
///
/// ```
/// use tackacorn::{DateError, Scalar};
///
/// let refused = |bytes: &'static str| Scalar::new(bytes.as_bytes()).to_date().unwrap_err();
/// assert_eq!(refused("1936.1"), DateError::NotADate);
/// assert_eq!(refused("1936.2.29"), DateError::OutOfRange);
/// // the shape of the whole comes before the range of any part
/// assert_eq!(refused("1936.13.x").number(), 51);
/// let words = "refusal 52: a part of the date, or the day count, is out of range";
/// assert_eq!(refused("1936.13.1").to_string(), words);
/// ```
#[derive(Clone, Copy, Debug, PartialEq, Eq, Hash)]
#[non_exhaustive]
pub enum DateError {
    /// The bytes are not three or four parts of digits with points between them.
    NotADate = 51,
    /// A part, or a day count, is out of range: the calendar has no such day, or the day no such hour.
    OutOfRange = 52,
}

numbered!(DateError, "51 or 52", NotADate OutOfRange);
