//! The numbers of the format, each once, as `include/tackacorn.h` has them; a test below holds them
//! against it.

/// The most bytes that a text may have. A longer one is refused with
/// [`ErrorKind::TooLong`](crate::ErrorKind::TooLong).
pub const TEXT_LIMIT: usize = 16_777_215;

/// How deep containers may stand in each other to be written. Deeper ones are refused with
/// [`WriteError::TooDeep`](crate::WriteError::TooDeep).
pub const LEVEL_LIMIT: usize = 64;

/// How many words a token takes on a tape of words: its code, a and b.
pub const WORDS_PER_TOKEN: usize = 3;

/// How many words are room for every text of so many bytes: those of 2n + 1 tokens.
pub const fn words_for(bytes: usize) -> usize {
    WORDS_PER_TOKEN * (2 * bytes + 1)
}

/// How many bytes are room for what is written of every sheet of so many tokens over a text of so many
/// bytes: the views are parts of the text that do not overlap, and a token adds at most 3 bytes to its own.
pub const fn bytes_for(bytes: usize, count: usize) -> usize {
    bytes + 3 * count
}

/// How many bytes of a sheet file stand before its tokens.
pub const FILE_HEAD: usize = 12;

/// How many bytes a token takes in a sheet file.
pub const FILE_TOKEN: usize = 9;

/// How many bytes the sheet file of so many tokens has.
pub const fn file_bytes_for(count: usize) -> usize {
    FILE_HEAD + FILE_TOKEN * count
}

/// How many words are room for the tokens of every sheet file of so many bytes.
pub const fn file_words_for(bytes: usize) -> usize {
    WORDS_PER_TOKEN * (bytes / FILE_TOKEN)
}

/// The last day that has a count: that of 9999.12.31. A larger count is refused with
/// [`DateError::OutOfRange`](crate::DateError::OutOfRange).
pub const LAST_DAY: u32 = 3_649_634;

pub(crate) const ARRAY: u32 = 1;
pub(crate) const OBJECT: u32 = 2;
pub(crate) const MIXED_CONTAINER: u32 = 3;
pub(crate) const UNQUOTED: u32 = 4;
pub(crate) const QUOTED: u32 = 5;
pub(crate) const PARAMETER: u32 = 6;
pub(crate) const UNDEFINED_PARAMETER: u32 = 7;
pub(crate) const OPERATOR: u32 = 8;
pub(crate) const END: u32 = 9;
pub(crate) const HEADER: u32 = 10;
pub(crate) const QUOTED_ESCAPE: u32 = 11;

pub(crate) const LESS_THAN: u32 = 1;
pub(crate) const LESS_THAN_EQUAL: u32 = 2;
pub(crate) const GREATER_THAN: u32 = 3;
pub(crate) const GREATER_THAN_EQUAL: u32 = 4;
pub(crate) const NOT_EQUAL: u32 = 5;
pub(crate) const EXACT: u32 = 6;
pub(crate) const EQUAL: u32 = 7;
pub(crate) const EXISTS: u32 = 8;

pub(crate) const ALL_DIGITS: u32 = 21;
pub(crate) const OVERFLOW: u32 = 22;
pub(crate) const INVALID_BOOL: u32 = 23;
pub(crate) const PRECISION_LOSS: u32 = 24;

#[cfg(test)]
mod tests {
    use super::*;
    use crate::{DateError, ErrorKind, FileError, ReadingKind, WriteError};

    /// Every `TACKACORN_NAME = NUMBER` and `#define TACKACORN_NAME NUMBER` of the header.
    fn header() -> Vec<(String, u64)> {
        let path = concat!(env!("CARGO_MANIFEST_DIR"), "/../../include/tackacorn.h");
        let text = std::fs::read_to_string(path).expect("the header of this repository");
        let named = |line: &str| {
            let line = line.trim().trim_start_matches("#define ");
            let (name, rest) = line.strip_prefix("TACKACORN_")?.split_once(' ')?;
            let digits = rest.trim_start_matches("= ").split(|c: char| !c.is_ascii_digit());
            Some((name.to_string(), digits.into_iter().next()?.parse().ok()?))
        };
        text.lines().filter_map(named).collect()
    }

    /// The sizes, and the last day.
    const SIZES: &[(&str, u64)] = &[
        ("TEXT_LIMIT", TEXT_LIMIT as u64),
        ("LEVEL_LIMIT", LEVEL_LIMIT as u64),
        ("WORDS_PER_TOKEN", WORDS_PER_TOKEN as u64),
        ("FILE_HEAD", FILE_HEAD as u64),
        ("FILE_TOKEN", FILE_TOKEN as u64),
        ("LAST_DAY", LAST_DAY as u64),
    ];

    /// The codes of tokens and operators, and the refusals of the readings.
    const CODES: &[(&str, u64)] = &[
        ("ARRAY", ARRAY as u64),
        ("OBJECT", OBJECT as u64),
        ("MIXED_CONTAINER", MIXED_CONTAINER as u64),
        ("UNQUOTED", UNQUOTED as u64),
        ("QUOTED", QUOTED as u64),
        ("PARAMETER", PARAMETER as u64),
        ("UNDEFINED_PARAMETER", UNDEFINED_PARAMETER as u64),
        ("OPERATOR", OPERATOR as u64),
        ("END", END as u64),
        ("HEADER", HEADER as u64),
        ("QUOTED_ESCAPE", QUOTED_ESCAPE as u64),
        ("LESS_THAN", LESS_THAN as u64),
        ("LESS_THAN_EQUAL", LESS_THAN_EQUAL as u64),
        ("GREATER_THAN", GREATER_THAN as u64),
        ("GREATER_THAN_EQUAL", GREATER_THAN_EQUAL as u64),
        ("NOT_EQUAL", NOT_EQUAL as u64),
        ("EXACT", EXACT as u64),
        ("EQUAL", EQUAL as u64),
        ("EXISTS", EXISTS as u64),
        ("ALL_DIGITS", ALL_DIGITS as u64),
        ("OVERFLOW", OVERFLOW as u64),
        ("INVALID_BOOL", INVALID_BOOL as u64),
        ("PRECISION_LOSS", PRECISION_LOSS as u64),
    ];

    /// The refusals of a text and of a view.
    const KINDS: &[(&str, u64)] = &[
        ("TOO_LONG", ErrorKind::TooLong as u64),
        ("EOF", ErrorKind::Eof as u64),
        ("STACK_EMPTY", ErrorKind::StackEmpty as u64),
        ("NO_HEADER", ErrorKind::NoHeader as u64),
        ("NO_VALUE", ErrorKind::NoValue as u64),
        ("MIXED_PARAMETER", ErrorKind::MixedParameter as u64),
        ("NOTHING_PRECEDES", ErrorKind::NothingPrecedes as u64),
        ("UNKNOWN_OPERATOR", ErrorKind::UnknownOperator as u64),
        ("NO_PARAMETER", ErrorKind::NoParameter as u64),
        ("OPEN_NAME", ErrorKind::OpenName as u64),
        ("FULL", ErrorKind::Full as u64),
        ("NO_SCALAR", ErrorKind::NoScalar as u64),
    ];

    /// The refusals of a sheet to write, of a sheet on file and of a date.
    const ERRORS: &[(&str, u64)] = &[
        ("NOT_SOUND", WriteError::NotSound as u64),
        ("TOO_DEEP", WriteError::TooDeep as u64),
        ("WRITTEN_TOO_LONG", WriteError::TooLong as u64),
        ("NO_ROOM", WriteError::NoRoom as u64),
        ("READS_OTHERWISE", WriteError::ReadsOtherwise as u64),
        ("OTHER_FORM", WriteError::OtherForm as u64),
        ("FILE_LENGTH", FileError::Length as u64),
        ("UNKNOWN_VERSION", FileError::UnknownVersion as u64),
        ("FILE_NOT_SOUND", FileError::NotSound as u64),
        ("FILE_NO_ROOM", FileError::NoRoom as u64),
        ("FILE_TOO_LARGE", FileError::TooLarge as u64),
        ("FILE_COUNT", FileError::Count as u64),
        ("NOT_A_DATE", DateError::NotADate as u64),
        ("OUT_OF_RANGE", DateError::OutOfRange as u64),
    ];

    /// What a scalar is.
    const READINGS: &[(&str, u64)] = &[
        ("BOOL", ReadingKind::Bool as u64),
        ("WHOLE", ReadingKind::Whole as u64),
        ("DECIMAL", ReadingKind::Decimal as u64),
        ("NAME", ReadingKind::Name as u64),
    ];

    #[test]
    fn the_header_has_the_same_numbers() {
        let header = header();
        let named = [SIZES, CODES, KINDS, ERRORS, READINGS].concat();
        for &(name, number) in &named {
            let found = header.iter().find(|named| named.0 == name);
            assert_eq!(found.map(|named| named.1), Some(number), "TACKACORN_{name}");
        }
        // and it has no other besides the version, OK and NOTHING
        let others = header.iter().filter(|named| !named.0.starts_with("VERSION"));
        assert_eq!(others.count(), named.len() + 2, "{header:?}");
    }
}
