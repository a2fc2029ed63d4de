//! Document 01's numbers, typed from its tables, and those of the requests, each once: whoever makes,
//! reads or judges an answer here names them, and a request that changes one changes it in this file.
//! Nothing is taken from our programs.

// ---- Sizes ----

/// The most bytes that a text may have.
pub const TEXT_LIMIT: usize = 16_777_215;

/// How many words a token takes: its code, a and b.
pub const WORDS: usize = 3;

/// The words of a token, made here alone.
pub const fn token(code: u32, a: u32, b: u32) -> [u32; WORDS] {
    [code, a, b]
}

/// The most bytes that the dump reads, and that a record holds.
pub const LONGEST: usize = 32_768;

/// The dump's room in tokens, and the most that a record is lent: a capacity over it is taken for it.
pub const MOST_TOKENS: u16 = 5_000;

/// The most bytes of room that a record lends for a text or a file that is written, and the most words of
/// scratch, or of room for a sheet that is read.
pub const MOST_ROOM: usize = 32_768;
pub const MOST_SCRATCH: usize = 16_384;

/// The version of a sheet file; its bytes before the tokens: its own length in four, the version, the text's
/// length in three, the count in four; and the bytes of a token there: its code, and two words in four each.
pub const FILE_VERSION: u8 = 1;
pub const FILE_HEAD: usize = 12;
pub const FILE_TOKEN: usize = 9;

/// The most that three bytes tell, and four.
pub const MOST_OF_THREE: u32 = 0xff_ffff;
pub const MOST_OF_FOUR: u64 = 0xffff_ffff;

// No record needs more room than the most: the largest sheet that one holds has a shorter file, and the
// largest file that one holds has fewer words. So a room over the most changes no answer.
const _: () = assert!(FILE_HEAD + FILE_TOKEN * ((LONGEST - 8) / (4 * WORDS)) < MOST_ROOM);
const _: () = assert!(WORDS * ((LONGEST - FILE_HEAD) / FILE_TOKEN) < MOST_SCRATCH);

/// How many containers a text that is written may have one in another.
pub const MOST_LEVELS: usize = 64;

/// A calendar's last year and the days of each; the last hour of a day; and the count of the last day of the
/// last year, where 1.1.1 has 0. How long a month is, each reading of the request says by itself.
pub const LAST_YEAR: u32 = 9_999;
pub const YEAR_DAYS: u32 = 365;
pub const LAST_HOUR: u32 = 24;
pub const LAST_COUNT: u32 = 3_649_634;
const _: () = assert!(LAST_COUNT + 1 == LAST_YEAR * YEAR_DAYS);

/// Words that are room for every text of so many bytes: 2n + 1 tokens.
pub fn room_for(bytes: usize) -> usize {
    WORDS * (2 * bytes + 1)
}

// ---- Token codes ----

pub const ARRAY: u32 = 1;
pub const OBJECT: u32 = 2;
pub const MIXED_CONTAINER: u32 = 3;
pub const UNQUOTED: u32 = 4;
pub const QUOTED: u32 = 5;
pub const PARAMETER: u32 = 6;
pub const UNDEFINED_PARAMETER: u32 = 7;
pub const OPERATOR: u32 = 8;
pub const END: u32 = 9;
pub const HEADER: u32 = 10;
pub const QUOTED_ESCAPE: u32 = 11;

/// Every code with its name in the dump; the last one has the largest number.
pub const NAMES: [(u32, &str); 11] = [
    (ARRAY, "Array"),
    (OBJECT, "Object"),
    (MIXED_CONTAINER, "MixedContainer"),
    (UNQUOTED, "Unquoted"),
    (QUOTED, "Quoted"),
    (PARAMETER, "Parameter"),
    (UNDEFINED_PARAMETER, "UndefinedParameter"),
    (OPERATOR, "Operator"),
    (END, "End"),
    (HEADER, "Header"),
    (QUOTED_ESCAPE, "QuotedEscape"),
];

/// The largest code.
pub const LAST_CODE: u32 = NAMES[NAMES.len() - 1].0;

/// The codes whose a and b are an offset and a length.
pub const SCALAR_CODES: [u32; 6] =
    [UNQUOTED, QUOTED, PARAMETER, UNDEFINED_PARAMETER, HEADER, QUOTED_ESCAPE];

/// The codes of what stands in quotes: the scalars whose length may be 0.
pub const QUOTED_CODES: [u32; 2] = [QUOTED, QUOTED_ESCAPE];

/// The codes of the openers.
pub const OPENER_CODES: [u32; 2] = [ARRAY, OBJECT];

pub fn is_scalar(code: u32) -> bool {
    SCALAR_CODES.contains(&code)
}

pub fn is_quoted(code: u32) -> bool {
    QUOTED_CODES.contains(&code)
}

/// The codes of the two kinds of parameters.
pub fn is_parameter(code: u32) -> bool {
    code == PARAMETER || code == UNDEFINED_PARAMETER
}

/// The codes of the scalars that request W5 writes out as a key or as an entry by itself.
pub fn is_written(code: u32) -> bool {
    code == UNQUOTED || is_quoted(code)
}

pub fn is_opener(code: u32) -> bool {
    OPENER_CODES.contains(&code)
}

/// A code's name, which every code of the table has.
pub fn name(code: u32) -> &'static str {
    NAMES.iter().find(|named| named.0 == code).expect("a code of the table").1
}

// ---- Operators: an Operator's a ----

pub const LESS_THAN: u32 = 1;
pub const LESS_THAN_EQUAL: u32 = 2;
pub const GREATER_THAN: u32 = 3;
pub const GREATER_THAN_EQUAL: u32 = 4;
pub const NOT_EQUAL: u32 = 5;
pub const EXACT: u32 = 6;
pub const EQUAL: u32 = 7;
pub const EXISTS: u32 = 8;

/// An operator's sign in a text, in the order of the numbers.
pub const SIGNS: [&str; 8] = ["<", "<=", ">", ">=", "!=", "==", "=", "?="];

/// The sign of the operator with this number, which is one of the eight.
pub fn sign(operator: u32) -> &'static str {
    SIGNS[(operator - LESS_THAN) as usize]
}

// ---- Refusals ----

pub const TOO_LONG: u8 = 1;
pub const EOF: u8 = 2;
pub const STACK_EMPTY: u8 = 3;
pub const NO_HEADER: u8 = 4;
pub const NO_VALUE: u8 = 5;
pub const PARAMETER_IN_MIXED: u8 = 6;
pub const NOTHING_BEFORE_OPERATOR: u8 = 7;
pub const UNKNOWN_OPERATOR: u8 = 8;
pub const NO_PARAMETER: u8 = 9;
pub const OPEN_PARAMETER_NAME: u8 = 10;
pub const FULL: u8 = 11;
pub const NO_SCALAR: u8 = 12;
pub const ALL_DIGITS: u8 = 21;
pub const OVERFLOW: u8 = 22;
pub const INVALID_BOOL: u8 = 23;
pub const PRECISION_LOSS: u8 = 24;

/// Those of request W1: reading looks in the order 31, 32, 36, 33, 34, and writing in the order 33, 35, 34.
pub const FILE_LENGTH: u8 = 31;
pub const UNKNOWN_VERSION: u8 = 32;
pub const FILE_NOT_SOUND: u8 = 33;
pub const FILE_NO_ROOM: u8 = 34;
pub const FILE_TOO_LARGE: u8 = 35;
pub const FILE_COUNT: u8 = 36;

/// Those of request W5, which holds them against a sheet in the order 41, 46, 42, 43, 44, 45.
pub const NOT_SOUND: u8 = 41;
pub const TOO_DEEP: u8 = 42;
pub const TEXT_TOO_LONG: u8 = 43;
pub const NO_ROOM: u8 = 44;
pub const READS_DIFFERENTLY: u8 = 45;
pub const OTHER_FORM: u8 = 46;

/// Those of request W8: the shape of the whole scalar is looked at before any range.
pub const NO_DATE: u8 = 51;
pub const OUT_OF_RANGE: u8 = 52;

// ---- Reading kinds ----

pub const BOOL: u8 = 1;
pub const WHOLE: u8 = 2;
pub const DECIMAL: u8 = 3;
pub const NAME: u8 = 4;
