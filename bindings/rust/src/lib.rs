#![doc = include_str!("../README.md")]
#![deny(unsafe_code)]
#![warn(missing_docs)]

#[allow(unsafe_code)]
mod calls;
mod date;
mod error;
mod numbers;
mod operator;
mod scalar;
pub mod sheet;
mod tape;
pub mod text;
mod token;

pub use calls::version;
pub use date::Date;
pub use error::{DateError, Error, ErrorKind, FileError, WriteError};
pub use numbers::{FILE_HEAD, FILE_TOKEN, LAST_DAY, LEVEL_LIMIT, TEXT_LIMIT, WORDS_PER_TOKEN};
pub use numbers::{bytes_for, file_bytes_for, file_words_for, words_for};
pub use scalar::{ReadingKind, Scalar, ScalarError};
pub use tape::{TextTape, TextTapeParser};
pub use token::TextToken;
