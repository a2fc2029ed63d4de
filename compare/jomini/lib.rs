//! Five files of rakaly/jomini, compiled unchanged from where they lie, and stand-ins for the
//! names that they take from files which are not at hand. Nothing here reads a byte of a save.

#![allow(dead_code, unexpected_cfgs)]

include!(concat!(env!("OUT_DIR"), "/five.rs"));

pub use scalar::{Scalar, ScalarError};
pub use tape::{TextTape, TextToken};

/// Whether the Rust's fallback table calls this byte a boundary.
pub fn fallback_boundary(byte: u8) -> bool {
    data::is_boundary(byte)
}

/// The inner routine of the Rust's i64 reading: the number at a scalar's front, and what is left.
pub fn leading_number(scalar: &[u8]) -> Result<(i64, &[u8]), ScalarError> {
    scalar::to_i64_t(scalar)
}

pub mod text {
    pub use crate::operator::Operator;

    /// Stands in for the reader over a tape, which the comparison does not use.
    pub struct ObjectReader<'a, 'b, E>(std::marker::PhantomData<(&'b crate::TextTape<'a>, E)>);

    impl<'a, 'b, E> ObjectReader<'a, 'b, E> {
        pub(crate) fn new(_tape: &'b crate::TextTape<'a>, _encoding: E) -> Self {
            ObjectReader(std::marker::PhantomData)
        }
    }
}

#[derive(Debug)]
pub enum ErrorKind {
    Eof,
    StackEmpty { offset: usize },
    InvalidSyntax { msg: String, offset: usize },
}

#[derive(Debug)]
pub struct Error(pub ErrorKind);

impl Error {
    pub(crate) fn new(kind: ErrorKind) -> Self {
        Error(kind)
    }

    pub(crate) fn eof() -> Self {
        Error(ErrorKind::Eof)
    }
}

pub struct Windows1252Encoding;
pub struct Utf8Encoding;

impl Windows1252Encoding {
    pub(crate) fn new() -> Self {
        Windows1252Encoding
    }
}

impl Utf8Encoding {
    pub(crate) fn new() -> Self {
        Utf8Encoding
    }
}

/// Stands in for the decoder that prints a scalar, which the comparison does not do.
pub(crate) fn decode_windows1252(bytes: &[u8]) -> String {
    bytes.iter().map(|&b| data::WINDOWS_1252[usize::from(b)]).collect()
}
