//! The signs between a key and its value.

use crate::numbers::{
    EQUAL, EXACT, EXISTS, GREATER_THAN, GREATER_THAN_EQUAL, LESS_THAN, LESS_THAN_EQUAL, NOT_EQUAL,
};
use std::fmt;

/// A sign between a key and its value. Between the two, a plain `=` has no token, except behind a
/// [`MixedContainer`](crate::TextToken::MixedContainer), where it is [`Equal`](Operator::Equal).
///
/// ```
/// use tackacorn::text::Operator;
///
/// assert_eq!((Operator::LessThan.symbol(), Operator::LessThan.name()), ("<", "LESS_THAN"));
/// assert_eq!(Operator::Exists.to_string(), "?=");
/// ```
#[derive(Debug, PartialEq, Eq, Copy, Clone, Hash)]
pub enum Operator {
    /// `<`
    LessThan,
    /// `<=`
    LessThanEqual,
    /// `>`
    GreaterThan,
    /// `>=`
    GreaterThanEqual,
    /// `!=`
    NotEqual,
    /// `==`
    Exact,
    /// `=`
    Equal,
    /// `?=`
    Exists,
}

impl Operator {
    /// The sign.
    pub fn symbol(&self) -> &'static str {
        match self {
            Operator::LessThan => "<",
            Operator::LessThanEqual => "<=",
            Operator::GreaterThan => ">",
            Operator::GreaterThanEqual => ">=",
            Operator::NotEqual => "!=",
            Operator::Exact => "==",
            Operator::Equal => "=",
            Operator::Exists => "?=",
        }
    }

    /// The sign's name in capital letters.
    pub fn name(&self) -> &'static str {
        match self {
            Operator::LessThan => "LESS_THAN",
            Operator::LessThanEqual => "LESS_THAN_EQUAL",
            Operator::GreaterThan => "GREATER_THAN",
            Operator::GreaterThanEqual => "GREATER_THAN_EQUAL",
            Operator::NotEqual => "NOT_EQUAL",
            Operator::Exact => "EXACT",
            Operator::Equal => "EQUAL",
            Operator::Exists => "EXISTS",
        }
    }

    /// The operator's number, as a token's words have it.
    pub(crate) fn number(self) -> u32 {
        match self {
            Operator::LessThan => LESS_THAN,
            Operator::LessThanEqual => LESS_THAN_EQUAL,
            Operator::GreaterThan => GREATER_THAN,
            Operator::GreaterThanEqual => GREATER_THAN_EQUAL,
            Operator::NotEqual => NOT_EQUAL,
            Operator::Exact => EXACT,
            Operator::Equal => EQUAL,
            Operator::Exists => EXISTS,
        }
    }

    /// The operator of a number, as a token's words have it.
    pub(crate) fn numbered(number: u32) -> Option<Self> {
        Some(match number {
            LESS_THAN => Operator::LessThan,
            LESS_THAN_EQUAL => Operator::LessThanEqual,
            GREATER_THAN => Operator::GreaterThan,
            GREATER_THAN_EQUAL => Operator::GreaterThanEqual,
            NOT_EQUAL => Operator::NotEqual,
            EXACT => Operator::Exact,
            EQUAL => Operator::Equal,
            EXISTS => Operator::Exists,
            _ => return None,
        })
    }
}

impl fmt::Display for Operator {
    fn fmt(&self, f: &mut fmt::Formatter<'_>) -> fmt::Result {
        f.write_str(self.symbol())
    }
}
