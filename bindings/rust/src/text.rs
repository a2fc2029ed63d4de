//! The text of a save as tokens, with the names that jomini's module of this name has.

pub use crate::operator::Operator;
pub use crate::tape::{TextTape, TextTapeParser};
pub use crate::token::TextToken;
