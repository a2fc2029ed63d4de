//! A token, and how its words on a tape tell it.

use crate::Scalar;
use crate::numbers::{
    ARRAY, END, HEADER, MIXED_CONTAINER, OBJECT, OPERATOR, PARAMETER, QUOTED, QUOTED_ESCAPE,
    UNDEFINED_PARAMETER, UNQUOTED, WORDS_PER_TOKEN,
};
use crate::operator::Operator;

/// A token of a save: a container's begin or end, a value, or a sign.
///
/// A key's value follows it, but look before you take it: an operator may stand between them, and where
/// an object goes on as a mixed container, a key's value is behind an [`Operator::Equal`] or is not
/// there at all.
#[derive(Debug, Clone, PartialEq, Eq)]
pub enum TextToken<'a> {
    /// An array begins
    Array {
        /// The index of its `End`
        end: usize,
        /// Whether it is mixed. Where it is, it holds a `MixedContainer` directly; the converse is
        /// false (`a={b c=d {}}`)
        mixed: bool,
    },

    /// An object begins
    Object {
        /// The index of its `End`
        end: usize,
        /// Whether it is mixed, as for an `Array`
        mixed: bool,
    },

    /// From here on a container holds both values and pairs
    MixedContainer,

    /// A value without quotes
    Unquoted(Scalar<'a>),

    /// A value in quotes: the bytes between them, with the escapes as they stand. A tape of words tells
    /// those with an escape by a code of their own, 11; jomini and this enum do not. They are those with
    /// a backslash in their bytes:
    ///
    /// ```
    /// use tackacorn::{TextTape, TextToken};
    ///
    /// let tape = TextTape::from_slice(br#"a="b\"c""#).unwrap();
    /// let TextToken::Quoted(name) = tape.tokens()[1] else { panic!("no quotes") };
    /// assert!(name.as_bytes().contains(&b'\\'));
    /// ```
    Quoted(Scalar<'a>),

    /// The name of a parameter, `[[name] ..]`
    Parameter(Scalar<'a>),

    /// The name of a parameter that must not be defined, `[[!name] ..]`
    UndefinedParameter(Scalar<'a>),

    /// A sign other than the `=` between a key and its value
    Operator(Operator),

    /// A container ends, which began at this index
    End(usize),

    /// A name before the container that it belongs to, the `rgb` of `color = rgb { 100 200 50 }`
    Header(Scalar<'a>),
}

impl<'a> TextToken<'a> {
    /// The scalar of a token that has one.
    ///
    /// ```
    /// use tackacorn::{Scalar, TextToken};
    ///
    /// let abc = Scalar::new(b"abc");
    /// assert_eq!(TextToken::Unquoted(abc).as_scalar(), Some(abc));
    /// assert_eq!(TextToken::Header(abc).as_scalar(), Some(abc));
    /// assert_eq!((TextToken::Object { end: 2, mixed: false }).as_scalar(), None);
    /// ```
    pub fn as_scalar(&self) -> Option<Scalar<'a>> {
        match self {
            TextToken::Header(s)
            | TextToken::Unquoted(s)
            | TextToken::Quoted(s)
            | TextToken::Parameter(s)
            | TextToken::UndefinedParameter(s) => Some(*s),
            _ => None,
        }
    }

    /// The words of this token, its scalar's bytes being put behind those of the scalars before it. Views
    /// must rise, and no two may begin at the same place: a byte is left between them. What does not fit a
    /// word becomes its greatest number, with which the sheet is not sound or its text too long.
    pub(crate) fn tell(&self, text: &mut Vec<u8>) -> [u32; WORDS_PER_TOKEN] {
        let word = |number: usize| u32::try_from(number).unwrap_or(u32::MAX);
        let mut scalar = |code, scalar: &Scalar<'_>| {
            let offset = text.len();
            text.extend_from_slice(scalar.as_bytes());
            text.push(b' ');
            [code, word(offset), word(scalar.as_bytes().len())]
        };
        match self {
            TextToken::Array { end, mixed } => [ARRAY, word(*end), u32::from(*mixed)],
            TextToken::Object { end, mixed } => [OBJECT, word(*end), u32::from(*mixed)],
            TextToken::MixedContainer => [MIXED_CONTAINER, 0, 0],
            TextToken::Unquoted(s) => scalar(UNQUOTED, s),
            TextToken::Quoted(s) if s.as_bytes().contains(&b'\\') => scalar(QUOTED_ESCAPE, s),
            TextToken::Quoted(s) => scalar(QUOTED, s),
            TextToken::Parameter(s) => scalar(PARAMETER, s),
            TextToken::UndefinedParameter(s) => scalar(UNDEFINED_PARAMETER, s),
            TextToken::Operator(operator) => [OPERATOR, operator.number(), 0],
            TextToken::End(opener) => [END, word(*opener), 0],
            TextToken::Header(s) => scalar(HEADER, s),
        }
    }

    /// The token that these words tell, where they have a token's form and lie in the text.
    #[inline]
    pub(crate) fn told(text: &'a [u8], words: &[u32; WORDS_PER_TOKEN]) -> Option<Self> {
        let [code, a, b, ..] = *words;
        let (a, b) = (a as usize, b as usize);
        let scalar = || text.get(a..a.checked_add(b)?).map(Scalar::new);
        Some(match code {
            ARRAY => TextToken::Array { end: a, mixed: b == 1 },
            OBJECT => TextToken::Object { end: a, mixed: b == 1 },
            MIXED_CONTAINER => TextToken::MixedContainer,
            UNQUOTED => TextToken::Unquoted(scalar()?),
            QUOTED | QUOTED_ESCAPE => TextToken::Quoted(scalar()?),
            PARAMETER => TextToken::Parameter(scalar()?),
            UNDEFINED_PARAMETER => TextToken::UndefinedParameter(scalar()?),
            OPERATOR => TextToken::Operator(Operator::numbered(words[1])?),
            END => TextToken::End(a),
            HEADER => TextToken::Header(scalar()?),
            _ => return None,
        })
    }
}
