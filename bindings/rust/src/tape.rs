//! A save's tokens in memory of their own, as jomini's tape has them.

use crate::{Error, TextToken, WriteError, sheet};
use std::fmt;

/// The tokens of a text.
///
/// ```
/// use tackacorn::{Scalar, TextTape, TextToken};
///
/// let tape = TextTape::from_slice(b"GER={ fighter=19 }").unwrap();
/// assert_eq!(
///     tape.tokens(),
///     [
///         TextToken::Unquoted(Scalar::new(b"GER")),
///         TextToken::Object { end: 4, mixed: false },
///         TextToken::Unquoted(Scalar::new(b"fighter")),
///         TextToken::Unquoted(Scalar::new(b"19")),
///         TextToken::End(1),
///     ]
/// );
/// ```
#[derive(Clone, Default)]
pub struct TextTape<'a> {
    tokens: Vec<TextToken<'a>>,
    utf8_bom: bool,
    /// The words of the last parse, kept for the next one.
    words: Vec<u32>,
}

impl<'a> TextTape<'a> {
    /// A tape with no tokens.
    pub fn new() -> Self {
        TextTape::default()
    }

    /// The tokens of this text, or why it is refused.
    ///
    /// # A save that was cut short may parse
    ///
    /// A text may end behind any value at the top level, and inside an object that stands there, which
    /// then counts as closed, as in the Rust. Of the places where a deep save can be cut about one in
    /// forty is such, of a flat one far more, and nothing in the answer shows it. Hold the length or a
    /// checksum of the file against what was sent.
    ///
    /// ```
    /// use tackacorn::TextTape;
    ///
    /// let whole = b"GER={ fighter=190 }";
    /// let short = TextTape::from_slice(&whole[..16]).unwrap();
    /// assert_eq!(short.tokens()[3].as_scalar().unwrap().to_u64(), Ok(19));
    /// ```
    pub fn from_slice(data: &[u8]) -> Result<TextTape<'_>, Error> {
        TextTapeParser.parse_slice(data)
    }

    /// A parser, for a tape that is used again.
    pub fn parser() -> TextTapeParser {
        TextTapeParser
    }

    /// The tokens.
    pub fn tokens(&self) -> &[TextToken<'a>] {
        &self.tokens
    }

    /// The tokens, to change. Nothing here relies on them afterwards; whoever walks them relies on an
    /// opener and its `End` naming each other.
    ///
    /// ```
    /// use tackacorn::{TextTape, TextToken, text::Operator};
    ///
    /// let mut tape = TextTape::from_slice(b"foo ?= 10").unwrap();
    /// for token in tape.tokens_mut() {
    ///     if let TextToken::Operator(Operator::Exists) = token {
    ///         *token = TextToken::Operator(Operator::Equal);
    ///     }
    /// }
    /// assert_eq!(tape.tokens()[1], TextToken::Operator(Operator::Equal));
    /// ```
    pub fn tokens_mut(&mut self) -> &mut [TextToken<'a>] {
        &mut self.tokens
    }

    /// Whether the text began with the bytes ef bb bf.
    pub fn utf8_bom(&self) -> bool {
        self.utf8_bom
    }

    /// The tokens as save text, also those that were changed: see [`sheet::write`] for what is written, and
    /// for what to know before the game loads it. jomini has no such call.
    ///
    /// A scalar may be put in from anywhere. Where it is none (an unquoted one with a blank, a quoted one
    /// with a quote that no backslash skips), the text would read differently, and is refused.
    ///
    /// ```
    /// use tackacorn::{Scalar, TextTape, TextToken, WriteError};
    ///
    /// let mut tape = TextTape::from_slice(b"order={ amount = 240 } name=\"Erik\"").unwrap();
    /// tape.tokens_mut()[3] = TextToken::Unquoted(Scalar::new(b"300"));
    /// tape.tokens_mut()[6] = TextToken::Quoted(Scalar::new(b"Gustav"));
    /// assert_eq!(tape.write().unwrap(), b"order={amount=300} name=\"Gustav\"");
    ///
    /// tape.tokens_mut()[3] = TextToken::Unquoted(Scalar::new(b"3 00"));
    /// assert_eq!(tape.write(), Err(WriteError::ReadsOtherwise));
    /// ```
    pub fn write(&self) -> Result<Vec<u8>, WriteError> {
        let mut text = Vec::new();
        let words: Vec<_> = self.tokens.iter().flat_map(|token| token.tell(&mut text)).collect();
        sheet::write(&text, &words, self.tokens.len())
    }
}

impl fmt::Debug for TextTape<'_> {
    fn fmt(&self, f: &mut fmt::Formatter<'_>) -> fmt::Result {
        let mut shown = f.debug_struct("TextTape");
        shown.field("tokens", &self.tokens).field("utf8_bom", &self.utf8_bom).finish()
    }
}

/// Parses texts onto tapes.
#[derive(Debug, Default)]
pub struct TextTapeParser;

impl TextTapeParser {
    /// A parser.
    pub fn new() -> Self {
        TextTapeParser
    }

    /// The tokens of this text, or why it is refused: see [`TextTape::from_slice`].
    pub fn parse_slice(self, data: &[u8]) -> Result<TextTape<'_>, Error> {
        let mut tape = TextTape::default();
        self.parse_slice_into_tape(data, &mut tape)?;
        // nobody will parse onto it in most programs, so the words need not stay
        tape.words = Vec::new();
        Ok(tape)
    }

    /// Parses onto a tape in place of what stands there, with the memory that it has. After a refusal
    /// the tape has no tokens and no BOM. (The Rust leaves those that it laid before it refused.)
    ///
    /// ```
    /// use tackacorn::TextTape;
    ///
    /// let saves = [b"a=b".as_slice(), b"a={1 2}", b"a=}"];
    /// let mut tape = TextTape::new();
    /// let counts = saves.map(|save| {
    ///     let parsed = TextTape::parser().parse_slice_into_tape(save, &mut tape);
    ///     parsed.map(|()| tape.tokens().len()).map_err(|refused| refused.number())
    /// });
    /// assert_eq!(counts, [Ok(2), Ok(5), Err(5)]);
    /// assert!(tape.tokens().is_empty());
    /// ```
    pub fn parse_slice_into_tape<'a>(
        self,
        data: &'a [u8],
        tape: &mut TextTape<'a>,
    ) -> Result<(), Error> {
        tape.tokens.clear();
        tape.utf8_bom = false;
        let parsed = sheet::parse(data, &mut tape.words)?;
        tape.tokens.extend(sheet::tokens_of(data, &tape.words));
        tape.utf8_bom = parsed.utf8_bom;
        Ok(())
    }
}
