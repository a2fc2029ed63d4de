//! Tapes of words, as the library lays them: three words a token, in memory of the caller. A *sheet* is
//! the words of some tokens beside the text that they view. Sheets can be put on file and exchanged; the check
//! says whether one that comes from elsewhere is sound, and one that is can be written as text again.

use crate::numbers::{TEXT_LIMIT, WORDS_PER_TOKEN};
use crate::numbers::{bytes_for, file_bytes_for, file_words_for, words_for};
use crate::{Error, ErrorKind, FileError, Scalar, TextToken, WriteError, calls};

/// What a parse answers: how many tokens it laid, and whether the text began with the bytes ef bb bf.
#[derive(Clone, Copy, Debug, PartialEq, Eq)]
pub struct Parsed {
    /// How many tokens were laid
    pub count: usize,
    /// Whether the text began with a byte order mark
    pub utf8_bom: bool,
}

/// Parses onto a tape that is lent, which has room for `tape.len() / WORDS_PER_TOKEN` tokens.
///
/// Writes every word of the tape, whatever stood there: the tokens and zeros behind them, or zeros after
/// a refusal. Where a token finds no room the text is refused with [`ErrorKind::Full`];
/// [`words_for`] says how many words are room enough for any text of a length.
///
/// ```
/// use tackacorn::{ErrorKind, sheet};
///
/// let mut tape = [7; 8];
/// let parsed = sheet::parse_into(b"a=\"b\"", &mut tape).unwrap();
/// assert_eq!((parsed.count, tape), (2, [4, 0, 1, 5, 3, 1, 0, 0]));
///
/// let full = sheet::parse_into(b"a={}", &mut tape).unwrap_err();
/// assert_eq!((full.kind(), tape), (ErrorKind::Full, [0; 8]));
/// ```
pub fn parse_into(text: &[u8], tape: &mut [u32]) -> Result<Parsed, Error> {
    let answer = calls::parse(text, tape);
    match answer.refusal {
        0 => Ok(Parsed { count: answer.count as usize, utf8_bom: answer.bom == 1 }),
        number => Err(Error::new(number, answer.place)),
    }
}

/// Parses onto a tape that grows, and leaves just the tokens' words on it, or none after a refusal.
///
/// It begins with the words that the tape has, and where these are too few, tries again with a word for
/// each byte of the text and then with twice as many each time. So it is never refused for room, it
/// touches no memory for a text that is too long, and most saves are parsed in one go.
///
/// ```
/// use tackacorn::sheet;
///
/// let mut words = Vec::new();
/// let parsed = sheet::parse(b"a={{}}", &mut words).unwrap();
/// assert_eq!((parsed.count, &words[..]), (3, &[4, 0, 1, 1, 2, 0, 9, 1, 0][..]));
/// ```
pub fn parse(text: &[u8], tape: &mut Vec<u32>) -> Result<Parsed, Error> {
    let enough = words_for(text.len());
    loop {
        match parse_into(text, tape) {
            Err(refused) if refused.kind() == ErrorKind::Full && tape.len() < enough => {
                let room = text.len().max(2 * tape.len()).clamp(WORDS_PER_TOKEN, enough);
                // the old words first: nobody wants them, and both need not be there at once
                *tape = Vec::new();
                *tape = vec![0; room];
            }
            Err(refused) => {
                tape.clear();
                return Err(refused);
            }
            Ok(parsed) => {
                tape.truncate(WORDS_PER_TOKEN * parsed.count);
                return Ok(parsed);
            }
        }
    }
}

/// Whether the first `count` tokens of the words are a sound sheet for a text of so many bytes.
///
/// Every token has a form of the format, every opener and its `End` name each other, containers lie in
/// each other, every view lies in the text and behind the one before it, and so on. It is true of what
/// parsing leaves, and says yes exactly when a sheet is sound. Words behind the tokens are ignored.
///
/// ```
/// use tackacorn::sheet;
///
/// assert!(sheet::is_sound(3, &[4, 0, 1, 4, 2, 1], 2));
/// assert!(!sheet::is_sound(2, &[4, 0, 1, 4, 2, 1], 2), "a view reaches out of the text");
/// assert!(!sheet::is_sound(3, &[4, 2, 1, 4, 0, 1], 2), "a view lies before the one before it");
/// assert!(!sheet::is_sound(3, &[4, 0, 1, 1, 1, 0], 2), "an opener's End is none");
/// assert!(!sheet::is_sound(3, &[4, 0, 1, 4, 2], 2), "a word is missing");
/// ```
pub fn is_sound(text_length: usize, words: &[u32], count: usize) -> bool {
    calls::check(text_length, words, count)
}

/// The view of a token of any words, sound or not.
///
/// Refused with [`ErrorKind::NoScalar`] where the index is not below the count, the words of so many
/// tokens are not there, the token is no scalar, or its view reaches out of the text.
///
/// ```
/// use tackacorn::{ErrorKind, Scalar, sheet};
///
/// let (text, words) = (b"a=\"b\"", [4, 0, 1, 5, 3, 1]);
/// assert_eq!(sheet::view(text, &words, 2, 1), Ok(Scalar::new(b"b")));
/// assert_eq!(sheet::view(text, &words, 2, 2).unwrap_err().kind(), ErrorKind::NoScalar);
/// assert_eq!(sheet::view(b"", &words, 2, 1).unwrap_err().number(), 12);
/// ```
pub fn view<'t>(
    text: &'t [u8],
    words: &[u32],
    count: usize,
    index: usize,
) -> Result<Scalar<'t>, Error> {
    match calls::view(text, words, count, index) {
        (0, offset, size) => Ok(Scalar::new(&text[offset..offset + size])),
        (number, ..) => Err(Error::new(number, 0)),
    }
}

/// Writes the sheet of the first `count` tokens of the words as save text into a buffer that is lent, and
/// answers how many bytes it has.
///
/// Writes every byte of the buffer, whatever stood there: the text and zeros behind it, or zeros after a
/// refusal. The text is read back on the scratch, which is zero afterwards. [`bytes_for`] says how many bytes
/// are room enough; of the scratch it is [`WORDS_PER_TOKEN`] words for each token.
///
/// ```
/// use tackacorn::{WriteError, sheet};
///
/// let (text, words) = (b"k v w", [4, 0, 1, 5, 2, 3]);
/// let (mut out, mut scratch) = ([7; 8], [7; 6]);
/// assert_eq!(sheet::write_into(text, &words, 2, &mut out, &mut scratch), Ok(7));
/// assert_eq!((&out, scratch), (b"k=\"v w\"\0", [0; 6]));
///
/// let no_room = sheet::write_into(text, &words, 2, &mut out[..6], &mut scratch);
/// assert_eq!((no_room, &out[..6]), (Err(WriteError::NoRoom), &[0; 6][..]));
/// ```
pub fn write_into(
    text: &[u8],
    words: &[u32],
    count: usize,
    out: &mut [u8],
    scratch: &mut [u32],
) -> Result<usize, WriteError> {
    match calls::write(text, words, count, out, scratch) {
        (0, written) => Ok(written),
        (number, _) => Err(WriteError::new(number)),
    }
}

/// Writes the sheet of the first `count` tokens of the words as save text.
///
/// At the top level and in an object each key is followed by `=`, or by an operator with a space on either
/// side, and by its entry; one space stands between pairs and between the entries of an array, and no line
/// end but those in scalars. The text parses to the same tokens, with the same bytes in each scalar, or it is
/// refused.
///
/// # Before you hand the text to the game
///
/// Some saves parse and cannot be written: see [`WriteError`]. No BOM and no comment is written; a first line
/// like `HOI4txt` is, as a key, unless it was kept from the parser. A save that was cut short is written with
/// its last object closed. A name with a `!` in it is written as it is, and jomini may read `a!=b` as an
/// operator, where this crate has the key `a!`. An edited sheet is held against itself, not against what was
/// meant: `tackacorn.h` has what an edit must keep, under 'Before you edit a sheet'.
///
/// ```
/// use tackacorn::sheet;
///
/// let text = b"GER = { fighter = 19 # as sent\n depot = { 3 12 } }";
/// let mut words = Vec::new();
/// let parsed = sheet::parse(text, &mut words).unwrap();
/// let written = sheet::write(text, &words, parsed.count).unwrap();
/// assert_eq!(written, b"GER={fighter=19 depot={3 12}}");
/// ```
pub fn write(text: &[u8], words: &[u32], count: usize) -> Result<Vec<u8>, WriteError> {
    // where the words of so many tokens are not there, the library says so, and needs no room for that
    let tokens = if count <= words.len() / WORDS_PER_TOKEN { count } else { 0 };
    let mut out = vec![0; bytes_for(text.len(), tokens).min(TEXT_LIMIT)];
    let mut scratch = vec![0; WORDS_PER_TOKEN * tokens];
    let written = write_into(text, words, count, &mut out, &mut scratch)?;
    out.truncate(written);
    Ok(out)
}

/// Puts the sheet of the first `count` tokens of the words, of a text of so many bytes, on file, into a
/// buffer that is lent, and answers how many bytes the file has, which is [`file_bytes_for`] of the count.
///
/// Writes every byte of the buffer, whatever stood there: the file and zeros behind it, or zeros after a
/// refusal, which is [`FileError::NotSound`], [`TooLarge`](FileError::TooLarge) or
/// [`NoRoom`](FileError::NoRoom), in that order.
///
/// ```
/// use tackacorn::{FileError, sheet};
///
/// let mut out = [7; 14];
/// assert_eq!(sheet::pack_into(3, &[], 0, &mut out), Ok(12));
/// assert_eq!(out, [0, 0, 0, 12, 1, 0, 0, 3, 0, 0, 0, 0, 0, 0]);
///
/// assert_eq!(sheet::pack_into(3, &[], 0, &mut out[..11]), Err(FileError::NoRoom));
/// assert_eq!(out[..11], [0; 11]);
/// ```
pub fn pack_into(
    text_length: usize,
    words: &[u32],
    count: usize,
    out: &mut [u8],
) -> Result<usize, FileError> {
    match calls::sheet_write(text_length, words, count, out) {
        (0, written) => Ok(written),
        (number, _) => Err(FileError::new(number)),
    }
}

/// The sheet file of the first `count` tokens of the words, of a text of so many bytes. [`unpack`] reads the
/// same text length, count and words from it. The text is not in it.
///
/// ```
/// use tackacorn::sheet;
///
/// let file = sheet::pack(3, &[4, 0, 1, 4, 2, 1], 2).unwrap();
/// assert_eq!(file[..12], [0, 0, 0, 30, 1, 0, 0, 3, 0, 0, 0, 2]);
/// assert_eq!(file[12..], [4, 0, 0, 0, 0, 0, 0, 0, 1, 4, 0, 0, 0, 2, 0, 0, 0, 1]);
/// ```
pub fn pack(text_length: usize, words: &[u32], count: usize) -> Result<Vec<u8>, FileError> {
    // where the words of so many tokens are not there, the library says so, and needs no room for that
    let tokens = if count <= words.len() / WORDS_PER_TOKEN { count } else { 0 };
    let mut out = vec![0; file_bytes_for(tokens)];
    let written = pack_into(text_length, words, count, &mut out)?;
    out.truncate(written);
    Ok(out)
}

/// What a sheet file tells beside its tokens.
#[derive(Clone, Copy, Debug, PartialEq, Eq)]
pub struct Unpacked {
    /// How many bytes the text has that the sheet is of
    pub text_length: usize,
    /// How many tokens the sheet has
    pub count: usize,
}

/// Reads a sheet file, whatever its bytes are, into words that are lent.
///
/// Writes every word, whatever stood there: the tokens and zeros behind them, or zeros after a refusal, which
/// is [`FileError::Length`], [`UnknownVersion`](FileError::UnknownVersion), [`Count`](FileError::Count),
/// [`NotSound`](FileError::NotSound) or [`NoRoom`](FileError::NoRoom), in that order: a file that finds no
/// room is sound. [`file_words_for`] says how many words are room enough.
///
/// ```
/// use tackacorn::{FileError, sheet};
///
/// let file = sheet::pack(3, &[4, 0, 1, 4, 2, 1], 2).unwrap();
/// let mut words = [7; 8];
/// let unpacked = sheet::unpack_into(&file, &mut words).unwrap();
/// assert_eq!((unpacked.text_length, unpacked.count), (3, 2));
/// assert_eq!(words, [4, 0, 1, 4, 2, 1, 0, 0]);
///
/// assert_eq!(sheet::unpack_into(&file, &mut words[..5]), Err(FileError::NoRoom));
/// assert_eq!(words[..5], [0; 5]);
/// ```
pub fn unpack_into(file: &[u8], words: &mut [u32]) -> Result<Unpacked, FileError> {
    match calls::sheet_read(file, words) {
        (0, text_length, count) => Ok(Unpacked { text_length, count: count as usize }),
        (number, ..) => Err(FileError::new(number)),
    }
}

/// Reads a sheet file, whatever its bytes are, and leaves just the tokens' words, or none after a refusal.
///
/// # Before you trust a sheet from a file
///
/// The sheet is sound, and no more is known. The file has nothing of the text: over another text of the same
/// length every view is a part of that one, wrong and not refused. Hold the length against the text that you
/// have, and a checksum of the text and of the file against what was sent. A stranger's sheet may be sound and
/// be no parse of any text; where that matters, parse the text and compare the words. `tackacorn.h` has more,
/// under 'Before you trust a sheet from a file'.
///
/// ```
/// use tackacorn::sheet::{self, Sheet};
///
/// # let (save, words) = (b"a=rgb{1}", [4, 0, 1, 10, 2, 3, 1, 4, 0, 4, 6, 1, 9, 2, 0]);
/// # let sent = sheet::pack(save.len(), &words, 5).unwrap();
/// // the save, and the sheet file that was sent along
/// let mut words = Vec::new();
/// let unpacked = sheet::unpack(&sent, &mut words).expect("it is a sound sheet");
/// assert_eq!(unpacked.text_length, save.len(), "it is of a text of this length");
/// let sheet = Sheet::new(save, &words, unpacked.count).expect("and so it fits this one");
/// assert_eq!(sheet.write().unwrap(), b"a=rgb {1}");
/// ```
pub fn unpack(file: &[u8], words: &mut Vec<u32>) -> Result<Unpacked, FileError> {
    words.clear();
    words.resize(file_words_for(file.len()), 0);
    let unpacked = unpack_into(file, words);
    words.truncate(WORDS_PER_TOKEN * unpacked.map_or(0, |unpacked| unpacked.count));
    unpacked
}

/// The tokens of words that are known to be a sound sheet of this text.
pub(crate) fn tokens_of<'t>(
    text: &'t [u8],
    words: &[u32],
) -> impl ExactSizeIterator<Item = TextToken<'t>> {
    let (tokens, _) = words.as_chunks::<WORDS_PER_TOKEN>();
    tokens.iter().map(|words| TextToken::told(text, words).expect("a token of a sound sheet"))
}

/// A sheet that the check has passed, whoever made it, beside its text.
///
/// ```
/// use tackacorn::sheet::{self, Sheet};
/// use tackacorn::{Scalar, TextToken};
///
/// // a sheet that someone sent along with the text
/// let (text, words) = (b"a=rgb{1}", [4, 0, 1, 10, 2, 3, 1, 4, 0, 4, 6, 1, 9, 2, 0]);
/// let sheet = Sheet::new(text, &words, 5).expect("it is sound");
/// assert_eq!(sheet.get(1), Some(TextToken::Header(Scalar::new(b"rgb"))));
/// assert_eq!(sheet.view(3).unwrap().to_u64(), Ok(1));
/// assert!(sheet.view(2).is_err(), "an Array is no scalar");
/// assert_eq!(sheet.tokens().len(), 5);
///
/// // the same words over another text, or with a link that is wrong, are no sheet
/// assert!(Sheet::new(b"a=rgb", &words, 5).is_none());
/// ```
#[derive(Clone, Copy, Debug)]
pub struct Sheet<'t, 'w> {
    text: &'t [u8],
    words: &'w [u32],
}

impl<'t, 'w> Sheet<'t, 'w> {
    /// The sheet of the first `count` tokens of the words, if it is sound.
    pub fn new(text: &'t [u8], words: &'w [u32], count: usize) -> Option<Self> {
        if is_sound(text.len(), words, count) {
            Some(Sheet { text, words: &words[..WORDS_PER_TOKEN * count] })
        } else {
            None
        }
    }

    /// How many tokens it has.
    pub fn len(&self) -> usize {
        self.words.len() / WORDS_PER_TOKEN
    }

    /// Whether it has none.
    pub fn is_empty(&self) -> bool {
        self.words.is_empty()
    }

    /// The text.
    pub fn text(&self) -> &'t [u8] {
        self.text
    }

    /// The tokens' words, and no word behind them.
    pub fn words(&self) -> &'w [u32] {
        self.words
    }

    /// The token of an index below the count.
    pub fn get(&self, index: usize) -> Option<TextToken<'t>> {
        let (tokens, _) = self.words.as_chunks();
        TextToken::told(self.text, tokens.get(index)?)
    }

    /// All tokens, in their order.
    pub fn tokens(&self) -> impl ExactSizeIterator<Item = TextToken<'t>> + use<'t, 'w> {
        tokens_of(self.text, self.words)
    }

    /// The view of a token, or [`ErrorKind::NoScalar`].
    pub fn view(&self, index: usize) -> Result<Scalar<'t>, Error> {
        view(self.text, self.words, self.len(), index)
    }

    /// The sheet as save text: see [`write()`].
    ///
    /// ```
    /// use tackacorn::sheet::Sheet;
    ///
    /// let (text, words) = (b"a=rgb{1}", [4, 0, 1, 10, 2, 3, 1, 4, 0, 4, 6, 1, 9, 2, 0]);
    /// let sheet = Sheet::new(text, &words, 5).expect("it is sound");
    /// assert_eq!(sheet.write().unwrap(), b"a=rgb {1}");
    /// ```
    pub fn write(&self) -> Result<Vec<u8>, WriteError> {
        write(self.text, self.words, self.len())
    }

    /// The sheet as a sheet file: see [`pack()`]. It is refused where the text has more than 16,777,215 bytes.
    ///
    /// ```
    /// use tackacorn::sheet::{self, Sheet};
    ///
    /// let (text, words) = (b"a=rgb{1}", [4, 0, 1, 10, 2, 3, 1, 4, 0, 4, 6, 1, 9, 2, 0]);
    /// let file = Sheet::new(text, &words, 5).expect("it is sound").pack().unwrap();
    ///
    /// let mut again = Vec::new();
    /// assert_eq!(sheet::unpack(&file, &mut again).unwrap().text_length, text.len());
    /// assert_eq!(again, words);
    /// ```
    pub fn pack(&self) -> Result<Vec<u8>, FileError> {
        pack(self.text.len(), self.words, self.len())
    }
}
