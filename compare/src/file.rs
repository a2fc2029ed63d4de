//! Request W1 read from its own words: the fields of a sheet file, each by its place and its width, and a
//! test for each refusal, by itself and in whole numbers. It stands beside the Rust, which has no sheet
//! files. With the files of the model it shares nothing but the paper's numbers.

use crate::numbers::*;
use crate::record::{ToPack, ToUnpack};
use crate::sheet;
use std::ops::Range;

// ---- The layout ----

/// Where the fields of the head stand.
const TOTAL: Range<usize> = 0..4;
const VERSION: usize = 4;
const TEXT_LENGTH: Range<usize> = 5..8;
const COUNT: Range<usize> = 8..12;

/// Where the words of a token stand among its bytes.
const TOKEN: [Range<usize>; WORDS] = [0..1, 1..5, 5..9];

/// The number that these bytes spell, the largest first.
fn number(bytes: &[u8]) -> u64 {
    bytes.iter().fold(0, |number, &byte| 256 * number + u64::from(byte))
}

/// Puts a number into these bytes. One that is too large for them loses what is over: no file is made of
/// such a one, but the cases are.
fn put(bytes: &mut [u8], number: u64) {
    let mut left = number;
    for byte in bytes.iter_mut().rev() {
        *byte = (left % 256) as u8;
        left /= 256;
    }
}

/// How many bytes the file of so many tokens has.
pub fn length_of(count: u32) -> u64 {
    FILE_HEAD as u64 + FILE_TOKEN as u64 * u64::from(count)
}

/// The file of these tokens, which need not be sound.
pub fn laid(text_length: u32, words: &[u32]) -> Vec<u8> {
    let count = words.len() / WORDS;
    let mut file = vec![0; FILE_HEAD + FILE_TOKEN * count];
    file[VERSION] = FILE_VERSION;
    put(&mut file[TEXT_LENGTH], text_length.into());
    put_count(&mut file, count as u32);
    put_total(&mut file);
    let tokens = file[FILE_HEAD..].chunks_exact_mut(FILE_TOKEN);
    for (bytes, token) in tokens.zip(words.chunks_exact(WORDS)) {
        for (place, word) in TOKEN.into_iter().zip(token) {
            put(&mut bytes[place], u64::from(*word));
        }
    }
    file
}

/// Makes the first word of a file its length, where it has one.
pub fn put_total(file: &mut [u8]) {
    let length = file.len() as u64;
    if let Some(total) = file.get_mut(TOTAL) {
        put(total, length);
    }
}

/// Makes this the version of a file, where it has one.
pub fn put_version(file: &mut [u8], version: u8) {
    if let Some(place) = file.get_mut(VERSION) {
        *place = version;
    }
}

/// Makes this the count of a file, where it has one.
pub fn put_count(file: &mut [u8], count: u32) {
    if let Some(place) = file.get_mut(COUNT) {
        put(place, count.into());
    }
}

/// The count of a file, where it has one.
pub fn count(file: &[u8]) -> Option<u32> {
    file.get(COUNT).map(|bytes| number(bytes) as u32)
}

/// The text length and the words of all whole tokens that stand in a file with a head.
pub fn sheet_in(file: &[u8]) -> (u32, Vec<u32>) {
    let tokens = file[FILE_HEAD..].chunks_exact(FILE_TOKEN);
    let words = |token: &[u8]| TOKEN.map(|place| number(&token[place]) as u32);
    (number(&file[TEXT_LENGTH]) as u32, tokens.flat_map(words).collect())
}

// ---- The refusals ----

/// What a refusal is given for.
#[derive(Clone, Copy, Debug, PartialEq, Eq)]
pub enum Cause {
    UnderHead,
    OtherTotal,
    OtherVersion,
    OtherCount,
    NotSound,
    TextOverField,
    TotalOverField,
    NoRoom,
}

/// The causes for which a sheet is not put on file, in the order in which the request looks: all but
/// TotalOverField, which needs a larger sheet than a record holds.
pub const PACK_CAUSES: [Cause; 3] = [Cause::NotSound, Cause::TextOverField, Cause::NoRoom];

/// The causes for which a file is not read, in that order.
pub const UNPACK_CAUSES: [Cause; 6] = [
    Cause::UnderHead,
    Cause::OtherTotal,
    Cause::OtherVersion,
    Cause::OtherCount,
    Cause::NotSound,
    Cause::NoRoom,
];

impl Cause {
    /// The refusal that is given for it.
    pub fn number(self) -> u8 {
        match self {
            Cause::UnderHead | Cause::OtherTotal => FILE_LENGTH,
            Cause::OtherVersion => UNKNOWN_VERSION,
            Cause::OtherCount => FILE_COUNT,
            Cause::NotSound => FILE_NOT_SOUND,
            Cause::TextOverField | Cause::TotalOverField => FILE_TOO_LARGE,
            Cause::NoRoom => FILE_NO_ROOM,
        }
    }
}

/// All that speaks against putting a sheet on file; the first decides.
pub fn against_packing(asked: &ToPack) -> Vec<Cause> {
    let total = length_of(asked.count);
    let mut causes = Vec::new();
    if !sheet::sound(asked.length, &asked.words, asked.count) {
        causes.push(Cause::NotSound);
    }
    causes.extend((asked.length > MOST_OF_THREE).then_some(Cause::TextOverField));
    causes.extend((total > MOST_OF_FOUR).then_some(Cause::TotalOverField));
    causes.extend((total > asked.room as u64).then_some(Cause::NoRoom));
    causes
}

/// All that speaks against reading a file; the first decides. One without a whole head has no fields to
/// look at. Where the count is another than that of the tokens, the check is made on the tokens that are
/// there.
pub fn against_unpacking(asked: &ToUnpack<'_>) -> Vec<Cause> {
    let file = asked.file;
    if file.len() < FILE_HEAD {
        return vec![Cause::UnderHead];
    }
    let count = number(&file[COUNT]) as u32;
    let (text_length, words) = sheet_in(file);
    let mut causes = Vec::new();
    causes.extend((number(&file[TOTAL]) != file.len() as u64).then_some(Cause::OtherTotal));
    causes.extend((file[VERSION] != FILE_VERSION).then_some(Cause::OtherVersion));
    causes.extend((length_of(count) != file.len() as u64).then_some(Cause::OtherCount));
    causes.extend((!sheet::sound(text_length, &words, count)).then_some(Cause::NotSound));
    let need = WORDS as u64 * u64::from(count);
    causes.extend((need > asked.room as u64).then_some(Cause::NoRoom));
    causes
}

/// Whether the count of a file agrees with its length in 32 bits and in whole numbers does not.
pub fn agrees_in_32_bits_alone(file: &[u8]) -> bool {
    count(file).is_some_and(|count| {
        length_of(count) != file.len() as u64 && length_of(count) as u32 == file.len() as u32
    })
}

// ---- The answers ----

/// A sheet's file, or the refusal's number.
pub fn pack(asked: &ToPack) -> Result<Vec<u8>, u8> {
    match against_packing(asked).first() {
        Some(cause) => Err(cause.number()),
        None => Ok(laid(asked.length, &asked.words[..WORDS * asked.count as usize])),
    }
}

/// The text length and the words that a file holds, or the refusal's number.
pub fn unpack(asked: &ToUnpack<'_>) -> Result<(u32, Vec<u32>), u8> {
    match against_unpacking(asked).first() {
        Some(cause) => Err(cause.number()),
        None => Ok(sheet_in(asked.file)),
    }
}
