//! Request W1 as a plain program: a file is written from its front to its end and read the same way, over
//! the model's own check. It stands on the other side of the comparison when the comparison itself is
//! tested, and for that it can be given one fault. With the files that are asked for beside the Rust it
//! shares the paper's numbers alone.

use crate::model;
use crate::numbers::*;
use crate::record::{ToPack, ToUnpack};

/// What a wrong program does otherwise.
#[derive(Clone, Copy, Debug, PartialEq, Eq)]
pub enum Fault {
    // -- in writing --
    /// Looks for room before it checks the sheet.
    PackRoomBeforeSound,
    /// Looks at the fields before it checks the sheet.
    PackFieldBeforeSound,
    /// Looks for room before it looks at the fields.
    PackRoomBeforeField,
    /// Writes the smallest byte of a number first.
    PackLittleEndian,
    /// Counts a byte too many in the first word.
    TotalOneOff,
    /// Leaves out what the text length has over three bytes, and refuses nothing for it.
    TextLengthCut,
    /// Refuses the largest text length that three bytes hold.
    TextLengthOneLess,
    /// Writes all tokens that the words have room for.
    SpareTokens,
    // -- in both --
    /// Has the count with a sign, and takes one below zero for none.
    CountSigned,
    /// Checks the sheet for the longest text and not for the one that the length is told of.
    AnyText,
    // -- in reading --
    /// Looks for room before it checks the sheet.
    UnpackRoomBeforeSound,
    /// Checks the tokens that are there before it holds their count against the length.
    SoundBeforeCount,
    /// Holds the count against the length before it looks at the version.
    CountBeforeVersion,
    /// Looks at the version before it holds the first word against the length.
    VersionBeforeTotal,
    /// Never looks at the version.
    AnyVersion,
    /// Never looks at the first word.
    AnyTotal,
    /// Takes twelve bytes, which is a sheet without tokens, for too few.
    EmptyTooShort,
    /// Takes a file that has a byte more than its tokens.
    ByteLonger,
    /// Holds the count against the length in 32 bits.
    CountIn32Bits,
    /// Reads the smallest byte of a number first.
    UnpackLittleEndian,
    /// Reads the text length from four bytes, the version's among them.
    TextLengthOfFour,
    /// Reads the code from four bits.
    CodeOfFourBits,
    /// Looks at the codes alone, and at nothing else that a sound sheet must have.
    CodesAlone,
    /// Refuses code 11, as readers did that were there before it.
    EscapeRefused,
    /// Takes a room in words for one in tokens.
    RoomInTokens,
}

/// The first of these refusals that holds.
fn first<const N: usize>(order: [u8; N], holds: impl Fn(u8) -> bool) -> Result<(), u8> {
    order.into_iter().find(|&number| holds(number)).map_or(Ok(()), Err)
}

/// The count as a program has it, which is one with a sign where that is its fault.
fn count_of(count: u32, fault: Option<Fault>) -> u32 {
    if fault == Some(Fault::CountSigned) { (count as i32).max(0) as u32 } else { count }
}

/// The check, against the length that is told or, as a fault, against the longest.
fn is_sound(length: u32, words: &[u32], count: u32, fault: Option<Fault>) -> bool {
    let length = if fault == Some(Fault::AnyText) { u32::MAX } else { length };
    model::check(length, words, count)
}

// ---- Writing ----

/// A sheet's file, or the refusal's number.
pub fn pack(asked: &ToPack, fault: Option<Fault>) -> Result<Vec<u8>, u8> {
    let count = count_of(asked.count, fault);
    let total = u128::from(count) * FILE_TOKEN as u128 + FILE_HEAD as u128;
    let limit = MOST_OF_THREE - u32::from(fault == Some(Fault::TextLengthOneLess));
    let long = asked.length > limit && fault != Some(Fault::TextLengthCut);
    let order = match fault {
        Some(Fault::PackRoomBeforeSound) => [FILE_NO_ROOM, FILE_NOT_SOUND, FILE_TOO_LARGE],
        Some(Fault::PackFieldBeforeSound) => [FILE_TOO_LARGE, FILE_NOT_SOUND, FILE_NO_ROOM],
        Some(Fault::PackRoomBeforeField) => [FILE_NOT_SOUND, FILE_NO_ROOM, FILE_TOO_LARGE],
        _ => [FILE_NOT_SOUND, FILE_TOO_LARGE, FILE_NO_ROOM],
    };
    first(order, |number| match number {
        FILE_NOT_SOUND => !is_sound(asked.length, &asked.words, count, fault),
        FILE_TOO_LARGE => long || total > u128::from(u32::MAX),
        _ => total > asked.room as u128,
    })?;
    let spare = fault == Some(Fault::SpareTokens);
    let count = if spare { asked.words.len() / WORDS } else { count as usize };
    Ok(file_of(asked, count, fault))
}

/// The bytes of a file of the first tokens, one field behind another.
fn file_of(asked: &ToPack, count: usize, fault: Option<Fault>) -> Vec<u8> {
    let four = |number: u32| match fault {
        Some(Fault::PackLittleEndian) => number.to_le_bytes(),
        _ => number.to_be_bytes(),
    };
    let total = FILE_HEAD + FILE_TOKEN * count + usize::from(fault == Some(Fault::TotalOneOff));
    let mut file = four(total as u32).to_vec();
    file.push(FILE_VERSION);
    file.extend(match fault {
        Some(Fault::PackLittleEndian) => asked.length.to_le_bytes()[..3].to_vec(),
        _ => asked.length.to_be_bytes()[1..].to_vec(),
    });
    file.extend(four(asked.count));
    for token in asked.words.chunks_exact(WORDS).take(count) {
        file.push(token[0] as u8);
        file.extend([token[1], token[2]].map(four).concat());
    }
    file
}

// ---- Reading ----

/// The rest of a file, from which numbers are taken off the front.
struct Rest<'f> {
    bytes: &'f [u8],
    little_endian: bool,
}

impl Rest<'_> {
    /// The number in the next bytes, of which there are enough.
    fn take(&mut self, bytes: usize) -> u32 {
        let (front, rest) = self.bytes.split_at(bytes);
        self.bytes = rest;
        let mut four = [0; 4];
        if self.little_endian {
            four[..bytes].copy_from_slice(front);
            u32::from_le_bytes(four)
        } else {
            four[4 - bytes..].copy_from_slice(front);
            u32::from_be_bytes(four)
        }
    }
}

/// The text length and the words that a file holds, or the refusal's number.
pub fn unpack(asked: &ToUnpack<'_>, fault: Option<Fault>) -> Result<(u32, Vec<u32>), u8> {
    let short = asked.file.len() < FILE_HEAD + usize::from(fault == Some(Fault::EmptyTooShort));
    if short {
        return Err(FILE_LENGTH);
    }
    let little_endian = fault == Some(Fault::UnpackLittleEndian);
    let mut rest = Rest { bytes: asked.file, little_endian };
    let total = rest.take(4);
    let version = rest.take(1);
    let mut length = rest.take(3);
    if fault == Some(Fault::TextLengthOfFour) {
        length += version << 24;
    }
    let count = count_of(rest.take(4), fault);
    let mut words = Vec::new();
    while rest.bytes.len() >= FILE_TOKEN {
        words.extend([code_of(rest.take(1), fault), rest.take(4), rest.take(4)]);
    }
    let order = match fault {
        Some(Fault::UnpackRoomBeforeSound) => {
            [FILE_LENGTH, UNKNOWN_VERSION, FILE_COUNT, FILE_NO_ROOM, FILE_NOT_SOUND]
        }
        Some(Fault::SoundBeforeCount) => {
            [FILE_LENGTH, UNKNOWN_VERSION, FILE_NOT_SOUND, FILE_COUNT, FILE_NO_ROOM]
        }
        Some(Fault::CountBeforeVersion) => {
            [FILE_LENGTH, FILE_COUNT, UNKNOWN_VERSION, FILE_NOT_SOUND, FILE_NO_ROOM]
        }
        Some(Fault::VersionBeforeTotal) => {
            [UNKNOWN_VERSION, FILE_LENGTH, FILE_COUNT, FILE_NOT_SOUND, FILE_NO_ROOM]
        }
        _ => [FILE_LENGTH, UNKNOWN_VERSION, FILE_COUNT, FILE_NOT_SOUND, FILE_NO_ROOM],
    };
    first(order, |number| match number {
        FILE_LENGTH => total as usize != asked.file.len() && fault != Some(Fault::AnyTotal),
        UNKNOWN_VERSION => version != FILE_VERSION.into() && fault != Some(Fault::AnyVersion),
        FILE_COUNT => !agrees(asked.file.len(), count, fault),
        FILE_NOT_SOUND => !is_taken(length, &words, count, fault),
        _ if fault == Some(Fault::RoomInTokens) => asked.room < count as usize,
        _ => asked.room / WORDS < count as usize,
    })?;
    words.truncate(WORDS * count as usize);
    Ok((length, words))
}

/// A code as it is read from its byte.
fn code_of(byte: u32, fault: Option<Fault>) -> u32 {
    if fault == Some(Fault::CodeOfFourBits) { byte % 16 } else { byte }
}

/// Whether a file of so many bytes may have this count. The tokens are counted by their bytes, so that
/// nothing is multiplied.
fn agrees(length: usize, count: u32, fault: Option<Fault>) -> bool {
    let bytes = length - FILE_HEAD;
    if fault == Some(Fault::CountIn32Bits) {
        return count.wrapping_mul(FILE_TOKEN as u32) == bytes as u32;
    }
    let left = bytes % FILE_TOKEN;
    let whole = left == 0 || left == 1 && fault == Some(Fault::ByteLonger);
    whole && bytes / FILE_TOKEN == count as usize
}

/// Whether the reader takes this sheet for sound.
fn is_taken(length: u32, words: &[u32], count: u32, fault: Option<Fault>) -> bool {
    let codes = || words.iter().step_by(WORDS);
    match fault {
        Some(Fault::CodesAlone) => codes().all(|code| (ARRAY..=LAST_CODE).contains(code)),
        Some(Fault::EscapeRefused) if codes().any(|&code| code == QUOTED_ESCAPE) => false,
        _ => is_sound(length, words, count, fault),
    }
}
