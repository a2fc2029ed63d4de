//! Sheets to put on file and files to read: every lone token and every short file in order, and a mix of
//! sheets of all kinds, of their files, and of files in which something was changed, cut or added.

use crate::file;
use crate::numbers::*;
use crate::record::Record;
use crate::rng::Rng;
use crate::sheets::{self, Sheet};
use crate::{edits, generate};
use std::fmt;

/// The cases of one seed that have to do with files. They have a chance of their own, so that they do not
/// change which other cases a seed has.
pub struct Files {
    rng: Rng,
    made: usize,
    short: usize,
    pub how: How,
}

/// How the files of the mix that are to be read were made: as they are laid, with bytes changed, cut or
/// added, with a field changed; and in how many of these the first word was made the length again. A file
/// that was changed in two ways counts for both.
#[derive(Clone, Copy, Default)]
pub struct How {
    whole: usize,
    changed: usize,
    cut: usize,
    added: usize,
    field: usize,
    mended: usize,
}

impl fmt::Display for How {
    fn fmt(&self, f: &mut fmt::Formatter<'_>) -> fmt::Result {
        let How { whole, changed, cut, added, field, mended } = self;
        write!(
            f,
            "{whole} as they are laid, {changed} with bytes changed, {cut} cut, {added} added, {field} with \
             a field changed; the first word mended in {mended}"
        )
    }
}

impl Files {
    pub fn new(rng: Rng) -> Self {
        Files { rng, made: 0, short: 0, how: How::default() }
    }

    /// Whether the next case is one of these, so many times of a hundred.
    pub fn are_due(&mut self, percent: usize) -> bool {
        self.rng.chance(percent)
    }

    pub fn record(&mut self) -> Record {
        if generate::short_is_due(&mut self.made)
            && let Some(record) = short(self.short)
        {
            self.short += 1;
            return record;
        }
        loop {
            let record = if self.rng.chance(40) { self.pack() } else { self.unpack() };
            if record.body.len() <= LONGEST {
                return record;
            }
        }
    }

    /// A sheet to put on file.
    fn pack(&mut self) -> Record {
        let rng = &mut self.rng;
        let (own, mut sheet) = any_sheet(rng);
        if rng.chance(4) {
            sheet.count = sheets::near(rng, sheet.count);
        }
        let length = match rng.weighted(&[56, 8, 8, 6, 10, 4, 8]) {
            0 => own,
            1 => MOST_OF_THREE,
            2 => MOST_OF_THREE + 1,
            3 => u32::MAX,
            // one that three bytes would tell of as its own
            4 => (rng.between(1, 255) << 24) as u32 | own,
            5 => 0,
            _ => own.saturating_sub(1),
        };
        let room = room(rng, file::length_of(sheet.count), FILE_TOKEN, MOST_ROOM);
        Record::pack(room, length, sheet.count, &sheet.words)
    }

    /// A file to read.
    fn unpack(&mut self) -> Record {
        let rng = &mut self.rng;
        let (own, sheet) = any_sheet(rng);
        let length = match rng.weighted(&[84, 8, 4, 4]) {
            0 => own,
            1 => MOST_OF_THREE,
            2 => 0,
            _ => own.saturating_sub(1),
        };
        let there = sheet.words.len() / WORDS;
        let tokens = there.min(sheet.count as usize);
        let mut file = file::laid(length, &sheet.words[..WORDS * tokens]);
        match rng.weighted(&[30, 50, 20]) {
            0 => self.how.whole += 1,
            1 => self.spoil(&mut file),
            _ => self.spoil_field(&mut file),
        }
        let tokens = file.len().saturating_sub(FILE_HEAD) / FILE_TOKEN;
        let room = room(&mut self.rng, (WORDS * tokens) as u64, WORDS, MOST_SCRATCH);
        Record::unpack(room, file)
    }

    /// One to three times something is changed, cut or added; then the first word is mended, or it and
    /// the count, or nothing, so that every refusal is come to.
    fn spoil(&mut self, file: &mut Vec<u8>) {
        let rng = &mut self.rng;
        let before = self.how;
        for _ in 0..rng.between(1, 3) {
            let nothing_left = file.is_empty();
            match rng.weighted(&[50, 25, 25]) {
                0 if !nothing_left => {
                    change(rng, file);
                    self.how.changed = before.changed + 1;
                }
                1 if !nothing_left => {
                    cut(rng, file);
                    self.how.cut = before.cut + 1;
                }
                _ => {
                    add(rng, file);
                    self.how.added = before.added + 1;
                }
            }
        }
        if rng.chance(65) {
            file::put_total(file);
            self.how.mended = before.mended + 1;
            if rng.chance(50) {
                put_count_of_length(file);
            }
        }
    }

    /// A field of the head is changed, or two.
    fn spoil_field(&mut self, file: &mut Vec<u8>) {
        let rng = &mut self.rng;
        for _ in 0..rng.between(1, 2) {
            match rng.weighted(&[35, 30, 20, 15]) {
                0 => file::put_version(file, *rng.pick(&[0, 2, 3, 255])),
                1 => {
                    let count = file::count(file).unwrap_or(0);
                    file::put_count(file, sheets::near(rng, count));
                }
                2 => wrap_count(rng, file),
                _ => {
                    let length = file.len() as u32;
                    let other = [length.swap_bytes(), sheets::near(rng, length)];
                    file[..4].copy_from_slice(&rng.pick(&other).to_be_bytes());
                }
            }
        }
        self.how.field += 1;
    }
}

/// A sheet of any kind, sound or not, and the length of its text.
fn any_sheet(rng: &mut Rng) -> (u32, Sheet) {
    let sheet = match rng.weighted(&[45, 35, 20]) {
        0 => edits::any(rng),
        1 => return sheets::any(rng),
        _ => sheets::parsed(rng),
    };
    (sheet.text.len() as u32, sheet)
}

/// A room of just what is needed, of one less or one more, of a part more or less, of anything or of nothing;
/// never more than a record may ask for.
fn room(rng: &mut Rng, need: u64, unit: usize, most: usize) -> u16 {
    let need = need.min(most as u64) as usize;
    let room = match rng.weighted(&[32, 24, 12, 10, 8, 8, 4, 2]) {
        0 => need,
        1 => most,
        2 => need.saturating_sub(1),
        3 => need + 1,
        4 => need + rng.between(2, 2 * unit),
        5 => rng.below(need + 1),
        6 => 0,
        _ => rng.below(most + 1),
    };
    room.min(most) as u16
}

// ---- What happens to a file ----

/// A place in a file that is not empty: half of the time in its head, and else most often at a code.
fn place(rng: &mut Rng, file: &[u8]) -> usize {
    let tokens = file.len().saturating_sub(FILE_HEAD) / FILE_TOKEN;
    match rng.below(4) {
        0 | 1 => rng.below(file.len().min(FILE_HEAD)),
        2 if tokens > 0 => FILE_HEAD + FILE_TOKEN * rng.below(tokens),
        _ => rng.below(file.len()),
    }
}

/// A byte becomes another: beside it, a code or the one past the last, or any.
fn change(rng: &mut Rng, file: &mut [u8]) {
    let at = place(rng, file);
    let before = file[at];
    while file[at] == before {
        file[at] = match rng.below(6) {
            0 => before.wrapping_add(1),
            1 => before.wrapping_sub(1),
            2 => before ^ 1 << rng.below(8),
            3 => rng.below(LAST_CODE as usize + 2) as u8,
            4 => 255,
            _ => rng.below(256) as u8,
        };
    }
}

/// How many bytes are cut or added at once: most often one, else a token's or a few.
fn stretch(rng: &mut Rng) -> usize {
    match rng.weighted(&[60, 25, 15]) {
        0 => 1,
        1 => FILE_TOKEN,
        _ => rng.between(2, FILE_HEAD + 1),
    }
}

/// Bytes go, at the end or anywhere; seldom so many that no more than a head is left.
fn cut(rng: &mut Rng, file: &mut Vec<u8>) {
    let bytes = stretch(rng).min(file.len());
    match rng.weighted(&[50, 40, 10]) {
        0 => file.truncate(file.len() - bytes),
        1 => {
            let at = rng.below(file.len() - bytes + 1);
            file.drain(at..at + bytes);
        }
        _ => file.truncate(rng.below(file.len().min(FILE_HEAD + 2))),
    }
}

/// Bytes come in, at the end or anywhere: zeros, any, or some that stand in the file already.
fn add(rng: &mut Rng, file: &mut Vec<u8>) {
    let length = stretch(rng);
    let bytes: Vec<u8> = match rng.below(3) {
        0 => vec![0; length],
        1 => (0..length).map(|_| rng.below(256) as u8).collect(),
        _ => {
            let from = rng.below(file.len() + 1);
            file[from..].iter().copied().chain([MIXED_CONTAINER as u8]).take(length).collect()
        }
    };
    let at = if rng.chance(50) { file.len() } else { rng.below(file.len() + 1) };
    file.splice(at..at, bytes);
}

/// Makes the count that of the tokens that the length has room for.
fn put_count_of_length(file: &mut [u8]) {
    let tokens = file.len().saturating_sub(FILE_HEAD) / FILE_TOKEN;
    file::put_count(file, tokens as u32);
}

/// What a token's bytes are taken times to give 1 in 32 bits.
const INVERSE: u32 = 954_437_177;
const _: () = assert!(INVERSE.wrapping_mul(FILE_TOKEN as u32) == 1);

/// The one count that agrees with so many bytes in 32 bits, which is another than theirs where they are not
/// those of whole tokens.
fn wrapped_count(length: usize) -> u32 {
    (length as u32).wrapping_sub(FILE_HEAD as u32).wrapping_mul(INVERSE)
}

/// Some bytes more, or none, the first word mended, and the count that agrees in 32 bits.
fn wrap_count(rng: &mut Rng, file: &mut Vec<u8>) {
    file.resize(file.len() + rng.below(FILE_TOKEN), 0);
    file::put_total(file);
    let count = wrapped_count(file.len());
    file::put_count(file, count);
}

// ---- The short ones in order ----

/// The short cases in order: every lone token to put on file and as a file to read, and the short files.
fn short(number: usize) -> Option<Record> {
    let (token, reads) = (number / 2, number % 2 == 1);
    // just room and one less, of bytes or words, in turns that are not those of the tokens' numbers
    let less = token / 7 % 4 == 3;
    match sheets::lone_token(token) {
        Some((length, words)) if reads => {
            let file = file::laid(length, &words);
            Some(Record::unpack((WORDS - usize::from(less)) as u16, file))
        }
        Some((length, words)) => {
            let room = FILE_HEAD + FILE_TOKEN - usize::from(less);
            Some(Record::pack(room as u16, length, 1, &words))
        }
        None => short_file(number - 2 * sheets::LONE_TOKENS),
    }
}

/// Every file of up to two tokens and a byte, whole or cut anywhere, with the first words, versions and counts
/// that lie beside the right ones or pass for them.
fn short_file(number: usize) -> Option<Record> {
    const VERSIONS: [u8; 5] = [FILE_VERSION, 0, 2, 3, 255];
    let (version, left) = (number % 5, number / 5);
    let (total, left) = (left % 5, left / 5);
    let (count, length) = (left % 6, left / 6);
    let most = FILE_HEAD + 2 * FILE_TOKEN + 1;
    if length > most {
        return None;
    }
    let mut file = file::laid(0, &token(MIXED_CONTAINER, 0, 0).repeat(3));
    file.truncate(length);
    file::put_total(&mut file);
    file::put_version(&mut file, VERSIONS[version]);
    let right = file.len() as u32;
    let totals = [right, right + 1, right.wrapping_sub(1), 0, right.swap_bytes()];
    if let Some(place) = file.get_mut(..4) {
        place.copy_from_slice(&totals[total].to_be_bytes());
    }
    let tokens = (file.len().saturating_sub(FILE_HEAD) / FILE_TOKEN) as u32;
    let counts =
        [tokens, tokens + 1, tokens.wrapping_sub(1), wrapped_count(length), u32::MAX, 1 << 31];
    file::put_count(&mut file, counts[count]);
    Some(Record::unpack((3 * WORDS) as u16, file))
}
