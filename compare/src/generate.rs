//! Cases by seed: document 01's own at the head of a run, then the short ones in order and among
//! them a mix.

use crate::files::Files;
use crate::numbers::{LONGEST, MOST_ROOM, MOST_SCRATCH, MOST_TOKENS, UNQUOTED, WORDS, token};
use crate::record::Record;
use crate::rng::Rng;
use crate::sheets::Sheet;
use crate::{dates, domain, edges, edits, leading, oracle, scalars, sheets, texts, writer};

/// All cases of one seed, one after another.
pub struct Generator {
    rng: Rng,
    edges: std::vec::IntoIter<Record>,
    made: usize,
    texts: usize,
    scalars: usize,
    sheets: usize,
    writes: Writes,
    leading: Series,
    dates: Series,
    pub files: Files,
    pub left_out: LeftOut,
}

/// What was made and lies outside the domain: texts to parse, and sheets by the text that they write.
#[derive(Clone, Copy, Default)]
pub struct LeftOut {
    pub texts: usize,
    pub sheets: usize,
}

/// How many cases the head of a run has.
const HEAD: usize = 16_000;

/// Whether the next case, which is counted, is one of the short ones: at the head every second, later every
/// fourth.
pub fn short_is_due(made: &mut usize) -> bool {
    let every = if *made < HEAD { 2 } else { 4 };
    *made += 1;
    made.is_multiple_of(every)
}

/// The cases of one kind of a seed, short ones in order and a mix. They have a chance of their own, so that
/// they do not change which other cases a seed has.
pub struct Series {
    rng: Rng,
    made: usize,
    short: usize,
    in_order: fn(usize) -> Option<Record>,
    any: fn(&mut Rng) -> Record,
}

impl Series {
    pub fn new(
        rng: Rng,
        in_order: fn(usize) -> Option<Record>,
        any: fn(&mut Rng) -> Record,
    ) -> Self {
        Series { rng, made: 0, short: 0, in_order, any }
    }

    /// Whether the next case is one of these, so many times of a hundred.
    pub fn are_due(&mut self, percent: usize) -> bool {
        self.rng.chance(percent)
    }

    /// The next short one where it is due, and else one of the mix.
    pub fn record(&mut self) -> Record {
        if short_is_due(&mut self.made)
            && let Some(record) = (self.in_order)(self.short)
        {
            self.short += 1;
            return record;
        }
        (self.any)(&mut self.rng)
    }
}

/// How many of a hundred cases are dates and day counts.
const DATES: usize = 8;

/// How many of a hundred other cases are scalars whose leading number is asked.
const LEADING: usize = 10;

/// How many of a hundred cases that are neither are sheets to put on file and files to read.
const FILES: usize = 31;

/// How many of a hundred cases that are none of these are sheets to write out.
const WRITES: usize = 34;

/// The sheets to write out of one seed. They have a chance of their own, so that they do not change which
/// other cases a seed has.
struct Writes {
    rng: Rng,
    made: usize,
    short: usize,
}

impl Writes {
    /// A sheet to write out. One whose text lies outside the domain is left out: it is read back by our
    /// thirteen bytes, and the Rust does not tell how.
    fn record(&mut self, left_out: &mut usize) -> Record {
        let mut short = short_is_due(&mut self.made);
        loop {
            let small = if short { edits::short(self.short) } else { None };
            self.short += usize::from(small.is_some());
            short = small.is_some();
            let sheet = small.unwrap_or_else(|| edits::any(&mut self.rng));
            let text = writer::text_of(&sheet.text, &sheet.words, sheet.count);
            if text.as_ref().is_none_or(|text| domain::inside(text)) {
                let record = self.with_room(&sheet, text.map(|text| text.len()));
                if record.body.len() <= LONGEST {
                    return record;
                }
            } else {
                *left_out += 1;
            }
        }
    }

    /// A sheet with a buffer and a scratch of just what it needs, of one less or one more, or of anything.
    fn with_room(&mut self, sheet: &Sheet, length: Option<usize>) -> Record {
        let rng = &mut self.rng;
        let need = length.unwrap_or(sheet.text.len());
        let room = match rng.weighted(&[40, 30, 10, 8, 5, 1]) {
            0 => MOST_ROOM,
            1 => need,
            2 => need.saturating_sub(1),
            3 => need + 1,
            4 => rng.below(need + 1),
            _ => 0,
        };
        let need = (sheet.count as usize).saturating_mul(WORDS);
        let scratch = match rng.weighted(&[40, 35, 6, 8, 3, 1]) {
            0 => MOST_SCRATCH,
            1 => need,
            2 => need.saturating_sub(1),
            3 => need + rng.between(1, WORDS),
            4 => need.saturating_sub(rng.between(1, 2 * WORDS)),
            _ => rng.below(need.min(MOST_SCRATCH) + 1),
        };
        let (room, scratch) = (room.min(MOST_ROOM) as u16, scratch.min(MOST_SCRATCH) as u16);
        Record::write(room, scratch, sheet.count, &sheet.words, &sheet.text)
    }
}

impl Generator {
    pub fn new(seed: u64) -> Self {
        let chance = |kind: u8| Rng::new(seed ^ u64::from(kind));
        Generator {
            rng: Rng::new(seed),
            edges: edges::records().into_iter(),
            made: 0,
            texts: 0,
            scalars: 0,
            sheets: 0,
            writes: Writes { rng: chance(b'W'), made: 0, short: 0 },
            leading: leading::series(chance(b'N')),
            dates: dates::series(chance(b'D')),
            files: Files::new(chance(b'F')),
            left_out: LeftOut::default(),
        }
    }

    fn take(number: &mut usize) -> usize {
        *number += 1;
        *number - 1
    }

    /// The next short case, while there is one.
    fn short(&mut self) -> Option<Record> {
        match self.rng.below(8) {
            0 => scalars::short(Self::take(&mut self.scalars)).map(Record::scalar),
            1 => sheets::short(Self::take(&mut self.sheets)),
            _ => loop {
                let text = texts::short(Self::take(&mut self.texts))?;
                if domain::inside(&text) {
                    return Some(self.with_room(text));
                }
                self.left_out.texts += 1;
            },
        }
    }

    fn text(&mut self) -> Record {
        loop {
            let large = self.rng.below(1500) == 0;
            let mut text =
                if large { texts::large(&mut self.rng) } else { texts::any(&mut self.rng) };
            if self.rng.chance(2) {
                texts::sprinkle(&mut self.rng, &mut text, b"!!\x0b\x0c");
            }
            if text.len() <= LONGEST && domain::inside(&text) {
                return self.with_room(text);
            }
            self.left_out.texts += 1;
        }
    }

    /// A text with room for just what it needs, for one token less, or for anything else; seldom with a
    /// capacity that is taken for a smaller one.
    fn with_room(&mut self, text: Vec<u8>) -> Record {
        let need = oracle::parse(&text).need();
        let most = usize::from(MOST_TOKENS);
        let capacity = match self.rng.weighted(&[40, 2, 2, 18, 15, 14, 3, 6]) {
            0 => most,
            1 => most + 1,
            2 => usize::from(u16::MAX),
            3 => need,
            4 => need.saturating_sub(1),
            5 => self.rng.below(need + 1),
            6 => 0,
            _ => self.rng.between(0, most),
        };
        Record::text(text, capacity.min(usize::from(u16::MAX)) as u16)
    }
}

impl Iterator for Generator {
    type Item = Record;

    fn next(&mut self) -> Option<Record> {
        if let Some(edge) = self.edges.next() {
            return Some(edge);
        }
        if self.dates.are_due(DATES) {
            return Some(self.dates.record());
        }
        if self.leading.are_due(LEADING) {
            return Some(self.leading.record());
        }
        if self.files.are_due(FILES) {
            return Some(self.files.record());
        }
        if self.writes.rng.chance(WRITES) {
            return Some(self.writes.record(&mut self.left_out.sheets));
        }
        if short_is_due(&mut self.made)
            && let Some(record) = self.short()
        {
            return Some(record);
        }
        Some(match self.rng.weighted(&[52, 24, 16, 8]) {
            0 => self.text(),
            1 => Record::scalar(scalars::any(&mut self.rng)),
            2 => sheets::check(&mut self.rng),
            _ => sheets::view(&mut self.rng),
        })
    }
}

/// Lengths of a body that is a sheet to the end and does not come out even, or has no whole head.
const UNEVEN: [usize; 8] = [0, 1, 7, 9, 10, 11, 13, 21];

/// Lengths of a body that is to be a day count and has too few bytes, or more.
const NO_COUNT: [usize; 9] = [0, 1, 2, 3, 5, 6, 7, 8, LONGEST];

/// Bytes that end in a bad record, of every way to be bad: the answer is `bad record`, whatever
/// comes behind.
pub fn bad(rng: &mut Rng) -> Vec<u8> {
    let good = Record::text(texts::any(rng), 100);
    let mut bytes = match rng.below(11) {
        // cut short: these end the input
        0 => {
            let mut bytes = good.bytes();
            bytes.truncate(rng.between(1, 4));
            return bytes;
        }
        1 => {
            let mut bytes = Record::text(b"a=b".to_vec(), 9).bytes();
            bytes.truncate(rng.between(5, 7));
            return bytes;
        }
        2 => Record { kind: *rng.pick(b"AUOdyntsvfr\0\n"), ..good.clone() }.bytes(),
        3 => Record { body: vec![b' '; rng.between(LONGEST + 1, 65_535)], ..good.clone() }.bytes(),
        _ => bad_body(rng).bytes(),
    };
    bytes.extend(good.bytes());
    bytes
}

/// A record whose body ends inside a field that its kind has, or has bytes over.
fn bad_body(rng: &mut Rng) -> Record {
    let zeros = |kind, length| Record { kind, capacity: 100, body: vec![0; length] };
    match rng.below(7) {
        0 => zeros(b'C', *rng.pick(&UNEVEN)),
        1 => zeros(b'V', rng.below(10)),
        2 => zeros(b'W', rng.below(8)),
        3 => zeros(b'F', *rng.pick(&UNEVEN)),
        4 => zeros(b'Y', *rng.pick(&NO_COUNT)),
        way => {
            let words = token(UNQUOTED, 0, 1);
            let mut record = match way {
                5 => Record::write(9, 9, 1, &words, b""),
                _ => Record::view(0, 1, &words, b""),
            };
            record.body.pop();
            record
        }
    }
}
