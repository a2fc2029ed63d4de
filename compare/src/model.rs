//! Document 01 read as a plain program: the lent tape of three words a token, the five states, the
//! refusals, the readings, the check and the views. It is written from the paper, not from the
//! Rust, and stands on the other side of the comparison when the comparison itself is tested. The
//! test of the domain uses it too, because it can tell every run that was cut. Of ours it has nothing,
//! and of the rest of this crate the paper's numbers alone.

use crate::numbers::*;

/// A refusal's number and place.
#[derive(Clone, Copy, Debug, PartialEq, Eq)]
pub struct Refusal(pub u8, pub usize);

// ---- How bytes are cut ----

/// The thirteen boundary bytes.
pub fn boundary(byte: u8) -> bool {
    [9, 10, 13, 32, 35, 59, 60, 61, 62, 91, 93, 123, 125].contains(&byte)
}

/// A way to cut an unquoted run: how many bytes of the rest it takes.
pub type Cut = fn(&[u8]) -> usize;

/// An unquoted run goes to the next boundary byte or the end and has at least one byte.
pub fn cut(rest: &[u8]) -> usize {
    rest.iter().position(|&b| boundary(b)).unwrap_or(rest.len()).max(1)
}

/// The first place at or after `at` that is no blank, if there is one.
fn skip_blanks(text: &[u8], mut at: usize) -> Option<usize> {
    while at < text.len() {
        match text[at] {
            b' ' | b'\t' | b'\n' | b'\r' | b';' => at += 1,
            b'#' => at += text[at..].iter().position(|&b| b == b'\n')? + 1,
            _ => return Some(at),
        }
    }
    None
}

/// The place of the closing quote of the run whose opening quote stands at `at`, and whether a
/// backslash took part in the run.
fn closing_quote(text: &[u8], at: usize) -> Option<(usize, bool)> {
    let mut at = at + 1;
    let mut escape = false;
    while at < text.len() {
        match text[at] {
            b'\\' => {
                escape = true;
                at += 2;
            }
            b'"' => return Some((at, escape)),
            _ => at += 1,
        }
    }
    None
}

// ---- Five parse states ----

#[derive(Clone, Copy, Debug, PartialEq, Eq)]
enum State {
    Key,
    KeyValueSeparator,
    ObjectValue,
    ParseOpen,
    ArrayValue,
}

struct Parser<'t> {
    text: &'t [u8],
    at: usize,
    tape: &'t mut [u32],
    count: usize,
    state: State,
    parent: usize,
    mixed: bool,
    cut: Cut,
    runs: Vec<(usize, usize)>,
}

/// What a parse answers, and every unquoted run that was cut on the way, as offset and length.
pub struct Outcome {
    pub answer: Result<(usize, bool), Refusal>,
    pub runs: Vec<(usize, usize)>,
}

/// Parses into a lent tape. After success the words past the tokens are 0, after a refusal all are.
pub fn parse(text: &[u8], tape: &mut [u32], cut: Cut) -> Outcome {
    tape.fill(0);
    if text.len() > TEXT_LIMIT {
        return Outcome { answer: Err(Refusal(TOO_LONG, 0)), runs: Vec::new() };
    }
    let bom = text.starts_with(&[0xef, 0xbb, 0xbf]);
    let mut parser = Parser {
        text,
        at: if bom { 3 } else { 0 },
        tape,
        count: 0,
        state: State::Key,
        parent: 0,
        mixed: false,
        cut,
        runs: Vec::new(),
    };
    let answer = parser.run().map(|()| (parser.count, bom));
    let runs = std::mem::take(&mut parser.runs);
    if answer.is_err() {
        tape.fill(0);
    }
    Outcome { answer, runs }
}

impl Parser<'_> {
    // -- the words of a token --

    fn code(&self, i: usize) -> u32 {
        self.tape[WORDS * i]
    }

    fn a(&self, i: usize) -> u32 {
        self.tape[WORDS * i + 1]
    }

    fn b(&self, i: usize) -> u32 {
        self.tape[WORDS * i + 2]
    }

    fn put(&mut self, i: usize, code: u32, a: usize, b: usize) {
        self.tape[WORDS * i] = code;
        self.tape[WORDS * i + 1] = a as u32;
        self.tape[WORDS * i + 2] = b as u32;
    }

    fn add(&mut self, code: u32, a: usize, b: usize) -> Result<(), Refusal> {
        if self.count >= self.tape.len() / WORDS {
            return Err(Refusal(FULL, 0));
        }
        self.put(self.count, code, a, b);
        self.count += 1;
        Ok(())
    }

    /// MixedContainer goes in before the last token.
    fn insert_mixed(&mut self) -> Result<(), Refusal> {
        let last = self.count - 1;
        let (code, a, b) = (self.code(last), self.a(last), self.b(last));
        self.add(code, a as usize, b as usize)?;
        self.put(last, MIXED_CONTAINER, 0, 0);
        Ok(())
    }

    // -- bytes --

    fn byte(&self) -> u8 {
        self.text[self.at]
    }

    fn next_is(&self, byte: u8) -> bool {
        self.text.get(self.at + 1) == Some(&byte)
    }

    /// A blank skip that may not meet the end of the text.
    fn skip(&mut self) -> Result<(), Refusal> {
        self.at = skip_blanks(self.text, self.at).ok_or(Refusal(EOF, 0))?;
        Ok(())
    }

    /// Cuts an unquoted run and answers its offset and length.
    fn run_here(&mut self) -> (usize, usize) {
        let run = (self.at, (self.cut)(&self.text[self.at..]));
        self.runs.push(run);
        self.at += run.1;
        run
    }

    fn scalar(&mut self) -> Result<(), Refusal> {
        let start = self.at;
        if self.byte() == b'"' {
            let (end, escape) = closing_quote(self.text, start).ok_or(Refusal(EOF, 0))?;
            self.at = end + 1;
            let code = if escape { QUOTED_ESCAPE } else { QUOTED };
            self.add(code, start + 1, end - start - 1)
        } else if self.byte() == b'@' && self.next_is(b'[') {
            let length = self.text[start..].iter().position(|&b| b == b']');
            let length = length.ok_or(Refusal(EOF, 0))? + 1;
            self.at = start + length;
            self.add(UNQUOTED, start, length)
        } else {
            let (offset, length) = self.run_here();
            self.add(UNQUOTED, offset, length)
        }
    }

    // -- containers --

    /// Leaving a container takes up its parent.
    fn take_up(&mut self, parent: usize) {
        self.mixed = parent != 0 && self.b(parent) == 1;
        self.state = match (parent, if parent == 0 { 0 } else { self.code(parent) }) {
            (0, _) => State::Key,
            (_, OBJECT) if !self.mixed => State::Key,
            _ => State::ArrayValue,
        };
    }

    /// Closes the open container as `code` with `flag`, and leaves it.
    fn close(&mut self, code: u32, flag: bool) -> Result<(), Refusal> {
        let (opener, end) = (self.parent, self.count);
        let parent = self.a(opener) as usize;
        self.add(END, opener, 0)?;
        self.put(opener, code, end, usize::from(flag));
        self.parent = parent;
        self.take_up(parent);
        self.at += 1;
        Ok(())
    }

    fn open(&mut self) -> Result<(), Refusal> {
        self.add(ARRAY, 0, 0)?;
        self.state = State::ParseOpen;
        self.at += 1;
        Ok(())
    }

    /// The opener at `i` becomes an open container of this kind, and what follows is inside it.
    fn enter(&mut self, i: usize, code: u32, state: State) {
        self.put(i, code, self.parent, 0);
        self.parent = i;
        self.state = state;
    }

    /// `{` with `}` after blanks: moves past both and says so. Otherwise moves past `{` and blanks.
    fn empty_braces(&mut self) -> Result<bool, Refusal> {
        self.at += 1;
        self.skip()?;
        let empty = self.byte() == b'}';
        if empty {
            self.at += 1;
        }
        Ok(empty)
    }

    // -- the turns --

    fn run(&mut self) -> Result<(), Refusal> {
        loop {
            match skip_blanks(self.text, self.at) {
                None => return self.text_end(),
                Some(at) => self.at = at,
            }
            match self.state {
                State::Key => self.key()?,
                State::KeyValueSeparator => self.separator()?,
                State::ObjectValue => self.object_value()?,
                State::ParseOpen => self.parse_open()?,
                State::ArrayValue => self.array_value()?,
            }
        }
    }

    fn text_end(&mut self) -> Result<(), Refusal> {
        if self.state != State::Key {
            return Err(Refusal(EOF, 0));
        }
        if self.parent == 0 {
            return Ok(());
        }
        if self.a(self.parent) != 0 {
            return Err(Refusal(EOF, 0));
        }
        let end = self.count;
        self.add(END, self.parent, 0)?;
        self.put(self.parent, OBJECT, end, 0);
        Ok(())
    }

    fn key(&mut self) -> Result<(), Refusal> {
        debug_assert!(!self.mixed, "mixed in Key");
        match self.byte() {
            b'}' | b']' if self.parent == 0 => self.at += 1,
            b'}' | b']' => self.close(OBJECT, false)?,
            b'{' => {
                if !self.empty_braces()? {
                    if self.count == 0 || self.code(self.count - 1) != UNQUOTED {
                        return Err(Refusal(NO_HEADER, self.at));
                    }
                    self.tape[WORDS * (self.count - 1)] = HEADER;
                    self.add(ARRAY, 0, 0)?;
                    self.state = State::ParseOpen;
                }
            }
            b'[' => self.parameter(false)?,
            _ => {
                self.scalar()?;
                self.state = State::KeyValueSeparator;
            }
        }
        Ok(())
    }

    fn separator(&mut self) -> Result<(), Refusal> {
        debug_assert!(!self.mixed, "the Rust's branch for `=` under mixed would be reached");
        let sign = match (self.byte(), self.next_is(b'=')) {
            (b'<', true) => Some((LESS_THAN_EQUAL, 2)),
            (b'<', false) => Some((LESS_THAN, 1)),
            (b'>', true) => Some((GREATER_THAN_EQUAL, 2)),
            (b'>', false) => Some((GREATER_THAN, 1)),
            (b'!', true) => Some((NOT_EQUAL, 2)),
            (b'?', true) => Some((EXISTS, 2)),
            (b'=', true) => Some((EXACT, 2)),
            _ => None,
        };
        if let Some((kind, bytes)) = sign {
            self.add(OPERATOR, kind as usize, 0)?;
            self.at += bytes;
            self.state = State::ObjectValue;
        } else if self.byte() == b'=' {
            self.at += 1;
            self.state = State::ObjectValue;
        } else if self.byte() == b'{' {
            self.state = State::ObjectValue;
        } else {
            self.insert_mixed()?;
            self.mixed = true;
            self.state = State::ArrayValue;
        }
        Ok(())
    }

    fn object_value(&mut self) -> Result<(), Refusal> {
        match self.byte() {
            b'{' => self.open(),
            b'}' => Err(Refusal(NO_VALUE, self.at)),
            _ => {
                self.scalar()?;
                self.state = State::Key;
                Ok(())
            }
        }
    }

    fn parse_open(&mut self) -> Result<(), Refusal> {
        let opener = self.count - 1;
        match self.byte() {
            b'}' => {
                self.add(END, opener, 0)?;
                self.put(opener, ARRAY, opener + 1, 0);
                self.take_up(self.parent);
                self.at += 1;
                return Ok(());
            }
            b'[' if self.mixed => return Err(Refusal(PARAMETER_IN_MIXED, self.at)),
            b'[' => return self.parameter(true),
            b'{' => {
                let brace = self.at;
                if !self.empty_braces()? {
                    self.at = brace;
                    self.mixed = false;
                    self.enter(opener, ARRAY, State::ArrayValue);
                }
                return Ok(());
            }
            _ => self.scalar()?,
        }
        if self.mixed && self.parent != 0 {
            self.tape[WORDS * self.parent + 2] = 1;
        }
        self.mixed = false;
        self.skip()?;
        match self.byte() {
            b'=' | b'>' | b'<' | b'?' | b'!' => {
                self.enter(opener, OBJECT, State::KeyValueSeparator)
            }
            _ => self.enter(opener, ARRAY, State::ArrayValue),
        }
        Ok(())
    }

    fn array_value(&mut self) -> Result<(), Refusal> {
        match self.byte() {
            b'{' => self.open(),
            b'}' if self.parent == 0 => Err(Refusal(STACK_EMPTY, self.at)),
            b'}' => self.close(self.code(self.parent), self.mixed),
            b'<' | b'>' | b'!' | b'=' => self.array_operator(),
            _ => self.scalar(),
        }
    }

    fn array_operator(&mut self) -> Result<(), Refusal> {
        if !self.mixed {
            let last = self.code(self.count - 1);
            if last == END && self.byte() == b'=' {
                self.at += 1;
                return Ok(());
            }
            if !is_scalar(last) {
                return Err(Refusal(NOTHING_BEFORE_OPERATOR, self.at - 1));
            }
            self.insert_mixed()?;
            self.mixed = true;
        }
        let (kind, bytes) = match (self.byte(), self.next_is(b'=')) {
            (b'<', true) => (LESS_THAN_EQUAL, 2),
            (b'<', false) => (LESS_THAN, 1),
            (b'>', true) => (GREATER_THAN_EQUAL, 2),
            (b'>', false) => (GREATER_THAN, 1),
            (b'!', true) => (NOT_EQUAL, 2),
            (b'=', true) => (EXACT, 2),
            (b'=', false) => (EQUAL, 1),
            _ => return Err(Refusal(UNKNOWN_OPERATOR, self.at - 1)),
        };
        self.add(OPERATOR, kind as usize, 0)?;
        self.at += bytes;
        Ok(())
    }

    /// `[[` or `[[!`; `opens` when it is the first thing after an opener.
    fn parameter(&mut self, opens: bool) -> Result<(), Refusal> {
        if !self.next_is(b'[') {
            return Err(Refusal(NO_PARAMETER, self.at));
        }
        if opens {
            self.enter(self.count - 1, OBJECT, State::Key);
        }
        self.at += 2;
        let undefined = self.text.get(self.at) == Some(&b'!');
        self.at += usize::from(undefined);
        if self.at == self.text.len() {
            return Err(Refusal(EOF, 0));
        }
        let (offset, length) = self.run_here();
        if self.text.get(self.at) != Some(&b']') {
            return Err(Refusal(OPEN_PARAMETER_NAME, self.at));
        }
        self.at += 1;
        self.add(if undefined { UNDEFINED_PARAMETER } else { PARAMETER }, offset, length)?;
        self.skip()?;
        let (offset, length) = self.run_here();
        self.skip()?;
        if self.byte() == b']' {
            self.add(UNQUOTED, offset, length)?;
            self.at += 1;
            self.state = State::Key;
        } else {
            self.add(OBJECT, 0, 0)?;
            self.enter(self.count - 1, OBJECT, State::KeyValueSeparator);
            self.add(UNQUOTED, offset, length)?;
        }
        Ok(())
    }
}

// ---- Reading a scalar ----

/// The digits as a number, as far as 128 bits tell it: longer ones stay at the top.
pub fn number(digits: &[u8]) -> u128 {
    digits.iter().fold(0, |n: u128, d| n.saturating_mul(10).saturating_add(u128::from(d - b'0')))
}

/// The digits gathered modulo 2^64.
pub fn gathered(digits: &[u8]) -> u64 {
    digits.iter().fold(0, |n: u64, d| n.wrapping_mul(10).wrapping_add(u64::from(d - b'0')))
}

fn digits_in_front(bytes: &[u8]) -> usize {
    bytes.iter().position(|b| !b.is_ascii_digit()).unwrap_or(bytes.len())
}

pub fn to_bool(bytes: &[u8]) -> Result<bool, u8> {
    match bytes {
        b"yes" => Ok(true),
        b"no" => Ok(false),
        _ => Err(INVALID_BOOL),
    }
}

pub fn to_u64(bytes: &[u8]) -> Result<u64, u8> {
    let digits = bytes.strip_prefix(b"+").unwrap_or(bytes);
    if bytes.is_empty() || digits_in_front(digits) < digits.len() {
        return Err(ALL_DIGITS);
    }
    u64::try_from(number(digits)).map_err(|_| OVERFLOW)
}

/// The parts of a scalar for request W7: a sign or none, digits or none, and the rest behind them.
#[derive(Clone, Copy)]
pub struct Split<'s> {
    pub sign: &'s [u8],
    pub digits: &'s [u8],
    pub rest: &'s [u8],
}

/// Splits a scalar behind its sign and behind the digits that follow.
pub fn split(bytes: &[u8]) -> Split<'_> {
    let signed = bytes.starts_with(b"+") || bytes.starts_with(b"-");
    let (sign, unsigned) = bytes.split_at(usize::from(signed));
    let (digits, rest) = unsigned.split_at(digits_in_front(unsigned));
    Split { sign, digits, rest }
}

/// Request W7: the number at the front and how many bytes are left, or the refusal's number.
pub fn leading(bytes: &[u8]) -> Result<(i64, usize), u8> {
    let Split { sign, digits, rest } = split(bytes);
    if sign.is_empty() && digits.is_empty() {
        return Err(ALL_DIGITS);
    }
    let value = i64::try_from(number(digits)).map_err(|_| OVERFLOW)?;
    Ok((if sign == b"-" { -value } else { value }, rest.len()))
}

/// The i64 reading: a leading number with nothing left behind it.
pub fn to_i64(bytes: &[u8]) -> Result<i64, u8> {
    match leading(bytes)? {
        (value, 0) => Ok(value),
        _ => Err(ALL_DIGITS),
    }
}

/// What the f64 reading refuses: a number alone, or 24 with the float.
#[derive(Clone, Copy, Debug, PartialEq)]
pub enum F64Refusal {
    Number(u8),
    PrecisionLoss(f64),
}

pub fn to_f64(bytes: &[u8]) -> Result<f64, F64Refusal> {
    let wrong_form = Err(F64Refusal::Number(ALL_DIGITS));
    let overflow = Err(F64Refusal::Number(OVERFLOW));
    let (negative, rest) = match bytes {
        [b'-', rest @ ..] => (true, rest),
        [b'+', rest @ ..] => (false, rest),
        [b'0'..=b'9' | b'.', ..] => (false, bytes),
        _ => return wrong_form,
    };
    let (whole, tail) = rest.split_at(digits_in_front(rest));
    let Some(fraction) = tail.strip_prefix(b".") else {
        if !(tail.is_empty() || tail == b"f") {
            return wrong_form;
        }
        let value = number(whole);
        if whole.len() >= 16 && value > 9_007_199_254_740_991 {
            if value > u128::from(if negative { i64::MAX as u64 } else { u64::MAX }) {
                return overflow;
            }
            let float = if negative { -(value as f64) } else { value as f64 };
            return Err(F64Refusal::PrecisionLoss(float));
        }
        return Ok(if negative { -(value as i64) } else { value as i64 } as f64);
    };
    let fraction = fraction.strip_suffix(b"f").unwrap_or(fraction);
    if digits_in_front(fraction) < fraction.len() {
        return wrong_form;
    }
    let all = rest.len() - 1;
    if all >= 19 && carried_past(gathered(whole), fraction) || fraction.len() > 22 {
        return overflow;
    }
    let total = gathered(&[whole, fraction].concat());
    let power = format!("1e{}", fraction.len()).parse::<f64>().unwrap();
    Ok(if negative { -1.0 } else { 1.0 } * (total as f64 / power))
}

/// Whether carrying on from `start` through these digits goes past 2^64 - 1.
fn carried_past(start: u64, digits: &[u8]) -> bool {
    let mut total = u128::from(start);
    for digit in digits {
        total = total * 10 + u128::from(digit - b'0');
        if total > u128::from(u64::MAX) {
            return true;
        }
    }
    false
}

/// Request W2 in the readings' words: a number that is read has a digit, and a point where an `f` closes it.
pub fn kind(bytes: &[u8]) -> u8 {
    if to_bool(bytes).is_ok() {
        return BOOL;
    }
    let digit = bytes.iter().any(u8::is_ascii_digit);
    if digit && to_i64(bytes).is_ok() {
        return WHOLE;
    }
    let closed = bytes.last() == Some(&b'f') && !bytes.contains(&b'.');
    let counts = !matches!(to_f64(bytes), Err(F64Refusal::Number(_)));
    if counts && digit && !closed { DECIMAL } else { NAME }
}

// ---- The sheet ----

/// When a sheet is sound, in one walk with the open containers on a stack.
pub fn check(length: u32, words: &[u32], count: u32) -> bool {
    let count = count as usize;
    if words.len() / WORDS < count {
        return false;
    }
    let mut open: Vec<(usize, usize)> = Vec::new();
    let mut before: Option<(u64, u64)> = None;
    let mut header = false;
    for i in 0..count {
        let (code, a, b) = (words[WORDS * i], words[WORDS * i + 1], words[WORDS * i + 2]);
        let opens = is_opener(code);
        if header && !opens {
            return false;
        }
        header = code == HEADER;
        let fits = if opens {
            let end = a as usize;
            let inside = open.last().is_none_or(|&(_, outer)| end < outer);
            open.push((i, end));
            i > 0 && b <= 1 && i < end && end < count && inside
        } else if code == END {
            b == 0 && open.pop() == Some((a as usize, i))
        } else if is_scalar(code) {
            let (start, end) = (u64::from(a), u64::from(a) + u64::from(b));
            let rises = before.is_none_or(|(first, past)| first < start && past <= start);
            before = Some((start, end));
            rises && end <= u64::from(length) && (b > 0 || is_quoted(code))
        } else if code == OPERATOR {
            (LESS_THAN..=EXISTS).contains(&a) && b == 0
        } else {
            code == MIXED_CONTAINER && a == 0 && b == 0
        };
        if !fits {
            return false;
        }
    }
    open.is_empty() && !header
}

/// A token's view, or refusal 12.
pub fn view<'t>(text: &'t [u8], words: &[u32], count: u32, index: u32) -> Result<&'t [u8], u8> {
    let (index, count) = (index as usize, count as usize);
    if index >= count || WORDS * count > words.len() || !is_scalar(words[WORDS * index]) {
        return Err(NO_SCALAR);
    }
    let (offset, length) = (words[WORDS * index + 1] as usize, words[WORDS * index + 2] as usize);
    text.get(offset..offset + length).ok_or(NO_SCALAR)
}
