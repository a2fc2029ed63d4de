//! Request W5 as a plain program: one walk over the tokens with the open bodies on a stack, and the model's
//! own check and parse. It stands on the other side of the comparison when the comparison itself is tested,
//! and for that it can be given one fault. With the writer that is asked beside the Rust it shares the
//! paper's numbers alone.

use crate::model;
use crate::numbers::*;
use crate::record::ToWrite;

/// What a wrong writer does otherwise.
#[derive(Clone, Copy, Debug, PartialEq, Eq)]
pub enum Fault {
    /// Asks for the form down to level 64 only.
    FormTo64,
    /// Looks for room before it looks at the depth.
    RoomBeforeDepth,
    /// Leaves the quotes off code 11.
    EscapeBare,
    /// Puts a space inside the braces.
    SpaceInBraces,
    /// Gives a MixedContainer a space of its own.
    MixedSpaced,
    /// Forgets the flag when it holds what was read back against the sheet.
    FlagForgotten,
    /// Holds the lengths of the scalars against each other, and not their bytes.
    BytesForgotten,
    /// Writes `=` with a space on each side.
    EqualSpaced,
    /// Counts the root as a level.
    RootIsLevel,
    /// Counts a Header as a level.
    HeaderIsLevel,
    /// Counts no level for an empty container.
    EmptyIsNoLevel,
    /// Writes operator 7 after a key as the `=` that stands for none.
    SevenIsNone,
    /// Never asks for room in the scratch.
    ScratchForgotten,
}

/// What may come next in an open body.
#[derive(Clone, Copy, PartialEq, Eq)]
enum Due {
    Key,
    OperatorOrEntry,
    Entry,
    /// As in an array.
    Anything,
    /// A Header stands there, in an array or as a key's entry, and its container is next.
    HeadersContainer {
        in_array: bool,
    },
}

struct Writer<'r> {
    asked: &'r ToWrite<'r>,
    fault: Option<Fault>,
    text: Vec<u8>,
    /// What is due in each open body, and whether something stands in it already; the root is first.
    open: Vec<(Due, bool)>,
}

/// The text that is written, or the refusal's number.
pub fn write(asked: &ToWrite<'_>, fault: Option<Fault>) -> Result<Vec<u8>, u8> {
    if !model::check(asked.text.len() as u32, &asked.words, asked.count) {
        return Err(NOT_SOUND);
    }
    let mut writer = Writer { asked, fault, text: Vec::new(), open: vec![(Due::Key, false)] };
    writer.walk()?;
    let room = writer.has_room();
    if fault == Some(Fault::RoomBeforeDepth) && !room {
        return Err(NO_ROOM);
    }
    if writer.levels() > MOST_LEVELS {
        return Err(TOO_DEEP);
    }
    if writer.text.len() > TEXT_LIMIT {
        return Err(TEXT_TOO_LONG);
    }
    if !room {
        return Err(NO_ROOM);
    }
    if !writer.reads_back() {
        return Err(READS_DIFFERENTLY);
    }
    Ok(writer.text)
}

impl Writer<'_> {
    /// Whether it was given this fault.
    fn has(&self, fault: Fault) -> bool {
        self.fault == Some(fault)
    }

    fn count(&self) -> usize {
        self.asked.count as usize
    }

    fn token(&self, i: usize) -> (u32, u32, u32) {
        let words = &self.asked.words[WORDS * i..];
        (words[0], words[1], words[2])
    }

    // -- the walk --

    /// Writes every token, or refuses one that is not of the form.
    fn walk(&mut self) -> Result<(), u8> {
        for i in 0..self.count() {
            if self.has(Fault::FormTo64) && self.open.len() > MOST_LEVELS + 1 {
                return Err(TOO_DEEP);
            }
            let (code, a, _) = self.token(i);
            match code {
                MIXED_CONTAINER => self.mixed()?,
                OPERATOR => self.operator(a)?,
                HEADER => {
                    let due = self.entry_begins()?;
                    self.scalar(i);
                    self.text.push(b' ');
                    self.set_due(Due::HeadersContainer { in_array: due == Due::Anything });
                }
                END => self.end()?,
                _ if is_opener(code) => {
                    let due = self.entry_begins()?;
                    self.set_due(due);
                    self.text.push(b'{');
                    self.brace_space();
                    let inside = if code == OBJECT { Due::Key } else { Due::Anything };
                    self.open.push((inside, false));
                }
                _ if !is_written(code) => return Err(OTHER_FORM),
                _ if self.due() == Due::Key => {
                    self.separate();
                    self.scalar(i);
                    self.set_due(Due::OperatorOrEntry);
                }
                _ => {
                    let due = self.entry_begins()?;
                    self.scalar(i);
                    self.set_due(due);
                }
            }
        }
        self.body_ends()
    }

    /// What is due in the innermost open body.
    fn due(&self) -> Due {
        self.open.last().expect("the root").0
    }

    fn set_due(&mut self, due: Due) {
        self.open.last_mut().expect("the root").0 = due;
    }

    /// A space, where something stands in this body already.
    fn separate(&mut self) {
        let body = self.open.last_mut().expect("the root");
        if std::mem::replace(&mut body.1, true) {
            self.text.push(b' ');
        }
    }

    /// What goes before an entry, and what is due behind it.
    fn entry_begins(&mut self) -> Result<Due, u8> {
        match self.due() {
            Due::Key => return Err(OTHER_FORM),
            Due::OperatorOrEntry if self.has(Fault::EqualSpaced) => self.text.extend(b" = "),
            Due::OperatorOrEntry => self.text.push(b'='),
            Due::Entry => {}
            Due::Anything => {
                self.separate();
                return Ok(Due::Anything);
            }
            Due::HeadersContainer { in_array } => {
                return Ok(if in_array { Due::Anything } else { Due::Key });
            }
        }
        Ok(Due::Key)
    }

    /// A MixedContainer writes nothing; behind it entries follow as in an array.
    fn mixed(&mut self) -> Result<(), u8> {
        if !matches!(self.due(), Due::Key | Due::Anything) {
            return Err(OTHER_FORM);
        }
        if self.has(Fault::MixedSpaced) {
            self.separate();
        }
        self.set_due(Due::Anything);
        Ok(())
    }

    /// An operator's sign, an entry of an array or between a key and its entry.
    fn operator(&mut self, number: u32) -> Result<(), u8> {
        match self.due() {
            Due::Anything => {
                self.separate();
                self.text.extend(sign(number).bytes());
            }
            Due::OperatorOrEntry if self.has(Fault::SevenIsNone) && number == EQUAL => {
                self.text.push(b'=');
                self.set_due(Due::Entry);
            }
            Due::OperatorOrEntry => {
                self.text.extend(format!(" {} ", sign(number)).bytes());
                self.set_due(Due::Entry);
            }
            _ => return Err(OTHER_FORM),
        }
        Ok(())
    }

    /// Closes the innermost body.
    fn end(&mut self) -> Result<(), u8> {
        self.body_ends()?;
        self.open.pop();
        self.brace_space();
        self.text.push(b'}');
        Ok(())
    }

    /// A body may not end between a key and its entry.
    fn body_ends(&self) -> Result<(), u8> {
        let whole = matches!(self.due(), Due::Key | Due::Anything);
        if whole { Ok(()) } else { Err(OTHER_FORM) }
    }

    /// Nothing, but for the fault.
    fn brace_space(&mut self) {
        if self.has(Fault::SpaceInBraces) {
            self.text.push(b' ');
        }
    }

    /// A scalar's bytes, in quotes where its code has them.
    fn scalar(&mut self, i: usize) {
        let (code, offset, length) = self.token(i);
        let quotes = is_quoted(code) && !(code == QUOTED_ESCAPE && self.has(Fault::EscapeBare));
        let quote: &[u8] = if quotes { b"\"" } else { b"" };
        self.text.extend(quote);
        self.text.extend(&self.asked.text[offset as usize..][..length as usize]);
        self.text.extend(quote);
    }

    // -- what is asked of the whole --

    /// How many containers stand one in another.
    fn levels(&self) -> usize {
        let (mut open, mut headers, mut most) = (0, Vec::new(), 0);
        for i in 0..self.count() {
            let (code, a, _) = self.token(i);
            if is_opener(code) {
                let header = i > 0 && self.token(i - 1).0 == HEADER;
                headers.push(header && self.has(Fault::HeaderIsLevel));
                open += 1;
                let empty = a as usize == i + 1 && self.has(Fault::EmptyIsNoLevel);
                let more = headers.iter().filter(|&&header| header).count();
                most = most.max(open + more - usize::from(empty));
            } else if code == END {
                headers.pop();
                open -= 1;
            }
        }
        most + usize::from(self.has(Fault::RootIsLevel))
    }

    /// Whether the buffer holds the text and the scratch the sheet's tokens.
    fn has_room(&self) -> bool {
        let scratch =
            self.asked.scratch / WORDS >= self.count() || self.has(Fault::ScratchForgotten);
        scratch && self.text.len() <= self.asked.room
    }

    /// Whether the text, parsed into the scratch, gives the sheet again, offsets aside.
    fn reads_back(&self) -> bool {
        // a writer that forgets the scratch reads into what it should have had
        let room = self.asked.scratch.max(WORDS * self.count());
        let mut scratch = vec![u32::MAX; room];
        let Ok((count, _)) = model::parse(&self.text, &mut scratch, model::cut).answer else {
            return false;
        };
        count == self.count() && (0..count).all(|i| self.same(i, &scratch[WORDS * i..]))
    }

    /// Whether this token is the one that was read, by its code and its bytes or its words.
    fn same(&self, i: usize, read: &[u32]) -> bool {
        let (code, a, b) = self.token(i);
        let bytes = |text: &[u8], offset: u32, length: u32| {
            text[offset as usize..][..length as usize].to_vec()
        };
        if code != read[0] {
            return false;
        }
        if is_scalar(code) && self.has(Fault::BytesForgotten) {
            return b == read[2];
        }
        if is_scalar(code) {
            return bytes(self.asked.text, a, b) == bytes(&self.text, read[1], read[2]);
        }
        a == read[1] && (b == read[2] || self.has(Fault::FlagForgotten))
    }
}
