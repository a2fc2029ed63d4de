//! 'When a sheet is sound' and refusal 12, read from document 01 sentence by sentence: each
//! sentence is one test over all tokens, as slow as its quantifiers. It shares nothing with any
//! other program but the paper's numbers.

use crate::numbers::*;

/// A sentence that a sheet can fail.
#[derive(Clone, Copy, Debug, PartialEq, Eq, PartialOrd, Ord, Hash)]
pub enum Fault {
    CountOverWords,
    Form,
    ContainerEnd,
    EndOpener,
    Nesting,
    OutsideText,
    NotRising,
    Overlap,
    EmptyScalar,
    TokenZeroOpens,
    HeaderAlone,
}

pub const FAULTS: [Fault; 11] = [
    Fault::CountOverWords,
    Fault::Form,
    Fault::ContainerEnd,
    Fault::EndOpener,
    Fault::Nesting,
    Fault::OutsideText,
    Fault::NotRising,
    Fault::Overlap,
    Fault::EmptyScalar,
    Fault::TokenZeroOpens,
    Fault::HeaderAlone,
];

struct Token {
    code: u32,
    a: u64,
    b: u64,
}

impl Token {
    fn opens(&self) -> bool {
        is_opener(self.code)
    }

    fn is_end(&self) -> bool {
        self.code == END
    }

    fn is_scalar(&self) -> bool {
        is_scalar(self.code)
    }

    fn has_form(&self) -> bool {
        match self.code {
            MIXED_CONTAINER => self.a == 0 && self.b == 0,
            OPERATOR => (LESS_THAN.into()..=EXISTS.into()).contains(&self.a) && self.b == 0,
            END => self.b == 0,
            code if is_opener(code) => self.b == 0 || self.b == 1,
            code => is_scalar(code),
        }
    }
}

fn token(words: &[u32], i: usize) -> Token {
    let words = &words[WORDS * i..][..WORDS];
    Token { code: words[0], a: u64::from(words[1]), b: u64::from(words[2]) }
}

/// Whether so many tokens have more words than there are.
fn count_over(words: &[u32], count: u32) -> bool {
    WORDS as u64 * u64::from(count) > words.len() as u64
}

/// A sheet is sound when it fails no sentence.
pub fn sound(length: u32, words: &[u32], count: u32) -> bool {
    FAULTS.iter().all(|&fault| !fails(fault, length, words, count))
}

/// Every sentence that this sheet fails.
pub fn faults(length: u32, words: &[u32], count: u32) -> Vec<Fault> {
    FAULTS.into_iter().filter(|&fault| fails(fault, length, words, count)).collect()
}

/// Whether the sheet fails this sentence. Where the count is over the words there are no tokens to
/// ask after, so that sentence fails alone.
pub fn fails(fault: Fault, length: u32, words: &[u32], count: u32) -> bool {
    let over = count_over(words, count);
    if fault == Fault::CountOverWords || over {
        return fault == Fault::CountOverWords && over;
    }
    let sheet: Vec<Token> = (0..count as usize).map(|i| token(words, i)).collect();
    let all = |test: &dyn Fn(usize) -> bool| (0..sheet.len()).all(test);
    let at = |i: u64| usize::try_from(i).ok().and_then(|i| sheet.get(i));
    let holds = match fault {
        Fault::CountOverWords => true,

        // words 0 to 3c - 1 have the forms above
        Fault::Form => all(&|i| sheet[i].has_form()),

        // a container at i has i < end < c and its End names i
        Fault::ContainerEnd => all(&|i| {
            let names_back = |end: &Token| end.is_end() && end.a == i as u64;
            !sheet[i].opens() || i as u64 <= sheet[i].a && at(sheet[i].a).is_some_and(names_back)
        }),

        // every End names an earlier opener that names it
        Fault::EndOpener => all(&|i| {
            let names_it = |opener: &Token| opener.opens() && opener.a == i as u64;
            !sheet[i].is_end() || sheet[i].a < i as u64 && at(sheet[i].a).is_some_and(names_it)
        }),

        // if i < j < end of i and j opens, j ends before i does
        Fault::Nesting => all(&|i| {
            !sheet[i].opens()
                || all(&|j| {
                    let inside = i < j && (j as u64) < sheet[i].a;
                    !(inside && sheet[j].opens()) || sheet[j].a < sheet[i].a
                })
        }),

        // scalars have offset + length at most L
        Fault::OutsideText => {
            all(&|i| !sheet[i].is_scalar() || sheet[i].a + sheet[i].b <= u64::from(length))
        }

        // starts strictly rise in tape order
        Fault::NotRising => all(&|i| {
            all(&|j| {
                let both = i < j && sheet[i].is_scalar() && sheet[j].is_scalar();
                !both || sheet[i].a < sheet[j].a
            })
        }),

        // no scalar reaches past the next one's start
        Fault::Overlap => all(&|i| {
            let next = sheet[i + 1..].iter().find(|token| token.is_scalar());
            !sheet[i].is_scalar() || next.is_none_or(|next| sheet[i].a + sheet[i].b <= next.a)
        }),

        // only Quoted may have length 0, and code 11, which is treated as code 5
        Fault::EmptyScalar => {
            all(&|i| !sheet[i].is_scalar() || sheet[i].b > 0 || is_quoted(sheet[i].code))
        }

        // token 0 opens nothing
        Fault::TokenZeroOpens => !sheet.first().is_some_and(Token::opens),

        // a Header has a container next
        Fault::HeaderAlone => {
            all(&|i| sheet[i].code != HEADER || sheet.get(i + 1).is_some_and(Token::opens))
        }
    };
    !holds
}

/// What refusal 12 is given for.
#[derive(Clone, Copy, Debug, PartialEq, Eq, PartialOrd, Ord, Hash)]
pub enum NoScalar {
    IndexNotBelowCount,
    CountOverWords,
    NoScalarThere,
    OutsideText,
}

/// A token's view, or why there is none. The words need not be a sound sheet.
pub fn view<'t>(
    text: &'t [u8],
    words: &[u32],
    count: u32,
    index: u32,
) -> Result<&'t [u8], NoScalar> {
    if index >= count {
        return Err(NoScalar::IndexNotBelowCount);
    }
    if count_over(words, count) {
        return Err(NoScalar::CountOverWords);
    }
    let token = token(words, index as usize);
    if !token.is_scalar() {
        return Err(NoScalar::NoScalarThere);
    }
    if token.a + token.b > text.len() as u64 {
        return Err(NoScalar::OutsideText);
    }
    Ok(&text[token.a as usize..(token.a + token.b) as usize])
}
