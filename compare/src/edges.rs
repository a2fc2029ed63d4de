//! Document 01's own cases, 'Both sides of each edge', and both sides of its other sentences, and with
//! them those of the requests W2, W5, W1, W7 and W8: every run and the sample begin with them.

use crate::numbers::*;
use crate::record::Record;
use crate::{date_edges, file_edges, kind, leading_edges, write_edges};

const TEXTS: [&[u8]; 37] = [
    b"a={b c=d}\n",
    b"",
    b"a",
    b"a }",
    b"{ a }",
    b"a={{b}<c}",
    b"a={b !c}",
    b"a={b=c",
    b"a={b={c=d",
    b"a={{}}",
    b"a=rgb{1}",
    b"[[!a]b=c]",
    b"a={b c=d {}}",
    b"a=}",
    b"a={b c=d {[[x] y]}}",
    b"[x",
    b"[[a b",
    // the end of the text in a parameter, and a name that is a bracket
    b"[",
    b"[[",
    b"[[!",
    b"[[a",
    b"[[a]",
    b"[[a] ",
    b"[[a]b",
    b"[[a]b ",
    b"[[]]b]",
    b"a={[[",
    b"a={[x",
    // a byte order mark, alone, before a text, and half of one
    b"\xef\xbb\xbf",
    b"\xef\xbb\xbfa={b}",
    b"\xef\xbb\xbf{ a }",
    b"\xef\xbb",
    // comments, quotes and interpolations that meet the end
    b"a=b#",
    b"a=\"b\\\"",
    b"a=@[b",
    // what closes nothing
    b"}]a=b}",
    b"a={b}={c}",
];

/// Quoted runs with an escape: first, last, before the closing quote, two in a row, and across the
/// edges of strides of eight and sixteen bytes.
const ESCAPED: [&str; 9] = [
    "\\\"bc",
    "bc\\n",
    "bc\\\"",
    "b\\\\\\\"c",
    "aaaaaaa\\\"b",
    "aaaaaaaa\\\"b",
    "aaaaaaaaaaaaaaa\\\"b",
    "aaaaaaaaaaaaaaaa\\\"b",
    "aaaaaaaaaaaaaaaaa\\\"b",
];

/// Those runs as a key, a value and an entry; a backslash behind a run, which has none; and a run of a
/// parameter, which is unquoted whatever it looks like.
fn escapes() -> Vec<Vec<u8>> {
    let shaped =
        |run: &&str| [format!("\"{run}\"=b"), format!("a=\"{run}\""), format!("a={{\"{run}\" c}}")];
    let mut texts: Vec<Vec<u8>> = ESCAPED.iter().flat_map(shaped).map(String::into_bytes).collect();
    texts.extend([b"a=\"bc\"\\=d".to_vec(), b"[[x]\"\\\"]".to_vec()]);
    texts
}

/// Full against every other end, in each state: which of the two comes first.
const TIGHT: [(&[u8], u16); 39] = [
    (b"a={b c=d}\n", 8),
    (b"a={b c=d}\n", 7),
    (b"a !b", 1),
    (b"a !b", 2),
    (b"a={b", 2),
    (b"a={b", 3),
    (b"[[a", 0),
    (b"[[a]b", 0),
    (b"[[a]b", 1),
    (b"[[a]b ]", 1),
    (b"[[a]b ]", 2),
    (b"[[a]b=c", 1),
    (b"[[a]b=c", 2),
    (b"[[a]b=c", 4),
    (b"[[a]b=c", 5),
    (b"a=b{", 2),
    (b"a=b{c", 2),
    (b"a=b{c", 3),
    (b"a=b{c", 4),
    (b"a={}", 2),
    (b"a={}", 3),
    (b"a={b=c", 4),
    (b"a={b=c", 5),
    (b"a={{", 1),
    (b"a={{", 2),
    (b"a{{b}<", 4),
    (b"a{{b}<", 5),
    (b"a<", 1),
    (b"a<", 2),
    (b"a=}", 0),
    (b"a=}", 1),
    (b"a }", 1),
    (b"a }", 2),
    (b"{b", 0),
    (b"\"", 0),
    (b"\"\"", 0),
    (b"a=@[", 1),
    (b"a={b c=d {[[x] y]}}", 7),
    (b"a={b c=d {[[x] y]}}", 8),
];

/// A text of one token more than a record is lent room for, with the most room and with capacities over it,
/// which are taken for the most; and a short text with these.
fn rooms() -> Vec<Record> {
    let one_over = [b"a=b ".repeat(usize::from(MOST_TOKENS) / 2).as_slice(), b"a"].concat();
    let over = [MOST_TOKENS + 1, u16::MAX];
    let texts = [one_over.clone(), TEXTS[0].to_vec()];
    let larger = texts.iter().flat_map(|text| over.map(|room| Record::text(text.clone(), room)));
    std::iter::once(Record::text(one_over, MOST_TOKENS)).chain(larger).collect()
}

const SCALARS: [&str; 26] = [
    "10",
    "yes",
    "no",
    "109E4",
    "",
    "+",
    "-",
    "18446744073709551615",
    "18446744073709551616",
    "9223372036854775807",
    "9223372036854775808",
    "9223372036854775808a",
    "-9223372036854775807",
    "-9223372036854775808",
    "999999999999999",
    "9007199254740991",
    "9007199254740992",
    "9007199254740993",
    "-9007199254740993",
    "-0",
    "-0.0",
    "18446744073709551616.0",
    "0.0000000000000000000000",
    "0.00000000000000000000000",
    "1844674407370955161.5f",
    "1844674407370955161.6f",
];

/// A token's code, a and b.
type Told = (u32, u32, u32);

/// Both sides of each sentence of 'When a sheet is sound': a text length and the tokens.
const SHEETS: [(u32, &[Told]); 37] = [
    (0, &[]),
    // a=rgb{1}, whole, over a text just long enough and one too short
    (8, &[(UNQUOTED, 0, 1), (HEADER, 2, 3), (ARRAY, 4, 0), (UNQUOTED, 6, 1), (END, 2, 0)]),
    (7, &[(UNQUOTED, 0, 1), (HEADER, 2, 3), (ARRAY, 4, 0), (UNQUOTED, 6, 1), (END, 2, 0)]),
    (6, &[(UNQUOTED, 0, 1), (HEADER, 2, 3), (ARRAY, 4, 0), (UNQUOTED, 6, 1), (END, 2, 0)]),
    // the forms
    (8, &[(UNQUOTED, 0, 1), (HEADER, 2, 3), (OBJECT, 4, 1), (UNQUOTED, 6, 1), (END, 2, 0)]),
    (8, &[(UNQUOTED, 0, 1), (HEADER, 2, 3), (ARRAY, 4, 2), (UNQUOTED, 6, 1), (END, 2, 0)]),
    (8, &[(UNQUOTED, 0, 1), (HEADER, 2, 3), (ARRAY, 4, 0), (UNQUOTED, 6, 1), (END, 2, 1)]),
    (1, &[(0, 0, 0)]),
    (1, &[(LAST_CODE + 1, 0, 1)]),
    (1, &[(MIXED_CONTAINER, 0, 0), (OPERATOR, LESS_THAN, 0), (OPERATOR, EXISTS, 0)]),
    (1, &[(OPERATOR, 0, 0)]),
    (1, &[(OPERATOR, EXISTS + 1, 0)]),
    (1, &[(OPERATOR, LESS_THAN, 1)]),
    (1, &[(MIXED_CONTAINER, 0, 1)]),
    (1, &[(MIXED_CONTAINER, 1, 0)]),
    // a Header without its container
    (5, &[(UNQUOTED, 0, 1), (HEADER, 2, 3)]),
    (8, &[(UNQUOTED, 0, 1), (HEADER, 2, 3), (UNQUOTED, 6, 1)]),
    (8, &[(HEADER, 0, 1), (MIXED_CONTAINER, 0, 0), (ARRAY, 3, 0), (END, 2, 0)]),
    // links: an opener past the count, one that names itself, an End that names no opener
    (1, &[(UNQUOTED, 0, 1), (ARRAY, 2, 0), (END, 1, 0)]),
    (1, &[(UNQUOTED, 0, 1), (ARRAY, 2, 0)]),
    (1, &[(UNQUOTED, 0, 1), (ARRAY, 1, 0)]),
    (1, &[(UNQUOTED, 0, 1), (END, 0, 0)]),
    (1, &[(UNQUOTED, 0, 1), (END, 1, 0)]),
    (1, &[(ARRAY, 1, 0), (END, 0, 0)]),
    // nested, and crossed
    (1, &[(UNQUOTED, 0, 1), (ARRAY, 4, 0), (ARRAY, 3, 0), (END, 2, 0), (END, 1, 0)]),
    (1, &[(UNQUOTED, 0, 1), (ARRAY, 3, 0), (ARRAY, 4, 0), (END, 1, 0), (END, 2, 0)]),
    // views: touching, overlapping, starting together, empty
    (4, &[(UNQUOTED, 0, 2), (UNQUOTED, 2, 2)]),
    (4, &[(UNQUOTED, 0, 3), (UNQUOTED, 2, 2)]),
    (4, &[(QUOTED, 2, 0), (UNQUOTED, 2, 2)]),
    (4, &[(QUOTED, 2, 0), (MIXED_CONTAINER, 0, 0), (QUOTED, 4, 0)]),
    (4, &[(UNQUOTED, 2, 0)]),
    (4, &[(HEADER, 2, 0), (ARRAY, 2, 0), (END, 1, 0)]),
    (4, &[(UNQUOTED, u32::MAX, 1)]),
    // code 11 as code 5: empty, touching, starting together, too long
    (1, &[(QUOTED_ESCAPE, 0, 0)]),
    (4, &[(QUOTED_ESCAPE, 0, 2), (QUOTED_ESCAPE, 2, 0), (QUOTED, 3, 0)]),
    (4, &[(QUOTED_ESCAPE, 2, 0), (UNQUOTED, 2, 2)]),
    (4, &[(QUOTED_ESCAPE, 2, 3)]),
];

/// Views over the two bytes `ab`: an index and a count beside two tokens.
const VIEWS: [(u32, u32); 8] =
    [(0, 2), (1, 2), (2, 2), (1, 1), (0, 0), (2, 3), (0, 3), (0, u32::MAX / WORDS as u32 + 1)];

pub fn records() -> Vec<Record> {
    let mut records: Vec<Record> = Vec::new();
    records.extend(TEXTS.map(|text| Record::text(text.to_vec(), MOST_TOKENS)));
    records.extend(escapes().into_iter().map(|text| Record::text(text, MOST_TOKENS)));
    records.extend(TIGHT.map(|(text, capacity)| Record::text(text.to_vec(), capacity)));
    records.extend(rooms());
    records.extend(SCALARS.map(|scalar| Record::scalar(scalar.as_bytes().to_vec())));
    records.extend(kind::EDGES.map(|(scalar, _)| Record::scalar(scalar.as_bytes().to_vec())));
    for (length, tokens) in SHEETS {
        let words: Vec<u32> = tokens.iter().flat_map(|&(code, a, b)| token(code, a, b)).collect();
        records.push(Record::check(length, tokens.len() as u32, &words));
    }
    for (index, count) in VIEWS {
        for tokens in [
            [token(QUOTED, 1, 1), token(END, 0, 0)],
            [token(UNQUOTED, 2, 0), token(UNQUOTED, 0, 3)],
            [token(QUOTED_ESCAPE, 0, 2), token(QUOTED_ESCAPE, 2, 0)],
        ] {
            records.push(Record::view(index, count, &tokens.concat(), b"ab"));
        }
    }
    records.extend(write_edges::cases().into_iter().map(|(record, _)| record));
    records.extend(file_edges::cases().into_iter().map(|(record, _)| record));
    records.extend(leading_edges::cases().into_iter().map(|(scalar, _)| Record::leading(scalar)));
    records.extend(date_edges::cases().into_iter().map(|(record, _)| record));
    records
}
