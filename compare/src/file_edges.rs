//! The edges of request W1, each with the answer that its words give: the paper's own records, rooms, fields
//! at their limits, and two refusals at once. Every run and the sample have them; `tests/files.rs` holds
//! both readings of the request against the answers.

use crate::numbers::*;
use crate::pipe::from_hex;
use crate::record::Record;

/// The sheet of `a=b`, of three bytes, and its file.
const PAIR: [u32; 2 * WORDS] = [UNQUOTED, 0, 1, UNQUOTED, 2, 1];
const PAIR_FILE: &str = "0000001e0100000300000002040000000000000001040000000200000001";
const PAIR_LINES: &str = "sheet 3 2\n0 Unquoted 0 1\n1 Unquoted 2 1\n";

/// The file of a sheet without tokens, of no text.
const EMPTY_FILE: &str = "0000000c0100000000000000";

/// Every code, over twenty bytes.
const ALL_CODES: [[u32; WORDS]; 16] = [
    token(UNQUOTED, 0, 1),
    token(OPERATOR, EXISTS, 0),
    token(HEADER, 3, 3),
    token(ARRAY, 6, 1),
    token(MIXED_CONTAINER, 0, 0),
    token(QUOTED, 8, 0),
    token(END, 3, 0),
    token(QUOTED_ESCAPE, 9, 2),
    token(OBJECT, 10, 0),
    token(PARAMETER, 12, 1),
    token(END, 8, 0),
    token(UNDEFINED_PARAMETER, 14, 1),
    token(OBJECT, 15, 1),
    token(UNQUOTED, 16, 1),
    token(QUOTED_ESCAPE, 18, 2),
    token(END, 12, 0),
];

const ALL_CODES_FILE: &str = concat!(
    "0000009c0100001400000010",
    "040000000000000001",
    "080000000800000000",
    "0a0000000300000003",
    "010000000600000001",
    "030000000000000000",
    "050000000800000000",
    "090000000300000000",
    "0b0000000900000002",
    "020000000a00000000",
    "060000000c00000001",
    "090000000800000000",
    "070000000e00000001",
    "020000000f00000001",
    "040000001000000001",
    "0b0000001200000002",
    "090000000c00000000",
);

/// A sheet to put on file: room, text length, count, words; and what it comes to.
type Packed = (u16, u32, u32, Vec<u32>, String);

fn file(hex: &str) -> String {
    format!("file {hex}\n")
}

fn refused(number: u8) -> String {
    format!("refused {number}\n")
}

fn packed() -> Vec<Packed> {
    let (pair, over) = (|| PAIR.to_vec(), MOST_OF_THREE + 1);
    let loose_end = || token(END, 0, 0).to_vec();
    let rising = |offset| token(UNQUOTED, offset, 1).to_vec();
    vec![
        // the paper's own, with just room, one less, one more and none
        (30, 3, 2, pair(), file(PAIR_FILE)),
        (29, 3, 2, pair(), refused(FILE_NO_ROOM)),
        (31, 3, 2, pair(), file(PAIR_FILE)),
        (0, 3, 2, pair(), refused(FILE_NO_ROOM)),
        // no tokens, with words and without
        (12, 0, 0, Vec::new(), file(EMPTY_FILE)),
        (12, 0, 0, pair(), file(EMPTY_FILE)),
        (11, 0, 0, Vec::new(), refused(FILE_NO_ROOM)),
        // words behind the tokens, which are not written, and words that are missing
        (21, 3, 1, pair(), file("000000150100000300000001040000000000000001")),
        (30, 3, 2, [pair(), vec![u32::MAX]].concat(), file(PAIR_FILE)),
        (MOST_ROOM as u16, 3, 2, PAIR[..5].to_vec(), refused(FILE_NOT_SOUND)),
        (MOST_ROOM as u16, 3, 3, pair(), refused(FILE_NOT_SOUND)),
        // counts of which three times, or nine times and twelve, run over 32 bits
        (MOST_ROOM as u16, 3, 0x5555_5556, pair(), refused(FILE_NOT_SOUND)),
        (MOST_ROOM as u16, 3, 954_437_177, pair(), refused(FILE_NOT_SOUND)),
        (MOST_ROOM as u16, 3, u32::MAX, Vec::new(), refused(FILE_NOT_SOUND)),
        // the text length and its field
        (12, MOST_OF_THREE, 0, Vec::new(), file("0000000c01ffffff00000000")),
        (12, over, 0, Vec::new(), refused(FILE_TOO_LARGE)),
        (12, u32::MAX, 0, Vec::new(), refused(FILE_TOO_LARGE)),
        (30, over + 3, 2, pair(), refused(FILE_TOO_LARGE)),
        (30, 2, 2, pair(), refused(FILE_NOT_SOUND)),
        (
            21,
            MOST_OF_THREE,
            1,
            rising(0xfffffe),
            file("0000001501ffffff000000010400fffffe00000001"),
        ),
        (21, over, 1, rising(0xffffff), refused(FILE_TOO_LARGE)),
        // the first that holds
        (12, over, 1, loose_end(), refused(FILE_NOT_SOUND)),
        (0, 3, 1, loose_end(), refused(FILE_NOT_SOUND)),
        (0, over, 0, Vec::new(), refused(FILE_TOO_LARGE)),
        // every code
        (156, 20, 16, ALL_CODES.concat(), file(ALL_CODES_FILE)),
        (155, 20, 16, ALL_CODES.concat(), refused(FILE_NO_ROOM)),
    ]
}

/// A file to read: room, bytes; and what it comes to.
fn unpacked() -> Vec<(u16, String, String)> {
    let pair = |total: &str, version: &str, length: &str, count: &str, tail: &str| {
        format!("{total}{version}{length}{count}{}{tail}", &PAIR_FILE[24..])
    };
    let lone = |length: &str, token: &str| format!("0000001501{length}00000001{token}");
    let all: Vec<String> = ALL_CODES
        .iter()
        .enumerate()
        .map(|(i, token)| format!("{i} {} {} {}\n", name(token[0]), token[1], token[2]))
        .collect();
    let mut cases = vec![
        // the paper's own, with rooms of just its words, one less, more that are no token, and none
        (6, PAIR_FILE.to_string(), PAIR_LINES.to_string()),
        (5, PAIR_FILE.to_string(), refused(FILE_NO_ROOM)),
        (7, PAIR_FILE.to_string(), PAIR_LINES.to_string()),
        (8, PAIR_FILE.to_string(), PAIR_LINES.to_string()),
        (MOST_SCRATCH as u16, PAIR_FILE.to_string(), PAIR_LINES.to_string()),
        (2, PAIR_FILE.to_string(), refused(FILE_NO_ROOM)),
        (0, PAIR_FILE.to_string(), refused(FILE_NO_ROOM)),
        // no tokens
        (0, EMPTY_FILE.to_string(), "sheet 0 0\n".to_string()),
        (0, "0000000c01ffffff00000000".to_string(), "sheet 16777215 0\n".to_string()),
        // first words: of another length, little-endian, and right but for what is cut or added
        (6, pair("0000001d", "01", "000003", "00000002", ""), refused(FILE_LENGTH)),
        (6, pair("0000001f", "01", "000003", "00000002", ""), refused(FILE_LENGTH)),
        (6, pair("1e000000", "01", "000003", "00000002", ""), refused(FILE_LENGTH)),
        (6, pair("0000001e", "01", "000003", "00000002", "00"), refused(FILE_LENGTH)),
        (6, PAIR_FILE[..58].to_string(), refused(FILE_LENGTH)),
        (6, "0000000d0100000000000000".to_string(), refused(FILE_LENGTH)),
        // counts: more and fewer than there are, a byte over, and one that agrees in 32 bits alone
        (6, pair("0000001e", "01", "000003", "00000003", ""), refused(FILE_COUNT)),
        (6, pair("0000001e", "01", "000003", "00000001", ""), refused(FILE_COUNT)),
        (6, pair("0000001e", "01", "000003", "02000000", ""), refused(FILE_COUNT)),
        (6, pair("0000001f", "01", "000003", "00000002", "00"), refused(FILE_COUNT)),
        (
            6,
            pair("00000027", "01", "000003", "00000002", "030000000000000000"),
            refused(FILE_COUNT),
        ),
        (9, "0000000d0100000038e38e3900".to_string(), refused(FILE_COUNT)),
        (9, "0000000c01000000ffffffff".to_string(), refused(FILE_COUNT)),
        (9, "0000000c0100000080000000".to_string(), refused(FILE_COUNT)),
        // the first that holds
        (6, pair("00000000", "02", "000003", "00000002", ""), refused(FILE_LENGTH)),
        (6, pair("0000001e", "02", "000003", "00000003", ""), refused(UNKNOWN_VERSION)),
        (0, pair("0000001e", "02", "000000", "00000002", ""), refused(UNKNOWN_VERSION)),
        (6, pair("0000001e", "01", "000000", "00000003", ""), refused(FILE_COUNT)),
        (0, pair("0000001e", "01", "000002", "00000002", ""), refused(FILE_NOT_SOUND)),
        (6, pair("0000001e", "01", "000002", "00000002", ""), refused(FILE_NOT_SOUND)),
        // code 11, which may be empty, over one byte of text; and the same as a scalar without quotes
        (3, lone("000001", "0b0000000000000000"), "sheet 1 1\n0 QuotedEscape 0 0\n".to_string()),
        (3, lone("000001", "040000000000000000"), refused(FILE_NOT_SOUND)),
        // a view that ends past every number
        (3, lone("ffffff", "04ffffffff00000001"), refused(FILE_NOT_SOUND)),
        // every code
        (48, ALL_CODES_FILE.to_string(), format!("sheet 20 16\n{}", all.concat())),
        (47, ALL_CODES_FILE.to_string(), refused(FILE_NO_ROOM)),
    ];
    // every length under a head's, and every code of no token
    cases
        .extend((0..FILE_HEAD).map(|n| (9, EMPTY_FILE[..2 * n].to_string(), refused(FILE_LENGTH))));
    cases.extend(["00", "02", "03", "04", "ff"].map(|version| {
        (6, pair("0000001e", version, "000003", "00000002", ""), refused(UNKNOWN_VERSION))
    }));
    cases.extend(["00", "0c", "0d", "14", "83", "ff"].map(|code| {
        (3, lone("000003", &format!("{code}0000000000000000")), refused(FILE_NOT_SOUND))
    }));
    cases
}

/// All of them as records, each with its answer.
pub fn cases() -> Vec<(Record, String)> {
    let packed = packed().into_iter().map(|(room, length, count, words, answer)| {
        (Record::pack(room, length, count, &words), answer)
    });
    let unpacked = unpacked().into_iter().map(|(room, file, answer)| {
        (Record::unpack(room, from_hex(&file).expect("bytes in hex")), answer)
    });
    packed.chain(unpacked).collect()
}
