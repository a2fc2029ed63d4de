//! Request W1: both readings of it against the answers that its words give, what holds of every sheet that is
//! put on file and of every file that is read, and the faults that its cases must find by themselves.

use compare::file;
use compare::files::Files;
use compare::numbers::*;
use compare::pipe::{from_hex, hex};
use compare::record::{Question, Record, ToPack, ToUnpack};
use compare::rng::Rng;
use compare::standin::{self, FAULTS, Wrong};
use compare::{file_edges, model_file, oracle, sheet};

/// The cases of a seed without the edges.
fn cases(seed: u64) -> impl Iterator<Item = Record> {
    let mut files = Files::new(Rng::new(seed));
    std::iter::repeat_with(move || files.record())
}

#[test]
fn the_edges_have_their_answers() {
    for (record, told) in file_edges::cases() {
        let shown = hex(&record.bytes());
        assert_eq!(record.answered_by(oracle::answer), told, "beside the Rust: {shown}");
        assert_eq!(record.answered_by(standin::answering(None)), told, "the model: {shown}");
    }
}

/// A record of the paper in hex, and its answer.
const PAPER: [(&str, &str); 4] = [
    (
        "46001e00200000000300000002000000040000000000000001000000040000000200000001",
        "file 0000001e0100000300000002040000000000000001040000000200000001\n",
    ),
    (
        "520006001e0000001e0100000300000002040000000000000001040000000200000001",
        "sheet 3 2\n0 Unquoted 0 1\n1 Unquoted 2 1\n",
    ),
    ("520005001e0000001e0100000300000002040000000000000001040000000200000001", "refused 34\n"),
    ("520009000d0000000d0100000038e38e3900", "refused 36\n"),
];

#[test]
fn the_records_of_the_paper() {
    let edges: Vec<Record> = file_edges::cases().into_iter().map(|(record, _)| record).collect();
    for (paper, told) in PAPER {
        let bytes = from_hex(paper).expect("hex");
        let record = edges.iter().find(|record| record.bytes() == bytes).expect("one of the edges");
        assert_eq!(record.answered_by(oracle::answer), told);
        assert_eq!(record.answered_by(standin::answering(None)), told);
    }
}

/// A file that was written is read again as the same sheet, with just room for its words.
fn comes_back(asked: &ToPack, packed: &[u8]) {
    let words = asked.words[..WORDS * asked.count as usize].to_vec();
    let again = ToUnpack { room: words.len(), file: packed };
    assert_eq!(file::unpack(&again), Ok((asked.length, words)), "{}", hex(packed));
}

/// A file that was read holds a sound sheet and is written again to the byte: no other file holds its sheet.
fn goes_back(asked: &ToUnpack<'_>, (length, words): (u32, Vec<u32>)) {
    let (count, room) = ((words.len() / WORDS) as u32, asked.file.len());
    assert!(sheet::sound(length, &words, count), "{}", hex(asked.file));
    let again = ToPack { room, length, count, words };
    assert_eq!(file::pack(&again).as_deref(), Ok(asked.file));
}

/// Both readings answer alike, and what is answered keeps the promises of the request.
fn try_record(record: &Record) {
    match record.question().expect("a good record") {
        Question::Pack(asked) => {
            let packed = file::pack(&asked);
            assert_eq!(model_file::pack(&asked, None), packed);
            packed.iter().for_each(|packed| comes_back(&asked, packed));
        }
        Question::Unpack(asked) => {
            let unpacked = file::unpack(&asked);
            assert_eq!(model_file::unpack(&asked, None), unpacked, "{}", hex(asked.file));
            unpacked.into_iter().for_each(|sheet| goes_back(&asked, sheet));
        }
        _ => panic!("a case that has to do with no file"),
    }
}

#[test]
fn what_is_written_is_read_and_what_is_read_is_written() {
    file_edges::cases().iter().for_each(|(record, _)| try_record(record));
    cases(21).take(100_000).for_each(|record| try_record(&record));
}

/// Every other byte in every place of a short file, every cut, and every byte put in anywhere; with the first
/// word as it was, and mended.
#[test]
fn every_file_beside_a_short_one() {
    let file = file::laid(3, &[token(UNQUOTED, 0, 1), token(QUOTED, 2, 1)].concat());
    let mut tried: Vec<Vec<u8>> = Vec::new();
    for at in 0..=file.len() {
        tried.push(file[..at].to_vec());
        for byte in 0..=255 {
            tried.push([&file[..at], &[byte], &file[at..]].concat());
            if at < file.len() {
                tried.push([&file[..at], &[byte], &file[at + 1..]].concat());
            }
        }
    }
    let mended = tried.clone().into_iter().map(|mut file| {
        file::put_total(&mut file);
        file
    });
    for file in mended.chain(tried.clone()) {
        for room in [2 * WORDS, 2 * WORDS - 1, 0] {
            try_record(&Record::unpack(room as u16, file.clone()));
        }
    }
}

/// Counts whose file is just not too long for its first word, and too long: no record holds their words.
#[test]
fn the_longest_file() {
    let most = 477_218_587;
    assert!(file::length_of(most) <= MOST_OF_FOUR && MOST_OF_FOUR < file::length_of(most + 1));
    for (count, over) in [(most, false), (most + 1, true), (u32::MAX, true)] {
        let asked = ToPack { room: usize::MAX, length: 0, count, words: Vec::new() };
        let causes = file::against_packing(&asked);
        assert_eq!(causes.contains(&file::Cause::TotalOverField), over, "{count}");
        assert_eq!(file::pack(&asked), Err(FILE_NOT_SOUND));
        assert_eq!(model_file::pack(&asked, None), Err(FILE_NOT_SOUND));
    }
}

/// The cases find every fault that has to do with files without the edges' help.
#[test]
fn the_cases_find_the_faults() {
    let cases: Vec<(Record, String)> = cases(22)
        .take(10_000)
        .map(|record| (record.clone(), record.answered_by(oracle::answer)))
        .collect();
    for fault in FAULTS.into_iter().filter(|fault| matches!(fault.1, Wrong::File(_))) {
        let differs = |(record, told): &(Record, String)| {
            record.answered_by(standin::answering(Some(fault))) != *told
        };
        let found = cases.iter().position(differs);
        println!("fault {}: {found:?}", fault.0);
        assert!(found.is_some(), "{} is not found", fault.0);
    }
}

/// No record asks for more than a program must be able to lend, and a room over the most gives the answer of
/// the most: no sheet and no file of a record needs more.
#[test]
fn records_keep_to_their_limits() {
    for record in cases(23).take(20_000) {
        let most = if record.kind == b'F' { MOST_ROOM } else { MOST_SCRATCH };
        assert!(usize::from(record.capacity) <= most && record.body.len() <= LONGEST);
        let lent = |capacity| Record { capacity, ..record.clone() }.answered_by(oracle::answer);
        assert_eq!(lent(most as u16), lent(u16::MAX));
    }
}
