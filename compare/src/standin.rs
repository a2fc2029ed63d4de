//! The model's answers, for testing the comparison, and the faults that it can be given.

use crate::date_faults::{self, Fault as DateFault};
use crate::kind::{self, NoNumber};
use crate::leading_faults::{self, Fault as LeadingFault};
use crate::model::{self, F64Refusal, Refusal};
use crate::model_file::{self, Fault as FileFault};
use crate::model_writer::{self, Fault as WriterFault};
use crate::numbers::*;
use crate::record::{self, Question, bits, reading};

fn readings(bytes: &[u8], wrong: Option<WrongKind>, i64_fault: Option<LeadingFault>) -> String {
    let float = match model::to_f64(bytes) {
        Ok(float) => format!("={}", bits(float)),
        Err(F64Refusal::PrecisionLoss(float)) => format!("{PRECISION_LOSS}:{}", bits(float)),
        Err(F64Refusal::Number(number)) => number.to_string(),
    };
    let yes = reading(model::to_bool(bytes).map(u8::from));
    let whole = reading(model::to_u64(bytes));
    let signed = reading(leading_faults::to_i64(bytes, i64_fault));
    let right = model::kind(bytes);
    let kind = wrong.map_or(right, |wrong| wrong(bytes, right));
    format!("{yes} {whole} {signed} {float} {kind}\n")
}

/// The model as one who answers, or a wrong program.
pub fn answering(fault: Option<Fault>) -> impl Fn(Question<'_>, &mut String) {
    move |question, out| answer(question, fault, out)
}

/// The model's answer, or that of a wrong program.
pub fn answer(question: Question<'_>, fault: Option<Fault>, out: &mut String) {
    let wrong = Faults::of(fault);
    match question {
        Question::Text { text, capacity } => {
            let mut tape = vec![u32::MAX; WORDS * capacity + capacity % WORDS];
            match model::parse(text, &mut tape, model::cut).answer {
                Err(Refusal(number, place)) => record::write_refusal(out, number, place),
                Ok((count, bom)) => record::write_tape(out, &tape[..WORDS * count], bom),
            }
        }
        Question::Scalar { bytes } => out.push_str(&readings(bytes, wrong.kind, wrong.leading)),
        Question::Leading { bytes } => {
            record::write_leading(out, leading_faults::leading(bytes, wrong.leading));
        }
        Question::Date { scalar } => {
            record::write_date(out, date_faults::read(scalar, wrong.date));
        }
        Question::Day { count } => record::write_day(out, date_faults::of(count, wrong.date)),
        Question::Check { length, count, words } => {
            record::write_sound(out, model::check(length, &words, count));
        }
        Question::View { index, count, words, text } => {
            record::write_view(out, model::view(text, &words, count, index));
        }
        Question::Write(asked) => {
            record::write_written(out, model_writer::write(&asked, wrong.writer));
        }
        Question::Pack(asked) => record::write_packed(out, model_file::pack(&asked, wrong.file)),
        Question::Unpack(asked) => {
            record::write_unpacked(out, model_file::unpack(&asked, wrong.file));
        }
    }
    if let Some((_, Wrong::Answer(spoilt))) = fault {
        *out = spoilt(out);
    }
}

/// A wrong kind of a scalar, from its bytes and the right one.
pub type WrongKind = fn(&[u8], u8) -> u8;

/// What is wrong with a program: what it makes of a right answer or a right kind, how it takes a
/// leading number or a date, how it writes a sheet, or how it puts one on file and reads it.
#[derive(Clone, Copy)]
pub enum Wrong {
    Answer(fn(&str) -> String),
    Kind(WrongKind),
    Leading(LeadingFault),
    Date(DateFault),
    Writer(WriterFault),
    File(FileFault),
}

/// The fault of each part of a program: one has it at most.
#[derive(Default)]
struct Faults {
    kind: Option<WrongKind>,
    leading: Option<LeadingFault>,
    date: Option<DateFault>,
    writer: Option<WriterFault>,
    file: Option<FileFault>,
}

impl Faults {
    fn of(fault: Option<Fault>) -> Self {
        let mut all = Faults::default();
        match fault.map(|(_, wrong)| wrong) {
            Some(Wrong::Kind(fault)) => all.kind = Some(fault),
            Some(Wrong::Leading(fault)) => all.leading = Some(fault),
            Some(Wrong::Date(fault)) => all.date = Some(fault),
            Some(Wrong::Writer(fault)) => all.writer = Some(fault),
            Some(Wrong::File(fault)) => all.file = Some(fault),
            Some(Wrong::Answer(_)) | None => {}
        }
        all
    }
}

/// A wrong program and its name.
pub type Fault = (&'static str, Wrong);

/// The fault of this name.
pub fn fault(name: &str) -> Option<Fault> {
    FAULTS.into_iter().find(|fault| fault.0 == name)
}

pub const FAULTS: [Fault; 170] = [
    ("exists_is_equal", Wrong::Answer(|right| right.replace(&operator(EXISTS), &operator(EQUAL)))),
    (
        "not_equal_is_exact",
        Wrong::Answer(|right| right.replace(&operator(NOT_EQUAL), &operator(EXACT))),
    ),
    ("place_of_7_at_it", Wrong::Answer(|right| shift_place(right, NOTHING_BEFORE_OPERATOR))),
    ("place_of_8_at_it", Wrong::Answer(|right| shift_place(right, UNKNOWN_OPERATOR))),
    ("place_of_10_one_on", Wrong::Answer(|right| shift_place(right, OPEN_PARAMETER_NAME))),
    (
        "minus_zero_lost",
        Wrong::Answer(|right| right.replace("=8000000000000000", "=0000000000000000")),
    ),
    ("ties_away", Wrong::Answer(|right| right.replace(&loss(SAFE), &loss(SAFE + 1)))),
    ("bom_forgotten", Wrong::Answer(|right| right.replace(" bom 1\n", " bom 0\n"))),
    ("escape_lost", Wrong::Answer(|right| right.replace(&named(QUOTED_ESCAPE), &named(QUOTED)))),
    (
        "escape_everywhere",
        Wrong::Answer(|right| right.replace(&named(QUOTED), &named(QUOTED_ESCAPE))),
    ),
    (
        "empty_view_refused",
        Wrong::Answer(|right| right.replace("view \n", &format!("refused {NO_SCALAR}\n"))),
    ),
    ("hour_0_not_told", Wrong::Answer(without_hour_0)),
    (
        "no_date_with_a_word",
        Wrong::Answer(|right| instead(right, &format!("{NO_DATE}\n"), "refused 51\n")),
    ),
    (
        "past_days_without_a_word",
        Wrong::Answer(|right| instead(right, &format!("refused {OUT_OF_RANGE}\n"), "52\n")),
    ),
    ("kind_by_readings", Wrong::Kind(|bytes, _| kind::by_readings(bytes))),
    ("bare_f_a_decimal", Wrong::Kind(|bytes, right| given(right, DECIMAL, is_bare(bytes)))),
    ("lone_minus_whole", Wrong::Kind(|bytes, right| given(right, WHOLE, bytes == b"-"))),
    ("lone_point_a_decimal", Wrong::Kind(|bytes, right| given(right, DECIMAL, bytes == b"."))),
    ("point_first_a_name", Wrong::Kind(|bytes, right| given(right, NAME, bytes.starts_with(b".")))),
    ("closing_f_a_name", Wrong::Kind(|bytes, right| given(right, NAME, bytes.ends_with(b"f")))),
    (
        "least_i64_whole",
        Wrong::Kind(|bytes, right| given(right, WHOLE, bytes == b"-9223372036854775808")),
    ),
    (
        "most_u64_a_name",
        Wrong::Kind(|bytes, right| given(right, NAME, bytes == b"18446744073709551615")),
    ),
    ("rest_refused", Wrong::Leading(LeadingFault::RestRefused)),
    ("lone_sign_refused", Wrong::Leading(LeadingFault::LoneSignRefused)),
    ("plus_refused", Wrong::Leading(LeadingFault::PlusRefused)),
    ("empty_is_zero", Wrong::Leading(LeadingFault::EmptyIsZero)),
    ("name_is_zero", Wrong::Leading(LeadingFault::NameIsZero)),
    ("second_sign_taken", Wrong::Leading(LeadingFault::SecondSignTaken)),
    ("rest_before_overflow", Wrong::Leading(LeadingFault::RestBeforeOverflow)),
    ("most_i64_refused", Wrong::Leading(LeadingFault::MostRefused)),
    ("one_over_i64_taken", Wrong::Leading(LeadingFault::OneOverTaken)),
    ("least_i64_taken", Wrong::Leading(LeadingFault::LeastTaken)),
    ("number_modulo_2_64", Wrong::Leading(LeadingFault::Modulo)),
    ("digits_counted", Wrong::Leading(LeadingFault::DigitsCounted)),
    ("bytes_counted", Wrong::Leading(LeadingFault::BytesCounted)),
    ("minus_lost", Wrong::Leading(LeadingFault::MinusLost)),
    ("last_digit_left", Wrong::Leading(LeadingFault::LastDigitLeft)),
    ("sign_left", Wrong::Leading(LeadingFault::SignLeft)),
    ("point_taken", Wrong::Leading(LeadingFault::PointTaken)),
    ("closing_f_taken", Wrong::Leading(LeadingFault::ClosingFTaken)),
    ("taken_for_left", Wrong::Leading(LeadingFault::TakenForLeft)),
    ("i64_of_any_rest", Wrong::Leading(LeadingFault::I64OfAnyRest)),
    ("i64_rest_before_overflow", Wrong::Leading(LeadingFault::I64RestBeforeOverflow)),
    ("date_plus_taken", Wrong::Date(DateFault::PlusTaken)),
    ("date_minus_read", Wrong::Date(DateFault::MinusRead)),
    ("empty_part_is_zero", Wrong::Date(DateFault::EmptyPartIsZero)),
    ("empty_part_dropped", Wrong::Date(DateFault::EmptyPartDropped)),
    ("point_in_front_taken", Wrong::Date(DateFault::PointInFrontTaken)),
    ("closing_point_taken", Wrong::Date(DateFault::ClosingPointTaken)),
    ("five_parts_taken", Wrong::Date(DateFault::FivePartsTaken)),
    ("two_parts_taken", Wrong::Date(DateFault::TwoPartsTaken)),
    ("hour_wanted", Wrong::Date(DateFault::HourWanted)),
    ("hour_refused", Wrong::Date(DateFault::HourRefused)),
    ("date_rest_taken", Wrong::Date(DateFault::RestTaken)),
    ("date_blanks_taken", Wrong::Date(DateFault::BlanksTaken)),
    ("date_zeros_refused", Wrong::Date(DateFault::ZerosRefused)),
    ("slash_is_a_digit", Wrong::Date(DateFault::SlashIsADigit)),
    ("colon_is_a_digit", Wrong::Date(DateFault::ColonIsADigit)),
    ("slash_is_a_point", Wrong::Date(DateFault::IsAPoint(b'/'))),
    ("dash_is_a_point", Wrong::Date(DateFault::IsAPoint(b'-'))),
    ("comma_is_a_point", Wrong::Date(DateFault::IsAPoint(b','))),
    ("high_bit_dropped", Wrong::Date(DateFault::HighBitDropped)),
    ("range_before_shape", Wrong::Date(DateFault::RangeBeforeShape)),
    ("overflow_before_shape", Wrong::Date(DateFault::OverflowBeforeShape)),
    ("overflow_is_no_date", Wrong::Date(DateFault::OverflowIsNoDate)),
    ("range_is_no_date", Wrong::Date(DateFault::RangeIsNoDate)),
    ("year_0_taken", Wrong::Date(DateFault::Takes(0, 0))),
    ("year_10000_taken", Wrong::Date(DateFault::Takes(0, 10_000))),
    ("year_1_refused", Wrong::Date(DateFault::Refuses(0, 1))),
    ("year_9999_refused", Wrong::Date(DateFault::Refuses(0, 9_999))),
    ("month_0_taken", Wrong::Date(DateFault::Takes(1, 0))),
    ("month_13_taken", Wrong::Date(DateFault::Takes(1, 13))),
    ("month_1_refused", Wrong::Date(DateFault::Refuses(1, 1))),
    ("month_12_refused", Wrong::Date(DateFault::Refuses(1, 12))),
    ("day_0_taken", Wrong::Date(DateFault::Takes(2, 0))),
    ("day_1_refused", Wrong::Date(DateFault::Refuses(2, 1))),
    ("hour_0_taken", Wrong::Date(DateFault::Takes(3, 0))),
    ("hour_25_taken", Wrong::Date(DateFault::Takes(3, 25))),
    ("hour_1_refused", Wrong::Date(DateFault::Refuses(3, 1))),
    ("hour_24_refused", Wrong::Date(DateFault::Refuses(3, 24))),
    ("january_longer", Wrong::Date(DateFault::Longer(1))),
    ("january_shorter", Wrong::Date(DateFault::Shorter(1))),
    ("february_longer", Wrong::Date(DateFault::Longer(2))),
    ("february_shorter", Wrong::Date(DateFault::Shorter(2))),
    ("march_longer", Wrong::Date(DateFault::Longer(3))),
    ("march_shorter", Wrong::Date(DateFault::Shorter(3))),
    ("april_longer", Wrong::Date(DateFault::Longer(4))),
    ("april_shorter", Wrong::Date(DateFault::Shorter(4))),
    ("may_longer", Wrong::Date(DateFault::Longer(5))),
    ("may_shorter", Wrong::Date(DateFault::Shorter(5))),
    ("june_longer", Wrong::Date(DateFault::Longer(6))),
    ("june_shorter", Wrong::Date(DateFault::Shorter(6))),
    ("july_longer", Wrong::Date(DateFault::Longer(7))),
    ("july_shorter", Wrong::Date(DateFault::Shorter(7))),
    ("august_longer", Wrong::Date(DateFault::Longer(8))),
    ("august_shorter", Wrong::Date(DateFault::Shorter(8))),
    ("september_longer", Wrong::Date(DateFault::Longer(9))),
    ("september_shorter", Wrong::Date(DateFault::Shorter(9))),
    ("october_longer", Wrong::Date(DateFault::Longer(10))),
    ("october_shorter", Wrong::Date(DateFault::Shorter(10))),
    ("november_longer", Wrong::Date(DateFault::Longer(11))),
    ("november_shorter", Wrong::Date(DateFault::Shorter(11))),
    ("december_longer", Wrong::Date(DateFault::Longer(12))),
    ("december_shorter", Wrong::Date(DateFault::Shorter(12))),
    ("leap_years_taken", Wrong::Date(DateFault::LeapYears)),
    ("every_month_of_31", Wrong::Date(DateFault::EveryMonthOf31)),
    ("date_digits_counted", Wrong::Date(DateFault::DigitsCounted)),
    ("part_modulo_2_8", Wrong::Date(DateFault::Modulo(8))),
    ("part_modulo_2_16", Wrong::Date(DateFault::Modulo(16))),
    ("part_modulo_2_32", Wrong::Date(DateFault::Modulo(32))),
    ("part_modulo_2_64", Wrong::Date(DateFault::Modulo(64))),
    ("day_before_month", Wrong::Date(DateFault::DayBeforeMonth)),
    ("hour_missing_is_one", Wrong::Date(DateFault::HourMissingIsOne)),
    ("count_from_one", Wrong::Date(DateFault::CountFromOne)),
    ("count_from_year_zero", Wrong::Date(DateFault::CountFromYearZero)),
    ("hour_counted", Wrong::Date(DateFault::HourCounted)),
    ("leap_days_counted", Wrong::Date(DateFault::LeapDaysCounted)),
    ("february_of_29_counted", Wrong::Date(DateFault::FebruaryOf29)),
    ("months_of_30_counted", Wrong::Date(DateFault::MonthsOf30)),
    ("back_last_refused", Wrong::Date(DateFault::BackLastRefused)),
    ("back_one_over_taken", Wrong::Date(DateFault::BackOneOverTaken)),
    ("back_begins_anew", Wrong::Date(DateFault::BackBeginsAnew)),
    ("back_signed", Wrong::Date(DateFault::BackSigned)),
    ("back_of_three_bytes", Wrong::Date(DateFault::BackOfThreeBytes)),
    ("back_little_endian", Wrong::Date(DateFault::BackLittleEndian)),
    ("back_from_one", Wrong::Date(DateFault::BackFromOne)),
    ("back_leap_days", Wrong::Date(DateFault::BackLeapDays)),
    ("back_months_of_30", Wrong::Date(DateFault::BackMonthsOf30)),
    ("back_first_is_last", Wrong::Date(DateFault::BackFirstIsLast)),
    ("back_year_from_zero", Wrong::Date(DateFault::BackYearFromZero)),
    ("back_day_from_zero", Wrong::Date(DateFault::BackDayFromZero)),
    ("back_day_before_month", Wrong::Date(DateFault::BackDayBeforeMonth)),
    ("form_to_level_64", Wrong::Writer(WriterFault::FormTo64)),
    ("room_before_depth", Wrong::Writer(WriterFault::RoomBeforeDepth)),
    ("escape_without_quotes", Wrong::Writer(WriterFault::EscapeBare)),
    ("space_in_braces", Wrong::Writer(WriterFault::SpaceInBraces)),
    ("mixed_with_a_space", Wrong::Writer(WriterFault::MixedSpaced)),
    ("flag_not_compared", Wrong::Writer(WriterFault::FlagForgotten)),
    ("bytes_not_compared", Wrong::Writer(WriterFault::BytesForgotten)),
    ("equal_with_spaces", Wrong::Writer(WriterFault::EqualSpaced)),
    ("root_is_a_level", Wrong::Writer(WriterFault::RootIsLevel)),
    ("header_is_a_level", Wrong::Writer(WriterFault::HeaderIsLevel)),
    ("empty_is_no_level", Wrong::Writer(WriterFault::EmptyIsNoLevel)),
    ("operator_7_is_none", Wrong::Writer(WriterFault::SevenIsNone)),
    ("scratch_not_measured", Wrong::Writer(WriterFault::ScratchForgotten)),
    ("pack_room_before_sound", Wrong::File(FileFault::PackRoomBeforeSound)),
    ("pack_field_before_sound", Wrong::File(FileFault::PackFieldBeforeSound)),
    ("pack_room_before_field", Wrong::File(FileFault::PackRoomBeforeField)),
    ("pack_little_endian", Wrong::File(FileFault::PackLittleEndian)),
    ("total_one_off", Wrong::File(FileFault::TotalOneOff)),
    ("text_length_cut", Wrong::File(FileFault::TextLengthCut)),
    ("text_length_one_less", Wrong::File(FileFault::TextLengthOneLess)),
    ("spare_tokens_written", Wrong::File(FileFault::SpareTokens)),
    ("count_signed", Wrong::File(FileFault::CountSigned)),
    ("checked_for_any_text", Wrong::File(FileFault::AnyText)),
    ("unpack_room_before_sound", Wrong::File(FileFault::UnpackRoomBeforeSound)),
    ("sound_before_count", Wrong::File(FileFault::SoundBeforeCount)),
    ("count_before_version", Wrong::File(FileFault::CountBeforeVersion)),
    ("version_before_total", Wrong::File(FileFault::VersionBeforeTotal)),
    ("version_not_looked_at", Wrong::File(FileFault::AnyVersion)),
    ("first_word_not_looked_at", Wrong::File(FileFault::AnyTotal)),
    ("empty_file_too_short", Wrong::File(FileFault::EmptyTooShort)),
    ("a_byte_longer_taken", Wrong::File(FileFault::ByteLonger)),
    ("count_in_32_bits", Wrong::File(FileFault::CountIn32Bits)),
    ("unpack_little_endian", Wrong::File(FileFault::UnpackLittleEndian)),
    ("text_length_of_four_bytes", Wrong::File(FileFault::TextLengthOfFour)),
    ("code_of_four_bits", Wrong::File(FileFault::CodeOfFourBits)),
    ("codes_alone_checked", Wrong::File(FileFault::CodesAlone)),
    ("code_11_refused", Wrong::File(FileFault::EscapeRefused)),
    ("room_in_tokens", Wrong::File(FileFault::RoomInTokens)),
];

/// Another answer than this one, where it is the right one.
fn instead(right: &str, this: &str, other: &str) -> String {
    if right == this { other } else { right }.to_string()
}

/// A date's answer without its hour where that is 0. Of answers of five words no other has such a fourth.
fn without_hour_0(right: &str) -> String {
    match right.split_whitespace().collect::<Vec<_>>()[..] {
        [year, month, day, "0", count] => format!("{year} {month} {day} {count}\n"),
        _ => right.to_string(),
    }
}

/// Another kind than the right one, where a test holds.
fn given(right: u8, other: u8, test: bool) -> u8 {
    if test { other } else { right }
}

/// Whether an `f` closes a number without a point.
fn is_bare(bytes: &[u8]) -> bool {
    let why = kind::no_number(bytes);
    why == Some(NoNumber::ClosedWithoutPoint) && kind::by_readings(bytes) == DECIMAL
}

/// A name as it stands in a line of the dump.
fn named(code: u32) -> String {
    format!(" {} ", name(code))
}

/// An operator's words as the dump writes them.
fn operator(kind: u32) -> String {
    format!(" {} {kind} 0", name(OPERATOR))
}

/// The pattern of 2^53, to which 2^53 + 1 is rounded.
const SAFE: u64 = 0x4340_0000_0000_0000;

fn loss(pattern: u64) -> String {
    format!("{PRECISION_LOSS}:{pattern:016x}")
}

fn shift_place(right: &str, number: u8) -> String {
    let refusal = format!("refused {number} ");
    match right.strip_prefix(&refusal).and_then(|place| place.trim_end().parse::<usize>().ok()) {
        Some(place) => format!("{refusal}{}\n", place + 1),
        None => right.to_string(),
    }
}
