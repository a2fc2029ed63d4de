//! The library's calls, made safe: the one file of this crate with `unsafe` in it.
//!
//! What C's types cannot say is said by Rust's. A slice is a pointer that is never null and always
//! aligned, with as many elements behind it as its length says, all of them initialised; `&mut` overlaps
//! nothing else that is passed, and nobody else reads or writes it meanwhile. So every condition that
//! `include/tackacorn.h` lays on a caller holds for any arguments of the functions below, and that is
//! the reason why each may call into the library.

use std::ffi::{CStr, c_char};

mod library {
    use super::c_char;

    // SAFETY: the names, the types and the order of the arguments are those of include/tackacorn.h.
    // The library keeps no pointer and allocates nothing.
    unsafe extern "C" {
        pub fn tackacorn_version() -> *const c_char;
        pub fn tackacorn_refusal_text(number: u32) -> *const c_char;
        pub fn tackacorn_parse(
            text: *const u8,
            text_length: usize,
            tape: *mut u32,
            tape_length: usize,
            count: *mut u32,
            bom: *mut u32,
            place: *mut usize,
        ) -> u32;
        pub fn tackacorn_check(
            text_length: usize,
            words: *const u32,
            words_length: usize,
            count: usize,
        ) -> bool;
        pub fn tackacorn_view(
            text: *const u8,
            text_length: usize,
            words: *const u32,
            words_length: usize,
            count: usize,
            index: usize,
            offset: *mut usize,
            size: *mut usize,
        ) -> u32;
        pub fn tackacorn_write(
            text: *const u8,
            text_length: usize,
            words: *const u32,
            words_length: usize,
            count: usize,
            out: *mut u8,
            out_length: usize,
            scratch: *mut u32,
            scratch_length: usize,
            written: *mut usize,
        ) -> u32;
        pub fn tackacorn_sheet_write(
            text_length: usize,
            words: *const u32,
            words_length: usize,
            count: usize,
            out: *mut u8,
            out_length: usize,
            written: *mut usize,
        ) -> u32;
        pub fn tackacorn_sheet_read(
            file: *const u8,
            file_length: usize,
            words: *mut u32,
            words_length: usize,
            text_length: *mut usize,
            count: *mut u32,
        ) -> u32;
        pub fn tackacorn_to_bool(scalar: *const u8, length: usize, value: *mut u32) -> u32;
        pub fn tackacorn_to_u64(scalar: *const u8, length: usize, value: *mut u64) -> u32;
        pub fn tackacorn_to_i64(scalar: *const u8, length: usize, value: *mut i64) -> u32;
        pub fn tackacorn_to_i64_part(
            scalar: *const u8,
            length: usize,
            value: *mut i64,
            left: *mut usize,
        ) -> u32;
        pub fn tackacorn_to_f64(scalar: *const u8, length: usize, value: *mut f64) -> u32;
        pub fn tackacorn_kind(scalar: *const u8, length: usize) -> u32;
        pub fn tackacorn_to_date(
            scalar: *const u8,
            length: usize,
            year: *mut u32,
            month: *mut u32,
            day: *mut u32,
            hour: *mut u32,
        ) -> u32;
        pub fn tackacorn_to_days(year: u32, month: u32, day: u32, days: *mut u32) -> u32;
        pub fn tackacorn_from_days(
            days: u32,
            year: *mut u32,
            month: *mut u32,
            day: *mut u32,
        ) -> u32;
    }
}

/// What a parse answers: a refusal's number, 0 for none, and the numbers that it writes.
pub(crate) struct Answer {
    pub(crate) refusal: u32,
    pub(crate) count: u32,
    pub(crate) bom: u32,
    pub(crate) place: usize,
}

pub(crate) fn parse(text: &[u8], tape: &mut [u32]) -> Answer {
    let (mut count, mut bom, mut place) = (0, 0, 0);
    // SAFETY: `text` may be read and `tape` read and written for as many elements as are passed; the
    // three numbers are ours alone and live through the call.
    let refusal = unsafe {
        library::tackacorn_parse(
            text.as_ptr(),
            text.len(),
            tape.as_mut_ptr(),
            tape.len(),
            &mut count,
            &mut bom,
            &mut place,
        )
    };
    Answer { refusal, count, bom, place }
}

pub(crate) fn check(text_length: usize, words: &[u32], count: usize) -> bool {
    // SAFETY: `words` may be read for as many words as are passed; of the text only the length is. The
    // answer is C's `bool`, which is Rust's.
    unsafe { library::tackacorn_check(text_length, words.as_ptr(), words.len(), count) }
}

/// A refusal's number, the offset and the size of a view.
pub(crate) fn view(text: &[u8], words: &[u32], count: usize, index: usize) -> (u32, usize, usize) {
    let (mut offset, mut size) = (0, 0);
    // SAFETY: `text` and `words` may be read for as many elements as are passed; the two numbers are
    // ours alone and live through the call.
    let refusal = unsafe {
        library::tackacorn_view(
            text.as_ptr(),
            text.len(),
            words.as_ptr(),
            words.len(),
            count,
            index,
            &mut offset,
            &mut size,
        )
    };
    (refusal, offset, size)
}

/// A refusal's number, and the length of the text written.
pub(crate) fn write(
    text: &[u8],
    words: &[u32],
    count: usize,
    out: &mut [u8],
    scratch: &mut [u32],
) -> (u32, usize) {
    let mut written = 0;
    // SAFETY: `text` and `words` may be read, `out` and `scratch` read and written, for as many elements
    // as are passed; the number is ours alone and lives through the call.
    let refusal = unsafe {
        library::tackacorn_write(
            text.as_ptr(),
            text.len(),
            words.as_ptr(),
            words.len(),
            count,
            out.as_mut_ptr(),
            out.len(),
            scratch.as_mut_ptr(),
            scratch.len(),
            &mut written,
        )
    };
    (refusal, written)
}

/// A refusal's number, and the length of the file written.
pub(crate) fn sheet_write(
    text_length: usize,
    words: &[u32],
    count: usize,
    out: &mut [u8],
) -> (u32, usize) {
    let mut written = 0;
    // SAFETY: `words` may be read, and `out` read and written, for as many elements as are passed; of the
    // text only the length is. The number is ours alone and lives through the call.
    let refusal = unsafe {
        library::tackacorn_sheet_write(
            text_length,
            words.as_ptr(),
            words.len(),
            count,
            out.as_mut_ptr(),
            out.len(),
            &mut written,
        )
    };
    (refusal, written)
}

/// A refusal's number, the text's length and the count of the sheet that a file holds.
pub(crate) fn sheet_read(file: &[u8], words: &mut [u32]) -> (u32, usize, u32) {
    let (mut text_length, mut count) = (0, 0);
    // SAFETY: `file` may be read, and `words` read and written, for as many elements as are passed; the
    // two numbers are ours alone and live through the call.
    let refusal = unsafe {
        library::tackacorn_sheet_read(
            file.as_ptr(),
            file.len(),
            words.as_mut_ptr(),
            words.len(),
            &mut text_length,
            &mut count,
        )
    };
    (refusal, text_length, count)
}

pub(crate) fn to_bool(scalar: &[u8]) -> (u32, bool) {
    let mut value = 0;
    // SAFETY: `scalar` may be read for its length; `value` is ours alone and lives through the call.
    let refusal = unsafe { library::tackacorn_to_bool(scalar.as_ptr(), scalar.len(), &mut value) };
    (refusal, value == 1)
}

pub(crate) fn to_u64(scalar: &[u8]) -> (u32, u64) {
    let mut value = 0;
    // SAFETY: `scalar` may be read for its length; `value` is ours alone and lives through the call.
    let refusal = unsafe { library::tackacorn_to_u64(scalar.as_ptr(), scalar.len(), &mut value) };
    (refusal, value)
}

pub(crate) fn to_i64(scalar: &[u8]) -> (u32, i64) {
    let mut value = 0;
    // SAFETY: `scalar` may be read for its length; `value` is ours alone and lives through the call.
    let refusal = unsafe { library::tackacorn_to_i64(scalar.as_ptr(), scalar.len(), &mut value) };
    (refusal, value)
}

/// A refusal's number, the number that a scalar begins with, and how many bytes are left over behind it.
pub(crate) fn to_i64_part(scalar: &[u8]) -> (u32, i64, usize) {
    let (mut value, mut left) = (0, 0);
    // SAFETY: `scalar` may be read for its length; the two numbers are ours alone and live through the
    // call.
    let refusal = unsafe {
        library::tackacorn_to_i64_part(scalar.as_ptr(), scalar.len(), &mut value, &mut left)
    };
    (refusal, value, left)
}

pub(crate) fn to_f64(scalar: &[u8]) -> (u32, f64) {
    let mut value = 0.0;
    // SAFETY: `scalar` may be read for its length; `value` is ours alone and lives through the call.
    let refusal = unsafe { library::tackacorn_to_f64(scalar.as_ptr(), scalar.len(), &mut value) };
    (refusal, value)
}

pub(crate) fn kind(scalar: &[u8]) -> u32 {
    // SAFETY: `scalar` may be read for its length, and nothing is written.
    unsafe { library::tackacorn_kind(scalar.as_ptr(), scalar.len()) }
}

/// A refusal's number, and year, month, day and hour of a date, the hour 0 where there is none.
pub(crate) fn to_date(scalar: &[u8]) -> (u32, [u32; 4]) {
    let (mut year, mut month, mut day, mut hour) = (0, 0, 0, 0);
    // SAFETY: `scalar` may be read for its length; the four numbers are ours alone and live through the
    // call.
    let refusal = unsafe {
        library::tackacorn_to_date(
            scalar.as_ptr(),
            scalar.len(),
            &mut year,
            &mut month,
            &mut day,
            &mut hour,
        )
    };
    (refusal, [year, month, day, hour])
}

/// A refusal's number, and the day count of a date.
pub(crate) fn to_days(year: u32, month: u32, day: u32) -> (u32, u32) {
    let mut days = 0;
    // SAFETY: any numbers may be passed; `days` is ours alone and lives through the call.
    let refusal = unsafe { library::tackacorn_to_days(year, month, day, &mut days) };
    (refusal, days)
}

/// A refusal's number, and year, month and day of a day count.
pub(crate) fn from_days(days: u32) -> (u32, [u32; 3]) {
    let (mut year, mut month, mut day) = (0, 0, 0);
    // SAFETY: any number may be passed; the three numbers are ours alone and live through the call.
    let refusal = unsafe { library::tackacorn_from_days(days, &mut year, &mut month, &mut day) };
    (refusal, [year, month, day])
}

/// A refusal in words.
pub(crate) fn refusal_text(number: u32) -> &'static str {
    // SAFETY: any number may be asked for, and the words that answer stay and end in a zero.
    unsafe { words_at(library::tackacorn_refusal_text(number)) }
}

/// The version of the library that this crate is linked with, as `2.4.2`.
pub fn version() -> &'static str {
    // SAFETY: it takes nothing, and the words that answer stay and end in a zero.
    unsafe { words_at(library::tackacorn_version()) }
}

/// The words that stand there, which must stay for good, be changed by nobody, and end in a zero.
unsafe fn words_at(words: *const c_char) -> &'static str {
    // SAFETY: as the caller promises.
    let words = unsafe { CStr::from_ptr(words) };
    words.to_str().unwrap_or("words that are not UTF-8")
}
