//! Our calls, as C sees them: `include/tackacorn.h` says what each reads and writes.

use crate::told_together;

unsafe extern "C" {
    fn tackacorn_parse(
        text: *const u8,
        text_length: usize,
        tape: *mut u32,
        tape_length: usize,
        count: &mut u32,
        bom: &mut u32,
        place: &mut usize,
    ) -> u32;
    fn tackacorn_check(text_length: usize, words: *const u32, length: usize, count: usize) -> bool;
    fn tackacorn_write(
        text: *const u8,
        text_length: usize,
        words: *const u32,
        words_length: usize,
        count: usize,
        out: *mut u8,
        out_length: usize,
        scratch: *mut u32,
        scratch_length: usize,
        written: &mut usize,
    ) -> u32;
    fn tackacorn_sheet_write(
        text_length: usize,
        words: *const u32,
        words_length: usize,
        count: usize,
        out: *mut u8,
        out_length: usize,
        written: &mut usize,
    ) -> u32;
    fn tackacorn_sheet_read(
        file: *const u8,
        file_length: usize,
        words: *mut u32,
        words_length: usize,
        text_length: &mut usize,
        count: &mut u32,
    ) -> u32;
    fn tackacorn_to_bool(scalar: *const u8, length: usize, value: &mut u32) -> u32;
    fn tackacorn_to_u64(scalar: *const u8, length: usize, value: &mut u64) -> u32;
    fn tackacorn_to_i64(scalar: *const u8, length: usize, value: &mut i64) -> u32;
    fn tackacorn_to_i64_part(
        scalar: *const u8,
        length: usize,
        value: &mut i64,
        left: &mut usize,
    ) -> u32;
    fn tackacorn_to_f64(scalar: *const u8, length: usize, value: &mut f64) -> u32;
    fn tackacorn_kind(scalar: *const u8, length: usize) -> u32;
}

/// The count of a parsed text, or the number of its refusal.
pub fn parse(text: &[u8], tape: &mut [u32]) -> Result<usize, u32> {
    let (mut count, mut bom, mut place) = (0, 0, 0);
    let (words, length) = (tape.as_mut_ptr(), tape.len());
    let refusal = unsafe {
        tackacorn_parse(text.as_ptr(), text.len(), words, length, &mut count, &mut bom, &mut place)
    };
    if refusal == 0 { Ok(count as usize) } else { Err(refusal) }
}

pub fn check(text_length: usize, words: &[u32], count: usize) -> bool {
    unsafe { tackacorn_check(text_length, words.as_ptr(), words.len(), count) }
}

/// Bytes that are room for what is written of any sheet of so many tokens over a text of so many bytes.
pub fn bytes_for(bytes: usize, count: usize) -> usize {
    bytes + 3 * count
}

/// The length of the text written, or the number of its refusal.
pub fn write(
    text: &[u8],
    words: &[u32],
    count: usize,
    out: &mut [u8],
    scratch: &mut [u32],
) -> Result<usize, u32> {
    let mut written = 0;
    let refusal = unsafe {
        tackacorn_write(
            text.as_ptr(),
            text.len(),
            words.as_ptr(),
            words.len(),
            count,
            out.as_mut_ptr(),
            out.len(),
            scratch.as_mut_ptr(),
            scratch.len(),
            &mut written,
        )
    };
    if refusal == 0 { Ok(written) } else { Err(refusal) }
}

/// The length of a sheet's file, or the number of its refusal.
pub fn pack(text_length: usize, words: &[u32], count: usize, out: &mut [u8]) -> Result<usize, u32> {
    let mut written = 0;
    let (bytes, length) = (out.as_mut_ptr(), out.len());
    let refusal = unsafe {
        tackacorn_sheet_write(
            text_length,
            words.as_ptr(),
            words.len(),
            count,
            bytes,
            length,
            &mut written,
        )
    };
    if refusal == 0 { Ok(written) } else { Err(refusal) }
}

/// The text length and the count of a file's sheet, or the number of its refusal.
pub fn unpack(file: &[u8], words: &mut [u32]) -> Result<(usize, usize), u32> {
    let (mut text_length, mut count) = (0, 0);
    let (sheet, length) = (words.as_mut_ptr(), words.len());
    let refusal = unsafe {
        tackacorn_sheet_read(file.as_ptr(), file.len(), sheet, length, &mut text_length, &mut count)
    };
    if refusal == 0 { Ok((text_length, count as usize)) } else { Err(refusal) }
}

pub fn to_bool(scalar: &[u8]) -> (u32, u64) {
    let mut value = 0;
    let refusal = unsafe { tackacorn_to_bool(scalar.as_ptr(), scalar.len(), &mut value) };
    (refusal, u64::from(value))
}

pub fn to_u64(scalar: &[u8]) -> (u32, u64) {
    let mut value = 0;
    let refusal = unsafe { tackacorn_to_u64(scalar.as_ptr(), scalar.len(), &mut value) };
    (refusal, value)
}

pub fn to_i64(scalar: &[u8]) -> (u32, u64) {
    let mut value = 0;
    let refusal = unsafe { tackacorn_to_i64(scalar.as_ptr(), scalar.len(), &mut value) };
    (refusal, value as u64)
}

/// The number in front, with how many bytes are left over behind it.
pub fn to_i64_part(scalar: &[u8]) -> (u32, u64) {
    let (mut value, mut left) = (0, 0);
    let refusal =
        unsafe { tackacorn_to_i64_part(scalar.as_ptr(), scalar.len(), &mut value, &mut left) };
    (refusal, told_together(value, left))
}

pub fn to_f64(scalar: &[u8]) -> (u32, u64) {
    let mut value = 0.0;
    let refusal = unsafe { tackacorn_to_f64(scalar.as_ptr(), scalar.len(), &mut value) };
    (refusal, value.to_bits())
}

/// The number of a scalar's kind, and no value.
pub fn kind(scalar: &[u8]) -> (u32, u64) {
    (unsafe { tackacorn_kind(scalar.as_ptr(), scalar.len()) }, 0)
}
