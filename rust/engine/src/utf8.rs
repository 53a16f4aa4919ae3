//! UTF-8: bytes to codepoints and back, and the byte form of the name call.

use crate::{unless, Name, Refusal};

/// What the reader and the writer answer, as include/wanlopheng.h declares it.
/// `number` is 0, or the number of the refusal; beside a refusal `length` is 0.
#[repr(C)]
#[derive(Clone, Copy, Debug, PartialEq, Eq)]
pub struct Utf8 {
    /// 0, 30 or 31; 0, 4 or 31 for the writer.
    pub number: u32,
    /// The byte or the codepoint that the refusal names, else 0.
    pub place: usize,
    /// Codepoints read, or bytes written.
    pub length: usize,
}

impl Utf8 {
    /// The number of elements, or the refusal.
    pub fn answer(self) -> Result<usize, Refusal> {
        unless(self.number, self.place, self.length)
    }
}

extern "C" {
    fn wanlopheng_utf8_read(bytes: *const u8, bytes_length: usize, answer: *mut u32, answer_length: usize) -> Utf8;
    fn wanlopheng_utf8_write(
        codepoints: *const u32,
        codepoints_length: usize,
        answer: *mut u8,
        answer_length: usize,
    ) -> Utf8;
    fn wanlopheng_name_bytes(
        bytes: *const u8,
        bytes_length: usize,
        words: *const u32,
        words_length: usize,
        setting: u32,
        answer: *mut u32,
        answer_length: usize,
        work: *mut u32,
        work_length: usize,
    ) -> Name;
}

/// Reads bytes into codepoints. After success `answer` holds them and then
/// zeros, after a refusal zeros: 30 at the byte where the first bad sequence
/// starts, then 31 for too little room.
///
/// ```
/// let mut answer = [7; 3];
/// let read = engine::utf8::read("é!".as_bytes(), &mut answer);
/// assert_eq!((read.answer(), answer), (Ok(2), [0xE9, 0x21, 0]));
/// ```
pub fn read(bytes: &[u8], answer: &mut [u32]) -> Utf8 {
    // SAFETY: both slices are lent for the call, each with its own length.
    unsafe { wanlopheng_utf8_read(bytes.as_ptr(), bytes.len(), answer.as_mut_ptr(), answer.len()) }
}

/// Writes codepoints as bytes. After success `answer` holds them and then
/// zeros, after a refusal zeros: 4 at the first number that is no scalar value,
/// then 31 for too little room.
///
/// ```
/// let mut answer = [7; 4];
/// let written = engine::utf8::write(&[0xE9, 0x21], &mut answer);
/// assert_eq!((written.answer(), answer), (Ok(3), *b"\xC3\xA9!\0"));
/// ```
pub fn write(codepoints: &[u32], answer: &mut [u8]) -> Utf8 {
    // SAFETY: both slices are lent for the call, each with its own length.
    unsafe { wanlopheng_utf8_write(codepoints.as_ptr(), codepoints.len(), answer.as_mut_ptr(), answer.len()) }
}

/// Normalises a name that is given as UTF-8: 30 before every other refusal,
/// else exactly what the name call answers on the codepoints, in both buffers
/// too. After 30 both hold zeros, whatever their sizes.
pub fn name(bytes: &[u8], table: &[u32], setting: u32, answer: &mut [u32], work: &mut [u32]) -> Name {
    // SAFETY: the four slices are lent for the call, each with its own length.
    unsafe {
        wanlopheng_name_bytes(
            bytes.as_ptr(),
            bytes.len(),
            table.as_ptr(),
            table.len(),
            setting,
            answer.as_mut_ptr(),
            answer.len(),
            work.as_mut_ptr(),
            work.len(),
        )
    }
}
