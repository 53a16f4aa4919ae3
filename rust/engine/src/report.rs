//! The report of what was typed.

use crate::{unless, Refusal};

/// What the call answers, as include/wanlopheng.h declares it. `number` is 0, or
/// the number of the refusal; beside a refusal `length` is 0.
#[repr(C)]
#[derive(Clone, Copy, Debug, PartialEq, Eq)]
pub struct Report {
    /// 0, or the number of the refusal.
    pub number: u32,
    /// The place that the refusal names, else 0.
    pub place: usize,
    /// Bytes of the report.
    pub length: usize,
}

impl Report {
    /// The number of bytes, or the refusal.
    pub fn answer(self) -> Result<usize, Refusal> {
        unless(self.number, self.place, self.length)
    }
}

extern "C" {
    fn wanlopheng_report(
        input: *const u32,
        input_length: usize,
        words: *const u32,
        words_length: usize,
        setting: u32,
        out: *mut u8,
        out_length: usize,
        work: *mut u32,
        work_length: usize,
    ) -> Report;
}

/// Writes a line for each token of a name: `text` or `emoji`, where its input
/// starts and ends in the name, and its codepoints in upper-case hexadecimal, in
/// braces where the table says that they should be escaped. Refusals are those
/// of the name call but for 15, then 32 for too little room. After success
/// `out` holds the report and then zeros, after a refusal zeros; `work` holds
/// zeros either way.
pub fn report(input: &[u32], table: &[u32], setting: u32, out: &mut [u8], work: &mut [u32]) -> Report {
    // SAFETY: the four slices are lent for the call, each with its own length.
    unsafe {
        wanlopheng_report(
            input.as_ptr(),
            input.len(),
            table.as_ptr(),
            table.len(),
            setting,
            out.as_mut_ptr(),
            out.len(),
            work.as_mut_ptr(),
            work.len(),
        )
    }
}
