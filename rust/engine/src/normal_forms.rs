//! NFD and NFC of a text.

use crate::raw;

/// What a call answers, as include/wanlopheng.h declares it. `number` is 0, or
/// 1, 50, 51 or 52 for a refusal; beside a refusal `length` is 0.
#[repr(C)]
#[derive(Clone, Copy, Debug, PartialEq, Eq)]
pub struct Form {
    /// 0, 1, 50, 51 or 52.
    pub number: u32,
    /// Codepoints of the form.
    pub length: usize,
}

/// NFD of a text by a table. Words past it are zero, and so is the work area;
/// after a refusal all are.
pub fn nfd(text: &[u32], table: &[u32], answer: &mut [u32], work: &mut [u32]) -> Form {
    raw::nfd(text, table, answer, work)
}

/// NFC of a text by a table, likewise.
pub fn nfc(text: &[u32], table: &[u32], answer: &mut [u32], work: &mut [u32]) -> Form {
    raw::nfc(text, table, answer, work)
}
