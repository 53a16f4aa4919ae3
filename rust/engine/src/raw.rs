//! The exports of the crate `boundary`, as include/wanlopheng.h declares them.

use crate::normal_forms::Form;
use crate::{Name, Unpacked};

/// What the label call answers. `number` is 0, or the number of the refusal,
/// with zeros beside it; `kind` is 1 for emoji, 2 for ASCII, 3 for a group,
/// which alone has `group`, its number from 0, and `restricted`, 0 or 1.
#[repr(C)]
#[derive(Clone, Copy, Debug, PartialEq, Eq)]
pub struct Label {
    /// 0, or the number of the refusal.
    pub number: u32,
    /// The place that the refusal names, else 0.
    pub place: usize,
    /// Codepoints of the normal form.
    pub length: usize,
    /// 1 emoji, 2 ASCII, 3 a group; `kind()` gives it as an enum.
    pub kind: u32,
    /// The number of the group, from 0.
    pub group: usize,
    /// 1 where the group is restricted.
    pub restricted: u32,
}

/// What the search for a group answers. `number` is 0, or 1 or 3 for a refusal,
/// with zeros beside it; `found` is 1 where a group holds the text, which alone
/// has `group`, its number from 0, and its flags, 0 or 1. `asked` says how often
/// it was asked whether a group holds a character.
#[repr(C)]
#[derive(Clone, Copy, Debug, PartialEq, Eq)]
pub struct Group {
    /// 0, 1 or 3.
    pub number: u32,
    /// 0.
    pub place: usize,
    /// 1 where a group holds the text.
    pub found: u32,
    /// The number of the group, from 0.
    pub group: usize,
    /// 1 where the group is restricted.
    pub restricted: u32,
    /// 1 where its combining marks are whitelisted.
    pub whitelisted: u32,
    /// How often it was asked whether a group holds a character.
    pub asked: usize,
}

/// What the soundness check answers: `sound` is 1 or 0, `rule` the lowest
/// broken rule, 0 for a layout fault and where the table is sound.
#[repr(C)]
#[derive(Clone, Copy, Debug, PartialEq, Eq)]
pub struct Checked {
    /// 1 or 0.
    pub sound: u32,
    /// The lowest broken rule, or 0.
    pub rule: u32,
}

/// Where a part of a slice starts, and its length.
#[repr(C)]
#[derive(Clone, Copy, Debug, PartialEq, Eq)]
pub struct Part {
    /// The index of its first element.
    pub start: usize,
    /// The number of its elements.
    pub length: usize,
}

/// Declares an export that is lent an input, a table, an answer buffer and a
/// work area, with or without a setting, and the safe call of it.
macro_rules! lent {
    ($export:ident, $call:ident($($setting:ident)?) -> $answer:ty) => {
        extern "C" {
            fn $export(
                input: *const u32,
                input_length: usize,
                words: *const u32,
                words_length: usize,
                $($setting: u32,)?
                answer: *mut u32,
                answer_length: usize,
                work: *mut u32,
                work_length: usize,
            ) -> $answer;
        }

        pub fn $call(input: &[u32], words: &[u32], $($setting: u32,)? answer: &mut [u32], work: &mut [u32]) -> $answer {
            // SAFETY: the four slices are lent for the call, each with its own length.
            unsafe {
                $export(
                    input.as_ptr(),
                    input.len(),
                    words.as_ptr(),
                    words.len(),
                    $($setting,)?
                    answer.as_mut_ptr(),
                    answer.len(),
                    work.as_mut_ptr(),
                    work.len(),
                )
            }
        }
    };
}

lent!(wanlopheng_name, name(setting) -> Name);
lent!(wanlopheng_label, label(setting) -> Label);
lent!(wanlopheng_nfd, nfd() -> Form);
lent!(wanlopheng_nfc, nfc() -> Form);

extern "C" {
    fn wanlopheng_unpack(file: *const u8, file_length: usize, answer: *mut u32, answer_length: usize) -> Unpacked;
    fn wanlopheng_group(text: *const u32, text_length: usize, words: *const u32, words_length: usize) -> Group;
    fn wanlopheng_soundness(words: *const u32, words_length: usize) -> Checked;
    fn wanlopheng_layout_fault(words: *const u32, words_length: usize) -> u32;
    fn wanlopheng_trim(input: *const u32, input_length: usize) -> Part;
}

pub fn unpack(file: &[u8], answer: &mut [u32]) -> Unpacked {
    // SAFETY: both slices are lent for the call, each with its own length.
    unsafe { wanlopheng_unpack(file.as_ptr(), file.len(), answer.as_mut_ptr(), answer.len()) }
}

pub fn group(text: &[u32], words: &[u32]) -> Group {
    // SAFETY: both slices are lent for the call, each with its own length.
    unsafe { wanlopheng_group(text.as_ptr(), text.len(), words.as_ptr(), words.len()) }
}

pub fn soundness(words: &[u32]) -> Checked {
    // SAFETY: the slice is lent for the call, with its length.
    unsafe { wanlopheng_soundness(words.as_ptr(), words.len()) }
}

pub fn layout_fault(words: &[u32]) -> u32 {
    // SAFETY: the slice is lent for the call, with its length.
    unsafe { wanlopheng_layout_fault(words.as_ptr(), words.len()) }
}

pub fn trim(input: &[u32]) -> Part {
    // SAFETY: the slice is lent for the call, with its length.
    unsafe { wanlopheng_trim(input.as_ptr(), input.len()) }
}
