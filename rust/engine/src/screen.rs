//! The screen form of a name.

use crate::Name;

extern "C" {
    fn wanlopheng_screen(
        input: *const u32,
        input_length: usize,
        words: *const u32,
        words_length: usize,
        greek: u32,
        setting: u32,
        answer: *mut u32,
        answer_length: usize,
        work: *mut u32,
        work_length: usize,
    ) -> Name;
}

/// Writes the screen form of a name: its normal form, but with every FE0F of
/// each emoji's sequence, and with 39E for each 3BE of a text in labels that are
/// not Greek. `greek` is the number of the Greek group; with one that the table
/// does not have no label is Greek. Refusals, setting and buffers are those of
/// the name call, and 15 is judged on the screen form. By a sound table 8,192
/// words hold it.
pub fn screen(input: &[u32], table: &[u32], greek: u32, setting: u32, answer: &mut [u32], work: &mut [u32]) -> Name {
    // SAFETY: the four slices are lent for the call, each with its own length.
    unsafe {
        wanlopheng_screen(
            input.as_ptr(),
            input.len(),
            table.as_ptr(),
            table.len(),
            greek,
            setting,
            answer.as_mut_ptr(),
            answer.len(),
            work.as_mut_ptr(),
            work.len(),
        )
    }
}
