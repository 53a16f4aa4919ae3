//! Two lists: the slots of a payee book that a new table would file
//! differently, and the groups in which a label could be respelled, which
//! stand behind refusal 14.

use crate::{unless, Refusal};

/// What a call that fills a list answers. `number` is 0, or the number of the
/// refusal; `entries` is 0 beside a refusal.
#[repr(C)]
#[derive(Clone, Copy, Debug, PartialEq, Eq)]
pub struct Listed {
    pub number: u32,
    pub place: usize,
    pub entries: usize,
}

impl Listed {
    /// The number of entries, or the refusal.
    pub fn answer(self) -> Result<usize, Refusal> {
        unless(self.number, self.place, self.entries)
    }
}

extern "C" {
    fn wanlopheng_moved(
        area: *const u32,
        area_length: usize,
        words: *const u32,
        words_length: usize,
        list: *mut u32,
        list_length: usize,
        work: *mut u32,
        work_length: usize,
    ) -> Listed;
    fn wanlopheng_respelled(
        label: *const u32,
        label_length: usize,
        words: *const u32,
        words_length: usize,
        list: *mut u32,
        list_length: usize,
        work: *mut u32,
        work_length: usize,
    ) -> Listed;
}

/// Lists the slots of a book whose names this table refuses or files otherwise:
/// two words for each, its number from 0 and the refusal, 0 where it is filed
/// otherwise, 42 or 43 where that form is empty or too long for a slot. The
/// area is only read. A list of 128 words has room for all.
///
/// Refusals: 40, 41, 1, 2, then 33 if the list has no room. Behind the entries
/// the list is zeros; the work area is zeros, and so are both after a refusal.
pub fn moved(area: &[u32], table: &[u32], list: &mut [u32], work: &mut [u32]) -> Listed {
    // SAFETY: the four slices are lent for the call, each with its own length.
    unsafe {
        wanlopheng_moved(
            area.as_ptr(),
            area.len(),
            table.as_ptr(),
            table.len(),
            list.as_mut_ptr(),
            list.len(),
            work.as_mut_ptr(),
            work.len(),
        )
    }
}

/// Lists the groups in which a label could be respelled, by their numbers from
/// 0, ascending: none unless the label call refuses it as 14. A list of 256
/// words has room for all.
///
/// Refusals: those of the label call before 14, with the setting off, then 33
/// if the list has no room. The list and the work area are left as by `moved`.
pub fn respelled(label: &[u32], table: &[u32], list: &mut [u32], work: &mut [u32]) -> Listed {
    // SAFETY: the four slices are lent for the call, each with its own length.
    unsafe {
        wanlopheng_respelled(
            label.as_ptr(),
            label.len(),
            table.as_ptr(),
            table.len(),
            list.as_mut_ptr(),
            list.len(),
            work.as_mut_ptr(),
            work.len(),
        )
    }
}
