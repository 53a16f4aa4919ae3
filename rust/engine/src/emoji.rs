//! Which emoji it was.

/// What the call answers, as include/wanlopheng.h declares it. `number` is 0,
/// or 1 for a layout fault; where `found` is 0 the rest is 0 too.
#[repr(C)]
#[derive(Clone, Copy, Debug, PartialEq, Eq)]
pub struct Emoji {
    /// 0, or 1 for a layout fault.
    pub number: u32,
    /// 1 where a sequence matches.
    pub found: u32,
    /// How much of the part it takes.
    pub taken: usize,
    /// The number of the matching record, from 0.
    pub index: usize,
    /// The FE0F in what it takes.
    pub selectors: usize,
}

extern "C" {
    fn wanlopheng_emoji(part: *const u32, part_length: usize, words: *const u32, words_length: usize) -> Emoji;
}

/// The emoji sequence of a table that matches the start of a part of a label
/// and takes most of it.
pub fn emoji(part: &[u32], table: &[u32]) -> Emoji {
    // SAFETY: both slices are lent for the call, each with its own length.
    unsafe { wanlopheng_emoji(part.as_ptr(), part.len(), table.as_ptr(), table.len()) }
}
