//! The name hash of EIP-137.

use crate::keccak::Digest;
use crate::{Name, Refusal};

/// What the call answers, as include/wanlopheng.h declares it: what the name
/// call answers, and 32 bytes, zeros beside a refusal.
#[repr(C)]
#[derive(Clone, Copy, Debug, PartialEq, Eq)]
pub struct Namehash {
    pub name: Name,
    pub node: Digest,
}

impl Namehash {
    /// The hash, or the refusal.
    pub fn answer(self) -> Result<[u8; 32], Refusal> {
        self.name.answer().map(|_| self.node.bytes)
    }
}

extern "C" {
    fn wanlopheng_namehash(
        input: *const u32,
        input_length: usize,
        words: *const u32,
        words_length: usize,
        setting: u32,
        answer: *mut u32,
        answer_length: usize,
        work: *mut u32,
        work_length: usize,
    ) -> Namehash;
}

/// Normalises a name, as `name` does, and hashes its normal form. Refusal 4 can
/// also come last, with its index in the normal form, where the table is not
/// sound.
pub fn namehash(input: &[u32], table: &[u32], setting: u32, answer: &mut [u32], work: &mut [u32]) -> Namehash {
    // SAFETY: the four slices are lent for the call, each with its own length.
    unsafe {
        wanlopheng_namehash(
            input.as_ptr(),
            input.len(),
            table.as_ptr(),
            table.len(),
            setting,
            answer.as_mut_ptr(),
            answer.len(),
            work.as_mut_ptr(),
            work.len(),
        )
    }
}
