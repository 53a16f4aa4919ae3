//! Keccak-256: a sponge that takes bytes in pieces of any size.

/// The state of a sponge, as include/wanlopheng.h declares it. It goes in and
/// comes back by value. Every value is a state, `fill` counting modulo 136.
///
/// ```
/// use engine::keccak::{keccak256, Sponge};
///
/// let taken = Sponge::new().absorb(b"a").absorb(b"").absorb(b"bc");
/// assert_eq!(taken.digest(), keccak256(b"abc"));
/// ```
#[repr(C)]
#[derive(Clone, Copy, Debug, PartialEq, Eq)]
pub struct Sponge {
    pub lanes: [u64; 25],
    /// How many bytes of the next block are in the lanes.
    pub fill: usize,
}

/// What the digest calls answer.
#[repr(C)]
#[derive(Clone, Copy, Debug, PartialEq, Eq)]
pub struct Digest {
    pub bytes: [u8; 32],
}

extern "C" {
    fn wanlopheng_sponge_new() -> Sponge;
    fn wanlopheng_sponge_absorb(sponge: Sponge, bytes: *const u8, bytes_length: usize) -> Sponge;
    fn wanlopheng_sponge_digest(sponge: Sponge) -> Digest;
    fn wanlopheng_keccak256(bytes: *const u8, bytes_length: usize) -> Digest;
}

impl Sponge {
    /// A sponge that has taken nothing.
    #[allow(clippy::new_without_default)]
    pub fn new() -> Sponge {
        // SAFETY: nothing is lent.
        unsafe { wanlopheng_sponge_new() }
    }

    /// The sponge with a piece taken.
    #[must_use]
    pub fn absorb(self, bytes: &[u8]) -> Sponge {
        // SAFETY: the slice is lent for the call, with its length.
        unsafe { wanlopheng_sponge_absorb(self, bytes.as_ptr(), bytes.len()) }
    }

    /// The digest of all bytes taken.
    pub fn digest(self) -> [u8; 32] {
        // SAFETY: nothing is lent.
        unsafe { wanlopheng_sponge_digest(self) }.bytes
    }
}

/// Keccak-256 of a slice.
pub fn keccak256(bytes: &[u8]) -> [u8; 32] {
    // SAFETY: the slice is lent for the call, with its length.
    unsafe { wanlopheng_keccak256(bytes.as_ptr(), bytes.len()) }.bytes
}
