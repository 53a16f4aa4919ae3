//! Trimmed input (02, Item 4).

/// The codepoints that are taken off both ends.
pub const BLANKS: [u32; 4] = [0x9, 0xA, 0xD, 0x20];

/// The part of the input that remains when the blanks at its front are taken
/// off, and then those at its back.
pub fn trim(mut input: &[u32]) -> &[u32] {
    while let [first, rest @ ..] = input {
        if !BLANKS.contains(first) {
            break;
        }
        input = rest;
    }
    while let [rest @ .., last] = input {
        if !BLANKS.contains(last) {
            break;
        }
        input = rest;
    }
    input
}
