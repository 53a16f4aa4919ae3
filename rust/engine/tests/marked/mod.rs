//! Buffers full of marks, of which a part is lent.

const GUARD: usize = 3;

/// The mark at this place, never 0.
pub fn mark(place: usize) -> u32 {
    0x8000_0001 | (place as u32) << 8
}

/// Lends the call a part of `room` words of a marked buffer: its answer and the
/// part, once the marks around the part are seen to be as they were.
pub fn lent<R>(room: usize, call: impl FnOnce(&mut [u32]) -> R) -> (R, Vec<u32>) {
    let end = GUARD + room;
    let mut buffer: Vec<u32> = (0..end + GUARD).map(mark).collect();
    let answer = call(&mut buffer[GUARD..end]);
    for place in (0..GUARD).chain(end..end + GUARD) {
        assert_eq!(buffer[place], mark(place), "a word outside the part");
    }
    (answer, buffer[GUARD..end].to_vec())
}
