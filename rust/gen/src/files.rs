//! Table files, whole and damaged.

use crate::rng::Rng;

/// A file and the room to unpack it into.
pub fn file(rng: &mut Rng, words: &[u32]) -> (Vec<u8>, usize) {
    let words = if rng.percent(60) { &words[..rng.below(words.len().min(12) + 1)] } else { words };
    let mut file = plain::pack(words);
    file[0] = match rng.below(20) {
        0..=3 => *rng.pick(&[0, 6, 5, 255, 128]),
        4..=8 => 1,
        9..=13 => 2,
        14..=16 => 3,
        _ => 4,
    };
    match rng.below(10) {
        0 => file.truncate(rng.below(file.len() + 1)),
        1 => file.extend((0..rng.between(1, 8)).map(|_| 1)),
        2 => file[4] = file[4].wrapping_add(rng.between(1, 255) as u8),
        // A count whose bytes pass 32 bits.
        3 if rng.percent(50) => file[1] = *rng.pick(&[0x40, 0x80, 0xC0, 0xFF]),
        _ => {}
    }
    let room = match rng.below(6) {
        0 => words.len().saturating_sub(1),
        1 => words.len() + rng.below(3),
        2 => rng.below(words.len() + 1),
        3 => 0,
        _ => words.len() + rng.between(1, 20),
    };
    (file, room)
}
