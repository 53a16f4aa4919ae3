//! What the tables are made of.

use crate::rng::Rng;
use plain::{TableBuilder, FE0F};

pub(crate) const SCRIPTS: [(u32, u32); 9] = [
    (0x61, 0x7A),
    (0x3B1, 0x3C9),
    (0x430, 0x44F),
    (0x561, 0x586),
    (0x13A0, 0x13F4),
    (0x4E00, 0x4E7F),
    (0x3041, 0x3096),
    (0x13000, 0x1342F),
    (0x621, 0x64A),
];
pub(crate) const MARKS: [u32; 24] = [
    0x300, 0x301, 0x302, 0x303, 0x304, 0x307, 0x308, 0x30A, 0x323, 0x327, 0x328, 0x345, 0x610, 0x611, 0x612, 0x613,
    0x614, 0x64B, 0x651, 0x3099, 0x20D0, 0x483, 0x1D165, 0x1D16D,
];
pub(crate) const EMOJI: [u32; 12] =
    [0x1F468, 0x1F469, 0x1F4A9, 0x1F525, 0x2764, 0x1F44D, 0x1F680, 0x2B50, 0x1F1FA, 0x1F1F8, 0x1F1E6, 0x1F3F4];
pub(crate) const FENCES: [u32; 4] = [0x27, 0x2019, 0x30FB, 0x2044];
/// No scalar values.
pub(crate) const NO_SCALARS: [u32; 8] =
    [0xD800, 0xDBFF, 0xDFFF, 0x110000, 0x110061, 0x7FFF_FFFF, 0x8000_0000, 0xFFFF_FFFF];

/// From `low` to `high` of these, in another order.
pub(crate) fn some<T: Clone>(rng: &mut Rng, of: &[T], low: usize, high: usize) -> Vec<T> {
    let mut all = of.to_vec();
    rng.shuffle(&mut all);
    all.truncate(rng.between(low, high).min(of.len()));
    all
}

/// A codepoint that decomposes in Unicode.
pub(crate) fn a_composite(rng: &mut Rng) -> u32 {
    let &(low, high) = rng.pick(&[(0xC0, 0xD6), (0xE0, 0xF6), (0x1E00, 0x1E7F), (0x1F00, 0x1F15), (0x2126, 0x212B)]);
    rng.code(low, high)
}

pub(crate) fn a_mark(rng: &mut Rng) -> u32 {
    *rng.pick(&MARKS)
}

/// A codepoint of one of these pairs, which are not none.
pub(crate) fn within(rng: &mut Rng, pairs: &[(u32, u32)]) -> u32 {
    let &(first, last) = rng.pick(pairs);
    rng.code(first, last)
}

/// A valid codepoint, 61 where there is none.
pub(crate) fn a_valid(rng: &mut Rng, b: &TableBuilder) -> u32 {
    if b.valid.is_empty() {
        return 0x61;
    }
    within(rng, &b.valid)
}

/// An emoji sequence, well-formed or not.
pub(crate) fn an_emoji(rng: &mut Rng, letters: &[u32]) -> Vec<u32> {
    let x = *rng.pick(&EMOJI);
    let y = *rng.pick(&EMOJI);
    match rng.below(11) {
        0..=2 => vec![x, FE0F],
        3 => vec![x],
        4 => vec![x, 0x1F3FB],
        5 => vec![x, 0x200D, y, FE0F],
        6 => vec![x, 0x200D, 0x2764, FE0F, 0x200D, y],
        7 => vec![rng.code(0x30, 0x33), FE0F, 0x20E3],
        8 => vec![x, y],
        9 => vec![0x1F3F4, 0xE0067, 0xE0062, 0xE007F],
        _ => a_mixture(rng, letters),
    }
}

fn a_mixture(rng: &mut Rng, letters: &[u32]) -> Vec<u32> {
    let length = if rng.percent(15) { rng.between(20, 32) } else { rng.between(2, 6) };
    let mut one = || match rng.below(6) {
        0 => FE0F,
        1 => 0x200D,
        2 => *rng.pick(letters),
        _ => *rng.pick(&EMOJI),
    };
    (0..length).map(|_| one()).collect()
}
