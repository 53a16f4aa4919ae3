//! Tables of a few entries over a few codepoints, made to meet each other: heads
//! that are items, equal pairs, Hangul in all places, and quick-check sets that
//! hold what rule 8 asks, or nearly.

use crate::draft::needs_quick_check;
use crate::rng::Rng;
use plain::{TableBuilder, FE0F};

/// Letters, heads, marks, jamo and syllables.
pub const CODES: [u32; 32] = [
    0x61, 0x62, 0x63, 0x7F, 0x80, 0xC0, 0xC1, 0xC2, 0xC3, 0xC4, 0xC5, 0xC6, 0x300, 0x301, 0x302, 0x303, 0x1100, 0x1101,
    0x1112, 0x1161, 0x1175, 0x1176, 0x11A7, 0x11A8, 0x11C2, 0xAC00, 0xAC01, 0xAC1C, 0xD7A3, 0x80C0, 0x8300, 0x11_0000,
];

/// One of them, or one of the likely kind.
fn code(rng: &mut Rng, likely: std::ops::Range<usize>) -> u32 {
    if rng.percent(85) {
        return CODES[rng.between(likely.start, likely.end - 1)];
    }
    *rng.pick(&CODES)
}

fn decomposition(rng: &mut Rng) -> (u32, Vec<u32>) {
    let head = code(rng, 5..12);
    let first = match rng.below(10) {
        0..=3 => code(rng, 5..12),
        4 => code(rng, 16..29),
        _ => code(rng, 0..3),
    };
    let second = if rng.percent(8) { code(rng, 16..29) } else { code(rng, 12..16) };
    match rng.below(12) {
        0 => (head, vec![first]),
        1 => (head, vec![first, second, code(rng, 12..16)]),
        2 => (head, vec![first, second, code(rng, 0..3), second]),
        _ => (head, vec![first, second]),
    }
}

/// A table of a few entries, mostly sorted, sound or not.
pub fn tiny_table(rng: &mut Rng) -> TableBuilder {
    let mut b = TableBuilder { valid: vec![(0, u32::MAX)], ..TableBuilder::default() };
    b.groups = vec![(rng.code(0, 3), vec![(0, u32::MAX)])];
    b.decompositions = (0..rng.below(7)).map(|_| decomposition(rng)).collect();
    for &c in &CODES[12..16] {
        if rng.percent(70) {
            b.classes.push((c, c, *rng.pick(&[0, 1, 220, 220, 230, 230, 230])));
        }
    }
    if rng.percent(12) {
        let c = *rng.pick(&CODES);
        let last = c + if rng.percent(50) { 0 } else { rng.code(0, 3) };
        b.classes.push((c, last, *rng.pick(&[0, 220, 230])));
    }
    b.exclusions = (0..rng.below(3)).map(|_| code(rng, 5..12)).collect();
    b.emoji = (0..rng.below(4)).map(|_| sequence(rng)).collect();
    b.mapped = (0..rng.below(4)).map(|_| (*rng.pick(&CODES), vec![code(rng, 0..12)])).collect();
    b.nsm = vec![(0x300, 0x301)];
    if rng.percent(90) {
        sort(rng, &mut b);
    }
    if rng.percent(92) {
        b.quick_check = quick_check(rng, &b);
    }
    b
}

fn sequence(rng: &mut Rng) -> Vec<u32> {
    (0..rng.between(1, 4)).map(|_| *rng.pick(&[FE0F, 0x1F468, 0x200D, 0x1F469, 0x61])).collect()
}

/// In order, mostly each head once.
fn sort(rng: &mut Rng, b: &mut TableBuilder) {
    b.decompositions.sort_by_key(|d| d.0);
    b.mapped.sort_by_key(|m| m.0);
    b.classes.sort();
    b.exclusions.sort_unstable();
    b.emoji.sort();
    if rng.percent(95) {
        b.decompositions.dedup_by_key(|d| d.0);
        b.mapped.dedup_by_key(|m| m.0);
        b.exclusions.dedup();
        b.classes.dedup_by(|next, before| next.0 <= before.1);
    }
}

/// What rule 8 asks, mostly with nothing left out, and others.
fn quick_check(rng: &mut Rng, b: &TableBuilder) -> Vec<(u32, u32)> {
    let jamo = |&(first, last): &(u32, u32)| first == last && plain::text::is_jamo(first);
    let mut set: Vec<(u32, u32)> = needs_quick_check(b).into_iter().filter(|range| !jamo(range)).collect();
    set.extend([(0x1161, 0x1175), (0x11A8, 0x11C2)]);
    if rng.percent(30) {
        set.remove(rng.below(set.len()));
    }
    for _ in 0..rng.below(2) {
        let c = *rng.pick(&CODES);
        set.push((c, c));
    }
    if rng.percent(95) {
        set = plain::Ranges::new(set).pairs().to_vec();
    }
    set
}

/// A text of these codepoints.
pub fn tiny_text(rng: &mut Rng) -> Vec<u32> {
    let likely = [0..12, 5..16, 12..16, 16..29][rng.below(4)].clone();
    (0..rng.between(1, 6)).map(|_| code(rng, likely.clone())).collect()
}
