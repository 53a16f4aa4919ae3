//! Sound tables made unsound: for each rule of the soundness check the ways to
//! break it, and no lower rule where that is easy.

use crate::draft::needs_quick_check;
use crate::pools::*;
use crate::rng::Rng;
use plain::limits::SEQUENCES;
use plain::tokens::strip;
use plain::{TableBuilder, FE0F, STOP};
use std::collections::HashSet;

/// Codepoints that the ways to break a rule are given.
struct Spare {
    no_scalar: u32,
    valid: u32,
    /// In no section.
    unused: u32,
}

/// A way to break a rule, and what it is called.
type Way = (&'static str, fn(&mut Rng, &mut TableBuilder, &Spare));

/// The rules, from 1.
const RULES: [&[Way]; 8] = [&RULE_1, &RULE_2, &RULE_3, &RULE_4, &RULE_5, &RULE_6, &RULE_7, &RULE_8];

/// The number of rules.
pub(crate) const LAST_RULE: u32 = RULES.len() as u32;

/// Breaks a rule, in one of its ways: how.
pub(crate) fn break_rule(rng: &mut Rng, b: &mut TableBuilder, rule: u32) -> &'static str {
    let spare = Spare { no_scalar: *rng.pick(&NO_SCALARS), valid: a_valid(rng, b), unused: rng.code(0xE000, 0xF8FF) };
    let (what, way) = match RULES[rule as usize - 1] {
        [only] => only,
        ways => rng.pick(ways),
    };
    way(rng, b, &spare);
    what
}

/// Makes `c` valid as rule 2 wants it: in a group and in valid.
fn admit(rng: &mut Rng, b: &mut TableBuilder, c: u32) {
    b.valid.push((c, c));
    let g = rng.below(b.groups.len());
    b.groups[g].1.push((c, c));
}

/// Puts it anywhere in the list.
fn put_in<T>(rng: &mut Rng, list: &mut Vec<T>, entry: T) {
    let at = rng.below(list.len() + 1);
    list.insert(at, entry);
}

const RULE_1: [Way; 15] = [
    ("ignored: no scalar value", |_, b, s| b.ignored.push((s.no_scalar, s.no_scalar))),
    ("classes: no scalar value", |_, b, s| b.classes.push((s.no_scalar, s.no_scalar.max(0xE000), 230))),
    ("mapped: head no scalar value", |_, b, s| b.mapped.push((s.no_scalar, vec![s.valid]))),
    ("mapped: item no scalar value", |rng, b, s| {
        b.mapped.push((rng.code(0x2150, 0x2188), vec![s.valid, s.no_scalar]));
    }),
    ("decomposition: item no scalar value", |rng, b, s| {
        b.decompositions.push((a_composite(rng), vec![s.valid, s.no_scalar]));
    }),
    ("emoji: no scalar value", |_, b, s| b.emoji.push(vec![0x1F468, s.no_scalar])),
    ("exclusions: no scalar value", |_, b, s| b.exclusions.push(s.no_scalar)),
    ("wholes: no scalar value", |_, b, s| b.wholes.push((vec![s.no_scalar], vec![s.valid]))),
    ("should-escape: no scalar value", |_, b, s| b.escape.push((s.no_scalar, s.no_scalar))),
    ("quick-check: no scalar value", |_, b, s| b.quick_check.push((s.no_scalar, s.no_scalar))),
    ("groups: no scalar value", |_, b, s| b.groups[0].1.push((s.no_scalar, s.no_scalar))),
    ("groups: an item of a list no scalar value", |rng, b, s| {
        b.groups[0].0 |= 6;
        let list = b.lists.entry(0).or_default();
        list.truncate(SEQUENCES as usize - 1);
        put_in(rng, list, vec![s.valid, s.no_scalar]);
    }),
    ("NSM: surrogates within a pair", |_, b, _| b.nsm.push((0xD000, 0xE000))),
    ("mapped: a valid item that is no scalar value", |rng, b, s| {
        b.mapped.push((s.valid.wrapping_add(0x20), vec![s.no_scalar, s.valid]));
        admit(rng, b, s.no_scalar);
    }),
    ("fenced: 0 to FFFFFFFF", |_, b, _| b.fenced.push((0, 0xFFFF_FFFF))),
];

const RULE_2: [Way; 8] = [
    ("valid: a pair left out", |rng, b, _| {
        if !b.valid.is_empty() {
            let i = rng.below(b.valid.len());
            b.valid.remove(i);
        }
    }),
    ("valid: one too many", |_, b, s| b.valid.push((s.unused, s.unused))),
    ("groups: one that is not valid", |_, b, s| b.groups[0].1.push((s.unused, s.unused))),
    ("valid: 2E", |rng, b, s| {
        admit(rng, b, STOP);
        b.mapped.push((0x2F, vec![STOP, s.valid]));
    }),
    ("valid: FE0F", |rng, b, _| admit(rng, b, FE0F)),
    ("valid: nearly all of plane 0", |_, b, _| b.valid.push((0, 0xD7FF))),
    ("groups: all empty", |_, b, _| b.groups = vec![(0, Vec::new())]),
    ("groups: a decomposition that is not valid", |rng, b, s| {
        let head = 0x1EF0 + rng.code(0, 9);
        b.decompositions.push((head, vec![s.unused]));
        admit(rng, b, head);
    }),
];

const RULE_3: [Way; 1] = [("mapped: item not valid", |rng, b, s| {
    let item = *rng.pick(&[s.unused, STOP, STOP, FE0F, 0x41, 0x1F468]);
    let items = match rng.below(3) {
        0 => vec![item],
        1 => vec![s.valid, item, s.valid],
        _ => vec![0x61, item, 0x61],
    };
    let at = rng.below(b.mapped.len() + 1);
    b.mapped.insert(at, (*rng.pick(&[0x2160, 0x2161, 0x42, STOP, FE0F]), items));
})];

const RULE_4: [Way; 1] = [("emoji: ill-formed", |rng, b, _| {
    let sequence = match rng.below(8) {
        0 => vec![FE0F],
        1 => vec![FE0F, FE0F, FE0F],
        2 => vec![FE0F, 0x1F469],
        3 => vec![0x1F469, STOP],
        4 => vec![STOP],
        5 => vec![0x1F44D, FE0F, FE0F],
        6 => vec![0x1F44D, FE0F, FE0F, 0x200D, FE0F, 0x2764],
        // Stripped it is the first sequence.
        _ => [b.emoji.first().map_or(Vec::new(), |s| strip(s)), vec![FE0F]].concat(),
    };
    put_in(rng, &mut b.emoji, sequence);
})];

const RULE_5: [Way; 1] = [("emoji: not apart from text", |rng, b, s| {
    let sequence = match rng.below(5) {
        0 => vec![s.valid],
        1 => vec![s.valid, FE0F],
        2 => vec![s.valid, a_valid(rng, b)],
        3 => vec![s.valid, 0x1F469, s.valid],
        _ => vec![0x1F469, s.valid],
    };
    b.emoji.push(sequence);
    if rng.percent(60) {
        b.emoji.extend([vec![0x1F469, 0x1F44D], vec![0x1F469], vec![0x1F44D]]);
    }
    // Equal ones would break rule 4.
    let mut seen = HashSet::new();
    b.emoji.retain(|s| seen.insert(strip(s)));
})];

const RULE_6: [Way; 12] = [
    ("decomposition: grows", |rng, b, _| {
        let h = a_composite(rng);
        b.decompositions.insert(0, (h, vec![h, a_mark(rng)]));
    }),
    ("decomposition: a cycle of two", |rng, b, _| {
        let h = 0x1F40 + rng.code(0, 3);
        b.decompositions.extend([(h, vec![h + 8]), (h + 8, vec![h])]);
        admit(rng, b, h);
        b.valid.push((h + 8, h + 8));
    }),
    ("decomposition: a cycle of three", |rng, b, _| {
        let cycle = [0x1F50, 0x1F51, 0x1F52];
        for i in 0..3 {
            b.decompositions.push((cycle[i], vec![cycle[(i + 1) % 3]]));
        }
        cycle.iter().for_each(|&c| admit(rng, b, c));
    }),
    ("decomposition: a long chain", |rng, b, _| {
        let deep = rng.code(5, 9);
        let wide = rng.between(1, 4);
        b.decompositions.extend((0..deep).map(|i| (0x1F60 + i, vec![0x1F61 + i; wide])));
        (0..=deep).for_each(|i| admit(rng, b, 0x1F60 + i));
    }),
    ("decomposition: a head twice", |rng, b, s| {
        if let Some(&(h, _)) = b.decompositions.first() {
            b.decompositions.push((h, vec![s.valid, a_mark(rng)]));
        }
    }),
    ("decomposition: a syllable as head", |rng, b, s| {
        b.decompositions.push((rng.code(0xAC00, 0xD7A3), vec![s.valid, a_mark(rng)]));
    }),
    ("decomposition: a jamo as head", jamo_as_head),
    ("decomposition: a jamo as head", jamo_as_head),
    ("decomposition: an ASCII head", |rng, b, s| {
        b.decompositions.push((0x24, vec![s.valid]));
        admit(rng, b, 0x24);
    }),
    ("classes: on jamo", |_, b, _| b.classes.insert(0, (0x1100, 0x11FF, 220))),
    ("classes: on syllables", |_, b, _| b.classes.push((0x3000, 0xBFFF, 230))),
    ("decomposition: a chain that ends in a syllable", |rng, b, _| {
        let s = rng.code(0xAC00, 0xD7A3);
        b.decompositions.extend((0..3).map(|i| (0x1F70 + i, vec![0x1F71 + i])));
        b.decompositions.push((0x1F73, vec![s]));
    }),
];

fn jamo_as_head(rng: &mut Rng, b: &mut TableBuilder, s: &Spare) {
    let jamo = *rng.pick(&[0x1100, 0x1112, 0x1161, 0x1175, 0x11A8, 0x11C2]);
    b.decompositions.push((jamo, vec![s.valid, a_mark(rng)]));
    admit(rng, b, jamo);
    admit(rng, b, 0xAC00);
    b.valid.extend([(0x1100, 0x1100), (0x1161, 0x1161)]);
}

const RULE_7: [Way; 3] = [
    ("composition pairs: two equal", |rng, b, s| {
        let pair = b.decompositions.iter().find(|d| d.1.len() == 2).map(|d| d.1.clone());
        let items = pair.unwrap_or(vec![s.valid, a_mark(rng)]);
        put_in(rng, &mut b.decompositions, (0x1EF8, items.clone()));
        b.decompositions.push((0x1EF9, items));
    }),
    ("composition pairs: L V", |_, b, _| b.decompositions.push((0x1EFA, vec![0x1100, 0x1161]))),
    ("composition pairs: LV T", |rng, b, _| {
        b.decompositions.push((0x1EFB, vec![0xAC00 + 28 * rng.code(0, 398), 0x11A8]));
    }),
];

const RULE_8: [Way; 6] = [
    ("quick-check: one left out", |rng, b, _| {
        b.quick_check = needs_quick_check(b);
        let i = rng.below(b.quick_check.len());
        b.quick_check.remove(i);
    }),
    ("quick-check: one codepoint alone", |_, b, s| b.quick_check = vec![(s.valid, s.valid)]),
    ("quick-check: a vowel or trailing consonant left out", |rng, b, _| {
        let c = *rng.pick(&[0x1161, 0x1168, 0x1175, 0x11A8, 0x11B0, 0x11C2]);
        b.quick_check = needs_quick_check(b);
        b.quick_check.retain(|&(first, last)| c < first || last < c);
    }),
    ("quick-check: heads alone", |_, b, _| {
        let heads: HashSet<u32> = b.decompositions.iter().map(|d| d.0).collect();
        b.quick_check = needs_quick_check(b);
        b.quick_check.retain(|&(c, _)| heads.contains(&c));
        b.quick_check.extend([(0x1161, 0x1175), (0x11A8, 0x11C2)]);
    }),
    ("quick-check: a new head", |rng, b, s| {
        b.quick_check = needs_quick_check(b);
        put_in(rng, &mut b.decompositions, (0x1EFC, vec![s.valid]));
    }),
    ("quick-check: a syllable of a second item left out", |rng, b, _| {
        let l = rng.code(0, 18);
        put_in(rng, &mut b.decompositions, (0x1EFD, vec![0x61, 0x1100 + l]));
        b.quick_check = needs_quick_check(b);
        let first = 0xAC00 + 588 * l;
        let c = first + *rng.pick(&[0, 1, 27, 28, 300, 586, 587]);
        b.quick_check.retain(|&pair| pair != (first, first + 587));
        b.quick_check.extend([(first, c - 1), (c + 1, first + 587)].iter().filter(|(first, last)| first <= last));
    }),
];
