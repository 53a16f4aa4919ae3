//! Tables damaged: other values in their sections, and layout faults.

use crate::pools::*;
use crate::rng::Rng;
use plain::table::join_sections;
use plain::{TableBuilder, FE0F, STOP};

/// Puts other values where values may be anything: keeps the layout.
pub(crate) fn damage_values(rng: &mut Rng, b: &mut TableBuilder) {
    for _ in 0..rng.between(1, 6) {
        match rng.below(8) {
            0 => a_list(rng, b.mapped.iter_mut().map(|m| &mut m.1)),
            1 => a_head(rng, &mut b.mapped),
            2 | 3 => a_list(rng, b.decompositions.iter_mut().map(|d| &mut d.1)),
            4 => a_head(rng, &mut b.decompositions),
            5 => a_list(rng, b.emoji.iter_mut()),
            6 => a_class(rng, &mut b.classes),
            _ => a_list(rng, b.wholes.iter_mut().map(|w| &mut w.1)),
        }
    }
    if !b.lists.is_empty() && rng.percent(30) {
        a_list(rng, b.lists.values_mut().flatten().collect::<Vec<_>>().into_iter());
    }
}

fn a_list<'a>(rng: &mut Rng, lists: impl ExactSizeIterator<Item = &'a mut Vec<u32>>) {
    if lists.len() > 0 {
        let at = rng.below(lists.len());
        let list = lists.into_iter().nth(at).expect("it is one of them");
        if !list.is_empty() {
            let at = rng.below(list.len());
            list[at] = another(rng, list[at]);
        }
    }
}

fn a_head(rng: &mut Rng, records: &mut [(u32, Vec<u32>)]) {
    if !records.is_empty() {
        let at = rng.below(records.len());
        records[at].0 = another(rng, records[at].0);
    }
}

fn a_class(rng: &mut Rng, classes: &mut [(u32, u32, u32)]) {
    if !classes.is_empty() {
        let at = rng.below(classes.len());
        classes[at].2 = rng.code(0, 255);
    }
}

/// A value in the place of `c`.
fn another(rng: &mut Rng, c: u32) -> u32 {
    match rng.below(8) {
        0 => *rng.pick(&NO_SCALARS),
        1 => STOP,
        2 => FE0F,
        3 => rng.word(),
        4 => c.wrapping_add(1),
        5 => a_mark(rng),
        6 => rng.code(0x61, 0x7A),
        _ => rng.code(0xAC00, 0xD7A3),
    }
}

/// An entry that layout refuses, and what it is called.
type Entry = (&'static str, fn(&mut Rng, &mut TableBuilder));

const ENTRIES: [Entry; 14] = [
    ("groups: flags 4", |_, b| b.groups.push((4, vec![]))),
    ("groups: flags 5", |_, b| b.groups.push((5, vec![]))),
    ("groups: flags 8", |rng, b| b.groups.push((rng.code(8, 15), vec![]))),
    ("groups: 65 sequences", |_, b| put_list(b, vec![vec![0x61, 0x300]; 65])),
    ("groups: sequences of 1 or 9", |rng, b| put_list(b, vec![vec![0x61; 2], vec![0x61; *rng.pick(&[1, 9])]])),
    ("groups: 257", |_, b| b.groups.resize(257, (0, vec![(0x61, 0x61)]))),
    ("classes: 256", |_, b| b.classes.push((0x300, 0x301, 256))),
    ("classes: first over last", |_, b| b.classes.push((0x301, 0x300, 230))),
    ("ignored: first over last", |_, b| b.ignored.push((0x301, 0x300))),
    ("should-escape: first over last", |_, b| b.escape.push((0x301, 0x300))),
    ("quick-check: first over last", |_, b| b.quick_check.push((0x301, 0x300))),
    ("emoji: 0 or 33 items", |rng, b| b.emoji.push(vec![0x1F468; *rng.pick(&[0, 33])])),
    ("mapped: 0 or 33 items", |rng, b| b.mapped.push((0x2160, vec![0x61; *rng.pick(&[0, 33])]))),
    ("decompositions: 0 or 5 items", |rng, b| b.decompositions.push((0x1EFC, vec![0x61; *rng.pick(&[0, 5])]))),
];

/// One more group, with this list.
fn put_list(b: &mut TableBuilder, list: Vec<Vec<u32>>) {
    b.lists.insert(b.groups.len(), list);
    b.groups.push((6, vec![(0x61, 0x61)]));
}

/// Groups at the end of their section whose list is cut.
const CUT_LISTS: [&[u32]; 4] = [&[6, 0], &[6, 0, 1], &[7, 0, 2, 2, 0x61, 0x300], &[6, 0, 1, 3, 0x61, 0x300]];

/// The words of this table with their layout broken, mostly, and how.
pub(crate) fn damaged_words(rng: &mut Rng, b: &TableBuilder) -> (&'static str, Vec<u32>) {
    const WORDS: usize = 5;
    let way = rng.below(WORDS + ENTRIES.len() + 2);
    if way < WORDS {
        return damaged_word(rng, b.to_words(), way);
    }
    let Some((what, put)) = ENTRIES.get(way - WORDS) else {
        let mut sections = b.sections();
        if way > WORDS + ENTRIES.len() {
            sections[10].extend(*rng.pick(&CUT_LISTS));
            return ("groups: a list past the section", join_sections(&sections));
        }
        rng.pick_mut(&mut sections).push(0);
        return ("a section: one word more", join_sections(&sections));
    };
    let mut b = b.clone();
    put(rng, &mut b);
    (what, b.to_words())
}

/// The words with one of them changed, or more or fewer of them.
fn damaged_word(rng: &mut Rng, mut words: Vec<u32>, way: usize) -> (&'static str, Vec<u32>) {
    let what = match way {
        0 => {
            words.truncate(rng.below(words.len()));
            "words: cut"
        }
        1 => {
            words.resize(words.len() + rng.between(1, 3), 0);
            "words: left over"
        }
        2 => {
            let i = rng.below(words.len());
            words[i] = rng.word();
            "words: a random one"
        }
        3 => {
            let i = rng.below(words.len());
            words[i] = words[i].wrapping_add(*rng.pick(&[1, u32::MAX]));
            "words: one more or less"
        }
        _ => {
            words.remove(rng.below(words.len()));
            "words: one left out"
        }
    };
    (what, words)
}
