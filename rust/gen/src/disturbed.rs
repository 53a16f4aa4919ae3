//! Tables by which text is left as it is and every section is searched by
//! halves, and the same with one section out of order, overlapping, doubled or
//! with another value in it.

use crate::draft::{draft, needs_quick_check, sort_sections};
use crate::rng::Rng;
use crate::tables::Made;
use plain::{Found, Pass, Ranges, TableBuilder, FE0F};

/// The sections in their order.
pub const SECTIONS: [&str; 14] = [
    "valid",
    "ignored",
    "fenced",
    "marks",
    "NSM",
    "mapped",
    "decompositions",
    "emoji",
    "exclusions",
    "classes",
    "groups",
    "wholes",
    "should-escape",
    "quick-check",
];

/// What is done to a section.
pub const WAYS: [&str; 5] = ["as it is", "out of order", "overlapping", "doubled", "another value"];

/// What the pass finds of a table, rules 6 to 8 among it; nothing of a layout
/// fault.
pub fn found(b: &TableBuilder) -> Option<Found> {
    Pass::read(&b.to_words()).map(|pass| pass.found())
}

/// A table of which the pass finds all that there is to find.
pub fn orderly_table(rng: &mut Rng) -> TableBuilder {
    loop {
        let mut b = draft(rng);
        for pairs in pair_lists(&mut b) {
            *pairs = Ranges::new(pairs.iter().copied()).pairs().to_vec();
        }
        b.mapped.sort_by_key(|(head, _)| *head);
        b.mapped.dedup_by_key(|(head, _)| *head);
        b.exclusions.sort_unstable();
        b.exclusions.dedup();
        apart(&mut b.classes);
        // Deep ones and those that hold their own head are not found.
        let heads: Vec<u32> = b.decompositions.iter().map(|d| d.0).collect();
        let of_head = |items: &[u32]| items.iter().any(|c| heads.contains(c));
        b.decompositions.retain(|(_, items)| !of_head(items) || rng.percent(60));
        b.quick_check = Ranges::new(needs_quick_check(&b)).pairs().to_vec();
        sort_sections(&mut b);
        if found(&b).is_some_and(|f| f.all()) {
            return b;
        }
    }
}

/// All sections of pairs, and the groups.
fn pair_lists(b: &mut TableBuilder) -> impl Iterator<Item = &mut Vec<(u32, u32)>> {
    let groups = b.groups.iter_mut().map(|(_, pairs)| pairs);
    let lists =
        [&mut b.valid, &mut b.ignored, &mut b.fenced, &mut b.marks, &mut b.nsm, &mut b.escape, &mut b.quick_check];
    lists.into_iter().chain(groups)
}

/// Leaves the triples that overlap no earlier one, in order.
fn apart(classes: &mut Vec<(u32, u32, u32)>) {
    classes.sort();
    let mut next = 0;
    classes.retain(|&(first, last, _)| {
        let fits = next <= first;
        if fits {
            next = last + 1;
        }
        fits
    });
}

/// A table with one section disturbed, now and then two, or none.
pub fn disturbed_table(rng: &mut Rng) -> Made {
    let mut builder = orderly_table(rng);
    let mut what = Vec::new();
    for _ in 0..if rng.percent(80) { 1 } else { 2 } {
        let (section, way) = (rng.below(SECTIONS.len()), rng.below(WAYS.len()));
        disturb(rng, &mut builder, section, way);
        what.extend([SECTIONS[section], WAYS[way]]);
    }
    Made { words: builder.to_words(), builder, what }
}

/// Does this to the section of this number.
pub fn disturb(rng: &mut Rng, b: &mut TableBuilder, section: usize, way: usize) {
    match section {
        0 => pairs(rng, &mut b.valid, way),
        1 => pairs(rng, &mut b.ignored, way),
        2 => pairs(rng, &mut b.fenced, way),
        3 => pairs(rng, &mut b.marks, way),
        4 => pairs(rng, &mut b.nsm, way),
        5 => records(rng, &mut b.mapped, 32, way),
        6 => records(rng, &mut b.decompositions, 4, way),
        7 => emoji(rng, &mut b.emoji, way),
        8 => entries(rng, &mut b.exclusions, way, |_, c| *c, near),
        9 => entries(rng, &mut b.classes, way, |rng, &(first, last, _)| (first, last, rng.code(0, 9)), near_triple),
        10 => {
            let group = rng.pick_mut(&mut b.groups);
            pairs(rng, &mut group.1, way);
        }
        11 => entries(rng, &mut b.wholes, way, |_, w| (w.1.clone(), w.0.clone()), |_, w| (w.1.clone(), w.0.clone())),
        12 => pairs(rng, &mut b.escape, way),
        _ => pairs(rng, &mut b.quick_check, way),
    }
}

/// Entries that are apart, disturbed: `again` makes one that covers the same as
/// another does, `near` one that overlaps it.
fn entries<T: Clone>(
    rng: &mut Rng,
    of: &mut Vec<T>,
    way: usize,
    again: fn(&mut Rng, &T) -> T,
    near: fn(&mut Rng, &T) -> T,
) {
    if of.is_empty() {
        return;
    }
    let at = rng.below(of.len());
    match way {
        1 if rng.percent(50) => {
            let other = rng.below(of.len());
            of.swap(at, other);
        }
        1 => rng.shuffle(of),
        2 => {
            let entry = near(rng, &of[at]);
            of.insert(at + rng.below(2), entry);
        }
        3 => {
            let entry = again(rng, &of[at]);
            let place = if rng.percent(60) { at + rng.below(2) } else { rng.below(of.len() + 1) };
            of.insert(place, entry);
        }
        4 => of[at] = near(rng, &of[at]),
        _ => {}
    }
}

/// A range that shares an end with this one, or a part of it.
fn near_range(rng: &mut Rng, first: u32, last: u32) -> (u32, u32) {
    let further = last.saturating_add(rng.code(0, 3));
    match rng.below(4) {
        0 => (first.saturating_sub(rng.code(0, 3)), first),
        1 => (last, further),
        2 => (first.saturating_sub(rng.code(0, 3)), further),
        _ => (rng.code(first, last), further),
    }
}

fn near_triple(rng: &mut Rng, &(first, last, class): &(u32, u32, u32)) -> (u32, u32, u32) {
    let (first, last) = near_range(rng, first, last);
    (first, last, if rng.percent(40) { class } else { rng.code(0, 255) })
}

fn near(rng: &mut Rng, c: &u32) -> u32 {
    (c + rng.code(0, 2)).saturating_sub(1)
}

fn pairs(rng: &mut Rng, of: &mut Vec<(u32, u32)>, way: usize) {
    entries(rng, of, way, |_, pair| *pair, |rng, &(first, last)| near_range(rng, first, last));
}

fn records(rng: &mut Rng, of: &mut Vec<(u32, Vec<u32>)>, most: usize, way: usize) {
    fn again(rng: &mut Rng, (head, items): &(u32, Vec<u32>)) -> (u32, Vec<u32>) {
        let mut items = items.clone();
        match rng.below(3) {
            0 => items.reverse(),
            1 => items[0] = near(rng, &items[0]),
            _ => items.push(*head),
        }
        (*head, items)
    }
    // Another head with the same items, or other items.
    fn other(rng: &mut Rng, record: &(u32, Vec<u32>)) -> (u32, Vec<u32>) {
        if rng.percent(50) {
            return (near(rng, &record.0), record.1.clone());
        }
        again(rng, record)
    }
    entries(rng, of, way, again, other);
    of.iter_mut().for_each(|(_, items)| items.truncate(most));
}

fn emoji(rng: &mut Rng, of: &mut Vec<Vec<u32>>, way: usize) {
    // With FE0F in it or at its front, longer, or of another first item.
    fn like(rng: &mut Rng, sequence: &[u32]) -> Vec<u32> {
        let mut sequence = sequence.to_vec();
        match rng.below(4) {
            0 => sequence.insert(0, FE0F),
            1 => {
                let at = rng.below(sequence.len() + 1);
                sequence.insert(at, FE0F);
            }
            2 => sequence[0] = near(rng, &sequence[0]),
            _ => sequence.extend(sequence.last().copied()),
        }
        sequence.truncate(32);
        sequence
    }
    entries(rng, of, way, |rng, s| if rng.percent(50) { s.clone() } else { like(rng, s) }, |rng, s| like(rng, s));
}
