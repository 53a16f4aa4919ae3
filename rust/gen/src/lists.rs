//! Groups with lists of compound sequences (02, Item 12), and labels that ask for
//! them.

use crate::draft::{draft, sort_sections};
use crate::names::Vocabulary;
use crate::rng::Rng;
use crate::tables::Made;
use plain::limits::{GROUPS, MOST_RUN, SEQUENCES};
use plain::{nfc, parse, Index, TableBuilder};

fn within(pairs: &[(u32, u32)], c: u32) -> bool {
    pairs.iter().any(|&(first, last)| first <= c && c <= last)
}

/// What the lists of a group are made of.
struct Parts {
    /// Characters of the group that are no marks.
    bases: Vec<u32>,
    /// Its marks.
    marks: Vec<u32>,
}

fn parts(b: &TableBuilder, group: usize) -> Parts {
    let pairs = &b.groups[group].1;
    let some = pairs.iter().flat_map(|&(first, last)| (first..=last).take(12));
    let (marks, bases) = some.partition(|&c| within(&b.marks, c));
    Parts { bases, marks }
}

/// Gives some groups lists; keeps every rule of the soundness check.
pub(crate) fn put_lists(rng: &mut Rng, b: &mut TableBuilder) {
    // What the marks have in their groups is mostly known as marks.
    if rng.percent(60) {
        let classes: Vec<u32> = b.classes.iter().filter(|c| c.0 == c.1 && c.2 > 0).map(|c| c.0).collect();
        b.marks.extend(classes.iter().filter(|&&c| b.groups.iter().any(|g| within(&g.1, c))).map(|&c| (c, c)));
    }
    let mut number = 0;
    while number < b.groups.len().min(8) {
        if rng.percent(60) {
            let list = list(rng, b, number);
            if rng.percent(30) && b.groups.len() < GROUPS {
                // The next group would let all of it pass.
                let (flags, pairs) = b.groups[number].clone();
                b.groups.insert(number + 1, (flags | 2, pairs));
                b.lists =
                    std::mem::take(&mut b.lists).into_iter().map(|(n, l)| (n + usize::from(n > number), l)).collect();
            }
            b.groups[number].0 |= 6;
            b.lists.insert(number, list);
        }
        number += 1;
    }
}

/// A list for this group: none, as many as there may be, or a few.
fn list(rng: &mut Rng, b: &TableBuilder, group: usize) -> Vec<Vec<u32>> {
    let parts = parts(b, group);
    let count = match rng.below(100) {
        0..=14 => 0,
        15..=24 => SEQUENCES as usize,
        _ => rng.between(1, 6),
    };
    let words = b.to_words();
    let table = parse(&words).expect("a table as far as it is made");
    let index = Index::new(&table);
    (0..count).map(|_| sequence(rng, b, &parts, &index)).collect()
}

/// A character and one to seven marks behind it, mostly in NFC.
fn sequence(rng: &mut Rng, b: &TableBuilder, parts: &Parts, index: &Index) -> Vec<u32> {
    let most = MOST_RUN as usize;
    let one = |rng: &mut Rng, of: &[u32]| if of.is_empty() { 0x61 } else { *rng.pick(of) };
    if rng.percent(4) {
        // Anything: no label asks for it, or an odd one does.
        return (0..rng.between(2, most)).map(|_| rng.code(0x61, 0x360)).collect();
    }
    let mut sequence = vec![one(rng, &parts.bases)];
    if rng.percent(25) {
        // What composes, with a mark that is left over.
        if let [_, ..] = b.decompositions[..] {
            sequence = rng.pick(&b.decompositions).1.clone();
        }
    }
    let marks = if rng.percent(60) { rng.between(1, 2) } else { rng.between(1, 7) };
    sequence.extend((0..marks).map(|_| one(rng, &parts.marks)));
    let form = nfc(index, &sequence);
    let mut sequence = if rng.percent(92) { form } else { sequence };
    sequence.truncate(most);
    if sequence.len() < 2 {
        sequence.push(one(rng, &parts.marks));
    }
    sequence
}

/// A table with lists, sound as far as the draft is.
pub fn listed_table(rng: &mut Rng) -> TableBuilder {
    loop {
        let mut b = draft(rng);
        if b.lists.is_empty() {
            put_lists(rng, &mut b);
        }
        if rng.percent(50) {
            sort_sections(&mut b);
        }
        if !b.lists.is_empty() {
            return b;
        }
    }
}

/// The same for the comparison.
pub fn made(rng: &mut Rng) -> Made {
    let builder = listed_table(rng);
    Made { words: builder.to_words(), builder, what: vec!["lists"] }
}

/// What labels that ask for a list are made of.
#[derive(Clone, Debug)]
pub(crate) struct Listed {
    letters: Vec<u32>,
    marks: Vec<u32>,
    list: Vec<Vec<u32>>,
    /// Decompositions whose head the group holds.
    heads: Vec<Vec<u32>>,
}

/// The groups with lists.
pub(crate) fn listed(b: &TableBuilder) -> Vec<Listed> {
    let groups = b.groups.iter().enumerate().filter(|(_, g)| g.0 & 4 != 0 && !g.1.is_empty());
    let of = |(number, group): (usize, &(u32, Vec<(u32, u32)>))| {
        let Parts { bases, marks } = parts(b, number);
        let list = b.lists.get(&number).cloned().unwrap_or_default();
        let heads = b.decompositions.iter().filter(|d| within(&group.1, d.0)).map(|d| d.1.clone()).collect();
        Listed { letters: bases, marks, list, heads }
    };
    groups.map(of).collect()
}

impl Vocabulary {
    /// A label of a group with a list: runs of marks that it has, nearly has, or
    /// does not have.
    pub(crate) fn compound_label(&self, rng: &mut Rng, of: &Listed) -> Vec<u32> {
        let mut out = Vec::new();
        for _ in 0..*rng.pick(&[1, 1, 1, 2, 2, 3]) {
            if rng.percent(12) {
                self.an_emoji(rng, &mut out);
            }
            let run = compound(rng, of);
            for c in run {
                match rng.percent(30) {
                    true => self.spell(rng, c, 0, &mut out),
                    false => out.push(c),
                }
            }
            if rng.percent(25) && !of.letters.is_empty() {
                out.push(*rng.pick(&of.letters));
            }
        }
        out
    }
}

/// A run as the list has it, with a mark more or fewer, or another one.
fn compound(rng: &mut Rng, of: &Listed) -> Vec<u32> {
    let mark = |rng: &mut Rng| if of.marks.is_empty() { 0x300 } else { *rng.pick(&of.marks) };
    let letter = |rng: &mut Rng| if of.letters.is_empty() { 0x61 } else { *rng.pick(&of.letters) };
    let way = rng.below(20);
    let mut run = match of.list.last() {
        Some(last) if way < 3 => last.clone(),
        Some(_) if way < 14 => rng.pick(&of.list).clone(),
        _ => vec![letter(rng)],
    };
    match way {
        7 | 8 => run.push(mark(rng)),
        9 => run.extend(run.last().copied()),
        10 | 11 => {
            run.pop();
        }
        12 => {
            // Another mark, or the same ones in another order.
            let last = run.len() - 1;
            run[last] = mark(rng);
            run[1..].reverse();
        }
        14..=16 => run.extend((0..rng.between(1, 9)).map(|_| mark(rng))),
        17 | 18 if !of.heads.is_empty() => {
            run = rng.pick(&of.heads).clone();
            run.extend((0..rng.below(3)).map(|_| mark(rng)));
        }
        _ => {}
    }
    run
}
