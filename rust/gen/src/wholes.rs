//! Tables for the look-alike test: wholes whose members join groups in chains of
//! 1 to 256, in one component or several, with members that no group holds.

use crate::rng::Rng;
use plain::TableBuilder;

/// A table of chained groups and the characters of its wholes.
pub struct Chained {
    pub table: TableBuilder,
    /// By group, the characters that it holds.
    pub held: Vec<Vec<u32>>,
    /// Those that no group holds.
    pub nowhere: Vec<u32>,
}

/// How many groups: each length from 1 to 256 comes up, short ones more often.
fn length(rng: &mut Rng) -> usize {
    match rng.below(10) {
        0..=5 => rng.between(1, 6),
        6 | 7 => rng.between(7, 40),
        8 => rng.between(41, 255),
        _ => 256,
    }
}

/// Different characters, in no order; some stand side by side, so that a pair
/// may hold several.
fn characters(rng: &mut Rng, count: usize) -> Vec<u32> {
    let mut next = 0x3400;
    let mut all = Vec::new();
    for _ in 0..count {
        next += if rng.percent(60) { 1 } else { rng.code(2, 9) };
        all.push(next);
    }
    rng.shuffle(&mut all);
    all
}

/// Pairs that hold these characters and perhaps what lies between.
fn pairs(rng: &mut Rng, held: &[u32]) -> Vec<(u32, u32)> {
    let mut pairs: Vec<(u32, u32)> = held.iter().map(|&c| (c, c)).collect();
    if rng.percent(30) {
        let (a, b) = (*rng.pick(held), *rng.pick(held));
        if a.max(b) - a.min(b) < 6 {
            pairs.push((a.min(b), a.max(b)));
        }
    }
    if rng.percent(50) {
        rng.shuffle(&mut pairs);
    }
    pairs
}

/// Groups in chains: a group has a character of its own, and shares one with the
/// next group unless the chain is cut there.
pub fn chained(rng: &mut Rng) -> Chained {
    let count = length(rng);
    chained_of(rng, count)
}

/// So many groups.
pub fn chained_of(rng: &mut Rng, count: usize) -> Chained {
    let spare = rng.between(0, 4);
    let cut = *rng.pick(&[0, 10, 30, 60]);
    let mut all = characters(rng, 2 * count + spare).into_iter();
    let mut next = || all.next().expect("enough of them");
    let mut held: Vec<Vec<u32>> = (0..count).map(|_| vec![next()]).collect();
    for i in 1..count {
        let c = next();
        held[i].push(c);
        if !rng.percent(cut) {
            held[i - 1].push(c);
        }
    }
    let nowhere: Vec<u32> = (0..spare).map(|_| next()).collect();
    let groups: Vec<(u32, Vec<(u32, u32)>)> = held.iter().map(|of| (2, pairs(rng, of))).collect();
    let valid = groups.iter().flat_map(|g| g.1.iter().copied()).collect();
    let many = if rng.percent(50) { rng.between(1, 3) } else { rng.between(4, 40) };
    let wholes = (0..many).map(|_| whole(rng, &held, &nowhere)).collect();
    Chained { table: TableBuilder { valid, groups, wholes, ..TableBuilder::default() }, held, nowhere }
}

/// A character of one of the groups.
fn any_of(rng: &mut Rng, held: &[Vec<u32>]) -> u32 {
    let group = rng.below(held.len());
    *rng.pick(&held[group])
}

/// A whole of all the characters, of those of a part of the chain, or of some of
/// them: valid and confused.
fn whole(rng: &mut Rng, held: &[Vec<u32>], nowhere: &[u32]) -> (Vec<u32>, Vec<u32>) {
    let from = rng.below(held.len());
    let to = rng.between(from, held.len() - 1);
    let mut members: Vec<u32> = match rng.below(3) {
        0 => held.concat(),
        1 => held[from..=to].concat(),
        _ => (0..rng.between(2, 6)).map(|_| any_of(rng, held)).collect(),
    };
    members.extend(nowhere.iter().copied().filter(|_| rng.percent(50)));
    rng.shuffle(&mut members);
    let confused = rng.between(1, members.len());
    let (confused, valid) = members.split_at(confused);
    let (mut confused, valid) = (confused.to_vec(), valid.to_vec());
    if rng.percent(20) {
        // A member of both lists.
        confused.extend(valid.first());
    }
    (valid, confused)
}

/// A name of labels of one to four characters, each of one group for the most
/// part, many of them confused.
pub fn chained_name(rng: &mut Rng, of: &Chained) -> Vec<u32> {
    let labels = if rng.percent(80) { rng.between(1, 2) } else { rng.between(3, 60) };
    let mut name = Vec::new();
    for i in 0..labels {
        if i > 0 {
            name.push(plain::STOP);
        }
        let group = rng.below(of.held.len());
        for _ in 0..*rng.pick(&[1, 1, 1, 2, 2, 3, 4]) {
            let c = match rng.below(40) {
                0 if !of.nowhere.is_empty() => *rng.pick(&of.nowhere),
                1 => any_of(rng, &of.held),
                _ => *rng.pick(&of.held[group]),
            };
            name.push(c);
        }
    }
    name
}

/// The whole of 02, Item 6: A in groups 1 and 2, B in 2 and 3, C in 3; and beside
/// it E in group 1, which looks like D in group 0 alone.
pub mod item_6 {
    use plain::TableBuilder;

    pub const A: u32 = 0x3041;
    pub const B: u32 = 0x3042;
    pub const C: u32 = 0x3043;
    pub const D: u32 = 0x3044;
    pub const E: u32 = 0x3045;

    pub fn table() -> TableBuilder {
        TableBuilder {
            valid: vec![(A, E)],
            groups: vec![(0, vec![(D, D)]), (0, vec![(A, A), (E, E)]), (0, vec![(A, B)]), (0, vec![(B, C)])],
            wholes: vec![(vec![B, C], vec![A]), (vec![D], vec![E])],
            ..TableBuilder::default()
        }
    }
}
