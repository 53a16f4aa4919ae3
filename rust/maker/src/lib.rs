//! Turns `spec.json` and `nf.json` of the published shapes into a table, and
//! cuts smaller tables from them.

pub mod json;
pub mod published;
pub mod reduce;
pub mod write;

pub use published::{Group, Nf, Spec, Whole};
pub use reduce::Reduction;

use plain::TableBuilder;
use std::collections::{BTreeMap, BTreeSet, HashMap};

/// Codepoints as pairs first, last: sorted, adjacent ones joined.
pub fn pairs(codepoints: impl IntoIterator<Item = u32>) -> Vec<(u32, u32)> {
    let sorted: BTreeSet<u32> = codepoints.into_iter().collect();
    let mut out: Vec<(u32, u32)> = Vec::new();
    for c in sorted {
        match out.last_mut() {
            Some((_, last)) if *last + 1 == c => *last = c,
            _ => out.push((c, c)),
        }
    }
    out
}

/// The rank of each codepoint as its class, from 1: sorted triples, adjacent
/// codepoints of one class joined.
pub fn classes(ranks: &[Vec<u32>]) -> Vec<(u32, u32, u32)> {
    let mut of: BTreeMap<u32, u32> = BTreeMap::new();
    for (rank, codepoints) in ranks.iter().enumerate() {
        for &c in codepoints {
            of.entry(c).or_insert(rank as u32 + 1);
        }
    }
    let mut out: Vec<(u32, u32, u32)> = Vec::new();
    for (c, class) in of {
        match out.last_mut() {
            Some((_, last, k)) if *last + 1 == c && *k == class => *last = c,
            _ => out.push((c, c, class)),
        }
    }
    out
}

/// The full decomposition of one codepoint, without ordering. Records that
/// lead back to themselves stop after eight steps; the soundness check names
/// them.
pub fn full_decomposition(decomp: &HashMap<u32, &[u32]>, c: u32) -> Vec<u32> {
    fn step(decomp: &HashMap<u32, &[u32]>, c: u32, left: usize, out: &mut Vec<u32>) {
        if (0xAC00..=0xD7A3).contains(&c) {
            let s = c - 0xAC00;
            out.extend([0x1100 + s / 588, 0x1161 + s % 588 / 28]);
            if !s.is_multiple_of(28) {
                out.push(0x11A7 + s % 28);
            }
            return;
        }
        match decomp.get(&c) {
            Some(items) if left > 0 => items.iter().for_each(|&item| step(decomp, item, left - 1, out)),
            _ => out.push(c),
        }
    }
    let mut out = Vec::new();
    step(decomp, c, 8, &mut out);
    out
}

/// The characters of the groups and those of their full decompositions.
pub fn valid(spec: &Spec, nf: &Nf) -> BTreeSet<u32> {
    let decomp = nf.by_head();
    let mut out = BTreeSet::new();
    for group in &spec.groups {
        for &c in &group.characters {
            out.insert(c);
            out.extend(full_decomposition(&decomp, c));
        }
    }
    out
}

/// The records by their heads, ascending; records of one head keep their order,
/// since the first one counts.
fn by_head(records: &[(u32, Vec<u32>)]) -> Vec<(u32, Vec<u32>)> {
    let mut out = records.to_vec();
    out.sort_by_key(|(head, _)| *head);
    out
}

/// The same, ascending.
fn ascending<T: Ord + Clone>(entries: &[T]) -> Vec<T> {
    let mut out = entries.to_vec();
    out.sort();
    out
}

/// 02, Item 12: the compound sequences are in NFC, by these files.
pub fn check_lists(spec: &Spec, nf: &Nf) -> Result<(), String> {
    let words = make_nf(nf).to_words();
    let table = plain::layout(&words).map_err(|fault| format!("{}: {}", fault.section, fault.what))?;
    let index = plain::Index::new(&table);
    let hex = |text: &[u32]| text.iter().map(|c| format!("{c:X}")).collect::<Vec<_>>().join(" ");
    for group in &spec.groups {
        for sequence in group.list.iter().flatten() {
            let form = plain::nfc(&index, sequence);
            if form != *sequence {
                let (given, due) = (hex(sequence), hex(&form));
                return Err(format!(
                    "group {}: the compound sequence {given} is not in NFC, which is {due}",
                    group.name
                ));
            }
        }
    }
    Ok(())
}

/// The table of these two files, with every section sorted, so that it can be
/// searched by halves.
pub fn make(spec: &Spec, nf: &Nf) -> TableBuilder {
    TableBuilder {
        valid: pairs(valid(spec, nf)),
        ignored: pairs(spec.ignored.iter().copied()),
        fenced: pairs(spec.fenced.iter().copied()),
        marks: pairs(spec.cm.iter().copied()),
        nsm: pairs(spec.nsm.iter().copied()),
        mapped: by_head(&spec.mapped),
        decompositions: by_head(&nf.decomp),
        emoji: ascending(&spec.emoji),
        exclusions: ascending(&nf.exclusions),
        classes: classes(&nf.ranks),
        groups: spec.groups.iter().map(|g| (g.flags(), pairs(g.characters.iter().copied()))).collect(),
        lists: spec.groups.iter().enumerate().filter_map(|(i, g)| Some((i, g.list.clone()?))).collect(),
        wholes: spec.wholes.iter().map(|w| (w.valid.clone(), w.confused.clone())).collect(),
        escape: pairs(spec.escape.iter().copied()),
        quick_check: pairs(nf.qc.iter().copied()),
    }
}

/// A table for NFC and NFD alone: decompositions, exclusions, classes and the
/// quick-check set.
pub fn make_nf(nf: &Nf) -> TableBuilder {
    TableBuilder {
        decompositions: by_head(&nf.decomp),
        exclusions: ascending(&nf.exclusions),
        classes: classes(&nf.ranks),
        quick_check: pairs(nf.qc.iter().copied()),
        ..TableBuilder::default()
    }
}
