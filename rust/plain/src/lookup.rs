//! What the rules ask a table. 01: "Where entries overlap, the first one
//! counts": each lookup takes the first entry that answers it.

use crate::ranges::{FirstCovering, Ranges};
use crate::table::{Record, Table, Whole};
use crate::text::{is_jamo, is_syllable};
use crate::tokens::match_emoji;
use crate::FE0F;
use std::collections::{HashMap, HashSet};

pub trait Lookup {
    fn is_valid(&self, c: u32) -> bool;
    fn is_ignored(&self, c: u32) -> bool;
    fn is_fenced(&self, c: u32) -> bool;
    fn is_mark(&self, c: u32) -> bool;
    fn is_nsm(&self, c: u32) -> bool;
    /// The items of the first mapping with this head.
    fn mapping(&self, c: u32) -> Option<&[u32]>;
    /// The items of the first decomposition with this head. Hangul is not
    /// asked here.
    fn decomposition(&self, c: u32) -> Option<&[u32]>;
    /// The combining class: 0 for jamo and syllables, else that of the first
    /// triple that covers `c`, else 0.
    fn class(&self, c: u32) -> u32;
    /// The head of the first composition pair `a` `b`. Hangul is not asked
    /// here.
    fn composite(&self, a: u32, b: u32) -> Option<u32>;
    /// The record that takes most of `rest` and how much it takes, at least
    /// one codepoint; the first of those that take equally much.
    fn find_emoji(&self, rest: &[u32]) -> Option<(usize, usize)>;
    fn emoji(&self, record: usize) -> &[u32];
    fn group_count(&self) -> usize;
    fn group_flags(&self, group: usize) -> u32;
    fn group_holds(&self, group: usize, c: u32) -> bool;
    /// Is this one of the compound sequences of the group? Without a list it
    /// isn't.
    fn group_lists(&self, group: usize, sequence: &[u32]) -> bool;
    /// The first whole whose confused list holds `c`.
    fn whole_of(&self, c: u32) -> Option<Whole<'_>>;
    /// Is it shown in braces?
    fn should_escape(&self, c: u32) -> bool;
    /// Is this text seen to be its own NFC? It may be that where it is not seen.
    fn keeps(&self, _text: &[u32]) -> bool {
        false
    }
}

/// Is this record a composition pair? 01: "the two-item decompositions whose
/// head isn't excluded and whose head and first item have class 0".
pub fn is_composition_pair(table: &Table, class: impl Fn(u32) -> u32, record: &Record) -> bool {
    record.items.len() == 2
        && !table.exclusions.contains(&record.head)
        && class(record.head) == 0
        && class(record.items[0]) == 0
}

/// The better of two matches: the one that takes more, else the earlier one.
fn better(best: Option<(usize, usize)>, record: usize, taken: usize) -> Option<(usize, usize)> {
    match best {
        Some((_, most)) if most >= taken => best,
        _ if taken == 0 => best,
        _ => Some((record, taken)),
    }
}

/// Every lookup from the front of its section.
impl Lookup for Table<'_> {
    fn is_valid(&self, c: u32) -> bool {
        self.valid.holds(c)
    }
    fn is_ignored(&self, c: u32) -> bool {
        self.ignored.holds(c)
    }
    fn is_fenced(&self, c: u32) -> bool {
        self.fenced.holds(c)
    }
    fn is_mark(&self, c: u32) -> bool {
        self.marks.holds(c)
    }
    fn is_nsm(&self, c: u32) -> bool {
        self.nsm.holds(c)
    }
    fn mapping(&self, c: u32) -> Option<&[u32]> {
        self.mapped.iter().find(|r| r.head == c).map(|r| r.items)
    }
    fn decomposition(&self, c: u32) -> Option<&[u32]> {
        self.decompositions.iter().find(|r| r.head == c).map(|r| r.items)
    }
    fn class(&self, c: u32) -> u32 {
        if is_jamo(c) || is_syllable(c) {
            return 0;
        }
        self.classes.find(c).unwrap_or(0)
    }
    fn composite(&self, a: u32, b: u32) -> Option<u32> {
        self.decompositions
            .iter()
            .find(|r| r.items == [a, b] && is_composition_pair(self, |c| self.class(c), r))
            .map(|r| r.head)
    }
    fn find_emoji(&self, rest: &[u32]) -> Option<(usize, usize)> {
        let mut best = None;
        for (record, sequence) in self.emoji.iter().enumerate() {
            if let Some(taken) = match_emoji(sequence, rest) {
                best = better(best, record, taken);
            }
        }
        best
    }
    fn emoji(&self, record: usize) -> &[u32] {
        self.emoji[record]
    }
    fn group_count(&self) -> usize {
        self.groups.len()
    }
    fn group_flags(&self, group: usize) -> u32 {
        self.groups[group].flags
    }
    fn group_holds(&self, group: usize, c: u32) -> bool {
        self.groups[group].pairs.holds(c)
    }
    fn group_lists(&self, group: usize, sequence: &[u32]) -> bool {
        self.groups[group].list.iter().flatten().any(|&listed| listed == sequence)
    }
    fn whole_of(&self, c: u32) -> Option<Whole<'_>> {
        self.wholes.iter().find(|w| w.confused.contains(&c)).copied()
    }
    fn should_escape(&self, c: u32) -> bool {
        self.escape.holds(c)
    }
}

/// The same lookups by maps and sorted ranges, for many names over one table.
pub struct Index<'t> {
    table: &'t Table<'t>,
    valid: Ranges,
    ignored: Ranges,
    fenced: Ranges,
    marks: Ranges,
    nsm: Ranges,
    mapped: HashMap<u32, &'t [u32]>,
    decompositions: HashMap<u32, &'t [u32]>,
    classes: FirstCovering,
    pairs: HashMap<(u32, u32), u32>,
    /// Records by each codepoint that their match may begin with, ascending.
    emoji: HashMap<u32, Vec<usize>>,
    groups: Vec<Ranges>,
    lists: Vec<HashSet<&'t [u32]>>,
    wholes: HashMap<u32, usize>,
    escape: Ranges,
}

impl<'t> Index<'t> {
    pub fn new(table: &'t Table<'t>) -> Index<'t> {
        fn heads<'t>(records: &[Record<'t>]) -> HashMap<u32, &'t [u32]> {
            let mut map = HashMap::new();
            for r in records {
                map.entry(r.head).or_insert(r.items);
            }
            map
        }
        let classes = FirstCovering::new(table.classes.iter());
        let class = |c: u32| if is_jamo(c) || is_syllable(c) { 0 } else { classes.find(c).unwrap_or(0) };
        let excluded: HashSet<u32> = table.exclusions.iter().copied().collect();
        let mut pairs = HashMap::new();
        for r in &table.decompositions {
            if let [a, b] = *r.items {
                if !excluded.contains(&r.head) && class(r.head) == 0 && class(a) == 0 {
                    pairs.entry((a, b)).or_insert(r.head);
                }
            }
        }
        let mut emoji: HashMap<u32, Vec<usize>> = HashMap::new();
        for (record, sequence) in table.emoji.iter().enumerate() {
            if sequence[0] == FE0F {
                emoji.entry(FE0F).or_default().push(record);
            }
            if let Some(&first) = sequence.iter().find(|&&c| c != FE0F) {
                emoji.entry(first).or_default().push(record);
            }
        }
        let mut wholes = HashMap::new();
        for (i, whole) in table.wholes.iter().enumerate() {
            for &c in whole.confused {
                wholes.entry(c).or_insert(i);
            }
        }
        Index {
            table,
            valid: Ranges::new(table.valid.iter()),
            ignored: Ranges::new(table.ignored.iter()),
            fenced: Ranges::new(table.fenced.iter()),
            marks: Ranges::new(table.marks.iter()),
            nsm: Ranges::new(table.nsm.iter()),
            mapped: heads(&table.mapped),
            decompositions: heads(&table.decompositions),
            classes,
            pairs,
            emoji,
            groups: table.groups.iter().map(|g| Ranges::new(g.pairs.iter())).collect(),
            lists: table.groups.iter().map(|g| g.list.iter().flatten().copied().collect()).collect(),
            wholes,
            escape: Ranges::new(table.escape.iter()),
        }
    }
    pub fn table(&self) -> &'t Table<'t> {
        self.table
    }
    pub fn valid(&self) -> &Ranges {
        &self.valid
    }
}

impl Lookup for Index<'_> {
    fn is_valid(&self, c: u32) -> bool {
        self.valid.holds(c)
    }
    fn is_ignored(&self, c: u32) -> bool {
        self.ignored.holds(c)
    }
    fn is_fenced(&self, c: u32) -> bool {
        self.fenced.holds(c)
    }
    fn is_mark(&self, c: u32) -> bool {
        self.marks.holds(c)
    }
    fn is_nsm(&self, c: u32) -> bool {
        self.nsm.holds(c)
    }
    fn mapping(&self, c: u32) -> Option<&[u32]> {
        self.mapped.get(&c).copied()
    }
    fn decomposition(&self, c: u32) -> Option<&[u32]> {
        self.decompositions.get(&c).copied()
    }
    fn class(&self, c: u32) -> u32 {
        if is_jamo(c) || is_syllable(c) {
            return 0;
        }
        self.classes.find(c).unwrap_or(0)
    }
    fn composite(&self, a: u32, b: u32) -> Option<u32> {
        self.pairs.get(&(a, b)).copied()
    }
    fn find_emoji(&self, rest: &[u32]) -> Option<(usize, usize)> {
        let mut best = None;
        for &record in self.emoji.get(rest.first()?)? {
            if let Some(taken) = match_emoji(self.table.emoji[record], rest) {
                best = better(best, record, taken);
            }
        }
        best
    }
    fn emoji(&self, record: usize) -> &[u32] {
        self.table.emoji[record]
    }
    fn group_count(&self) -> usize {
        self.groups.len()
    }
    fn group_flags(&self, group: usize) -> u32 {
        self.table.groups[group].flags
    }
    fn group_holds(&self, group: usize, c: u32) -> bool {
        self.groups[group].holds(c)
    }
    fn group_lists(&self, group: usize, sequence: &[u32]) -> bool {
        self.lists[group].contains(sequence)
    }
    fn whole_of(&self, c: u32) -> Option<Whole<'_>> {
        self.wholes.get(&c).map(|&i| self.table.wholes[i])
    }
    fn should_escape(&self, c: u32) -> bool {
        self.escape.holds(c)
    }
}
