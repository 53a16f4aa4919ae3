//! How often the lookups of names take the fast path, and how often the walk from
//! the front.

use plain::{Found, Lookup, Pass, Whole};
use std::cell::RefCell;
use std::collections::BTreeMap;

/// Of each kind of lookup those by the fast path and those by the walk.
pub type Taken = BTreeMap<&'static str, [u64; 2]>;

/// A table by the pass, with each lookup counted.
pub struct Counted<'t> {
    pass: Pass<'t>,
    found: Found,
    taken: RefCell<Taken>,
}

impl<'t> Counted<'t> {
    /// `None` on a layout fault. Rules 6 to 8 are looked for.
    pub fn read(words: &'t [u32]) -> Option<Counted<'t>> {
        let mut pass = Pass::read(words)?;
        pass.look_for_rules();
        let found = pass.found();
        Some(Counted { pass, found, taken: RefCell::default() })
    }
    pub fn found(&self) -> Found {
        self.found
    }
    pub fn taken(&self) -> Taken {
        self.taken.borrow().clone()
    }
    fn count(&self, what: &'static str, fast: bool) -> &Pass<'t> {
        self.taken.borrow_mut().entry(what).or_default()[usize::from(!fast)] += 1;
        &self.pass
    }
}

impl Lookup for Counted<'_> {
    fn is_valid(&self, c: u32) -> bool {
        self.count("valid", self.found.valid).is_valid(c)
    }
    fn is_ignored(&self, c: u32) -> bool {
        self.count("ignored", self.found.ignored).is_ignored(c)
    }
    fn is_fenced(&self, c: u32) -> bool {
        self.count("fenced", self.found.fenced).is_fenced(c)
    }
    fn is_mark(&self, c: u32) -> bool {
        self.count("marks", self.found.marks).is_mark(c)
    }
    fn is_nsm(&self, c: u32) -> bool {
        self.count("NSM", self.found.nsm).is_nsm(c)
    }
    fn mapping(&self, c: u32) -> Option<&[u32]> {
        self.count("mapped", self.found.mapped).mapping(c)
    }
    fn decomposition(&self, c: u32) -> Option<&[u32]> {
        self.count("decompositions", self.found.decompositions).decomposition(c)
    }
    fn class(&self, c: u32) -> u32 {
        self.count("classes", self.found.classes).class(c)
    }
    fn composite(&self, a: u32, b: u32) -> Option<u32> {
        let out = self.pass.rules_out(b);
        if !out {
            // Of the records with these items it is asked whether the head is excluded.
            self.count("exclusions", self.found.exclusions);
        }
        self.count(if out { "pairs ruled out" } else { "pairs" }, out || self.found.pairs).composite(a, b)
    }
    fn find_emoji(&self, rest: &[u32]) -> Option<(usize, usize)> {
        self.count("emoji", self.found.emoji).find_emoji(rest)
    }
    fn emoji(&self, record: usize) -> &[u32] {
        self.pass.emoji(record)
    }
    fn group_count(&self) -> usize {
        self.pass.group_count()
    }
    fn group_flags(&self, group: usize) -> u32 {
        self.pass.group_flags(group)
    }
    fn group_holds(&self, group: usize, c: u32) -> bool {
        self.count("groups", self.found.groups).group_holds(group, c)
    }
    fn group_lists(&self, group: usize, sequence: &[u32]) -> bool {
        self.pass.group_lists(group, sequence)
    }
    fn whole_of(&self, c: u32) -> Option<Whole<'_>> {
        self.pass.whole_of(c)
    }
    fn should_escape(&self, c: u32) -> bool {
        self.count("should-escape", self.found.escape).should_escape(c)
    }
    fn keeps(&self, text: &[u32]) -> bool {
        let keeps = self.pass.keeps(text);
        self.count(if keeps { "text left as it is" } else { "text composed" }, self.found.rules);
        keeps
    }
}
