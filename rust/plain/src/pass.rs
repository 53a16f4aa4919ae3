//! 02, Item 11: one pass over the words finds the sections, whether each is
//! sorted without overlap, and a few places in those with records of unequal
//! length; searches go by halves or from such a place where a section is
//! sorted, and from its front where it is not. The answers are those of
//! `Table`, on every table. What only some names need is found when it is first
//! asked for: whether every second item is in the quick-check set, an index of
//! the pairs, and, where it is told to look, whether rules 6 to 8 hold.

use crate::limits;
use crate::lookup::Lookup;
use crate::pairs::PairIndex;
use crate::quick::rules_found;
use crate::records::{Entries, Records};
use crate::table::{flags_fit, Whole};
use crate::text::{is_jamo, is_syllable};
use std::cell::OnceCell;

/// A table as one pass finds it.
#[derive(Debug)]
pub struct Pass<'t> {
    valid: Entries<'t, 2>,
    ignored: Entries<'t, 2>,
    fenced: Entries<'t, 2>,
    marks: Entries<'t, 2>,
    nsm: Entries<'t, 2>,
    mapped: Records<'t, 1>,
    pub(crate) decompositions: Records<'t, 1>,
    emoji: Records<'t, 0>,
    pub(crate) exclusions: &'t [u32],
    pub(crate) exclusions_sorted: bool,
    pub(crate) classes: Entries<'t, 3>,
    groups: Vec<OfGroup<'t>>,
    wholes: &'t [u32],
    escape: Entries<'t, 2>,
    pub(crate) quick_check: Entries<'t, 2>,
    /// Every second item of a composition pair is in the quick-check set.
    seconds: OnceCell<bool>,
    /// `None` where they find no room.
    pairs: OnceCell<Option<PairIndex<'t>>>,
    /// Rules 6 to 8 were looked for, and found to hold.
    rules: bool,
}

/// A group as the pass finds it.
#[derive(Debug)]
struct OfGroup<'t> {
    flags: u32,
    pairs: Entries<'t, 2>,
    /// With flag 4 the words of its list, behind their count.
    list: Option<&'t [u32]>,
}

/// What a pass found of a table: where its searches are the fast ones.
#[derive(Clone, Copy, Debug, PartialEq, Eq)]
pub struct Found {
    pub valid: bool,
    pub ignored: bool,
    pub fenced: bool,
    pub marks: bool,
    pub nsm: bool,
    pub mapped: bool,
    pub decompositions: bool,
    pub emoji: bool,
    pub exclusions: bool,
    pub classes: bool,
    /// Every one of them.
    pub groups: bool,
    pub escape: bool,
    pub quick_check: bool,
    /// Every second item of a pair is in the quick-check set.
    pub seconds: bool,
    /// The pairs have an index.
    pub pairs: bool,
    /// Rules 6 to 8 hold, and the quick-check set isn't empty.
    pub rules: bool,
}

impl Found {
    /// Each with its name.
    pub fn named(&self) -> [(&'static str, bool); 16] {
        [
            ("valid", self.valid),
            ("ignored", self.ignored),
            ("fenced", self.fenced),
            ("marks", self.marks),
            ("NSM", self.nsm),
            ("mapped", self.mapped),
            ("decompositions", self.decompositions),
            ("emoji", self.emoji),
            ("exclusions", self.exclusions),
            ("classes", self.classes),
            ("groups", self.groups),
            ("should-escape", self.escape),
            ("quick-check", self.quick_check),
            ("second items", self.seconds),
            ("pairs", self.pairs),
            ("rules 6 to 8", self.rules),
        ]
    }
    pub fn all(&self) -> bool {
        self.named().iter().all(|&(_, found)| found)
    }
}

/// The sections, one behind the other, and nothing after.
fn sections(words: &[u32]) -> Option<[&[u32]; 14]> {
    let mut parts: [&[u32]; 14] = [&[]; 14];
    let mut rest = words;
    for part in &mut parts {
        let (&count, behind) = rest.split_first()?;
        (*part, rest) = behind.split_at_checked(count as usize)?;
    }
    rest.is_empty().then_some(parts)
}

fn groups(words: &[u32]) -> Option<Vec<OfGroup<'_>>> {
    let mut groups = Vec::new();
    let mut rest = words;
    while let [flags, count, behind @ ..] = rest {
        let (pairs, next) = behind.split_at_checked(*count as usize)?;
        if !flags_fit(*flags) || groups.len() == limits::GROUPS {
            return None;
        }
        let (list, next) = if flags & 4 == 0 { (None, next) } else { list(next)? };
        groups.push(OfGroup { flags: *flags, pairs: Entries::read(pairs)?, list });
        rest = next;
    }
    rest.is_empty().then_some(groups)
}

/// The records of a list that starts here with its count, and what follows them.
fn list(words: &[u32]) -> Option<(Option<&[u32]>, &[u32])> {
    let (&count, records) = words.split_first()?;
    if count > limits::SEQUENCES {
        return None;
    }
    let mut length = 0;
    for _ in 0..count {
        let items = *records.get(length)?;
        if !(limits::LEAST_RUN..=limits::MOST_RUN).contains(&items) {
            return None;
        }
        length += 1 + items as usize;
    }
    let (list, next) = records.split_at_checked(length)?;
    Some((Some(list), next))
}

/// The next whole and what follows it.
fn whole(words: &[u32]) -> Option<(Whole<'_>, &[u32])> {
    let (&count, rest) = words.split_first()?;
    let (valid, rest) = rest.split_at_checked(count as usize)?;
    let (&count, rest) = rest.split_first()?;
    let (confused, rest) = rest.split_at_checked(count as usize)?;
    Some((Whole { valid, confused }, rest))
}

fn wholes_fit(mut words: &[u32]) -> bool {
    while !words.is_empty() {
        let Some((_, rest)) = whole(words) else {
            return false;
        };
        words = rest;
    }
    true
}

impl<'t> Pass<'t> {
    /// `None` exactly on a layout fault.
    pub fn read(words: &'t [u32]) -> Option<Pass<'t>> {
        if words.len() > limits::TABLE_WORDS {
            return None;
        }
        let part = sections(words)?;
        let (&count, exclusions) = part[8].split_first()?;
        let classes = Entries::<3>::read(part[9])?;
        let fits = count as usize == exclusions.len() && classes.words.chunks_exact(3).all(|e| e[2] <= 255);
        if !fits || !wholes_fit(part[11]) {
            return None;
        }
        Some(Pass {
            valid: Entries::read(part[0])?,
            ignored: Entries::read(part[1])?,
            fenced: Entries::read(part[2])?,
            marks: Entries::read(part[3])?,
            nsm: Entries::read(part[4])?,
            mapped: Records::read(part[5], 32)?,
            decompositions: Records::read(part[6], 4)?,
            emoji: Records::read(part[7], 32)?,
            exclusions,
            exclusions_sorted: exclusions.windows(2).all(|w| w[0] < w[1]),
            classes,
            groups: groups(part[10])?,
            wholes: part[11],
            escape: Entries::read(part[12])?,
            quick_check: Entries::read(part[13])?,
            seconds: OnceCell::new(),
            pairs: OnceCell::new(),
            rules: false,
        })
    }

    /// Looks for rules 6 to 8: where they are found, text that needs no NFC is
    /// left as it is.
    pub fn look_for_rules(&mut self) {
        self.rules = rules_found(self);
    }

    /// Whether every second item of a pair is known to be in the quick-check set,
    /// and the pairs have an index: finds both.
    pub fn look_for_pairs(&self) -> (bool, bool) {
        (self.seconds(), self.pairs().is_some())
    }

    /// Whether a pair with this second item is ruled out without the index.
    pub fn rules_out(&self, second: u32) -> bool {
        self.seconds() && !self.quick_check.holds(second)
    }

    /// The index of the pairs.
    pub(crate) fn pairs(&self) -> Option<&PairIndex<'t>> {
        self.pairs.get_or_init(|| PairIndex::new(self.decompositions)).as_ref()
    }

    fn seconds(&self) -> bool {
        *self.seconds.get_or_init(|| self.seconds_in_set())
    }

    /// All that there is to find.
    pub fn found(&self) -> Found {
        Found {
            valid: self.valid.sorted,
            ignored: self.ignored.sorted,
            fenced: self.fenced.sorted,
            marks: self.marks.sorted,
            nsm: self.nsm.sorted,
            mapped: self.mapped.sorted,
            decompositions: self.decompositions.sorted,
            emoji: self.emoji.sorted,
            exclusions: self.exclusions_sorted,
            classes: self.classes.sorted,
            groups: self.groups.iter().all(|group| group.pairs.sorted),
            escape: self.escape.sorted,
            quick_check: self.quick_check.sorted,
            seconds: self.seconds(),
            pairs: self.pairs().is_some(),
            rules: rules_found(self),
        }
    }

    pub(crate) fn is_excluded(&self, c: u32) -> bool {
        match self.exclusions_sorted {
            true => self.exclusions.binary_search(&c).is_ok(),
            false => self.exclusions.contains(&c),
        }
    }

    /// Whether a decomposition of `head` to `a` and another is a composition
    /// pair: 01: "whose head isn't excluded and whose head and first item have
    /// class 0".
    pub(crate) fn may_compose(&self, head: u32, a: u32) -> bool {
        !self.is_excluded(head) && self.class(head) == 0 && self.class(a) == 0
    }

    /// Whether every second item of a composition pair is in the set, as far as
    /// that is cheap to know: in sorted sections alone.
    fn seconds_in_set(&self) -> bool {
        let sorted = self.quick_check.sorted && self.classes.sorted && self.exclusions_sorted;
        if !sorted || self.quick_check.words.is_empty() {
            return false;
        }
        // The range that held the last one mostly holds the next.
        let mut held = (1, 0);
        self.decompositions.all().all(|(head, items)| {
            let [first, second] = *items else {
                return true;
            };
            if held.0 <= second && second <= held.1 {
                return true;
            }
            match self.quick_check.covering(second) {
                Some(range) => {
                    held = (range[0], range[1]);
                    true
                }
                None => !self.may_compose(head, first),
            }
        })
    }

    /// The same without the index.
    fn composite_among_all(&self, a: u32, b: u32) -> Option<u32> {
        let mut records = self.decompositions.all();
        records.find(|(head, items)| *items == [a, b] && self.may_compose(*head, a)).map(|(head, _)| head)
    }

    /// Whether no codepoint of the text is in the quick-check set, and their
    /// classes stand in order.
    fn needs_no_nfc(&self, text: &[u32]) -> bool {
        let mut before = 0;
        text.iter().all(|&c| {
            let class = self.class(c);
            let in_order = class == 0 || before <= class;
            before = class;
            in_order && !self.quick_check.holds(c)
        })
    }
}

impl Lookup for Pass<'_> {
    fn is_valid(&self, c: u32) -> bool {
        self.valid.holds(c)
    }
    fn is_ignored(&self, c: u32) -> bool {
        self.ignored.holds(c)
    }
    fn is_fenced(&self, c: u32) -> bool {
        self.fenced.holds(c)
    }
    fn is_mark(&self, c: u32) -> bool {
        self.marks.holds(c)
    }
    fn is_nsm(&self, c: u32) -> bool {
        self.nsm.holds(c)
    }
    fn mapping(&self, c: u32) -> Option<&[u32]> {
        self.mapped.find(c)
    }
    fn decomposition(&self, c: u32) -> Option<&[u32]> {
        self.decompositions.find(c)
    }
    fn class(&self, c: u32) -> u32 {
        if is_jamo(c) || is_syllable(c) {
            return 0;
        }
        self.classes.covering(c).map_or(0, |entry| entry[2])
    }
    fn composite(&self, a: u32, b: u32) -> Option<u32> {
        if self.rules_out(b) {
            return None;
        }
        match self.pairs() {
            Some(index) => index.find(a, b, |head| self.may_compose(head, a)),
            None => self.composite_among_all(a, b),
        }
    }
    fn keeps(&self, text: &[u32]) -> bool {
        self.rules && self.needs_no_nfc(text)
    }
    fn find_emoji(&self, rest: &[u32]) -> Option<(usize, usize)> {
        self.emoji.find(rest)
    }
    fn emoji(&self, record: usize) -> &[u32] {
        self.emoji.by_number(record)
    }
    fn group_count(&self) -> usize {
        self.groups.len()
    }
    fn group_flags(&self, group: usize) -> u32 {
        self.groups[group].flags
    }
    fn group_holds(&self, group: usize, c: u32) -> bool {
        self.groups[group].pairs.holds(c)
    }
    fn group_lists(&self, group: usize, sequence: &[u32]) -> bool {
        let mut rest = self.groups[group].list.unwrap_or_default();
        while let Some((&count, behind)) = rest.split_first() {
            let (items, next) = behind.split_at(count as usize);
            if items == sequence {
                return true;
            }
            rest = next;
        }
        false
    }
    fn whole_of(&self, c: u32) -> Option<Whole<'_>> {
        let mut rest = self.wholes;
        while let Some((found, behind)) = whole(rest) {
            if found.confused.contains(&c) {
                return Some(found);
            }
            rest = behind;
        }
        None
    }
    fn should_escape(&self, c: u32) -> bool {
        self.escape.holds(c)
    }
}
