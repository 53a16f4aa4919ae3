//! 01, "The table", and 02, Items 9, 11 and 12: fourteen sections of words.

use crate::limits;
use std::collections::BTreeMap;

/// Words read two by two: first, last.
#[derive(Clone, Copy, Debug, PartialEq, Eq)]
pub struct Pairs<'a>(&'a [u32]);

impl<'a> Pairs<'a> {
    pub fn iter(&self) -> impl Iterator<Item = (u32, u32)> + 'a {
        self.0.chunks_exact(2).map(|w| (w[0], w[1]))
    }
    pub fn holds(&self, c: u32) -> bool {
        self.iter().any(|(first, last)| first <= c && c <= last)
    }
    pub fn words(&self) -> &'a [u32] {
        self.0
    }
}

/// Words read three by three: first, last, class.
#[derive(Clone, Copy, Debug, PartialEq, Eq)]
pub struct Triples<'a>(&'a [u32]);

impl<'a> Triples<'a> {
    pub fn iter(&self) -> impl Iterator<Item = (u32, u32, u32)> + 'a {
        self.0.chunks_exact(3).map(|w| (w[0], w[1], w[2]))
    }
    /// The class of the first triple that covers `c`.
    pub fn find(&self, c: u32) -> Option<u32> {
        self.iter().find(|&(first, last, _)| first <= c && c <= last).map(|(_, _, class)| class)
    }
    pub fn words(&self) -> &'a [u32] {
        self.0
    }
}

/// A mapping or a decomposition.
#[derive(Clone, Copy, Debug, PartialEq, Eq)]
pub struct Record<'a> {
    pub head: u32,
    pub items: &'a [u32],
}

#[derive(Clone, Debug, PartialEq, Eq)]
pub struct Group<'a> {
    pub flags: u32,
    pub pairs: Pairs<'a>,
    /// With flag 4 the compound sequences, which may be none.
    pub list: Option<Vec<&'a [u32]>>,
}

/// 02, Item 12: flags 1, 2 and 4, of which "flag 4, allowed only beside flag 2".
pub fn flags_fit(flags: u32) -> bool {
    flags <= 7 && (flags & 4 == 0 || flags & 2 != 0)
}

impl Group<'_> {
    pub fn restricted(&self) -> bool {
        self.flags & 1 != 0
    }
    pub fn whitelisted(&self) -> bool {
        self.flags & 2 != 0
    }
}

#[derive(Clone, Copy, Debug, PartialEq, Eq)]
pub struct Whole<'a> {
    pub valid: &'a [u32],
    pub confused: &'a [u32],
}

impl<'a> Whole<'a> {
    /// Every member, valid or confused.
    pub fn members(&self) -> impl Iterator<Item = u32> + 'a {
        self.valid.iter().chain(self.confused).copied()
    }
}

/// The sections, in their order.
#[derive(Clone, Debug, PartialEq, Eq)]
pub struct Table<'a> {
    pub valid: Pairs<'a>,
    pub ignored: Pairs<'a>,
    pub fenced: Pairs<'a>,
    pub marks: Pairs<'a>,
    pub nsm: Pairs<'a>,
    pub mapped: Vec<Record<'a>>,
    pub decompositions: Vec<Record<'a>>,
    pub emoji: Vec<&'a [u32]>,
    pub exclusions: &'a [u32],
    pub classes: Triples<'a>,
    pub groups: Vec<Group<'a>>,
    pub wholes: Vec<Whole<'a>>,
    /// Should-escape: what is shown in braces.
    pub escape: Pairs<'a>,
    /// The quick-check set.
    pub quick_check: Pairs<'a>,
}

/// Where the layout breaks, and how: for people, not for the calls.
#[derive(Clone, Debug, PartialEq, Eq)]
pub struct LayoutFault {
    pub section: &'static str,
    /// Index of the word in the table.
    pub word: usize,
    pub what: &'static str,
}

/// A place in the words that moves forward and never past its end.
struct Cursor<'a> {
    words: &'a [u32],
    at: usize,
    end: usize,
    section: &'static str,
}

impl<'a> Cursor<'a> {
    fn fault(&self, what: &'static str) -> LayoutFault {
        LayoutFault { section: self.section, word: self.at, what }
    }
    fn done(&self) -> bool {
        self.at == self.end
    }
    fn word(&mut self) -> Result<u32, LayoutFault> {
        if self.done() {
            return Err(self.fault("a word is missing"));
        }
        self.at += 1;
        Ok(self.words[self.at - 1])
    }
    fn take(&mut self, count: u32) -> Result<&'a [u32], LayoutFault> {
        let count = count as usize;
        if count > self.end - self.at {
            return Err(self.fault("a count runs past the end"));
        }
        self.at += count;
        Ok(&self.words[self.at - count..self.at])
    }
    /// The next section, which becomes a cursor of its own.
    fn section(&mut self, section: &'static str) -> Result<Cursor<'a>, LayoutFault> {
        self.section = section;
        let count = self.word()?;
        let at = self.at;
        self.take(count)?;
        Ok(Cursor { words: self.words, at, end: self.at, section })
    }
    fn pairs(&mut self, count: u32) -> Result<Pairs<'a>, LayoutFault> {
        if !count.is_multiple_of(2) {
            return Err(self.fault("an odd number of words in pairs"));
        }
        let pairs = Pairs(self.take(count)?);
        if pairs.iter().any(|(first, last)| first > last) {
            return Err(self.fault("a pair's first is over its last"));
        }
        Ok(pairs)
    }
    fn all_pairs(mut self) -> Result<Pairs<'a>, LayoutFault> {
        let count = (self.end - self.at) as u32;
        self.pairs(count)
    }
    fn triples(mut self) -> Result<Triples<'a>, LayoutFault> {
        let count = (self.end - self.at) as u32;
        if !count.is_multiple_of(3) {
            return Err(self.fault("triples of another length than three"));
        }
        let triples = Triples(self.take(count)?);
        for (first, last, class) in triples.iter() {
            if first > last {
                return Err(self.fault("a triple's first is over its last"));
            }
            if class > 255 {
                return Err(self.fault("a class over 255"));
            }
        }
        Ok(triples)
    }
    /// A count from `least` to `most`, then that many items.
    fn items_of(&mut self, least: u32, most: u32) -> Result<&'a [u32], LayoutFault> {
        let count = self.word()?;
        if count < least || count > most {
            return Err(self.fault("the number of items is out of range"));
        }
        self.take(count)
    }
    /// A count from 1 to `most`, then that many items.
    fn items(&mut self, most: u32) -> Result<&'a [u32], LayoutFault> {
        self.items_of(1, most)
    }
    fn records(mut self, most: u32) -> Result<Vec<Record<'a>>, LayoutFault> {
        let mut records = Vec::new();
        while !self.done() {
            let head = self.word()?;
            records.push(Record { head, items: self.items(most)? });
        }
        Ok(records)
    }
    fn sequences(mut self, most: u32) -> Result<Vec<&'a [u32]>, LayoutFault> {
        let mut sequences = Vec::new();
        while !self.done() {
            sequences.push(self.items(most)?);
        }
        Ok(sequences)
    }
    fn single(mut self) -> Result<&'a [u32], LayoutFault> {
        let count = self.word()?;
        let items = self.take(count)?;
        if !self.done() {
            return Err(self.fault("more than one record of exclusions"));
        }
        Ok(items)
    }
    fn groups(mut self) -> Result<Vec<Group<'a>>, LayoutFault> {
        let mut groups = Vec::new();
        while !self.done() {
            if groups.len() == limits::GROUPS {
                return Err(self.fault("too many groups"));
            }
            let flags = self.word()?;
            if !flags_fit(flags) {
                return Err(self.fault("flags other than 0 to 3, 6 and 7"));
            }
            let count = self.word()?;
            let pairs = self.pairs(count)?;
            let list = if flags & 4 == 0 { None } else { Some(self.list()?) };
            groups.push(Group { flags, pairs, list });
        }
        Ok(groups)
    }
    /// 02, Item 12: "a count of 0 to 64, then records (count 2 to 8, items)".
    fn list(&mut self) -> Result<Vec<&'a [u32]>, LayoutFault> {
        let count = self.word()?;
        if count > limits::SEQUENCES {
            return Err(self.fault("too many compound sequences"));
        }
        (0..count).map(|_| self.items_of(limits::LEAST_RUN, limits::MOST_RUN)).collect()
    }
    fn wholes(mut self) -> Result<Vec<Whole<'a>>, LayoutFault> {
        let mut wholes = Vec::new();
        while !self.done() {
            let count = self.word()?;
            let valid = self.take(count)?;
            let count = self.word()?;
            let confused = self.take(count)?;
            wholes.push(Whole { valid, confused });
        }
        Ok(wholes)
    }
}

/// The table in these words, or where its layout breaks.
pub fn layout(words: &[u32]) -> Result<Table<'_>, LayoutFault> {
    if words.len() > limits::TABLE_WORDS {
        return Err(LayoutFault { section: "", word: limits::TABLE_WORDS, what: "too many words" });
    }
    let mut all = Cursor { words, at: 0, end: words.len(), section: "" };
    let table = Table {
        valid: all.section("valid")?.all_pairs()?,
        ignored: all.section("ignored")?.all_pairs()?,
        fenced: all.section("fenced")?.all_pairs()?,
        marks: all.section("marks")?.all_pairs()?,
        nsm: all.section("NSM")?.all_pairs()?,
        mapped: all.section("mapped")?.records(32)?,
        decompositions: all.section("decompositions")?.records(4)?,
        emoji: all.section("emoji sequences")?.sequences(32)?,
        exclusions: all.section("exclusions")?.single()?,
        classes: all.section("classes")?.triples()?,
        groups: all.section("groups")?.groups()?,
        wholes: all.section("wholes")?.wholes()?,
        escape: all.section("should-escape")?.all_pairs()?,
        quick_check: all.section("quick-check")?.all_pairs()?,
    };
    if !all.done() {
        return Err(all.fault("words are left over"));
    }
    Ok(table)
}

/// The table in these words; `None` exactly on a layout fault.
pub fn parse(words: &[u32]) -> Option<Table<'_>> {
    layout(words).ok()
}

impl Table<'_> {
    pub fn to_builder(&self) -> TableBuilder {
        let record = |r: &Record| (r.head, r.items.to_vec());
        let list = |(number, g): (usize, &Group)| {
            let of_group = g.list.as_ref()?;
            Some((number, of_group.iter().map(|s| s.to_vec()).collect()))
        };
        TableBuilder {
            valid: self.valid.iter().collect(),
            ignored: self.ignored.iter().collect(),
            fenced: self.fenced.iter().collect(),
            marks: self.marks.iter().collect(),
            nsm: self.nsm.iter().collect(),
            mapped: self.mapped.iter().map(record).collect(),
            decompositions: self.decompositions.iter().map(record).collect(),
            emoji: self.emoji.iter().map(|s| s.to_vec()).collect(),
            exclusions: self.exclusions.to_vec(),
            classes: self.classes.iter().collect(),
            groups: self.groups.iter().map(|g| (g.flags, g.pairs.iter().collect())).collect(),
            lists: self.groups.iter().enumerate().filter_map(list).collect(),
            wholes: self.wholes.iter().map(|w| (w.valid.to_vec(), w.confused.to_vec())).collect(),
            escape: self.escape.iter().collect(),
            quick_check: self.quick_check.iter().collect(),
        }
    }
    pub fn to_words(&self) -> Vec<u32> {
        self.to_builder().to_words()
    }
}

/// A table that can be changed. `to_words` checks nothing: a builder with a
/// first over its last, say, gives words with a layout fault.
#[derive(Clone, Debug, Default, PartialEq, Eq)]
pub struct TableBuilder {
    pub valid: Vec<(u32, u32)>,
    pub ignored: Vec<(u32, u32)>,
    pub fenced: Vec<(u32, u32)>,
    pub marks: Vec<(u32, u32)>,
    pub nsm: Vec<(u32, u32)>,
    /// Head and items.
    pub mapped: Vec<(u32, Vec<u32>)>,
    /// Head and items.
    pub decompositions: Vec<(u32, Vec<u32>)>,
    pub emoji: Vec<Vec<u32>>,
    pub exclusions: Vec<u32>,
    /// First, last, class.
    pub classes: Vec<(u32, u32, u32)>,
    /// Flags and pairs.
    pub groups: Vec<(u32, Vec<(u32, u32)>)>,
    /// The compound sequences of the groups with flag 4, by the number of the
    /// group: one that isn't here has a list of none.
    pub lists: BTreeMap<usize, Vec<Vec<u32>>>,
    /// Valid and confused members.
    pub wholes: Vec<(Vec<u32>, Vec<u32>)>,
    /// Should-escape.
    pub escape: Vec<(u32, u32)>,
    pub quick_check: Vec<(u32, u32)>,
}

impl TableBuilder {
    /// The words of each section, without the count that leads it.
    pub fn sections(&self) -> [Vec<u32>; 14] {
        fn pairs(pairs: &[(u32, u32)]) -> Vec<u32> {
            pairs.iter().flat_map(|&(first, last)| [first, last]).collect()
        }
        fn counted(items: &[u32]) -> Vec<u32> {
            let mut words = vec![items.len() as u32];
            words.extend(items);
            words
        }
        fn records(records: &[(u32, Vec<u32>)]) -> Vec<u32> {
            let mut words = Vec::new();
            for (head, items) in records {
                words.push(*head);
                words.extend(counted(items));
            }
            words
        }
        let mut groups = Vec::new();
        for (number, (flags, of_group)) in self.groups.iter().enumerate() {
            groups.push(*flags);
            groups.extend(counted(&pairs(of_group)));
            if flags & 4 != 0 {
                let list = self.lists.get(&number).map_or(&[][..], |list| list);
                groups.push(list.len() as u32);
                groups.extend(list.iter().flat_map(|s| counted(s)));
            }
        }
        let mut wholes = Vec::new();
        for (valid, confused) in &self.wholes {
            wholes.extend(counted(valid));
            wholes.extend(counted(confused));
        }
        [
            pairs(&self.valid),
            pairs(&self.ignored),
            pairs(&self.fenced),
            pairs(&self.marks),
            pairs(&self.nsm),
            records(&self.mapped),
            records(&self.decompositions),
            self.emoji.iter().flat_map(|s| counted(s)).collect(),
            counted(&self.exclusions),
            self.classes.iter().flat_map(|&(first, last, class)| [first, last, class]).collect(),
            groups,
            wholes,
            pairs(&self.escape),
            pairs(&self.quick_check),
        ]
    }

    pub fn to_words(&self) -> Vec<u32> {
        join_sections(&self.sections())
    }
}

/// Sections to words, each led by its number of words.
pub fn join_sections(sections: &[Vec<u32>]) -> Vec<u32> {
    let mut words = Vec::new();
    for section in sections {
        words.push(section.len() as u32);
        words.extend(section);
    }
    words
}
