//! Drafts of sound tables, section by section.

use crate::lists::put_lists;
use crate::pools::*;
use crate::rng::Rng;
use plain::lookup::is_composition_pair;
use plain::text::{four_rounds, hangul_composite, nfc, nfd};
use plain::tokens::strip;
use plain::{parse, Index, Lookup, Ranges, Record, TableBuilder, FE0F, STOP};
use std::collections::{BTreeMap, BTreeSet, HashSet};

/// A table as far as it is made, and what later sections want to know of the
/// earlier ones.
#[derive(Default)]
struct Draft {
    b: TableBuilder,
    /// Letters of the groups, ascending.
    letters: Vec<u32>,
    /// Marks that the groups may hold.
    marks: Vec<u32>,
    hangul: bool,
    /// The heads of decompositions, and how many rounds each takes.
    rounds: BTreeMap<u32, u32>,
    /// The composition pairs.
    pairs: HashSet<(u32, u32)>,
    /// What rule 2 says that valid is.
    valid: Ranges,
}

/// A table that is nearly always sound.
pub(crate) fn draft(rng: &mut Rng) -> TableBuilder {
    let mut d = Draft::default();
    groups(rng, &mut d);
    hangul(rng, &mut d);
    classes(rng, &mut d);
    decompositions(rng, &mut d);
    scatter_groups(rng, &mut d);
    valid(rng, &mut d);
    mapped(rng, &mut d);
    ignored(rng, &mut d);
    emoji(rng, &mut d);
    fenced(rng, &mut d);
    marks_and_nsm(rng, &mut d);
    wholes(rng, &mut d);
    escape(rng, &mut d);
    quick_check(&mut d);
    let rng = &mut Rng::new(mixed(&d.b));
    if rng.percent(25) {
        put_lists(rng, &mut d.b);
    }
    // Most tables as the maker writes them: every section sorted.
    if mixed(&d.b) % 5 < 3 {
        sort_sections(&mut d.b);
    }
    d.b
}

/// A number from the words of the sections so far: what is chosen by it leaves
/// the random numbers of all else as they are.
fn mixed(b: &TableBuilder) -> u64 {
    b.to_words().iter().fold(0, |sum: u64, &word| sum.rotate_left(5) ^ u64::from(word))
}

/// Sorts what can be searched by halves. Entries that overlap stay so.
pub(crate) fn sort_sections(b: &mut TableBuilder) {
    let groups = b.groups.iter_mut().map(|(_, pairs)| pairs);
    let lists =
        [&mut b.valid, &mut b.ignored, &mut b.fenced, &mut b.marks, &mut b.nsm, &mut b.escape, &mut b.quick_check];
    lists.into_iter().chain(groups).for_each(|pairs| pairs.sort());
    b.classes.sort();
    b.exclusions.sort_unstable();
    b.mapped.sort_by_key(|(head, _)| *head);
    b.decompositions.sort_by_key(|(head, _)| *head);
    b.emoji.sort();
}

impl Draft {
    /// A codepoint that will be valid.
    fn a_valid(&self, rng: &mut Rng) -> u32 {
        within(rng, self.valid.pairs())
    }
}

fn groups(rng: &mut Rng, d: &mut Draft) {
    let count = match rng.below(100) {
        0 => 256,
        1..=4 => rng.between(10, 40),
        _ => rng.between(1, 5),
    };
    d.marks = some(rng, &MARKS, 3, 9);
    for _ in 0..count {
        let flags = *rng.pick(&[0, 0, 0, 0, 1, 1, 2, 3]);
        let pairs = if rng.percent(8) { Vec::new() } else { group_pairs(rng, d) };
        d.b.groups.push((flags, pairs));
    }
    if d.letters.is_empty() {
        d.letters.extend(0x61..0x66);
        d.b.groups.push((0, vec![(0x61, 0x65)]));
    }
    d.letters.sort_unstable();
    d.letters.dedup();
}

/// Letters and common characters, which also go into `letters`.
fn group_pairs(rng: &mut Rng, d: &mut Draft) -> Vec<(u32, u32)> {
    let mut pairs = Vec::new();
    for _ in 0..rng.between(1, 2) {
        let &(low, high) = rng.pick(&SCRIPTS);
        let high = if rng.percent(15) { high } else { high.min(low + rng.code(3, 12)) };
        pairs.push((low, high));
        d.letters.extend((low..=high).take(12));
    }
    if rng.percent(75) {
        pairs.push((0x30, 0x33 + rng.code(0, 6)));
        pairs.push((0x2D, 0x2D));
        pairs.push((0x5F, 0x5F));
    }
    if rng.percent(20) {
        pairs.push((0x24, 0x24));
    }
    if rng.percent(4) {
        pairs.push((0xA0, 0x1FFF));
    }
    for (of, percent) in [(&d.marks[..], 60), (&FENCES[..], 35)] {
        for &c in of {
            if rng.percent(percent) {
                pairs.push((c, c));
            }
        }
    }
    pairs
}

/// Syllables, and perhaps jamo, in one of the groups.
fn hangul(rng: &mut Rng, d: &mut Draft) {
    d.hangul = rng.percent(35);
    if !d.hangul {
        return;
    }
    let g = rng.below(d.b.groups.len());
    let first = rng.code(0xAC00, 0xD700);
    let pair = if rng.percent(20) { (0xAC00, 0xD7A3) } else { (first, (first + rng.code(0, 600)).min(0xD7A3)) };
    d.b.groups[g].1.push(pair);
    if rng.percent(60) {
        d.b.groups[g].1.extend([(0x1100, 0x1112), (0x1161, 0x1175), (0x11A8, 0x11C2)]);
    }
}

/// Classes of the marks, and now and then of something else.
fn classes(rng: &mut Rng, d: &mut Draft) {
    for &m in &d.marks {
        if rng.percent(90) {
            let class = *rng.pick(&[1, 7, 9, 202, 216, 220, 220, 230, 230, 230, 230, 240, 255]);
            d.b.classes.push((m, m, class));
        }
    }
    if rng.percent(15) {
        let c = *rng.pick(&d.letters);
        d.b.classes.push((c, c, 9));
    }
    if rng.percent(25) {
        // Covers marks that have an entry and some that have none.
        d.b.classes.push((0x300, 0x328, *rng.pick(&[0, 230, 220, 5])));
    }
    if rng.percent(30) {
        rng.shuffle(&mut d.b.classes);
    }
}

/// Decompositions, at most four rounds deep, and exclusions.
fn decompositions(rng: &mut Rng, d: &mut Draft) {
    for _ in 0..rng.between(3, 14) {
        decomposition(rng, d);
    }
    if rng.percent(30) {
        rng.shuffle(&mut d.b.decompositions);
    }
    if rng.percent(20) {
        d.b.exclusions.push(a_composite(rng));
    }
}

/// One more decomposition, or none where it would break rule 6 or 7.
fn decomposition(rng: &mut Rng, d: &mut Draft) {
    let head = a_composite(rng);
    if d.rounds.contains_key(&head) {
        return;
    }
    let items = items(rng, d, head);
    let rounds = rounds(d, head, &items);
    if rounds > 4 {
        return;
    }
    let excluded = rng.percent(12);
    if let [x, y] = items[..] {
        if hangul_composite(x, y).is_some() || (!excluded && !d.pairs.insert((x, y))) {
            return;
        }
    }
    if excluded {
        d.b.exclusions.push(head);
    }
    if rng.percent(4) {
        d.b.classes.insert(0, (head, head, 220));
    }
    d.rounds.insert(head, rounds);
    // The groups that hold the first item mostly hold the head too.
    for (_, of_group) in &mut d.b.groups {
        let near = of_group.iter().any(|&(first, last)| first <= items[0] && items[0] <= last);
        if rng.percent(if near { 80 } else { 3 }) {
            of_group.push((head, head));
        }
    }
    d.b.decompositions.push((head, items));
}

/// What this head may decompose to.
fn items(rng: &mut Rng, d: &Draft, head: u32) -> Vec<u32> {
    let heads = &d.b.decompositions;
    let base = |rng: &mut Rng| match !heads.is_empty() && rng.percent(30) {
        true => rng.pick(heads).0,
        false => *rng.pick(&d.letters),
    };
    let (letters, marks) = (&d.letters, &d.marks);
    match rng.below(40) {
        0..=24 => vec![base(rng), *rng.pick(marks)],
        25..=28 => vec![base(rng)],
        29..=31 => vec![base(rng), *rng.pick(letters)],
        32 | 33 => vec![base(rng), *rng.pick(marks), *rng.pick(marks)],
        34 => vec![base(rng), *rng.pick(marks), base(rng), *rng.pick(letters)],
        35 => vec![head],
        36 => vec![*rng.pick(marks), *rng.pick(marks)],
        37 if d.hangul => vec![rng.code(0xAC00, 0xD7A3), *rng.pick(marks)],
        38 if d.hangul => vec![rng.code(0x1161, 0x1175), rng.code(0x11A8, 0x11C2)],
        39 if d.hangul => vec![rng.code(0xAC00, 0xD7A3)],
        _ => vec![base(rng), *rng.pick(marks)],
    }
}

/// How many rounds this head takes.
fn rounds(d: &Draft, head: u32, items: &[u32]) -> u32 {
    let of = |c: u32| match c {
        0xAC00..=0xD7A3 => 1,
        c if c == head => 0,
        c => d.rounds.get(&c).copied().unwrap_or(0),
    };
    if items == [head] {
        return 0;
    }
    1 + items.iter().map(|&c| of(c)).max().unwrap()
}

/// Pairs that hold exactly these numbers: split, overlapping, repeated and
/// out of order.
fn scatter(rng: &mut Rng, of: &Ranges) -> Vec<(u32, u32)> {
    let mut pairs = Vec::new();
    for &(first, last) in of.pairs() {
        if rng.percent(70) {
            pairs.push((first, last));
            if rng.percent(20) {
                let a = rng.code(first, last);
                pairs.push((a, rng.code(a, last)));
            }
        } else {
            let middle = rng.code(first, last);
            pairs.push((first, middle));
            if middle < last {
                pairs.push((if rng.percent(50) { middle } else { middle + 1 }, last));
            }
        }
    }
    if rng.percent(60) {
        rng.shuffle(&mut pairs);
    }
    pairs
}

fn scatter_groups(rng: &mut Rng, d: &mut Draft) {
    for (_, of_group) in &mut d.b.groups {
        if rng.percent(40) {
            let whole = Ranges::new(of_group.iter().copied());
            *of_group = scatter(rng, &whole);
        }
    }
}

/// Valid is what rule 2 says.
fn valid(rng: &mut Rng, d: &mut Draft) {
    let mut all: Vec<(u32, u32)> = d.b.groups.iter().flat_map(|g| g.1.iter().copied()).collect();
    let in_groups = Ranges::new(all.iter().copied());
    let words = d.b.to_words();
    let table = parse(&words).expect("a draft has its layout");
    let index = Index::new(&table);
    let heads = d.rounds.keys().copied().filter(|&c| in_groups.holds(c));
    for c in heads.chain(in_groups.within(0xAC00, 0xD7A3)) {
        all.extend(plain::text::four_rounds(&index, &[c]).into_iter().map(|c| (c, c)));
    }
    d.valid = Ranges::new(all);
    d.b.valid = scatter(rng, &d.valid);
}

fn mapped(rng: &mut Rng, d: &mut Draft) {
    for c in 0x41..=0x5A {
        if d.valid.holds(c + 0x20) && rng.percent(70) {
            d.b.mapped.push((c, vec![c + 0x20]));
        }
    }
    for _ in 0..rng.between(2, 8) {
        let mapping = mapping(rng, d);
        d.b.mapped.push(mapping);
    }
    if rng.percent(30) {
        rng.shuffle(&mut d.b.mapped);
    }
}

/// One mapping, its items all valid.
fn mapping(rng: &mut Rng, d: &Draft) -> (u32, Vec<u32>) {
    let head = match rng.below(12) {
        0..=2 => d.a_valid(rng),
        3 => *rng.pick(&EMOJI),
        4 => a_mark(rng),
        5 => 0x2122,
        _ => rng.code(0x2150, 0x2188),
    };
    let count = if rng.percent(5) { 32 } else { rng.between(1, 3) };
    let heads: Vec<u32> = d.rounds.keys().copied().filter(|&h| d.valid.holds(h)).collect();
    // Something valid that has a mapping of its own.
    let own = d.b.mapped.iter().map(|m| m.0).rfind(|&c| d.valid.holds(c));
    let mut item = || match rng.below(10) {
        0..=2 if !heads.is_empty() => *rng.pick(&heads),
        3 | 4 => own.unwrap_or_else(|| d.a_valid(rng)),
        _ => d.a_valid(rng),
    };
    (head, (0..count).map(|_| item()).collect())
}

fn ignored(rng: &mut Rng, d: &mut Draft) {
    for (c, percent) in [(0xFE0E, 80), (FE0F, 70), (0x34F, 60), (0xAD, 30), (0x200C, 30), (0x200D, 6)] {
        if rng.percent(percent) {
            d.b.ignored.push((c, c));
        }
    }
    if rng.percent(15) {
        let c = d.a_valid(rng);
        d.b.ignored.push((c, c));
    }
    if rng.percent(15) {
        d.b.ignored.push((0x180B, 0x180F));
    }
}

fn emoji(rng: &mut Rng, d: &mut Draft) {
    for _ in 0..rng.between(1, 12) {
        d.b.emoji.push(an_emoji(rng, &d.letters));
        if !emoji_fit(&d.b.emoji, &d.valid) {
            d.b.emoji.pop();
        }
    }
}

/// Do rules 4 and 5 hold of these sequences?
fn emoji_fit(emoji: &[Vec<u32>], valid: &Ranges) -> bool {
    let stripped: Vec<Vec<u32>> = emoji.iter().map(|s| strip(s)).collect();
    let set: HashSet<&[u32]> = stripped.iter().map(|s| &s[..]).collect();
    if set.len() < stripped.len() || set.contains(&[][..]) {
        return false;
    }
    let firsts: HashSet<u32> = stripped.iter().map(|s| s[0]).collect();
    for (s, bare) in emoji.iter().zip(&stripped) {
        if s.contains(&STOP) || s[0] == FE0F || s.windows(2).any(|w| w == [FE0F, FE0F]) {
            return false;
        }
        if bare.len() == 1 && valid.holds(bare[0]) {
            return false;
        }
        for n in 1..bare.len() {
            let parts = set.contains(&bare[..n]) || (n == 1 && valid.holds(bare[0]));
            if parts && (valid.holds(bare[n]) || firsts.contains(&bare[n])) {
                return false;
            }
        }
    }
    true
}

fn fenced(rng: &mut Rng, d: &mut Draft) {
    for &f in &FENCES {
        if rng.percent(75) {
            d.b.fenced.push((f, f));
        }
    }
    if rng.percent(10) {
        let &c = rng.pick(&EMOJI);
        d.b.fenced.push((c, c));
    }
    if rng.percent(10) {
        let c = d.a_valid(rng);
        d.b.fenced.push((c, c));
    }
}

/// NSM need not lie within the marks: a text token may start with one.
fn marks_and_nsm(rng: &mut Rng, d: &mut Draft) {
    let (of_marks, of_nsm) = *rng.pick(&[(85, 70), (85, 50), (30, 70), (0, 80)]);
    for &m in &d.marks {
        if rng.percent(of_marks) {
            d.b.marks.push((m, m));
        }
        if rng.percent(of_nsm) {
            d.b.nsm.push((m, m));
        }
    }
    if rng.percent(10) {
        d.b.nsm.push((0x300, 0x36F));
    }
    if rng.percent(12) {
        let c = d.a_valid(rng);
        d.b.nsm.push((c, c));
    }
    if rng.percent(5) {
        let c = d.a_valid(rng);
        d.b.marks.push((c, c));
    }
}

/// What is valid, of emoji, or neither; overlapping and empty sections too.
fn escape(rng: &mut Rng, d: &mut Draft) {
    for _ in 0..rng.below(5) {
        let first = match rng.below(4) {
            0 => 0x200D,
            1 if !d.b.emoji.is_empty() => {
                let sequence = rng.pick(&d.b.emoji).clone();
                *rng.pick(&sequence)
            }
            2 => rng.code(0, 0xD700),
            _ => d.a_valid(rng),
        };
        let last = if rng.percent(30) && first < 0xD000 { first + rng.code(0, 0x40) } else { first };
        d.b.escape.push((first, last));
    }
}

/// The quick-check set: none, or what 02's Item 11 asks of one, in some order and
/// with others beside it. Its numbers come from the other sections.
fn quick_check(d: &mut Draft) {
    let rng = &mut Rng::new(mixed(&d.b));
    if rng.percent(40) {
        return;
    }
    let needed = needs_quick_check(&d.b);
    d.b.quick_check = Ranges::new(needed.iter().copied()).pairs().to_vec();
    if rng.percent(30) {
        d.b.quick_check = needed;
        rng.shuffle(&mut d.b.quick_check);
    }
    for _ in 0..rng.below(3) {
        let first = if rng.percent(50) { rng.code(0, 0xD700) } else { d.a_valid(rng) };
        let last = if rng.percent(30) && first < 0xD000 { first + rng.code(0, 0x400) } else { first };
        let at = rng.below(d.b.quick_check.len() + 1);
        d.b.quick_check.insert(at, (first, last));
    }
}

/// 02, Item 11: "every codepoint that isn't its own NFC and every one whose full
/// decomposition starts with the second item of a composition pair, Hangul
/// included".
pub(crate) fn needs_quick_check(b: &TableBuilder) -> Vec<(u32, u32)> {
    const JAMO: [(u32, u32); 2] = [(0x1161, 0x1175), (0x11A8, 0x11C2)];
    let words = b.to_words();
    let table = parse(&words).expect("a table as far as it is made");
    let index = Index::new(&table);
    let pair = |r: &&Record| is_composition_pair(&table, |c| index.class(c), r);
    let mut seconds: HashSet<u32> = table.decompositions.iter().filter(pair).map(|r| r.items[1]).collect();
    seconds.extend(JAMO.iter().flat_map(|&(first, last)| first..=last));
    let asked: BTreeSet<u32> = table.decompositions.iter().map(|r| r.head).chain(seconds.iter().copied()).collect();
    let needed = asked.into_iter().filter(|&c| {
        let starts = |text: Vec<u32>| seconds.contains(&text[0]);
        nfc(&index, &[c]) != [c] || starts(nfd(&index, &[c])) || starts(four_rounds(&index, &[c]))
    });
    let mut out: Vec<(u32, u32)> = needed.map(|c| (c, c)).collect();
    // The syllables of a leading jamo that is a second item.
    let leading = (0x1100..=0x1112).filter(|c| seconds.contains(c));
    out.extend(leading.map(|c| 0xAC00 + 588 * (c - 0x1100)).map(|first| (first, first + 587)));
    out
}

fn wholes(rng: &mut Rng, d: &mut Draft) {
    for _ in 0..rng.below(4) {
        let whole = whole(rng, &d.b);
        d.b.wholes.push(whole);
        if rng.percent(20) {
            // A member of both lists, and members of another whole.
            let (v, c) = rng.pick(&d.b.wholes).clone();
            let (valid, confused) = d.b.wholes.last_mut().expect("one was pushed");
            valid.extend(c);
            confused.extend(v.into_iter().take(1));
        }
    }
}

/// Members of some groups: the valid ones and the confused ones. Those that only
/// one group holds join no groups, so that their extents leave others outside.
fn whole(rng: &mut Rng, b: &TableBuilder) -> (Vec<u32>, Vec<u32>) {
    let holding = |c: u32| b.groups.iter().filter(|g| g.1.iter().any(|&(first, last)| first <= c && c <= last)).count();
    let apart = rng.percent(60);
    let mut members = Vec::new();
    for _ in 0..if apart { rng.between(3, 10) } else { rng.between(2, 6) } {
        let (_, of_group) = rng.pick(&b.groups);
        if !of_group.is_empty() {
            let c = within(rng, of_group);
            if !apart || holding(c) == 1 {
                members.push(c);
            }
        }
    }
    let confused = rng.below(members.len() + 1);
    (members[confused..].to_vec(), members[..confused].to_vec())
}
