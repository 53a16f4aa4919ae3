//! Rules 6 to 8 found to hold in a few steps a word, or not found: what is found
//! holds, but they may hold where they are not found.

use crate::lookup::Lookup;
use crate::pairs::PairIndex;
use crate::pass::Pass;
use crate::records::Records;
use crate::text::{is_jamo, is_syllable};
use std::cell::Cell;

/// The codepoints of the other sections that are put into a filter at most.
const MOST_SAID: u32 = 8_192;
/// What every table's Hangul pairs have second: V and T.
const SECOND_JAMO: [(u32, u32); 2] = [(0x1161, 0x1175), (0x11A8, 0x11C2)];
const HANGUL: [(u32, u32); 4] = [(0x1100, 0x1112), (0x1161, 0x1175), (0x11A8, 0x11C2), (0xAC00, 0xD7A3)];

fn is_hangul(c: u32) -> bool {
    is_jamo(c) || is_syllable(c)
}

/// 32,768 bits, one for many codepoints: where it is clear, none of them is in.
struct Filter(Box<[u64; 512]>);

/// The word and the bit of a codepoint, far from those of its neighbours in
/// other blocks.
fn place(c: u32) -> (usize, u32) {
    let mixed = c.wrapping_mul(0x9E37_79B1) >> 17;
    (mixed as usize / 64, mixed % 64)
}

impl Filter {
    fn new() -> Filter {
        Filter(Box::new([0; 512]))
    }
    fn put(&mut self, c: u32) {
        let (word, bit) = place(c);
        self.0[word] |= 1 << bit;
    }
    fn may_hold(&self, c: u32) -> bool {
        let (word, bit) = place(c);
        self.0[word] >> bit & 1 == 1
    }
}

/// Heads in ascending order with the places of their records, asked only where
/// the filter does not know better.
struct Heads {
    filter: Filter,
    heads: Vec<(u32, usize)>,
}

impl Heads {
    fn new(records: Records<1>, places: impl Iterator<Item = usize>) -> Heads {
        let heads: Vec<(u32, usize)> = places.map(|at| (records.key(at), at)).collect();
        let mut filter = Filter::new();
        heads.iter().for_each(|&(head, _)| filter.put(head));
        Heads { filter, heads }
    }
    /// Where the record of this head stands.
    fn place(&self, c: u32) -> Option<usize> {
        if !self.filter.may_hold(c) {
            return None;
        }
        self.heads.binary_search_by_key(&c, |&(head, _)| head).ok().map(|found| self.heads[found].1)
    }
    fn hold(&self, c: u32) -> bool {
        self.place(c).is_some()
    }
}

/// Whether rules 6 to 8 are found to hold, and the quick-check set isn't empty.
pub(crate) fn rules_found(p: &Pass) -> bool {
    let sorted = p.decompositions.sorted && p.classes.sorted && p.exclusions_sorted && p.quick_check.sorted;
    if !sorted || p.quick_check.words.is_empty() || !classes_spare_hangul(p) || !heads_allowed(p) {
        return false;
    }
    let heads = Heads::new(p.decompositions, p.decompositions.places());
    let (Some(said), Some(pairs)) = (said(p), p.pairs()) else {
        return false;
    };
    shallow(p.decompositions, &heads) && holds_second_jamo(p) && records_fit(p, pairs, &heads, &said)
}

/// Rule 6: no class entry gives a jamo or a syllable a class other than 0.
fn classes_spare_hangul(p: &Pass) -> bool {
    p.classes.iter().all(|e| e[2] == 0 || HANGUL.iter().all(|&(first, last)| e[1] < first || last < e[0]))
}

/// Rule 6: no head is ASCII, a syllable or a jamo. Sorted, they are distinct.
fn heads_allowed(p: &Pass) -> bool {
    p.decompositions.all().all(|(head, _)| head >= 0x80 && !is_hangul(head))
}

/// Rule 6: four rounds decompose fully. Of the heads with an item that is a head,
/// those with an item that is such a head, and of these the same again, there is
/// none left: three rounds leave no head, and a syllable, which is no head, takes
/// the fourth.
fn shallow(records: Records<1>, heads: &Heads) -> bool {
    let has = |heads: &Heads, at: usize| records.items(at).iter().any(|&c| heads.hold(c));
    let mut level: Vec<usize> = records.places().filter(|&at| has(heads, at)).collect();
    for _ in 0..2 {
        let of_level = Heads::new(records, level.iter().copied());
        level.retain(|&at| has(&of_level, at));
    }
    level.is_empty()
}

/// The codepoints that the quick-check set, the classes and the exclusions speak
/// of: any other is in no set, of class 0 and not excluded. `None` where they
/// are many.
fn said(p: &Pass) -> Option<Filter> {
    let mut filter = Filter::new();
    let mut left = MOST_SAID;
    let ranges = p.quick_check.iter().chain(p.classes.iter()).map(|e| (e[0], e[1]));
    for (first, last) in ranges.chain(p.exclusions.iter().map(|&c| (c, c))) {
        left = left.checked_sub(last - first)?.checked_sub(1)?;
        (first..=last).for_each(|c| filter.put(c));
    }
    Some(filter)
}

/// Rule 8: V and T are second items.
fn holds_second_jamo(p: &Pass) -> bool {
    SECOND_JAMO.iter().all(|&(first, last)| p.quick_check.covering(first).is_some_and(|range| last <= range[1]))
}

/// Rule 7: no two records have the same two items, and no second item of a pair
/// is Hangul, so that no pair is a Hangul one. Rule 8: the second items of pairs
/// are in the set and no heads; and a head outside the set is made by a pair of
/// something outside the set, behind whose own decomposition the second item
/// stays the last one. So its full decomposition starts as that of the first
/// item does, and composes to the first item and then to the head.
fn records_fit(p: &Pass, pairs: &PairIndex, heads: &Heads, said: &Filter) -> bool {
    if pairs.equals {
        return false;
    }
    // The range that held the last head, or the last second item, mostly holds the next.
    let (of_heads, of_seconds) = (Cell::new((1, 0)), Cell::new((1, 0)));
    let in_set = |c: u32, held: &Cell<(u32, u32)>| {
        let (first, last) = held.get();
        if first <= c && c <= last {
            return true;
        }
        let range = if said.may_hold(c) { p.quick_check.covering(c) } else { None };
        range.inspect(|range| held.set((range[0], range[1]))).is_some()
    };
    let may_compose = |head: u32, a: u32| !(said.may_hold(head) || said.may_hold(a)) || p.may_compose(head, a);
    p.decompositions.all().all(|(head, items)| match *items {
        [a, b] if may_compose(head, a) => {
            let second = in_set(b, &of_seconds) && !is_hangul(b) && !heads.hold(b);
            second && (in_set(head, &of_heads) || !in_set(a, &of_heads) && stays_last(p, heads, a, b))
        }
        _ => in_set(head, &of_heads),
    })
}

/// Whether ordering leaves `b` behind all that `a` decomposes to, if the last of
/// that is the last item of `a`.
fn stays_last(p: &Pass, heads: &Heads, a: u32, b: u32) -> bool {
    let last = heads.place(a).and_then(|at| p.decompositions.items(at).last());
    last.is_none_or(|&last| p.class(b) == 0 || p.class(last) <= p.class(b))
}
