//! The words of one section as the pass finds them: entries of equal length, or
//! records of unequal length with a few places among them; whether they are
//! sorted, and searches that make use of it.

use crate::tokens::match_emoji;
use crate::FE0F;

/// Entries of `STEP` words, the first two of them first and last.
#[derive(Clone, Copy, Debug)]
pub(crate) struct Entries<'t, const STEP: usize> {
    pub(crate) words: &'t [u32],
    /// In ascending order without overlap.
    pub(crate) sorted: bool,
}

impl<'t, const STEP: usize> Entries<'t, STEP> {
    /// `None` where they are no whole entries, or a first is over its last.
    pub(crate) fn read(words: &'t [u32]) -> Option<Self> {
        if !words.len().is_multiple_of(STEP) {
            return None;
        }
        let (mut fits, mut sorted) = (true, true);
        // Under the first entry there is nothing to overlap with.
        let mut from = 0;
        for entry in words.chunks_exact(STEP) {
            fits &= entry[0] <= entry[1];
            sorted &= from <= u64::from(entry[0]);
            from = u64::from(entry[1]) + 1;
        }
        fits.then_some(Entries { words, sorted })
    }

    /// The first entry that covers `c`.
    pub(crate) fn covering(&self, c: u32) -> Option<&'t [u32]> {
        if !self.sorted {
            return self.words.chunks_exact(STEP).find(|e| e[0] <= c && c <= e[1]);
        }
        let mut low = 0;
        let mut count = self.words.len() / STEP;
        while count > 0 {
            let half = count / 2;
            if self.words[(low + half) * STEP] <= c {
                low += half + 1;
                count -= half + 1;
            } else {
                count = half;
            }
        }
        let entry = &self.words[low.checked_sub(1)? * STEP..][..STEP];
        (c <= entry[1]).then_some(entry)
    }

    pub(crate) fn holds(&self, c: u32) -> bool {
        self.covering(c).is_some()
    }

    pub(crate) fn iter(&self) -> impl Iterator<Item = &'t [u32]> {
        self.words.chunks_exact(STEP)
    }
}

/// Eight places among records, each with its record's number, the last ones
/// that were set.
#[derive(Clone, Copy, Debug, Default)]
struct Marks([(u32, u32); 8]);

impl Marks {
    fn put(&mut self, place: usize, number: usize) {
        self.0.rotate_left(1);
        self.0[7] = (place as u32, number as u32);
    }
    /// The last mark that passes, or the front.
    fn last(&self, passes: impl Fn(usize, usize) -> bool) -> (usize, usize) {
        let mut places = self.0.iter().map(|&(place, number)| (place as usize, number as usize));
        places.rfind(|&(place, number)| place > 0 && passes(place, number)).unwrap_or((0, 0))
    }
}

/// Records of a head, a count and items, or, without a head, of a count and
/// items.
#[derive(Clone, Copy, Debug)]
pub(crate) struct Records<'t, const HEAD: usize> {
    pub(crate) words: &'t [u32],
    /// Heads ascend; without heads, first items do not fall and are not FE0F.
    pub(crate) sorted: bool,
    marks: Marks,
}

/// How far the walk over records has come.
struct Walk {
    at: usize,
    number: usize,
    /// What the next key may not be under.
    floor: u64,
    sorted: bool,
}

impl Walk {
    /// Passes records of `count` items up to one of another count, or one that
    /// stands at `end` or behind it: where the next one stands is then known
    /// before this one is read.
    fn pass_run<const HEAD: usize>(&mut self, words: &[u32], count: usize, end: usize) {
        while self.at < end && words[self.at + HEAD] as usize == count {
            let key = words[self.at + 1 - HEAD];
            self.sorted &= self.floor <= u64::from(key) && (HEAD == 1 || key != FE0F);
            self.floor = u64::from(key) + HEAD as u64;
            self.at += HEAD + 1 + count;
            self.number += 1;
        }
    }
}

impl<'t, const HEAD: usize> Records<'t, HEAD> {
    pub(crate) fn read(words: &'t [u32], most: u32) -> Option<Self> {
        let gap = words.len() / 9 + 1;
        let mut next = gap;
        let mut marks = Marks::default();
        let mut walk = Walk { at: 0, number: 0, floor: 0, sorted: true };
        while walk.at < words.len() {
            if next <= walk.at {
                marks.put(walk.at, walk.number);
                next = walk.at + gap;
            }
            let count = *words.get(walk.at + HEAD)? as usize;
            let room = words.len() - walk.at - HEAD - 1;
            if count < 1 || count > most as usize || count > room {
                return None;
            }
            walk.pass_run::<HEAD>(words, count, next.min(words.len() - HEAD - count));
        }
        Some(Records { words, sorted: walk.sorted, marks })
    }

    /// The head, or the first item.
    pub(crate) fn key(&self, at: usize) -> u32 {
        self.words[at + 1 - HEAD]
    }
    pub(crate) fn items(&self, at: usize) -> &'t [u32] {
        &self.words[at + HEAD + 1..][..self.words[at + HEAD] as usize]
    }
    /// The place and the number of each record from one on.
    fn from(self, start: (usize, usize)) -> impl Iterator<Item = (usize, usize)> + use<'t, HEAD> {
        let (mut at, mut number) = start;
        std::iter::from_fn(move || {
            let found = (at < self.words.len()).then_some((at, number))?;
            at += HEAD + 1 + self.words[at + HEAD] as usize;
            number += 1;
            Some(found)
        })
    }
    /// The first record from one on whose key is at least `c`, or the end. Records
    /// of equal count are passed in a loop of their own, as in `pass_run`.
    fn at_least(&self, start: (usize, usize), c: u32) -> (usize, usize) {
        let (mut at, mut number) = start;
        while at < self.words.len() {
            let count = self.words[at + HEAD] as usize;
            let end = self.words.len() - HEAD - count;
            while at < end && self.words[at + HEAD] as usize == count {
                if c <= self.key(at) {
                    return (at, number);
                }
                at += HEAD + 1 + count;
                number += 1;
            }
        }
        (at, number)
    }
    /// The place of each record.
    pub(crate) fn places(self) -> impl Iterator<Item = usize> + use<'t, HEAD> {
        self.from((0, 0)).map(|(at, _)| at)
    }
}

impl<'t> Records<'t, 1> {
    /// The items of the first record with this head.
    pub(crate) fn find(&self, c: u32) -> Option<&'t [u32]> {
        if !self.sorted {
            return self.places().find(|&at| self.key(at) == c).map(|at| self.items(at));
        }
        let start = self.marks.last(|place, _| self.key(place) <= c);
        let (at, _) = self.at_least(start, c);
        (at < self.words.len() && self.key(at) == c).then(|| self.items(at))
    }
    /// Each record as its head and its items.
    pub(crate) fn all(self) -> impl Iterator<Item = (u32, &'t [u32])> {
        self.places().map(move |at| (self.key(at), self.items(at)))
    }
}

impl<'t> Records<'t, 0> {
    pub(crate) fn by_number(&self, number: usize) -> &'t [u32] {
        let start = self.marks.last(|_, n| n <= number);
        let at = self.from(start).find(|&(_, n)| n == number).expect("a record of this number").0;
        self.items(at)
    }
    /// The number of the record that takes most of `rest`, and how much it
    /// takes: at least one codepoint, and of equals the first.
    pub(crate) fn find(&self, rest: &[u32]) -> Option<(usize, usize)> {
        let &first = rest.first()?;
        let start = match self.sorted {
            true => self.at_least(self.marks.last(|place, _| self.key(place) < first), first),
            false => (0, 0),
        };
        let mut best: Option<(usize, usize)> = None;
        for (at, number) in self.from(start) {
            let key = self.key(at);
            if self.sorted && key > first {
                break;
            }
            if key != first && key != FE0F {
                continue;
            }
            match match_emoji(self.items(at), rest) {
                Some(taken) if taken > best.map_or(0, |(_, most)| most) => best = Some((number, taken)),
                _ => {}
            }
        }
        best
    }
}
