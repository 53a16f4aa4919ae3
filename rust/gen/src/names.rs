//! Random names that use what a table has.

use crate::lists::{listed, Listed};
use crate::rng::Rng;
use plain::limits::{INPUT, WORKED};
use plain::{TableBuilder, FE0F, STOP};

/// What names over one table are made of.
#[derive(Clone, Debug)]
pub struct Vocabulary {
    /// Characters of each group that is not empty.
    groups: Vec<GroupWords>,
    ascii: Vec<u32>,
    valid: Vec<u32>,
    mapped: Vec<(u32, Vec<u32>)>,
    decompositions: Vec<(u32, Vec<u32>)>,
    ignored: Vec<u32>,
    fenced: Vec<u32>,
    marks: Vec<u32>,
    emoji: Vec<Vec<u32>>,
    confused: Vec<u32>,
    /// Groups with lists.
    listed: Vec<Listed>,
    /// Everything that the table names.
    any: Vec<u32>,
}

#[derive(Clone, Debug)]
struct GroupWords {
    letters: Vec<u32>,
    marks: Vec<u32>,
    /// Decompositions whose head the group holds.
    heads: Vec<(u32, Vec<u32>)>,
}

/// Some codepoints of these pairs.
fn sample(rng: &mut Rng, pairs: &[(u32, u32)]) -> Vec<u32> {
    let mut out = Vec::new();
    for &(first, last) in pairs.iter().take(200) {
        if last - first < 30 {
            out.extend(first..=last);
        } else {
            out.extend([first, last]);
            out.extend((0..6).map(|_| rng.code(first, last)));
        }
    }
    out
}

const DISALLOWED: [u32; 7] = [0x21, 0x20, 0x7F, 0x200D, 0x131, 0xFFFD, 0x10FFFF];

impl Vocabulary {
    pub fn new(rng: &mut Rng, b: &TableBuilder) -> Vocabulary {
        let inside = |pairs: &[(u32, u32)], c: u32| pairs.iter().any(|&(first, last)| first <= c && c <= last);
        let marks = sample(rng, &[&b.marks[..], &b.nsm[..]].concat());
        let mut groups = Vec::new();
        for (_, pairs) in b.groups.iter().filter(|g| !g.1.is_empty()).take(12) {
            let all = sample(rng, pairs);
            let (of_marks, letters) = all.into_iter().partition(|c| marks.contains(c));
            let heads = b.decompositions.iter().filter(|d| inside(pairs, d.0)).cloned().collect();
            groups.push(GroupWords { letters, marks: of_marks, heads });
        }
        let valid = sample(rng, &b.valid);
        // Mappings with odd items are to be used often.
        let odd = |c: &u32| *c == STOP || *c == FE0F || !plain::is_scalar(*c);
        let mut mapped = b.mapped.clone();
        for record in b.mapped.iter().filter(|m| m.1.iter().any(odd)) {
            mapped.extend(vec![record.clone(); 10]);
        }
        let mut any: Vec<u32> = b.to_words().into_iter().filter(|&c| c > 0x20 && plain::is_scalar(c)).collect();
        any.truncate(400);
        any.push(FE0F);
        Vocabulary {
            groups,
            ascii: valid.iter().copied().filter(|&c| c < 0x80 && c != 0x5F).collect(),
            valid,
            mapped,
            decompositions: b.decompositions.clone(),
            ignored: sample(rng, &b.ignored),
            fenced: sample(rng, &b.fenced),
            marks,
            emoji: b.emoji.clone(),
            confused: b.wholes.iter().flat_map(|w| w.1.iter().copied()).collect(),
            listed: listed(b),
            any,
        }
    }

    fn one(rng: &mut Rng, of: &[u32]) -> u32 {
        if of.is_empty() {
            *rng.pick(&DISALLOWED)
        } else {
            *rng.pick(of)
        }
    }

    /// Appends a spelling of `c`: itself, a mapping that gives it, or what it
    /// decomposes to.
    pub(crate) fn spell(&self, rng: &mut Rng, c: u32, deep: u32, out: &mut Vec<u32>) {
        match rng.below(10) {
            0..=3 => out.push(c),
            4..=6 => match self.mapped.iter().find(|m| m.1 == [c]) {
                Some(m) => out.push(m.0),
                None => out.push(c),
            },
            _ => match self.decompositions.iter().find(|d| d.0 == c) {
                Some(d) if deep < 4 => {
                    for &item in &d.1 {
                        self.spell(rng, item, deep + 1, out);
                    }
                }
                _ => out.push(c),
            },
        }
    }

    /// Appends an emoji with each FE0F there or not.
    pub(crate) fn an_emoji(&self, rng: &mut Rng, out: &mut Vec<u32>) {
        if self.emoji.is_empty() {
            out.push(0x1F4A9);
            return;
        }
        let sequence = rng.pick(&self.emoji);
        let keep = rng.below(3);
        for &c in sequence {
            if c != FE0F || keep == 0 || (keep == 1 && rng.percent(50)) {
                out.push(c);
            }
        }
        if rng.percent(3) {
            out.pop(); // cut
        }
        if rng.percent(3) {
            out.push(FE0F);
        }
    }

    /// Text of one group.
    fn group_text(&self, rng: &mut Rng, group: &GroupWords, length: usize, out: &mut Vec<u32>) {
        for _ in 0..length {
            match rng.below(22) {
                20 if !group.heads.is_empty() && !group.marks.is_empty() => {
                    // A mark again after another one.
                    let (_, items) = rng.pick(&group.heads);
                    out.extend(items);
                    out.push(*rng.pick(&group.marks));
                    out.extend(items.last());
                }
                21 if !self.mapped.is_empty() => out.push(rng.pick(&self.mapped).0),
                0..=10 => {
                    let c = Self::one(rng, &group.letters);
                    self.spell(rng, c, 0, out);
                }
                11..=16 if !group.heads.is_empty() => {
                    let (_, items) = rng.pick(&group.heads);
                    let from = out.len();
                    for &item in items {
                        self.spell(rng, item, 1, out);
                    }
                    if rng.percent(15) && !group.marks.is_empty() {
                        // A mark between, or marks in another order.
                        let at = rng.between(from + 1, out.len());
                        out.insert(at, *rng.pick(&group.marks));
                    }
                }
                17 if !group.marks.is_empty() => {
                    let c = Self::one(rng, &group.letters);
                    out.push(c);
                    for _ in 0..rng.between(1, 5) {
                        out.push(*rng.pick(&group.marks));
                    }
                }
                _ => out.push(Self::one(rng, &group.letters)),
            }
        }
    }

    /// Hangul L V, L V T, LV T and syllables.
    fn hangul(rng: &mut Rng, out: &mut Vec<u32>) {
        for _ in 0..rng.between(1, 4) {
            match rng.below(5) {
                0 => out.push(rng.code(0xAC00, 0xD7A3)),
                1 => out.extend([0xAC00 + 28 * rng.code(0, 398), rng.code(0x11A7, 0x11C3)]),
                2 => out.extend([rng.code(0x1100, 0x1113), rng.code(0x1160, 0x1176)]),
                _ => out.extend([rng.code(0x1100, 0x1112), rng.code(0x1161, 0x1175), rng.code(0x11A8, 0x11C2)]),
            }
        }
    }

    /// One label, now and then empty.
    pub fn label(&self, rng: &mut Rng) -> Vec<u32> {
        if !self.listed.is_empty() && rng.percent(30) {
            let of = rng.pick(&self.listed);
            return self.compound_label(rng, of);
        }
        let mut out = Vec::new();
        if rng.percent(1) {
            return out;
        }
        let way = rng.below(100);
        if way < 10 || self.groups.is_empty() {
            if rng.percent(30) {
                out.extend((0..rng.between(1, 3)).map(|_| 0x5F));
            }
            for _ in 0..rng.between(1, 7) {
                let c = Self::one(rng, &self.ascii);
                self.spell(rng, c, 0, &mut out);
            }
            if rng.percent(8) && out.len() > 3 {
                out[2..4].fill(0x2D);
            }
            if rng.percent(20) && !self.mapped.is_empty() {
                let at = rng.below(out.len() + 1);
                out.insert(at, rng.pick(&self.mapped).0);
            }
        } else {
            let group = rng.pick(&self.groups);
            let length = rng.between(1, 5);
            match way {
                10..=39 => self.group_text(rng, group, length, &mut out),
                40..=71 => {
                    for _ in 0..rng.between(1, 3) {
                        if rng.percent(60) {
                            let length = rng.between(1, 3);
                            self.group_text(rng, group, length, &mut out);
                        }
                        self.an_emoji(rng, &mut out);
                    }
                    if rng.percent(50) {
                        let length = rng.between(1, 3);
                        self.group_text(rng, group, length, &mut out);
                    }
                }
                72..=76 => {
                    for _ in 0..rng.between(1, 3) {
                        self.an_emoji(rng, &mut out);
                    }
                }
                77 | 78 => {
                    // Marks on both sides of an emoji.
                    out.push(Self::one(rng, &group.letters));
                    let marks: Vec<u32> = (0..rng.between(1, 3)).map(|_| Self::one(rng, &group.marks)).collect();
                    out.extend(&marks);
                    self.an_emoji(rng, &mut out);
                    out.extend((0..rng.between(1, 3)).map(|_| *rng.pick(&marks)));
                }
                79..=87 => {
                    for _ in 0..rng.between(1, 2) {
                        out.push(Self::one(rng, &self.confused));
                    }
                    if rng.percent(40) {
                        out.push(Self::one(rng, &group.letters));
                    }
                    if rng.percent(30) {
                        out.push(0x30);
                    }
                }
                88..=92 => Self::hangul(rng, &mut out),
                _ => {
                    for _ in 0..rng.between(1, 10) {
                        out.push(match rng.below(4) {
                            0 => Self::one(rng, &self.valid),
                            1 => Self::one(rng, &self.marks),
                            _ => Self::one(rng, &self.any),
                        });
                    }
                }
            }
        }
        if rng.percent(22) {
            self.spoil(rng, &mut out);
        }
        if rng.percent(15) && !self.ignored.is_empty() {
            let at = rng.below(out.len() + 1);
            out.insert(at, *rng.pick(&self.ignored));
        }
        out
    }

    /// One change that is apt to make a label refused.
    fn spoil(&self, rng: &mut Rng, out: &mut Vec<u32>) {
        let at = rng.below(out.len() + 1);
        match rng.below(11) {
            0 => out.insert(at, *rng.pick(&DISALLOWED)),
            1 => out.insert(at, 0x5F),
            2 => {
                out.resize(out.len().max(4), Self::one(rng, &self.ascii));
                out[2] = 0x2D;
                out[3] = 0x2D;
            }
            3 | 4 => {
                let fenced = Self::one(rng, &self.fenced);
                out.insert(at, fenced);
                if rng.percent(40) {
                    out.insert(at, fenced);
                }
            }
            5 | 6 => {
                let at = if rng.percent(40) { 0 } else { at };
                out.insert(at, Self::one(rng, &self.marks));
            }
            7 => {
                let mark = Self::one(rng, &self.marks);
                for _ in 0..rng.between(2, 6) {
                    out.insert(at, if rng.percent(50) { mark } else { Self::one(rng, &self.marks) });
                }
            }
            8 => out.insert(at, FE0F),
            9 if out.len() > 1 => {
                let i = rng.below(out.len() - 1);
                out.swap(i, i + 1);
            }
            _ => out.insert(at, Self::one(rng, &self.valid)),
        }
    }

    /// A name whose worked length is about the limit, or far over it.
    fn long(&self, rng: &mut Rng) -> Vec<u32> {
        let mut name = Vec::new();
        let of = if rng.percent(70) { &self.ascii } else { &self.valid };
        let c = Self::one(rng, of);
        match rng.below(5) {
            0 => name.resize(rng.between(WORKED - 2, WORKED + 2), c),
            1 => {
                // Labels whose lengths and stops together come near the limit.
                let due = rng.between(WORKED - 3, WORKED + 3);
                while name.len() < due {
                    let length = rng.between(1, 60).min(due - name.len());
                    name.resize(name.len() + length, c);
                    if due - name.len() > 1 {
                        name.push(STOP);
                    }
                }
            }
            2 => match self.mapped.iter().find(|m| m.1.len() > 2) {
                Some(m) => name.resize((WORKED / m.1.len()) + rng.below(3), m.0),
                None => name.resize(WORKED, c),
            },
            3 => match self.decompositions.first() {
                Some(d) => name.resize(rng.between(WORKED / 4 - 6, WORKED + 6), d.0),
                None => name.resize(rng.between(WORKED / 3 - 1, WORKED / 3 + 2), rng.code(0xAC01, 0xAC1B)),
            },
            _ => name.resize(rng.between(WORKED / 3, WORKED / 3 + 1), rng.code(0xAC01, 0xAC1B)),
        }
        match rng.below(12) {
            0 => name.push(0x21),
            1 => name.push(STOP),
            2 => self.an_emoji(rng, &mut name),
            _ => {}
        }
        name
    }

    /// A name of exactly this many codepoints.
    fn filled(&self, rng: &mut Rng, length: usize) -> Vec<u32> {
        let mut name = Vec::new();
        if rng.percent(80) {
            name.push(Self::one(rng, &self.ascii));
        }
        let filler = if rng.percent(85) { Self::one(rng, &self.ignored) } else { Self::one(rng, &self.valid) };
        name.resize(length, filler);
        if rng.percent(50) {
            let at = rng.below(length);
            name[at] = if rng.percent(70) { Self::one(rng, &self.ascii) } else { STOP };
        }
        name
    }

    /// A name that is long in codepoints or in worked length.
    pub fn long_name(&self, rng: &mut Rng) -> Vec<u32> {
        if rng.percent(35) {
            let length = rng.between(WORKED + WORKED / 2, INPUT);
            return self.filled(rng, length);
        }
        let mut name = Vec::new();
        while name.len() < rng.between(WORKED / 5, WORKED - WORKED / 40) {
            if !name.is_empty() {
                name.push(STOP);
            }
            let length = rng.between(1, 300);
            name.resize(name.len() + length, Self::one(rng, &self.ascii));
        }
        name
    }

    /// A name of any kind made longer by so many codepoints: something ignored or
    /// letters put in, or a label of letters beside it.
    pub fn lengthened_name(&self, rng: &mut Rng, by: usize) -> Vec<u32> {
        let mut name = loop {
            let name = self.name(rng);
            if name.len() < by {
                break name;
            }
        };
        let letters = if self.groups.is_empty() { &self.ascii } else { &rng.pick(&self.groups).letters };
        let way = rng.below(4);
        let more: Vec<u32> = match way {
            0 | 1 if !self.ignored.is_empty() => vec![*rng.pick(&self.ignored); by],
            2 => (0..by).map(|_| Self::one(rng, letters)).collect(),
            _ => vec![Self::one(rng, &self.ascii); by],
        };
        if way == 3 {
            return [&more[..], &[STOP], &name].concat();
        }
        let at = rng.below(name.len() + 1);
        name.splice(at..at, more);
        name
    }

    pub fn name(&self, rng: &mut Rng) -> Vec<u32> {
        let mut name = match rng.below(1000) {
            0..=4 => Vec::new(),
            5..=9 => self.filled(rng, INPUT),
            10..=17 => {
                let length = rng.between(INPUT + 1, INPUT + 4);
                self.filled(rng, length)
            }
            18..=34 => self.long(rng),
            35..=49 => {
                // Stops where an empty label is due.
                let mut name = self.label(rng);
                let at = rng.below(name.len() + 1);
                name.insert(at, STOP);
                if rng.percent(50) {
                    name.insert(at, STOP);
                }
                name
            }
            way => {
                let labels = match way % 10 {
                    0..=5 => 1,
                    6..=8 => 2,
                    _ => rng.between(3, 5),
                };
                let mut name = Vec::new();
                for i in 0..labels {
                    if i > 0 {
                        name.push(STOP);
                    }
                    name.extend(self.label(rng));
                }
                name
            }
        };
        if rng.below(100) < 1 && !name.is_empty() {
            let at = rng.below(name.len());
            name[at] = *rng.pick(&[0xD800, 0xDFFF, 0x110000, 0xFFFF_FFFF, 0x8000_0061, 0xDABC]);
        }
        name
    }
}
