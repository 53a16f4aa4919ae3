//! Every codepoint, and random names of real characters, on all processors.

use crate::desk::{Desk, Given};
use crate::shards::on_all_processors;
use crate::Made;
use compare::Engine;
use gen::Rng;
use plain::limits::WORKED;
use plain::{Kind, Refusal};
use std::collections::BTreeMap;

/// An engine that all processors use.
pub type Shared<'a> = &'a (dyn Engine + Sync);

/// What a run met.
#[derive(Clone, Debug, Default, PartialEq, Eq)]
pub struct Counts {
    pub accepted: usize,
    pub changed: usize,
    pub emoji: usize,
    pub ascii: usize,
    /// Labels of each group.
    pub groups: BTreeMap<usize, usize>,
    pub refused: BTreeMap<u32, usize>,
}

impl Counts {
    fn add(&mut self, name: &[u32], result: &Given<usize>, kinds: &[Kind]) {
        match result {
            Ok((answer, _)) => {
                self.accepted += 1;
                self.changed += usize::from(answer != name);
            }
            Err(refusal) => *self.refused.entry(refusal.number).or_default() += 1,
        }
        for kind in kinds {
            match kind {
                Kind::Emoji => self.emoji += 1,
                Kind::Ascii => self.ascii += 1,
                Kind::Group { number, .. } => *self.groups.entry(*number).or_default() += 1,
            }
        }
    }

    /// What several runs met together.
    fn merged(runs: Vec<Counts>) -> Counts {
        let mut all = Counts::default();
        for run in runs {
            all.accepted += run.accepted;
            all.changed += run.changed;
            all.emoji += run.emoji;
            all.ascii += run.ascii;
            for (group, count) in run.groups {
                *all.groups.entry(group).or_default() += count;
            }
            for (number, count) in run.refused {
                *all.refused.entry(number).or_default() += count;
            }
        }
        all
    }

    /// How often a refusal was met.
    pub fn refusals(&self, number: u32) -> usize {
        self.refused.get(&number).copied().unwrap_or(0)
    }
}

/// One name through the name call and the label call, by the engine and by the
/// reference; an accepted answer once more.
fn one(desk: &mut Desk, reference: &mut Option<Desk>, name: &[u32], counts: &mut Counts) {
    let result = desk.name(name);
    let label = desk.label(name);
    if let Some(reference) = reference {
        assert_eq!(result, reference.name(name), "the name call and {name:X?}");
        assert_eq!(label, reference.label(name), "the label call and {name:X?}");
    }
    // A name without a stop is one label: both calls agree but for the empty one.
    if !name.is_empty() && !name.contains(&plain::STOP) {
        match (&result, &label) {
            (Ok((a, labels)), Ok((b, _))) => assert_eq!((a, *labels), (b, 1), "{name:X?}"),
            (Err(a), Err(b)) => assert_eq!(a, b, "{name:X?}"),
            _ => panic!("the calls disagree on {name:X?}: {result:?}, {label:?}"),
        }
    }
    let kinds = match (&result, &label) {
        (Err(_), _) => Vec::new(),
        (Ok(first), Ok((_, kind))) => {
            desk.keeps(name, first, &[*kind]);
            vec![*kind]
        }
        (Ok(first), Err(_)) => desk.again(name, first),
    };
    counts.add(name, &result, &kinds);
}

/// Every codepoint that is asked for, as a name and as a label. Numbers that
/// are no scalar values have to be refused as 4, and 2E as no label.
pub fn codepoints(
    engine: Shared,
    reference: Option<Shared>,
    table: &[u32],
    asked: impl Fn(u32) -> bool + Sync,
) -> Counts {
    const PART: u32 = 0x1000;
    let part = |shard: usize| {
        let mut desk = Desk::new(engine, table);
        let mut reference = reference.map(|r| Desk::new(r, table));
        let mut counts = Counts::default();
        let first = PART * shard as u32;
        for c in (first..first + PART).filter(|&c| asked(c)) {
            one(&mut desk, &mut reference, &[c], &mut counts);
            if !plain::is_scalar(c) {
                assert_eq!(desk.name(&[c]), Err(Refusal::new(4, 0)));
            } else if c == plain::STOP {
                assert_eq!(desk.name(&[c]), Err(Refusal::new(6, 0)));
                assert_eq!(desk.label(&[c]), Err(Refusal::new(5, 0)));
            }
        }
        counts
    };
    Counts::merged(on_all_processors((0x11_0000 / PART) as usize, part))
}

/// What random names are made of.
pub struct Vocabulary {
    /// Each group's characters and, where they decompose, their forms.
    groups: Vec<Vec<u32>>,
    marks: Vec<u32>,
    mapped: Vec<u32>,
    /// Mapped to characters of this group alone, by group.
    group_mapped: Vec<Vec<u32>>,
    ignored: Vec<u32>,
    emoji: Vec<Vec<u32>>,
    confused: Vec<u32>,
    made: BTreeMap<u32, Vec<u32>>,
}

/// One of these; where a cut has none, a letter.
fn one_of(rng: &mut Rng, of: &[u32]) -> u32 {
    if of.is_empty() {
        return 0x61;
    }
    *rng.pick(of)
}

impl Vocabulary {
    pub fn new(made: &Made) -> Vocabulary {
        let spec = &made.spec;
        let by_head = made.nf.by_head();
        let valid = maker::valid(spec, &made.nf);
        let forms = valid.iter().map(|&c| (c, maker::full_decomposition(&by_head, c)));
        let sets: Vec<std::collections::HashSet<u32>> =
            spec.groups.iter().map(|g| g.characters.iter().copied().collect()).collect();
        let of_group = |set: &std::collections::HashSet<u32>| {
            let fits = |to: &[u32]| to.iter().all(|c| set.contains(c));
            spec.mapped.iter().filter(|(_, to)| fits(to)).map(|(head, _)| *head).collect()
        };
        Vocabulary {
            groups: spec.groups.iter().map(|g| g.characters.clone()).collect(),
            marks: spec.cm.iter().copied().filter(|c| valid.contains(c)).collect(),
            mapped: spec.mapped.iter().map(|(head, _)| *head).collect(),
            group_mapped: sets.iter().map(of_group).collect(),
            ignored: spec.ignored.clone(),
            emoji: spec.emoji.clone(),
            confused: spec.wholes.iter().flat_map(|w| w.confused.iter().copied()).collect(),
            made: forms.filter(|(c, form)| form != &[*c]).collect(),
        }
    }

    fn emoji(&self, rng: &mut Rng, out: &mut Vec<u32>) {
        if self.emoji.is_empty() {
            return;
        }
        // FE0F is optional; now and then one too many.
        for &c in rng.pick(&self.emoji) {
            if c != plain::FE0F || rng.percent(60) {
                out.push(c);
            }
        }
        if rng.percent(5) {
            out.push(plain::FE0F);
        }
    }

    fn character(&self, rng: &mut Rng, group: usize, out: &mut Vec<u32>) {
        let characters = &self.groups[group];
        let c = *rng.pick(characters);
        match self.made.get(&c) {
            Some(form) if rng.percent(60) => out.extend(form),
            _ => out.push(c),
        }
    }

    fn label(&self, rng: &mut Rng, out: &mut Vec<u32>) {
        let among = if rng.percent(60) { 8.min(self.groups.len()) } else { self.groups.len() };
        let group = rng.below(among);
        let style = rng.below(100);
        let length = if rng.below(500) == 0 { rng.between(WORKED - 124, WORKED + 76) } else { rng.between(1, 10) };
        if rng.percent(6) {
            out.extend(std::iter::repeat_n(0x5F, rng.between(1, 3)));
        }
        for _ in 0..length {
            let roll = rng.below(1000);
            match style {
                // Emoji alone.
                0..=7 => self.emoji(rng, out),
                // ASCII.
                8..=17 => match roll {
                    0..=19 => out.extend([0x2D, 0x2D]),
                    20..=29 => out.push(0x5F),
                    30..=399 => out.push(rng.code(0x41, 0x5A)),
                    400..=599 => out.push(rng.code(0x30, 0x39)),
                    600..=619 => out.push(0x2D),
                    _ => out.push(rng.code(0x61, 0x7A)),
                },
                // Confused characters.
                18..=23 => out.push(one_of(rng, &self.confused)),
                // Anything at all.
                24..=25 => out.push(match roll {
                    0..=499 => rng.code(0, 0x10FFFF),
                    500..=799 => one_of(rng, &self.mapped),
                    _ => {
                        let any = rng.below(self.groups.len());
                        *rng.pick(&self.groups[any])
                    }
                }),
                // One group, with what may come into it.
                _ => match roll {
                    0..=14 => self.emoji(rng, out),
                    15..=24 => out.push(one_of(rng, &self.ignored)),
                    25..=34 => out.push(one_of(rng, &self.marks)),
                    35..=39 => out.push(*rng.pick(&[0x2019, 0x30FB, 0x2044, 0x27])),
                    40..=42 => out.push(0x5F),
                    43..=49 => {
                        let any = rng.below(self.groups.len());
                        self.character(rng, any, out);
                    }
                    50..=149 if !self.group_mapped[group].is_empty() => out.push(*rng.pick(&self.group_mapped[group])),
                    _ => self.character(rng, group, out),
                },
            }
        }
    }

    /// A random name.
    pub fn name(&self, rng: &mut Rng) -> Vec<u32> {
        let mut out = Vec::new();
        let labels = if rng.percent(70) { 1 } else { rng.between(2, 4) };
        for i in 0..labels {
            if i > 0 {
                out.push(plain::STOP);
            }
            if !rng.percent(1) {
                self.label(rng, &mut out);
            }
        }
        out
    }
}

/// Random names of real characters: `count` of them, a multiple of PART.
pub fn random_names(engine: Shared, reference: Option<Shared>, made: &Made, seed: u64, count: usize) -> Counts {
    const PART: usize = 200;
    assert_eq!(count % PART, 0);
    let vocabulary = Vocabulary::new(made);
    let part = |shard: usize| {
        let mut desk = Desk::new(engine, &made.words);
        let mut reference = reference.map(|r| Desk::new(r, &made.words));
        let mut rng = Rng::new(seed << 32 | shard as u64);
        let mut counts = Counts::default();
        for _ in 0..PART {
            let name = vocabulary.name(&mut rng);
            one(&mut desk, &mut reference, &name, &mut counts);
        }
        counts
    };
    Counts::merged(on_all_processors(count / PART, part))
}
