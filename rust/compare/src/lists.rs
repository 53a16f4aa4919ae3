//! Groups with lists (02, Item 12), and a second check of them: the list is read
//! from the words by hand, and all else is what the same table without lists says.

use crate::engine::Engine;
use crate::harness::{compare_over, say, Settings};
use gen::{Made, Rng, Vocabulary};
use plain::limits::{WORKED, WORK_WORDS};
use plain::{Label, Refusal, TableBuilder, STOP};
use std::collections::BTreeMap;

/// The lists of the groups, by their numbers: a walk over the words of a table
/// that has no layout fault.
pub fn lists_by_hand(words: &[u32]) -> BTreeMap<usize, Vec<Vec<u32>>> {
    let mut at = 0;
    for _ in 0..10 {
        at += 1 + words[at] as usize;
    }
    let end = at + 1 + words[at] as usize;
    at += 1;
    let mut lists = BTreeMap::new();
    for number in 0.. {
        if at == end {
            break;
        }
        let flags = words[at];
        at += 2 + words[at + 1] as usize;
        if flags >= 4 {
            let mut list = Vec::new();
            let count = words[at];
            at += 1;
            for _ in 0..count {
                let length = words[at] as usize;
                list.push(words[at + 1..=at + length].to_vec());
                at += 1 + length;
            }
            lists.insert(number, list);
        }
    }
    lists
}

/// The same table without flag 4: flag 2 stays.
pub fn without_lists(b: &TableBuilder) -> TableBuilder {
    let mut b = b.clone();
    b.groups.iter_mut().for_each(|group| group.0 &= 3);
    b.lists.clear();
    b
}

/// Where each run of marks starts, which is behind its character, and where it
/// ends.
pub fn runs(is_mark: impl Fn(u32) -> bool, text: &[u32]) -> Vec<(usize, usize)> {
    let mark = |place: usize| text.get(place).is_some_and(|&c| is_mark(c));
    let starts = (1..text.len()).filter(|&place| mark(place) && !mark(place - 1));
    starts.map(|start| (start, (start..).find(|&place| !mark(place)).expect("the end"))).collect()
}

/// What was met of Item 12, each a number of labels.
pub type Met = BTreeMap<String, u64>;

/// One table with lists as the second check reads it.
pub struct Second<'a> {
    pub words: &'a [u32],
    lists: BTreeMap<usize, Vec<Vec<u32>>>,
    plain: Vec<u32>,
    marks: Vec<(u32, u32)>,
}

impl<'a> Second<'a> {
    pub fn new(words: &'a [u32], b: &TableBuilder) -> Second<'a> {
        Second { words, lists: lists_by_hand(words), plain: without_lists(b).to_words(), marks: b.marks.clone() }
    }

    fn is_mark(&self, c: u32) -> bool {
        self.marks.iter().any(|&(first, last)| first <= c && c <= last)
    }

    /// What the label call answers, with room enough.
    pub fn label(&self, label: &[u32], met: &mut Met) -> Result<Label, Refusal> {
        let table = plain::parse(&self.plain).expect("no fault");
        let (mut answer, mut work) = (vec![0; WORKED], vec![0; WORK_WORDS]);
        let given = plain::slow::label(label, &self.plain, &mut answer, &mut work);
        let (Ok(_) | Err(Refusal { number: 14, .. })) = given else {
            return given;
        };
        // Emoji and ASCII alone have no text to ask for.
        let Some(text) = plain::lists::tested(&table, label) else {
            return given;
        };
        let holds = |pairs: &plain::Pairs, c: u32| pairs.iter().any(|(first, last)| first <= c && c <= last);
        let holding: Vec<usize> = (0..table.groups.len())
            .filter(|&group| text.iter().all(|&c| holds(&table.groups[group].pairs, c)))
            .collect();
        let Some(list) = self.lists.get(&holding[0]) else {
            return given;
        };
        let runs = runs(|c| self.is_mark(c), &text);
        let listed = |&(start, end): &(usize, usize)| list.iter().any(|s| s[..] == text[start - 1..end]);
        let passes = runs.iter().all(listed);
        self.count(label, &text, &runs, list, passes, met);
        // Neither 16 nor 13 is asked in a whitelisted group without a list, and 14 sees the text alone.
        let open = |group: &usize| !self.lists.contains_key(group) && table.groups[*group].flags & 2 != 0;
        if !passes && given.is_ok() && holding[1..].iter().any(open) {
            *met.entry("a later group would have let it pass".into()).or_default() += 1;
        }
        if passes {
            return given;
        }
        if given.is_err() {
            *met.entry("16 before 14".into()).or_default() += 1;
        }
        Err(Refusal::new(16, 0))
    }

    /// Counts what this label shows.
    fn count(
        &self,
        label: &[u32],
        text: &[u32],
        runs: &[(usize, usize)],
        list: &[Vec<u32>],
        passes: bool,
        met: &mut Met,
    ) {
        let mut add = |what: &str| *met.entry(what.into()).or_default() += 1;
        let how = if passes { "passes" } else { "16" };
        match (list.len(), runs.len()) {
            (0, 0) => add("a list of none, no mark"),
            (0, _) => add("a list of none: 16"),
            (64, 1..) => add(&format!("a list of 64: {how}")),
            _ => {}
        }
        if runs.len() > 1 {
            add(&format!("two bases: {how}"));
        }
        if plain::judge_label(&plain::parse(&self.plain).expect("no fault"), label)
            .is_ok_and(|form| form.composed && !runs.is_empty())
        {
            add(&format!("a mark composes: {how}"));
        }
        // Two text tokens have an emoji between them.
        let tokens = plain::tokens(&plain::parse(&self.plain).expect("no fault"), label).unwrap_or_default();
        let texts = tokens.iter().filter(|token| matches!(token, plain::Token::Text(_))).count();
        if texts > 1 && !runs.is_empty() {
            add(&format!("an emoji between: {how}"));
        }
        for &(start, end) in runs {
            let run = &text[start - 1..end];
            add(&format!("a run of {} marks", (end - start).min(9)));
            if list.last().is_some_and(|last| last == run) {
                add("the list's last record");
            }
            match list.iter().any(|s| s == run) {
                true => add("a listed run"),
                false if list.iter().any(|s| s.len() + 1 == run.len() && run.starts_with(s)) => add("one mark more"),
                false if list.iter().any(|s| s.len() == run.len() + 1 && s.starts_with(run)) => add("one mark fewer"),
                false => {}
            }
        }
    }
}

/// What is to be met, and how often at least.
const DUE: [(&str, u64); 26] = [
    ("a run of 1 marks", 500),
    ("a run of 2 marks", 500),
    ("a run of 3 marks", 500),
    ("a run of 4 marks", 200),
    ("a run of 5 marks", 200),
    ("a run of 6 marks", 200),
    ("a run of 7 marks", 200),
    ("a run of 8 marks", 100),
    ("a run of 9 marks", 50),
    ("a listed run", 1_000),
    ("one mark more", 300),
    ("one mark fewer", 200),
    ("the list's last record", 500),
    ("two bases: passes", 100),
    ("two bases: 16", 500),
    ("an emoji between: passes", 100),
    ("an emoji between: 16", 200),
    ("a mark composes: passes", 100),
    ("a mark composes: 16", 200),
    ("a list of none, no mark", 100),
    ("a list of none: 16", 200),
    ("a list of 64: passes", 50),
    ("a list of 64: 16", 100),
    ("a later group would have let it pass", 300),
    ("16 before 14", 10),
    ("16", 2_000),
];

/// Random tables with lists: all engines alike, and the label call of the first
/// as the second check has it; without lists none answers 16.
pub fn check_lists(first: &dyn Engine, others: &[&dyn Engine], first_seed: u64, tables: u64) {
    let settings = Settings {
        first_seed,
        tables,
        names_per_table: 60,
        lengthened_per_table: 1,
        files_per_table: 1,
        more_soundness: 0,
        keep: 5,
        ..Settings::default()
    };
    let report = compare_over(first, others, &settings, gen::lists::made);
    report.show();
    assert_eq!(report.counts.differences, 0);
    assert!(report.counts.name_calls.refused.of(16) >= 500 && report.counts.label_calls.refused.of(16) >= 500);
    let mut met = Met::new();
    for seed in first_seed..first_seed + tables {
        second_check(first, seed, &mut met);
    }
    let counts: Vec<String> = met.iter().map(|(what, count)| format!("{what} {count}")).collect();
    say(format!("lists: {}", counts.join(", ")));
    let seldom = DUE.iter().filter(|(what, least)| met.get(*what).unwrap_or(&0) < least);
    assert_eq!(seldom.collect::<Vec<_>>(), Vec::<&(&str, u64)>::new());
}

/// The labels of random names by one table.
fn second_check(engine: &dyn Engine, seed: u64, met: &mut Met) {
    let mut rng = Rng::new(seed);
    let Made { words, builder, .. } = gen::lists::made(&mut rng);
    let second = Second::new(&words, &builder);
    let vocabulary = Vocabulary::new(&mut rng, &builder);
    let (mut answer, mut work) = (vec![0; WORKED], vec![0; WORK_WORDS]);
    for _ in 0..120 {
        let name = vocabulary.name(&mut rng);
        for label in name.split(|&c| c == STOP).take(3) {
            let given = engine.label(label, &words, &mut answer, &mut work);
            assert_eq!(given, second.label(label, met), "seed {seed}, label {label:X?}, table {builder:X?}");
            if given == Err(Refusal::new(16, 0)) {
                *met.entry("16".into()).or_default() += 1;
            }
            let none = engine.label(label, &second.plain, &mut answer, &mut work);
            assert_ne!(none.err().map(|r| r.number), Some(16), "seed {seed}, label {label:X?}");
        }
    }
}
