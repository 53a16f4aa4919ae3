//! Demand 3 on any engine: doing it again changes nothing, and joining.

use crate::engine::Engine;
use crate::harness::{hex, say};
use crate::tally::Tally;
use gen::{Rng, Vocabulary};
use plain::label::Finished;
use plain::{judge_name, limits, parse, Index, Kind, LabelForm, Name, Refusal, Soundness, Table, STOP};
use std::fmt;

#[derive(Clone, Debug, Default)]
pub struct AgainCounts {
    pub tables: u64,
    pub accepted: u64,
    /// Names that their first normalisation changed.
    pub changed: u64,
    /// Names with an emoji token.
    pub emoji: u64,
    /// Names with a text token that became shorter by composing.
    pub composed: u64,
    pub labels: u64,
    pub group_labels: u64,
}

impl fmt::Display for AgainCounts {
    fn fmt(&self, f: &mut fmt::Formatter) -> fmt::Result {
        write!(
            f,
            "sound tables {}, accepted names {}: changed {}, with emoji {}, composed {}; labels {}, of groups {}",
            self.tables, self.accepted, self.changed, self.emoji, self.composed, self.labels, self.group_labels
        )
    }
}

/// A call with marks in both buffers, its answer with the words of the normal
/// form; checks what must lie in the buffers after it.
fn name_call(
    engine: &dyn Engine,
    table: &[u32],
    name: &[u32],
    room: usize,
    work: usize,
) -> Result<(Name, Vec<u32>), Refusal> {
    let mut answer = vec![0xABCD_EF01; room];
    let mut area = vec![0x1234_5678; work];
    let given = engine.name(name, table, &mut answer, &mut area);
    let due = given.map_or(0, |n| n.length);
    assert!(area.iter().all(|&w| w == 0), "work area not zero");
    assert!(answer[due..].iter().all(|&w| w == 0), "words past the answer not zero");
    answer.truncate(due);
    given.map(|n| (n, answer))
}

/// Every label's kind, by the label call on that label alone.
fn kinds(engine: &dyn Engine, table: &[u32], name: &[u32]) -> Vec<Kind> {
    if name.is_empty() {
        return Vec::new();
    }
    let kind = |label: &[u32]| {
        let mut answer = vec![7; limits::WORKED];
        let mut area = vec![7; limits::WORK_WORDS];
        let given = engine.label(label, table, &mut answer, &mut area);
        given.expect("a label of an accepted name is accepted alone").kind
    };
    name.split(|&c| c == STOP).map(kind).collect()
}

/// Sound table number `seed`, and where its names come from.
fn sound(engine: &dyn Engine, rng: &mut Rng, seed: u64) -> (Vec<u32>, Vocabulary) {
    let builder = gen::sound_table(rng);
    let words = builder.to_words();
    assert_eq!(engine.soundness(&words), Soundness::Sound, "seed {seed}");
    (words, Vocabulary::new(rng, &builder))
}

/// Normalises accepted names again until `due` names were accepted; panics
/// with the seed and the codepoints where anything changes.
pub fn again(engine: &dyn Engine, first_seed: u64, due: u64, names_per_table: usize) -> AgainCounts {
    let mut counts = AgainCounts::default();
    let mut seed = first_seed;
    while counts.accepted < due {
        let mut rng = Rng::new(seed);
        let (words, vocabulary) = sound(engine, &mut rng, seed);
        let table = parse(&words).unwrap();
        let index = Index::new(&table);
        counts.tables += 1;
        for _ in 0..names_per_table {
            let name = vocabulary.name(&mut rng);
            let room = limits::WORKED + rng.below(3);
            let Ok(first) = name_call(engine, &words, &name, room, limits::WORK_WORDS) else { continue };
            let at = || format!("seed {seed}, name {}, answer {}", hex(&name), hex(&first.1));
            let kinds = once_more(engine, &words, &mut rng, &name, &first, at);
            counts.add(&name, &first, &kinds, &judge_name(&index, &name).unwrap());
        }
        seed += 1;
    }
    counts
}

/// The answer of this accepted name handed in again: the kinds of the labels,
/// which were the same.
fn once_more(
    engine: &dyn Engine,
    words: &[u32],
    rng: &mut Rng,
    name: &[u32],
    first: &(Name, Vec<u32>),
    at: impl Fn() -> String,
) -> Vec<Kind> {
    let (given, answer) = first;
    let before = kinds(engine, words, name);
    assert_eq!(before.len(), given.labels, "{}", at());
    // Enough room is any room from the answer's length on.
    let room = answer.len() + if rng.percent(50) { 0 } else { rng.below(9) };
    let work = limits::WORK_WORDS + if rng.percent(80) { 0 } else { rng.below(9) };
    assert_eq!(name_call(engine, words, answer, room, work).as_ref(), Ok(first), "{}", at());
    assert_eq!(kinds(engine, words, answer), before, "{}", at());
    before
}

impl AgainCounts {
    fn add(&mut self, name: &[u32], (given, answer): &(Name, Vec<u32>), kinds: &[Kind], forms: &[LabelForm]) {
        let has_emoji = |f: &LabelForm| f.tokens.iter().any(|t| matches!(t, Finished::Emoji(_)));
        self.accepted += 1;
        self.changed += u64::from(answer != name);
        self.emoji += u64::from(forms.iter().any(has_emoji));
        self.composed += u64::from(forms.iter().any(|f| f.composed));
        self.labels += given.labels as u64;
        self.group_labels += kinds.iter().filter(|k| matches!(k, Kind::Group { .. })).count() as u64;
    }
}

/// Demand 3, first half, on 100,000 accepted names, of which many change, hold
/// emoji or compose.
pub fn check_again(engine: &dyn Engine, first_seed: u64) {
    let counts = again(engine, first_seed, 100_000, 150);
    say(&counts);
    assert!(counts.accepted >= 100_000);
    assert!(4 * counts.changed >= counts.accepted, "a quarter changes");
    assert!(4 * counts.emoji >= counts.accepted, "a quarter holds emoji");
    assert!(4 * counts.composed >= counts.accepted, "a quarter composes");
}

#[derive(Clone, Debug, Default)]
pub struct JoinCounts {
    pub tables: u64,
    pub sound_tables: u64,
    pub accepted: u64,
    /// As 2, 3, 7 or 15.
    pub refused: Tally,
}

impl fmt::Display for JoinCounts {
    fn fmt(&self, f: &mut fmt::Formatter) -> fmt::Result {
        let JoinCounts { tables, sound_tables, accepted, refused } = self;
        write!(f, "tables {tables}, sound {sound_tables}; joined names: accepted {accepted}, refused{refused}")
    }
}

/// Up to which worked length each label brings a name.
fn worked_lengths(table: &Table, name: &[u32]) -> Vec<usize> {
    let mut reached = Vec::new();
    let mut worked = 0;
    for (i, form) in judge_name(&Index::new(table), name).unwrap().iter().enumerate() {
        worked += form.worked + usize::from(i > 0);
        reached.push(worked);
    }
    reached
}

/// An accepted name, not empty.
struct Accepted {
    name: Vec<u32>,
    labels: usize,
    answer: Vec<u32>,
}

/// Accepted names, some of them long.
fn accepted_names(
    engine: &dyn Engine,
    words: &[u32],
    rng: &mut Rng,
    vocabulary: &Vocabulary,
    tried: usize,
) -> Vec<Accepted> {
    let mut accepted = Vec::new();
    for i in 0..tried {
        let name = if i % 5 == 0 { vocabulary.long_name(rng) } else { vocabulary.name(rng) };
        if let Ok((given, answer)) = name_call(engine, words, &name, limits::WORKED, limits::WORK_WORDS) {
            if !name.is_empty() {
                accepted.push(Accepted { name, labels: given.labels, answer });
            }
        }
    }
    accepted
}

/// What 01 says of two accepted names joined: refused by a limit, or their
/// answers joined.
fn due(table: &Table, a: &Accepted, b: &Accepted, room: usize, work: usize) -> Result<(Name, Vec<u32>), Refusal> {
    let answer = [&a.answer[..], &[STOP], &b.answer[..]].concat();
    // 7 is named at the first label of the second name that passes it.
    let before = worked_lengths(table, &a.name).last().unwrap() + 1;
    let over = worked_lengths(table, &b.name).iter().position(|w| before + w > limits::WORKED);
    if work < limits::WORK_WORDS {
        Err(Refusal::new(2, 0))
    } else if a.name.len() + 1 + b.name.len() > limits::INPUT {
        Err(Refusal::new(3, 0))
    } else if let Some(label) = over {
        Err(Refusal::new(7, a.labels + label))
    } else if answer.len() > room {
        Err(Refusal::new(15, 0))
    } else {
        Ok((Name { length: answer.len(), labels: a.labels + b.labels }, answer))
    }
}

/// Joins two accepted names, in buffers that may be too small; panics where
/// the joined name is not what demand 3 says.
fn join(engine: &dyn Engine, words: &[u32], table: &Table, rng: &mut Rng, of: &[Accepted], counts: &mut JoinCounts) {
    let (a, b) = (rng.pick(of), rng.pick(of));
    let joined = [&a.name[..], &[STOP], &b.name[..]].concat();
    let length = a.answer.len() + 1 + b.answer.len();
    let room = match rng.below(8) {
        0 => length - 1,
        1 => rng.below(length + 1),
        _ => length + rng.below(20),
    };
    let work = if rng.percent(4) { rng.below(limits::WORK_WORDS) } else { limits::WORK_WORDS };
    let given = name_call(engine, words, &joined, room, work);
    let at = || format!("joined {}, room {room}, work area {work}", hex(&joined));
    assert_eq!(given, due(table, a, b, room, work), "{}", at());
    match given {
        Ok(_) => {
            let both = [kinds(engine, words, &a.name), kinds(engine, words, &b.name)].concat();
            assert_eq!(kinds(engine, words, &joined), both, "{}", at());
            counts.accepted += 1;
        }
        Err(refusal) => counts.refused.add(refusal.number),
    }
}

/// Joins accepted names, neither empty, over any tables.
pub fn joining(engine: &dyn Engine, first_seed: u64, tables: u64, pairs_per_table: usize) -> JoinCounts {
    let mut counts = JoinCounts::default();
    for seed in first_seed..first_seed + tables {
        let mut rng = Rng::new(seed);
        let made = gen::table(&mut rng);
        let words = made.words;
        let Some(table) = parse(&words) else { continue };
        counts.tables += 1;
        counts.sound_tables += u64::from(engine.soundness(&words) == Soundness::Sound);
        let vocabulary = Vocabulary::new(&mut rng, &made.builder);
        let accepted = accepted_names(engine, &words, &mut rng, &vocabulary, 2 * pairs_per_table);
        if !accepted.is_empty() {
            for _ in 0..pairs_per_table {
                join(engine, &words, &table, &mut rng, &accepted, &mut counts);
            }
        }
    }
    counts
}

/// Demand 3, second half, on this many tables: every limit is reached, and
/// unsound tables too.
pub fn check_joining(engine: &dyn Engine, first_seed: u64, tables: u64) {
    let counts = joining(engine, first_seed, tables, 50);
    say(&counts);
    assert!(6 * counts.accepted >= 100 * tables, "a third of the pairs is accepted");
    assert!([2, 3, 7, 15].iter().all(|&n| 12 * counts.refused.of(n) >= tables), "every limit is reached");
    assert!(4 * (counts.tables - counts.sound_tables) >= tables, "a quarter of the tables is unsound");
}
