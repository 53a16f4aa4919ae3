//! The random comparison. Buffers of many sizes are filled with marks
//! beforehand; answers and every word of both buffers are compared.

use crate::engine::Engine;
use crate::tally::Tally;
use gen::{Rng, Vocabulary};
use plain::calls::QUICK_FROM;
use plain::limits::{INPUT, WORKED, WORK_WORDS};
use plain::{Kind, Label, Lookup, Name, Pass, Refusal, Soundness, Token, STOP};
use std::fmt;

#[derive(Clone, Copy, Debug)]
pub struct Settings {
    /// Table number i is made from the seed `first_seed` + i.
    pub first_seed: u64,
    pub tables: u64,
    pub names_per_table: usize,
    /// Further names, so long that rules 6 to 8 are looked for.
    pub lengthened_per_table: usize,
    /// Table files for each table.
    pub files_per_table: usize,
    /// Further tables for the soundness check alone, seeded after the others.
    pub more_soundness: u64,
    /// Differences kept as text; the others are only counted.
    pub keep: usize,
    /// With so many differences the run ends, behind the table that gave the last.
    pub enough: u64,
}

impl Default for Settings {
    fn default() -> Settings {
        Settings {
            first_seed: 1,
            tables: 2_000,
            names_per_table: 100,
            lengthened_per_table: 1,
            files_per_table: 4,
            more_soundness: 3_000,
            keep: 20,
            enough: u64::MAX,
        }
    }
}

/// What the first engine answered, and how often.
#[derive(Clone, Debug, Default, PartialEq, Eq)]
pub struct Counts {
    pub tables: u64,
    pub names: u64,
    pub name_calls: CallCounts,
    pub label_calls: CallCounts,
    /// Names, each counted once, that were accepted.
    pub accepted_names: u64,
    pub longest_names: u64,
    /// Names so long that rules 6 to 8 are looked for, made so.
    pub lengthened_names: u64,
    /// Those for which they are found.
    pub with_rules: u64,
    /// Of these the labels with text, and those whose text is all left as it is.
    pub their_labels: u64,
    pub kept_labels: u64,
    pub accepted_longest_names: u64,
    /// Emoji, ASCII, unrestricted group, restricted group.
    pub kinds: [u64; 4],
    pub sound: u64,
    /// By the lowest broken rule.
    pub broken: Tally,
    pub unpack_calls: CallCounts,
    pub differences: u64,
}

/// What the calls of one kind answered.
#[derive(Clone, Debug, Default, PartialEq, Eq)]
pub struct CallCounts {
    pub accepted: u64,
    pub refused: Tally,
}

impl CallCounts {
    pub fn add<T>(&mut self, answer: &Result<T, Refusal>) {
        match answer {
            Ok(_) => self.accepted += 1,
            Err(refusal) => self.refused.add(refusal.number),
        }
    }
}

impl std::ops::AddAssign<&CallCounts> for CallCounts {
    fn add_assign(&mut self, other: &CallCounts) {
        self.accepted += other.accepted;
        self.refused += &other.refused;
    }
}

impl fmt::Display for CallCounts {
    fn fmt(&self, f: &mut fmt::Formatter) -> fmt::Result {
        write!(f, "accepted {}; refused{}", self.accepted, self.refused)
    }
}

/// What the calls can refuse, and the rules that the check can name.
const REFUSALS: std::ops::RangeInclusive<u32> = 1..=16;
const UNPACK_REFUSALS: std::ops::RangeInclusive<u32> = 20..=22;
const RULES: std::ops::RangeInclusive<u32> = 0..=plain::soundness::LAST_RULE;

impl Counts {
    fn add_lengthened(&mut self, table: &[u32], name: &[u32]) {
        self.lengthened_names += 1;
        let Some(mut pass) = Pass::read(table) else { return };
        pass.look_for_rules();
        if !pass.found().rules {
            return;
        }
        self.with_rules += 1;
        for label in name.split(|&c| c == STOP) {
            let tokens = plain::tokens(&pass, label).unwrap_or_default();
            let texts =
                || tokens.iter().filter_map(|token| if let Token::Text(text) = token { Some(text) } else { None });
            self.their_labels += u64::from(texts().next().is_some());
            self.kept_labels += u64::from(texts().next().is_some() && texts().all(|text| pass.keeps(text)));
        }
    }

    /// What was reached too seldom, as the comparison asks it: every refusal
    /// and kind 500 times, every soundness answer 200 times, 40,000 accepted
    /// names and a name of as many codepoints as an input may have.
    pub fn missing(&self) -> Vec<String> {
        let mut missing = Vec::new();
        let mut ask = |what: String, count: u64, least: u64| {
            if count < least {
                missing.push(format!("{what}: {count}, due {least}"));
            }
        };
        let calls = [
            ("name call", &self.name_calls, REFUSALS),
            ("label call", &self.label_calls, REFUSALS),
            ("unpack", &self.unpack_calls, UNPACK_REFUSALS),
        ];
        for (call, counts, numbers) in calls {
            for number in numbers {
                ask(format!("{call}, refusal {number}"), counts.refused.of(number), 500);
            }
        }
        for (kind, count) in ["emoji", "ASCII", "group", "restricted group"].iter().zip(self.kinds) {
            ask(format!("kind {kind}"), count, 500);
        }
        for rule in RULES {
            ask(format!("soundness {rule}"), self.broken.of(rule), 200);
        }
        ask("sound".into(), self.sound, 200);
        ask("unpacked".into(), self.unpack_calls.accepted, 500);
        ask("accepted names".into(), self.accepted_names, 40_000);
        ask("longest names".into(), self.longest_names, 1);
        ask("labels left as they are".into(), self.kept_labels, 80);
        missing
    }
}

impl std::ops::AddAssign<&Counts> for Counts {
    fn add_assign(&mut self, other: &Counts) {
        self.tables += other.tables;
        self.names += other.names;
        self.name_calls += &other.name_calls;
        self.label_calls += &other.label_calls;
        self.accepted_names += other.accepted_names;
        self.longest_names += other.longest_names;
        self.lengthened_names += other.lengthened_names;
        self.with_rules += other.with_rules;
        self.their_labels += other.their_labels;
        self.kept_labels += other.kept_labels;
        self.accepted_longest_names += other.accepted_longest_names;
        self.kinds.iter_mut().zip(other.kinds).for_each(|(kind, more)| *kind += more);
        self.sound += other.sound;
        self.broken += &other.broken;
        self.unpack_calls += &other.unpack_calls;
        self.differences += other.differences;
    }
}

impl fmt::Display for Counts {
    fn fmt(&self, f: &mut fmt::Formatter) -> fmt::Result {
        writeln!(f, "tables {}, names {}, accepted {}", self.tables, self.names, self.accepted_names)?;
        writeln!(f, "names of {INPUT} codepoints {}, accepted {}", self.longest_names, self.accepted_longest_names)?;
        writeln!(
            f,
            "names of {QUICK_FROM} codepoints and more {}, rules 6 to 8 found for {}, of {} labels with text {} left as they are",
            self.lengthened_names, self.with_rules, self.their_labels, self.kept_labels
        )?;
        writeln!(f, "name call: {}", self.name_calls)?;
        writeln!(f, "label call: {}", self.label_calls)?;
        let [emoji, ascii, group, restricted] = self.kinds;
        writeln!(f, "kinds: emoji {emoji}, ASCII {ascii}, group {group}, restricted group {restricted}")?;
        writeln!(f, "soundness: sound {}; broken{}", self.sound, self.broken)?;
        writeln!(f, "unpack: {}", self.unpack_calls)?;
        write!(f, "differences {}", self.differences)
    }
}

#[derive(Clone, Debug, Default)]
pub struct Report {
    pub counts: Counts,
    /// Each with its seed, the table's words and the codepoints.
    pub differences: Vec<String>,
}

impl Report {
    fn differ(&mut self, settings: &Settings, text: impl FnOnce() -> String) {
        self.counts.differences += 1;
        if self.differences.len() < settings.keep {
            self.differences.push(text());
        }
    }

    /// What both met, and the differences of both.
    pub fn add(&mut self, other: Report) {
        self.counts += &other.counts;
        self.differences.extend(other.differences);
    }

    /// Prints what was met, and the differences.
    pub fn show(&self) {
        say(&self.counts);
        for difference in &self.differences {
            say(difference);
        }
    }

    /// Prints what was met; panics where the engines differ or something was
    /// reached too seldom.
    pub fn check(&self) {
        self.show();
        assert_eq!(self.counts.differences, 0);
        assert_eq!(self.counts.missing(), Vec::<String>::new());
    }
}

/// Prints a line that the test runner does not hold back.
pub fn say(text: impl fmt::Display) {
    use std::io::Write;
    writeln!(std::io::stdout().lock(), "{text}").expect("standard output");
}

pub fn hex(words: &[u32]) -> String {
    let words: Vec<String> = words.iter().map(|w| format!("{w:X}")).collect();
    words.join(" ")
}

/// A buffer of marks, none of them 0.
fn marks(size: usize, salt: u32) -> Vec<u32> {
    (0..size as u32).map(|i| 0xA500_0001 ^ (salt << 12) ^ i.wrapping_mul(0x0101_0101) | 1).collect()
}

fn work_size(rng: &mut Rng) -> usize {
    match rng.below(100) {
        0 => *rng.pick(&[0, 1, WORK_WORDS / 4, WORK_WORDS - 1, WORK_WORDS - 1, WORK_WORDS - 1]),
        1..=4 => rng.between(WORK_WORDS + 1, WORK_WORDS + 1_000),
        _ => WORK_WORDS,
    }
}

fn answer_size(rng: &mut Rng, name: &[u32]) -> usize {
    match rng.below(100) {
        0..=1 => 0,
        2..=3 => rng.below(8),
        4..=6 => name.len(),
        7..=8 => name.len().saturating_sub(1),
        9..=12 => WORKED,
        13..=15 => rng.between(WORKED + 1, WORKED + 4_000),
        _ => name.len() + rng.between(8, 40),
    }
}

/// Where the two differ first, in words.
fn first_difference(a: &[u32], b: &[u32]) -> String {
    match a.iter().zip(b).position(|(x, y)| x != y) {
        Some(i) => format!("word {i}: {:X} and {:X}", a[i], b[i]),
        None => "none".into(),
    }
}

/// Engines that are asked the same, with what the first one answered so far.
struct All<'a> {
    first: &'a dyn Engine,
    others: &'a [&'a dyn Engine],
    settings: &'a Settings,
    report: Report,
}

/// Runs both engines over the same tables and names.
pub fn compare(a: &dyn Engine, b: &dyn Engine, settings: &Settings) -> Report {
    compare_all(a, &[b], settings)
}

/// Runs all of these engines over the same tables and names, each held against
/// the first.
pub fn compare_all(first: &dyn Engine, others: &[&dyn Engine], settings: &Settings) -> Report {
    compare_over(first, others, settings, gen::table)
}

/// The same with tables made in another way.
pub fn compare_over(
    first: &dyn Engine,
    others: &[&dyn Engine],
    settings: &Settings,
    table: impl Fn(&mut Rng) -> gen::Made,
) -> Report {
    let mut all = All { first, others, settings, report: Report::default() };
    for seed in settings.first_seed..settings.first_seed + settings.tables {
        if all.report.counts.differences >= settings.enough {
            return all.report;
        }
        let mut rng = Rng::new(seed);
        let made = table(&mut rng);
        all.soundness(seed, &made.words);
        let vocabulary = Vocabulary::new(&mut rng, &made.builder);
        for _ in 0..settings.names_per_table {
            let name = vocabulary.name(&mut rng);
            all.name_and_label(&mut rng, seed, &made.words, &name);
        }
        for _ in 0..settings.lengthened_per_table {
            let name = vocabulary.lengthened_name(&mut rng, QUICK_FROM);
            all.report.counts.add_lengthened(&made.words, &name);
            all.name_and_label(&mut rng, seed, &made.words, &name);
        }
        for _ in 0..settings.files_per_table {
            let (file, room) = gen::file(&mut rng, &made.words);
            all.unpack(seed, &file, room);
        }
    }
    let first = settings.first_seed + settings.tables;
    for seed in first..first + settings.more_soundness {
        if all.report.counts.differences >= settings.enough {
            break;
        }
        all.soundness(seed, &table(&mut Rng::new(seed)).words);
    }
    all.report
}

impl All<'_> {
    fn soundness(&mut self, seed: u64, table: &[u32]) {
        let x = self.first.soundness(table);
        self.report.counts.tables += 1;
        match x {
            Soundness::Sound => self.report.counts.sound += 1,
            Soundness::Broken(rule) => self.report.counts.broken.add(rule),
        }
        for other in self.others {
            let y = other.soundness(table);
            if x != y {
                let text = || format!("seed {seed}: soundness {x:?} and {y:?}\n  table {}", hex(table));
                self.report.differ(self.settings, text);
            }
        }
    }

    fn name_and_label(&mut self, rng: &mut Rng, seed: u64, table: &[u32], name: &[u32]) {
        let room = answer_size(rng, name);
        let work = work_size(rng);
        let answer = self.name(seed, table, name, room, work);
        let accepted = u64::from(answer.is_ok());
        self.report.counts.names += 1;
        self.report.counts.accepted_names += accepted;
        if name.len() == INPUT {
            self.report.counts.longest_names += 1;
            self.report.counts.accepted_longest_names += accepted;
        }
        if let Ok(Name { length, .. }) = answer {
            if rng.percent(6) {
                // Room that just suffices, and one word less.
                for room in [Some(length), length.checked_sub(1)].into_iter().flatten() {
                    let _ = self.name(seed, table, name, room, work);
                }
            }
        }
        // The label call on a label of the name, or on the whole name.
        let label = if rng.percent(20) {
            name
        } else {
            let labels: Vec<&[u32]> = name.split(|&c| c == plain::STOP).collect();
            *rng.pick(&labels)
        };
        let room = answer_size(rng, label);
        let work = work_size(rng);
        self.label(seed, table, label, room, work);
    }

    /// One call by all engines, each with its own marks in the buffers; the
    /// first engine's answer. `about` says what a difference starts and ends
    /// with.
    fn call<R: PartialEq + fmt::Debug>(
        &mut self,
        [room, work]: [usize; 2],
        call: impl Fn(&dyn Engine, &mut [u32], &mut [u32]) -> R,
        about: impl Fn() -> [String; 2],
    ) -> R {
        let run = |engine: &dyn Engine, salt: u32| {
            let (mut answer, mut area) = (marks(room, salt), marks(work, salt + 4));
            let given = call(engine, &mut answer, &mut area);
            (given, answer, area)
        };
        let x = run(self.first, 1);
        for (number, other) in self.others.iter().enumerate() {
            let y = run(*other, 2 + number as u32);
            if x == y {
                continue;
            }
            self.report.differ(self.settings, || {
                let [start, end] = about();
                let answers = first_difference(&x.1, &y.1);
                let areas = first_difference(&x.2, &y.2);
                format!(
                    "{start}\n  answer room {room}, work area {work}\n  {:?}\n  {:?}, engine {}\n  answer: {answers}\n  work area: {areas}{end}",
                    x.0, y.0, number + 1
                )
            });
        }
        x.0
    }

    fn name(&mut self, seed: u64, table: &[u32], name: &[u32], room: usize, work: usize) -> Result<Name, Refusal> {
        let x = self.call(
            [room, work],
            |engine, answer, area| engine.name(name, table, answer, area),
            || [format!("seed {seed}: name {}", hex(name)), format!("\n  table {}", hex(table))],
        );
        self.report.counts.name_calls.add(&x);
        x
    }

    fn label(&mut self, seed: u64, table: &[u32], label: &[u32], room: usize, work: usize) {
        let x = self.call(
            [room, work],
            |engine, answer, area| engine.label(label, table, answer, area),
            || [format!("seed {seed}: label {}", hex(label)), format!("\n  table {}", hex(table))],
        );
        let counts = &mut self.report.counts;
        counts.label_calls.add(&x);
        if let Ok(Label { kind, .. }) = x {
            let place = match kind {
                Kind::Emoji => 0,
                Kind::Ascii => 1,
                Kind::Group { restricted, .. } => 2 + usize::from(restricted),
            };
            counts.kinds[place] += 1;
        }
    }

    fn unpack(&mut self, seed: u64, file: &[u8], room: usize) {
        let x = self.call(
            [room, 0],
            |engine, answer, _| engine.unpack(file, answer),
            || {
                let bytes: Vec<String> = file.iter().map(|b| format!("{b:02X}")).collect();
                [format!("seed {seed}: file {}", bytes.join(" ")), String::new()]
            },
        );
        self.report.counts.unpack_calls.add(&x);
    }
}
