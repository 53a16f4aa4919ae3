//! Small random tables by the hundred thousand: every lookup, NFC and what is
//! said of rules 6 to 8, by the pass and by the slow ways.

use crate::engine::Engine;
use crate::harness::hex;
use crate::plain_engine::{Passed, Slow};
use gen::tiny::{tiny_table, tiny_text, CODES};
use gen::Rng;
use plain::limits::WORK_WORDS;
use plain::soundness::{broken, missing_in_quick_check};
use plain::{nfc, nfd, parse, Index, Lookup, Pass, Table};
use std::fmt;

#[derive(Clone, Copy, Debug, Default, PartialEq, Eq)]
pub struct TinyCounts {
    pub tables: u64,
    /// Tables whose quick-check set isn't empty and that keep rules 6 to 8.
    pub keep_rules: u64,
    /// Those of which the pass finds it.
    pub found: u64,
    pub texts: u64,
    /// Texts that are left as they are.
    pub kept: u64,
    /// Texts in NFC by the tables of which rules 6 to 8 are found.
    pub normal: u64,
    pub names: u64,
}

impl fmt::Display for TinyCounts {
    fn fmt(&self, f: &mut fmt::Formatter) -> fmt::Result {
        let TinyCounts { tables, keep_rules, found, texts, kept, normal, names } = self;
        write!(f, "small tables {tables}, rules 6 to 8 kept by {keep_rules} and found of {found}; ")?;
        write!(f, "texts {texts}, left as they are {kept} of {normal} in NFC; names {names}; differences 0")
    }
}

impl std::ops::AddAssign for TinyCounts {
    fn add_assign(&mut self, other: TinyCounts) {
        self.tables += other.tables;
        self.keep_rules += other.keep_rules;
        self.found += other.found;
        self.texts += other.texts;
        self.kept += other.kept;
        self.normal += other.normal;
        self.names += other.names;
    }
}

/// Rules 6 to 8 by the slow check: rule 8 on every codepoint that the tables are
/// made of, all jamo and syllables of each kind.
fn rules_kept(index: &Index) -> bool {
    let syllables = [0, 1, 27, 28, 587].iter().flat_map(|&s| (0..19).map(move |l| 0xAC00 + 588 * l + s));
    let asked = CODES.iter().copied().chain(0x1100..0x1113).chain(0x1161..0x1176).chain(0x11A8..0x11C3);
    index.table().quick_check.iter().next().is_some()
        && [6, 7].iter().all(|&rule| broken(index, rule).is_none())
        && missing_in_quick_check(index, asked.chain(syllables)).is_none()
}

/// The lookups that text is put in NFC by.
fn same_lookups(table: &Table, pass: &Pass, at: &dyn Fn() -> String) {
    for a in CODES {
        assert_eq!(table.class(a), pass.class(a), "{a:X}, {}", at());
        assert_eq!(table.decomposition(a), pass.decomposition(a), "{a:X}, {}", at());
        assert_eq!(table.mapping(a), pass.mapping(a), "{a:X}, {}", at());
    }
    for r in &table.decompositions {
        for b in CODES {
            let a = r.items[0];
            assert_eq!(table.composite(a, b), pass.composite(a, b), "{a:X} {b:X}, {}", at());
        }
    }
}

/// One name by the pass and by the slow ways.
fn same_name(words: &[u32], name: &[u32], at: &dyn Fn() -> String) {
    let run = |engine: &dyn Engine| {
        let (mut answer, mut work) = ([7; 40], [7; WORK_WORDS]);
        (engine.name(name, words, &mut answer, &mut work), answer)
    };
    assert_eq!(run(&Passed), run(&Slow), "name {}, {}", hex(name), at());
}

/// So many tables; panics with the seed and the table where anything differs.
pub fn check_tiny(first_seed: u64, tables: u64) -> TinyCounts {
    let mut counts = TinyCounts::default();
    for seed in first_seed..first_seed + tables {
        let rng = &mut Rng::new(seed);
        let words = tiny_table(rng).to_words();
        let at = || format!("seed {seed}, table {}", hex(&words));
        let table = parse(&words).unwrap_or_else(|| panic!("{}", at()));
        let index = Index::new(&table);
        let mut pass = Pass::read(&words).unwrap_or_else(|| panic!("{}", at()));
        pass.look_for_rules();
        let (found, kept) = (pass.found().rules, rules_kept(&index));
        assert!(kept || !found, "{}", at());
        same_lookups(&table, &pass, &at);
        counts.tables += 1;
        counts.keep_rules += u64::from(kept);
        counts.found += u64::from(found);
        for _ in 0..12 {
            let text = tiny_text(rng);
            let normal = nfc(&table, &text);
            assert_eq!(nfd(&table, &text), nfd(&pass, &text), "text {}, {}", hex(&text), at());
            assert_eq!(normal, nfc(&pass, &text), "text {}, {}", hex(&text), at());
            let keeps = pass.keeps(&text);
            assert!(!keeps || normal == text, "text {} is left as it is, {}", hex(&text), at());
            counts.texts += 1;
            counts.kept += u64::from(keeps);
            counts.normal += u64::from(found && normal == text);
        }
        if seed % 4 == 0 {
            let name = tiny_text(rng);
            same_name(&words, &name, &at);
            counts.names += 1;
        }
    }
    counts
}
