//! Files of versions 1 and 2, of twelve and thirteen sections: what they unpack
//! to, and that the answers by it are those by a table with any of the sections
//! that they lack.

use crate::engine::Engine;
use gen::{Rng, Vocabulary};
use plain::table::join_sections;
use plain::{limits, pack_as, parse, TableBuilder};

/// The sections of a version, and the most words that a table of them has.
const VERSIONS: [(u8, usize, usize); 2] = [(1, 12, 131_072), (2, 13, 131_073)];

/// How words are read as so many sections that end with them.
pub fn sections(words: &[u32], count: usize, most: usize) -> Option<TableBuilder> {
    let mut sections = Vec::new();
    let mut at = 0;
    for _ in 0..count {
        let from = at + 1;
        at = from + *words.get(at)? as usize;
        sections.push(words.get(from..at)?.to_vec());
    }
    sections.resize(14, Vec::new());
    let read = words.len() <= most && at == words.len();
    read.then(|| parse(&join_sections(&sections)).map(|t| t.to_builder()))?
}

/// 01's reading of words: twelve sections, and at most 131,072 words.
pub fn twelve(words: &[u32]) -> Option<TableBuilder> {
    sections(words, 12, 131_072)
}

/// Every word that the name and the label call leave, and their answers.
fn answers(engine: &dyn Engine, name: &[u32], table: &[u32], room: usize) -> impl PartialEq + std::fmt::Debug {
    let buffers = || (vec![7; room], vec![7; limits::WORK_WORDS]);
    let (mut first, mut second) = (buffers(), buffers());
    let name_answer = engine.name(name, table, &mut first.0, &mut first.1);
    let label_answer = engine.label(name, table, &mut second.0, &mut second.1);
    (name_answer, label_answer, first, second)
}

/// So many random tables as files of each older version, some damaged, and names by each.
pub fn check_older(engine: &dyn Engine, first_seed: u64, tables: u64) {
    for (version, count, most) in VERSIONS {
        let mut seen = [0; 2];
        for seed in first_seed..first_seed + tables {
            let mut rng = Rng::new(seed);
            let made = gen::table(&mut rng);
            let mut old = join_sections(&made.builder.sections()[..count]);
            if rng.percent(40) {
                let place = rng.below(old.len());
                old[place] = old[place].wrapping_add(*rng.pick(&[1, 2, u32::MAX]));
            }
            let mut due = old.clone();
            due.resize(old.len() + 14 - count, 0);
            let mut words = vec![7; due.len()];
            let given = engine.unpack(&pack_as(version, &old), &mut words);
            assert_eq!(given, Ok(due.len()), "version {version}, seed {seed}");
            assert!(words == due, "version {version}, seed {seed}: {:?}", words.last());
            let Some(table) = sections(&old, count, most) else {
                seen[1] += 1;
                continue;
            };
            seen[0] += 1;
            let read = parse(&words).map(|t| t.to_builder());
            assert_eq!(read.as_ref(), Some(&table), "version {version}, seed {seed}");
            check_lacking(engine, &mut rng, version, &words, table);
        }
        assert!(seen.iter().all(|&n| 10 * n > tables), "version {version}: tables and faults are met often: {seen:?}");
    }
}

/// The sections that a file of this version lacks change no answer.
fn check_lacking(engine: &dyn Engine, rng: &mut Rng, version: u8, words: &[u32], mut table: TableBuilder) {
    if version == 1 {
        table.escape = vec![(0x61, 0x7A), (0x200D, 0x200D), (0x300, 0x30F)];
    }
    assert_eq!(engine.soundness(words), engine.soundness(&table.to_words()), "version {version}: {table:X?}");
    table.quick_check = vec![(0x61, 0x67), (0x300, 0x301)];
    let other = table.to_words();
    let vocabulary = Vocabulary::new(rng, &table);
    for _ in 0..10 {
        let name = vocabulary.name(rng);
        let room = rng.below(60);
        let given = answers(engine, &name, words, room);
        let same = given == answers(engine, &name, &other, room);
        assert!(same, "version {version}, name {name:X?} by {table:X?}: {given:?}");
    }
}
