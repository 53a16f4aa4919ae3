//! Writes the questions that tools/targets asks on every machine
//! (targets/test/calls.c): `questions MODE TIMES FILE`. Mode 0, the calls: every
//! case of "Names at the counter" and of ENSIP-15 on both tables, then random
//! names on random tables, sound and not, with buffers of many sizes. Mode 1, the
//! stack: names of every kind. Mode 2, the time: names of the first cases.

use gen::{Rng, Vocabulary};
use plain::limits::{WORKED, WORK_WORDS};
use std::io::Write;

/// Random tables, and names for each.
const TABLES: u64 = 80;
const NAMES: usize = 40;

/// Sizes that the program on the other side has room for.
const ANSWER_MOST: usize = 10_240;

struct Question {
    table: usize,
    setting: u32,
    room: usize,
    work: usize,
    name: Vec<u32>,
}

fn question(table: usize, name: Vec<u32>, room: usize) -> Question {
    Question { table, setting: 0, room, work: WORK_WORDS, name }
}

/// The cases of both tables: table 0 is the full-size one, 1 is names.tab.
fn cases(questions: &mut Vec<Question>) {
    let (counter, examples) = (standin::cases::counter(), standin::cases::examples());
    for (table, cases) in [(0, counter), (0, examples), (1, standin::cases::counter())] {
        questions.extend(cases.into_iter().map(|c| question(table, c.name, c.room.min(ANSWER_MOST))));
    }
}

fn random(tables: &mut Vec<Vec<u32>>, questions: &mut Vec<Question>) {
    for seed in 1..=TABLES {
        let mut rng = Rng::new(seed);
        let made = gen::table(&mut rng);
        let vocabulary = Vocabulary::new(&mut rng, &made.builder);
        for _ in 0..NAMES {
            let name = vocabulary.name(&mut rng);
            let room = match rng.below(20) {
                0 => 0,
                1 => rng.below(8),
                2 => name.len().saturating_sub(1),
                3 => name.len(),
                4 => rng.between(WORKED, ANSWER_MOST),
                _ => name.len() + rng.between(8, 40),
            };
            let work = match rng.below(10) {
                0 => 0,
                1 => WORK_WORDS - 1,
                2 => WORK_WORDS + 952,
                _ => WORK_WORDS,
            };
            let setting = u32::from(rng.percent(25)) * rng.word();
            questions.push(Question { table: tables.len(), setting, room: room.min(ANSWER_MOST), work, name });
        }
        tables.push(made.words);
    }
}

/// Names of every kind, and of the refusals 4 to 14, as
/// rust/engine/tests/stack.rs has them.
fn kinds() -> Vec<Vec<u32>> {
    let row = |first: u32, count: u32| -> Vec<u32> { (first..first + count).collect() };
    let letters: Vec<u32> = (0..300).map(|i| 0x61 + i % 26 * (1 + i / 26) % 26).collect();
    let hex = standin::cases::hex;
    vec![
        letters[..14].to_vec(),
        letters.clone(),
        letters[..40].iter().map(|c| c - 0x20).collect(),
        hex("1F468 200D 2764 FE0F 200D 1F468").repeat(3),
        hex("E9 EB 1F468 200D 2764 FE0F 200D 1F468 EE F6"),
        hex("61 62 63 65 301 6F 308"),
        hex("43C 438 440 436 44B 448"),
        hex("442 4D5"),
        hex("D55C AD6D C5B4"),
        hex("E9 EB EE F6 1E69 1EA5 1ED9"),
        [hex("1A00"), hex("1A1B 1A1A 1A19 1A18 1A17").repeat(40)].concat(),
        row(0x4E00, 1_000),
        row(0x13000, 12),
        [&letters[..30], &[0x2E], &hex("43C 438 440 436 44B 448")[..], &[0x2E], &row(0x4E00, 30)].concat(),
        [row(0x4E00, 300), vec![0xD800]].concat(),
        [&letters[..200], &[0x40]].concat(),
        hex("43C 438 440 2E 2E 61"),
        row(0x2_1000, WORKED as u32 + 6),
        [&letters[..200], &[0x5F]].concat(),
        [&hex("78 6E 2D 2D")[..], &letters[..200]].concat(),
        [&letters[..200], &[0x2019]].concat(),
        hex("43C 438 1F4A9 301 44B 448"),
        [&letters[..200], &[0x645, 0x635, 0x631]].concat(),
        hex("625 610 611 612 613 614"),
        hex("30 445"),
        hex("445 430 440 435 43E 441").repeat(50),
    ]
}

fn main() {
    let words: Vec<String> = std::env::args().skip(1).collect();
    let [mode, times, file] = &words[..] else { panic!("questions MODE TIMES FILE") };
    let (mode, times): (u32, u32) = (mode.parse().expect("a mode"), times.parse().expect("a number"));
    let mut tables = vec![standin::full().words, standin::names().words];
    let mut questions = Vec::new();
    match mode {
        0 => {
            cases(&mut questions);
            random(&mut tables, &mut questions);
        }
        1 => {
            questions.extend(kinds().into_iter().map(|name| question(0, name, WORKED)));
            let restricted = standin::cases::hex("43C 438 440 436 44B 448 2E 13000 13001 13002 13003 13004 13005");
            // 15 and 17.
            questions.push(question(0, (0..300).map(|i| 0x4E00 + i).collect(), 100));
            questions.push(Question { setting: 1, ..question(0, restricted, WORKED) });
        }
        _ => questions.extend(standin::cases::counter().into_iter().take(12).map(|c| question(0, c.name, WORKED))),
    }
    let mut out = vec![mode, times, tables.len() as u32];
    for table in &tables {
        out.push(table.len() as u32);
        out.extend(table);
    }
    out.push(questions.len() as u32);
    for q in &questions {
        out.extend([q.table as u32, q.setting, q.room as u32, q.work as u32, q.name.len() as u32]);
        out.extend(&q.name);
    }
    let bytes: Vec<u8> = out.iter().flat_map(|w| w.to_le_bytes()).collect();
    std::fs::File::create(file).and_then(|mut f| f.write_all(&bytes)).expect("the file can be written");
    println!("{} tables, {} questions", tables.len(), questions.len());
}
