//! Times of the list of payees that a new table would file differently, for a
//! full book by the full-size table and by tables made to be slow, and of the
//! list of groups behind a 14. The worst tables for both are `worst`'s. Not a test.
//! `cargo run --release --offline -p engine --example lists`

use engine::book::AREA;
use engine::lists::{moved, respelled};
use gen::worst::{confused, many_groups, many_valid, wide_whole};
use gen::Rng;
use plain::book::{FORM, FRONT, SLOT, SLOTS};
use plain::limits::WORKED;
use plain::TableBuilder;
use std::hint::black_box;
use std::time::Instant;

/// A full book of these names.
fn book(name: impl Fn(usize) -> Vec<u32>) -> Vec<u32> {
    let mut area = vec![0; AREA];
    for i in 0..SLOTS {
        let name = name(i);
        let slot = &mut area[FRONT + i * SLOT..][..SLOT];
        slot[0] = name.len() as u32;
        slot[1..=name.len()].copy_from_slice(&name);
    }
    area
}

/// How long the list takes, the least of three, and how many would move.
fn tell(what: &str, area: &[u32], words: &[u32]) {
    let (mut list, mut work) = (vec![0; 2 * SLOTS], vec![0; plain::limits::WORK_WORDS]);
    let mut least = f64::MAX;
    for _ in 0..3 {
        let start = Instant::now();
        black_box(moved(area, words, &mut list, &mut work));
        least = least.min(start.elapsed().as_secs_f64());
    }
    println!("{what}: {:.1} ms, {:?}", least * 1e3, moved(area, words, &mut list, &mut work).answer());
}

/// 64 names of 255 codepoints that the table has valid.
fn hostile(what: &str, table: TableBuilder) {
    let words = table.to_words();
    let area = book(|i| {
        let mut rng = Rng::new(i as u64 + 1);
        (0..FORM).map(|_| rng.pick(&table.valid).0).collect()
    });
    tell(what, &area, &words);
}

fn main() {
    let full = standin::full();
    let codepoints = |text: String| text.chars().map(u32::from).collect();
    tell(
        "64 names of 13 codepoints, full-size table",
        &book(|i| codepoints(format!("vitalik{i:02}.eth"))),
        &full.words,
    );
    tell(
        "64 names of 255 codepoints, full-size table",
        &book(|i| codepoints("ñandú".repeat(50) + &format!("{i:05}"))),
        &full.words,
    );
    // each slot reaches the worked length, of codepoints that become 32 each
    let letter = (0x61, 0x7A);
    let mapped = (0..SLOTS as u32).map(|i| (0x2E80 + i, vec![0x61 + i % 26; 32])).collect();
    let long = TableBuilder { valid: vec![letter], mapped, groups: vec![(0, vec![letter])], ..TableBuilder::default() };
    let each = WORKED / 32;
    tell(
        &format!("64 names that become {WORKED} codepoints"),
        &book(|i| vec![0x2E80 + i as u32; each]),
        &long.to_words(),
    );
    hostile("64 names of 255 codepoints, many valid", many_valid());
    hostile("64 names of 255 codepoints, many groups", many_groups());
    let area = book(|i| confused((FORM - i) as u32));
    tell("64 names of up to 255 confused codepoints, a wide whole", &area, &wide_whole().to_words());
    let (mut list, mut work) = (vec![0; 256], vec![0; plain::limits::WORK_WORDS]);
    let start = Instant::now();
    for _ in 0..100 {
        respelled(&[0x30, 0x445], &full.words, &mut list, &mut work);
    }
    println!("groups of 30 445, full-size table: {:.2} ms", start.elapsed().as_secs_f64() * 10.0);
}
