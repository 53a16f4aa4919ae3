//! Times of the calls of the payee book with no payee and with 64, beside the
//! plain version, and of the pass over the slots alone. Not a test.
//! `cargo run --release --offline -p engine --example book`

use engine::book::{Account, Book, Desk, AREA};
use plain::book::{self, FORM, FRONT, SLOT, SLOTS};
use plain::limits::{WORKED, WORK_WORDS};
use std::hint::black_box;
use std::time::Instant;

fn micros(mut job: impl FnMut()) -> f64 {
    const TIMES: u32 = 2_000;
    let start = Instant::now();
    for _ in 0..TIMES {
        job();
    }
    start.elapsed().as_secs_f64() * 1e6 / f64::from(TIMES)
}

/// An area whose first slots are filed under names of this length that differ
/// in their last word alone.
fn filled(slots: usize, length: usize) -> Vec<u32> {
    let mut area = vec![0; AREA];
    for i in 0..slots {
        let slot = &mut area[FRONT + i * SLOT..][..SLOT];
        slot[0] = length as u32;
        slot[1..=length].fill(0x61);
        slot[length] = 0x1_0000 + i as u32;
        slot[1 + FORM..].fill(7);
    }
    area
}

fn main() {
    let table = standin::names().words;
    let name: Vec<u32> = "vitalik.eth".chars().map(u32::from).collect();
    let account = Account { words: [7; 8] };
    let (mut answer, mut work) = (vec![0; WORKED], vec![0; WORK_WORDS]);
    let alone = micros(|| {
        black_box(engine::name(&name, &table, 0, &mut answer, &mut work));
    });
    println!("name call alone, an answer buffer of {WORKED} words: {alone:.1} us");
    for (what, area) in [
        ("0 payees", filled(0, 0)),
        ("63 payees of 12 codepoints", filled(63, 12)),
        ("64 payees of 12 codepoints", filled(64, 12)),
        ("64 payees of 255 codepoints that differ in the last", filled(64, 255)),
    ] {
        let mut kept = area.clone();
        let mut call = |job: fn(&mut Book, &[u32], Account, &mut Desk) -> u32| {
            micros(|| {
                kept.copy_from_slice(&area);
                let mut desk = Desk { table: &table, setting: 0, answer: &mut answer, work: &mut work };
                black_box(job(&mut Book::new(&mut kept), &name, account, &mut desk));
            })
        };
        let save = call(|b, n, a, d| b.save(n, a, d).number);
        let find = call(|b, n, _, d| b.find(n, d).number);
        let forget = call(|b, n, _, d| b.forget(n, d).number);
        let reset = call(|b, _, _, d| b.reset(d.answer, d.work).number);
        // a table with a fault is refused right after the pass over the slots
        let pass =
            call(|b, n, _, d| b.find(n, &mut Desk { table: &[], setting: 0, answer: d.answer, work: d.work }).number);
        let mut lent = book::Lent { name: &name, table: &[], setting: 0, answer: &mut answer, work: &mut work };
        let plain = micros(|| {
            black_box(book::find(&area, &mut lent).is_ok());
        });
        println!("{what}: save {save:.1}, find {find:.1}, forget {forget:.1}, reset {reset:.1} us; the pass {pass:.1}, plain {plain:.1} us");
    }
    assert_eq!(SLOTS, 64);
}
