//! Times the proved calls beside the plain version, in one run, in seconds of
//! the processor, and measures the stack that they use. Not a test.
//! `cargo run --release --offline -p engine --example bench [fast | calls | stacks] [PROGRAM FOLDER]..`
//!
//! Without a word all of it. `fast` is what 02's Item 11 asks: it times further
//! line programs too, each in a folder that has its names.tab.

#[path = "timing/fast.rs"]
mod fast;
#[allow(dead_code)]
#[path = "../tests/painted/mod.rs"]
mod painted;

use engine::normal_forms::{nfc, nfd};
use gen::worst;
use plain::limits::{WORKED, WORK_WORDS};
use std::hint::black_box;

const ROOM: usize = WORKED;
const WORK: usize = WORK_WORDS;

/// Names of many scripts, some refused.
const NAMES: [&str; 12] = [
    "vitalik.eth",
    "Nick.ETH",
    "premm.eth",
    "raffy🚴‍♂️.eth",
    "_treasury$.eth",
    "ΞLON.eth",
    "мир.eth",
    "日本語.eth",
    "한국어.eth",
    "ａｂｃ１２３.eth",
    "e\u{301}te\u{301}.eth",
    "xn--abc.eth",
];

fn codepoints(text: &str) -> Vec<u32> {
    text.chars().map(u32::from).collect()
}

/// This one and then `count` of the others, in turn.
fn followed(first: u32, by: &[u32], count: usize) -> Vec<u32> {
    std::iter::once(first).chain(by.iter().copied().cycle().take(count)).collect()
}

/// Seconds that this thread has used the processor, so that other work on the
/// machine counts little.
fn used() -> f64 {
    let stat = std::fs::read_to_string("/proc/thread-self/schedstat").expect("Linux");
    let nanoseconds: u64 = stat.split_whitespace().next().and_then(|w| w.parse().ok()).expect("a number");
    nanoseconds as f64 / 1e9
}

/// Seconds of one job: it is done so many times, and so many more until it has
/// taken long enough to be told.
fn seconds(times: u32, mut job: impl FnMut()) -> f64 {
    let (start, mut done) = (used(), 0.0);
    loop {
        for _ in 0..times {
            job();
        }
        done += f64::from(times);
        if used() - start > 0.3 {
            return (used() - start) / done;
        }
    }
}

/// A call that is lent a name, a table and both buffers: the number it answers.
type Call = fn(&[u32], &[u32], &mut [u32], &mut [u32]) -> u32;

fn number<T>(answer: Result<T, engine::Refusal>) -> u32 {
    answer.map_or_else(|refusal| refusal.number, |_| 0)
}

/// The name call over these names, `times` times.
fn compare(what: &str, names: &[Vec<u32>], table: &[u32], times: u32) {
    let proved: Call = |n, t, a, w| engine::name(n, t, 0, a, w).number;
    compare_calls(what, names, table, times, proved, |n, t, a, w| number(plain::name(n, t, a, w)));
}

/// The screen form, likewise, with the Greek group of both tables.
fn compare_screens(what: &str, names: &[Vec<u32>], table: &[u32], times: u32) {
    let proved: Call = |n, t, a, w| engine::screen::screen(n, t, 1, 0, a, w).number;
    compare_calls(what, names, table, times, proved, |n, t, a, w| number(plain::screen(n, t, 1, 0, a, w)));
}

fn compare_calls(what: &str, names: &[Vec<u32>], table: &[u32], times: u32, proved: Call, plain: Call) {
    let (mut answer, mut work) = (vec![0; ROOM], vec![0; WORK]);
    let mut each = |call: Call| {
        let all = seconds(times, || {
            for n in names {
                black_box(call(n, table, &mut answer, &mut work));
            }
        });
        all / names.len() as f64
    };
    let (proved, plain) = (each(proved), each(plain));
    println!(
        "{what}: proved {:.1} us a name, {:.1} names a second; plain {:.1} us, {:.1} a second; ratio {:.2}",
        proved * 1e6,
        1.0 / proved,
        plain * 1e6,
        1.0 / plain,
        proved / plain
    );
}

fn times(full: &[u32], small: &[u32], names: &[Vec<u32>], worst: &[(&str, Vec<u32>)]) {
    compare("twelve real-looking names, full-size table", names, full, 20);
    compare("twelve real-looking names, names.tab", names, small, 100);
    compare_screens("their screen forms, full-size table", names, full, 20);
    compare_screens("their screen forms, names.tab", names, small, 100);
    for (what, name) in worst {
        let refusal = engine::name(name, full, 0, &mut [0; ROOM], &mut [0; WORK]).number;
        let what = format!("{what} (refusal {refusal}), full-size table");
        compare(&what, std::slice::from_ref(name), full, 3);
    }
    for (what, table) in [("full-size table", full), ("names.tab", small)] {
        let proved = seconds(3, || {
            black_box(engine::soundness(table));
        });
        let plain = seconds(3, || {
            black_box(plain::soundness(table));
        });
        println!(
            "soundness, {what}: proved {:.1} ms, plain {:.1} ms, ratio {:.0}",
            proved * 1e3,
            plain * 1e3,
            proved / plain
        );
    }
}

/// The bytes of stack that a job uses; those of an empty job are printed too.
fn stack(job: impl FnMut()) -> usize {
    painted::run(job).used
}

/// The stack of a call that is lent a text, a table and both buffers: the most
/// on any of these texts.
fn lent<R>(what: &str, call: fn(&[u32], &[u32], &mut [u32], &mut [u32]) -> R, of: &[(&[u32], &[u32])]) {
    let (mut answer, mut work) = (vec![0; 8 * WORK], vec![0; 8 * WORK]);
    let most = of.iter().map(|(text, table)| {
        stack(|| {
            black_box(call(text, table, &mut answer, &mut work));
        })
    });
    println!("stack, {what}: {} bytes", most.max().expect("a text"));
}

fn stacks(full: &[u32], names: &[Vec<u32>], worst: &[(&str, Vec<u32>)]) {
    let deep = worst::deep_text(vec![(worst::DEEP_TEXT, worst::DEEP_TEXT + 8)], 230).to_words();
    let wide = worst::wide_whole().to_words();
    let confused = worst::confused(16);
    let mut texts: Vec<(&[u32], &[u32])> = names.iter().map(|n| (&n[..], full)).collect();
    texts.extend(worst.iter().map(|(_, n)| (&n[..], full)));
    // Those that reach 13 and 14.
    texts.push((&[0x625, 0x610, 0x611, 0x612, 0x613, 0x614], full));
    texts.push((&[0x30, 0x445], full));
    texts.push((&[worst::DEEP_TEXT; 4], &deep));
    texts.push((&confused, &wide));
    println!("stack, an empty job: {} bytes", stack(|| ()));
    lent("name", |n, t, a, w| engine::name(n, t, 0, a, w), &texts);
    lent("screen form", |n, t, a, w| engine::screen::screen(n, t, 1, 0, a, w), &texts);
    lent("label", |n, t, a, w| engine::label(n, t, 0, a, w), &texts);
    lent("nfd", nfd, &texts);
    lent("nfc", nfc, &texts);
    let chain = worst::chains(1).to_words();
    let tables = [full, &deep, &wide, &chain];
    let most = tables.map(|table| {
        stack(|| {
            black_box(engine::soundness(table));
        })
    });
    println!("stack, soundness: {} bytes", most.into_iter().max().expect("a table"));
    let (file, mut words) = (plain::pack(full), vec![0; full.len()]);
    let unpack = stack(|| {
        black_box(engine::unpack(&file, &mut words));
    });
    println!("stack, unpack: {unpack} bytes");
}

fn main() {
    let words: Vec<String> = std::env::args().skip(1).collect();
    let known = |word: &&String| ["fast", "calls", "stacks"].contains(&word.as_str());
    let chosen = words.first().filter(known);
    let wanted = |part: &str| chosen.is_none_or(|word| word == part);
    if wanted("fast") {
        let programs = words[usize::from(chosen.is_some())..].chunks_exact(2);
        fast::run(&programs.map(|of| (of[0].clone(), of[1].clone())).collect::<Vec<_>>());
    }
    let full = standin::full().words;
    let small = standin::names().words;
    let names = NAMES.map(codepoints);
    let family = [0x1F468, 0x200D, 0x2764, 0xFE0F, 0x200D, 0x1F468];
    let worst = [
        ("4,096 codepoints: 61 and 4,095 ignored", followed(0x61, &[0x34F], 4_095)),
        ("1,024 codepoints: 61 and 1,023 marks of two classes in turn", followed(0x61, &[0x301, 0x323], 1_023)),
        ("1,024 codepoints: 1A00 and 1,023 marks", followed(0x1A00, &[0x1A1B, 0x1A1A, 0x1A19, 0x1A18, 0x1A17], 1_023)),
        ("1,020 codepoints: 170 long emoji", family.repeat(170)),
    ];
    if wanted("calls") {
        times(&full, &small, &names, &worst);
    }
    if wanted("stacks") {
        stacks(&full, &names, &worst);
    }
}
