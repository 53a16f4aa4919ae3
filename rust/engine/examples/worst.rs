//! Times the calls on the worst tables: the name call, the label call, the group
//! and the emoji of a text, the screen form, the report, the list behind a 14, NFD
//! and NFC on longer and longer texts, the list of slots on more and more of them,
//! then the soundness check on tables in order and in random order. Not a test. docs/BOUNDS.md has the walks that they are
//! made for.
//! `cargo run --release --offline -p engine --example worst [SECONDS [WORDS]]`
//!
//! Each job runs in a process of its own, which is ended when it has used the
//! processor for so many seconds, 60 if they are not given; with WORDS only
//! those whose names have all of them.
//! A text is doubled as long as the next one should end in time, up to the
//! longest within the limits; what that one should take is then told from the
//! last, in proportion, which is too little only for the ordering of NFD.

use engine::emoji::emoji;
use engine::lists::{moved, respelled};
use engine::normal_forms::{nfc, nfd};
use engine::report::report;
use engine::screen::screen;
use gen::worst::texts::{Call, Long, TEXTS};
use gen::worst::{in_random_order, Hard, DEEP, LONG};
use plain::book::{AREA, FRONT, SLOT, SLOTS};
use plain::limits::{REPORT, SCREEN_ANY, WORKED, WORK_WORDS};
use plain::TableBuilder;
use std::io::Read;
use std::process::{Command, Stdio};
use std::time::Duration;

/// What is timed.
enum Job {
    Text(&'static Long),
    Check(&'static Hard, &'static str, fn(TableBuilder) -> TableBuilder),
}

impl Job {
    fn name(&self) -> String {
        match self {
            Job::Text(long) if long.call == Call::Name => format!("name, {}", long.what),
            Job::Text(long) => long.what.to_string(),
            Job::Check(hard, order, _) => format!("soundness, {}{order}", hard.name),
        }
    }

    fn run(&self, limit: f64) {
        match self {
            Job::Text(long) => texts(long, limit),
            Job::Check(hard, _, arrange) => check(hard, *arrange),
        }
    }
}

fn jobs() -> Vec<Job> {
    let checks = LONG.iter().chain(&DEEP).flat_map(|hard| {
        let same = Job::Check(hard, "", |table| table);
        [same, Job::Check(hard, ", in random order", in_random_order)]
    });
    TEXTS.iter().map(Job::Text).chain(checks).collect()
}

/// Seconds that the first thread of a process has used the processor, so that
/// other work on the machine counts little.
fn used(process: &str) -> f64 {
    let stat = std::fs::read_to_string(format!("/proc/{process}/schedstat")).unwrap_or_default();
    let nanoseconds: u64 = stat.split_whitespace().next().and_then(|w| w.parse().ok()).unwrap_or(0);
    nanoseconds as f64 / 1e9
}

fn timed<R>(job: impl FnOnce() -> R) -> (R, f64) {
    let before = used("self");
    let answer = job();
    (answer, used("self") - before)
}

/// The text of this length, or the area of a book whose first slots have a name.
fn text_for(long: &Long, count: usize) -> Vec<u32> {
    if long.call != Call::Moved {
        return (long.text)(count);
    }
    let mut area = vec![0; AREA];
    for (i, slot) in area[FRONT..].chunks_mut(SLOT).take(count).enumerate() {
        let name = (long.text)(i);
        slot[0] = name.len() as u32;
        slot[1..=name.len()].copy_from_slice(&name);
    }
    area
}

/// The words that an answer or a list has.
fn room_for(call: Call, count: usize) -> usize {
    match call {
        Call::Name | Call::Label | Call::Report => WORKED,
        Call::Group | Call::Emoji => 0,
        Call::Screen => SCREEN_ANY,
        Call::Respelled => 256,
        Call::Moved => 2 * SLOTS,
        Call::Nfd | Call::Nfc => 256 * count,
    }
}

/// The number that the call answers.
fn call(long: &Long, text: &[u32], table: &[u32], answer: &mut [u32], out: &mut [u8], work: &mut [u32]) -> u32 {
    match long.call {
        Call::Name => engine::name(text, table, 0, answer, work).number,
        Call::Label => engine::label(text, table, 0, answer, work).number,
        Call::Group => engine::group(text, table).number,
        Call::Emoji => emoji(text, table).number,
        Call::Screen => screen(text, table, 0, 0, answer, work).number,
        Call::Report => report(text, table, 0, out, work).number,
        Call::Respelled => respelled(text, table, answer, work).number,
        Call::Moved => moved(text, table, answer, work).number,
        Call::Nfd => nfd(text, table, answer, work).number,
        Call::Nfc => nfc(text, table, answer, work).number,
    }
}

/// Longer and longer texts.
fn texts(long: &Long, limit: f64) {
    let table = (long.table)().to_words();
    let mut count = long.first;
    loop {
        let text = text_for(long, count);
        let room = room_for(long.call, count);
        let (mut answer, mut out, mut work) = (vec![0; room], vec![0; REPORT], vec![0; room.max(WORK_WORDS)]);
        let (number, time) = timed(|| call(long, &text, &table, &mut answer, &mut out, &mut work));
        if count == long.first {
            assert_eq!(number, long.number, "{}", long.what);
        }
        let whole = time * long.most as f64 / count as f64;
        if count == long.most || 4.0 * time > limit {
            let told = if count == long.most {
                String::new()
            } else {
                format!(", in proportion {whole:.0} s on {}", long.most)
            };
            let of = if long.call == Call::Moved { "slots" } else { "codepoints" };
            println!("{} words, {count} {of}, number {number}: {time:.2} s{told}", table.len());
            return;
        }
        count = (2 * count).min(long.most);
    }
}

/// One soundness check by the proved call and by the plain version.
fn check(hard: &Hard, arrange: fn(TableBuilder) -> TableBuilder) {
    let words = arrange((hard.table)()).to_words();
    let (plain, plain_time) = timed(|| plain::soundness(&words));
    let (answer, time) = timed(|| engine::soundness(&words));
    assert_eq!(answer, hard.answer, "{}; the plain version: {plain:?}", hard.name);
    println!("{} words, {answer:?}: {time:.2} s, plain {plain_time:.2} s", words.len());
}

/// What the job says that has this number, in a process of its own, or that it
/// took too long.
fn bounded(number: usize, limit: u64) -> String {
    let this = std::env::current_exe().expect("this program");
    let words = ["--job".to_string(), number.to_string(), limit.to_string()];
    let mut child = Command::new(this).args(words).stdout(Stdio::piped()).spawn().expect("a process");
    let process = child.id().to_string();
    loop {
        if child.try_wait().expect("its status").is_some() {
            let mut said = String::new();
            child.stdout.take().expect("its output").read_to_string(&mut said).expect("text");
            return said.trim().to_string();
        }
        if used(&process) > limit as f64 {
            child.kill().expect("it runs");
            child.wait().expect("its status");
            return format!("over {limit} s");
        }
        std::thread::sleep(Duration::from_millis(20));
    }
}

fn main() {
    let words: Vec<String> = std::env::args().skip(1).collect();
    let number = |at: usize| words.get(at).and_then(|w| w.parse::<u64>().ok());
    if words.first().is_some_and(|w| w == "--job") {
        let (job, limit) = (number(1).expect("a job"), number(2).expect("seconds"));
        return jobs()[job as usize].run(limit as f64);
    }
    let limit = number(0).unwrap_or(60);
    let wanted = words.get(1..).unwrap_or_default();
    for (i, job) in jobs().iter().enumerate() {
        let name = job.name();
        if wanted.iter().all(|w| name.contains(w.as_str())) {
            println!("{name}: {}", bounded(i, limit));
        }
    }
}
