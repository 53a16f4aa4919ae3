//! 02, Item 11: both versions over the validation names and over real-looking
//! ones, as multiples of one scalar pass over the table's words; the parts of the
//! pass; what leaving text as it is saves; and the line program's lines a second.

use super::{number, Call, ROOM, WORK};
use plain::calls::QUICK_FROM;
use plain::Pass;
use standin::looks::{validation_names, Looks};
use std::hint::black_box;
use std::io::{Read, Write};
use std::path::Path;
use std::process::{Command, Stdio};
use std::time::Instant;

/// Of each name so many calls, of which the quickest counts.
const REPEATS: usize = 5;

/// One load and one comparison a word, which nothing makes four at a time.
#[inline(never)]
fn scalar_pass(words: &[u32], than: u32) -> usize {
    let mut equal = 0;
    for word in words {
        // SAFETY: it is a word of the slice.
        equal += usize::from(unsafe { std::ptr::read_volatile(word) } == than);
    }
    equal
}

fn once(job: impl FnOnce()) -> f64 {
    let start = Instant::now();
    job();
    start.elapsed().as_secs_f64()
}

/// The quickest of so many, in seconds.
fn quickest(times: usize, mut job: impl FnMut()) -> f64 {
    (0..times).map(|_| once(&mut job)).fold(f64::INFINITY, f64::min)
}

fn one_pass(words: &[u32]) -> f64 {
    quickest(400, || {
        black_box(scalar_pass(black_box(words), 0x2E));
    })
}

const PROVED: Call = |n, t, a, w| engine::name(n, t, 0, a, w).number;
const PLAIN: Call = |n, t, a, w| number(plain::name(n, t, a, w));

/// Seconds of the name call by both, in turn.
fn both(name: &[u32], table: &[u32], times: usize) -> [f64; 2] {
    let (mut answer, mut work) = (vec![0; ROOM], vec![0; WORK]);
    let mut least = [f64::INFINITY; 2];
    for _ in 0..times {
        for (seconds, call) in least.iter_mut().zip([PROVED, PLAIN]) {
            let time = once(|| {
                black_box(call(name, table, &mut answer, &mut work));
            });
            *seconds = seconds.min(time);
        }
    }
    least
}

/// The middle one and the greatest.
fn middle_and_most(of: impl Iterator<Item = f64>) -> [f64; 2] {
    let mut all: Vec<f64> = of.collect();
    all.sort_by(f64::total_cmp);
    [all[all.len() / 2], all[all.len() - 1]]
}

/// How many scalar passes a real name may take.
const PASSES: f64 = 3.0;

/// Other work on the machine makes a few times far too great: the ratios at both
/// ends, and what takes over three passes, are measured again, more often.
fn remeasure(names: &[Vec<u32>], table: &[u32], pass: f64, times: &mut [[f64; 2]]) {
    let mut order: Vec<usize> = (0..names.len()).collect();
    order.sort_by(|&a, &b| (times[a][0] / times[a][1]).total_cmp(&(times[b][0] / times[b][1])));
    let ends = order.len().min(100);
    let mut again: Vec<usize> = [&order[..ends], &order[order.len() - ends..]].concat();
    again.extend(order.iter().filter(|&&i| times[i][0] > PASSES * pass));
    for i in again {
        let again = both(&names[i], table, 8 * REPEATS);
        times[i] = [times[i][0].min(again[0]), times[i][1].min(again[1])];
    }
}

/// The length of a name and its first codepoints.
fn shown(name: &[u32]) -> String {
    let first: Vec<String> = name.iter().take(12).map(|c| format!("{c:X}")).collect();
    format!("{} codepoints, {}", name.len(), first.join(" "))
}

fn over(what: &str, names: &[Vec<u32>], table: &[u32]) {
    let pass = one_pass(table);
    let mut times: Vec<[f64; 2]> = names.iter().map(|name| both(name, table, REPEATS)).collect();
    remeasure(names, table, pass, &mut times);
    let [middle, most] = middle_and_most(times.iter().map(|[proved, plain]| proved / plain));
    let [sum_proved, sum_plain] = [0, 1].map(|i| times.iter().map(|of| of[i]).sum::<f64>());
    println!("{what}, {} names, {} words: one scalar pass {:.1} us", names.len(), table.len(), pass * 1e6);
    println!("  proved / plain: median {middle:.2}, worst {most:.2}, of the sums {:.2}", sum_proved / sum_plain);
    for (i, version) in ["proved", "plain"].iter().enumerate() {
        let [middle, most] = middle_and_most(times.iter().map(|of| of[i] / pass));
        println!("  {version}: median {:.1} us, {middle:.2} scalar passes, worst {most:.2}", middle * pass * 1e6);
    }
    let dearest = |of: fn(&[f64; 2]) -> f64| {
        let worst = (0..names.len()).max_by(|&a, &b| of(&times[a]).total_cmp(&of(&times[b])));
        shown(&names[worst.expect("a name")])
    };
    println!("  the worst ratio: {}", dearest(|t| t[0] / t[1]));
    let long = times.iter().filter(|t| t[0] > PASSES * pass).count();
    println!("  proved, over {PASSES} scalar passes: {long} names; the longest time: {}", dearest(|t| t[0]));
}

/// The parts of the pass, each as a multiple of the scalar pass.
fn parts(what: &str, table: &[u32]) {
    const TIMES: usize = 300;
    let pass = one_pass(table);
    let show =
        |part: &str, seconds: f64| println!("  {part}: {:.2} scalar passes, {:.1} us", seconds / pass, seconds * 1e6);
    let read = || Pass::read(black_box(table)).expect("layout");
    println!("parts of the pass, {what}: one scalar pass {:.1} us", pass * 1e6);
    let layout = quickest(TIMES, || {
        black_box(read());
    });
    let pairs = quickest(TIMES, || {
        black_box(read().look_for_pairs());
    });
    let rules = quickest(TIMES, || {
        let mut pass = read();
        pass.look_for_rules();
        black_box(&pass);
    });
    show("plain, layout with flags and places", layout);
    show("plain, second items and index of pairs", pairs - layout);
    show("plain, finding rules 6 to 8, an index of pairs with it", rules - layout);
    let proved_layout = quickest(TIMES, || {
        black_box(engine::layout_fault(black_box(table)));
    });
    show("proved, layout with flags and places", proved_layout);
    // By the difference of two names: with a pair that is asked for, and of as
    // many codepoints that rules 6 to 8 are looked for.
    let name = |first: &[u32], length: usize| [first, &vec![0x61; length - first.len()]].concat();
    let short = both(&name(&[0x61, 0x62], 9), table, TIMES);
    let pair = both(&name(&[0x65, 0x301], 9), table, TIMES);
    let long = both(&name(&[], QUICK_FROM - 1), table, TIMES);
    let asked = both(&name(&[], QUICK_FROM), table, TIMES);
    for (i, (version, layout)) in [("proved", proved_layout), ("plain", layout)].into_iter().enumerate() {
        show(&format!("{version}, nine letters, behind the layout"), short[i] - layout);
        show(&format!("{version}, the same with 65 301 first"), pair[i] - layout);
        show(&format!("{version}, {} letters, behind the layout", QUICK_FROM - 1), long[i] - layout);
        show(&format!("{version}, {QUICK_FROM} letters, rules 6 to 8 looked for"), asked[i] - layout);
    }
}

/// Long texts by a table with its set and with none.
fn left_as_they_are(table: &[u32]) {
    let mut without = plain::parse(table).expect("layout").to_builder();
    without.quick_check.clear();
    let without = without.to_words();
    for (what, c, count) in [("61", 0x61, 4_096), ("E9", 0xE9, 2_048), ("4E00", 0x4E00, 4_096), ("AC00", 0xAC00, 2_048)]
    {
        let name = vec![c; count];
        let [with, none] = [table, &without].map(|table| both(&name, table, 9));
        for (i, version) in ["proved", "plain"].iter().enumerate() {
            println!(
                "{count} times {what}, {version}: {:.0} us, with an empty set {:.0} us",
                with[i] * 1e6,
                none[i] * 1e6
            );
        }
    }
}

/// Seconds of the processor that a child has used, which has ended and was not
/// waited for.
fn used_by(child: u32) -> f64 {
    let stat = std::fs::read_to_string(format!("/proc/{child}/schedstat")).unwrap_or_default();
    stat.split_whitespace().next().and_then(|w| w.parse::<f64>().ok()).map_or(f64::NAN, |n| n / 1e9)
}

/// Lines a second of a line program in a folder that has its table.
fn lines(program: &Path, folder: &Path, names: &[Vec<u32>]) {
    let line = |name: &Vec<u32>| name.iter().map(|c| format!("{c:X}")).collect::<Vec<_>>().join(" ") + "\n";
    let input: String = names.iter().map(line).collect();
    let mut child = match Command::new(program).current_dir(folder).stdin(Stdio::piped()).stdout(Stdio::piped()).spawn()
    {
        Ok(child) => child,
        Err(e) => return println!("line program {}: {e}", program.display()),
    };
    let (mut to, mut from) = (child.stdin.take().expect("piped"), child.stdout.take().expect("piped"));
    let writer = std::thread::spawn(move || to.write_all(input.as_bytes()));
    let mut wrote = String::new();
    from.read_to_string(&mut wrote).expect("its output");
    let _ = writer.join();
    std::thread::sleep(std::time::Duration::from_millis(50));
    let seconds = used_by(child.id());
    child.wait().expect("it ended");
    let accepted = wrote.lines().filter(|l| l.starts_with("ok")).count();
    let (last, rate) = (wrote.lines().last().unwrap_or_default(), names.len() as f64 / seconds);
    println!(
        "line program {}: {} lines in {seconds:.2} s of the processor, {rate:.0} a second; {accepted} ok, last line {last:?}",
        program.display(),
        names.len()
    );
}

/// All of it; `programs` are further line programs, each with the folder of its
/// table.
pub fn run(programs: &[(String, String)]) {
    let (full, small) = (standin::full(), standin::names());
    let (from, validation) = validation_names();
    let looks = Looks::new(&full);
    let rng = &mut gen::Rng::new(37);
    let real: Vec<Vec<u32>> = (0..100_000).map(|_| looks.name(rng)).collect();
    parts("full-size table", &full.words);
    parts("names.tab", &small.words);
    over(&format!("{from} validation names, full-size table"), &validation, &full.words);
    over(&format!("{from} validation names, names.tab"), &validation, &small.words);
    over("real-looking names, full-size table", &real, &full.words);
    over("real-looking names, names.tab", &real[..20_000], &small.words);
    left_as_they_are(&full.words);
    let root = Path::new(env!("CARGO_MANIFEST_DIR")).join("../..");
    lines(&root.join("crates/counter/out/counter"), &root.join("crates/counter/data"), &real);
    for (program, folder) in programs {
        lines(Path::new(program), Path::new(folder), &real);
    }
}
