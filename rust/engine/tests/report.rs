//! The report beside the plain version: the answer, every byte of the buffer and
//! every word of the work area.

use compare::{say, Tally};
use engine::report::report;
use gen::{Rng, Vocabulary};
use plain::limits::{INPUT, REPORT, WORKED, WORK_WORDS};
use plain::{parse, Refusal, TableBuilder};

/// What was met.
#[derive(Default)]
struct Met {
    calls: u64,
    accepted: u64,
    refused: Tally,
    lines: u64,
    emoji: u64,
    braces: u64,
    /// Lines of emoji tokens without a codepoint.
    empty: u64,
    /// Two emoji lines, one behind the other, in one label.
    side_by_side: u64,
    /// An ignored codepoint first in an accepted label, second, and last.
    ignored: [u64; 3],
}

/// One call by both, with marks in the buffers; the report, or the refusal.
fn compared(name: &[u32], table: &[u32], setting: u32, room: usize, work: usize) -> Result<String, Refusal> {
    let (mut out, mut area) = (vec![0xA5; room], vec![0x5A5A_5A5A; work]);
    let (mut due_out, mut due_area) = (vec![0x3C; room], vec![7; work]);
    let given = report(name, table, setting, &mut out, &mut area);
    let due = plain::report(name, table, setting, &mut due_out, &mut due_area);
    assert_eq!(given.answer(), due, "name {name:X?}, room {room}, work area {work}, table {table:X?}");
    assert!(out == due_out, "bytes: name {name:X?}, room {room}, table {table:X?}");
    assert!(area == due_area, "work area: name {name:X?}");
    if due.is_err() {
        assert_eq!(given.length, 0);
    }
    due.map(|length| String::from_utf8(out[..length].to_vec()).expect("ASCII"))
}

impl Met {
    fn add(&mut self, answer: &Result<String, Refusal>) {
        self.calls += 1;
        match answer {
            Ok(text) => {
                self.accepted += 1;
                self.count(text);
            }
            Err(refusal) => self.refused.add(refusal.number),
        }
    }

    /// What an accepted name has of codepoints that the table ignores.
    fn count_ignored(&mut self, name: &[u32], words: &[u32]) {
        let t = parse(words).expect("accepted by it");
        let mapped = |c| t.mapped.iter().any(|record| record.head == c);
        let ignores = |c| t.ignored.holds(c) && !t.valid.holds(c) && !mapped(c) && c != plain::FE0F;
        for label in name.split(|&c| c == plain::STOP) {
            let ignored = |at: Option<&u32>| at.is_some_and(|&c| ignores(c));
            self.ignored[0] += u64::from(ignored(label.first()));
            self.ignored[1] += u64::from(label.len() > 2 && ignored(label.get(1)));
            self.ignored[2] += u64::from(ignored(label.last()));
        }
    }

    fn count(&mut self, text: &str) {
        let mut before: Option<(&str, usize)> = None;
        for line in text.lines() {
            let words: Vec<&str> = line.split(' ').collect();
            let (start, end): (usize, usize) = (words[1].parse().expect("a place"), words[2].parse().expect("a place"));
            assert!(start < end && before.is_none_or(|(_, at)| at == start || at + 1 == start), "{text}");
            self.lines += 1;
            self.emoji += u64::from(words[0] == "emoji");
            self.empty += u64::from(words.len() == 3);
            self.braces += u64::from(line.contains('{'));
            self.side_by_side += u64::from(words[0] == "emoji" && before == Some(("emoji", start)));
            before = Some((words[0], end));
        }
    }
}

/// The room for a report: much, little, or nearly the right one.
fn room(rng: &mut Rng, name: &[u32], table: &[u32], setting: u32) -> usize {
    let due =
        || parse(table).and_then(|t| plain::report::report_by(&t, setting, name).ok()).map_or(0, |text| text.len());
    match rng.below(10) {
        0 => rng.below(12),
        1 => due().saturating_sub(1),
        2 => due(),
        3 => due() + rng.below(40),
        _ => 400 + 60 * name.len(),
    }
}

/// Random tables, sound or not, damaged ones too, and names over them.
#[test]
fn random_names() {
    let mut met = Met::default();
    for seed in 9_000_000..9_002_000 {
        let mut rng = Rng::new(seed);
        let made = gen::table(&mut rng);
        let vocabulary = Vocabulary::new(&mut rng, &made.builder);
        for _ in 0..100 {
            let name = vocabulary.name(&mut rng);
            let setting = [0, 0, 1, 7][rng.below(4)];
            let room = room(&mut rng, &name, &made.words, setting);
            let work = if rng.percent(2) { rng.below(WORK_WORDS) } else { WORK_WORDS + rng.below(9) };
            let answer = compared(&name, &made.words, setting, room, work);
            met.add(&answer);
            if answer.is_ok() {
                met.count_ignored(&name, &made.words);
            }
        }
    }
    say(format!(
        "report: calls {}, accepted {}, lines {}, of emoji {}, side by side {}, empty {}, with braces {}; refused{}",
        met.calls, met.accepted, met.lines, met.emoji, met.side_by_side, met.empty, met.braces, met.refused
    ));
    for number in (1..=14).chain([16, 17, 32]) {
        assert!(met.refused.of(number) >= 500, "refusal {number}: {}", met.refused.of(number));
    }
    assert_eq!(met.refused.of(15), 0);
    assert!(met.accepted >= 40_000 && met.emoji >= 20_000 && met.side_by_side >= 2_000 && met.braces >= 5_000);
    assert!(met.empty >= 500 && met.ignored.iter().all(|&count| count >= 500), "{:?}", met.ignored);
}

/// Ways for a report to be wrong.
#[derive(Clone, Copy, Debug, PartialEq)]
enum Wrong {
    Nothing,
    IgnoredToTheTokenBehind,
    EndByItsCodepoints,
    StopNotCounted,
    NoBraces,
    LowerCase,
    RoomFirst,
    TailLeft,
}

const WRONG: [Wrong; 7] = [
    Wrong::IgnoredToTheTokenBehind,
    Wrong::EndByItsCodepoints,
    Wrong::StopNotCounted,
    Wrong::NoBraces,
    Wrong::LowerCase,
    Wrong::RoomFirst,
    Wrong::TailLeft,
];

/// The lines of an accepted name, by a table, wrong in one way.
fn wrong_lines(wrong: Wrong, table: &[u32], name: &[u32], lines: &str) -> String {
    let t = parse(table).expect("accepted by it");
    let ignores = |c| t.ignored.holds(c) && !t.valid.holds(c) && !t.mapped.iter().any(|record| record.head == c);
    let mut told = String::new();
    for (i, line) in lines.lines().enumerate() {
        let mut words: Vec<String> = line.split(' ').map(str::to_string).collect();
        let places = |at: usize| words[at].parse::<usize>().expect("a place");
        let (mut start, mut end) = (places(1), places(2));
        let stops = name[..start].iter().filter(|&&c| c == plain::STOP).count();
        match wrong {
            Wrong::IgnoredToTheTokenBehind => {
                while i > 0 && start > 0 && ignores(name[start - 1]) {
                    start -= 1;
                }
                while end < name.len() && name[end] != plain::STOP && end > start + 1 && ignores(name[end - 1]) {
                    end -= 1;
                }
            }
            Wrong::EndByItsCodepoints => end = start + words.len() - 3,
            Wrong::StopNotCounted => (start, end) = (start - stops, end - stops),
            _ => {}
        }
        (words[1], words[2]) = (start.to_string(), end.to_string());
        told += &(words.join(" ") + "\n");
    }
    match wrong {
        Wrong::NoBraces => told.replace(['{', '}'], ""),
        Wrong::LowerCase => told.to_lowercase(),
        _ => told,
    }
}

/// The call, wrong in one way.
fn wrong_report(
    wrong: Wrong,
    name: &[u32],
    table: &[u32],
    setting: u32,
    out: &mut [u8],
    work: &mut [u32],
) -> Result<usize, Refusal> {
    let mut right = vec![0; REPORT];
    let judged = plain::report(name, table, setting, &mut right, work);
    if wrong != Wrong::TailLeft {
        out.fill(0);
    }
    if wrong == Wrong::RoomFirst && out.len() < 8 && judged.is_err_and(|refusal| refusal.number > 4) {
        return Err(Refusal::new(32, 0));
    }
    let lines = String::from_utf8(right[..judged?].to_vec()).expect("ASCII");
    let told = wrong_lines(wrong, table, name, &lines);
    out.get_mut(..told.len()).ok_or(Refusal::new(32, 0))?.copy_from_slice(told.as_bytes());
    Ok(told.len())
}

/// The names above would find each of these versions wrong.
#[test]
fn wrong_reports_are_found() {
    let mut found = [0; WRONG.len() + 1];
    for seed in 9_000_000..9_000_060 {
        let mut rng = Rng::new(seed);
        let made = gen::table(&mut rng);
        let vocabulary = Vocabulary::new(&mut rng, &made.builder);
        for _ in 0..100 {
            let name = vocabulary.name(&mut rng);
            let room = room(&mut rng, &name, &made.words, 0);
            let run = |call: &dyn Fn(&mut [u8], &mut [u32]) -> Result<usize, Refusal>| {
                let (mut out, mut work) = (vec![0xA5; room], vec![7; WORK_WORDS]);
                (call(&mut out, &mut work), out)
            };
            let right = run(&|out, work| plain::report(&name, &made.words, 0, out, work));
            for (count, wrong) in found.iter_mut().zip([Wrong::Nothing].into_iter().chain(WRONG)) {
                *count += u64::from(run(&|out, work| wrong_report(wrong, &name, &made.words, 0, out, work)) != right);
            }
        }
    }
    assert!(found[0] == 0 && found[1..].iter().all(|&count| count > 0), "{found:?}");
}

/// A table that ignores AD, knows 1F4A9 and the family, and escapes 200D.
fn table() -> TableBuilder {
    TableBuilder {
        valid: vec![(0x61, 0x7A), (0x301, 0x301), (0xE1, 0xE1)],
        ignored: vec![(0xAD, 0xAD)],
        mapped: vec![(0x41, vec![0x61, 0x62])],
        decompositions: vec![(0xE1, vec![0x61, 0x301])],
        emoji: vec![vec![0x1F468, 0xFE0F, 0x200D, 0x2764], vec![0x1F4A9]],
        classes: vec![(0x301, 0x301, 230)],
        groups: vec![(2, vec![(0x61, 0x7A), (0x301, 0x301), (0xE1, 0xE1)])],
        escape: vec![(0x200D, 0x200D), (0x78, 0x79)],
        ..TableBuilder::default()
    }
}

/// What is ignored first, between and last; emoji side by side; braces; what is
/// composed from both sides of an ignored codepoint.
#[test]
fn places() {
    let words = table().to_words();
    let report = |name: &[u32]| compared(name, &words, 0, 300, WORK_WORDS);
    assert_eq!(report(&[]), Ok(String::new()));
    assert_eq!(report(&[0xAD, 0xAD, 0x41, 0xAD, 0x63, 0xAD]), Ok("text 0 6 61 62 63\n".into()));
    assert_eq!(report(&[0x61, 0xAD, 0x301]), Ok("text 0 3 E1\n".into()));
    let name =
        [0xAD, 0x1F4A9, 0x1F4A9, 0xAD, 0x1F468, 0x200D, 0x2764, 0xAD, 0x78, 0xAD, 0x2E, 0xAD, 0x7A, 0x1F4A9, 0xAD];
    let due = "emoji 0 2 1F4A9\nemoji 2 4 1F4A9\nemoji 4 8 1F468 {200D} 2764\ntext 8 10 {78}\ntext 11 13 7A\nemoji 13 15 1F4A9\n";
    assert_eq!(report(&name), Ok(due.into()));
    // A room of every size: 32 below the length, and the report from there on.
    for room in 0..due.len() + 3 {
        let given = compared(&name, &words, 0, room, WORK_WORDS);
        assert_eq!(given.is_ok(), room >= due.len(), "{room}");
        assert!(given.is_ok() || given == Err(Refusal::new(32, 0)));
    }
    assert_eq!(report(&[0xAD]), Err(Refusal::new(6, 0)));
}

/// 32 is judged last: a later label's refusal comes before it.
#[test]
fn room_is_judged_last() {
    let words = table().to_words();
    assert_eq!(compared(&[0x61, 0x2E, 0x40], &words, 0, 0, WORK_WORDS), Err(Refusal::new(5, 2)));
    assert_eq!(compared(&[0x61, 0x2E, 0x2E, 0x61], &words, 0, 3, WORK_WORDS), Err(Refusal::new(6, 1)));
    assert_eq!(compared(&[0x61, 0x2E, 0x61], &words, 0, 0, WORK_WORDS), Err(Refusal::new(32, 0)));
    assert_eq!(compared(&[0x61], &words, 0, 0, WORK_WORDS - 1), Err(Refusal::new(2, 0)));
    assert_eq!(compared(&[0x61], &words[1..], 0, 0, 0), Err(Refusal::new(1, 0)));
}

/// Two of ten count in the worked length: as many as an input has codepoints keep
/// within it.
const MOSTLY_EMPTY: [u32; 10] = [0xFE0F, 0xFE0F, 0xFE0F, 0xFE0F, 0xFE0F, 0xFE0F, 0xFE0F, 0xFE0F, 0x61, 0x1F600];

/// As many tokens as an input has codepoints, all empty; and numbers that are no
/// scalar values, which an unsound table may give.
#[test]
fn unsound_tables() {
    let all = vec![(0x61, 0x7A), (0, 0), (u32::MAX - 1, u32::MAX)];
    let b = TableBuilder {
        valid: all.clone(),
        mapped: vec![(0x41, vec![0, u32::MAX]), (0x42, vec![0x11_0000])],
        emoji: vec![vec![0xFE0F], vec![0xFE0F, 0x1F600]],
        groups: vec![(2, all), (2, vec![(0x11_0000, 0x11_0000)])],
        escape: vec![(u32::MAX, u32::MAX)],
        ..TableBuilder::default()
    };
    let words = b.to_words();
    let report = |name: &[u32]| compared(name, &words, 0, REPORT, WORK_WORDS);
    assert_eq!(report(&[0xFE0F, 0xFE0F, 0x61]), Ok("emoji 0 1\nemoji 1 2\ntext 2 3 61\n".into()));
    assert_eq!(report(&[0x41]), Ok("text 0 1 0 {FFFFFFFF}\n".into()));
    assert_eq!(report(&[0x42]), Ok("text 0 1 110000\n".into()));
    let text = report(&[0xFE0F; INPUT]).expect("accepted");
    assert_eq!((text.lines().count(), text.lines().last()), (INPUT, Some(&*format!("emoji {} {INPUT}", INPUT - 1))));
    assert!(text.len() <= REPORT);
    assert_eq!(compared(&[0xFE0F; INPUT], &words, 0, text.len() - 1, WORK_WORDS), Err(Refusal::new(32, 0)));
    // Emoji, empty ones and text by turns, to the last place.
    let mut rng = Rng::new(5);
    for length in [1, 9, 10, 11, 99, 100, 101, 999, 1_000, 1_001, 9_999, 10_000, 10_001, INPUT] {
        let name: Vec<u32> = (0..length).map(|_| *rng.pick(&MOSTLY_EMPTY)).collect();
        let text = report(&name).expect("within the worked length");
        // Of both kinds there are lines that start past 9,999.
        let lines: Vec<Vec<&str>> = text.lines().map(|line| line.split(' ').collect()).collect();
        assert_eq!(lines.last().map(|words| words[2]), Some(&*length.to_string()));
        let past = |kind: &str| lines.iter().any(|words| words[0] == kind && words[1].len() == 5);
        assert!(length < INPUT || (past("text") && past("emoji")), "{length}");
    }
}

/// The longest report keeps within the room that the header names: one codepoint
/// of text that fills the worked length with numbers of eight digits in braces,
/// and behind it an empty emoji for each codepoint that an input may have. A line
/// of text has a byte less than one of an emoji.
#[test]
fn the_most_bytes() {
    let header = include_str!("../../../include/wanlopheng.h");
    assert!(header.contains(&format!("WANLOPHENG_REPORT_BYTES {REPORT} ")));
    let next = |c: u32| if c == 0x64 { u32::MAX } else { c + 1 };
    let b = TableBuilder {
        mapped: vec![(0x41, vec![0x61; WORKED / 256])],
        emoji: vec![vec![0xFE0F]],
        decompositions: (0x61..=0x64).map(|c| (c, vec![next(c); 4])).collect(),
        groups: vec![(2, vec![(u32::MAX, u32::MAX)])],
        escape: vec![(0, u32::MAX)],
        ..TableBuilder::default()
    };
    let name = [&[0x41][..], &[0xFE0F; INPUT - 1]].concat();
    let text = compared(&name, &b.to_words(), 0, REPORT, WORK_WORDS).expect("accepted");
    let digits = |place: usize| place.to_string().len();
    let lines: usize = (0..INPUT).map(|i| "emoji   \n".len() - 1 + digits(i) + digits(i + 1)).sum();
    assert_eq!((lines, text.len()), (272_696, lines - 1 + 11 * WORKED));
}
