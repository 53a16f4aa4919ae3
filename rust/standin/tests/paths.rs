//! The fast paths on every table that the maker writes: what a pass has to find
//! of them is found, and names take those paths alone.

use gen::Rng;
use maker::Reduction;
use plain::report::report_by;
use plain::{parse, FE0F};
use standin::bulk::Vocabulary;
use standin::paths::Counted;
use standin::{cases, names_reduction, source, Made};
use std::collections::HashSet;

/// Cuts of the kinds that `maketable` makes.
const CUTS: [&str; 5] = [
    "--groups Latin --emoji 40",
    "--groups Arabic,Tamil,Korean --emoji 1000",
    "--groups Egyp,Cher,Greek --drop 370..3A9 --unmap 0..FFFF",
    "--groups Bopomofo,Hebrew,Japanese --emoji 1F468-200D-1F4BB,30..39",
    "--groups Latin,Devanagari,Bengali,Korean --unmap 0..FFFF",
];

/// The full-size table, names.tab and the cuts.
fn tables() -> Vec<(String, Made)> {
    let (spec, nf) = source();
    let cut = |reduction: Reduction| {
        let (spec, nf) = reduction.apply(&spec, &nf).expect("a cut");
        let words = maker::make(&spec, &nf).to_words();
        Made { spec, nf, words }
    };
    let mut tables = vec![("full.tab".to_string(), standin::full()), ("names.tab".to_string(), cut(names_reduction()))];
    for options in CUTS {
        let words: Vec<String> = options.split(' ').map(str::to_string).collect();
        tables.push((options.to_string(), cut(Reduction::from_options(&words).expect("options"))));
    }
    tables
}

/// Counts the lookups of the counter's names and of random ones of real
/// characters.
fn count(what: &str, made: &Made) {
    let counted = Counted::read(&made.words).expect("layout");
    for (part, found) in counted.found().named() {
        assert!(found, "{what}: {part} not found");
    }
    let vocabulary = Vocabulary::new(made);
    let rng = &mut Rng::new(11);
    let mut accepted = 0;
    let names = cases::counter().into_iter().map(|case| case.name);
    for name in names.chain((0..1_500).map(|_| vocabulary.name(rng))) {
        accepted += u64::from(report_by(&counted, 0, &name).is_ok());
    }
    let taken = counted.taken();
    println!("{what}: {} words, {accepted} names accepted, {taken:?}", made.words.len());
    for (path, [fast, slow]) in &taken {
        assert_eq!(*slow, 0, "{what}: {path}");
        // A cut may have few characters that compose, or no ignored ones to ask for.
        assert!(*fast >= 10, "{what}: {path} {fast}");
    }
    let due = ["valid", "mapped", "classes", "pairs", "pairs ruled out", "exclusions", "groups", "text left as it is"];
    assert!(due.iter().all(|path| taken.contains_key(path)), "{what}: {taken:?}");
    assert!(taken["text left as it is"][0] > taken["text composed"][0], "{what}: {taken:?}");
}

#[test]
fn every_fast_path_is_taken() {
    for (what, made) in tables() {
        count(&what, &made);
    }
}

/// What the proved pass asks of the words before it takes its fast paths, which
/// cannot be seen from outside: the same order of each section, and for rules 6
/// to 8 the bounds of `crates/quick_found`.
#[test]
fn the_proved_pass_finds_them_too() {
    const MOST_LOOKED: usize = 16_384;
    const MOST_SAID: u32 = 4_096;
    for (what, made) in tables() {
        let t = parse(&made.words).expect("layout").to_builder();
        let groups = t.groups.iter().map(|(_, pairs)| pairs);
        let lists = [&t.valid, &t.ignored, &t.fenced, &t.marks, &t.nsm, &t.escape, &t.quick_check];
        assert!(lists.into_iter().chain(groups).all(|pairs| pairs.windows(2).all(|w| w[0].1 < w[1].0)), "{what}");
        assert!(t.classes.windows(2).all(|w| w[0].1 < w[1].0), "{what}: classes");
        assert!(t.exclusions.windows(2).all(|w| w[0] < w[1]), "{what}: exclusions");
        assert!(t.mapped.windows(2).all(|w| w[0].0 < w[1].0), "{what}: mapped");
        assert!(t.decompositions.windows(2).all(|w| w[0].0 < w[1].0), "{what}: decompositions");
        assert!(t.emoji.windows(2).all(|w| w[0][0] <= w[1][0]) && t.emoji.iter().all(|s| s[0] != FE0F), "{what}");
        let words: usize = t.decompositions.iter().map(|(_, items)| 2 + items.len()).sum();
        assert!(words <= MOST_LOOKED && !t.quick_check.is_empty(), "{what}: {words}");
        let quick: u32 = t.quick_check.iter().map(|(first, last)| last - first + 1).sum();
        let classes: u32 = t.classes.iter().map(|(first, last, _)| last - first + 1).sum();
        assert!(quick.max(classes).max(t.exclusions.len() as u32) <= MOST_SAID, "{what}: {quick}, {classes}");
        let pairs = || t.decompositions.iter().filter(|(_, items)| items.len() == 2);
        let [by_items, by_head] = [tries(pairs().map(|(_, d)| (d[0], d[1]))), tries(pairs().map(|(h, _)| (*h, 2)))];
        println!("{what}: decompositions of {words} words, the set {quick}, classes {classes}, tries {by_items:?} {by_head:?}");
        assert!(by_items.is_some_and(|most| most <= 32) && by_head.is_some_and(|most| most <= 32), "{what}");
        assert!(t.decompositions.iter().all(|(_, items)| items.len() <= 2), "{what}: more than two items");
        assert!(stand_in_levels(&t.decompositions), "{what}: too deep");
    }
}

/// Whether the heads stand at most three deep by the filters of `quick_found`.
fn stand_in_levels(records: &[(u32, Vec<u32>)]) -> bool {
    let place = |c: u32| (c % 32_768 + c / 32_768 * 12_345) % 32_768;
    let mut level: Vec<&(u32, Vec<u32>)> = records.iter().collect();
    for _ in 0..3 {
        let filter: HashSet<u32> = level.iter().map(|(head, _)| place(*head)).collect();
        level = records.iter().filter(|(_, items)| items.iter().any(|&c| filter.contains(&place(c)))).collect();
    }
    level.is_empty()
}

/// The slots that one of these asks at most to find a place in the index of
/// `quick_found`; nothing where two are equal.
fn tries(keys: impl Iterator<Item = (u32, u32)>) -> Option<u32> {
    let mut slots = vec![None; 2_048];
    let mut most = 0;
    for (x, y) in keys {
        let start = (x % 2_048 * 83 + y % 2_048) % 2_048;
        let asked = (0..2_048).find(|j| slots[((start + j) % 2_048) as usize].is_none_or(|key| key == (x, y)))?;
        let slot = &mut slots[((start + asked) % 2_048) as usize];
        if slot.replace((x, y)).is_some() {
            return None;
        }
        most = most.max(asked + 1);
    }
    Some(most)
}
