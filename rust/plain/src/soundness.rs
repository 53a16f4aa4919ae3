//! 01, "The soundness check". Each rule is a function of its own that means
//! something on any table; it answers what breaks it. Ranges are handled by
//! their ends, never codepoint by codepoint.

use crate::lookup::{Index, Lookup};
use crate::ranges::Ranges;
use crate::table::{layout, Table};
use crate::text::{four_rounds, hangul_composite, is_jamo, is_syllable, nfc, nfd, one_round};
use crate::tokens::strip;
use crate::{is_scalar, FE0F, STOP};
use answers::Soundness;
use std::collections::{HashMap, HashSet};

/// The rules are numbered from 1 to this.
pub const LAST_RULE: u32 = 8;

/// Syllables and jamo.
const HANGUL: [(u32, u32); 4] = [(0x1100, 0x1112), (0x1161, 0x1175), (0x11A8, 0x11C2), (0xAC00, 0xD7A3)];

fn hex(text: &[u32]) -> String {
    let words: Vec<String> = text.iter().map(|c| format!("{c:X}")).collect();
    words.join(" ")
}

/// The soundness check.
pub fn soundness(words: &[u32]) -> Soundness {
    match soundness_report(words) {
        None => Soundness::Sound,
        Some((rule, _)) => Soundness::Broken(rule),
    }
}

/// The lowest broken rule and the entry that breaks it; `None` where the
/// table is sound.
pub fn soundness_report(words: &[u32]) -> Option<(u32, String)> {
    let table = match layout(words) {
        Ok(table) => table,
        Err(fault) => {
            let text = format!("layout fault: section {}, at word {}: {}", fault.section, fault.word, fault.what);
            return Some((0, text));
        }
    };
    let index = Index::new(&table);
    (1..=LAST_RULE).find_map(|rule| broken(&index, rule).map(|text| (rule, text)))
}

/// What breaks this rule, 1 to 8, whether or not others are broken too.
pub fn broken(index: &Index, rule: u32) -> Option<String> {
    match rule {
        1 => scalar_values(index.table()),
        2 => valid_is_what_groups_need(index),
        3 => mapping_items_valid(index),
        4 => emoji_well_formed(index.table()),
        5 => emoji_apart_from_text(index),
        6 => decomposes_fully(index),
        7 => pairs_distinct(index),
        8 => quick_check_complete(index),
        _ => panic!("there are eight rules"),
    }
}

/// Rule 1: Every codepoint named, those inside pairs and triples included, is a
/// Unicode scalar value.
fn scalar_values(table: &Table) -> Option<String> {
    let bad_range = |first: u32, last: u32| last > 0x10FFFF || (first <= 0xDFFF && last >= 0xD800);
    let pairs = [
        ("valid", table.valid),
        ("ignored", table.ignored),
        ("fenced", table.fenced),
        ("marks", table.marks),
        ("NSM", table.nsm),
        ("should-escape", table.escape),
        ("quick-check", table.quick_check),
    ];
    for (section, pairs) in pairs.into_iter().chain(table.groups.iter().map(|g| ("groups", g.pairs))) {
        if let Some((first, last)) = pairs.iter().find(|&(first, last)| bad_range(first, last)) {
            return Some(format!("{section}: {first:X} to {last:X}"));
        }
    }
    if let Some((first, last, _)) = table.classes.iter().find(|&(first, last, _)| bad_range(first, last)) {
        return Some(format!("classes: {first:X} to {last:X}"));
    }
    let bad = |items: &[u32]| items.iter().any(|&c| !is_scalar(c));
    for (section, records) in [("mapped", &table.mapped), ("decompositions", &table.decompositions)] {
        if let Some(r) = records.iter().find(|r| !is_scalar(r.head) || bad(r.items)) {
            return Some(format!("{section}: {:X} = {}", r.head, hex(r.items)));
        }
    }
    if let Some(sequence) = table.emoji.iter().find(|s| bad(s)) {
        return Some(format!("emoji sequences: {}", hex(sequence)));
    }
    if let Some(sequence) = table.groups.iter().flat_map(|g| g.list.iter().flatten()).find(|s| bad(s)) {
        return Some(format!("groups: the list has {}", hex(sequence)));
    }
    if let Some(&c) = table.exclusions.iter().find(|&&c| !is_scalar(c)) {
        return Some(format!("exclusions: {c:X}"));
    }
    if let Some(whole) = table.wholes.iter().find(|w| bad(w.valid) || bad(w.confused)) {
        return Some(format!("wholes: valid {}, confused {}", hex(whole.valid), hex(whole.confused)));
    }
    None
}

/// The groups' characters and those of their full decompositions. Only heads
/// and syllables decompose to anything but themselves.
fn needed(index: &Index) -> Ranges {
    let table = index.table();
    let of_groups = Ranges::new(table.groups.iter().flat_map(|g| g.pairs.iter()));
    let heads = table.decompositions.iter().map(|r| r.head).filter(|&c| of_groups.holds(c));
    let mut pairs = of_groups.pairs().to_vec();
    for c in heads.chain(of_groups.within(0xAC00, 0xD7A3)) {
        pairs.extend(four_rounds(index, &[c]).into_iter().map(|c| (c, c)));
    }
    Ranges::new(pairs)
}

/// Rule 2: Valid is exactly the groups' characters and those of their full
/// decompositions; 2E and FE0F are not among them.
fn valid_is_what_groups_need(index: &Index) -> Option<String> {
    let needed = needed(index);
    if let Some(c) = index.valid().least_outside(&needed) {
        return Some(format!("valid: {c:X} is of no group and of no full decomposition"));
    }
    if let Some(c) = needed.least_outside(index.valid()) {
        return Some(format!("valid: {c:X} is of a group or its full decomposition, and missing"));
    }
    [STOP, FE0F].into_iter().find(|&c| index.is_valid(c)).map(|c| format!("valid: {c:X}"))
}

/// Rule 3: Every item of a mapping is valid.
fn mapping_items_valid(index: &Index) -> Option<String> {
    let bad = |items: &[u32]| items.iter().any(|&c| !index.is_valid(c));
    let record = index.table().mapped.iter().find(|r| bad(r.items))?;
    Some(format!("mapped: {:X} = {}", record.head, hex(record.items)))
}

/// Rule 4: No emoji sequence holds 2E, starts with FE0F or has two FE0F together;
/// stripped, no two are equal.
fn emoji_well_formed(table: &Table) -> Option<String> {
    let mut seen = HashSet::new();
    for sequence in &table.emoji {
        let bad = sequence.contains(&STOP)
            || sequence[0] == FE0F
            || sequence.windows(2).any(|w| w == [FE0F, FE0F])
            || !seen.insert(strip(sequence));
        if bad {
            return Some(format!("emoji sequences: {}", hex(sequence)));
        }
    }
    None
}

/// Rule 5: No valid codepoint is alone a stripped sequence. Where a proper start
/// of a stripped sequence is itself one, or is one valid codepoint, the next
/// codepoint is neither valid nor first of any sequence.
fn emoji_apart_from_text(index: &Index) -> Option<String> {
    let stripped: Vec<Vec<u32>> = index.table().emoji.iter().map(|s| strip(s)).collect();
    let sequences: HashSet<&[u32]> = stripped.iter().map(|s| &s[..]).collect();
    let firsts: HashSet<u32> = stripped.iter().filter_map(|s| s.first().copied()).collect();
    for s in &stripped {
        let valid_alone = |text: &[u32]| text.len() == 1 && index.is_valid(text[0]);
        if valid_alone(s) {
            return Some(format!("emoji sequences: {} is valid", hex(s)));
        }
        for split in 1..s.len() {
            let (start, next) = (&s[..split], s[split]);
            let parts = sequences.contains(start) || valid_alone(start);
            if parts && (index.is_valid(next) || firsts.contains(&next)) {
                return Some(format!("emoji sequences: {}, after {}", hex(s), hex(start)));
            }
        }
    }
    None
}

/// Rule 6: Four rounds decompose fully: a fifth changes nothing. Heads are
/// distinct; no head is ASCII, a Hangul syllable or a jamo; no class entry
/// gives a jamo or a syllable a class other than 0.
fn decomposes_fully(index: &Index) -> Option<String> {
    let table = index.table();
    let mut heads = HashSet::new();
    for r in &table.decompositions {
        if !heads.insert(r.head) || r.head < 0x80 || is_syllable(r.head) || is_jamo(r.head) {
            return Some(format!("decompositions: {:X} = {}", r.head, hex(r.items)));
        }
    }
    for (first, last, class) in table.classes.iter() {
        if class != 0 && HANGUL.iter().any(|&(from, to)| first <= to && from <= last) {
            return Some(format!("classes: {first:X} to {last:X}, {class}"));
        }
    }
    // Only heads are left to ask: a syllable goes to jamo at once, and no jamo
    // is a head here.
    for r in &table.decompositions {
        let four = four_rounds(index, &[r.head]);
        if one_round(index, &four) != four {
            return Some(format!("decompositions: four rounds do not decompose {:X} fully", r.head));
        }
    }
    None
}

/// The composition pairs: the head and the two items of each.
fn composition_pairs<'i>(index: &'i Index) -> impl Iterator<Item = (u32, u32, u32)> + 'i {
    let table = index.table();
    let excluded: HashSet<u32> = table.exclusions.iter().copied().collect();
    table.decompositions.iter().filter_map(move |r| {
        let [a, b] = *r.items else { return None };
        let pair = !excluded.contains(&r.head) && index.class(r.head) == 0 && index.class(a) == 0;
        pair.then_some((r.head, a, b))
    })
}

/// Rule 7: No two composition pairs are equal, and none is a Hangul pair.
fn pairs_distinct(index: &Index) -> Option<String> {
    let mut seen: HashMap<(u32, u32), u32> = HashMap::new();
    for (head, a, b) in composition_pairs(index) {
        if hangul_composite(a, b).is_some() {
            return Some(format!("decompositions: {head:X} = {a:X} {b:X} is a Hangul pair"));
        }
        if let Some(other) = seen.insert((a, b), head) {
            return Some(format!("decompositions: {head:X} = {a:X} {b:X}, as for {other:X}"));
        }
    }
    None
}

/// Of these codepoints the first that rule 8 asks the quick-check set to hold,
/// and that it does not hold: what it is.
pub fn missing_in_quick_check(index: &Index, asked: impl IntoIterator<Item = u32>) -> Option<String> {
    let set = Ranges::new(index.table().quick_check.iter());
    if set.pairs().is_empty() {
        return None;
    }
    let of_table = composition_pairs(index).map(|(_, _, b)| b);
    let second_items: HashSet<u32> = of_table.chain(0x1161..=0x1175).chain(0x11A8..=0x11C2).collect();
    asked.into_iter().filter(|&c| !set.holds(c)).find_map(|c| {
        if nfc(index, &[c]) != [c] {
            return Some(format!("quick-check: {c:X} is missing, and isn't its own NFC"));
        }
        let first = nfd(index, &[c])[0];
        second_items.contains(&first).then(|| format!("quick-check: {c:X} is missing, and starts with {first:X}"))
    })
}

/// Rule 8: If the quick-check set isn't empty, it holds every codepoint that
/// isn't its own NFC and every one whose full decomposition starts with the
/// second item of a composition pair, Hangul included.
fn quick_check_complete(index: &Index) -> Option<String> {
    // What no record names, and isn't Hangul, is its own full decomposition and
    // no second item; a syllable none of whose jamo a record names is made of
    // them by arithmetic alone.
    let records = &index.table().decompositions;
    let mut named: Vec<u32> = records.iter().flat_map(|r| r.items.iter().copied().chain([r.head])).collect();
    named.sort_unstable();
    named.dedup();
    let syllables = if named.iter().any(|&c| is_jamo(c)) { 0xAC00..0xD7A4 } else { 0..0 };
    let jamo = HANGUL[..3].iter().flat_map(|&(first, last)| first..=last);
    missing_in_quick_check(index, named.into_iter().chain(jamo).chain(syllables))
}
