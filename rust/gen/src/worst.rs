//! Tables that make one job long: each fills the 131,074 words with what that
//! job reads most often.

pub mod texts;

use crate::Rng;
use plain::limits::TABLE_WORDS;
use plain::Soundness::{self, Broken, Sound};
use plain::TableBuilder;

/// The first codepoint used; all from here to 10FFFF are scalar values.
const FIRST: u32 = 0x20000;

/// Hangul syllables.
const SYLLABLES: (u32, u32) = (0xAC00, 0xD7A3);

/// A table for the soundness check, and what the check has to answer.
pub struct Hard {
    pub name: &'static str,
    pub table: fn() -> TableBuilder,
    pub answer: Soundness,
}

/// Long sections: what is asked of each entry is asked of every other.
pub const LONG: [Hard; 25] = [
    Hard { name: "wide ranges", table: wide_ranges, answer: Broken(1) },
    Hard { name: "wide classes", table: wide_classes, answer: Broken(1) },
    Hard { name: "many ignored pairs", table: many_ignored, answer: Sound },
    Hard { name: "many wholes", table: many_wholes, answer: Sound },
    Hard { name: "many valid pairs in one group", table: many_valid, answer: Sound },
    Hard { name: "many pairs of one group", table: many_group_pairs, answer: Sound },
    Hard { name: "single codepoints, valid and of a group", table: single_pairs, answer: Sound },
    Hard { name: "single codepoints, of 256 groups", table: many_groups, answer: Sound },
    Hard { name: "single codepoints of a group before a pair of all", table: covered_singles, answer: Sound },
    Hard { name: "wide pairs of one group", table: wide_pairs, answer: Sound },
    Hard { name: "records of codepoints to themselves", table: to_themselves, answer: Sound },
    Hard { name: "many mappings", table: many_mappings, answer: Sound },
    Hard { name: "emoji of one codepoint", table: single_emoji, answer: Sound },
    Hard { name: "emoji after a valid codepoint", table: emoji_after_valid, answer: Sound },
    Hard { name: "long emoji that start alike", table: long_emoji, answer: Sound },
    Hard { name: "long emoji that start alike and go on valid", table: long_emoji_valid, answer: Sound },
    Hard { name: "emoji of six that start alike by chance", table: emoji_by_chance, answer: Sound },
    Hard { name: "composition pairs and exclusions", table: pairs_and_exclusions, answer: Sound },
    Hard { name: "composition pairs and classes", table: pairs_and_classes, answer: Sound },
    Hard {
        name: "a composition pair, and its items with heads excluded last",
        table: pairs_excluded_last,
        answer: Sound,
    },
    Hard { name: "composition pairs outside the set", table: pairs_outside, answer: Sound },
    Hard { name: "the same, and a second item outside the set", table: second_outside, answer: Sound },
    Hard { name: "heads that all grow", table: growing_heads, answer: Broken(6) },
    Hard { name: "items that no group holds", table: many_items, answer: Sound },
    Hard { name: "chains of four rounds", table: long_chains, answer: Sound },
];

/// Decompositions that grow or share items: a check that decomposes codepoint by
/// codepoint takes many minutes on some of these.
pub const DEEP: [Hard; 6] = [
    Hard { name: "heads that become 256", table: deep_heads, answer: Sound },
    Hard { name: "heads that become 256, and a long valid section", table: deep_heads_long_valid, answer: Sound },
    Hard { name: "many ways up", table: many_ways_up, answer: Sound },
    Hard { name: "jamo of syllables beside deep heads", table: jamo_of_syllables, answer: Sound },
    Hard { name: "thousands that come from syllables alone", table: from_syllables, answer: Broken(6) },
    Hard { name: "the same, and a long group", table: from_syllables_long_group, answer: Broken(6) },
];

/// For refusal 13: each of nine codepoints decomposes to four of the next, so
/// that the text of four times the first that 13 looks at has 262,144
/// codepoints, all of this class.
pub fn deep_text(nsm: Vec<(u32, u32)>, class: u32) -> TableBuilder {
    let at = |k: u32| DEEP_TEXT + k;
    TableBuilder {
        valid: vec![(at(0), at(8))],
        nsm,
        decompositions: (0..8).map(|k| (at(k), vec![at(k + 1); 4])).collect(),
        classes: vec![(at(8), at(8), class)],
        groups: vec![(0, vec![(at(0), at(8))])],
        ..TableBuilder::default()
    }
}

/// The first of its codepoints.
pub const DEEP_TEXT: u32 = 0xE000;

/// An NSM section that fills the table, with none of those codepoints.
pub fn long_nsm() -> Vec<(u32, u32)> {
    singles(FIRST, 65_000, 1)
}

/// For refusal 14: a whole of 60,000 confused members, and a group of 30,000
/// pairs, of which none looks like another, so that every confused character is
/// asked against all.
pub fn wide_whole() -> TableBuilder {
    let members = 60_000;
    TableBuilder {
        valid: vec![(FIRST, FIRST + members)],
        groups: vec![(0, vec![(FIRST, FIRST + 1_023)]), (0, singles(FIRST + 2_000, 30_000, 2))],
        wholes: vec![(vec![], (FIRST..FIRST + members).collect())],
        ..TableBuilder::default()
    }
}

/// Its first `count` confused characters.
pub fn confused(count: u32) -> Vec<u32> {
    (FIRST..FIRST + count).collect()
}

/// The same entries in random order, always the same.
pub fn shuffled<T>(mut entries: Vec<T>) -> Vec<T> {
    Rng::new(40).shuffle(&mut entries);
    entries
}

/// The same table, the entries of each section in random order: each
/// comparison's branch is then a guess.
pub fn in_random_order(table: TableBuilder) -> TableBuilder {
    TableBuilder {
        valid: shuffled(table.valid),
        ignored: shuffled(table.ignored),
        fenced: shuffled(table.fenced),
        marks: shuffled(table.marks),
        nsm: shuffled(table.nsm),
        mapped: shuffled(table.mapped),
        decompositions: shuffled(table.decompositions),
        emoji: shuffled(table.emoji),
        exclusions: shuffled(table.exclusions),
        classes: shuffled(table.classes),
        groups: table.groups.into_iter().map(|(flags, pairs)| (flags, shuffled(pairs))).collect(),
        lists: table.lists,
        wholes: shuffled(table.wholes),
        escape: shuffled(table.escape),
        quick_check: shuffled(table.quick_check),
    }
}

/// How many records of so many words fit beside `other` words, the counts of
/// the sections and of the exclusions.
fn fit(words: usize, other: usize) -> u32 {
    ((TABLE_WORDS - 15 - other) / words) as u32
}

/// So many codepoints from `first` on, each a pair of its own, `step` apart.
fn singles(first: u32, count: u32, step: u32) -> Vec<(u32, u32)> {
    (0..count).map(|i| (first + step * i, first + step * i)).collect()
}

/// Wide ranges, overlapping and repeated.
pub fn wide_ranges() -> TableBuilder {
    let wide: Vec<(u32, u32)> = (0..16_000).map(|i| (i % 3, 0xFFFF_FFFF - i % 5)).collect();
    TableBuilder { valid: wide.clone(), groups: vec![(0, wide)], ..TableBuilder::default() }
}

/// Wide class entries, each in the one before.
pub fn wide_classes() -> TableBuilder {
    let classes = (0..43_000).map(|i| (i, 0xFFFF_FFFF - i, i % 256)).collect();
    TableBuilder { classes, ..TableBuilder::default() }
}

/// A section of pairs that rule 1 alone reads.
pub fn many_ignored() -> TableBuilder {
    TableBuilder { ignored: singles(FIRST, fit(2, 0), 2), ..TableBuilder::default() }
}

/// Wholes of two members.
pub fn many_wholes() -> TableBuilder {
    let wholes = (0..fit(4, 0)).map(|i| (vec![FIRST + i], vec![FIRST + i])).collect();
    TableBuilder { wholes, ..TableBuilder::default() }
}

/// One range, given as pairs of one codepoint each in valid.
pub fn many_valid() -> TableBuilder {
    let count = fit(2, 4);
    TableBuilder {
        valid: singles(FIRST, count, 1),
        groups: vec![(0, vec![(FIRST, FIRST + count - 1)])],
        ..TableBuilder::default()
    }
}

/// One range, given as pairs of one codepoint each in a group.
pub fn many_group_pairs() -> TableBuilder {
    let count = fit(2, 4);
    TableBuilder {
        valid: vec![(FIRST, FIRST + count - 1)],
        groups: vec![(0, singles(FIRST, count, 1))],
        ..TableBuilder::default()
    }
}

/// Codepoints two apart, valid and of one group: each end has to be asked.
pub fn single_pairs() -> TableBuilder {
    let pairs = singles(FIRST, fit(4, 2), 2);
    TableBuilder { valid: pairs.clone(), groups: vec![(0, pairs)], ..TableBuilder::default() }
}

/// The same, of 256 groups.
pub fn many_groups() -> TableBuilder {
    let pairs = singles(FIRST, fit(4, 512), 2);
    let groups = pairs.chunks(pairs.len().div_ceil(256)).map(|p| (0, p.to_vec())).collect();
    TableBuilder { valid: pairs, groups, ..TableBuilder::default() }
}

/// Codepoints two apart of one group, and a pair of all of them last: each end
/// has to be asked, and is found last.
pub fn covered_singles() -> TableBuilder {
    let count = fit(2, 6);
    let all = (FIRST, FIRST + 2 * count);
    TableBuilder {
        valid: vec![all],
        groups: vec![(0, [singles(FIRST, count, 2), vec![all]].concat())],
        ..TableBuilder::default()
    }
}

/// One range of all planes but the first, again and again.
pub fn wide_pairs() -> TableBuilder {
    let all = (0x10000, 0x10FFFF);
    let pairs = vec![all; fit(2, 4) as usize];
    TableBuilder { valid: vec![all], groups: vec![(0, pairs)], ..TableBuilder::default() }
}

/// Records that leave their heads as they are, each of which is looked up to be
/// seen to be so.
pub fn to_themselves() -> TableBuilder {
    let decompositions = (0..fit(3, 0)).map(|i| (FIRST + i, vec![FIRST + i])).collect();
    TableBuilder { decompositions, ..TableBuilder::default() }
}

/// Mappings of 32 items, each the last one of a long valid section.
pub fn many_mappings() -> TableBuilder {
    let valid = 20_000;
    let last = FIRST + valid - 1;
    let records = fit(34, 2 * valid as usize + 4);
    TableBuilder {
        valid: singles(FIRST, valid, 1),
        mapped: (0..records).map(|i| (last + 1 + i, vec![last; 32])).collect(),
        groups: vec![(0, vec![(FIRST, last)])],
        ..TableBuilder::default()
    }
}

/// Emoji of one codepoint each.
pub fn single_emoji() -> TableBuilder {
    let emoji = (0..fit(2, 0)).map(|i| vec![FIRST + i]).collect();
    TableBuilder { emoji, ..TableBuilder::default() }
}

/// Emoji of two codepoints, the first valid: rule 5 asks of the second whether
/// it is valid or starts a sequence.
pub fn emoji_after_valid() -> TableBuilder {
    let one = vec![(FIRST, FIRST)];
    let emoji = (0..fit(3, 6)).map(|i| vec![FIRST, FIRST + 1 + i]).collect();
    TableBuilder { valid: one.clone(), emoji, groups: vec![(0, one)], ..TableBuilder::default() }
}

/// Emoji of 32 codepoints that differ in the last.
pub fn long_emoji() -> TableBuilder {
    let start: Vec<u32> = (0..31).map(|i| FIRST + i).collect();
    let emoji = (0..fit(33, 0)).map(|i| [&start[..], &[FIRST + 31 + i]].concat()).collect();
    TableBuilder { emoji, ..TableBuilder::default() }
}

/// The same, of which all but the first and the last are valid, so that rule 5
/// asks of every start whether it is a sequence.
pub fn long_emoji_valid() -> TableBuilder {
    let valid = vec![(FIRST + 1, FIRST + 30)];
    let mut table = long_emoji();
    table.emoji.truncate(fit(33, 6) as usize);
    TableBuilder { valid: valid.clone(), groups: vec![(0, valid)], ..table }
}

/// Emoji of six codepoints: the first is one that is not valid, the last its
/// own, and between them stand two valid ones in random order, so that where two
/// sequences differ is a guess.
pub fn emoji_by_chance() -> TableBuilder {
    let mut rng = Rng::new(40);
    let emoji = (0..fit(7, 6)).map(|i| {
        let between = (0..4).map(|_| rng.code(FIRST + 1, FIRST + 2)).collect::<Vec<u32>>();
        [&[FIRST], &between[..], &[FIRST + 3 + i]].concat()
    });
    let valid = vec![(FIRST + 1, FIRST + 2)];
    TableBuilder { valid: valid.clone(), emoji: emoji.collect(), groups: vec![(0, valid)], ..TableBuilder::default() }
}

/// So many two-item decompositions, all different.
fn pairs(count: u32) -> Vec<(u32, Vec<u32>)> {
    (0..count).map(|i| (FIRST + i, vec![0xF0000, 0xF0000 + i])).collect()
}

/// Composition pairs, and as many words of exclusions that name none of them.
pub fn pairs_and_exclusions() -> TableBuilder {
    let count = fit(8, 0);
    let exclusions = (0..4 * count).map(|i| 0x40000 + i).collect();
    TableBuilder { decompositions: pairs(count), exclusions, ..TableBuilder::default() }
}

/// One composition pair, and behind it records with the same items whose heads
/// stand last among the exclusions: each is asked for by itself and by the pair.
pub fn pairs_excluded_last() -> TableBuilder {
    let count = 13_000;
    let others = (0..fit(1, 5 * count as usize)).map(|i| 0x40000 + i);
    TableBuilder {
        decompositions: (0..count).map(|i| (FIRST + i, vec![0xF0000, 0xF0001])).collect(),
        exclusions: others.chain(FIRST + 1..FIRST + count).collect(),
        ..TableBuilder::default()
    }
}

/// Composition pairs, and as many words of class entries for others.
pub fn pairs_and_classes() -> TableBuilder {
    let count = fit(8, 0);
    let classes = (0..4 * count / 3).map(|i| (0x40000 + i, 0x40000 + i, 230)).collect();
    TableBuilder { decompositions: pairs(count), classes, ..TableBuilder::default() }
}

/// The vowels and the trailing consonants, which every quick-check set has.
const HANGUL_SECONDS: [(u32, u32); 2] = [(0x1161, 0x1175), (0x11A8, 0x11C2)];

/// Composition pairs whose second items are in the quick-check set and whose
/// heads are not: each is composed again.
pub fn pairs_outside() -> TableBuilder {
    let count = fit(4, 8);
    let decompositions = (0..count).map(|i| (FIRST + i, vec![0xE0000, 0xF0000 + i])).collect();
    let quick_check = [&HANGUL_SECONDS[..], &[(0xF0000, 0xF0000 + count)]].concat();
    TableBuilder { decompositions, quick_check, ..TableBuilder::default() }
}

/// The same, and one second item is a head that the set does not hold: it is
/// asked of each head whether it starts with a second item.
pub fn second_outside() -> TableBuilder {
    let mut table = pairs_outside();
    let last = table.decompositions.last_mut().expect("many");
    last.1[1] = FIRST;
    table.quick_check.push((last.0, last.0));
    table
}

/// Every head decomposes to four times the next one.
pub fn growing_heads() -> TableBuilder {
    let last = FIRST + 0x5000;
    TableBuilder {
        valid: vec![(FIRST, last)],
        decompositions: (FIRST..last).map(|h| (h, vec![h + 1; 4])).collect(),
        groups: vec![(0, vec![(FIRST, last)])],
        ..TableBuilder::default()
    }
}

/// The codepoint that every one of `deep` becomes 256 times.
const DEEP_END: u32 = FIRST - 1;

/// So many heads from FIRST on, of which each becomes 256 codepoints in four
/// rounds. What they share stands behind them.
fn deep(count: u32) -> Vec<(u32, Vec<u32>)> {
    let shared = [DEEP_END - 3, DEEP_END - 2, DEEP_END - 1, DEEP_END];
    let heads = (0..count).map(|i| (FIRST + i, vec![shared[0]; 4]));
    heads.chain((0..3).map(|k| (shared[k], vec![shared[k + 1]; 4]))).collect()
}

/// `count` of the deep heads, all of one group, and other records, pairs of
/// that group and valid pairs behind them.
fn beside_deep(
    count: u32,
    others: Vec<(u32, Vec<u32>)>,
    group: Vec<(u32, u32)>,
    valid: Vec<(u32, u32)>,
) -> TableBuilder {
    let own = [(DEEP_END, FIRST + count - 1)];
    TableBuilder {
        valid: [&own[..], &group, &valid].concat(),
        decompositions: [deep(count), others].concat(),
        groups: vec![(0, [&own[..], &group].concat())],
        ..TableBuilder::default()
    }
}

/// Sound: heads that become 256 codepoints each.
pub fn deep_heads() -> TableBuilder {
    beside_deep(fit(6, 24), vec![], vec![], vec![])
}

/// Sound: half as many, and the valid ones behind a pair that is repeated.
pub fn deep_heads_long_valid() -> TableBuilder {
    let count = fit(12, 30);
    let mut table = beside_deep(count, vec![], vec![], vec![]);
    table.valid.splice(0..0, vec![(FIRST, FIRST); 3 * count as usize]);
    table
}

/// Sound: decompositions to four codepoints each that are valid and of no
/// group, so that for each of them its head has to be found.
pub fn many_items() -> TableBuilder {
    let heads = fit(6, 8);
    let item = |i: u32| FIRST + heads + i;
    TableBuilder {
        valid: vec![(FIRST, item(4 * heads) - 1)],
        decompositions: (0..heads).map(|i| (FIRST + i, (4 * i..4 * i + 4).map(item).collect())).collect(),
        groups: vec![(0, vec![(FIRST, FIRST + heads - 1)])],
        ..TableBuilder::default()
    }
}

/// As many chains as fit.
pub fn long_chains() -> TableBuilder {
    chains(fit(12, 10))
}

/// Sound: chains of one-item decompositions, four long; the last of each chain
/// is valid and of no group.
pub fn chains(chains: u32) -> TableBuilder {
    let at = |round: u32, i: u32| FIRST + round * chains + i;
    let of_round = |round: u32| (0..chains).map(move |i| (at(round, i), vec![at(round + 1, i)]));
    TableBuilder {
        valid: vec![(at(0, 0), at(0, chains - 1)), (at(4, 0), at(4, chains - 1))],
        decompositions: (0..4).rev().flat_map(of_round).collect(),
        groups: vec![(0, vec![(at(0, 0), at(0, chains - 1))])],
        ..TableBuilder::default()
    }
}

/// Sound: 16 codepoints come from syllables and also, on 64 ways each, from
/// every one of thousands of heads that no group holds.
pub fn many_ways_up() -> TableBuilder {
    let layer = |k: u32| (0..4).map(move |i| FIRST - 16 + 4 * k + i);
    let vowels = |i: u32| (0..4).map(move |j| 0x1161 + 4 * i + j);
    let top = (0..fit(6, 100)).map(|i| (FIRST + i, layer(0).collect()));
    let between = (0..2).flat_map(|k| layer(k).map(move |h| (h, layer(k + 1).collect())));
    let last = layer(2).zip(0..).map(|(h, i)| (h, vowels(i).collect()));
    let group = vec![(0x1100, 0x1112), (0x1171, 0x1175), (0x11A8, 0x11C2), SYLLABLES];
    TableBuilder {
        valid: [&group[..], &[(0x1161, 0x1170)]].concat(),
        decompositions: top.chain(between).chain(last).collect(),
        groups: vec![(0, group)],
        ..TableBuilder::default()
    }
}

/// Sound: the jamo are valid but of no group, and come from syllables alone,
/// beside thousands of deep heads of a group.
pub fn jamo_of_syllables() -> TableBuilder {
    let jamo = vec![(0x1100, 0x1112), (0x1161, 0x1175), (0x11A8, 0x11C2)];
    beside_deep(fit(6, 40), vec![], vec![SYLLABLES], jamo)
}

/// Records by which every jamo becomes 64 codepoints of its own in three
/// rounds, and the first and the last of these 4,288.
fn spelled_jamo() -> (Vec<(u32, Vec<u32>)>, (u32, u32)) {
    const JAMO: u32 = 67;
    let jamo = (0x1100..=0x1112).chain(0x1161..=0x1175).chain(0x11A8..=0x11C2);
    let at = |round: u32, i: u32| 0xF0000 + 0x2000 * round + i;
    let four = |round: u32, i: u32| (4 * i..4 * i + 4).map(move |k| at(round, k)).collect::<Vec<u32>>();
    let mut records: Vec<(u32, Vec<u32>)> = jamo.zip(0..).map(|(c, i)| (c, four(1, i))).collect();
    for (round, heads) in [(1, 4 * JAMO), (2, 16 * JAMO)] {
        records.extend((0..heads).map(|i| (at(round, i), four(round + 1, i))));
    }
    (records, (at(3, 0), at(3, 64 * JAMO - 1)))
}

/// 4,288 valid codepoints that come from syllables alone, beside thousands of
/// deep heads; a group holds these and the syllables. Rule 6 forbids the jamo's
/// records, but is tried behind rule 2.
pub fn from_syllables() -> TableBuilder {
    let (records, last) = spelled_jamo();
    let deep = fit(6, 6 * records.len() + 40);
    beside_deep(deep, records, vec![SYLLABLES], vec![last])
}

/// The same codepoints; the group has the syllables behind a pair that is
/// repeated.
pub fn from_syllables_long_group() -> TableBuilder {
    let (records, last) = spelled_jamo();
    let one = (FIRST, FIRST);
    let pairs = fit(2, 6 * records.len() + 20) as usize;
    TableBuilder {
        valid: vec![one, SYLLABLES, last],
        decompositions: records,
        groups: vec![(0, [vec![one; pairs], vec![SYLLABLES]].concat())],
        ..TableBuilder::default()
    }
}

#[cfg(test)]
mod tests {
    use super::*;

    #[test]
    fn each_table_has_its_answer_by_the_plain_version() {
        for hard in LONG.iter().chain(&DEEP) {
            for table in [(hard.table)(), in_random_order((hard.table)())] {
                let words = table.to_words();
                assert!((60_000..=TABLE_WORDS).contains(&words.len()), "{}: {} words", hard.name, words.len());
                assert_eq!(plain::soundness(&words), hard.answer, "{}", hard.name);
            }
        }
    }
}
