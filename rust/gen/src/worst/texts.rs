//! Tables and texts that make one call long: what is walked through for each
//! codepoint, or for each pair of them, fills the table. docs/BOUNDS.md has the
//! walks that they are made for.

use super::{fit, shuffled, singles, DEEP_TEXT, FIRST};
use plain::book::{FORM, SLOTS};
use plain::limits::{INPUT, WORKED};
use plain::TableBuilder;

/// A call that is lent a text; `Moved` a book of texts.
#[derive(Clone, Copy, Debug, PartialEq, Eq)]
pub enum Call {
    Name,
    Label,
    Group,
    Emoji,
    Screen,
    Report,
    Respelled,
    Moved,
    Nfd,
    Nfc,
}

/// A call that takes long: on `most` codepoints, or on fewer. For `Moved` so many
/// slots are filled, and the text of a number is the name in that slot.
pub struct Long {
    pub what: &'static str,
    pub call: Call,
    pub table: fn() -> TableBuilder,
    pub text: fn(usize) -> Vec<u32>,
    /// Codepoints to start with.
    pub first: usize,
    /// Codepoints that make it longest within the limits.
    pub most: usize,
    /// What the call answers on the first.
    pub number: u32,
}

/// Wholes in turn, one more than a call remembers.
const PAST: usize = 9;

/// Codepoints that become 256 each, within the worked length.
const DEEP: usize = WORKED / 256;

/// One row of the list below.
const fn long(
    what: &'static str,
    call: Call,
    table: fn() -> TableBuilder,
    text: fn(usize) -> Vec<u32>,
    range: [usize; 2],
    number: u32,
) -> Long {
    Long { what, call, table, text, first: range[0], most: range[1], number }
}

/// Where a row says "in random order", each comparison's branch is a guess.
pub const TEXTS: [Long; 62] = [
    long("scan: emoji of one codepoint", Call::Name, emoji_beside, letter_a, [16, INPUT], 0),
    long("scan: long emoji that start alike", Call::Name, emoji_alike, letter_a, [16, INPUT], 0),
    long("scan: emoji that start with FE0F", Call::Name, emoji_of_selectors, letter_a, [16, INPUT], 0),
    long("scan: emoji that match, in random order", Call::Name, emoji_matching, letter_a, [16, INPUT], 0),
    long("scan: valid behind others", Call::Name, valid_last, letter_a, [16, INPUT], 0),
    long("scan: valid, in random order", Call::Name, valid_random, letter_a, [16, INPUT], 0),
    long("scan: mapped behind others", Call::Name, mapped_last, capital_a, [16, INPUT], 0),
    long("scan: ignored, in random order", Call::Name, ignored_random, joiners, [16, INPUT], 0),
    long("scan: a valid codepoint that becomes 256", Call::Name, valid_deep, deep, [1, INPUT], 12),
    long("scan: a valid codepoint that becomes another four times", Call::Name, valid_chain, deep, [16, INPUT], 12),
    long("scan: a mapping to 32 that become 256 each", Call::Name, mapped_deep, capital_a, [1, INPUT], 7),
    long("classes, in random order", Call::Name, classes_random, letter_a, [16, WORKED], 0),
    long("ordering: classes that fall", Call::Name, falling_classes, falling, [16, WORKED], 0),
    long("composition: pairs whose head has a class", Call::Name, pairs_with_class, letter_a, [2, WORKED], 0),
    long("the same, classes in random order", Call::Name, pairs_with_class_random, letter_a, [2, WORKED], 0),
    long("composition: pairs whose head is excluded", Call::Name, pairs_excluded, letters_ab, [2, WORKED], 0),
    long("the same, of two equal items", Call::Name, pairs_excluded_equal, letter_a, [2, WORKED], 0),
    long("composition: other records, in random order", Call::Name, pairs_random, letters_ab, [2, WORKED], 0),
    long("10: fenced, in random order", Call::Name, fenced_random, own, [16, WORKED], 0),
    long("11: marks behind emoji, in random order", Call::Name, marks_random, own_parted, [16, WORKED], 0),
    long("12: a group's pairs, in random order", Call::Name, group_random, own, [16, WORKED], 0),
    long("13: 43,000 records, 256 of each codepoint", Call::Name, records_13, deep, [1, DEEP], 0),
    long("13: NSM in random order", Call::Name, nsm_13, deep, [1, DEEP], 0),
    long("13: the same, 256 different codepoints", Call::Name, nsm_13_different, deep, [1, DEEP], 0),
    long("13: classes in random order", Call::Name, classes_13, deep, [1, DEEP], 0),
    long("16: marks in random order", Call::Name, marks_16, marked, [16, WORKED], 0),
    long("16: a list that has every sequence last", Call::Name, list_16, marked, [16, WORKED], 0),
    long("14: many wholes", Call::Name, wholes_14, own, [16, WORKED], 0),
    long("14: a whole of 65,536 in random order", Call::Name, whole_14, own, [1, WORKED], 0),
    long("14: the same, pairs in order", Call::Name, whole_14_in_order, own, [1, WORKED], 0),
    long("14: the same, pairs that hold all", Call::Name, whole_14_wide, own, [1, WORKED], 0),
    long("14: the same, labels of one codepoint", Call::Name, whole_14, labels_in_turn::<1>, [1, WORKED], 0),
    long("14: the same, labels of 64 codepoints", Call::Name, whole_14, own_in_labels, [64, WORKED], 0),
    long("14: 2 wholes in turn", Call::Name, wholes_in_turn::<2>, labels_in_turn::<2>, [3, WORKED], 0),
    long("14: 9 wholes in turn", Call::Name, wholes_in_turn::<PAST>, labels_in_turn::<PAST>, [2 * PAST - 1, WORKED], 0),
    long("14: 9 wholes in turn, one label", Call::Name, wholes_in_turn::<PAST>, in_turn::<PAST>, [PAST, WORKED], 0),
    long("14: the same, members that fall", Call::Name, wholes_falling::<PAST>, in_turn::<PAST>, [PAST, WORKED], 0),
    long("14: the same, pairs that hold a member", Call::Name, wholes_held::<PAST>, in_turn::<PAST>, [PAST, WORKED], 0),
    long("14: 64 wholes in turn", Call::Name, wholes_in_turn::<64>, labels_in_turn::<64>, [127, WORKED], 0),
    long("14: a whole for each codepoint", Call::Name, whole_each, in_turn::<WORKED>, [16, WORKED], 0),
    long("14: a codepoint of many confused lists", Call::Name, wholes_alike, own, [16, WORKED], 0),
    long("label: 13, 43,000 records", Call::Label, records_13, deep, [1, DEEP], 0),
    long("label: 14, 9 wholes in turn", Call::Label, wholes_falling::<PAST>, in_turn::<PAST>, [PAST, WORKED], 0),
    long("group: pairs in random order", Call::Group, group_random, own, [16, INPUT], 0),
    long("emoji: long ones that start alike", Call::Emoji, emoji_alike, letter_a, [16, INPUT], 0),
    long("emoji: that match, in random order", Call::Emoji, emoji_matching, letter_a, [16, INPUT], 0),
    long("screen form: emoji behind others", Call::Screen, emoji_last, letter_a, [16, WORKED], 0),
    long("screen form: an empty emoji behind others", Call::Screen, selectors_last, selectors_parted, [16, INPUT], 0),
    long("screen form: long emoji that start alike", Call::Screen, emoji_alike, letter_a, [16, WORKED], 0),
    long("report: emoji side by side, in random order", Call::Report, emoji_matching, letter_a, [16, WORKED], 0),
    long("report: an empty emoji behind others", Call::Report, selectors_last, selectors_parted, [16, INPUT], 0),
    long("report: should-escape, in random order", Call::Report, escape_random, own, [16, WORKED], 0),
    long("respelled: 9 wholes in turn", Call::Respelled, wholes_respelled::<PAST>, in_turn::<PAST>, [PAST, WORKED], 0),
    long("moved: 13, 43,000 records", Call::Moved, records_13, deep_in_slot, [1, SLOTS], 0),
    long("moved: 14, 9 wholes in turn", Call::Moved, wholes_falling::<PAST>, wholes_in_slot::<PAST>, [1, SLOTS], 0),
    long("NFD: a codepoint that becomes 256", Call::Nfd, valid_deep, deep, [1, DEEP], 0),
    long("NFD: a codepoint that becomes another four times", Call::Nfd, valid_chain, deep, [16, WORKED], 0),
    long("NFD: classes, in random order", Call::Nfd, classes_random, letter_a, [16, WORKED], 0),
    long("NFD: classes that fall", Call::Nfd, falling_classes, falling, [16, WORKED], 0),
    long("NFC: pairs whose head has a class", Call::Nfc, pairs_with_class, letter_a, [2, WORKED], 0),
    long("NFC: pairs whose head is excluded", Call::Nfc, pairs_excluded_equal, letter_a, [2, WORKED], 0),
    long("NFC: codepoints that become 256 in such pairs", Call::Nfc, deep_pairs, deep, [1, DEEP], 0),
];

// The texts.

fn letter_a(count: usize) -> Vec<u32> {
    vec![0x61; count]
}

fn capital_a(count: usize) -> Vec<u32> {
    vec![0x41; count]
}

fn letters_ab(count: usize) -> Vec<u32> {
    [0x61, 0x62].into_iter().cycle().take(count).collect()
}

/// 61 and ignored codepoints behind it.
fn joiners(count: usize) -> Vec<u32> {
    std::iter::once(0x61).chain(vec![0x34F; count - 1]).collect()
}

/// FE0F, each with an ignored codepoint behind it.
fn selectors_parted(count: usize) -> Vec<u32> {
    [0xFE0F, 0x34F].into_iter().cycle().take(count).collect()
}

/// The first of those that decompose deeply.
fn deep(count: usize) -> Vec<u32> {
    vec![DEEP_TEXT; count]
}

/// As many as the worked length allows, one of them the next of its kind, so
/// that no slot has the name of another.
fn deep_in_slot(slot: usize) -> Vec<u32> {
    let mut text = deep(DEEP);
    text[slot % DEEP] = DEEP_TEXT + 1 + (slot / DEEP) as u32;
    text
}

/// COUNT codepoints from OWN on in turn, as many as a slot holds but for its
/// number.
fn wholes_in_slot<const COUNT: usize>(slot: usize) -> Vec<u32> {
    in_turn::<COUNT>(FORM - slot)
}

/// The one character of a group.
const OWN: u32 = 0x3042;

fn own(count: usize) -> Vec<u32> {
    vec![OWN; count]
}

/// COUNT codepoints from OWN on, again and again.
fn in_turn<const COUNT: usize>(count: usize) -> Vec<u32> {
    (0..count).map(|i| OWN + (i % COUNT) as u32).collect()
}

/// The same, each a label; no stop stands last.
fn labels_in_turn<const COUNT: usize>(count: usize) -> Vec<u32> {
    let label = |i: usize| OWN + (i / 2 % COUNT) as u32;
    (0..count).map(|i| if i % 2 == 1 && i + 1 < count { 0x2E } else { label(i) }).collect()
}

/// The character of the group in labels of 64, the most that 14 looks at before
/// it finds a component; no stop stands last.
fn own_in_labels(count: usize) -> Vec<u32> {
    (0..count).map(|i| if i % 65 == 64 && i + 1 < count { 0x2E } else { OWN }).collect()
}

const EMOJI: u32 = 0x1F4A9;

/// The same, each behind an emoji.
fn own_parted(count: usize) -> Vec<u32> {
    [EMOJI, OWN].into_iter().cycle().take(count).collect()
}

const MARK: u32 = 0x3099;

/// The character of the group and a mark, again and again.
fn marked(count: usize) -> Vec<u32> {
    [OWN, MARK].into_iter().cycle().take(count).collect()
}

/// Marks of the classes 254 down to 1, again and again: each passes all that
/// follow it and are lower.
fn falling(count: usize) -> Vec<u32> {
    (0..count).map(|i| FIRST + (254 * i / count) as u32).collect()
}

// The tables.

fn one(c: u32) -> (u32, u32) {
    (c, c)
}

/// 61 and 62 are valid, which is enough for kind ASCII.
fn ascii() -> TableBuilder {
    TableBuilder { valid: vec![(0x61, 0x62)], ..TableBuilder::default() }
}

/// OWN is valid and alone in a whitelisted group.
fn own_group() -> TableBuilder {
    TableBuilder { valid: vec![one(OWN)], groups: vec![(2, vec![one(OWN)])], ..TableBuilder::default() }
}

/// Half of these codepoints are below c, which is below FIRST, the others above
/// it, in random order: neither test of a pair can be foretold.
fn around(c: u32, count: u32) -> Vec<u32> {
    shuffled((0..count).map(|i| if i % 2 == 0 { i % c } else { FIRST + i }).collect())
}

/// Each of them as a pair.
fn pairs_around(c: u32, count: u32) -> Vec<(u32, u32)> {
    around(c, count).into_iter().map(one).collect()
}

/// Each of them as a triple of one class.
fn classes_around(c: u32, count: u32) -> Vec<(u32, u32, u32)> {
    around(c, count).into_iter().map(|d| (d, d, 230)).collect()
}

fn emoji_beside() -> TableBuilder {
    let emoji = (0..fit(2, 4)).map(|i| vec![FIRST + i]).collect();
    TableBuilder { emoji, ..ascii() }
}

/// Emoji of one codepoint, and this one behind them.
fn emoji_before(last: Vec<u32>, other: usize) -> Vec<Vec<u32>> {
    let count = fit(2, last.len() + 1 + other);
    (0..count).map(|i| vec![FIRST + i]).chain([last]).collect()
}

fn emoji_last() -> TableBuilder {
    TableBuilder { emoji: emoji_before(vec![0x61, 0xFE0F], 4), ..ascii() }
}

fn selectors_last() -> TableBuilder {
    TableBuilder { emoji: emoji_before(vec![0xFE0F; 32], 6), ignored: vec![one(0x34F)], ..ascii() }
}

fn emoji_alike() -> TableBuilder {
    let emoji = (0..fit(33, 4)).map(|i| [&[0x61; 31][..], &[FIRST + i]].concat()).collect();
    TableBuilder { emoji, ..ascii() }
}

/// None is passed over by its first codepoint.
fn emoji_of_selectors() -> TableBuilder {
    let emoji = (0..fit(33, 4)).map(|i| [&[0xFE0F; 31][..], &[FIRST + i]].concat()).collect();
    TableBuilder { emoji, ..ascii() }
}

/// Half of the sequences are the text's codepoint, so that each is a guess.
fn emoji_matching() -> TableBuilder {
    let emoji = (0..fit(2, 4)).map(|i| vec![if i % 2 == 0 { 0x61 } else { FIRST + i }]).collect();
    TableBuilder { emoji: shuffled(emoji), ..ascii() }
}

fn valid_last() -> TableBuilder {
    TableBuilder { valid: [singles(FIRST, fit(2, 4), 1), vec![one(0x61)]].concat(), ..TableBuilder::default() }
}

fn valid_random() -> TableBuilder {
    TableBuilder { valid: [pairs_around(0x61, fit(2, 4)), vec![one(0x61)]].concat(), ..TableBuilder::default() }
}

/// So many records of three words, and these behind them.
fn records_before(last: Vec<(u32, Vec<u32>)>, other: usize) -> Vec<(u32, Vec<u32>)> {
    let words: usize = last.iter().map(|(_, items)| items.len() + 2).sum();
    let others = (0..fit(3, words + other)).map(|i| (FIRST + i, vec![0x62]));
    others.chain(last).collect()
}

fn mapped_last() -> TableBuilder {
    TableBuilder { mapped: records_before(vec![(0x41, vec![0x61])], 4), ..ascii() }
}

fn ignored_random() -> TableBuilder {
    TableBuilder { ignored: [pairs_around(0x34F, fit(2, 8)), vec![one(0x34F)]].concat(), ..ascii() }
}

/// Records by which DEEP_TEXT becomes 256 codepoints.
fn becomes_256() -> Vec<(u32, Vec<u32>)> {
    (0..4).map(|k| (DEEP_TEXT + k, vec![DEEP_TEXT + k + 1; 4])).collect()
}

fn valid_deep() -> TableBuilder {
    TableBuilder {
        valid: vec![one(DEEP_TEXT)],
        decompositions: records_before(becomes_256(), 4),
        ..TableBuilder::default()
    }
}

/// One codepoint stays one, but is looked up four times.
fn valid_chain() -> TableBuilder {
    let chain = (0..4).map(|k| (DEEP_TEXT + k, vec![DEEP_TEXT + k + 1])).collect();
    TableBuilder { decompositions: records_before(chain, 4), ..valid_deep() }
}

fn mapped_deep() -> TableBuilder {
    TableBuilder {
        mapped: vec![(0x41, vec![DEEP_TEXT; 32])],
        decompositions: records_before(becomes_256(), 40),
        ..TableBuilder::default()
    }
}

fn classes_random() -> TableBuilder {
    TableBuilder { classes: classes_around(0x61, fit(3, 4)), ..ascii() }
}

fn falling_classes() -> TableBuilder {
    let all = vec![(FIRST, FIRST + 253)];
    TableBuilder {
        valid: all.clone(),
        classes: (0..254).map(|i| (FIRST + i, FIRST + i, 254 - i)).collect(),
        groups: vec![(2, all)],
        ..TableBuilder::default()
    }
}

/// The head of every record below.
const HEAD: u32 = 0x3000;

/// So many records of HEAD with these items.
fn same_pairs(count: usize, items: [u32; 2]) -> Vec<(u32, Vec<u32>)> {
    vec![(HEAD, items.to_vec()); count]
}

fn pairs_with_class() -> TableBuilder {
    let others = (0..21_800).map(|i| (FIRST + i, FIRST + i, 230));
    TableBuilder {
        decompositions: same_pairs(16_000, [0x61, 0x61]),
        classes: others.chain([(HEAD, HEAD, 230)]).collect(),
        ..ascii()
    }
}

fn pairs_with_class_random() -> TableBuilder {
    TableBuilder {
        decompositions: same_pairs(16_000, [0x61, 0x61]),
        classes: [classes_around(HEAD, 21_800), vec![(HEAD, HEAD, 230)]].concat(),
        ..ascii()
    }
}

/// HEAD behind all other exclusions that fit.
fn excluded_last(pairs: usize) -> Vec<u32> {
    (0..fit(1, 4 * pairs + 10)).map(|i| FIRST + i).chain([HEAD]).collect()
}

fn pairs_excluded() -> TableBuilder {
    TableBuilder { decompositions: same_pairs(16_000, [0x61, 0x62]), exclusions: excluded_last(16_000), ..ascii() }
}

fn pairs_excluded_equal() -> TableBuilder {
    TableBuilder { decompositions: same_pairs(16_000, [0x61, 0x61]), exclusions: excluded_last(16_000), ..ascii() }
}

/// Records of one and of two items, of which each may be the text's.
fn pairs_random() -> TableBuilder {
    let kinds = [vec![0x61], vec![0x61, 0x62], vec![0x61, FIRST], vec![FIRST, 0x62], vec![0x62, 0x61]];
    let records = (0..33_000).map(|i| (HEAD, kinds[i % 5].clone())).collect();
    TableBuilder { decompositions: shuffled(records), exclusions: vec![HEAD], ..ascii() }
}

/// What DEEP_TEXT becomes 256 times stands in pairs whose head has a class: one
/// codepoint asks 255 times.
fn deep_pairs() -> TableBuilder {
    let end = DEEP_TEXT + 4;
    let mut table = pairs_with_class_random();
    table.decompositions = [same_pairs(16_000, [end, end]), becomes_256()].concat();
    table
}

fn fenced_random() -> TableBuilder {
    TableBuilder { fenced: pairs_around(OWN, fit(2, 10)), ..own_group() }
}

fn escape_random() -> TableBuilder {
    TableBuilder { escape: pairs_around(OWN, fit(2, 10)), ..own_group() }
}

fn marks_random() -> TableBuilder {
    TableBuilder { marks: pairs_around(OWN, fit(2, 20)), emoji: vec![vec![EMOJI]], ..own_group() }
}

/// A whitelisted group of OWN and a mark, and a list that has both together last.
fn listed_group() -> TableBuilder {
    let all = vec![one(OWN), one(MARK)];
    let others = (0..63).map(|i| [&[OWN; 1][..], &[MARK; 6], &[FIRST + i]].concat());
    TableBuilder {
        valid: all.clone(),
        groups: vec![(6, all)],
        lists: [(0, others.chain([vec![OWN, MARK]]).collect())].into(),
        ..TableBuilder::default()
    }
}

fn marks_16() -> TableBuilder {
    let marks = [pairs_around(MARK, fit(2, 620)), vec![one(MARK)]].concat();
    TableBuilder { marks: marks.into_iter().filter(|&p| p != one(OWN)).collect(), ..listed_group() }
}

/// The other groups have long lists too; what is asked for is the last one's.
fn list_16() -> TableBuilder {
    let mut table = TableBuilder { marks: vec![one(MARK)], ..listed_group() };
    let list = table.lists[&0].clone();
    let (own, other) = (table.groups[0].clone(), (6, vec![one(FIRST)]));
    table.groups = [vec![other; 200], vec![own]].concat();
    table.lists = (0..=200).map(|number| (number, list.clone())).collect();
    table
}

fn group_random() -> TableBuilder {
    let pairs = [pairs_around(OWN, fit(2, 10)), vec![one(OWN)]].concat();
    TableBuilder { valid: vec![one(OWN)], groups: vec![(2, pairs)], ..TableBuilder::default() }
}

fn records_13() -> TableBuilder {
    let mut table = super::deep_text(vec![], 0);
    table.decompositions = records_before(table.decompositions, 30);
    table
}

fn nsm_13() -> TableBuilder {
    super::deep_text(pairs_around(DEEP_TEXT, 65_000), 0)
}

/// Eight layers: 1, 4, 16 and 64 codepoints decompose to four of the next layer
/// each, without a codepoint twice, then 256 to the same four, and again 4, 16
/// and 64 to as many as there are.
fn nsm_13_different() -> TableBuilder {
    let layer = |k: u32| 1 << (2 * if k > 4 { k - 4 } else { k });
    let at = |k: u32, i: u32| if k == 0 { DEEP_TEXT } else { DEEP_TEXT + 0x100 * k + i };
    let items = |k: u32, i: u32| (0..4).map(|j| at(k + 1, if k == 4 { j } else { 4 * i + j })).collect();
    let records = (0..8).flat_map(|k| (0..layer(k)).map(move |i| (at(k, i), items(k, i))));
    let all = vec![(DEEP_TEXT, DEEP_TEXT + 0x900)];
    TableBuilder {
        valid: all.clone(),
        nsm: pairs_around(DEEP_TEXT, 63_000),
        decompositions: records.collect(),
        groups: vec![(0, all)],
        ..TableBuilder::default()
    }
}

fn classes_13() -> TableBuilder {
    let mut table = super::deep_text(vec![], 0);
    table.classes.splice(0..0, classes_around(DEEP_TEXT, 43_000));
    table
}

fn wholes_14() -> TableBuilder {
    let wholes = (0..fit(4, 8)).map(|i| (vec![FIRST + i], vec![FIRST + i])).collect();
    TableBuilder { wholes, ..own_group() }
}

/// A whole of OWN and 65,535 others, two apart, and OWN's group with pairs
/// between them.
fn whole_and_pairs(arrange: fn(Vec<(u32, u32)>) -> Vec<(u32, u32)>) -> TableBuilder {
    let others = shuffled((0..65_535).map(|i| FIRST + 2 * i).collect());
    let between = arrange(singles(FIRST + 1, 32_700, 4));
    TableBuilder {
        valid: vec![one(OWN)],
        groups: vec![(2, [between, vec![one(OWN)]].concat())],
        wholes: vec![(vec![], [others, vec![OWN]].concat())],
        ..TableBuilder::default()
    }
}

fn whole_14() -> TableBuilder {
    whole_and_pairs(shuffled)
}

/// Pairs each of which holds every other member.
fn whole_14_wide() -> TableBuilder {
    whole_and_pairs(|pairs| (0..pairs.len() as u32).map(|i| (FIRST - 1 - i % 997, FIRST + 2 * 65_535)).collect())
}

/// COUNT codepoints from OWN on, in one group, each with a whole of its own; the
/// other members, two apart, are 65,536 in all.
fn wholes_of<const COUNT: usize>(pairs: Vec<(u32, u32)>) -> TableBuilder {
    let all = (OWN, OWN + COUNT as u32 - 1);
    let others = shuffled((0..65_536 - 4 * COUNT as u32).map(|i| FIRST + 2 * i).collect());
    let wholes = others.chunks(others.len().div_ceil(COUNT)).enumerate();
    TableBuilder {
        valid: vec![all],
        groups: vec![(2, [pairs, vec![all]].concat())],
        wholes: wholes.map(|(i, members)| (members.to_vec(), vec![OWN + i as u32])).collect(),
        ..TableBuilder::default()
    }
}

/// With pairs between the members: more wholes than are remembered.
fn wholes_in_turn<const COUNT: usize>() -> TableBuilder {
    wholes_of::<COUNT>(shuffled(singles(FIRST + 1, 32_600, 4)))
}

/// The same, the members from the highest down: each is put in order before all
/// that were read.
fn wholes_falling<const COUNT: usize>() -> TableBuilder {
    let mut table = wholes_in_turn::<COUNT>();
    for (valid, _) in &mut table.wholes {
        valid.sort_unstable_by(|a, b| b.cmp(a));
    }
    table
}

/// The same with a second group that holds every other member: the text could be
/// respelled in it, so that 14 is judged twice.
fn wholes_respelled<const COUNT: usize>() -> TableBuilder {
    let mut table = wholes_falling::<COUNT>();
    table.groups[0].1.truncate(32_590);
    table.groups[0].1.push((OWN, OWN + COUNT as u32 - 1));
    table.groups.push((0, vec![(FIRST, 0x10_FFFF)]));
    table
}

/// With pairs of one member each, or between two.
fn wholes_held<const COUNT: usize>() -> TableBuilder {
    wholes_of::<COUNT>(shuffled(singles(FIRST, 32_600, 3)))
}

/// As many wholes as the text may have codepoints, some ten members in each.
fn whole_each() -> TableBuilder {
    let mut table = wholes_of::<WORKED>(vec![]);
    for (valid, _) in &mut table.wholes {
        valid.truncate(10);
    }
    let words = table.to_words().len();
    let between = shuffled(singles(FIRST + 1, fit(2, words), 4));
    table.groups[0].1.splice(0..0, between);
    table
}

/// OWN is the last of thousands of confused lists, of which the first counts.
fn wholes_alike() -> TableBuilder {
    let wholes = (0..fit(12, 16)).map(|i| (vec![], (0..9).map(|k| FIRST + 9 * i + k).chain([OWN]).collect()));
    TableBuilder { wholes: wholes.collect(), ..own_group() }
}

fn whole_14_in_order() -> TableBuilder {
    whole_and_pairs(|pairs| pairs)
}

#[cfg(test)]
mod tests {
    use super::*;
    use plain::limits::TABLE_WORDS;
    use std::collections::HashSet;

    #[test]
    fn each_text_has_its_number_by_the_plain_version() {
        for long in &TEXTS {
            let words = (long.table)().to_words();
            assert!(words.len() <= TABLE_WORDS, "{}: {} words", long.what, words.len());
            assert!(plain::layout(&words).is_ok(), "{}", long.what);
            if long.call == Call::Moved {
                let names: HashSet<Vec<u32>> = (0..SLOTS).map(long.text).collect();
                assert!(names.len() == SLOTS && names.iter().all(|name| name.len() <= FORM), "{}", long.what);
                continue;
            }
            let text = (long.text)(long.first);
            assert_eq!(text.len(), long.first, "{}", long.what);
            let due = match long.call {
                Call::Name | Call::Label | Call::Report => long.number,
                Call::Respelled => 14,
                _ => continue,
            };
            let table = plain::parse(&words).expect("layout");
            let judged = plain::judge_name(&plain::Index::new(&table), &text);
            assert_eq!(judged.map_or_else(|refusal| refusal.number, |_| 0), due, "{}", long.what);
        }
    }
}
