//! Cases for the readings of the scope document that show on unsound tables
//! or at the edges of its sentences.

use gen::{Rng, Vocabulary};
use plain::limits::{INPUT, WORKED};
use plain::*;

fn base() -> TableBuilder {
    TableBuilder {
        valid: vec![(0x61, 0x7A), (0x300, 0x30F), (0xE0, 0xE9)],
        groups: vec![(0, vec![(0x61, 0x7A), (0x300, 0x30F), (0xE0, 0xE9)])],
        classes: vec![(0x300, 0x304, 230), (0x305, 0x309, 220)],
        ..TableBuilder::default()
    }
}

/// The answer and kind of a label, or the refusal.
fn run(b: &TableBuilder, label: &[u32]) -> Result<(Vec<u32>, Kind), Refusal> {
    let words = b.to_words();
    let table = parse(&words).expect("layout");
    judge_label(&table, label).map(|f| (f.answer, f.kind))
}

fn run_name(b: &TableBuilder, name: &[u32]) -> Result<(Vec<u32>, usize), Refusal> {
    let words = b.to_words();
    let table = parse(&words).expect("layout");
    let labels = judge_name(&table, name)?;
    Ok((plain::calls::join_labels(&labels), labels.len()))
}

fn first() -> Kind {
    Kind::Group { number: 0, restricted: false }
}

fn check_nfc(b: &TableBuilder, text: &[u32], due: &[u32]) {
    let words = b.to_words();
    let table = parse(&words).expect("layout");
    assert_eq!(nfc(&table, text), due, "{text:X?}");
    assert_eq!(nfc(&Index::new(&table), text), due, "{text:X?}");
}

/// A second record of the same head: the first decomposes, each is a pair.
#[test]
fn heads_twice() {
    let mut b = base();
    b.decompositions = vec![(0xE0, vec![0x61, 0x301]), (0xE0, vec![0x61, 0x300])];
    check_nfc(&b, &[0x61, 0x300], &[0xE0]);
    check_nfc(&b, &[0x61, 0x301], &[0xE0]);
    let words = b.to_words();
    assert_eq!(nfd(&parse(&words).unwrap(), &[0xE0]), [0x61, 0x301]);
    // Of equal pairs the first; an excluded head or one of a class is none.
    b.decompositions = vec![(0xE1, vec![0x61, 0x300]), (0xE2, vec![0x61, 0x300]), (0xE3, vec![0x61, 0x300])];
    check_nfc(&b, &[0x61, 0x300], &[0xE1]);
    b.exclusions = vec![0xE1];
    check_nfc(&b, &[0x61, 0x300], &[0xE2]);
    b.classes.push((0xE2, 0xE2, 7));
    check_nfc(&b, &[0x61, 0x300], &[0xE3]);
}

#[test]
fn hangul_before_the_table() {
    let mut b = base();
    b.classes.insert(0, (0x1100, 0xD7A3, 220));
    b.decompositions = vec![(0xAC00, vec![0x61, 0x300]), (0x1161, vec![0x62]), (0xE5, vec![0x1100, 0x1162])];
    let words = b.to_words();
    let table = parse(&words).unwrap();
    // Syllables by arithmetic, then a record with a jamo as head.
    assert_eq!(nfd(&table, &[0xAC00]), [0x1100, 0x62]);
    // A syllable as the head of a pair counts.
    check_nfc(&b, &[0x61, 0x300], &[0xAC00]);
    // L V goes before the table's pair, classes notwithstanding.
    check_nfc(&b, &[0x1100, 0x1162], &[0xAC1C]);
    check_nfc(&b, &[0x1100, 0x1162, 0x11A8], &[0xAC1D]);
    // 11A7 is no trailing jamo, and LVT takes no other.
    check_nfc(&b, &[0xAC1C, 0x11A7], &[0xAC1C, 0x11A7]);
    check_nfc(&b, &[0xAC1D, 0x11A8], &[0xAC1D, 0x11A8]);
    // A mark between blocks.
    check_nfc(&b, &[0x1100, 0x300, 0x1162], &[0x1100, 0x300, 0x1162]);
}

/// Exactly four rounds.
#[test]
fn four_rounds_and_no_more() {
    let mut b = base();
    b.decompositions = (0x70..0x7A).map(|h| (h, vec![h + 1])).collect();
    let words = b.to_words();
    let table = parse(&words).unwrap();
    assert_eq!(nfd(&table, &[0x70]), [0x74]);
    // Cycles come round; growing ones grow four times.
    b.decompositions = vec![(0x61, vec![0x62]), (0x62, vec![0x61]), (0x63, vec![0x63, 0x300])];
    let words = b.to_words();
    let table = parse(&words).unwrap();
    assert_eq!(nfd(&table, &[0x61]), [0x61]);
    assert_eq!(nfd(&table, &[0x63]), [0x63, 0x300, 0x300, 0x300, 0x300]);
    // A syllable that the fourth round gives stays.
    b.decompositions = vec![(0x61, vec![0x62]), (0x62, vec![0x63]), (0x63, vec![0x64]), (0x64, vec![0xAC00])];
    let words = b.to_words();
    let table = parse(&words).unwrap();
    assert_eq!(nfd(&table, &[0x61]), [0xAC00]);
    assert_eq!(nfd(&table, &[0x62]), [0x1100, 0x1161]);
}

#[test]
fn ordering_and_blocking() {
    let mut b = base();
    b.decompositions =
        vec![(0xE0, vec![0x61, 0x300]), (0xE1, vec![0x61, 0x305]), (0xE2, vec![0xE0, 0x62]), (0xE3, vec![0x61, 0x62])];
    check_nfc(&b, &[0x61, 0x300, 0x305], &[0xE1, 0x300]); // 220 is ordered first
    check_nfc(&b, &[0x61, 0x301, 0x300], &[0x61, 0x301, 0x300]); // an equal class between
    check_nfc(&b, &[0x61, 0x306, 0x300], &[0xE0, 0x306]); // a lower class between
    check_nfc(&b, &[0x61, 0x300, 0x62], &[0xE2]); // twice
    check_nfc(&b, &[0x61, 0x62, 0x300], &[0xE3, 0x300]);
    check_nfc(&b, &[0x61, 0x301, 0x62], &[0x61, 0x301, 0x62]); // a starter after a mark
    check_nfc(&b, &[0x300, 0x61, 0x300], &[0x300, 0xE0]);
    // The first covering triple counts, even where its class is 0.
    b.classes.insert(0, (0x300, 0x300, 0));
    check_nfc(&b, &[0x61, 0x300, 0x305], &[0xE0, 0x305]);
}

/// A sequence of FE0F only is an emoji token of length 0.
#[test]
fn empty_emoji_tokens() {
    let mut b = base();
    b.emoji = vec![vec![FE0F]];
    b.decompositions = vec![(0xE0, vec![0x61, 0x300])];
    assert_eq!(run(&b, &[FE0F]), Ok((vec![], Kind::Emoji)));
    assert_eq!(run(&b, &[0x61, FE0F]), Ok((vec![0x61], first()))); // two tokens: not ASCII
    assert_eq!(run(&b, &[0x61, FE0F, 0x300]), Ok((vec![0x61, 0x300], first()))); // parts texts
    b.marks = vec![(0x300, 0x300)];
    assert_eq!(run(&b, &[0x61, FE0F, 0x300]), Err(Refusal::new(11, 0)));
    assert_eq!(run(&b, &[FE0F; INPUT]), Ok((vec![], Kind::Emoji)));
    assert_eq!(run_name(&b, &[FE0F, STOP, FE0F]), Ok((vec![STOP], 2)));
    // Two fenced around one are side by side.
    b.fenced = vec![(0x62, 0x62)];
    assert_eq!(run(&b, &[0x61, 0x62, 0x61, 0x62, 0x63, 0xE0]), Ok((vec![0x61, 0x62, 0x61, 0x62, 0x63, 0xE0], first())));
    assert_eq!(run(&b, &[0x61, 0x62, FE0F, 0x62, 0x63]), Err(Refusal::new(10, 0)));
    // Each FE0F of a run is optional; as many as are there are taken.
    b.emoji = vec![vec![FE0F, FE0F, 0x1F468, FE0F, FE0F]];
    for front in 0..3 {
        for back in 0..3 {
            let label = [vec![FE0F; front], vec![0x1F468], vec![FE0F; back]].concat();
            assert_eq!(run(&b, &label), Ok((vec![0x1F468], Kind::Emoji)));
        }
    }
    assert_eq!(run(&b, &[FE0F, FE0F, FE0F, 0x1F468]), Err(Refusal::new(5, 0)));
    assert_eq!(run(&b, &[0x1F468, FE0F, FE0F, FE0F]), Err(Refusal::new(5, 3)));
}

#[test]
fn matching_takes_the_most_and_the_first() {
    let mut b = base();
    b.emoji = vec![vec![0x1F468], vec![0x1F468, FE0F], vec![0x1F468, 0x62], vec![0x61, 0x62]];
    let words = b.to_words();
    let table = parse(&words).unwrap();
    let index = Index::new(&table);
    let found = |rest: &[u32]| {
        let (a, b) = (table.find_emoji(rest), index.find_emoji(rest));
        assert_eq!(a, b);
        a
    };
    assert_eq!(found(&[0x1F468]), Some((0, 1))); // a tie goes to the first record
    assert_eq!(found(&[0x1F468, FE0F]), Some((1, 2)));
    assert_eq!(found(&[0x1F468, 0x62, FE0F]), Some((2, 2)));
    assert_eq!(found(&[0x61, 0x63]), None);
    assert_eq!(found(&[]), None);
    // Emoji come before valid, plain ASCII sequences too, and skip 8 to 14 and 16.
    assert_eq!(run(&b, &[0x61, 0x62]), Ok((vec![0x61, 0x62], Kind::Emoji)));
}

/// Entries with 2E and items that are no scalar values.
#[test]
fn stops_and_other_numbers_in_entries() {
    let mut b = base();
    b.valid.push((STOP, STOP));
    b.mapped = vec![(0x41, vec![0x61, STOP]), (0x42, vec![0xFFFF_FFFF]), (STOP, vec![0x62])];
    b.emoji = vec![vec![STOP, 0x61], vec![0x61, STOP]];
    // The split comes first; an item may produce a 2E, the count stays.
    assert_eq!(run_name(&b, &[0x61, STOP, 0x61]), Ok((vec![0x61, STOP, 0x61], 2)));
    assert_eq!(run_name(&b, &[0x41]), Ok((vec![0x61, STOP], 1)));
    assert_eq!(run(&b, &[0x41]), Ok((vec![0x61, STOP], Kind::Ascii)));
    assert_eq!(run(&b, &[0x42]), Err(Refusal::new(12, 0)));
    b.groups[0].1.push((0xFFFF_FFFF, 0xFFFF_FFFF));
    assert_eq!(run(&b, &[0x42]), Ok((vec![0xFFFF_FFFF], first())));
}

/// Valid, then mapped, then ignored; the first mapped record.
#[test]
fn order_of_lookups() {
    let mut b = base();
    b.mapped = vec![(0x41, vec![0x62]), (0x41, vec![0x63]), (0x61, vec![0x64])];
    b.ignored = vec![(0x40, 0x61)];
    assert_eq!(run(&b, &[0x61, 0x40, 0x41]), Ok((vec![0x61, 0x62], Kind::Ascii)));
    assert_eq!(run(&b, &[0x40, 0x40]), Err(Refusal::new(6, 0)));
}

/// 13 looks at the joined text, across emoji, and NSM need not be marks.
#[test]
fn nsm_across_emoji() {
    let mut b = base();
    b.emoji = vec![vec![0x1F468]];
    b.nsm = vec![(0x62, 0x66)];
    assert_eq!(run(&b, &[0x61, 0x62, 0x1F468, 0x62]), Err(Refusal::new(13, 0)));
    assert_eq!(run(&b, &[0x61, 0x62, 0x1F468, 0x63]).map(|x| x.1), Ok(first()));
    assert_eq!(run(&b, &[0x62, 0x63, 0x1F468, 0x64, 0x65]).map(|x| x.1), Ok(first()));
    assert_eq!(run(&b, &[0x62, 0x63, 0x1F468, 0x64, 0x65, 0x66]), Err(Refusal::new(13, 0)));
    // Ordered across the emoji as well: 304, 305, 304 become 305, 304, 304.
    b.nsm = vec![(0x304, 0x304)];
    assert_eq!(run(&b, &[0x61, 0x304, 0x1F468, 0x305, 0x304]), Err(Refusal::new(13, 0)));
}

/// The second decomposition may have 1,048,576 codepoints.
#[test]
fn second_decomposition_is_long() {
    let y = |i: u32| 0x4E00 + i;
    let mut b = TableBuilder {
        valid: vec![(y(0), y(8))],
        decompositions: (0..8).map(|i| (y(i), vec![y(i + 1); 4])).collect(),
        groups: vec![(0, vec![(y(0), y(8))])],
        ..TableBuilder::default()
    };
    let most = WORKED / 256;
    assert_eq!(run(&b, &vec![y(0); most]), Ok((vec![y(4); WORKED], first())));
    assert_eq!(run(&b, &vec![y(0); most + 1]), Err(Refusal::new(7, 0)));
    b.nsm = vec![(y(8), y(8))];
    assert_eq!(run(&b, &vec![y(0); most]), Err(Refusal::new(13, 0)));
    b.nsm = vec![(y(4), y(4))];
    assert_eq!(run(&b, &vec![y(0); most]), Ok((vec![y(4); WORKED], first())));
}

/// The whole of a character is the first whose confused list holds it.
#[test]
fn wholes() {
    let mut b = TableBuilder {
        valid: vec![(0x100, 0x13F)],
        groups: vec![(0, vec![(0x100, 0x10F)]), (1, vec![(0x110, 0x11F)]), (0, vec![(0x120, 0x12F), (0x101, 0x101)])],
        ..TableBuilder::default()
    };
    let kind = Ok(first());
    // A member of a valid list only is not confused.
    b.wholes = vec![(vec![0x100], vec![0x110])];
    assert_eq!(run(&b, &[0x100]).map(|x| x.1), kind);
    assert_eq!(run(&b, &[0x110]), Err(Refusal::new(14, 0)));
    // Another confused member in the extent gives no way out; a restricted
    // group is a candidate.
    b.wholes = vec![(vec![0x102], vec![0x100])];
    assert_eq!(run(&b, &[0x100]).map(|x| x.1), kind);
    b.wholes = vec![(vec![0x102, 0x110], vec![0x100])];
    assert_eq!(run(&b, &[0x100]), Err(Refusal::new(14, 0)));
    // Every other character must be in that group too.
    assert_eq!(run(&b, &[0x100, 0x103]).map(|x| x.1), kind);
    // The first whole counts, not a later one.
    b.wholes = vec![(vec![0x102], vec![0x100]), (vec![0x110], vec![0x100])];
    assert_eq!(run(&b, &[0x100]).map(|x| x.1), kind);
    b.wholes = vec![(vec![0x100, 0x102], vec![]), (vec![0x110], vec![0x100])];
    assert_eq!(run(&b, &[0x100]), Err(Refusal::new(14, 0)));
    // 101 is in groups 0 and 2: members of both are in its extent.
    b.wholes = vec![(vec![0x121, 0x102], vec![0x101])];
    assert_eq!(run(&b, &[0x101]).map(|x| x.1), kind);
    // The extent goes on from member to member (02, Item 6): 121 shares a group
    // with 101, and 101 with 100; without 101 in the whole it does not.
    b.wholes = vec![(vec![0x101, 0x121], vec![0x100])];
    assert_eq!(run(&b, &[0x100]).map(|x| x.1), kind);
    b.wholes = vec![(vec![0x102, 0x121], vec![0x100])];
    assert_eq!(run(&b, &[0x100]), Err(Refusal::new(14, 0)));
    // A character that no group holds is alone in its extent, so that every
    // group with a member could spell it; a text with it is 12, however.
    b.wholes = vec![(vec![0x102], vec![0x130])];
    let words = b.to_words();
    let table = parse(&words).expect("layout");
    assert!(plain::label::confusable(&table, &[0x130]));
    assert_eq!(run(&b, &[0x130]), Err(Refusal::new(12, 0)));
    // Each confused character its own way: one group for all of them.
    b.wholes = vec![(vec![0x110], vec![0x100]), (vec![0x120], vec![0x102])];
    assert_eq!(run(&b, &[0x100]), Err(Refusal::new(14, 0)));
    assert_eq!(run(&b, &[0x102]), Err(Refusal::new(14, 0)));
    assert_eq!(run(&b, &[0x100, 0x102]).map(|x| x.1), kind);
    // The first group that holds the text is the kind.
    assert_eq!(run(&b, &[0x101]).map(|x| x.1), kind);
    assert_eq!(run(&b, &[0x101, 0x122]).map(|x| x.1), Ok(Kind::Group { number: 2, restricted: false }));
    assert_eq!(run(&b, &[0x111]).map(|x| x.1), Ok(Kind::Group { number: 1, restricted: true }));
}

/// The extent in rounds, as 02 says it: "starting from the character, add every
/// member that shares a group with one already in, until nothing is added".
#[test]
fn extent_in_rounds() {
    use std::collections::BTreeSet;
    let (mut characters, mut more) = (0, 0);
    for seed in 1..=3_000 {
        let mut rng = gen::Rng::new(seed);
        let of = gen::wholes::chained(&mut rng);
        if of.table.groups.len() > 40 {
            continue;
        }
        let words = of.table.to_words();
        let t = parse(&words).expect("layout");
        let share =
            |a: u32, b: u32| (0..t.group_count()).any(|group| t.group_holds(group, a) && t.group_holds(group, b));
        for (c, whole) in t.wholes.iter().take(3).flat_map(|w| w.confused.iter().take(4).map(move |&c| (c, *w))) {
            let mut inside = vec![c];
            let mut rounds = 0;
            loop {
                let joins = |m: &u32| !inside.contains(m) && inside.iter().any(|&x| share(x, *m));
                let added: Vec<u32> = whole.members().filter(joins).collect();
                if added.is_empty() {
                    break;
                }
                inside.extend(added);
                rounds += 1;
            }
            assert!(rounds <= whole.members().count(), "seed {seed}, {c:X}");
            let due: BTreeSet<u32> = inside.into_iter().collect();
            assert_eq!(plain::label::extent(&t, whole, c), due, "seed {seed}, {c:X}");
            characters += 1;
            more += usize::from(rounds > 1);
        }
    }
    assert!(characters > 5_000 && more > 1_000, "{characters} characters, {more} of more than one round");
}

/// 02, Item 9: a token's own part of the input, scanned alone, gives exactly that
/// token, on every table; the parts follow one another and are the whole label.
#[test]
fn each_token_alone() {
    let (mut names, mut parts, mut with_ignored) = (0, 0, 0);
    for seed in 9_100_000..9_101_000 {
        let mut rng = Rng::new(seed);
        let made = gen::table(&mut rng);
        let Some(table) = parse(&made.words) else { continue };
        let t = Index::new(&table);
        let vocabulary = Vocabulary::new(&mut rng, &made.builder);
        for _ in 0..100 {
            let name = vocabulary.name(&mut rng);
            let before = parts;
            for label in name.split(|&c| c == STOP) {
                let Ok(all) = tokens(&t, label) else { continue };
                let places = report::places(&t, label);
                assert_eq!(all.len(), places.len(), "seed {seed}, {label:X?}");
                let mut at = 0;
                for (token, (from, to)) in all.into_iter().zip(places) {
                    assert!(from == at && from < to, "seed {seed}, {label:X?}");
                    with_ignored += u64::from(t.is_ignored(label[to - 1]));
                    assert_eq!(
                        tokens(&t, &label[from..to]),
                        Ok(vec![token]),
                        "seed {seed}, {label:X?}, {from} to {to}"
                    );
                    (at, parts) = (to, parts + 1);
                }
                assert!(at == label.len() || at == 0, "seed {seed}, {label:X?}");
            }
            names += u64::from(parts > before);
        }
    }
    println!("{names} names, {parts} tokens, {with_ignored} with an ignored codepoint last");
    assert!(names >= 55_012 && parts >= 100_000 && with_ignored >= 1_000, "{names} {parts} {with_ignored}");
}
