//! 02, Item 12 on the small table: a closed case for each sentence.

use gen::small::*;
use plain::limits::{WORKED, WORK_WORDS};
use plain::table::join_sections;
use plain::*;

/// Marks of the small table, each of one class, and two letters of its
/// whitelisted group.
const M: [u32; 4] = [0x300, 0x301, 0x302, 0x303];
const A: u32 = 0x561;
const B: u32 = 0x562;

/// The small table with this list in one of its groups, which has flag 2 too.
fn listing(group: usize, list: &[&[u32]]) -> TableBuilder {
    let mut b = small_table();
    b.groups[group].0 |= 6;
    b.lists.insert(group, list.iter().map(|s| s.to_vec()).collect());
    assert_eq!(soundness(&b.to_words()), Soundness::Sound);
    b
}

/// The kind, or the number and place of the refusal: the same by every way.
fn name_by_all(b: &TableBuilder, input: &[u32]) -> Result<usize, (u32, usize)> {
    let words = b.to_words();
    let run = |call: &dyn Fn(&mut [u32], &mut [u32]) -> Result<Name, Refusal>| {
        let (mut answer, mut work) = (vec![7; WORKED], vec![7; WORK_WORDS]);
        let given = call(&mut answer, &mut work);
        assert!(work.iter().all(|&w| w == 0));
        assert!(answer[given.map_or(0, |n| n.length)..].iter().all(|&w| w == 0));
        (given, answer)
    };
    let given = run(&|answer, work| name(input, &words, answer, work));
    assert_eq!(given, run(&|answer, work| slow::name(input, &words, answer, work)));
    for other in [&compare::Indexed as &dyn compare::Engine, &compare::Passed] {
        assert_eq!(given, run(&|answer, work| other.name(input, &words, answer, work)));
    }
    given.0.map(|n| n.labels).map_err(|r| (r.number, r.place))
}

fn passes(b: &TableBuilder, input: &[u32]) {
    assert_eq!(name_by_all(b, input), Ok(1), "{input:X?}");
}

fn refused(b: &TableBuilder, input: &[u32], number: u32) {
    assert_eq!(name_by_all(b, input), Err((number, 0)), "{input:X?}");
}

/// "must, together with all marks up to the next character that isn't one, be in
/// the list, else the new refusal 16"
#[test]
fn what_is_listed_passes() {
    let b = listing(WHITELISTED, &[&[A, M[0]], &[A, M[0], M[1]], &[B, M[3]]]);
    passes(&b, &[A, B]);
    passes(&b, &[A, M[0]]);
    passes(&b, &[A, M[0], M[1]]);
    passes(&b, &[A, M[0], B, M[3], A, M[0], M[1], A]);
    refused(&b, &[B, M[0]], 16);
    refused(&b, &[A, M[1]], 16);
    // One mark more or fewer, another order, the same twice.
    refused(&b, &[A, M[0], M[1], M[2]], 16);
    refused(&b, &[A, M[1], M[0]], 16);
    refused(&b, &[A, M[0], M[0]], 16);
    refused(&listing(WHITELISTED, &[&[A, M[0], M[1]]]), &[A, M[0]], 16);
    // Two bases: each is asked.
    refused(&b, &[A, M[0], B, M[0]], 16);
    refused(&b, &[B, M[0], A, M[0]], 16);
    // The place is the label.
    let two = [0x61, STOP, A, M[0], STOP, B, M[0], STOP, 0x21];
    assert_eq!(name_by_all(&b, &two), Err((16, 2)));
    let (mut answer, mut work) = (vec![7; 9], vec![7; WORK_WORDS]);
    assert_eq!(label(&[B, M[0]], &b.to_words(), &mut answer, &mut work), Err(Refusal::new(16, 0)));
    assert!(answer == [0; 9] && work.iter().all(|&w| w == 0));
}

/// "a list of none permits no run of marks"; "Without the flag 16 is not given and
/// the answers stay".
#[test]
fn a_list_of_none_and_no_flag() {
    let none = listing(WHITELISTED, &[]);
    passes(&none, &[A, B]);
    refused(&none, &[A, M[0]], 16);
    refused(&none, &[B, A, M[0], M[1]], 16);
    let mut b = small_table();
    passes(&b, &[A, M[0], M[0], M[1], M[2], M[3]]);
    b.groups[WHITELISTED].0 = 0;
    passes(&b, &[A, M[0]]);
    refused(&b, &[A, M[0], M[0]], 13);
    // A list in one group is none for another.
    refused(&none, &[0x78, M[0], M[0]], 13);
    passes(&none, &[0x78, M[0]]);
}

/// At most seven marks are listed, in at most 64 records.
#[test]
fn the_longest_and_the_last() {
    let longest = [&[A][..], &[M[0]; 7]].concat();
    let mut list: Vec<&[u32]> = vec![&[B, 0x301]; 63];
    list.push(&longest);
    let b = listing(WHITELISTED, &list);
    passes(&b, &longest);
    passes(&b, &[B, M[1]]);
    refused(&b, &longest[..7], 16);
    refused(&b, &[&longest[..], &[M[0]]].concat(), 16);
    for count in 1..7 {
        refused(&b, &longest[..=count], 16);
    }
}

/// "of the composed text": a mark that composes is none.
#[test]
fn on_the_composed_text() {
    let b = listing(LATIN, &[&[0xE0, M[1]], &[0x61, M[0], M[2]]]);
    passes(&b, &[0x61, M[0]]);
    passes(&b, &[0xE0]);
    passes(&b, &[0x61, M[0], M[1]]);
    passes(&b, &[0xE0, M[1]]);
    refused(&b, &[0x61, M[1]], 16);
    // The decomposed text is listed, but not asked.
    refused(&b, &[0x61, M[0], M[2]], 16);
    refused(&b, &[0xE0, M[2]], 16);
}

/// An emoji parts the text: 11 comes first, so that no run crosses it.
#[test]
fn an_emoji_between() {
    let b = listing(WHITELISTED, &[&[A, M[0]], &[B, M[3]]]);
    passes(&b, &[A, M[0], 0x1F4A9, B, M[3]]);
    refused(&b, &[A, M[0], 0x1F4A9, B, M[0]], 16);
    refused(&b, &[A, 0x1F4A9, M[0]], 11);
    passes(&b, &[0x1F4A9, A, M[0], 0x1F4A9]);
}

/// "which takes the place of 13 in the order": behind 8 to 12, before 14 and 17.
#[test]
fn the_order() {
    let b = listing(WHITELISTED, &[&[A, M[0]], &[B, 0x610]]);
    refused(&b, &[M[0], A, M[1]], 11);
    refused(&b, &[A, M[1], 0x3B1], 12);
    // An item of the list is no character of the group.
    refused(&b, &[B, 0x610], 12);
    // The group is 12's: no later one is tried.
    let mut later = b.clone();
    let (_, pairs) = later.groups[WHITELISTED].clone();
    later.groups.push((2, pairs));
    refused(&later, &[A, M[1]], 16);
    passes(&later, &[A, M[0]]);
    // 445 could be respelled as 78, with its mark.
    let mut alike = listing(CYRILLIC, &[&[0x445, M[0]]]);
    alike.groups[CYRILLIC].1.push((0x300, 0x303));
    refused(&alike, &[0x445], 14);
    refused(&alike, &[0x445, M[0]], 14);
    refused(&alike, &[0x445, M[1]], 16);
    let t = alike.to_words();
    let listed = |label: &[u32]| plain::lists::respelled(label, &t, &mut [0; 256], &mut vec![0; WORK_WORDS]);
    assert_eq!((listed(&[0x445, M[0]]), listed(&[0x445, M[1]])), (Ok(1), Err(Refusal::new(16, 0))));
    // 7 is restricted and has a list.
    let mut rare = b.clone();
    rare.groups[WHITELISTED].0 = 7;
    let words = rare.to_words();
    let table = parse(&words).unwrap();
    let judged = |setting: u32, label: &[u32]| judge_label_with(&table, setting, label).map(|form| form.kind);
    assert_eq!(judged(0, &[A, M[0]]), Ok(Kind::Group { number: WHITELISTED, restricted: true }));
    assert_eq!(judged(1, &[A, M[0]]), Err(Refusal::new(17, 0)));
    assert_eq!(judged(1, &[A, M[1]]), Err(Refusal::new(16, 0)));
}

/// The search for 12 sees the pairs alone; a new table's 16 stands in the list of
/// slots.
#[test]
fn other_calls() {
    let (with, without) = (listing(WHITELISTED, &[&[A, M[0]]]).to_words(), {
        let mut b = small_table();
        b.groups[WHITELISTED].0 = 2;
        b.to_words()
    });
    for text in [&[A, M[1]][..], &[A, M[0]], &[0x61], &[0xAC00], &[0x61, A]] {
        assert_eq!(groups::group(text, &with), groups::group(text, &without), "{text:X?}");
    }
    let table = parse(&with).unwrap();
    assert_eq!(plain::lists::change(&table, &[A, M[1]]), Some(16));
    assert_eq!(plain::lists::change(&table, &[A, M[0]]), None);
}

/// "layout still looks at the words alone": the group section by itself, by both
/// readers.
#[test]
fn layout_of_lists() {
    let fits = |groups: &[u32]| {
        let mut sections: Vec<Vec<u32>> = (0..14).map(|i| if i == 8 { vec![0] } else { vec![] }).collect();
        sections[10] = groups.to_vec();
        let words = join_sections(&sections);
        assert_eq!(parse(&words).is_some(), Pass::read(&words).is_some(), "{groups:X?}");
        if let Some(table) = parse(&words) {
            assert_eq!(table.to_words(), words);
        }
        parse(&words).is_some()
    };
    // Flags 0 to 3, 6 and 7.
    for flags in (0..20).chain([1 << 31, u32::MAX]) {
        let list: &[u32] = if flags & 4 == 0 { &[] } else { &[0] };
        assert_eq!(fits(&[&[flags, 0], list].concat()), [0, 1, 2, 3, 6, 7].contains(&flags), "{flags}");
    }
    // The count of the list, of its records, and their ends.
    assert!(!fits(&[6, 0]) && fits(&[6, 0, 0]) && !fits(&[6, 0, 0, 0]) && fits(&[6, 0, 0, 0, 0]));
    assert!(!fits(&[6, 0, 1]) && !fits(&[6, 0, 1, 2]) && !fits(&[6, 0, 1, 2, 5]) && fits(&[6, 0, 1, 2, 5, 5]));
    assert!(fits(&[7, 2, 5, 5, 1, 2, 5, 5, 0, 2, 5, 5]) && !fits(&[7, 2, 5, 5, 2, 2, 5, 5, 0, 2, 5, 5]));
    assert!(!fits(&[6, 1, 5, 0]), "the list is outside the word count");
    for (count, fit) in [(0, false), (1, false), (2, true), (8, true), (9, false), (u32::MAX, false)] {
        let items = vec![5; count.min(9) as usize];
        assert_eq!(fits(&[&[6, 0, 1, count], &items[..]].concat()), fit, "{count} items");
    }
    for (count, fit) in [(63, true), (64, true), (65, false)] {
        assert_eq!(fits(&[&[6, 0, count][..], &[2, 5, 5].repeat(count as usize)].concat()), fit, "{count} records");
    }
    assert!(!fits(&[6, 0, u32::MAX, 2, 5, 5]));
    // 256 groups, each with a list.
    assert!(fits(&[6, 0, 1, 2, 5, 5].repeat(256)) && !fits(&[6, 0, 1, 2, 5, 5].repeat(257)));
}

/// "Files that use it have version 4 (unpacked like 3)"; words with flag 4 from a
/// file of version 1 are laid out alike.
#[test]
fn files() {
    let b = listing(WHITELISTED, &[&[A, M[0]]]);
    let words = b.to_words();
    assert_eq!((pack(&words)[0], pack(&listing(WHITELISTED, &[]).to_words())[0]), (4, 4));
    assert_eq!(pack(&small_table().to_words())[0], 3);
    let unpacked = |file: &[u8]| {
        let mut words = vec![7; words.len() + 2];
        let count = unpack(file, &mut words)?;
        words.truncate(count);
        Ok(words)
    };
    assert_eq!(unpacked(&pack(&words)), Ok(words.clone()));
    assert_eq!(unpacked(&pack_as(3, &words)), Ok(words.clone()));
    assert_eq!(unpacked(&pack_as(5, &words)), Err(Refusal::new(20, 0)));
    let mut older = b.clone();
    older.escape.clear();
    let sections = older.sections();
    assert_eq!(unpacked(&pack_as(1, &join_sections(&sections[..12]))), Ok(older.to_words()));
    assert_eq!(unpacked(&pack_as(2, &join_sections(&sections[..13]))), Ok(older.to_words()));
    refused(&older, &[B, M[0]], 16);
}
