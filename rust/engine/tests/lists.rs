//! The two lists: the slots of a payee book that a new table would file
//! differently, and the groups in which a label could be respelled. The proved
//! calls beside the plain version, every word of the list and of the work area,
//! and beside the name call and the label call.

mod marked;

use answers::{Kind, Refusal};
use engine::book::{Account, Book, Desk, AREA};
use engine::lists::{moved, respelled};
use gen::wholes::{chained, chained_name};
use gen::{Rng, Vocabulary};
use marked::lent;
use plain::book::{FORM, FRONT, SLOT, SLOTS};
use plain::limits::{GROUPS, WORKED, WORK_WORDS};
use plain::{lists, Lookup, TableBuilder};

/// What a call answers, with every word of the list and of the work area.
#[derive(Debug, PartialEq)]
struct Given {
    answer: Result<usize, Refusal>,
    list: Vec<u32>,
    work: Vec<u32>,
}

/// Lends a call both buffers, full of marks.
fn given(room: usize, work: usize, call: impl FnOnce(&mut [u32], &mut [u32]) -> Result<usize, Refusal>) -> Given {
    let ((answer, work), list) = lent(room, |list| lent(work, |work| call(list, work)));
    Given { answer, list, work }
}

/// The slots that a table would file differently, by both versions.
fn same_moved(area: &[u32], words: &[u32], room: usize, work: usize) -> Given {
    let before = area.to_vec();
    let ours = given(room, work, |list, work| moved(area, words, list, work).answer());
    let theirs = given(room, work, |list, work| lists::moved(area, words, list, work));
    assert_eq!(ours, theirs, "room {room}, work {work}");
    assert!(area == before, "a word of the area");
    ours
}

/// The groups in which a label could be respelled, by both versions.
fn same_respelled(label: &[u32], words: &[u32], room: usize, work: usize) -> Given {
    let ours = given(room, work, |list, work| respelled(label, words, list, work).answer());
    let theirs = given(room, work, |list, work| lists::respelled(label, words, list, work));
    assert_eq!(ours, theirs, "label {label:X?}, room {room}, work {work}");
    ours
}

/// Files a name in a slot as it stands.
fn file(area: &mut [u32], i: usize, name: &[u32]) {
    let slot = &mut area[FRONT + i * SLOT..][..SLOT];
    slot.fill(0);
    slot[0] = name.len() as u32;
    slot[1..=name.len()].copy_from_slice(name);
}

/// The number that stands beside a name, by the name call with the setting off
/// and room for every answer.
fn by_the_name_call(name: &[u32], words: &[u32]) -> Option<u32> {
    let mut answer = vec![0; WORKED];
    match engine::name(name, words, 0, &mut answer, &mut [0; WORK_WORDS]).answer() {
        Err(refusal) => Some(refusal.number),
        Ok(accepted) => match accepted.length {
            0 => Some(42),
            256.. => Some(43),
            length => (answer[..length] != *name).then_some(0),
        },
    }
}

/// A table and names for it: spellings, normal forms, names that 42, 43 and 7
/// are for, and words that are no codepoints.
fn edition(rng: &mut Rng) -> (Vec<u32>, Vec<Vec<u32>>) {
    if rng.percent(5) {
        let of = chained(rng); // many of 14
        let names = (0..60).map(|_| chained_name(rng, &of)).collect();
        return (of.table.to_words(), names);
    }
    let mut builder = gen::table(rng).builder;
    let mut names = Vec::new();
    if rng.percent(60) {
        builder.emoji.push(vec![0xFE0F]);
        names.push(vec![0xFE0F]);
    }
    let letter = builder.groups.iter().flat_map(|group| &group.1).map(|pair| pair.0).find(|c| (0x61..0x7B).contains(c));
    if let Some(letter) = letter {
        builder.mapped.insert(0, (0x2E80, vec![letter; 32]));
        names.extend((0..3).map(|_| vec![0x2E80; rng.between(6, WORKED / 32 + 60)]));
    }
    let vocabulary = Vocabulary::new(rng, &builder);
    let words = builder.to_words();
    for _ in 0..60 {
        let name = vocabulary.name(rng);
        let mut answer = vec![0; WORKED];
        if let Ok(accepted) = plain::name(&name, &words, &mut answer, &mut [0; WORK_WORDS]) {
            names.push(answer[..accepted.length].to_vec());
        }
        names.push(name);
    }
    names.push(vec![*rng.pick(&[0xD800, 0x11_0000, u32::MAX])]);
    (words, names)
}

/// A book of these names, each once, some slots free; damaged at times.
fn book(rng: &mut Rng, names: &[Vec<u32>]) -> Vec<u32> {
    let mut area = vec![0; AREA];
    area[..FRONT].fill_with(|| rng.word());
    let mut taken: Vec<&[u32]> = Vec::new();
    for i in 0..SLOTS {
        let name = rng.pick(names).as_slice();
        if !name.is_empty() && name.len() <= FORM && !taken.contains(&name) && rng.percent(95) {
            file(&mut area, i, name);
            taken.push(name);
        }
    }
    match rng.below(12) {
        0 => area.resize([0, 1, FRONT, AREA - 1, AREA + 1, AREA + SLOT][rng.below(6)], 0),
        1 => damage(rng, &mut area),
        _ => {}
    }
    area
}

/// A length over 255, a word past a length, a word or an account in a free slot,
/// or one name in two slots.
fn damage(rng: &mut Rng, area: &mut [u32]) {
    let (first, other) = (rng.below(SLOTS), rng.below(SLOTS));
    let slot = &mut area[FRONT + first * SLOT..][..SLOT];
    match rng.below(5) {
        0 => slot[0] = 256,
        1 => slot[FORM] = 1,
        2 => slot[..2].copy_from_slice(&[0, 1]),
        3 => {
            slot.fill(0);
            slot[FORM + 1 + rng.below(SLOT - FORM - 1)] = 7;
        }
        _ => {
            let name = slot[..=FORM].to_vec();
            area[FRONT + other * SLOT..][..=FORM].copy_from_slice(&name);
        }
    }
}

/// The room that a list of so many words leaves or lacks.
fn room(rng: &mut Rng, words: usize) -> usize {
    match rng.below(10) {
        0..=3 => words,
        4 => words.saturating_sub(1),
        5 => words.saturating_sub(2),
        6 => words + 1,
        7 => 0,
        8 => rng.below(words + 1),
        _ => words + rng.below(9),
    }
}

#[test]
fn random_books_and_tables() {
    let mut rng = Rng::new(0x6D6F_7665);
    let (mut numbers, mut entries, mut exact) = ([0; 46], [0; 46], 0);
    for _ in 0..8_000 {
        let (mut words, names) = edition(&mut rng);
        let area = book(&mut rng, &names);
        if rng.percent(20) {
            words.truncate(rng.below(words.len()));
        }
        let work = if rng.percent(80) { WORK_WORDS + rng.below(2) } else { rng.below(WORK_WORDS) };
        // With room for all first, to know how much is due.
        let whole = same_moved(&area, &words, 2 * SLOTS, work);
        let due = whole.answer.unwrap_or(0);
        numbers[whole.answer.map_or_else(|r| r.number as usize, |_| 0)] += 1;
        for entry in whole.list[..2 * due].chunks(2) {
            let slot = &area[FRONT + entry[0] as usize * SLOT..][..SLOT];
            let name = &slot[1..=slot[0] as usize];
            assert_eq!(by_the_name_call(name, &words), Some(entry[1]), "{name:X?}");
            entries[entry[1] as usize] += 1;
        }
        for _ in 0..3 {
            let room = room(&mut rng, 2 * due);
            let answer = same_moved(&area, &words, room, work).answer;
            numbers[answer.map_or_else(|r| r.number as usize, |_| 0)] += 1;
            exact += usize::from(whole.answer.is_ok() && room == 2 * due);
            assert_eq!(answer == Err(Refusal::new(33, 0)), whole.answer.is_ok() && room < 2 * due);
        }
    }
    println!("answers by number {numbers:?}; entries by number {entries:?}; {exact} lists exactly full");
    for number in [0, 1, 2, 33, 40, 41] {
        assert!(numbers[number] >= 500, "{number}: {} times", numbers[number]);
    }
    for number in [0].into_iter().chain(4..=14).chain([16, 42, 43]) {
        assert!(entries[number] >= 500, "{number}: {} entries", entries[number]);
    }
    assert_eq!(
        entries.iter().sum::<usize>(),
        entries[0] + entries[4..15].iter().sum::<usize>() + entries[16] + entries[42] + entries[43]
    );
    assert!(exact >= 1_000, "{exact}");
}

/// Beside the list stands every slot that is not in it: filed, and the name
/// call leaves it as it is.
#[test]
fn no_other_slot() {
    let mut rng = Rng::new(0x736C_6F74);
    let (mut listed, mut stay) = (0, 0);
    for _ in 0..900 {
        let (words, names) = edition(&mut rng);
        let mut area = vec![0; AREA];
        for i in 0..SLOTS {
            let mut name = rng.pick(&names).clone();
            name.truncate(FORM - 1);
            name.push(0x61 + i as u32); // no two alike
            file(&mut area, i, &name);
        }
        let given = same_moved(&area, &words, 2 * SLOTS, WORK_WORDS);
        let Ok(count) = given.answer else { continue };
        let slots: Vec<u32> = given.list[..2 * count].chunks(2).map(|entry| entry[0]).collect();
        assert!(slots.windows(2).all(|two| two[0] < two[1]), "{slots:?}");
        for i in 0..SLOTS {
            let slot = &area[FRONT + i * SLOT..][..SLOT];
            let changed = by_the_name_call(&slot[1..=slot[0] as usize], &words).is_some();
            assert_eq!(changed, slots.contains(&(i as u32)), "slot {i}");
            listed += usize::from(changed);
            stay += usize::from(!changed);
        }
    }
    assert!(listed > 5_000 && stay > 500, "{listed} listed, {stay} stay");
}

/// For a sound table, a book that its own calls have filled has nothing to
/// list.
#[test]
fn nothing_for_the_same_table() {
    let mut rng = Rng::new(0x7361_6D65);
    let mut filed = 0;
    for _ in 0..400 {
        let builder = gen::sound_table(&mut rng);
        let words = builder.to_words();
        let vocabulary = Vocabulary::new(&mut rng, &builder);
        let mut area = vec![0; AREA];
        for _ in 0..80 {
            let (mut answer, mut work) = (vec![0; rng.between(1, WORKED)], vec![0; WORK_WORDS]);
            let setting = rng.word() & 1;
            let mut desk = Desk { table: &words, setting, answer: &mut answer, work: &mut work };
            let name = vocabulary.name(&mut rng);
            if rng.percent(90) {
                let told = Book::new(&mut area).save(&name, Account { words: [rng.word(); 8] }, &mut desk);
                filed += usize::from(told.number == 0);
            } else {
                Book::new(&mut area).forget(&name, &mut desk);
            }
        }
        let given = same_moved(&area, &words, 0, WORK_WORDS);
        assert_eq!(given.answer, Ok(0));
    }
    assert!(filed > 5_000, "{filed}");
}

/// A list of whole entries, wrong in one way, or right.
type Wrong = (&'static str, fn(&mut Vec<Vec<u32>>));

const WRONG: [Wrong; 7] = [
    ("right", |_| ()),
    ("descending", |entries| entries.reverse()),
    ("the last slot forgotten", |entries| entries.retain(|entry| entry[0] != SLOTS as u32 - 1)),
    ("the refusal before the slot", |entries| entries.iter_mut().for_each(|entry| entry.reverse())),
    ("4 left out", |entries| entries.retain(|entry| entry.get(1) != Some(&4))),
    ("too long told as another form", |entries| entries.iter_mut().for_each(|entry| entry[1] %= 43)),
    ("the first left out", |entries| drop(entries.drain(..entries.len().min(1)))),
];

/// The books above would find each of these versions wrong.
#[test]
fn wrong_lists_of_slots_are_found() {
    let mut rng = Rng::new(0x776F_726E);
    let mut found = [0; WRONG.len()];
    for _ in 0..150 {
        let (words, names) = edition(&mut rng);
        let area = book(&mut rng, &names);
        let mut list = [0; 2 * SLOTS];
        let Ok(count) = lists::moved(&area, &words, &mut list, &mut [0; WORK_WORDS]) else { continue };
        let right: Vec<Vec<u32>> = list[..2 * count].chunks(2).map(<[u32]>::to_vec).collect();
        for (found, (_, change)) in found.iter_mut().zip(WRONG) {
            let mut wrong = right.clone();
            change(&mut wrong);
            *found += u64::from(wrong != right);
        }
    }
    let told: Vec<_> = WRONG.iter().map(|(what, _)| what).zip(found).collect();
    assert!(found[0] == 0 && found[1..].iter().all(|&count| count > 0), "{told:?}");
}

/// What the label call answers at this setting.
fn labelled(label: &[u32], words: &[u32], setting: u32) -> Result<Kind, Refusal> {
    let mut answer = vec![0; WORKED];
    engine::label(label, words, setting, &mut answer, &mut [0; WORK_WORDS]).answer().map(|label| label.kind)
}

/// The labels below would find a list of groups that descends, lacks the first
/// or has the own group too, and one that is empty.
#[test]
fn wrong_lists_of_groups_are_found() {
    let mut rng = Rng::new(0x776F_6772);
    let mut found = [0; 4];
    for _ in 0..60 {
        let of = chained(&mut rng);
        let words = of.table.to_words();
        let t = plain::parse(&words).expect("a table");
        for _ in 0..25 {
            let label = chained_name(&mut rng, &of);
            let mut list = [0; GROUPS];
            let Ok(count) = lists::respelled(&label, &words, &mut list, &mut [0; WORK_WORDS]) else { continue };
            let right = &list[..count];
            let own = lists::tested(&t, &label).and_then(|text| plain::label::first_group(&t, &text));
            let mut with_own: Vec<u32> = right.iter().copied().chain(own.map(|own| own as u32)).collect();
            with_own.sort_unstable();
            let falling: Vec<u32> = right.iter().rev().copied().collect();
            let wrong = [falling.as_slice(), &right[count.min(1)..], &with_own, &[]];
            found.iter_mut().zip(wrong).for_each(|(found, wrong)| *found += u64::from(wrong != right));
        }
    }
    assert!(found.iter().all(|&count| count > 0), "{found:?}");
}

/// The list with room for all beside the label call: 14 exactly where the list
/// is not empty, at either setting; the own group never stands in it.
fn beside_the_label_call(label: &[u32], words: &[u32], lists_it: &Given, t: &impl Lookup) {
    for setting in [0, 1] {
        let number = labelled(label, words, setting).map_or_else(|refusal| refusal.number, |_| 0);
        assert_eq!(number == 14, matches!(lists_it.answer, Ok(1..)), "{label:X?}, setting {setting}");
    }
    let Ok(count) = lists_it.answer else { return };
    let groups = &lists_it.list[..count];
    assert!(groups.windows(2).all(|two| two[0] < two[1]), "{groups:?}");
    let own = lists::tested(t, label).and_then(|text| plain::label::first_group(t, &text));
    assert!(own.is_none_or(|own| !groups.contains(&(own as u32))), "{label:X?} in {own:?}");
    assert!(own.is_some() || groups.is_empty(), "{label:X?}");
}

#[test]
fn random_labels_and_tables() {
    let mut rng = Rng::new(0x6772_6F75);
    let (mut numbers, mut some, mut most) = ([0; 46], 0, 0);
    for round in 0..9_000 {
        let (words, labels): (Vec<u32>, Vec<Vec<u32>>) = if round % 5 == 0 {
            let of = chained(&mut rng);
            let labels = (0..25).map(|_| chained_name(&mut rng, &of)).collect();
            (of.table.to_words(), labels)
        } else {
            let made = gen::table(&mut rng);
            let vocabulary = Vocabulary::new(&mut rng, &made.builder);
            let labels = (0..25).map(|_| vocabulary.name(&mut rng)).collect();
            (made.words, labels)
        };
        let parsed = plain::parse(&words);
        for mut label in labels {
            match rng.below(60) {
                0 => label.push(*rng.pick(&[0xD800, 0x11_0000])),
                1 => label.resize(plain::limits::INPUT + 1, 0x61),
                _ => {}
            }
            let work = if rng.percent(95) { WORK_WORDS } else { rng.below(WORK_WORDS) };
            let whole = same_respelled(&label, &words, GROUPS, work);
            numbers[whole.answer.map_or_else(|r| r.number as usize, |_| 0)] += 1;
            if let (Some(t), WORK_WORDS) = (&parsed, work) {
                beside_the_label_call(&label, &words, &whole, t);
            }
            let due = whole.answer.unwrap_or(0);
            most = most.max(due);
            if due > 0 || rng.percent(10) {
                some += usize::from(due > 0);
                let room = room(&mut rng, due);
                let answer = same_respelled(&label, &words, room, work).answer;
                numbers[answer.map_or_else(|r| r.number as usize, |_| 0)] += 1;
            }
        }
    }
    println!("answers by number {numbers:?}; {some} labels with groups, at most {most}");
    for number in (0..=13).chain([16, 33]) {
        assert!(numbers[number] >= 500, "{number}: {} times", numbers[number]);
    }
    assert_eq!((numbers[14], numbers[15], numbers[17]), (0, 0, 0));
    assert!(some > 3_000 && most > 100, "{some}, {most}");
}

/// All 256 groups but the own one: a list of 255 words is exactly full, and one
/// of 256 never gives 33.
#[test]
fn the_longest_list() {
    let first = 0x20000;
    let groups = (0..256).map(|k| (2, vec![(first + k, first + k)])).collect();
    let members: Vec<u32> = (first + 1..first + 256).collect();
    let table = TableBuilder {
        valid: vec![(first, first + 255)],
        groups,
        wholes: vec![(members, vec![first])],
        ..TableBuilder::default()
    };
    let words = table.to_words();
    let full = same_respelled(&[first], &words, 255, WORK_WORDS);
    assert_eq!((full.answer, full.list), (Ok(255), (1..256).collect()));
    assert_eq!(same_respelled(&[first], &words, 254, WORK_WORDS).answer, Err(Refusal::new(33, 0)));
    assert_eq!(same_respelled(&[first], &words, 256, WORK_WORDS).answer, Ok(255));
}

/// On the full-size table each confused character alone, and labels of them.
#[test]
fn confused_characters_of_the_full_table() {
    let made = standin::full();
    let parsed = plain::parse(&made.words).expect("a table");
    let index = plain::Index::new(&parsed);
    let confused: Vec<u32> = parsed.wholes.iter().flat_map(|whole| whole.confused.iter().copied()).collect();
    assert!(confused.len() > 400, "{}", confused.len());
    let (mut rng, mut some) = (Rng::new(14), 0);
    let mut labels: Vec<Vec<u32>> = confused.iter().map(|&c| vec![c]).collect();
    labels.extend((0..4_000).map(|_| {
        let group = rng.below(index.group_count());
        let held: Vec<u32> = confused.iter().copied().filter(|&c| index.group_holds(group, c)).collect();
        let of = if held.is_empty() { &confused } else { &held };
        (0..rng.between(1, 4)).map(|_| *rng.pick(of)).collect()
    }));
    for label in &labels {
        let ours = given(GROUPS, WORK_WORDS, |list, work| respelled(label, &made.words, list, work).answer());
        if let Ok(count) = ours.answer {
            let text = plain::nfc(&index, label);
            let due: Vec<u32> = lists::respellings(&index, &text).into_iter().map(|group| group as u32).collect();
            assert_eq!(ours.list[..count], due, "{label:X?}");
        }
        beside_the_label_call(label, &made.words, &ours, &index);
        some += usize::from(matches!(ours.answer, Ok(1..)));
    }
    println!("{} labels, {some} of them with groups", labels.len());
    assert!(some > 300, "{some}");
}

/// The two stand-in tables as an old and a new edition: 64 names filed by the
/// full-size one, of which the cut refuses those whose characters it lacks.
#[test]
fn two_editions() {
    let (full, cut) = (standin::full(), standin::names());
    let mut area = vec![0; AREA];
    let (mut answer, mut work) = (vec![0; WORKED], vec![0; WORK_WORDS]);
    let stems = [
        "Nick",
        "vitalik",
        "café",
        "Straße",
        "ΝΙΚΟΣ",
        "пример",
        "日本語",
        "한국어",
        "مثال",
        "हिन्दी",
        "🦊fox",
        "_ops",
        "ﬁnance",
        "ÅNGSTRÖM",
        "naïve",
        "Ⅷ",
    ];
    let mut filed = Vec::new();
    for (i, stem) in stems.iter().cycle().enumerate() {
        if filed.len() == SLOTS {
            break;
        }
        assert!(i < 1_000, "{} names alone are accepted", filed.len());
        let name: Vec<u32> = format!("{stem}{}.eth", if i < stems.len() { String::new() } else { i.to_string() })
            .chars()
            .map(u32::from)
            .collect();
        let mut desk = Desk { table: &full.words, setting: 0, answer: &mut answer, work: &mut work };
        if Book::new(&mut area).save(&name, Account { words: [i as u32; 8] }, &mut desk).number == 0 {
            filed.push(name);
        }
    }
    let same = given(2 * SLOTS, WORK_WORDS, |list, work| moved(&area, &full.words, list, work).answer());
    assert_eq!(same.answer, Ok(0), "for the edition that filed them");
    let ours = same_moved(&area, &cut.words, 2 * SLOTS, WORK_WORDS);
    let count = ours.answer.expect("a whole book");
    println!("{count} of {SLOTS} payees would move: {:?}", ours.list[..2 * count].chunks(2).collect::<Vec<_>>());
    assert!((1..SLOTS).contains(&count), "{count}");
}
