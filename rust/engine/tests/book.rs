//! The payee book: the proved calls beside the plain version, every word of the
//! area, of the answer buffer and of the work area included, and beside a map
//! where the book began empty.

mod marked;

use answers::Refusal;
use engine::book::{Account, Book, Desk, AREA};
use gen::{Rng, Vocabulary};
use marked::lent;
use plain::book::{self as due, FORM, FRONT, SLOT, SLOTS};
use plain::limits::{INPUT, WORKED, WORK_WORDS};
use plain::TableBuilder;
use std::collections::HashMap;

const WORK: usize = WORK_WORDS;

/// A call, with what it takes besides the area and the buffers.
#[derive(Clone, Debug)]
enum Call {
    Save(Vec<u32>, [u32; 8]),
    Find(Vec<u32>),
    Forget(Vec<u32>),
    Reset,
}

/// What a call answers: an account, zeros for calls other than find, or the
/// refusal.
type Answer = Result<[u32; 8], Refusal>;

/// The table, the setting, and the lengths of both buffers.
#[derive(Clone, Copy)]
struct Terms<'t> {
    table: &'t [u32],
    setting: u32,
    room: usize,
    work: usize,
}

/// The proved call on this area; both buffers are full of marks before it, and
/// zeros after it.
fn proved(call: &Call, area: &mut [u32], terms: &Terms) -> Answer {
    let Terms { table, setting, .. } = *terms;
    let done = |r: Result<(), Refusal>| r.map(|()| [0; 8]);
    let ((answer, work), room) = lent(terms.room, |answer| {
        lent(terms.work, |work| match call {
            Call::Save(name, words) => {
                let mut desk = Desk { table, setting, answer, work };
                done(Book::new(area).save(name, Account { words: *words }, &mut desk).answer())
            }
            Call::Find(name) => {
                let found = Book::new(area).find(name, &mut Desk { table, setting, answer, work });
                assert!(found.number == 0 || found.account == Account::default(), "an account beside a refusal");
                found.answer().map(|account| account.words)
            }
            Call::Forget(name) => {
                done(Book::new(area).forget(name, &mut Desk { table, setting, answer, work }).answer())
            }
            Call::Reset => done(Book::new(area).reset(answer, work).answer()),
        })
    });
    assert!(room.iter().chain(&work).all(|&w| w == 0), "{call:X?} leaves words in a buffer");
    answer
}

/// The same by the plain version.
fn plainly(call: &Call, area: &mut [u32], terms: &Terms) -> Answer {
    let (mut answer, mut work) = (vec![7; terms.room], vec![7; terms.work]);
    let Terms { table, setting, .. } = *terms;
    let name: &[u32] = match call {
        Call::Save(name, _) | Call::Find(name) | Call::Forget(name) => name,
        Call::Reset => &[],
    };
    let mut lent = due::Lent { name, table, setting, answer: &mut answer, work: &mut work };
    let told = match call {
        Call::Save(_, words) => due::save(area, &mut lent, *words).map(|()| [0; 8]),
        Call::Find(_) => due::find(area, &mut lent),
        Call::Forget(_) => due::forget(area, &mut lent).map(|()| [0; 8]),
        Call::Reset => due::reset(area, lent.answer, lent.work).map(|()| [0; 8]),
    };
    assert!(answer.iter().chain(&work).all(|&w| w == 0), "the plain version leaves words");
    told
}

/// A plain map of at most 64 entries, and what it answers.
fn mapped(call: &Call, map: &mut HashMap<Vec<u32>, [u32; 8]>, terms: &Terms) -> Answer {
    let refuse = |number| Err(Refusal::new(number, 0));
    let name = match call {
        Call::Save(name, _) | Call::Find(name) | Call::Forget(name) => name,
        Call::Reset => {
            map.clear();
            return Ok([0; 8]);
        }
    };
    let (mut answer, mut work) = (vec![7; terms.room], vec![7; terms.work]);
    let accepted = plain::name_with(name, terms.table, terms.setting, &mut answer, &mut work)?;
    let form = answer[..accepted.length].to_vec();
    match (form.len(), call) {
        (0, _) => refuse(42),
        (256.., _) => refuse(43),
        (_, Call::Save(..)) if map.len() == SLOTS && !map.contains_key(&form) => refuse(45),
        (_, Call::Save(_, words)) => {
            map.insert(form, *words);
            Ok([0; 8])
        }
        (_, Call::Find(_)) => map.get(&form).copied().map_or(refuse(44), Ok),
        (_, Call::Forget(_)) => map.remove(&form).map_or(refuse(44), |_| Ok([0; 8])),
        (_, Call::Reset) => unreachable!("reset takes no name"),
    }
}

/// Names over a table, and the normal forms of those that it accepts; with
/// names that are too long for a slot, or for any call.
fn names(rng: &mut Rng, words: &[u32], builder: &TableBuilder, count: usize) -> Vec<Vec<u32>> {
    let vocabulary = Vocabulary::new(rng, builder);
    let mut names = vec![vec![]];
    for _ in 0..count {
        let name = vocabulary.name(rng);
        let mut answer = vec![0; WORKED];
        if let Ok(accepted) = plain::name_with(&name, words, 0, &mut answer, &mut [0; WORK]) {
            names.push(answer[..accepted.length].to_vec());
        }
        names.push(name);
    }
    if let Some(&(first, _)) = builder.valid.iter().find(|pair| pair.0 >= 0x61 && pair.1 <= 0x7A) {
        names.extend([254, 255, 256, 300].map(|length| vec![first; length]));
        if rng.percent(20) {
            names.push(vec![first; INPUT + 1]);
        }
    }
    let strange = *rng.pick(&[0xD800, 0x11_0000, u32::MAX]);
    names.push(vec![0x61, strange]);
    names
}

/// Two letters by the small table, 676 forms, in both cases.
fn letters(rng: &mut Rng) -> Vec<u32> {
    let case = if rng.percent(50) { 0x61 } else { 0x41 };
    vec![case + rng.below(26) as u32, 0x61 + rng.below(26) as u32]
}

/// An area: zeros behind random front words, or with slots that are filed by
/// hand, some of them damaged, or of another size. Says whether it is an empty
/// book.
fn area(rng: &mut Rng) -> (Vec<u32>, bool) {
    let mut area = vec![0; AREA];
    area[..FRONT].fill_with(|| rng.word());
    match rng.below(20) {
        0..=12 => return (area, true),
        13..=14 => {
            let size = [0, 1, FRONT, AREA - 1, AREA + 1, AREA + SLOT][rng.below(6)];
            area.resize(size, 0);
        }
        way => {
            for i in 0..SLOTS {
                if rng.percent(60) {
                    let slot = &mut area[FRONT + i * SLOT..][..SLOT];
                    let length = if rng.percent(90) { rng.between(1, 4) } else { rng.between(1, FORM) };
                    slot[0] = length as u32;
                    // words that are no codepoints are no damage
                    slot[1..=length].fill_with(|| if rng.percent(50) { rng.word() } else { 0x61 });
                    slot[1] = if rng.percent(99) { (i as u32) << 24 | slot[1] & 0xFFFF } else { 0 };
                    slot[1 + FORM..].fill_with(|| rng.word());
                }
            }
            if way > 16 {
                let slot = &mut area[FRONT + rng.below(SLOTS) * SLOT..][..SLOT];
                match rng.below(4) {
                    0 => slot[0] = [256, 257, u32::MAX][rng.below(3)],
                    1 => slot[FORM] = 1,
                    2 => slot[0] = 0,
                    _ => {
                        let (from, to) = (rng.below(SLOTS), rng.below(SLOTS));
                        area.copy_within(FRONT + from * SLOT..FRONT + (from + 1) * SLOT, FRONT + to * SLOT);
                    }
                }
            }
        }
    }
    (area, false)
}

/// How often each number was answered, and how often a book was filled and
/// emptied.
struct Seen {
    calls: usize,
    numbers: [usize; 46],
    full: usize,
    emptied: usize,
}

/// One area and one table, and so many calls, each by all three versions.
fn round(rng: &mut Rng, seen: &mut Seen, calls: usize) {
    let filling = rng.percent(30);
    let (words, names) = if filling {
        let small = gen::small_table();
        let words = small.to_words();
        let names = names(rng, &words, &small, 10);
        (words, names)
    } else {
        let made = gen::table(rng);
        let names = names(rng, &made.words, &made.builder, 40);
        (made.words, names)
    };
    let setting = if rng.percent(70) { 0 } else { rng.word() };
    let (mut ours, empty) = area(rng);
    let (mut theirs, mut map) = (ours.clone(), HashMap::new());
    let front = ours[..ours.len().min(FRONT)].to_vec();
    for _ in 0..calls {
        let name = if filling && rng.percent(85) { letters(rng) } else { rng.pick(&names).clone() };
        let call = match rng.below(100) {
            0..=59 => Call::Save(name, [rng.word(), 0, 1, 2, 3, 4, 5, rng.word()]),
            60..=84 => Call::Find(name),
            85..=99 if filling && rng.percent(70) => Call::Find(name),
            85..=98 => Call::Forget(name),
            _ => Call::Reset,
        };
        let room = if rng.percent(90) { WORKED } else { rng.below(6) };
        let work = if rng.percent(97) { WORK + rng.below(3) } else { rng.below(WORK) };
        let terms = Terms { table: &words, setting, room, work };
        let answer = proved(&call, &mut ours, &terms);
        assert_eq!(answer, plainly(&call, &mut theirs, &terms), "{call:X?}");
        assert!(ours == theirs, "the words of the area after {call:X?}");
        assert_eq!(ours[..front.len()], front, "a front word after {call:X?}");
        if empty {
            let before = map.len();
            assert_eq!(answer, mapped(&call, &mut map, &terms), "the map, {call:X?}");
            seen.full += usize::from(before < SLOTS && map.len() == SLOTS);
            seen.emptied += usize::from(before > 0 && map.is_empty());
        }
        seen.calls += 1;
        seen.numbers[answer.map_or_else(|refusal| refusal.number as usize, |_| 0)] += 1;
    }
}

/// A million calls over random tables, half of them in each of two tests, so
/// that they run beside each other.
fn half(seed: u64) {
    let (mut rng, mut seen) = (Rng::new(seed), Seen { calls: 0, numbers: [0; 46], full: 0, emptied: 0 });
    while seen.calls < 500_000 {
        round(&mut rng, &mut seen, 250);
    }
    println!(
        "{} calls, by number: {:?}; {} books filled, {} emptied",
        seen.calls, seen.numbers, seen.full, seen.emptied
    );
    for number in (0..=17).chain(40..=45) {
        assert!(seen.numbers[number] >= 500, "{number}: {} times", seen.numbers[number]);
    }
    assert!(seen.full >= 100 && seen.emptied >= 100, "{} filled, {} emptied", seen.full, seen.emptied);
}

#[test]
fn random_calls_first_half() {
    half(0x626F_6F6B);
}

#[test]
fn random_calls_second_half() {
    half(0x7061_7965);
}

/// A table in which 0 and 61 to 7A are valid and of one group; 41 is 61.
fn table() -> Vec<u32> {
    let valid = vec![(0, 0), (0x61, 0x7A)];
    TableBuilder {
        mapped: vec![(0x41, vec![0x61])],
        groups: vec![(0, valid.clone())],
        valid,
        ..TableBuilder::default()
    }
    .to_words()
}

fn terms(table: &[u32]) -> Terms<'_> {
    Terms { table, setting: 0, room: WORKED, work: WORK }
}

fn number(answer: Answer) -> u32 {
    answer.map_or_else(|refusal| refusal.number, |_| 0)
}

/// 61 and 61 0 fill equal words, and are two names; an account of zeros is an
/// account.
#[test]
fn lengths_tell_names_apart() {
    let (words, mut area) = (table(), vec![0; AREA]);
    let terms = terms(&words);
    let mut call = |call: Call| proved(&call, &mut area, &terms);
    assert_eq!(call(Call::Save(vec![0x61], [0; 8])), Ok([0; 8]));
    assert_eq!(number(call(Call::Find(vec![0x61, 0]))), 44);
    assert_eq!(call(Call::Save(vec![0x41, 0], [5; 8])), Ok([0; 8]));
    assert_eq!(call(Call::Find(vec![0x61])), Ok([0; 8]));
    assert_eq!(call(Call::Find(vec![0x61, 0])), Ok([5; 8]));
    assert_eq!(call(Call::Forget(vec![0x41])), Ok([0; 8]));
    assert_eq!(number(call(Call::Find(vec![0x61]))), 44);
    assert_eq!(call(Call::Save(vec![0, 0], [6; 8])), Ok([0; 8]));
    assert_eq!(area[FRONT..FRONT + 4], [2, 0, 0, 0], "the lowest free slot");
    assert_eq!(area[FRONT + SLOT..][..4], [2, 0x61, 0, 0]);
}

/// 255 codepoints are filed, 256 are not; 256 in a buffer of 255 are 15.
#[test]
fn the_longest_form() {
    let (words, mut area) = (table(), vec![0; AREA]);
    let long = |length| vec![0x62; length];
    let terms = terms(&words);
    assert_eq!(number(proved(&Call::Save(long(255), [9; 8]), &mut area, &terms)), 0);
    assert_eq!(area[FRONT], 255);
    assert_eq!(area[FRONT + 1..=FRONT + FORM], long(255));
    for call in [Call::Save(long(256), [9; 8]), Call::Find(long(256)), Call::Forget(long(256))] {
        assert_eq!(number(proved(&call, &mut area, &terms)), 43);
        assert_eq!(number(proved(&call, &mut area, &Terms { room: 255, ..terms })), 15);
    }
    assert_eq!(number(proved(&Call::Find(long(255)), &mut area, &Terms { room: 255, ..terms })), 0);
    assert_eq!(number(proved(&Call::Find(vec![]), &mut area, &terms)), 42);
    assert_eq!(number(proved(&Call::Find(vec![]), &mut area, &Terms { work: 9, ..terms })), 2);
    assert_eq!(number(proved(&Call::Find(vec![]), &mut area, &Terms { table: &[], ..terms })), 1);
}

/// Every word of a slot that makes it damaged, and those that do not.
#[test]
fn each_word_of_a_slot() {
    let words = table();
    let terms = terms(&words);
    let mut damaged = 0;
    for filed in [0, 1, 255] {
        for at in 0..SLOT {
            let mut area = vec![0; AREA];
            let slot = &mut area[FRONT + 7 * SLOT..][..SLOT];
            slot[0] = filed;
            slot[at] = if at == 0 { 256 } else { 0xFFFF_FFFF };
            let harmless = filed as usize >= at && at > 0 || filed > 0 && at > FORM;
            for call in [Call::Find(vec![0x61]), Call::Forget(vec![0x61])] {
                assert_eq!(number(proved(&call, &mut area, &terms)), if harmless { 44 } else { 41 }, "{filed}, {at}");
            }
            damaged += usize::from(!harmless);
            assert_eq!(number(proved(&Call::Reset, &mut area, &Terms { work: 0, ..terms })), 0);
            assert!(area.iter().all(|&w| w == 0));
        }
    }
    assert_eq!(damaged, 264 + 255 + 1);
}

/// Two slots with one name are damage wherever they stand.
#[test]
fn each_pair_of_slots() {
    let words = table();
    let terms = terms(&words);
    for i in 0..SLOTS {
        for j in 0..i {
            let mut area = vec![0; AREA];
            for k in [i, j] {
                area[FRONT + k * SLOT..][..3].copy_from_slice(&[2, 0x61, 0xFFFF_FFFF]);
            }
            assert_eq!(number(proved(&Call::Find(vec![0x61]), &mut area, &terms)), 41, "{i}, {j}");
            area[FRONT + i * SLOT + 2] = 0;
            assert_eq!(number(proved(&Call::Find(vec![0x61]), &mut area, &terms)), 44, "{i}, {j}");
        }
    }
}

/// For a sound table and the same room, a payee found by a name is found by its
/// normal form too.
#[test]
fn found_by_the_normal_form() {
    let mut rng = Rng::new(0x666F_726D);
    let mut found = 0;
    for _ in 0..600 {
        let builder = gen::sound_table(&mut rng);
        let words = builder.to_words();
        let vocabulary = Vocabulary::new(&mut rng, &builder);
        let setting = rng.word() & 1;
        let mut area = vec![0; AREA];
        for _ in 0..60 {
            let name = vocabulary.name(&mut rng);
            let terms = Terms { setting, room: rng.between(1, 300), ..terms(&words) };
            let account = [rng.word(); 8];
            if number(proved(&Call::Save(name.clone(), account), &mut area, &terms)) != 0 {
                continue;
            }
            let mut answer = vec![0; terms.room];
            let length = engine::name(&name, &words, setting, &mut answer, &mut [0; WORK]).length;
            let form = answer[..length].to_vec();
            assert_eq!(proved(&Call::Find(name), &mut area, &terms), Ok(account));
            assert_eq!(proved(&Call::Find(form), &mut area, &terms), Ok(account));
            found += 1;
        }
    }
    assert!(found > 5_000, "{found}");
}
