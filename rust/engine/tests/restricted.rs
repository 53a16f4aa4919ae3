//! The setting that refuses labels of restricted groups: the proved calls
//! beside the plain version with the settings 0, 1, 2 and FFFFFFFF, every word
//! of both buffers included.

mod marked;

use gen::{Rng, Vocabulary};
use marked::lent;
use plain::limits::{WORKED, WORK_WORDS};
use plain::TableBuilder;

const SETTINGS: [u32; 4] = [0, 1, 2, 0xFFFF_FFFF];
const ROOM: usize = WORKED;
const WORK: usize = WORK_WORDS;

/// Both calls on this input with this setting, compared; the name's refusal.
fn compare(input: &[u32], words: &[u32], setting: u32) -> u32 {
    let ((proved, area), answer) = lent(ROOM, |a| lent(WORK, |w| engine::name(input, words, setting, a, w)));
    let (mut due_answer, mut due_work) = (vec![7; ROOM], vec![7; WORK]);
    let due = plain::name_with(input, words, setting, &mut due_answer, &mut due_work);
    assert_eq!((proved.answer(), &answer, &area), (due, &due_answer, &due_work), "name {input:X?}, {setting:X}");
    let ((proved, area), answer) = lent(ROOM, |a| lent(WORK, |w| engine::label(input, words, setting, a, w)));
    let alone = plain::label_with(input, words, setting, &mut due_answer, &mut due_work);
    assert_eq!((proved.answer(), &answer, &area), (alone, &due_answer, &due_work), "label {input:X?}, {setting:X}");
    due.map_or_else(|refusal| refusal.number, |_| 0)
}

#[test]
fn random_names_as_the_plain_version() {
    let mut rng = Rng::new(0x7265_7374_7269_6374);
    let mut seen = [[0_u32; 18]; 4];
    for _ in 0..2_000 {
        let made = gen::table(&mut rng);
        let vocabulary = Vocabulary::new(&mut rng, &made.builder);
        for _ in 0..25 {
            let name = vocabulary.name(&mut rng);
            for (i, setting) in SETTINGS.into_iter().enumerate() {
                seen[i][compare(&name, &made.words, setting) as usize] += 1;
            }
        }
    }
    println!("by the setting and the refusal number: {seen:?}");
    assert_eq!(seen[0][17], 0, "off");
    for on in &seen[1..] {
        assert_eq!(on, &seen[1], "0 is off, and all others are on alike");
        assert!(on[17] >= 500 && on[0] >= 500 && on[16] >= 500, "{on:?}");
    }
}

/// 61 is of group 0; E1 and E2 of group 1, which is restricted; E2 and F2 are
/// confused with one another, and F2 is of group 2.
fn table() -> Vec<u32> {
    let all = vec![(0x61, 0x61), (0xE1, 0xE2), (0xF2, 0xF2)];
    TableBuilder {
        valid: all,
        groups: vec![(0, vec![(0x61, 0x61)]), (1, vec![(0xE1, 0xE2)]), (0, vec![(0xF2, 0xF2)])],
        wholes: vec![(vec![], vec![0xE2, 0xF2])],
        ..TableBuilder::default()
    }
    .to_words()
}

#[test]
fn beside_14_in_both_orders() {
    let words = table();
    let answer = |name: &[u32], setting: u32| {
        let r = engine::name(name, &words, setting, &mut [0; ROOM], &mut [0; WORK]);
        (r.number, r.place)
    };
    let (rare, look_alike): (&[u32], &[u32]) = (&[0xE1], &[0xE2]);
    assert_eq!(answer(rare, 0), (0, 0));
    assert_eq!(answer(look_alike, 0), (14, 0));
    // a label that is both is refused as 14
    for setting in &SETTINGS[1..] {
        assert_eq!(answer(rare, *setting), (17, 0));
        assert_eq!(answer(look_alike, *setting), (14, 0));
        assert_eq!(answer(&[rare, &[0x2E], look_alike].concat(), *setting), (17, 0));
        assert_eq!(answer(&[look_alike, &[0x2E], rare].concat(), *setting), (14, 0));
        assert_eq!(answer(&[&[0x61, 0x2E], rare].concat(), *setting), (17, 1));
        assert_eq!(answer(&[rare, &[0x2E, 0x7A]].concat(), *setting), (17, 0));
        assert_eq!(answer(&[&[0x7A, 0x2E], rare].concat(), *setting), (5, 0));
    }
    assert_eq!(answer(&[rare, &[0x2E], look_alike].concat(), 0), (14, 1));
}
