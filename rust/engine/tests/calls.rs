//! The proved calls, held against the plain version and run on the two tables.

mod proved;

use compare::{check_again, check_joining, check_lists, check_older};
use compare::{compare, compare_over, Engine, Plain, Settings, Slow};
use engine::{Refusal, Soundness};
use gen::worst::DEEP;
use plain::limits::{INPUT, WORKED, WORK_WORDS};
use proved::Proved;

/// 200,000 random names over 2,000 random tables: answers and every word of
/// both buffers.
#[test]
fn random_names_and_tables() {
    compare(&Plain, &Proved, &Settings::default()).check();
}

/// Tables of which all is found that a pass can find, with one section at a time
/// out of order, overlapping, doubled or damaged; more of their names are so long
/// that rules 6 to 8 are looked for. By the slow ways too.
#[test]
fn disturbed_sections() {
    let settings = Settings {
        first_seed: 9_100_000,
        tables: 2_000,
        names_per_table: 20,
        lengthened_per_table: 2,
        files_per_table: 0,
        more_soundness: 0,
        keep: 5,
        ..Settings::default()
    };
    let report = compare_over(&Plain, &[&Proved, &Slow], &settings, gen::disturbed::disturbed_table);
    report.show();
    assert!(report.counts.differences == 0 && report.counts.kept_labels > settings.tables / 2);
}

/// Groups with lists (02, Item 12): as the plain version, its slow ways and a
/// second check.
#[test]
fn lists_of_sequences() {
    check_lists(&Proved, &[&Plain, &Slow], 12_100_000, 400);
}

/// Demand 3, first half, run.
#[test]
fn doing_it_again_changes_nothing() {
    check_again(&Proved, 5_000_000);
}

/// Demand 3, second half, run.
#[test]
fn joining_joins() {
    check_joining(&Proved, 6_000_000, 600);
}

/// Files of versions 1 and 2 give the answers that they gave.
#[test]
fn older_files() {
    check_older(&Proved, 7_000_000, 1_000);
}

/// Every case of "Names at the counter" and every example of ENSIP-15 that the
/// stand-in tables can show.
#[test]
fn cases_on_both_tables() {
    for made in [standin::full(), standin::names()] {
        standin::cases::run(&Proved, &made.words, &made.spec, &standin::cases::counter());
    }
    let made = standin::full();
    standin::cases::run(&Proved, &made.words, &made.spec, &standin::cases::examples());
}

/// Both tables are sound, by the proved check too.
#[test]
fn both_tables_are_sound() {
    for made in [standin::full(), standin::names()] {
        assert_eq!(engine::soundness(&made.words), Soundness::Sound);
    }
}

/// The errors met in the field: each case fails on a version that makes the
/// error.
#[test]
fn errors_met_in_the_field() {
    let words = gen::small_table().to_words();
    let (mut answer, mut work) = ([7; 9], [7; WORK_WORDS]);
    let mut call = |name: &[u32]| {
        let r = engine::name(name, &words, 0, &mut answer, &mut work);
        assert!(work.iter().all(|&w| w == 0));
        (r.number, r.place, answer)
    };
    let form = |s: &[u32]| {
        let mut a = [0; 9];
        a[..s.len()].copy_from_slice(s);
        a
    };
    // Composing the whole label: the mark after an emoji starts a text.
    assert_eq!(call(&[0x61, 0x1F4A9, 0x300]), (11, 0, [0; 9]));
    // Ignoring FE0F first: this is no family.
    assert_eq!(call(&[0x1F468, 0xFE0F, 0x200D, 0x2764, 0x200D, 0x1F468]), (5, 2, [0; 9]));
    // Mapping an item twice, or before valid is asked.
    assert_eq!(call(&[0x5A]), (0, 0, form(&[0x7A])));
    assert_eq!(call(&[0x7A]), (0, 0, form(&[0x7A])));
    // Stopping the look-alike test at the first confused character.
    assert_eq!(call(&[0x442]), (14, 0, [0; 9]));
    assert_eq!(call(&[0x442, 0x4D5]), (0, 0, form(&[0x442, 0x4D5])));
    // Leaving the old tail of a longer answer.
    assert_eq!(call(&[0x61, 0x62, 0x63, 0x64]), (0, 0, form(&[0x61, 0x62, 0x63, 0x64])));
    assert_eq!(call(&[0x62]), (0, 0, form(&[0x62])));
}

/// Tables whose decompositions grow or share items.
#[test]
fn soundness_of_deep_tables() {
    standin::shards::on_all_processors(DEEP.len(), |i| {
        let hard = &DEEP[i];
        assert_eq!(Proved.soundness(&(hard.table)().to_words()), hard.answer, "{}", hard.name);
    });
}

/// The proved name call as the plain version, on one name.
fn as_plain(name: &[u32], words: &[u32]) -> Result<Vec<u32>, Refusal> {
    let lent = |engine: &dyn Engine| {
        let (mut answer, mut work) = (vec![7; INPUT], vec![7; WORK_WORDS]);
        let given = engine.name(name, words, &mut answer, &mut work);
        (given, answer, work)
    };
    let given = lent(&Proved);
    assert_eq!(given, lent(&Plain), "{name:X?}");
    let (values, answer, _) = given;
    values.map(|v| answer[..v.length].to_vec())
}

/// Around the worked limit, and behind it: letters, codepoints that are mapped
/// to three, that decompose to two, emoji, and a disallowed one anywhere.
#[test]
fn around_the_worked_limit() {
    let words = gen::small_table().to_words();
    let ends: [&[u32]; 8] =
        [&[], &[0x61], &[0x2E3B], &[0xE0], &[0x1F4A9], &[0x40], &[0x61, 0x2E, 0x61], &[0x2E3B, 0xE0, 0x1F4A9, 0x40]];
    let mut met = [0; 16];
    for end in ends {
        for (middle, count) in [(0x61, 0), (0x34F, 40), (0x61, 40), (0x2E3B, 20), (0x1F438, 30)] {
            for length in WORKED - 6..WORKED + 2 {
                let name = [&vec![0x61; length][..], &vec![middle; count], end].concat();
                let number = as_plain(&name, &words).map_or_else(|r| r.number, |_| 0);
                // 5 comes before 7, however far behind the limit it stands.
                assert_eq!(number == 5, end.last() == Some(&0x40), "{length} {middle:X} {count} {end:X?}");
                met[number as usize] += 1;
            }
        }
    }
    assert!(met[0] > 30 && met[5] > 30 && met[7] > 30, "{met:?}");
    assert_eq!(as_plain(&vec![0x61; WORKED], &words).map(|form| form.len()), Ok(WORKED));
    assert_eq!(as_plain(&vec![0x61; WORKED + 1], &words).map_err(|r| r.number), Err(7));
}

/// Every buffer at its limit, and by one short of it or over: the input, the
/// answer buffer, the work area. What the limits were before Item 5 is judged by
/// those of today.
#[test]
fn exact_fits() {
    assert_eq!((INPUT, WORKED, WORK_WORDS), (16_384, 4_096, 8_192));
    let words = gen::small_table().to_words();
    let number = |input: &[u32], room: usize, work: usize| {
        let run = |engine: &dyn Engine| {
            let lent = || (vec![7; room], vec![7; work]);
            let (mut of_name, mut of_label) = (lent(), lent());
            let name = engine.name(input, &words, &mut of_name.0, &mut of_name.1);
            let label = engine.label(input, &words, &mut of_label.0, &mut of_label.1);
            assert_eq!(name.map(|given| given.length), label.map(|given| given.length));
            assert_eq!(of_name, of_label);
            (name, of_name)
        };
        let given = run(&Proved);
        assert_eq!(given, run(&Plain));
        given.0.map_or_else(|refusal| refusal.number, |_| 0)
    };
    let letters = |count: usize| vec![0x61; count];
    let ignored = |count: usize| [&[0x61][..], &vec![0x34F; count]].concat();
    // 4,096 words hold the longest answer, and one less do not.
    assert_eq!(number(&letters(WORKED), WORKED, WORK_WORDS), 0);
    assert_eq!(number(&letters(WORKED), WORKED - 1, WORK_WORDS), 15);
    assert_eq!(number(&letters(WORKED + 1), WORKED, WORK_WORDS), 7);
    // The longest input, and one codepoint more.
    assert_eq!(number(&ignored(INPUT - 1), 1, WORK_WORDS), 0);
    assert_eq!(number(&ignored(INPUT - 1), 0, WORK_WORDS), 15);
    assert_eq!(number(&ignored(INPUT), 1, WORK_WORDS), 3);
    // The smallest work area, and one word less; those of before Item 5.
    assert_eq!(number(&letters(1), 1, WORK_WORDS - 1), 2);
    for work in [2_047, 2_048, 2_049] {
        assert_eq!(number(&letters(1), 1, work), 2);
    }
    // The other limits of before Item 5.
    for length in [1_024, 1_025] {
        assert_eq!(number(&letters(length), length, WORK_WORDS), 0);
        assert_eq!(number(&letters(length), 1_024, WORK_WORDS), if length == 1_024 { 0 } else { 15 });
    }
    for count in [4_095, 4_096] {
        assert_eq!(number(&ignored(count), 1, WORK_WORDS), 0);
    }
}

/// A record that has the items of a pair and is none is passed over each time
/// that it is asked for, in this label and in the next; the record behind it
/// that is one is found each time.
#[test]
fn pairs_are_asked_for_again() {
    let mut table = gen::small_table();
    let pair = |head: u32| (head, vec![0x61, 0x300]);
    let other = |head: u32| (head, vec![0x62, 0x300]);
    // The first is the last of the exclusions, the second has a class.
    table.decompositions = vec![pair(0xE1), pair(0xE2), pair(0xE3), pair(0xE4), other(0xE1), other(0xE2)];
    table.exclusions = vec![0x41, 0x42, 0xE1];
    table.classes.push((0xE2, 0xE2, 9));
    table.groups[0].1.push((0xE1, 0xE4));
    table.valid.push((0xE1, 0xE4));
    let words = table.to_words();
    let label = [0x61, 0x300, 0x62, 0x300, 0x61, 0x300];
    let form = [0xE3, 0x62, 0x300, 0xE3];
    for labels in 1..4 {
        let name = vec![&label[..]; labels].join(&0x2E);
        assert_eq!(as_plain(&name, &words), Ok(vec![&form[..]; labels].join(&0x2E)));
    }
}
