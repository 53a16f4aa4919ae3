//! The proved calls on the full-size table: every codepoint and random names of
//! real characters, each answer held against the plain version and each accepted
//! one handed in again; and the published validation tests.

mod proved;

use compare::screens::Asked;
use engine::Refusal;
use plain::limits::{WORKED, WORK_WORDS};
use proved::Proved;
use standin::bulk::{codepoints, random_names};
use standin::screens::{coming_back, run_examples, Calls, EXAMPLES};

#[test]
fn every_codepoint() {
    let made = standin::full();
    let counts = made.prepared(|plain| codepoints(&Proved, Some(plain), &made.words, |_| true));
    println!("{} accepted, {:?} refused", counts.accepted, counts.refused);
    assert_eq!(counts.accepted + counts.refused.values().sum::<usize>(), 0x11_0000);
    assert_eq!(counts.refusals(4), 2_048);
    assert!(counts.accepted > 130_000 && counts.changed > 4_000 && counts.emoji > 1_000);
    assert!(counts.refusals(5) > 900_000 && counts.refusals(11) > 100 && counts.refusals(14) > 100);
    // Ignored ones and the stop leave no token.
    assert_eq!(counts.refusals(6), made.spec.ignored.len() + 1);
}

#[test]
fn random_names_of_real_characters() {
    let made = standin::full();
    let counts = made.prepared(|plain| random_names(&Proved, Some(plain), &made, 15, 100_000));
    println!("{} accepted, {} changed, {:?} refused", counts.accepted, counts.changed, counts.refused);
    println!("labels: {} emoji, {} ASCII, {:?}", counts.emoji, counts.ascii, counts.groups);
    assert_eq!(counts.accepted + counts.refused.values().sum::<usize>(), 100_000);
    assert!(counts.accepted > 40_000 && counts.changed > 20_000);
    for number in 5..=14 {
        assert!(counts.refusals(number) >= 50, "refusal {number}: {counts:?}");
    }
    assert!(counts.emoji > 1_000 && counts.ascii > 1_000 && counts.groups.len() > 120);
}

fn screen(asked: &Asked, answer: &mut [u32], work: &mut [u32]) -> Result<answers::Name, Refusal> {
    engine::screen::screen(asked.name, asked.table, asked.greek, asked.setting, answer, work).answer()
}

fn normal(name: &[u32], table: &[u32], setting: u32) -> Result<Vec<u32>, Refusal> {
    let (mut answer, mut work) = (vec![7; WORKED], vec![7; WORK_WORDS]);
    let given = engine::name(name, table, setting, &mut answer, &mut work).answer()?;
    answer.truncate(given.length);
    Ok(answer)
}

/// The screen form: the examples by both tables, and 100,000 accepted names whose
/// screen forms, normalised, give their normal forms.
#[test]
fn screen_forms() {
    let made = standin::full();
    for table in [&made, &standin::names()] {
        run_examples(&screen, table, &EXAMPLES);
    }
    let counts = coming_back(&made, Some(Calls { screen: &screen, normal: &normal }), 32, 100_000);
    println!("{counts:?}");
    assert!(counts.accepted == 100_000 && counts.styled > 5_000 && counts.capital > 5_000, "{counts:?}");
}

#[test]
fn published_validation_tests() {
    standin::validation::run_published(&Proved, &standin::full().words);
}
