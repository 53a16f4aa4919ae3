//! The screen form beside the plain version: the answer, every word of the answer
//! buffer and of the work area.

mod marked;

use compare::screens::{both, check_coming_back, check_screens, plainly, Asked};
use engine::screen::screen;
use engine::Name;
use gen::screens::{long_screens, witnesses, xi_table};
use gen::small::{GREEK, LATIN};
use marked::lent;
use plain::limits::{SCREEN, SCREEN_ANY, WORKED, WORK_WORDS};
use plain::{Kind, Refusal, STOP};

/// The proved call; beside a refusal its other values are 0.
fn proved(asked: &Asked, answer: &mut [u32], work: &mut [u32]) -> Result<answers::Name, Refusal> {
    let given = screen(asked.name, asked.table, asked.greek, asked.setting, answer, work);
    let Name { number, place, .. } = given;
    assert!(number == 0 && place == 0 || given == Name { number, place, length: 0, labels: 0 }, "{given:?}");
    given.answer()
}

/// The normal form by the proved name call, and the kinds by the proved label
/// call.
fn normal(name: &[u32], table: &[u32], setting: u32) -> Result<(Vec<u32>, Vec<Kind>), Refusal> {
    let (mut answer, mut work) = (vec![7; WORKED], vec![7; WORK_WORDS]);
    let given = engine::name(name, table, setting, &mut answer, &mut work).answer()?;
    let form = answer[..given.length].to_vec();
    let labels = name.split(|&c| c == STOP).take(given.labels);
    let kind = |label: &[u32]| engine::label(label, table, setting, &mut answer, &mut work).answer().map(|l| l.kind);
    Ok((form, labels.map(kind).collect::<Result<_, _>>()?))
}

/// The screen form by both, in a room of this size.
fn compared(table: &[u32], greek: u32, name: &[u32], room: usize) -> Result<Vec<u32>, Refusal> {
    let asked = Asked { name, table, greek, setting: 0 };
    let (given, mut answer, equal) = both(&proved, &plainly, &asked, room, WORK_WORDS);
    assert!(equal, "Greek {greek}, room {room}, {name:X?}: {given:?}");
    answer.truncate(given?.length);
    Ok(answer)
}

/// Random tables, sound or not, damaged ones too, and names over them.
#[test]
fn random_names() {
    check_screens(&proved, &plainly, 9_300_000);
}

/// The wanted theorem, by both proved calls.
#[test]
fn screen_forms_come_back() {
    check_coming_back(&proved, &normal, 9_400_000, 300);
}

/// A room of every size: 15 below the length of the screen form, and the form
/// from there on; nothing is written around the buffers.
#[test]
fn every_room() {
    let words = xi_table().to_words();
    let name = [0x2D, 0x3BE, 0x31, 0x20E3, STOP, 0x2764, 0x2764, STOP, 0x3B1, 0x39E];
    let due = [0x2D, 0x39E, 0x31, 0xFE0F, 0x20E3, STOP, 0x2764, 0xFE0F, 0x2764, 0xFE0F, STOP, 0x3B1, 0x3BE];
    for room in 0..due.len() + 3 {
        let given = compared(&words, GREEK as u32, &name, room);
        assert_eq!(given, if room < due.len() { Err(Refusal::new(15, 0)) } else { Ok(due.to_vec()) }, "{room}");
        let ((given, work), answer) =
            lent(room, |answer| lent(WORK_WORDS, |work| screen(&name, &words, GREEK as u32, 0, answer, work)));
        assert!(work.iter().all(|&w| w == 0) && answer[given.length..].iter().all(|&w| w == 0));
    }
    // A refusal of a later label comes before 15.
    assert_eq!(compared(&words, 0, &[0x2764, STOP, 0x21], 0), Err(Refusal::new(5, 2)));
    for (greek, due) in [(LATIN as u32, [0x39E, 0x3BE]), (7, [0x39E; 2]), (u32::MAX, [0x39E; 2])] {
        let shown = compared(&words, greek, &[0x3B1, 0x3BE, STOP, 0x3BE], 9);
        assert_eq!(shown, Ok(vec![0x3B1, due[0], STOP, due[1]]), "{greek}");
    }
}

/// By an unsound table a screen form can be far longer than the worked length.
#[test]
fn long_screen_forms() {
    let (b, names) = long_screens();
    let words = b.to_words();
    for (name, length) in names {
        assert!((SCREEN..=SCREEN_ANY).contains(&length) || name.len() < 1_000);
        for (room, fits) in [(length, true), (length + 1, true), (length - 1, false), (WORKED, false), (0, false)] {
            let given = compared(&words, GREEK as u32, &name, room);
            assert_eq!(
                given.map(|form| form.len()),
                if fits { Ok(length) } else { Err(Refusal::new(15, 0)) },
                "{room}"
            );
        }
    }
}

/// Each hypothesis of the theorem is used: a table that breaks it alone, and a
/// name whose screen form does not come back.
#[test]
fn hypotheses() {
    for (hypothesis, table, name) in witnesses() {
        let words = table.to_words();
        let form = normal(&name, &words, 0).expect("accepted");
        let shown = compared(&words, GREEK as u32, &name, SCREEN_ANY).expect("accepted");
        assert_ne!(normal(&shown, &words, 0), Ok(form), "{hypothesis:?}: {name:X?}");
    }
}
