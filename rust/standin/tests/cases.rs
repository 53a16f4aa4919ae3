//! The counter cases and the examples of ENSIP-15, by the plain version.

use standin::{cases, full, names, Desk};

#[test]
fn counter_cases_on_the_full_table() {
    let made = full();
    cases::run(&compare::Plain, &made.words, &made.spec, &cases::counter());
    made.prepared(|engine| cases::run(engine, &made.words, &made.spec, &cases::counter()));
}

#[test]
fn counter_cases_on_names_tab() {
    let made = names();
    cases::run(&compare::Plain, &made.words, &made.spec, &cases::counter());
}

/// 78 300 300, with a group that is not whitelisted and holds both.
#[test]
fn two_equal_nsm_on_a_small_table() {
    let b = plain::TableBuilder {
        valid: vec![(0x78, 0x78), (0x300, 0x300)],
        marks: vec![(0x300, 0x300)],
        nsm: vec![(0x300, 0x300)],
        classes: vec![(0x300, 0x300, 230)],
        groups: vec![(0, vec![(0x78, 0x78), (0x300, 0x300)])],
        ..plain::TableBuilder::default()
    };
    let words = b.to_words();
    assert_eq!(plain::soundness_report(&words), None);
    let mut desk = Desk::new(&compare::Plain, &words);
    assert_eq!(desk.name(&[0x78, 0x300, 0x300]), Err(plain::Refusal::new(13, 0)));
    assert_eq!(desk.name(&[0x78, 0x300]).unwrap().0, [0x78, 0x300]);
}

#[test]
fn examples_of_ensip_15() {
    let made = full();
    cases::run(&compare::Plain, &made.words, &made.spec, &cases::examples());
}

/// What ENSIP-15 says of single groups, wholes and sets.
#[test]
fn statements_of_ensip_15() {
    let made = full();
    let spec = &made.spec;
    let group = |name: &str| &spec.groups[spec.group_number(name).expect(name)];
    let holders = |c: u32| -> Vec<&str> {
        spec.groups.iter().filter(|g| g.characters.contains(&c)).map(|g| g.name.as_str()).collect()
    };
    let common = ["Latin", "Greek", "Cyrillic", "Han", "Japanese", "Korean"];
    let sorted = |mut v: Vec<&'static str>| {
        v.sort_unstable();
        v
    };
    let same_groups = |c: u32, wanted: &[&'static str]| {
        let mut found = holders(c);
        found.sort_unstable();
        assert_eq!(found, sorted(wanted.to_vec()), "{c:X}");
    };

    assert!(!group("Latin").restricted && group("Egyp").restricted);
    for name in common.iter().chain(&["Bopomofo"]) {
        assert!(group(name).whitelisted, "{name}");
    }
    assert_eq!(spec.groups.iter().filter(|g| g.whitelisted).count(), 7);
    for c in ('0'..='9').chain(['-', '_', '$']).map(u32::from).chain([0x3BE]) {
        same_groups(c, &common);
    }
    for c in 'a'..='z' {
        same_groups(u32::from(c), &["Latin", "Han", "Japanese", "Korean"]);
    }
    same_groups(0x30FB, &["Han", "Japanese", "Korean", "Bopomofo"]);
    same_groups(0x3007, &["Han", "Japanese", "Korean", "Bopomofo"]);
    same_groups(0x5F3, &["Greek"]);
    same_groups(0x4D5, &["Cyrillic"]);
    for c in [0x2019, 0x2044, 0x30FB] {
        assert!(spec.fenced.contains(&c), "{c:X}");
    }
    // Restricted groups are always single-script: no character in two of them.
    let mut seen = std::collections::HashSet::new();
    for g in spec.groups.iter().filter(|g| g.restricted) {
        assert!(g.characters.iter().all(|&c| seen.insert(c)), "{}", g.name);
    }
    // Braille, Linear B, Linear A and SignWriting are disallowed.
    for range in [0x2800..=0x28FF, 0x10000..=0x100FF, 0x10600..=0x1077F, 0x1D800..=0x1DAAF] {
        assert!(spec.groups.iter().all(|g| !g.characters.iter().any(|c| range.contains(c))));
        assert!(spec.mapped.iter().all(|(head, _)| !range.contains(head)));
        assert!(spec.ignored.iter().all(|c| !range.contains(c)));
    }
    // No character maps to the stop; ASCII is what ENSIP-15 leaves of it.
    assert!(spec.mapped.iter().all(|(_, to)| !to.contains(&0x2E)));
    let ascii: String =
        maker::valid(spec, &made.nf).into_iter().filter_map(char::from_u32).filter(char::is_ascii).collect();
    assert_eq!(ascii, "$-0123456789_abcdefghijklmnopqrstuvwxyz");

    let whole = |c: u32| spec.wholes.iter().find(|w| w.confused.contains(&c)).unwrap_or_else(|| panic!("{c:X}"));
    let g = whole(0x581);
    assert_eq!(g.valid, [0x67]);
    assert!([0x581, 0x13C0, 0x13F3, 0xA4D6].iter().all(|c| g.confused.contains(c)));
    assert!(whole(0x13CE).valid.contains(&0x34));
    assert!(whole(0x13AA).valid.contains(&0x61));
    assert!(whole(0x3007).valid.contains(&0x6F));
    let x = whole(0x445);
    assert!(x.valid.contains(&0x78) && x.confused.contains(&0x4B3));
    let t = whole(0x442);
    assert_eq!([&t.valid[..], &t.confused[..]].concat(), [0x3C4, 0x442]);
    let ae = whole(0x4D5);
    assert_eq!([&ae.valid[..], &ae.confused[..]].concat(), [0xE6, 0x4D5]);
    assert!(spec.wholes.iter().all(|w| w.confused.iter().all(|&c| c >= 0x80)));
}
