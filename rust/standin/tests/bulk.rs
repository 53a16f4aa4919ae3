//! Every codepoint and random names on names.tab, by the plain version over a
//! table that is read once; a part of each on the full-size table by its public
//! calls. All of it on the full-size table by the proved calls:
//! engine/tests/full_table.rs.

use standin::bulk::{codepoints, random_names};
use standin::{full, names};

#[test]
fn every_codepoint_on_names_tab() {
    let made = names();
    let counts = made.prepared(|engine| codepoints(engine, None, &made.words, |_| true));
    println!("{} accepted, {:?} refused", counts.accepted, counts.refused);
    assert!(counts.accepted > 100_000 && counts.refusals(5) > 900_000);
}

/// The public calls read the table each time: every 128th codepoint.
#[test]
fn codepoints_by_the_public_calls() {
    let made = full();
    let asked = |c| c % 128 == 65 || c < 0x250;
    let counts = made.prepared(|prepared| codepoints(&compare::Plain, Some(prepared), &made.words, asked));
    assert!(counts.accepted > 900, "{counts:?}");
}

#[test]
fn random_names_by_the_public_calls() {
    let made = full();
    let counts = made.prepared(|prepared| random_names(&compare::Plain, Some(prepared), &made, 16, 1_000));
    assert!(counts.accepted > 300, "{counts:?}");
}

#[test]
fn random_names_on_names_tab() {
    let made = names();
    let counts = made.prepared(|engine| random_names(engine, None, &made, 17, 20_000));
    println!("{} accepted, {:?} refused", counts.accepted, counts.refused);
    assert!(counts.accepted > 8_000);
    for number in 5..=14 {
        assert!(counts.refusals(number) >= 10, "refusal {number}: {counts:?}");
    }
}
