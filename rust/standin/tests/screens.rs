//! The screen form on real characters, by the plain version. By the proved calls:
//! engine/tests/full_table.rs.

use compare::screens::plainly;
use standin::screens::{coming_back, run_examples, EXAMPLES};
use standin::{full, names};

#[test]
fn examples_of_ensip_15() {
    for made in [full(), names()] {
        run_examples(&plainly, &made, &EXAMPLES);
    }
}

/// Both tables are tables that the wanted theorem speaks of; it is run on
/// 100,000 accepted names of real characters by the full-size one.
#[test]
fn screen_forms_come_back() {
    for made in [names(), full()] {
        assert_eq!(plain::screen::unmet(&made.words), []);
    }
    let counts = coming_back(&full(), None, 31, 100_000);
    println!("{counts:?}");
    assert_eq!(counts.accepted, 100_000);
    assert!(counts.styled > 5_000 && counts.capital > 5_000, "{counts:?}");
}
