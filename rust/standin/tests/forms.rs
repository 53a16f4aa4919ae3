//! Unicode's NormalizationTest, by NFC and NFD of the plain version.

use plain::{nfc, nfd, Index};
use standin::forms;

fn run(words: &[u32]) {
    let table = plain::parse(words).expect("layout");
    let index = Index::new(&table);
    forms::run(|text, composed, decomposed| nfc(&index, text) == composed && nfd(&index, text) == decomposed);
}

/// On a table of decompositions, exclusions and classes alone.
#[test]
fn normalization_test_by_nf_json() {
    run(&forms::nf_table());
}

/// On the full-size table, which has them all.
#[test]
fn normalization_test_by_the_full_table() {
    run(&standin::full().words);
}
