//! The layout pass of the proved code, against the plain version.

use engine::layout_fault;
use gen::{small_table, Rng};
use plain::table::join_sections;
use plain::{parse, TableBuilder};

/// Fourteen empty sections, exclusions with its one record.
fn empty() -> Vec<Vec<u32>> {
    (0..14).map(|i| if i == 8 { vec![0] } else { vec![] }).collect()
}

/// The sections above, with this one in its place.
fn with(place: usize, section: &[u32]) -> Vec<u32> {
    let mut sections = empty();
    sections[place] = section.to_vec();
    join_sections(&sections)
}

/// The same answer as the plain version gives, which is returned.
fn fault(words: &[u32]) -> bool {
    let expected = parse(words).is_none();
    assert_eq!(layout_fault(words), expected, "{:?}", &words[..words.len().min(40)]);
    expected
}

#[test]
fn the_end_of_the_words() {
    let mut words = join_sections(&empty());
    assert!(!fault(&words));
    for length in 0..words.len() {
        assert!(fault(&words[..length]));
    }
    words.push(0);
    assert!(fault(&words), "words left over");
    words.pop();
    for place in 0..words.len() {
        for count in [2, 15, u32::MAX] {
            let mut words = words.clone();
            words[place] = count;
            assert!(fault(&words), "a count past the end");
        }
    }
}

#[test]
fn pairs_and_triples() {
    for place in [0, 1, 2, 3, 4, 12, 13] {
        assert!(!fault(&with(place, &[5, 5, 0, u32::MAX])));
        assert!(fault(&with(place, &[5])));
        assert!(fault(&with(place, &[5, 6, 7])));
        assert!(fault(&with(place, &[5, 4])));
        assert!(fault(&with(place, &[1, 2, 5, 4])));
    }
    assert!(!fault(&with(9, &[1, 2, 255])));
    assert!(fault(&with(9, &[1, 2, 256])));
    assert!(fault(&with(9, &[2, 1, 0])));
    assert!(fault(&with(9, &[1, 2])));
    assert!(fault(&with(9, &[1, 2, 3, 4])));
}

#[test]
fn items_of_a_record() {
    let headed = |count: usize| [vec![0x41, count as u32], vec![0x61; count]].concat();
    let counted = |count: usize| [vec![count as u32], vec![0x61; count]].concat();
    for count in 0..40 {
        let fits = (1..=32).contains(&count);
        assert_eq!(fault(&with(5, &headed(count))), !fits);
        assert_eq!(fault(&with(6, &headed(count))), !(1..=4).contains(&count));
        assert_eq!(fault(&with(7, &counted(count))), !fits);
        assert!(!fault(&with(8, &counted(count))));
    }
    assert!(fault(&with(5, &[0x41])));
    assert!(fault(&with(5, &[0x41, 2, 0x61])));
    assert!(fault(&with(5, &[0x41, u32::MAX, 0x61])));
    assert!(fault(&with(7, &[3, 1, 2])));
    assert!(fault(&with(8, &[])), "no record in exclusions");
    assert!(fault(&with(8, &[0, 0])), "two records in exclusions");
}

#[test]
fn groups_and_wholes() {
    for flags in 0..6 {
        assert_eq!(fault(&with(10, &[flags, 2, 5, 5])), flags > 3);
    }
    assert!(fault(&with(10, &[0])));
    assert!(fault(&with(10, &[0, 1, 5])));
    assert!(fault(&with(10, &[0, 2, 5])));
    assert!(fault(&with(10, &[0, 2, 5, 4])));
    assert!(!fault(&with(10, &[0, 0].repeat(256))));
    assert!(fault(&with(10, &[0, 0].repeat(257))));
    assert!(!fault(&with(11, &[0, 0, 1, 5, 2, 6, 7])));
    assert!(fault(&with(11, &[0])));
    assert!(fault(&with(11, &[1, 5])));
    assert!(fault(&with(11, &[0, 2, 5])));
    assert!(fault(&with(11, &[u32::MAX, 0])));
}

#[test]
fn the_most_words() {
    let most = plain::limits::TABLE_WORDS;
    for more in [0, 2] {
        let mut sections = empty();
        sections[9] = vec![7; 3];
        sections[0] = vec![7; most - 18 + more];
        let words = join_sections(&sections);
        assert_eq!(words.len(), most + more);
        assert_eq!(fault(&words), more > 0);
    }
}

/// A word changed, taken out or put in, or the end cut off.
fn damage(rng: &mut Rng, words: &mut Vec<u32>) {
    let place = rng.below(words.len());
    match rng.below(6) {
        0 => words[place] = words[place].wrapping_add(1),
        1 => words[place] = words[place].wrapping_sub(1),
        2 => words[place] = rng.word(),
        3 => drop(words.remove(place)),
        4 => words.insert(place, rng.below(4) as u32),
        _ => words.truncate(place),
    }
}

#[test]
fn damaged_tables_as_the_plain_version() {
    let mut rng = Rng::new(0x6C61_796F_7574);
    let mut seen = [0; 2];
    let small: TableBuilder = small_table();
    for turn in 0..20_000 {
        let mut words = if turn % 10 == 0 { gen::table(&mut rng).words } else { small.to_words() };
        for _ in 0..rng.below(3) {
            if !words.is_empty() {
                damage(&mut rng, &mut words);
            }
        }
        seen[usize::from(fault(&words))] += 1;
    }
    assert!(seen.iter().all(|&n| n > 1000), "both answers are met often: {seen:?}");
}
