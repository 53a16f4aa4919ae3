//! The random comparison and demand 3, on the plain engine.

use compare::screens::{check_coming_back, check_screens, indexed, plain_normal, plainly};
use compare::{check_again, check_joining, check_lists, check_older, check_tiny};
use compare::{compare, compare_all, compare_over, say};
use compare::{Indexed, Passed, Plain, Settings, Slow};
use gen::Rng;
use plain::{parse, Index, Lookup, Pass, Table};

/// The generators reach everything that the comparison asks for; searching by
/// halves, leaving text as it is and the index give what reading from the front
/// gives.
#[test]
fn the_pass_changes_nothing() {
    let settings = Settings::default();
    assert!(settings.tables >= 2_000 && settings.tables * settings.names_per_table as u64 >= 200_000);
    compare_all(&Slow, &[&Plain, &Passed, &Indexed], &settings).check();
}

/// The same with every section searched by halves and text left as it is, and
/// with one section at a time out of order, overlapping, doubled or damaged.
#[test]
fn disturbed_sections() {
    let settings = Settings {
        first_seed: 9_000_000,
        tables: 3_000,
        names_per_table: 20,
        lengthened_per_table: 1,
        files_per_table: 0,
        more_soundness: 0,
        keep: 5,
        ..Settings::default()
    };
    let report = compare_over(&Slow, &[&Plain, &Passed], &settings, gen::disturbed::disturbed_table);
    report.show();
    assert!(report.counts.differences == 0 && 4 * report.counts.with_rules > report.counts.lengthened_names);
}

/// Groups with lists (02, Item 12), with a second check.
#[test]
fn lists_of_sequences() {
    check_lists(&Slow, &[&Plain, &Passed, &Indexed], 12_000_000, 400);
}

/// Small tables: what the pass finds of rules 6 to 8 is so, and nothing differs.
#[test]
fn small_random_tables() {
    let counts = check_tiny(10_000_000, 150_000);
    say(counts);
    assert!(10 * counts.found > counts.tables && 2 * counts.found > counts.keep_rules, "{counts}");
    assert!(counts.kept > counts.tables && 2 * counts.kept > counts.normal, "{counts}");
}

/// The worked length of a name without a disallowed codepoint, whatever else is
/// refused of it.
fn worked(t: &plain::Index, emoji: &[&[u32]], name: &[u32]) -> Option<usize> {
    let token = |token: &plain::Token| match token {
        plain::Token::Emoji { record, .. } => plain::tokens::strip(emoji[*record]).len(),
        plain::Token::Text(text) => plain::nfd(t, text).len(),
    };
    let label = |label: &[u32]| plain::tokens(t, label).ok().map(|all| all.iter().map(token).sum::<usize>());
    let labels: Option<Vec<usize>> = name.split(|&c| c == plain::STOP).map(label).collect();
    labels.map(|of| of.iter().sum::<usize>() + of.len() - 1)
}

/// The generators reach the limits (02, Item 5): inputs of as many codepoints as
/// there may be and of one more, worked lengths of just the limit and of one more.
#[test]
fn limits_are_reached() {
    use plain::limits::{INPUT, WORKED};
    let (mut inputs, mut lengths) = ([0; 2], [0; 2]);
    for seed in 1..=400 {
        let mut rng = gen::Rng::new(seed);
        let made = gen::table(&mut rng);
        let Some(table) = plain::parse(&made.words) else { continue };
        let t = plain::Index::new(&table);
        let vocabulary = gen::Vocabulary::new(&mut rng, &made.builder);
        for _ in 0..100 {
            let name = vocabulary.name(&mut rng);
            let of =
                if name.len() < WORKED / 32 || name.len() > INPUT { None } else { worked(&t, &table.emoji, &name) };
            for more in 0..2 {
                inputs[more] += u64::from(name.len() == INPUT + more);
                lengths[more] += u64::from(of == Some(WORKED + more));
            }
        }
    }
    say(format!("inputs at the limit and one over it {inputs:?}, worked lengths {lengths:?}"));
    assert!(inputs.iter().chain(&lengths).all(|&count| count >= 10), "{inputs:?} {lengths:?}");
}

/// The same seed gives the same tables and names.
#[test]
fn seeds_repeat() {
    let settings = Settings { tables: 30, names_per_table: 20, more_soundness: 5, ..Settings::default() };
    let counts = || compare(&Plain, &Plain, &settings).counts;
    assert_eq!(counts(), counts());
}

/// Demand 3, first half.
#[test]
fn doing_it_again_changes_nothing() {
    check_again(&Plain, 1_000_000);
}

/// Demand 3, second half.
#[test]
fn joining_joins() {
    check_joining(&Plain, 2_000_000, 300);
}

/// Files of versions 1 and 2 give the answers that they gave.
#[test]
fn older_files() {
    check_older(&Plain, 7_000_000, 1_200);
}

/// The generators reach everything of the screen form that the comparison asks
/// for.
#[test]
fn screen_forms() {
    check_screens(&plainly, &indexed, 8_000_000);
}

/// The wanted theorem of the screen form.
#[test]
fn screen_forms_come_back() {
    check_coming_back(&plainly, &plain_normal, 8_100_000, 400);
}

/// Every lookup of this one is that of the table.
fn looks_up_alike(table: &Table, other: &impl Lookup, words: &[u32], rng: &mut Rng, seed: u64) -> usize {
    // Every word of the table, its neighbours and the edges.
    let mut codes: Vec<u32> = words.iter().flat_map(|&w| [w.wrapping_sub(1), w, w.wrapping_add(1)]).collect();
    codes.extend([0, 0x2E, 0xFE0F, 0x10FFFF, 0x110000, u32::MAX]);
    codes.sort_unstable();
    codes.dedup();
    for &c in &codes {
        assert_eq!(table.is_valid(c), other.is_valid(c), "seed {seed}, {c:X}");
        assert_eq!(table.is_ignored(c), other.is_ignored(c), "seed {seed}, {c:X}");
        assert_eq!(table.is_fenced(c), other.is_fenced(c), "seed {seed}, {c:X}");
        assert_eq!(table.is_mark(c), other.is_mark(c), "seed {seed}, {c:X}");
        assert_eq!(table.is_nsm(c), other.is_nsm(c), "seed {seed}, {c:X}");
        assert_eq!(table.mapping(c), other.mapping(c), "seed {seed}, {c:X}");
        assert_eq!(table.decomposition(c), other.decomposition(c), "seed {seed}, {c:X}");
        assert_eq!(table.class(c), other.class(c), "seed {seed}, {c:X}");
        assert_eq!(table.whole_of(c), other.whole_of(c), "seed {seed}, {c:X}");
        assert_eq!(table.should_escape(c), other.should_escape(c), "seed {seed}, {c:X}");
        for group in 0..table.group_count().min(20) {
            assert_eq!(table.group_flags(group), other.group_flags(group), "seed {seed}");
            assert_eq!(table.group_holds(group, c), other.group_holds(group, c), "seed {seed}, {c:X}");
        }
    }
    for (number, group) in table.groups.iter().enumerate() {
        for sequence in group.list.iter().flatten().copied() {
            let shorter = &sequence[..sequence.len() - 1];
            let longer = [sequence, &sequence[1..]].concat();
            for asked in [sequence, shorter, &longer] {
                let lists = table.group_lists(number, asked);
                assert_eq!(lists, other.group_lists(number, asked), "seed {seed}, group {number}, {asked:X?}");
            }
        }
    }
    for r in &table.decompositions {
        let (a, b) = (r.items[0], *r.items.last().unwrap());
        assert_eq!(table.composite(a, b), other.composite(a, b), "seed {seed}, {a:X} {b:X}");
        let b = *rng.pick(&codes);
        assert_eq!(table.composite(a, b), other.composite(a, b), "seed {seed}, {a:X} {b:X}");
    }
    for (number, sequence) in table.emoji.iter().enumerate() {
        assert_eq!(other.emoji(number), *sequence, "seed {seed}, {number}");
    }
    for _ in 0..200 {
        let mut rest: Vec<u32> = Vec::new();
        if !table.emoji.is_empty() {
            rest.extend(*rng.pick(&table.emoji));
        }
        rest.push(*rng.pick(&codes));
        let at = rng.below(rest.len());
        rest.remove(at);
        assert_eq!(table.find_emoji(&rest), other.find_emoji(&rest), "seed {seed}, {rest:X?}");
    }
    codes.len()
}

/// Every lookup of the index and of the pass is that of the table, and the pass
/// finds the same layout faults.
#[test]
fn index_and_pass_equal_table() {
    let mut asked = 0;
    for seed in 3_000_000..3_000_800 {
        let mut rng = Rng::new(seed);
        let words = gen::table(&mut rng).words;
        let pass = Pass::read(&words);
        let Some(table) = parse(&words) else {
            assert!(pass.is_none(), "seed {seed}");
            continue;
        };
        asked += looks_up_alike(&table, &Index::new(&table), &words, &mut rng, seed);
        looks_up_alike(&table, &pass.expect("no fault"), &words, &mut rng, seed);
    }
    say(format!("index and pass: {asked} codepoints"));
    assert!(asked > 100_000);
}
