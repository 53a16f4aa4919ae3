//! The look-alike test of the proved call, held against the plain version on
//! tables made for it: groups in chains of 1 to 256, one component or several,
//! members that no group holds, more wholes than are remembered.

use answers::Refusal;
use gen::wholes::item_6::{table, A, B, C, E};
use gen::wholes::{chained, chained_name, chained_of};
use gen::Rng;
use plain::label::extent;
use plain::limits::{WORKED, WORK_WORDS};
use plain::{Lookup, Table, TableBuilder, Whole, STOP};
use std::collections::BTreeSet;

/// The name call of both versions, every word of both buffers.
fn same(name: &[u32], words: &[u32], why: &str) -> Result<plain::Name, Refusal> {
    let (mut answer, mut work) = (vec![7; WORKED], vec![7; WORK_WORDS]);
    let given = engine::name(name, words, 0, &mut answer, &mut work).answer();
    let (mut due_answer, mut due_work) = (vec![9; WORKED], vec![9; WORK_WORDS]);
    let due = plain::name(name, words, &mut due_answer, &mut due_work);
    assert_eq!(given, due, "{why}, name {name:X?}, words {words:X?}");
    assert!(answer == due_answer && work == due_work, "{why}, name {name:X?}");
    given
}

/// How many wholes were met of each kind that matters to the extent.
#[derive(Debug, Default)]
struct Met {
    /// Whose members join their groups to more than one component.
    parted: u64,
    /// With a member in no group.
    with_nowhere: u64,
    /// The most groups that hold a member of one extent.
    longest: usize,
}

impl Met {
    fn add(&mut self, table: &Table, whole: Whole) {
        let members: BTreeSet<u32> = whole.members().collect();
        let holding = |c: u32| (0..table.group_count()).filter(move |&g| table.group_holds(g, c));
        let Some(&c) = members.iter().find(|&&c| holding(c).next().is_some()) else { return };
        let inside = extent(table, whole, c);
        let groups: BTreeSet<usize> = inside.iter().flat_map(|&m| holding(m)).collect();
        self.longest = self.longest.max(groups.len());
        self.parted += u64::from(members.iter().any(|&m| !inside.contains(&m) && holding(m).next().is_some()));
        self.with_nowhere += u64::from(members.iter().any(|&m| holding(m).next().is_none()));
    }
}

/// What shows of a label before any extent is found: 0, no character is confused;
/// 1, no group may spell it otherwise, since a group that holds a confused
/// character never does, nor one without a character that is not; 2, nothing.
fn first_look(table: &Table, label: &[u32]) -> usize {
    let confused = |c: u32| table.whole_of(c).is_some();
    if !label.iter().any(|&c| confused(c)) {
        return 0;
    }
    let may = |group: usize| label.iter().all(|&c| confused(c) != table.group_holds(group, c));
    if (0..table.group_count()).any(may) {
        2
    } else {
        1
    }
}

/// Whether the pairs of each group ascend without overlap: in other tables
/// no label is looked at first.
fn groups_sorted(table: &TableBuilder) -> bool {
    let ascends = |pairs: &[(u32, u32)]| pairs.windows(2).all(|two| two[0].1 < two[1].0);
    table.groups.iter().all(|(_, pairs)| pairs.iter().all(|&(first, last)| first <= last) && ascends(pairs))
}

/// The same codepoints in pairs that ascend without overlap.
fn in_order(pairs: &[(u32, u32)]) -> Vec<(u32, u32)> {
    let mut held: Vec<u32> = pairs.iter().flat_map(|&(first, last)| first..=last).collect();
    held.sort_unstable();
    held.dedup();
    held.into_iter().map(|c| (c, c)).collect()
}

/// Chains of every length; then of any, short ones more often; the groups of half
/// of the tables sorted.
#[test]
fn chains_of_groups() {
    let (mut met, mut accepted, mut refused, mut looked) = (Met::default(), 0, [0; 18], [[0; 3]; 2]);
    for seed in 1..=2_000 {
        let mut rng = Rng::new(seed);
        let mut of = if seed <= 256 { chained_of(&mut rng, seed as usize) } else { chained(&mut rng) };
        if seed % 2 == 0 {
            of.table.groups.iter_mut().for_each(|(_, pairs)| *pairs = in_order(pairs));
        }
        assert!(seed > 256 || of.table.groups.len() == seed as usize);
        let sorted = groups_sorted(&of.table);
        let words = of.table.to_words();
        let table = plain::parse(&words).expect("layout");
        table.wholes.iter().take(2).for_each(|&whole| met.add(&table, whole));
        for _ in 0..25 {
            let name = chained_name(&mut rng, &of);
            let answer = same(&name, &words, &format!("seed {seed}"));
            // Labels that are not looked at first, and those that are.
            if answer.as_ref().map_or_else(|refusal| refusal.number == 14, |_| true) {
                for label in name.split(|&c| c == STOP) {
                    looked[usize::from(sorted && label.len() > 1)][first_look(&table, label)] += 1;
                }
            }
            match answer {
                Ok(_) => accepted += 1,
                Err(refusal) => refused[refusal.number as usize] += 1,
            }
        }
    }
    println!("{accepted} accepted, refused by number {refused:?}, {met:?}, by the first look {looked:?}");
    assert!(accepted > 10_000 && refused[14] > 10_000, "{accepted} accepted, {refused:?}");
    assert!(looked.iter().flatten().all(|&labels| labels > 5_000), "{looked:?}");
    assert!(met.parted > 500 && met.with_nowhere > 500 && met.longest == 256, "{met:?}");
}

/// A chain of each length, in which every group shares a member with the next:
/// one extent reaches through all of its groups. Cut before a group it has two
/// components, and the label is 14.
#[test]
fn a_chain_of_each_length() {
    let first = 0x3400;
    for length in 1..=256 {
        let mut rng = Rng::new(u64::from(length));
        for cut in [0, 1, length / 2, length - 1] {
            // Group k holds the members 2 k to 2 k + 2: it shares both ends.
            let pair = |k: u32| (first + 2 * k + u32::from(0 < k && k == cut), first + 2 * k + 2);
            let groups = (0..length).map(|k| (2, vec![pair(k)])).collect();
            let mut members: Vec<u32> = (first..=first + 2 * length).collect();
            rng.shuffle(&mut members);
            let wholes = vec![(members.split_off(members.len() / 2), members)];
            let Some(&c) = wholes[0].1.iter().min() else { continue };
            let valid = vec![(first, first + 2 * length)];
            let words = TableBuilder { valid, groups, wholes, ..TableBuilder::default() }.to_words();
            let table = plain::parse(&words).expect("layout");
            let inside = extent(&table, table.wholes[0], c);
            let reached = (0..table.group_count()).filter(|&g| inside.iter().any(|&m| table.group_holds(g, m))).count();
            let parted = 0 < cut && cut < length;
            let due = match (parted, c <= first + 2 * cut) {
                (false, _) => length,
                (true, true) => cut,
                (true, false) => length - cut,
            };
            assert_eq!(reached, due as usize, "{length} groups, cut before {cut}");
            let answer = same(&[c], &words, &format!("{length} groups, cut before {cut}"));
            assert_eq!(answer.err(), parted.then_some(Refusal::new(14, 0)), "{length} groups, cut before {cut}");
        }
    }
}

/// The whole of 02, Item 6: A is accepted, and E beside it is 14.
#[test]
fn the_whole_of_item_6() {
    let words = table().to_words();
    assert!(same(&[A], &words, "A").is_ok());
    assert!(same(&[B, C], &words, "B C").is_ok());
    assert_eq!(same(&[E], &words, "E"), Err(Refusal::new(14, 0)));
    assert!(same(&[A, E], &words, "A E").is_ok());
    assert_eq!(same(&[A, STOP, E], &words, "A, E"), Err(Refusal::new(14, 1)));
}

/// A whole of more members than are put in order at a time, in a chain of groups
/// that is whole, or lacks a group: then there are two components.
#[test]
fn batches_of_members() {
    for (count, without) in [(1_023, 0), (1_024, 0), (1_025, 0), (3_000, 0), (1_025, 26), (3_000, 75), (5_000, 200)] {
        let first = 0x20000;
        // Group k holds the members from 20 k to 20 k + 20: the last is shared.
        let pairs = |k: u32| if k > 0 && k == without { vec![] } else { vec![(first + 20 * k, first + 20 * k + 20)] };
        let groups = (0..count / 20).map(|k| (2, pairs(k))).collect();
        let mut members: Vec<u32> = (first..first + count).collect();
        Rng::new(6).shuffle(&mut members);
        let wholes = vec![(members.clone(), members)];
        let table = TableBuilder { valid: vec![(first, first + count)], groups, wholes, ..TableBuilder::default() };
        let words = table.to_words();
        for c in [first, first + 1, first + 20, first + 20 * (without + 1), first + count / 20 * 20 - 1] {
            let answer = same(&[c], &words, &format!("{count} members"));
            assert_eq!(answer.is_err(), without > 0, "{count} {without} {c:X}: {answer:?}");
        }
    }
}
