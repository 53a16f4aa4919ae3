//! The two readings of the extent on the full-size table, side by side by the
//! plain version: 01's of one hop, and the connected one of 02, Item 6.

use gen::Rng;
use plain::label::{confusable, confusable_by, extent, first_group};
use plain::{Index, Lookup, Whole};
use standin::full;
use std::collections::BTreeSet;

fn one_hop(t: &Index, whole: Whole, c: u32) -> BTreeSet<u32> {
    let shared = |&m: &u32| (0..t.group_count()).any(|g| t.group_holds(g, c) && t.group_holds(g, m));
    std::iter::once(c).chain(whole.members().filter(shared)).collect()
}

/// How many texts that reach 14 are refused there by both readings, by one hop
/// alone, and by none.
#[derive(Debug, Default, PartialEq, Eq)]
struct Met {
    both: u64,
    one_hop_alone: u64,
    none: u64,
}

impl Met {
    fn add(&mut self, t: &Index, text: &[u32]) {
        if first_group(t, text).is_none() {
            return;
        }
        match (confusable_by(t, text, one_hop), confusable(t, text)) {
            (true, true) => self.both += 1,
            (true, false) => self.one_hop_alone += 1,
            (false, false) => self.none += 1,
            // The extent has grown, so that fewer look-alikes are outside.
            (false, true) => panic!("{text:X?}"),
        }
    }
}

#[test]
fn readings_side_by_side() {
    let made = full();
    let table = plain::parse(&made.words).expect("layout");
    let t = Index::new(&table);
    let confused: BTreeSet<u32> = table.wholes.iter().flat_map(|w| w.confused.iter().copied()).collect();
    let (mut alone, mut extents) = (Met::default(), 0);
    for &c in &confused {
        alone.add(&t, &[c]);
        let whole = t.whole_of(c).expect("it is confused");
        extents += usize::from(extent(&t, whole, c) != one_hop(&t, whole, c));
    }
    println!("{} confused characters, {extents} with another extent; alone: {alone:?}", confused.len());
    // Labels of two to six confused characters of one group.
    let groups: Vec<Vec<u32>> = (0..t.group_count())
        .map(|g| confused.iter().copied().filter(|&c| t.group_holds(g, c)).collect())
        .filter(|of: &Vec<u32>| of.len() > 1)
        .collect();
    let mut rng = Rng::new(6);
    let mut labels = Met::default();
    for _ in 0..100_000 {
        let of = rng.pick(&groups);
        let text: Vec<u32> = (0..rng.between(2, 6)).map(|_| *rng.pick(of)).collect();
        labels.add(&t, &text);
    }
    println!("100,000 random labels of them: {labels:?}");
    // The figures of docs/landings/item-06.md.
    assert_eq!((confused.len(), extents), (500, 2));
    assert_eq!(alone, Met { both: 498, one_hop_alone: 2, none: 0 });
    assert_eq!(labels, Met { both: 72_568, one_hop_alone: 443, none: 26_989 });
}
