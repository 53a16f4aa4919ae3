//! The two-item decompositions by their items: an index that is made once for a
//! table and says which of them have these two.

use crate::records::Records;

const SLOTS: usize = 2_048;
/// The slots that a search asks at most.
const TRIES: usize = 32;

/// For each slot the place of a record, from 1, or 0. Records of equal items
/// come in their order: a later one finds its slot behind the earlier.
#[derive(Clone, Debug)]
pub(crate) struct PairIndex<'t> {
    records: Records<'t, 1>,
    slots: Box<[u32; SLOTS]>,
    /// Some two records have the same two items.
    pub(crate) equals: bool,
}

/// The slots that are asked for these items, one after the other.
fn slots(a: u32, b: u32) -> impl Iterator<Item = usize> {
    let mixed = a.wrapping_mul(0x9E37_79B1) ^ b.wrapping_mul(0x85EB_CA77).rotate_left(16);
    let first = mixed.wrapping_mul(0x9E37_79B1) as usize >> 21;
    (first..first + TRIES).map(|slot| slot % SLOTS)
}

impl<'t> PairIndex<'t> {
    /// `None` where some record finds no slot.
    pub(crate) fn new(records: Records<'t, 1>) -> Option<PairIndex<'t>> {
        let mut index = PairIndex { records, slots: Box::new([0; SLOTS]), equals: false };
        for at in records.places() {
            if let [a, b] = *records.items(at) {
                index.put(at, a, b)?;
            }
        }
        Some(index)
    }

    fn put(&mut self, at: usize, a: u32, b: u32) -> Option<()> {
        for slot in slots(a, b) {
            match self.slots[slot].checked_sub(1) {
                None => {
                    self.slots[slot] = at as u32 + 1;
                    return Some(());
                }
                Some(other) => self.equals |= self.records.items(other as usize) == [a, b],
            }
        }
        None
    }

    /// Of the records with these items the head of the first that passes.
    pub(crate) fn find(&self, a: u32, b: u32, passes: impl Fn(u32) -> bool) -> Option<u32> {
        for slot in slots(a, b) {
            let at = self.slots[slot].checked_sub(1)? as usize;
            if self.records.items(at) == [a, b] && passes(self.records.key(at)) {
                return Some(self.records.key(at));
            }
        }
        None
    }
}
