//! A small table of our own for the names at the counter and the examples of
//! the source document. It is sound.

use plain::TableBuilder;

pub const LATIN: usize = 0;
pub const GREEK: usize = 1;
pub const CYRILLIC: usize = 2;
pub const ARABIC: usize = 3;
pub const EGYPTIAN: usize = 4;
pub const WHITELISTED: usize = 5;
pub const KOREAN: usize = 6;

pub fn small_table() -> TableBuilder {
    // Digits, hyphen, low line and fenced characters are common.
    let common = [(0x2D, 0x2D), (0x30, 0x39), (0x5F, 0x5F), (0x2019, 0x2019), (0x30FB, 0x30FB)];
    let group = |own: &[(u32, u32)]| [&common[..], own].concat();
    let one = |c: u32| (c, c);
    let mut mapped: Vec<(u32, Vec<u32>)> = (0x41..=0x5A).map(|c| (c, vec![c + 0x20])).collect();
    mapped.extend([
        (0x2122, vec![0x74, 0x6D]),
        (0x2010, vec![0x2D]),
        (0x39E, vec![0x3BE]),
        (0x2E3B, vec![0x2D, 0x2D, 0x2D]),
        (0x2165, vec![0x76, 0x69]),
        // 7A is valid, so this record is never asked.
        (0x7A, vec![0x79]),
    ]);
    let mut b = TableBuilder {
        ignored: vec![one(0xFE0E), one(0xFE0F), one(0x34F)],
        fenced: vec![one(0x2019), one(0x30FB)],
        marks: vec![(0x300, 0x303), (0x610, 0x614), one(0x655)],
        nsm: vec![(0x300, 0x303), (0x610, 0x614), one(0x655)],
        mapped,
        decompositions: vec![(0xE0, vec![0x61, 0x300]), (0x1EBD, vec![0x65, 0x303]), (0x625, vec![0x627, 0x655])],
        emoji: vec![
            vec![0x1F4A9, 0xFE0F],
            vec![0x1F468, 0xFE0F],
            vec![0x1F468, 0x1F3FB],
            vec![0x1F468, 0x1F3FB, 0x200D, 0x1F4BB],
            vec![0x2764, 0xFE0F],
            vec![0x1F468, 0x200D, 0x2764, 0xFE0F, 0x200D, 0x1F468],
            vec![0x31, 0xFE0F, 0x20E3],
            vec![0x1F438, 0xFE0F],
            vec![0x1F680, 0xFE0F],
        ],
        classes: vec![(0x300, 0x303, 230), (0x610, 0x614, 230), (0x655, 0x655, 220)],
        groups: vec![
            (0, group(&[one(0x24), (0x61, 0x7A), one(0xE0), one(0xE6), one(0x1EBD), (0x300, 0x303)])),
            (0, group(&[(0x3B1, 0x3C9)])),
            (0, group(&[(0x430, 0x44F), one(0x4D5), one(0x4B3)])),
            (0, vec![(0x610, 0x614), (0x621, 0x64A)]),
            (1, vec![(0x13000, 0x1342F)]),
            (2, vec![(0x561, 0x586), (0x300, 0x303)]),
            (0, vec![(0xAC00, 0xD7A3)]),
        ],
        wholes: vec![(vec![0x78], vec![0x445, 0x4B3]), (vec![], vec![0x442, 0x3C4]), (vec![0xE6], vec![0x4D5])],
        escape: vec![one(0x200D), (0x300, 0x303), one(0x20E3), (0xFE0E, 0xFE0F)],
        ..TableBuilder::default()
    };
    b.valid = b.groups.iter().flat_map(|g| g.1.clone()).collect();
    b.valid.extend([one(0x655), (0x1100, 0x1112), (0x1161, 0x1175), (0x11A8, 0x11C2)]);
    b
}
