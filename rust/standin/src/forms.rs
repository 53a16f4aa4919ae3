//! Unicode's NormalizationTest, for any NFC and NFD.

use crate::shards::on_all_processors;
use std::collections::HashSet;

/// A text with its NFC and its NFD.
type Row = [Vec<u32>; 3];

/// The table of decompositions, exclusions and classes alone.
pub fn nf_table() -> Vec<u32> {
    let (_, nf) = crate::source();
    maker::make_nf(&nf).to_words()
}

/// Every column of every line with its forms, and the codepoints that part 1
/// lists. The last two columns are left out where they repeat the two before
/// them.
fn read() -> (Vec<Row>, HashSet<u32>) {
    let text = crate::text("unicode/NormalizationTest.txt");
    let (mut rows, mut listed, mut lines, mut part) = (Vec::new(), HashSet::new(), 0, "");
    for line in text.lines() {
        if line.starts_with('@') {
            part = line;
            continue;
        }
        let mut columns: Vec<Vec<u32>> = line.split(';').map(crate::cases::hex).collect();
        if columns.len() == 3 {
            columns.extend([columns[1].clone(), columns[2].clone()]);
        }
        let [c1, c2, c3, c4, c5]: [Vec<u32>; 5] = columns.try_into().expect("five columns");
        if part == "@Part1" {
            assert_eq!(c1.len(), 1);
            listed.insert(c1[0]);
        }
        for text in [&c1, &c2, &c3] {
            rows.push([text.clone(), c2.clone(), c3.clone()]);
        }
        for text in [&c4, &c5] {
            rows.push([text.clone(), c4.clone(), c5.clone()]);
        }
        lines += 1;
    }
    assert_eq!((lines, listed.len()), (19_965, 17_085));
    (rows, listed)
}

/// Asks `gives` whether a text has this NFC and this NFD: for every column of
/// every line, and for every codepoint that part 1 does not list, which is its
/// own.
pub fn run(gives: impl Fn(&[u32], &[u32], &[u32]) -> bool + Sync) {
    let (mut rows, listed) = read();
    let columns = rows.len();
    let others = (0..=0x10FFFF).filter(|c| plain::is_scalar(*c) && !listed.contains(c));
    rows.extend(others.map(|c| [vec![c], vec![c], vec![c]]));
    assert_eq!(rows.len() - columns, 1_094_979);
    let parts: Vec<&[Row]> = rows.chunks(0x1000).collect();
    let failing = |[text, composed, decomposed]: &&Row| !gives(text, composed, decomposed);
    let wrong: Vec<&Row> =
        on_all_processors(parts.len(), |i| parts[i].iter().filter(failing).collect::<Vec<_>>()).concat();
    println!("{columns} columns, {} other codepoints, {} wrong", rows.len() - columns, wrong.len());
    assert!(wrong.is_empty(), "{} wrong, the first {:X?}", wrong.len(), wrong[0]);
}
