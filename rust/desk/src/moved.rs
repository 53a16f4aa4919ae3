//! The payees of a book that a table would file differently, in words.

use crate::calls::{Calls, Lent};
use crate::screen::{hex, readable};
use answers::Refusal;
use plain::book::{AREA, FRONT, SLOT, SLOTS};
use plain::limits;

/// The words of a book's file, four bytes each, big-endian. A file of another
/// size is no book: it has no words, so that the call says 40.
pub fn words(file: &[u8]) -> Vec<u32> {
    let word = |bytes: &[u8]| bytes.iter().fold(0, |word, &byte| word << 8 | u32::from(byte));
    let whole = file.len() == 4 * AREA;
    file.chunks_exact(4).filter(|_| whole).map(word).collect()
}

/// The form that the table gives a name.
fn form(calls: &impl Calls, table: &[u32], name: &[u32]) -> Option<Vec<u32>> {
    let (mut answer, mut work) = (vec![0; limits::WORKED], vec![0; limits::WORK_WORDS]);
    let lent = Lent { table, setting: 0, answer: &mut answer, work: &mut work };
    let length = calls.name(name, lent).ok()?.length;
    answer.truncate(length);
    Some(answer)
}

/// The lines for each payee that would move, and the count; or the refusal.
pub fn lines(calls: &impl Calls, area: &[u32], table: &[u32]) -> Result<(Vec<String>, usize), Refusal> {
    let (mut list, mut work) = ([0; 2 * SLOTS], vec![0; limits::WORK_WORDS]);
    let count = calls.moved(area, table, &mut list, &mut work)?;
    let slot = |i: usize| &area[FRONT + i * SLOT..][..SLOT];
    let mut lines = Vec::new();
    for entry in list[..2 * count].chunks(2) {
        let name = &slot(entry[0] as usize)[1..][..slot(entry[0] as usize)[0] as usize];
        lines.push(format!("slot {}: {}", entry[0], readable(name)));
        lines.push(format!("   {}", hex(name)));
        match (entry[1], form(calls, table, name)) {
            (0, Some(form)) => {
                lines.push(format!("   would be {}", readable(&form)));
                lines.push(format!("   {}", hex(&form)));
            }
            (number, _) => {
                lines.push(format!("   would be refused as {number}: {}", Refusal::new(number, 0).meaning()))
            }
        }
    }
    let filed = (0..SLOTS).filter(|&i| slot(i)[0] != 0).count();
    lines.push(format!("{count} of {filed} payees would move"));
    Ok((lines, count))
}

#[cfg(test)]
mod tests {
    use super::*;
    use crate::calls::Plain;
    use plain::TableBuilder;

    fn file(area: &mut [u32], i: usize, name: &[u32]) {
        let slot = &mut area[FRONT + i * SLOT..][..SLOT];
        slot[0] = name.len() as u32;
        slot[1..=name.len()].copy_from_slice(name);
    }

    #[test]
    fn payees_in_words() {
        let table = TableBuilder {
            valid: vec![(0x61, 0x7A)],
            mapped: vec![(0x41, vec![0x61])],
            groups: vec![(0, vec![(0x61, 0x7A)])],
            ..TableBuilder::default()
        };
        let words = table.to_words();
        let mut area = vec![0; AREA];
        assert_eq!(lines(&Plain, &area, &words), Ok((vec!["0 of 0 payees would move".into()], 0)));
        file(&mut area, 0, &[0x62, 0x63]);
        file(&mut area, 3, &[0x41]);
        file(&mut area, 63, &[0x62, 0x21]);
        let (told, count) = lines(&Plain, &area, &words).expect("a whole book");
        assert_eq!(count, 2);
        assert_eq!(told.len(), 8);
        assert!(told[0].starts_with("slot 3: ") && told[2].starts_with("   would be a"), "{told:?}");
        assert!(told[4].starts_with("slot 63: "), "{told:?}");
        assert_eq!(told[6], "   would be refused as 5: a codepoint that names may not have");
        assert_eq!(told[7], "2 of 3 payees would move");
        area[FRONT] = 256;
        assert_eq!(lines(&Plain, &area, &words), Err(Refusal::new(41, 0)));
        area.pop();
        assert_eq!(lines(&Plain, &area, &words), Err(Refusal::new(40, 0)));
    }

    #[test]
    fn words_of_a_file() {
        let mut file = vec![0; 4 * AREA];
        file[4..8].copy_from_slice(&[1, 2, 3, 4]);
        let area = words(&file);
        assert_eq!((area.len(), &area[..3]), (AREA, &[0, 0x01020304, 0][..]));
    }

    /// A file that lacks its last bytes, or has some more, is no book: the word
    /// that it would end with is another one.
    #[test]
    fn files_of_another_size() {
        let table = TableBuilder::default().to_words();
        let told = |bytes: usize| lines(&Plain, &words(&vec![0; bytes]), &table);
        assert!(told(4 * AREA).is_ok());
        for bytes in [0, 1, 4, 4 * AREA - 4, 4 * AREA - 3, 4 * AREA - 2, 4 * AREA - 1, 4 * AREA + 1, 4 * AREA + 4] {
            assert_eq!(told(bytes), Err(Refusal::new(40, 0)), "{bytes} bytes");
        }
    }
}
