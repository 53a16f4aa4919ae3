//! 01, "The table": a version byte, a count of words, the words, all
//! big-endian, and nothing after. 02, Items 9, 11 and 12: the versions.

use crate::table::{parse, Table};
use answers::Refusal;

/// How many sections a file of this version lacks; none for versions not yet
/// named.
fn lacking(version: u8) -> Option<usize> {
    match version {
        1 => Some(2),
        2 => Some(1),
        3 | 4 => Some(0),
        _ => None,
    }
}

/// The words of a file, with a 0 for each section that it lacks, or 20, 21 or 22, asked in that order. 20 is asked of
/// any file that has a byte.
fn words_of(file: &[u8], room: usize) -> Result<Vec<u32>, u32> {
    let word = |bytes: &[u8]| u32::from_be_bytes([bytes[0], bytes[1], bytes[2], bytes[3]]);
    let Some((&version, rest)) = file.split_first() else {
        return Err(21);
    };
    let Some(lack) = lacking(version) else {
        return Err(20);
    };
    if rest.len() < 4 {
        return Err(21);
    }
    let (count, body) = rest.split_at(4);
    let count = word(count);
    if body.len() as u64 != 4 * u64::from(count) {
        return Err(21);
    }
    let mut words: Vec<u32> = body.chunks_exact(4).map(word).collect();
    words.resize(words.len() + lack, 0);
    if words.len() > room {
        return Err(22);
    }
    Ok(words)
}

/// Unpacks a table file: the number of words. Words past the table are zero; after a refusal all
/// are.
pub fn unpack(file: &[u8], answer: &mut [u32]) -> Result<usize, Refusal> {
    let words = words_of(file, answer.len());
    answer.fill(0);
    let words = words.map_err(|number| Refusal::new(number, 0))?;
    answer[..words.len()].copy_from_slice(&words);
    Ok(words.len())
}

/// The version of a file of these words: 4 where a group has a list, which an
/// engine of version 3 would not know, else 3.
pub fn version(words: &[u32]) -> u8 {
    let lists = |t: Table| t.groups.iter().any(|g| g.list.is_some());
    if parse(words).is_some_and(lists) {
        4
    } else {
        3
    }
}

/// The file of these words, of their version.
pub fn pack(words: &[u32]) -> Vec<u8> {
    pack_as(version(words), words)
}

/// The same with another version byte.
pub fn pack_as(version: u8, words: &[u32]) -> Vec<u8> {
    let mut file = vec![version];
    file.extend((words.len() as u32).to_be_bytes());
    for word in words {
        file.extend(word.to_be_bytes());
    }
    file
}
