//! UTF-8 (02, Item 2), by the syntax of RFC 3629, section 4, and the table of
//! its section 3.

use crate::calls::name_with;
use crate::is_scalar;
use answers::{Name, Refusal};
use std::ops::RangeInclusive;

type Octets = RangeInclusive<u8>;

/// UTF8-tail
const TAIL: Octets = 0x80..=0xBF;

/// UTF8-1, UTF8-2, UTF8-3 and UTF8-4, each alternative by itself.
const CHARS: [&[Octets]; 9] = [
    &[0x00..=0x7F],
    &[0xC2..=0xDF, TAIL],
    &[0xE0..=0xE0, 0xA0..=0xBF, TAIL],
    &[0xE1..=0xEC, TAIL, TAIL],
    &[0xED..=0xED, 0x80..=0x9F, TAIL],
    &[0xEE..=0xEF, TAIL, TAIL],
    &[0xF0..=0xF0, 0x90..=0xBF, TAIL, TAIL],
    &[0xF1..=0xF3, TAIL, TAIL, TAIL],
    &[0xF4..=0xF4, 0x80..=0x8F, TAIL, TAIL],
];

/// The UTF8-char that starts the bytes, if one does.
fn first(bytes: &[u8]) -> Option<&[u8]> {
    let fits = |char: &&&[Octets]| {
        char.len() <= bytes.len() && char.iter().zip(bytes).all(|(octets, byte)| octets.contains(byte))
    };
    CHARS.iter().find(fits).map(|char| &bytes[..char.len()])
}

/// The bits marked x of a sequence: all behind the mark of the lead, six of
/// each tail.
fn number(sequence: &[u8]) -> u32 {
    let mark = if sequence.len() == 1 { 1 } else { sequence.len() + 1 };
    let lead = u32::from(sequence[0]) & (0xFF >> mark);
    sequence[1..].iter().fold(lead, |bits, &tail| bits << 6 | u32::from(tail) & 0x3F)
}

/// The octets of a scalar value.
fn octets(c: u32) -> Vec<u8> {
    let tail = |shift: u32| 0x80 | (c >> shift & 0x3F) as u8;
    match c {
        0..=0x7F => vec![c as u8],
        0x80..=0x7FF => vec![0xC0 | (c >> 6) as u8, tail(0)],
        0x800..=0xFFFF => vec![0xE0 | (c >> 12) as u8, tail(6), tail(0)],
        _ => vec![0xF0 | (c >> 18) as u8, tail(12), tail(6), tail(0)],
    }
}

/// The codepoints of the bytes, or 30 where the first bad sequence starts.
pub fn decode(bytes: &[u8]) -> Result<Vec<u32>, Refusal> {
    let mut codepoints = Vec::new();
    let mut at = 0;
    while at < bytes.len() {
        let sequence = first(&bytes[at..]).ok_or(Refusal::new(30, at))?;
        codepoints.push(number(sequence));
        at += sequence.len();
    }
    Ok(codepoints)
}

/// The bytes of the codepoints, or 4 at the first that is no scalar value.
pub fn encode(codepoints: &[u32]) -> Result<Vec<u8>, Refusal> {
    match codepoints.iter().position(|&c| !is_scalar(c)) {
        Some(index) => Err(Refusal::new(4, index)),
        None => Ok(codepoints.iter().flat_map(|&c| octets(c)).collect()),
    }
}

/// The answer and then zeros, or zeros alone; 31 where there is no room.
fn settle<T: Copy + Default>(made: Result<Vec<T>, Refusal>, answer: &mut [T]) -> Result<usize, Refusal> {
    answer.fill(T::default());
    let made = made?;
    if made.len() > answer.len() {
        return Err(Refusal::new(31, 0));
    }
    answer[..made.len()].copy_from_slice(&made);
    Ok(made.len())
}

/// The reader: the number of codepoints.
pub fn utf8_read(bytes: &[u8], answer: &mut [u32]) -> Result<usize, Refusal> {
    settle(decode(bytes), answer)
}

/// The writer: the number of bytes.
pub fn utf8_write(codepoints: &[u32], answer: &mut [u8]) -> Result<usize, Refusal> {
    settle(encode(codepoints), answer)
}

/// The byte form of the name call: 30 first, else the name call on what was
/// read.
pub fn name_bytes(
    bytes: &[u8],
    table: &[u32],
    setting: u32,
    answer: &mut [u32],
    work: &mut [u32],
) -> Result<Name, Refusal> {
    match decode(bytes) {
        Ok(codepoints) => name_with(&codepoints, table, setting, answer, work),
        Err(refusal) => {
            answer.fill(0);
            work.fill(0);
            Err(refusal)
        }
    }
}
