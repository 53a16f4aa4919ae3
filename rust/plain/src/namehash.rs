//! The name hash of EIP-137 (02, Item 10), over Rust's own UTF-8.

use crate::calls::name_with;
use crate::keccak256;
use crate::STOP;
use answers::{Name, Refusal};

/// The hash of labels: "namehash([]) = 32 zero bytes, namehash([label, ..]) =
/// keccak256(namehash(..) + keccak256(label))".
pub fn node(labels: &[String]) -> [u8; 32] {
    match labels {
        [] => [0; 32],
        [label, rest @ ..] => keccak256(&[node(rest), keccak256(label.as_bytes())].concat()),
    }
}

/// The hash of a normal form, or the index of its first number that is no
/// scalar value. The empty one has no labels.
pub fn namehash(form: &[u32]) -> Result<[u8; 32], usize> {
    let read = |(index, &c): (usize, &u32)| char::from_u32(c).ok_or(index);
    let text: String = form.iter().enumerate().map(read).collect::<Result<_, _>>()?;
    let stop = char::from_u32(STOP).expect("the stop");
    let labels: Vec<String> = match text.is_empty() {
        true => Vec::new(),
        false => text.split(stop).map(String::from).collect(),
    };
    Ok(node(&labels))
}

/// The call: the name call, and the hash of its answer, zeros beside a refusal.
/// 4 comes last, and clears the answer.
pub fn namehash_with(
    input: &[u32],
    table: &[u32],
    setting: u32,
    answer: &mut [u32],
    work: &mut [u32],
) -> (Result<Name, Refusal>, [u8; 32]) {
    let named = name_with(input, table, setting, answer, work);
    let Ok(name) = named else {
        return (named, [0; 32]);
    };
    match namehash(&answer[..name.length]) {
        Ok(hash) => (named, hash),
        Err(index) => {
            answer.fill(0);
            (Err(Refusal::new(4, index)), [0; 32])
        }
    }
}
