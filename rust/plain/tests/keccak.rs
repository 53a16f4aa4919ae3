//! The plain Keccak: published digests, and SHA3-256 of a library that we did
//! not write, which is the same sponge with another padding byte.

use plain::keccak::{Keccak, KECCAK, SHA3};
use std::path::Path;
use std::process::Command;

/// The bytes that hexadecimal digits stand for.
fn bytes(hex: &str) -> Vec<u8> {
    (0..hex.len()).step_by(2).map(|i| u8::from_str_radix(&hex[i..i + 2], 16).expect("hexadecimal")).collect()
}

#[test]
fn published_digests() {
    let file = Path::new(env!("CARGO_MANIFEST_DIR")).join("../../data/keccak/keccak256.txt");
    let text = std::fs::read_to_string(file).expect("the digests");
    let keccak = Keccak::default();
    let mut count = 0;
    for line in text.lines().filter(|line| !line.starts_with('#')) {
        let (digest, quoted) = line.split_once(' ').expect("a digest and a message");
        let message = quoted.strip_prefix('"').and_then(|m| m.strip_suffix('"')).expect("quotes");
        assert_eq!(keccak.digest(message.as_bytes(), KECCAK)[..], bytes(digest), "{message}");
        count += 1;
    }
    assert_eq!(count, 10);
}

/// Messages of 0 to 1,000 bytes, some of each length around the ends of blocks,
/// each with the digest that Python's hashlib gives.
const MESSAGES: &str = "
import hashlib, random
r = random.Random(10)
ends = [n + d for n in (136, 272, 408) for d in range(-3, 4)]
for length in ends * 5 + [r.randint(0, 1000) for _ in range(2000)]:
    message = bytes(r.getrandbits(8) for _ in range(length))
    print(message.hex(), hashlib.sha3_256(message).hexdigest())
";

#[test]
fn sha3_of_another_library() {
    let ran = Command::new("python3").args(["-c", MESSAGES]).output().expect("python3 runs");
    assert!(ran.status.success(), "{}", String::from_utf8_lossy(&ran.stderr));
    let text = String::from_utf8(ran.stdout).expect("text");
    let keccak = Keccak::default();
    let mut count = 0;
    for line in text.lines() {
        let (message, digest) = line.split_once(' ').expect("a message and its digest");
        assert_eq!(keccak.digest(&bytes(message), SHA3)[..], bytes(digest), "{message}");
        count += 1;
    }
    assert_eq!(count, 2105);
}

/// The padding byte alone tells the two apart.
#[test]
fn another_padding_gives_another_digest() {
    let keccak = Keccak::default();
    for length in [0, 1, 134, 135, 136, 137] {
        let message = vec![0x61; length];
        assert_ne!(keccak.digest(&message, KECCAK), keccak.digest(&message, SHA3));
    }
}
