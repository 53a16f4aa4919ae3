//! The proved sponge beside the plain version, which takes a message whole and
//! block by block: random messages, every length around the ends of blocks, in
//! random pieces; and states that no message gives.

use engine::keccak::{keccak256, Sponge};
use gen::Rng;
use plain::keccak::{Keccak, KECCAK, RATE};
use std::hint::black_box;
use std::path::Path;
use std::process::Command;
use std::time::Instant;

fn bytes(rng: &mut Rng, length: usize) -> Vec<u8> {
    (0..length).map(|_| rng.word() as u8).collect()
}

/// Takes the message in random pieces, some of them empty.
fn in_pieces(rng: &mut Rng, mut sponge: Sponge, mut message: &[u8]) -> Sponge {
    while !message.is_empty() {
        let most = *rng.pick(&[0, 1, 8, RATE, message.len()]);
        let (piece, rest) = message.split_at(rng.below(most.min(message.len()) + 1));
        sponge = sponge.absorb(piece);
        message = rest;
    }
    sponge
}

/// The proved digests of a message, whole and in pieces, are the plain one.
fn same(rng: &mut Rng, plain: &Keccak, message: &[u8]) {
    let due = plain.digest(message, KECCAK);
    assert_eq!(keccak256(message), due, "{message:X?}");
    assert_eq!(in_pieces(rng, Sponge::new(), message).digest(), due, "{message:X?}");
}

#[test]
fn random_messages() {
    let (mut rng, plain) = (Rng::new(40), Keccak::default());
    for _ in 0..10_000 {
        let length = rng.below(1_001);
        let message = bytes(&mut rng, length);
        same(&mut rng, &plain, &message);
    }
}

#[test]
fn every_length_around_the_ends_of_blocks() {
    let (mut rng, plain) = (Rng::new(41), Keccak::default());
    for end in [0, RATE, 2 * RATE, 3 * RATE, 7 * RATE] {
        for length in end.saturating_sub(9)..=end + 9 {
            for _ in 0..100 {
                let message = bytes(&mut rng, length);
                same(&mut rng, &plain, &message);
            }
        }
    }
}

#[test]
fn published_digests() {
    let file = Path::new(env!("CARGO_MANIFEST_DIR")).join("../../data/keccak/keccak256.txt");
    let text = std::fs::read_to_string(file).expect("the digests");
    let mut count = 0;
    for line in text.lines().filter(|line| !line.starts_with('#')) {
        let (digest, quoted) = line.split_once(' ').expect("a digest and a message");
        let message = quoted.strip_prefix('"').and_then(|m| m.strip_suffix('"')).expect("quotes");
        let found: String = keccak256(message.as_bytes()).iter().map(|byte| format!("{byte:02x}")).collect();
        assert_eq!(found, digest, "{message}");
        count += 1;
    }
    assert_eq!(count, 10);
}

/// "a fill of 136 or more counts modulo 136", and no state is refused.
#[test]
fn any_state() {
    let mut rng = Rng::new(42);
    for _ in 0..2_000 {
        let lanes = std::array::from_fn(|_| rng.long());
        let fill = rng.below(RATE);
        let more = *rng.pick(&[1, 2, 1_000, usize::MAX / RATE - 1]) * RATE;
        let (low, high) = (Sponge { lanes, fill }, Sponge { lanes, fill: fill + more });
        assert_eq!(low.digest(), high.digest());
        assert_eq!(high.absorb(&[]), low);
        let length = rng.below(300);
        let message = bytes(&mut rng, length);
        let due = low.absorb(&message);
        assert_eq!(high.absorb(&message), due);
        assert_eq!(in_pieces(&mut rng, high, &message).digest(), due.digest());
    }
}

/// Bytes of the message that is timed, and how often; the best time counts.
const TIMED: usize = 100_000;
const TIMES: usize = 30;

/// What Python's hashlib takes for a byte of SHA3-256, the same sponge with
/// another padding byte, in nanoseconds.
fn other_library() -> Option<f64> {
    let program = format!(
        "
import hashlib, time
message = bytes({TIMED})
def once():
    start = time.perf_counter()
    hashlib.sha3_256(message).digest()
    return time.perf_counter() - start
print(min(once() for _ in range({TIMES})) * 1e9 / {TIMED})
"
    );
    let ran = Command::new("python3").args(["-c", &program]).output().ok()?;
    String::from_utf8(ran.stdout).ok()?.trim().parse().ok()
}

/// Not a promise: the times are shown beside each other.
#[test]
fn times() {
    let message = bytes(&mut Rng::new(43), TIMED);
    let plain = Keccak::default();
    let per_byte = |job: &dyn Fn() -> [u8; 32]| {
        let once = || {
            let start = Instant::now();
            black_box(job());
            start.elapsed().as_secs_f64() * 1e9 / TIMED as f64
        };
        (0..TIMES).map(|_| once()).fold(f64::INFINITY, f64::min)
    };
    let proved = per_byte(&|| keccak256(black_box(&message)));
    let beside = per_byte(&|| plain.digest(black_box(&message), KECCAK));
    let other = other_library().map_or(String::from("not measured"), |ns| format!("{ns:.2} ns"));
    println!("a byte of {TIMED}: proved {proved:.2} ns, plain {beside:.2} ns, SHA3-256 of Python's hashlib {other}");
}
