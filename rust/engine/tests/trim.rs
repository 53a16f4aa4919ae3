//! The trimmed part, against the plain version: the same place of the caller's
//! own slice, not a copy.

use gen::Rng;
use plain::limits::WORK_WORDS;
use plain::BLANKS;

/// The proved part is the plain one, at the same address, which is returned as
/// its start and length.
fn part(input: &[u32]) -> (usize, usize) {
    let (found, expected) = (engine::trim(input), plain::trim(input));
    assert_eq!(found.as_ptr_range(), expected.as_ptr_range(), "{:X?}", &input[..input.len().min(40)]);
    let start = (found.as_ptr() as usize - input.as_ptr() as usize) / 4;
    (start, found.len())
}

/// A codepoint that is a blank, near one, or another.
fn codepoint(rng: &mut Rng) -> u32 {
    match rng.below(4) {
        0 | 1 => BLANKS[rng.below(4)],
        2 => [0x0, 0x8, 0xB, 0xC, 0xE, 0x1F, 0x21, 0x85, 0xA0, 0x2000, 0x2028, 0xFEFF, u32::MAX][rng.below(13)],
        _ => rng.word(),
    }
}

#[test]
fn random_inputs() {
    let mut rng = Rng::new(30);
    let (mut trimmed, mut empty) = (0, 0);
    for _ in 0..200_000 {
        let input: Vec<u32> = (0..rng.below(12)).map(|_| codepoint(&mut rng)).collect();
        let (_, length) = part(&input);
        trimmed += usize::from(length < input.len());
        empty += usize::from(length == 0);
    }
    assert!(trimmed > 100_000 && empty > 20_000, "{trimmed} trimmed, {empty} empty");
}

#[test]
fn every_codepoint_alone() {
    for c in 0..=0x11_0000 {
        let expected = if BLANKS.contains(&c) { (1, 0) } else { (0, 1) };
        assert_eq!(part(&[c]), expected);
    }
}

#[test]
fn empty_and_blank_inputs() {
    assert_eq!(part(&[]), (0, 0));
    for length in 1..40 {
        for blank in BLANKS {
            assert_eq!(part(&vec![blank; length]), (length, 0));
        }
    }
}

#[test]
fn long_inputs() {
    const LONG: usize = 100_000;
    assert_eq!(part(&vec![0x20; LONG]), (LONG, 0));
    assert_eq!(part(&vec![0x61; LONG]), (0, LONG));
    let mut input = vec![0x20; LONG];
    input[40_000] = 0x61;
    assert_eq!(part(&input), (40_000, 1));
    input[70_000] = 0x62;
    assert_eq!(part(&input), (40_000, 30_001));
}

/// "The name call itself doesn't trim": 20 61 20 is refused as 5 at 0, and
/// accepted once trimmed.
#[test]
fn the_name_call_does_not_trim() {
    let made = standin::names();
    let (mut answer, mut work) = ([7; 4], [7; WORK_WORDS]);
    let mut name = |input: &[u32]| {
        let r = engine::name(input, &made.words, 0, &mut answer, &mut work);
        (r.number, r.place, r.length, answer)
    };
    let pasted = [0x20, 0x61, 0x20];
    assert_eq!(name(&pasted), (5, 0, 0, [0; 4]));
    assert_eq!(name(engine::trim(&pasted)), (0, 0, 1, [0x61, 0, 0, 0]));
}
