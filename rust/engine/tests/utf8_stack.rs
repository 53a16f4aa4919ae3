//! The local array of the byte form holds the codepoints that were read: what
//! the call leaves of them on a painted stack, and how much of it it uses. The
//! names here are refused before or soon after the name call looks at them, so
//! that what stays could only be the array's; the name call itself is measured
//! in stack.rs.

mod painted;

use painted::{run, traces, Traces};
use plain::limits::{INPUT, WORK_WORDS};
use std::hint::black_box;

const KB: usize = 1 << 10;

/// What the array takes, with one word more than an input may have.
const ARRAY: usize = 4 * (INPUT + 1);

/// What the name call may use of the stack, as in stack.rs.
const NAME: usize = 48 * KB;

/// As stack.rs: single codepoints that an expression spilled, and no two
/// neighbours in order.
const WORDS: usize = 16;

/// Codepoints that no place in a table is as large as.
fn text() -> Vec<u32> {
    (0x2_1000..).take(INPUT - 96).collect()
}

#[test]
fn the_array_is_cleared_on_every_way_out() {
    let table = standin::full().words;
    let text = text();
    let bytes = plain::utf8::encode(&text).expect("scalar values");
    let cases: [(&str, &[u8], &[u8], &[u32], usize, u32); 6] = [
        ("30 behind text", b"", b"\xFF", &table, WORK_WORDS, 30),
        ("30, cut", b"", b"\xF0\xA1", &table, WORK_WORDS, 30),
        ("1", b"", b"", &[], WORK_WORDS, 1),
        ("2", b"", b"", &table, WORK_WORDS - 1, 2),
        ("5 before text", b"@", b"", &table, WORK_WORDS, 5),
        ("3: one codepoint more than have room", &b"a".repeat(98), b"", &table, WORK_WORDS, 3),
    ];
    for (what, front, back, table, work, due) in cases {
        let name = [front, &bytes, back].concat();
        let (mut answer, mut work) = (vec![7; 64], vec![7; work]);
        let mut number = 0;
        let left = run(|| number = black_box(engine::utf8::name(&name, table, 0, &mut answer, &mut work).number));
        assert_eq!(number, due, "{what}");
        let Traces { words, in_order } = traces(&left, &text);
        println!("{what}: {words} words, {in_order} in order, {} bytes, {ARRAY} of them the array", left.used);
        assert!(words <= WORDS && in_order <= 1, "{what}: {words} words, {in_order} in order");
        assert!(left.used <= ARRAY + NAME, "{what}: {} bytes", left.used);
    }
}

/// The reader and the writer have no array.
#[test]
fn reading_and_writing() {
    let text = text();
    let bytes = plain::utf8::encode(&text).expect("scalar values");
    let (mut words, mut out) = (vec![7; 5_000], vec![7; 20_000]);
    let read = run(|| {
        black_box(engine::utf8::read(&bytes, &mut words));
    });
    let written = run(|| {
        black_box(engine::utf8::write(&text, &mut out));
    });
    for (what, left) in [("read", read), ("write", written)] {
        let Traces { words, in_order } = traces(&left, &text);
        println!("{what}: {words} words, {in_order} in order, {} bytes", left.used);
        assert!(words <= WORDS && in_order <= 1 && left.used <= KB, "{what}");
    }
}
