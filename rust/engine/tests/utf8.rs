//! The UTF-8 reader and writer beside Rust's own and beside the plain version,
//! which follows the syntax of RFC 3629; and the byte form of the name call.

mod marked;

use engine::utf8::{name, read, write, Utf8};
use gen::{Rng, Vocabulary};
use marked::lent;
use plain::limits::{INPUT, WORKED, WORK_WORDS};
use std::time::{Duration, Instant};

const NONE: u32 = 0x0707_0707;

/// What the reader leaves of a buffer of five words, for bytes of at most four.
fn five(bytes: &[u8]) -> (Utf8, [u32; 5]) {
    let mut answer = [NONE; 5];
    (read(bytes, &mut answer), answer)
}

/// Rust's own decoder: its answer, or 30 at `valid_up_to`.
fn own(bytes: &[u8]) -> (Utf8, [u32; 5]) {
    let mut answer = [0; 5];
    match std::str::from_utf8(bytes) {
        Ok(text) => {
            let length = text.chars().zip(&mut answer).map(|(c, word)| *word = c.into()).count();
            (Utf8 { number: 0, place: 0, length }, answer)
        }
        Err(e) => (Utf8 { number: 30, place: e.valid_up_to(), length: 0 }, answer),
    }
}

#[test]
fn every_byte_string_of_one_to_three() {
    let (mut bytes, mut accepted) = ([0; 3], 0);
    for number in 0..1_u32 << 24 {
        bytes.copy_from_slice(&number.to_be_bytes()[1..]);
        // Behind a first byte of 0 stand all strings of two, behind two of them all of one.
        let first = if number < 1 << 8 { 2 } else { usize::from(number < 1 << 16) };
        for start in 0..=first {
            let found = five(&bytes[start..]);
            assert_eq!(found, own(&bytes[start..]), "{:X?}", &bytes[start..]);
            accepted += usize::from(found.0.number == 0);
        }
    }
    assert_eq!(five(&[]), own(&[]));
    println!("{accepted} of 16,843,008 accepted");
}

#[test]
fn every_lead_with_boundary_tails() {
    const BYTES: [u8; 16] =
        [0x00, 0x7F, 0x80, 0x81, 0x8F, 0x90, 0x9F, 0xA0, 0xBF, 0xC0, 0xC2, 0xE0, 0xED, 0xF0, 0xF4, 0xFF];
    let (mut tried, mut accepted) = (0, 0);
    for lead in 0..=0xFF {
        for a in BYTES {
            for b in BYTES {
                for c in BYTES {
                    let bytes = [lead, a, b, c];
                    let found = five(&bytes);
                    assert_eq!(found, own(&bytes), "{bytes:X?}");
                    tried += 1;
                    accepted += usize::from(found.0.number == 0);
                }
            }
        }
    }
    println!("{accepted} of {tried} accepted");
}

#[test]
fn each_kind_of_fault_by_name() {
    let faults: [(&str, &[u8], usize); 14] = [
        ("a tail octet", b"a\x80", 1),
        ("F5", b"\xF5\x80\x80\x80", 0),
        ("FF", b"ab\xFF", 2),
        ("an overlong 0", b"\xC0\x80", 0),
        ("an overlong 7F", b"\xC1\xBF", 0),
        ("an overlong 0 in three", b"\xE0\x80\x80", 0),
        ("an overlong 7FF", b"\xE0\x9F\xBF", 0),
        ("an overlong 0 in four", b"\xF0\x80\x80\x80", 0),
        ("an overlong 20AC", b"\xF0\x82\x82\xAC", 0),
        ("the first surrogate", b"\xED\xA0\x80", 0),
        ("the last surrogate", b"a\xED\xBF\xBF", 1),
        ("110000", b"\xF4\x90\x80\x80", 0),
        ("cut by the end", b"a\xF0\x9F\x92", 1),
        ("cut by another", b"\xE2\x89\xC3\xA9", 0),
    ];
    for (what, bytes, place) in faults {
        let (found, answer) = lent(8, |a| read(bytes, a));
        assert_eq!(found, Utf8 { number: 30, place, length: 0 }, "{what}");
        assert_eq!(answer, [0; 8], "{what}");
    }
}

#[test]
fn every_scalar_value_there_and_back() {
    for c in (0..=0x10FFFF).filter_map(char::from_u32) {
        let (mut bytes, mut own, mut back) = ([7; 5], [0; 5], [NONE; 2]);
        let length = c.encode_utf8(&mut own).len();
        assert_eq!((write(&[c.into()], &mut bytes), bytes), (Utf8 { number: 0, place: 0, length }, own));
        assert_eq!(read(&bytes[..length], &mut back).answer(), Ok(1));
        assert_eq!(back, [c.into(), 0]);
    }
}

#[test]
fn numbers_that_are_no_scalar_values() {
    let mut rng = Rng::new(0x7363_616C_6172);
    let listed = [0x11_0000, 0x1F_FFFF, 0x20_0000, 0x3FF_FFFF, 0x7FFF_FFFF, 0x8000_0000, 0xFFFF_FFFF];
    let random = (0..200_000).map(|_| rng.code(0x11_0000, u32::MAX)).collect::<Vec<_>>();
    for c in (0xD800..=0xDFFF).chain(listed).chain(random) {
        for (text, place) in [(&[c][..], 0), (&[0x61, 0x10FFFF, c, c], 2)] {
            let mut bytes = [7; 20];
            assert_eq!(write(text, &mut bytes), Utf8 { number: 4, place, length: 0 }, "{c:X}");
            assert_eq!(bytes, [0; 20]);
        }
    }
}

/// A text of every length of sequence, with boundaries of the rows.
fn text(rng: &mut Rng, length: usize) -> Vec<u32> {
    const EDGES: [u32; 10] = [0, 0x7F, 0x80, 0x7FF, 0x800, 0xD7FF, 0xE000, 0xFFFF, 0x1_0000, 0x10_FFFF];
    let one = |rng: &mut Rng| match rng.below(6) {
        0 => *rng.pick(&EDGES),
        1 => rng.code(0, 0x7F),
        2 => rng.code(0x80, 0x7FF),
        3 => rng.code(0x800, 0xD7FF),
        4 => rng.code(0xE000, 0xFFFF),
        _ => rng.code(0x1_0000, 0x10_FFFF),
    };
    (0..length).map(|_| one(rng)).collect()
}

/// The reader on these bytes with this room, as the plain version.
fn reads_alike(bytes: &[u8], room: usize) -> u32 {
    let (found, answer) = lent(room, |a| read(bytes, a));
    let mut due = vec![7; room];
    assert_eq!(found.answer(), plain::utf8_read(bytes, &mut due), "{bytes:X?}, {room}");
    assert_eq!(answer, due, "{bytes:X?}, {room}");
    found.number
}

/// The writer likewise, into a buffer with a byte on either side.
fn writes_alike(codepoints: &[u32], room: usize) -> u32 {
    let mut answer = vec![0xA5; room + 2];
    let found = write(codepoints, &mut answer[1..=room]);
    let mut due = vec![7; room];
    assert_eq!(found.answer(), plain::utf8_write(codepoints, &mut due), "{codepoints:X?}, {room}");
    assert_eq!((answer[0], &answer[1..=room], answer[room + 1]), (0xA5, &due[..], 0xA5), "{codepoints:X?}, {room}");
    found.number
}

#[test]
fn long_texts_cut_at_each_place() {
    let mut rng = Rng::new(0x6375_7421);
    let mut cuts = 0;
    for length in [1, 2, 30, 300, 1_000] {
        for _ in 0..5 {
            let text = text(&mut rng, length);
            let bytes = plain::utf8::encode(&text).expect("scalar values");
            let whole: String = text.iter().map(|&c| char::from_u32(c).expect("a scalar value")).collect();
            assert_eq!(bytes, whole.as_bytes());
            for end in 0..=bytes.len() {
                let (found, answer) = lent(length, |a| read(&bytes[..end], a));
                match std::str::from_utf8(&bytes[..end]) {
                    Ok(front) => {
                        assert_eq!(found.answer(), Ok(front.chars().count()));
                        let due: Vec<u32> = front.chars().map(u32::from).collect();
                        assert_eq!(answer[..due.len()], due);
                        assert!(answer[due.len()..].iter().all(|&word| word == 0));
                    }
                    Err(e) => {
                        assert_eq!(found, Utf8 { number: 30, place: e.valid_up_to(), length: 0 });
                        assert!(answer.iter().all(|&word| word == 0));
                    }
                }
                cuts += 1;
            }
        }
    }
    println!("{cuts} cuts");
}

#[test]
fn room_from_none_to_enough() {
    let mut rng = Rng::new(0x726F_6F6D);
    let (mut read, mut written) = ([0; 32], [0; 32]);
    for _ in 0..2_000 {
        let length = rng.below(9);
        let mut text = text(&mut rng, length);
        let mut bytes = plain::utf8::encode(&text).expect("scalar values");
        // Often a fault, at times behind the place where the room runs out.
        if rng.percent(40) && length > 0 {
            *rng.pick_mut(&mut text) = rng.code(0xD800, 0xDFFF);
            *rng.pick_mut(&mut bytes) = rng.word() as u8;
        }
        for room in 0..=length + 1 {
            read[reads_alike(&bytes, room) as usize] += 1;
        }
        for room in 0..=4 * length + 1 {
            written[writes_alike(&text, room) as usize] += 1;
        }
    }
    println!("read {} {} {}, written {} {} {}", read[0], read[30], read[31], written[0], written[4], written[31]);
    assert!(read[0] > 1_000 && read[30] > 1_000 && read[31] > 1_000);
    assert!(written[0] > 1_000 && written[4] > 1_000 && written[31] > 1_000);
}

#[test]
fn random_bytes_as_the_plain_version() {
    let mut rng = Rng::new(0x6279_7465);
    for _ in 0..200_000 {
        let bytes: Vec<u8> = match rng.below(3) {
            0 => (0..rng.below(12)).map(|_| rng.word() as u8).collect(),
            1 => (0..rng.below(12))
                .map(|_| *rng.pick(&[0x41, 0x80, 0x9F, 0xA0, 0xBF, 0xC2, 0xE0, 0xED, 0xF0, 0xF4]))
                .collect(),
            _ => {
                let length = rng.below(8);
                plain::utf8::encode(&text(&mut rng, length)).expect("scalar values")
            }
        };
        let room = rng.below(14);
        reads_alike(&bytes, room);
    }
}

/// The byte form on these bytes, as the plain version and as the name call on
/// what was read; its refusal.
fn named_alike(bytes: &[u8], words: &[u32], setting: u32, room: usize, work: usize) -> u32 {
    let ((found, area), answer) = lent(room, |a| lent(work, |w| name(bytes, words, setting, a, w)));
    let (mut due_answer, mut due_work) = (vec![7; room], vec![7; work]);
    let due = plain::name_bytes(bytes, words, setting, &mut due_answer, &mut due_work);
    assert_eq!((found.answer(), &answer, &area), (due, &due_answer, &due_work), "{bytes:X?}");
    if let Ok(codepoints) = plain::utf8::decode(bytes) {
        let ((named, area), answer) = lent(room, |a| lent(work, |w| engine::name(&codepoints, words, setting, a, w)));
        assert_eq!((found, &due_answer, &due_work), (named, &answer, &area), "{bytes:X?}");
    }
    found.number
}

#[test]
fn the_byte_form_is_the_name_call_on_what_was_read() {
    let mut rng = Rng::new(0x6E61_6D65);
    let mut seen = [0; 31];
    for _ in 0..1_500 {
        let made = gen::table(&mut rng);
        let vocabulary = Vocabulary::new(&mut rng, &made.builder);
        for _ in 0..20 {
            let mut text = vocabulary.name(&mut rng);
            text.retain(|&c| plain::is_scalar(c));
            let mut bytes = plain::utf8::encode(&text).expect("scalar values");
            if rng.percent(10) && !bytes.is_empty() {
                *rng.pick_mut(&mut bytes) = rng.word() as u8;
            }
            let setting = *rng.pick(&[0, 1, u32::MAX]);
            let room = *rng.pick(&[0, 3, WORKED]);
            let work = *rng.pick(&[0, WORK_WORDS - 1, WORK_WORDS, WORK_WORDS, WORK_WORDS, WORK_WORDS + 2]);
            seen[named_alike(&bytes, &made.words, setting, room, work) as usize] += 1;
        }
    }
    println!("by the refusal number: {seen:?}");
    assert!(seen[0] > 1_000 && seen[30] > 500 && seen[15] > 500 && seen[2] > 500 && seen[17] > 500, "{seen:?}");
    assert!(seen[4] == 0 && seen[16] > 100, "{seen:?}");
}

/// 3 is by the number of codepoints, however many there are; 1 and 2 come
/// before it, and 30 before all, also behind more codepoints than have room.
#[test]
fn the_byte_form_at_the_limit() {
    let words = standin::names().words;
    let most = INPUT;
    for count in [most - 1, most, most + 1, most + 2, 3 * most] {
        for c in [0x61, 0x34F, 0x4E00, 0x1F4A9] {
            let bytes = plain::utf8::encode(&vec![c; count]).expect("scalar values");
            let found = named_alike(&bytes, &words, 0, WORKED, WORK_WORDS);
            assert_eq!(found == 3, count > most, "{count} times {c:X}: {found}");
            if count > most {
                assert_eq!(named_alike(&bytes, &words, 0, 0, WORK_WORDS - 1), 2);
                assert_eq!(named_alike(&bytes, &[], 0, WORKED, 0), 1);
            }
            let broken = [&bytes[..], b"\xC3"].concat();
            for (words, room, work) in
                [(&words[..], WORKED, WORK_WORDS), (&words, 0, 0), (&[], 5, 3), (&words, 7, 5_000)]
            {
                assert_eq!(named_alike(&broken, words, 0, room, work), 30);
            }
        }
    }
}

/// The time of a job that is done until a tenth of a second is over.
fn time(mut job: impl FnMut()) -> Duration {
    let (start, mut times) = (Instant::now(), 0);
    while start.elapsed() < Duration::from_millis(100) || times < 3 {
        job();
        times += 1;
    }
    start.elapsed() / times
}

/// Printed, and held to no limit: bytes a second beside Rust's own.
#[test]
fn speed() {
    let mut rng = Rng::new(0x7370_6565);
    let long = |rng: &mut Rng, low, high| (0..200_000).map(|_| rng.code(low, high)).collect::<Vec<_>>();
    let texts = [
        ("ASCII", long(&mut rng, 0x20, 0x7E)),
        ("two octets", long(&mut rng, 0x400, 0x4FF)),
        ("three octets", long(&mut rng, 0x4E00, 0x9FFF)),
        ("four octets", long(&mut rng, 0x1_F300, 0x1_F5FF)),
        ("mixed", text(&mut rng, 200_000)),
    ];
    for (what, codepoints) in texts {
        let mut bytes = plain::utf8::encode(&codepoints).expect("scalar values");
        let length = bytes.len();
        let (mut words, mut out) = (vec![0; codepoints.len()], vec![0; length]);
        let rate = |time: Duration| length as f64 / time.as_secs_f64() / 1e6;
        let reading = time(|| assert_eq!(read(&bytes, &mut words).number, 0));
        let own_reading = time(|| {
            let text = std::str::from_utf8(&bytes).expect("UTF-8");
            text.chars().zip(&mut words).for_each(|(c, word)| *word = c.into());
        });
        let writing = time(|| assert_eq!(write(&codepoints, &mut out).number, 0));
        let own_writing = time(|| {
            let mut at = 0;
            for &c in &codepoints {
                let c = char::from_u32(c).expect("a scalar value");
                at += c.encode_utf8(&mut bytes[at..]).len();
            }
        });
        assert_eq!(bytes, out);
        println!(
            "{what}: read {:.0} MB/s, Rust's own {:.0}; written {:.0} MB/s, Rust's own {:.0}",
            rate(reading),
            rate(own_reading),
            rate(writing),
            rate(own_writing)
        );
    }
}
