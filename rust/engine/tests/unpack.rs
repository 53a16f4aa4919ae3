//! The unpack call on the proved code: every word of the buffer is compared,
//! and the words around the part that is lent stay as they were.

mod marked;

use engine::{soundness, unpack, Soundness, Unpacked};
use gen::Rng;
use marked::{lent, mark};

/// Unpacks into a part of `room` words of a marked buffer.
fn run(file: &[u8], room: usize) -> (Unpacked, Vec<u32>) {
    lent(room, |answer| unpack(file, answer))
}

/// The file is refused with this number, whatever the room.
fn refused(number: u32, file: &[u8]) {
    for room in [0, 1, 2, 5, 40] {
        assert_eq!(run(file, room), (Unpacked { number, count: 0 }, vec![0; room]), "{file:?}, room {room}");
    }
}

/// The file unpacks to these words, and zeros follow.
fn given(words: &[u32], file: &[u8], room: usize) {
    let mut answer = words.to_vec();
    answer.resize(room, 0);
    assert_eq!(run(file, room), (Unpacked { number: 0, count: words.len() }, answer), "{file:?}, room {room}");
}

/// A file with this version and this count, and these bytes behind them.
fn file(version: u8, count: u32, rest: &[u8]) -> Vec<u8> {
    let mut file = vec![version];
    file.extend(count.to_be_bytes());
    file.extend(rest);
    file
}

#[test]
fn an_empty_file_has_a_wrong_length() {
    refused(21, &[]);
}

#[test]
fn one_byte() {
    refused(21, &[1]);
    refused(21, &[2]);
    refused(21, &[3]);
    refused(21, &[4]);
    for version in (0..=255).filter(|v| ![1, 2, 3, 4].contains(v)) {
        refused(20, &[version]);
    }
}

#[test]
fn a_part_of_the_head_has_a_wrong_length() {
    for length in 1..5 {
        refused(21, &file(1, 0, &[])[..length]);
        refused(21, &file(2, 0, &[])[..length]);
        refused(21, &file(3, 0, &[])[..length]);
        refused(21, &file(4, 0, &[])[..length]);
    }
}

#[test]
fn a_wrong_version_comes_before_a_wrong_length() {
    for version in [0, 5, 6, 255] {
        refused(20, &file(version, 0, &[]));
        refused(20, &file(version, 7, &[1, 2]));
    }
    refused(20, &[0, 0]);
}

#[test]
fn a_wrong_length_comes_before_too_little_room() {
    refused(21, &file(1, 1000, &[0; 3]));
    refused(21, &file(1, 1, &[0; 3]));
    refused(21, &file(1, 1, &[0; 5]));
    refused(21, &file(1, 0, &[0; 4]));
}

/// Four times the count is a multiple of 2^32, or a little more.
#[test]
fn the_count_is_not_cut_to_32_bits() {
    for count in [0x4000_0000, 0x8000_0000, 0xC000_0000] {
        refused(21, &file(1, count, &[]));
        refused(21, &file(1, count + 1, &[0, 0, 0, 9]));
        refused(21, &file(1, count + 2, &[0; 8]));
    }
    refused(21, &file(1, u32::MAX, &[]));
}

#[test]
fn no_words() {
    for room in [0, 1, 9] {
        given(&[], &file(3, 0, &[]), room);
        given(&[], &file(4, 0, &[]), room);
    }
    for room in [2, 9] {
        given(&[0], &file(2, 0, &[]), room - 1);
        given(&[0, 0], &file(1, 0, &[]), room);
    }
    assert_eq!(run(&file(2, 0, &[]), 0), (Unpacked { number: 22, count: 0 }, vec![]));
    assert_eq!(run(&file(1, 0, &[]), 1), (Unpacked { number: 22, count: 0 }, vec![0]));
}

#[test]
fn the_first_byte_of_a_word_is_the_highest() {
    let bytes = [0x12, 0x34, 0x56, 0x78, 0xFF, 0, 0, 1];
    given(&[0x1234_5678, 0xFF00_0001], &file(3, 2, &bytes), 2);
    given(&[0x1234_5678, 0xFF00_0001], &file(4, 2, &bytes), 2);
    given(&[0x1234_5678, 0xFF00_0001, 0], &file(2, 2, &bytes), 3);
    given(&[0x1234_5678, 0xFF00_0001, 0, 0], &file(1, 2, &bytes), 4);
}

#[test]
fn a_buffer_too_small_by_one() {
    for words in [1, 2, 30] {
        let file = plain::pack(&vec![5; words]);
        assert_eq!(run(&file, words - 1), (Unpacked { number: 22, count: 0 }, vec![0; words - 1]));
        for (version, room) in [(2, words), (1, words + 1)] {
            let older = plain::pack_as(version, &vec![5; words]);
            assert_eq!(run(&older, room), (Unpacked { number: 22, count: 0 }, vec![0; room]));
        }
    }
}

#[test]
fn an_exact_fit_and_larger_buffers() {
    for length in [1, 2, 30] {
        let words: Vec<u32> = (0..length).map(|i| 0x0102_0304 * i).collect();
        for more in [0, 1, 2, 100] {
            given(&words, &plain::pack(&words), length as usize + more);
            for (version, added) in [(2, &[0][..]), (1, &[0, 0])] {
                let due = [&words[..], added].concat();
                given(&due, &plain::pack_as(version, &words), due.len() + more);
            }
        }
    }
}

/// Eight empty sections, 1 0, three empty sections and 2 0 are a layout fault, and
/// a sound table with the words that are added; a version 3 file of twelve sections
/// unpacks and is a layout fault.
#[test]
fn the_words_that_are_added_and_the_layout() {
    let odd = [0, 0, 0, 0, 0, 0, 0, 0, 1, 0, 0, 0, 0, 2, 0];
    let added = [&odd[..], &[0, 0]].concat();
    given(&added, &plain::pack_as(1, &odd), 17);
    assert_eq!((soundness(&odd), soundness(&added)), (Soundness::Broken(0), Soundness::Sound));
    let twelve = &odd[..13];
    let thirteen = [twelve, &[0]].concat();
    let fourteen = [twelve, &[0, 0]].concat();
    given(twelve, &plain::pack(twelve), 13);
    given(&fourteen, &plain::pack_as(1, twelve), 15);
    given(&fourteen, &plain::pack_as(2, &thirteen), 15);
    assert_eq!((soundness(twelve), soundness(&thirteen)), (Soundness::Broken(0), Soundness::Broken(0)));
    assert_eq!(soundness(&fourteen), Soundness::Sound);
    // A set of 0 alone: vowels and trailing consonants are missing.
    let odd = [&thirteen[..], &[2, 0]].concat();
    let added = [&odd[..], &[0]].concat();
    given(&added, &plain::pack_as(2, &odd), 17);
    assert_eq!((soundness(&odd), soundness(&added)), (Soundness::Broken(0), Soundness::Broken(8)));
}

#[test]
fn random_files_as_the_plain_version() {
    let mut rng = Rng::new(0x756E_7061_636B);
    let mut seen = [0; 4];
    for _ in 0..100_000 {
        let words: Vec<u32> = (0..rng.below(40)).map(|_| rng.word()).collect();
        let (file, room) = gen::file(&mut rng, &words);
        let mut answer: Vec<u32> = (0..room).map(mark).collect();
        let expected = match plain::unpack(&file, &mut answer) {
            Ok(count) => Unpacked { number: 0, count },
            Err(refusal) => Unpacked { number: refusal.number, count: 0 },
        };
        assert_eq!(run(&file, room), (expected, answer), "{file:?}, room {room}");
        seen[[0, 20, 21, 22].iter().position(|&n| n == expected.number).unwrap()] += 1;
    }
    assert!(seen.iter().all(|&n| n > 1000), "each answer is met often: {seen:?}");
}
