//! NFD and NFC of the proved code: Unicode's NormalizationTest by a table of
//! decompositions, exclusions and classes, and random texts on random tables,
//! where every word of both buffers is compared.

mod marked;

use engine::normal_forms::{nfc, nfd, Form};
use gen::Rng;
use marked::lent;
use plain::{Index, TableBuilder};
use standin::forms::nf_table;

type Call = fn(&[u32], &[u32], &mut [u32], &mut [u32]) -> Form;

/// Does the call answer this form of the text?
fn gives(call: Call, text: &[u32], words: &[u32], form: &[u32]) -> bool {
    let (mut answer, mut work) = ([7; 128], [7; 128]);
    let r = call(text, words, &mut answer, &mut work);
    r.number == 0 && answer[..r.length] == *form
}

#[test]
fn every_line_and_every_other_codepoint() {
    let words = nf_table();
    standin::forms::run(|text, composed, decomposed| {
        gives(nfc, text, &words, composed) && gives(nfd, text, &words, decomposed)
    });
}

/// The call into parts of marked buffers: its answer and both parts.
fn run(call: Call, text: &[u32], words: &[u32], room: usize, work: usize) -> (Form, Vec<u32>, Vec<u32>) {
    let ((form, area), answer) = lent(room, |answer| lent(work, |work| call(text, words, answer, work)));
    (form, answer, area)
}

/// What the call has to answer, by the plain version: `decomposed` is the
/// length of the full decomposition.
fn expected(form: &[u32], decomposed: usize, room: usize, work: usize) -> (Form, Vec<u32>, Vec<u32>) {
    let number = match () {
        _ if decomposed > plain::limits::WORKED => 50,
        _ if decomposed > work => 51,
        _ if decomposed > room => 52,
        _ => 0,
    };
    let mut answer = if number == 0 { form.to_vec() } else { vec![] };
    let length = answer.len();
    answer.resize(room, 0);
    (Form { number, length }, answer, vec![0; work])
}

/// Both calls on this text, in buffers of these sizes.
fn compare(text: &[u32], words: &[u32], room: usize, work: usize) -> u32 {
    let table = plain::parse(words);
    let Some(table) = table else {
        for call in [nfd as Call, nfc] {
            let refused = Form { number: 1, length: 0 };
            assert_eq!(run(call, text, words, room, work), (refused, vec![0; room], vec![0; work]));
        }
        return 1;
    };
    let index = Index::new(&table);
    let decomposed = plain::text::four_rounds(&index, text).len();
    let (d, c) = (plain::nfd(&index, text), plain::nfc(&index, text));
    let due = expected(&d, decomposed, room, work);
    assert_eq!(run(nfd, text, words, room, work), due, "NFD of {text:X?}, {room}, {work}");
    let due = expected(&c, decomposed, room, work);
    assert_eq!(run(nfc, text, words, room, work), due, "NFC of {text:X?}, {room}, {work}");
    due.0.number
}

/// What texts over a table are made of.
fn vocabulary(b: &TableBuilder) -> Vec<u32> {
    let mut all = vec![0x41, 0x1100, 0x1112, 0x1161, 0x1175, 0x11A7, 0x11A8, 0x11C2];
    all.extend([0xAC00, 0xAC01, 0xAC1C, 0xD788, 0xD7A3, 0xD7A4, 0xD800, 0x110000, u32::MAX]);
    for (head, items) in &b.decompositions {
        all.push(*head);
        all.extend(items);
    }
    all.extend(b.classes.iter().flat_map(|&(first, last, _)| [first, last]));
    all.extend(&b.exclusions);
    all
}

fn text(rng: &mut Rng, of: &[u32], b: &TableBuilder) -> Vec<u32> {
    let mut out = Vec::new();
    for _ in 0..rng.below(12) {
        match rng.below(10) {
            0 => out.push(rng.word()),
            1 => out.push(rng.code(0xAC00, 0xD7A3)),
            2 => out.extend([rng.code(0x1100, 0x1113), rng.code(0x1160, 0x1176)]),
            3 if !b.decompositions.is_empty() => out.extend(&rng.pick(&b.decompositions).1),
            _ => out.push(*rng.pick(of)),
        }
    }
    out
}

#[test]
fn random_texts_as_the_plain_version() {
    let mut rng = Rng::new(0x666F_726D_73);
    let mut seen = [0; 53];
    for _ in 0..2_000 {
        let made = gen::table(&mut rng);
        let of = vocabulary(&made.builder);
        for turn in 0..50 {
            let mut text = text(&mut rng, &of, &made.builder);
            // Every tenth is brought near the worked limit, or over it.
            if turn % 10 == 0 {
                let filler = *rng.pick(&of);
                text.resize(plain::limits::WORKED - 10 + rng.below(20), filler);
            }
            let near = text.len() + 4;
            let (few, many) = (rng.below(near), 16 * near + rng.below(3));
            let (room, work) = *rng.pick(&[(few, few), (many, few), (few, many), (many, many)]);
            seen[compare(&text, &made.words, room, work) as usize] += 1;
        }
    }
    println!("random texts, by the refusal number: {seen:?}");
    for number in [0, 1, 50, 51, 52] {
        assert!(seen[number] > 1_000, "{number} is met often: {seen:?}");
    }
}

/// Every size around those that are just enough.
#[test]
fn buffers_of_every_size() {
    let words = nf_table();
    let texts: [&[u32]; 6] = [
        &[],
        &[0x61],
        &[0x1E0A, 0x323],
        &[0xAC01, 0x11A8, 0x1100, 0x1161],
        &[0x1F82, 0x1F82, 0x315],
        &[0x300, 0x41, 0x30A, 0x212B, 0x958, 0x323, 0x307],
    ];
    let mut seen = [0; 53];
    for text in texts {
        for room in 0..24 {
            for work in 0..24 {
                seen[compare(text, &words, room, work) as usize] += 1;
            }
        }
    }
    assert!([0, 51, 52].iter().all(|&number| seen[number] > 50), "{seen:?}");
}

/// One codepoint becomes 256 in four rounds, and no more in a fifth.
#[test]
fn the_most_that_four_rounds_make() {
    let b = TableBuilder { decompositions: vec![(0x41, vec![0x41; 4])], ..TableBuilder::default() };
    let words = b.to_words();
    for text in [&[0x41][..], &[0x41; 3], &[0x42, 0x41, 0x42]] {
        let length = 256 * text.iter().filter(|&&c| c == 0x41).count() + text.iter().filter(|&&c| c != 0x41).count();
        for (room, work, number) in [
            (length, length, 0),
            (length + 9, length + 1, 0),
            (length - 1, length, 52),
            (length, length - 1, 51),
            (length - 1, length - 1, 51),
            (0, length, 52),
        ] {
            assert_eq!(compare(text, &words, room, work), number);
        }
    }
}

/// The worked limit: a full decomposition of as many codepoints passes, one
/// more is refused, whatever the buffers are and however long the text is.
#[test]
fn the_worked_limit() {
    let b = TableBuilder { decompositions: vec![(0x41, vec![0x41; 4])], ..TableBuilder::default() };
    let words = b.to_words();
    let most = plain::limits::WORKED;
    let deep = vec![0x41; most / 256];
    assert_eq!(compare(&deep, &words, most, most), 0);
    assert_eq!(compare(&vec![0x42; most], &words, most, most), 0);
    for text in
        [[&deep[..], &[0x42]].concat(), vec![0x42; most + 1], vec![0x42; 100_000], vec![0x41; 2 * deep.len() + 1]]
    {
        for (room, work) in [(100_000, 100_000), (0, 100_000), (100_000, 0), (0, 0)] {
            assert_eq!(compare(&text, &words, room, work), 50);
        }
    }
}
