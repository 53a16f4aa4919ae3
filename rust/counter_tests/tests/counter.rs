//! The counter program on the cases of 01 and on random tables and names.

use counter_tests::{due, hex_line, run, run_in, run_pieces, Folder, FILE, LINE};
use gen::{small_table, Rng, Vocabulary};
use plain::table::join_sections;
use plain::{pack, parse, TableBuilder};
use std::fs;
use std::time::Duration;

/// The stored table file.
fn stored() -> Vec<u8> {
    fs::read(concat!(env!("CARGO_MANIFEST_DIR"), "/../../data/names.tab")).unwrap()
}

fn small() -> Vec<u8> {
    pack(&small_table().to_words())
}

/// The small table, with entries that no name here meets, in exactly so many
/// words.
fn padded(words: usize) -> Vec<u8> {
    let mut b = small_table();
    if (words - b.to_words().len()) % 2 == 1 {
        b.mapped.push((0xE0100, vec![0x61])); // three words
    }
    while b.to_words().len() < words {
        let missing = words - b.to_words().len();
        b.ignored.extend(vec![(0xE0101, 0xE0101); missing / 2]);
    }
    let made = b.to_words();
    assert_eq!(made.len(), words);
    assert!(parse(&made).is_some());
    pack(&made)
}

/// The small table as a file of an older version, without the sections that it
/// lacks.
fn older(version: u8) -> Vec<u8> {
    let sections = small_table().sections();
    plain::pack_as(version, &join_sections(&sections[..11 + usize::from(version)]))
}

#[test]
fn the_sample() {
    let wrote = run(Some(&stored()), b"5F 24 41\n61 2E 2E 62\n");
    assert_eq!(wrote, "ok 5F 24 61\nno 6 1\nend 2\n");
}

#[test]
fn the_end_of_the_input() {
    let file = stored();
    for (input, output) in [
        ("", "end 0\n"),
        ("\n", "ok\nend 1\n"),
        ("\n\n", "ok\nok\nend 2\n"),
        ("61", "ok 61\nend 1\n"),
        ("61\n", "ok 61\nend 1\n"),
        ("61\n\n", "ok 61\nok\nend 2\n"),
        ("\n61", "ok\nok 61\nend 2\n"),
        ("61\n41", "ok 61\nok 61\nend 2\n"),
    ] {
        assert_eq!(run(Some(&file), input.as_bytes()), output, "{input:?}");
    }
}

#[test]
fn readable_numbers() {
    let file = stored();
    for (input, output) in [
        ("00000061", "ok 61\nend 1\n"),
        ("0061 061", "ok 61 61\nend 1\n"),
        ("FFFFFFFF", "no 4 0\nend 1\n"),
        ("61 D800", "no 4 1\nend 1\n"),
        ("61 10FFFF", "no 5 1\nend 1\n"),
        ("61 110000", "no 4 1\nend 1\n"),
        ("0", "no 5 0\nend 1\n"),
    ] {
        assert_eq!(run(Some(&file), input.as_bytes()), output, "{input:?}");
    }
}

#[test]
fn unreadable_lines() {
    let file = stored();
    let lines = [
        "000000061",
        "5f",
        "5F 2a",
        " 61",
        "61 ",
        "61  62",
        " ",
        "  ",
        "61\r",
        "\r",
        "61\t62",
        "\t",
        "G",
        "@",
        "/",
        ":",
        "`",
        "+61",
        "-1",
        "0x61",
        "61,62",
        "U+61",
        "61\0",
        "\0",
        "61 62 ",
        "é",
    ];
    for line in lines {
        for end in ["", "\n", "\n61\n"] {
            let input = format!("61\n\n{line}{end}");
            assert_eq!(run(Some(&file), input.as_bytes()), "ok 61\nok\nbad\n", "{input:?}");
        }
    }
    assert_eq!(run(Some(&file), &[0x36, 0x31, 0xFF, 0x0A]), "bad\n");
    // A byte of each value, alone and behind a number.
    for b in (0..=255u8).filter(|&b| b != b'\n') {
        run(Some(&file), &[b, b'\n']);
        run(Some(&file), &[b'6', b, b'\n', b'6', b'1']);
    }
}

#[test]
fn long_lines() {
    let file = stored();
    // 2,730 numbers with a blank behind each, and one more number.
    let most = |last: &str| "61 ".repeat(2_730) + last;
    assert_eq!(most("61").len(), LINE);
    assert_eq!(run(Some(&file), most("61").as_bytes()), format!("ok {}\nend 1\n", most("61")));
    assert_eq!(run(Some(&file), (most("61") + "\n61\n").as_bytes()), format!("ok {}\nok 61\nend 2\n", most("61")));
    assert_eq!(run(Some(&file), most("610").as_bytes()), "bad\n");
    assert_eq!(run(Some(&file), (most("610") + "\n61\n").as_bytes()), "bad\n");
    assert_eq!(run(Some(&file), ("61\n".to_string() + &most("610") + "\n61\n").as_bytes()), "ok 61\nbad\n");
    // The line has no end at all.
    assert_eq!(run(Some(&file), &vec![b'6'; 1 << 20]), "bad\n");
    // As many numbers as a line can hold, and the longest name that is read.
    let many = "0 ".repeat(4_095) + "0";
    assert_eq!(run(Some(&file), many.as_bytes()), "no 5 0\nend 1\n");
    let ignored = "61 ".to_string() + &"E ".repeat(4_000);
    run(Some(&file), ignored.trim_end().as_bytes());
    // The limit of the worked length; 61 as often would be too long a line.
    let times = |n: usize, word: &str| vec![word; n].join(" ");
    assert_eq!(run(Some(&file), times(4_096, "61").as_bytes()), "bad\n");
    assert_eq!(run(Some(&file), times(1_025, "61").as_bytes()), format!("ok {}\nend 1\n", times(1_025, "61")));
    assert_eq!(run(Some(&file), times(1_365, "2E3B").as_bytes()), "no 9 0\nend 1\n");
    assert_eq!(run(Some(&file), times(1_366, "2E3B").as_bytes()), "no 7 0\nend 1\n");
}

/// The longest answers that a line can ask for, as many words as the worked
/// length may reach, through a mapping: of two digits each, and of eight.
#[test]
fn longest_replies() {
    let times = |n: usize, word: &str| vec![word; n].join(" ");
    for item in [0x61, u32::MAX] {
        let groups = vec![(2, vec![(item, item)])];
        let b = TableBuilder { mapped: vec![(0x41, vec![item; 32])], groups, ..TableBuilder::default() };
        let file = pack(&b.to_words());
        let answer = times(4_096, &format!("{item:X}"));
        assert_eq!(run(Some(&file), times(128, "41").as_bytes()), format!("ok {answer}\nend 1\n"));
        assert_eq!(run(Some(&file), times(129, "41").as_bytes()), "no 7 0\nend 1\n");
    }
}

#[test]
fn table_files() {
    let input = b"61\n41\n";
    let works = "ok 61\nok 61\nend 2\n";
    assert_eq!(run(None, input), "bad\n");
    assert_eq!(run(Some(&small()), input), works);
    assert_eq!(padded(8_190).len(), 32_765);
    assert_eq!(run(Some(&padded(8_190)), input), works);
    assert!(padded(8_191).len() > FILE);
    assert_eq!(run(Some(&padded(8_191)), input), "bad\n");
    assert_eq!(run(Some(&vec![1; 100_000]), input), "bad\n");
    // Files that do not unpack.
    assert_eq!(run(Some(&[]), input), "bad\n");
    let mut version = small();
    version[0] = 5;
    assert_eq!(run(Some(&version), input), "bad\n");
    // A file of an older version, with the sections that it lacks added: in all of its bytes too.
    for version in [1, 2] {
        assert_eq!(run(Some(&older(version)), input), works);
        let mut most = padded(8_190);
        most[0] = version;
        assert_eq!(run(Some(&most), input), "no 1 0\nno 1 0\nend 2\n", "words left over");
    }
    let mut longer = small();
    longer.push(0);
    assert_eq!(run(Some(&longer), input), "bad\n");
    assert_eq!(run(Some(&small()[..small().len() - 1]), input), "bad\n");
    // Just as many bytes as are taken, and not the words that they name.
    let mut full = padded(8_190);
    full.resize(FILE, 0);
    assert_eq!(run(Some(&full), input), "bad\n");
    // Words that hold no table: each name is refused, an unreadable line still stops.
    let fault = pack(&small_table().to_words()[1..]);
    assert_eq!(run(Some(&fault), input), "no 1 0\nno 1 0\nend 2\n");
    assert_eq!(run(Some(&pack(&[])), b""), "end 0\n");
    assert_eq!(run(Some(&fault), b"61\nx\n61\n"), "no 1 0\nbad\n");
    // `bad` alone, whatever the input.
    assert_eq!(run(None, b""), "bad\n");
    assert_eq!(run(None, b"x\n"), "bad\n");
    let folder = Folder::new();
    fs::create_dir(folder.path().join("names.tab")).unwrap();
    assert_eq!(run_in(folder.path(), &[input], None), "bad\n");
}

#[test]
fn one_byte_at_a_time() {
    let file = small();
    for input in ["5F 24 41\n61 2E 2E 62\n", "61\n\n62", "61 62 \n61\n"] {
        let bytes: Vec<&[u8]> = input.as_bytes().chunks(1).collect();
        let wrote = run_pieces(Some(&file), &bytes, Some(Duration::from_millis(3)));
        assert_eq!(wrote, due(Some(&file), input.as_bytes()), "{input:?}");
    }
}

#[test]
fn two_pieces() {
    let file = small();
    let input = b"5F 24 41\n\n61 2E 2E 62\n0000061";
    let due = due(Some(&file), input);
    for cut in 0..=input.len() {
        let (front, back) = input.split_at(cut);
        assert_eq!(run_pieces(Some(&file), &[front, back], Some(Duration::from_millis(3))), due, "cut at {cut}");
    }
}

#[test]
fn many_lines() {
    let file = small();
    let mut input = String::new();
    for i in 0..100_000 {
        input += ["5F 24 41\n", "61 2E 2E 62\n", "\n", "0000061 62 63\n", "FFFFFFFF\n", "61 5F\n"][i % 6];
    }
    assert!(run(Some(&file), input.as_bytes()).ends_with("end 100000\n"));
    // Lines of every length across the ends of the pieces that are read.
    let mut input = String::new();
    for n in 0..1_500 {
        input += &vec!["61"; n % 700].join(" ");
        input.push('\n');
    }
    assert!(run(Some(&file), input.as_bytes()).ends_with("end 1500\n"));
}

/// Random names as lines, some of them changed so that they may be unreadable.
fn input(rng: &mut Rng, b: &TableBuilder, lines: usize) -> Vec<u8> {
    let vocabulary = Vocabulary::new(rng, b);
    let mut input = Vec::new();
    for _ in 0..lines {
        let mut line = hex_line(&vocabulary.name(rng)).into_bytes();
        if line.len() > LINE && rng.percent(90) {
            continue; // it would end the run
        }
        if rng.percent(1) && !line.is_empty() {
            let at = rng.below(line.len());
            line[at] = *rng.pick(b"0123456789ABCDEF   \r\tag@");
        }
        input.extend(line);
        input.push(b'\n');
    }
    if rng.percent(50) {
        input.pop();
    }
    input
}

#[test]
fn random_tables_and_names() {
    let mut rng = Rng::new(7);
    for _ in 0..1_000 {
        let made = gen::table(&mut rng);
        let mut file = pack(&made.words);
        if rng.percent(10) {
            (file, _) = gen::file(&mut rng, &made.words);
        }
        let lines = rng.between(1, 60);
        let input = input(&mut rng, &made.builder, lines);
        run(Some(&file), &input);
    }
}

#[test]
fn the_stored_table() {
    let file = stored();
    let mut words = vec![0; FILE];
    let count = plain::unpack(&file, &mut words).expect("a table file");
    words.truncate(count);
    let b = parse(&words).unwrap().to_builder();
    let mut rng = Rng::new(8);
    for _ in 0..100 {
        let input = input(&mut rng, &b, 100);
        run(Some(&file), &input);
    }
}
