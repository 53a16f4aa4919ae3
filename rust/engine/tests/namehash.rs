//! The name hash beside the plain version, which goes by EIP-137's recursion
//! and Rust's own UTF-8; published nodes; and what only unsound tables show.

mod marked;

use engine::namehash::namehash;
use gen::{Rng, Vocabulary};
use marked::lent;
use plain::limits::{WORKED, WORK_WORDS};
use plain::namehash::namehash_with;
use plain::TableBuilder;
use std::path::Path;

const ROOM: usize = WORKED;
const WORK: usize = WORK_WORDS;
const ZEROS: [u8; 32] = [0; 32];

/// The call on this input, compared with the plain version: the refusal or the
/// answer, the hash and every word of both buffers. The number, the place and
/// the hash.
fn compared(input: &[u32], words: &[u32], setting: u32, room: usize, work: usize) -> (u32, usize, [u8; 32]) {
    let ((found, area), answer) = lent(room, |a| lent(work, |w| namehash(input, words, setting, a, w)));
    let (mut due_answer, mut due_work) = (vec![7; room], vec![7; work]);
    let (due, hash) = namehash_with(input, words, setting, &mut due_answer, &mut due_work);
    assert_eq!(
        (found.name.answer(), found.node.bytes, &answer, &area),
        (due, hash, &due_answer, &due_work),
        "{input:X?}, {setting:X}, {room}, {work}"
    );
    (found.name.number, found.name.place, found.node.bytes)
}

fn codepoints(text: &str) -> Vec<u32> {
    text.chars().map(u32::from).collect()
}

/// Lower-case letters and digits, a mapping of capitals to them, and one group.
fn letters() -> Vec<u32> {
    let all = vec![(0x30, 0x39), (0x61, 0x7A)];
    TableBuilder {
        valid: all.clone(),
        groups: vec![(0, all)],
        mapped: (0x41..=0x5A).map(|c| (c, vec![c + 0x20])).collect(),
        ..TableBuilder::default()
    }
    .to_words()
}

/// The nodes of data/eip137, with their names.
fn nodes() -> Vec<(String, String)> {
    let file = Path::new(env!("CARGO_MANIFEST_DIR")).join("../../data/eip137/nodes.txt");
    let text = std::fs::read_to_string(file).expect("the nodes");
    let of = |line: &str| {
        let (node, quoted) = line.split_once(' ').expect("a node and a name");
        let name = quoted.strip_prefix('"').and_then(|n| n.strip_suffix('"')).expect("quotes");
        (node.to_string(), name.to_string())
    };
    text.lines().filter(|line| !line.starts_with('#')).map(of).collect()
}

#[test]
fn published_nodes() {
    let words = letters();
    let hex = |hash: [u8; 32]| hash.iter().map(|byte| format!("{byte:02x}")).collect::<String>();
    for (node, name) in nodes() {
        for spelling in [name.clone(), name.to_uppercase()] {
            let (number, _, hash) = compared(&codepoints(&spelling), &words, 0, ROOM, WORK);
            assert_eq!((number, hex(hash)), (0, node.clone()), "{spelling}");
        }
    }
    assert_eq!(nodes().len(), 6);
}

#[test]
fn random_names_and_tables() {
    let mut rng = Rng::new(0x6E61_6D65_6861_7368);
    let (mut accepted, mut refused, mut last, mut more) = (0, 0, 0, 0);
    for _ in 0..2_000 {
        let made = gen::table(&mut rng);
        let vocabulary = Vocabulary::new(&mut rng, &made.builder);
        for _ in 0..25 {
            let name = vocabulary.name(&mut rng);
            let setting = *rng.pick(&[0, 1, 0xFFFF_FFFF]);
            let room = if rng.percent(80) { ROOM } else { rng.below(8) };
            let work = if rng.percent(95) { WORK } else { *rng.pick(&[0, WORK - 1]) };
            let (number, _, hash) = compared(&name, &made.words, setting, room, work);
            let plain = plain::name_with(&name, &made.words, setting, &mut vec![0; room], &mut vec![0; work]);
            accepted += usize::from(number == 0);
            refused += usize::from(plain.is_err());
            last += usize::from(number == 4 && plain.is_ok());
            more += usize::from(number == 0 && plain.is_ok_and(|p| p.length > 0) && hash != ZEROS);
        }
    }
    println!("{accepted} accepted, {more} of them hashed, {refused} refused, {last} by the last 4");
    assert!(more > 5_000 && refused > 5_000, "{accepted} {more} {refused} {last}");
}

#[test]
fn the_normal_form_has_the_hash_of_the_first_spelling() {
    let mut rng = Rng::new(0x7370_656C_6C69_6E67);
    let mut count = 0;
    for _ in 0..500 {
        let builder = gen::sound_table(&mut rng);
        let (words, vocabulary) = (builder.to_words(), Vocabulary::new(&mut rng, &builder));
        for _ in 0..40 {
            let (name, setting) = (vocabulary.name(&mut rng), *rng.pick(&[0, 1]));
            let (mut answer, mut again, mut work) = ([0; ROOM], [0; ROOM], [0; WORK]);
            let first = namehash(&name, &words, setting, &mut answer, &mut work);
            if first.name.number == 0 {
                let second = namehash(&answer[..first.name.length], &words, setting, &mut again, &mut work);
                assert_eq!((second, again), (first, answer), "{name:X?}");
                count += 1;
            }
        }
    }
    println!("{count} normal forms hashed again");
    assert!(count > 2_000, "{count}");
}

/// Unsound tables: the answer's labels, which are not the name's.
#[test]
fn the_labels_of_the_answer() {
    let word = |mapped: Vec<(u32, Vec<u32>)>, emoji: Vec<Vec<u32>>| {
        let all = vec![(0x2E, 0x2E), (0x61, 0x7A), (0x11_0001, 0x11_0001), (0xD800, 0xD800)];
        TableBuilder { valid: all.clone(), groups: vec![(0, all)], mapped, emoji, ..TableBuilder::default() }.to_words()
    };
    let node = |labels: &[&str]| plain::namehash::node(&labels.iter().map(|l| l.to_string()).collect::<Vec<_>>());

    // 41 is mapped to 2E: "xAy" has one label and its answer two, "A" is two empty ones.
    let words = word(vec![(0x41, vec![0x2E])], vec![]);
    assert_eq!(compared(&codepoints("xAy"), &words, 0, ROOM, WORK), (0, 0, node(&["x", "y"])));
    assert_eq!(compared(&codepoints("A"), &words, 0, ROOM, WORK), (0, 0, node(&["", ""])));
    assert_ne!(node(&["", ""]), ZEROS);

    // FE0F alone under the sequence FE0F: a label whose answer is empty, and no label of the answer.
    let words = word(vec![], vec![vec![0xFE0F]]);
    let found = namehash(&[0xFE0F], &words, 0, &mut [0; 1], &mut [0; WORK]);
    assert_eq!((found.name.number, found.name.length, found.name.labels, found.node.bytes), (0, 0, 1, ZEROS));
    assert_eq!(compared(&[0xFE0F], &words, 0, 0, WORK), (0, 0, ZEROS));
    assert_eq!(compared(&[], &words, 0, 0, WORK), (0, 0, ZEROS));
    assert_eq!(compared(&[0xFE0F, 0x2E, 0xFE0F], &words, 0, ROOM, WORK), (0, 0, node(&["", ""])));

    // A mapping to numbers that are no scalar values: 4 comes last, after 15, at its index in the answer.
    let words = word(vec![(0x41, vec![0x61, 0x11_0001]), (0x42, vec![0xD800])], vec![]);
    assert_eq!(compared(&codepoints("ab"), &words, 0, ROOM, WORK), (0, 0, node(&["ab"])));
    assert_eq!(compared(&codepoints("x.yA"), &words, 0, ROOM, WORK), (4, 4, ZEROS));
    assert_eq!(compared(&codepoints("xB.A"), &words, 0, ROOM, WORK), (4, 1, ZEROS));
    assert_eq!(compared(&codepoints("x.yA"), &words, 0, 4, WORK), (15, 0, ZEROS));
    assert_eq!(compared(&[0x61, 0x11_0001], &words, 0, ROOM, WORK), (4, 1, ZEROS));
}

/// Labels of many lengths, one to four octets a codepoint, over the ends of
/// blocks.
#[test]
fn long_labels() {
    let all = vec![(0x61, 0x7A), (0xE9, 0xE9), (0x4E00, 0x4EFF), (0x1_F4A9, 0x1_F4A9)];
    let words = TableBuilder { valid: all.clone(), groups: vec![(0, all)], ..TableBuilder::default() }.to_words();
    let mut rng = Rng::new(44);
    for length in (1..300).chain([1_000]) {
        let name: Vec<u32> = (0..length).map(|_| *rng.pick(&[0x61, 0xE9, 0x4E2D, 0x1_F4A9, 0x2E])).collect();
        compared(&name, &words, 0, ROOM, WORK);
        compared(&name.iter().map(|&c| c.max(0x61)).collect::<Vec<_>>(), &words, 0, ROOM, WORK);
    }
}
