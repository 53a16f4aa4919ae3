//! Hand-made cases: the names at the counter, the examples of the source
//! document, the errors met in the field, layout, unpacking and soundness.

use gen::small::*;
use plain::limits::{INPUT, SCREEN, SCREEN_ANY, WORKED, WORK_WORDS};
use plain::soundness::{missing_in_quick_check, LAST_RULE};
use plain::*;

const NO_ROOM: u32 = 15;

/// A call with marks in the buffers: its answer and the words of the answer
/// buffer, once the work area is seen to be zero.
fn lent<R>(room: usize, call: impl FnOnce(&mut [u32], &mut [u32]) -> R) -> (R, Vec<u32>) {
    let (mut answer, mut work) = (vec![0xFFFF_FFFF; room], vec![0xFFFF_FFFF; WORK_WORDS]);
    let flat = call(&mut answer, &mut work);
    assert!(work.iter().all(|&w| w == 0));
    (flat, answer)
}

/// The answer of this length, once the words behind it are seen to be zero.
fn taken(mut answer: Vec<u32>, length: usize) -> Vec<u32> {
    assert!(answer[length..].iter().all(|&w| w == 0));
    answer.truncate(length);
    answer
}

fn run_name(words: &[u32], input: &[u32], room: usize) -> Result<(Vec<u32>, usize), Refusal> {
    let (given, answer) = lent(room, |answer, work| name(input, words, answer, work));
    let answer = taken(answer, given.map_or(0, |n| n.length));
    given.map(|n| (answer, n.labels))
}

fn run_label(words: &[u32], input: &[u32], room: usize) -> Result<(Vec<u32>, Kind), Refusal> {
    let (given, answer) = lent(room, |answer, work| label(input, words, answer, work));
    let answer = taken(answer, given.map_or(0, |l| l.length));
    given.map(|l| (answer, l.kind))
}

/// A one-label name: both calls give this answer, and the label this kind.
fn gives(input: &[u32], answer: &[u32], kind: Kind) {
    let words = small_table().to_words();
    assert_eq!(run_name(&words, input, WORKED), Ok((answer.to_vec(), 1)), "{input:X?}");
    assert_eq!(run_label(&words, input, WORKED), Ok((answer.to_vec(), kind)), "{input:X?}");
}

/// A one-label name: both calls refuse it so.
fn refused(input: &[u32], number: u32, place: usize) {
    let words = small_table().to_words();
    assert_eq!(run_name(&words, input, WORKED), Err(Refusal { number, place }), "{input:X?}");
    assert_eq!(run_label(&words, input, WORKED), Err(Refusal { number, place }), "{input:X?}");
}

fn group(number: usize) -> Kind {
    Kind::Group { number, restricted: number == EGYPTIAN }
}

fn text(s: &str) -> Vec<u32> {
    s.chars().map(u32::from).collect()
}

#[test]
fn the_small_table_is_sound() {
    assert_eq!(soundness_report(&small_table().to_words()), None);
}

#[test]
fn names_at_the_counter() {
    let words = small_table().to_words();
    gives(&[0x5F, 0x24, 0x41], &[0x5F, 0x24, 0x61], Kind::Ascii);
    gives(&[0x45, 0xFE0E, 0x303], &[0x1EBD], group(LATIN));
    refused(&[0x6E, 0x131, 0x307, 0x63, 0x6B], 5, 1);
    gives(&[0x61, 0x2122, 0xFE0F], &[0x61, 0x74, 0x6D], Kind::Ascii);
    gives(&[0x41, 0xFE0E, 0x1F4A9, 0xFE0E, 0xFE0E, 0x62], &[0x61, 0x1F4A9, 0x62], group(LATIN));
    refused(&[0x1F468, 0xFE0F, 0x200D, 0x2764, 0xFE0F, 0x200D, 0x1F468], 5, 2);
    refused(&[0x1F4A9, 0x200D, 0x1F4A9], 5, 1);
    refused(&[0x78, 0x6E, 0x2D, 0x2D], 9, 0);
    gives(&[0x2D, 0x2D, 0x2D, 0x61], &[0x2D, 0x2D, 0x2D, 0x61], Kind::Ascii);
    refused(&[0x61, 0x5F, 0x2D, 0x2D], 8, 0);
    refused(&[0x30, 0x445], 14, 0);
    gives(&[0x442, 0x4D5], &[0x442, 0x4D5], group(CYRILLIC));
    gives(&[0x2010, 0x39E, 0x31, 0xFE0F, 0x20E3], &[0x2D, 0x3BE, 0x31, 0x20E3], group(GREEK));
    assert_eq!(run_name(&words, &[], 5), Ok((vec![], 0)));
    assert_eq!(run_name(&words, &[], 0), Ok((vec![], 0)));
    assert_eq!(run_label(&words, &[], 5), Err(Refusal::new(6, 0)));
    assert_eq!(run_name(&words, &[0x2E], 5), Err(Refusal::new(6, 0)));
    assert_eq!(run_name(&words, &[0x61, 0x2E, 0x2E, 0x62], 5), Err(Refusal::new(6, 1)));
    assert_eq!(run_name(&words, &[0x61, 0x2E], 5), Err(Refusal::new(6, 1)));
    assert_eq!(run_name(&words, &[0x61], 0), Err(Refusal::new(NO_ROOM, 0)));
    assert_eq!(run_label(&words, &[0x61], 0), Err(Refusal::new(NO_ROOM, 0)));
    gives(&[0x61; WORKED], &[0x61; WORKED], Kind::Ascii);
    refused(&[0x61; WORKED + 1], 7, 0);
    refused(&[0x2E3B; WORKED / 3], 9, 0);
    refused(&[0x2E3B; WORKED / 3 + 1], 7, 0);
    let mut long = vec![0x34F; INPUT];
    long[0] = 0x61;
    gives(&long, &[0x61], Kind::Ascii);
    long.push(0x34F);
    refused(&long, 3, 0);
    refused(&[0x78, 0x300, 0x300], 13, 0);
}

#[test]
fn examples_of_the_source() {
    gives(&text("---a"), &text("---a"), Kind::Ascii);
    gives(&text("ab-c"), &text("ab-c"), Kind::Ascii);
    gives(&text("___"), &text("___"), Kind::Ascii);
    gives(&text("__abc"), &text("__abc"), Kind::Ascii);
    gives(&text("abc$123"), &text("abc$123"), Kind::Ascii);
    refused(&text("xn--"), 9, 0);
    refused(&text("----"), 9, 0);
    refused(&text("abc__"), 8, 0);
    refused(&text("_abc_"), 8, 0);
    // Fenced.
    gives(&text("a\u{2019}s"), &text("a\u{2019}s"), group(LATIN));
    gives(&text("a\u{30FB}a"), &text("a\u{30FB}a"), group(LATIN));
    gives(&text("a\u{30FB}a\u{2019}s"), &text("a\u{30FB}a\u{2019}s"), group(LATIN));
    for bad in
        ["\u{2019}85", "joneses\u{2019}", "\u{30FB}a\u{30FB}", "6\u{2019}0\u{2019}\u{2019}", "a\u{30FB}\u{30FB}a"]
    {
        refused(&text(bad), 10, 0);
    }
    // Composition, kinds and mixtures.
    gives(&[0x61, 0x300], &[0xE0], group(LATIN));
    gives(&[0x1F680, 0x61, 0x300], &[0x1F680, 0xE0], group(LATIN));
    gives(&[0x1318F, 0x1F438], &[0x1318F, 0x1F438], group(EGYPTIAN));
    gives(&[0x1F4A9, 0xFE0F, 0x1F4A9], &[0x1F4A9, 0x1F4A9], Kind::Emoji);
    gives(&[0x2165], &[0x76, 0x69], Kind::Ascii);
    gives(&[0x78, 0x79, 0x7A, 0x1F468, 0x1F3FB], &[0x78, 0x79, 0x7A, 0x1F468, 0x1F3FB], group(LATIN));
    let mut mixed = text("bahrain");
    mixed.extend([0x645, 0x635, 0x631]);
    refused(&mixed, 12, 0);
    let words = small_table().to_words();
    let two = [&text("bahrain")[..], &[0x2E, 0x645, 0x635, 0x631]].concat();
    assert_eq!(run_name(&words, &two, WORKED), Ok((two.clone(), 2)));
    // Six NSM in one run; four different ones pass.
    refused(&[0x625, 0x610, 0x611, 0x612, 0x613, 0x614], 13, 0);
    gives(&[0x627, 0x610, 0x611, 0x612, 0x613], &[0x627, 0x610, 0x611, 0x612, 0x613], group(ARABIC));
    refused(&[0x627, 0x610, 0x611, 0x612, 0x613, 0x614], 13, 0);
    // A whitelisted group is not asked for NSM.
    gives(&[0x561, 0x300, 0x300], &[0x561, 0x300, 0x300], group(WHITELISTED));
    // Emoji matching.
    for matches in
        [&[0x1F468, 0x200D, 0x2764, 0xFE0F, 0x200D, 0x1F468][..], &[0x1F468, 0x200D, 0x2764, 0x200D, 0x1F468]]
    {
        gives(matches, &[0x1F468, 0x200D, 0x2764, 0x200D, 0x1F468], Kind::Emoji);
    }
    refused(&[0x1F468, 0x200D, 0x2764, 0xFE0F, 0xFE0F, 0x200D, 0x1F468], 5, 1);
    gives(&[0x1F468, 0x1F3FB, 0x200D, 0x1F4BB], &[0x1F468, 0x1F3FB, 0x200D, 0x1F4BB], Kind::Emoji);
    // Hangul.
    gives(&[0x1112, 0x1161, 0x11AB], &[0xD55C], group(KOREAN));
    gives(&[0xD558, 0x11AB], &[0xD55C], group(KOREAN));
    gives(&[0xD55C; WORKED / 3], &[0xD55C; WORKED / 3], group(KOREAN));
    refused(&[0xD55C; WORKED / 3 + 1], 7, 0);
}

#[test]
fn errors_met_in_the_field() {
    // Composing the whole label.
    refused(&[0x61, 0x1F4A9, 0x300], 11, 0);
    // Ignoring FE0F first.
    refused(&[0x1F468, 0xFE0F, 0x200D, 0x2764, 0x200D, 0x1F468], 5, 2);
    // Mapping an item twice; mapping before valid is asked.
    gives(&[0x5A], &[0x7A], Kind::Ascii);
    gives(&[0x7A], &[0x7A], Kind::Ascii);
    // Stopping the look-alike test at the first confused character: alone,
    // each of these is confusable.
    refused(&[0x442], 14, 0);
    refused(&[0x4D5], 14, 0);
    gives(&[0x442, 0x4D5], &[0x442, 0x4D5], group(CYRILLIC));
    gives(&[0x4D5, 0x442], &[0x4D5, 0x442], group(CYRILLIC));
    // Leaving the old tail: `run_name` fills the buffers with marks, and here
    // a longer answer stood in them.
    let words = small_table().to_words();
    let (mut answer, mut work) = ([0; 9], [0; WORK_WORDS]);
    assert!(name(&text("abcdefgh"), &words, &mut answer, &mut work).is_ok());
    assert_eq!(answer, [0x61, 0x62, 0x63, 0x64, 0x65, 0x66, 0x67, 0x68, 0]);
    assert!(name(&text("ba"), &words, &mut answer, &mut work).is_ok());
    assert_eq!(answer, [0x62, 0x61, 0, 0, 0, 0, 0, 0, 0]);
    assert!(name(&text("b a"), &words, &mut answer, &mut work).is_err());
    assert_eq!(answer, [0; 9]);
}

/// 02, Item 6: "In a whole with A in groups 1 and 2, B in 2 and 3, C in 3, the
/// extent of A is all three".
#[test]
fn the_whole_of_item_6() {
    use gen::wholes::item_6::{table, A, B, C, E};
    let words = table().to_words();
    assert_eq!(soundness(&words), Soundness::Sound);
    let parsed = parse(&words).expect("layout");
    let whole = parsed.whole_of(A).expect("A is confused");
    assert_eq!(plain::label::extent(&parsed, whole, A), [A, B, C].into());
    assert_eq!(run_name(&words, &[A], 9), Ok((vec![A], 1)));
    assert_eq!(run_name(&words, &[E], 9), Err(Refusal::new(14, 0)));
    assert_eq!(run_name(&words, &[A, E], 9), Ok((vec![A, E], 1)));
    assert_eq!(run_name(&words, &[A, STOP, E], 9), Err(Refusal::new(14, 1)));
}

/// The screen form by these words, with the number of labels.
fn run_screen(words: &[u32], greek: u32, input: &[u32], room: usize) -> Result<(Vec<u32>, usize), Refusal> {
    let (given, answer) = lent(room, |answer, work| screen(input, words, greek, 0, answer, work));
    let answer = taken(answer, given.map_or(0, |n| n.length));
    given.map(|n| (answer, n.labels))
}

/// 02, Item 1 on the small table, with 3BE among Latin letters too: what ENSIP-15
/// says of beautifying, Greek labels, and 15.
#[test]
fn screen_forms() {
    let words = gen::screens::xi_table().to_words();
    let greek = GREEK as u32;
    let shows = |input: &[u32], due: &[u32]| {
        let labels = input.split(|&c| c == STOP).count();
        assert_eq!(run_screen(&words, greek, input, SCREEN), Ok((due.to_vec(), labels)), "{input:X?}");
    };
    // "beautify("-ξ1⃣") [2D 3BE 31 20E3] is "-Ξ1️⃣" [2D 39E 31 FE0F 20E3]"
    shows(&[0x2D, 0x3BE, 0x31, 0x20E3], &[0x2D, 0x39E, 0x31, 0xFE0F, 0x20E3]);
    shows(&[0x2010, 0x39E, 0x31, 0xFE0F, 0x20E3], &[0x2D, 0x39E, 0x31, 0xFE0F, 0x20E3]);
    // "Beautification can be used to restore emoji-presentation in normalized names."
    shows(&[0x2764], &[0x2764, 0xFE0F]);
    shows(&[0x1F4A9, 0x1F4A9, 0xFE0F], &[0x1F4A9, 0xFE0F, 0x1F4A9, 0xFE0F]);
    let couple = [0x1F468, 0x200D, 0x2764, 0xFE0F, 0x200D, 0x1F468];
    shows(&couple, &couple);
    shows(&[0x1F468, 0x200D, 0x2764, 0x200D, 0x1F468], &couple);
    shows(&[0x1F468, 0x1F3FB, 0x200D, 0x1F4BB], &[0x1F468, 0x1F3FB, 0x200D, 0x1F4BB]);
    // Text that nothing is put back to.
    shows(&[0x5F, 0x24, 0x41], &[0x5F, 0x24, 0x61]);
    shows(&[0x45, 0xFE0E, 0x303], &[0x1EBD]);
    shows(&[0x1F680, 0x61, 0x300], &[0x1F680, 0xFE0F, 0xE0]);
    // Label by label: Greek, Latin and, since Latin comes first, 3BE alone.
    shows(&[0x3B1, 0x3BE, STOP, 0x61, 0x3BE, STOP, 0x39E], &[0x3B1, 0x3BE, STOP, 0x61, 0x39E, STOP, 0x39E]);
    let name = [0x3B1, 0x3BE, STOP, 0x3BE];
    for (number, due) in [(LATIN as u32, [0x39E, 0x3BE]), (7, [0x39E, 0x39E]), (u32::MAX, [0x39E, 0x39E])] {
        let due = vec![0x3B1, due[0], STOP, due[1]];
        assert_eq!(run_screen(&words, number, &name, SCREEN), Ok((due, 2)), "{number}");
    }
    assert_eq!(run_screen(&words, greek, &[], 0), Ok((vec![], 0)));
    // 15 where the screen form alone is too long; it comes after every label.
    assert_eq!(run_screen(&words, greek, &[0x2764], 2), Ok((vec![0x2764, 0xFE0F], 1)));
    assert_eq!(run_screen(&words, greek, &[0x2764], 1), Err(Refusal::new(NO_ROOM, 0)));
    assert_eq!(run_name(&words, &[0x2764], 1), Ok((vec![0x2764], 1)));
    assert_eq!(run_screen(&words, greek, &[0x2764, STOP, 0x21], 1), Err(Refusal::new(5, 2)));
    assert_eq!(run_screen(&words, greek, &[0x2764, STOP, STOP], 0), Err(Refusal::new(6, 1)));
    // 17 is the setting's.
    let call = |setting| {
        let (given, _) = lent(9, |answer, work| screen(&[0x1318F], &words, greek, setting, answer, work));
        given
    };
    assert_eq!((call(0), call(2)), (Ok(Name { length: 1, labels: 1 }), Err(Refusal::new(17, 0))));
}

/// Records that are equal when they are stripped: the one that the finder named,
/// the first among those that take most. 3BE in an emoji is not touched.
#[test]
fn screen_forms_by_unsound_tables() {
    let mut b = gen::screens::xi_table();
    b.emoji.extend([
        vec![0x1F9E1, 0x3BE, 0xFE0F],
        vec![0x1F9E1, 0x3BE],
        vec![0xFE0F, 0x1F9E2],
        vec![0x1F9E2, 0xFE0F],
        vec![0xFE0F, 0xFE0F],
    ]);
    let words = b.to_words();
    let shows = |input: &[u32], due: &[u32]| {
        assert_eq!(run_screen(&words, GREEK as u32, input, 50), Ok((due.to_vec(), 1)), "{input:X?}");
    };
    shows(&[0x1F9E1, 0x3BE, 0x3BE], &[0x1F9E1, 0x3BE, 0xFE0F, 0x39E]);
    // Equally much is taken by both: the first. More by the other one: that.
    shows(&[0x1F9E2, 0x61], &[0xFE0F, 0x1F9E2, 0x61]);
    shows(&[0x1F9E2, 0xFE0F, 0x61], &[0x1F9E2, 0xFE0F, 0x61]);
    // Empty emoji, side by side too, leave no trace in the normal form.
    shows(&[0xFE0F, 0xFE0F, 0xFE0F, 0x61], &[0xFE0F, 0xFE0F, 0xFE0F, 0xFE0F, 0x61]);
    assert_eq!(run_name(&words, &[0xFE0F, 0xFE0F, 0xFE0F, 0x61], 50), Ok((vec![0x61], 1)));
    // They part texts: neither composes with the other.
    shows(&[0x3BE, 0xFE0F, 0x3BE], &[0x39E, 0xFE0F, 0xFE0F, 0x39E]);
    let (b, names) = gen::screens::long_screens();
    let words = b.to_words();
    for (name, length) in names {
        let given = run_screen(&words, GREEK as u32, &name, length).expect("accepted");
        assert!(given.0.len() == length && length > WORKED && length <= SCREEN_ANY);
        assert_eq!(run_screen(&words, GREEK as u32, &name, length - 1), Err(Refusal::new(NO_ROOM, 0)));
    }
}

/// The wanted theorem: each hypothesis is used.
#[test]
fn hypotheses_of_the_screen_form() {
    use plain::screen::{comes_back, unmet};
    let xi = gen::screens::xi_table().to_words();
    assert_eq!((unmet(&xi), unmet(&small_table().to_words())), (vec![], vec![]));
    let parsed = parse(&xi).expect("a table");
    for (hypothesis, table, name) in gen::screens::witnesses() {
        let words = table.to_words();
        assert_eq!(unmet(&words), [hypothesis], "{name:X?}");
        let table = parse(&words).expect("a table");
        for setting in [0, 1] {
            assert_eq!(comes_back(&table, GREEK as u32, setting, &name), Some(false), "{hypothesis:?}, {name:X?}");
            assert_ne!(comes_back(&parsed, GREEK as u32, setting, &name), Some(false), "{hypothesis:?}, {name:X?}");
        }
    }
    // A later record of 39E does not count.
    let mut b = gen::screens::xi_table();
    b.mapped.push((0x39E, vec![0x61]));
    assert_eq!(unmet(&b.to_words()), []);
    assert_eq!(unmet(&[]), plain::screen::HYPOTHESES);
}

#[test]
fn order_of_refusals() {
    let words = small_table().to_words();
    let call = |input: &[u32], words: &[u32], room: usize, area: usize| {
        let (mut answer, mut work) = (vec![9; room], vec![9; area]);
        let given = name(input, words, &mut answer, &mut work);
        assert!(given.is_ok() || answer.iter().chain(&work).all(|&w| w == 0));
        given
    };
    let no = |number: u32, place: usize| Err(Refusal { number, place });
    let bad_long = vec![0xD800; INPUT + 1];
    // 1, 2, 3, 4 in order, over the whole name and the empty one too.
    assert_eq!(call(&bad_long, &[], 3, 0), no(1, 0));
    assert_eq!(call(&bad_long, &words, 3, WORK_WORDS - 1), no(2, 0));
    assert_eq!(call(&bad_long, &words, 3, WORK_WORDS), no(3, 0));
    assert_eq!(call(&[0x21, 0x61, 0xDFFF, 0x110000], &words, 3, WORK_WORDS), no(4, 2));
    assert_eq!(call(&[], &[], 3, WORK_WORDS), no(1, 0));
    assert_eq!(call(&[], &words, 3, 100), no(2, 0));
    // Label by label: a 14 in label 0 before a 5 in label 1.
    assert_eq!(call(&[0x30, 0x445, 0x2E, 0x21], &words, 9, WORK_WORDS), no(14, 0));
    assert_eq!(call(&[0x61, 0x2E, 0x62, 0x21], &words, 9, WORK_WORDS), no(5, 3));
    assert_eq!(call(&[0x61, 0x2E, 0x30, 0x445], &words, 9, WORK_WORDS), no(14, 1));
    // 5 is looked for in the whole label, before 7; an empty label past the
    // worked limit is 6.
    let mut long = vec![0x61; WORKED + 976];
    long.push(0x21);
    assert_eq!(call(&long, &words, 9, WORK_WORDS), no(5, WORKED + 976));
    let mut long = vec![0x61; WORKED];
    long.push(0x2E);
    assert_eq!(call(&long, &words, 9, WORK_WORDS), no(6, 1));
    long.push(0x61);
    assert_eq!(call(&long, &words, 9, WORK_WORDS), no(7, 1));
    // 15 comes after every label.
    assert_eq!(call(&[0x61, 0x62, 0x2E, 0x21], &words, 1, WORK_WORDS), no(5, 3));
    assert_eq!(call(&[0x61, 0x62, 0x2E, 0x63], &words, 3, WORK_WORDS), no(15, 0));
    assert_eq!(call(&[0x61, 0x62, 0x2E, 0x63], &words, 4, WORK_WORDS), Ok(Name { length: 4, labels: 2 }));
    // Exactly the worked limit with stops passes.
    let mut exact = vec![0x61; WORKED];
    exact[500] = 0x2E;
    assert_eq!(call(&exact, &words, WORKED + 976, WORK_WORDS + 3), Ok(Name { length: WORKED, labels: 2 }));
}

#[test]
fn label_call_and_stop() {
    let words = small_table().to_words();
    assert_eq!(run_label(&words, &[0x61, 0x2E, 0x62], 9), Err(Refusal::new(5, 1)));
    assert_eq!(run_label(&words, &[0x21, 0x2E], 9), Err(Refusal::new(5, 0)));
    assert_eq!(run_label(&words, &[0x2E], 9), Err(Refusal::new(5, 0)));
    assert_eq!(run_label(&words, &[0x2E, 0x21], 9), Err(Refusal::new(5, 0)));
    // Before 7, and whatever the table says of 2E.
    let mut long = vec![0x61; 1500];
    long.push(0x2E);
    assert_eq!(run_label(&words, &long, 9), Err(Refusal::new(5, 1500)));
    let mut b = small_table();
    b.valid.push((0x2E, 0x2E));
    b.ignored.push((0x2E, 0x2E));
    b.emoji.push(vec![0x1F680, 0x2E]);
    assert_eq!(run_label(&b.to_words(), &[0x1F680, 0x2E], 9), Err(Refusal::new(5, 1)));
}

#[test]
fn layout_cases() {
    let good = small_table();
    assert!(parse(&good.to_words()).is_some());
    assert_eq!(parse(&good.to_words()).unwrap().to_words(), good.to_words());
    assert_eq!(parse(&good.to_words()).unwrap().to_builder(), good);
    let holds = |change: &dyn Fn(&mut TableBuilder)| {
        let mut b = good.clone();
        change(&mut b);
        parse(&b.to_words()).is_some()
    };
    // Items.
    for (count, passes) in [(0, false), (1, true), (32, true), (33, false)] {
        assert_eq!(holds(&|b| b.mapped.push((0x2160, vec![0x61; count]))), passes);
        assert_eq!(holds(&|b| b.emoji.push(vec![0x1F468; count])), passes);
    }
    for (count, passes) in [(0, false), (1, true), (4, true), (5, false)] {
        assert_eq!(holds(&|b| b.decompositions.push((0x2160, vec![0x61; count]))), passes);
    }
    // First over last, class, flags, groups.
    assert!(!holds(&|b| b.valid.push((2, 1))));
    assert!(!holds(&|b| b.nsm.push((2, 1))));
    assert!(!holds(&|b| b.escape.push((2, 1))));
    assert!(!holds(&|b| b.quick_check.push((2, 1))));
    assert!(!holds(&|b| b.groups.push((0, vec![(2, 1)]))));
    assert!(!holds(&|b| b.classes.push((2, 1, 0))));
    assert!(holds(&|b| b.classes.push((2, 0xFFFF_FFFF, 255))));
    assert!(!holds(&|b| b.classes.push((2, 3, 256))));
    for (flags, passes) in [(3, true), (4, false), (5, false), (6, true), (7, true), (8, false), (10, false)] {
        assert_eq!(holds(&|b| b.groups.push((flags, vec![]))), passes, "flags {flags}");
    }
    // 02, Item 12: lists.
    let list = |list: &[Vec<u32>]| {
        holds(&|b| {
            b.lists.insert(b.groups.len(), list.to_vec());
            b.groups.push((6, vec![(0x61, 0x61)]));
            b.groups.push((0, vec![]));
        })
    };
    for (count, passes) in [(0, true), (1, true), (64, true), (65, false)] {
        assert_eq!(list(&vec![vec![0x61, 0x300]; count]), passes, "{count} records");
    }
    for (count, passes) in [(0, false), (1, false), (2, true), (8, true), (9, false)] {
        assert_eq!(list(&[vec![0x61, 0x300], vec![0x61; count]]), passes, "{count} items");
    }
    assert!(holds(&|b| b.groups.resize(256, (0, vec![]))));
    assert!(!holds(&|b| b.groups.resize(257, (0, vec![]))));
    assert!(holds(&|b| b.wholes.push((vec![], vec![]))));
    // Sections by hand: fourteen empty ones, exclusions with their one record.
    let empty: Vec<Vec<u32>> = (0..14).map(|i| if i == 8 { vec![0] } else { vec![] }).collect();
    let with = |i: usize, words: &[u32]| {
        let mut sections = empty.clone();
        sections[i] = words.to_vec();
        parse(&plain::table::join_sections(&sections)).is_some()
    };
    assert!(with(0, &[]));
    for section in [0, 1, 2, 3, 4, 12, 13] {
        assert!(with(section, &[5, 5]));
        assert!(with(section, &[0, 0xFFFF_FFFF]));
        assert!(!with(section, &[5]));
        assert!(!with(section, &[5, 6, 7]));
    }
    assert!(!with(8, &[]), "an empty exclusions section");
    assert!(!with(8, &[0, 0]), "two exclusion records");
    assert!(!with(8, &[1, 0x61, 1, 0x62]));
    assert!(!with(8, &[2, 0x61]), "a record cut by its section's end");
    assert!(with(8, &[2, 0x61, 0x62]));
    assert!(!with(9, &[1, 2]) && !with(9, &[1, 2, 3, 4]) && with(9, &[1, 2, 3]));
    assert!(!with(5, &[0x41]) && !with(5, &[0x41, 2, 0x61]) && with(5, &[0x41, 1, 0x61]));
    assert!(!with(6, &[0x41, 1]) && !with(7, &[3, 1, 2]));
    assert!(!with(10, &[0]) && !with(10, &[0, 1, 5]) && !with(10, &[0, 2, 5]) && with(10, &[0, 2, 5, 5]));
    assert!(!with(11, &[0]) && !with(11, &[1, 5]) && !with(11, &[0, 2, 5]) && with(11, &[0, 0]));
    // The end of the words.
    let words = plain::table::join_sections(&empty);
    assert!(parse(&words).is_some());
    assert!(parse(&[]).is_none());
    for n in 0..words.len() {
        assert!(parse(&words[..n]).is_none());
    }
    let mut over = words.clone();
    over.push(0);
    assert!(parse(&over).is_none(), "words left over");
    let mut past = words.clone();
    past[0] = 2;
    *past.last_mut().unwrap() = 0xFFFF_FFFF;
    assert!(parse(&past).is_none(), "a section that runs past the end");
    // 131,074 words and two more: 15 words stand beside the pairs or triples.
    let sized = |total: usize| {
        let mut sections = empty.clone();
        let rest = total - words.len();
        // Pairs make an even number; a triple makes it odd where needed.
        let triple = rest % 2;
        sections[0] = vec![7; rest - 3 * triple];
        sections[9] = vec![7; 3 * triple];
        let words = plain::table::join_sections(&sections);
        assert_eq!(words.len(), total);
        parse(&words).is_some()
    };
    assert!(sized(131_073) && sized(131_074));
    assert!(!sized(131_075) && !sized(131_076));
}

#[test]
fn unpack_cases() {
    let run = |file: &[u8], room: usize| {
        let mut answer = vec![0xFFFF_FFFF; room];
        let given = unpack(file, &mut answer);
        let due = given.unwrap_or(0);
        assert!(answer[due..].iter().all(|&w| w == 0));
        answer.truncate(due);
        (given, answer)
    };
    let no = |number: u32| (Err(Refusal { number, place: 0 }), vec![]);
    assert_eq!(run(&[], 3), no(21));
    assert_eq!(run(&[1], 3), no(21));
    assert_eq!(run(&[0], 3), no(20));
    assert_eq!(run(&[5, 9, 9], 3), no(20), "a wrong version with a wrong length");
    assert_eq!(run(&[2], 3), no(21));
    assert_eq!(run(&[3], 3), no(21));
    assert_eq!(run(&[4], 3), no(21));
    assert_eq!(run(&[1, 0, 0, 0], 3), no(21));
    assert_eq!(run(&[1, 0, 0, 0, 0], 3), (Ok(2), vec![0, 0]));
    assert_eq!(run(&[1, 0, 0, 0, 0], 1), no(22), "room for one of the words that are added");
    assert_eq!(run(&[2, 0, 0, 0, 0], 3), (Ok(1), vec![0]));
    assert_eq!(run(&[2, 0, 0, 0, 0], 0), no(22), "no room for the word that is added");
    assert_eq!(run(&[3, 0, 0, 0, 0], 0), (Ok(0), vec![]));
    assert_eq!(run(&[4, 0, 0, 0, 0], 0), (Ok(0), vec![]));
    for version in [0, 5, 6, 255] {
        assert_eq!(run(&[version, 0, 0, 0, 0], 3), no(20));
    }
    assert_eq!(run(&[1, 0, 0, 0, 0, 7], 3), no(21));
    assert_eq!(run(&[1, 0x40, 0, 0, 0], 3), no(21), "a count whose bytes pass 32 bits");
    assert_eq!(run(&[1, 0xC0, 0, 0, 1, 1, 2, 3, 4], 3), no(21));
    let words = [0x01020304, 0xFFFF_FFFF];
    assert_eq!(run(&pack(&words), 2), (Ok(2), words.to_vec()));
    assert_eq!(run(&pack(&words), 5), (Ok(2), words.to_vec()));
    assert_eq!(run(&pack(&words), 1), no(22), "a buffer too small by one");
    assert_eq!(pack(&words), [3, 0, 0, 0, 2, 1, 2, 3, 4, 255, 255, 255, 255]);
    let older = plain::pack_as(2, &words);
    assert_eq!(run(&older, 3), (Ok(3), vec![words[0], words[1], 0]));
    assert_eq!(run(&older, 2), no(22), "the word that is added has no room");
    let oldest = plain::pack_as(1, &words);
    assert_eq!(run(&oldest, 4), (Ok(4), vec![words[0], words[1], 0, 0]));
    assert_eq!(run(&oldest, 3), no(22), "one of the words that are added has no room");
    // More words than a table may have: unpacking has no such limit.
    let many = vec![3; 131_075];
    assert_eq!(run(&pack(&many), 131_075).0, Ok(131_075));
}

/// A file of version 1 can have a layout fault without the words that are added,
/// and none with them; a file of version 3 that lacks a section has one.
#[test]
fn older_files_that_had_a_fault() {
    let words = |file: &[u8]| {
        let mut words = vec![7; 40];
        let count = unpack(file, &mut words).unwrap();
        words.truncate(count);
        words
    };
    // Eight empty sections, 1 0, three empty sections and 2 0.
    let odd = [0, 0, 0, 0, 0, 0, 0, 0, 1, 0, 0, 0, 0, 2, 0];
    assert!(compare::older::twelve(&odd).is_none() && parse(&odd).is_none());
    let unpacked = words(&plain::pack_as(1, &odd));
    assert_eq!(unpacked, [&odd[..], &[0, 0]].concat());
    assert_eq!(parse(&unpacked).unwrap().to_builder().escape, [(0, 0)]);
    assert_eq!(soundness(&unpacked), Soundness::Sound);
    let twelve = &odd[..13];
    assert!(compare::older::twelve(twelve).is_some());
    assert_eq!(soundness(&words(&plain::pack_as(1, twelve))), Soundness::Sound);
    assert_eq!(soundness(&words(&plain::pack_as(2, &[twelve, &[0]].concat()))), Soundness::Sound);
    assert_eq!(soundness(&words(&plain::pack_as(2, twelve))), Soundness::Broken(0));
    assert_eq!(words(&pack(twelve)), twelve);
    assert_eq!(soundness(twelve), Soundness::Broken(0));
}

/// The least quick-check set of the small table: the second items of its pairs
/// and of Hangul's.
fn needed() -> Vec<(u32, u32)> {
    vec![(0x300, 0x300), (0x303, 0x303), (0x655, 0x655), (0x1161, 0x1175), (0x11A8, 0x11C2)]
}

/// For each rule changes that break it and no other rule.
#[test]
fn each_soundness_rule_alone() {
    let alone = |rule: u32, change: &dyn Fn(&mut TableBuilder)| {
        let mut b = small_table();
        change(&mut b);
        let words = b.to_words();
        let table = parse(&words).unwrap();
        let index = Index::new(&table);
        for other in 1..=LAST_RULE {
            let broken = plain::soundness::broken(&index, other);
            assert_eq!(broken.is_some(), other == rule, "rule {other}: {broken:?}");
        }
        assert_eq!(soundness(&words), Soundness::Broken(rule));
        assert_eq!(soundness_report(&words).unwrap().0, rule);
    };
    assert_eq!(soundness(&[]), Soundness::Broken(0));
    // 1
    alone(1, &|b| b.ignored.push((0xD800, 0xD800)));
    alone(1, &|b| b.fenced.push((0xD000, 0xE000)));
    alone(1, &|b| b.marks.push((0x10FFFF, 0x110000)));
    alone(1, &|b| b.nsm.push((0, 0xFFFF_FFFF)));
    alone(1, &|b| b.exclusions.push(0x110000));
    alone(1, &|b| b.escape.push((0xDFFF, 0xE000)));
    alone(1, &|b| b.quick_check = [needed(), vec![(0x10FFFF, 0x110000)]].concat());
    alone(1, &|b| b.wholes.push((vec![], vec![0xDFFF])));
    alone(1, &|b| b.wholes.push((vec![0xDFFF], vec![])));
    alone(1, &|b| b.mapped.push((0xD800, vec![0x61])));
    alone(1, &|b| b.classes.push((0xE000, 0x110000, 0)));
    alone(1, &|b| b.emoji.push(vec![0xFFFF_FFFF]));
    for sequence in [vec![0xD800, 0x300], vec![0x561, 0x300, 0x11_0000]] {
        alone(1, &|b| {
            b.groups[WHITELISTED].0 = 6;
            b.lists.insert(WHITELISTED, vec![vec![0x561, 0x300], sequence.clone()]);
        });
    }
    alone(1, &|b| b.decompositions.push((0x1234, vec![0xD800])));
    // 2, in both directions
    alone(2, &|b| b.valid.push((0x12345, 0x12345)));
    alone(2, &|b| b.groups[0].1.push((0x12345, 0x12345)));
    alone(2, &|b| b.valid.retain(|&p| p != (0x655, 0x655)));
    alone(2, &|b| b.valid.retain(|&p| p != (0x11A8, 0x11C2)));
    for c in [STOP, FE0F] {
        alone(2, &|b| {
            b.valid.push((c, c));
            b.groups[0].1.push((c, c));
        });
    }
    // 3
    alone(3, &|b| b.mapped.push((0x2160, vec![0x61, 0x41])));
    alone(3, &|b| b.mapped.push((0x41, vec![STOP]))); // a shadowed record
                                                      // 4
    alone(4, &|b| b.emoji.push(vec![0x1F469, STOP]));
    alone(4, &|b| b.emoji.push(vec![FE0F, 0x1F469]));
    alone(4, &|b| b.emoji.push(vec![0x1F469, FE0F, FE0F]));
    alone(4, &|b| b.emoji.push(vec![0x1F680]));
    alone(4, &|b| b.emoji.push(vec![FE0F]));
    // 5
    alone(5, &|b| b.emoji.push(vec![0x61]));
    alone(5, &|b| b.emoji.push(vec![0x61, 0x62]));
    alone(5, &|b| b.emoji.push(vec![0x61, 0x1F680]));
    alone(5, &|b| b.emoji.push(vec![0x1F680, 0x1F4A9]));
    alone(5, &|b| b.emoji.push(vec![0x1F680, 0x62]));
    // 6
    alone(6, &|b| b.decompositions.push((0xE0, vec![0x300, 0x61])));
    alone(6, &|b| b.decompositions.push((0x2460, vec![0x2460, 0x300])));
    alone(6, &|b| b.decompositions.push((0x21, vec![0x2460])));
    alone(6, &|b| b.decompositions.push((0xD7A3, vec![0x2460])));
    alone(6, &|b| b.classes.push((0x11C2, 0x11C3, 1)));
    alone(6, &|b| b.classes.push((0xD7A3, 0xD7FF, 1)));
    alone(6, &|b| b.decompositions.extend([(0x2460, vec![0x2461]), (0x2461, vec![0x2460])]));
    alone(6, &|b| b.decompositions.extend((0x2460..0x2465).map(|h| (h, vec![h + 1]))));
    alone(6, &|b| {
        b.decompositions.extend((0x2460..0x2463).map(|h| (h, vec![h + 1])));
        b.decompositions.push((0x2463, vec![0xAC00]));
    });
    // 7
    alone(7, &|b| b.decompositions.push((0x2460, vec![0x61, 0x300])));
    alone(7, &|b| b.decompositions.push((0x2460, vec![0x1100, 0x1161])));
    alone(7, &|b| b.decompositions.push((0x2460, vec![0xAC00, 0x11A8])));
    // 8: a second item that is missing, those of Hangul from end to end
    for i in 0..needed().len() {
        let mut set = needed();
        set.remove(i);
        alone(8, &|b| b.quick_check = set.clone());
    }
    for (first, last) in [(0x1162, 0x1175), (0x1161, 0x1174)] {
        alone(8, &|b| b.quick_check = [&needed()[..3], &[(first, last), (0x11A8, 0x11C2)]].concat());
    }
    for (first, last) in [(0x11A9, 0x11C2), (0x11A8, 0x11C1)] {
        alone(8, &|b| b.quick_check = [&needed()[..4], &[(first, last)]].concat());
    }
    // what isn't its own NFC, and what starts with a second item: 2461 is 63 64, and 63 is one
    let with = |more: &[(u32, u32)]| [&needed()[..], more].concat();
    let changes: [(&[(u32, u32)], (u32, u32), &[(u32, Vec<u32>)]); 5] = [
        (&[], (0x2460, 0x2460), &[(0x2460, vec![0x2461])]),
        (&[(0x63, 0x64)], (0x2461, 0x2461), &[(0x2460, vec![0x62, 0x63]), (0x2461, vec![0x63, 0x64])]),
        (&[(0x1112, 0x1112), (0xD559, 0xD7A3)], (0xD558, 0xD558), &[(0x2460, vec![0x61, 0x1112])]),
        (&[(0x1112, 0x1112), (0xD558, 0xD7A2)], (0xD7A3, 0xD7A3), &[(0x2460, vec![0x61, 0x1112])]),
        (&[(0xD558, 0xD7A3)], (0x1112, 0x1112), &[(0x2460, vec![0x61, 0x1112])]),
    ];
    for (set, missing, records) in &changes {
        alone(8, &|b| {
            b.quick_check = with(set);
            b.decompositions.extend_from_slice(records);
        });
        let mut b = small_table();
        b.quick_check = with(&[set, &[*missing][..]].concat());
        b.decompositions.extend_from_slice(records);
        assert_eq!(soundness_report(&b.to_words()), None);
    }

    // What breaks none.
    let fine = |change: &dyn Fn(&mut TableBuilder)| {
        let mut b = small_table();
        change(&mut b);
        assert_eq!(soundness_report(&b.to_words()), None);
    };
    fine(&|b| b.quick_check = needed());
    fine(&|b| b.quick_check = vec![(0, 0xD7FF)]);
    fine(&|b| b.decompositions.push((0x2460, vec![0x2460])));
    fine(&|b| b.decompositions.extend((0x2460..0x2464).map(|h| (h, vec![h + 1]))));
    fine(&|b| b.decompositions.extend([(0x2460, vec![0x2461]), (0x2461, vec![0xAC01])]));
    fine(&|b| b.classes.push((0x1100, 0x11C2, 0)));
    fine(&|b| {
        b.decompositions.push((0x2460, vec![0x61, 0x300]));
        b.exclusions.push(0x2460);
    });
    fine(&|b| {
        b.decompositions.push((0x2460, vec![0x61, 0x300]));
        b.classes.push((0x2460, 0x2460, 9));
    });
    fine(&|b| b.decompositions.push((0x2460, vec![0xAC01, 0x11A8])));
    fine(&|b| b.decompositions.push((0x2460, vec![0xAC00, 0x11A7])));
    fine(&|b| b.emoji.push(vec![0x61, 0x20E3]));
    fine(&|b| b.groups[0].1.push((0x61, 0x70)));
    fine(&|b| b.valid.extend([(0x61, 0x70), (0x61, 0x70)]));
}

/// Rule 8 is asked of few codepoints, and means every number.
#[test]
fn rule_8_of_every_codepoint() {
    let every = || (0..=0x10FFFF).chain([0x110000, 0x7FFF_FFFF, 0xFFFF_FFFF]);
    let (mut kept, mut broken) = (0, 0);
    for seed in 0.. {
        let made = gen::table(&mut gen::Rng::new(8_000 + seed));
        let Some(table) = parse(&made.words) else { continue };
        let index = Index::new(&table);
        let lower = (1..8).any(|rule| plain::soundness::broken(&index, rule).is_some());
        if lower || made.builder.quick_check.is_empty() {
            continue;
        }
        let due = missing_in_quick_check(&index, every()).is_some();
        assert_eq!(plain::soundness::broken(&index, 8).is_some(), due, "seed {seed}");
        *(if due { &mut broken } else { &mut kept }) += 1;
        if kept >= 3 && broken >= 3 {
            return;
        }
    }
}

/// Wide ranges, overlapping and repeated, wide class entries, and many heads
/// that all grow.
#[test]
fn soundness_ends_soon() {
    let begin = std::time::Instant::now();
    let words = gen::worst::wide_ranges().to_words();
    assert_eq!(soundness(&words), Soundness::Broken(1));
    let table = parse(&words).unwrap();
    let index = Index::new(&table);
    for rule in 1..=LAST_RULE {
        let broken = plain::soundness::broken(&index, rule).is_some();
        assert_eq!(broken, rule <= 2, "rule {rule}"); // 2E and FE0F are valid
    }
    assert_eq!(soundness(&gen::worst::wide_classes().to_words()), Soundness::Broken(1));
    assert_eq!(soundness(&gen::worst::growing_heads().to_words()), Soundness::Broken(6));
    assert!(begin.elapsed().as_secs() < 20, "{:?}", begin.elapsed());
}
