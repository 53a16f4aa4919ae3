//! What the calls leave on the stack, and how much of it they use: each call on
//! a painted stack of its own, for accepted names of every kind and for every
//! refusal that is given after text was read. The promises of the calls cannot
//! speak of the stack, so it is measured. Registers are out of reach here.

mod painted;

use engine::book::{Account, Book, Desk, AREA};
use engine::lists::{moved, respelled};
use engine::namehash::namehash;
use engine::normal_forms::{nfc, nfd};
use engine::report::report;
use engine::screen::screen;
use gen::worst;
use painted::{run, traces, Left, Traces};
use plain::book::{FORM, FRONT, SLOT, SLOTS};
use plain::limits::{REPORT as REPORT_BYTES, WORKED, WORK_WORDS};
use plain::TableBuilder;
use std::collections::HashSet;
use std::hint::black_box;

const KB: usize = 1 << 10;

/// What a call may leave of a text and use of the stack, on every path.
#[derive(Clone, Copy)]
struct Limits {
    /// Words that are single codepoints, spilled by an expression.
    words: usize,
    /// Codepoints that stand in order: 1 is never two neighbours.
    in_order: usize,
    /// Bytes of stack.
    stack: usize,
}

/// What a call is handed: the name, as UTF-8 too where it has one, a table, the
/// setting, both buffers, one for bytes, a list, and the area of a payee book.
struct Lent<'a> {
    name: &'a [u32],
    bytes: &'a [u8],
    table: &'a [u32],
    setting: u32,
    answer: &'a mut [u32],
    work: &'a mut [u32],
    out: &'a mut [u8],
    list: &'a mut [u32],
    area: &'a mut [u32],
}

impl Lent<'_> {
    /// One call on the book.
    fn book(&mut self, call: fn(&mut Book, &[u32], &mut Desk) -> u32) -> u32 {
        let mut desk = Desk { table: self.table, setting: self.setting, answer: self.answer, work: self.work };
        call(&mut Book::new(self.area), self.name, &mut desk)
    }
}

/// A call that answers a number, and what it has to keep to.
struct Call {
    what: &'static str,
    number: fn(&mut Lent) -> u32,
    limits: Limits,
}

/// At most single words of a text, never two neighbours in order, and so much
/// stack.
const fn within(stack: usize) -> Limits {
    Limits { words: 16, in_order: 1, stack }
}

const NAME: Call = Call {
    what: "name",
    number: |l| engine::name(l.name, l.table, l.setting, l.answer, l.work).number,
    limits: within(48 * KB),
};

const LABEL: Call = Call {
    what: "label",
    number: |l| engine::label(l.name, l.table, l.setting, l.answer, l.work).number,
    limits: within(48 * KB),
};

const NAMEHASH: Call = Call {
    what: "name hash",
    number: |l| namehash(l.name, l.table, l.setting, l.answer, l.work).name.number,
    limits: within(48 * KB),
};

/// It judges each label as the name call does and walks it again, with a bit for
/// each record of the table and the classes of a text beside.
const SCREEN: Call = Call {
    what: "screen form",
    number: |l| screen(l.name, l.table, 1, l.setting, l.answer, l.work).number,
    limits: within(56 * KB),
};

/// It judges and walks as the screen form does.
const REPORT: Call = Call {
    what: "report",
    number: |l| report(l.name, l.table, l.setting, l.out, l.work).number,
    limits: within(56 * KB),
};

/// The name stands in the last slot of the book.
const MOVED: Call =
    Call { what: "moved", number: |l| moved(l.area, l.table, l.list, l.work).number, limits: within(48 * KB) };

const RESPELLED: Call =
    Call { what: "respelled", number: |l| respelled(l.name, l.table, l.list, l.work).number, limits: within(48 * KB) };

/// The codepoints take an array beside what the name call uses.
const BYTES: Call = Call {
    what: "name from bytes",
    number: |l| engine::utf8::name(l.bytes, l.table, l.setting, l.answer, l.work).number,
    limits: within(48 * KB + 4 * (plain::limits::INPUT + 1) + 256),
};

const NFD: Call =
    Call { what: "nfd", number: |l| nfd(l.name, l.table, l.answer, l.work).number, limits: within(4 * KB) };

/// A bit for each record of the table takes 5.5 KB, the index of composition pairs 4.5.
const NFC: Call =
    Call { what: "nfc", number: |l| nfc(l.name, l.table, l.answer, l.work).number, limits: within(16 * KB) };

/// Calls that only look at a text.
const LOOKS: [Call; 3] = [
    Call { what: "trim", number: |l| engine::trim(l.name).len() as u32, limits: within(KB) },
    Call { what: "group", number: |l| engine::group(l.name, l.table).number, limits: within(4 * KB) },
    Call { what: "emoji", number: |l| engine::emoji::emoji(l.name, l.table).number, limits: within(4 * KB) },
];

/// The calls of the payee book that take a name: as the name call.
const BOOK: [Call; 3] = [
    Call { what: "save", number: |l| l.book(|b, n, d| b.save(n, ACCOUNT, d).number), limits: within(48 * KB) },
    Call { what: "find", number: |l| l.book(|b, n, d| b.find(n, d).number), limits: within(48 * KB) },
    Call { what: "forget", number: |l| l.book(|b, n, d| b.forget(n, d).number), limits: within(48 * KB) },
];

/// Eight words that nothing else is.
const ACCOUNT: Account = Account {
    words: [0xACC0_0001, 0xACC1_0003, 0xACC2_0005, 0xACC3_0007, 0xACC4_0009, 0xACC5_000B, 0xACC6_000D, 0xACC7_000F],
};

/// Bytes of stack of the soundness check.
const SOUNDNESS: usize = 64 * KB;

/// Frames that hold an account after save and find.
const ACCOUNT_COPIES: usize = 3;

/// Bytes of stack of unpacking and of a reset.
const PASS: usize = KB;

/// Bytes of stack of the layout pass alone, each of whose walks has a frame.
const LAYOUT: usize = 2 * KB;

/// Bytes of stack of Keccak-256, whole or a piece.
const KECCAK: usize = 4 * KB;

/// Bytes of a block of Keccak-256: the lanes of a sponge hold them as they are
/// until it is full.
const BLOCK: usize = 136;

/// Bytes of a longer message that may stay in order: what one register holds.
const LANE: usize = 8;

/// A name, the setting, the words of the answer buffer, and the number that is
/// due from the name call.
struct Case {
    what: &'static str,
    name: Vec<u32>,
    setting: u32,
    room: usize,
    number: u32,
}

/// Codepoints from here on, none twice.
fn row(first: u32, count: u32) -> Vec<u32> {
    (first..first + count).collect()
}

/// Lower-case letters; in 650 no pair of neighbours stands twice.
fn letters(count: usize) -> Vec<u32> {
    let steps = (1..26).flat_map(|step| [step; 26]);
    let walk = steps.scan(0, |at, step| {
        *at = (*at + step) % 26;
        Some(0x61 + *at)
    });
    walk.take(count).collect()
}

fn cases() -> Vec<Case> {
    let case = |what, number, name: &[&[u32]]| Case { what, name: name.concat(), setting: 0, room: WORKED, number };
    let capitals: Vec<u32> = letters(40).iter().map(|c| c - 0x20).collect();
    let cyrillic = [0x43C, 0x438, 0x440, 0x436, 0x44B, 0x448];
    let family = [0x1F468, 0x200D, 0x2764, 0xFE0F, 0x200D, 0x1F468];
    let stop = [0x2E];
    vec![
        case("ASCII, 14 codepoints", 0, &[&letters(14)]),
        case("ASCII, 300 codepoints", 0, &[&letters(300)]),
        case("ASCII, mapped", 0, &[&capitals]),
        case("emoji", 0, &[&family.repeat(3)]),
        case("emoji and text", 0, &[&[0xE9, 0xEB], &family, &[0xEE, 0xF6]]),
        case("Latin, composed", 0, &[&letters(20), &[0x65, 0x301, 0x6F, 0x308]]),
        case("Cyrillic", 0, &[&cyrillic]),
        case("Cyrillic, confused", 0, &[&[0x442, 0x4D5]]),
        case("Hangul", 0, &[&[0xD55C, 0xAD6D, 0xC5B4]]),
        case("letters that decompose", 0, &[&[0xE9, 0xEB, 0xEE, 0xF6, 0x1E69, 0x1EA5, 0x1ED9]]),
        case("marks of several classes", 0, &[&[0x1A00], &[0x1A1B, 0x1A1A, 0x1A19, 0x1A18, 0x1A17].repeat(40)]),
        case("Han, 1,000 codepoints", 0, &[&row(0x4E00, 1_000)]),
        case("restricted", 0, &[&row(0x13000, 12)]),
        case("three labels", 0, &[&letters(30), &stop, &cyrillic, &stop, &row(0x4E00, 30)]),
        case("4, behind text", 4, &[&row(0x4E00, 300), &[0xD800]]),
        case("5, behind text", 5, &[&letters(200), &[0x40]]),
        case("6, behind a label", 6, &[&cyrillic, &stop, &stop, &letters(9)]),
        // Above every place in a table, which are on the stack too.
        case("7", 7, &[&row(0x2_1000, WORKED as u32 + 6)]),
        case("8", 8, &[&letters(200), &[0x5F]]),
        case("9", 9, &[&[0x78, 0x6E, 0x2D, 0x2D], &letters(200)]),
        case("10", 10, &[&letters(200), &[0x2019]]),
        case("11, behind an emoji", 11, &[&cyrillic, &[0x1F4A9, 0x301], &cyrillic]),
        case("12", 12, &[&letters(200), &[0x645, 0x635, 0x631]]),
        case("13", 13, &[&[0x625, 0x610, 0x611, 0x612, 0x613, 0x614]]),
        case("14, two codepoints", 14, &[&[0x30, 0x445]]),
        case("14, 300 codepoints", 14, &[&[0x445, 0x430, 0x440, 0x435, 0x43E, 0x441].repeat(50)]),
        Case { room: 100, ..case("15", 15, &[&letters(300)]) },
        Case { setting: 1, ..case("17, behind a label", 17, &[&cyrillic, &stop, &row(0x13000, 12)]) },
    ]
}

/// What a call on a name leaves: the number that it answers, the bytes that it
/// uses, and what stays of the name, of its normal form or of its NFD, which
/// are worked with too.
fn left_by(call: &Call, case: &Case, table: &[u32], area: &mut [u32]) -> (u32, usize, Traces) {
    let name = &case.name[..];
    let (number, left, given) = run_case(call, case, table, area);
    let (form, decomposed) = (normal_form(case, table), full_decomposition(name, table));
    let stay = [name, &given, &form, &decomposed].map(|text| traces(&left, text));
    let most = |of: fn(&Traces) -> usize| stay.iter().map(of).max().unwrap_or(0);
    for bytes in [utf8(name), utf8(&given), utf8(&form)] {
        assert!(!bytes_stay(&left, &bytes), "{}, {}: bytes of the name stay", call.what, case.what);
    }
    (number, left.used, Traces { words: most(|t| t.words), in_order: most(|t| t.in_order) })
}

/// The number that a call answers on a case, the stack after it, and the text in
/// the answer buffer.
fn run_case(call: &Call, case: &Case, table: &[u32], area: &mut [u32]) -> (u32, Left, Vec<u32>) {
    let (mut answer, mut work) = (vec![0; case.room], vec![0; 16_384]);
    let (mut out, mut list) = (vec![0; REPORT_BYTES], vec![0; 256]);
    let bytes = utf8(&case.name);
    let mut lent = Lent {
        name: &case.name,
        bytes: &bytes,
        table,
        setting: case.setting,
        answer: &mut answer,
        work: &mut work,
        out: &mut out,
        list: &mut list,
        area,
    };
    let mut number = 0;
    let left = run(|| number = black_box((call.number)(&mut lent)));
    (number, left, answer.into_iter().take_while(|&c| c != 0).collect())
}

/// The normal form of a case's name, empty where it is refused.
fn normal_form(case: &Case, table: &[u32]) -> Vec<u32> {
    let mut form = vec![0; WORKED];
    let length = engine::name(&case.name, table, 0, &mut form, &mut vec![0; WORK_WORDS]).length;
    form.truncate(length);
    form
}

fn full_decomposition(text: &[u32], table: &[u32]) -> Vec<u32> {
    let mut form = vec![0; WORKED];
    let length = nfd(text, table, &mut form, &mut vec![0; WORK_WORDS]).length;
    form.truncate(length);
    form
}

/// The name as UTF-8; numbers that are no scalar values as a byte that is none.
fn utf8(name: &[u32]) -> Vec<u8> {
    name.iter().flat_map(|&c| plain::utf8::encode(&[c]).unwrap_or(vec![0xFF])).collect()
}

/// Whether nine bytes of these stand there in order: one word more than a
/// register holds.
fn bytes_stay(left: &Left, bytes: &[u8]) -> bool {
    let parts: HashSet<&[u8]> = bytes.windows(9).collect();
    let all: Vec<u8> = left.words.iter().flat_map(|w| w.to_le_bytes()).collect();
    all.windows(9).any(|w| parts.contains(w))
}

/// The area of a book that has these names in its first slots.
fn filed(names: &[Vec<u32>]) -> Vec<u32> {
    let mut area = vec![0; AREA];
    for (slot, name) in area[FRONT..].chunks_mut(SLOT).zip(names) {
        slot[0] = name.len() as u32;
        slot[1..=name.len()].copy_from_slice(name);
    }
    area
}

/// The book that a call is lent: for the list of slots one that has the name, or
/// what a slot holds of it, in the last slot; else an empty one.
fn area_for(call: &Call, name: &[u32]) -> Vec<u32> {
    let mut area = vec![0; AREA];
    if call.what == MOVED.what {
        let form = &name[..name.len().min(FORM)];
        let slot = &mut area[FRONT + (SLOTS - 1) * SLOT..];
        slot[0] = form.len() as u32;
        slot[1..=form.len()].copy_from_slice(form);
    }
    area
}

/// Each case within the limits of the call, on the full-size table; of the
/// stack alone also tables made to reach far into 13 and 14.
fn keeps(call: &Call) {
    let full = standin::full().words;
    let (mut over, mut most) = (Vec::new(), 0);
    for case in cases() {
        let (number, used, Traces { words, in_order }) = left_by(call, &case, &full, &mut area_for(call, &case.name));
        if [NAME.what, NAMEHASH.what, SCREEN.what].contains(&call.what) {
            assert_eq!(number, case.number, "{}", case.what);
        }
        println!("{}, {} ({number}): {words} words, {in_order} in order, {used} bytes", call.what, case.what);
        if words > call.limits.words || in_order > call.limits.in_order {
            over.push(case.what);
        }
        most = most.max(used);
    }
    let deep = worst::deep_text(vec![(worst::DEEP_TEXT, worst::DEEP_TEXT + 8)], 230).to_words();
    let wide = worst::wide_whole().to_words();
    for (name, table) in [(vec![worst::DEEP_TEXT; 4], deep), (worst::confused(16), wide)] {
        let case = Case { what: "far", name, setting: 0, room: WORKED, number: 0 };
        most = most.max(left_by(call, &case, &table, &mut area_for(call, &case.name)).1);
    }
    println!("{}: {most} bytes of stack", call.what);
    assert!(over.is_empty(), "{}: text stays after {over:?}", call.what);
    assert!(most <= call.limits.stack, "{}: {most} bytes of stack", call.what);
}

fn soundness_stack() -> usize {
    let chain = worst::chains(1).to_words();
    let deep = worst::deep_text(vec![], 0).to_words();
    // Rule 8 is the last one asked, and only of a set that isn't empty.
    let mut outside = worst::pairs_outside();
    outside.decompositions.truncate(1_000);
    let tables = [standin::full().words, chain, deep, worst::wide_whole().to_words(), outside.to_words()];
    let used = tables.iter().map(|table| {
        let left = run(|| {
            black_box(engine::soundness(table));
        });
        left.used
    });
    let most = used.max().unwrap_or(0);
    println!("soundness: {most} bytes of stack");
    most
}

/// The scan sees a text that stays, in words of 32 and of 64 bits, and only
/// that.
#[test]
fn the_scan_sees_what_stays() {
    #[inline(never)]
    fn spill<const N: usize, W: Copy + From<u32>>(text: &[u32]) -> [W; N] {
        let mut local = [W::from(0); N];
        local.iter_mut().zip(text).for_each(|(w, c)| *w = W::from(*c));
        local
    }
    let text = row(0x4E00, 40);
    let narrow = run(|| {
        black_box(spill::<40, u32>(&text));
    });
    let wide = run(|| {
        black_box(spill::<40, u64>(&text));
    });
    let none = run(|| {
        black_box(text.len());
    });
    assert_eq!(traces(&narrow, &text).in_order, 40);
    assert_eq!(traces(&wide, &text).in_order, 40);
    assert_eq!(traces(&none, &text), Traces::default());
    assert_eq!(traces(&narrow, &row(0x5E00, 40)), Traces::default());
}

#[test]
fn name() {
    keeps(&NAME);
}

#[test]
fn name_hash() {
    keeps(&NAMEHASH);
}

#[test]
fn screen_form() {
    keeps(&SCREEN);
}

#[test]
fn report_of_a_name() {
    keeps(&REPORT);
}

/// Bytes of a report that may stand together: one number of eight digits.
const DIGITS: usize = 8;

/// Of the report's bytes no two numbers in order, also where there is too little
/// room for them.
#[test]
fn digits_of_a_report() {
    let full = standin::full().words;
    let table = plain::parse(&full).expect("a table");
    for case in cases() {
        let shown = plain::report::report_by(&table, case.setting, &case.name).unwrap_or_default();
        let parts: HashSet<&[u8]> = shown.as_bytes().windows(DIGITS + 2).collect();
        for room in [REPORT_BYTES, shown.len().saturating_sub(1)] {
            let (mut out, mut work) = (vec![7; room], vec![7; WORK_WORDS]);
            let left = run(|| {
                black_box(report(&case.name, &full, case.setting, &mut out, &mut work));
            });
            let bytes: Vec<u8> = left.words.iter().flat_map(|w| w.to_le_bytes()).collect();
            assert!(!bytes.windows(DIGITS + 2).any(|w| parts.contains(w)), "{}, {room} bytes", case.what);
            let Traces { words, in_order } = traces(&left, &case.name);
            assert!(words <= REPORT.limits.words && in_order <= 1, "{}, {room} bytes", case.what);
        }
    }
}

#[test]
fn two_lists() {
    keeps(&MOVED);
    keeps(&RESPELLED);
}

/// The list of slots on a full book, of names that the table keeps, files
/// otherwise and refuses: nothing of any of them.
#[test]
fn a_full_book_listed() {
    let full = standin::full().words;
    let composed = [0x65, 0x301];
    let names: Vec<Vec<u32>> = (0..SLOTS as u32)
        .map(|i| match i % 4 {
            0 => row(0x4E00 + 100 * i, 30),
            1 => [&letters(20 + i as usize)[..], &composed].concat(),
            2 => [&row(0x440, 12)[..], &[0x450 + i / 4]].concat(),
            _ => [&row(0x3B1, 6)[..], &[0x40 + i]].concat(),
        })
        .collect();
    let area = filed(&names);
    let (mut list, mut work) = (vec![0; 2 * SLOTS], vec![0; WORK_WORDS]);
    let left = run(|| {
        let listed = moved(&area, &full, &mut list, &mut work);
        assert!(listed.number == 0 && listed.entries > 20);
    });
    assert!(left.used <= MOVED.limits.stack, "{} bytes", left.used);
    for name in &names {
        let Traces { words, in_order } = traces(&left, name);
        assert!(words <= MOVED.limits.words && in_order <= 1, "{name:X?}: {words} words, {in_order} in order");
    }
}

/// The refusals of later calls that are given after text was read: too little
/// room, a book that has one name twice, and a hash of what is no scalar value.
#[test]
fn refusals_of_later_calls() {
    let full = standin::full().words;
    let (han, confused) = (row(0x4E00, 200), [0x445, 0x430, 0x440, 0x435, 0x43E, 0x441].repeat(50));
    let bytes = utf8(&han);
    let refused = [&han[..], &[0x40]].concat();
    let mut twice = filed(&[han.clone(), letters(20), han.clone()]);
    let listed = filed(std::slice::from_ref(&refused));
    let unsound = TableBuilder {
        valid: vec![(0x4E00, 0x9FFF)],
        mapped: vec![(0x41, vec![0xD800])],
        groups: vec![(0, vec![(0x4E00, 0xD800)])],
        ..TableBuilder::default()
    };
    let (unsound, hashed) = (unsound.to_words(), [&han[..], &[0x41]].concat());
    let (mut answer, mut work) = (vec![7; WORKED], vec![7; WORK_WORDS]);
    let keeps = |what: &str, due: u32, text: &[u32], limits: Limits, call: &mut dyn FnMut() -> u32| {
        let mut number = 0;
        let left = run(|| number = black_box(call()));
        let Traces { words, in_order } = traces(&left, text);
        println!("{what} ({number}): {words} words, {in_order} in order, {} bytes", left.used);
        assert_eq!(number, due, "{what}");
        assert!(words <= limits.words && in_order <= limits.in_order && left.used <= limits.stack, "{what}");
        assert!(!bytes_stay(&left, &utf8(text)), "{what}");
    };
    keeps("moved", 33, &refused, MOVED.limits, &mut || moved(&listed, &full, &mut [7], &mut work).number);
    keeps("respelled", 33, &confused, RESPELLED.limits, &mut || respelled(&confused, &full, &mut [], &mut work).number);
    keeps("nfd", 51, &han, NFD.limits, &mut || nfd(&han, &full, &mut answer, &mut []).number);
    keeps("nfc", 51, &han, NFC.limits, &mut || nfc(&han, &full, &mut answer, &mut []).number);
    keeps("nfd", 52, &han, NFD.limits, &mut || nfd(&han, &full, &mut [7; 9], &mut work).number);
    keeps("nfc", 52, &han, NFC.limits, &mut || nfc(&han, &full, &mut [7; 9], &mut work).number);
    keeps("read", 31, &han, within(KB), &mut || engine::utf8::read(&bytes, &mut answer[..9]).number);
    keeps("write", 31, &han, within(KB), &mut || engine::utf8::write(&han, &mut [7; 9]).number);
    keeps("save", 41, &han, BOOK[0].limits, &mut || {
        let mut desk = Desk { table: &full, setting: 0, answer: &mut answer, work: &mut work };
        Book::new(&mut twice).save(&confused, ACCOUNT, &mut desk).number
    });
    keeps("moved", 41, &han, MOVED.limits, &mut || moved(&twice, &full, &mut [7; 128], &mut work).number);
    keeps("name hash", 4, &hashed, NAMEHASH.limits, &mut || {
        namehash(&hashed, &unsound, 0, &mut answer, &mut work).name.number
    });
}

/// 16, which the full-size table never gives: a list that has the first sequence
/// of a long text and lacks its last one.
#[test]
fn marks_that_a_list_lacks() {
    let all = vec![(0x4E00, 0x9FFF), (0x300, 0x36F)];
    let table = TableBuilder {
        valid: all.clone(),
        marks: vec![(0x300, 0x36F)],
        groups: vec![(6, all)],
        lists: [(0, vec![vec![0x4E00, 0x301, 0x302, 0x303]])].into(),
        ..TableBuilder::default()
    };
    let words = table.to_words();
    let name = [&[0x4E00, 0x301, 0x302, 0x303][..], &row(0x4E01, 200), &[0x9000, 0x30A, 0x30B]].concat();
    let case = Case { what: "16", name, setting: 0, room: WORKED, number: 16 };
    for call in [NAME, LABEL, NAMEHASH, SCREEN, REPORT, MOVED, RESPELLED, BYTES].iter().chain(&BOOK) {
        let mut area = area_for(call, &case.name);
        let (number, used, Traces { words, in_order }) = left_by(call, &case, &words, &mut area);
        println!("{}, 16 ({number}): {words} words, {in_order} in order, {used} bytes", call.what);
        assert_eq!(number, if call.what == MOVED.what { 0 } else { 16 }, "{}", call.what);
        let limits = call.limits;
        assert!(words <= limits.words && in_order <= limits.in_order && used <= limits.stack, "{}", call.what);
    }
}

/// Where a text has the first item of a composition pair just before the
/// codepoint that the pair becomes, as 438 439, composing has both in hand, and
/// they do not stay side by side.
#[test]
fn an_item_before_its_composition() {
    let full = standin::full().words;
    let case = |name: &[u32]| Case { what: "composed", name: name.to_vec(), setting: 0, room: WORKED, number: 0 };
    let texts: [(&[u32], [u32; 2]); 5] = [
        (&[0x43A, 0x438, 0x439], [0x438, 0x439]),
        (&[0x43A, 0x438, 0x439, 0x645], [0x438, 0x439]),
        (&[0xB2B, 0xB2D, 0xB47, 0xB4B, 0xB03, 0xB25], [0xB47, 0xB4B]),
        (&[0xCEC, 0xCA1, 0xCC6, 0xCC8, 0xCC3, 0xCCD], [0xCC6, 0xCC8]),
        (&[0x1132E, 0x1135F, 0x11347, 0x1134C, 0x11368], [0x11347, 0x1134C]),
    ];
    for call in [&NAME, &LABEL, &NAMEHASH, &SCREEN, &REPORT, &MOVED, &RESPELLED] {
        for (text, pair) in texts {
            assert!(text.windows(2).any(|w| w == pair), "{pair:X?}");
            let (number, _, all) = left_by(call, &case(text), &full, &mut area_for(call, text));
            println!("{}, {pair:X?} ({number}): {} in order", call.what, all.in_order);
            assert!(all.in_order <= 1, "{}, {pair:X?}", call.what);
        }
    }
}

/// The same of every decomposition of two items in the full-size table, its
/// first item before its head and behind it.
#[test]
fn every_item_beside_its_composition() {
    let full = standin::full().words;
    let pairs = plain::parse(&full).expect("layout").to_builder().decompositions;
    let pairs: Vec<[u32; 2]> =
        pairs.iter().filter(|(_, items)| items.len() == 2).map(|(h, items)| [items[0], *h]).collect();
    assert!(pairs.len() > 1_000);
    let most = |text: &[u32]| {
        let case = Case { what: "composed", name: text.to_vec(), setting: 0, room: WORKED, number: 0 };
        [&NAME, &LABEL].map(|call| left_by(call, &case, &full, &mut area_for(call, text)).2.in_order)
    };
    for [a, h] in pairs {
        for text in [[a, h], [h, a]] {
            assert!(most(&text).iter().all(|&n| n <= 1), "{text:X?}");
        }
    }
}

#[test]
fn name_from_bytes() {
    keeps(&BYTES);
}

#[test]
fn trim_group_and_emoji() {
    LOOKS.iter().for_each(keeps);
}

#[test]
fn label() {
    keeps(&LABEL);
}

#[test]
fn normal_forms() {
    keeps(&NFD);
    keeps(&NFC);
}

#[test]
fn book() {
    BOOK.iter().for_each(keeps);
}

/// The book on a name that is filed, and on one more where it is full: nothing
/// of the name, nor of the names that are filed.
#[test]
fn filed_names_and_a_full_book() {
    let full = standin::full().words;
    let case = |name: Vec<u32>| Case { what: "filed", name, setting: 0, room: WORKED, number: 0 };
    let payees: Vec<Case> = (0..64).map(|i| case(row(0x4E00 + 100 * i, 20))).collect();
    let mut area = vec![0; AREA];
    for payee in &payees {
        assert_eq!(left_by(&BOOK[0], payee, &full, &mut area).0, 0);
    }
    let more = case(row(0x9000, 30));
    for (call, case, due) in [
        (&BOOK[0], &more, 45),
        (&BOOK[1], &more, 44),
        (&BOOK[2], &more, 44),
        (&BOOK[0], &payees[40], 0),
        (&BOOK[1], &payees[40], 0),
        (&BOOK[2], &payees[40], 0),
    ] {
        let (number, used, Traces { words, in_order }) = left_by(call, case, &full, &mut area);
        println!("{}, {number}: {words} words, {in_order} in order, {used} bytes", call.what);
        assert_eq!(number, due, "{}", call.what);
        assert!(words <= call.limits.words && in_order <= call.limits.in_order && used <= call.limits.stack);
    }
}

/// An account goes in and comes out by value, so that its eight words stand on
/// the stack: in the frames that hand it on, and nowhere in parts.
#[test]
fn accounts() {
    let (mut area, mut answer, mut work) = (vec![0; AREA], [0; 64], [0; WORK_WORDS]);
    let full = standin::full().words;
    let name = letters(20);
    let mut copies = |what, call: fn(&mut Book, &[u32], &mut Desk) -> u32| {
        let left = run(|| {
            let mut desk = Desk { table: &full, setting: 0, answer: &mut answer, work: &mut work };
            assert_eq!(call(&mut Book::new(&mut area), &name, &mut desk), 0, "{what}");
        });
        let traces = traces(&left, &ACCOUNT.words);
        println!("{what}: {} words of the account, {} in order, {} bytes", traces.words, traces.in_order, left.used);
        traces.words / 8
    };
    let saved = copies("save", |book, name, desk| book.save(name, ACCOUNT, desk).number);
    let found = copies("find", |book, name, desk| book.find(name, desk).number);
    let forgotten = copies("forget", |book, name, desk| book.forget(name, desk).number);
    assert!(saved <= ACCOUNT_COPIES && found <= ACCOUNT_COPIES && forgotten == 0, "{saved}, {found}, {forgotten}");
}

#[test]
fn soundness() {
    assert!(soundness_stack() <= SOUNDNESS);
}

#[test]
fn unpacking() {
    let file = plain::pack(&standin::names().words);
    let mut words = vec![0; 10_000];
    let left = run(|| {
        black_box(engine::unpack(&file, &mut words));
    });
    println!("unpack: {} bytes of stack", left.used);
    assert!(left.used <= PASS);
}

#[test]
fn layout_alone() {
    for table in [standin::full().words, worst::chains(1).to_words(), worst::wide_whole().to_words(), vec![]] {
        let left = run(|| {
            black_box(engine::layout_fault(&table));
        });
        println!("layout fault, {} words: {} bytes of stack", table.len(), left.used);
        assert!(left.used <= LAYOUT);
    }
}

/// A reset of a full book: nothing of a name that was filed, nor of its account.
#[test]
fn reset() {
    // Above what the halves of an address are.
    let names: Vec<Vec<u32>> = (0..SLOTS as u32).map(|i| row(0x2_1000 + 100 * i, 30)).collect();
    let mut area = filed(&names);
    area[FRONT + SLOT - 8..FRONT + SLOT].copy_from_slice(&ACCOUNT.words);
    let (mut answer, mut work) = (vec![7; WORKED], vec![7; WORK_WORDS]);
    let left = run(|| assert_eq!(Book::new(&mut area).reset(&mut answer, &mut work).number, 0));
    println!("reset: {} bytes of stack", left.used);
    assert!(left.used <= PASS && area[FRONT..].iter().all(|&w| w == 0));
    for text in names.iter().map(|name| &name[..]).chain([&ACCOUNT.words[..]]) {
        assert_eq!(traces(&left, text), Traces::default());
    }
}

/// The longest stretch of these bytes that stands there in order.
fn bytes_in_order(left: &Left, bytes: &[u8]) -> usize {
    let all: Vec<u8> = left.words.iter().flat_map(|w| w.to_le_bytes()).collect();
    let same = |at: usize, from: usize| all[at..].iter().zip(&bytes[from..]).take_while(|(a, b)| a == b).count();
    let longest_at = |at| (0..bytes.len()).map(|from| same(at, from)).max();
    (0..all.len()).filter_map(longest_at).max().unwrap_or(0)
}

/// The state goes by value, so that a message shorter than a block stays; of a
/// longer one the first block is permuted, and nothing does.
#[test]
fn hashing() {
    let mut rng = gen::Rng::new(41);
    let message: Vec<u8> = (0..1_000).map(|_| rng.below(256) as u8).collect();
    for length in [0, 8, 100, 135, 136, 137, 300, 1_000] {
        let part = &message[..length];
        let whole = run(|| {
            black_box(engine::keccak::keccak256(part));
        });
        let pieces = run(|| {
            black_box(engine::keccak::Sponge::new().absorb(part).absorb(part).digest());
        });
        for (what, left) in [("keccak256", whole), ("in pieces", pieces)] {
            let stay = bytes_in_order(&left, part);
            println!("{what}, {length} bytes: {} bytes of stack, {stay} of the message in order", left.used);
            assert!(left.used <= KECCAK && (length < BLOCK || stay <= LANE), "{what}, {length} bytes");
        }
    }
}
