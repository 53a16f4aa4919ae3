//! The calls on text, held against the plain version.

use gen::{Rng, Vocabulary};
use plain::limits;
use plain::namehash::namehash_with;
use wanlopheng::{Buffers, Form, Kind, Refusal, Table};

/// The small table of the cases, lent for one job.
fn by_small_table<R>(job: impl FnOnce(Table) -> R) -> R {
    job(Table::new(&gen::small_table().to_words()))
}

#[test]
fn limits_are_those_of_the_calls() {
    assert_eq!(wanlopheng::limits::INPUT, limits::INPUT);
    assert_eq!(wanlopheng::limits::ANSWER_WORDS, limits::WORKED);
    assert_eq!(wanlopheng::limits::SCREEN_WORDS, limits::SCREEN);
    assert_eq!(wanlopheng::limits::WORK_WORDS, limits::WORK_WORDS);
    assert_eq!(wanlopheng::limits::TABLE_WORDS, limits::TABLE_WORDS);
    assert_eq!(wanlopheng::limits::MOVED_WORDS, 2 * plain::book::SLOTS);
    assert_eq!(wanlopheng::limits::GROUPS, limits::GROUPS);
    assert_eq!(wanlopheng::limits::REPORT_BYTES, limits::REPORT);
}

#[test]
fn reports() {
    by_small_table(|table| {
        assert_eq!(table.report("").as_deref(), Ok(""));
        assert_eq!(table.report("Ab.\u{1F4A9}").as_deref(), Ok("text 0 2 61 62\nemoji 3 4 1F4A9\n"));
        assert_eq!(table.report("a..b"), Err(Refusal::new(6, 1)));
        let (mut out, mut work) = ([7; 8], [7; limits::WORK_WORDS]);
        assert_eq!(table.report_with(0, &[0x61], &mut out, &mut work), Err(Refusal::new(32, 0)));
        assert_eq!((out, work[0]), ([0; 8], 0));
    });
}

#[test]
fn names_and_labels() {
    by_small_table(|table| {
        assert_eq!(table.normalise("").as_deref(), Ok(""));
        assert_eq!(table.normalise("Ab.CD").as_deref(), Ok("ab.cd"));
        assert_eq!(table.normalise("a..b"), Err(Refusal::new(6, 1)));
        assert_eq!(table.normalise("ab!"), Err(Refusal::new(5, 2)));
        assert_eq!(table.namehash("AB"), Ok(plain::namehash::node(&["ab".to_string()])));
        assert_eq!(table.namehash(""), Ok([0; 32]));
        assert_eq!(table.namehash("a..b"), Err(Refusal::new(6, 1)));
        assert_eq!(table.kind("AB"), Ok(Kind::Ascii));
        assert_eq!(table.kind("\u{1F4A9}"), Ok(Kind::Emoji));
        assert_eq!(table.kind("\u{1318F}"), Ok(Kind::Group { number: gen::small::EGYPTIAN, restricted: true }));
        assert_eq!(table.kind("a.b"), Err(Refusal::new(5, 1)));
    });
    assert_eq!(Table::new(&[]).normalise("a"), Err(Refusal::new(1, 0)));
}

#[test]
fn screen_forms() {
    let words = gen::screens::xi_table().to_words();
    let (table, greek) = (Table::new(&words), gen::small::GREEK as u32);
    assert_eq!(table.screen(greek, "").as_deref(), Ok(""));
    assert_eq!(table.screen(greek, "\u{2010}\u{39E}1\u{FE0F}\u{20E3}").as_deref(), Ok("-\u{39E}1\u{FE0F}\u{20E3}"));
    assert_eq!(table.screen(greek, "αξ.aξ").as_deref(), Ok("αξ.aΞ"));
    assert_eq!(table.screen(u32::MAX, "αξ.aξ").as_deref(), Ok("αΞ.aΞ"));
    assert_eq!(table.screen(greek, "a..b"), Err(Refusal::new(6, 1)));
    let (mut buffers, mut answer) = (Buffers::new(), [7; 4]);
    let form = buffers.screen(table, greek, "A\u{2764}", &mut answer).expect("accepted");
    assert_eq!((form.codepoints(), form.labels()), (&[0x61, 0x2764, 0xFE0F][..], 1));
    assert_eq!(answer, [0x61, 0x2764, 0xFE0F, 0]);
    assert_eq!(buffers.screen(table, greek, "A\u{2764}", &mut answer[..2]), Err(Refusal::new(15, 0)));
    // By any table there is room.
    let (long, names) = gen::screens::long_screens();
    let words = long.to_words();
    for (name, length) in names {
        let form = Table::new(&words).screen(greek, &text(&name).expect("text"));
        assert_eq!(form.map(|form| form.chars().count()), Ok(length));
    }
}

#[test]
fn a_name_at_the_limit_and_one_past_it() {
    by_small_table(|table| {
        let ignored = |count: usize| format!("a{}", "\u{FE0E}".repeat(count));
        assert_eq!(table.normalise(&ignored(limits::INPUT - 1)).as_deref(), Ok("a"));
        for more in [0, 1, 5_000] {
            assert_eq!(table.normalise(&ignored(limits::INPUT + more)), Err(Refusal::new(3, 0)));
        }
    });
}

/// The text of these codepoints, where they are scalar values.
fn text(codepoints: &[u32]) -> Option<String> {
    codepoints.iter().map(|&c| char::from_u32(c)).collect()
}

#[test]
fn random_names_as_the_plain_version() {
    let (mut buffers, mut accepted, mut refused) = (Buffers::new(), 0, 0);
    for seed in 0..60 {
        let mut rng = Rng::new(seed);
        let made = gen::table(&mut rng);
        let vocabulary = Vocabulary::new(&mut rng, &made.builder);
        for _ in 0..40 {
            let Some(name) = text(&vocabulary.name(&mut rng)) else { continue };
            let codepoints: Vec<u32> = name.chars().map(u32::from).collect();
            let (mut answer, mut work) = ([7; limits::WORKED], [7; limits::WORK_WORDS]);
            let due = plain::name(&codepoints, &made.words, &mut answer, &mut work);
            let given = buffers.name(Table::new(&made.words), &name);
            let shape = |f: Form| (f.codepoints().to_vec(), f.labels());
            assert_eq!(given.map(shape), due.map(|n| (answer[..n.length].to_vec(), n.labels)), "{name:?}");
            let (due, node) = namehash_with(&codepoints, &made.words, 0, &mut answer, &mut work);
            let given = buffers.namehash(Table::new(&made.words), &name);
            let shape = |(f, node): (Form, [u8; 32])| (f.codepoints().to_vec(), f.labels(), node);
            assert_eq!(given.map(shape), due.map(|n| (answer[..n.length].to_vec(), n.labels, node)), "{name:?}");
            let due = plain::label(&codepoints, &made.words, &mut answer, &mut work);
            let given = buffers.label(Table::new(&made.words), &name);
            let shape = |(f, kind): (Form, Kind)| (f.codepoints().to_vec(), kind);
            assert_eq!(given.map(shape), due.map(|l| (answer[..l.length].to_vec(), l.kind)), "{name:?}");
            *(if due.is_ok() { &mut accepted } else { &mut refused }) += 1;
        }
    }
    assert!(accepted > 300 && refused > 300, "{accepted} accepted, {refused} refused");
}
