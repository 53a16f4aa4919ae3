//! The call that says which emoji it was, beside the plain version: 200,000
//! random parts, half of them by tables whose sequences are made of few
//! codepoints, so that ties, FE0F alone and two FE0F together are met.

use engine::emoji::{emoji, Emoji};
use gen::Rng;
use plain::{Index, TableBuilder};

/// What the call has to answer, by the plain version.
fn expected(part: &[u32], words: &[u32]) -> Emoji {
    let none = Emoji { number: 0, found: 0, taken: 0, index: 0, selectors: 0 };
    let Some(table) = plain::parse(words) else {
        return Emoji { number: 1, ..none };
    };
    match plain::emoji::emoji(&Index::new(&table), part) {
        None => none,
        Some(e) => Emoji { number: 0, found: 1, taken: e.taken, index: e.record, selectors: e.selectors },
    }
}

const FEW: [u32; 6] = [0xFE0F, 0xFE0F, 0x2764, 0x200D, 0x1F600, 0x61];

fn few(rng: &mut Rng, most: usize) -> Vec<u32> {
    (0..rng.between(1, most)).map(|_| *rng.pick(&FEW)).collect()
}

/// Sequences of few codepoints: FE0F only, two FE0F together, none, and ties.
fn close_table(rng: &mut Rng) -> TableBuilder {
    TableBuilder { emoji: (0..rng.between(1, 12)).map(|_| few(rng, 5)).collect(), ..TableBuilder::default() }
}

/// A sequence of the table with FE0F put in and left out, and something behind it.
fn part(rng: &mut Rng, b: &TableBuilder) -> Vec<u32> {
    let mut out = Vec::new();
    if !b.emoji.is_empty() {
        for &c in rng.pick(&b.emoji) {
            if c != 0xFE0F || rng.percent(50) {
                out.push(c);
            }
            if rng.percent(20) {
                out.push(0xFE0F);
            }
        }
    }
    if rng.percent(30) {
        out.extend(few(rng, 4));
    }
    if rng.percent(5) {
        out.push(0x2E);
    }
    out
}

/// Of how many parts each kind was met.
#[derive(Debug, Default)]
struct Seen {
    faults: u64,
    nothing: u64,
    plain: u64,
    one: u64,
    more: u64,
    ties: u64,
}

#[test]
fn random_parts_as_the_plain_version() {
    let mut rng = Rng::new(0x656D_6F6A_69);
    let mut seen = Seen::default();
    for turn in 0..2_000 {
        let (words, builder) = if turn % 2 == 0 {
            let b = close_table(&mut rng);
            (b.to_words(), b)
        } else {
            let made = gen::table(&mut rng);
            (made.words, made.builder)
        };
        for _ in 0..100 {
            let part = part(&mut rng, &builder);
            let due = expected(&part, &words);
            assert_eq!(emoji(&part, &words), due, "{part:X?} by {:X?}", builder.emoji);
            let tie =
                builder.emoji.iter().filter(|s| plain::tokens::match_emoji(s, &part) == Some(due.taken)).count() > 1;
            match due {
                Emoji { number: 1, .. } => seen.faults += 1,
                Emoji { found: 0, .. } => seen.nothing += 1,
                Emoji { selectors: 0, .. } => seen.plain += 1,
                Emoji { selectors: 1, .. } => seen.one += 1,
                _ => seen.more += 1,
            }
            seen.ties += u64::from(due.found == 1 && tie);
        }
    }
    println!("{seen:?}");
    for count in [seen.faults, seen.nothing, seen.plain, seen.one, seen.more, seen.ties] {
        assert!(count > 1_000, "{seen:?}");
    }
}

#[test]
fn an_empty_part_and_an_empty_table() {
    let words = TableBuilder::default().to_words();
    for part in [&[][..], &[0xFE0F], &[0x2764, 0xFE0F]] {
        assert_eq!(emoji(part, &words), Emoji { number: 0, found: 0, taken: 0, index: 0, selectors: 0 });
        assert_eq!(emoji(part, &[]), Emoji { number: 1, found: 0, taken: 0, index: 0, selectors: 0 });
    }
}
