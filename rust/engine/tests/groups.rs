//! The search for the group of a text, held against the plain version on
//! random tables and texts.

use answers::Refusal;
use engine::group;
use gen::Rng;
use plain::TableBuilder;

/// A character that some group holds, mostly of the group `of`, or any word.
fn character(rng: &mut Rng, b: &TableBuilder, of: usize) -> u32 {
    if b.groups.is_empty() || rng.percent(2) {
        return rng.word();
    }
    let number = if rng.percent(95) { of } else { rng.below(b.groups.len()) };
    match b.groups[number].1.as_slice() {
        [] => rng.word(),
        pairs => {
            let &(first, last) = rng.pick(pairs);
            first.wrapping_add(rng.word() % last.saturating_sub(first).saturating_add(1))
        }
    }
}

fn text(rng: &mut Rng, b: &TableBuilder) -> Vec<u32> {
    let length = match rng.below(100) {
        0..=4 => 0,
        5..=94 => rng.between(1, 12),
        95..=97 => rng.between(13, 200),
        98 => plain::limits::INPUT,
        _ => plain::limits::INPUT + rng.between(1, 3),
    };
    let of = rng.below(b.groups.len().max(1));
    (0..length).map(|_| character(rng, b, of)).collect()
}

#[test]
fn random_texts_and_tables() {
    let (mut first, mut later, mut none, mut refused) = (0, 0, 0, [0; 4]);
    for seed in 1..=1_000 {
        let mut rng = Rng::new(seed);
        let made = gen::table(&mut rng);
        for _ in 0..100 {
            let text = text(&mut rng, &made.builder);
            let answer = group(&text, &made.words).answer();
            assert_eq!(answer, plain::groups::group(&text, &made.words), "seed {seed}, text {text:X?}");
            match answer.map(|s| s.group) {
                Ok(Some(g)) if g.number == 0 => first += 1,
                Ok(Some(_)) => later += 1,
                Ok(None) => none += 1,
                Err(r) => refused[r.number as usize] += 1,
            }
        }
    }
    assert!(
        first > 1_000 && later > 1_000 && none > 1_000,
        "{first} held by the first, {later} by a later one, {none} by none"
    );
    assert!(refused[1] > 500 && refused[3] > 500, "{refused:?}");
}

/// Groups of 61 to 64, of 61 to 66 and of 65 to 66, counted by hand.
#[test]
fn questions_counted_by_hand() {
    let builder = TableBuilder {
        groups: vec![(1, vec![(0x61, 0x64)]), (2, vec![(0x61, 0x66)]), (3, vec![(0x65, 0x66)])],
        ..TableBuilder::default()
    };
    let words = builder.to_words();
    let ask = |text: &[u32]| {
        let s = group(text, &words).answer().expect("a search");
        (s.group.map(|g| (g.number, g.restricted, g.whitelisted)), s.asked)
    };
    assert_eq!(ask(&[]), (Some((0, true, false)), 0));
    assert_eq!(ask(&[0x61, 0x62]), (Some((0, true, false)), 2));
    assert_eq!(ask(&[0x61, 0x65, 0x62]), (Some((1, false, true)), 2 + 3));
    assert_eq!(ask(&[0x65, 0x61]), (Some((1, false, true)), 1 + 2));
    assert_eq!(ask(&[0x65, 0x67, 0x61]), (None, 1 + 2 + 2));
    assert_eq!(ask(&[0x61; plain::limits::INPUT]), (Some((0, true, false)), plain::limits::INPUT));
    let long = [0x61; plain::limits::INPUT + 1];
    assert_eq!(group(&long, &words).answer(), Err(Refusal::new(3, 0)));
    assert_eq!(group(&long, &words[1..]).answer(), Err(Refusal::new(1, 0)));
}
