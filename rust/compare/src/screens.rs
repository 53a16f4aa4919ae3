//! The screen form (02, Item 1) by two versions of the call: answers and every
//! word of both buffers, on tables and names that reach it.

use crate::harness::{hex, say};
use crate::tally::Tally;
use gen::{Rng, Vocabulary};
use plain::label::Finished;
use plain::limits::{WORKED, WORK_WORDS};
use plain::screen::{is_greek, screen_by, CAPITAL_XI, XI};
use plain::tokens::strip;
use plain::{judge_name_with, parse, tokens, Index, Kind, LabelForm, Lookup, Name, Refusal, Table, Token, FE0F, STOP};
use std::fmt;

/// What a call is handed beside the buffers.
#[derive(Clone, Copy, Debug)]
pub struct Asked<'a> {
    pub name: &'a [u32],
    pub table: &'a [u32],
    pub greek: u32,
    pub setting: u32,
}

/// A version of the call, with its answer buffer and work area.
pub type Screen<'a> = &'a dyn Fn(&Asked, &mut [u32], &mut [u32]) -> Result<Name, Refusal>;

/// The plain version.
pub fn plainly(asked: &Asked, answer: &mut [u32], work: &mut [u32]) -> Result<Name, Refusal> {
    plain::screen(asked.name, asked.table, asked.greek, asked.setting, answer, work)
}

/// The plain rules over the index of a table.
pub fn indexed(asked: &Asked, answer: &mut [u32], work: &mut [u32]) -> Result<Name, Refusal> {
    let judged = plain::calls::check_room(asked.table, work)
        .and_then(|t| screen_by(&Index::new(&t), asked.greek, asked.setting, asked.name));
    plain::calls::settle(judged, answer, work).map(|(length, labels)| Name { length, labels })
}

/// What the calls met.
#[derive(Clone, Debug, Default, PartialEq, Eq)]
pub struct Met {
    pub calls: u64,
    pub accepted: u64,
    pub refused: Tally,
    /// Names with 3BE in text that is shown as 39E; and that stays.
    pub capital: u64,
    pub greek: u64,
    /// Names with 3BE in an emoji.
    pub in_emoji: u64,
    /// Names to which FE0F are put back.
    pub styled: u64,
    /// Names with an emoji whose record has an equal, stripped, but for its FE0F.
    pub equals: u64,
    /// Names with an empty emoji.
    pub empty: u64,
    /// Refusals 15 where there is room for the normal form.
    pub screen_alone: u64,
    /// Accepted with the Greek group 0, the last, one beyond, FFFFFFFF.
    pub numbers: [u64; 4],
    pub differences: u64,
}

impl fmt::Display for Met {
    fn fmt(&self, f: &mut fmt::Formatter) -> fmt::Result {
        let Met { calls, accepted, refused, capital, greek, in_emoji, styled, equals, empty, screen_alone, .. } = self;
        writeln!(f, "screen: calls {calls}, accepted {accepted}; refused{refused}, as 15 alone {screen_alone}")?;
        writeln!(f, "3BE: shown as 39E {capital}, Greek {greek}, in emoji {in_emoji}; by number {:?}", self.numbers)?;
        write!(f, "emoji: styled {styled}, with equals {equals}, empty {empty}; differences {}", self.differences)
    }
}

impl Met {
    /// What was reached too seldom.
    pub fn missing(&self) -> Vec<String> {
        let mut asked: Vec<(String, u64, u64)> =
            (1..=17).map(|n| (format!("refusal {n}"), self.refused.of(n), 500)).collect();
        let counts = [
            ("accepted", self.accepted, 25_000),
            ("39E", self.capital, 2_000),
            ("Greek", self.greek, 1_000),
            ("3BE in emoji", self.in_emoji, 500),
            ("styled", self.styled, 5_000),
            ("equals", self.equals, 2_000),
            ("empty", self.empty, 500),
            ("15 of the screen form alone", self.screen_alone, 500),
        ];
        asked.extend(counts.map(|(what, count, least)| (what.to_string(), count, least)));
        asked.extend(self.numbers.map(|count| ("a number of the Greek group".to_string(), count, 2_000)));
        let seldom = asked.into_iter().filter(|(_, count, least)| count < least);
        seldom.map(|(what, count, least)| format!("{what}: {count}, due {least}")).collect()
    }

    fn add(&mut self, asked: &Asked, table: Option<&Table>, given: &Result<Name, Refusal>, room: usize) {
        self.calls += 1;
        let forms = table.and_then(|t| judge_name_with(t, asked.setting, asked.name).ok());
        match given {
            Err(refusal) => {
                self.refused.add(refusal.number);
                let fits = |forms: &Vec<LabelForm>| plain::calls::join_labels(forms).len() <= room;
                self.screen_alone += u64::from(refusal.number == 15 && forms.as_ref().is_some_and(fits));
            }
            Ok(_) => {
                self.accepted += 1;
                if let (Some(table), Some(forms)) = (table, forms) {
                    self.count(asked, table, &forms);
                }
            }
        }
    }

    fn count(&mut self, asked: &Asked, table: &Table, forms: &[LabelForm]) {
        let groups = table.group_count() as u64;
        for (count, number) in self.numbers.iter_mut().zip([Some(0), groups.checked_sub(1), Some(groups)]) {
            *count += u64::from(number == Some(u64::from(asked.greek)));
        }
        self.numbers[3] += u64::from(asked.greek == u32::MAX);
        let text = |f: &LabelForm| f.tokens.iter().any(|t| matches!(t, Finished::Text(text) if text.contains(&XI)));
        self.capital += u64::from(forms.iter().any(|f| text(f) && !is_greek(f.kind, asked.greek)));
        self.greek += u64::from(forms.iter().any(|f| text(f) && is_greek(f.kind, asked.greek)));
        let walked = asked.name.split(|&c| c == STOP).flat_map(|label| tokens(table, label).unwrap_or_default());
        let sequences: Vec<&[u32]> = walked
            .filter_map(|token| match token {
                Token::Emoji { record, .. } => Some(table.emoji[record]),
                Token::Text(_) => None,
            })
            .collect();
        let any = |of: &dyn Fn(&[u32]) -> bool| u64::from(sequences.iter().any(|s| of(s)));
        self.in_emoji += any(&|s| s.contains(&XI));
        self.styled += any(&|s| s.contains(&FE0F));
        self.empty += any(&|s| strip(s).is_empty());
        self.equals += any(&|s| table.emoji.iter().any(|other| *other != s && strip(other) == strip(s)));
    }
}

/// Marks, none of them 0.
fn marks(size: usize, salt: u32) -> Vec<u32> {
    (0..size as u32).map(|i| 0xB700_0001 ^ (salt << 12) ^ i.wrapping_mul(0x0101_0101) | 1).collect()
}

/// One call by both, each with its own marks in the buffers: the first one's
/// answer with the words of its answer buffer, and whether all is equal.
pub fn both(a: Screen, b: Screen, asked: &Asked, room: usize, work: usize) -> (Result<Name, Refusal>, Vec<u32>, bool) {
    let run = |call: Screen, salt: u32| {
        let (mut answer, mut area) = (marks(room, salt), marks(work, salt + 4));
        let given = call(asked, &mut answer, &mut area);
        (given, answer, area)
    };
    let (x, y) = (run(a, 1), run(b, 2));
    let equal = x == y;
    (x.0, x.1, equal)
}

/// Much room, little, just enough for the screen form or for the normal form, or
/// one word less.
fn room(rng: &mut Rng, asked: &Asked, table: Option<&Table>) -> usize {
    let screen =
        || table.and_then(|t| screen_by(t, asked.greek, asked.setting, asked.name).ok()).map_or(0, |s| s.0.len());
    let normal = || {
        let forms = table.and_then(|t| judge_name_with(t, asked.setting, asked.name).ok());
        forms.map_or(0, |forms| plain::calls::join_labels(&forms).len())
    };
    match rng.below(20) {
        0 => rng.below(8),
        1 => screen().saturating_sub(1),
        2 => screen(),
        3 => normal(),
        4 => normal() + rng.below(3),
        5 => rng.between(WORKED, 2 * WORKED),
        _ => screen() + rng.below(20),
    }
}

/// Runs both over the same tables and names: what the first one met, and some
/// differences, each with its seed.
pub fn compare_screens(a: Screen, b: Screen, first_seed: u64, tables: u64, names: usize) -> (Met, Vec<String>) {
    let (mut met, mut differences) = (Met::default(), Vec::new());
    for seed in first_seed..first_seed + tables {
        let mut rng = Rng::new(seed);
        let made = gen::screens::table(&mut rng);
        let table = parse(&made.words);
        let vocabulary = Vocabulary::new(&mut rng, &made.builder);
        for _ in 0..names {
            let name = gen::screens::name(&mut rng, &vocabulary);
            let greek = gen::screens::greek(&mut rng, made.builder.groups.len());
            let asked = Asked { name: &name, table: &made.words, greek, setting: [0, 0, 1, 7][rng.below(4)] };
            let room = room(&mut rng, &asked, table.as_ref());
            let work = if rng.percent(2) { rng.below(WORK_WORDS) } else { WORK_WORDS + rng.below(9) };
            let (given, _, equal) = both(a, b, &asked, room, work);
            met.add(&asked, table.as_ref(), &given, room);
            if !equal {
                met.differences += 1;
                if differences.len() < 5 {
                    let [name, table] = [&name, &made.words].map(|words| hex(words));
                    differences.push(format!(
                        "seed {seed}: {given:?}, Greek {greek}, room {room}, name {name}\n  table {table}"
                    ));
                }
            }
        }
    }
    (met, differences)
}

/// The whole comparison: everything is reached often, and nothing differs.
pub fn check_screens(a: Screen, b: Screen, first_seed: u64) {
    let (met, differences) = compare_screens(a, b, first_seed, 1_600, 100);
    say(&met);
    assert_eq!(met.differences, 0, "{}", differences.join("\n"));
    assert_eq!(met.missing(), Vec::<String>::new());
}

#[derive(Clone, Debug, Default)]
pub struct BackCounts {
    pub accepted: u64,
    /// Names whose screen form is another than the normal form.
    pub changed: u64,
    pub capital: u64,
}

impl fmt::Display for BackCounts {
    fn fmt(&self, f: &mut fmt::Formatter) -> fmt::Result {
        let BackCounts { accepted, changed, capital } = self;
        write!(f, "screen forms that come back: {accepted}, not the normal form {changed}, with 39E {capital}")
    }
}

/// A call of the name, with enough room: its normal form, and the kinds of its
/// labels.
pub type Normal<'a> = &'a dyn Fn(&[u32], &[u32], u32) -> Result<(Vec<u32>, Vec<Kind>), Refusal>;

/// The wanted theorem on random tables that it speaks of: the screen form of an
/// accepted name, normalised with the same setting, gives its normal form, with
/// the same kinds.
pub fn check_coming_back(screen: Screen, normal: Normal, first_seed: u64, tables: u64) {
    let mut counts = BackCounts::default();
    for seed in first_seed..first_seed + tables {
        let mut rng = Rng::new(seed);
        let builder = gen::screens::suited_table(&mut rng);
        let words = builder.to_words();
        let table = parse(&words).expect("a table");
        let index = Index::new(&table);
        let vocabulary = Vocabulary::new(&mut rng, &builder);
        for _ in 0..100 {
            let name = gen::screens::name(&mut rng, &vocabulary);
            let greek = gen::screens::greek(&mut rng, builder.groups.len());
            let setting = [0, 0, 1, 7][rng.below(4)];
            let Some(back) = plain::screen::comes_back(&index, greek, setting, &name) else { continue };
            let at = || format!("seed {seed}, Greek {greek}, setting {setting}, name {}", hex(&name));
            assert!(back, "{}", at());
            let asked = Asked { name: &name, table: &words, greek, setting };
            let (mut answer, mut work) = (vec![7; plain::limits::SCREEN], vec![7; WORK_WORDS]);
            let shown = screen(&asked, &mut answer, &mut work).expect("by a sound table there is room");
            let (form, kinds) = normal(&name, &words, setting).expect("it was accepted");
            let again = normal(&answer[..shown.length], &words, setting);
            counts.changed += u64::from(form != answer[..shown.length]);
            assert_eq!(again, Ok((form, kinds)), "{}", at());
            counts.accepted += 1;
            counts.capital += u64::from(answer.contains(&CAPITAL_XI));
        }
    }
    say(&counts);
    assert!(counts.accepted >= 20 * tables && counts.changed >= 5 * tables && counts.capital >= tables, "{counts}");
}

/// The normal form by the plain version, with the kinds.
pub fn plain_normal(name: &[u32], table: &[u32], setting: u32) -> Result<(Vec<u32>, Vec<Kind>), Refusal> {
    let (mut answer, mut work) = (vec![7; WORKED], vec![7; WORK_WORDS]);
    let given = plain::name_with(name, table, setting, &mut answer, &mut work)?;
    answer.truncate(given.length);
    let forms = judge_name_with(&parse(table).expect("a table"), setting, name)?;
    Ok((answer, forms.iter().map(|form| form.kind).collect()))
}
