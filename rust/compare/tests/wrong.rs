//! Wrong engines: the comparison finds each of them different.

use compare::screens::{both, compare_screens, plainly, Asked};
use compare::{compare, compare_over, say, Engine, Plain, Report, Settings};
use plain::label::{self, Finished};
use plain::limits::{INPUT, WORKED, WORK_WORDS};
use plain::soundness::LAST_RULE;
use plain::text::{compose, four_rounds, order};
use plain::tokens::strip;
use plain::*;
use std::collections::{BTreeSet, HashSet};
use std::ops::RangeInclusive;

/// Declares an enum of engines, right ones and wrong ones, and the list of
/// those that are wrong.
macro_rules! wrongs {
    ($name:ident, $list:ident; $($right:ident,)*; $($wrong:ident,)*) => {
        #[derive(Clone, Copy, Debug, PartialEq, Eq, PartialOrd)]
        enum $name {
            $($right,)*
            $($wrong,)*
        }
        const $list: &[$name] = &[$($name::$wrong),*];
    };
}

wrongs! {
    Wrong, WRONGS;
    // The second is the look-alike test in the source document's own steps.
    Nothing, AsTheSource,;
    // Errors met in the field.
    ComposesWholeLabel,
    IgnoresFe0fFirst,
    MapsTwice,
    MapsBeforeValid,
    StopsAtFirstConfused,
    LeavesOldTail,
    // Others.
    FifteenEarly,
    NsmPerToken,
    NsmUnordered,
    LeavesWorkArea,
    WorkedLengthOffByOne,
    ForgetsStopsInWorkedLength,
    LabelNumberOffByOne,
    PlaceInLabel,
    SevenBeforeFive,
    ValidListConfuses,
    ExtentOfOneHop,
    CountsLabelsOfAnswer,
    LastGroup,
    FirstMatch,
    FiveRounds,
    EightOverText,
    // Of a group's list.
    ShorterForLonger,
    ListOfDecomposed,
    SixteenBeforeTwelve,
    SixteenAfterFourteen,
    OneMarkNotAsked,
    EmptyListNotAsked,
    LastRecordNotAsked,
    TriesLaterGroups,
    ThirteenBesideSixteen,
    ListOfNsm,
    ListItemsHeld,
    RefusesEverything,
    CopiesItsInput,
    DoesNothing,
}
use Wrong::*;

/// Those of a group's list, which few tables have.
const OF_LISTS: RangeInclusive<Wrong> = ShorterForLonger..=ListItemsHeld;

/// The rules of one label put together anew from the parts of the plain
/// version, with one thing wrong.
struct Assembled(Wrong);

fn refuse<T>(number: u32, place: usize) -> Result<T, Refusal> {
    Err(Refusal::new(number, place))
}

struct Form {
    answer: Vec<u32>,
    kind: Kind,
    worked: usize,
}

impl Assembled {
    fn is(&self, wrong: Wrong) -> bool {
        self.0 == wrong
    }

    fn walk(&self, t: &Table, input: &[u32]) -> Result<Vec<Token>, usize> {
        let mut tokens = Vec::new();
        let mut text = Vec::new();
        let mut at = 0;
        while at < input.len() {
            let mut found = t.find_emoji(&input[at..]);
            if self.is(FirstMatch) {
                let matches = |s: &&[u32]| plain::tokens::match_emoji(s, &input[at..]).filter(|&n| n > 0);
                found = t.emoji.iter().enumerate().find_map(|(i, s)| matches(s).map(|n| (i, n)));
            }
            if let Some((record, taken)) = found {
                if !text.is_empty() {
                    tokens.push(Token::Text(std::mem::take(&mut text)));
                }
                tokens.push(Token::Emoji { record, taken });
                at += taken;
                continue;
            }
            let c = input[at];
            if t.is_valid(c) && !(self.is(MapsBeforeValid) && t.mapping(c).is_some()) {
                text.push(c);
            } else if let Some(items) = t.mapping(c) {
                for &item in items {
                    match t.mapping(item) {
                        Some(again) if self.is(MapsTwice) => text.extend(again),
                        _ => text.push(item),
                    }
                }
            } else if !t.is_ignored(c) {
                return Err(at);
            }
            at += 1;
        }
        if !text.is_empty() {
            tokens.push(Token::Text(text));
        }
        Ok(tokens)
    }

    fn decompose(&self, t: &Table, text: &[u32]) -> Vec<u32> {
        let four = four_rounds(t, text);
        if self.is(FiveRounds) {
            return plain::text::one_round(t, &four);
        }
        four
    }

    /// The place is, for 5, the index in the label.
    fn judge(&self, t: &Table, input: &[u32], before: usize) -> Result<Form, Refusal> {
        let limit = if self.is(WorkedLengthOffByOne) { WORKED + 1 } else { WORKED };
        if self.is(SevenBeforeFive) && input.len() > 2 * limit {
            return refuse(7, 0);
        }
        let walked = self.walk(t, input).map_err(|index| Refusal::new(5, index))?;
        if walked.is_empty() {
            return refuse(6, 0);
        }
        let mut worked = 0;
        let mut tokens = Vec::new();
        for token in &walked {
            match token {
                Token::Emoji { record, .. } => {
                    let emoji = strip(t.emoji[*record]);
                    worked += emoji.len();
                    tokens.push(Finished::Emoji(emoji));
                }
                Token::Text(text) => {
                    let mut decomposed = self.decompose(t, text);
                    worked += decomposed.len();
                    order(t, &mut decomposed);
                    tokens.push(Finished::Text(compose(t, &decomposed)));
                }
            }
            if before + worked > limit {
                return refuse(7, 0);
            }
        }
        if self.is(ComposesWholeLabel) {
            let all = plain::nfc(t, &label::joined_text(&tokens));
            if tokens.iter().any(|t| matches!(t, Finished::Emoji(_))) && all != label::joined_text(&tokens) {
                tokens = vec![Finished::Text(all)];
            }
        }
        let kind = self.kind(t, &tokens).map_err(|number| Refusal::new(number, 0))?;
        Ok(Form { answer: label::joined(&tokens), kind, worked })
    }

    fn kind(&self, t: &Table, tokens: &[Finished]) -> Result<Kind, u32> {
        if tokens.iter().all(|token| matches!(token, Finished::Emoji(_))) {
            return Ok(Kind::Emoji);
        }
        let text = label::joined_text(tokens);
        let all = label::joined(tokens);
        if label::low_line_after_other(if self.is(EightOverText) { &text } else { &all }) {
            return Err(8);
        }
        if tokens.len() == 1 && all.iter().all(|&c| c < 0x80) {
            return if label::hyphens_third_and_fourth(&all) { Err(9) } else { Ok(Kind::Ascii) };
        }
        if label::fenced_misplaced(t, &all) {
            return Err(10);
        }
        if tokens.iter().any(|token| label::starts_with_mark(t, token)) {
            return Err(11);
        }
        let listed = |g: usize, c: u32| t.groups[g].list.iter().flatten().any(|s| s.contains(&c));
        let held = |g: usize, c: u32| t.group_holds(g, c) || self.is(ListItemsHeld) && listed(g, c);
        let holds = |g: &usize| text.iter().all(|&c| held(*g, c));
        if self.is(SixteenBeforeTwelve) && (0..t.group_count()).any(|g| held(g, text[0]) && self.unlisted(t, g, &text))
        {
            return Err(16);
        }
        let group = match self.0 {
            LastGroup => (0..t.group_count()).rev().find(holds),
            TriesLaterGroups => {
                let passes = |&g: &usize| holds(&g) && !self.unlisted(t, g, &text);
                (0..t.group_count()).find(passes).or((0..t.group_count()).find(holds))
            }
            _ => (0..t.group_count()).find(holds),
        };
        let group = group.ok_or(12u32)?;
        let flags = t.group_flags(group);
        let sixteen = self.unlisted(t, group, &text);
        if sixteen && !self.is(SixteenAfterFourteen) {
            return Err(16);
        }
        if flags & 2 == 0 || self.is(ThirteenBesideSixteen) && flags & 4 != 0 {
            let broken = match self.0 {
                NsmPerToken => tokens.iter().any(|token| match token {
                    Finished::Text(c) => label::nsm_run_broken(t, &plain::nfd(t, c)),
                    Finished::Emoji(_) => false,
                }),
                NsmUnordered => label::nsm_run_broken(t, &four_rounds(t, &text)),
                _ => {
                    let mut decomposed = self.decompose(t, &text);
                    order(t, &mut decomposed);
                    label::nsm_run_broken(t, &decomposed)
                }
            };
            if broken {
                return Err(13);
            }
        }
        if self.confusable(t, &text) {
            return Err(14);
        }
        if sixteen {
            return Err(16);
        }
        Ok(Kind::Group { number: group, restricted: flags & 1 != 0 })
    }

    /// 16: a run of marks with the character before it that the group's list lacks.
    fn unlisted(&self, t: &Table, group: usize, text: &[u32]) -> bool {
        let Some(list) = &t.groups[group].list else {
            return false;
        };
        let list = match self.0 {
            EmptyListNotAsked if list.is_empty() => return false,
            LastRecordNotAsked if !list.is_empty() => &list[..list.len() - 1],
            _ => &list[..],
        };
        let decomposed = plain::nfd(t, text);
        let text = if self.is(ListOfDecomposed) { &decomposed[..] } else { text };
        let is_mark = |c: u32| if self.is(ListOfNsm) { t.is_nsm(c) } else { t.is_mark(c) };
        compare::lists::runs(is_mark, text).into_iter().any(|(start, end)| {
            let run = &text[start - 1..end];
            match self.0 {
                OneMarkNotAsked if run.len() == 2 => false,
                ShorterForLonger => !list.iter().any(|s| run.starts_with(s)),
                _ => !list.contains(&run),
            }
        })
    }

    fn confusable(&self, t: &Table, text: &[u32]) -> bool {
        if self.is(AsTheSource) {
            return source_confusable(t, text);
        }
        let whole_of = |c: u32| {
            if self.is(ValidListConfuses) {
                return t.wholes.iter().find(|w| w.members().any(|m| m == c)).copied();
            }
            t.whole_of(c)
        };
        let Some(first) = text.iter().position(|&c| whole_of(c).is_some()) else {
            return false;
        };
        let extent = |c: u32, whole: Whole| match self.is(ExtentOfOneHop) {
            true => one_hop(t, whole, c),
            false => label::extent(t, whole, c),
        };
        (0..t.group_count()).any(|g| {
            text.iter().enumerate().all(|(i, &c)| match whole_of(c) {
                Some(_) if self.is(StopsAtFirstConfused) && i > first && c != text[first] => true,
                Some(whole) => {
                    let inside = extent(c, whole);
                    whole.members().any(|m| t.group_holds(g, m) && !inside.contains(&m))
                }
                None => t.group_holds(g, c),
            })
        })
    }

    fn input_fault(&self, input: &[u32]) -> Result<(), Refusal> {
        if input.len() > INPUT {
            return refuse(3, 0);
        }
        match input.iter().position(|&c| !is_scalar(c)) {
            Some(index) => refuse(4, index),
            None => Ok(()),
        }
    }

    fn whole_name(&self, input: &[u32], words: &[u32], room: usize, work: usize) -> Result<(Vec<u32>, usize), Refusal> {
        let table = parse(words).ok_or(Refusal::new(1, 0))?;
        if work < WORK_WORDS {
            return refuse(2, 0);
        }
        self.input_fault(input)?;
        let filtered: Vec<u32>;
        let input = if self.is(IgnoresFe0fFirst) {
            filtered = input.iter().copied().filter(|&c| c != FE0F).collect();
            &filtered[..]
        } else {
            input
        };
        let mut answer = Vec::new();
        let mut labels = 0;
        if input.is_empty() {
            return Ok((answer, 0));
        }
        let mut worked = 0;
        let mut start = 0;
        for (i, part) in input.split(|&c| c == STOP).enumerate() {
            if i > 0 {
                answer.push(STOP);
                worked += usize::from(!self.is(ForgetsStopsInWorkedLength));
            }
            let form = self.judge(&table, part, worked).map_err(|Refusal { number, place }| match number {
                5 if self.is(PlaceInLabel) => Refusal::new(5, place),
                5 => Refusal::new(5, start + place),
                _ if self.is(LabelNumberOffByOne) => Refusal::new(number, i + 1),
                _ => Refusal::new(number, i),
            })?;
            worked += form.worked;
            start += part.len() + 1;
            answer.extend(form.answer);
            labels += 1;
            if self.is(FifteenEarly) && answer.len() > room {
                return refuse(15, 0);
            }
        }
        if self.is(CountsLabelsOfAnswer) {
            labels = answer.split(|&c| c == STOP).count();
        }
        if answer.len() > room {
            return refuse(15, 0);
        }
        Ok((answer, labels))
    }

    fn one_label(&self, input: &[u32], words: &[u32], room: usize, work: usize) -> Result<(Vec<u32>, Kind), Refusal> {
        let table = parse(words).ok_or(Refusal::new(1, 0))?;
        if work < WORK_WORDS {
            return refuse(2, 0);
        }
        self.input_fault(input)?;
        if let Some(stop) = input.iter().position(|&c| c == STOP) {
            return refuse(5, self.walk(&table, &input[..stop]).err().unwrap_or(stop));
        }
        let form = self.judge(&table, input, 0)?;
        if form.answer.len() > room {
            return refuse(15, 0);
        }
        Ok((form.answer, form.kind))
    }

    fn settle(&self, due: &[u32], answer: &mut [u32], work: &mut [u32]) {
        if !self.is(LeavesOldTail) || due.is_empty() {
            answer.fill(0);
        }
        if !self.is(LeavesWorkArea) {
            work.fill(0);
        }
        answer[..due.len()].copy_from_slice(due);
    }
}

/// 01's reading of the extent, which 02, Item 6 takes back: the members that
/// share a group with the character itself.
fn one_hop(t: &Table, whole: Whole, c: u32) -> BTreeSet<u32> {
    let shared = |&m: &u32| (0..t.group_count()).any(|g| t.group_holds(g, c) && t.group_holds(g, m));
    std::iter::once(c).chain(whole.members().filter(shared)).collect()
}

/// The steps of the source document, with the early exits where no group
/// remains and at a Unique character.
fn source_confusable(t: &Table, text: &[u32]) -> bool {
    let mut groups: Vec<usize> = (0..t.group_count()).collect();
    let mut buffer = Vec::new();
    let mut found = false;
    let mut seen = Vec::new();
    for &c in text {
        if seen.contains(&c) {
            continue;
        }
        seen.push(c);
        if let Some(whole) = t.whole_of(c) {
            found = true;
            let inside = label::extent(t, whole, c);
            let others: Vec<u32> = whole.members().filter(|m| !inside.contains(m)).collect();
            groups.retain(|&g| others.iter().any(|&m| t.group_holds(g, m)));
            if groups.is_empty() {
                return false;
            }
        } else if (0..t.group_count()).filter(|&g| t.group_holds(g, c)).count() == 1 {
            return false;
        } else {
            buffer.push(c);
        }
    }
    found && groups.iter().any(|&g| buffer.iter().all(|&c| t.group_holds(g, c)))
}

impl Engine for Assembled {
    fn name(&self, name: &[u32], table: &[u32], answer: &mut [u32], work: &mut [u32]) -> Result<Name, Refusal> {
        match self.0 {
            DoesNothing => return Ok(Name { length: 0, labels: 0 }),
            RefusesEverything => {
                self.settle(&[], answer, work);
                return refuse(1, 0);
            }
            CopiesItsInput if name.len() <= answer.len() => {
                self.settle(name, answer, work);
                let labels = name.split(|&c| c == STOP).count();
                return Ok(Name { length: name.len(), labels });
            }
            _ => {}
        }
        let judged = self.whole_name(name, table, answer.len(), work.len());
        self.settle(judged.as_ref().map_or(&[], |j| &j.0), answer, work);
        judged.map(|(due, labels)| Name { length: due.len(), labels })
    }
    fn label(&self, label: &[u32], table: &[u32], answer: &mut [u32], work: &mut [u32]) -> Result<Label, Refusal> {
        let judged = self.one_label(label, table, answer.len(), work.len());
        self.settle(judged.as_ref().map_or(&[], |j| &j.0), answer, work);
        judged.map(|(due, kind)| Label { length: due.len(), kind })
    }
    fn soundness(&self, table: &[u32]) -> Soundness {
        Plain.soundness(table)
    }
    fn unpack(&self, file: &[u8], answer: &mut [u32]) -> Result<usize, Refusal> {
        Plain.unpack(file, answer)
    }
}

/// Differences by which something wrong counts as found.
const FOUND: u64 = 3;

/// What the tests run over: a tenth of the whole comparison, as far as it takes to
/// find what is wrong.
fn settings() -> Settings {
    Settings {
        first_seed: 7_000,
        tables: 200,
        names_per_table: 100,
        lengthened_per_table: 0,
        files_per_table: 1,
        more_soundness: 0,
        keep: 3,
        enough: FOUND,
    }
}

/// The same over tables that all have lists.
fn over_lists(engine: Wrong) -> Report {
    compare_over(&Plain, &[&Assembled(engine)], &settings(), gen::lists::made)
}

/// With nothing wrong the assembled engine is the plain one; and the source's
/// early exit at a Unique character changes no answer.
#[test]
fn nothing_wrong_is_found_equal() {
    for engine in [Nothing, AsTheSource] {
        let settings = Settings { tables: 400, ..settings() };
        let report = compare(&Plain, &Assembled(engine), &settings);
        assert_eq!(report.counts.differences, 0, "{:?}", report.differences);
    }
    assert_eq!(over_lists(Nothing).counts.differences, 0);
}

wrongs! {
    WrongCheck, WRONG_CHECKS;;
    EverySound,
    HighestRule,
    ValidOneWay,
    FiveFirstSentence,
    SixRoundsOnly,
    SevenWithoutHangul,
    EightOfHeadsAlone,
    EightWithoutVowels,
    EightWithoutSyllables,
    EightOfTheEmptySet,
    LengthBeforeVersion,
    RoomBeforeLength,
    AddedWordNotAsked,
    NothingAdded,
    OneAddedToVersion1,
    EscapeNotScalar,
    QuickCheckNotScalar,
    ListNotScalar,
    FourNotKnown,
    FiveKnown,
    LeavesWords,
}

/// The plain calls with another soundness check or unpacking.
struct Checks(WrongCheck);

impl Engine for Checks {
    fn name(&self, name: &[u32], table: &[u32], answer: &mut [u32], work: &mut [u32]) -> Result<Name, Refusal> {
        Plain.name(name, table, answer, work)
    }
    fn label(&self, label: &[u32], table: &[u32], answer: &mut [u32], work: &mut [u32]) -> Result<Label, Refusal> {
        Plain.label(label, table, answer, work)
    }
    fn soundness(&self, words: &[u32]) -> Soundness {
        let Some(table) = parse(words) else {
            return if let WrongCheck::EverySound = self.0 { Soundness::Sound } else { Soundness::Broken(0) };
        };
        let index = Index::new(&table);
        let broken = |rule: u32| plain::soundness::broken(&index, rule).is_some();
        let hangul_pair = |r: &Record| matches!(*r.items, [a, b] if plain::text::hangul_composite(a, b).is_some());
        let judged = |rule: u32| match (self.0, rule) {
            (WrongCheck::EverySound, _) => false,
            (WrongCheck::EscapeNotScalar | WrongCheck::QuickCheckNotScalar | WrongCheck::ListNotScalar, 1) => {
                let mut rest = table.to_builder();
                match self.0 {
                    WrongCheck::EscapeNotScalar => rest.escape.clear(),
                    WrongCheck::ListNotScalar => rest.lists.clear(),
                    _ => rest.quick_check.clear(),
                }
                let words = rest.to_words();
                let rest = parse(&words).expect("a table without that section");
                plain::soundness::broken(&Index::new(&rest), 1).is_some()
            }
            (WrongCheck::ValidOneWay, 2) => {
                let of_groups = Ranges::new(table.groups.iter().flat_map(|g| g.pairs.iter()));
                of_groups.least_outside(index.valid()).is_some()
            }
            (WrongCheck::FiveFirstSentence, 5) => {
                table.emoji.iter().any(|s| matches!(strip(s)[..], [c] if index.is_valid(c)))
            }
            (WrongCheck::SixRoundsOnly, 6) => table.decompositions.iter().any(|r| {
                let four = four_rounds(&table, &[r.head]);
                plain::text::one_round(&table, &four) != four
            }),
            (WrongCheck::SevenWithoutHangul, 7) => broken(7) && !table.decompositions.iter().any(hangul_pair),
            // As if the set held all that this version does not ask.
            (WrongCheck::EightOfHeadsAlone | WrongCheck::EightWithoutVowels | WrongCheck::EightWithoutSyllables, 8)
                if table.quick_check.iter().next().is_some() =>
            {
                let mut more = table.to_builder();
                let items = more.decompositions.iter().flat_map(|d| d.1.iter().map(|&c| (c, c))).collect::<Vec<_>>();
                match self.0 {
                    WrongCheck::EightWithoutVowels => more.quick_check.push((0x1161, 0x1175)),
                    WrongCheck::EightWithoutSyllables => more.quick_check.push((0xAC00, 0xD7A3)),
                    _ => {
                        let heads: HashSet<u32> = more.decompositions.iter().map(|d| d.0).collect();
                        more.quick_check.extend(items.into_iter().filter(|(c, _)| !heads.contains(c)));
                        more.quick_check.extend([(0x1100, 0x11FF), (0xAC00, 0xD7A3)]);
                    }
                }
                let words = more.to_words();
                let more = parse(&words).expect("a table with more in that section");
                plain::soundness::broken(&Index::new(&more), 8).is_some()
            }
            (WrongCheck::EightOfTheEmptySet, 8) => broken(8) || table.quick_check.iter().next().is_none(),
            _ => broken(rule),
        };
        let rule = match self.0 {
            WrongCheck::HighestRule => (1..=LAST_RULE).rev().find(|&rule| judged(rule)),
            _ => (1..=LAST_RULE).find(|&rule| judged(rule)),
        };
        rule.map_or(Soundness::Sound, Soundness::Broken)
    }
    fn unpack(&self, file: &[u8], answer: &mut [u32]) -> Result<usize, Refusal> {
        let old = answer.to_vec();
        let right = Plain.unpack(file, answer);
        let count = file.get(1..5).map(|b| u32::from_be_bytes([b[0], b[1], b[2], b[3]]));
        let fits = count.is_some_and(|n| file.len() as u64 == 5 + 4 * u64::from(n));
        let number = right.err().map_or(0, |r| r.number);
        match self.0 {
            WrongCheck::LengthBeforeVersion if number == 20 && !fits => refuse(21, 0),
            WrongCheck::RoomBeforeLength if number == 21 && count.is_some_and(|n| n as usize > old.len()) => {
                refuse(22, 0)
            }
            // The words that are added are left out of the room, or out altogether.
            WrongCheck::AddedWordNotAsked if number == 22 && count.is_some_and(|n| n as usize == old.len()) => {
                Ok(old.len())
            }
            WrongCheck::NothingAdded => match file.first() {
                Some(&version @ (1 | 2)) => right.map(|n| n + usize::from(version) - 3),
                _ => right,
            },
            WrongCheck::FourNotKnown if file.first() == Some(&4) => {
                answer.fill(0);
                refuse(20, 0)
            }
            WrongCheck::FiveKnown if file.first() == Some(&5) => {
                let four = [&[4u8][..], &file[1..]].concat();
                Plain.unpack(&four, answer)
            }
            WrongCheck::OneAddedToVersion1 if file.first() == Some(&1) => right.map(|n| n - 1),
            WrongCheck::LeavesWords => {
                let due = right.unwrap_or(0);
                answer[due..].copy_from_slice(&old[due..]);
                right
            }
            _ => right,
        }
    }
}

#[test]
fn wrong_checks_are_found() {
    let settings =
        Settings { tables: 300, names_per_table: 0, files_per_table: 4, more_soundness: 6_000, ..settings() };
    for &wrong in WRONG_CHECKS {
        let report = compare(&Plain, &Checks(wrong), &settings);
        say(format!("{wrong:?}: {} differences", report.counts.differences));
        assert!(report.counts.differences >= FOUND, "{wrong:?} is hardly found");
    }
}

#[test]
fn wrong_engines_are_found() {
    for &wrong in WRONGS {
        let report = match OF_LISTS.contains(&wrong) {
            true => over_lists(wrong),
            false => compare(&Plain, &Assembled(wrong), &settings()),
        };
        say(format!("{wrong:?}: {} differences", report.counts.differences));
        assert!(report.counts.differences >= FOUND, "{wrong:?} is hardly found");
        // A difference is printed with its seed, codepoints and words.
        let text = &report.differences[0];
        assert!(text.starts_with("seed ") && text.contains("table "), "{text}");
    }
}

/// Each error met in the field fails on a named label of the small table.
#[test]
fn errors_met_in_the_field_fail() {
    let words = gen::small_table().to_words();
    let cases: [(Wrong, &[u32]); 6] = [
        (ComposesWholeLabel, &[0x61, 0x1F4A9, 0x300]),
        (IgnoresFe0fFirst, &[0x1F468, 0xFE0F, 0x200D, 0x2764, 0xFE0F, 0x200D, 0x1F468]),
        (MapsTwice, &[0x5A]),
        (MapsBeforeValid, &[0x7A]),
        (StopsAtFirstConfused, &[0x442, 0x4D5]),
        (LeavesOldTail, &[0x62, 0x61]),
    ];
    for (wrong, input) in cases {
        let run = |engine: &dyn Engine| {
            let (mut answer, mut work) = ([5; 9], [5; WORK_WORDS]);
            let given = engine.name(input, &words, &mut answer, &mut work);
            (given, answer, work)
        };
        assert_eq!(run(&Plain), run(&Assembled(Nothing)), "{wrong:?}");
        assert_ne!(run(&Plain), run(&Assembled(wrong)), "{wrong:?}");
    }
}

/// The reading of one hop fails on the whole of 02, Item 6.
#[test]
fn one_hop_fails() {
    use gen::wholes::item_6::{table, A, E};
    let words = table().to_words();
    let run = |engine: Wrong, name: &[u32]| Assembled(engine).name(name, &words, &mut [0; 9], &mut [0; WORK_WORDS]);
    assert_eq!(run(ExtentOfOneHop, &[A]), refuse(14, 0));
    assert_eq!(run(Nothing, &[A]), Ok(Name { length: 1, labels: 1 }));
    assert_eq!(run(ExtentOfOneHop, &[E]), refuse(14, 0));
    assert_eq!(run(Nothing, &[E]), refuse(14, 0));
}

wrongs! {
    WrongScreen, WRONG_SCREENS;
    RightScreen,;
    // FE0F of another record with the same stripped form.
    LastOfEquals,
    // 39E in the Greek group, or in no group.
    CapitalInGreek,
    NeverCapital,
    // 15 judged on the normal form.
    FifteenOfNormalForm,
    XiInEmoji,
    // The FE0F that were typed, and none.
    AsTyped,
    Stripped,
    // The number of the Greek group cut to a byte, or to the last group.
    GreekOfEightBits,
    GreekAtMostTheLast,
    // Which tokens are Greek is asked of each text alone.
    GreekByText,
    CapitalTyped,
    SettingForgotten,
    StopsForgotten,
    LeavesTail,
}

/// The screen form put together anew from the parts of the plain version, with
/// one thing wrong.
fn wrong_screen(wrong: WrongScreen, asked: &Asked, answer: &mut [u32], work: &mut [u32]) -> Result<Name, Refusal> {
    use WrongScreen::*;
    let judged = plain::calls::check_room(asked.table, work).and_then(|t| {
        let setting = if wrong == SettingForgotten { 0 } else { asked.setting };
        let forms = judge_name_with(&t, setting, asked.name)?;
        let labels: Vec<Vec<u32>> = asked
            .name
            .split(|&c| c == STOP)
            .zip(&forms)
            .map(|(label, form)| wrong_label(wrong, &t, asked.greek, label, form))
            .collect();
        let normal = plain::calls::join_labels(&forms).len();
        let due = if wrong == StopsForgotten { labels.concat() } else { labels.join(&STOP) };
        Ok((due, normal, forms.len()))
    });
    let old = answer.to_vec();
    answer.fill(0);
    work.fill(0);
    let (due, normal, labels) = judged?;
    if if wrong == FifteenOfNormalForm { normal } else { due.len() } > answer.len() {
        return refuse(15, 0);
    }
    let length = due.len().min(answer.len());
    answer[..length].copy_from_slice(&due[..length]);
    if wrong == LeavesTail {
        answer[length..].copy_from_slice(&old[length..]);
    }
    Ok(Name { length: due.len(), labels })
}

fn wrong_label(wrong: WrongScreen, t: &Table, greek: u32, label: &[u32], form: &LabelForm) -> Vec<u32> {
    use WrongScreen::*;
    let last = (t.group_count() as u32).saturating_sub(1);
    let greek = match wrong {
        GreekOfEightBits => greek & 0xFF,
        GreekAtMostTheLast => greek.min(last),
        _ => greek,
    };
    let is_greek = |text: &[u32]| match wrong {
        CapitalInGreek => false,
        NeverCapital => true,
        GreekByText => label::first_group(t, text) == Some(greek as usize),
        _ => matches!(form.kind, Kind::Group { number, .. } if number == greek as usize),
    };
    let shown = |c: u32, text: &[u32]| if c == 0x3BE && !is_greek(text) { 0x39E } else { c };
    let (mut screen, mut at) = (Vec::new(), 0);
    for (token, finished) in tokens(t, label).expect("an accepted label").iter().zip(&form.tokens) {
        let Token::Emoji { record, taken } = token else {
            let text = finished.codepoints();
            screen.extend(text.iter().map(|&c| shown(c, text)));
            // Texts are stepped over as far as the next emoji.
            while at < label.len() && t.find_emoji(&label[at..]).is_none() {
                at += 1;
            }
            continue;
        };
        while t.find_emoji(&label[at..]).is_none() {
            at += 1; // ignored
        }
        let typed = &label[at..at + taken];
        at += taken;
        let sequence = t.emoji[*record];
        match wrong {
            LastOfEquals => {
                let like = |s: &&&[u32]| strip(s) == strip(sequence);
                screen.extend(*t.emoji.iter().rfind(like).expect("itself"));
            }
            AsTyped => screen.extend(typed),
            Stripped => screen.extend(strip(sequence)),
            XiInEmoji => screen.extend(sequence.iter().map(|&c| shown(c, &[]))),
            _ => screen.extend(sequence),
        }
    }
    if wrong == CapitalTyped && !label.contains(&0x39E) {
        // Shown only where it was typed.
        screen.iter_mut().filter(|c| **c == 0x39E).for_each(|c| *c = 0x3BE);
    }
    screen
}

#[test]
fn wrong_screen_forms_are_found() {
    let found = |wrong: WrongScreen| {
        let call = |asked: &Asked, answer: &mut [u32], work: &mut [u32]| wrong_screen(wrong, asked, answer, work);
        let (met, differences) = compare_screens(&plainly, &call, 8_200_000, 150, 100);
        say(format!("{wrong:?}: {} differences", met.differences));
        (met.differences, differences)
    };
    assert_eq!(found(WrongScreen::RightScreen), (0, vec![]));
    for &wrong in WRONG_SCREENS {
        let (count, differences) = found(wrong);
        assert!(count >= 3, "{wrong:?} is hardly found");
        assert!(differences[0].starts_with("seed ") && differences[0].contains("table "), "{}", differences[0]);
    }
}

/// Those that the request itself rules out, and some more, fail on named labels
/// of the small table, with 3BE among Latin letters and in the last group.
#[test]
fn wrong_screen_forms_fail_on_cases() {
    use gen::small::{GREEK, KOREAN, LATIN};
    let mut b = gen::screens::xi_table();
    b.groups[KOREAN].1.push((0x3BE, 0x3BE));
    b.emoji.push(vec![0x1F680, 0xFE0F, 0xFE0F]);
    let words = b.to_words();
    let cases: [(WrongScreen, &[u32], usize, usize); 7] = [
        (WrongScreen::LastOfEquals, &[0x1F680], GREEK, 9),
        (WrongScreen::CapitalInGreek, &[0x3B1, 0x3BE], GREEK, 9),
        (WrongScreen::NeverCapital, &[0x61, 0x3BE], GREEK, 9),
        (WrongScreen::FifteenOfNormalForm, &[0x1F4A9], GREEK, 1),
        (WrongScreen::AsTyped, &[0x31, 0x20E3], GREEK, 9),
        (WrongScreen::GreekAtMostTheLast, &[0xAC00, 0x3BE], KOREAN + 1, 9),
        (WrongScreen::GreekByText, &[0x3BE, 0x1F4A9, 0x3B1], LATIN, 9),
    ];
    for (wrong, name, greek, room) in cases {
        let asked = Asked { name, table: &words, greek: greek as u32, setting: 0 };
        let call = |asked: &Asked, answer: &mut [u32], work: &mut [u32]| wrong_screen(wrong, asked, answer, work);
        let right = |asked: &Asked, answer: &mut [u32], work: &mut [u32]| {
            wrong_screen(WrongScreen::RightScreen, asked, answer, work)
        };
        assert!(both(&plainly, &right, &asked, room, WORK_WORDS).2, "{wrong:?}");
        assert!(!both(&plainly, &call, &asked, room, WORK_WORDS).2, "{wrong:?}");
    }
}
