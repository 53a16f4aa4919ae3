//! The screen form on real characters: the examples of ENSIP-15 on beautifying,
//! and the wanted theorem on random names.

use crate::bulk::Vocabulary;
use crate::cases::hex;
use crate::shards::on_all_processors;
use crate::Made;
use compare::harness::hex as hex_of;
use compare::screens::{Asked, Screen};
use gen::Rng;
use maker::Spec;
use plain::limits::{SCREEN, WORK_WORDS};
use plain::screen::{comes_back, CAPITAL_XI};
use plain::{judge_name_with, Index, Name, Refusal, FE0F};

/// The number of the Greek group.
pub fn greek(spec: &Spec) -> u32 {
    spec.group_number("Greek").expect("a Greek group") as u32
}

/// Versions of the two calls that all processors use: the screen form, and the
/// normal form of a name by a table with a setting.
#[derive(Clone, Copy)]
pub struct Calls<'a> {
    pub screen: &'a (dyn Fn(&Asked, &mut [u32], &mut [u32]) -> Result<Name, Refusal> + Sync),
    pub normal: &'a (dyn Fn(&[u32], &[u32], u32) -> Result<Vec<u32>, Refusal> + Sync),
}

/// The screen form of an accepted name.
pub fn shown(screen: Screen, asked: &Asked) -> Vec<u32> {
    let (mut answer, mut work) = (vec![7; SCREEN], vec![7; WORK_WORDS]);
    let given = screen(asked, &mut answer, &mut work);
    let length = given.unwrap_or_else(|refusal| panic!("{:X?}: {refusal}", asked.name)).length;
    assert!(work.iter().chain(&answer[length..]).all(|&w| w == 0), "{:X?}", asked.name);
    answer.truncate(length);
    answer
}

/// Names with their screen forms, which both tables can show: the example of
/// ENSIP-15, what it says of 3BE in Greek and other labels, and emoji whose FE0F
/// are put back.
pub const EXAMPLES: [(&str, &str); 17] = [
    ("2D 3BE 31 20E3", "2D 39E 31 FE0F 20E3"),
    ("2010 39E 31 FE0F 20E3", "2D 39E 31 FE0F 20E3"),
    ("3BE", "39E"),
    ("39E", "39E"),
    ("3BE 3B4", "3BE 3B4"),
    ("39E 3B4", "3BE 3B4"),
    ("61 3BE 2E 3BE 3B4 2E 436 3BE", "61 39E 2E 3BE 3B4 2E 436 39E"),
    ("2764", "2764 FE0F"),
    ("2764 FE0E", "2764 FE0F"),
    ("2764 FE0F", "2764 FE0F"),
    ("1F4A9", "1F4A9 FE0F"),
    ("1F468 1F3FB", "1F468 1F3FB"),
    ("1F468 200D 2764 200D 1F468", "1F468 200D 2764 FE0F 200D 1F468"),
    ("23 20E3 2E 31 20E3", "23 FE0F 20E3 2E 31 FE0F 20E3"),
    ("61 2764 3BE 2764 62", "61 2764 FE0F 39E 2764 FE0F 62"),
    ("5F 24 41", "5F 24 61"),
    ("", ""),
];

/// Runs the examples; panics with what is not as due.
pub fn run_examples(screen: Screen, made: &Made, examples: &[(&str, &str)]) {
    let shown = |name: &str, greek: u32| {
        hex_of(&shown(screen, &Asked { name: &hex(name), table: &made.words, greek, setting: 0 }))
    };
    for (name, due) in examples {
        assert_eq!(shown(name, greek(&made.spec)), *due, "{name}");
    }
    // Where no group is Greek.
    for none in [made.spec.groups.len() as u32, u32::MAX] {
        assert_eq!(shown("3BE 3B4", none), "39E 3B4");
    }
}

/// What a run met.
#[derive(Clone, Debug, Default)]
pub struct Counts {
    /// Names that the theorem was run on.
    pub accepted: usize,
    /// Of them, names with FE0F or 39E in the screen form.
    pub styled: usize,
    pub capital: usize,
}

/// Some other name, with 3BE and emoji more often than in other runs.
fn name(rng: &mut Rng, vocabulary: &Vocabulary, emoji: &[Vec<u32>]) -> Vec<u32> {
    let mut name = vocabulary.name(rng);
    if name.len() < 60 && rng.percent(35) {
        let at = rng.below(name.len() + 1);
        let more = match rng.below(3) {
            0 => rng.pick(emoji).iter().copied().filter(|&c| c != FE0F).collect(),
            1 => vec![0x3BE],
            _ => vec![CAPITAL_XI],
        };
        name.splice(at..at, more);
    }
    name
}

/// The claim on `count` accepted names, a multiple of PART: the screen form,
/// normalised with the same setting, gives the normal form, with the same kinds.
/// All by the plain version; where `calls` are given, the screen form and what
/// it is normalised to by them too.
pub fn coming_back(made: &Made, calls: Option<Calls>, seed: u64, count: usize) -> Counts {
    const PART: usize = 200;
    assert_eq!(count % PART, 0);
    let table = plain::parse(&made.words).expect("layout");
    let index = Index::new(&table);
    let vocabulary = Vocabulary::new(made);
    let part = |shard: usize| {
        let mut rng = Rng::new(seed << 32 | shard as u64);
        let mut counts = Counts::default();
        while counts.accepted < PART {
            let name = name(&mut rng, &vocabulary, &made.spec.emoji);
            let greek = *rng.pick(&[greek(&made.spec), greek(&made.spec), 0, u32::MAX]);
            let setting = rng.code(0, 1);
            let Some(back) = comes_back(&index, greek, setting, &name) else { continue };
            assert!(back, "Greek {greek}, setting {setting}, {name:X?}");
            let (form, _) = plain::screen::screen_by(&index, greek, setting, &name).expect("it was accepted");
            if let Some(calls) = calls {
                let asked = Asked { name: &name, table: &made.words, greek, setting };
                assert_eq!(shown(calls.screen, &asked), form, "Greek {greek}, {name:X?}");
                let normal = plain::calls::join_labels(&judge_name_with(&index, setting, &name).expect("accepted"));
                assert_eq!((calls.normal)(&form, &made.words, setting), Ok(normal), "setting {setting}, {name:X?}");
            }
            counts.accepted += 1;
            counts.styled += usize::from(form.contains(&FE0F));
            counts.capital += usize::from(form.contains(&CAPITAL_XI));
        }
        counts
    };
    let mut all = Counts::default();
    for run in on_all_processors(count / PART, part) {
        all.accepted += run.accepted;
        all.styled += run.styled;
        all.capital += run.capital;
    }
    all
}
