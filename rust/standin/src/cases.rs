//! The cases of "Names at the counter" and the examples of ENSIP-15.

use crate::desk::{kind_name, Desk};
use compare::Engine;
use maker::Spec;
use plain::Refusal;

/// What a name has to give.
#[derive(Clone, Debug)]
pub enum Due {
    /// The answer, and the kind of each label: `Emoji`, `ASCII` or a group.
    Answer(Vec<u32>, Vec<&'static str>),
    Refused(Refusal),
    /// Any refusal.
    SomeRefusal,
}

pub struct Case {
    pub name: Vec<u32>,
    pub room: usize,
    pub due: Due,
}

/// Codepoints in hex, parted by blanks.
pub fn hex(text: &str) -> Vec<u32> {
    text.split_whitespace().map(|w| u32::from_str_radix(w, 16).expect("hex")).collect()
}

fn gives(name: &str, answer: &str, kinds: &[&'static str]) -> Case {
    Case { name: hex(name), room: crate::desk::ROOM, due: Due::Answer(hex(answer), kinds.to_vec()) }
}

/// A name that is its own normal form.
fn same(name: &str, kinds: &[&'static str]) -> Case {
    gives(name, name, kinds)
}

fn refused(name: &str, number: u32, place: usize) -> Case {
    Case { name: hex(name), room: crate::desk::ROOM, due: Due::Refused(Refusal::new(number, place)) }
}

/// "Names at the counter" of the scope document, but for the last, which is
/// about a small table.
pub fn counter() -> Vec<Case> {
    let times = |n: usize, word: &str| vec![word; n].join(" ");
    vec![
        gives("5F 24 41", "5F 24 61", &["ASCII"]),
        gives("45 FE0E 303", "1EBD", &["Latin"]),
        refused("6E 131 307 63 6B", 5, 1),
        gives("61 2122 FE0F", "61 74 6D", &["ASCII"]),
        gives("41 FE0E 1F4A9 FE0E FE0E 62", "61 1F4A9 62", &["Latin"]),
        refused("1F468 FE0F 200D 2764 FE0F 200D 1F468", 5, 2),
        refused("1F4A9 200D 1F4A9", 5, 1),
        refused("78 6E 2D 2D", 9, 0),
        same("2D 2D 2D 61", &["ASCII"]),
        refused("61 5F 2D 2D", 8, 0),
        refused("30 445", 14, 0),
        same("442 4D5", &["Cyrillic"]),
        gives("2010 39E 31 FE0F 20E3", "2D 3BE 31 20E3", &["Latin"]),
        same("", &[]),
        refused("2E", 6, 0),
        refused("61 2E 2E 62", 6, 1),
        Case { name: hex("61"), room: 0, due: Due::Refused(Refusal::new(15, 0)) },
        same(&times(4096, "61"), &["ASCII"]),
        refused(&times(4097, "61"), 7, 0),
        refused(&times(1365, "2E3B"), 9, 0),
        refused(&times(1366, "2E3B"), 7, 0),
        gives(&format!("61 {}", times(16383, "34F")), "61", &["ASCII"]),
        refused(&format!("61 {}", times(16384, "34F")), 3, 0),
        // The limits before Item 5, by those of today.
        same(&times(1024, "61"), &["ASCII"]),
        same(&times(1025, "61"), &["ASCII"]),
        refused(&times(341, "2E3B"), 9, 0),
        refused(&times(342, "2E3B"), 9, 0),
        gives(&format!("61 {}", times(4095, "34F")), "61", &["ASCII"]),
        gives(&format!("61 {}", times(4096, "34F")), "61", &["ASCII"]),
    ]
}

/// The examples of ENSIP-15 that give an input, with its output or an error.
/// Kinds that the source does not state follow from the order of the groups.
pub fn examples() -> Vec<Case> {
    let mut all = vec![
        // Definitions
        same("61 62 63", &["ASCII"]),
        same("1F4A9", &["Emoji"]),
        gives("1F4A9 FE0F", "1F4A9", &["Emoji"]),
        refused("203C", 5, 0),
        gives("1F201", "30B3 30B3", &["Japanese"]),
        gives("1F469 200D 2764 FE0F 200D 1F468", "1F469 200D 2764 200D 1F468", &["Emoji"]),
        gives("23 FE0F 20E3", "23 20E3", &["Emoji"]),
        same("1F3F4 E0067 E0062 E0065 E006E E0067 E007F", &["Emoji"]),
        gives("2764 FE0F 200D 1F525", "2764 200D 1F525", &["Emoji"]),
        same("2764", &["Emoji"]),
        gives("2764 FE0E", "2764", &["Emoji"]),
        gives("2764 FE0F", "2764", &["Emoji"]),
        // Normalize
        gives("61 300", "E0", &["Latin"]),
        gives("5F 24 41", "5F 24 61", &["ASCII"]),
        gives("45 FE0E 303", "1EBD", &["Latin"]),
        same("1318F 1F438", &["Egyp"]),
        refused("6E 131 307 63 6B", 5, 1),
        // Tokenize
        same("1F468", &["Emoji"]),
        same("1F468 1F3FB", &["Emoji"]),
        same("1F468 1F3FB 200D 1F4BB", &["Emoji"]),
        gives("1F468 200D 2764 FE0F 200D 1F468", "1F468 200D 2764 200D 1F468", &["Emoji"]),
        same("1F468 200D 2764 200D 1F468", &["Emoji"]),
        refused("1F468 FE0F 200D 2764 FE0F 200D 1F468", 5, 2),
        refused("1F468 200D 2764 FE0F FE0F 200D 1F468", 5, 1),
        same("78 79 7A 1F468 1F3FB", &["Latin"]),
        gives("41 FE0E 1F4A9 FE0E FE0E 62", "61 1F4A9 62", &["Latin"]),
        gives("61 2122 FE0F", "61 74 6D", &["ASCII"]),
        // Validate
        same("5F 5F 5F", &["ASCII"]),
        same("5F 5F 61 62 63", &["ASCII"]),
        refused("61 62 63 5F 5F", 8, 0),
        refused("5F 61 62 63 5F", 8, 0),
        same("61 62 2D 63", &["ASCII"]),
        same("2D 2D 2D 61", &["ASCII"]),
        refused("78 6E 2D 2D", 9, 0),
        refused("2D 2D 2D 2D", 9, 0),
        same("61 2019 73", &["Latin"]),
        same("61 30FB 61", &["Han"]),
        refused("2019 38 35", 10, 0),
        refused("6A 6F 6E 65 73 65 73 2019", 10, 0),
        refused("30FB 61 30FB", 10, 0),
        same("61 30FB 61 2019 73", &["Han"]),
        refused("36 2019 30 2019 2019", 10, 0),
        refused("61 30FB 30FB 61", 10, 0),
        Case { name: hex("78 300 300"), room: crate::desk::ROOM, due: Due::SomeRefusal },
        refused("625 610 611 612 613 614", 13, 0),
        same("1F4A9 1F4A9", &["Emoji"]),
        same("61 62 63 24 31 32 33", &["ASCII"]),
        same("1F680 E0", &["Latin"]),
        // Wholes
        refused("30 445", 14, 0),
        same("442 4D5", &["Cyrillic"]),
        refused("581", 14, 0),
        refused("13C0", 14, 0),
        refused("13F3", 14, 0),
        refused("A4D6", 14, 0),
        refused("13CE", 14, 0),
        refused("13AA", 14, 0),
        // Split and join
        same("61 62 63 2E 31 32 33 2E 65 74 68", &["ASCII", "ASCII", "ASCII"]),
        same("", &[]),
        // Description of spec.json
        gives("41", "61", &["ASCII"]),
        gives("2165", "76 69", &["ASCII"]),
        refused("34F", 6, 0),
        same("1F468 200D 1F4BB", &["Emoji"]),
        same("3042", &["Japanese"]),
        same("13000", &["Egyp"]),
        // Derivation
        same("DF", &["Latin"]),
        same("3C2", &["Greek"]),
        refused("200C", 5, 0),
        refused("200D", 5, 0),
        refused("B7", 5, 0),
        refused("375", 5, 0),
        same("5F3", &["Greek"]),
        same("5F4", &["Greek"]),
        same("24", &["ASCII"]),
        same("5F", &["ASCII"]),
        gives("61 27 73", "61 2019 73", &["Latin"]),
        refused("27", 10, 0),
        gives("39E", "3BE", &["Latin"]),
        same("271A", &["Latin"]),
        gives("2714 FE0E", "2714", &["Emoji"]),
        // Security considerations
        refused("1F4A9 200D 1F4A9", 5, 1),
        same("62 61 68 72 61 69 6E 2E 645 635 631", &["ASCII", "Arabic"]),
        refused("62 61 68 72 61 69 6E 645 635 631", 12, 0),
        same("BB6 BCD BB0 BC0", &["Tamil"]),
        same("BB8 BCD BB0 BC0", &["Tamil"]),
        same("1F6B4", &["Emoji"]),
        same("1F6B4 1F3FB", &["Emoji"]),
        same("1F1FA 1F1F8", &["Emoji"]),
        same("1F1FA 1F1F2", &["Emoji"]),
        same("2665", &["Emoji"]),
        // Validation tests
        same("61", &["ASCII"]),
        refused("40", 5, 0),
        // Beautify
        gives("2010 39E 31 FE0F 20E3", "2D 3BE 31 20E3", &["Latin"]),
    ];
    // Disallowed by the derivation, and the emoji that are not emoji.
    let disallowed = "3002 FF0E FF61 589 2997 294 463 218A 1F7A1 1F7A2 1F7A3 1F7A4 1F7A5 1F7A6 1F7A7 2713 131 A74F \
        2376 203C 2049 1F3FB 1F3FC 1F3FD 1F3FE 1F3FF 1F1E6 1F1FF 2800 28FF 10600 10000 1D800";
    all.extend(disallowed.split_whitespace().map(|c| refused(c, 5, 0)));
    // Hyphens, and the extended Arabic digits.
    for c in "2010 2011 2012 2013 2014 2015 2043 2212 23AF 23E4 FE58".split_whitespace() {
        all.push(gives(&format!("61 {c} 62"), "61 2D 62", &["ASCII"]));
    }
    all.push(gives("61 2E3A", "61 2D 2D", &["ASCII"]));
    all.push(gives("2E3B", "2D 2D 2D", &["ASCII"]));
    for digit in [0, 1, 2, 3, 7, 8, 9] {
        let (from, to) = (0x6F0 + digit, 0x660 + digit);
        // Beside letters that look like no others.
        all.push(gives(&format!("645 635 {from:X}"), &format!("645 635 {to:X}"), &["Arabic"]));
    }
    all
}

/// What an engine makes of a case that is not as due, or `None`.
pub fn fault(desk: &mut Desk, spec: &Spec, case: &Case) -> Option<String> {
    let result = desk.name_in(&case.name, case.room);
    let due: Result<&[u32], Refusal> = match &case.due {
        Due::Answer(answer, _) => Ok(answer),
        Due::Refused(refusal) => Err(*refusal),
        Due::SomeRefusal if result.is_err() => return None,
        Due::SomeRefusal => return Some(format!("{:X?} gives {result:X?}", case.name)),
    };
    if result.as_ref().map(|(answer, _)| answer.as_slice()) != due.as_ref().map(|a| *a) {
        return Some(format!("{:X?} gives {result:X?}, not {due:X?}", case.name));
    }
    if let (Ok(name), Due::Answer(_, kinds)) = (&result, &case.due) {
        let given: Vec<String> = desk.again(&case.name, name).into_iter().map(|k| kind_name(k, spec)).collect();
        if given != *kinds {
            return Some(format!("{:X?} has kinds {given:?}, not {kinds:?}", case.name));
        }
    }
    None
}

/// Runs cases; panics with all that is not as due.
pub fn run(engine: &dyn Engine, table: &[u32], spec: &Spec, cases: &[Case]) {
    let mut desk = Desk::new(engine, table);
    let faults: Vec<String> = cases.iter().filter_map(|case| fault(&mut desk, spec, case)).collect();
    assert!(faults.is_empty(), "{} of {} cases:\n{}", faults.len(), cases.len(), faults.join("\n"));
}
