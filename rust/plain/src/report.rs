//! The report (02, Item 9): a line for each token, with its place in the name.

use crate::calls::{check_room, judge_name_with};
use crate::label::Finished;
use crate::lookup::Lookup;
use crate::STOP;
use answers::Refusal;
use std::fmt::Write;

/// Where the own input of each token of an accepted label starts: each emoji,
/// and the first of a run of codepoints that give text. What is ignored does
/// not part a text.
fn starts(t: &impl Lookup, label: &[u32]) -> Vec<usize> {
    let mut starts = Vec::new();
    let mut text = false;
    let mut at = 0;
    while at < label.len() {
        if let Some((_, taken)) = t.find_emoji(&label[at..]) {
            starts.push(at);
            text = false;
            at += taken;
            continue;
        }
        if !text && (t.is_valid(label[at]) || t.mapping(label[at]).is_some()) {
            starts.push(at);
            text = true;
        }
        at += 1;
    }
    starts
}

/// Where each token of an accepted label starts and ends in it: "ignored
/// codepoints counting to the token before them, or to the first one if none is
/// before".
pub fn places(t: &impl Lookup, label: &[u32]) -> Vec<(usize, usize)> {
    let starts = starts(t, label);
    let start = |i: usize| if i == 0 { 0 } else { starts[i] };
    let end = |i: usize| starts.get(i + 1).copied().unwrap_or(label.len());
    (0..starts.len()).map(|i| (start(i), end(i))).collect()
}

/// The line of a token.
fn line(t: &impl Lookup, token: &Finished, start: usize, end: usize) -> String {
    let word = match token {
        Finished::Emoji(_) => "emoji",
        Finished::Text(_) => "text",
    };
    let mut line = format!("{word} {start} {end}");
    for &c in token.codepoints() {
        let _ = match t.should_escape(c) {
            true => write!(line, " {{{c:X}}}"),
            false => write!(line, " {c:X}"),
        };
    }
    line + "\n"
}

/// The report over a table that is already read, or the first of 3 to 14, 16 and 17
/// that applies.
pub fn report_by(t: &impl Lookup, setting: u32, name: &[u32]) -> Result<String, Refusal> {
    let forms = judge_name_with(t, setting, name)?;
    let mut report = String::new();
    let mut start = 0;
    for (label, form) in name.split(|&c| c == STOP).zip(&forms) {
        let places = places(t, label);
        assert_eq!(places.len(), form.tokens.len(), "each token has a place");
        for (token, (from, to)) in form.tokens.iter().zip(places) {
            report += &line(t, token, start + from, start + to);
        }
        start += label.len() + 1;
    }
    Ok(report)
}

/// The call: the length of the report; 32, for too little room, comes last. The
/// bytes behind the report are zeros, all of them after a refusal, and so is the
/// work area.
pub fn report(name: &[u32], table: &[u32], setting: u32, out: &mut [u8], work: &mut [u32]) -> Result<usize, Refusal> {
    let report = check_room(table, work).and_then(|t| report_by(&t, setting, name));
    out.fill(0);
    work.fill(0);
    let report = report?;
    let room = out.get_mut(..report.len()).ok_or(Refusal::new(32, 0))?;
    room.copy_from_slice(report.as_bytes());
    Ok(report.len())
}

#[cfg(test)]
mod tests {
    use super::*;
    use crate::{parse, TableBuilder};

    /// By hand: ignored first, between and last; emoji side by side; braces.
    #[test]
    fn by_hand() {
        let b = TableBuilder {
            valid: vec![(0x61, 0x7A)],
            ignored: vec![(0xAD, 0xAD)],
            mapped: vec![(0x41, vec![0x61, 0x62])],
            emoji: vec![vec![0x1F468, 0xFE0F, 0x200D, 0x2764], vec![0x1F4A9]],
            groups: vec![(0, vec![(0x61, 0x7A)])],
            escape: vec![(0x200D, 0x200D)],
            ..TableBuilder::default()
        };
        let words = b.to_words();
        let table = parse(&words).expect("a table");
        let report = |name: &[u32]| report_by(&table, 0, name);
        assert_eq!(report(&[]).as_deref(), Ok(""));
        assert_eq!(report(&[0xAD, 0x41, 0xAD, 0x63, 0xAD]).as_deref(), Ok("text 0 5 61 62 63\n"));
        let name = [0xAD, 0x1F4A9, 0xAD, 0x1F468, 0x200D, 0x2764, 0x61, 0xAD, 0x2E, 0x7A, 0x1F4A9];
        let due = "emoji 0 3 1F4A9\nemoji 3 6 1F468 {200D} 2764\ntext 6 8 61\ntext 9 10 7A\nemoji 10 11 1F4A9\n";
        assert_eq!(report(&name).as_deref(), Ok(due));
        assert_eq!(report(&[0xAD]), Err(Refusal::new(6, 0)));
    }
}
