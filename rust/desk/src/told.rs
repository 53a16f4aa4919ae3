//! An answer in words.

use crate::judged::{Judged, Part};
use crate::names::Names;
use crate::options::Input;
use crate::screen::{cells, cells_of_bytes, hex, marked, numbered, readable, start, Cell};
use answers::{Place, Refusal};
use plain::{BLANKS, STOP};

/// The cells of what was handed in.
pub fn cells_of(input: &Input) -> Vec<Cell> {
    match input {
        Input::Text(bytes) => cells_of_bytes(bytes),
        Input::Numbers(codepoints) => cells(codepoints),
    }
}

/// A name as it was handed in, for the head of its answer.
pub fn head(input: &Input) -> String {
    start(&cells_of(input))
}

/// The lines for a name.
pub fn lines(input: &Input, judged: &Judged, names: &Names) -> Vec<String> {
    let mut lines = match &judged.found {
        Ok((form, parts)) => accepted(form, judged.screen.as_deref(), parts, names),
        Err(refusal) => refused(input, judged, *refusal),
    };
    lines.extend(judged.report.iter().flatten().cloned());
    if !judged.respelled.is_empty() {
        let groups: Vec<String> = judged.respelled.iter().map(|&group| names.group(group)).collect();
        lines.push(format!("could be respelled in {}", groups.join(", ")));
    }
    match judged.hash {
        Some(Ok(node)) => lines.push(format!("hash {}", digits(&node))),
        Some(Err(refusal)) => lines.push(format!("no hash: {}", sentence(refusal))),
        None => {}
    }
    if judged.blanks != (0, 0) {
        let (front, back) = judged.blanks;
        lines.push(format!("blanks taken off: {front} at the front, {back} at the back"));
    }
    // All but the first line are set in.
    lines.iter_mut().skip(1).for_each(|line| line.insert_str(0, "   "));
    lines
}

fn accepted(form: &[u32], screen: Option<&[u32]>, parts: &[Part], names: &Names) -> Vec<String> {
    if form.is_empty() && parts.is_empty() {
        return vec!["ok".into(), "the empty name, which has no labels".into()];
    }
    let label =
        |(number, part): (usize, &Part)| format!("label {number}: {}, {}", readable(&part.form), names.kind(part.kind));
    let mut lines = vec![format!("ok {}", readable(form)), hex(form)];
    if let Some(screen) = screen.filter(|screen| *screen != form) {
        lines.extend([format!("screen form {}", readable(screen)), hex(screen)]);
    }
    lines.extend(parts.iter().enumerate().map(label));
    lines
}

/// Bytes in lower-case hexadecimal, as hashes are written.
pub fn digits(bytes: &[u8]) -> String {
    bytes.iter().map(|b| format!("{b:02x}")).collect()
}

/// The refusal without its first word: `5 at codepoint 1: ..`.
fn sentence(refusal: Refusal) -> String {
    let text = refusal.to_string();
    text.strip_prefix("refusal ").unwrap_or(&text).to_string()
}

fn refused(input: &Input, judged: &Judged, refusal: Refusal) -> Vec<String> {
    let mut lines = vec![format!("no {}", sentence(refusal))];
    match (&judged.codepoints, refusal.place_is(), input) {
        (Some(codepoints), Place::Codepoint, _) => {
            lines.extend(at_codepoint(codepoints, refusal.place));
        }
        (Some(codepoints), Place::Label, _) => lines.extend(at_label(codepoints, refusal.place)),
        (_, Place::Byte, Input::Text(bytes)) => lines.extend(at_byte(bytes, refusal.place)),
        _ => {}
    }
    lines
}

/// The character of 4 and 5, and what might help.
fn at_codepoint(codepoints: &[u32], place: usize) -> Vec<String> {
    let c = codepoints[place];
    let mut lines = marked(&cells(codepoints), place, place + 1, &numbered(c)).to_vec();
    let outer = codepoints[..place].iter().all(|c| BLANKS.contains(c))
        || codepoints[place..].iter().all(|c| BLANKS.contains(c));
    if BLANKS.contains(&c) && outer {
        lines.push("a blank or a line end around the name: --trim takes it off".into());
    }
    lines
}

/// The label of 6 to 14, 16 and 17.
fn at_label(codepoints: &[u32], place: usize) -> Vec<String> {
    let mut labels = codepoints.split(|&c| c == STOP);
    let before: usize = labels.by_ref().take(place).map(|label| label.len() + 1).sum();
    let length = labels.next().map_or(0, <[u32]>::len);
    marked(&cells(codepoints), before, before + length, &format!("label {place}")).to_vec()
}

/// The byte of 30.
fn at_byte(bytes: &[u8], place: usize) -> Vec<String> {
    let before = String::from_utf8_lossy(&bytes[..place]).chars().count();
    marked(&cells_of_bytes(bytes), before, before + 1, &format!("byte {place}")).to_vec()
}

#[cfg(test)]
mod tests {
    use super::*;
    use crate::calls::Plain;
    use crate::judged::Desk;
    use plain::TableBuilder;

    /// The screen form below the normal form, where it is another; by the number
    /// of the Greek group.
    #[test]
    fn screen_forms() {
        let table = TableBuilder {
            valid: vec![(0x61, 0x61), (0x3B1, 0x3B1), (0x3BE, 0x3BE)],
            emoji: vec![vec![0x2764, 0xFE0F], vec![0xFE0F; 32]],
            groups: vec![(0, vec![(0x61, 0x61)]), (0, vec![(0x3B1, 0x3B1), (0x3BE, 0x3BE)])],
            ..TableBuilder::default()
        };
        let words = table.to_words();
        let told = |greek: u32, name: &[u32]| {
            let desk =
                Desk { calls: &Plain, table: &words, setting: 0, greek, trim: false, hash: false, report: false };
            let input = Input::Numbers(name.to_vec());
            lines(&input, &desk.judge(&input), &Names::default())
        };
        let plain = ["ok a", "   61", "   label 0: a, ASCII"];
        assert_eq!(told(1, &[0x61]), plain);
        assert_eq!(told(1, &[0x3BE])[..2], ["ok ξ", "   3BE"]);
        assert_eq!(told(1, &[0x3BE]).len(), 3);
        assert_eq!(told(2, &[0x3BE])[..4], ["ok ξ", "   3BE", "   screen form Ξ", "   39E"]);
        let heart = ["ok ❤", "   2764", "   screen form ❤\u{FE0F}", "   2764 FE0F", "   label 0: ❤, emoji"];
        assert_eq!(told(1, &[0x2764]), heart);
        assert_eq!(told(1, &[0x62])[0], "no 5 at codepoint 0: a codepoint that names may not have");
        assert_eq!(told(1, &[])[0], "ok");
        // An empty emoji of 32 FE0F, which are shown.
        assert_eq!(told(1, &[0xFE0F, 0x61])[3], format!("   {}61", "FE0F ".repeat(32)));
    }
}
