//! An answer for programs: an object on a line.

use crate::judged::{Judged, Part};
use crate::names::Names;
use crate::options::Input;
use crate::told::digits;
use answers::{Kind, Place, Refusal};
use std::fmt::Write;

/// A string; what is no printable ASCII is escaped where a terminal or a reader
/// of lines could take harm.
fn string(text: &str) -> String {
    let mut out = String::from("\"");
    for c in text.chars() {
        match c {
            '"' | '\\' => out.extend(['\\', c]),
            '\u{0}'..='\u{1F}' | '\u{7F}'..='\u{9F}' | '\u{2028}' | '\u{2029}' => {
                let _ = write!(out, "\\u{:04x}", u32::from(c));
            }
            _ => out.push(c),
        }
    }
    out + "\""
}

/// Codepoints as text; null where one is no scalar value.
fn text(codepoints: &[u32]) -> String {
    let text: Option<String> = codepoints.iter().map(|&c| char::from_u32(c)).collect();
    text.map_or("null".into(), |text| string(&text))
}

fn numbers(codepoints: &[u32]) -> String {
    let list: Vec<String> = codepoints.iter().map(u32::to_string).collect();
    format!("[{}]", list.join(","))
}

fn input(input: &Input) -> String {
    match input {
        Input::Text(bytes) => std::str::from_utf8(bytes).map_or("null".into(), string),
        Input::Numbers(codepoints) => text(codepoints),
    }
}

fn label(part: &Part, names: &Names) -> String {
    let kind = match part.kind {
        Kind::Emoji => "\"kind\":\"emoji\"".into(),
        Kind::Ascii => "\"kind\":\"ascii\"".into(),
        Kind::Group { number, restricted } => {
            let script = names.of(number).map_or("null".into(), string);
            format!("\"kind\":\"group\",\"group\":{number},\"script\":{script},\"restricted\":{restricted}")
        }
    };
    format!("{{\"form\":{},\"codepoints\":{},{kind}}}", text(&part.form), numbers(&part.form))
}

fn refusal(refusal: Refusal) -> String {
    let place_is = match refusal.place_is() {
        Place::Codepoint => "\"codepoint\"",
        Place::Label => "\"label\"",
        Place::Byte => "\"byte\"",
        Place::Nothing => "null",
    };
    let Refusal { number, place } = refusal;
    format!("\"refusal\":{number},\"place\":{place},\"place_is\":{place_is},\"meaning\":{}", string(refusal.meaning()))
}

/// The groups behind a 14.
fn respelled(groups: &[usize], names: &Names) -> String {
    let group = |&number: &usize| {
        let script = names.of(number).map_or("null".into(), string);
        format!("{{\"group\":{number},\"script\":{script}}}")
    };
    match groups {
        [] => String::new(),
        _ => format!(",\"respelled\":[{}]", groups.iter().map(group).collect::<Vec<_>>().join(",")),
    }
}

/// The object for a name; its line where it comes from a file.
pub fn object(line: Option<usize>, given: &Input, judged: &Judged, names: &Names) -> String {
    let line = line.map_or(String::new(), |number| format!("\"line\":{number},"));
    let (front, back) = judged.blanks;
    let found = match &judged.found {
        Ok((form, parts)) => {
            let labels: Vec<String> = parts.iter().map(|part| label(part, names)).collect();
            let screen = judged.screen.as_deref().unwrap_or_default();
            format!(
                "\"accepted\":true,\"form\":{},\"codepoints\":{},\"screen\":{},\"screen_codepoints\":{},\"labels\":[{}]",
                text(form),
                numbers(form),
                text(screen),
                numbers(screen),
                labels.join(",")
            )
        }
        Err(found) => format!("\"accepted\":false,{}{}", refusal(*found), respelled(&judged.respelled, names)),
    };
    let hash = match judged.hash {
        Some(Ok(node)) => format!(",\"hash\":\"{}\"", digits(&node)),
        Some(Err(refusal)) => format!(",\"hash\":null,\"hash_refusal\":{}", refusal.number),
        None => String::new(),
    };
    let report = judged.report.as_ref().map_or(String::new(), |lines| {
        let lines: Vec<String> = lines.iter().map(|line| string(line)).collect();
        format!(",\"report\":[{}]", lines.join(","))
    });
    format!("{{{line}\"input\":{},\"blanks\":[{front},{back}],{found}{hash}{report}}}", input(given))
}

/// The object for a line that holds no numbers.
pub fn unreadable(line: usize, why: &str) -> String {
    format!("{{\"line\":{line},\"unreadable\":{}}}", string(why))
}

/// The last object, where there are many names.
pub fn count(names: usize, refused: usize, unreadable: usize) -> String {
    let accepted = names - refused - unreadable;
    format!("{{\"names\":{names},\"accepted\":{accepted},\"refused\":{refused},\"unreadable\":{unreadable}}}")
}

#[cfg(test)]
mod tests {
    use super::*;

    #[test]
    fn strings() {
        assert_eq!(string("a\"\\\n\u{7F}\u{2028}é"), "\"a\\\"\\\\\\u000a\\u007f\\u2028é\"");
        assert_eq!(text(&[0x61, 0xD800]), "null");
        assert_eq!(input(&Input::Text(b"\xFF".to_vec())), "null");
    }
}
