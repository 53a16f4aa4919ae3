//! Text that is safe to show, and carets below it.

/// How many codepoints are shown before and behind a place, and of what is
/// marked.
const AROUND: usize = 30;
const MARKED: usize = 60;

/// One codepoint or byte as it is shown, and its columns.
#[derive(Clone, Debug, PartialEq, Eq)]
pub struct Cell {
    pub text: String,
    pub columns: usize,
}

/// Whether a character can be shown by itself: it is printable, and no mark
/// that would join what stands before it.
fn stands_alone(c: char) -> bool {
    matches!(c, '\'' | '"' | '\\') || c.escape_debug().count() == 1
}

/// A codepoint as U+0041.
pub fn numbered(c: u32) -> String {
    format!("U+{c:04X}")
}

/// Codepoints in hexadecimal, as the line program writes them.
pub fn hex(codepoints: &[u32]) -> String {
    codepoints.iter().map(|c| format!("{c:X}")).collect::<Vec<_>>().join(" ")
}

/// Whether terminals give this character two columns (UAX 11, the blocks that
/// are wide as a whole, and emoji).
fn wide(c: char) -> bool {
    matches!(u32::from(c),
        0x1100..=0x115F | 0x2E80..=0xA4CF | 0xA960..=0xA97C | 0xAC00..=0xD7A3 | 0xF900..=0xFAFF | 0xFE30..=0xFE6F
        | 0xFF00..=0xFF60 | 0xFFE0..=0xFFE6 | 0x17000..=0x18CFF | 0x1B000..=0x1B2FF | 0x1F300..=0x1F64F
        | 0x1F680..=0x1F6FF | 0x1F900..=0x1FAFF | 0x20000..=0x3FFFD)
}

/// A codepoint by itself: the character, or its number in angle brackets.
pub fn cell(c: u32) -> Cell {
    match char::from_u32(c).filter(|&c| stands_alone(c)) {
        Some(c) => Cell { text: c.to_string(), columns: if wide(c) { 2 } else { 1 } },
        None => bracketed(&numbered(c)),
    }
}

fn bracketed(what: &str) -> Cell {
    Cell { text: format!("<{what}>"), columns: what.len() + 2 }
}

/// Bytes: the characters that they hold, and those that hold none as numbers.
pub fn cells_of_bytes(bytes: &[u8]) -> Vec<Cell> {
    let mut cells = Vec::new();
    for chunk in bytes.utf8_chunks() {
        cells.extend(chunk.valid().chars().map(|c| cell(u32::from(c))));
        cells.extend(chunk.invalid().iter().map(|byte| bracketed(&format!("{byte:02X}"))));
    }
    cells
}

pub fn cells(codepoints: &[u32]) -> Vec<Cell> {
    codepoints.iter().map(|&c| cell(c)).collect()
}

/// The start of a text, as far as it is worth a line.
pub fn start(cells: &[Cell]) -> String {
    let more = if cells.len() > 2 * MARKED { ".." } else { "" };
    cells.iter().take(2 * MARKED).map(|c| c.text.as_str()).chain([more]).collect()
}

/// A normal form to be read and copied: as it is, but what cannot be shown, or
/// would join what stands before the text, is given by its number. A joiner
/// between two characters holds an emoji together.
pub fn readable(form: &[u32]) -> String {
    let chars: Vec<Option<char>> = form.iter().map(|&c| char::from_u32(c)).collect();
    let shown = |at: usize| chars.get(at).copied().flatten().is_some_and(|c| stands_alone(c) && c != '.');
    let mut text = String::new();
    let mut joins = false; // there is a character that a mark can join
    for (at, &c) in chars.iter().enumerate() {
        let raw = c.filter(|&c| stands_alone(c) || joins && (c == '\u{200D}' && shown(at + 1) || is_mark(c)));
        joins = raw.is_some_and(|c| c != '.');
        match raw {
            Some(c) => text.push(c),
            None => text += &bracketed(&numbered(form[at])).text,
        }
    }
    text
}

/// Whether a character joins the one before it: the standard library escapes
/// it at the start of a text, and only there.
fn is_mark(c: char) -> bool {
    !stands_alone(c) && format!("a{c}").escape_debug().count() == 2
}

/// A line of cells, and a line of carets below those from `start` to before
/// `end`, at least one, with a note.
pub fn marked(cells: &[Cell], start: usize, end: usize, note: &str) -> [String; 2] {
    let end = end.max(start + 1).min(start + MARKED);
    let from = start.saturating_sub(AROUND);
    let upto = (end + AROUND).min(cells.len());
    let dots = |more: bool| if more { ".." } else { "" };
    let text: String = cells[from..upto.max(from)].iter().map(|c| c.text.as_str()).collect();
    let columns = |part: &[Cell]| part.iter().map(|c| c.columns).sum::<usize>();
    let within = |at: usize| at.min(cells.len());
    let before = columns(&cells[from..within(start)]) + dots(from > 0).len();
    let carets = columns(&cells[within(start)..within(end)]).max(1);
    [
        format!("{}{text}{}", dots(from > 0), dots(upto < cells.len())),
        format!("{}{} {note}", " ".repeat(before), "^".repeat(carets)),
    ]
}

#[cfg(test)]
mod tests {
    use super::*;

    fn of(text: &str) -> Vec<u32> {
        text.chars().map(u32::from).collect()
    }

    #[test]
    fn cells_are_safe() {
        assert_eq!(cell(0x61), Cell { text: "a".into(), columns: 1 });
        assert_eq!(cell(0x1F4A9), Cell { text: "\u{1F4A9}".into(), columns: 2 });
        for (c, text) in [
            (0x1B, "<U+001B>"),
            (0x301, "<U+0301>"),
            (0x200D, "<U+200D>"),
            (0x202E, "<U+202E>"),
            (0xFE0F, "<U+FE0F>"),
            (0xA0, "<U+00A0>"),
            (0xD800, "<U+D800>"),
            (0x110000, "<U+110000>"),
        ] {
            assert_eq!(cell(c), Cell { text: text.into(), columns: text.len() }, "{c:X}");
        }
        assert_eq!(start(&cells_of_bytes(b"a\xFF\xC3\xA9\\'")), "a<FF>\u{E9}\\'");
    }

    #[test]
    fn forms_can_be_copied() {
        for same in ["nick.eth", "x\u{301}", "\u{1F468}\u{200D}\u{1F4BB}", "\u{928}\u{947}", "1\u{20E3}"] {
            assert_eq!(readable(&of(same)), same);
        }
        assert_eq!(readable(&of("\u{301}x")), "<U+0301>x");
        assert_eq!(readable(&of("x.\u{301}")), "x.<U+0301>");
        assert_eq!(readable(&of("x\u{202E}y")), "x<U+202E>y");
        assert_eq!(readable(&of("x\u{200D}")), "x<U+200D>");
        assert_eq!(readable(&[0x61, 0x110000]), "a<U+110000>");
    }

    #[test]
    fn carets_stand_below() {
        let lines = |text: &str, start, end| marked(&cells(&of(text)), start, end, "!").join("\n");
        assert_eq!(lines("nick", 1, 2), "nick\n ^ !");
        assert_eq!(lines("a.bc", 2, 4), "a.bc\n  ^^ !");
        assert_eq!(lines("\u{1F4A9}\u{301}b", 2, 3), "\u{1F4A9}<U+0301>b\n          ^ !");
        assert_eq!(lines("a..b", 2, 2), "a..b\n  ^ !");
        assert_eq!(lines("a.", 2, 2), "a.\n  ^ !");
        assert_eq!(lines("", 0, 0), "\n^ !");
        let long = "a".repeat(500);
        let shown = lines(&long, 100, 101);
        assert_eq!(shown, format!("..{}..\n{}^ !", "a".repeat(61), " ".repeat(32)));
        assert!(lines(&long, 0, 500).lines().all(|line| line.len() < 100));
    }
}
