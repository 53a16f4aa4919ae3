//! Why the line program of 01 ("Names at the counter") writes `bad`: the first
//! line that it cannot read, or its table file. It reads the same bytes beside
//! the program, which itself says no more than `bad`.

use std::io;

/// Bytes of a line, and of a table file.
pub const LINE: usize = 8_192;
pub const FILE: usize = 32_768;

/// Why a line is unreadable, if it is; `first` where it is the first of the
/// input.
pub fn fault(line: &[u8], first: bool) -> Option<String> {
    if line.len() > LINE {
        return Some(format!("it has over {LINE} bytes"));
    }
    if first && line.starts_with(b"\xEF\xBB\xBF") {
        return Some("the file starts with a byte order mark (EF BB BF)".into());
    }
    if line.ends_with(b"\r") {
        return Some("it ends in CR LF, and a line ends in LF alone".into());
    }
    if line.is_empty() {
        return None;
    }
    let mut start = 0;
    line.split(|&byte| byte == b' ').find_map(|word| {
        let at = start;
        start += word.len() + 1;
        word_fault(word, at, line.len())
    })
}

/// Why a word of a line, at this place, is no number.
fn word_fault(word: &[u8], at: usize, length: usize) -> Option<String> {
    if word.is_empty() {
        return Some(match at {
            0 => "it starts with a blank".into(),
            _ if at == length => "it ends in a blank".into(),
            _ => format!("two blanks together, at byte {at}; single ones part numbers"),
        });
    }
    let odd = word.iter().position(|byte| !matches!(byte, b'0'..=b'9' | b'A'..=b'F'));
    match odd.map(|i| (i, word[i])) {
        Some((i, b'a'..=b'f')) => Some(format!("lower case at byte {}; numbers are upper-case hexadecimal", at + i)),
        Some((i, byte)) => Some(format!("{} at byte {}; {EXPECTED} (./normalise takes text)", shown(byte), at + i)),
        None if word.len() > 8 => Some(format!("a number of {} digits at byte {at}; 8 are the most", word.len())),
        None => None,
    }
}

/// What a line should hold.
pub const EXPECTED: &str = "a name is a line of upper-case hexadecimal codepoints parted by single blanks, as 5F 24 41";

fn shown(byte: u8) -> String {
    match byte {
        b'!'..=b'~' => format!("'{}'", char::from(byte)),
        _ => format!("byte {byte:02X}"),
    }
}

/// Watches an input as it passes.
#[derive(Default)]
pub struct Watch {
    /// The line so far, one byte more than it may have.
    line: Vec<u8>,
    /// The lines that have ended.
    ended: u64,
    /// The first unreadable line, counted from 1, and why.
    pub found: Option<(u64, String)>,
}

impl Watch {
    /// The next bytes.
    pub fn take(&mut self, bytes: &[u8]) {
        for &byte in bytes {
            if self.found.is_some() {
                return;
            }
            if byte == b'\n' {
                self.end_line();
            } else if self.line.len() <= LINE {
                self.line.push(byte);
                if self.line.len() > LINE {
                    self.judge();
                }
            }
        }
    }

    /// The end of the input.
    pub fn end(&mut self) {
        if self.found.is_none() && !self.line.is_empty() {
            self.end_line();
        }
    }

    fn end_line(&mut self) {
        self.judge();
        self.ended += 1;
        self.line.clear();
    }

    fn judge(&mut self) {
        self.found = fault(&self.line, self.ended == 0).map(|why| (self.ended + 1, why));
    }
}

/// Why a table file gives `bad`, if it does.
pub fn table_fault(file: io::Result<Vec<u8>>) -> Option<String> {
    match file {
        Err(fault) => Some(fault.to_string()),
        Ok(file) if file.len() > FILE => Some(format!("{} bytes, and {FILE} are the most", file.len())),
        Ok(file) => plain::unpack(&file, &mut vec![0; FILE]).err().map(|refusal| refusal.to_string()),
    }
}

#[cfg(test)]
mod tests {
    use super::*;

    #[test]
    fn faults_of_a_line() {
        for (line, due) in [
            (&b""[..], None),
            (b"5F 24 41", None),
            (b"0000005F", None),
            (b"5f", Some("lower case at byte 1")),
            (b"61 6a", Some("lower case at byte 4")),
            (b"nick.eth", Some("'n' at byte 0; a name is a line of upper-case hexadecimal")),
            (b"61\r", Some("CR LF")),
            (b"\xEF\xBB\xBF61", Some("byte order mark")),
            (b"61\t62", Some("byte 09 at byte 2")),
            (b" 61", Some("starts with a blank")),
            (b"61 ", Some("ends in a blank")),
            (b"61  62", Some("two blanks together, at byte 3")),
            (b"000000061", Some("a number of 9 digits at byte 0")),
            (&[b'6'; LINE + 1], Some("over 8192 bytes")),
        ] {
            let said = fault(line, true);
            assert_eq!(said.is_some(), due.is_some(), "{said:?}");
            assert!(said.is_none_or(|said| said.contains(due.unwrap_or_default())));
        }
        assert!(fault(b"\xEF\xBB\xBF61", false).is_some_and(|said| said.starts_with("byte EF at byte 0")));
    }

    #[test]
    fn the_first_unreadable_line_is_found_however_it_comes() {
        let input = b"61\n\n5F 24\nnick\n6f\n";
        for size in 1..=input.len() {
            let mut watch = Watch::default();
            input.chunks(size).for_each(|piece| watch.take(piece));
            watch.end();
            assert!(watch.found.is_some_and(|(line, why)| line == 4 && why.starts_with("'n'")));
        }
        let mut watch = Watch::default();
        watch.take(&vec![b'6'; 1 << 20]);
        assert!(watch.found.is_some_and(|(line, why)| line == 1 && why.contains("over 8192")));
        let mut watch = Watch::default();
        watch.take(b"61\n6");
        watch.end();
        assert_eq!(watch.found, None);
    }

    #[test]
    fn faults_of_a_table() {
        let said = |file: Vec<u8>| table_fault(Ok(file)).unwrap_or_default();
        assert_eq!(said(plain::pack(&[])), "");
        assert_eq!(said(plain::pack_as(1, &[])), "");
        assert_eq!(said(plain::pack_as(2, &[])), "");
        assert!(said(vec![0; FILE + 1]).contains("32769 bytes"));
        assert!(said(vec![5]).contains("another version"));
        assert!(said(vec![1]).contains("wrong length"));
        assert!(table_fault(std::fs::read("/no/such/file")).is_some());
    }
}
