//! What the command line of `./normalise` asks for.

use std::ffi::OsString;
use std::os::unix::ffi::OsStrExt;
use std::path::PathBuf;

pub const HELP: &str = "\
usage: ./normalise [OPTIONS] NAME           as ./normalise 'Nick.ETH'
       ./normalise [OPTIONS] --hex HEX ..   as ./normalise --hex 5F 24 41, or U+005F U+0024 U+0041
       ./normalise [OPTIONS] --file FILE    names one a line, as text, or with --hex as numbers
       ./normalise [OPTIONS]                the same from standard input
       ./normalise --table NEW --moved BOOK the payees of a book that a new table would file differently

Shows the normal form of a name as characters and as codepoints, below it its
screen form where that is another, and the kind of each label; or why the name
is refused, and where. Labels and places count from 0.

  --hex           the name is given as hexadecimal codepoints, of 1 to 8 digits
  --file FILE     take the names of this file; - is standard input
  --trim          take tabs, line ends and blanks off both ends, and say so
  --restrict      refuse labels of restricted scripts, as 17
  --table FILE    take this table and not data/full.tab, the full-size stand-in
                  (docs/STANDIN.md); the names of its scripts come from the
                  file beside it: X.groups beside X.tab
  --hash          show the name hash of EIP-137 too
  --moved BOOK    a file of a payee book's area, 16,912 words of 4 bytes each,
                  big-endian: list the payees whose names the table refuses or
                  puts into another form, with the old and the new form
  --report        show what was typed, token by token: text or emoji, where it
                  starts and ends, and what became of it, in braces what is
                  better not shown as it is
  --json          write an object a line for each name, for programs
  --plain         by the plain Rust version, which needs no proof
  --help          write this text
  --              what follows is the name, though it starts with -

Status: 0 accepted, or no payee moves; 1 a name is refused, or one moves; 2 bad usage, or a line that holds no
numbers; 3 something that is needed is missing or not proved.
";

/// A name as it is handed in.
#[derive(Clone, Debug, PartialEq, Eq)]
pub enum Input {
    /// Bytes, which should be UTF-8.
    Text(Vec<u8>),
    /// Codepoints.
    Numbers(Vec<u32>),
}

/// Where the names come from.
#[derive(Clone, Debug, Default, PartialEq, Eq)]
pub enum Source {
    One(Input),
    File(PathBuf),
    #[default]
    Standard,
    /// The area of a payee book, for the command that lists moved payees.
    Book(PathBuf),
}

#[derive(Clone, Debug, Default, PartialEq, Eq)]
pub struct Options {
    pub hex: bool,
    pub trim: bool,
    pub restrict: bool,
    pub hash: bool,
    pub report: bool,
    pub json: bool,
    pub table: Option<PathBuf>,
    pub source: Source,
}

/// A number: 41, U+0041 or u+41.
pub fn number(word: &[u8]) -> Option<u32> {
    let digits = word.strip_prefix(b"U+").or(word.strip_prefix(b"u+")).unwrap_or(word);
    let hex = (1..=8).contains(&digits.len()) && digits.iter().all(u8::is_ascii_hexdigit);
    hex.then(|| u32::from_str_radix(std::str::from_utf8(digits).ok()?, 16).ok())?
}

/// The numbers of these words, or the word that is none.
pub fn numbers<'a>(words: impl IntoIterator<Item = &'a [u8]>) -> Result<Vec<u32>, String> {
    let read = |word| number(word).ok_or_else(|| format!("{} is no hexadecimal number", String::from_utf8_lossy(word)));
    words.into_iter().map(read).collect()
}

/// The input that the words after the options stand for.
fn one(words: &[OsString], hex: bool) -> Result<Input, String> {
    let marked = |word: &OsString| word.to_ascii_uppercase().as_bytes().starts_with(b"U+");
    let bytes = || words.iter().map(|word| word.as_bytes());
    match words {
        _ if hex || words.iter().all(marked) => Ok(Input::Numbers(numbers(bytes())?)),
        [name] => Ok(Input::Text(name.as_bytes().to_vec())),
        _ => Err(format!("{} words: put a name in quotes; --hex takes numbers, --file many names", words.len())),
    }
}

/// Reads the command line; `None` where help is asked for.
pub fn options(words: impl IntoIterator<Item = OsString>) -> Result<Option<Options>, String> {
    let mut found = Options::default();
    let (mut file, mut book, mut rest) = (None, None, Vec::new());
    let mut words = words.into_iter();
    while let Some(word) = words.next() {
        let mut value = |option: &str| words.next().map(PathBuf::from).ok_or(format!("{option} needs a file"));
        match word.as_bytes() {
            b"--help" | b"-h" => return Ok(None),
            b"--hex" => found.hex = true,
            b"--trim" => found.trim = true,
            b"--restrict" => found.restrict = true,
            b"--hash" => found.hash = true,
            b"--report" => found.report = true,
            b"--json" => found.json = true,
            b"--table" => found.table = Some(value("--table")?),
            b"--file" => file = Some(value("--file")?),
            b"--moved" => book = Some(value("--moved")?),
            b"--" => rest.extend(words.by_ref()),
            [b'-', _, ..] => return Err(format!("{}: no such option", word.to_string_lossy())),
            _ => rest.push(word),
        }
    }
    if let Some(path) = book {
        let alone = Options { table: found.table.clone(), ..Options::default() };
        if file.is_some() || !rest.is_empty() || found != alone {
            return Err("--moved takes a book and a table alone".into());
        }
        return Ok(Some(Options { source: Source::Book(path), ..alone }));
    }
    found.source = match file {
        Some(_) if !rest.is_empty() => return Err("a name and --file".into()),
        Some(path) if path.as_os_str() == "-" => Source::Standard,
        Some(path) => Source::File(path),
        None if rest.is_empty() => Source::Standard,
        None => Source::One(one(&rest, found.hex)?),
    };
    Ok(Some(found))
}

#[cfg(test)]
mod tests {
    use super::*;

    fn read(words: &[&str]) -> Result<Option<Options>, String> {
        options(words.iter().map(OsString::from))
    }

    fn source(words: &[&str]) -> Source {
        read(words).expect("good words").expect("no help").source
    }

    #[test]
    fn names_and_numbers() {
        assert_eq!(source(&["Nick.ETH"]), Source::One(Input::Text(b"Nick.ETH".to_vec())));
        assert_eq!(source(&[""]), Source::One(Input::Text(vec![])));
        assert_eq!(source(&["--", "--hex"]), Source::One(Input::Text(b"--hex".to_vec())));
        let numbers = Source::One(Input::Numbers(vec![0x5F, 0x24, 0x41]));
        assert_eq!(source(&["--hex", "5F", "24", "41"]), numbers);
        assert_eq!(source(&["U+005F", "u+24", "U+41"]), numbers);
        assert_eq!(source(&["--hex", "5f", "U+24", "00000041"]), numbers);
        assert_eq!(source(&[]), Source::Standard);
        assert_eq!(source(&["--file", "-", "--hex"]), Source::Standard);
        assert_eq!(source(&["--file", "x"]), Source::File("x".into()));
        assert_eq!(source(&["--table", "t", "--moved", "x"]), Source::Book("x".into()));
    }

    #[test]
    fn bad_usage() {
        for (words, fault) in [
            (&["5F", "24"][..], "put a name in quotes; --hex takes numbers"),
            (&["--hex", "xyz"], "xyz is no hexadecimal number"),
            (&["--hex", "000000041"], "no hexadecimal number"),
            (&["U+"], "no hexadecimal number"),
            (&["--other"], "--other: no such option"),
            (&["-x"], "no such option"),
            (&["--table"], "--table needs a file"),
            (&["--file", "x", "y"], "a name and --file"),
            (&["--moved"], "--moved needs a file"),
            (&["--moved", "x", "y"], "--moved takes a book and a table alone"),
        ] {
            let said = read(words).expect_err(fault);
            assert!(said.contains(fault), "{words:?}: {said}");
        }
        for option in ["--hex", "--trim", "--restrict", "--hash", "--report", "--json"] {
            let said = read(&["--moved", "x", option]).expect_err(option);
            assert!(said.contains("a book and a table alone"), "{option}: {said}");
        }
        assert_eq!(read(&["--help", "--other"]), Ok(None));
    }
}
