//! A small JSON reader: enough for the published files, strict otherwise.

#[derive(Clone, Debug, PartialEq)]
pub enum Value {
    Null,
    Bool(bool),
    Number(f64),
    Text(String),
    List(Vec<Value>),
    Map(Vec<(String, Value)>),
}

impl Value {
    /// The value of this key; `None` where this is no map or has no such key.
    pub fn get(&self, key: &str) -> Option<&Value> {
        match self {
            Value::Map(entries) => entries.iter().find(|(k, _)| k == key).map(|(_, v)| v),
            _ => None,
        }
    }
    pub fn list(&self) -> Option<&[Value]> {
        match self {
            Value::List(items) => Some(items),
            _ => None,
        }
    }
    pub fn text(&self) -> Option<&str> {
        match self {
            Value::Text(text) => Some(text),
            _ => None,
        }
    }
    pub fn boolean(&self) -> Option<bool> {
        match self {
            Value::Bool(b) => Some(*b),
            _ => None,
        }
    }
    /// A whole number that fits u32.
    pub fn number(&self) -> Option<u32> {
        match self {
            Value::Number(n) if *n >= 0.0 && *n <= f64::from(u32::MAX) && n.fract() == 0.0 => Some(*n as u32),
            _ => None,
        }
    }
}

/// Lists and maps deeper than this are refused.
const DEPTH: usize = 64;

/// Reads one value and nothing after it.
pub fn read(text: &str) -> Result<Value, String> {
    let mut reader = Reader { bytes: text.as_bytes(), at: 0 };
    if text.starts_with('\u{FEFF}') {
        return reader.fault("a byte order mark, which JSON does not have");
    }
    let value = reader.value(0)?;
    reader.blanks();
    if reader.at < reader.bytes.len() {
        return reader.fault("something after the value");
    }
    Ok(value)
}

struct Reader<'a> {
    bytes: &'a [u8],
    at: usize,
}

impl Reader<'_> {
    fn fault<T>(&self, what: &str) -> Result<T, String> {
        let line = self.bytes[..self.at].iter().filter(|&&b| b == b'\n').count() + 1;
        Err(format!("line {line}: {what}"))
    }

    fn blanks(&mut self) {
        while matches!(self.bytes.get(self.at), Some(b' ' | b'\t' | b'\n' | b'\r')) {
            self.at += 1;
        }
    }

    fn eat(&mut self, wanted: &str) -> bool {
        let found = self.bytes[self.at..].starts_with(wanted.as_bytes());
        if found {
            self.at += wanted.len();
        }
        found
    }

    fn value(&mut self, depth: usize) -> Result<Value, String> {
        if depth > DEPTH {
            return self.fault("too deep");
        }
        self.blanks();
        match self.bytes.get(self.at) {
            Some(b'{') => self.map(depth),
            Some(b'[') => self.items(depth),
            Some(b'"') => Ok(Value::Text(self.string()?)),
            Some(b'-' | b'0'..=b'9') => self.numeral(),
            _ if self.eat("true") => Ok(Value::Bool(true)),
            _ if self.eat("false") => Ok(Value::Bool(false)),
            _ if self.eat("null") => Ok(Value::Null),
            _ => self.fault("a value is expected"),
        }
    }

    fn items(&mut self, depth: usize) -> Result<Value, String> {
        self.at += 1;
        let mut items = Vec::new();
        self.blanks();
        if self.eat("]") {
            return Ok(Value::List(items));
        }
        loop {
            items.push(self.value(depth + 1)?);
            self.blanks();
            if self.eat("]") {
                return Ok(Value::List(items));
            }
            if !self.eat(",") {
                return self.fault("a comma or ] is expected");
            }
        }
    }

    fn map(&mut self, depth: usize) -> Result<Value, String> {
        self.at += 1;
        let mut entries = Vec::new();
        self.blanks();
        if self.eat("}") {
            return Ok(Value::Map(entries));
        }
        loop {
            self.blanks();
            if self.bytes.get(self.at) != Some(&b'"') {
                return self.fault("a key is expected");
            }
            let key = self.string()?;
            if entries.iter().any(|(k, _)| *k == key) {
                return self.fault("a key stands twice");
            }
            self.blanks();
            if !self.eat(":") {
                return self.fault("a colon is expected");
            }
            entries.push((key, self.value(depth + 1)?));
            self.blanks();
            if self.eat("}") {
                return Ok(Value::Map(entries));
            }
            if !self.eat(",") {
                return self.fault("a comma or } is expected");
            }
        }
    }

    fn numeral(&mut self) -> Result<Value, String> {
        let start = self.at;
        while matches!(self.bytes.get(self.at), Some(b'-' | b'+' | b'.' | b'e' | b'E' | b'0'..=b'9')) {
            self.at += 1;
        }
        let digits = std::str::from_utf8(&self.bytes[start..self.at]).unwrap_or("");
        match digits.parse::<f64>() {
            Ok(n) if n.is_finite() => Ok(Value::Number(n)),
            _ => self.fault("no number"),
        }
    }

    fn hex4(&mut self) -> Result<u32, String> {
        let digits = self.bytes.get(self.at..self.at + 4).and_then(|d| std::str::from_utf8(d).ok());
        match digits.filter(|d| d.bytes().all(|b| b.is_ascii_hexdigit())).map(|d| u32::from_str_radix(d, 16)) {
            Some(Ok(n)) => {
                self.at += 4;
                Ok(n)
            }
            _ => self.fault("four hex digits are expected"),
        }
    }

    /// A string; a surrogate escape without its partner becomes FFFD.
    fn string(&mut self) -> Result<String, String> {
        self.at += 1;
        let mut out = Vec::new();
        loop {
            let Some(&byte) = self.bytes.get(self.at) else {
                return self.fault("a string has no end");
            };
            self.at += 1;
            match byte {
                b'"' => return String::from_utf8(out).or_else(|_| self.fault("a string is not UTF-8")),
                0..=0x1F => return self.fault("a control character in a string"),
                b'\\' => {
                    let Some(&escape) = self.bytes.get(self.at) else {
                        return self.fault("a string has no end");
                    };
                    self.at += 1;
                    let c = match escape {
                        b'"' | b'\\' | b'/' => char::from(escape),
                        b'b' => '\u{8}',
                        b'f' => '\u{C}',
                        b'n' => '\n',
                        b'r' => '\r',
                        b't' => '\t',
                        b'u' => {
                            let high = self.hex4()?;
                            let mut c = high;
                            if (0xD800..0xDC00).contains(&high) {
                                let before = self.at;
                                if self.eat("\\u") {
                                    let low = self.hex4()?;
                                    if (0xDC00..0xE000).contains(&low) {
                                        c = 0x10000 + ((high - 0xD800) << 10) + (low - 0xDC00);
                                    } else {
                                        self.at = before;
                                    }
                                }
                            }
                            char::from_u32(c).unwrap_or('\u{FFFD}')
                        }
                        _ => return self.fault("no such escape"),
                    };
                    out.extend(c.encode_utf8(&mut [0; 4]).as_bytes());
                }
                _ => out.push(byte),
            }
        }
    }
}

#[cfg(test)]
mod tests {
    use super::*;

    #[test]
    fn reads_values() {
        let v = read(" {\"a\": [1, 2.5, -3, 1e2], \"b\": {\"c\": null, \"d\": [true, false]}, \"e\": []} \n").unwrap();
        let a: Vec<Option<u32>> = v.get("a").unwrap().list().unwrap().iter().map(Value::number).collect();
        assert_eq!(a, [Some(1), None, None, Some(100)]);
        assert_eq!(v.get("b").unwrap().get("c"), Some(&Value::Null));
        assert_eq!(v.get("b").unwrap().get("d").unwrap().list().unwrap()[0].boolean(), Some(true));
        assert_eq!(v.get("e").unwrap().list(), Some(&[][..]));
        assert_eq!(v.get("x"), None);
    }

    #[test]
    fn reads_strings() {
        let v = read(r#""a\n\u0041\ud83d\udca9\ud83d\"é""#).unwrap();
        assert_eq!(v.text(), Some("a\nA\u{1F4A9}\u{FFFD}\"é"));
    }

    #[test]
    fn refuses_what_is_no_json() {
        for bad in [
            "",
            "[1,]",
            "[1 2]",
            "{\"a\" 1}",
            "{a:1}",
            "\"a",
            "[",
            "1 2",
            "tru",
            "\"\\x\"",
            "\"\\u12G4\"",
            "--1",
            "{\"a\":1,\"a\":2}",
            "\"\u{1}\"",
        ] {
            assert!(read(bad).is_err(), "{bad}");
        }
        assert!(read(&"[".repeat(1000)).is_err());
        assert!(read("[1,\n2,\n x]").unwrap_err().starts_with("line 3:"));
    }
}
