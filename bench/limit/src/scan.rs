//! JSON in one pass: each line is checked whole, and the members that an upgrade needs are ranges of it.

/// What a line says.
#[derive(Default)]
pub struct Line<'a> {
    pub name: &'a [u8],
    pub vers: &'a [u8],
    pub yanked: bool,
}

/// Bytes that are read, and how far.
pub struct Scanner<'a> {
    bytes: &'a [u8],
    at: usize,
}

const DEPTH: usize = 127;
const ONES: u64 = u64::MAX / 255;
const HIGH: u64 = ONES << 7;

/// A mask of eight bytes, whose lowest bit stands in the first byte that is a quote, a backslash, a control
/// character or no ASCII.
fn special(eight: u64) -> u64 {
    let zero_in = |it: u64| it.wrapping_sub(ONES) & !it;
    let quote = zero_in(eight ^ (ONES * u64::from(b'"')));
    let backslash = zero_in(eight ^ (ONES * u64::from(b'\\')));
    let control = eight.wrapping_sub(ONES * 0x20) & !eight;
    (quote | backslash | control | eight) & HIGH
}

impl<'a> Scanner<'a> {
    pub fn new(bytes: &'a [u8]) -> Self {
        Scanner { bytes, at: 0 }
    }

    fn is_at_end(&self) -> bool {
        self.at == self.bytes.len()
    }

    fn peek(&self) -> Option<u8> {
        self.bytes.get(self.at).copied()
    }

    /// Goes past blanks; a line end is none.
    fn skip_blanks(&mut self) {
        while matches!(self.peek(), Some(b' ' | b'\t' | b'\r')) {
            self.at += 1;
        }
    }

    /// Goes past a byte, and the blanks around it.
    fn expect(&mut self, byte: u8) -> Option<()> {
        if self.peek()? != byte {
            self.skip_blanks();
            (self.peek()? == byte).then_some(())?;
        }
        self.at += 1;
        self.skip_blanks();
        Some(())
    }

    /// Goes past a byte where it comes next.
    fn accept(&mut self, byte: u8) -> bool {
        self.expect(byte).is_some()
    }

    /// Goes past blanks and line ends.
    fn skip_blank_lines(&mut self) {
        while matches!(self.peek(), Some(b'\n' | b' ' | b'\t' | b'\r')) {
            self.at += 1;
        }
    }

    /// Reads the next line that is not blank: none within at the end of the bytes, none where it cannot be
    /// read.
    pub fn line(&mut self) -> Option<Option<Line<'a>>> {
        self.skip_blank_lines();
        if self.is_at_end() {
            return Some(None);
        }
        let mut line = Line::default();
        self.expect(b'{')?;
        loop {
            let name = self.string()?;
            self.expect(b':')?;
            match name {
                b"name" => line.name = self.string()?,
                b"vers" => line.vers = self.string()?,
                b"yanked" => line.yanked = self.truth()?,
                _ => self.value(1)?,
            }
            if !self.accept(b',') {
                break;
            }
        }
        self.expect(b'}')?;
        (self.is_at_end() || self.peek()? == b'\n').then_some(Some(line))
    }

    /// Reads a string, and answers what stands between its quotes.
    fn string(&mut self) -> Option<&'a [u8]> {
        (self.peek()? == b'"').then(|| self.at += 1)?;
        let (start, mut is_ascii) = (self.at, true);
        loop {
            if let Some(eight) = self.bytes.get(self.at..self.at + 8) {
                let mask = special(u64::from_le_bytes(eight.try_into().ok()?));
                self.at += mask.trailing_zeros() as usize / 8;
                if mask == 0 {
                    continue;
                }
            }
            match self.peek()? {
                b'"' => break,
                b'\\' => self.escape()?,
                0..=0x1f => return None,
                byte => {
                    is_ascii &= byte < 0x80;
                    self.at += 1;
                }
            }
        }
        let text = &self.bytes[start..self.at];
        self.at += 1;
        (is_ascii || std::str::from_utf8(text).is_ok()).then_some(text)
    }

    /// Goes past an escape; a surrogate has to be one of a pair.
    fn escape(&mut self) -> Option<()> {
        let byte = *self.bytes.get(self.at + 1)?;
        self.at += 2;
        match byte {
            b'"' | b'\\' | b'/' | b'b' | b'f' | b'n' | b'r' | b't' => Some(()),
            b'u' => match self.hex()? {
                0xd800..=0xdbff => {
                    (self.bytes.get(self.at..self.at + 2)? == br"\u").then(|| self.at += 2)?;
                    (0xdc00..=0xdfff).contains(&self.hex()?).then_some(())
                }
                0xdc00..=0xdfff => None,
                _ => Some(()),
            },
            _ => None,
        }
    }

    /// The number of four hexadecimal digits.
    fn hex(&mut self) -> Option<u32> {
        let digits = std::str::from_utf8(self.bytes.get(self.at..self.at + 4)?).ok()?;
        self.at += 4;
        digits.bytes().all(|byte| byte.is_ascii_hexdigit()).then(|| u32::from_str_radix(digits, 16).ok())?
    }

    /// Skips a literal, such as `true`.
    fn literal(&mut self, literal: &[u8]) -> Option<()> {
        self.bytes[self.at..].starts_with(literal).then(|| self.at += literal.len())
    }

    fn truth(&mut self) -> Option<bool> {
        let value = self.peek()? == b't';
        self.literal(if value { b"true" } else { b"false" })?;
        Some(value)
    }

    /// Goes past one digit or more.
    fn digits(&mut self) -> Option<()> {
        let start = self.at;
        while matches!(self.peek(), Some(b'0'..=b'9')) {
            self.at += 1;
        }
        (self.at > start).then_some(())
    }

    fn number(&mut self) -> Option<()> {
        self.at += usize::from(self.peek()? == b'-');
        if self.peek()? == b'0' {
            self.at += 1;
        } else {
            self.digits()?;
        }
        if self.peek() == Some(b'.') {
            self.at += 1;
            self.digits()?;
        }
        if matches!(self.peek(), Some(b'e' | b'E')) {
            self.at += 1;
            self.at += usize::from(matches!(self.peek()?, b'+' | b'-'));
            self.digits()?;
        }
        Some(())
    }

    /// Goes past a value at a depth.
    fn value(&mut self, depth: usize) -> Option<()> {
        match self.peek()? {
            b'"' => self.string().map(drop),
            b'{' => self.members(b'}', depth, true),
            b'[' => self.members(b']', depth, false),
            b't' | b'f' => self.truth().map(drop),
            b'n' => self.literal(b"null"),
            _ => self.number(),
        }
    }

    /// Goes past an object or an array.
    fn members(&mut self, end: u8, depth: usize, is_object: bool) -> Option<()> {
        (depth < DEPTH).then(|| self.at += 1)?;
        self.skip_blanks();
        if self.peek()? == end {
            self.at += 1;
            return Some(());
        }
        loop {
            if is_object {
                self.string()?;
                self.expect(b':')?;
            }
            self.value(depth + 1)?;
            if !self.accept(b',') {
                break;
            }
        }
        self.skip_blanks();
        (self.peek()? == end).then(|| self.at += 1)
    }
}

#[cfg(test)]
mod tests {
    use super::Scanner;

    /// The names and versions of all lines of a text; none where one cannot be read.
    fn read(text: &str) -> Option<Vec<(String, String, bool)>> {
        let (mut scanner, mut found) = (Scanner::new(text.as_bytes()), Vec::new());
        while let Some(line) = scanner.line()? {
            let [name, vers] = [line.name, line.vers].map(|it| String::from_utf8_lossy(it).into_owned());
            found.push((name, vers, line.yanked));
        }
        Some(found)
    }

    #[test]
    fn lines_are_read() {
        let text = "{\"name\":\"a-name\",\"vers\":\"1.0.0\"}\n\n { \"yanked\" : true , \"vers\":\"2.0.0\"}";
        let wanted = [("a-name", "1.0.0", false), ("", "2.0.0", true)];
        let wanted = wanted.map(|(name, vers, yanked)| (name.to_string(), vers.to_string(), yanked));
        assert_eq!(read(text), Some(wanted.to_vec()));
    }

    #[test]
    fn values_are_checked() {
        let good =
            ["[]", "{}", "[1,-0.5e+3,{\"a\":[null,true,false]}]", "\"\\u00e9\\ud83d\\ude00\\n \u{e9}\"", "0"];
        let bad = [
            "[1,]",
            "{\"a\"}",
            "01",
            "1.",
            "-",
            "\"\\ud83d\"",
            "\"\\x\"",
            "\"\t\"",
            "\"a",
            "nul",
            "[",
            "1 2",
        ];
        for (values, is_good) in [(&good[..], true), (&bad[..], false)] {
            for value in values {
                assert_eq!(read(&format!("{{\"deps\":{value}}}")).is_some(), is_good, "{value}");
            }
        }
        assert!(read(&format!("{{\"deps\":{}}}", "[".repeat(200) + &"]".repeat(200))).is_none());
    }
}
