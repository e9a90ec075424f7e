//! Texts of a document, with their escapes.
use super::Wrong;
use super::parse::Parser;

impl Parser<'_> {
    /// A text, from its quote to the other.
    pub(super) fn string(&mut self) -> Result<String, Wrong> {
        let start = self.at;
        let mut out = String::new();
        self.at += 1;
        loop {
            let rest = &self.text[self.at..];
            let plain = rest.find(|c| matches!(c, '"' | '\\' | '\0'..' '));
            let Some(plain) = plain else {
                return Err(Wrong::new(
                    start,
                    "this text has no end: a quote is missing",
                ));
            };
            out.push_str(&rest[..plain]);
            self.at += plain;
            match rest.as_bytes()[plain] {
                b'"' => break,
                b'\\' => out.push(self.escape()?),
                _ => {
                    return Err(
                        self.wrong("a text may not hold this: a line end is \\n, a tab \\t")
                    );
                }
            }
        }
        self.at += 1;
        Ok(out)
    }

    /// The character that an escape means.
    fn escape(&mut self) -> Result<char, Wrong> {
        let letter = self.text[self.at + 1..].chars().next();
        let c = match letter {
            Some(c @ ('"' | '\\' | '/')) => c,
            Some('b') => '\u{8}',
            Some('f') => '\u{c}',
            Some('n') => '\n',
            Some('r') => '\r',
            Some('t') => '\t',
            Some('u') => return self.code(),
            _ => return Err(self.wrong("there is no such escape; a backslash is written \\\\")),
        };
        self.at += 2;
        Ok(c)
    }

    /// `\uXXXX`, or two of them where they are a surrogate pair.
    fn code(&mut self) -> Result<char, Wrong> {
        let first = self.unit(self.at)?;
        let second = self.unit(self.at + 6).ok();
        let units = [Some(first), second].into_iter().flatten();
        match char::decode_utf16(units).next() {
            Some(Ok(c)) => {
                self.at += 6 * c.len_utf16();
                Ok(c)
            }
            _ => {
                Err(self
                    .wrong("half of a surrogate pair: a character above U+FFFF has two of these"))
            }
        }
    }

    /// The unit of an escape that starts here.
    fn unit(&self, at: usize) -> Result<u16, Wrong> {
        let digits = self.text.get(at..at + 6);
        let digits = digits.and_then(|escape| escape.strip_prefix("\\u"));
        let digits = digits.filter(|digits| digits.bytes().all(|byte| byte.is_ascii_hexdigit()));
        let unit = digits.and_then(|digits| u16::from_str_radix(digits, 16).ok());
        unit.ok_or(self.wrong("\\u is followed by four hexadecimal digits"))
    }
}
