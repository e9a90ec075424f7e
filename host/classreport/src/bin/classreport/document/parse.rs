//! The parser: values, lists and objects.
use super::{Field, Kind, Value, Wrong};

/// Lists and objects may lie in each other so deep.
const DEEPEST: usize = 64;

/// What some editors write before a text.
const BYTE_ORDER_MARK: &str = "\u{feff}";

/// A document, and how far it was read.
pub(super) struct Parser<'a> {
    pub(super) text: &'a str,
    pub(super) at: usize,
    depth: usize,
}

/// Reads a document: one value, and nothing behind it.
pub fn parse(document: &[u8]) -> Result<Value, Wrong> {
    let text = str::from_utf8(document)
        .map_err(|wrong| Wrong::new(wrong.valid_up_to(), "this is not UTF-8"))?;
    let marked = text.starts_with(BYTE_ORDER_MARK);
    let mut parser = Parser {
        text,
        at: if marked { BYTE_ORDER_MARK.len() } else { 0 },
        depth: 0,
    };
    let value = parser.value()?;
    match parser.peek() {
        None => Ok(value),
        Some(_) => Err(parser.wrong("nothing may stand behind the description")),
    }
}

impl Parser<'_> {
    pub(super) fn wrong(&self, what: &str) -> Wrong {
        Wrong::new(self.at, what)
    }

    /// The next character behind white space.
    fn peek(&mut self) -> Option<char> {
        let rest = self.text[self.at..].trim_start_matches([' ', '\t', '\n', '\r']);
        self.at = self.text.len() - rest.len();
        rest.chars().next()
    }

    /// Goes over this character, where it is the next.
    fn goes_on(&mut self, c: char) -> bool {
        let so = self.peek() == Some(c);
        self.at += if so { c.len_utf8() } else { 0 };
        so
    }

    fn value(&mut self) -> Result<Value, Wrong> {
        let Some(c) = self.peek() else {
            return Err(self.wrong("the document ends too early: a value is missing"));
        };
        let at = self.at;
        let kind = match c {
            '{' => Kind::Object(self.inner(|parser| parser.items('}', Parser::field))?),
            '[' => Kind::List(self.inner(|parser| parser.items(']', Parser::value))?),
            '"' => Kind::Text(self.string()?),
            '-' | '0'..='9' => Kind::Number(self.number()?),
            _ => self.word()?,
        };
        Ok(Value { at, kind })
    }

    /// What lies in a list or an object, one deeper.
    fn inner<T>(&mut self, read: impl Fn(&mut Self) -> Result<T, Wrong>) -> Result<T, Wrong> {
        if self.depth == DEEPEST {
            return Err(self.wrong("lists and objects lie too deep in each other"));
        }
        self.depth += 1;
        let inner = read(self);
        self.depth -= 1;
        inner
    }

    /// Items with commas between them, up to the closing bracket.
    fn items<T>(
        &mut self,
        close: char,
        item: impl Fn(&mut Self) -> Result<T, Wrong>,
    ) -> Result<Vec<T>, Wrong> {
        self.at += 1;
        let mut items = Vec::new();
        if self.goes_on(close) {
            return Ok(items);
        }
        loop {
            items.push(item(self)?);
            if self.goes_on(close) {
                return Ok(items);
            }
            if !self.goes_on(',') {
                return Err(self.wrong(&format!("a comma or {close} is needed here")));
            }
        }
    }

    fn field(&mut self) -> Result<Field, Wrong> {
        if self.peek() != Some('"') {
            return Err(self.wrong("the name of a field is needed here, in quotes"));
        }
        let at = self.at;
        let name = self.string()?;
        if !self.goes_on(':') {
            return Err(self.wrong("a colon is needed here, behind the name of a field"));
        }
        let value = self.value()?;
        Ok(Field { at, name, value })
    }

    /// A number's text: sign, whole part without zeros before it, fraction, exponent.
    fn number(&mut self) -> Result<String, Wrong> {
        let rest = &self.text[self.at..];
        let is_part = |c: char| c.is_ascii_alphanumeric() || matches!(c, '+' | '-' | '.');
        let token = &rest[..rest.find(|c| !is_part(c)).unwrap_or(rest.len())];
        if !is_number(token) {
            let what = format!("{token} is no number; a hexadecimal one stands in quotes");
            return Err(self.wrong(&what));
        }
        self.at += token.len();
        Ok(token.to_owned())
    }

    fn word(&mut self) -> Result<Kind, Wrong> {
        let rest = &self.text[self.at..];
        let end = rest.find(|c: char| !c.is_ascii_alphanumeric());
        let word = &rest[..end.unwrap_or(rest.len())];
        let kind = match word {
            "null" => Kind::Null,
            "true" | "false" => Kind::Flag,
            "" => return Err(self.wrong("a value is needed here")),
            _ => return Err(self.wrong(&format!("{word} is no value: a text stands in quotes"))),
        };
        self.at += word.len();
        Ok(kind)
    }
}

fn is_number(token: &str) -> bool {
    let digits = |text: &str| !text.is_empty() && text.bytes().all(|byte| byte.is_ascii_digit());
    let (mantissa, exponent) = match token.split_once(['e', 'E']) {
        Some((mantissa, exponent)) => (mantissa, Some(exponent)),
        None => (token, None),
    };
    let (whole, fraction) = match mantissa.split_once('.') {
        Some((whole, fraction)) => (whole, Some(fraction)),
        None => (mantissa, None),
    };
    let whole = whole.strip_prefix('-').unwrap_or(whole);
    let exponent = exponent.map(|text| text.strip_prefix(['+', '-']).unwrap_or(text));
    digits(whole)
        && (whole == "0" || !whole.starts_with('0'))
        && fraction.is_none_or(digits)
        && exponent.is_none_or(digits)
}
