//! The fields of a report, as they are read: big-endian.
use std::error::Error;
use std::fmt;

/// Where and why bytes are no report.
#[derive(Debug, Clone, Copy, PartialEq, Eq)]
pub struct Malformed {
    /// The byte, from 0, before which the reader stood.
    pub byte: usize,
    /// The section, from 1, where it is in one.
    pub section: Option<u32>,
    /// The row in it, from 1, where it is in one.
    pub row: Option<u32>,
    /// What is wrong there.
    pub what: &'static str,
}

impl Malformed {
    pub(crate) fn in_section(mut self, number: u32) -> Malformed {
        self.section = Some(number);
        self
    }

    pub(crate) fn in_row(mut self, number: u32) -> Malformed {
        self.row = Some(number);
        self
    }
}

impl fmt::Display for Malformed {
    fn fmt(&self, f: &mut fmt::Formatter) -> fmt::Result {
        write!(f, "malformed report, byte {}", self.byte)?;
        if let Some(section) = self.section {
            write!(f, ", section {section}")?;
        }
        if let Some(row) = self.row {
            write!(f, ", row {row}")?;
        }
        write!(f, ": {}", self.what)
    }
}

impl Error for Malformed {}

/// A part of a report, and how far it was read.
#[derive(Debug, Clone, Copy, PartialEq, Eq)]
pub(crate) struct Fields<'a> {
    bytes: &'a [u8],
    /// where the next byte stands in the report
    at: usize,
}

impl<'a> Fields<'a> {
    pub(crate) fn new(bytes: &'a [u8]) -> Fields<'a> {
        Fields { bytes, at: 0 }
    }

    pub(crate) fn left(&self) -> usize {
        self.bytes.len()
    }

    /// What was read between here and a later place.
    pub(crate) fn up_to(&self, later: &Fields) -> &'a [u8] {
        &self.bytes[..later.at - self.at]
    }

    pub(crate) fn wrong(&self, what: &'static str) -> Malformed {
        Malformed {
            byte: self.at,
            section: None,
            row: None,
            what,
        }
    }

    pub(crate) fn is(&self, so: bool, what: &'static str) -> Result<(), Malformed> {
        if so { Ok(()) } else { Err(self.wrong(what)) }
    }

    pub(crate) fn end(&self, what: &'static str) -> Result<(), Malformed> {
        self.is(self.bytes.is_empty(), what)
    }

    fn take(&mut self, count: usize) -> Result<&'a [u8], Malformed> {
        let parts = self.bytes.split_at_checked(count);
        let (taken, rest) = parts.ok_or(self.wrong("it ends too early"))?;
        self.bytes = rest;
        self.at += count;
        Ok(taken)
    }

    fn array<const WIDTH: usize>(&mut self) -> Result<[u8; WIDTH], Malformed> {
        let taken = self.take(WIDTH)?;
        Ok(taken.try_into().expect("as many bytes as were taken"))
    }

    pub(crate) fn byte(&mut self) -> Result<u8, Malformed> {
        self.array().map(|[byte]| byte)
    }

    pub(crate) fn number(&mut self) -> Result<u32, Malformed> {
        self.array().map(u32::from_be_bytes)
    }

    pub(crate) fn id(&mut self) -> Result<u64, Malformed> {
        self.array().map(u64::from_be_bytes)
    }

    pub(crate) fn version(&mut self) -> Result<(), Malformed> {
        let before = *self;
        let version = self.byte()?;
        before.is(version == 1, "its version is not 1")
    }

    pub(crate) fn flag(&mut self) -> Result<bool, Malformed> {
        let before = *self;
        let flag = self.byte()?;
        before.is(flag <= 1, "a flag is not 0 or 1")?;
        Ok(flag == 1)
    }

    /// A 4-byte length and so many bytes.
    pub(crate) fn part(&mut self) -> Result<Fields<'a>, Malformed> {
        let length = self.number()?;
        let at = self.at;
        let bytes = self.take(length as usize)?;
        Ok(Fields { bytes, at })
    }

    pub(crate) fn text(&mut self) -> Result<&'a str, Malformed> {
        let part = self.part()?;
        str::from_utf8(part.bytes).map_err(|_| part.wrong("a text is not UTF-8"))
    }

    /// A text that is `?` where it is unknown.
    pub(crate) fn text_if(&mut self, known: bool) -> Result<Option<&'a str>, Malformed> {
        let before = *self;
        let text = self.text()?;
        before.is(known || text == "?", "an unknown text is not `?`")?;
        Ok(known.then_some(text))
    }
}
