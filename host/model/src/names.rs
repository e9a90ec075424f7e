//! Name batches and mapped names.
use answer::Refusal;

use crate::reader::{Reader, little_endian};
use crate::text::{Text, decimal, utf8, utf16};

const HASH_VERSION: u64 = 0xC164_0000;

/// Name batch: the texts of its names.
pub fn name_batch(r: &mut Reader) -> Result<Vec<Text>, Refusal> {
    let count = u64::from(r.u32()?);
    if count == 0 {
        return Ok(Vec::new());
    }
    let string_length = u64::from(r.u32()?);
    let version = r.u64()?;
    r.ask(version == HASH_VERSION, 4)?;
    r.take(8 * count)?;
    let headers = r.take(2 * count)?;
    let mut strings = r.take(string_length)?;
    let mut names = Vec::new();
    for header in headers.chunks(2) {
        let wide = header[0] & 0x80 != 0;
        let units = usize::from(header[0] & 0x7f) * 256 + usize::from(header[1]);
        let size = if wide { 2 * units } else { units };
        r.ask(size <= strings.len(), 5)?;
        let (own, rest) = strings.split_at(size);
        let points = if wide {
            wide_text(own)
        } else {
            Some(latin1(own))
        };
        r.ask(points.is_some(), 6)?;
        names.push(utf8(points.unwrap_or_default()));
        strings = rest;
    }
    r.ask(strings.is_empty(), 7)?;
    Ok(names)
}

fn wide_text(bytes: &[u8]) -> Option<Vec<u32>> {
    let units: Vec<u16> = bytes.chunks(2).map(|b| little_endian(b) as u16).collect();
    utf16(&units)
}

fn latin1(bytes: &[u8]) -> Vec<u32> {
    bytes.iter().map(|b| u32::from(*b)).collect()
}

/// A name of a batch with its instance number.
#[derive(Clone)]
pub struct Name {
    pub base: Text,
    pub number: u32,
}

impl Name {
    pub fn rendered(&self) -> Text {
        [self.base.clone(), suffix(self.number)].concat()
    }
}

/// What an instance number adds.
pub fn suffix(number: u32) -> Text {
    if number == 0 {
        return Vec::new();
    }
    [b"_".to_vec(), decimal(u64::from(number) - 1)].concat()
}

/// A mapped name before its index is looked at.
#[derive(Clone, Copy)]
pub struct Mapped {
    index: u32,
    number: u32,
}

impl Mapped {
    pub fn read(r: &mut Reader) -> Result<Mapped, Refusal> {
        let index = r.u32()? & 0x3fff_ffff;
        let number = r.u32()?;
        Ok(Mapped { index, number })
    }

    /// Question 10: is the index in the batch?
    pub fn name(self, r: &Reader, batch: &[Text]) -> Result<Name, Refusal> {
        let found = batch.get(self.index as usize);
        r.ask(found.is_some(), 10)?;
        Ok(Name {
            base: found.cloned().unwrap_or_default(),
            number: self.number,
        })
    }
}
