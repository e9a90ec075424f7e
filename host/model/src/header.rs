//! Document 02's writer of headers: from a description in house form, a package header in document 01's layout.
use answer::Answer;

use crate::house::{bytes, number};

/// "a name above 32,767 units"
const LONGEST_NAME: usize = 32_767;

/// "a header above 2,147,483,647 bytes"
const LONGEST_HEADER: u64 = 2_147_483_647;

/// Of every name batch.
const HASH_VERSION: u64 = 0xC164_0000;

/// A text number and an instance number.
struct Mapped {
    text: u32,
    number: u32,
}

struct Export {
    name: Mapped,
    outer: u64,
    class: u64,
    super_index: u64,
    hash: u64,
}

/// "the package name [..], then four lists"
struct Description<'a> {
    name: Mapped,
    texts: Vec<&'a str>,
    exports: Vec<Export>,
    hashes: Vec<u64>,
    imported: Vec<&'a str>,
    /// those of the imported names
    numbers: Vec<u32>,
}

/// The header, or the refusal; `room` is the buffer's length.
pub fn class_header(description: &[u8], room: u64) -> Answer {
    let described = house_form(description).filter(Description::can_be_written);
    let described = described.ok_or((27, 0))?;
    if room < described.sizes().iter().sum() {
        return Err((28, 0));
    }
    Ok(described.header())
}

/// "4-byte length of the rest, version byte 1, then what is listed", and nothing left.
fn house_form(mut rest: &[u8]) -> Option<Description<'_>> {
    let rest = &mut rest;
    let length = number(rest, 4)?;
    if length != rest.len() as u64 || number(rest, 1)? != 1 {
        return None;
    }
    let name = mapped(rest)?;
    let texts = list(rest, text)?;
    let exports = list(rest, export)?;
    let hashes = list(rest, |rest| number(rest, 8))?;
    let imported = list(rest, |rest| Some((text(rest)?, number(rest, 4)? as u32)))?;
    let (imported, numbers) = imported.into_iter().unzip();
    rest.is_empty().then_some(Description {
        name,
        texts,
        exports,
        hashes,
        imported,
        numbers,
    })
}

/// Entries "after a 4-byte count".
fn list<'a, T>(rest: &mut &'a [u8], entry: impl Fn(&mut &'a [u8]) -> Option<T>) -> Option<Vec<T>> {
    let count = number(rest, 4)?;
    (0..count).map(|_| entry(rest)).collect()
}

fn mapped(rest: &mut &[u8]) -> Option<Mapped> {
    let [text, number] = [number(rest, 4)?, number(rest, 4)?].map(|n| n as u32);
    Some(Mapped { text, number })
}

/// "Text: 4-byte length, UTF-8"
fn text<'a>(rest: &mut &'a [u8]) -> Option<&'a str> {
    std::str::from_utf8(bytes(rest)?).ok()
}

fn export(rest: &mut &[u8]) -> Option<Export> {
    Some(Export {
        name: mapped(rest)?,
        outer: number(rest, 8)?,
        class: number(rest, 8)?,
        super_index: number(rest, 8)?,
        hash: number(rest, 8)?,
    })
}

/// The summary's bytes.
const SUMMARY: u64 = 52;

impl Description<'_> {
    fn can_be_written(&self) -> bool {
        let exports = self.exports.iter().map(|export| &export.name);
        let mut names = exports.chain([&self.name]);
        let mut texts = self.texts.iter().chain(&self.imported);
        names.all(|name| (name.text as usize) < self.texts.len())
            && texts.all(|text| units(text) <= LONGEST_NAME)
            && self.sizes().iter().sum::<u64>() <= LONGEST_HEADER
    }

    /// How many bytes each part takes: summary with names and bulk size; hashes; import map; exports; bundle entries,
    /// dependency headers, dependency entries; imported names.
    fn sizes(&self) -> [u64; 8] {
        [
            SUMMARY + batch_size(&self.texts) + 8,
            8 * self.hashes.len() as u64,
            0,
            72 * self.exports.len() as u64,
            0,
            0,
            0,
            batch_size(&self.imported) + 4 * self.numbers.len() as u64,
        ]
    }

    fn header(&self) -> Vec<u8> {
        let size: u64 = self.sizes().iter().sum();
        let mut out = Vec::with_capacity(size as usize);
        self.put_summary(&mut out, size as u32);
        put_batch(&mut out, &self.texts);
        let bulk_size = 0;
        put64(&mut out, bulk_size);
        self.hashes.iter().for_each(|hash| put64(&mut out, *hash));
        for export in &self.exports {
            put_export(&mut out, export);
        }
        put_batch(&mut out, &self.imported);
        self.numbers.iter().for_each(|n| put32(&mut out, *n));
        assert_eq!(out.len() as u64, size, "as long as it was said to be");
        out
    }

    fn put_summary(&self, out: &mut Vec<u8>, size: u32) {
        let (versioning_flag, package_flags, cooked_size) = (0, 0, 0);
        put32(out, versioning_flag);
        put32(out, size);
        put32(out, self.name.text);
        put32(out, self.name.number);
        put32(out, package_flags);
        put32(out, cooked_size);
        // "regions stand without gaps": each starts where what is before it ends
        let mut at = 0;
        for part in &self.sizes()[..7] {
            at += *part as u32;
            put32(out, at);
        }
    }
}

fn put32(out: &mut Vec<u8>, number: u32) {
    out.extend(number.to_le_bytes());
}

fn put64(out: &mut Vec<u8>, number: u64) {
    out.extend(number.to_le_bytes());
}

/// "Export, 72 bytes"; "passed-over bytes are zero".
fn put_export(out: &mut Vec<u8>, export: &Export) {
    let (serial_offset, serial_size, template) = (0, 0, 0);
    put64(out, serial_offset);
    put64(out, serial_size);
    put32(out, export.name.text);
    put32(out, export.name.number);
    put64(out, export.outer);
    put64(out, export.class);
    put64(out, export.super_index);
    put64(out, template);
    put64(out, export.hash);
    let object_flags_filter_flags_and_three_bytes = 0;
    put64(out, object_flags_filter_flags_and_three_bytes);
}

/// "length in units": of UTF-16, of which every character of Latin-1 is one.
fn units(text: &str) -> usize {
    text.encode_utf16().count()
}

/// "text that fits Latin-1 is written so"
fn fits_latin1(text: &str) -> bool {
    text.chars().all(|c| u32::from(c) < 0x100)
}

fn string_size(text: &str) -> u64 {
    let width = if fits_latin1(text) { 1 } else { 2 };
    width * units(text) as u64
}

/// "u32 count n; if 0 nothing more is read. u32 string length, u64 hash version, 8n hash bytes, n two-byte headers, the
/// strings"
fn batch_size(texts: &[&str]) -> u64 {
    let strings: u64 = texts.iter().map(|text| string_size(text)).sum();
    match texts.len() as u64 {
        0 => 4,
        n => 4 + 4 + 8 + 8 * n + 2 * n + strings,
    }
}

fn put_batch(out: &mut Vec<u8>, texts: &[&str]) {
    put32(out, texts.len() as u32);
    if texts.is_empty() {
        return;
    }
    put32(out, texts.iter().map(|text| string_size(text) as u32).sum());
    put64(out, HASH_VERSION);
    out.extend(texts.iter().flat_map(|_| [0; 8]));
    for text in texts {
        let wide = if fits_latin1(text) { 0 } else { 0x8000 };
        out.extend((wide + units(text) as u16).to_be_bytes());
    }
    for text in texts {
        put_string(out, text);
    }
}

fn put_string(out: &mut Vec<u8>, text: &str) {
    if fits_latin1(text) {
        out.extend(text.chars().map(|c| c as u8));
    } else {
        out.extend(text.encode_utf16().flat_map(u16::to_le_bytes));
    }
}
