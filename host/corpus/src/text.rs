//! Names as a batch holds them.
use crate::draft::BatchDraft;

/// A name's text: one byte or one UTF-16 unit to a character.
#[derive(Debug, Clone, PartialEq, Eq)]
pub enum Text {
    Latin1(Vec<u8>),
    Utf16(Vec<u16>),
}

impl Text {
    /// One byte to a character where that is possible, else UTF-16.
    pub fn of(s: &str) -> Text {
        if s.chars().all(|c| (c as u32) < 256) {
            Text::Latin1(s.chars().map(|c| c as u8).collect())
        } else {
            Text::wide(s)
        }
    }

    /// UTF-16 whatever the characters.
    pub fn wide(s: &str) -> Text {
        Text::Utf16(s.encode_utf16().collect())
    }

    /// The text; U+FFFD for whatever is ill-formed.
    pub fn text(&self) -> String {
        match self {
            Text::Latin1(bytes) => bytes.iter().copied().map(char::from).collect(),
            Text::Utf16(units) => String::from_utf16_lossy(units),
        }
    }

    /// The two-byte header: the width's bit, then the length in units.
    pub fn header(&self) -> [u8; 2] {
        let (flag, units) = match self {
            Text::Latin1(bytes) => (0, bytes.len()),
            Text::Utf16(units) => (0x80, units.len()),
        };
        assert!(units < 0x8000, "a name of {units} units has no header");
        [flag | (units >> 8) as u8, units as u8]
    }

    /// The bytes among the batch's strings.
    pub fn write(&self, out: &mut Vec<u8>) {
        match self {
            Text::Latin1(bytes) => out.extend_from_slice(bytes),
            Text::Utf16(units) => out.extend(units.iter().flat_map(|u| u.to_le_bytes())),
        }
    }
}

/// A name batch.
pub fn batch(names: &[Text]) -> Vec<u8> {
    let mut out = Vec::new();
    batch_into(&mut out, names);
    out
}

/// A name batch, appended.
pub fn batch_into(out: &mut Vec<u8>, names: &[Text]) {
    BatchDraft::of(names).write(out);
}
