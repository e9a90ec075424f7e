//! Name batches, and names with an instance number.
use super::reader::Reader;
use crate::Name;

/// The texts of a name batch.
pub(super) fn batch(r: &mut Reader) -> Option<Vec<String>> {
    let count = r.u32()? as usize;
    if count == 0 {
        return Some(Vec::new());
    }
    let length = r.u32()? as usize;
    let _version = r.u64()?;
    let _hashes = r.take(count.checked_mul(8)?)?;
    let headers = r.take(count.checked_mul(2)?)?;
    let mut strings = Reader::new(r.take(length)?);
    let (headers, _) = headers.as_chunks();
    headers
        .iter()
        .map(|header| name(*header, &mut strings))
        .collect()
}

/// The next name: its header has a bit for wide text and the length in units.
fn name([first, second]: [u8; 2], strings: &mut Reader) -> Option<String> {
    let units = usize::from(first & 0x7f) << 8 | usize::from(second);
    if first & 0x80 == 0 {
        return Some(
            strings
                .take(units)?
                .iter()
                .copied()
                .map(char::from)
                .collect(),
        );
    }
    let (units, _) = strings.take(2 * units)?.as_chunks();
    let units: Vec<u16> = units.iter().copied().map(u16::from_le_bytes).collect();
    String::from_utf16(&units).ok()
}

impl Name {
    /// A mapped name: its number in the batch, whose top two bits say nothing here, and the instance number.
    pub(super) fn read(r: &mut Reader) -> Option<Name> {
        let text = r.u32()? & 0x3fff_ffff;
        let number = r.u32()?;
        Some(Name { text, number })
    }

    /// The text without the instance number.
    pub(super) fn base(self, batch: &[String]) -> &str {
        &batch[self.text as usize]
    }

    pub(super) fn is_in(self, batch: &[String]) -> bool {
        (self.text as usize) < batch.len()
    }

    /// The text with the instance number.
    pub(super) fn rendered(self, batch: &[String]) -> String {
        rendered(self.base(batch), self.number)
    }
}

/// A base with what its instance number adds: nothing for 0, `_` and N - 1 for N.
pub(crate) fn rendered(base: &str, number: u32) -> String {
    match number.checked_sub(1) {
        None => base.to_owned(),
        Some(shown) => format!("{base}_{shown}"),
    }
}

/// The id of a package's name: CityHash64 of its UTF-16LE text, each character lowered to one.
///
/// ```
/// assert_eq!(classreport::chain::id("/Game/Sound/BP_Sound"), 0xa82b_bfaa_f2eb_0386);
/// ```
pub fn id(name: &str) -> u64 {
    let lowered: String = name.chars().map(lower).collect();
    let units: Vec<[u8; 2]> = lowered.encode_utf16().map(u16::to_le_bytes).collect();
    cityhasher::hash(units.as_flattened())
}

/// The lowercase mapping, where that is one character.
fn lower(c: char) -> char {
    let mut mapped = c.to_lowercase();
    mapped.next().filter(|_| mapped.len() == 0).unwrap_or(c)
}
