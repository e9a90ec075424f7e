//! Names in Rust's own terms: the text of a name's bytes, its instance number, its id; the index of a path.
use crate::script_index;

/// The text of a name's bytes, or `None` where it is wide and ill-formed.
pub fn decoded(bytes: &[u8], wide: bool) -> Option<String> {
    if wide {
        let (units, _) = bytes.as_chunks();
        let units = units.iter().copied().map(u16::from_le_bytes);
        char::decode_utf16(units).collect::<Result<_, _>>().ok()
    } else {
        Some(bytes.iter().copied().map(char::from).collect())
    }
}

/// A base with what its instance number adds: nothing for 0, `_` and N - 1 for N.
pub fn rendered(base: &str, number: u32) -> String {
    let suffix = number.checked_sub(1).map(|shown| format!("_{shown}"));
    [base, suffix.as_deref().unwrap_or_default()].concat()
}

/// A character lowered one to one: one whose lowercase mapping is several (U+0130 alone) stays.
pub fn lower(c: char) -> char {
    let mut mapped = c.to_lowercase();
    match (mapped.next(), mapped.next()) {
        (Some(one), None) => one,
        _ => c,
    }
}

/// Every character that lowering changes, in rising order, with what it becomes.
pub fn pairs() -> impl Iterator<Item = (char, char)> {
    let all = '\0'..=char::MAX;
    all.map(|c| (c, lower(c))).filter(|(c, low)| c != low)
}

/// The id of a name: CityHash64 of its UTF-16LE text, lowered.
pub fn id(text: &str) -> u64 {
    let lowered: String = text.chars().map(lower).collect();
    let units: Vec<[u8; 2]> = lowered.encode_utf16().map(u16::to_le_bytes).collect();
    cityhasher::hash(units.as_flattened())
}

/// The global index that a build gives the script object with this path: the id's low 62 bits, `.` and `:` turned to `/`.
pub fn path_index(path: &str) -> u64 {
    script_index(id(&path.replace(['.', ':'], "/")) % (1 << 62))
}
