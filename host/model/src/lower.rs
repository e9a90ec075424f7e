//! Lowering, which counts for a package's id alone: the Unicode lowercase mappings, one character to one.

/// Where the mapping is one character that one; else, which is U+0130 alone, the character itself.
pub fn lower(c: char) -> char {
    let mapped: Vec<char> = c.to_lowercase().collect();
    match mapped[..] {
        [one] => one,
        _ => c,
    }
}
