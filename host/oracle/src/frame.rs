//! The corpus's own layout, which the reference doesn't know: questions 1 and 2.

/// The blocks of a corpus.
pub struct Parts<'a> {
    pub script: &'a [u8],
    /// id and bytes
    pub packages: Vec<(u64, &'a [u8])>,
}

/// The blocks, or refusal 1 or 2.
pub fn parts(corpus: &[u8]) -> Result<Parts<'_>, u8> {
    let length = u64::from(be32(corpus, 0)?);
    if corpus.len() as u64 != 4 + length || length == 0 {
        return Err(1);
    }
    if corpus[4] != 1 {
        return Err(2);
    }
    let script = sized(corpus, 5)?;
    let mut at = 9 + script.len();
    let count = be32(corpus, at)?;
    at += 4;
    let mut packages = Vec::new();
    for _ in 0..count {
        let id = u64::from(be32(corpus, at)?) << 32 | u64::from(be32(corpus, at + 4)?);
        let bytes = sized(corpus, at + 8)?;
        at += 12 + bytes.len();
        packages.push((id, bytes));
    }
    if at != corpus.len() {
        return Err(1);
    }
    Ok(Parts { script, packages })
}

fn be32(corpus: &[u8], at: usize) -> Result<u32, u8> {
    let bytes = corpus.get(at..at + 4).ok_or(1)?;
    Ok(u32::from_be_bytes(bytes.try_into().expect("four bytes")))
}

/// A 4-byte length and so many bytes.
fn sized(corpus: &[u8], at: usize) -> Result<&[u8], u8> {
    let length = be32(corpus, at)? as usize;
    corpus.get(at + 4..at + 4 + length).ok_or(1)
}
