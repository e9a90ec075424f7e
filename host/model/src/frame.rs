//! The corpus's own layout, and questions 1 and 2; its block is 0.
use answer::Refusal;

use crate::house::{bytes, number};

pub struct Frame<'a> {
    pub script: &'a [u8],
    /// id and bytes
    pub packages: Vec<(u64, &'a [u8])>,
}

pub fn frame(corpus: &[u8]) -> Result<Frame<'_>, Refusal> {
    let mut rest = corpus;
    let length = number(&mut rest, 4);
    if length != Some(rest.len() as u64) {
        return Err((1, 0));
    }
    // without a version byte this is 1 too
    if number(&mut rest, 1).ok_or((1, 0))? != 1 {
        return Err((2, 0));
    }
    parts(rest).ok_or((1, 0))
}

/// What follows the version; None where bytes are missing or left.
fn parts(mut rest: &[u8]) -> Option<Frame<'_>> {
    let script = bytes(&mut rest)?;
    let count = number(&mut rest, 4)?;
    let mut packages = Vec::new();
    for _ in 0..count {
        let id = number(&mut rest, 8)?;
        packages.push((id, bytes(&mut rest)?));
    }
    let frame = Frame { script, packages };
    rest.is_empty().then_some(frame)
}
