//! `--lookups`, `--objects` and `--teaching`: the limits of the call.
use classreport::Limits;

use crate::args::Words;
use crate::failure::Failure;

/// Whether any limit was given.
pub fn given(words: &Words) -> bool {
    ["lookups", "objects", "teaching"]
        .iter()
        .any(|long| words.has(long))
}

/// The limits: the booths' or the teaching rooms', or a number that was given.
pub fn limits(words: &Words) -> Result<Limits, Failure> {
    let rooms = if words.has("teaching") {
        Limits::TEACHING
    } else {
        Limits::BOOTHS
    };
    let most = Limits::BOOTHS;
    Ok(Limits {
        lookups: number(words, "lookups", most.lookups)?.unwrap_or(rooms.lookups),
        objects: number(words, "objects", most.objects)?.unwrap_or(rooms.objects),
    })
}

/// An option's value, a number from 1 to the greatest.
fn number(words: &Words, long: &str, most: u32) -> Result<Option<u32>, Failure> {
    let Some(text) = words.text(long)? else {
        return Ok(None);
    };
    let number = text.parse().ok().filter(|n| (1..=most).contains(n));
    let wrong = || Failure::usage(format!("--{long}: '{text}' is no number from 1 to {most}"));
    number.map(Some).ok_or_else(wrong)
}
