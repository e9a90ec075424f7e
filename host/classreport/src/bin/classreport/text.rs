//! Texts as a terminal or a page may show them.
use std::borrow::Cow;
use std::ops::RangeInclusive;

/// A character that would move the cursor, change the direction of the text or show nothing.
fn is_hidden(c: char) -> bool {
    c.is_control()
        || matches!(c,
            '\u{61c}' | '\u{200b}'..='\u{200f}' | '\u{2028}'..='\u{202e}' | '\u{2060}'..='\u{206f}' | '\u{feff}'
            | '\u{fff9}'..='\u{fffb}' | '\u{e0000}'..='\u{e007f}')
        || (c as u32) & 0xfffe == 0xfffe
}

/// The text with every hidden character written as `\u{..}`.
pub fn visible(text: &str) -> String {
    visible_cow(text).into_owned()
}

/// The same, copied only where something changes.
pub fn visible_cow(text: &str) -> Cow<'_, str> {
    if !text.contains(is_hidden) {
        return Cow::Borrowed(text);
    }
    let shown = |c: char| match c {
        '\n' => "\\n".to_owned(),
        '\r' => "\\r".to_owned(),
        '\t' => "\\t".to_owned(),
        _ if is_hidden(c) => format!("\\u{{{:x}}}", c as u32),
        _ => c.to_string(),
    };
    Cow::Owned(text.chars().map(shown).collect())
}

/// Marks that stand on the character before them.
const MARKS: [RangeInclusive<u32>; 8] = [
    0x300..=0x36f,
    0x483..=0x489,
    0x591..=0x5bd,
    0x610..=0x61a,
    0x64b..=0x65f,
    0x20d0..=0x20ff,
    0xfe00..=0xfe0f,
    0xfe20..=0xfe2f,
];

/// East Asian wide characters and emoji.
const WIDE: [RangeInclusive<u32>; 11] = [
    0x1100..=0x115f,
    0x2e80..=0xa4cf,
    0xac00..=0xd7a3,
    0xf900..=0xfaff,
    0xfe30..=0xfe6f,
    0xff00..=0xff60,
    0xffe0..=0xffe6,
    0x1f300..=0x1f64f,
    0x1f680..=0x1f6ff,
    0x1f900..=0x1f9ff,
    0x20000..=0x3fffd,
];

/// How many columns of a terminal a character takes, near enough.
fn columns(c: char) -> usize {
    let lies_in =
        |ranges: &[RangeInclusive<u32>]| ranges.iter().any(|range| range.contains(&(c as u32)));
    match c {
        '\0'..'\u{300}' => 1,
        _ if lies_in(&MARKS) => 0,
        _ if lies_in(&WIDE) => 2,
        _ => 1,
    }
}

pub fn width(text: &str) -> usize {
    text.chars().map(columns).sum()
}

/// The text in at most so many columns: where it is longer, `…` stands in its middle, since both ends tell most.
pub fn fitted(text: &str, room: usize) -> Cow<'_, str> {
    if width(text) <= room {
        return Cow::Borrowed(text);
    }
    let left = room.saturating_sub(1) / 3;
    let right = room.saturating_sub(1) - left;
    let head = up_to(text.chars(), left);
    let mut tail = up_to(text.chars().rev(), right);
    tail.reverse();
    let ellipsis = if room == 0 { None } else { Some('…') };
    Cow::Owned(head.into_iter().chain(ellipsis).chain(tail).collect())
}

/// As many of the characters as fit into so many columns.
fn up_to(chars: impl Iterator<Item = char>, room: usize) -> Vec<char> {
    let mut used = 0;
    chars
        .take_while(|c| {
            used += columns(*c);
            used <= room
        })
        .collect()
}
