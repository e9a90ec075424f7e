//! House form, read: "big-endian", numbers and bytes off the front; None where they aren't there.

/// Takes so many bytes.
pub fn take<'a>(rest: &mut &'a [u8], count: usize) -> Option<&'a [u8]> {
    let (taken, left) = rest.split_at_checked(count)?;
    *rest = left;
    Some(taken)
}

pub fn number(rest: &mut &[u8], width: usize) -> Option<u64> {
    let taken = take(rest, width)?;
    let join = |sum, byte: &u8| sum * 256 + u64::from(*byte);
    Some(taken.iter().fold(0, join))
}

/// A 4-byte length and so many bytes.
pub fn bytes<'a>(rest: &mut &'a [u8]) -> Option<&'a [u8]> {
    let length = number(rest, 4)?;
    take(rest, length as usize)
}
