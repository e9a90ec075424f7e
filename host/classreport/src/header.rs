//! Headers written from what describes them, by the proved call.
use crate::call::written;
use crate::{Description, Refusal};

/// The longest header that there can be.
pub const LONGEST_HEADER: u64 = 2_147_483_647;

/// The header that is described. What a description doesn't say is 0 or empty.
///
/// ```
/// use classreport::{Description, chain, header};
///
/// let named = Description { texts: vec!["A".to_owned()], ..Description::default() };
/// let bytes = header(&named)?;
/// assert_eq!((bytes.len(), bytes[24]), (91, 87));
/// assert_eq!(chain::described(&bytes)?.description, named);
///
/// let nameless = header(&Description::default()).unwrap_err();
/// assert_eq!(nameless.question, 27);
/// # Ok::<(), Box<dyn std::error::Error>>(())
/// ```
///
/// # Errors
/// 27, where a text number is outside the list, a name has more than 32,767 units or the header would be longer than
/// [`LONGEST_HEADER`]. 28 never is.
pub fn header(description: &Description) -> Result<Vec<u8>, Refusal> {
    let bytes = description.bytes()?;
    // No header has more than three times the bytes of what describes it. Those that are not written cost no memory.
    let room = (3 * bytes.len()).min(LONGEST_HEADER as usize);
    let mut out = vec![0; room];
    let length = header_into(&bytes, &mut out)?.len();
    out.truncate(length);
    out.shrink_to_fit();
    Ok(out)
}

/// Writes the header that a description in house form describes to the front of `out` and gives that part of it, or gives
/// the refusal and leaves `out` as it was.
///
/// Three times the description's length is always room enough.
///
/// ```
/// let named = classreport::Description { texts: vec!["A".to_owned()], ..Default::default() };
/// let (bytes, mut out) = (named.bytes().unwrap(), [7; 92]);
/// assert_eq!(classreport::header_into(&bytes, &mut out[..90]).unwrap_err().question, 28);
/// assert_eq!(out, [7; 92]);
/// assert_eq!(classreport::header_into(&bytes, &mut out).unwrap().len(), 91);
/// assert_eq!(out[91], 7);
/// ```
///
/// # Errors
/// 27, where the bytes describe nothing that can be written; 28, where `out` is too short.
pub fn header_into<'a>(description: &[u8], out: &'a mut [u8]) -> Result<&'a [u8], Refusal> {
    let number = report::class_header(description, out);
    written(number, out)
}
