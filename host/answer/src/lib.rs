//! What a call answers, and the number that it returns for it.

/// A refusal and its block.
pub type Refusal = (u8, u32);

/// The report, or why there is none.
pub type Answer = Result<Vec<u8>, Refusal>;

/// "Refused: bit 63 set".
const REFUSED: u64 = 1 << 63;

/// The number that the call returns. "Accepted: the report's length. Refused: bit 63 set, the refusal in bits 32 to 39,
/// the block in bits 0 to 31, all else 0."
pub fn number(answer: &Answer) -> u64 {
    match answer {
        Ok(report) => report.len() as u64,
        Err((refusal, block)) => REFUSED | u64::from(*refusal) << 32 | u64::from(*block),
    }
}

/// The refusal in a returned number, or `None` where it is a report's length.
pub fn refusal(number: u64) -> Option<Refusal> {
    (number & REFUSED != 0).then_some(((number >> 32) as u8, number as u32))
}
