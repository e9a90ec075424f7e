//! The recorded list: corpora with the lengths of the buffers, and what the oracle answered. Big-endian: 4-byte count
//! of cases; for each a 4-byte length and bytes of the corpus, 8-byte lengths of work and report buffer, the 8-byte
//! answer, a 4-byte length and bytes of the report (none where refused).
use answer::Refusal;

#[derive(Debug, Clone, PartialEq, Eq)]
pub struct Case {
    pub corpus: Vec<u8>,
    pub work: u64,
    pub buffer: u64,
    pub answer: u64,
    pub report: Vec<u8>,
}

impl Case {
    /// The report, or the refusal in the answer.
    pub fn outcome(&self) -> Result<&[u8], Refusal> {
        match answer::refusal(self.answer) {
            None => Ok(&self.report),
            Some(refusal) => Err(refusal),
        }
    }
}

pub fn write(cases: &[Case]) -> Vec<u8> {
    let mut out = (cases.len() as u32).to_be_bytes().to_vec();
    for case in cases {
        put_bytes(&mut out, &case.corpus);
        let numbers = [case.work, case.buffer, case.answer];
        out.extend(numbers.map(u64::to_be_bytes).as_flattened());
        put_bytes(&mut out, &case.report);
    }
    out
}

fn put_bytes(out: &mut Vec<u8>, bytes: &[u8]) {
    out.extend((bytes.len() as u32).to_be_bytes());
    out.extend(bytes);
}

/// The cases, or None where the list is cut short or has bytes left.
pub fn read(mut list: &[u8]) -> Option<Vec<Case>> {
    let count = take_number(&mut list, 4)?;
    let cases: Option<Vec<Case>> = (0..count).map(|_| read_case(&mut list)).collect();
    cases.filter(|_| list.is_empty())
}

fn read_case(list: &mut &[u8]) -> Option<Case> {
    Some(Case {
        corpus: take_bytes(list)?,
        work: take_number(list, 8)?,
        buffer: take_number(list, 8)?,
        answer: take_number(list, 8)?,
        report: take_bytes(list)?,
    })
}

fn take_number(list: &mut &[u8], size: usize) -> Option<u64> {
    let (number, rest) = list.split_at_checked(size)?;
    *list = rest;
    Some(number.iter().fold(0, |v, b| v << 8 | u64::from(*b)))
}

fn take_bytes(list: &mut &[u8]) -> Option<Vec<u8>> {
    let length = take_number(list, 4)? as usize;
    let (bytes, rest) = list.split_at_checked(length)?;
    *list = rest;
    Some(bytes.to_vec())
}

/// What stands beside the list, so that any changed byte is seen: its CityHash64 in 16 hexadecimal digits.
pub fn sum(list: &[u8]) -> String {
    format!("{:016x}\n", cityhasher::hash(list))
}
