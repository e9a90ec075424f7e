//! The call, with buffers that are lent or made here.
use crate::{Limits, Refusal, Report};

/// The longest report that there can be.
pub const LONGEST: u64 = 4_294_967_299;

/// Writes the report of a corpus, within these limits, to the front of `out` and gives that part of it, or gives the
/// refusal and leaves `out` as it was. `work` may hold anything, and does afterwards.
///
/// `work` needs 64 bytes for each script object, class and candidate; twice the corpus's length is always enough.
///
/// ```
/// let corpus = classreport::CorpusBuilder::new(&[0; 8]).unwrap().finish();
/// let (mut work, mut out) = ([0; 42], [0; 100]);
/// let report = classreport::report_into(&corpus, Default::default(), &mut work, &mut out).unwrap();
/// assert_eq!(report, [0, 0, 0, 5, 1, 0, 0, 0, 0]);
/// ```
///
/// # Errors
/// The first question that fails; 25 or 26 where a buffer is too short, 29 where a limit is out of its range.
pub fn report_into<'a>(
    corpus: &[u8],
    limits: Limits,
    work: &mut [u8],
    out: &'a mut [u8],
) -> Result<&'a [u8], Refusal> {
    let Limits { lookups, objects } = limits;
    let number = report::class_report(corpus, lookups, objects, work, out);
    written(number, out)
}

/// What a call wrote to the front of its output buffer, or the refusal, by the number that it returned.
pub(crate) fn written(number: u64, out: &[u8]) -> Result<&[u8], Refusal> {
    match Refusal::of_number(number) {
        Some(refusal) => Err(refusal),
        None => Ok(&out[..number as usize]),
    }
}

/// The report of a corpus within the booths' limits: see [`report_within`].
///
/// ```
/// let corpus = classreport::CorpusBuilder::new(&[0; 8]).unwrap().finish();
/// assert_eq!(classreport::report(&corpus).unwrap().sections().count(), 0);
/// ```
///
/// # Errors
/// The first question that the corpus fails.
pub fn report(corpus: &[u8]) -> Result<Report<'static>, Refusal> {
    report_within(corpus, Limits::BOOTHS)
}

/// The report of a corpus within these limits.
///
/// The buffers are made here. They are large enough for nearly every corpus the first time, and cost only as much memory
/// as is written to; where a report is far longer than its corpus, the call is made again with more room.
///
/// ```
/// use classreport::{Limits, report_within};
///
/// let corpus = classreport::CorpusBuilder::new(&[0; 8]).unwrap().finish();
/// assert!(report_within(&corpus, Limits::TEACHING).is_ok());
/// let none = Limits { lookups: 0, objects: 4 };
/// assert_eq!(report_within(&corpus, none).unwrap_err().question, 29);
/// ```
///
/// # Errors
/// The first question that fails; 29 where a limit is out of its range, 26 only where the report is longer than [`LONGEST`] or than the memory that
/// can be had.
pub fn report_within(corpus: &[u8], limits: Limits) -> Result<Report<'static>, Refusal> {
    let mut work = vec![0; 2 * corpus.len()];
    let mut room = (4 * corpus.len() as u64 + (1 << 16)).min(LONGEST);
    let mut out = vec![0; room as usize];
    loop {
        match report_into(corpus, limits, &mut work, &mut out).map(<[u8]>::len) {
            Ok(length) => {
                out.truncate(length);
                return Ok(Report::of_call(out));
            }
            Err(refusal) if refusal.question == 25 => work = vec![0; 2 * work.len() + 64],
            Err(refusal) if refusal.question == 26 && room < LONGEST => {
                room = (8 * room).min(LONGEST);
                out = zeros(room as usize).ok_or(refusal)?;
            }
            Err(refusal) => return Err(refusal),
        }
    }
}

/// So many bytes, where there is memory for them. The system gives zeros without writing them, so the first vector only
/// asks whether it would.
fn zeros(length: usize) -> Option<Vec<u8>> {
    Vec::<u8>::new().try_reserve_exact(length).ok()?;
    Some(vec![0; length])
}
