//! Whether a build has the hashes of its own names, by the proved call.
use crate::Refusal;
use crate::call::written;
use crate::fields::{Fields, Malformed};

/// What stands before the flags.
const HEAD: usize = 25;

/// A package takes at least so many bytes of a corpus.
const PACKAGE: usize = 12;

/// What was found: four counts of script objects, and a flag for each package.
#[derive(Debug, Clone, PartialEq, Eq)]
pub struct Verified {
    /// How many script objects there are.
    pub objects: u32,
    /// How many of them have a path that is known.
    pub resolved: u32,
    /// How many of these have the hash of their path for a global index.
    pub matches: u32,
    /// How many have another.
    pub mismatches: u32,
    /// For each package, in corpus order: whether the id of its name is its id in the corpus.
    pub flags: Vec<bool>,
}

impl Verified {
    /// How many script objects have no known path, and so no hash to compare. That is no fault.
    pub fn unresolved(&self) -> u32 {
        self.objects - self.resolved
    }

    /// How many packages have another id than that of their name.
    pub fn wrong_packages(&self) -> usize {
        self.flags.iter().filter(|flag| !**flag).count()
    }

    /// Whether every hash and id that was compared is right.
    pub fn all_match(&self) -> bool {
        self.mismatches == 0 && self.wrong_packages() == 0
    }

    fn read(output: &[u8]) -> Result<Verified, Malformed> {
        let mut fields = Fields::new(output);
        let mut rest = fields.part()?;
        rest.version()?;
        let mut number = || rest.number();
        let (objects, resolved, matches, mismatches) = (number()?, number()?, number()?, number()?);
        let count = number()?;
        let flags = (0..count).map(|_| rest.flag()).collect::<Result<_, _>>()?;
        Ok(Verified {
            objects,
            resolved,
            matches,
            mismatches,
            flags,
        })
    }
}

/// Compares the hashes of a corpus with its names: the global index of each script object with its path, the id of each
/// package with its name.
///
/// ```
/// let corpus = classreport::CorpusBuilder::new(&[0; 8]).unwrap().finish();
/// let verified = classreport::verify(&corpus).unwrap();
/// assert_eq!((verified.objects, verified.flags.len(), verified.all_match()), (0, 0, true));
/// ```
///
/// # Errors
/// The first question that the corpus fails; 25 and 26 never are.
pub fn verify(corpus: &[u8]) -> Result<Verified, Refusal> {
    let mut work = vec![0; 2 * corpus.len()];
    let mut out = vec![0; HEAD + corpus.len() / PACKAGE];
    let output = verify_into(corpus, &mut work, &mut out)?;
    Ok(Verified::read(output).expect("what the call writes is well-formed"))
}

/// Writes what was found to the front of `out`, 25 bytes and one for each package, and gives that part of it; or gives the
/// refusal and leaves `out` as it was.
///
/// `work` may have any length: what is written never depends on it. Twice the corpus's length is always enough for speed.
///
/// ```
/// let corpus = classreport::CorpusBuilder::new(&[0; 8]).unwrap().finish();
/// let mut out = [7; 26];
/// let output = classreport::verify_into(&corpus, &mut [], &mut out).unwrap();
/// assert_eq!(output[..5], [0, 0, 0, 21, 1]);
/// assert_eq!((output.len(), out[25]), (25, 7));
/// ```
///
/// # Errors
/// The first question that the corpus fails; 26 where `out` is too short. 25 is not asked.
pub fn verify_into<'a>(
    corpus: &[u8],
    work: &mut [u8],
    out: &'a mut [u8],
) -> Result<&'a [u8], Refusal> {
    let number = report::class_verify(corpus, work, out);
    written(number, out)
}
