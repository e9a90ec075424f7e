//! Which names of a corpus have another hash than they should: the call counts them, here they are found to be shown.
use std::collections::HashMap;

use super::names::id;
use super::objects::Objects;
use super::{Disagreement, Headers};
use crate::{Limits, Verified};

/// What a check found, by name.
#[derive(Debug, Clone, PartialEq, Eq)]
pub struct Findings {
    /// The script objects whose global index is not the hash of their path: path and index, in the order of paths.
    pub mismatched: Vec<(String, u64)>,
    /// The script objects without a known path: their own name and index, in the order of names.
    pub unresolved: Vec<(String, u64)>,
    /// The packages in corpus order.
    pub packages: Vec<Flagged>,
}

/// A package, and whether its id is that of its name.
#[derive(Debug, Clone, PartialEq, Eq)]
pub struct Flagged {
    /// Its name, with its instance number.
    pub name: String,
    /// Its id in the corpus.
    pub id: u64,
    /// Whether the id of its name is the same.
    pub matches: bool,
}

/// The index that a build gives the script object with this path.
///
/// ```
/// assert_eq!(classreport::chain::script_index("/Script/Engine.AudioComponent"), 0x732e_b8c6_7277_cc8c);
/// ```
pub fn script_index(path: &str) -> u64 {
    1 << 62 | hash(path)
}

/// The paths behind the indices of a script block that the call accepts in a corpus. Where an index is not that of its path,
/// or the path is not known, there is none.
///
/// ```
/// let paths = classreport::chain::script_paths(&[0; 8])?;
/// assert!(paths.is_empty());
/// # Ok::<(), Box<dyn std::error::Error>>(())
/// ```
///
/// # Errors
/// Where it can't be read here.
pub fn script_paths(script: &[u8]) -> Result<HashMap<u64, String>, Disagreement> {
    let objects = Objects::read(script).ok_or(Disagreement::unreadable(1))?;
    let told = |(index, _)| {
        let path = objects.line(index, Limits::BOOTHS.objects).path()?;
        (script_index(&path) == index).then_some((index, path))
    };
    Ok(objects.each().filter_map(told).collect())
}

/// The same without the two bits of kind.
fn hash(path: &str) -> u64 {
    id(&path.replace(['.', ':'], "/")) << 2 >> 2
}

impl Headers {
    /// Finds what the call counted.
    ///
    /// ```
    /// # let bytes = classreport::CorpusBuilder::new(&[0; 8]).unwrap().finish();
    /// let headers = classreport::chain::Headers::read(&classreport::Corpus::read(&bytes)?, Default::default())?;
    /// for (path, index) in headers.findings(&classreport::verify(&bytes)?)?.mismatched {
    ///     println!("{path} does not hash to {index:#x}");
    /// }
    /// # Ok::<(), Box<dyn std::error::Error>>(())
    /// ```
    ///
    /// # Errors
    /// Where something else is found here than the call says.
    pub fn findings(&self, verified: &Verified) -> Result<Findings, Disagreement> {
        let flagged = |header: &super::header::Header| Flagged {
            name: header.name.clone(),
            id: header.id,
            matches: id(&header.name) == header.id,
        };
        let mut found = Findings {
            mismatched: Vec::new(),
            unresolved: Vec::new(),
            packages: self.packages.iter().map(flagged).collect(),
        };
        for (index, own) in self.objects.each() {
            match self.objects.line(index, Limits::BOOTHS.objects).path() {
                None => found.unresolved.push((own.to_owned(), index)),
                Some(path) if hash(&path) != index << 2 >> 2 => {
                    found.mismatched.push((path, index));
                }
                Some(_) => {}
            }
        }
        found.mismatched.sort();
        found.unresolved.sort();
        found.agree(verified)?;
        Ok(found)
    }
}

impl Findings {
    fn agree(&self, verified: &Verified) -> Result<(), Disagreement> {
        for (what, call, host) in [
            ("mismatches", verified.mismatches, self.mismatched.len()),
            (
                "unresolved paths",
                verified.unresolved(),
                self.unresolved.len(),
            ),
        ] {
            Disagreement::unless_counted(call as usize == host, what, &[call as usize, host])?;
        }
        let flags = self.packages.iter().map(|package| package.matches);
        let wrong = self.packages.iter().filter(|p| !p.matches).count();
        Disagreement::unless_counted(
            flags.eq(verified.flags.iter().copied()),
            "packages with another id",
            &[verified.wrong_packages(), wrong],
        )
    }
}
