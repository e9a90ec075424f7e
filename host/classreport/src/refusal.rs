//! Why nothing was written.
use std::error::Error;
use std::fmt;

use crate::Question;

/// The first question that a call fails, and the block that it fails in.
///
/// ```
/// let refusal = classreport::report(b"\0\0\0\x01\x02").unwrap_err();
/// assert_eq!(
///     refusal.to_string(),
///     "refused 2 (block 0, the corpus): the corpus has a version other than 1"
/// );
/// ```
#[derive(Debug, Clone, Copy, PartialEq, Eq, Hash)]
pub struct Refusal {
    /// 1 to 22, 24 to 29: see [`Question`].
    pub question: u8,
    /// 0 is the corpus, or the description of a header; 1 the script block, j + 1 package j (from 1).
    pub block: u32,
}

impl Refusal {
    /// The refusal in a number that the call returned, or `None` where it is the length of what was written.
    ///
    /// ```
    /// let refusal = classreport::Refusal::of_number(0x8000_0011_0000_0008).unwrap();
    /// assert_eq!((refusal.question, refusal.block, refusal.package()), (17, 8, Some(7)));
    /// assert_eq!(classreport::Refusal::of_number(9), None);
    /// ```
    pub fn of_number(number: u64) -> Option<Refusal> {
        answer::refusal(number).map(|(question, block)| Refusal { question, block })
    }

    /// The package, numbered from 1, where the block is a package.
    pub fn package(self) -> Option<u32> {
        self.block.checked_sub(1).filter(|package| *package > 0)
    }

    /// What is wrong, in a few words.
    pub fn failed(self) -> &'static str {
        Question::numbered(self.question).map_or("an unknown question", |question| question.failed)
    }

    /// The block in words: `block 8, package 7`.
    pub fn place(self) -> String {
        let block = self.block;
        match (block, self.package()) {
            (0, _) if matches!(self.question, 27 | 28) => "block 0, the description".to_owned(),
            (0, _) => "block 0, the corpus".to_owned(),
            (_, None) => "block 1, the script block".to_owned(),
            (_, Some(package)) => format!("block {block}, package {package}"),
        }
    }
}

impl fmt::Display for Refusal {
    fn fmt(&self, f: &mut fmt::Formatter) -> fmt::Result {
        let (question, place, failed) = (self.question, self.place(), self.failed());
        write!(f, "refused {question} ({place}): {failed}")
    }
}

impl Error for Refusal {}
