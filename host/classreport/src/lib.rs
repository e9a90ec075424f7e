//! Class reports of Unreal Engine packages, for Rust programs: the proved call with safe buffers, corpora and reports.
//!
//! A *corpus* holds the script block and the package headers that a loader took out of a build. Its *report* has a row
//! for each component of each package, with its class and its native class. A corpus that can't be read is refused, with
//! the number of the question that it failed and the block.
//!
//! ```
//! use classreport::{CorpusBuilder, report};
//!
//! // A build with an empty script block (no names, no objects) and no packages.
//! let corpus = CorpusBuilder::new(&[0; 8])?.finish();
//! for (section, row) in report(&corpus)?.rows() {
//!     println!("{}: {} is a {}", section.name, row.instance, row.native.unwrap_or("(unknown)"));
//! }
//! # Ok::<(), Box<dyn std::error::Error>>(())
//! ```
//!
//! [`verify`] asks whether a build has the hashes of its own names. [`header`] writes a package header from a
//! [`Description`], for packages that no engine has cooked.
//!
//! Everything that a report says was worked out by the proved call. [`chain`] follows the same classes a second time, to
//! show the way; it decides nothing.
#![warn(missing_docs)]

mod call;
pub mod chain;
mod description;
mod fields;
mod frame;
mod header;
mod limits;
mod parsed;
mod question;
mod refusal;
mod row;
mod verify;

pub use call::{LONGEST, report, report_into, report_within};
pub use description::{Description, Export, ImportedName, NULL, Name};
pub use fields::Malformed;
pub use frame::{Corpus, CorpusBuilder, Package, TooLong};
pub use header::{LONGEST_HEADER, header, header_into};
pub use limits::Limits;
pub use parsed::{Report, Rows, Section, Sections};
pub use question::{QUESTIONS, Question};
pub use refusal::Refusal;
pub use row::{ClassKind, Kind, Row};
pub use verify::{Verified, verify, verify_into};
