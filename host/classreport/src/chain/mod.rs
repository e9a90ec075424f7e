//! The chains of classes behind a report's rows.
//!
//! A report says where a chain ends, not how it gets there. Here the corpus's headers are read a second time and each
//! chain is followed again, to be shown. Every end is compared with the row that the proved call gave: where they differ
//! there is a [`Disagreement`] and no chain.
//!
//! [`described`] reads a single header as what describes it, also to be shown.
mod agree;
mod described;
mod hashes;
mod header;
mod headers;
mod index;
mod names;
mod objects;
mod reader;
mod reference;

pub use agree::Disagreement;
pub use described::{Described, LeftOut, described};
pub use hashes::{Findings, Flagged, script_index, script_paths};
pub use headers::Headers;
pub use names::id;
pub(crate) use names::rendered;
pub use objects::{Line, LineEnd};

use crate::ClassKind;

/// The way from a row's class reference to its native class, or to where it breaks off.
#[derive(Debug, Clone, PartialEq, Eq)]
pub struct Chain {
    /// What the row's class reference leads to.
    pub class_kind: ClassKind,
    /// The classes, each the super of the one before; a class that comes again is not listed again.
    pub classes: Vec<Class>,
    /// The reference left behind the last class (behind none: the row's own), as a report writes it.
    pub last_reference: String,
    /// Where that leads.
    pub end: End,
}

/// A class of a chain.
#[derive(Debug, Clone, PartialEq, Eq)]
pub struct Class {
    /// The reference that led here, as a report writes it.
    pub reference: String,
    /// The class's path.
    pub path: String,
    /// The name of the package that defines it.
    pub package: String,
    /// The number of that package, from 1.
    pub package_number: usize,
}

/// Where a chain ends.
#[derive(Debug, Clone, PartialEq, Eq)]
pub enum End {
    /// At a script object, with its outers; the native class is known where their line ends in a null index.
    Script(Line),
    /// At a key that no class has.
    NoClass {
        /// The package id of the key.
        id: u64,
        /// The public hash of the key.
        hash: u64,
        /// The name of a package with that id, where there is one.
        package: Option<String>,
    },
    /// Back at the class with this number in the chain, from 0.
    Ring(usize),
    /// At a further class, where the chain already has as many as the lookup limit allows.
    TooLong,
    /// At a null reference.
    Null,
    /// At a reference to something that does not exist.
    Bad,
}

impl Chain {
    /// The class's path, where it is known.
    pub fn class(&self) -> Option<String> {
        match self.classes.first() {
            Some(class) => Some(class.path.clone()),
            None => self.native(),
        }
    }

    /// The native class's path, where it is known.
    pub fn native(&self) -> Option<String> {
        match &self.end {
            End::Script(line) => line.path(),
            _ => None,
        }
    }
}
