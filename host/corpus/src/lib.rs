//! Corpora for tests and measurements: writers for every part of document 01's layout, with no check of their own;
//! generators over a seed; damage, rearrangement and a census of what a corpus holds; the recorded list's format.

pub mod census;
pub mod damage;
pub mod decode;
mod described;
pub mod description;
pub mod draft;
mod frame;
pub mod generate;
mod index;
pub mod list;
pub mod name;
mod package;
pub mod passed;
mod random;
pub mod rearrange;
pub mod refusals;
mod rehash;
pub mod rows;
mod script;
pub mod tally;
mod text;

pub use described::Described;
pub use description::Description;
pub use frame::corpus;
pub use index::{NULL, import_index, kind, script_index};
pub use package::{Export, Package};
pub use rehash::ObjectPath;
pub use script::{ScriptEntry, script_block};
pub use text::{Text, batch, batch_into};
