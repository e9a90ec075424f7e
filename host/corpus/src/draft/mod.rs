//! Drafts: the corpus with every field open to change, written as it stands and never checked. A sound draft comes from
//! what describes it; a fault edits a field of it. So too what describes a header.
mod batch;
mod corpus;
mod description;
mod package;
mod script;

pub use batch::BatchDraft;
pub use corpus::Draft;
pub use description::{DescriptionDraft, TextDraft};
pub use package::{ExportDraft, PackageDraft};
pub use script::{EntryDraft, ScriptDraft};
