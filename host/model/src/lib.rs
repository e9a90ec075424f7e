//! Document 01 read afresh: from its text, with no code of the reference, for clarity and not for speed.
//! One file for each of its headings, and one for each call and for the lowering that document 02 adds; texts are UTF-8
//! bytes throughout.
mod call;
mod city;
mod classes;
mod frame;
mod header;
mod house;
mod lower;
mod names;
mod package;
mod reader;
mod references;
mod report;
mod resolve;
mod script;
mod text;
mod verify;

pub use call::{BASE, Limits, class_report, class_report_within};
pub use city::city_hash64;
pub use header::class_header;
pub use lower::lower;
pub use verify::class_verify;
