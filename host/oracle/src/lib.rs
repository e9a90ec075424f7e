//! The oracle: the reference's modules, unchanged, and over them the corpus, the questions and the report of document 01.
include!(concat!(env!("OUT_DIR"), "/reference.rs"));

pub mod frame;
pub mod header;
pub mod question;
pub mod report;
mod row;
pub mod stages;
pub mod verify;
