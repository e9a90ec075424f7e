//! The writer of headers against model, reference and the corpora's own writer, with buffers of every kind.
mod agree;
mod apart;
mod asked;
#[path = "../../../oracle/tests/both/mod.rs"]
mod both;
#[path = "../buffer/mod.rs"]
mod buffer;
mod examples;
mod faults;
mod reports;
mod utf8;
