//! The calls against oracle and model, with buffers of every kind.
mod agree;
mod asked;
#[path = "../../../oracle/tests/both/mod.rs"]
mod both;
#[path = "../buffer/mod.rs"]
mod buffer;
mod demand3;
mod faults;
mod hostile;
mod judged;
mod lent;
mod limits;
mod recorded;
mod sized;
mod verify;
