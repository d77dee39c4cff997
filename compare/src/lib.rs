//! The Rust of the message core beside the port, over scripts of calls and replies.
//!
//! `model` is docs/RULES.md as a plain program. It drives a run inside the domain of equality and writes down what
//! must follow; `port` (the linked library, one function) must then give the same, and the Rust too.

pub mod chains;
pub mod drive;
pub mod lent;
pub mod limits;
pub mod met;
pub mod model;
pub mod output;
pub mod port;
pub mod program;
pub mod rng;
pub mod scratch;
pub mod script;
pub mod tables;
pub mod tally;
pub mod trace;
pub mod view;
pub mod wire;

pub mod diff;
pub mod generate;

#[cfg(oracle)]
pub mod oracle;
// The Rust names these two at the crate's root.
#[cfg(oracle)]
use oracle::{host, pack};
#[cfg(oracle)]
extern crate slab;

pub mod bench;
pub mod cuts;
pub mod differences;
pub mod mailboxes;
pub mod property;
pub mod recorded;
pub mod retries;
pub mod spellings;
pub mod unloaded;

#[cfg(test)]
mod tests;
