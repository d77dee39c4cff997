//! The Rust as the comparison has it, of which a part is used here, over a host and a script that only answer.
#![allow(clippy::all, dead_code)]

#[path = "../../oracle/constants.rs"]
pub mod constants;
#[path = "../../oracle/files.rs"]
mod files;
pub mod host;
#[path = "../../oracle/opening.rs"]
pub mod opening;
#[path = "../../oracle/pack.rs"]
pub mod pack;
#[path = "../../oracle/parts.rs"]
pub mod parts;
pub mod script;
#[path = "../../oracle/standins.rs"]
pub mod standins;

pub use files::*;
