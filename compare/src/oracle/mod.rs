//! The Rust under comparison over stand-ins for the interpreter that put every call as a question to a script.
//!
//! `files` are its own files, `opening` opens it, `left` has it open a log for its messages alone. `host` (with
//! `parts`), `pack` and `standins` are what the Rust reaches for outside its own files. But for `host`, `left`, `run`
//! and `script`, the program `bench` compiles the same once more.
#![allow(clippy::all)]

pub mod constants;
// As bench takes it: the views lie beside it.
#[path = "files.rs"]
mod files;
pub mod host;
pub mod left;
pub mod opening;
pub mod pack;
pub mod parts;
pub mod run;
pub mod script;
pub mod standins;

pub use files::*;
