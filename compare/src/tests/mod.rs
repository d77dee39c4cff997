//! What the plain program and the forms of its bytes must say, by the examples of docs/RULES.md and docs/PROTOCOL.md.
//! The port is held to the plain program, so the plain program is held to the rules here. Needs neither the port nor
//! the Rust: `cargo test --lib --no-default-features`.
mod actors;
mod chains;
mod files;
mod mailboxes;
mod openings;
mod points;
mod records;
mod refusals;
mod retries;
mod scripts;
mod texts;

use crate::limits::STORE;
use crate::model::pool::{self, Call, GroupSetting, Pool, Settings};
use crate::property::replies::STORED;

/// Settings with one group, `row`, of one actor.
fn settings(inbox: usize, compact_at: usize) -> Settings {
    let group = GroupSetting { name: b"row".to_vec(), replicas: 1, eval: false, timeout: 0, retry: 0 };
    Settings { groups: vec![group], max_actors: 1, inbox, backlog: 256, compact_at, tick_ns: 1 }
}

/// The same with ceiling 0, so that a turn asks for its clock alone.
fn ceiling_0(inbox: usize, compact_at: usize) -> Settings {
    let mut settings = settings(inbox, compact_at);
    settings.groups[0].replicas = 0;
    settings
}

/// A lent log of `log_len` bytes that has the file in front.
fn lent(log_len: usize, file: &[u8]) -> Vec<u8> {
    let mut log = vec![0xEE; log_len];
    log[..file.len()].copy_from_slice(file);
    log
}

/// Opens a pool, or gives the number that refuses it.
fn opened(settings: &Settings, log_len: usize, file: &[u8]) -> Result<Pool, u8> {
    pool::open(settings, &lent(log_len, file), file.len(), &vec![0; STORE])
}

/// A pool that is open, with the order of its opening stored.
fn running(settings: &Settings, log_len: usize, file: &[u8]) -> Pool {
    let mut pool = opened(settings, log_len, file).expect("an accepted opening");
    pool.call(&STORED);
    pool
}

/// A message that nobody waits for, which is logged.
fn admit(name: &[u8], body: &[u8]) -> Call {
    Call::Admit { name: name.to_vec(), body: body.to_vec(), caller: None }
}
