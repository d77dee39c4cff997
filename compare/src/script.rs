//! What one run of the port is given, as bytes (docs/PROTOCOL.md): settings, the file, then calls and replies in
//! order.
use crate::limits::{MESSAGES, NAME_MAX};
use crate::model::pool::{Call, GroupSetting, Reply, Settings, Status};
use crate::tables::{self, GROUP};
use crate::wire::{NUMBER, put};

const VERSION: u64 = 1;

/// What an entry of the output shows besides answer and counters: nothing, the log, the tables too, the store too.
pub const SHOW_NOTHING: u64 = 0;
pub const SHOW_LOG: u64 = 1;
pub const SHOW_TABLES: u64 = 2;
pub const SHOW_STORE: u64 = 3;

#[derive(Clone)]
pub struct Script {
    bytes: Vec<u8>,
    show: u64,
    log_len: usize,
    store_len: usize,
    /// Bytes that the log can have at most after the calls so far, and the output with them.
    log_bound: usize,
    bound: usize,
}

impl Script {
    /// A script of an opening alone. The lent lengths and `show` may be any numbers.
    pub fn new(settings: &Settings, log_len: usize, store_len: usize, file: &[u8], show: u64) -> Script {
        let mut bytes = Vec::new();
        for number in [VERSION, show, log_len as u64, store_len as u64, file.len() as u64] {
            put(&mut bytes, number);
        }
        settings_numbers(settings).into_iter().for_each(|number| put(&mut bytes, number));
        put(&mut bytes, settings.groups.len() as u64);
        settings.groups.iter().flat_map(group_numbers).for_each(|number| put(&mut bytes, number));
        bytes.extend_from_slice(file);
        let mut script = Script { bytes, show, log_len, store_len, log_bound: file.len(), bound: NUMBER };
        script.bound += script.entry_bound();
        script
    }

    /// Adds a call.
    pub fn call(&mut self, call: &Call) {
        const NONE: (u64, u64, &[u8], &[u8]) = (0, 0, &[], &[]);
        let (which, (kind, value, name, body)) = match call {
            Call::Admit { name, body, caller } => {
                let value = caller.map_or(0, |caller| caller.0);
                (1, (caller.is_some() as u64, value, name.as_slice(), body.as_slice()))
            }
            Call::Turn => (2, NONE),
            Call::Reply(reply) => (3, reply_numbers(reply)),
            Call::Sync => (4, NONE),
            Call::Close => (5, NONE),
        };
        for number in [which, kind, value, name.len() as u64, body.len() as u64] {
            put(&mut self.bytes, number);
        }
        self.bytes.extend_from_slice(name);
        self.bytes.extend_from_slice(body);
        // A call orders one record, one done line or one retry at most. An id has 20 digits at most, attempts have 3.
        const ID_AND_SEPARATORS: usize = 25;
        self.log_bound += ID_AND_SEPARATORS + 2 * (name.len() + body.len());
        self.bound += self.entry_bound();
    }

    /// The script as the port reads it.
    pub fn bytes(&self) -> &[u8] {
        &self.bytes
    }

    pub fn show(&self) -> u64 {
        self.show
    }

    pub fn log_len(&self) -> usize {
        self.log_len
    }

    pub fn store_len(&self) -> usize {
        self.store_len
    }

    /// A length that the output cannot pass.
    pub fn output_bound(&self) -> usize {
        self.bound
    }

    fn entry_bound(&self) -> usize {
        const NUMBERS: usize = 15 * NUMBER;
        let mut bound = NUMBERS + crate::limits::STORE / MESSAGES;
        if self.show >= SHOW_LOG {
            bound += self.log_bound.min(self.log_len);
        }
        if self.show >= SHOW_TABLES {
            bound += tables::LENGTH;
        }
        if self.show >= SHOW_STORE {
            bound += self.store_len;
        }
        bound
    }
}

/// What is set besides the groups.
pub fn settings_numbers(settings: &Settings) -> [u64; 5] {
    let Settings { max_actors, inbox, backlog, compact_at, tick_ns, .. } = settings;
    [*max_actors as u64, *inbox as u64, *backlog as u64, *compact_at as u64, *tick_ns]
}

/// The row of a group.
pub fn group_numbers(group: &GroupSetting) -> [u64; GROUP] {
    const BEFORE_NAME: usize = GROUP - NAME_MAX;
    let GroupSetting { name, replicas, eval, timeout, retry } = group;
    let mut row = [0; GROUP];
    row[..BEFORE_NAME].copy_from_slice(&[*replicas as u64, *eval as u64, *timeout, *retry, name.len() as u64]);
    for (cell, byte) in row[BEFORE_NAME..].iter_mut().zip(name) {
        *cell = *byte as u64;
    }
    row
}

/// Kind, value, name and body of a reply.
pub fn reply_numbers(reply: &Reply) -> (u64, u64, &[u8], &[u8]) {
    match reply {
        Reply::No => (0, 0, &[], &[]),
        Reply::Yes => (1, 0, &[], &[]),
        Reply::Clock(clock) => (2, *clock, &[], &[]),
        Reply::Count(count) => (3, *count, &[], &[]),
        Reply::Ran(status) => (4, status_number(*status), &[], &[]),
        Reply::Send(name, body) => (5, 0, name, body),
        Reply::End => (6, 0, &[], &[]),
        Reply::Told => (7, 0, &[], &[]),
        Reply::Stored => (8, 0, &[], &[]),
        Reply::Failed => (9, 0, &[], &[]),
    }
}

fn status_number(status: Status) -> u64 {
    match status {
        Status::Done => 0,
        Status::Exit => 1,
        Status::Preempted => 2,
        Status::Event => 3,
        Status::HostCall => 4,
        Status::Error => 5,
        Status::Broke => 6,
    }
}
