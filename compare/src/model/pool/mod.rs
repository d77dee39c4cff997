//! The pool (docs/RULES.md, sections 4 to 8) as a resumable machine. A call runs until a question or an order goes
//! out, the turn ends, or nothing is left to do. `At` says where in the turn the pool stands; every list of messages
//! is one of the six places.
//!
//! `calls` takes the calls and refuses them, `turn` runs a turn from point to point, and each kind of point has its
//! file: `routing`, `ticking`, `fixed`, `eval`, `settling`.
mod actors;
mod at;
mod calls;
mod eval;
mod fixed;
mod places;
mod question;
mod routing;
mod settings;
mod settling;
mod ticking;
mod turn;

pub use crate::limits::{CLOCK_MAX, KEYS, STORE, STORE_ENTRY as ENTRY};
pub use actors::{Actor, EvalRun, Group, KeyList, Message, Slab, Source};
pub use at::{At, Cursor, Event, Step};
pub use eval::deadline;
pub use places::Place;
pub use question::{Answer, Call, Outcome, Question, Reply, Status};
pub use settings::{GroupSetting, Settings};

use super::log::{self, CallerId, Counters, LogId, Order, Reader};
use crate::limits::{LOG_MAX, LOG_MIN, MESSAGES, STORE_BODY, refusal};
use crate::met;
use std::collections::VecDeque;

/// A message's number in the body store, 0 to 255.
pub type Entry = usize;
/// An actor's key in its group's slab.
pub type Key = usize;

#[derive(Clone, PartialEq, Eq, Debug)]
pub struct Pool {
    pub settings: Settings,
    pub log: Vec<u8>,
    pub counters: Counters,
    pub store: Vec<u8>,
    pub table: Vec<Option<Message>>,
    // The six places; mailboxes, in_flight and run.message are in the groups' actors.
    pub inbox: VecDeque<Entry>,
    pub pending: VecDeque<Entry>,
    pub batch: VecDeque<Entry>,
    pub hand: Option<Entry>,
    pub over: VecDeque<Entry>,
    pub groups: Vec<Group>,
    pub queued: usize,
    pub crashes: u64,
    pub dead: u64,
    pub closed: bool,
    pub failed: bool,
    pub seeded: bool,
    pub stepped: bool,
    pub order: Option<Order>,
    pub at: At,
    /// For the comparison: Boots answered yes, whether a record or a mark was a rewrite for lack of space, whether a
    /// retry was ever ordered, what the last call did.
    pub boots: u64,
    pub lacked_space: bool,
    pub retried: bool,
    pub events: Vec<Event>,
}

/// Opens a pool on the first n bytes of `log`. Err(number): refused, nothing changed.
pub fn open(settings: &Settings, log: &[u8], n: usize, store: &[u8]) -> Result<Pool, u8> {
    open_by(&log::readable, settings, log, n, store)
}

/// The same by any reader of the file.
pub fn open_by(reads: Reader, settings: &Settings, log: &[u8], n: usize, store: &[u8]) -> Result<Pool, u8> {
    if !settings.valid() {
        return Err(refusal::SETTING);
    }
    if !(LOG_MIN..=LOG_MAX).contains(&log.len()) || n > log.len() || store.len() != STORE {
        return Err(refusal::LENGTH);
    }
    let reading = reads(&log[..n])?;
    let mut bytes = log.to_vec();
    let (counters, order) = log::open(&mut bytes, &reading);
    let mut pool = Pool {
        settings: settings.clone(),
        log: bytes,
        counters,
        store: store.to_vec(),
        table: vec![None; MESSAGES],
        inbox: VecDeque::new(),
        pending: VecDeque::new(),
        batch: VecDeque::new(),
        hand: None,
        over: VecDeque::new(),
        groups: vec![Group::default(); settings.groups.len()],
        queued: 0,
        crashes: 0,
        dead: 0,
        closed: false,
        failed: false,
        seeded: false,
        stepped: false,
        order: Some(order),
        at: At::Rest,
        boots: 0,
        lacked_space: false,
        retried: false,
        events: Vec::new(),
    };
    for message in &reading.left {
        match message.attempts {
            0 => met!("opening: a message left"),
            _ => met!("opening: a message left, with its attempts"),
        }
        let e = pool.keep(&message.name, &message.body, Source::HandedBack, None, Some(message.id));
        pool.table[e].as_mut().unwrap().attempts = message.attempts;
        pool.pending.push_back(e);
    }
    Ok(pool)
}

impl Pool {
    pub fn live_messages(&self) -> usize {
        self.table.iter().flatten().count()
    }

    pub fn message(&self, e: Entry) -> &Message {
        self.table[e].as_ref().unwrap()
    }

    pub fn name(&self, e: Entry) -> &[u8] {
        &self.store[e * ENTRY..][..self.message(e).name_len]
    }

    pub fn body(&self, e: Entry) -> &[u8] {
        &self.store[e * ENTRY + STORE_BODY..][..self.message(e).body_len]
    }

    /// The run left the domain of equality: a rewrite for lack of space, or a squeezed list of keys.
    pub fn outside_domain(&self) -> bool {
        self.lacked_space || self.groups.iter().any(Group::squeezed)
    }

    /// Takes a free entry (which one is free; here the first). Its attempts are 0.
    fn keep(
        &mut self,
        name: &[u8],
        body: &[u8],
        source: Source,
        caller: Option<CallerId>,
        id: Option<LogId>,
    ) -> Entry {
        let e = self.table.iter().position(|message| message.is_none()).unwrap();
        self.store[e * ENTRY..][..name.len()].copy_from_slice(name);
        self.store[e * ENTRY + STORE_BODY..][..body.len()].copy_from_slice(body);
        self.table[e] = Some(Message { name_len: name.len(), body_len: body.len(), attempts: 0, caller, id, source });
        e
    }

    /// A message is over: with no log id it is done and its entry free, else it waits for its mark.
    fn is_over(&mut self, e: Entry) {
        let message = self.message(e);
        if message.id.is_some() {
            met!("over: logged, waits for its mark");
            self.over.push_back(e);
            return;
        }
        match message.caller {
            Some(_) => met!("over: a caller's, free at once"),
            None => met!("over: a sent one, free at once"),
        }
        self.table[e] = None;
    }

    fn actor(&mut self, c: Cursor) -> &mut Actor {
        self.groups[c.g].actors.get_mut(c.key).unwrap()
    }
}
