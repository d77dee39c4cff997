//! The port's entries beside the plain program, call by call: the answer and the message it shows, counters, the log's
//! bytes, the order of every list of messages, each message, the keys, the actors, deliveries, marks and retries.
//!
//! Which free entry a message gets is the port's choice. So entries are paired as they come up, and a pair must last
//! until the message is done.
use super::places::{Delivery, Places};
use super::seen::Seen;
use crate::generate::case::{self, Case};
use crate::lent::{LOG_FILL, STORE_FILL};
use crate::limits::{GROUPS_MAX, MESSAGES, STORE_BODY, STORE_ENTRY};
use crate::met::{Counting, counting};
use crate::model::log::{self, LogId, Order, Reader};
use crate::model::pool::{self, At, Call, Event, Pool, Question};
use crate::output::{Answer, Entry, Output, Shown};
use crate::tables::{self, ActorRow, MessageRow, OpenRecord, Tables, list};
use std::fmt::Debug;

/// What the port left of a run: its output, the log and the store.
pub struct Run<'a> {
    pub output: Output<'a>,
    pub log: &'a [u8],
    pub store: &'a [u8],
}

/// A run over the first `calls` calls of a case must be what the plain program gives.
pub fn check(case: &Case, calls: usize, run: &Run, seen: &mut Seen) -> Result<(), String> {
    check_slipped(case, calls, run, &|_| {}, seen)
}

/// The same, with something done to the plain program after the opening and each call.
pub fn check_slipped(
    case: &Case,
    calls: usize,
    run: &Run,
    slip: &dyn Fn(&mut Pool),
    seen: &mut Seen,
) -> Result<(), String> {
    let checked = walk(case, calls, run, &log::readable, slip, seen);
    counting(Counting::Off);
    checked
}

/// The same, with another reader of the file in the plain program.
pub fn check_misread(case: &Case, calls: usize, run: &Run, reads: Reader, seen: &mut Seen) -> Result<(), String> {
    let checked = walk(case, calls, run, reads, &|_| {}, seen);
    counting(Counting::Off);
    checked
}

fn walk(
    case: &Case,
    calls: usize,
    run: &Run,
    reads: Reader,
    slip: &dyn Fn(&mut Pool),
    seen: &mut Seen,
) -> Result<(), String> {
    let inside = |at: usize| match case.inside {
        Some(calls) if at < calls => counting(Counting::Inside),
        _ => counting(Counting::Outside),
    };
    // The opening is inside where any call could be.
    counting(if case.inside.is_some() { Counting::Inside } else { Counting::Outside });
    let entries = &run.output.entries;
    let opening = entries.first().ok_or("no entry for the opening")?;
    let pool = match case::open_by(reads, case) {
        Ok(pool) => pool,
        Err(number) => return refused(case, run, number, seen),
    };
    let mut lockstep = Lockstep::new(pool);
    slip(&mut lockstep.pool);
    let answer = pool::Answer::Open(lockstep.pool.open_question());
    lockstep.entry(&answer, opening, seen).map_err(|error| format!("the opening: {error}"))?;
    for (at, call) in case.calls[..calls].iter().enumerate() {
        let entry = entries.get(at + 1).ok_or_else(|| format!("call {at}: no entry"))?;
        inside(at);
        let answer = lockstep.pool.call(call);
        slip(&mut lockstep.pool);
        let compared = lockstep.entry(&answer, entry, seen);
        compared.map_err(|error| format!("call {at}, {}: {error}", brief(call)))?;
        seen.call(call, &answer);
    }
    same("entries", entries.len(), calls + 1)?;
    lockstep.last(run)
}

/// A call in few words.
fn brief(call: &Call) -> String {
    match call {
        Call::Admit { caller, .. } => format!("admit (caller {caller:?})"),
        other => format!("{other:?}").chars().take(60).collect(),
    }
}

/// A refused opening: its number, and nothing touched but the log's first bytes, which are the file.
fn refused(case: &Case, run: &Run, number: u8, seen: &mut Seen) -> Result<(), String> {
    seen.refused_opening(number);
    same("entries", run.output.entries.len(), 1)?;
    let entry = &run.output.entries[0];
    same("answer", entry.answer, Answer::Refused(number as u64))?;
    same("shown", entry.shown, None)?;
    let counters = [entry.next, entry.live, entry.size, entry.dirty as u64, entry.open];
    same("counters", counters, [0; 5])?;
    same("counts", [entry.queued, entry.dead, entry.crashes], [0; 3])?;
    let mut given = vec![LOG_FILL; case.log_len];
    if case.file.len() <= case.log_len {
        given[..case.file.len()].copy_from_slice(&case.file);
    }
    same_bytes("the log", run.log, &given)?;
    same_bytes("the store", run.store, &vec![STORE_FILL; case.store_len])
}

pub fn same<T: PartialEq + Debug>(what: &str, port: T, expected: T) -> Result<(), String> {
    if port == expected { Ok(()) } else { Err(format!("{what}: port {port:?}, expected {expected:?}")) }
}

fn same_bytes(what: &str, port: &[u8], expected: &[u8]) -> Result<(), String> {
    if port == expected {
        return Ok(());
    }
    let at = port.iter().zip(expected).position(|(port, expected)| port != expected);
    let at = at.unwrap_or(port.len().min(expected.len()));
    let text = |bytes: &[u8]| bytes[at.saturating_sub(20)..(at + 20).min(bytes.len())].escape_ascii().to_string();
    Err(format!(
        "{what} from byte {at} on: port \"{}\" ({} bytes), expected \"{}\" ({} bytes)",
        text(port),
        port.len(),
        text(expected),
        expected.len()
    ))
}

struct Lockstep {
    pool: Pool,
    /// The plain program's entry for each of the port's, while the message lives.
    pairs: [Option<usize>; MESSAGES],
    /// The body store as the port must have it.
    store: Vec<u8>,
    places: Option<Places>,
    /// The open records after the last call, by the log's bytes, and these bytes.
    records: Vec<OpenRecord>,
    log: Vec<u8>,
}

impl Lockstep {
    fn new(pool: Pool) -> Lockstep {
        let store = vec![STORE_FILL; pool.store.len()];
        Lockstep { pool, pairs: [None; MESSAGES], store, places: None, records: Vec::new(), log: Vec::new() }
    }

    /// One entry after the plain program made the same call.
    fn entry(&mut self, answer: &pool::Answer, entry: &Entry, seen: &mut Seen) -> Result<(), String> {
        same("answer", entry.answer, Answer::of(answer))?;
        same("the message shown", entry.shown, Shown::of(answer, &self.pool))?;
        let pool = &self.pool;
        let counters = (pool.counters.next, pool.counters.live as u64, pool.counters.size as u64);
        same("next, live, size", (entry.next, entry.live, entry.size), counters)?;
        same("dirty", entry.dirty, pool.counters.dirty)?;
        let counts = (pool.queued as u64, pool.dead, pool.crashes);
        same("queued, dead, crashes", (entry.queued, entry.dead, entry.crashes), counts)?;
        same_bytes("the log", entry.log.ok_or("no log")?, &pool.log[..pool.counters.size])?;
        let tables = entry.tables.ok_or("no tables")?;
        self.messages(&tables)?;
        self.deliveries(seen)?;
        self.marks(&tables, entry, seen)?;
        self.retry(entry, seen)?;
        self.groups(&tables)?;
        match entry.store {
            Some(store) => same_bytes("the store", store, &self.store),
            None => Ok(()),
        }
    }

    /// Every list of messages has the same messages in the same order.
    fn messages(&mut self, tables: &Tables) -> Result<(), String> {
        let places = Places::read(tables)?;
        let pool = &self.pool;
        let mut pairs = Pairs { pool, tables, places: &places, pairs: &mut self.pairs, store: &mut self.store };
        pairs.list("the inbox", list::INBOX, &mut pool.inbox.iter().copied())?;
        pairs.list("pending", list::PENDING, &mut pool.pending.iter().copied())?;
        pairs.list("the batch", list::BATCH, &mut pool.batch.iter().copied())?;
        pairs.list("what is over", list::OVER, &mut pool.over.iter().copied())?;
        pairs.list("the step's hand", list::HAND, &mut pool.hand.iter().copied())?;
        for (g, group) in pool.groups.iter().enumerate() {
            for key in group.actors.keys() {
                let actor = group.actors.get(key).unwrap();
                let of_actor = |error| format!("actor {g}/{key}: {error}");
                let mailbox = &mut actor.mailbox.iter().copied();
                pairs.list("the mailbox", list::mailbox(g, key), mailbox).map_err(of_actor)?;
                let held = &mut actor.in_flight.into_iter().chain(actor.run.as_ref().map(|run| run.message));
                pairs.list("the hands", list::hand(g, key), held).map_err(of_actor)?;
            }
        }
        same("free entries", places.list(list::FREE).len(), MESSAGES - pool.live_messages())?;
        for &entry in places.list(list::FREE) {
            self.pairs[entry] = None;
        }
        self.places = Some(match self.places.take() {
            Some(before) => places.after(before),
            None => places,
        });
        Ok(())
    }

    /// What came to the mailboxes is what was delivered, in order for each.
    fn deliveries(&self, seen: &mut Seen) -> Result<(), String> {
        let places = self.places.as_ref().expect("the lists were read");
        let found: Vec<(usize, usize, Option<usize>)> =
            places.delivered().iter().map(|&Delivery { group, key, entry }| (group, key, self.pairs[entry])).collect();
        let mut expected = Vec::new();
        for event in &self.pool.events {
            if let Event::Delivered { g, key, message } = *event {
                expected.push((g, key, Some(message)));
            }
        }
        // Deliveries to different mailboxes have no order that the tables show.
        expected.sort_by_key(|&(g, key, _)| (g, key));
        seen.deliveries += expected.len() as u64;
        same("deliveries (group, key, message)", found, expected)
    }

    /// The open records stand in the table as they stand in the log, and what left them is what was marked.
    fn marks(&mut self, tables: &Tables, entry: &Entry, seen: &mut Seen) -> Result<(), String> {
        let bytes = entry.log.ok_or("no log")?;
        let before = self.records.clone();
        if bytes != self.log {
            self.records = OpenRecord::all(bytes);
            self.log = bytes.to_vec();
        }
        let records = &self.records;
        same("open records", entry.open, records.len() as u64)?;
        same("the table of open records", &tables.records(entry.open), records)?;
        let stays = |id: &u64| records.iter().any(|record| record.id == *id);
        let gone: Vec<u64> = before.iter().map(|record| record.id).filter(|id| !stays(id)).collect();
        let marked: Vec<u64> = self.pool.events.iter().filter_map(marked).collect();
        same("marks", &gone, &marked)?;
        if let [id] = marked[..] {
            seen.marks += 1;
            match entry.answer {
                Answer::Append(from, to) => {
                    let line = bytes.get(from as usize..to as usize);
                    same("the done line", line, Some(format!("{id}\n").as_bytes()))?;
                }
                Answer::Replace(length) => same("the file's length", length, bytes.len() as u64)?,
                other => return Err(format!("a mark of {id}, and no order: {other:?}")),
            }
        }
        Ok(())
    }

    /// The order of a retry appends its line, or is a new file with the line directly behind its record.
    fn retry(&self, entry: &Entry, seen: &mut Seen) -> Result<(), String> {
        let Some((id, attempts)) = self.pool.events.iter().find_map(retried) else { return Ok(()) };
        seen.retries += 1;
        let line = log::retry_line(id, attempts);
        let record = self.records.iter().find(|record| record.id == id.0).ok_or("a retry of no open record")?;
        let from = match entry.answer {
            Answer::Append(from, to) => {
                same("the length of a retry", to - from, line.len() as u64)?;
                from
            }
            Answer::Replace(_) => record.at + record.length,
            other => return Err(format!("a retry of {}, and no order: {other:?}", id.0)),
        } as usize;
        same("the line of a retry", self.log.get(from..from + line.len()), Some(line.as_slice()))
    }

    /// Settings, keys and actors.
    fn groups(&self, tables: &Tables) -> Result<(), String> {
        for g in 0..self.pool.groups.len() {
            self.group(tables, g).map_err(|error| format!("group {g}: {error}"))?;
        }
        for g in self.pool.groups.len()..GROUPS_MAX {
            same("a group that is not there", tables.live(g), Vec::new())?;
        }
        match &self.pool.at {
            At::WakePoll { rest, .. } => keys("the rest of the waiting list", tables.keys(tables::REST), rest.iter()),
            At::Trapped { trapped, .. } => keys("the trapped ones", tables.keys(tables::TRAPPED), trapped.iter()),
            At::CrashTrapped { trapped, .. } => keys("the trapped ones", tables.keys(tables::TRAPPED), trapped.iter()),
            _ => Ok(()),
        }
    }

    fn group(&self, tables: &Tables, g: usize) -> Result<(), String> {
        let group = &self.pool.groups[g];
        same("the settings", tables.group(g), tables::group_row(&self.pool.settings, g))?;
        same("the keys", tables.live(g), group.actors.keys())?;
        keys("the free keys", tables.free(g), group.actors.free.iter())?;
        same("the keys given", tables.given(g) as usize, group.actors.slots.len())?;
        keys("ready", tables.ready(g), group.ready.keys.iter())?;
        keys("idle", tables.idle(g), group.idle.keys.iter())?;
        keys("waiting", tables.waiting(g), group.waiting.keys.iter())?;
        for key in group.actors.keys() {
            let actor = ActorRow::of(group.actors.get(key).unwrap(), self.pool.settings.groups[g].eval);
            same("an actor", (key, tables.actor(g, key)), (key, actor))?;
        }
        Ok(())
    }

    /// After the last call: the whole log, with the bytes behind its size, and the whole store.
    fn last(&self, run: &Run) -> Result<(), String> {
        same_bytes("the whole log at the end", run.log, &self.pool.log)?;
        same_bytes("the whole store at the end", run.store, &self.store)
    }
}

/// Pairs the entries of both sides, list by list.
struct Pairs<'a> {
    pool: &'a Pool,
    tables: &'a Tables<'a>,
    places: &'a Places,
    pairs: &'a mut [Option<usize>; MESSAGES],
    store: &'a mut [u8],
}

impl Pairs<'_> {
    fn list(&mut self, what: &str, number: usize, expected: &mut dyn Iterator<Item = usize>) -> Result<(), String> {
        let port = self.places.list(number);
        let expected: Vec<usize> = expected.collect();
        if port.len() != expected.len() {
            return Err(format!("{what}: port has {} messages, expected {}", port.len(), expected.len()));
        }
        for (at, (&entry, &e)) in port.iter().zip(&expected).enumerate() {
            self.pair(entry, e).map_err(|error| format!("{what}, message {at}: {error}"))?;
        }
        Ok(())
    }

    fn pair(&mut self, entry: usize, e: usize) -> Result<(), String> {
        let message = self.pool.message(e);
        same("its row", self.tables.message(entry), MessageRow::of(message))?;
        match self.pairs[entry] {
            Some(before) if before != e => Err("it is another message of the same row".into()),
            Some(_) => Ok(()),
            None => {
                self.pairs[entry] = Some(e);
                let at = entry * STORE_ENTRY;
                self.store[at..][..message.name_len].copy_from_slice(self.pool.name(e));
                self.store[at + STORE_BODY..][..message.body_len].copy_from_slice(self.pool.body(e));
                Ok(())
            }
        }
    }
}

fn keys<'a>(what: &str, port: &[u8], expected: impl Iterator<Item = &'a usize>) -> Result<(), String> {
    let expected: Vec<u8> = expected.map(|key| *key as u8).collect();
    same(what, port, &expected)
}

fn marked(event: &Event) -> Option<u64> {
    match event {
        Event::Marked(id) => Some(id.0),
        _ => None,
    }
}

fn retried(event: &Event) -> Option<(LogId, u64)> {
    match event {
        Event::Retried { id, attempts } => Some((*id, *attempts)),
        _ => None,
    }
}

/// An order of the plain program, for the seen.
pub fn order_of(answer: &pool::Answer) -> Option<Order> {
    match answer {
        pool::Answer::Open(Some(Question::Store(order))) => Some(*order),
        _ => None,
    }
}
