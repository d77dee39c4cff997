//! Runs the port over a list and holds each entry against what the plain program says after the same call.
use super::list::List;
use super::state::Sides;
use crate::lent::{Lent, STORE_FILL};
use crate::limits::{STORE, STORE_BODY, STORE_ENTRY};
use crate::model::log;
use crate::model::pool::{self, Call, Event, Pool, Reply};
use crate::output::{Answer, Entry, Output, Shown};
use crate::tables::{Tables, list};
use crate::tally::{Tally, same};
use crate::wire::NUMBER;
use std::collections::BTreeMap;

/// What was met, for the report.
#[derive(Default)]
pub struct Seen {
    calls: u64,
    refused: BTreeMap<u64, u64>,
    answers: [u64; 17],
    squeezed: u64,
    lacked_space: u64,
    /// Retries that were written.
    retried: u64,
}

impl Seen {
    fn see(&mut self, entry: &Entry) {
        if let Answer::Refused(number) = entry.answer {
            *self.refused.entry(number).or_default() += 1;
        }
        // The lowest byte of the answer's number.
        self.answers[usize::from(entry.raw[0])] += 1;
    }

    pub fn note(&self, tally: &mut Tally) {
        tally.note("calls", self.calls);
        for (number, times) in &self.refused {
            tally.note(&format!("refused {number}"), *times);
        }
        const NAMES: [&str; 17] = [
            "nothing open",
            "refused",
            "turn ends",
            "appends",
            "replaces",
            "flushes",
            "Boot",
            "Clock",
            "Poll",
            "Drain",
            "Dispatch",
            "Run",
            "Push",
            "Sends",
            "Trap",
            "Trapped",
            "Tell",
        ];
        for (name, times) in NAMES.iter().zip(self.answers) {
            tally.note(name, times);
        }
        tally.note("squeezes", self.squeezed);
        tally.note("lists with a rewrite for lack of room", self.lacked_space);
        tally.note("retries written", self.retried);
    }
}

/// One list, from its opening to its last call.
pub fn list(lent: &mut Lent, list: &List, show: u64, seen: &mut Seen) -> Result<(), String> {
    let script = list.script(show);
    let code = lent.run(&script);
    if code != crate::port::OK {
        return Err(format!("the port returned {code}"));
    }
    let output = Output::read(lent.written()?, show, list.opening.store_len)?;
    let (opening, entries) = output.entries.split_first().ok_or("no entry")?;
    let mut pool = match list.opening.model() {
        Ok(pool) => pool,
        Err(number) => {
            seen.see(opening);
            refused_opening(opening, number)?;
            if !entries.is_empty() {
                return Err("entries after a refused opening".into());
            }
            let untouched = lent.store.iter().all(|byte| *byte == STORE_FILL);
            return if untouched && lent.log == list.opening.lent_log() {
                Ok(())
            } else {
                Err("a refused opening touched the log or the store".into())
            };
        }
    };
    let answer = pool::Answer::Open(pool.open_question());
    entry(opening, &answer, &pool).map_err(|error| format!("opening: {error}"))?;
    seen.see(opening);
    if entries.len() != list.calls.len() {
        return Err(format!("{} entries for {} calls", entries.len(), list.calls.len()));
    }
    let mut before = opening;
    for (at, (call, found)) in list.calls.iter().zip(entries).enumerate() {
        let answer = pool.call(call);
        let checked = entry(found, &answer, &pool).and_then(|()| changes(before, found, call, &answer));
        checked.map_err(|error| format!("call {at}, {call:?}: {error}"))?;
        seen.see(found);
        seen.retried += pool.events.iter().filter(|event| matches!(event, Event::Retried { .. })).count() as u64;
        before = found;
    }
    seen.calls += list.calls.len() as u64;
    let lists = pool.groups.iter().flat_map(|group| [&group.ready, &group.idle, &group.waiting]);
    seen.squeezed += lists.map(|keys| keys.squeezed).sum::<u64>();
    seen.lacked_space += pool.lacked_space as u64;
    if lent.log != pool.log {
        return Err("the lent log is another one at the end, behind its size".into());
    }
    Ok(())
}

/// An entry's answer, message, counters, counts, log and tables.
fn entry(found: &Entry, answer: &pool::Answer, pool: &Pool) -> Result<(), String> {
    same("answer", found.answer, Answer::of(answer))?;
    same("message", found.shown, Shown::of(answer, pool))?;
    let counters = &pool.counters;
    let file = &pool.log[..counters.size];
    same("next", found.next, counters.next)?;
    same("live", found.live, counters.live as u64)?;
    same("size", found.size, counters.size as u64)?;
    same("dirty", found.dirty, counters.dirty)?;
    same("open records", found.open, log::open_records(file).len() as u64)?;
    same("queued", found.queued, pool.queued as u64)?;
    same("dead", found.dead, pool.dead)?;
    same("crashes", found.crashes, pool.crashes)?;
    if found.log.is_some_and(|log| log != file) {
        return Err(format!("log: {:?}, not {:?}", found.log.unwrap().escape_ascii(), file.escape_ascii()));
    }
    match found.tables {
        Some(tables) => Sides { tables, store: found.store, pool }.compare(),
        None => Ok(()),
    }
}

/// An entry's bytes without its answer and the message that it shows: the counters, then log, tables and store.
pub fn state<'a>(entry: &Entry<'a>) -> (&'a [u8], &'a [u8]) {
    const ANSWER: usize = 4 * NUMBER;
    const NUMBERS: usize = 12 * NUMBER;
    let message = entry.shown.map_or(NUMBER, |shown| 3 * NUMBER + shown.name.len() + shown.body.len());
    (&entry.raw[ANSWER..NUMBERS], &entry.raw[NUMBERS + message..])
}

/// After a refused opening there is no pool: all numbers and tables are zero, the store is untouched.
fn refused_opening(found: &Entry, number: u8) -> Result<(), String> {
    same("answer", found.answer, Answer::Refused(number.into()))?;
    let zeros = |bytes: &[u8]| bytes.iter().all(|byte| *byte == 0);
    let (counters, rest) = state(found);
    if !zeros(counters) || found.shown.is_some() {
        return Err("a refused opening has counters".into());
    }
    let store = found.store.map_or(0, <[u8]>::len);
    let (tables, store) = rest.split_at(rest.len() - store);
    if !zeros(tables) || store.iter().any(|byte| *byte != STORE_FILL) {
        return Err("a refused opening has tables, or touched the store".into());
    }
    Ok(())
}

/// What a call may change: refused, nothing at all; else of the store only the texts of one entry that was free.
fn changes(before: &Entry, after: &Entry, call: &Call, answer: &pool::Answer) -> Result<(), String> {
    if let pool::Answer::Refused(_) = answer {
        return if state(before) == state(after) { Ok(()) } else { Err("a refused call changed something".into()) };
    }
    let (Some(old), Some(new), Some(tables)) = (before.store, after.store, before.tables) else { return Ok(()) };
    let kept = match call {
        Call::Admit { name, body, .. } | Call::Reply(Reply::Send(name, body)) => {
            Some((name.as_slice(), body.as_slice()))
        }
        _ => None,
    };
    match kept {
        None if old == new => Ok(()),
        None => Err("a call without a text changed the store".into()),
        Some(text) => only_one_entry(&tables, old, new, text),
    }
}

/// The store is the old one with this text in some entry that was free.
fn only_one_entry(tables: &Tables, old: &[u8], new: &[u8], (name, body): (&[u8], &[u8])) -> Result<(), String> {
    debug_assert_eq!(old.len(), STORE);
    let written = |entry: &usize| {
        let mut store = old.to_vec();
        let at = &mut store[entry * STORE_ENTRY..][..STORE_ENTRY];
        at[..name.len()].copy_from_slice(name);
        at[STORE_BODY..][..body.len()].copy_from_slice(body);
        store == new
    };
    // Most often it is the first.
    if tables.list(list::FREE).iter().any(written) {
        Ok(())
    } else {
        Err("the store is not the old one with the text in an entry that was free".into())
    }
}
