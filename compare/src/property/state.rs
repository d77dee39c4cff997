//! The tables that the port shows beside the plain program's state: every list of messages, by what the messages are
//! (which entry of the store one has is free), every actor, and the lists of keys.
use crate::chains::Chains;
use crate::limits::MESSAGES;
use crate::model::log;
use crate::model::pool::Pool;
use crate::tables::{ActorRow, MessageRow, OpenRecord, Tables, group_row, list, slot, text};
use crate::tally::same;

/// A message wherever it lies: attempts, caller, id, and its text where the store is shown.
#[derive(PartialEq, Eq, Debug)]
struct Message<'a> {
    row: MessageRow,
    text: Option<(&'a [u8], &'a [u8])>,
}

/// One state on both sides.
pub struct Sides<'a> {
    pub tables: Tables<'a>,
    pub store: Option<&'a [u8]>,
    pub pool: &'a Pool,
}

impl<'a> Sides<'a> {
    pub fn compare(&self) -> Result<(), String> {
        // Every list is a chain, and each entry of the store stands in one list, once.
        Chains::read(&self.tables)?;
        self.records()?;
        self.attempts()?;
        let pool = self.pool;
        self.list("inbox", list::INBOX, pool.inbox.iter().copied())?;
        self.list("pending", list::PENDING, pool.pending.iter().copied())?;
        self.list("batch", list::BATCH, pool.batch.iter().copied())?;
        self.list("over", list::OVER, pool.over.iter().copied())?;
        self.list("the step's hand", list::HAND, pool.hand.iter().copied())?;
        (0..pool.groups.len()).try_for_each(|group| self.group(group))?;
        same("free entries", self.tables.list_len(list::FREE), MESSAGES - pool.live_messages())
    }

    /// The table of open records says what the log's bytes say.
    fn records(&self) -> Result<(), String> {
        let file = &self.pool.log[..self.pool.counters.size];
        let expected = OpenRecord::all(file);
        same("the table of open records", self.tables.records(expected.len() as u64), expected)
    }

    /// The log never says more attempts of a message than the message has.
    fn attempts(&self) -> Result<(), String> {
        let pool = self.pool;
        for record in log::open_records(&pool.log[..pool.counters.size]) {
            let mut held = pool.table.iter().flatten().filter(|message| message.id == Some(record.id));
            if !held.any(|message| message.attempts >= record.attempts) {
                return Err(format!(
                    "the log has {} attempts of {}, and no message has",
                    record.attempts, record.id.0
                ));
            }
        }
        Ok(())
    }

    fn list(&self, what: &str, row: usize, entries: impl Iterator<Item = usize>) -> Result<(), String> {
        let found = self.tables.list(row).into_iter().map(|entry| self.found(entry)).collect::<Vec<_>>();
        same(what, found, entries.map(|entry| self.expected(entry)).collect())
    }

    fn found(&self, entry: usize) -> Message<'a> {
        let row = self.tables.message(entry);
        Message { text: self.store.map(|store| text(store, entry, &row)), row }
    }

    fn expected(&self, entry: usize) -> Message<'a> {
        let row = MessageRow::of(self.pool.message(entry));
        Message { row, text: self.store.map(|_| (self.pool.name(entry), self.pool.body(entry))) }
    }

    fn group(&self, group: usize) -> Result<(), String> {
        let state = &self.pool.groups[group];
        let tables = &self.tables;
        same(&format!("group {group}"), tables.group(group), group_row(&self.pool.settings, group))?;
        let keys = |keys: &[u8]| keys.iter().map(|key| usize::from(*key)).collect::<Vec<_>>();
        let plain = |keys: &std::collections::VecDeque<usize>| keys.iter().copied().collect::<Vec<_>>();
        same(&format!("keys given of group {group}"), usize::from(tables.given(group)), state.actors.slots.len())?;
        same(&format!("free keys of group {group}"), keys(tables.free(group)), state.actors.free.clone())?;
        same(&format!("ready of group {group}"), keys(tables.ready(group)), plain(&state.ready.keys))?;
        same(&format!("idle of group {group}"), keys(tables.idle(group)), plain(&state.idle.keys))?;
        same(&format!("waiting of group {group}"), keys(tables.waiting(group)), plain(&state.waiting.keys))?;
        state.actors.keys().into_iter().try_for_each(|key| self.actor(group, key))
    }

    fn actor(&self, group: usize, key: usize) -> Result<(), String> {
        let actor = self.pool.groups[group].actors.get(key).unwrap();
        let what = |part: &str| format!("{part} of actor {group}.{key} (slot {})", slot(group, key));
        let eval = self.pool.settings.groups[group].eval;
        same(&what("the row"), self.tables.actor(group, key), ActorRow::of(actor, eval))?;
        self.list(&what("mailbox"), list::mailbox(group, key), actor.mailbox.iter().copied())?;
        let hand = actor.in_flight.or(actor.run.as_ref().map(|run| run.message));
        self.list(&what("hands"), list::hand(group, key), hand.into_iter())
    }
}
