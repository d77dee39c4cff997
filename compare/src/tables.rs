//! The tables that an entry shows, row by row: open records, groups, links, messages, lists of keys, actors.
//! They are read where they lie; a row's place is decided by the lengths alone.
use crate::limits::{GROUPS_MAX, MESSAGES};
use crate::model::log;
use crate::model::pool::{Actor, Message, Settings};
use crate::wire::NUMBER;

/// Rows of each table, and numbers of a row.
const RECORDS: usize = MESSAGES;
pub const RECORD: usize = 4;
pub const GROUP: usize = 37;
/// The lists of messages; as many rows of links.
pub const LISTS: usize = 262;
const LINKS: usize = LISTS;
pub const LINK: usize = 4;
pub const MESSAGE: usize = 7;
/// A list of keys is bytes: how many, then the keys.
pub const KEY_LISTS: usize = 34;
pub const KEY_LIST: usize = 65;
/// Actors of a group, and of all.
pub const SLOTS_A_GROUP: usize = 16;
pub const SLOTS: usize = GROUPS_MAX * SLOTS_A_GROUP;
pub const ACTOR: usize = 12;

/// Where each table begins.
pub const RECORDS_AT: usize = 0;
const GROUPS_AT: usize = RECORDS * RECORD * NUMBER;
pub const LINKS_AT: usize = GROUPS_AT + GROUPS_MAX * GROUP * NUMBER;
pub const MESSAGES_AT: usize = LINKS_AT + LINKS * LINK * NUMBER;
pub const KEYS_AT: usize = MESSAGES_AT + MESSAGES * MESSAGE * NUMBER;
pub const ACTORS_AT: usize = KEYS_AT + KEY_LISTS * KEY_LIST;
/// Bytes of all tables.
pub const LENGTH: usize = ACTORS_AT + SLOTS * ACTOR * NUMBER;

/// The lists of messages (crates/lists).
pub mod list {
    pub const FREE: usize = 0;
    pub const INBOX: usize = 1;
    pub const PENDING: usize = 2;
    /// Being routed.
    pub const BATCH: usize = 3;
    /// Over, with the mark not yet ordered.
    pub const OVER: usize = 4;
    /// In the hands of the step under way.
    pub const HAND: usize = 5;

    pub fn mailbox(group: usize, key: usize) -> usize {
        6 + 2 * super::slot(group, key)
    }

    /// Those of all slots.
    pub fn mailboxes() -> impl Iterator<Item = usize> + Clone {
        (0..super::SLOTS).map(|slot| 6 + 2 * slot)
    }

    /// What an actor has in its hands.
    pub fn hand(group: usize, key: usize) -> usize {
        7 + 2 * super::slot(group, key)
    }

    /// A list in words.
    pub fn name(number: usize) -> String {
        const PLACES: [&str; 6] =
            ["what is free", "the inbox", "pending", "the batch", "what is over", "the step's hand"];
        match PLACES.get(number) {
            Some(place) => place.to_string(),
            None => {
                let (slot, of) = ((number - 6) / 2, ["the mailbox", "the hand"][number % 2]);
                format!("{of} of actor {}/{}", slot / super::SLOTS_A_GROUP, slot % super::SLOTS_A_GROUP)
            }
        }
    }
}

/// The slot of an actor among all.
pub fn slot(group: usize, key: usize) -> usize {
    SLOTS_A_GROUP * group + key
}

/// The lists of keys that belong to a turn.
pub const REST: usize = 32;
pub const TRAPPED: usize = 33;

#[derive(Clone, Copy, PartialEq, Eq, Debug)]
pub struct OpenRecord {
    pub id: u64,
    pub at: u64,
    /// That of the record alone.
    pub length: u64,
    /// As last written or read.
    pub attempts: u64,
}

#[derive(Clone, Copy, PartialEq, Eq, Debug)]
pub struct MessageRow {
    pub attempts: u64,
    pub name_len: u64,
    pub body_len: u64,
    pub caller: Option<u64>,
    pub id: Option<u64>,
}

#[derive(Clone, Copy, PartialEq, Eq, Debug)]
pub struct ActorRow {
    pub eval: bool,
    pub started: bool,
    pub ran: bool,
    pub idle: bool,
    pub runnable: bool,
    pub scheduled: bool,
    pub blocked: bool,
    pub consumed: bool,
    pub wake_at: Option<u64>,
    /// The deadline of an eval run.
    pub run: Option<u64>,
}

impl OpenRecord {
    /// The open records of a log's bytes.
    pub fn all(log: &[u8]) -> Vec<OpenRecord> {
        let row = |open: log::Open| OpenRecord {
            id: open.id.0,
            at: open.from as u64,
            length: (open.to - open.from) as u64,
            attempts: open.attempts,
        };
        log::open_records(log).into_iter().map(row).collect()
    }
}

impl MessageRow {
    pub fn of(message: &Message) -> MessageRow {
        MessageRow {
            attempts: message.attempts,
            name_len: message.name_len as u64,
            body_len: message.body_len as u64,
            caller: message.caller.map(|caller| caller.0),
            id: message.id.map(|id| id.0),
        }
    }
}

impl ActorRow {
    pub fn of(actor: &Actor, eval: bool) -> ActorRow {
        ActorRow {
            eval,
            started: actor.started,
            ran: actor.ran,
            idle: actor.idle,
            runnable: actor.runnable,
            scheduled: actor.scheduled,
            blocked: actor.blocked,
            consumed: actor.consumed,
            wake_at: actor.wake_at,
            run: actor.run.as_ref().map(|run| run.deadline),
        }
    }
}

/// A group's row, by its settings.
pub fn group_row(settings: &Settings, group: usize) -> [u64; GROUP] {
    let setting = &settings.groups[group];
    let mut row = [0; GROUP];
    row[0] = settings.ceiling(group) as u64;
    row[1] = setting.eval as u64;
    row[2] = setting.timeout;
    row[3] = setting.retry;
    row[4] = setting.name.len() as u64;
    for (cell, byte) in row[5..].iter_mut().zip(&setting.name) {
        *cell = *byte as u64;
    }
    row
}

/// The tables of one entry.
#[derive(Clone, Copy, PartialEq, Eq)]
pub struct Tables<'a> {
    bytes: &'a [u8],
}

impl<'a> Tables<'a> {
    pub fn new(bytes: &'a [u8]) -> Tables<'a> {
        assert_eq!(bytes.len(), LENGTH, "the tables are shown whole");
        Tables { bytes }
    }

    fn row<const CELLS: usize>(&self, at: usize, row: usize) -> [u64; CELLS] {
        let from = at + row * CELLS * NUMBER;
        std::array::from_fn(|cell| {
            let bytes = &self.bytes[from + cell * NUMBER..][..NUMBER];
            u64::from_le_bytes(bytes.try_into().unwrap())
        })
    }

    /// The first `open` rows of the table of open records.
    pub fn records(&self, open: u64) -> Vec<OpenRecord> {
        (0..(open as usize).min(RECORDS))
            .map(|row| {
                let [id, at, length, attempts] = self.row::<RECORD>(RECORDS_AT, row);
                OpenRecord { id, at, length, attempts }
            })
            .collect()
    }

    /// A group's row: replicas, kind, timeout, retry, the name's length, the name's bytes.
    pub fn group(&self, group: usize) -> [u64; GROUP] {
        self.row(GROUPS_AT, group)
    }

    /// First entry, last entry and length of a list; behind them, of the entry of this number, the next one.
    pub fn link(&self, row: usize) -> [u64; LINK] {
        self.row(LINKS_AT, row)
    }

    pub fn list_len(&self, list: usize) -> usize {
        self.link(list)[2] as usize
    }

    /// The entries of a list, in order.
    pub fn list(&self, list: usize) -> Vec<usize> {
        let [head, _, length, _] = self.link(list);
        let mut entries = Vec::with_capacity(length.min(MESSAGES as u64) as usize);
        let mut entry = head as usize;
        for _ in 0..length.min(MESSAGES as u64 + 1) {
            entries.push(entry);
            if entry >= LINKS {
                break;
            }
            entry = self.link(entry)[3] as usize;
        }
        entries
    }

    pub fn message(&self, entry: usize) -> MessageRow {
        let [attempts, name_len, body_len, has_caller, caller, has_id, id] = self.row::<MESSAGE>(MESSAGES_AT, entry);
        MessageRow {
            attempts,
            name_len,
            body_len,
            caller: (has_caller != 0).then_some(caller),
            id: (has_id != 0).then_some(id),
        }
    }

    fn key_row(&self, row: usize) -> &'a [u8] {
        &self.bytes[KEYS_AT + row * KEY_LIST..][..KEY_LIST]
    }

    /// The keys of a row, in order.
    pub fn keys(&self, row: usize) -> &'a [u8] {
        let bytes = self.key_row(row);
        &bytes[1..][..(bytes[0] as usize).min(KEY_LIST - 1)]
    }

    /// Where a row of keys begins.
    pub fn keys_at(row: usize) -> usize {
        KEYS_AT + row * KEY_LIST
    }

    /// The free keys of a group's slab, the last freed one last.
    pub fn free(&self, group: usize) -> &'a [u8] {
        self.keys(4 * group)
    }

    /// How many keys the group's slab ever gave.
    pub fn given(&self, group: usize) -> u8 {
        self.key_row(4 * group)[KEY_LIST - 1]
    }

    /// The keys that have an actor, in rising order.
    pub fn live(&self, group: usize) -> Vec<usize> {
        let free = self.free(group);
        (0..self.given(group)).filter(|key| !free.contains(key)).map(usize::from).collect()
    }

    pub fn ready(&self, group: usize) -> &'a [u8] {
        self.keys(4 * group + 1)
    }

    pub fn idle(&self, group: usize) -> &'a [u8] {
        self.keys(4 * group + 2)
    }

    pub fn waiting(&self, group: usize) -> &'a [u8] {
        self.keys(4 * group + 3)
    }

    pub fn actor(&self, group: usize, key: usize) -> ActorRow {
        let cells = self.row::<ACTOR>(ACTORS_AT, slot(group, key));
        let flag = |at: usize| cells[at] != 0;
        let option = |at: usize| flag(at).then_some(cells[at + 1]);
        ActorRow {
            eval: flag(0),
            started: flag(1),
            ran: flag(2),
            idle: flag(3),
            runnable: flag(4),
            scheduled: flag(5),
            blocked: flag(6),
            consumed: flag(7),
            wake_at: option(8),
            run: option(10),
        }
    }
}

/// The name and body that a store has for an entry.
pub fn text<'a>(store: &'a [u8], entry: usize, row: &MessageRow) -> (&'a [u8], &'a [u8]) {
    use crate::limits::{STORE_BODY, STORE_ENTRY};
    let at = &store[entry * STORE_ENTRY..][..STORE_ENTRY];
    (&at[..row.name_len as usize], &at[STORE_BODY..][..row.body_len as usize])
}
