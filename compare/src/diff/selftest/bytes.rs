//! Slips in what the port wrote. Each changes one thing that the comparison must notice wherever it stands.
use super::lockstep::Run;
use crate::output::{Entry, Output};
use crate::rng::Rng;
use crate::tables::{self, ACTOR, ACTORS_AT, LINK, LINKS_AT, MESSAGE, MESSAGES_AT, RECORDS_AT, Tables, list};
use crate::wire::NUMBER;

/// A slip: None where the output has nothing that it could be made in.
type Slip = fn(&mut Slipped, &mut Rng) -> Option<()>;

pub const SLIPS: &[(&str, Slip)] = &[
    ("a bit of an answer or a counter", numbers),
    ("a bit of a message that is shown", shown),
    ("a bit of the log", log),
    ("a delivery is dropped", delivery),
    ("two keys of a list are swapped", keys),
    ("two messages of a list are swapped", messages),
    ("two messages of a mailbox are swapped", mail),
    ("a mailbox runs in a circle", circle),
    ("a message in a mailbox is free too", shared),
    ("the end of a mailbox is lost", end_lost),
    ("a mark is dropped", mark),
    ("a flag of an actor", actor),
    ("a message's attempts", attempts),
    ("an entry is left out", left_out),
    ("an entry is written twice", twice),
    ("a bit of the store at the end", store_at_end),
    ("a bit of the log at the end", log_at_end),
];

/// A copy of what the port left, to be changed.
pub struct Slipped<'a> {
    output: &'a Output<'a>,
    /// Where each entry begins in the copy.
    starts: Vec<usize>,
    written: Vec<u8>,
    log: Vec<u8>,
    store: Vec<u8>,
}

impl<'a> Slipped<'a> {
    pub fn new(run: &'a Run<'a>) -> Slipped<'a> {
        let mut starts = Vec::new();
        let mut written = vec![0; NUMBER];
        for entry in &run.output.entries {
            starts.push(written.len());
            written.extend_from_slice(entry.raw);
        }
        let (log, store) = (run.log.to_vec(), run.store.to_vec());
        let mut slipped = Slipped { output: &run.output, starts, written, log, store };
        slipped.count();
        slipped
    }

    /// The changed copy as a run of the port.
    pub fn run(&self, show: u64) -> Result<Run<'_>, String> {
        let output = Output::read(&self.written, show, self.store.len())?;
        Ok(Run { output, log: &self.log, store: &self.store })
    }

    /// Any entry of which this is true, from a random one on. A refused opening is none.
    fn any(&self, rng: &mut Rng, is: impl Fn(usize, &Entry) -> bool) -> Option<usize> {
        let entries = &self.output.entries;
        if entries.len() < 2 {
            return None;
        }
        let from = rng.below(entries.len() as u64) as usize;
        let mut order = (from..entries.len()).chain(0..from);
        order.find(|&at| is(at, &entries[at]))
    }

    fn flip(&mut self, at: usize, rng: &mut Rng) -> Option<()> {
        self.written[at] ^= 1 << rng.below(8);
        Some(())
    }

    /// Where the tables of an entry begin.
    fn tables_at(&self, at: usize) -> usize {
        let entry = &self.output.entries[at];
        let behind = tables::LENGTH + entry.store.map_or(0, <[u8]>::len);
        self.starts[at] + entry.raw.len() - behind
    }

    fn tables(&self, at: usize) -> Tables<'a> {
        self.output.entries[at].tables.expect("the tables are shown")
    }

    /// Puts a number into the tables of an entry.
    fn put(&mut self, at: usize, place: usize, number: u64) {
        let from = self.tables_at(at) + place;
        self.written[from..][..NUMBER].copy_from_slice(&number.to_le_bytes());
    }

    /// Writes the count anew.
    fn count(&mut self) {
        let count = (self.written.len() - NUMBER) as u64;
        self.written[..NUMBER].copy_from_slice(&count.to_le_bytes());
    }

    fn live_actors(&self, at: usize) -> Vec<(usize, usize)> {
        let tables = self.tables(at);
        (0..8).flat_map(|group| tables.live(group).into_iter().map(move |key| (group, key))).collect()
    }
}

fn numbers(slipped: &mut Slipped, rng: &mut Rng) -> Option<()> {
    const NUMBERS: u64 = 12 * NUMBER as u64;
    let at = slipped.any(rng, |_, _| true)?;
    slipped.flip(slipped.starts[at] + rng.below(NUMBERS) as usize, rng)
}

fn shown(slipped: &mut Slipped, rng: &mut Rng) -> Option<()> {
    let length = |entry: &Entry| entry.shown.map_or(0, |shown| shown.name.len() + shown.body.len());
    let at = slipped.any(rng, |_, entry| length(entry) > 0)?;
    let byte = rng.below(length(&slipped.output.entries[at]) as u64) as usize;
    slipped.flip(slipped.starts[at] + 15 * NUMBER + byte, rng)
}

fn log(slipped: &mut Slipped, rng: &mut Rng) -> Option<()> {
    let at = slipped.any(rng, |_, entry| entry.size > 0)?;
    let size = slipped.output.entries[at].size;
    let from = slipped.tables_at(at) - size as usize;
    slipped.flip(from + rng.below(size) as usize, rng)
}

/// The tables stay as they were before the call.
fn delivery(slipped: &mut Slipped, rng: &mut Rng) -> Option<()> {
    let mail = |at: usize| {
        let tables = slipped.tables(at);
        list::mailboxes().map(|mailbox| tables.list_len(mailbox)).sum::<usize>()
    };
    let at = slipped.any(rng, |at, _| at > 0 && mail(at) > mail(at - 1))?;
    let (from, to) = (slipped.tables_at(at - 1), slipped.tables_at(at));
    slipped.written.copy_within(from..from + tables::LENGTH, to);
    Some(())
}

fn keys(slipped: &mut Slipped, rng: &mut Rng) -> Option<()> {
    let pair = |at: usize| {
        let tables = slipped.tables(at);
        // Slabs, ready, idle and waiting lists; not the rows of a turn.
        (0..tables::REST).find_map(|row| {
            let keys = tables.keys(row);
            (1..keys.len()).find(|&key| keys[key - 1] != keys[key]).map(|key| (row, key))
        })
    };
    let at = slipped.any(rng, |at, _| pair(at).is_some())?;
    let (row, key) = pair(at)?;
    let from = slipped.tables_at(at) + Tables::keys_at(row);
    slipped.written.swap(from + key, from + 1 + key);
    Some(())
}

fn messages(slipped: &mut Slipped, rng: &mut Rng) -> Option<()> {
    let (at, number) = long(slipped, rng, list::INBOX..tables::LISTS)?;
    swap_first_two(slipped, at, number)
}

fn mail(slipped: &mut Slipped, rng: &mut Rng) -> Option<()> {
    let (at, mailbox) = long(slipped, rng, list::mailboxes())?;
    swap_first_two(slipped, at, mailbox)
}

/// Any entry in which one of these lists has two messages or more, and the number of that list.
fn long(slipped: &Slipped, rng: &mut Rng, lists: impl Iterator<Item = usize> + Clone) -> Option<(usize, usize)> {
    let long = |at: usize| lists.clone().find(|&number| slipped.tables(at).list_len(number) > 1);
    let at = slipped.any(rng, |at, _| long(at).is_some())?;
    Some((at, long(at)?))
}

/// The list is a chain still.
fn swap_first_two(slipped: &mut Slipped, at: usize, number: usize) -> Option<()> {
    let tables = slipped.tables(at);
    let [first, last, length, _] = tables.link(number);
    let second = tables.link(first as usize)[3];
    slipped.put(at, cell(number, 0), second);
    slipped.put(at, cell(number, 1), if length == 2 { first } else { last });
    slipped.put(at, cell(first as usize, 3), tables.link(second as usize)[3]);
    slipped.put(at, cell(second as usize, 3), first);
    Some(())
}

/// A cell of the links.
fn cell(row: usize, cell: usize) -> usize {
    LINKS_AT + (row * LINK + cell) * NUMBER
}

/// The first message names itself as the next.
fn circle(slipped: &mut Slipped, rng: &mut Rng) -> Option<()> {
    let (at, mailbox) = long(slipped, rng, list::mailboxes())?;
    let [first, ..] = slipped.tables(at).link(mailbox);
    slipped.put(at, cell(first as usize, 3), first);
    Some(())
}

/// The first message names the first free entry as the next.
fn shared(slipped: &mut Slipped, rng: &mut Rng) -> Option<()> {
    let (at, mailbox) = long(slipped, rng, list::mailboxes())?;
    let tables = slipped.tables(at);
    let ([first, ..], [free, _, length, _]) = (tables.link(mailbox), tables.link(list::FREE));
    (length > 0).then(|| slipped.put(at, cell(first as usize, 3), free))
}

/// The row of the mailbox has its first message as the last. Nothing else shows it until the next delivery.
fn end_lost(slipped: &mut Slipped, rng: &mut Rng) -> Option<()> {
    let (at, mailbox) = long(slipped, rng, list::mailboxes())?;
    let [first, ..] = slipped.tables(at).link(mailbox);
    slipped.put(at, cell(mailbox, 1), first);
    Some(())
}

/// The table of open records and their number stay as they were before the call.
fn mark(slipped: &mut Slipped, rng: &mut Rng) -> Option<()> {
    const OPEN: usize = 8 * NUMBER;
    let entries = &slipped.output.entries;
    let at = slipped.any(rng, |at, entry| at > 0 && entry.open < entries[at - 1].open)?;
    let (from, to) = (slipped.starts[at - 1] + OPEN, slipped.starts[at] + OPEN);
    slipped.written.copy_within(from..from + NUMBER, to);
    let (from, to) = (slipped.tables_at(at - 1), slipped.tables_at(at));
    let records = crate::limits::MESSAGES * tables::RECORD * NUMBER;
    slipped.written.copy_within(from + RECORDS_AT..from + RECORDS_AT + records, to + RECORDS_AT);
    Some(())
}

fn actor(slipped: &mut Slipped, rng: &mut Rng) -> Option<()> {
    let at = slipped.any(rng, |at, _| !slipped.live_actors(at).is_empty())?;
    let (group, key) = *rng.pick(&slipped.live_actors(at));
    // Flags only: a time that is not set counts for nothing.
    let flag = *rng.pick(&[0, 1, 2, 3, 4, 5, 6, 7, 8, 10]);
    let place = ACTORS_AT + (tables::slot(group, key) * ACTOR + flag) * NUMBER;
    let from = slipped.tables_at(at) + place;
    slipped.written[from] ^= 1;
    Some(())
}

fn attempts(slipped: &mut Slipped, rng: &mut Rng) -> Option<()> {
    let held = |at: usize| (list::INBOX..tables::LISTS).find(|&number| slipped.tables(at).list_len(number) > 0);
    let at = slipped.any(rng, |at, _| held(at).is_some())?;
    let [first, ..] = slipped.tables(at).link(held(at)?);
    let place = MESSAGES_AT + first as usize * MESSAGE * NUMBER;
    let attempts = slipped.tables(at).message(first as usize).attempts;
    slipped.put(at, place, attempts + 1);
    Some(())
}

fn left_out(slipped: &mut Slipped, rng: &mut Rng) -> Option<()> {
    let at = slipped.any(rng, |_, _| true)?;
    let (from, length) = (slipped.starts[at], slipped.output.entries[at].raw.len());
    slipped.written.drain(from..from + length);
    slipped.count();
    Some(())
}

fn twice(slipped: &mut Slipped, rng: &mut Rng) -> Option<()> {
    let at = slipped.any(rng, |_, _| true)?;
    let (from, entry) = (slipped.starts[at], slipped.output.entries[at].raw);
    slipped.written.splice(from..from, entry.iter().copied());
    slipped.count();
    Some(())
}

fn store_at_end(slipped: &mut Slipped, rng: &mut Rng) -> Option<()> {
    let length = slipped.store.len() as u64;
    let at = (length > 0).then(|| rng.below(length))?;
    slipped.store[at as usize] ^= 1;
    Some(())
}

fn log_at_end(slipped: &mut Slipped, rng: &mut Rng) -> Option<()> {
    let length = slipped.log.len() as u64;
    let at = (length > 0).then(|| rng.below(length))?;
    slipped.log[at as usize] ^= 1;
    Some(())
}
