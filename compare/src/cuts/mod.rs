//! Power cuts. Before the first call of a list and after each of its calls, every file that the write rule allows is
//! opened again by the port, and must hand back exactly the messages of the right moment, with the attempts last
//! written by then: a moment up to the cut, and not before the last confirmed flush or replace.

pub mod disk;
pub mod lists;

use crate::lent::Lent;
use crate::model::log::{self, Order};
use crate::model::pool::{self, Call, Event, Question, Reply};
use crate::output::{Answer, Entry};
use crate::property::list::{List, Opening};
use crate::rng::Rng;
use crate::script::{SHOW_LOG, SHOW_TABLES};
use crate::tables::list;
use crate::tally::Tally;
use disk::{Cut, Disk, HandedBack};
use std::collections::HashMap;

/// Tails up to this length are cut at every byte.
const EVERY_BYTE: usize = 96;
/// Of a longer tail so many bytes, about, beside the ends of its lines.
const SOME_BYTES: u64 = 24;

/// Cuts every short list of steps, then `count` random lists.
pub fn run(tally: &mut Tally, count: u64, seed: u64) {
    let mut cutter = Cutter::default();
    tally.begin("cuts, every short list");
    for list in lists::every() {
        cutter.list(tally, &list, &mut Rng::new(0));
    }
    cutter.note(tally);
    tally.end();

    tally.begin("cuts, random lists");
    for number in 0..count {
        let mut rng = crate::property::case(seed ^ 0xC0_75, number);
        let list = lists::random(&mut rng);
        cutter.list(tally, &list, &mut rng);
    }
    cutter.note(tally);
    tally.end();
}

/// Opens files again, each once for a list: the port keeps nothing from one opening to the next.
#[derive(Default)]
struct Cutter {
    lent: Lent,
    opened: HashMap<Vec<u8>, Result<HandedBack, String>>,
    cuts: u64,
    files: u64,
    openings: u64,
}

impl Cutter {
    /// One check for each place where the power is cut.
    fn list(&mut self, tally: &mut Tally, list: &List, rng: &mut Rng) {
        let Ok(mut pool) = list.opening.model() else { return };
        self.opened.clear();
        // Where the port does not do as the plain program does, the cuts would be of another life.
        let mut seen = crate::property::judge::Seen::default();
        let same = crate::property::judge::list(&mut self.lent, list, SHOW_LOG, &mut seen);
        if same.is_err() {
            return tally.check(same.map_err(|error| format!("{error}; {list:?}")));
        }
        let reading = log::readable(&list.opening.file).expect("an accepted opening");
        let Some(Question::Store(order)) = pool.open_question() else { unreachable!("the opening's order") };
        let mut disk = Disk::open(&list.opening.file, &reading.left, &pool.log, order);
        tally.check(
            self.cut(&disk, &list.opening, rng).map_err(|error| format!("before the first call: {error}; {list:?}")),
        );
        for (at, call) in list.calls.iter().enumerate() {
            if !step(&mut disk, &mut pool, call) {
                continue;
            }
            let cut = self.cut(&disk, &list.opening, rng);
            tally.check(cut.map_err(|error| format!("after call {at}, {call:?}: {error}; {list:?}")));
        }
    }

    fn cut(&mut self, disk: &Disk, opening: &Opening, rng: &mut Rng) -> Result<(), String> {
        self.cuts += 1;
        let chosen = |length: usize| length <= EVERY_BYTE || rng.below(length as u64) < SOME_BYTES;
        for cut in disk.cuts(chosen) {
            self.files += 1;
            let given = self.reopened(opening, &cut);
            given
                .and_then(|given| disk.allows(&cut, &given))
                .map_err(|error| format!("file \"{}\": {error}", cut.file.escape_ascii()))?;
        }
        Ok(())
    }

    /// What the port hands back as it opens the file that a cut left.
    fn reopened(&mut self, opening: &Opening, cut: &Cut) -> Result<HandedBack, String> {
        if let Some(known) = self.opened.get(&cut.file) {
            return known.clone();
        }
        self.openings += 1;
        let again = Opening { file: cut.file.clone(), ..opening.clone() };
        let output = self.lent.output(&again.script(SHOW_TABLES))?;
        let given = match output.entries.as_slice() {
            [entry] => handed_back(entry),
            entries => Err(format!("{} entries for an opening", entries.len())),
        };
        self.opened.insert(cut.file.clone(), given.clone());
        given
    }

    fn note(&mut self, tally: &mut Tally) {
        tally.note("cuts", std::mem::take(&mut self.cuts));
        tally.note("files", std::mem::take(&mut self.files));
        tally.note("openings", std::mem::take(&mut self.openings));
    }
}

/// What an opening's entry shows: the new file, and the ids and the attempts of what is pending.
fn handed_back(entry: &Entry) -> Result<HandedBack, String> {
    let (log, tables) = (entry.log.ok_or("no log")?, entry.tables.ok_or("no tables")?);
    let attempts = |at: usize| {
        let row = tables.message(at);
        Ok((row.id.ok_or("a message without an id")?, row.attempts))
    };
    match entry.answer {
        Answer::Replace(length) if length == entry.size => {
            let attempts = tables.list(list::PENDING).into_iter().map(attempts).collect::<Result<_, String>>()?;
            Ok(HandedBack { image: log.to_vec(), attempts })
        }
        other => Err(format!("the opening after a cut answers {other:?}")),
    }
}

/// One call, by the plain program and on the disk. False where it was refused: it adds no moment and no file.
pub(crate) fn step(disk: &mut Disk, pool: &mut pool::Pool, call: &Call) -> bool {
    let waited = pool.order.is_some();
    let answer = pool.call(call);
    if let pool::Answer::Refused(_) = answer {
        return false;
    }
    // A failed order stays what an open one may be.
    if waited && *call == Call::Reply(Reply::Stored) {
        disk.stored();
    }
    let order: Option<Order> = if pool.failed { None } else { pool.order };
    if let Some(order) = order {
        let (name, body) = match call {
            Call::Admit { name, body, .. } => (name.as_slice(), body.as_slice()),
            _ => (&[][..], &[][..]),
        };
        pool.events.iter().for_each(|event: &Event| disk.event(event, name, body));
        disk.order(order, &pool.log);
    }
    true
}
