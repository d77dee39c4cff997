//! Retries that outlive a restart (docs/RULES.md, sections 2 and 6): what an opening reads of attempts, and what is
//! written of a retry. Fixed files and fixed lists of calls, each with what is stated of it. The port is held to that
//! here, and beside the plain program; the plain program is held to it in `tests`. The Rust must hand back the same
//! messages of each file and of each log that follows from it, and do the same over the lists inside the domain.

pub mod files;
pub mod lists;

use crate::lent::Lent;
use crate::output::Answer;
use crate::property::judge;
use crate::property::list::List;
use crate::script::SHOW_STORE;
use crate::spellings;
use crate::tables::list;
use crate::tally::{Tally, same};

/// A list of calls, and what is stated of its end.
pub type Stated = crate::property::list::Stated<End>;

/// The answers to the last calls of a list, and what stands after them.
#[derive(PartialEq, Eq, Debug)]
pub struct End {
    pub answers: Vec<Answer>,
    pub live: u64,
    pub size: u64,
    pub dirty: bool,
    /// The whole lent log, with what is behind its size.
    pub log: Vec<u8>,
    /// The id of each logged message that is not done, in rising order, and its attempts.
    pub attempts: Vec<(u64, u64)>,
}

/// Runs the port over every file and every list, and the Rust where it does the same.
pub fn run(tally: &mut Tally) {
    let mut lent = Lent::default();
    tally.begin("retries, files");
    for stated in files::files() {
        let list = List { opening: stated.opening, calls: Vec::new() };
        let checked = spellings::opened(&mut lent, &list, &stated.end).and_then(|()| rust_opens(&list, &stated.end));
        tally.check(checked.map_err(|error| format!("{}: {error}", stated.what)));
    }
    tally.end();
    tally.begin("retries, lists of calls");
    for Stated { what, list, end } in lists::lists() {
        let beside = judge::list(&mut lent, &list, SHOW_STORE, &mut judge::Seen::default());
        let found = beside.and_then(|()| found(&mut lent, &list, end.answers.len()));
        let checked = found.and_then(|found| same("its end", found, end));
        tally.check(checked.map_err(|error| format!("{what}: {error}")));
        #[cfg(oracle)]
        tally.check(beside_rust(&list).map_err(|error| format!("{what}, the Rust: {error}")));
    }
    tally.end();
}

/// The end of a list, of which so many answers count, by the port.
fn found(lent: &mut Lent, list: &List, answers: usize) -> Result<End, String> {
    let output = lent.output(&list.script(SHOW_STORE))?;
    let last = output.entries.last().ok_or("no entry")?;
    let tables = last.tables.ok_or("no tables")?;
    let held = (list::INBOX..crate::tables::LISTS).flat_map(|number| tables.list(number));
    let logged = |at: usize| tables.message(at).id.map(|id| (id, tables.message(at).attempts));
    let mut attempts: Vec<(u64, u64)> = held.filter_map(logged).collect();
    attempts.sort();
    let first = output.entries.len().saturating_sub(answers);
    let answers = output.entries[first..].iter().map(|entry| entry.answer).collect();
    let (live, size, dirty) = (last.live, last.size, last.dirty);
    Ok(End { answers, live, size, dirty, log: lent.log.clone(), attempts })
}

/// The Rust hands back the same messages, of the file and of the log that the port makes of it.
#[cfg(oracle)]
fn rust_opens(list: &List, end: &Result<spellings::End, u64>) -> Result<(), String> {
    let Ok(end) = end else { return Ok(()) };
    let scratch = crate::scratch::Scratch::in_memory("retries");
    let view = |left: &crate::model::log::Left| crate::view::LeftView {
        id: left.id.0,
        name: left.name.clone(),
        body: left.body.clone(),
    };
    let expected: Vec<_> = end.left.iter().map(view).collect();
    for (what, bytes) in [("the file", &list.opening.file), ("the new log", &end.log)] {
        // The Rust reads a last line without LF too.
        if bytes.last().is_none_or(|byte| *byte == b'\n') {
            let found = crate::oracle::left::left(bytes, &scratch.file("log.wal"));
            same(&format!("what the Rust hands back of {what}"), found, expected.clone())?;
        }
    }
    Ok(())
}

#[cfg(not(oracle))]
fn rust_opens(_: &List, _: &Result<spellings::End, u64>) -> Result<(), String> {
    Ok(())
}

/// The Rust over a list that lies inside the domain, up to the end of its last turn.
#[cfg(oracle)]
fn beside_rust(list: &List) -> Result<(), String> {
    let list = crate::mailboxes::to_the_turns_end(list);
    let Ok(trace) = crate::recorded::beside::traced(&list) else { return Ok(()) };
    let scratch = crate::scratch::Scratch::in_memory("retries");
    let (settings, file) = (&list.opening.settings, &list.opening.file);
    crate::oracle::run::run(settings, file, &trace, &scratch.file("log.wal")).map(drop)
}
