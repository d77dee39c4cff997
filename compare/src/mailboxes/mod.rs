//! Mailboxes as chains through the table of links (docs/RULES.md, sections 4 and 6): put at the end, taken, put at the
//! front, emptied. Fixed lists of calls, each with what is stated of its last call: the entries of the lists that it
//! changes, before it and after it. The port is held to that here by the cells of its links, and beside the plain
//! program; the plain program is held to it in `tests`. The Rust must do the same up to the end of the turn.

pub mod lists;

use crate::chains::Chains;
use crate::lent::Lent;
use crate::output::{Answer, Entry};
use crate::property::judge;
use crate::property::list::List;
use crate::script::SHOW_STORE;
use crate::tables::list;
use crate::tally::{Tally, same};

/// A list of calls, and what is stated of its last call.
pub type Stated = crate::property::list::Stated<End>;

/// The answer to a call, and the lists of messages that it changes.
pub struct End {
    pub answer: Answer,
    pub changes: Vec<Change>,
}

/// The entries of a list of messages, in order, before a call and after it.
#[derive(Clone)]
pub struct Change {
    pub list: usize,
    pub before: Vec<usize>,
    pub after: Vec<usize>,
}

impl End {
    /// All lists of messages, before the call and after it. What is not said to change must stay.
    pub fn check(&self, before: &[Vec<usize>], after: &[Vec<usize>]) -> Result<(), String> {
        for (number, (before, after)) in before.iter().zip(after).enumerate() {
            let what = |part: &str| format!("{}, {part}", list::name(number));
            match self.changes.iter().find(|change| change.list == number) {
                Some(change) => {
                    same(&what("before the last call"), before, &change.before)?;
                    same(&what("after the last call"), after, &change.after)?;
                }
                None => same(&what("which stays"), after, before)?,
            }
        }
        Ok(())
    }
}

/// Runs the port and the Rust over every list.
pub fn run(tally: &mut Tally) {
    tally.begin("mailboxes");
    let mut lent = Lent::default();
    for stated in lists::lists() {
        let named = |error: String| format!("{}: {error}", stated.what);
        tally.check(links(&mut lent, &stated).map_err(named));
        let beside = judge::list(&mut lent, &stated.list, SHOW_STORE, &mut judge::Seen::default());
        tally.check(beside.map_err(named));
        #[cfg(oracle)]
        tally.check(beside_rust(&stated.list).map_err(named));
    }
    tally.end();
}

/// The links that the port shows are chains after the opening and after each call. Around the last call they are as
/// stated.
fn links(lent: &mut Lent, stated: &Stated) -> Result<(), String> {
    let output = lent.output(&stated.list.script(SHOW_STORE))?;
    let read = output.entries.iter().enumerate().map(|(at, entry)| chains(at, entry));
    let read = read.collect::<Result<Vec<Chains>, String>>()?;
    let [.., before, after] = read.as_slice() else { return Err("no call".into()) };
    same("its answer", output.entries.last().map(|entry| entry.answer), Some(stated.end.answer))?;
    stated.end.check(before.lists(), after.lists())
}

fn chains(at: usize, entry: &Entry) -> Result<Chains, String> {
    let chains = Chains::read(&entry.tables.ok_or("no tables")?);
    chains.map_err(|error| format!("entry {at} of the output: {error}"))
}

/// At the end of a turn the Rust shows its mailboxes, so the turn goes on to there.
#[cfg(oracle)]
fn beside_rust(list: &List) -> Result<(), String> {
    let scratch = crate::scratch::Scratch::in_memory("mailboxes");
    let rust = crate::recorded::beside::the_rust(&to_the_turns_end(list), &scratch.file("log.wal"));
    rust.map(drop).map_err(|error| format!("the Rust: {error}"))
}

/// A list with every order and question after its last call answered.
#[cfg(oracle)]
pub fn to_the_turns_end(list: &List) -> List {
    let mut making = crate::property::list::Making::new(list.opening.clone());
    for call in &list.calls {
        making.call(call.clone());
    }
    making.answered();
    making.list
}
