//! What both sides do, though nobody would ask for it: kept as the Rust has it. Each with its smallest list of calls.
use super::{Run, port};
use crate::lent::Lent;
use crate::limits::STORE;
use crate::model::pool::{Call, GroupSetting, Reply, Settings};
use crate::output::{Answer, Entry};
use crate::property::judge;
use crate::property::list::{List, Opening};
use crate::property::replies::{CALLS_HOST, CLOCK, END, NO, NO_EVENTS, RAISES, RECEIVES, STORED, YES, YIELDS};
use crate::recorded::beside;
use crate::script::SHOW_STORE;
use crate::tables::list;

pub fn run(run: &mut Run) {
    finding(
        run,
        "a lost wake-up",
        &lost_wake_up(),
        "busy false, waiters false, 1 in its hands, waiting []",
        |entry| {
            let Some(tables) = entry.tables else { return "no tables".into() };
            let hands = tables.list_len(list::hand(0, 0));
            format!("{}, {hands} in its hands, waiting {:?}", ended(entry), tables.waiting(0))
        },
    );
    finding(run, "a refused Push stalls", &refused_push(), "busy false, waiters false, 1 in its mailbox", |entry| {
        let Some(tables) = entry.tables else { return "no tables".into() };
        format!("{}, {} in its mailbox", ended(entry), tables.list_len(list::mailbox(0, 0)))
    });
    finding(run, "a stale key in the ready list", &stale_key(), "ready [0, 0]", |entry| match entry.tables {
        Some(tables) => format!("ready {:?}", tables.ready(0)),
        None => "no tables".into(),
    });
    // In its second turn the new actor starts and is resumed in one tick.
    let runs = runs_of_the_last_turn(&stale_key());
    run.tally.equal("a stale key: steps of one tick", runs, vec![(0, true), (0, false)]);
}

/// Both sides do the same, and it is this.
fn finding(run: &mut Run, what: &str, list: &List, expected: &str, say: impl FnOnce(&Entry) -> String) {
    let found = port::last(list, say);
    println!("  {what}: {} calls\n    both: {found}", list.calls.len());
    run.tally.equal(what, found.as_str(), expected);
    let mut lent = Lent::default();
    let port = judge::list(&mut lent, list, SHOW_STORE, &mut judge::Seen::default());
    run.tally.check(port.map_err(|error| format!("{what}, the port: {error}")));
    let rust = beside::the_rust(list, &run.path);
    run.tally.check(rust.map(|_| ()).map_err(|error| format!("{what}, the Rust: {error}")));
}

fn ended(entry: &Entry) -> String {
    match entry.answer {
        Answer::TurnEnd { busy, waiters } => format!("busy {busy}, waiters {waiters}"),
        other => format!("{other:?}"),
    }
}

fn opening(replicas: usize, file: &[u8]) -> Opening {
    let group = GroupSetting { name: b"row".to_vec(), replicas, eval: false, timeout: 0, retry: 0 };
    let settings =
        Settings { groups: vec![group], max_actors: replicas, inbox: 1, backlog: 2, compact_at: 64, tick_ns: 1 };
    Opening { settings, log_len: 64, store_len: STORE, file: file.to_vec() }
}

const ONE: Call = Call::Reply(Reply::Count(1));

/// An idle actor that still waits is woken, takes the message that it had refused, and blocks: idle and blocked. The
/// first Poll of 0 drops it from the waiting list, with the message in its hands. Five turns, one message.
fn lost_wake_up() -> List {
    let admit = Call::Admit { name: b"row".to_vec(), body: Vec::new(), caller: None };
    let mut calls = vec![STORED];
    // The seed blocks on a host call.
    calls.extend([Call::Turn, YES, CLOCK, CALLS_HOST, ONE, END]);
    // A message comes; no answer yet; it is stepped for the message, receives, and refuses it: idle, and still
    // waiting.
    calls.extend([admit, STORED, Call::Turn, CLOCK, NO_EVENTS, RECEIVES, NO_EVENTS, NO, END]);
    // The answer is there: woken, it takes the message and blocks again. Nothing cleared `idle`.
    calls.extend([Call::Turn, CLOCK, ONE, RECEIVES, NO_EVENTS, YES, CALLS_HOST, ONE, END]);
    // No answer: dropped. In the last turn nobody is asked.
    calls.extend([Call::Turn, CLOCK, NO_EVENTS, Call::Turn, CLOCK]);
    List { opening: opening(1, b""), calls }
}

/// The message stays first in the mailbox, and the second turn asks nobody.
fn refused_push() -> List {
    let mut calls = vec![STORED];
    calls.extend([Call::Turn, YES, CLOCK, RECEIVES, NO_EVENTS, NO, END]);
    calls.extend([Call::Turn, CLOCK]);
    List { opening: opening(1, b"0\trow\t\n"), calls }
}

/// Key 0 yields and is in the ready list again as key 1 raises and both are trapped. The next actor gets key 0 and a
/// second entry, is stepped twice in a tick, and keeps both while it yields.
fn stale_key() -> List {
    let send = Call::Reply(Reply::Send(b"row".to_vec(), Vec::new()));
    let mut calls = vec![STORED];
    calls.extend([Call::Turn, YES, YES, CLOCK, YIELDS, END, RAISES, send, END, STORED, YES, YES]);
    calls.extend([Call::Turn, YES, CLOCK, YIELDS, END, YIELDS, END]);
    List { opening: opening(2, b"0\trow\t\n"), calls }
}

/// The keys that were run in the last turn, each with whether it started.
fn runs_of_the_last_turn(list: &List) -> Vec<(u64, bool)> {
    let mut lent = Lent::default();
    let Ok(output) = lent.output(&list.script(SHOW_STORE)) else { return Vec::new() };
    let turn = list.calls.iter().rposition(|call| *call == Call::Turn).unwrap_or(0);
    let runs = output.entries.iter().skip(turn + 1).filter_map(|entry| match entry.answer {
        Answer::Run { key, start, .. } => Some((key, start)),
        _ => None,
    });
    runs.collect()
}
