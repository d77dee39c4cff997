//! Row ends 8 to 11 as scripts, each as short as it can be.
use crate::limits::STORE;
use crate::model::log::CallerId;
use crate::model::pool::{Call, GroupSetting, Reply, Settings, Status};
use crate::property::list::{List, Opening};
use crate::property::replies::{END, NO, STORED, YES, ran};

const CALLER: u64 = 7;

/// Titles and lists, the example of docs/PROTOCOL.md first.
pub fn rows() -> Vec<(&'static str, List)> {
    vec![
        ("row end 10: ceiling 0, a message handed back is marked done", ceiling_0()),
        ("row end 8: at the deadline the run ends", deadline(900_000_100, true)),
        ("row end 8: one before it, the run resumes", deadline(900_000_099, false)),
        ("row end 9: retry 0, the first crash is dead", crashes(0)),
        ("row end 9: retry 1, the second crash is dead", crashes(1)),
        ("row end 11: keys 0, 1, 2; 1 then 0 leave; the next get 0, 1, 3", keys()),
    ]
}

/// One group `row`.
pub fn group(replicas: usize, eval: bool, timeout: u64, retry: u64) -> GroupSetting {
    GroupSetting { name: b"row".to_vec(), replicas, eval, timeout, retry }
}

pub fn opening(group: GroupSetting, tick_ns: u64, file: &[u8]) -> Opening {
    let max_actors = group.replicas.max(1);
    let settings = Settings { groups: vec![group], max_actors, inbox: 1, backlog: 1, compact_at: 64, tick_ns };
    Opening { settings, log_len: 64, store_len: STORE, file: file.to_vec() }
}

fn clock(clock: u64) -> Call {
    Call::Reply(Reply::Clock(clock))
}

fn count(count: u64) -> Call {
    Call::Reply(Reply::Count(count))
}

/// The example of docs/PROTOCOL.md.
fn ceiling_0() -> List {
    let calls = vec![STORED, Call::Turn, STORED, clock(5)];
    List { opening: opening(group(0, false, 0, 0), 1, b"0\trow\tx\n"), calls }
}

/// An eval run that began at 100, of 1 second, in ticks of 300,000,000: its caller is told it was late, or it goes on.
fn deadline(at: u64, ends: bool) -> List {
    let admit = Call::Admit { name: b"row".to_vec(), body: b"x".to_vec(), caller: Some(CallerId(CALLER)) };
    let mut calls = vec![STORED, admit];
    // The tick's clock; Boot; the run's clock; the run yields.
    calls.extend([Call::Turn, clock(100), YES, clock(100), ran(Status::Preempted)]);
    calls.extend([Call::Turn, clock(at), clock(at)]);
    if ends {
        calls.push(Call::Reply(Reply::Told));
    }
    List { opening: opening(group(1, true, 1, 0), 300_000_000, b""), calls }
}

/// A message that crashes its program each time: after the last time its mark is ordered, and dead is 1. The log has
/// no room for the line of a retry, so that its bytes are those of the Rust.
fn crashes(retry: u64) -> List {
    let mut calls = vec![STORED];
    for attempt in 0..=retry {
        // Boot, the tick's clock, start, receive, push, resume, no sends.
        calls.extend([Call::Turn, YES, clock(0), ran(Status::Event), count(0), YES, ran(Status::Error), END]);
        if attempt == retry {
            calls.push(STORED);
        }
        // No trap, and the turn ends.
        calls.push(NO);
    }
    let opening = opening(group(1, false, 0, retry), 1, b"0\trow\tcrashes\n");
    List { opening: Opening { log_len: 16, ..opening }, calls }
}

/// Two left messages and the seed give keys 0, 1 and 2; the three that key 2 sends get actors of their own.
fn keys() -> List {
    let send = Call::Reply(Reply::Send(b"row".to_vec(), Vec::new()));
    let mut calls = vec![STORED];
    // Keys 0, 1, 2; 0 yields, 1 ends with its message unread, 2 yields.
    calls.extend([Call::Turn, YES, YES, YES, clock(0)]);
    calls.extend([ran(Status::Preempted), END, ran(Status::Done), END, STORED, ran(Status::Preempted), END]);
    // 0 ends; 2 sends three messages.
    calls.extend([Call::Turn, clock(0), ran(Status::Done), END, ran(Status::Preempted)]);
    calls.extend([send.clone(), send.clone(), send, END]);
    // Three boots; 2 goes on, then the new ones start in the order of their spawns.
    calls.extend([Call::Turn, YES, YES, YES, clock(0), ran(Status::Preempted), END]);
    calls.extend([ran(Status::Preempted), END, ran(Status::Preempted), END]);
    List { opening: opening(group(4, false, 0, 0), 1, b"0\trow\t\n1\trow\t\n"), calls }
}
