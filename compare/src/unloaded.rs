//! Messages for a program that is not loaded: no group has the name, or its group has ceiling 0 (docs/RULES.md,
//! section 8, refusal 17). Fixed lists of calls, each with what is stated of its end. The port is held to that here,
//! and beside the plain program; the plain program is held to it in `tests`.
use crate::lent::Lent;
use crate::limits::{BODY_MAX, MESSAGES, NAME_MAX, STORE, refusal};
use crate::model::log::CallerId;
use crate::model::pool::{Call, GroupSetting, Reply, Settings};
use crate::output::Answer;
use crate::property::judge;
use crate::property::list::{List, Opening};
use crate::property::replies::{CLOCK, END, NO, STORED, YES, YIELDS};
use crate::script::SHOW_STORE;
use crate::tables::list;
use crate::tally::{Tally, same};

/// A list, and what is stated of its end.
pub type Stated = crate::property::list::Stated<End>;

/// The answers to the last calls of a list, and what stands after them.
#[derive(PartialEq, Eq, Debug)]
pub struct End {
    pub answers: Vec<Answer>,
    pub next: u64,
    pub log: Vec<u8>,
    /// Messages that are not done.
    pub live: usize,
}

/// Runs the port over every list.
pub fn run(tally: &mut Tally) {
    tally.begin("programs not loaded");
    let mut lent = Lent::default();
    for Stated { what, list, end } in lists() {
        let beside = judge::list(&mut lent, &list, SHOW_STORE, &mut judge::Seen::default());
        let found = found(&mut lent, &list, end.answers.len());
        let checked = beside.and(found).and_then(|found| same("its end", found, end));
        tally.check(checked.map_err(|error| format!("{what}: {error}")));
    }
    tally.end();
}

/// The end of a list, of which so many answers count, by the port.
fn found(lent: &mut Lent, list: &List, answers: usize) -> Result<End, String> {
    let output = lent.output(&list.script(SHOW_STORE))?;
    let last = output.entries.last().ok_or("no entry")?;
    let tables = last.tables.ok_or("no tables")?;
    let first = output.entries.len().saturating_sub(answers);
    Ok(End {
        answers: output.entries[first..].iter().map(|entry| entry.answer).collect(),
        next: last.next,
        log: last.log.unwrap_or_default().to_vec(),
        live: MESSAGES - tables.list_len(list::FREE),
    })
}

pub fn lists() -> Vec<Stated> {
    [refused(), order_of_refusals(), which_group(), marked()].into_iter().flatten().collect()
}

const UNLOADED: Answer = no(refusal::UNLOADED);
const BOOT: Answer = Answer::Boot { group: 0 };
/// A first message for `row` with the body `x`: the orders of its record and of its mark, and the log after each.
const RECORD: Answer = Answer::Append(0, 8);
const MARK: Answer = Answer::Append(8, 10);
const LOGGED: &[u8] = b"0\trow\tx\n";
const DONE: &[u8] = b"0\trow\tx\n0\n";

const fn no(number: u8) -> Answer {
    Answer::Refused(number as u64)
}

fn admit(name: &[u8]) -> Call {
    Call::Admit { name: name.to_vec(), body: b"x".to_vec(), caller: None }
}

fn called(name: &[u8]) -> Call {
    Call::Admit { name: name.to_vec(), body: b"x".to_vec(), caller: Some(CallerId(7)) }
}

fn long_body(name: &[u8]) -> Call {
    Call::Admit { name: name.to_vec(), body: vec![b'x'; BODY_MAX + 1], caller: None }
}

/// Groups by name and replicas, on a file.
fn opening(groups: &[(&[u8], usize)], file: &[u8]) -> Opening {
    let group = |(name, replicas): &(&[u8], usize)| GroupSetting {
        name: name.to_vec(),
        replicas: *replicas,
        eval: false,
        timeout: 0,
        retry: 0,
    };
    let groups = groups.iter().map(group).collect();
    let settings = Settings { groups, max_actors: 1, inbox: 1, backlog: 1, compact_at: 64, tick_ns: 1 };
    Opening { settings, log_len: 64, store_len: STORE, file: file.to_vec() }
}

/// One group `row` with one replica.
fn row(file: &[u8]) -> Opening {
    opening(&[(b"row", 1)], file)
}

/// A list of calls of which the last ones have these answers. It leaves nothing, unless `leaves` says otherwise.
fn stated(what: &'static str, opening: Opening, before: &[Call], last: &[(Call, Answer)]) -> Stated {
    let calls = before.iter().chain(last.iter().map(|(call, _)| call)).cloned().collect();
    let answers = last.iter().map(|(_, answer)| *answer).collect();
    Stated { what, list: List { opening, calls }, end: End { answers, next: 0, log: Vec::new(), live: 0 } }
}

impl Stated {
    /// It leaves this next id, this log, and so many messages that are not done.
    fn leaves(mut self, next: u64, log: &[u8], live: usize) -> Stated {
        self.end = End { next, log: log.to_vec(), live, ..self.end };
        self
    }
}

/// Nothing is logged, and no id is used.
fn refused() -> Vec<Stated> {
    let mistyped: [&[u8]; 4] = [b"rwo", b"ro", b"rowx", b"row\0"];
    let mut no_actors = opening(&[(b"row", 4)], b"");
    no_actors.settings.max_actors = 0;
    vec![
        stated("names that no group has", row(b""), &[STORED], &mistyped.map(|name| (admit(name), UNLOADED))),
        stated("the same with a caller", row(b""), &[STORED], &mistyped.map(|name| (called(name), UNLOADED))),
        stated("an empty name that no group has", row(b""), &[STORED], &[(admit(b""), UNLOADED)]),
        stated(
            "replicas 4, max_actors 0",
            no_actors,
            &[STORED],
            &[(admit(b"row"), UNLOADED), (called(b"row"), UNLOADED), (long_body(b"row"), no(refusal::TEXT))],
        ),
    ]
}

/// 14, 11 and 5 come before 17; 6, 7, 8, 9 and 10 after it.
fn order_of_refusals() -> Vec<Stated> {
    let both = |loaded| [(admit(b"rwo"), UNLOADED), (admit(b"row"), no(loaded))];
    let crowd: String = (0..MESSAGES).map(|id| format!("{id}\t\t\n")).collect();
    let mut crowded = row(crowd.as_bytes());
    crowded.log_len = crowd.len() + 64;
    let last_id = b"18446744073709551614\t\t\n";
    let full = [LOGGED, b"1\trow\tx\n"].concat();
    let mut no_room = row(&full);
    no_room.log_len = full.len();
    let failed = Call::Reply(Reply::Failed);
    let too_long = [admit(&[b'n'; NAME_MAX + 1]), long_body(b"rwo")].map(|call| (call, no(refusal::TEXT)));
    vec![
        stated("after a failed store", row(b""), &[failed], &[(admit(b"rwo"), no(refusal::FAILED))]),
        stated("while an order waits", row(b""), &[], &[(admit(b"rwo"), no(refusal::WAITS))]),
        stated("a text too long", row(b""), &[STORED], &too_long),
        stated("a full inbox, closed", row(b""), &[STORED, admit(b"row"), STORED, Call::Close], &both(refusal::INBOX))
            .leaves(1, LOGGED, 1),
        stated("closed", row(b""), &[STORED, Call::Close], &both(refusal::CLOSED)),
        stated("256 messages", crowded, &[STORED], &both(refusal::MESSAGES)).leaves(256, crowd.as_bytes(), 256),
        stated("no id left", row(last_id), &[STORED], &both(refusal::IDS)).leaves(u64::MAX, last_id, 1),
        stated("no room", no_room, &[STORED], &both(refusal::SPACE)).leaves(2, &full, 2),
    ]
}

/// Of two groups of one name the later counts. An empty name is one like any other.
fn which_group() -> Vec<Stated> {
    let ceilings = |earlier, later| opening(&[(b"row", earlier), (b"row", later)], b"");
    let empty = opening(&[(b"", 1)], b"");
    vec![
        stated("the later of two has ceiling 0", ceilings(1, 0), &[STORED], &[(admit(b"row"), UNLOADED)]),
        stated("the earlier of two has ceiling 0", ceilings(0, 1), &[STORED], &[(admit(b"row"), RECORD)])
            .leaves(1, LOGGED, 1),
        stated("an empty name", empty, &[STORED], &[(admit(b""), Answer::Append(0, 5))]).leaves(1, b"0\t\tx\n", 1),
    ]
}

/// What is not admitted, but handed back or sent, is over in the next turn; so is what is admitted and finds no actor,
/// since none boots.
fn marked() -> Vec<Stated> {
    let send = Call::Reply(Reply::Send(b"rwo".to_vec(), b"x".to_vec()));
    let sends = Answer::Sends { group: 0, key: 0 };
    let busy = Answer::TurnEnd { busy: true, waiters: false };
    vec![
        stated(
            "handed back for a name that no group has",
            row(b"0\trwo\tx\n"),
            &[STORED],
            &[(Call::Turn, BOOT), (NO, MARK)],
        )
        .leaves(1, b"0\trwo\tx\n0\n", 0),
        stated(
            "handed back for a group with ceiling 0",
            opening(&[(b"row", 0)], LOGGED),
            &[STORED],
            &[(Call::Turn, MARK)],
        )
        .leaves(1, DONE, 0),
        stated(
            "sent for a name that no group has",
            row(b""),
            &[STORED, Call::Turn, YES, CLOCK, YIELDS],
            &[(send, sends), (END, busy), (Call::Turn, Answer::Clock)],
        ),
        stated(
            "admitted for a group that does not boot",
            row(b""),
            &[STORED, admit(b"row"), STORED],
            &[(Call::Turn, BOOT), (NO, BOOT), (NO, MARK)],
        )
        .leaves(1, DONE, 0),
    ]
}
