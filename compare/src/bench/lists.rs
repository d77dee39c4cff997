//! The lists of calls that are timed. A list begins with calls that set it up, which are not timed.
use super::logs;
use crate::limits::{ACTORS_MAX, BACKLOG_MAX, GROUPS_MAX, INBOX_MAX, LOG_MAX, NAME_MAX, STORE};
use crate::model::log::CallerId;
use crate::model::pool::{Call, GroupSetting, Question, Reply, Settings, Status};
use crate::property::list::{List, Making, Opening};

/// Repetitions in one list.
const ROUNDS: usize = 60;

pub struct Timed {
    pub what: String,
    pub list: List,
    /// Calls of the list that set it up.
    pub setup: usize,
    /// What a time is given for: each call that both sides have, or each mark.
    pub count: Count,
}

pub enum Count {
    Calls,
    Marks(usize),
}

impl Timed {
    /// The calls that are timed.
    pub fn calls(&self) -> &[Call] {
        &self.list.calls[self.setup..]
    }

    /// How many calls both sides have (`stored` is the port's alone), or how many marks there are.
    pub fn counted(&self) -> usize {
        match self.count {
            Count::Calls => self.calls().iter().filter(|call| **call != Call::Reply(Reply::Stored)).count(),
            Count::Marks(marks) => marks,
        }
    }
}

/// What makes a list.
pub type Maker = fn() -> Timed;

/// Every list that both sides have, in the order of the table.
pub const BOTH: [Maker; 18] = [
    || served(1),
    || served(16),
    || served(256),
    served_by_name,
    evaluated,
    || yielding(1),
    || yielding(16),
    || yielding(128),
    || polled(1),
    || polled(16),
    || polled(128),
    || admitted(0),
    || admitted(190),
    looked_up,
    || marked(64),
    || marked(256),
    || rewritten(2),
    || rewritten(100),
];

/// Calls that are refused, which the Rust does not have: what the port's reading and writing cost, and what the search
/// for a group costs that is not there.
pub const REFUSED: [Maker; 2] = [turned_away, mistyped];

fn turned_away() -> Timed {
    let mut making = begin(opening(vec![group("row", 1, false)], Vec::new()));
    making.call(Call::Turn);
    let setup = making.list.calls.len();
    for _ in 0..10 * ROUNDS {
        making.call(Call::Turn);
    }
    timed("a refused call (turn in a turn)".into(), making, setup)
}

fn mistyped() -> Timed {
    let mut making = begin(opening(alike(), Vec::new()));
    let setup = making.list.calls.len();
    for _ in 0..10 * ROUNDS {
        making.call(admit(&long_name(GROUPS_MAX), None));
    }
    timed("a refused admit (17), 8 groups with long names".into(), making, setup)
}

/// As many groups as there may be, with names as long as they may be that differ in the last byte: a search looks at
/// every byte of each.
fn alike() -> Vec<GroupSetting> {
    (0..GROUPS_MAX).map(|at| group(&long_name(at), 1, false)).collect()
}

fn long_name(at: usize) -> String {
    format!("{}{at}", "n".repeat(NAME_MAX - 1))
}

fn group(name: &str, replicas: usize, eval: bool) -> GroupSetting {
    GroupSetting { name: name.into(), replicas, eval, timeout: 1, retry: 0 }
}

fn opening(groups: Vec<GroupSetting>, file: Vec<u8>) -> Opening {
    let settings = Settings {
        groups,
        max_actors: ACTORS_MAX,
        inbox: INBOX_MAX,
        backlog: BACKLOG_MAX,
        compact_at: LOG_MAX,
        tick_ns: 1_000_000,
    };
    Opening { settings, log_len: LOG_MAX, store_len: STORE, file }
}

fn begin(opening: Opening) -> Making {
    let mut making = Making::new(opening);
    making.answered();
    making
}

fn timed(what: String, making: Making, setup: usize) -> Timed {
    Timed { what, list: making.list, setup, count: Count::Calls }
}

fn admit(name: &str, caller: Option<u64>) -> Call {
    let body = logs::body(0, 40).into_bytes();
    Call::Admit { name: name.into(), body, caller: caller.map(CallerId) }
}

/// A turn in which every question is answered by `reply`.
fn turn(making: &mut Making, mut reply: impl FnMut(&Making, &Question) -> Reply) {
    making.call(Call::Turn);
    while let Some(question) = making.pool.open_question() {
        let reply = match question {
            Question::Store(_) => Reply::Stored,
            Question::Clock => Reply::Clock(0),
            Question::Boot { g } => making.boot(g),
            Question::Sends { .. } => Reply::End,
            Question::Tell { .. } => Reply::Told,
            question => reply(making, &question),
        };
        making.call(Call::Reply(reply));
    }
}

/// Programs that receive: a push is taken, but by the group 0, which leaves its messages in the mailbox.
fn receives(_: &Making, question: &Question) -> Reply {
    match question {
        Question::Run { .. } => Reply::Ran(Status::Event),
        Question::Push { g: 0, .. } => Reply::No,
        Question::Push { .. } => Reply::Yes,
        _ => Reply::Count(0),
    }
}

/// One message after the other is logged, delivered, pushed, done and marked, while others lie in another mailbox.
fn served(live: u64) -> Timed {
    let file = logs::open(live - 1);
    let making = begin(opening(vec![group("row", 1, false), group("work", 1, false)], file));
    messages(format!("a message from admit to its mark, {live} live"), making, "work")
}

/// The same where the search for the group, at the admission and when the message is routed, looks at every byte of
/// the names of all groups but one.
fn served_by_name() -> Timed {
    let what = "a message from admit to its mark, 8 groups with long names";
    messages(what.into(), begin(opening(alike(), Vec::new())), &long_name(1))
}

fn messages(what: String, mut making: Making, name: &str) -> Timed {
    turn(&mut making, receives);
    let setup = making.list.calls.len();
    for _ in 0..ROUNDS {
        making.done(admit(name, None));
        turn(&mut making, receives);
    }
    timed(what, making, setup)
}

/// One program after the other is run, and its caller told.
fn evaluated() -> Timed {
    let mut making = begin(opening(vec![group("work", 1, true)], Vec::new()));
    let runs = |_: &Making, _: &Question| Reply::Ran(Status::Done);
    turn(&mut making, runs);
    let setup = making.list.calls.len();
    for round in 0..ROUNDS {
        making.done(admit("work", Some(round as u64)));
        turn(&mut making, runs);
    }
    timed("an eval run from admit to its caller, 1 live".into(), making, setup)
}

/// So many actors, in groups of 16 at most, each with a message that it does not read but the first of its group.
fn crowd(actors: usize) -> Making {
    let replicas = actors.min(ACTORS_MAX);
    let names: Vec<String> = (0..actors / replicas).map(|at| format!("g{at}")).collect();
    let groups = names.iter().map(|name| group(name, replicas, false)).collect();
    let mut making = begin(opening(groups, Vec::new()));
    for name in &names {
        for _ in 1..replicas {
            if making.pool.inbox.len() == INBOX_MAX {
                turn(&mut making, |_, _| Reply::Ran(Status::Preempted));
            }
            making.done(admit(name, Some(7)));
        }
    }
    turn(&mut making, |_, _| Reply::Ran(Status::Preempted));
    let live: usize = making.pool.groups.iter().map(|group| group.actors.len()).sum();
    assert_eq!(live, actors, "every actor was spawned");
    making
}

/// Turns in which every actor yields.
fn yielding(actors: usize) -> Timed {
    let mut making = crowd(actors);
    let setup = making.list.calls.len();
    for _ in 0..ROUNDS.div_ceil(actors.div_ceil(4)) {
        turn(&mut making, |_, _| Reply::Ran(Status::Preempted));
    }
    timed(format!("turns of actors that yield, {actors}"), making, setup)
}

/// Turns in which every actor is polled, and waits on.
fn polled(actors: usize) -> Timed {
    let mut making = crowd(actors);
    let blocks = |_: &Making, question: &Question| match question {
        Question::Run { .. } => Reply::Ran(Status::HostCall),
        Question::Dispatch { .. } => Reply::Count(1),
        _ => Reply::Count(0),
    };
    turn(&mut making, blocks);
    let setup = making.list.calls.len();
    for _ in 0..ROUNDS.div_ceil(actors.div_ceil(4)) {
        turn(&mut making, blocks);
    }
    timed(format!("turns of actors that wait on host calls, {actors}"), making, setup)
}

/// Records, with so many open before the first.
fn admitted(open: u64) -> Timed {
    let making = begin(opening(vec![group("row", 1, false)], logs::open(open)));
    records(format!("admit with a record of 50 bytes, {open} open before"), making, "row")
}

/// Records for the group that a search comes to last, since of two groups of one name the later counts.
fn looked_up() -> Timed {
    let what = "admit with a record of 77 bytes, 8 groups with long names";
    records(what.into(), begin(opening(alike(), Vec::new())), &long_name(0))
}

/// As many records for a group as the inbox takes.
fn records(what: String, mut making: Making, name: &str) -> Timed {
    let setup = making.list.calls.len();
    for _ in 0..INBOX_MAX {
        making.done(admit(name, None));
    }
    timed(what, making, setup)
}

/// One turn that marks all that is open.
fn marked(open: u64) -> Timed {
    let mut making = begin(opening(vec![group("row", 0, false)], logs::open(open)));
    let setup = making.list.calls.len();
    turn(&mut making, receives);
    Timed { count: Count::Marks(open as usize), ..timed(format!("a mark, in a turn of {open}"), making, setup) }
}

/// One mark that rewrites the log, of which half is done: a first run says how long the log then is.
fn rewritten(open: u64) -> Timed {
    let (_, size) = half_done(open, LOG_MAX);
    let (making, rewritten) = half_done(open, size);
    assert!(rewritten < size, "the last mark rewrites");
    let setup = making.list.calls.iter().rposition(|call| *call == Call::Turn).unwrap();
    let what = format!("a turn with one mark that rewrites, {open} open, {size} bytes before");
    Timed { count: Count::Marks(1), ..timed(what, making, setup) }
}

/// So many messages stay, as many are marked in the first turn, and one in the last. Gives the log's size then.
fn half_done(open: u64, compact_at: usize) -> (Making, usize) {
    // The names of the first half are of no group; the last message is for a group that does not boot.
    let file = String::from_utf8(logs::open(2 * open)).unwrap().replacen("\trow\t", "\tnot\t", open as usize);
    let mut opening = opening(vec![group("row", 1, false), group("off", 1, false)], file.into_bytes());
    opening.settings.compact_at = compact_at;
    let mut making = begin(opening).unbooted(&[1]);
    turn(&mut making, receives);
    making.done(admit("off", None));
    turn(&mut making, receives);
    let size = making.pool.counters.size;
    (making, size)
}
