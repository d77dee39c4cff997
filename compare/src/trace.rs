//! What the Rust must do over a list of calls: questions with their replies, deliveries, marks, and what stands after
//! each, as the plain program wrote them down.
use crate::model::pool::{Outcome, Pool, Question, Reply};
use crate::view::{LogView, MessageView, PoolView};

/// A question as the Rust puts it: an interpreter is known by the number of the Boot that made it.
#[derive(Clone, PartialEq, Eq, Debug)]
pub enum Asked {
    Boot {
        group: usize,
    },
    Clock,
    Poll {
        group: usize,
        vm: u64,
    },
    Drain {
        group: usize,
        vm: u64,
    },
    Dispatch {
        group: usize,
        vm: u64,
    },
    /// An eval start shows its program.
    Run {
        group: usize,
        vm: u64,
        start: bool,
        source: Option<Vec<u8>>,
    },
    Push {
        group: usize,
        vm: u64,
        body: Vec<u8>,
    },
    Sends {
        group: usize,
        vm: u64,
    },
    Trap {
        group: usize,
    },
    Trapped {
        group: usize,
        vm: u64,
    },
    Tell {
        caller: u64,
        outcome: Outcome,
    },
}

impl Asked {
    /// The turn's question, as the Rust puts it.
    pub fn of(pool: &Pool, question: &Question) -> Asked {
        let vm = |g: usize, key: usize| {
            let actor = pool.groups[g].actors.get(key).unwrap();
            actor.run.as_ref().map_or(actor.vm, |run| run.vm)
        };
        match *question {
            Question::Boot { g } => Asked::Boot { group: g },
            Question::Clock => Asked::Clock,
            Question::Poll { g, key } => Asked::Poll { group: g, vm: vm(g, key) },
            Question::Drain { g, key } => Asked::Drain { group: g, vm: vm(g, key) },
            Question::Dispatch { g, key } => Asked::Dispatch { group: g, vm: vm(g, key) },
            Question::Run { g, key, start, source } => {
                let source = source.map(|e| pool.body(e).to_vec());
                Asked::Run { group: g, vm: vm(g, key), start, source }
            }
            Question::Push { g, key, message } => {
                Asked::Push { group: g, vm: vm(g, key), body: pool.body(message).to_vec() }
            }
            Question::Sends { g, key } => Asked::Sends { group: g, vm: vm(g, key) },
            Question::Trap { g } => Asked::Trap { group: g },
            Question::Trapped { g, key } => Asked::Trapped { group: g, vm: vm(g, key) },
            Question::Tell { caller, outcome } => Asked::Tell { caller: caller.0, outcome },
            Question::Store(_) => unreachable!("an order is no question of the Rust's"),
        }
    }
}

#[derive(Clone, PartialEq, Eq, Debug)]
pub enum Event {
    /// The Rust asks, and the log is this.
    Ask(Asked, LogView),
    Answer(Reply),
    Deliver {
        group: usize,
        key: usize,
        message: MessageView,
    },
    Mark(u64),
    /// A call from outside, at rest or while a question is open.
    Admit {
        name: Vec<u8>,
        body: Vec<u8>,
        caller: Option<u64>,
        accepted: bool,
        log: LogView,
    },
    Sync(LogView),
    Close,
    Turn,
    TurnEnd {
        busy: bool,
        waiters: bool,
        pool: PoolView,
        log: LogView,
    },
    /// From here on the list is outside the domain of equality.
    Stop,
}

impl Event {
    /// The log that the event shows.
    pub fn log(&self) -> Option<&LogView> {
        match self {
            Event::Ask(_, log) | Event::Sync(log) => Some(log),
            Event::Admit { log, .. } | Event::TurnEnd { log, .. } => Some(log),
            _ => None,
        }
    }

    pub fn log_mut(&mut self) -> Option<&mut LogView> {
        match self {
            Event::Ask(_, log) | Event::Sync(log) => Some(log),
            Event::Admit { log, .. } | Event::TurnEnd { log, .. } => Some(log),
            _ => None,
        }
    }
}

/// The whole list, after an opening that gives this log and this pool.
#[derive(Clone, PartialEq, Eq, Debug)]
pub struct Trace {
    pub log: LogView,
    pub pool: PoolView,
    pub events: Vec<Event>,
}
