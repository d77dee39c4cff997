//! Where a turn can stand.
use super::question::Outcome;
use super::{Entry, Key};
use crate::model::log::LogId;
use std::collections::VecDeque;

/// How a step left its actor. A failed step's message is in the step's hand.
#[derive(Clone, Copy, PartialEq, Eq, Debug)]
pub enum Step {
    Done,
    Waiting,
    Blocked(Option<u64>),
    Yield,
    Failed,
}

/// The step under way: its actor, the tick's clock, and the pops this group still has after it.
#[derive(Clone, Copy, PartialEq, Eq, Debug)]
pub struct Cursor {
    pub g: usize,
    pub key: Key,
    pub now: u64,
    pub pops: usize,
}

/// Where in the turn. The first half run on by themselves (between calls the pool stands there only while
/// the order of a mark or of a retry waits or has failed); at the second half a question is open.
#[derive(Clone, PartialEq, Eq, Debug)]
pub enum At {
    Rest,
    // -- running
    Seed { g: usize },
    Intake,
    Route,
    Wake { g: usize, now: u64 },
    WakeNext { g: usize, now: u64, rest: VecDeque<Key> },
    Ready { g: usize, now: u64, pops: usize },
    StepEnd { c: Cursor, step: Step },
    Settle { c: Cursor, step: Step },
    Crash { c: Cursor },
    AskTrap { c: Cursor },
    CrashTrapped { c: Cursor, trapped: VecDeque<Key> },
    // -- asking
    SeedBoot { g: usize },
    RouteBoot { g: usize },
    TickClock,
    WakePoll { g: usize, now: u64, key: Key, rest: VecDeque<Key> },
    FixedRun { c: Cursor, start: bool },
    FixedDrain { c: Cursor },
    FixedPush { c: Cursor },
    FixedDispatch { c: Cursor },
    EvalClock { c: Cursor },
    EvalBoot { c: Cursor },
    EvalStartClock { c: Cursor },
    EvalRun { c: Cursor, start: bool },
    EvalDispatch { c: Cursor },
    EvalTell { c: Cursor, outcome: Outcome },
    Sends { c: Cursor, step: Step },
    Trap { c: Cursor },
    Trapped { c: Cursor, ask: VecDeque<Key>, trapped: VecDeque<Key> },
}

/// What the comparison looks at besides questions.
#[derive(Clone, PartialEq, Eq, Debug)]
pub enum Event {
    Logged(LogId),
    Delivered {
        g: usize,
        key: Key,
        message: Entry,
    },
    Marked(LogId),
    /// The order of a retry's line.
    Retried {
        id: LogId,
        attempts: u64,
    },
}
