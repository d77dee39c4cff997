//! Calls, questions, replies and answers.
use super::{Entry, Key};
use crate::model::log::{CallerId, Order};

/// What a caller hears about its run.
#[derive(Clone, Copy, PartialEq, Eq, Debug)]
pub enum Outcome {
    Ran,
    Unbooted,
    Broke,
    Raised,
    Late,
    StuckHostCall,
    StuckReceive,
}

#[derive(Clone, Copy, PartialEq, Eq, Debug)]
pub enum Question {
    Boot {
        g: usize,
    },
    Clock,
    Poll {
        g: usize,
        key: Key,
    },
    Drain {
        g: usize,
        key: Key,
    },
    Dispatch {
        g: usize,
        key: Key,
    },
    /// An eval start shows its message, the program it runs.
    Run {
        g: usize,
        key: Key,
        start: bool,
        source: Option<Entry>,
    },
    Push {
        g: usize,
        key: Key,
        message: Entry,
    },
    Sends {
        g: usize,
        key: Key,
    },
    Trap {
        g: usize,
    },
    Trapped {
        g: usize,
        key: Key,
    },
    Tell {
        caller: CallerId,
        outcome: Outcome,
    },
    Store(Order),
}

/// How a run came back. `Broke` is the interpreter's own error.
#[derive(Clone, Copy, PartialEq, Eq, Debug)]
pub enum Status {
    Done,
    Exit,
    Preempted,
    Event,
    HostCall,
    Error,
    Broke,
}

#[derive(Clone, PartialEq, Eq, Debug)]
pub enum Reply {
    Yes,
    No,
    Clock(u64),
    Count(u64),
    Ran(Status),
    Send(Vec<u8>, Vec<u8>),
    End,
    Told,
    Stored,
    Failed,
}

#[derive(Clone, PartialEq, Eq, Debug)]
pub enum Call {
    Admit { name: Vec<u8>, body: Vec<u8>, caller: Option<CallerId> },
    Turn,
    Reply(Reply),
    Sync,
    Close,
}

/// What a call gives.
#[derive(Clone, PartialEq, Eq, Debug)]
pub enum Answer {
    Refused(u8),
    /// Accepted, and this is open now (None: nothing).
    Open(Option<Question>),
    /// Accepted, and the turn ended with it.
    TurnEnd {
        busy: bool,
        waiters: bool,
    },
}
