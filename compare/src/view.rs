//! What the plain program and the Rust are compared by besides questions: messages, actors, groups, the pool, the log.
use crate::model::log::{self, Line};
use crate::model::pool::{Actor, Entry, Pool};

#[derive(Clone, PartialEq, Eq, Debug)]
pub struct MessageView {
    pub group: Vec<u8>,
    pub body: Vec<u8>,
    pub attempts: u64,
    pub caller: Option<u64>,
    pub id: Option<u64>,
}

/// An eval run between steps; `vm` is the number of the Boot that made its interpreter.
#[derive(Clone, PartialEq, Eq, Debug)]
pub struct RunView {
    pub vm: u64,
    pub id: Option<u64>,
    pub caller: Option<u64>,
    pub deadline: u64,
}

/// `vm` is the number of the Boot that made a fixed actor's interpreter, 0 for an eval one.
pub type ActorView = Actor<MessageView, RunView>;

#[derive(Clone, PartialEq, Eq, Debug)]
pub struct GroupView {
    pub actors: Vec<(usize, ActorView)>,
    pub ready: Vec<usize>,
    pub idle: Vec<usize>,
    pub waiting: Vec<usize>,
}

/// The pool at a turn's end.
#[derive(Clone, PartialEq, Eq, Debug)]
pub struct PoolView {
    pub groups: Vec<GroupView>,
    pub pending: Vec<MessageView>,
    pub queued: usize,
    pub crashes: u64,
    pub dead: u64,
}

/// The log, and how many messages wait in the inbox.
#[derive(Clone, PartialEq, Eq, Debug)]
pub struct LogView {
    pub file: FileView,
    pub next: u64,
    pub dirty: bool,
    pub inbox: usize,
}

/// What is compared of a log's file.
#[derive(Clone, PartialEq, Eq, Debug)]
pub enum FileView {
    /// Its bytes, and how many of them count as live. The log's size is the length of its bytes.
    Bytes { bytes: Vec<u8>, live: u64 },
    /// What an opening would hand back of it, without attempts. So it is once a retry was ordered, since the Rust
    /// writes no line of it.
    Left(Vec<LeftView>),
}

#[derive(Clone, PartialEq, Eq, Debug)]
pub struct LeftView {
    pub id: u64,
    pub name: Vec<u8>,
    pub body: Vec<u8>,
}

impl LogView {
    pub fn of(pool: &Pool) -> LogView {
        LogView {
            file: FileView::of(pool),
            next: pool.counters.next,
            dirty: pool.counters.dirty,
            inbox: pool.inbox.len(),
        }
    }

    pub fn by_messages(&self) -> bool {
        matches!(self.file, FileView::Left(_))
    }
}

impl FileView {
    fn of(pool: &Pool) -> FileView {
        let file = &pool.log[..pool.counters.size];
        if pool.retried {
            return FileView::Left(LeftView::all(file));
        }
        FileView::Bytes { bytes: file.to_vec(), live: pool.counters.live as u64 }
    }
}

impl LeftView {
    /// The messages of a file's open records, in their order, which is that of their ids.
    fn all(file: &[u8]) -> Vec<LeftView> {
        let message = |open: &log::Open| match log::read_line(&file[open.from..open.to - 1]) {
            Line::Record(id, name, body) => LeftView { id, name: log::unescape(name), body: log::unescape(body) },
            other => unreachable!("an open record reads {other:?}"),
        };
        log::open_records(file).iter().map(message).collect()
    }
}

impl MessageView {
    pub fn of(pool: &Pool, e: Entry) -> MessageView {
        let message = pool.message(e);
        MessageView {
            group: pool.name(e).to_vec(),
            body: pool.body(e).to_vec(),
            attempts: message.attempts,
            caller: message.caller.map(|caller| caller.0),
            id: message.id.map(|id| id.0),
        }
    }
}

impl PoolView {
    pub fn of(pool: &Pool) -> PoolView {
        let group = |group: &crate::model::pool::Group| GroupView {
            actors: group
                .actors
                .keys()
                .into_iter()
                .map(|key| (key, ActorView::of(pool, group.actors.get(key).unwrap())))
                .collect(),
            ready: group.ready.keys.iter().copied().collect(),
            idle: group.idle.keys.iter().copied().collect(),
            waiting: group.waiting.keys.iter().copied().collect(),
        };
        PoolView {
            groups: pool.groups.iter().map(group).collect(),
            pending: pool.pending.iter().map(|&e| MessageView::of(pool, e)).collect(),
            queued: pool.queued,
            crashes: pool.crashes,
            dead: pool.dead,
        }
    }
}

impl ActorView {
    fn of(pool: &Pool, actor: &Actor) -> ActorView {
        ActorView {
            vm: actor.vm,
            started: actor.started,
            run: actor.run.as_ref().map(|run| {
                let message = pool.message(run.message);
                RunView {
                    vm: run.vm,
                    id: message.id.map(|id| id.0),
                    caller: message.caller.map(|caller| caller.0),
                    deadline: run.deadline,
                }
            }),
            mailbox: actor.mailbox.iter().map(|&e| MessageView::of(pool, e)).collect(),
            ran: actor.ran,
            idle: actor.idle,
            runnable: actor.runnable,
            scheduled: actor.scheduled,
            wake_at: actor.wake_at,
            blocked: actor.blocked,
            in_flight: actor.in_flight.map(|e| MessageView::of(pool, e)),
            consumed: actor.consumed,
        }
    }
}
