//! What a run of the port gives (docs/PROTOCOL.md): an entry for the opening, then one for each call, read from bytes
//! with every byte accounted for. An entry borrows the bytes that it was read from.
use crate::model::log::{Left, LogId, Order};
use crate::model::pool::{self, Outcome, Pool, Question};
use crate::script::{SHOW_LOG, SHOW_STORE, SHOW_TABLES};
use crate::tables::{self, Tables};
use crate::wire::{NUMBER, Reader};

/// What a call gives: a refusal, the turn's end, or what is open now.
#[derive(Clone, Copy, PartialEq, Eq, Debug)]
pub enum Answer {
    Nothing,
    Refused(u64),
    TurnEnd {
        busy: bool,
        waiters: bool,
    },
    /// Bytes a to b of the log go to the file's end.
    Append(u64, u64),
    /// The file becomes the log's first n bytes, whole or not at all.
    Replace(u64),
    Flush,
    Boot {
        group: u64,
    },
    Clock,
    Poll {
        group: u64,
        key: u64,
    },
    Drain {
        group: u64,
        key: u64,
    },
    Dispatch {
        group: u64,
        key: u64,
    },
    Run {
        group: u64,
        key: u64,
        start: bool,
    },
    Push {
        group: u64,
        key: u64,
    },
    Sends {
        group: u64,
        key: u64,
    },
    Trap {
        group: u64,
    },
    Trapped {
        group: u64,
        key: u64,
    },
    Tell {
        caller: u64,
        outcome: Outcome,
    },
}

impl Answer {
    /// The same answer of the plain program. The message that it shows is apart.
    pub fn of(answer: &pool::Answer) -> Answer {
        match *answer {
            pool::Answer::Refused(number) => Answer::Refused(number as u64),
            pool::Answer::TurnEnd { busy, waiters } => Answer::TurnEnd { busy, waiters },
            pool::Answer::Open(None) => Answer::Nothing,
            pool::Answer::Open(Some(question)) => Answer::of_question(question),
        }
    }

    fn of_question(question: Question) -> Answer {
        let n = |number: usize| number as u64;
        match question {
            Question::Boot { g } => Answer::Boot { group: n(g) },
            Question::Clock => Answer::Clock,
            Question::Poll { g, key } => Answer::Poll { group: n(g), key: n(key) },
            Question::Drain { g, key } => Answer::Drain { group: n(g), key: n(key) },
            Question::Dispatch { g, key } => Answer::Dispatch { group: n(g), key: n(key) },
            Question::Run { g, key, start, .. } => Answer::Run { group: n(g), key: n(key), start },
            Question::Push { g, key, .. } => Answer::Push { group: n(g), key: n(key) },
            Question::Sends { g, key } => Answer::Sends { group: n(g), key: n(key) },
            Question::Trap { g } => Answer::Trap { group: n(g) },
            Question::Trapped { g, key } => Answer::Trapped { group: n(g), key: n(key) },
            Question::Tell { caller, outcome } => Answer::Tell { caller: caller.0, outcome },
            Question::Store(Order::Append(a, b)) => Answer::Append(n(a), n(b)),
            Question::Store(Order::Replace(length)) => Answer::Replace(n(length)),
            Question::Store(Order::Flush) => Answer::Flush,
        }
    }

    /// An order to the disk waits.
    pub fn is_order(&self) -> bool {
        matches!(self, Answer::Append(..) | Answer::Replace(_) | Answer::Flush)
    }

    /// The answer of these numbers.
    pub fn read(kind: u64, a: u64, b: u64, c: u64) -> Option<Answer> {
        let flag = |number: u64| (number < 2).then_some(number == 1);
        let (group, key) = (a, b);
        let (answer, values) = match kind {
            0 => (Answer::Nothing, 0),
            1 => (Answer::Refused(a), 1),
            2 => (Answer::TurnEnd { busy: flag(a)?, waiters: flag(b)? }, 2),
            3 => (Answer::Append(a, b), 2),
            4 => (Answer::Replace(a), 1),
            5 => (Answer::Flush, 0),
            6 => (Answer::Boot { group }, 1),
            7 => (Answer::Clock, 0),
            8 => (Answer::Poll { group, key }, 2),
            9 => (Answer::Drain { group, key }, 2),
            10 => (Answer::Dispatch { group, key }, 2),
            11 => (Answer::Run { group, key, start: flag(c)? }, 3),
            12 => (Answer::Push { group, key }, 2),
            13 => (Answer::Sends { group, key }, 2),
            14 => (Answer::Trap { group }, 1),
            15 => (Answer::Trapped { group, key }, 2),
            16 => (Answer::Tell { caller: a, outcome: outcome(b)? }, 2),
            _ => return None,
        };
        // A value that the answer does not have is 0.
        [a, b, c][values..].iter().all(|value| *value == 0).then_some(answer)
    }
}

fn outcome(number: u64) -> Option<Outcome> {
    const ALL: [Outcome; 7] = [
        Outcome::Ran,
        Outcome::Unbooted,
        Outcome::Broke,
        Outcome::Raised,
        Outcome::Late,
        Outcome::StuckHostCall,
        Outcome::StuckReceive,
    ];
    ALL.get(usize::try_from(number).ok()?).copied()
}

/// The message that a question shows.
#[derive(Clone, Copy, PartialEq, Eq, Debug)]
pub struct Shown<'a> {
    pub name: &'a [u8],
    pub body: &'a [u8],
}

impl<'a> Shown<'a> {
    /// The message that the plain program's answer shows.
    pub fn of(answer: &pool::Answer, pool: &'a Pool) -> Option<Shown<'a>> {
        let pool::Answer::Open(Some(question)) = answer else { return None };
        let message = match question {
            Question::Push { message, .. } => Some(*message),
            Question::Run { source, .. } => *source,
            _ => None,
        };
        message.map(|message| Shown { name: pool.name(message), body: pool.body(message) })
    }
}

#[derive(Clone, Copy)]
pub struct Entry<'a> {
    pub answer: Answer,
    pub shown: Option<Shown<'a>>,
    pub next: u64,
    pub live: u64,
    pub size: u64,
    pub dirty: bool,
    /// The number of open records.
    pub open: u64,
    pub queued: u64,
    pub dead: u64,
    pub crashes: u64,
    /// The log's first `size` bytes, where they are shown.
    pub log: Option<&'a [u8]>,
    pub tables: Option<Tables<'a>>,
    pub store: Option<&'a [u8]>,
    /// The entry as it was written.
    pub raw: &'a [u8],
}

/// An entry for the opening, then one for each call that was made.
pub struct Output<'a> {
    pub entries: Vec<Entry<'a>>,
}

impl<'a> Output<'a> {
    /// Reads what the port wrote under `show`, the count included. Anything short, left over or outside its range is
    /// an error.
    pub fn read(written: &'a [u8], show: u64, store_len: usize) -> Result<Output<'a>, String> {
        let mut from = Reader::new(written);
        let count = from.number().ok_or("no count")?;
        if count != (written.len() - NUMBER) as u64 {
            return Err(format!("the count says {count} bytes, {} were written", written.len() - NUMBER));
        }
        let mut entries = Vec::new();
        while !from.is_empty() {
            let entry = Entry::read(&mut from, show, store_len);
            entries.push(entry.map_err(|error| format!("entry {}: {error}", entries.len()))?);
        }
        Ok(Output { entries })
    }
}

impl<'a> Entry<'a> {
    /// The messages in pending, in order, with their texts and attempts: after an opening, what it handed back. Tables
    /// and store must be shown.
    pub fn handed_back(&self) -> Result<Vec<Left>, String> {
        let (tables, store) = (self.tables.ok_or("no tables")?, self.store.ok_or("no store")?);
        let message = |at: usize| {
            let row = tables.message(at);
            let (name, body) = tables::text(store, at, &row);
            let id = LogId(row.id.ok_or("a message without an id")?);
            Ok(Left { id, name: name.to_vec(), body: body.to_vec(), attempts: row.attempts })
        };
        tables.list(tables::list::PENDING).into_iter().map(message).collect()
    }

    fn read(from: &mut Reader<'a>, show: u64, store_len: usize) -> Result<Entry<'a>, String> {
        const SHORT: &str = "the output ends inside an entry";
        let all = from.rest();
        let mut numbers = [0; 12];
        for number in &mut numbers {
            *number = from.number().ok_or(SHORT)?;
        }
        let [kind, a, b, c, next, live, size, dirty, open, queued, dead, crashes] = numbers;
        let answer = Answer::read(kind, a, b, c).ok_or_else(|| format!("no such answer: {kind} {a} {b} {c}"))?;
        if dirty > 1 {
            return Err(format!("dirty is {dirty}"));
        }
        let shown = match from.number().ok_or(SHORT)? {
            0 => None,
            1 => {
                let (name, body) = (from.number().ok_or(SHORT)?, from.number().ok_or(SHORT)?);
                Some(Shown { name: from.bytes(name).ok_or(SHORT)?, body: from.bytes(body).ok_or(SHORT)? })
            }
            other => return Err(format!("a message is shown {other} times")),
        };
        let log = if show >= SHOW_LOG { Some(from.bytes(size).ok_or(SHORT)?) } else { None };
        let tables = if show >= SHOW_TABLES {
            Some(Tables::new(from.bytes(tables::LENGTH as u64).ok_or(SHORT)?))
        } else {
            None
        };
        let store = if show >= SHOW_STORE { Some(from.bytes(store_len as u64).ok_or(SHORT)?) } else { None };
        let raw = &all[..all.len() - from.rest().len()];
        let dirty = dirty == 1;
        Ok(Entry { answer, shown, next, live, size, dirty, open, queued, dead, crashes, log, tables, store, raw })
    }
}
