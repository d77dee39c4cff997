//! The Rust's log and inbox by themselves, on a file.
use super::Run;
use crate::model::pool::{GroupSetting, Settings};
use crate::oracle::config::{Message, Reply};
use crate::oracle::server::{self, Inbox, Intake, Wal};
use crate::oracle::standins::mio::Waker;
use crate::oracle::{constants, script};
use crate::trace::Event;
use std::fs;
use std::path::PathBuf;
use std::rc::Rc;
use std::sync::mpsc::channel;
use std::sync::{Arc, Mutex};

pub struct Rust {
    pub wal: Arc<Mutex<Wal>>,
    path: PathBuf,
    /// What the opening handed back, and the next id then.
    left: String,
    pub count: usize,
}

/// What the Rust takes as its constants.
fn constants(inbox: usize, compact_at: usize) {
    let groups: Vec<GroupSetting> = Vec::new();
    constants::set(&Settings { groups, max_actors: 0, inbox, backlog: 1, compact_at, tick_ns: 1 });
}

impl Rust {
    pub fn open(run: &Run, compact_at: usize, file: &[u8]) -> Rust {
        constants(1_024, compact_at);
        fs::write(&run.path, file).unwrap();
        Rust::opened(run.path.clone())
    }

    fn opened(path: PathBuf) -> Rust {
        let (wal, messages) = Wal::open(&path).unwrap();
        let left = format!("{}, next {}", in_words(&messages), wal.counters().next);
        Rust { wal: Arc::new(Mutex::new(wal)), path, left, count: messages.len() }
    }

    /// What the opening handed back.
    pub fn left(&self) -> String {
        self.left.clone()
    }

    pub fn append(&mut self, name: &str, body: &str) {
        self.wal.lock().unwrap().append(&mut Message::new(name.into(), body.into()));
    }

    /// The Rust tells the script of each mark.
    pub fn mark(&mut self, id: u64) {
        let (_, intake) = self.inbox();
        let (to, told) = channel();
        script::set(Some(script::Script {
            events: vec![Event::Mark(id)].into_iter(),
            inbox: None,
            intake: Rc::new(intake),
            wal: self.wal.clone(),
            path: self.path.clone(),
            told,
            to,
            seen: 0,
            left: None,
        }));
        self.wal.lock().unwrap().ack(id);
        script::set(None);
    }

    pub fn inbox(&self) -> (Inbox, Intake) {
        server::inbox(self.wal.clone())
    }

    pub fn size(&self) -> u64 {
        self.wal.lock().unwrap().counters().size
    }

    pub fn says(&self) -> String {
        let counters = self.wal.lock().unwrap().counters();
        let file = fs::read(&self.path).unwrap();
        format!("live {}, size {}, file \"{}\"", counters.live, counters.size, file.escape_ascii())
    }

    /// What a further opening hands back.
    pub fn reopened(&self) -> String {
        Rust::opened(self.path.clone()).left()
    }
}

/// A message that a caller waits for.
pub fn called(name: &str, body: &str) -> Message {
    let (to, _) = channel();
    let mut message = Message::new(name.into(), body.into());
    message.reply = Some(Reply { id: 7, to, wake: Arc::new(Waker(|| ())) });
    message
}

fn in_words(messages: &[Message]) -> String {
    let left = |message: &Message| {
        let (name, body) = (message.group.as_bytes(), message.body.as_bytes());
        let attempts = if message.attempts == 0 { String::new() } else { format!(" attempts {}", message.attempts) };
        format!("{} \"{}\" \"{}\"{attempts}", message.id.unwrap(), name.escape_ascii(), body.escape_ascii())
    };
    format!("left [{}]", messages.iter().map(left).collect::<Vec<_>>().join(", "))
}
