//! The parts of the host that ask nothing, and what a reply is to the Rust.
use super::standins::anyhow::{Error, Result};
use crate::model::pool::{Reply, Status as Ran};
use std::collections::HashMap;
use std::rc::Rc;
use std::sync::Arc;

/// The build puts a getter wherever the Rust reads this.
pub const TICK_NS: u64 = 1;
pub type Sink = Box<dyn Fn(&str)>;

pub enum Status {
    Done,
    Exit(i32),
    Preempted,
    PendingEvent,
    PendingHostCall,
    Error(String),
}

pub mod driver {
    pub fn suspend_message(on: &str) -> String {
        format!("stuck in {on}")
    }

    pub fn stdout_sink() -> super::Sink {
        Box::new(|_: &str| {})
    }
}

pub fn linear_cap(memory: usize) -> usize {
    memory
}

pub struct Runtime;

impl Runtime {
    pub fn new() -> Result<Arc<Runtime>> {
        Ok(Arc::new(Runtime))
    }

    pub fn start_ticker(&self) {}
}

#[derive(Default)]
pub struct Project {
    pub dir: String,
    pub manifest: Option<String>,
    pub ceiling: Option<Vec<String>>,
}

impl Project {
    pub fn disk(dir: &str, _manifest: Option<&str>) -> Project {
        Project { dir: dir.to_string(), ..Project::default() }
    }

    pub fn bundle(_files: HashMap<String, Vec<u8>>, _dir: &str, _sandboxed: bool) -> Project {
        Project::default()
    }
}

pub struct Host;

impl Host {
    pub fn new(_: Arc<Runtime>) -> Result<Rc<Host>> {
        Ok(Rc::new(Host))
    }
}

pub fn clock(reply: Reply) -> u64 {
    match reply {
        Reply::Clock(clock) => clock,
        other => panic!("a clock is answered {other:?}"),
    }
}

pub fn yes(reply: Reply) -> bool {
    match reply {
        Reply::Yes => true,
        Reply::No => false,
        other => panic!("yes or no is answered {other:?}"),
    }
}

pub fn count(reply: Reply) -> usize {
    match reply {
        Reply::Count(count) => count as usize,
        other => panic!("a count is answered {other:?}"),
    }
}

pub fn ran(reply: Reply) -> Ran {
    match reply {
        Reply::Ran(ran) => ran,
        other => panic!("a run is answered {other:?}"),
    }
}

/// How a run comes back to the Rust.
pub fn status(ran: Ran) -> Result<Status> {
    match ran {
        Ran::Done => Ok(Status::Done),
        Ran::Exit => Ok(Status::Exit(3)),
        Ran::Preempted => Ok(Status::Preempted),
        Ran::Event => Ok(Status::PendingEvent),
        Ran::HostCall => Ok(Status::PendingHostCall),
        Ran::Error => Ok(Status::Error("raised".into())),
        Ran::Broke => Err(Error("broke".into())),
    }
}

/// Asks until the end.
pub fn sends(ask: impl Fn() -> Reply) -> Vec<(String, String)> {
    let text = |bytes| String::from_utf8(bytes).expect("a text inside the domain");
    let mut sent = Vec::new();
    loop {
        match ask() {
            Reply::Send(name, body) => sent.push((text(name), text(body))),
            Reply::End => return sent,
            other => panic!("sends are answered {other:?}"),
        }
    }
}
