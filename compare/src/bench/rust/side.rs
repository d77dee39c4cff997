//! The Rust's times, with its file on the memory file system.
use crate::oracle::config::{Message, Reply as Caller};
use crate::oracle::opening::{self, Opened};
use crate::oracle::script;
use crate::oracle::standins::mio::Waker;
use compare::bench::clock::{counted, time};
use compare::bench::lists::Timed;
use compare::model::pool::{Call, Question, Reply, Settings};
use compare::property::list::Opening;
use std::fs;
use std::path::{Path, PathBuf};
use std::sync::Arc;
use std::sync::mpsc::channel;

/// What is done to the Rust besides its questions.
#[derive(Clone)]
enum Step {
    Admit(Message),
    Turn,
    Sync,
}

/// A list of calls, as the Rust takes it: the steps, and the replies to its questions.
pub struct Calls {
    opening: Opening,
    path: PathBuf,
    setup: (Vec<Step>, Vec<Reply>),
    timed: (Vec<Step>, Vec<Reply>),
}

impl Calls {
    pub fn new(timed: &Timed, path: &Path) -> Calls {
        let mut pool = timed.list.opening.model().expect("an accepted opening");
        let mut calls = Calls {
            opening: timed.list.opening.clone(),
            path: path.to_path_buf(),
            setup: Default::default(),
            timed: Default::default(),
        };
        for (at, call) in timed.list.calls.iter().enumerate() {
            let part = if at < timed.setup { &mut calls.setup } else { &mut calls.timed };
            let question = pool.open_question();
            match call {
                // An order is the Rust's own write; what a caller hears it sends by itself.
                Call::Reply(_) if matches!(question, Some(Question::Store(_) | Question::Tell { .. })) => {}
                Call::Reply(reply) => part.1.push(reply.clone()),
                Call::Admit { name, body, caller } => {
                    part.0.push(Step::Admit(message(name, body, caller.map(|id| id.0))))
                }
                Call::Turn => part.0.push(Step::Turn),
                Call::Sync => part.0.push(Step::Sync),
                Call::Close => unreachable!("no timed list closes"),
            }
            pool.call(call);
        }
        calls
    }

    /// The time of the timed calls, in nanoseconds.
    pub fn run(&mut self) -> f64 {
        let (mut rust, steps) = self.set_up();
        let taken = time(|| rust.steps(steps));
        assert_eq!(script::rest(), 0, "every reply was asked for");
        taken
    }

    /// The timed calls, for their instructions.
    pub fn count(&mut self) {
        let (mut rust, steps) = self.set_up();
        counted(|| rust.steps(steps));
    }

    /// The Rust before the timed calls, with the replies to them at hand.
    fn set_up(&self) -> (Rust, Vec<Step>) {
        fs::write(&self.path, &self.opening.file).unwrap();
        let mut rust = Rust::open(&self.opening.settings, &self.path);
        script::set(self.setup.1.clone());
        rust.steps(self.setup.0.clone());
        assert_eq!(script::rest(), 0, "every reply was asked for");
        script::set(self.timed.1.clone());
        (rust, self.timed.0.clone())
    }
}

/// The Rust after its opening.
pub struct Rust {
    opened: Opened,
    first: bool,
}

impl Rust {
    pub fn open(settings: &Settings, path: &Path) -> Rust {
        Rust { opened: opening::open(settings, path, |_| String::new(), None), first: true }
    }

    fn steps(&mut self, steps: Vec<Step>) {
        let Opened { scheduler, inbox, intake, .. } = &mut self.opened;
        for step in steps {
            match step {
                Step::Admit(message) => assert!(inbox.admit(message).is_ok()),
                Step::Turn => {
                    scheduler.turn(intake, self.first);
                    self.first = false;
                }
                Step::Sync => inbox.sync(),
            }
        }
    }
}

/// An opening alone, in nanoseconds.
pub fn opening(opening: &Opening, path: &Path) -> f64 {
    fs::write(path, &opening.file).unwrap();
    time(|| Rust::open(&opening.settings, path))
}

fn message(name: &[u8], body: &[u8], caller: Option<u64>) -> Message {
    let text = |bytes: &[u8]| String::from_utf8(bytes.to_vec()).unwrap();
    let mut message = Message::new(text(name), text(body));
    // Nobody listens: what is sent is dropped.
    message.reply = caller.map(|id| Caller { id, to: channel().0, wake: Arc::new(Waker(|| ())) });
    message
}
