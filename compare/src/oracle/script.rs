//! The script under the Rust: each thing that it does must be the script's next, and each question gets the script's
//! reply. A difference is a panic that says what differs; `run` catches it.
use super::actor::view::message;
use super::config::{Message, Reply as Caller};
use super::left::left;
use super::server::view::Counters;
use super::server::{Inbox, Intake, Refused, Wal};
use super::standins::mio::Waker;
use crate::met;
use crate::model::pool::{Outcome, Reply};
use crate::trace::{Asked, Event};
use crate::view::{FileView, LeftView, LogView};
use std::cell::RefCell;
use std::path::PathBuf;
use std::rc::Rc;
use std::sync::mpsc::{Receiver, Sender};
use std::sync::{Arc, Mutex};

/// What a caller hears.
type Told = (u64, Result<String, String>);

pub struct Script {
    pub events: std::vec::IntoIter<Event>,
    /// None when closed.
    pub inbox: Option<Inbox>,
    pub intake: Rc<Intake>,
    pub wal: Arc<Mutex<Wal>>,
    pub path: PathBuf,
    pub told: Receiver<Told>,
    pub to: Sender<Told>,
    /// Events that were compared.
    pub seen: u64,
    /// What the Rust would hand back of its log, as it last was.
    pub left: Option<(Vec<u8>, Vec<LeftView>)>,
}

impl Script {
    /// What the Rust would hand back of its log, which has these bytes: it opens a copy.
    fn left(&mut self, bytes: &[u8]) -> Vec<LeftView> {
        match &self.left {
            Some((known, left)) if known == bytes => left.clone(),
            _ => {
                let left = left(bytes, &self.path.with_file_name("copy.wal"));
                self.left = Some((bytes.to_vec(), left.clone()));
                left
            }
        }
    }
}

/// The panic that ends a run where its list leaves the domain of equality, wherever in a turn the Rust then is.
pub struct Stopped;

thread_local! {
    static SCRIPT: RefCell<Option<Script>> = const { RefCell::new(None) };
}

/// Takes the script of a run, or with None takes it away.
pub fn set(script: Option<Script>) {
    SCRIPT.set(script);
}

fn with<T>(read: impl FnOnce(&mut Script) -> T) -> T {
    SCRIPT.with_borrow_mut(|script| read(script.as_mut().expect("a script")))
}

pub fn seen() -> u64 {
    SCRIPT.with_borrow(|script| script.as_ref().map_or(0, |script| script.seen))
}

/// The next event; None where the list ends.
pub fn next() -> Option<Event> {
    let event = with(|script| {
        script.seen += 1;
        script.events.next()
    });
    if event == Some(Event::Stop) {
        std::panic::resume_unwind(Box::new(Stopped));
    }
    event
}

pub fn must_be(mut event: Event, what: &str) {
    let Some(expected) = next() else { panic!("the Rust goes on where the list ends: {event:?}") };
    if let (Some(log), Some(expected)) = (event.log_mut(), expected.log()) {
        see_as(log, expected);
    }
    if event != expected {
        panic!("{what}\n  Rust     {event:?}\n  expected {expected:?}");
    }
}

/// The log as the Rust has it now.
pub fn log_now() -> LogView {
    with(|script| {
        let bytes = std::fs::read(&script.path).expect("the Rust's log is read");
        let Counters { next, live, size, dirty } = script.wal.lock().unwrap().counters();
        assert_eq!(size as usize, bytes.len(), "the Rust's size is its file's length, in the domain of equality");
        LogView { file: FileView::Bytes { bytes, live }, next, dirty, inbox: script.intake.waiting() }
    })
}

/// Where the log is expected by its messages, the Rust's is seen by those that the Rust would hand back.
fn see_as(log: &mut LogView, expected: &LogView) {
    if let (FileView::Bytes { bytes, .. }, FileView::Left(_)) = (&log.file, &expected.file) {
        met!("Rust: its log is seen by its messages");
        log.file = FileView::Left(with(|script| script.left(bytes)));
    }
}

/// The log after a call from outside must be this.
fn log_must_be(expected: &LogView, what: &str) {
    let mut log = log_now();
    see_as(&mut log, expected);
    assert_eq!(log, *expected, "the log after {what}: Rust left, expected right");
}

/// Puts a question, which must be the script's next, with the same log.
pub fn ask(question: Asked) -> Reply {
    let asked = Event::Ask(question.clone(), log_now());
    must_be(asked, "a question");
    loop {
        match next() {
            Some(Event::Answer(reply)) => {
                met_asked(&question, &reply);
                return reply;
            }
            Some(call) => outside(call),
            None => panic!("the list ends at a question"),
        }
    }
}

pub fn delivered(group: usize, key: usize, given: &Message) {
    met!("Rust: a delivery");
    must_be(Event::Deliver { group, key, message: message(given) }, "a delivery");
}

pub fn marked(id: u64) {
    met!("Rust: a mark");
    must_be(Event::Mark(id), "a mark");
}

/// admit, sync, close: at rest or while a question is open.
pub fn outside(call: Event) {
    match call {
        Event::Admit { name, body, caller, accepted, log } => {
            let (inbox, to) = with(|script| (script.inbox.clone().expect("not closed"), script.to.clone()));
            let text = |bytes| String::from_utf8(bytes).expect("a text inside the domain");
            let mut message = Message::new(text(name), text(body));
            message.reply = caller.map(|id| Caller { id, to, wake: Arc::new(Waker(tell)) });
            let taken = match inbox.admit(message) {
                Ok(()) => {
                    met!("Rust: admit, taken");
                    true
                }
                Err(Refused::Full(_)) => {
                    met!("Rust: admit, full");
                    false
                }
                Err(Refused::Down) => panic!("the Rust's inbox is down"),
            };
            assert_eq!(taken, accepted, "an admit: Rust left, expected right");
            log_must_be(&log, "an admit");
        }
        Event::Sync(log) => {
            met!("Rust: sync");
            let wal = with(|script| script.wal.clone());
            match with(|script| script.inbox.clone()) {
                Some(inbox) => inbox.sync(),
                None => wal.lock().unwrap().sync(),
            }
            log_must_be(&log, "a sync");
        }
        Event::Close => {
            met!("Rust: close");
            with(|script| script.inbox = None);
        }
        other => panic!("the Rust is between calls, expected {other:?}"),
    }
}

/// The waker's hook: takes what a caller heard and puts it as the question Tell.
pub fn tell() {
    let (caller, outcome) = with(|script| script.told.try_recv().expect("a caller was told"));
    let outcome = match outcome.as_deref().map_err(|error| error.as_str()) {
        Ok(_) => Outcome::Ran,
        Err("error: unbooted") => Outcome::Unbooted,
        Err("error: broke") => Outcome::Broke,
        Err("raised") => Outcome::Raised,
        Err("error: RuntimeError: run exceeded its time limit") => Outcome::Late,
        Err("error: stuck in a host call") => Outcome::StuckHostCall,
        Err("error: stuck in receive()") => Outcome::StuckReceive,
        Err(other) => panic!("a caller is told {other}"),
    };
    assert_eq!(ask(Asked::Tell { caller, outcome }), Reply::Told);
}

/// A question of the Rust's and its reply. A run is counted where it is known whose it is.
fn met_asked(question: &Asked, reply: &Reply) {
    let zero = *reply == Reply::Count(0);
    let yes = *reply == Reply::Yes;
    match question {
        Asked::Boot { .. } if yes => met!("Rust: Boot, yes"),
        Asked::Boot { .. } => met!("Rust: Boot, no"),
        Asked::Clock => met!("Rust: Clock"),
        Asked::Poll { .. } if zero => met!("Rust: Poll, 0"),
        Asked::Poll { .. } => met!("Rust: Poll, above 0"),
        Asked::Drain { .. } if zero => met!("Rust: Drain, 0"),
        Asked::Drain { .. } => met!("Rust: Drain, above 0"),
        Asked::Dispatch { .. } if zero => met!("Rust: Dispatch, 0"),
        Asked::Dispatch { .. } => met!("Rust: Dispatch, above 0"),
        Asked::Push { .. } if yes => met!("Rust: Push, yes"),
        Asked::Push { .. } => met!("Rust: Push, no"),
        Asked::Sends { .. } if *reply == Reply::End => met!("Rust: Sends, the end"),
        Asked::Sends { .. } => met!("Rust: Sends, a message"),
        Asked::Trap { .. } if yes => met!("Rust: Trap, yes"),
        Asked::Trap { .. } => met!("Rust: Trap, no"),
        Asked::Trapped { .. } if yes => met!("Rust: Trapped, yes"),
        Asked::Trapped { .. } => met!("Rust: Trapped, no"),
        Asked::Run { .. } => {}
        Asked::Tell { outcome, .. } => match outcome {
            Outcome::Ran => met!("Rust: Tell, ran"),
            Outcome::Unbooted => met!("Rust: Tell, unbooted"),
            Outcome::Broke => met!("Rust: Tell, broke"),
            Outcome::Raised => met!("Rust: Tell, raised"),
            Outcome::Late => met!("Rust: Tell, late"),
            Outcome::StuckHostCall => met!("Rust: Tell, stuck in a host call"),
            Outcome::StuckReceive => met!("Rust: Tell, stuck in receive"),
        },
    }
}
