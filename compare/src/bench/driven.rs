//! The port's times call by call (crates/drive): a host hands out prepared replies, as the Rust's stand-ins do, with
//! one C call for each call of the list and no script. Each run opens the pool anew and sets the list up before the
//! clock starts. The host carries out each order on a file, or leaves it.
use super::clock::{counted, time};
use super::disk::Disk;
use super::lists::Timed;
use crate::drive::{Block, Said};
use crate::model::pool::Call;
use crate::output::Answer;
use crate::property::list::Opening;
use crate::script::reply_numbers;
use std::hint::black_box;
use std::path::{Path, PathBuf};

/// A call as the driver takes it; a reply by its numbers.
enum Step {
    Admit { name: Vec<u8>, body: Vec<u8>, caller: Option<u64> },
    Turn,
    Reply(u64, u64),
}

impl Step {
    fn of(call: &Call) -> Step {
        match call {
            Call::Admit { name, body, caller } => {
                Step::Admit { name: name.clone(), body: body.clone(), caller: caller.map(|caller| caller.0) }
            }
            Call::Turn => Step::Turn,
            Call::Reply(reply) => {
                let (kind, value, ..) = reply_numbers(reply);
                Step::Reply(kind, value)
            }
            Call::Sync | Call::Close => unreachable!("no timed list syncs or closes"),
        }
    }

    fn make(&self, block: &mut Block) -> Said {
        match self {
            Step::Admit { name, body, caller } => block.admit(name, body, *caller),
            Step::Turn => block.turn(),
            Step::Reply(kind, value) => block.reply(*kind, *value),
        }
    }
}

/// What a host does about what is open.
trait Host {
    fn hears(&mut self, said: Said, log: &[u8]);
}

/// Orders are left.
struct Idle;

impl Host for Idle {
    fn hears(&mut self, said: Said, _: &[u8]) {
        black_box(said);
    }
}

/// Orders are carried out before their `stored`.
impl Host for Disk {
    fn hears(&mut self, said: Said, log: &[u8]) {
        let (a, b) = (said.a as usize, said.b as usize);
        match black_box(said).kind {
            3 => self.append(&log[a..b]),
            4 => self.replace(&log[..a]),
            5 => self.flush(),
            _ => {}
        }
    }
}

fn go(block: &mut Block, steps: &[Step], host: &mut impl Host) {
    for step in steps {
        let said = step.make(block);
        host.hears(said, block.log());
    }
}

/// The calls of a list.
pub struct Calls {
    opening: Opening,
    path: PathBuf,
    block: Box<Block>,
    setup: Vec<Step>,
    timed: Vec<Step>,
}

impl Calls {
    pub fn new(timed: &Timed, path: &Path) -> Calls {
        let mut setup: Vec<Step> = timed.list.calls.iter().map(Step::of).collect();
        let steps = setup.split_off(timed.setup);
        let opening = timed.list.opening.clone();
        let mut calls = Calls { opening, path: path.to_path_buf(), block: Block::new(), setup, timed: steps };
        calls.check(timed);
        calls
    }

    /// Every call answers as the plain program's does, and the file is the log at the end.
    fn check(&mut self, timed: &Timed) {
        let mut pool = self.opening.model().expect("an accepted opening");
        let mut disk = Disk::new(&self.path, &self.opening.file);
        self.open(&mut disk);
        for (step, call) in self.setup.iter().chain(&self.timed).zip(&timed.list.calls) {
            let (said, answer) = (step.make(&mut self.block), pool.call(call));
            assert_eq!(Answer::read(said.kind, said.a, said.b, said.c), Some(Answer::of(&answer)), "{}", timed.what);
            disk.hears(said, self.block.log());
        }
        assert!(disk.bytes() == pool.log[..pool.counters.size], "the file of {}", timed.what);
    }

    fn open(&mut self, host: &mut impl Host) {
        let said = self.block.open(&self.opening.settings, self.opening.lent_log(), self.opening.file.len());
        host.hears(said, self.block.log());
    }

    fn set_up(&mut self, host: &mut impl Host) {
        self.open(host);
        go(&mut self.block, &self.setup, host);
    }

    fn time(&mut self, mut host: impl Host) -> f64 {
        self.set_up(&mut host);
        time(|| go(&mut self.block, &self.timed, &mut host))
    }

    /// The time of the timed calls, in nanoseconds, with no file.
    pub fn run(&mut self) -> f64 {
        self.time(Idle)
    }

    /// The same with each order carried out on a file.
    pub fn run_writing(&mut self) -> f64 {
        self.time(Disk::new(&self.path, &self.opening.file))
    }

    /// The timed calls with no file, for their instructions.
    pub fn count(&mut self) {
        self.set_up(&mut Idle);
        counted(|| go(&mut self.block, &self.timed, &mut Idle));
    }
}
