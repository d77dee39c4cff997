//! Stand-ins for the interpreter and its host. Each call that is a question (docs/RULES.md, section 5) is put to the
//! script.
pub use super::parts::{Host, Project, Runtime, Sink, Status, TICK_NS, driver, linear_cap};
use super::parts::{clock, count, ran, sends, status, yes};
use super::script::ask;
use super::standins::anyhow::{Error, Result};
use super::standins::compiler::embed::Limits;
use crate::met;
use crate::model::pool::Status as Ran;
use crate::trace::Asked;
use std::cell::{Cell, RefCell};
use std::rc::Rc;

pub fn now_ns() -> u64 {
    clock(ask(Asked::Clock))
}

impl Host {
    /// A group's shared instance: the folder is the group's number.
    pub fn instance(&self, _: Sink, project: Project, _: Option<u64>, _: usize) -> Result<Rc<RefCell<Instance>>> {
        let group = project.dir.trim_end_matches('/').parse().unwrap();
        Ok(Rc::new(RefCell::new(Instance { group, vm: None })))
    }

    /// An eval run's own interpreter: the manifest lies in the folder that is the group's number.
    pub fn vm(&self, _: Sink, project: Project, _ticks: Option<u64>, _memory: Option<usize>) -> Result<Vm> {
        let group = project.manifest.unwrap().split('/').next().unwrap().parse().unwrap();
        Vm::boot(group, true)
    }
}

thread_local! {
    // Boots of this run answered yes, and no.
    static BOOTED: Cell<u64> = const { Cell::new(0) };
    static UNBOOTED: Cell<u64> = const { Cell::new(0) };
    // Groups with a failed step whose Trap was not asked yet, a bit for each.
    static FAILED: Cell<u64> = const { Cell::new(0) };
}

/// Before a run.
pub fn reset() {
    BOOTED.set(0);
    UNBOOTED.set(0);
    FAILED.set(0);
}

/// A group's instance (no vm), or the view of it that one interpreter hands out, so that `poisoned` is Trap for the
/// one and Trapped for the other.
pub struct Instance {
    group: usize,
    vm: Option<u64>,
}

impl Instance {
    pub fn slot(instance: &Rc<RefCell<Instance>>) -> Result<Vm> {
        Vm::boot(instance.borrow().group, false)
    }

    pub fn accept_sends(&mut self) {}

    pub fn slots(&self) -> usize {
        0
    }

    /// Trap is asked once after a failed step. The sweeps of the instance list hear no, so that the list never runs
    /// empty and the next failure asks again, as docs/RULES.md, section 6, has it.
    pub fn poisoned(&self) -> bool {
        match self.vm {
            Some(vm) => yes(ask(Asked::Trapped { group: self.group, vm })),
            None if FAILED.get() >> self.group & 1 == 1 => {
                FAILED.set(FAILED.get() & !(1 << self.group));
                yes(ask(Asked::Trap { group: self.group }))
            }
            None => false,
        }
    }
}

pub struct Vm {
    group: usize,
    number: u64,
    eval: bool,
    inflight: usize,
    view: Rc<RefCell<Instance>>,
    unbooted: Unbooted,
}

/// Where a Boot that was answered no shows itself. All three are the same to the Rust's callers.
#[derive(Clone, Copy, PartialEq, Eq)]
enum Unbooted {
    No,
    AtPreempt,
    AtLimits,
}

impl Vm {
    fn boot(group: usize, eval: bool) -> Result<Vm> {
        let (mut number, mut unbooted) = (0, Unbooted::No);
        if yes(ask(Asked::Boot { group })) {
            BOOTED.set(BOOTED.get() + 1);
            number = BOOTED.get();
        } else {
            UNBOOTED.set(UNBOOTED.get() + 1);
            unbooted = match UNBOOTED.get() % 3 {
                0 => return Err(Error("unbooted".into())),
                1 => Unbooted::AtPreempt,
                _ => Unbooted::AtLimits,
            };
        }
        let view = Rc::new(RefCell::new(Instance { group, vm: Some(number) }));
        Ok(Vm { group, number, eval, inflight: 0, view, unbooted })
    }

    fn booted(&self, at: Unbooted) -> Result<()> {
        if self.unbooted == at { Err(Error("unbooted".into())) } else { Ok(()) }
    }

    pub fn set_preempt_interval(&mut self, _: usize) -> Result<()> {
        self.booted(Unbooted::AtPreempt)
    }

    pub fn set_limits(&mut self, _: &Limits) -> Result<()> {
        self.booted(Unbooted::AtLimits)
    }

    /// The number of the Boot that made it.
    pub fn number(&self) -> u64 {
        self.number
    }

    pub fn instance(&self) -> &Rc<RefCell<Instance>> {
        &self.view
    }

    fn failed(&self) {
        if !self.eval {
            FAILED.set(FAILED.get() | 1 << self.group);
        }
    }

    fn run(&mut self, start: bool, source: Option<Vec<u8>>) -> Result<Status> {
        let ran = ran(ask(Asked::Run { group: self.group, vm: self.number, start, source }));
        met_ran(self.eval, start, ran);
        if matches!(ran, Ran::Error | Ran::Broke) {
            self.failed();
        }
        status(ran)
    }

    pub fn start(&mut self, source: &str, _: Option<&str>) -> Result<Status> {
        let shown = self.eval.then(|| source.as_bytes().to_vec());
        self.run(true, shown)
    }

    pub fn resume(&mut self) -> Result<Status> {
        self.run(false, None)
    }

    /// A count of 0 is an error for every other interpreter, which is the same to the Rust.
    pub fn poll(&mut self) -> Result<usize> {
        match count(ask(Asked::Poll { group: self.group, vm: self.number })) {
            0 if self.number % 2 == 0 => Err(Error("poll".into())),
            count => Ok(count),
        }
    }

    pub fn drain_buffered(&mut self) -> usize {
        count(ask(Asked::Drain { group: self.group, vm: self.number }))
    }

    pub fn push_event(&mut self, body: &str) -> bool {
        yes(ask(Asked::Push { group: self.group, vm: self.number, body: body.as_bytes().to_vec() }))
    }

    pub fn dispatch(&mut self) {
        self.inflight = count(ask(Asked::Dispatch { group: self.group, vm: self.number }));
        if self.inflight == 0 {
            self.failed();
        }
    }

    pub fn inflight(&self) -> usize {
        self.inflight
    }

    pub fn take_sends(&mut self) -> Vec<(String, String)> {
        sends(|| ask(Asked::Sends { group: self.group, vm: self.number }))
    }
}

fn met_ran(eval: bool, start: bool, ran: Ran) {
    match (eval, start, ran) {
        (false, true, Ran::Done) => met!("Rust: Run fixed start, done"),
        (false, true, Ran::Exit) => met!("Rust: Run fixed start, exit"),
        (false, true, Ran::Preempted) => met!("Rust: Run fixed start, preempted"),
        (false, true, Ran::Event) => met!("Rust: Run fixed start, event"),
        (false, true, Ran::HostCall) => met!("Rust: Run fixed start, host call"),
        (false, true, Ran::Error) => met!("Rust: Run fixed start, error"),
        (false, true, Ran::Broke) => met!("Rust: Run fixed start, broke"),
        (false, false, Ran::Done) => met!("Rust: Run fixed resume, done"),
        (false, false, Ran::Exit) => met!("Rust: Run fixed resume, exit"),
        (false, false, Ran::Preempted) => met!("Rust: Run fixed resume, preempted"),
        (false, false, Ran::Event) => met!("Rust: Run fixed resume, event"),
        (false, false, Ran::HostCall) => met!("Rust: Run fixed resume, host call"),
        (false, false, Ran::Error) => met!("Rust: Run fixed resume, error"),
        (false, false, Ran::Broke) => met!("Rust: Run fixed resume, broke"),
        (true, true, Ran::Done) => met!("Rust: Run eval start, done"),
        (true, true, Ran::Exit) => met!("Rust: Run eval start, exit"),
        (true, true, Ran::Preempted) => met!("Rust: Run eval start, preempted"),
        (true, true, Ran::Event) => met!("Rust: Run eval start, event"),
        (true, true, Ran::HostCall) => met!("Rust: Run eval start, host call"),
        (true, true, Ran::Error) => met!("Rust: Run eval start, error"),
        (true, true, Ran::Broke) => met!("Rust: Run eval start, broke"),
        (true, false, Ran::Done) => met!("Rust: Run eval resume, done"),
        (true, false, Ran::Exit) => met!("Rust: Run eval resume, exit"),
        (true, false, Ran::Preempted) => met!("Rust: Run eval resume, preempted"),
        (true, false, Ran::Event) => met!("Rust: Run eval resume, event"),
        (true, false, Ran::HostCall) => met!("Rust: Run eval resume, host call"),
        (true, false, Ran::Error) => met!("Rust: Run eval resume, error"),
        (true, false, Ran::Broke) => met!("Rust: Run eval resume, broke"),
    }
}
