//! Stand-ins for the interpreter and its host: each question takes the next reply.
pub use super::parts::{Host, Project, Runtime, Sink, Status, TICK_NS, driver, linear_cap};
use super::parts::{clock, count, ran, sends, status, yes};
use super::script::reply;
use super::standins::anyhow::{Error, Result};
use super::standins::compiler::embed::Limits;
use std::cell::RefCell;
use std::rc::Rc;

pub fn now_ns() -> u64 {
    clock(reply())
}

impl Host {
    pub fn instance(&self, _: Sink, _: Project, _: Option<u64>, _: usize) -> Result<Rc<RefCell<Instance>>> {
        Ok(Rc::new(RefCell::new(Instance)))
    }

    pub fn vm(&self, _: Sink, _: Project, _: Option<u64>, _: Option<usize>) -> Result<Vm> {
        Vm::boot(&Rc::new(RefCell::new(Instance)))
    }
}

/// No step of the timed lists fails, so nothing is ever trapped.
pub struct Instance;

impl Instance {
    pub fn slot(instance: &Rc<RefCell<Instance>>) -> Result<Vm> {
        Vm::boot(instance)
    }

    pub fn accept_sends(&mut self) {}

    pub fn slots(&self) -> usize {
        0
    }

    pub fn poisoned(&self) -> bool {
        false
    }
}

pub struct Vm {
    inflight: usize,
    instance: Rc<RefCell<Instance>>,
}

impl Vm {
    fn boot(instance: &Rc<RefCell<Instance>>) -> Result<Vm> {
        if yes(reply()) { Ok(Vm { inflight: 0, instance: instance.clone() }) } else { Err(Error("unbooted".into())) }
    }

    pub fn set_preempt_interval(&mut self, _: usize) -> Result<()> {
        Ok(())
    }

    pub fn set_limits(&mut self, _: &Limits) -> Result<()> {
        Ok(())
    }

    /// For the views, which nobody looks at here.
    pub fn number(&self) -> u64 {
        0
    }

    pub fn instance(&self) -> &Rc<RefCell<Instance>> {
        &self.instance
    }

    pub fn start(&mut self, _: &str, _: Option<&str>) -> Result<Status> {
        status(ran(reply()))
    }

    pub fn resume(&mut self) -> Result<Status> {
        status(ran(reply()))
    }

    pub fn poll(&mut self) -> Result<usize> {
        Ok(count(reply()))
    }

    pub fn drain_buffered(&mut self) -> usize {
        count(reply())
    }

    pub fn push_event(&mut self, _: &str) -> bool {
        yes(reply())
    }

    pub fn dispatch(&mut self) {
        self.inflight = count(reply());
    }

    pub fn inflight(&self) -> usize {
        self.inflight
    }

    pub fn take_sends(&mut self) -> Vec<(String, String)> {
        sends(reply)
    }
}
