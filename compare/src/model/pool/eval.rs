//! A step of an eval actor.
use super::turn::met_eval_ran;
use super::{At, Cursor, Outcome, Pool, Status, Step};
use crate::met;

/// When a run that starts at this clock is late: its timeout counts in whole ticks.
pub fn deadline(clock: u64, timeout: u64, tick_ns: u64) -> u64 {
    clock + (timeout * 1_000_000_000 / tick_ns) * tick_ns
}

impl Pool {
    pub(super) fn eval_step(&mut self, c: Cursor) -> At {
        if self.actor(c).run.is_some() {
            met!("eval: a run goes on");
            return At::EvalClock { c };
        }
        match self.take_mail(c) {
            Some(e) => {
                met!("eval: the next message");
                self.hand = Some(e);
                At::EvalBoot { c }
            }
            None => {
                met!("eval: no message");
                self.actor(c).idle = true;
                At::StepEnd { c, step: Step::Waiting }
            }
        }
    }

    pub(super) fn eval_ran(&mut self, c: Cursor, start: bool, status: Status) -> At {
        met_eval_ran(start, status);
        match status {
            Status::Done | Status::Exit => self.eval_finish(c, Outcome::Ran),
            Status::Error => self.eval_finish(c, Outcome::Raised),
            Status::Broke => self.eval_finish(c, Outcome::Broke),
            Status::Event => self.eval_finish(c, Outcome::StuckReceive),
            Status::Preempted => At::StepEnd { c, step: Step::Yield },
            Status::HostCall => At::EvalDispatch { c },
        }
    }

    /// The run ends: its message goes to the step's hand, its caller is told.
    pub(super) fn eval_finish(&mut self, c: Cursor, outcome: Outcome) -> At {
        self.hand = self.actor(c).run.take().map(|run| run.message);
        self.eval_tell(c, outcome)
    }

    pub(super) fn eval_tell(&mut self, c: Cursor, outcome: Outcome) -> At {
        if self.message(self.hand.unwrap()).caller.is_some() {
            return At::EvalTell { c, outcome };
        }
        met!("eval: nobody to tell");
        self.eval_over(c)
    }

    pub(super) fn eval_over(&mut self, c: Cursor) -> At {
        let e = self.hand.take().unwrap();
        self.is_over(e);
        let actor = self.actor(c);
        if actor.mailbox.is_empty() {
            met!("eval: over, idle");
            actor.idle = true;
            return At::StepEnd { c, step: Step::Waiting };
        }
        met!("eval: over, more mail");
        At::StepEnd { c, step: Step::Yield }
    }
}
