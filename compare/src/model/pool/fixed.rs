//! A step of a fixed actor.
use super::turn::met_fixed_ran;
use super::{At, Cursor, Entry, Pool, Status, Step};
use crate::met;

impl Pool {
    pub(super) fn fixed_step(&mut self, c: Cursor) -> At {
        let start = !self.actor(c).started;
        self.actor(c).started = true;
        At::FixedRun { c, start }
    }

    pub(super) fn fixed_ran(&mut self, c: Cursor, start: bool, status: Status) -> At {
        met_fixed_ran(start, status);
        match status {
            Status::Done | Status::Exit => {
                match self.in_flight_over(c) {
                    true => met!("fixed: ended, its message is over"),
                    false => met!("fixed: ended with no message"),
                }
                At::StepEnd { c, step: Step::Done }
            }
            Status::Preempted => At::StepEnd { c, step: Step::Yield },
            Status::Event => {
                match self.in_flight_over(c) {
                    true => met!("fixed: at receive, its message is over"),
                    false => met!("fixed: at receive with no message"),
                }
                At::FixedDrain { c }
            }
            Status::HostCall => At::FixedDispatch { c },
            Status::Error | Status::Broke => self.fixed_failed(c),
        }
    }

    /// True where it had a message.
    fn in_flight_over(&mut self, c: Cursor) -> bool {
        let Some(e) = self.actor(c).in_flight.take() else { return false };
        self.is_over(e);
        true
    }

    pub(super) fn fixed_failed(&mut self, c: Cursor) -> At {
        self.hand = self.actor(c).in_flight.take();
        match self.hand {
            Some(_) => met!("fixed: failed with a message"),
            None => met!("fixed: failed with none"),
        }
        At::StepEnd { c, step: Step::Failed }
    }

    pub(super) fn fixed_drained(&mut self, c: Cursor, events: u64) -> At {
        if events > 0 {
            met!("FixedDrain: above 0");
            return At::FixedRun { c, start: false };
        }
        match self.take_mail(c) {
            Some(e) => {
                met!("FixedDrain: 0, a message is taken");
                self.hand = Some(e);
                At::FixedPush { c }
            }
            None => {
                met!("FixedDrain: 0, the mailbox is empty");
                self.actor(c).idle = true;
                At::StepEnd { c, step: Step::Waiting }
            }
        }
    }

    /// The mailbox's first message, which leaves the count with it.
    pub(super) fn take_mail(&mut self, c: Cursor) -> Option<Entry> {
        let e = self.actor(c).mailbox.pop_front()?;
        self.queued -= 1;
        Some(e)
    }

    pub(super) fn fixed_pushed(&mut self, c: Cursor, taken: bool) -> At {
        let e = self.hand.take().unwrap();
        let actor = self.actor(c);
        if taken {
            met!("FixedPush: yes");
            actor.consumed = true;
            actor.in_flight = Some(e);
            return At::FixedRun { c, start: false };
        }
        match actor.mailbox.is_empty() {
            true => met!("FixedPush: no"),
            false => met!("FixedPush: no, in front of others"),
        }
        actor.mailbox.push_front(e);
        actor.idle = true;
        self.queued += 1;
        At::StepEnd { c, step: Step::Waiting }
    }
}
