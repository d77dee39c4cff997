//! A turn from point to point: what runs on by itself, the marks, and where a reply leads.
use super::{Answer, At, EvalRun, Event, Key, Outcome, Pool, Reply, Source, Status, Step, deadline};
use crate::met;
use crate::model::log::{self, Order};
use std::collections::VecDeque;

impl Pool {
    /// Runs on until an order or a question goes out, or the turn ends.
    pub(super) fn advance(&mut self) -> Answer {
        loop {
            if self.order.is_some() || self.turn_question().is_some() {
                return Answer::Open(self.open_question());
            }
            let at = std::mem::replace(&mut self.at, At::Rest);
            if self.mark_at(&at) {
                self.at = at;
                continue;
            }
            match self.go(at) {
                Some(next) => self.at = next,
                None => return self.end(),
            }
        }
    }

    fn end(&self) -> Answer {
        let waiters = self.groups.iter().any(|group| !group.waiting.keys.is_empty());
        let busy = self.stepped || !self.pending.is_empty();
        match (busy, waiters) {
            (false, false) => met!("turn end: neither busy nor waiters"),
            (false, true) => met!("turn end: waiters"),
            (true, false) => met!("turn end: busy"),
            (true, true) => met!("turn end: busy, waiters"),
        }
        Answer::TurnEnd { busy, waiters }
    }

    /// At these points what is over gets its mark first, one order at a time. True where an order went out.
    fn mark_at(&mut self, at: &At) -> bool {
        match at {
            At::Route | At::StepEnd { .. } | At::Crash { .. } => {}
            At::AskTrap { .. } | At::CrashTrapped { .. } | At::Ready { .. } => {}
            _ => return false,
        }
        if !self.mark_next() {
            return false;
        }
        match at {
            At::Route => met!("mark at Route"),
            At::StepEnd { .. } => met!("mark at StepEnd"),
            At::Crash { .. } => met!("mark at Crash"),
            At::AskTrap { .. } => met!("mark at AskTrap"),
            At::CrashTrapped { trapped, .. } if trapped.is_empty() => met!("mark at CrashTrapped, the last"),
            At::CrashTrapped { .. } => met!("mark at CrashTrapped, more to retire"),
            _ => met!("mark at Ready"),
        }
        true
    }

    /// Orders the mark of the first message that is over. True where an order went out.
    fn mark_next(&mut self) -> bool {
        while let Some(e) = self.over.pop_front() {
            let id = self.message(e).id.unwrap();
            self.table[e] = None;
            self.lacked_space |= log::mark_lacks_space(&self.counters, &self.log, self.settings.compact_at, id);
            self.events.push(Event::Marked(id));
            let Some(order) = log::mark(&mut self.counters, &mut self.log, self.settings.compact_at, id) else {
                met!("mark: an unknown id");
                continue;
            };
            match order {
                Order::Append(..) => met!("mark: a done line"),
                _ => met!("mark: a rewrite"),
            }
            self.order = Some(order);
            return true;
        }
        false
    }

    /// One running point. None: the turn is over.
    fn go(&mut self, at: At) -> Option<At> {
        Some(match at {
            At::Seed { g } => self.seed(g),
            At::Intake => self.intake(),
            At::Route => self.route(),
            At::Wake { g, .. } if g == self.groups.len() => return None,
            At::Wake { g, now } => {
                let rest = std::mem::take(&mut self.groups[g].waiting.keys);
                At::WakeNext { g, now, rest }
            }
            At::WakeNext { g, now, rest } => self.wake(g, now, rest),
            At::Ready { g, now, pops } => self.ready(g, now, pops),
            At::StepEnd { c, step } if self.settings.groups[c.g].eval => At::Settle { c, step },
            At::StepEnd { c, step } => At::Sends { c, step },
            At::Settle { c, step } => self.settle(c, step),
            At::Crash { c } => self.crash(c),
            At::AskTrap { c } => At::Trap { c },
            At::CrashTrapped { c, trapped } => self.crash_trapped(c, trapped),
            other => unreachable!("{other:?}"),
        })
    }

    /// Takes a reply to the turn's question.
    pub(super) fn resume(&mut self, reply: &Reply) -> At {
        let at = std::mem::replace(&mut self.at, At::Rest);
        match (at, reply) {
            (At::SeedBoot { g }, Reply::Yes) => {
                met!("SeedBoot: yes");
                self.spawn(g);
                At::Seed { g: g + 1 }
            }
            (At::SeedBoot { g }, _) => {
                met!("SeedBoot: no");
                At::Seed { g: g + 1 }
            }
            (At::RouteBoot { g }, Reply::Yes) => {
                met!("RouteBoot: yes");
                let key = self.spawn(g);
                self.deliver(g, Some(key))
            }
            (At::RouteBoot { g }, _) => {
                let key = self.least_loaded(g);
                match key {
                    Some(_) => met!("RouteBoot: no, to the least loaded"),
                    None => met!("RouteBoot: no, and nobody there"),
                }
                self.deliver(g, key)
            }
            (At::TickClock, Reply::Clock(now)) => {
                met!("TickClock: a clock");
                At::Wake { g: 0, now: *now }
            }
            (At::WakePoll { g, now, key, rest }, Reply::Count(count)) => {
                match count {
                    0 => met!("WakePoll: 0"),
                    _ => met!("WakePoll: above 0"),
                }
                self.woken(g, key, *count > 0);
                At::WakeNext { g, now, rest }
            }
            (At::FixedRun { c, start }, Reply::Ran(status)) => self.fixed_ran(c, start, *status),
            (At::FixedDrain { c }, Reply::Count(count)) => self.fixed_drained(c, *count),
            (At::FixedPush { c }, reply) => self.fixed_pushed(c, *reply == Reply::Yes),
            (At::FixedDispatch { c }, Reply::Count(0)) => {
                met!("FixedDispatch: 0");
                self.fixed_failed(c)
            }
            (At::FixedDispatch { c }, _) => {
                met!("FixedDispatch: above 0");
                At::StepEnd { c, step: Step::Blocked(None) }
            }
            (At::EvalClock { c }, Reply::Clock(clock)) => {
                if *clock >= self.actor(c).run.as_ref().unwrap().deadline {
                    met!("EvalClock: late");
                    self.eval_finish(c, Outcome::Late)
                } else {
                    met!("EvalClock: in time");
                    At::EvalRun { c, start: false }
                }
            }
            (At::EvalBoot { c }, Reply::Yes) => {
                met!("EvalBoot: yes");
                self.boots += 1;
                At::EvalStartClock { c }
            }
            (At::EvalBoot { c }, _) => {
                met!("EvalBoot: no");
                self.eval_tell(c, Outcome::Unbooted)
            }
            (At::EvalStartClock { c }, Reply::Clock(clock)) => {
                met!("EvalStartClock: a clock");
                let deadline = deadline(*clock, self.settings.groups[c.g].timeout, self.settings.tick_ns);
                let run = EvalRun { message: self.hand.take().unwrap(), deadline, vm: self.boots };
                self.actor(c).run = Some(run);
                At::EvalRun { c, start: true }
            }
            (At::EvalRun { c, start }, Reply::Ran(status)) => self.eval_ran(c, start, *status),
            (At::EvalDispatch { c }, Reply::Count(0)) => {
                met!("EvalDispatch: 0");
                self.eval_finish(c, Outcome::StuckHostCall)
            }
            (At::EvalDispatch { c }, _) => {
                met!("EvalDispatch: above 0");
                let until = self.actor(c).run.as_ref().unwrap().deadline;
                At::StepEnd { c, step: Step::Blocked(Some(until)) }
            }
            (At::EvalTell { c, outcome }, _) => {
                met_told(outcome);
                self.eval_over(c)
            }
            (At::Sends { c, step }, Reply::Send(name, body)) => {
                match step {
                    Step::Failed => met!("Sends: a message of a failed step"),
                    _ => met!("Sends: a message"),
                }
                let e = self.keep(name, body, Source::Sent, None, None);
                self.pending.push_back(e);
                At::Sends { c, step }
            }
            (At::Sends { c, step }, _) => {
                match step {
                    Step::Failed => met!("Sends: the end, of a failed step"),
                    _ => met!("Sends: the end"),
                }
                At::Settle { c, step }
            }
            (At::Trap { c }, Reply::Yes) => {
                let ask: VecDeque<Key> = self.groups[c.g].actors.keys().into();
                match ask.is_empty() {
                    false => met!("Trap: yes"),
                    true => met!("Trap: yes, nobody left to ask"),
                }
                next_trapped(c, ask, VecDeque::new())
            }
            (At::Trap { c }, _) => {
                met!("Trap: no");
                At::Ready { g: c.g, now: c.now, pops: c.pops }
            }
            (At::Trapped { c, mut ask, mut trapped }, reply) => {
                let key = ask.pop_front().unwrap();
                if *reply == Reply::Yes {
                    met!("Trapped: yes");
                    trapped.push_back(key);
                } else {
                    met!("Trapped: no");
                }
                next_trapped(c, ask, trapped)
            }
            (at, reply) => unreachable!("{at:?} {reply:?}"),
        }
    }
}

fn next_trapped(c: super::Cursor, ask: VecDeque<Key>, trapped: VecDeque<Key>) -> At {
    if ask.is_empty() { At::CrashTrapped { c, trapped } } else { At::Trapped { c, ask, trapped } }
}

fn met_told(outcome: Outcome) {
    match outcome {
        Outcome::Ran => met!("EvalTell: told, ran"),
        Outcome::Unbooted => met!("EvalTell: told, unbooted"),
        Outcome::Broke => met!("EvalTell: told, broke"),
        Outcome::Raised => met!("EvalTell: told, raised"),
        Outcome::Late => met!("EvalTell: told, late"),
        Outcome::StuckHostCall => met!("EvalTell: told, stuck in a host call"),
        Outcome::StuckReceive => met!("EvalTell: told, stuck in receive"),
    }
}

/// A reply to Run by how it came back.
pub(super) fn met_fixed_ran(start: bool, status: Status) {
    match (start, status) {
        (true, Status::Done) => met!("FixedRun start: done"),
        (true, Status::Exit) => met!("FixedRun start: exit"),
        (true, Status::Preempted) => met!("FixedRun start: preempted"),
        (true, Status::Event) => met!("FixedRun start: event"),
        (true, Status::HostCall) => met!("FixedRun start: host call"),
        (true, Status::Error) => met!("FixedRun start: error"),
        (true, Status::Broke) => met!("FixedRun start: broke"),
        (false, Status::Done) => met!("FixedRun resume: done"),
        (false, Status::Exit) => met!("FixedRun resume: exit"),
        (false, Status::Preempted) => met!("FixedRun resume: preempted"),
        (false, Status::Event) => met!("FixedRun resume: event"),
        (false, Status::HostCall) => met!("FixedRun resume: host call"),
        (false, Status::Error) => met!("FixedRun resume: error"),
        (false, Status::Broke) => met!("FixedRun resume: broke"),
    }
}

pub(super) fn met_eval_ran(start: bool, status: Status) {
    match (start, status) {
        (true, Status::Done) => met!("EvalRun start: done"),
        (true, Status::Exit) => met!("EvalRun start: exit"),
        (true, Status::Preempted) => met!("EvalRun start: preempted"),
        (true, Status::Event) => met!("EvalRun start: event"),
        (true, Status::HostCall) => met!("EvalRun start: host call"),
        (true, Status::Error) => met!("EvalRun start: error"),
        (true, Status::Broke) => met!("EvalRun start: broke"),
        (false, Status::Done) => met!("EvalRun resume: done"),
        (false, Status::Exit) => met!("EvalRun resume: exit"),
        (false, Status::Preempted) => met!("EvalRun resume: preempted"),
        (false, Status::Event) => met!("EvalRun resume: event"),
        (false, Status::HostCall) => met!("EvalRun resume: host call"),
        (false, Status::Error) => met!("EvalRun resume: error"),
        (false, Status::Broke) => met!("EvalRun resume: broke"),
    }
}
