//! What follows a step: where its actor goes, crashes, and the actors that were trapped with it.
use super::{Actor, At, Cursor, Entry, Event, Key, Pool, Step};
use crate::met;
use crate::model::log::{self, LogId, Order};
use std::collections::VecDeque;

impl Pool {
    pub(super) fn settle(&mut self, c: Cursor, step: Step) -> At {
        let next = At::Ready { g: c.g, now: c.now, pops: c.pops };
        match step {
            Step::Failed => {
                met!("settle: failed");
                self.release(c);
                return At::Crash { c };
            }
            Step::Done => {
                met!("settle: done");
                self.release(c);
            }
            Step::Blocked(until) => {
                match until {
                    Some(_) => met!("settle: blocked with a deadline"),
                    None => met!("settle: blocked"),
                }
                let actor = self.actor(c);
                actor.wake_at = until;
                actor.blocked = true;
                if actor.idle {
                    met!("settle: blocked while idle");
                }
                self.groups[c.g].waiting.add(c.key);
            }
            Step::Yield => {
                met!("settle: yield");
                self.actor(c).runnable = true;
                self.groups[c.g].schedule(c.key);
            }
            Step::Waiting => {
                met!("settle: waiting");
                self.groups[c.g].idle.add(c.key);
            }
        }
        next
    }

    fn retire(&mut self, g: usize, key: Key) -> Actor {
        let actor = self.groups[g].actors.remove(key);
        self.queued -= actor.mailbox.len();
        actor
    }

    /// An actor that ended or raised: its mailbox goes back to pending if it ever took a message, else it is over.
    fn release(&mut self, c: Cursor) {
        let actor = self.retire(c.g, c.key);
        if actor.mailbox.is_empty() {
            met!("release: no mail");
        } else if actor.consumed {
            met!("release: its mail goes back to pending");
            if actor.mailbox.len() > 1 {
                met!("release: two messages or more go back to pending");
            }
            self.pending.extend(actor.mailbox);
        } else {
            met!("release: it never took a message, its mail is over");
            let logged = actor.mailbox.iter().filter(|&&e| self.message(e).id.is_some()).count();
            if 0 < logged && logged < actor.mailbox.len() {
                met!("release: it never took a message, logged mail and other mail are over");
            }
            for e in actor.mailbox {
                self.is_over(e);
            }
        }
    }

    /// After the marks of the dropped mail: the crash counts, and its message goes round again or is dead. Before Trap
    /// is asked, the order of the retry or of the mark goes out.
    pub(super) fn crash(&mut self, c: Cursor) -> At {
        self.crashes = self.crashes.saturating_add(1);
        match self.hand.take() {
            Some(e) => self.crashed(c.g, e),
            None => met!("crash: no message"),
        }
        if self.order.is_some() {
            met!("retry at AskTrap");
        }
        At::AskTrap { c }
    }

    /// A message whose actor crashed: again, or dead. That it is tried again is written down.
    fn crashed(&mut self, g: usize, e: Entry) {
        let retry = self.settings.groups[g].retry;
        let message = self.table[e].as_mut().unwrap();
        if message.attempts < retry {
            match message.attempts {
                0 => met!("crash: the message goes round again"),
                _ => met!("crash: and once more"),
            }
            message.attempts += 1;
            let (id, attempts) = (message.id, message.attempts);
            self.pending.push_back(e);
            match id {
                Some(id) => self.write_retry(id, attempts),
                None => met!("retry: not logged"),
            }
        } else {
            match retry {
                0 => met!("crash: dead, no retry"),
                _ => met!("crash: dead after retries"),
            }
            self.dead = self.dead.saturating_add(1);
            self.is_over(e);
        }
    }

    /// Orders the line of a retry, if it has room. If not, the log is as it was, and the message goes round all the
    /// same.
    fn write_retry(&mut self, id: LogId, attempts: u64) {
        let before = self.attempts_in_log(id);
        self.order = log::retry(&mut self.counters, &mut self.log, id, attempts);
        match (self.order, before) {
            (Some(Order::Append(..)), _) => met!("retry: a line behind the others"),
            (Some(_), _) => met!("retry: a rewrite"),
            (None, None) => met!("retry: an unknown id"),
            (None, Some(0)) => met!("retry: no room"),
            (None, Some(_)) => met!("retry: no room, and the log keeps the number before"),
        }
        if self.order.is_some() {
            self.retried = true;
            self.events.push(Event::Retried { id, attempts });
        }
    }

    /// How often a message was tried as the log has it; None where its record is not open.
    fn attempts_in_log(&self, id: LogId) -> Option<u64> {
        let open = log::open_records(&self.log[..self.counters.size]);
        open.into_iter().find(|record| record.id == id).map(|record| record.attempts)
    }

    /// The next actor that was trapped with the failed one. The order of its retry or of its mark goes out before the
    /// next is retired.
    pub(super) fn crash_trapped(&mut self, c: Cursor, mut trapped: VecDeque<Key>) -> At {
        let Some(key) = trapped.pop_front() else {
            return At::Ready { g: c.g, now: c.now, pops: c.pops };
        };
        let actor = self.retire(c.g, key);
        match actor.mailbox.is_empty() {
            true => met!("crash_trapped: no mail"),
            false => met!("crash_trapped: its mail goes back to pending"),
        }
        if actor.mailbox.len() > 1 {
            met!("crash_trapped: two messages or more go back to pending");
        }
        self.pending.extend(actor.mailbox);
        self.crashes = self.crashes.saturating_add(1);
        match actor.in_flight {
            Some(e) => {
                met!("crash_trapped: with a message in its hands");
                self.crashed(c.g, e);
            }
            None => met!("crash_trapped: with none"),
        }
        match (self.order, trapped.is_empty()) {
            (None, _) => {}
            (Some(_), false) => met!("retry at CrashTrapped, more to retire"),
            (Some(_), true) => met!("retry at CrashTrapped, the last"),
        }
        At::CrashTrapped { c, trapped }
    }
}
