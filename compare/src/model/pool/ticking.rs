//! The tick: waking what waited, and taking keys from the ready list.
use super::{At, Cursor, Key, Pool};
use crate::met;
use std::collections::VecDeque;

impl Pool {
    /// The next key of the old waiting list, or the group's ready list where none is left.
    pub(super) fn wake(&mut self, g: usize, now: u64, mut rest: VecDeque<Key>) -> At {
        let Some(key) = rest.pop_front() else {
            return At::Ready { g, now, pops: self.groups[g].ready.keys.len() };
        };
        let eval = self.settings.groups[g].eval;
        let Some(actor) = self.groups[g].actors.get(key) else {
            met!("wake: the actor is gone");
            return At::WakeNext { g, now, rest };
        };
        let late = actor.wake_at.is_some_and(|wake_at| wake_at <= now);
        if late {
            met!("wake: its time is over");
        } else if !actor.blocked {
            met!("wake: not blocked");
        } else if eval && actor.run.is_none() {
            met!("wake: blocked, and its run is gone");
        } else {
            match eval {
                false => met!("wake: Poll is asked, fixed"),
                true => met!("wake: Poll is asked, eval"),
            }
            return At::WakePoll { g, now, key, rest };
        }
        self.woken(g, key, late);
        At::WakeNext { g, now, rest }
    }

    pub(super) fn woken(&mut self, g: usize, key: Key, awake: bool) {
        let group = &mut self.groups[g];
        let actor = group.actors.get_mut(key).unwrap();
        if awake {
            met!("woken: to ready");
            actor.wake_at = None;
            actor.blocked = false;
            actor.runnable = true;
            group.schedule(key);
        } else if !actor.idle {
            met!("woken: no, it waits on");
            group.waiting.add(key);
        } else {
            met!("woken: no, idle, it leaves the waiting list");
        }
    }

    /// Pops one key of the ready list and starts its step.
    pub(super) fn ready(&mut self, g: usize, now: u64, pops: usize) -> At {
        if pops == 0 {
            return At::Wake { g: g + 1, now };
        }
        let group = &mut self.groups[g];
        let Some(key) = group.ready.keys.pop_front() else {
            met!("ready: the list is shorter than its pops");
            return At::Wake { g: g + 1, now };
        };
        let next = At::Ready { g, now, pops: pops - 1 };
        let Some(actor) = group.actors.get_mut(key) else {
            met!("ready: the actor is gone");
            return next;
        };
        actor.scheduled = false;
        if actor.mailbox.is_empty() && actor.ran && !actor.runnable {
            met!("ready: nothing to do");
            return next;
        }
        actor.ran = true;
        actor.runnable = false;
        self.stepped = true;
        let c = Cursor { g, key, now, pops: pops - 1 };
        if self.settings.groups[g].eval {
            met!("ready: an eval step");
            return self.eval_step(c);
        }
        met!("ready: a fixed step");
        self.fixed_step(c)
    }
}
