//! Seeding, intake and routing: the part of a turn before its tick.
use super::{Actor, At, Event, Key, Pool, Source};
use crate::met;

impl Pool {
    /// The first turn spawns one actor for each group that may have one.
    pub(super) fn seed(&mut self, g: usize) -> At {
        if g == self.groups.len() {
            return At::Intake;
        }
        if self.settings.ceiling(g) == 0 {
            met!("seed: ceiling 0");
            return At::Seed { g: g + 1 };
        }
        if !self.settings.groups[g].eval {
            met!("seed: a fixed one, Boot is asked");
            return At::SeedBoot { g };
        }
        met!("seed: an eval one");
        self.spawn(g);
        At::Seed { g: g + 1 }
    }

    /// The inbox goes to pending up to the backlog; pending becomes the batch.
    pub(super) fn intake(&mut self) -> At {
        while self.pending.len() + self.queued < self.settings.backlog {
            let Some(e) = self.inbox.pop_front() else { break };
            match self.closed {
                false => met!("intake: a message"),
                true => met!("intake: a message, after close"),
            }
            self.pending.push_back(e);
        }
        match self.inbox.is_empty() {
            true => met!("intake: the inbox is empty"),
            false => met!("intake: the backlog is reached"),
        }
        self.batch = std::mem::take(&mut self.pending);
        At::Route
    }

    /// A new actor, scheduled. A fixed one was booted before.
    pub(super) fn spawn(&mut self, g: usize) -> Key {
        let mut actor = Actor::default();
        if !self.settings.groups[g].eval {
            self.boots += 1;
            actor.vm = self.boots;
        }
        let key = self.groups[g].actors.insert(actor);
        self.groups[g].schedule(key);
        key
    }

    /// The first message of the batch, or the tick where none is left.
    pub(super) fn route(&mut self) -> At {
        let Some(&e) = self.batch.front() else { return At::TickClock };
        let Some(g) = self.settings.group_of(self.name(e)) else {
            met_no_such_group(self.message(e).source);
            return self.undeliverable();
        };
        if (0..g).any(|earlier| self.settings.groups[earlier].name == self.name(e)) {
            met!("route: the later of two groups of one name");
        }
        if let Some(key) = self.pop_idle(g) {
            met!("route: an idle one");
            return self.deliver(g, Some(key));
        }
        if self.groups[g].actors.len() < self.settings.ceiling(g) {
            if !self.settings.groups[g].eval {
                met!("route: Boot is asked");
                return At::RouteBoot { g };
            }
            met!("route: an eval one is spawned");
            let key = self.spawn(g);
            return self.deliver(g, Some(key));
        }
        let key = self.least_loaded(g);
        match key {
            Some(_) => met!("route: the least loaded"),
            None => met_ceiling_0(self.message(e).source),
        }
        self.deliver(g, key)
    }

    fn pop_idle(&mut self, g: usize) -> Option<Key> {
        let group = &mut self.groups[g];
        while let Some(key) = group.idle.keys.pop_back() {
            match group.actors.get(key) {
                None => met!("idle list: the actor is gone"),
                Some(actor) if !actor.idle => met!("idle list: it is idle no more"),
                Some(_) => return Some(key),
            }
        }
        None
    }

    /// Of those with the shortest mailbox, the one with the lowest key.
    pub(super) fn least_loaded(&self, g: usize) -> Option<Key> {
        let actors = &self.groups[g].actors;
        let load = |key: &Key| actors.get(*key).unwrap().mailbox.len();
        let keys = actors.keys();
        let least = keys.iter().copied().min_by_key(load)?;
        if keys.iter().any(|key| *key != least && load(key) == load(&least)) {
            met!("least loaded: the first of equals");
        }
        if keys[0] != least {
            met!("least loaded: not the first key");
        }
        Some(least)
    }

    pub(super) fn deliver(&mut self, g: usize, key: Option<Key>) -> At {
        let Some(key) = key else { return self.undeliverable() };
        met!("deliver: to a mailbox");
        let e = self.batch.pop_front().unwrap();
        let group = &mut self.groups[g];
        let actor = group.actors.get_mut(key).unwrap();
        actor.mailbox.push_back(e);
        actor.idle = false;
        group.schedule(key);
        self.queued += 1;
        self.events.push(Event::Delivered { g, key, message: e });
        At::Route
    }

    fn undeliverable(&mut self) -> At {
        met!("deliver: nobody, it is over");
        let e = self.batch.pop_front().unwrap();
        self.is_over(e);
        At::Route
    }
}

/// Admit turns a name away that no group has, so only these two others can have one.
fn met_no_such_group(source: Source) {
    match source {
        Source::HandedBack => met!("route: no such group, handed back"),
        Source::Sent => met!("route: no such group, sent"),
        Source::Admitted => met!("route: no such group, admitted"),
    }
}

/// The same of a group with ceiling 0.
fn met_ceiling_0(source: Source) {
    match source {
        Source::HandedBack => met!("route: ceiling 0, handed back"),
        Source::Sent => met!("route: ceiling 0, sent"),
        Source::Admitted => met!("route: ceiling 0, admitted"),
    }
}
