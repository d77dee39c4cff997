//! Messages, actors, their keys and the lists of keys.
use super::{Entry, Key};
use crate::limits::KEYS;
use crate::met;
use crate::model::log::{CallerId, LogId};
use std::collections::VecDeque;

/// Where a message came from.
#[derive(Clone, Copy, PartialEq, Eq, Debug)]
pub enum Source {
    Admitted,
    HandedBack,
    Sent,
}

#[derive(Clone, PartialEq, Eq, Debug)]
pub struct Message {
    pub name_len: usize,
    pub body_len: usize,
    pub attempts: u64,
    pub caller: Option<CallerId>,
    pub id: Option<LogId>,
    /// For the named points alone.
    pub source: Source,
}

/// An eval run between or inside steps.
#[derive(Clone, PartialEq, Eq, Debug, Default)]
pub struct EvalRun {
    pub message: Entry,
    pub deadline: u64,
    /// For the comparison: the number of its Boot.
    pub vm: u64,
}

/// An actor over its messages and its eval run; the comparison has others in their places.
#[derive(Clone, PartialEq, Eq, Debug, Default)]
pub struct Actor<M = Entry, R = EvalRun> {
    pub mailbox: VecDeque<M>,
    pub started: bool,
    pub ran: bool,
    pub idle: bool,
    pub runnable: bool,
    pub scheduled: bool,
    pub wake_at: Option<u64>,
    pub blocked: bool,
    pub in_flight: Option<M>,
    pub consumed: bool,
    pub run: Option<R>,
    /// For the comparison: the number of its Boot (fixed only).
    pub vm: u64,
}

/// Keys as slab 0.4 gives them: those that were freed before new ones, the latest of them first.
#[derive(Clone, PartialEq, Eq, Debug, Default)]
pub struct Slab {
    pub slots: Vec<Option<Actor>>,
    pub free: Vec<Key>,
}

impl Slab {
    pub fn insert(&mut self, actor: Actor) -> Key {
        match self.free.pop() {
            Some(key) => {
                met!("slab: the last freed key");
                self.slots[key] = Some(actor);
                key
            }
            None => {
                met!("slab: a new key");
                self.slots.push(Some(actor));
                self.slots.len() - 1
            }
        }
    }

    pub fn remove(&mut self, key: Key) -> Actor {
        self.free.push(key);
        self.slots[key].take().unwrap()
    }

    pub fn get(&self, key: Key) -> Option<&Actor> {
        self.slots.get(key).and_then(|actor| actor.as_ref())
    }

    pub fn get_mut(&mut self, key: Key) -> Option<&mut Actor> {
        self.slots.get_mut(key).and_then(|actor| actor.as_mut())
    }

    pub fn len(&self) -> usize {
        self.slots.iter().flatten().count()
    }

    pub fn is_empty(&self) -> bool {
        self.len() == 0
    }

    /// In rising order.
    pub fn keys(&self) -> Vec<Key> {
        (0..self.slots.len()).filter(|&key| self.slots[key].is_some()).collect()
    }
}

/// A list of at most 64 keys.
#[derive(Clone, PartialEq, Eq, Debug, Default)]
pub struct KeyList {
    pub keys: VecDeque<Key>,
    /// For the comparison: how often it was squeezed.
    pub squeezed: u64,
}

impl KeyList {
    /// Behind the others. Where there is no room, a key that stands twice loses its later places first.
    pub fn add(&mut self, key: Key) {
        if self.keys.len() < KEYS {
            self.keys.push_back(key);
            return;
        }
        met!("key list: squeezed");
        self.squeezed += 1;
        let mut seen: VecDeque<Key> = VecDeque::new();
        for &held in &self.keys {
            if !seen.contains(&held) {
                seen.push_back(held);
            }
        }
        if !seen.contains(&key) {
            seen.push_back(key);
        }
        self.keys = seen;
    }
}

#[derive(Clone, PartialEq, Eq, Debug, Default)]
pub struct Group {
    pub actors: Slab,
    /// Taken at the front, added at the back.
    pub ready: KeyList,
    /// Taken at the back, added at the back.
    pub idle: KeyList,
    pub waiting: KeyList,
}

impl Group {
    /// Queues an actor to be stepped, once however often it is asked for.
    pub fn schedule(&mut self, key: Key) {
        let Some(actor) = self.actors.get_mut(key) else { return };
        if actor.scheduled {
            met!("schedule: it was already");
            return;
        }
        met!("schedule: added to ready");
        actor.scheduled = true;
        self.ready.add(key);
    }

    pub fn squeezed(&self) -> bool {
        self.ready.squeezed + self.idle.squeezed + self.waiting.squeezed > 0
    }
}
