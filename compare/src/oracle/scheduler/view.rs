//! The scheduler, one turn at a time, and as the comparison reads it.
use super::super::actor::view::message;
use super::super::config::Message;
use super::super::server::{Intake, Stats, Wal};
use super::Scheduler;
use crate::view::{GroupView, PoolView};
use std::sync::{Arc, Mutex};

impl Scheduler {
    /// As its serving begins: the left messages are pending.
    pub fn begin(&mut self, recovered: Vec<Message>, wal: Arc<Mutex<Wal>>, stats: Option<Arc<Stats>>) {
        self.pending.extend(recovered);
        self.wal = Some(wal);
        self.set_stats(stats);
    }

    /// One round of its serving, up to the test of busy; the first seeds before it. Gives busy and waiters.
    pub fn turn(&mut self, intake: &Intake, first: bool) -> (bool, bool) {
        if first {
            self.spawn_seed();
        }
        while !self.full() {
            let Ok(message) = intake.try_recv() else { break };
            self.pending.push(message);
        }
        self.route_pending();
        let busy = self.tick() || !self.pending.is_empty();
        (busy, self.has_waiters())
    }

    pub fn view(&self, stats: &Stats) -> PoolView {
        let group = |group: &super::GroupState| GroupView {
            actors: group.actors.iter().map(|(key, actor)| (key, actor.view())).collect(),
            ready: group.ready.iter().copied().collect(),
            idle: group.idle_free.clone(),
            waiting: group.waiting.clone(),
        };
        PoolView {
            groups: self.groups.iter().map(group).collect(),
            pending: self.pending.iter().map(message).collect(),
            queued: self.queued,
            crashes: self.crashes.len() as u64,
            dead: stats.dead_count(),
        }
    }
}
