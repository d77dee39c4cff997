//! The settings, and their ranges.
use crate::limits::{
    ACTORS_MAX, BACKLOG_MAX, COMPACT_MAX, GROUPS_MAX, INBOX_MAX, NAME_MAX, REPLICAS_MAX, RETRY_MAX, TICK_MAX,
    TIMEOUT_MAX,
};

#[derive(Clone, PartialEq, Eq, Debug)]
pub struct GroupSetting {
    pub name: Vec<u8>,
    pub replicas: usize,
    pub eval: bool,
    pub timeout: u64,
    pub retry: u64,
}

#[derive(Clone, PartialEq, Eq, Debug)]
pub struct Settings {
    pub groups: Vec<GroupSetting>,
    pub max_actors: usize,
    pub inbox: usize,
    pub backlog: usize,
    pub compact_at: usize,
    pub tick_ns: u64,
}

impl Settings {
    pub fn valid(&self) -> bool {
        (1..=GROUPS_MAX).contains(&self.groups.len())
            && self.groups.iter().all(GroupSetting::valid)
            && self.max_actors <= ACTORS_MAX
            && (1..=INBOX_MAX).contains(&self.inbox)
            && (1..=BACKLOG_MAX).contains(&self.backlog)
            && (1..=COMPACT_MAX).contains(&self.compact_at)
            && (1..=TICK_MAX).contains(&self.tick_ns)
    }

    pub fn ceiling(&self, g: usize) -> usize {
        self.groups[g].replicas.min(self.max_actors)
    }

    /// The group that a name means: where two have it, the one further on.
    pub fn group_of(&self, name: &[u8]) -> Option<usize> {
        (0..self.groups.len()).rev().find(|&g| self.groups[g].name == name)
    }

    /// Whether a name means a group that may have an actor.
    pub fn loaded(&self, name: &[u8]) -> bool {
        self.group_of(name).is_some_and(|g| self.ceiling(g) > 0)
    }
}

impl GroupSetting {
    fn valid(&self) -> bool {
        self.name.len() <= NAME_MAX
            && self.replicas <= REPLICAS_MAX
            && self.timeout <= TIMEOUT_MAX
            && self.retry <= RETRY_MAX
    }
}
