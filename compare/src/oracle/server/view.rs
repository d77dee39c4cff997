//! The log and the counts, as the comparison reads them.
use super::{Intake, Stats, Wal};
use std::sync::atomic::Ordering;

pub struct Counters {
    pub next: u64,
    pub live: u64,
    pub size: u64,
    pub dirty: bool,
}

impl Wal {
    pub fn counters(&self) -> Counters {
        Counters { next: self.next, live: self.live, size: self.size, dirty: self.dirty }
    }
}

impl Stats {
    pub fn dead_count(&self) -> u64 {
        self.dead.load(Ordering::Relaxed) as u64
    }
}

impl Intake {
    /// Messages in the inbox.
    pub fn waiting(&self) -> usize {
        self.transit.load(Ordering::Relaxed)
    }
}
