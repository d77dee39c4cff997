//! Random settings, small numbers most often, now and then one outside its range.
use super::texts;
use crate::limits::{
    ACTORS_MAX, BACKLOG_MAX, COMPACT_MAX, GROUPS_MAX, INBOX_MAX, NAME_MAX, REPLICAS_MAX, RETRY_MAX, TICK_MAX,
    TIMEOUT_MAX,
};
use crate::model::pool::{GroupSetting, Settings};
use crate::rng::Rng;

pub fn any(rng: &mut Rng) -> Settings {
    let count = if rng.chance(3) { rng.range(1, GROUPS_MAX as u64) } else { rng.range(1, 3) };
    let groups = (0..count).map(|at| group(rng, at)).collect();
    Settings {
        groups,
        max_actors: small(rng, 0, ACTORS_MAX as u64, 4) as usize,
        inbox: small(rng, 1, INBOX_MAX as u64, 4) as usize,
        backlog: small(rng, 1, BACKLOG_MAX as u64, 8) as usize,
        compact_at: small(rng, 1, COMPACT_MAX as u64, 100) as usize,
        tick_ns: *rng.pick(&[1, 7, 1_000, 300_000_000, 999_999_999, TICK_MAX]),
    }
}

/// Few groups with as many actors and as much room as there may be.
pub fn largest(rng: &mut Rng) -> Settings {
    let mut settings = any(rng);
    settings.groups.truncate(rng.range(1, 2) as usize);
    for group in &mut settings.groups {
        group.replicas = *rng.pick(&[1, REPLICAS_MAX, REPLICAS_MAX]);
        group.eval &= rng.chance(3);
        group.retry = RETRY_MAX;
    }
    Settings { max_actors: ACTORS_MAX, inbox: INBOX_MAX, backlog: BACKLOG_MAX, ..settings }
}

/// Settings of which one is outside its range.
pub fn wrong(rng: &mut Rng) -> Settings {
    let mut settings = any(rng);
    let past =
        |rng: &mut Rng, limit: u64| limit + 1 + if rng.chance(2) { 0 } else { rng.number() >> 1 >> rng.below(62) };
    let at = rng.below(settings.groups.len() as u64) as usize;
    match rng.below(12) {
        0 => settings.groups.clear(),
        1 => settings.groups = (0..rng.range(9, 16)).map(|at| group(rng, at)).collect(),
        2 => settings.groups[at].name = vec![b'n'; NAME_MAX + 1 + rng.below(3) as usize],
        3 => settings.groups[at].replicas = past(rng, REPLICAS_MAX as u64) as usize,
        4 => settings.groups[at].timeout = past(rng, TIMEOUT_MAX),
        5 => settings.groups[at].retry = past(rng, RETRY_MAX),
        6 => settings.max_actors = past(rng, ACTORS_MAX as u64) as usize,
        7 => settings.inbox = if rng.chance(2) { 0 } else { past(rng, INBOX_MAX as u64) as usize },
        8 => settings.backlog = if rng.chance(2) { 0 } else { past(rng, BACKLOG_MAX as u64) as usize },
        9 => settings.compact_at = if rng.chance(2) { 0 } else { past(rng, COMPACT_MAX as u64) as usize },
        10 => settings.tick_ns = 0,
        _ => settings.tick_ns = past(rng, TICK_MAX),
    }
    settings
}

fn group(rng: &mut Rng, at: u64) -> GroupSetting {
    let name = match rng.below(12) {
        0 => Vec::new(),
        1 => vec![b'z'; NAME_MAX],
        2 => texts::bytes(rng, NAME_MAX),
        // Two groups of one name.
        3 => b"a".to_vec(),
        _ => vec![b'a' + at as u8],
    };
    GroupSetting {
        name,
        replicas: small(rng, 0, REPLICAS_MAX as u64, 4) as usize,
        eval: rng.chance(3),
        timeout: *rng.pick(&[0, 1, 1, 2, 60, TIMEOUT_MAX]),
        retry: *rng.pick(&[0, 0, 1, 2, 3, RETRY_MAX]),
    }
}

/// A number of a range; three times of four below `few`.
fn small(rng: &mut Rng, least: u64, most: u64, few: u64) -> u64 {
    if rng.chance(4) { rng.range(least, most) } else { rng.range(least, few) }
}
