//! Random settings: mostly small, so that every limit is met.
use crate::limits::{LOG_MAX, LOG_MIN};
use crate::model::pool::{GroupSetting, Settings};
use crate::rng::Rng;

const NAMES: [&str; 6] = ["a", "b", "", "row", "\\t", "é"];

pub fn settings(rng: &mut Rng) -> Settings {
    let groups = if rng.chance(8) { rng.range(1, 8) } else { rng.range(1, 3) };
    let names = rng.range(1, NAMES.len() as u64);
    let groups = (0..groups).map(|_| group(rng, names)).collect();
    let small = !rng.chance(4);
    Settings {
        groups,
        max_actors: if rng.chance(3) { rng.range(0, 16) } else { rng.range(1, 4) } as usize,
        inbox: if small { rng.range(1, 6) } else { rng.range(1, 64) } as usize,
        backlog: if small { rng.range(1, 8) } else { rng.range(1, 256) } as usize,
        compact_at: compact_at(rng),
        tick_ns: *rng.pick(&[1, 7, 300_000_000, 999_999_999, 1_000_000_000]),
    }
}

/// A group with one of the first `names` names, so that two of one name are not rare.
fn group(rng: &mut Rng, names: u64) -> GroupSetting {
    GroupSetting {
        name: NAMES[rng.below(names) as usize].as_bytes().to_vec(),
        replicas: if rng.chance(4) { rng.range(0, 16) } else { rng.range(0, 4) } as usize,
        eval: rng.chance(3),
        timeout: *rng.pick(&[0, 1, 2, 3, 86_400]),
        retry: *rng.pick(&[0, 0, 1, 1, 2, 3, 255]),
    }
}

fn compact_at(rng: &mut Rng) -> usize {
    match rng.below(4) {
        0 => rng.range(1, 30) as usize,
        1 => rng.range(1, 300) as usize,
        2 => rng.range(1, 3000) as usize,
        _ => 65_536,
    }
}

/// The lent log's length, for a file of so many bytes: mostly long enough that nothing is rewritten for lack of space.
pub fn log_len(rng: &mut Rng, file: usize) -> usize {
    match rng.below(10) {
        0 => rng.range(300, 4_000) as usize,
        1 => (file + rng.below(200) as usize).max(LOG_MIN),
        _ => LOG_MAX,
    }
    .min(LOG_MAX)
}

/// The same for a file of open records alone: often so short that the line of a retry has room only once others are
/// dropped, or not at all.
pub fn tight_log_len(rng: &mut Rng, file: usize) -> usize {
    match rng.below(6) {
        0 | 1 => file + *rng.pick(&[0, 0, 1, 2, 3]),
        2 | 3 => file + rng.range(4, 30) as usize,
        4 => file + rng.below(200) as usize,
        _ => LOG_MAX,
    }
    .clamp(LOG_MIN, LOG_MAX)
}

/// Settings that fill the lists of keys and the body store.
pub fn crowded(rng: &mut Rng) -> Settings {
    let mut settings = settings(rng);
    settings.groups.truncate(2);
    for group in &mut settings.groups {
        group.replicas = 16;
        group.eval = rng.chance(5);
        group.retry = *rng.pick(&[3, 255]);
        group.timeout = 86_400;
    }
    settings.max_actors = *rng.pick(&[2, 4, 16]);
    settings.inbox = 64;
    settings.backlog = 256;
    settings.compact_at = 65_536;
    settings
}

/// One fixed group of a few actors, whose messages may crash more than once.
pub fn retrying(rng: &mut Rng) -> Settings {
    let mut settings = one_group(rng, 4);
    settings.groups[0].retry = *rng.pick(&[1, 2, 3, 12, 255]);
    settings
}

/// One fixed group of a few actors, with room for its mail.
pub fn one_group(rng: &mut Rng, actors: u64) -> Settings {
    let mut settings = settings(rng);
    settings.groups.truncate(1);
    let group = &mut settings.groups[0];
    group.replicas = rng.range(1, actors) as usize;
    group.eval = false;
    group.retry = *rng.pick(&[0, 0, 1, 2]);
    settings.max_actors = 16;
    settings.inbox = settings.inbox.max(8);
    settings.backlog = settings.backlog.max(8);
    settings
}
