//! Slips in what the plain program writes of retries, made from outside after each call: as if the port had slipped
//! the other way. Wherever one changes something it must be caught.
use crate::model::log::{self, Line, LogId, Order};
use crate::model::pool::{At, Event, Pool};

/// True where it changed something.
type Slip = fn(&mut Pool) -> bool;

pub const SLIPS: &[(&str, Slip)] = &[
    ("a rewrite drops the attempts", drops),
    ("a rewrite writes the pool's attempts", takes_the_pools),
    ("a retry makes a flush due", makes_dirty),
    ("a retry forgets that a flush is due", clears_dirty),
    ("a mark takes off the record alone", marks_the_record),
    ("each line of attempts counts as live", counts_each_line),
    ("a trapped neighbour's retry is not written", unwritten),
    ("attempts 0 are handed back", none_handed_back),
];

/// The retry that the last call ordered.
fn retried(pool: &Pool) -> Option<LogId> {
    pool.events.iter().find_map(|event| match event {
        Event::Retried { id, .. } => Some(*id),
        _ => None,
    })
}

fn marked(pool: &Pool) -> Option<LogId> {
    pool.events.iter().find_map(|event| match event {
        Event::Marked(id) => Some(*id),
        _ => None,
    })
}

/// The length of a message's line of attempts in the file as it was before these bytes were appended.
fn line_before(pool: &Pool, from: usize, id: LogId) -> usize {
    let open = log::open_records(&pool.log[..from]);
    open.iter().find(|record| record.id == id).map_or(0, |record| record.line().len())
}

/// The new file of a rewrite is this one.
fn rewritten(pool: &mut Pool, image: &[u8]) -> bool {
    if pool.log[..pool.counters.size] == *image || image.len() > pool.log.len() {
        return false;
    }
    pool.log[..image.len()].copy_from_slice(image);
    pool.counters.size = image.len();
    pool.counters.live = image.len();
    pool.order = Some(Order::Replace(image.len()));
    true
}

fn drops(pool: &mut Pool) -> bool {
    let Some(Order::Replace(size)) = pool.order else { return false };
    let file = pool.log[..size].to_vec();
    let keeps = |line: &[u8]| !matches!(log::read_line(&line[..line.len() - 1]), Line::Retry(..));
    let image: Vec<u8> =
        file.split_inclusive(|byte| *byte == b'\n').filter(|line| keeps(line)).flatten().copied().collect();
    rewritten(pool, &image)
}

fn takes_the_pools(pool: &mut Pool) -> bool {
    let Some(Order::Replace(size)) = pool.order else { return false };
    let attempts = |id: LogId| {
        let message = pool.table.iter().flatten().find(|message| message.id == Some(id));
        message.map_or(0, |message| message.attempts)
    };
    let written = |record: &log::Open| {
        [&pool.log[record.from..record.to], &log::attempts_line(record.id, attempts(record.id))].concat()
    };
    let image: Vec<u8> = log::open_records(&pool.log[..size]).iter().flat_map(written).collect();
    rewritten(pool, &image)
}

fn makes_dirty(pool: &mut Pool) -> bool {
    let slips = retried(pool).is_some() && !pool.counters.dirty;
    pool.counters.dirty |= slips;
    slips
}

fn clears_dirty(pool: &mut Pool) -> bool {
    let slips = retried(pool).is_some() && pool.counters.dirty;
    pool.counters.dirty &= !slips;
    slips
}

fn marks_the_record(pool: &mut Pool) -> bool {
    let (Some(id), Some(Order::Append(from, _))) = (marked(pool), pool.order) else { return false };
    let line = line_before(pool, from, id);
    pool.counters.live += line;
    line > 0
}

fn counts_each_line(pool: &mut Pool) -> bool {
    let (Some(id), Some(Order::Append(from, _))) = (retried(pool), pool.order) else { return false };
    let line = line_before(pool, from, id);
    pool.counters.live += line;
    line > 0
}

fn unwritten(pool: &mut Pool) -> bool {
    let (Some(_), Some(Order::Append(from, _)), At::CrashTrapped { .. }) = (retried(pool), pool.order, &pool.at)
    else {
        return false;
    };
    pool.counters.size = from;
    pool.order = None;
    true
}

/// Nothing but the opening has been.
fn none_handed_back(pool: &mut Pool) -> bool {
    let mut slips = false;
    if !pool.seeded {
        for message in pool.table.iter_mut().flatten() {
            slips |= message.attempts > 0;
            message.attempts = 0;
        }
    }
    slips
}
