//! Slips in what the plain program does, made from outside after each call: as if the port had slipped the other way.
//! A case need not show each of them.
use crate::model::log::Order;
use crate::model::pool::{At, Pool};

type Slip = fn(&mut Pool);

pub const SLIPS: &[(&str, &Slip)] = &[
    ("the lowest free key is given first", &(lowest_key as Slip)),
    ("the longest idle actor is taken first", &(longest_idle as Slip)),
    ("the waiting list is turned round", &(waiting_round as Slip)),
    ("pending is turned round", &(pending_round as Slip)),
    ("a message that goes round again forgets its attempts", &(no_attempts as Slip)),
    ("a message being pushed still counts as queued", &(queued_at_push as Slip)),
    ("the dead are not counted", &(no_dead as Slip)),
    ("crashes are not counted", &(no_crashes as Slip)),
    ("a deadline is one late", &(late_deadline as Slip)),
    ("a rewrite clears dirty", &(rewrite_clears as Slip)),
    ("the backlog is one more", &(more_backlog as Slip)),
    ("the inbox takes one more", &(more_inbox as Slip)),
    ("compact_at is one more", &(later_rewrite as Slip)),
    ("an idle actor is idle no more", &(not_idle as Slip)),
    ("an actor that took a message did not", &(not_consumed as Slip)),
];

fn lowest_key(pool: &mut Pool) {
    for group in &mut pool.groups {
        group.actors.free.sort_by(|a, b| b.cmp(a));
    }
}

fn longest_idle(pool: &mut Pool) {
    for group in &mut pool.groups {
        let keys: Vec<usize> = group.idle.keys.drain(..).collect();
        group.idle.keys = keys.into_iter().rev().collect();
    }
}

fn waiting_round(pool: &mut Pool) {
    for group in &mut pool.groups {
        let keys: Vec<usize> = group.waiting.keys.drain(..).collect();
        group.waiting.keys = keys.into_iter().rev().collect();
    }
}

fn pending_round(pool: &mut Pool) {
    let entries: Vec<usize> = pool.pending.drain(..).collect();
    pool.pending = entries.into_iter().rev().collect();
}

fn no_attempts(pool: &mut Pool) {
    for message in pool.table.iter_mut().flatten() {
        message.attempts = 0;
    }
}

fn queued_at_push(pool: &mut Pool) {
    if let At::FixedPush { .. } = pool.at {
        pool.queued += 1;
    }
}

fn no_dead(pool: &mut Pool) {
    pool.dead = 0;
}

fn no_crashes(pool: &mut Pool) {
    pool.crashes = 0;
}

fn late_deadline(pool: &mut Pool) {
    if let At::EvalRun { c, start: true } = pool.at {
        let run = pool.groups[c.g].actors.get_mut(c.key).and_then(|actor| actor.run.as_mut());
        run.expect("a run that starts").deadline += 1;
    }
}

fn rewrite_clears(pool: &mut Pool) {
    if let Some(Order::Replace(_)) = pool.order {
        pool.counters.dirty = false;
    }
}

fn more_backlog(pool: &mut Pool) {
    // Once, at the opening.
    if pool.at == At::Rest && !pool.seeded && pool.order.is_some() && pool.inbox.is_empty() {
        pool.settings.backlog += 1;
    }
}

fn more_inbox(pool: &mut Pool) {
    if pool.at == At::Rest && !pool.seeded && pool.order.is_some() && pool.inbox.is_empty() {
        pool.settings.inbox += 1;
    }
}

fn later_rewrite(pool: &mut Pool) {
    if pool.at == At::Rest && !pool.seeded && pool.order.is_some() && pool.inbox.is_empty() {
        pool.settings.compact_at += 1;
    }
}

fn not_idle(pool: &mut Pool) {
    for group in &mut pool.groups {
        for actor in group.actors.slots.iter_mut().flatten() {
            actor.idle = false;
        }
    }
}

fn not_consumed(pool: &mut Pool) {
    for group in &mut pool.groups {
        for actor in group.actors.slots.iter_mut().flatten() {
            actor.consumed = false;
        }
    }
}
