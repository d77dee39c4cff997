//! Random replies. A mood says how likely each is, so that some cases crash a lot, others wait a lot, and so on.
use super::texts;
use crate::limits::{BODY_MAX, CLOCK_MAX};
use crate::model::pool::{At, Pool, Question, Reply, Status};
use crate::rng::Rng;

const STATUSES: [Status; 7] =
    [Status::Done, Status::Exit, Status::Preempted, Status::Event, Status::HostCall, Status::Error, Status::Broke];

/// Weights of how a run comes back, and of ten how often the other questions are answered yes or above 0.
pub struct Mood {
    run: [u64; 7],
    boot: u64,
    push: u64,
    trap: u64,
    trapped: u64,
    sends: u64,
    poll: u64,
    drain: u64,
    dispatch: u64,
    /// The clock goes on from here.
    clock: u64,
    /// A fixed run raises only near the end of the ready list, so that stale keys stay in it.
    raise_last: bool,
}

impl Mood {
    pub fn new(rng: &mut Rng) -> Mood {
        match rng.below(10) {
            0 => return Mood::refusing(rng),
            1 => return Mood::crashing(rng),
            _ => {}
        }
        let run = match rng.below(6) {
            0 => [1, 1, 10, 3, 1, 3, 2], // yields and crashes
            1 => [1, 0, 1, 6, 6, 1, 0],  // host calls
            2 => [0, 0, 12, 2, 2, 1, 0], // mostly yields
            3 => [3, 1, 1, 6, 1, 4, 1],  // ends and crashes
            4 => [0, 0, 1, 10, 2, 0, 0], // mostly receives
            _ => [1, 1, 2, 4, 2, 1, 1],
        };
        Mood {
            run,
            boot: *rng.pick(&[3, 7, 9, 10]),
            push: *rng.pick(&[3, 7, 9, 10]),
            trap: *rng.pick(&[1, 3, 7, 9]),
            trapped: rng.range(1, 9),
            sends: *rng.pick(&[0, 0, 1, 2, 4, 5]),
            poll: *rng.pick(&[0, 2, 5, 8]),
            drain: *rng.pick(&[0, 1, 3]),
            dispatch: *rng.pick(&[2, 6, 9]),
            clock: 100,
            raise_last: false,
        }
    }

    /// Host calls that end while the actor refuses its mail: idle ones that are blocked, and are woken.
    pub fn refusing(rng: &mut Rng) -> Mood {
        Mood {
            run: *rng.pick(&[[0, 0, 0, 6, 5, 0, 0], [0, 0, 1, 6, 5, 1, 0]]),
            boot: 9,
            push: *rng.pick(&[2, 5]),
            trap: 5,
            trapped: 5,
            sends: *rng.pick(&[1, 3]),
            poll: *rng.pick(&[3, 7]),
            drain: 1,
            dispatch: 9,
            clock: 100,
            raise_last: false,
        }
    }

    /// Messages that are taken, and crash their actor and its neighbours while these hold others.
    pub fn crashing(rng: &mut Rng) -> Mood {
        Mood {
            run: *rng.pick(&[[0, 0, 4, 5, 1, 3, 1], [0, 0, 1, 6, 2, 4, 2]]),
            boot: 10,
            push: 10,
            trap: *rng.pick(&[3, 9]),
            trapped: *rng.pick(&[5, 9]),
            sends: *rng.pick(&[0, 1]),
            poll: 5,
            drain: 0,
            dispatch: 8,
            clock: 100,
            raise_last: false,
        }
    }

    /// Moods that fill the lists of keys, or the body store.
    pub fn crowded(rng: &mut Rng) -> Mood {
        let mut mood = Mood {
            run: *rng.pick(&[[0, 0, 20, 1, 0, 2, 0], [0, 0, 0, 8, 5, 0, 0], [0, 0, 8, 3, 3, 2, 0]]),
            boot: 10,
            push: *rng.pick(&[5, 10]),
            trap: *rng.pick(&[5, 10]),
            trapped: *rng.pick(&[5, 9]),
            sends: *rng.pick(&[3, 5, 6]),
            poll: *rng.pick(&[0, 1, 5]),
            drain: 0,
            dispatch: 10,
            clock: 100,
            raise_last: rng.chance(2),
        };
        match rng.below(4) {
            // Blocked ones that are sent more messages, and block again: the waiting list grows.
            0 | 1 => mood = Mood { run: [0, 0, 0, 0, 1, 0, 0], sends: 5, poll: 0, raise_last: false, ..mood },
            // Whoever sends goes on until the body store is full.
            2 => mood.sends = 10,
            _ => {}
        }
        mood
    }

    /// A reply that fits the turn's question. `hurry` ends loops.
    pub fn reply(&mut self, rng: &mut Rng, pool: &Pool, question: &Question, hurry: bool) -> Reply {
        match question {
            Question::Boot { .. } => yes_no(rng, self.boot),
            Question::Push { .. } => yes_no(rng, self.push),
            Question::Trap { .. } => yes_no(rng, self.trap),
            Question::Trapped { .. } => yes_no(rng, self.trapped),
            Question::Clock => Reply::Clock(self.clock(rng, pool)),
            Question::Poll { .. } => count(rng, self.poll),
            Question::Drain { .. } => count(rng, if hurry { 0 } else { self.drain }),
            Question::Dispatch { .. } => count(rng, self.dispatch),
            Question::Run { .. } => Reply::Ran(self.status(rng, pool, hurry)),
            Question::Sends { .. } if hurry || rng.below(10) >= self.sends => Reply::End,
            Question::Sends { .. } => Reply::Send(texts::name(rng, &pool.settings), texts::text(rng, BODY_MAX)),
            Question::Tell { .. } => Reply::Told,
            Question::Store(_) => Reply::Stored,
        }
    }

    fn status(&self, rng: &mut Rng, pool: &Pool, hurry: bool) -> Status {
        if hurry {
            return Status::Preempted;
        }
        if self.raise_last {
            return match &pool.at {
                At::FixedRun { c, .. } if c.pops < 2 => *rng.pick(&[Status::Error, Status::Preempted]),
                _ => Status::Preempted,
            };
        }
        let mut at = rng.below(self.run.iter().sum());
        for (status, weight) in STATUSES.iter().zip(self.run) {
            if at < weight {
                return *status;
            }
            at -= weight;
        }
        unreachable!("below the sum of the weights")
    }

    /// Often exactly at a deadline or one before it.
    fn clock(&mut self, rng: &mut Rng, pool: &Pool) -> u64 {
        let actors = pool.groups.iter().flat_map(|group| group.actors.slots.iter().flatten());
        let deadlines: Vec<u64> =
            actors.flat_map(|actor| actor.run.iter().map(|run| run.deadline).chain(actor.wake_at)).collect();
        if !deadlines.is_empty() && rng.chance(3) {
            let deadline = *rng.pick(&deadlines);
            return deadline.saturating_sub(rng.below(2)).min(CLOCK_MAX);
        }
        if rng.chance(50) {
            return *rng.pick(&[0, CLOCK_MAX]);
        }
        self.clock += *rng.pick(&[0, 1, 5, 400_000_000, 1_000_000_000]);
        self.clock
    }
}

fn yes_no(rng: &mut Rng, of_ten: u64) -> Reply {
    if rng.below(10) < of_ten { Reply::Yes } else { Reply::No }
}

fn count(rng: &mut Rng, of_ten: u64) -> Reply {
    if rng.below(10) < of_ten { Reply::Count(*rng.pick(&[1, 2, 7, u64::MAX])) } else { Reply::Count(0) }
}

/// Any reply, whether it fits or not.
pub fn any(rng: &mut Rng) -> Reply {
    match rng.below(10) {
        0 => Reply::Yes,
        1 => Reply::No,
        2 => Reply::Clock(*rng.pick(&[0, 7, CLOCK_MAX, CLOCK_MAX + 1, u64::MAX])),
        3 => Reply::Count(*rng.pick(&[0, 1, u64::MAX])),
        4 => Reply::Ran(*rng.pick(&STATUSES)),
        5 => Reply::Send(texts::any(rng, crate::limits::NAME_MAX), texts::any(rng, BODY_MAX)),
        6 => Reply::End,
        7 => Reply::Told,
        8 => Reply::Stored,
        _ => Reply::Failed,
    }
}
