//! The next call of a random list. A list has a mood: how often replies fit, what programs do, what the disk does.
use super::texts;
use crate::generate::texts::near;
use crate::limits::CLOCK_MAX;
use crate::model::log::CallerId;
use crate::model::pool::{Call, Pool, Question, Reply, Status};
use crate::rng::Rng;

const STATUSES: [Status; 7] =
    [Status::Done, Status::Exit, Status::Preempted, Status::Event, Status::HostCall, Status::Error, Status::Broke];

pub struct Mood {
    /// Of 1,000 orders so many fail.
    failures: u64,
    /// Of 100 calls so many need not fit.
    wild: u64,
    /// Of 100 calls so many are made over an open question.
    between: u64,
    /// Of 100 admits so many have a caller; of 100 calls at rest so many are turns.
    callers: u64,
    turns: u64,
    /// Of 100 answers so many are yes, or above 0.
    boots: u64,
    pushes: u64,
    traps: u64,
    trapped: u64,
    polls: u64,
    drains: u64,
    dispatches: u64,
    sends: u64,
    statuses: [u64; 7],
    /// A program receives until it has a message, and then most often raises or yields.
    crashes: bool,
    now: u64,
    closes: bool,
}

impl Mood {
    pub fn random(rng: &mut Rng) -> Mood {
        let mut percent = |usual: u64| match rng.below(6) {
            0 => 0,
            1 => 100,
            2 => 50,
            _ => usual,
        };
        let [boots, pushes, traps, trapped] = [90, 90, 40, 60].map(&mut percent);
        let [polls, drains, dispatches] = [50, 30, 70].map(&mut percent);
        let statuses = match rng.below(4) {
            // A program that mostly receives, one that mostly yields, one that raises, and any.
            0 => [2, 1, 5, 80, 10, 5, 1],
            1 => [1, 1, 60, 20, 10, 5, 2],
            2 => [4, 4, 10, 50, 10, 20, 10],
            _ => std::array::from_fn(|_| rng.below(20)),
        };
        Mood {
            failures: *rng.pick(&[0, 0, 0, 2, 20]),
            wild: *rng.pick(&[0, 2, 10, 30]),
            between: *rng.pick(&[0, 2, 10, 25]),
            callers: *rng.pick(&[0, 20, 50, 100]),
            turns: *rng.pick(&[20, 40, 60]),
            boots,
            pushes,
            traps,
            trapped,
            polls,
            drains,
            dispatches,
            sends: *rng.pick(&[0, 10, 40, 70]),
            statuses,
            crashes: false,
            now: *rng.pick(&[0, 100, 1 << 40, CLOCK_MAX - 1_000]),
            closes: rng.chance(6),
        }
    }

    /// A mood in which logged messages are taken, and crash their actors and those beside them.
    pub fn crashing(rng: &mut Rng) -> Mood {
        Mood {
            wild: *rng.pick(&[0, 0, 5]),
            between: *rng.pick(&[0, 10]),
            callers: *rng.pick(&[0, 20]),
            turns: 60,
            boots: 100,
            pushes: 100,
            traps: *rng.pick(&[30, 100]),
            trapped: 90,
            drains: 0,
            sends: *rng.pick(&[0, 10]),
            statuses: [1, 1, 5, 5, 5, 2, 1],
            crashes: true,
            ..Mood::random(rng)
        }
    }

    /// A mood in which lists of keys grow: programs that yield, are trapped together and are booted again, or that
    /// block again at every message.
    pub fn growing(rng: &mut Rng) -> Mood {
        let blocks = rng.chance(2);
        let statuses = if blocks { [0, 0, 1, 1, 200, 1, 0] } else { [0, 0, 200, 1, 0, 6, 1] };
        Mood {
            failures: 0,
            wild: rng.below(2),
            between: 2,
            callers: 50,
            turns: if blocks { 50 } else { 12 },
            boots: 100,
            pushes: 90,
            traps: 100,
            trapped: 98,
            polls: 0,
            drains: 10,
            dispatches: 100,
            sends: 0,
            statuses,
            crashes: false,
            now: 100,
            closes: false,
        }
    }

    pub fn call(&mut self, rng: &mut Rng, pool: &Pool) -> Call {
        if rng.below(100) < self.wild {
            return self.wild(rng, pool);
        }
        match pool.open_question() {
            Some(Question::Store(_)) if rng.below(1_000) < self.failures => Call::Reply(Reply::Failed),
            Some(Question::Store(_)) => Call::Reply(Reply::Stored),
            Some(question) if rng.below(100) >= self.between => Call::Reply(self.fitting(rng, pool, &question)),
            Some(_) => self.outside(rng, pool),
            None if rng.below(100) < self.turns => Call::Turn,
            None => self.outside(rng, pool),
        }
    }

    /// A call that is no reply and no turn.
    fn outside(&self, rng: &mut Rng, pool: &Pool) -> Call {
        match rng.below(30) {
            0 if self.closes => Call::Close,
            1..=3 => Call::Sync,
            _ => self.admit(rng, pool),
        }
    }

    fn admit(&self, rng: &mut Rng, pool: &Pool) -> Call {
        let caller = (rng.below(100) < self.callers).then(|| CallerId(rng.number() >> rng.below(64)));
        Call::Admit { name: name(rng, pool), body: texts::body(rng), caller }
    }

    /// Any call, whether it fits or not.
    fn wild(&mut self, rng: &mut Rng, pool: &Pool) -> Call {
        match rng.below(8) {
            0 => Call::Turn,
            1 => Call::Sync,
            2 if self.closes => Call::Close,
            3 => self.admit(rng, pool),
            _ => Call::Reply(self.any(rng, pool)),
        }
    }

    fn any(&mut self, rng: &mut Rng, pool: &Pool) -> Reply {
        match rng.below(10) {
            0 => Reply::No,
            1 => Reply::Yes,
            2 => Reply::Clock(*rng.pick(&[0, CLOCK_MAX, CLOCK_MAX + 1, u64::MAX])),
            3 => Reply::Count(rng.number() >> rng.below(64)),
            4 => Reply::Ran(*rng.pick(&STATUSES)),
            5 => Reply::Send(name(rng, pool), texts::body(rng)),
            6 => Reply::End,
            7 => Reply::Told,
            8 if self.failures > 0 => Reply::Failed,
            _ => Reply::Stored,
        }
    }

    fn fitting(&mut self, rng: &mut Rng, pool: &Pool, question: &Question) -> Reply {
        let yes = |yes: bool| if yes { Reply::Yes } else { Reply::No };
        match question {
            Question::Boot { .. } => yes(rng.below(100) < self.boots),
            Question::Push { .. } => yes(rng.below(100) < self.pushes),
            Question::Trap { .. } => yes(rng.below(100) < self.traps),
            Question::Trapped { .. } => yes(rng.below(100) < self.trapped),
            Question::Clock => Reply::Clock(self.clock(rng, pool)),
            Question::Poll { .. } => count(rng, self.polls),
            Question::Drain { .. } => count(rng, self.drains),
            Question::Dispatch { .. } => count(rng, self.dispatches),
            Question::Run { g, key, .. } if self.crashes && !rng.chance(8) => {
                let holds = pool.groups[*g].actors.get(*key).is_some_and(|actor| actor.in_flight.is_some());
                Reply::Ran(if holds { *rng.pick(&[Status::Error, Status::Preempted]) } else { Status::Event })
            }
            Question::Run { .. } => Reply::Ran(self.status(rng)),
            Question::Sends { .. } if rng.below(100) < self.sends => Reply::Send(name(rng, pool), texts::body(rng)),
            Question::Sends { .. } => Reply::End,
            Question::Tell { .. } => Reply::Told,
            Question::Store(_) => Reply::Stored,
        }
    }

    fn status(&self, rng: &mut Rng) -> Status {
        let all: u64 = self.statuses.iter().sum();
        let mut at = rng.below(all.max(1));
        for (status, weight) in STATUSES.iter().zip(self.statuses) {
            if at < weight {
                return *status;
            }
            at -= weight;
        }
        Status::Preempted
    }

    /// A clock that goes on by about a tick, or a second, or stands, or goes back.
    fn clock(&mut self, rng: &mut Rng, pool: &Pool) -> u64 {
        match rng.below(12) {
            0 => return rng.number() >> 1,
            1 => self.now = self.now.saturating_sub(rng.below(1_000_000_000)),
            2 => {}
            3 => self.now += rng.below(2 * pool.settings.tick_ns),
            4 => self.now += 1_000_000_000,
            _ => self.now += rng.below(100),
        }
        self.now = self.now.min(CLOCK_MAX);
        self.now
    }
}

/// A count that is above 0 so many times of 100.
fn count(rng: &mut Rng, above: u64) -> Reply {
    let above = rng.below(100) < above;
    Reply::Count(if above { 1 + (rng.number() >> 1 >> rng.below(63)) } else { 0 })
}

/// Most often a group's, now and then one near it.
fn name(rng: &mut Rng, pool: &Pool) -> Vec<u8> {
    match rng.below(12) {
        0 => texts::name(rng),
        1 => near(rng, &pool.settings),
        _ => rng.pick(&pool.settings.groups).name.clone(),
    }
}
