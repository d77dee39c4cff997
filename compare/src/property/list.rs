//! A list: an opening, then calls.
use super::calls::Mood;
use super::{files, settings};
use crate::lent::{LOG_FILL, STORE_FILL};
use crate::limits::{LOG_MAX, LOG_MIN, MESSAGES, STORE};
use crate::model::pool::{self, Call, Pool, Question, Reply, Settings, Status};
use crate::rng::Rng;
use crate::script::Script;

#[derive(Clone, Debug)]
pub struct Opening {
    pub settings: Settings,
    pub log_len: usize,
    pub store_len: usize,
    pub file: Vec<u8>,
}

#[derive(Clone, Debug)]
pub struct List {
    pub opening: Opening,
    pub calls: Vec<Call>,
}

/// A fixed list, and what is stated of its end.
pub struct Stated<End> {
    pub what: &'static str,
    pub list: List,
    pub end: End,
}

#[derive(Clone, Copy, PartialEq, Eq)]
pub enum Size {
    Short,
    Middle,
    Long,
}

impl Opening {
    /// The lent log as the opening finds it: the file in front, if it fits, and the fill of `Lent` behind it.
    pub fn lent_log(&self) -> Vec<u8> {
        let mut log = vec![LOG_FILL; self.log_len];
        if let Some(front) = log.get_mut(..self.file.len()) {
            front.copy_from_slice(&self.file);
        }
        log
    }

    /// The opening by the plain program, or the number that refuses it.
    pub fn model(&self) -> Result<Pool, u8> {
        pool::open(&self.settings, &self.lent_log(), self.file.len(), &vec![STORE_FILL; self.store_len])
    }

    pub fn script(&self, show: u64) -> Script {
        Script::new(&self.settings, self.log_len, self.store_len, &self.file, show)
    }

    fn random(rng: &mut Rng, size: Size) -> Opening {
        let settings = if rng.chance(40) { settings::wrong(rng) } else { settings::any(rng) };
        let names: Vec<Vec<u8>> = settings.groups.iter().map(|group| group.name.clone()).collect();
        let lines = match size {
            Size::Short => rng.below(6),
            Size::Middle | Size::Long => rng.below(40),
        };
        let (file, roomy) = if rng.chance(16) {
            // As many messages as there may be, or nearly.
            let records = rng.range(MESSAGES as u64 - 4, MESSAGES as u64 + 1);
            (files::crowd(rng, records, &names), true)
        } else {
            (files::any(rng, lines, &names), rng.chance(4))
        };
        let log_len = match rng.below(40) {
            0 => *rng.pick(&[0, 1, LOG_MIN - 1, LOG_MAX + 1, LOG_MAX + 4_000]),
            1 => file.len().saturating_sub(1 + rng.below(3) as usize),
            _ if roomy => rng.range(file.len().max(LOG_MIN) as u64, LOG_MAX as u64) as usize,
            _ => file.len().max(LOG_MIN) + rng.below(120) as usize,
        };
        let store_len = match rng.below(100) {
            0 => *rng.pick(&[0, 1, STORE - 1, STORE + 1, 2 * STORE]),
            _ => STORE,
        };
        Opening { settings, log_len, store_len, file }
    }
}

/// A list in the making: the plain program makes each call as it is added.
pub struct Making {
    pub list: List,
    pub pool: Pool,
    /// Groups whose Boot is answered no.
    pub unbooted: Vec<usize>,
}

impl Making {
    /// Every group boots.
    pub fn new(opening: Opening) -> Making {
        let pool = opening.model().expect("an accepted opening");
        Making { list: List { opening, calls: Vec::new() }, pool, unbooted: Vec::new() }
    }

    /// These fixed groups do not boot: no message of theirs finds an actor, so that the turn that takes one in marks
    /// it.
    pub fn unbooted(mut self, groups: &[usize]) -> Making {
        self.unbooted = groups.to_vec();
        self
    }

    pub fn call(&mut self, call: Call) -> pool::Answer {
        self.list.calls.push(call.clone());
        self.pool.call(&call)
    }

    /// A call, and every order and question after it answered: stored; clock 0; a program that yields, and keeps what
    /// it took.
    pub fn done(&mut self, call: Call) {
        self.call(call);
        self.answered();
    }

    pub fn answered(&mut self) {
        self.answered_up_to(|_| false);
    }

    /// The same up to the first order or question of which this is true: it stays open.
    pub fn answered_up_to(&mut self, is: impl Fn(&Question) -> bool) {
        while let Some(question) = self.pool.open_question().filter(|question| !is(question)) {
            self.call(Call::Reply(match question {
                Question::Store(_) => Reply::Stored,
                Question::Boot { g } => self.boot(g),
                Question::Clock => Reply::Clock(0),
                Question::Run { .. } => Reply::Ran(Status::Preempted),
                Question::Sends { .. } => Reply::End,
                Question::Tell { .. } => Reply::Told,
                Question::Poll { .. } | Question::Drain { .. } | Question::Dispatch { .. } => Reply::Count(0),
                _ => Reply::Yes,
            }));
        }
    }

    /// What a Boot of this group is answered.
    pub fn boot(&self, g: usize) -> Reply {
        if self.unbooted.contains(&g) { Reply::No } else { Reply::Yes }
    }
}

impl List {
    /// A random list.
    pub fn random(rng: &mut Rng, size: Size) -> List {
        let opening = Opening::random(rng, size);
        let most = match size {
            Size::Short => 30,
            Size::Middle => 150,
            Size::Long => 1_500,
        };
        let mood = if rng.chance(3) { Mood::crashing(rng) } else { Mood::random(rng) };
        let length = rng.range(0, most);
        List::made(rng, opening, mood, length)
    }

    /// A list in which lists of keys grow until they are squeezed.
    pub fn growing(rng: &mut Rng) -> List {
        let settings = settings::largest(rng);
        let opening = Opening { settings, log_len: LOG_MAX, store_len: STORE, file: Vec::new() };
        let (mood, length) = (Mood::growing(rng), rng.range(1_500, 3_000));
        List::made(rng, opening, mood, length)
    }

    /// The plain program makes the calls as they are chosen, so that replies can fit.
    pub fn made(rng: &mut Rng, opening: Opening, mut mood: Mood, length: u64) -> List {
        let mut calls = Vec::new();
        if let Ok(mut pool) = opening.model() {
            for _ in 0..length {
                let call = mood.call(rng, &pool);
                pool.call(&call);
                calls.push(call);
                // After a failed store every call is refused; a few show it.
                if pool.failed && rng.chance(4) {
                    break;
                }
            }
        }
        List { opening, calls }
    }

    pub fn script(&self, show: u64) -> Script {
        let mut script = self.opening.script(show);
        self.calls.iter().for_each(|call| script.call(call));
        script
    }
}
