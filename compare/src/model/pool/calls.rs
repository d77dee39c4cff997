//! The calls: what refuses them, and what each does before a turn runs on.
use super::{Answer, At, CLOCK_MAX, Call, Event, Pool, Question, Reply, Source};
use crate::limits::{BODY_MAX, MESSAGES, NAME_MAX, refusal};
use crate::met;
use crate::model::log::{self, CallerId, LogId, Order};

impl Pool {
    pub fn call(&mut self, call: &Call) -> Answer {
        self.events.clear();
        if let Some(number) = self.refusal(call) {
            self.met_refusal(call, number);
            return Answer::Refused(number);
        }
        match call {
            Call::Admit { name, body, caller } => self.admit(name, body, *caller),
            Call::Turn => self.turn(),
            Call::Reply(reply) => self.reply(reply),
            Call::Sync => self.sync(),
            Call::Close => self.close(),
        }
    }

    /// The number that turns a call away: what stands in the way of any call first, then what is wrong with this one.
    pub fn refusal(&self, call: &Call) -> Option<u8> {
        if self.failed {
            return Some(refusal::FAILED);
        }
        if self.order.is_some() && !matches!(call, Call::Reply(_)) {
            return Some(refusal::WAITS);
        }
        match call {
            Call::Turn if self.at != At::Rest => Some(refusal::TURN),
            Call::Reply(reply) if !self.fits(reply) => Some(refusal::REPLY),
            Call::Reply(Reply::Send(name, body)) => too_long(name, body).or(self.too_many()),
            Call::Admit { name, body, caller } => too_long(name, body)
                .or((!self.settings.loaded(name)).then_some(refusal::UNLOADED))
                .or((self.inbox.len() >= self.settings.inbox).then_some(refusal::INBOX))
                .or(self.closed.then_some(refusal::CLOSED))
                .or(self.too_many())
                .or_else(|| match caller {
                    None => log::append_refusal(&self.counters, self.log.len(), name, body),
                    Some(_) => None,
                }),
            _ => None,
        }
    }

    fn too_many(&self) -> Option<u8> {
        (self.live_messages() >= MESSAGES).then_some(refusal::MESSAGES)
    }

    /// Whether something is open that this is a reply to. An order hides the turn's question.
    fn fits(&self, reply: &Reply) -> bool {
        let Some(question) = self.open_question() else { return false };
        match question {
            Question::Store(_) => matches!(reply, Reply::Stored | Reply::Failed),
            Question::Boot { .. } | Question::Push { .. } | Question::Trap { .. } | Question::Trapped { .. } => {
                matches!(reply, Reply::Yes | Reply::No)
            }
            Question::Clock => matches!(reply, Reply::Clock(clock) if *clock <= CLOCK_MAX),
            Question::Poll { .. } | Question::Drain { .. } | Question::Dispatch { .. } => {
                matches!(reply, Reply::Count(_))
            }
            Question::Run { .. } => matches!(reply, Reply::Ran(_)),
            Question::Sends { .. } => matches!(reply, Reply::Send(..) | Reply::End),
            Question::Tell { .. } => matches!(reply, Reply::Told),
        }
    }

    /// The order that waits, else the turn's open question.
    pub fn open_question(&self) -> Option<Question> {
        match self.order {
            Some(order) => Some(Question::Store(order)),
            None => self.turn_question(),
        }
    }

    pub fn turn_question(&self) -> Option<Question> {
        Some(match &self.at {
            At::SeedBoot { g } | At::RouteBoot { g } => Question::Boot { g: *g },
            At::EvalBoot { c } => Question::Boot { g: c.g },
            At::TickClock | At::EvalClock { .. } | At::EvalStartClock { .. } => Question::Clock,
            At::WakePoll { g, key, .. } => Question::Poll { g: *g, key: *key },
            At::FixedRun { c, start } => Question::Run { g: c.g, key: c.key, start: *start, source: None },
            At::FixedDrain { c } => Question::Drain { g: c.g, key: c.key },
            At::FixedPush { c } => Question::Push { g: c.g, key: c.key, message: self.hand.unwrap() },
            At::FixedDispatch { c } | At::EvalDispatch { c } => Question::Dispatch { g: c.g, key: c.key },
            At::EvalRun { c, start } => {
                let run = self.groups[c.g].actors.get(c.key).unwrap().run.as_ref().unwrap();
                Question::Run { g: c.g, key: c.key, start: *start, source: start.then_some(run.message) }
            }
            At::EvalTell { outcome, .. } => {
                let caller = self.message(self.hand.unwrap()).caller.unwrap();
                Question::Tell { caller, outcome: *outcome }
            }
            At::Sends { c, .. } => Question::Sends { g: c.g, key: c.key },
            At::Trap { c } => Question::Trap { g: c.g },
            At::Trapped { c, ask, .. } => Question::Trapped { g: c.g, key: ask[0] },
            _ => return None,
        })
    }

    fn admit(&mut self, name: &[u8], body: &[u8], caller: Option<CallerId>) -> Answer {
        self.met_inside();
        let mut id = None;
        if caller.is_none() {
            let length = log::record(LogId(self.counters.next), name, body).len();
            self.lacked_space |= self.counters.size + length > self.log.len();
            let (given, order) = log::append(&mut self.counters, &mut self.log, name, body);
            match order {
                Order::Append(..) => met!("admit: a record behind the others"),
                _ => met!("admit: a rewrite for lack of space"),
            }
            self.events.push(Event::Logged(given));
            self.order = Some(order);
            id = Some(given);
        } else {
            met!("admit: a caller waits, not logged");
        }
        let e = self.keep(name, body, Source::Admitted, caller, id);
        self.inbox.push_back(e);
        Answer::Open(self.open_question())
    }

    fn sync(&mut self) -> Answer {
        self.met_inside();
        self.order = log::sync(&mut self.counters);
        match self.order {
            Some(_) => met!("sync: a flush"),
            None => met!("sync: nothing to flush"),
        }
        Answer::Open(self.open_question())
    }

    fn close(&mut self) -> Answer {
        self.met_inside();
        match self.closed {
            false => met!("close: once"),
            true => met!("close: again"),
        }
        self.closed = true;
        Answer::Open(self.open_question())
    }

    fn turn(&mut self) -> Answer {
        self.stepped = false;
        self.at = if self.seeded { At::Intake } else { At::Seed { g: 0 } };
        match self.seeded {
            false => met!("turn: the first"),
            true => met!("turn: a later one"),
        }
        self.seeded = true;
        self.advance()
    }

    fn reply(&mut self, reply: &Reply) -> Answer {
        if self.order.is_none() {
            self.at = self.resume(reply);
            return self.advance();
        }
        self.order = None;
        if *reply == Reply::Failed {
            met!("failed: nothing is open any more");
            self.failed = true;
            return Answer::Open(None);
        }
        if self.at == At::Rest {
            met!("stored: at rest");
            return Answer::Open(None);
        }
        if let Some(question) = self.turn_question() {
            self.met_beneath();
            return Answer::Open(Some(question));
        }
        met!("stored: the turn goes on");
        let answer = self.advance();
        if let Answer::TurnEnd { .. } = answer {
            met!("stored: the turn ends");
        }
        answer
    }

    /// An accepted call while the turn asks something, by what it asks.
    fn met_inside(&self) {
        match &self.at {
            At::SeedBoot { .. } => met!("call inside a turn: SeedBoot"),
            At::RouteBoot { .. } => met!("call inside a turn: RouteBoot"),
            At::TickClock => met!("call inside a turn: TickClock"),
            At::WakePoll { .. } => met!("call inside a turn: WakePoll"),
            At::FixedRun { .. } => met!("call inside a turn: FixedRun"),
            At::FixedDrain { .. } => met!("call inside a turn: FixedDrain"),
            At::FixedPush { .. } => met!("call inside a turn: FixedPush"),
            At::FixedDispatch { .. } => met!("call inside a turn: FixedDispatch"),
            At::EvalClock { .. } => met!("call inside a turn: EvalClock"),
            At::EvalBoot { .. } => met!("call inside a turn: EvalBoot"),
            At::EvalStartClock { .. } => met!("call inside a turn: EvalStartClock"),
            At::EvalRun { .. } => met!("call inside a turn: EvalRun"),
            At::EvalDispatch { .. } => met!("call inside a turn: EvalDispatch"),
            At::EvalTell { .. } => met!("call inside a turn: EvalTell"),
            At::Sends { .. } => met!("call inside a turn: Sends"),
            At::Trap { .. } => met!("call inside a turn: Trap"),
            At::Trapped { .. } => met!("call inside a turn: Trapped"),
            _ => met!("call between turns"),
        }
    }

    /// A stored order gives back the question beneath it.
    fn met_beneath(&self) {
        match &self.at {
            At::SeedBoot { .. } => met!("stored over SeedBoot"),
            At::RouteBoot { .. } => met!("stored over RouteBoot"),
            At::TickClock => met!("stored over TickClock"),
            At::WakePoll { .. } => met!("stored over WakePoll"),
            At::FixedRun { .. } => met!("stored over FixedRun"),
            At::FixedDrain { .. } => met!("stored over FixedDrain"),
            At::FixedPush { .. } => met!("stored over FixedPush"),
            At::FixedDispatch { .. } => met!("stored over FixedDispatch"),
            At::EvalClock { .. } => met!("stored over EvalClock"),
            At::EvalBoot { .. } => met!("stored over EvalBoot"),
            At::EvalStartClock { .. } => met!("stored over EvalStartClock"),
            At::EvalRun { .. } => met!("stored over EvalRun"),
            At::EvalDispatch { .. } => met!("stored over EvalDispatch"),
            At::EvalTell { .. } => met!("stored over EvalTell"),
            At::Sends { .. } => met!("stored over Sends"),
            At::Trap { .. } => met!("stored over Trap"),
            At::Trapped { .. } => met!("stored over Trapped"),
            at => unreachable!("{at:?}"),
        }
    }

    fn met_refusal(&self, call: &Call, number: u8) {
        match (number, call) {
            (refusal::TEXT, Call::Admit { .. }) => met!("refused 5: admit"),
            (refusal::TEXT, _) => met!("refused 5: Sends"),
            (refusal::UNLOADED, Call::Admit { name, .. }) => match self.settings.group_of(name) {
                None => met!("refused 17: no such group"),
                Some(_) => met!("refused 17: ceiling 0"),
            },
            (refusal::INBOX, _) => met!("refused 6"),
            (refusal::CLOSED, _) => met!("refused 7"),
            (refusal::MESSAGES, Call::Admit { .. }) => met!("refused 8: admit"),
            (refusal::MESSAGES, _) => met!("refused 8: Sends"),
            (refusal::IDS, _) => met!("refused 9"),
            (refusal::SPACE, _) => met!("refused 10"),
            (refusal::WAITS, _) => met!("refused 11"),
            (refusal::REPLY, _) => match self.open_question() {
                None => met!("refused 12: nothing is open"),
                Some(_) => met!("refused 12: it does not fit"),
            },
            (refusal::TURN, _) => met!("refused 13"),
            (refusal::FAILED, _) => met!("refused 14"),
            _ => unreachable!("{number}"),
        }
    }
}

fn too_long(name: &[u8], body: &[u8]) -> Option<u8> {
    (name.len() > NAME_MAX || body.len() > BODY_MAX).then_some(refusal::TEXT)
}
