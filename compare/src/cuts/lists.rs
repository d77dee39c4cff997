//! Lists for the cuts: every short list of a few steps, and random ones on small logs.
use crate::limits::STORE;
use crate::model::pool::{At, Call, GroupSetting, Question, Reply, Settings, Status};
use crate::property::calls::Mood;
use crate::property::list::{List, Making, Opening};
use crate::property::{files, settings};
use crate::rng::Rng;

/// Steps of a list, each with every order stored: a message that is marked in the next turn, one that stays, one with
/// bytes that are escaped, a flush, a whole turn, a turn in which messages that stay are taken and crash.
const STEPS: usize = 6;
const LENGTH: u32 = 4;

/// Every list of so many steps, on lent logs that have little room and compact_at that is reached or not.
pub fn every() -> impl Iterator<Item = List> {
    [(16, 1), (16, 64), (20, 12), (40, 20), (64, 64)].into_iter().flat_map(|(log_len, compact_at)| {
        (0..STEPS.pow(LENGTH)).map(move |number| {
            let steps = (0..LENGTH).map(|at| number / STEPS.pow(at) % STEPS);
            stepped(log_len, compact_at, steps)
        })
    })
}

fn stepped(log_len: usize, compact_at: usize, steps: impl Iterator<Item = usize>) -> List {
    let group = |name: &[u8]| GroupSetting { name: name.to_vec(), replicas: 2, eval: false, timeout: 0, retry: 2 };
    let settings = Settings {
        groups: vec![group(b"m"), group(b"s")],
        max_actors: 2,
        inbox: 8,
        backlog: 8,
        compact_at,
        tick_ns: 1,
    };
    let opening = Opening { settings, log_len, store_len: STORE, file: b"0\tm\tx\n".to_vec() };
    // The first group does not boot, so that its messages are marked.
    let mut making = Making::new(opening).unbooted(&[0]);
    making.answered();
    for step in steps {
        match step {
            0 => making.done(admit(b"m", b"y")),
            1 => making.done(admit(b"s", b"")),
            2 => making.done(admit(b"m", b"\\\n")),
            3 => making.done(Call::Sync),
            4 => making.done(Call::Turn),
            _ => crash(&mut making),
        }
    }
    making.list
}

/// A turn in which each program takes a message, if there is one. The last that has one raises, and the others are
/// trapped with it.
fn crash(making: &mut Making) {
    let runs = |question: &Question| matches!(question, Question::Run { .. });
    making.call(Call::Turn);
    making.answered_up_to(runs);
    while making.pool.open_question().is_some() {
        let At::FixedRun { c, .. } = making.pool.at else { unreachable!("only fixed programs run") };
        let holds = making.pool.groups[c.g].actors.get(c.key).is_some_and(|actor| actor.in_flight.is_some());
        let status = match (holds, c.pops) {
            (false, _) => Status::Event,
            (true, 0) => Status::Error,
            (true, _) => Status::Preempted,
        };
        making.call(Call::Reply(Reply::Ran(status)));
        making.answered_up_to(runs);
    }
}

fn admit(name: &[u8], body: &[u8]) -> Call {
    Call::Admit { name: name.to_vec(), body: body.to_vec(), caller: None }
}

/// A random list on a small log, on which much is appended, flushed, marked, tried again and rewritten.
pub fn random(rng: &mut Rng) -> List {
    let mut settings = settings::any(rng);
    settings.inbox = rng.range(2, 64) as usize;
    if rng.chance(2) {
        settings.compact_at = rng.range(1, 200) as usize;
    }
    let names: Vec<Vec<u8>> = settings.groups.iter().map(|group| group.name.clone()).collect();
    let lines = rng.below(10);
    let file = files::any(rng, lines, &names);
    let log_len = (file.len() + *rng.pick(&[0, 8, 20, 40, 100, 300, 1_000])).max(16);
    let opening = Opening { settings, log_len, store_len: STORE, file };
    let mood = if rng.chance(3) { Mood::crashing(rng) } else { Mood::random(rng) };
    let length = rng.range(1, 120);
    List::made(rng, opening, mood, length)
}
