//! Turns and calls after which the two sides differ. Where the Rust must do otherwise than the plain program, the
//! trace that it is held to is changed in that one place: it passes only if it does just that.
use super::port::{self, AMPLE, on, opening, record};
use super::rust::Rust;
use super::{Run, says};
use crate::limits::{BODY_MAX, CLOCK_MAX, KEYS};
use crate::model::log::CallerId;
use crate::model::pool::{Call, Group, Question, Reply, Status};
use crate::oracle::config::Message;
use crate::oracle::run;
use crate::output::Entry;
use crate::property::list::{List, Making, Opening};
use crate::recorded::beside;
use crate::trace::{Event, Trace};
use crate::view::FileView;

pub fn run(run: &mut Run) {
    closed(run);
    unloaded(run);
    long_send(run);
    late_clock(run);
    squeezed(run);
}

/// The Rust over a trace, in words.
fn held_to(run: &Run, opening: &Opening, trace: &Trace, words: &str) -> String {
    match run::run(&opening.settings, &opening.file, trace, &run.path) {
        Ok(_) => words.into(),
        Err(error) => error,
    }
}

/// The same over the trace of a list, with its events changed.
fn held_to_changed(run: &Run, list: &List, change: impl FnMut(&mut Event), words: &str) -> String {
    let mut trace = beside::traced(list).expect("inside the domain");
    trace.events.iter_mut().for_each(change);
    held_to(run, &list.opening, &trace, words)
}

fn closed(run: &mut Run) {
    let rust = Rust::open(run, AMPLE, b"");
    let (inbox, intake) = rust.inbox();
    drop(intake);
    let down = if inbox.admit(Message::new("row".into(), "x".into())).is_ok() { "taken" } else { "down" };
    let found = format!("{down}; {}; opened again: {}", rust.says(), rust.reopened());
    let list = on(named(b"row", 1), &[Call::Close, record(b"row", b"x")]);
    run.differ(
        "a record for a closed pool",
        r#"close; admit "row" "x""#,
        says(found, r#"down; live 8, size 8, file "0\trow\tx\n"; opened again: left [0 "row" "x"], next 1"#),
        says(said_and_left(&list), "refused 7; opened again: left [], next 0"),
    );
}

/// One group of this name.
fn named(name: &[u8], replicas: usize) -> Opening {
    let mut opening = opening(AMPLE, AMPLE, b"");
    opening.settings.groups[0].name = name.to_vec();
    opening.settings.groups[0].replicas = replicas;
    opening
}

/// What the port says at a list's end, and what its log then leaves.
fn said_and_left(list: &List) -> String {
    format!("{}; opened again: {}", port::last(list, port::says), port::reopens(list))
}

/// A program that is not loaded: no group has the name, or its group has ceiling 0. The one group is `row`.
fn unloaded(run: &mut Run) {
    let mistyped = (
        "a record for a name that no group has",
        r#"group "row"; admit "rwo" "x"; turn"#,
        (1, &b"rwo"[..]),
        r#"taken, file "0\trwo\tx\n"; marked, file "0\trwo\tx\n0\n""#,
    );
    let ceiling_0 = (
        "a record for a group with ceiling 0",
        r#"group "row", replicas 0; admit "row" "x"; turn"#,
        (0, &b"row"[..]),
        r#"taken, file "0\trow\tx\n"; marked, file "0\trow\tx\n0\n""#,
    );
    for (what, input, (replicas, name), rust) in [mistyped, ceiling_0] {
        let opening = named(b"row", replicas);
        let found = taken_and_marked(run, &opening, name);
        let port = said_and_left(&on(opening, &[record(name, b"x")]));
        run.differ(what, input, says(found, rust), says(port, "refused 17; opened again: left [], next 0"));
    }
}

/// The Rust over an admit that the port refuses, and a turn. The plain program that says what it must do takes the
/// message while a group of its name is loaded, and has the opening's settings from then on.
fn taken_and_marked(run: &Run, opening: &Opening, name: &[u8]) -> String {
    let mut making = Making::new(named(name, 1)).unbooted(&[0]);
    let mut pool = making.pool.clone();
    making.answered();
    making.done(record(name, b"x"));
    let taken = making.list.calls.len();
    making.pool.settings = opening.settings.clone();
    making.done(Call::Turn);
    let (admit, turn) = making.list.calls.split_at(taken);
    let mut trace = beside::trace(&mut pool, admit).expect("calls that the Rust has");
    // The list does not stop here.
    trace.events.pop();
    pool.settings = opening.settings.clone();
    trace.events.extend(beside::trace(&mut pool, turn).expect("calls that the Rust has").events);
    let files = trace.events.iter().filter_map(|event| match event {
        Event::Admit { log, .. } => Some(format!("taken, {}", in_words(&log.file))),
        Event::TurnEnd { log, .. } => Some(format!("marked, {}", in_words(&log.file))),
        _ => None,
    });
    let words = files.collect::<Vec<_>>().join("; ");
    held_to(run, opening, &trace, &words)
}

fn in_words(file: &FileView) -> String {
    match file {
        FileView::Bytes { bytes, .. } => format!("file \"{}\"", bytes.escape_ascii()),
        FileView::Left(left) => format!("left {left:?}"),
    }
}

/// An actor at its first step's Sends.
fn at_sends() -> Making {
    let mut making = Making::new(opening(AMPLE, AMPLE, b""));
    making.answered();
    making.call(Call::Turn);
    making.answered_up_to(|question| matches!(question, Question::Sends { .. }));
    making
}

fn long_send(run: &mut Run) {
    let send = |length: usize| Call::Reply(Reply::Send(Vec::new(), vec![b'b'; length]));
    let mut making = at_sends();
    let mut list = making.list.clone();
    list.calls.push(send(BODY_MAX + 1));
    making.call(send(BODY_MAX));
    making.answered();
    let longer = |body: &mut Vec<u8>| {
        if body.len() == BODY_MAX {
            body.push(b'b');
        }
    };
    let change = |event: &mut Event| match event {
        Event::Answer(Reply::Send(_, body)) => longer(body),
        Event::TurnEnd { pool, .. } => pool.pending.iter_mut().for_each(|message| longer(&mut message.body)),
        _ => {}
    };
    let rust = held_to_changed(run, &making.list, change, "pending");
    run.differ(
        "a sent body of 129 bytes",
        "Sends, answered by it",
        says(rust, "pending"),
        says(port::last(&list, port::says), "refused 5"),
    );
}

fn late_clock(run: &mut Run) {
    // With ceiling 0 the turn asks Clock alone.
    let mut making = Making::new(named(b"", 0));
    making.answered();
    making.call(Call::Turn);
    let mut list = making.list.clone();
    list.calls.push(Call::Reply(Reply::Clock(CLOCK_MAX + 1)));
    making.answered();
    let change = |event: &mut Event| {
        if let Event::Answer(Reply::Clock(clock)) = event {
            *clock = CLOCK_MAX + 1;
        }
    };
    let rust = held_to_changed(run, &making.list, change, "the turn ends");
    run.differ(
        "a clock of 2^63",
        "turn; Clock, answered by it",
        says(rust, "the turn ends"),
        says(port::last(&list, port::says), "refused 12"),
    );
}

/// 16 actors that block at every message: four messages each fill the waiting list, the next one finds it full.
fn squeezed(run: &mut Run) {
    const ACTORS: usize = 16;
    let mut opening = opening(AMPLE, AMPLE, b"");
    opening.settings.groups[0].replicas = ACTORS;
    opening.settings.max_actors = ACTORS;
    opening.settings.backlog = 256;
    let mut making = Making::new(opening);
    making.answered();
    for turn in 0..=KEYS / ACTORS {
        let messages = if turn == KEYS / ACTORS { 1 } else { ACTORS };
        for _ in 0..messages {
            making.call(Call::Admit { name: Vec::new(), body: Vec::new(), caller: Some(CallerId(7)) });
        }
        making.call(Call::Turn);
        while let Some(question) = making.pool.open_question() {
            making.call(Call::Reply(match question {
                Question::Clock => Reply::Clock(0),
                Question::Run { .. } => Reply::Ran(Status::HostCall),
                Question::Dispatch { .. } => Reply::Count(1),
                Question::Poll { .. } => Reply::Count(0),
                Question::Sends { .. } => Reply::End,
                _ => Reply::Yes,
            }));
        }
    }
    let mut pool = making.list.opening.model().expect("an accepted opening");
    let mut trace = beside::trace(&mut pool, &making.list.calls).expect("calls that the Rust has");
    let Some(Event::TurnEnd { pool, .. }) =
        trace.events.iter_mut().rev().find(|event| matches!(event, Event::TurnEnd { .. }))
    else {
        unreachable!("a turn's end")
    };
    // The Rust's list has every key four times, and the last one a fifth time.
    let last = *pool.groups[0].waiting.first().expect("somebody waits");
    pool.groups[0].waiting = (0..ACTORS).cycle().take(KEYS).chain([last]).collect();
    let rust = held_to(run, &making.list.opening, &trace, "65 keys wait");
    let waiting = |entry: &Entry| match entry.tables {
        Some(tables) => format!("{} keys wait", tables.waiting(0).len()),
        None => "no tables".into(),
    };
    run.differ(
        "a 65th key in a list",
        "16 actors that block at each of their messages, 65 messages, five turns",
        says(rust, "65 keys wait"),
        says(port::last(&making.list, waiting), "16 keys wait"),
    );
}

/// How many actors the Rust has after a first turn under settings that the port refuses.
pub fn seeded(run: &Run, wide: &Opening) -> String {
    let mut pool = opening(AMPLE, AMPLE, b"").model().expect("an accepted opening");
    pool.settings = wide.settings.clone();
    pool.groups = vec![Group::default(); wide.settings.groups.len()];
    let list = List { opening: wide.clone(), calls: Vec::new() };
    let mut making = Making { list, pool: pool.clone(), unbooted: Vec::new() };
    making.answered();
    making.done(Call::Turn);
    let actors: usize = making.pool.groups.iter().map(|group| group.actors.len()).sum();
    match beside::trace(&mut pool, &making.list.calls) {
        Ok(trace) => held_to(run, wide, &trace, &format!("{actors} actors")),
        Err(error) => error,
    }
}
