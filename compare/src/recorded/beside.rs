//! A list inside the domain of equality, made by the Rust: the plain program says what must follow, and the Rust must
//! do it, question by question, delivery by delivery, mark by mark.
use crate::limits::refusal;
use crate::model::log;
use crate::model::pool::{Answer, Call, Event as Done, Pool, Question, Reply};
use crate::oracle::run;
use crate::property::list::List;
use crate::trace::{Asked, Event, Trace};
use crate::view::{LogView, MessageView, PoolView};
use std::path::Path;

/// Runs the Rust over a list, its file at `path`. Gives how many events were compared, or what differs.
pub fn the_rust(list: &List, path: &Path) -> Result<u64, String> {
    run::run(&list.opening.settings, &list.opening.file, &traced(list)?, path)
}

/// What the Rust must do over a list; an error where the list leaves the domain of equality.
pub fn traced(list: &List) -> Result<Trace, String> {
    if !log::one_spelling(&list.opening.file) {
        return Err("the file has an id in another spelling, outside the domain of equality".into());
    }
    if !log::no_retry(&list.opening.file) {
        return Err("the file has a line of two ids, outside the domain of equality".into());
    }
    let mut pool = list.opening.model().map_err(|number| format!("the opening is refused: {number}"))?;
    let trace = trace(&mut pool, &list.calls)?;
    if pool.outside_domain() { Err("the list leaves the domain of equality".into()) } else { Ok(trace) }
}

/// What the plain program does from here on.
pub fn trace(pool: &mut Pool, calls: &[Call]) -> Result<Trace, String> {
    let mut trace = Trace { log: LogView::of(pool), pool: PoolView::of(pool), events: Vec::new() };
    for call in calls {
        step(pool, call, &mut trace.events)?;
    }
    // A list may end at an open question, where the Rust cannot.
    trace.events.push(Event::Stop);
    Ok(trace)
}

fn step(pool: &mut Pool, call: &Call, events: &mut Vec<Event>) -> Result<(), String> {
    // A question beneath an order is shown again after it, not asked again.
    let beneath = pool.order.is_some() && pool.turn_question().is_some();
    let answers_order = pool.order.is_some();
    let answer = pool.call(call);
    let refused = match answer {
        Answer::Refused(refusal::INBOX) => true,
        Answer::Refused(number) => return Err(format!("the Rust knows no refusal {number}: {call:?}")),
        _ => false,
    };
    match call {
        Call::Admit { name, body, caller } => {
            let log = LogView::of(pool);
            let (name, body, caller) = (name.clone(), body.clone(), caller.map(|caller| caller.0));
            events.push(Event::Admit { name, body, caller, accepted: !refused, log });
            return Ok(());
        }
        Call::Sync => {
            events.push(Event::Sync(LogView::of(pool)));
            return Ok(());
        }
        Call::Close => {
            events.push(Event::Close);
            return Ok(());
        }
        Call::Turn => events.push(Event::Turn),
        Call::Reply(Reply::Failed) => return Err("a store failed".into()),
        Call::Reply(_) if answers_order => {}
        Call::Reply(reply) => events.push(Event::Answer(reply.clone())),
    }
    for done in &pool.events {
        match done {
            // The Rust writes no line of a retry.
            Done::Logged(_) | Done::Retried { .. } => {}
            Done::Delivered { g, key, message } => {
                events.push(Event::Deliver { group: *g, key: *key, message: MessageView::of(pool, *message) });
            }
            Done::Marked(id) => events.push(Event::Mark(id.0)),
        }
    }
    match answer {
        Answer::TurnEnd { busy, waiters } => {
            let (view, log) = (PoolView::of(pool), LogView::of(pool));
            events.push(Event::TurnEnd { busy, waiters, pool: view, log });
        }
        Answer::Open(Some(Question::Store(_)) | None) => {}
        Answer::Open(Some(question)) if !beneath => {
            events.push(Event::Ask(Asked::of(pool, &question), LogView::of(pool)));
        }
        _ => {}
    }
    Ok(())
}
