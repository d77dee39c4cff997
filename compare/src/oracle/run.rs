//! Runs the Rust over a file and a trace.
use super::host;
use super::opening::{self, Opened};
use super::script::{self, Script, Stopped};
use super::server::Stats;
use crate::met;
use crate::met::{Counting, counting};
use crate::model::pool::Settings;
use crate::trace::{Event, Trace};
use std::cell::Cell;
use std::panic::{self, AssertUnwindSafe};
use std::path::Path;
use std::rc::Rc;
use std::sync::Arc;
use std::sync::mpsc::channel;

thread_local! {
    static RUNNING: Cell<bool> = const { Cell::new(false) };
}

/// A difference is a panic here, and is reported as one of many: nothing is printed where it happens.
pub fn silence() {
    let usual = panic::take_hook();
    panic::set_hook(Box::new(move |info| {
        if !RUNNING.get() {
            usual(info);
        }
    }));
}

/// The Rust must do what the trace says. Gives the number of events that were compared, or what differs.
pub fn run(settings: &Settings, file: &[u8], trace: &Trace, path: &Path) -> Result<u64, String> {
    RUNNING.set(true);
    counting(Counting::Inside);
    let ended = panic::catch_unwind(AssertUnwindSafe(|| over(settings, file, trace, path)));
    RUNNING.set(false);
    counting(Counting::Off);
    let seen = script::seen();
    script::set(None);
    let Err(payload) = ended else { return Ok(seen) };
    if payload.is::<Stopped>() {
        return Ok(seen);
    }
    let text = payload.downcast_ref::<String>().cloned();
    let text = text.or(payload.downcast_ref::<&str>().map(|text| text.to_string()));
    Err(format!("event {seen} of the trace: {}", text.unwrap_or("a panic".into())))
}

fn over(settings: &Settings, file: &[u8], trace: &Trace, path: &Path) {
    host::reset();
    std::fs::write(path, file).expect("the log's file is written");
    let stats = Arc::new(Stats::default());
    let dir = |number| format!("{number}/");
    let Opened { scheduler: mut pool, inbox, intake, wal } = opening::open(settings, path, dir, Some(stats.clone()));
    let intake = Rc::new(intake);
    let (to, told) = channel();
    script::set(Some(Script {
        events: trace.events.clone().into_iter(),
        inbox: Some(inbox),
        intake: intake.clone(),
        wal,
        path: path.to_path_buf(),
        told,
        to,
        seen: 0,
        left: None,
    }));
    assert_eq!(script::log_now(), trace.log, "the log after the opening: Rust left, expected right");
    assert_eq!(pool.view(&stats), trace.pool, "the pool after the opening: Rust left, expected right");
    let mut first = true;
    while let Some(event) = script::next() {
        if event != Event::Turn {
            script::outside(event);
            continue;
        }
        met!("Rust: a turn");
        let (busy, waiters) = pool.turn(&intake, first);
        first = false;
        let end = Event::TurnEnd { busy, waiters, pool: pool.view(&stats), log: script::log_now() };
        script::must_be(end, "a turn's end");
    }
}
