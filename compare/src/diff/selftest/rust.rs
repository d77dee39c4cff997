//! Slips in what the Rust is expected to do, and settings of the Rust that are not those of the case.
use super::Tried;
use crate::generate::case::Case;
use crate::model::pool::Settings;
use crate::oracle::run::run;
use crate::rng::Rng;
use crate::trace::{Asked, Event, Trace};
use crate::view::{FileView, LeftView, LogView};
use std::path::Path;

/// A slip in the expected events: None where there is nothing that it could be made in.
type TraceSlip = fn(&mut Vec<Event>, &mut Rng) -> Option<()>;

const TRACE_SLIPS: &[(&str, TraceSlip)] = &[
    ("Rust: another interpreter is asked", |events, rng| other_question(events, rng)),
    ("Rust: the log at a question has another byte", |events, rng| other_log(events, rng)),
    ("Rust: after a retry the log lacks a message", |events, rng| {
        other_left(events, rng, |left, at| drop(left.remove(at)))
    }),
    ("Rust: after a retry the log has a message under another id", |events, rng| {
        other_left(events, rng, |left, at| left[at].id += 1)
    }),
    ("Rust: after a retry the log has another body", |events, rng| {
        other_left(events, rng, |left, at| left[at].body.push(b'x'))
    }),
    ("Rust: after a retry a flush is due, or is not", |events, rng| {
        let at = any(events, rng, |event| left(event).is_some())?;
        let log = events[at].log_mut().expect("a log");
        log.dirty = !log.dirty;
        Some(())
    }),
    ("Rust: a delivery is left out", |events, rng| {
        leave_out(events, rng, |event| matches!(event, Event::Deliver { .. }))
    }),
    ("Rust: a delivery goes to another key", |events, rng| other_key(events, rng)),
    ("Rust: a mark is left out", |events, rng| leave_out(events, rng, |event| matches!(event, Event::Mark(_)))),
    ("Rust: another id is marked", |events, rng| {
        let at = any(events, rng, |event| matches!(event, Event::Mark(_)))?;
        let Event::Mark(id) = &mut events[at] else { unreachable!() };
        *id += 1;
        Some(())
    }),
    ("Rust: an admit is answered otherwise", |events, rng| {
        let at = any(events, rng, |event| matches!(event, Event::Admit { .. }))?;
        let Event::Admit { accepted, .. } = &mut events[at] else { unreachable!() };
        *accepted = !*accepted;
        Some(())
    }),
    ("Rust: another busy at a turn's end", |events, rng| {
        let at = turn_end(events, rng)?;
        let Event::TurnEnd { busy, .. } = &mut events[at] else { unreachable!() };
        *busy = !*busy;
        Some(())
    }),
    ("Rust: another count of queued at a turn's end", |events, rng| {
        let at = turn_end(events, rng)?;
        let Event::TurnEnd { pool, .. } = &mut events[at] else { unreachable!() };
        pool.queued += 1;
        Some(())
    }),
    ("Rust: another count of dead at a turn's end", |events, rng| {
        let at = turn_end(events, rng)?;
        let Event::TurnEnd { pool, .. } = &mut events[at] else { unreachable!() };
        pool.dead += 1;
        Some(())
    }),
];

/// A run under other settings need not show in every case.
type SettingSlip = fn(&mut Settings);

const SETTING_SLIPS: &[(&str, SettingSlip)] = &[
    ("Rust: the backlog is one more", |settings| settings.backlog += 1),
    ("Rust: the inbox takes one more", |settings| settings.inbox += 1),
    ("Rust: compact_at is one more", |settings| settings.compact_at += 1),
    ("Rust: a tick is one longer", |settings| settings.tick_ns += 1),
    ("Rust: max_actors is one more", |settings| settings.max_actors += 1),
    ("Rust: a message is retried once more", |settings| {
        settings.groups.iter_mut().for_each(|group| group.retry += 1);
    }),
];

pub struct Slips {
    trace: Vec<Tried>,
    settings: Vec<Tried>,
}

impl Slips {
    pub fn new() -> Slips {
        Slips {
            trace: TRACE_SLIPS.iter().map(|(name, _)| Tried::new(name, false)).collect(),
            settings: SETTING_SLIPS.iter().map(|(name, _)| Tried::new(name, true)).collect(),
        }
    }

    pub fn case(&mut self, number: u64, case: &Case, path: &Path, rng: &mut Rng) {
        if case.inside.is_none() {
            return;
        }
        for (tried, (_, slip)) in self.trace.iter_mut().zip(TRACE_SLIPS) {
            let mut events = case.trace.events.clone();
            if slip(&mut events, rng).is_some() {
                let trace = Trace { log: case.trace.log.clone(), pool: case.trace.pool.clone(), events };
                tried.count(number, run(&case.settings, &case.file, &trace, path).is_err());
            }
        }
        for (tried, (_, slip)) in self.settings.iter_mut().zip(SETTING_SLIPS) {
            let mut settings = case.settings.clone();
            slip(&mut settings);
            tried.count(number, run(&settings, &case.file, &case.trace, path).is_err());
        }
    }

    pub fn tried(self) -> impl Iterator<Item = Tried> {
        self.trace.into_iter().chain(self.settings)
    }
}

/// Any event of which this is true, from a random one on.
fn any(events: &[Event], rng: &mut Rng, is: impl Fn(&Event) -> bool) -> Option<usize> {
    if events.is_empty() {
        return None;
    }
    let from = rng.below(events.len() as u64) as usize;
    (from..events.len()).chain(0..from).find(|&at| is(&events[at]))
}

/// Leaves an event out. Of the last one before the list stops nothing would be seen.
fn leave_out(events: &mut Vec<Event>, rng: &mut Rng, is: impl Fn(&Event) -> bool) -> Option<()> {
    let end = events.len() - (events.last() == Some(&Event::Stop)) as usize;
    let at = any(&events[..end.saturating_sub(1)], rng, is)?;
    events.remove(at);
    Some(())
}

fn turn_end(events: &[Event], rng: &mut Rng) -> Option<usize> {
    any(events, rng, |event| matches!(event, Event::TurnEnd { .. }))
}

fn other_question(events: &mut [Event], rng: &mut Rng) -> Option<()> {
    let at = any(events, rng, |event| matches!(event, Event::Ask(Asked::Run { .. } | Asked::Push { .. }, _)))?;
    match &mut events[at] {
        Event::Ask(Asked::Run { vm, .. } | Asked::Push { vm, .. }, _) => *vm += 1,
        _ => unreachable!(),
    }
    Some(())
}

fn other_log(events: &mut [Event], rng: &mut Rng) -> Option<()> {
    let at = any(events, rng, |event| bytes(event).is_some_and(|bytes| !bytes.is_empty()))?;
    let Some(LogView { file: FileView::Bytes { bytes, .. }, .. }) = events[at].log_mut() else { unreachable!() };
    let byte = rng.below(bytes.len() as u64) as usize;
    bytes[byte] ^= 1;
    Some(())
}

/// The log's bytes at a question, where it is seen by them.
fn bytes(event: &Event) -> Option<&[u8]> {
    match event {
        Event::Ask(_, LogView { file: FileView::Bytes { bytes, .. }, .. }) => Some(bytes),
        _ => None,
    }
}

/// A change of one of the messages that a log would hand back, at a place where it is seen by them.
fn other_left(events: &mut [Event], rng: &mut Rng, change: impl Fn(&mut Vec<LeftView>, usize)) -> Option<()> {
    let at = any(events, rng, |event| left(event).is_some_and(|left| !left.is_empty()))?;
    let Some(LogView { file: FileView::Left(left), .. }) = events[at].log_mut() else { unreachable!() };
    change(left, rng.below(left.len() as u64) as usize);
    Some(())
}

fn left(event: &Event) -> Option<&[LeftView]> {
    match event.log()?.file {
        FileView::Left(ref left) => Some(left),
        FileView::Bytes { .. } => None,
    }
}

fn other_key(events: &mut [Event], rng: &mut Rng) -> Option<()> {
    let at = any(events, rng, |event| matches!(event, Event::Deliver { .. }))?;
    let Event::Deliver { key, .. } = &mut events[at] else { unreachable!() };
    *key += 1;
    Some(())
}
