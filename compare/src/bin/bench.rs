//! bench [RUNS]: times of the port beside the Rust, medians of RUNS runs, and what each holds in memory, as tables.
//! bench rows: the lists by number, with how many calls each counts.
//! bench count port|rust ROW RUNS: one list RUNS times on one side, call by call, to be counted by
//! compare/instructions.
//!
//! The Rust is compiled here once more, over stand-ins that answer from a list of replies and compare nothing.
use compare::bench::lists::Timed;
use compare::bench::port_side::{Calls, Runner};
use compare::bench::table::{Driven, Opened, Row};
use compare::bench::writes::Writes;
use compare::bench::{clock, driven, lists, logs, table};
use compare::drive;
use compare::limits::{LOG_MAX, STORE};
use compare::model::pool::{GroupSetting, Settings};
use compare::port;
use compare::property::list::Opening;
use compare::scratch::Scratch;
use compare::tables;
use std::path::Path;

#[cfg(oracle)]
extern crate slab;
#[path = "../bench/held.rs"]
mod held;
#[cfg(oracle)]
#[path = "../bench/rust/oracle.rs"]
mod oracle;
#[cfg(oracle)]
#[path = "../bench/rust/side.rs"]
mod rust_side;
// The files that the comparison has too name these at the crate's root.
#[cfg(oracle)]
use compare::{model, view};
#[cfg(oracle)]
use oracle::{host, pack};

const RUNS: usize = 501;

#[global_allocator]
static HELD: held::Held = held::Held;

const USAGE: &str = "usage: bench [RUNS] | bench rows | bench count port|rust ROW RUNS";

fn main() {
    let words: Vec<String> = std::env::args().skip(1).collect();
    let words: Vec<&str> = words.iter().map(String::as_str).collect();
    let number = |text: &str| text.parse().expect(USAGE);
    port::on_large_stack(|| match words[..] {
        [] => run(RUNS),
        ["rows"] => rows(),
        ["count", side, row, runs] => count(side, number(row), number(runs)),
        [runs] => run(number(runs)),
        _ => panic!("{USAGE}"),
    });
}

/// Each list: its number, the sides that have it, how many calls it counts, what it is.
fn rows() {
    for (row, list) in lists::BOTH.iter().chain(&lists::REFUSED).enumerate() {
        let (timed, both) = (list(), row < lists::BOTH.len() && cfg!(oracle));
        println!("{row}\t{}\t{}\t{}", if both { "both" } else { "port" }, timed.counted(), timed.what);
    }
}

/// One list on one side, after a run that is not counted.
fn count(side: &str, row: usize, runs: usize) {
    let scratch = Scratch::in_memory("bench");
    let path = scratch.file("log.wal");
    let timed = lists::BOTH.iter().chain(&lists::REFUSED).nth(row).expect(USAGE)();
    match side {
        "port" => {
            let mut calls = driven::Calls::new(&timed, &path);
            (0..runs).for_each(|_| calls.count());
        }
        #[cfg(oracle)]
        "rust" => {
            let mut calls = rust_side::Calls::new(&timed, &path);
            calls.run();
            (0..runs).for_each(|_| calls.count());
        }
        _ => panic!("{USAGE}"),
    }
}

fn run(runs: usize) {
    let scratch = Scratch::in_memory("bench");
    let path = scratch.file("log.wal");
    let mut rows: Vec<Row> = lists::BOTH.iter().map(|list| row(&list(), runs, &path)).collect();
    rows.extend(lists::REFUSED.iter().map(|list| refused(&list(), runs, &path)));
    table::lists(&rows);
    println!();
    if drive::AT_HAND {
        table::driven(&rows);
    } else {
        println!("The port call by call is not built: tools/archives drive.");
    }
    println!();
    let opened: Vec<Opened> = files().into_iter().map(|(what, file)| opened(what, file, runs, &path)).collect();
    table::openings(&opened);
    println!();
    state(&path);
    println!("\nMedians of {runs} runs.");
}

/// The port's two sides call by call, where they are at hand.
struct Sides {
    writing: Option<driven::Calls>,
    idle: Option<driven::Calls>,
}

impl Sides {
    fn new(timed: &Timed, path: &Path) -> Sides {
        let calls = || drive::AT_HAND.then(|| driven::Calls::new(timed, path));
        Sides { writing: calls(), idle: calls() }
    }
}

fn times(writing: f64, idle: f64) -> Option<Driven> {
    drive::AT_HAND.then_some(Driven { writing, idle })
}

/// A list that the port alone has.
fn refused(timed: &Timed, runs: usize, path: &Path) -> Row {
    let (mut port, mut sides) = (Calls::new(timed), Sides::new(timed, path));
    let [port, writing, idle] = clock::medians(
        runs,
        [&mut || port.run(), &mut || sides.writing.as_mut().map_or(0.0, driven::Calls::run_writing), &mut || {
            sides.idle.as_mut().map_or(0.0, driven::Calls::run)
        }],
    );
    let (what, counted, driven) = (timed.what.clone(), timed.counted(), times(writing, idle));
    Row { what, counted, port, rust: None, writes: 0.0, driven }
}

fn row(timed: &Timed, runs: usize, path: &Path) -> Row {
    #[cfg(oracle)]
    let mut rust = rust_side::Calls::new(timed, path);
    let (mut port, mut writes, mut sides) = (Calls::new(timed), Writes::new(timed, path), Sides::new(timed, path));
    let [port, rust, writes, writing, idle] = clock::medians(
        runs,
        [
            &mut || port.run(),
            #[cfg(oracle)]
            &mut || rust.run(),
            #[cfg(not(oracle))]
            &mut || 0.0,
            &mut || writes.run(),
            &mut || sides.writing.as_mut().map_or(0.0, driven::Calls::run_writing),
            &mut || sides.idle.as_mut().map_or(0.0, driven::Calls::run),
        ],
    );
    let (what, counted, driven) = (timed.what.clone(), timed.counted(), times(writing, idle));
    Row { what, counted, port, rust: cfg!(oracle).then_some(rust), writes, driven }
}

/// The files that are opened.
fn files() -> Vec<(&'static str, Vec<u8>)> {
    vec![
        ("opening, an empty file (what every script costs)", Vec::new()),
        ("opening, 1,000 records, 750 done", logs::typical()),
        ("opening, 65,536 bytes, longest bodies", logs::full()),
        ("opening, 16,384 records of 4 bytes", logs::shortest()),
        ("opening, most ids open at once, all done", logs::most_ids()),
    ]
}

fn opening(file: Vec<u8>) -> Opening {
    let group = GroupSetting { name: b"row".to_vec(), replicas: 1, eval: false, timeout: 0, retry: 0 };
    let settings =
        Settings { groups: vec![group], max_actors: 1, inbox: 64, backlog: 256, compact_at: LOG_MAX, tick_ns: 1 };
    Opening { settings, log_len: LOG_MAX, store_len: STORE, file }
}

fn opened(what: &str, file: Vec<u8>, runs: usize, path: &Path) -> Opened {
    let opening = opening(file);
    let mut port = Runner::opening(&opening);
    let what = what.into();
    let _ = path;
    #[cfg(oracle)]
    {
        let mut rust = || rust_side::opening(&opening, path);
        let [port, rust] = clock::medians(runs, [&mut || port.run(), &mut rust]);
        Opened { what, port, rust: Some(rust) }
    }
    #[cfg(not(oracle))]
    {
        let [port] = clock::medians(runs, [&mut || port.run()]);
        Opened { what, port, rust: None }
    }
}

/// What each side holds: the port's tables, store and log have fixed lengths; the Rust's heap is counted.
fn state(path: &Path) {
    println!("| state | bytes |\n|---|---:|");
    println!(
        "| port: tables | {} |\n| port: body store | {STORE} |\n| port: lent log, at most | {LOG_MAX} |",
        tables::LENGTH
    );
    let _ = path;
    #[cfg(oracle)]
    for (what, file) in [("nothing live", Vec::new()), ("256 messages of 40 bytes live", logs::open(256))] {
        let opening = opening(file);
        std::fs::write(path, &opening.file).unwrap();
        let (rust, bytes) = held::by(|| rust_side::Rust::open(&opening.settings, path));
        drop(rust);
        println!("| Rust: heap after an opening, {what} | {bytes} |");
    }
}
