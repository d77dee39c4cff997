//! One spelling for an id (docs/RULES.md, section 2). Fixed files, each with what is stated of its opening. The port
//! is held to that here, and beside the plain program; the plain program is held to it in `tests`. The Rust must do
//! the same on the files inside the domain of equality.
use crate::lent::Lent;
use crate::limits::{LOG_MAX, NAME_MAX, STORE, refusal};
use crate::model::log::{Left, LogId};
use crate::model::pool::{GroupSetting, Settings};
use crate::output::Answer;
use crate::property::judge;
use crate::property::list::{List, Opening};
use crate::script::SHOW_STORE;
use crate::tally::{Tally, same};

/// A file, and what is stated of its opening: what it leaves, or the number that refuses it.
pub struct Stated {
    pub what: &'static str,
    pub opening: Opening,
    pub end: Result<End, u64>,
}

/// What an accepted opening leaves. The messages are in the order in which they are handed back.
#[derive(PartialEq, Eq, Debug)]
pub struct End {
    pub left: Vec<Left>,
    pub next: u64,
    pub log: Vec<u8>,
}

/// Runs the port over every file, and the Rust where it does the same.
pub fn run(tally: &mut Tally) {
    tally.begin("spellings of ids");
    let mut lent = Lent::default();
    for Stated { what, opening, end } in files() {
        let list = List { opening, calls: Vec::new() };
        let checked = opened(&mut lent, &list, &end).and_then(|()| beside_rust(&list));
        tally.check(checked.map_err(|error| format!("{what}: {error}")));
    }
    tally.end();
}

/// The port's opening must be that of the plain program, and leave what is stated of it.
pub fn opened(lent: &mut Lent, list: &List, end: &Result<End, u64>) -> Result<(), String> {
    judge::list(lent, list, SHOW_STORE, &mut judge::Seen::default())?;
    same("its end", &found(lent, list)?, end)
}

/// The Rust is told of accepted files inside the domain of equality alone.
#[cfg(oracle)]
fn beside_rust(list: &List) -> Result<(), String> {
    if list.opening.model().is_err() || !crate::model::log::one_spelling(&list.opening.file) {
        return Ok(());
    }
    let scratch = crate::scratch::Scratch::in_memory("spellings");
    let rust = crate::recorded::beside::the_rust(list, &scratch.file("log.wal"));
    rust.map(drop).map_err(|error| format!("the Rust: {error}"))
}

#[cfg(not(oracle))]
fn beside_rust(_: &List) -> Result<(), String> {
    Ok(())
}

/// What an opening leaves, by the port.
fn found(lent: &mut Lent, list: &List) -> Result<Result<End, u64>, String> {
    let output = lent.output(&list.script(SHOW_STORE))?;
    let entry = output.entries.last().ok_or("no entry")?;
    match entry.answer {
        Answer::Refused(number) => Ok(Err(number)),
        _ => {
            let log = entry.log.ok_or("no log")?.to_vec();
            Ok(Ok(End { left: entry.handed_back()?, next: entry.next, log }))
        }
    }
}

/// One group, `row`.
fn opening(file: &str) -> Opening {
    let group = GroupSetting { name: b"row".to_vec(), replicas: 1, eval: false, timeout: 0, retry: 0 };
    let settings = Settings { groups: vec![group], max_actors: 1, inbox: 1, backlog: 1, compact_at: 64, tick_ns: 1 };
    Opening { settings, log_len: LOG_MAX, store_len: STORE, file: file.into() }
}

pub fn files() -> Vec<Stated> {
    let accepted = ACCEPTED.iter().map(|&(what, file, left, next, log)| leaves(what, file, left, next, log));
    let refused = REFUSED.iter().map(|&(what, file, number)| refused(what, file, number));
    accepted.chain(refused).chain(limits()).chain([crowd()]).collect()
}

/// What is left, message by message: id, name, body.
type Messages<'a> = &'a [(u64, &'a str, &'a str)];

fn leaves(what: &'static str, file: &str, left: Messages, next: u64, log: &str) -> Stated {
    let message = |&(id, name, body): &(u64, &str, &str)| Left {
        id: LogId(id),
        name: name.into(),
        body: body.into(),
        attempts: 0,
    };
    let end = End { left: left.iter().map(message).collect(), next, log: log.into() };
    Stated { what, opening: opening(file), end: Ok(end) }
}

fn refused(what: &'static str, file: &str, number: u8) -> Stated {
    Stated { what, opening: opening(file), end: Err(number.into()) }
}

/// What the file has, the file, what it leaves, the next id, the new log.
type Accepted = (&'static str, &'static str, Messages<'static>, u64, &'static str);

const LARGEST: u64 = u64::MAX - 1;
const ACCEPTED: &[Accepted] = &[
    // The digit 0.
    ("a record 0", "0\t\t\n", &[(0, "", "")], 1, "0\t\t\n"),
    ("a record 0, done", "0\t\t\n0\n", &[], 1, ""),
    ("a done line 0 alone", "0\n", &[], 0, ""),
    ("a record 0 and a done line 00", "0\t\t\n00\n", &[(0, "", "")], 1, "0\t\t\n"),
    ("a record 0 and a done line +0", "0\t\t\n+0\n", &[(0, "", "")], 1, "0\t\t\n"),
    ("a record 00", "00\t\t\n", &[], 0, ""),
    ("a record 00 and a done line 0", "00\t\t\n0\n", &[], 0, ""),
    ("a record 000", "000\t\t\n", &[], 0, ""),
    ("a record of twenty zeros", "00000000000000000000\t\t\n", &[], 0, ""),
    ("a record +0", "+0\t\t\n", &[], 0, ""),
    ("a record 0x", "0x\t\t\n", &[], 0, ""),
    // A plus sign.
    ("a record +5", "+5\trow\tx\n", &[], 0, ""),
    ("a record +5 behind a record 5", "5\trow\tx\n+5\trow\ty\n", &[(5, "row", "x")], 6, "5\trow\tx\n"),
    ("a record +5 before a record 5", "+5\trow\tx\n5\trow\ty\n", &[(5, "row", "y")], 6, "5\trow\ty\n"),
    ("a done line +5", "5\t\t\n+5\n", &[(5, "", "")], 6, "5\t\t\n"),
    ("a done line ++5", "5\t\t\n++5\n", &[(5, "", "")], 6, "5\t\t\n"),
    ("a done line +05", "5\t\t\n+05\n", &[(5, "", "")], 6, "5\t\t\n"),
    // Zeros in front.
    ("a record 05", "05\t\t\n", &[], 0, ""),
    ("a done line 05", "5\t\t\n05\n", &[(5, "", "")], 6, "5\t\t\n"),
    ("a record and a done line 05", "05\trow\tx\n5\trow\ty\n05\n", &[(5, "row", "y")], 6, "5\trow\ty\n"),
    ("a done line 05 of no record", "3\t\t\n05\n", &[(3, "", "")], 4, "3\t\t\n"),
    ("a record 05, done by 5", "05\trow\tx\n5\n", &[], 0, ""),
    ("another spelling raises no next id", "3\t\t\n+9\t\t\n07\t\t\n", &[(3, "", "")], 4, "3\t\t\n"),
    // More digits.
    ("a record 10", "10\t\t\n", &[(10, "", "")], 11, "10\t\t\n"),
    ("a record 010", "010\t\t\n", &[], 0, ""),
    ("records 10 and 9", "10\t\t\n9\t\t\n", &[(9, "", ""), (10, "", "")], 11, "9\t\t\n10\t\t\n"),
    ("records 100 and 1, 1 done", "100\t\t\n1\t\t\n1\n", &[(100, "", "")], 101, "100\t\t\n"),
    (
        "the largest id of a record",
        "18446744073709551614\t\t\n",
        &[(LARGEST, "", "")],
        u64::MAX,
        "18446744073709551614\t\t\n",
    ),
    ("the same with a zero in front", "018446744073709551614\t\t\n", &[], 0, ""),
    ("the last id with a zero in front", "018446744073709551615\ta\tb\n", &[], 0, ""),
    ("the last id with a plus", "+18446744073709551615\ta\tb\n", &[], 0, ""),
    ("a value past the last id", "18446744073709551616\ta\tb\n", &[], 0, ""),
    // What was no id before either.
    ("a record -5", "-5\t\t\n", &[], 0, ""),
    ("a done line 5x", "5\t\t\n5x\n", &[(5, "", "")], 6, "5\t\t\n"),
    ("a done line 5+", "5\t\t\n5+\n", &[(5, "", "")], 6, "5\t\t\n"),
    ("a done line 1+5", "5\t\t\n1+5\n", &[(5, "", "")], 6, "5\t\t\n"),
    ("a record /5, the sign before the digits", "/5\t\t\n", &[], 0, ""),
    ("a record 5:, the sign behind the digits", "5:\t\t\n", &[], 0, ""),
    ("a done line -5", "5\t\t\n-5\n", &[(5, "", "")], 6, "5\t\t\n"),
    ("an empty field, and a plus alone", "\ta\tb\n+\ta\tb\n\n+\n", &[], 0, ""),
    ("two fields", "5\trow\n", &[], 0, ""),
    ("two fields behind a record 5", "5\t\t\n5\t\n", &[(5, "", "")], 6, "5\t\t\n"),
    ("four fields", "5\ta\tb\tc\n", &[], 0, ""),
    ("two and four fields in other spellings", "+5\trow\n05\trow\tx\ty\n", &[], 0, ""),
];

/// What the file has, the file, the number.
const REFUSED: &[(&str, &str, u8)] = &[
    ("the last id", "18446744073709551615\ta\tb\n", refusal::LAST_RECORD),
    (
        "the last id, and its done line with a zero in front",
        "18446744073709551615\ta\tb\n018446744073709551615\n",
        refusal::LAST_RECORD,
    ),
];

/// A line that is skipped counts neither against the number of messages left nor against their lengths, and takes none
/// off.
fn limits() -> [Stated; 5] {
    let records = |count: u64| (0..count).map(|id| format!("{id}\t\t\n")).collect::<String>();
    let full = records(256);
    let messages: Vec<(u64, &str, &str)> = (0..256).map(|id| (id, "", "")).collect();
    let long = "n".repeat(NAME_MAX + 1);
    [
        leaves("256 records and one under 0256", &format!("{full}0256\t\t\n"), &messages, 256, &full),
        refused("257 records, and a done line 0256", &format!("{}0256\n", records(257)), refusal::LEFT),
        leaves("257 records, and a done line 256", &format!("{}256\n", records(257)), &messages, 257, &full),
        leaves("a name of 33 bytes under 05", &format!("05\t{long}\t\n"), &[], 0, ""),
        refused("a name of 33 bytes under 5, and a done line 05", &format!("5\t{long}\t\n05\n"), refusal::LEFT),
    ]
}

/// 600 records, in no order of their ids. Behind each stand a record and a done line with a zero before its id, which
/// are skipped. Then two of three are done. So many are open at once that an opening needs further passes.
fn crowd() -> Stated {
    let record = |id: u64| format!("{id}\trow\t{id}\n");
    let strewn = |id: u64| format!("{}0{id}\trow\tx\n0{id}\n", record(id));
    let records: String = (0..600).map(|at| strewn(at * 7 % 600)).collect();
    let done: String = (0..600).filter(|id| id % 3 != 0).map(|id| format!("{id}\n")).collect();
    let left = || (0..600).step_by(3);
    let bodies: Vec<(u64, String)> = left().map(|id| (id, id.to_string())).collect();
    let messages: Vec<(u64, &str, &str)> = bodies.iter().map(|(id, body)| (*id, "row", body.as_str())).collect();
    let log: String = left().map(record).collect();
    leaves("600 records with others under 0 and their ids", &(records + &done), &messages, 600, &log)
}
