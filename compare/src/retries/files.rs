//! Files with attempts, and what an opening makes of each.
use crate::limits::{LOG_MAX, LOG_MIN, MESSAGES, NAME_MAX, STORE, refusal};
use crate::model::log::{Left, LogId};
use crate::model::pool::{GroupSetting, Settings};
use crate::property::list::Opening;
use crate::spellings::{End, Stated};

pub fn files() -> Vec<Stated> {
    let accepted = ACCEPTED.iter().map(|&(what, file, left, next, log)| leaves(what, file, left, next, log));
    accepted.chain(torn()).chain(limits()).chain([full(), crowd()]).collect()
}

/// One group, `row`, in the longest lent log.
pub fn opening(file: &str) -> Opening {
    let group = GroupSetting { name: b"row".to_vec(), replicas: 1, eval: false, timeout: 0, retry: 1 };
    let settings = Settings { groups: vec![group], max_actors: 1, inbox: 1, backlog: 1, compact_at: 64, tick_ns: 1 };
    Opening { settings, log_len: LOG_MAX, store_len: STORE, file: file.into() }
}

/// What is left, message by message: id, body, attempts. The name is `row`.
type Messages<'a> = &'a [(u64, &'a str, u64)];

fn leaves(what: &'static str, file: &str, left: Messages, next: u64, log: &str) -> Stated {
    let message = |&(id, body, attempts): &(u64, &str, u64)| Left {
        id: LogId(id),
        name: b"row".to_vec(),
        body: body.into(),
        attempts,
    };
    let end = End { left: left.iter().map(message).collect(), next, log: log.into() };
    Stated { what, opening: opening(file), end: Ok(end) }
}

/// What the file has, the file, what it leaves, the next id, the new log.
type Accepted = (&'static str, &'static str, Messages<'static>, u64, &'static str);

const X: &str = "5\trow\tx\n";
const X_0: Messages = &[(5, "x", 0)];
const X_2: Messages = &[(5, "x", 2)];
const X_WITH_2: &str = "5\trow\tx\n5\t2\n";
const Y: &str = "5\trow\ty\n";
const Y_0: Messages = &[(5, "y", 0)];

const ACCEPTED: &[Accepted] = &[
    // The last number stands directly behind its record, whatever stood between them.
    (
        "two numbers of the first of two messages",
        "0\trow\tx\n1\trow\ty\n0\t1\n0\t3\n",
        &[(0, "x", 3), (1, "y", 0)],
        2,
        "0\trow\tx\n0\t3\n1\trow\ty\n",
    ),
    (
        "numbers of two messages in falling order of their ids",
        "2\trow\ty\n2\t7\n1\trow\tx\n1\t4\n2\t8\n",
        &[(1, "x", 4), (2, "y", 8)],
        3,
        "1\trow\tx\n1\t4\n2\trow\ty\n2\t8\n",
    ),
    ("one number", "5\trow\tx\n5\t2\n", X_2, 6, X_WITH_2),
    ("a smaller number after a larger one", "5\trow\tx\n5\t7\n5\t2\n", X_2, 6, X_WITH_2),
    ("the same number twice", "5\trow\tx\n5\t2\n5\t2\n", X_2, 6, X_WITH_2),
    ("255", "5\trow\tx\n5\t255\n", &[(5, "x", 255)], 6, "5\trow\tx\n5\t255\n"),
    // Attempts that are 0, or are 0 again.
    ("a number before its record", "5\t1\n5\trow\tx\n", X_0, 6, X),
    ("a later record of the id", "5\trow\tx\n5\t2\n5\trow\ty\n", Y_0, 6, Y),
    ("a later record, and a number behind it", "5\trow\tx\n5\t7\n5\trow\tx\n5\t2\n", X_2, 6, X_WITH_2),
    ("a number of 0", "5\trow\tx\n5\t2\n5\t0\n", X_0, 6, X),
    ("a number of 0 alone", "5\trow\tx\n5\t0\n", X_0, 6, X),
    ("a number after a number of 0", "5\trow\tx\n5\t9\n5\t0\n5\t2\n", X_2, 6, X_WITH_2),
    ("a done line behind a number", "5\trow\tx\n5\t2\n5\n", &[], 6, ""),
    ("done, and a record again", "5\trow\tx\n5\t2\n5\n5\trow\ty\n", Y_0, 6, Y),
    ("a number between a done line and a record", "5\trow\tx\n5\n5\t2\n5\trow\ty\n", Y_0, 6, Y),
    ("a number behind a done line", "5\trow\tx\n5\n5\t2\n", &[], 6, ""),
    // Numbers that are none.
    ("256 behind a number", "5\trow\tx\n5\t2\n5\t256\n", X_2, 6, X_WITH_2),
    ("256 alone", "5\trow\tx\n5\t256\n", X_0, 6, X),
    ("257, 300, 512 and 1000", "5\trow\tx\n5\t2\n5\t257\n5\t300\n5\t512\n5\t1000\n", X_2, 6, X_WITH_2),
    ("2 and a power of 256", "5\trow\tx\n5\t258\n5\t65538\n5\t4294967298\n", X_0, 6, X),
    (
        "the largest number of 64 bits and the next",
        "5\trow\tx\n5\t18446744073709551615\n5\t18446744073709551616\n5\t18446744073709551618\n",
        X_0,
        6,
        X,
    ),
    ("a zero before the number", "5\trow\tx\n5\t02\n", X_0, 6, X),
    ("a plus before the number", "5\trow\tx\n5\t+2\n", X_0, 6, X),
    ("a minus before the number", "5\trow\tx\n5\t-2\n", X_0, 6, X),
    ("blanks round the number", "5\trow\tx\n5\t 2\n5\t2 \n", X_0, 6, X),
    ("a letter behind the number", "5\trow\tx\n5\t2x\n", X_0, 6, X),
    ("a backslash behind the number", "5\trow\tx\n5\t2\\\n", X_0, 6, X),
    ("an empty number", "5\trow\tx\n5\t\n", X_0, 6, X),
    ("a second number", "5\trow\tx\n5\t2\t3\t4\n", X_0, 6, X),
    // Ids that are none, or are not open.
    ("a zero before the id", "5\trow\tx\n05\t2\n", X_0, 6, X),
    ("a plus before the id", "5\trow\tx\n+5\t2\n", X_0, 6, X),
    ("an empty id", "5\trow\tx\n\t2\n", X_0, 6, X),
    ("the id of another message", "5\trow\tx\n4\t2\n", X_0, 6, X),
    ("the id with a digit more", "5\trow\tx\n55\t2\n", X_0, 6, X),
    ("a number of no record", "9\t1\n", &[], 0, ""),
    ("a number of the last id", "18446744073709551615\t1\n", &[], 0, ""),
    ("a number of a larger id raises no next id", "5\trow\tx\n9\t1\n", X_0, 6, X),
    (
        "the largest id of a record",
        "18446744073709551614\trow\tx\n18446744073709551614\t3\n",
        &[(u64::MAX - 1, "x", 3)],
        u64::MAX,
        "18446744073709551614\trow\tx\n18446744073709551614\t3\n",
    ),
    // Three fields are a record, whatever they look like.
    ("a number behind a number behind an id", "5\trow\t2\n", &[(5, "2", 0)], 6, "5\trow\t2\n"),
];

/// What a cut may leave of a record and the line of its first retry: a number whole, or none.
fn torn() -> Vec<Stated> {
    const FILE: &str = "0\trow\tx\n0\t1\n";
    let stated = |length: usize| {
        let file = &FILE[..length];
        match length {
            12 => leaves("a record and its number, whole", file, &[(0, "x", 1)], 1, FILE),
            8.. => leaves("a record and a part of its number", file, &[(0, "x", 0)], 1, &FILE[..8]),
            _ => leaves("a part of a record", file, &[], 0, ""),
        }
    };
    let longer = leaves("12 torn to 1", "5\trow\tx\n5\t1", X_0, 6, X);
    (0..=FILE.len()).map(stated).chain([longer]).collect()
}

/// A line of attempts counts neither against the number of messages left nor against their lengths, and takes none
/// off.
fn limits() -> [Stated; 4] {
    let records = |count: usize| (0..count).map(|id| format!("{id}\trow\t\n")).collect::<String>();
    let full = records(MESSAGES);
    let messages: Vec<(u64, &str, u64)> = (0..MESSAGES as u64).map(|id| (id, "", 0)).collect();
    let long = "n".repeat(NAME_MAX + 1);
    let refused = |what, file: &str, number: u8| Stated { what, opening: opening(file), end: Err(number.into()) };
    [
        leaves("256 records and a number of none", &format!("{full}256\t1\n"), &messages, 256, &full),
        refused("257 records and a number of 0", &format!("{}256\t0\n", records(257)), refusal::LEFT),
        refused("a name of 33 bytes and a number of 0", &format!("5\t{long}\t\n5\t0\n"), refusal::LEFT),
        refused(
            "the last id and a number",
            "18446744073709551615\trow\tx\n18446744073709551615\t1\n",
            refusal::LAST_RECORD,
        ),
    ]
}

/// As many messages as there may be, each with the largest number, in a lent log that the new one fills to its last
/// byte.
fn full() -> Stated {
    let line = |id: u64| format!("{id}\trow\t\n{id}\t255\n");
    let log: String = (0..MESSAGES as u64).map(line).collect();
    let messages: Vec<(u64, &str, u64)> = (0..MESSAGES as u64).map(|id| (id, "", 255)).collect();
    let mut stated = leaves("256 messages with 255, in a full log", &log, &messages, 256, &log);
    stated.opening.log_len = log.len().max(LOG_MIN);
    stated
}

/// 600 records, in no order of their ids, and behind each the number 1 and a number of the record before it. Then two
/// of three are done, the last record among them. So many are open at once that an opening needs further passes.
fn crowd() -> Stated {
    let id = |at: u64| at * 7 % 600;
    let strewn = |at: u64| {
        let before = id(at + 599);
        format!("{id}\trow\t{id}\n{id}\t1\n{before}\t{}\n", before % 256, id = id(at))
    };
    let records: String = (0..600).map(strewn).collect();
    let done: String = (0..600).filter(|id| id % 3 != 0).map(|id| format!("{id}\n")).collect();
    let left: Vec<(u64, String, u64)> = (0..600).step_by(3).map(|id| (id, id.to_string(), id % 256)).collect();
    let messages: Vec<(u64, &str, u64)> = left.iter().map(|(id, body, n)| (*id, body.as_str(), *n)).collect();
    let line = |(id, _, attempts): &(u64, String, u64)| match attempts {
        0 => format!("{id}\trow\t{id}\n"),
        _ => format!("{id}\trow\t{id}\n{id}\t{attempts}\n"),
    };
    let log: String = left.iter().map(line).collect();
    leaves("600 records with numbers, most done", &(records + &done), &messages, 600, &log)
}
