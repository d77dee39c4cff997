//! The other scripts: openings, records, marks, rewrites and flushes of the log; and random lists, small, inside the
//! domain of equality. In the former every message is marked in the turn that takes it in: its group does not boot,
//! or there is none, or where nothing is admitted the group has ceiling 0.
use super::rows::{group, opening};
use crate::limits::refusal;
use crate::model::pool::{self, Answer, Call, GroupSetting, Reply};
use crate::property::calls::Mood;
use crate::property::list::{List, Making, Opening};
use crate::property::{case, settings};
use crate::rng::Rng;

/// What is done to a log: a record for the group `row`; one for a group of any name; a flush; a turn, which marks what
/// is pending.
enum Do {
    Row(&'static [u8]),
    Text(Vec<u8>, Vec<u8>),
    Sync,
    Turn,
}
use Do::{Row, Sync, Text, Turn};

/// A name, the lent log's length, compact_at, the file, what is done.
type Chosen = (&'static str, usize, usize, Vec<u8>, Vec<Do>);

pub fn chosen() -> Vec<(&'static str, List)> {
    logs()
        .into_iter()
        .map(|(what, log_len, compact_at, file, todo)| (what, made(log_len, compact_at, &file, &todo)))
        .collect()
}

fn logs() -> Vec<Chosen> {
    let file = |text: &str| text.as_bytes().to_vec();
    let filled = |name: usize, body: usize, byte: u8| Text(vec![byte; name], vec![byte; body]);
    let crowd: String =
        (0..12).rev().map(|id| format!("{id}\t\t\n")).chain((1..11).map(|id| format!("{id}\n"))).collect();
    let no_ids = "5x\t\t\n-5\t\t\n++5\t\t\n\t\t\n5\t\t\n5x\n-5\n++5\n+\n\n";
    let digits = "10\ta\tb\n1\t\t\n18446744073709551614\tc\td\n1\n0\t\t\n0\n";
    // Two or four fields are skipped by both sides, whatever the first is.
    let nothing = "5\trow\n+5\trow\n\n+\n-1\n1\ta\tb\tc\n01\ta\tb\tc\n 2\t\t\nx\ty\tz\n2\t\t\n";
    let x = || Row(b"x");
    vec![
        ("an empty file", 64, 64, file(""), vec![x()]),
        ("a record with an escape", 64, 64, file("6\t\t\n"), vec![Row(b"a\tb")]),
        ("the shortest record", 64, 64, file(""), vec![filled(0, 0, 0)]),
        ("escapes in a file", 64, 64, file("0\ta\\\t\\q\n1\t\\\\t\t\\t\\n\\\\\n"), vec![]),
        ("records in falling order, one done", 64, 64, file("3\trow\tx\n1\trow\ty\n3\n"), vec![Turn]),
        ("fields that are no ids", 100, 64, file(no_ids), vec![x()]),
        ("ids of 1, 2 and 20 digits", 100, 64, file(digits), vec![Turn]),
        ("lines that say nothing", 100, 64, file(nothing), vec![Turn]),
        ("an id above the largest", 100, 64, file("18446744073709551616\ta\tb\n1\t\t\n"), vec![x()]),
        ("the largest record id", 100, 64, file("18446744073709551614\ta\tb\n"), vec![Turn]),
        ("a done line with the last id", 100, 64, file("1\ta\tb\n18446744073709551615\n"), vec![]),
        ("a record set twice", 64, 64, file("1\ta\tlonger\n1\tb\ts\n"), vec![Turn]),
        ("done, and set again", 64, 64, file("1\ta\tx\n1\n1\ta\ty\n"), vec![]),
        ("records in falling order, most done", 120, 64, crowd.into_bytes(), vec![Turn]),
        ("a rewrite at compact_at", 64, 20, file(""), vec![x(), x(), Turn]),
        ("no rewrite one below it", 64, 21, file(""), vec![x(), x(), Turn]),
        ("a rewrite at twice the live bytes", 64, 1, file(""), vec![x(), x(), x(), Turn]),
        ("flushes", 64, 64, file(""), vec![Sync, x(), Sync, Sync, Turn, Sync]),
        ("a flush after a rewrite", 64, 1, file(""), vec![x(), Turn, Sync, Sync]),
        ("the largest name and body", 200, 64, file(""), vec![filled(32, 128, b'a')]),
        ("the largest name and body, escaped", 400, 400, file(""), vec![filled(32, 128, b'\\')]),
        ("one short of the largest", 400, 400, file(""), vec![filled(31, 127, b'\n')]),
        ("a log filled to its last byte", 16, 64, file(""), vec![x(), x()]),
        ("a file of the lent log's length", 16, 64, file("0\t\tabcd\n1\t\t\n9\n9\n"), vec![filled(0, 0, 0)]),
        ("CR inside texts", 64, 64, file("0\ta\r\tb\rc\n"), vec![Text(b"\r".to_vec(), b"\r.".to_vec())]),
        ("two bytes for a letter", 64, 64, "0\té\t\\é\n".into(), vec![Text("é".into(), "üß".into())]),
    ]
}

fn made(log_len: usize, compact_at: usize, file: &[u8], todo: &[Do]) -> List {
    let group = match name_admitted(todo) {
        Some(name) => GroupSetting { name, ..group(1, false, 0, 0) },
        None => group(0, false, 0, 0),
    };
    let mut opening = opening(group, 1, file);
    opening.log_len = log_len;
    opening.settings.compact_at = compact_at;
    opening.settings.inbox = 8;
    opening.settings.backlog = 8;
    let mut making = Making::new(opening).unbooted(&[0]);
    making.answered();
    for one in todo {
        making.done(match one {
            Row(body) => Call::Admit { name: b"row".to_vec(), body: body.to_vec(), caller: None },
            Text(name, body) => Call::Admit { name: name.clone(), body: body.clone(), caller: None },
            Sync => Call::Sync,
            Turn => Call::Turn,
        });
    }
    making.list
}

/// The name that a list admits messages for; None where it admits none.
fn name_admitted(todo: &[Do]) -> Option<Vec<u8>> {
    todo.iter().find_map(|one| match one {
        Row(_) => Some(b"row".to_vec()),
        Text(name, _) => Some(name.clone()),
        Sync | Turn => None,
    })
}

const SEED: u64 = 20_261_115;
/// Calls of a random list, at least and at most.
const FEWEST: u64 = 35;
const CALLS: u64 = 60;
/// Bytes that a random list's log may reach, so that the text stays short.
const LOG: usize = 140;

/// Random lists inside the domain of equality, until there are so many and every question was asked.
pub fn random(count: usize) -> Vec<List> {
    let mut asked = Asked::default();
    let mut lists = Vec::new();
    let mut number = 0;
    while lists.len() < count {
        let mut rng = case(SEED, number);
        number += 1;
        let Some((list, here)) = inside(&mut rng) else { continue };
        // The last third must each bring a question that was seldom asked so far.
        if lists.len() * 3 < count * 2 || here.brings(&asked) {
            asked.add(&here);
            lists.push(list);
        }
        assert!(number < 1_000_000, "every question is asked: {:?}", asked.0);
    }
    assert!(asked.0.iter().all(|times| *times > 0), "every question is asked: {:?}", asked.0);
    lists
}

/// How often each question was asked, by its answer's number.
#[derive(Default)]
struct Asked([u64; 17]);

impl Asked {
    fn see(&mut self, answer: &Answer) {
        let numbers = crate::property::decoder::answer_numbers(&crate::output::Answer::of(answer));
        self.0[numbers[0] as usize] += 1;
    }

    fn add(&mut self, other: &Asked) {
        self.0.iter_mut().zip(other.0).for_each(|(times, more)| *times += more);
    }

    fn brings(&self, before: &Asked) -> bool {
        let seldom = before.0.iter().copied().min().unwrap_or(0) + 3;
        self.0.iter().zip(before.0).any(|(here, before)| *here > 0 && before <= seldom)
    }
}

fn inside(rng: &mut Rng) -> Option<(List, Asked)> {
    let mut settings = settings::any(rng);
    settings.groups.truncate(rng.range(1, 3) as usize);
    for (at, group) in settings.groups.iter_mut().enumerate() {
        group.name = vec![b'a' + at as u8];
    }
    let file = b"0\ta\tx\n1\tb\t\n0\n".repeat(rng.below(2) as usize);
    let opening = Opening { settings, log_len: 4_096, store_len: crate::limits::STORE, file };
    let length = rng.range(FEWEST, CALLS);
    let mood = Mood::random(rng);
    let List { opening, calls } = List::made(rng, opening, mood, length);
    let mut making = Making::new(opening);
    let mut asked = Asked::default();
    for call in calls {
        // The Rust has no refusal 17. Such an admit changes nothing, and is left out.
        if making.pool.refusal(&call) == Some(refusal::UNLOADED) {
            continue;
        }
        if !plain(&call) {
            return None;
        }
        let answer = making.call(call);
        let pool = &making.pool;
        let refused = matches!(answer, pool::Answer::Refused(number) if number != refusal::INBOX);
        if refused || pool.failed || pool.closed || pool.outside_domain() || pool.counters.size > LOG {
            return None;
        }
        // The Rust writes no line of a retry, so that the bytes would not be its.
        if pool.retried {
            return None;
        }
        asked.see(&answer);
    }
    (making.list.calls.len() as u64 >= FEWEST).then_some((making.list, asked))
}

/// Texts that are UTF-8, short, and without a final CR.
fn plain(call: &Call) -> bool {
    let fits = |text: &[u8]| std::str::from_utf8(text).is_ok() && text.len() <= 20 && text.last() != Some(&b'\r');
    match call {
        Call::Admit { name, body, .. } | Call::Reply(Reply::Send(name, body)) => fits(name) && fits(body),
        _ => true,
    }
}
