//! The lists of calls, and what is stated of the end of each. `0⇥row⇥x␊` has 8 bytes, `0⇥1␊` has 4.
use super::{End, Stated};
use crate::lent::LOG_FILL;
use crate::limits::{STORE, refusal};
use crate::model::log::CallerId;
use crate::model::pool::{Call, GroupSetting, Reply, Settings};
use crate::output::Answer;
use crate::property::list::{List, Opening};
use crate::property::replies::{CLOCK, END, NO, NO_EVENTS, RAISES, RECEIVES, STORED, YES, YIELDS};

pub fn lists() -> Vec<Stated> {
    [behind_the_others(), rewritten(), no_room(), own_number(), marks_and_records(), trapped(), no_line(), the_disk()]
        .into_iter()
        .flatten()
        .collect()
}

const TRAP: Answer = Answer::Trap { group: 0 };
const BUSY: Answer = Answer::TurnEnd { busy: true, waiters: false };

fn admit(body: &[u8]) -> Call {
    Call::Admit { name: b"row".to_vec(), body: body.to_vec(), caller: None }
}

const fn append(from: u64, to: u64) -> Answer {
    Answer::Append(from, to)
}

const fn replace(length: u64) -> Answer {
    Answer::Replace(length)
}

/// One group `row` of so many actors at most, whose messages are tried again so many times, on a file in a lent log of
/// so many bytes. Nothing is rewritten for its length.
fn opening((ceiling, retry): (usize, u64), log_len: usize, file: &[u8]) -> Opening {
    let group = GroupSetting { name: b"row".to_vec(), replicas: ceiling, eval: false, timeout: 0, retry };
    let settings =
        Settings { groups: vec![group], max_actors: ceiling, inbox: 8, backlog: 8, compact_at: 64, tick_ns: 1 };
    Opening { settings, log_len, store_len: STORE, file: file.to_vec() }
}

/// The same with another compact_at.
fn compacting(compact_at: usize, mut opening: Opening) -> Opening {
    opening.settings.compact_at = compact_at;
    opening
}

/// The opening's order stored, and two messages: records 0 and 1 of 8 bytes each.
fn two_records() -> Vec<Call> {
    vec![STORED, admit(b"x"), STORED, admit(b"y"), STORED]
}

/// The first turn of a group of two actors and two messages, up to its tick: the first message goes to key 0, the
/// second to key 1.
const SPREAD: [Call; 5] = [Call::Turn, YES, NO, YES, CLOCK];
/// The first turn of a group of one actor, up to its tick.
const ONE: [Call; 3] = [Call::Turn, YES, CLOCK];
/// An actor takes the first message of its mailbox; what it had in its hands is over.
const TAKES: [Call; 3] = [RECEIVES, NO_EVENTS, YES];
/// And raises, up to Sends.
const TAKES_AND_RAISES: [Call; 4] = [RECEIVES, NO_EVENTS, YES, RAISES];
/// An actor that yields, with what it has in its hands and its mailbox.
const LIES: [Call; 2] = [YIELDS, END];

/// A turn in which the one actor is new, takes its message and raises, up to Sends.
fn crashes() -> Vec<Call> {
    joined(&[&ONE, &TAKES_AND_RAISES])
}

/// Parts of a list, one after the other.
fn joined(parts: &[&[Call]]) -> Vec<Call> {
    parts.concat()
}

/// A list of calls, of which the last ones have these answers. What it leaves is said by `leaves`.
fn stated(what: &'static str, opening: Opening, before: Vec<Call>, last: &[(Call, Answer)]) -> Stated {
    let calls = before.into_iter().chain(last.iter().map(|(call, _)| call.clone())).collect();
    let answers = last.iter().map(|(_, answer)| *answer).collect();
    let end = End { answers, live: 0, size: 0, dirty: false, log: Vec::new(), attempts: Vec::new() };
    Stated { what, list: List { opening, calls }, end }
}

impl Stated {
    /// The log's file and the bytes behind it up to those that nobody wrote; how many bytes are live; the attempts
    /// that the logged messages have.
    fn leaves(mut self, file: &[u8], behind: &[u8], live: u64, attempts: &[(u64, u64)]) -> Stated {
        let mut log = [file, behind].concat();
        log.resize(self.list.opening.log_len, LOG_FILL);
        self.end = End { live, size: file.len() as u64, log, attempts: attempts.to_vec(), ..self.end };
        self
    }

    /// A record was written since the last flush.
    fn dirty(mut self) -> Stated {
        self.end.dirty = true;
        self
    }
}

/// The line has room behind the others.
fn behind_the_others() -> Vec<Stated> {
    let crash = joined(&[&[STORED, admit(b"x"), STORED], &crashes()]);
    let second = joined(&[&two_records(), &SPREAD, &LIES, &TAKES_AND_RAISES]);
    let again = joined(&[&[END, STORED, NO], &crashes()]);
    // 9 is handed back.
    let tenth = joined(&[&[STORED], &crashes()]);
    let five = joined(&[&[STORED], &crashes(), &again, &again, &again, &again]);
    vec![
        stated(
            "before Trap is asked",
            opening((1, 1), 64, b""),
            crash,
            &[(END, append(8, 12)), (STORED, TRAP), (NO, BUSY)],
        )
        .leaves(b"0\trow\tx\n0\t1\n", b"", 12, &[(0, 1)])
        .dirty(),
        stated(
            "of the second of two messages",
            compacting(20, opening((2, 1), 64, b"")),
            second,
            &[(END, append(16, 20)), (STORED, TRAP)],
        )
        .leaves(b"0\trow\tx\n1\trow\ty\n1\t1\n", b"", 20, &[(0, 0), (1, 1)])
        .dirty(),
        stated(
            "a digit more",
            opening((1, 255), 64, b"0\trow\tx\n0\t9\n"),
            tenth,
            &[(END, append(12, 17)), (STORED, TRAP)],
        )
        .leaves(b"0\trow\tx\n0\t9\n0\t10\n", b"", 13, &[(0, 10)]),
        stated(
            "compact_at has no part in it",
            compacting(1, opening((1, 255), 64, b"0\trow\tx\n")),
            five,
            &[(END, append(24, 28)), (STORED, TRAP)],
        )
        .leaves(b"0\trow\tx\n0\t1\n0\t2\n0\t3\n0\t4\n0\t5\n", b"", 12, &[(0, 5)]),
    ]
}

/// The line has room once the open records are written anew.
fn rewritten() -> Vec<Stated> {
    // 0 is marked; 1 is tried again, and once more.
    let marked = joined(&[&two_records(), &ONE, &TAKES, &TAKES_AND_RAISES]);
    let again = joined(&[&marked, &[STORED, END, STORED, NO], &crashes()]);
    // 0 is tried again three times, while 1 lies in the mailbox of key 1.
    let first = joined(&[&two_records(), &SPREAD, &TAKES_AND_RAISES]);
    let more = |before: &[Call]| joined(&[before, &[Call::Turn, YES, CLOCK], &LIES, &TAKES_AND_RAISES]);
    let second = more(&joined(&[&first, &[END, STORED, NO], &LIES]));
    let third = more(&joined(&[&second, &[END, STORED, NO]]));
    let nine = joined(&[&[STORED], &crashes()]);
    vec![
        stated(
            "behind a done line",
            opening((1, 2), 24, b""),
            marked,
            &[(STORED, Answer::Sends { group: 0, key: 0 }), (END, append(18, 22)), (STORED, TRAP)],
        )
        .leaves(b"0\trow\tx\n1\trow\ty\n0\n1\t1\n", b"", 12, &[(1, 1)])
        .dirty(),
        stated("without a done record", opening((1, 2), 24, b""), again, &[(END, replace(12)), (STORED, TRAP)])
            .leaves(b"1\trow\ty\n1\t2\n", b"w\ty\n0\n1\t1\n", 12, &[(1, 2)])
            .dirty(),
        stated("the first line", opening((2, 3), 26, b""), first, &[(END, append(16, 20)), (STORED, TRAP)])
            .leaves(b"0\trow\tx\n1\trow\ty\n0\t1\n", b"", 20, &[(0, 1), (1, 0)])
            .dirty(),
        stated("the second line", opening((2, 3), 26, b""), second, &[(END, append(20, 24)), (STORED, TRAP)])
            .leaves(b"0\trow\tx\n1\trow\ty\n0\t1\n0\t2\n", b"", 20, &[(0, 2), (1, 0)])
            .dirty(),
        stated("a record moves up", opening((2, 3), 26, b""), third, &[(END, replace(20)), (STORED, TRAP)])
            .leaves(b"0\trow\tx\n0\t3\n1\trow\ty\n", b"0\t2\n", 20, &[(0, 3), (1, 0)])
            .dirty(),
        stated(
            "the file grows by a digit",
            opening((1, 255), 16, b"1\trow\tyyy\n1\t9\n"),
            nine,
            &[(END, replace(15)), (STORED, TRAP)],
        )
        .leaves(b"1\trow\tyyy\n1\t10\n", b"", 15, &[(1, 10)]),
    ]
}

/// The line has no room either way: nothing is ordered, and the message is tried again all the same.
fn no_room() -> Vec<Stated> {
    let first = joined(&[&two_records(), &SPREAD, &TAKES_AND_RAISES]);
    // Then 1 is taken, finished and marked by key 1.
    let marked = joined(&[&first, &[END, NO], &TAKES, &[RECEIVES]]);
    // In the next turn the idle key 1 takes 0, and raises.
    let again = joined(&[&marked, &[NO_EVENTS, STORED, END, Call::Turn, CLOCK], &TAKES_AND_RAISES]);
    let nine = joined(&[&[STORED], &crashes()]);
    vec![
        stated("a full log", opening((2, 3), 16, b""), first, &[(END, TRAP)])
            .leaves(b"0\trow\tx\n1\trow\ty\n", b"", 16, &[(0, 1), (1, 0)])
            .dirty(),
        stated("a mark makes room", opening((2, 3), 16, b""), marked, &[(NO_EVENTS, replace(8))])
            .leaves(b"0\trow\tx\n", b"1\trow\ty\n", 8, &[(0, 1)])
            .dirty(),
        stated("the next retry has it", opening((2, 3), 16, b""), again, &[(END, append(8, 12)), (STORED, TRAP)])
            .leaves(b"0\trow\tx\n0\t2\n", b"w\ty\n", 12, &[(0, 2)])
            .dirty(),
        stated(
            "a digit more has no room, and the number before stays",
            opening((1, 255), 16, b"1\trow\tyyyyy\n1\t9\n"),
            nine,
            &[(END, TRAP), (NO, BUSY)],
        )
        .leaves(b"1\trow\tyyyyy\n1\t9\n", b"", 16, &[(1, 10)]),
    ]
}

/// After a retry without room the log keeps its own number: a rewrite writes 9 again, and the next retry 11.
fn own_number() -> Vec<Stated> {
    let file = b"0\trow\tx\n1\trow\tyyyyy\n1\t9\n";
    let unwritten = joined(&[&[STORED], &SPREAD, &LIES, &TAKES_AND_RAISES]);
    // In the next turn key 0 takes and finishes 0, and a new actor takes 1.
    let marked = joined(&[&unwritten, &[END, NO, Call::Turn, YES, CLOCK], &TAKES, &[RECEIVES]]);
    let next = joined(&[&marked, &[NO_EVENTS, STORED, END], &TAKES_AND_RAISES]);
    let opening = || opening((2, 255), 24, file);
    vec![
        stated("10 is not written", opening(), unwritten, &[(END, TRAP)]).leaves(file, b"", 24, &[(0, 0), (1, 10)]),
        stated("a rewrite writes the log's own number", opening(), marked, &[(NO_EVENTS, replace(16))]).leaves(
            b"1\trow\tyyyyy\n1\t9\n",
            b"yyy\n1\t9\n",
            16,
            &[(1, 10)],
        ),
        stated("the next number is the message's", opening(), next, &[(END, append(16, 21)), (STORED, TRAP)]).leaves(
            b"1\trow\tyyyyy\n1\t9\n1\t11\n",
            b"\t9\n",
            17,
            &[(1, 11)],
        ),
    ]
}

/// Marks and records on a log with attempts.
fn marks_and_records() -> Vec<Stated> {
    // 1 is tried again. In the next turn it comes to key 0, which takes and finishes both.
    let second = joined(&[&two_records(), &SPREAD, &LIES, &TAKES_AND_RAISES, &[END, STORED, NO]]);
    let finished = joined(&[&second, &[Call::Turn, NO, CLOCK], &TAKES, &TAKES, &[RECEIVES]]);
    let tried = joined(&[&[STORED], &crashes(), &[END, STORED, NO]]);
    let with_1 = b"0\trow\tx\n0\t1\n";
    vec![
        stated(
            "a mark takes off record and line, and twice the rest counts the line",
            compacting(20, opening((2, 1), 64, b"")),
            finished,
            &[(NO_EVENTS, append(20, 22)), (STORED, replace(0))],
        )
        .leaves(b"", b"0\trow\tx\n1\trow\ty\n1\t1\n0\n", 0, &[])
        .dirty(),
        stated(
            "a record without room: the line goes with its record",
            opening((1, 255), 20, with_1),
            tried,
            &[(admit(b"y"), replace(20)), (STORED, Answer::Nothing), (admit(b"z"), no(refusal::SPACE))],
        )
        .leaves(b"0\trow\tx\n0\t2\n1\trow\ty\n", b"", 20, &[(0, 2), (1, 0)])
        .dirty(),
        stated(
            "no room for a record, for the line",
            opening((1, 1), 19, with_1),
            vec![STORED],
            &[(admit(b"y"), no(refusal::SPACE)), (admit(b""), append(12, 19))],
        )
        .leaves(b"0\trow\tx\n0\t1\n1\trow\t\n", b"", 19, &[(0, 1), (1, 0)])
        .dirty(),
    ]
}

const fn no(number: u8) -> Answer {
    Answer::Refused(number as u64)
}

/// What trapped neighbours have in their hands, one after the other in the order of their keys.
fn trapped() -> Vec<Stated> {
    let trapped = |key| Answer::Trapped { group: 0, key };
    // Both boots are answered yes: 0 goes to key 1, and 1 to key 0, which is stepped first.
    let two = joined(&[&two_records(), &[Call::Turn, YES, YES, CLOCK], &TAKES, &LIES, &TAKES_AND_RAISES]);
    // A third message. Key 0 has 2, key 1 has 0, key 2 has 1; the last one raises.
    let third = [admit(b"z"), STORED, Call::Turn, YES, YES, YES, CLOCK];
    let three = joined(&[&two_records(), &third, &TAKES, &LIES, &TAKES, &LIES, &TAKES_AND_RAISES]);
    // The message of key 0 was tried before as often as it may be.
    let file = b"0\trow\tx\n1\trow\ty\n1\t1\n";
    let dead = joined(&[&[STORED, Call::Turn, YES, YES, CLOCK], &TAKES, &LIES, &TAKES_AND_RAISES]);
    let lines = b"0\trow\tx\n1\trow\ty\n0\t1\n1\t1\n";
    let all = b"0\trow\tx\n1\trow\ty\n2\trow\tz\n1\t1\n2\t1\n0\t1\n";
    let asked = [(END, append(24, 28)), (STORED, TRAP), (YES, trapped(0)), (YES, trapped(1))];
    vec![
        stated(
            "a neighbour's line before the turn's end",
            opening((2, 1), 64, b""),
            two.clone(),
            &[(END, append(16, 20)), (STORED, TRAP), (YES, trapped(0)), (YES, append(20, 24)), (STORED, BUSY)],
        )
        .leaves(lines, b"", 24, &[(0, 1), (1, 1)])
        .dirty(),
        stated(
            "a neighbour that was not trapped",
            opening((2, 1), 64, b""),
            two.clone(),
            &[(END, append(16, 20)), (STORED, TRAP), (YES, trapped(0)), (NO, BUSY)],
        )
        .leaves(b"0\trow\tx\n1\trow\ty\n0\t1\n", b"", 20, &[(0, 1), (1, 0)])
        .dirty(),
        stated(
            "a neighbour's line has no room",
            opening((2, 1), 23, b""),
            two,
            &[(END, append(16, 20)), (STORED, TRAP), (YES, trapped(0)), (YES, BUSY)],
        )
        .leaves(b"0\trow\tx\n1\trow\ty\n0\t1\n", b"", 20, &[(0, 1), (1, 1)])
        .dirty(),
        stated(
            "two neighbours, one order after the other",
            opening((3, 1), 64, b""),
            three.clone(),
            &[&asked[..], &[(YES, append(28, 32)), (STORED, append(32, 36)), (STORED, BUSY)]].concat(),
        )
        .leaves(all, b"", 36, &[(0, 1), (1, 1), (2, 1)])
        .dirty(),
        stated(
            "while the first one's order waits",
            opening((3, 1), 64, b""),
            three,
            &[&asked[..], &[(YES, append(28, 32))]].concat(),
        )
        .leaves(&all[..32], b"", 32, &[(0, 0), (1, 1), (2, 1)])
        .dirty(),
        stated(
            "a neighbour whose message is dead",
            opening((2, 1), 64, file),
            dead,
            &[(END, append(20, 24)), (STORED, TRAP), (YES, trapped(0)), (YES, append(24, 26)), (STORED, BUSY)],
        )
        .leaves(b"0\trow\tx\n1\trow\ty\n1\t1\n0\t1\n1\n", b"", 12, &[(0, 1)]),
    ]
}

/// No line: the message is dead, or has no record.
fn no_line() -> Vec<Stated> {
    let called = Call::Admit { name: b"row".to_vec(), body: b"x".to_vec(), caller: Some(CallerId(7)) };
    let send = Call::Reply(Reply::Send(b"row".to_vec(), b"x".to_vec()));
    let handed_back = joined(&[&[STORED], &crashes()]);
    // The seed sends a message and yields; the turn after it comes to its mailbox.
    let sent = joined(&[&[STORED, Call::Turn, YES, CLOCK, YIELDS, send, END, Call::Turn, CLOCK], &TAKES_AND_RAISES]);
    let twice = joined(&[&handed_back, &[END, STORED, NO], &crashes()]);
    vec![
        stated(
            "handed back with as many attempts as there may be",
            opening((1, 2), 64, b"0\trow\tx\n0\t2\n"),
            handed_back.clone(),
            &[(END, append(12, 14)), (STORED, TRAP)],
        )
        .leaves(b"0\trow\tx\n0\t2\n0\n", b"", 0, &[]),
        stated(
            "handed back with more",
            opening((1, 1), 64, b"0\trow\tx\n0\t200\n"),
            handed_back,
            &[(END, append(14, 16)), (STORED, TRAP)],
        )
        .leaves(b"0\trow\tx\n0\t200\n0\n", b"", 0, &[]),
        stated(
            "255, and then dead",
            opening((1, 255), 64, b"0\trow\tx\n0\t254\n"),
            twice,
            &[(END, append(20, 22)), (STORED, TRAP)],
        )
        .leaves(b"0\trow\tx\n0\t254\n0\t255\n0\n", b"", 0, &[]),
        stated(
            "a message with a caller",
            opening((1, 1), 64, b""),
            joined(&[&[STORED, called], &crashes()]),
            &[(END, TRAP), (NO, BUSY)],
        )
        .leaves(b"", b"", 0, &[]),
        stated("a message that was sent", opening((1, 1), 64, b""), sent, &[(END, TRAP), (NO, BUSY)]).leaves(
            b"",
            b"",
            0,
            &[],
        ),
    ]
}

/// What the disk has to do with it: no flush is due, and a failed order ends everything.
fn the_disk() -> Vec<Stated> {
    let flushed = joined(&[&[STORED, admit(b"x"), STORED, Call::Sync, STORED], &crashes()]);
    let due = joined(&[&[STORED, admit(b"x"), STORED], &crashes(), &[END, STORED, NO]]);
    let line = b"0\trow\tx\n0\t1\n";
    let failed = (Call::Reply(Reply::Failed), Answer::Nothing);
    vec![
        stated(
            "no flush is due",
            opening((1, 1), 64, b""),
            flushed.clone(),
            &[(END, append(8, 12)), (STORED, TRAP), (Call::Sync, TRAP), (NO, BUSY), (Call::Sync, Answer::Nothing)],
        )
        .leaves(line, b"", 12, &[(0, 1)]),
        stated(
            "a flush stays due",
            opening((1, 1), 64, b""),
            due,
            &[(Call::Sync, Answer::Flush), (STORED, Answer::Nothing), (Call::Sync, Answer::Nothing)],
        )
        .leaves(line, b"", 12, &[(0, 1)]),
        stated(
            "calls while the order waits",
            opening((1, 1), 64, b""),
            flushed.clone(),
            &[
                (END, append(8, 12)),
                (NO, no(refusal::REPLY)),
                (Call::Sync, no(refusal::WAITS)),
                (admit(b"y"), no(refusal::WAITS)),
                (STORED, TRAP),
            ],
        )
        .leaves(line, b"", 12, &[(0, 1)]),
        stated(
            "the order fails",
            opening((1, 1), 64, b""),
            flushed,
            &[(END, append(8, 12)), failed, (NO, no(refusal::FAILED)), (Call::Turn, no(refusal::FAILED))],
        )
        .leaves(line, b"", 12, &[(0, 1)]),
    ]
}
