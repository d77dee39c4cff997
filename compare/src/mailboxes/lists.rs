//! The lists of calls, and what is stated of the last call of each. Entries are given in the order 0, 1, 2 and so on,
//! and none that was free before is taken again up to there, so that the plain program gives the same ones.
use super::{Change, End, Stated};
use crate::limits::{MESSAGES, STORE};
use crate::model::log::CallerId;
use crate::model::pool::{Call, GroupSetting, Reply, Settings};
use crate::output::Answer;
use crate::property::list::{List, Opening};
use crate::property::replies::{CLOCK, END, ENDS, NO, NO_EVENTS, RAISES, RECEIVES, STORED, YES, YIELDS};
use crate::tables::list::{BATCH, FREE, HAND, INBOX, OVER, PENDING, hand, mailbox};

pub fn lists() -> Vec<Stated> {
    [put_at_the_end(), taken(), put_at_the_front(), sent_back(), over(), trapped()].into_iter().flatten().collect()
}

/// The groups, by their numbers: one that takes up entries and lets its mail lie, and the one whose mailboxes are
/// looked at.
const OTHER: usize = 0;
const ROW: usize = 1;

const BOOT: Answer = Answer::Boot { group: ROW as u64 };
const PUSH: Answer = Answer::Push { group: ROW as u64, key: 0 };
const SENDS: Answer = Answer::Sends { group: ROW as u64, key: 0 };
const BUSY: Answer = Answer::TurnEnd { busy: true, waiters: false };

/// A message for `row`, logged.
fn admit() -> Call {
    Call::Admit { name: b"row".to_vec(), body: b"x".to_vec(), caller: None }
}

/// A message for `row` with a caller, not logged.
fn called() -> Call {
    Call::Admit { name: b"row".to_vec(), body: b"x".to_vec(), caller: Some(CallerId(7)) }
}

/// A message for `row` that an actor sends.
fn send() -> Call {
    Call::Reply(Reply::Send(b"row".to_vec(), b"x".to_vec()))
}

/// A file leaves so many messages, each with one number as its entry and its id. These are for `row`, the rest are for
/// `other`. There may be one actor of `other` and two of `row`, and a message that crashes is tried once more.
fn opening(entries: usize, for_row: &[usize]) -> Opening {
    let group =
        |name: &[u8], replicas| GroupSetting { name: name.into(), replicas, eval: false, timeout: 0, retry: 1 };
    let groups = vec![group(b"other", 1), group(b"row", 2)];
    let settings = Settings { groups, max_actors: 2, inbox: 8, backlog: 64, compact_at: 4_096, tick_ns: 1 };
    let name = |id| if for_row.contains(&id) { "row" } else { "other" };
    let file: String = (0..entries).map(|id| format!("{id}\t{}\tx\n", name(id))).collect();
    Opening { settings, log_len: 4_096, store_len: STORE, file: file.into_bytes() }
}

/// A change of a list.
fn change(list: usize, before: &[usize], after: &[usize]) -> Change {
    Change { list, before: before.to_vec(), after: after.to_vec() }
}

/// A list of calls, with the opening's order stored before them; what is stated is of the last one.
fn stated(
    what: &'static str,
    opening: Opening,
    before: &[Call],
    (last, answer): (Call, Answer),
    changes: &[Change],
) -> Stated {
    let calls = joined(&[&[STORED], before, &[last]]);
    Stated { what, list: List { opening, calls }, end: End { answer, changes: changes.to_vec() } }
}

/// Parts of a list, one after the other.
fn joined(parts: &[&[Call]]) -> Vec<Call> {
    parts.concat()
}

/// Ten entries, of which 2, 4 and 9 are for `row`.
fn ten() -> Opening {
    opening(10, &[2, 4, 9])
}

/// The first turn up to its routing: both groups get an actor. From then on each message of `row` asks for one (Boot)
/// while there is one only.
const SEEDS: [Call; 3] = [Call::Turn, YES, YES];
/// From the clock on: the actor of `other` lets its mail lie.
const OTHER_YIELDS: [Call; 3] = [CLOCK, YIELDS, END];
/// An actor of `row` takes the first message of its mailbox, as far as Push.
const TAKES: [Call; 2] = [RECEIVES, NO_EVENTS];

/// The turn in which `row` takes 2 and raises, up to Sends: 4 and 9 are in the mailbox, 2 in the step's hand.
fn two_raises() -> Vec<Call> {
    joined(&[&SEEDS, &[NO; 3], &OTHER_YIELDS, &TAKES, &[YES, RAISES]])
}

/// The next turn: 4, 9 and 2 are routed, in this order. The Boot for 4 is open. That 2 is tried again was written.
fn again() -> Vec<Call> {
    joined(&[&two_raises(), &[END, STORED, NO, Call::Turn]])
}

/// A new actor has 4 and 9; the Boot for 2 is open.
fn four_nine() -> Vec<Call> {
    joined(&[&again(), &[YES, NO]])
}

/// It has 4, 9 and 2, and takes up its step: Run is open.
fn four_nine_two() -> Vec<Call> {
    joined(&[&four_nine(), &[NO], &OTHER_YIELDS])
}

fn put_at_the_end() -> Vec<Stated> {
    let (row, other) = (mailbox(ROW, 0), mailbox(OTHER, 0));
    vec![
        stated(
            "deliveries to two mailboxes in turn",
            ten(),
            &joined(&[&SEEDS, &[NO]]),
            (NO, BOOT),
            &[
                change(BATCH, &[4, 5, 6, 7, 8, 9], &[9]),
                change(other, &[0, 1, 3], &[0, 1, 3, 5, 6, 7, 8]),
                change(row, &[2], &[2, 4]),
            ],
        ),
        stated(
            "a delivery to an empty mailbox",
            ten(),
            &again(),
            (YES, BOOT),
            &[change(BATCH, &[4, 9, 2], &[9, 2]), change(row, &[], &[4])],
        ),
        stated(
            "an older entry behind two younger ones",
            ten(),
            &four_nine(),
            (NO, Answer::Clock),
            &[change(BATCH, &[2], &[]), change(row, &[4, 9], &[4, 9, 2])],
        ),
    ]
}

fn taken() -> Vec<Stated> {
    let row = mailbox(ROW, 0);
    let mut eval = opening(10, &[4, 9]);
    eval.settings.groups[ROW].eval = true;
    eval.settings.max_actors = 1;
    vec![
        stated(
            "the first of three is taken",
            ten(),
            &joined(&[&four_nine_two(), &[RECEIVES]]),
            (NO_EVENTS, PUSH),
            &[change(row, &[4, 9, 2], &[9, 2]), change(HAND, &[], &[4])],
        ),
        stated(
            "the only one is taken",
            opening(8, &[7]),
            &joined(&[&SEEDS, &[NO], &OTHER_YIELDS, &[RECEIVES]]),
            (NO_EVENTS, PUSH),
            &[change(row, &[7], &[]), change(HAND, &[], &[7])],
        ),
        stated(
            "an eval actor takes the first of two",
            eval,
            &[Call::Turn, YES, CLOCK, YIELDS],
            (END, BOOT),
            &[change(row, &[4, 9], &[9]), change(HAND, &[], &[4])],
        ),
    ]
}

fn put_at_the_front() -> Vec<Stated> {
    let row = mailbox(ROW, 0);
    let seven_taken = joined(&[&SEEDS, &[NO], &OTHER_YIELDS, &TAKES]);
    vec![
        stated(
            "Push is answered no, in front of two others",
            ten(),
            &joined(&[&four_nine_two(), &TAKES]),
            (NO, SENDS),
            &[change(row, &[9, 2], &[4, 9, 2]), change(HAND, &[4], &[])],
        ),
        stated(
            "Push is answered no, and the mailbox is empty",
            opening(8, &[7]),
            &seven_taken,
            (NO, SENDS),
            &[change(row, &[], &[7]), change(HAND, &[7], &[])],
        ),
        stated(
            "a delivery behind what Push gave back",
            opening(8, &[7]),
            &joined(&[&seven_taken, &[NO, END, admit(), STORED]]),
            (Call::Turn, Answer::Clock),
            &[change(INBOX, &[8], &[]), change(row, &[7], &[7, 8])],
        ),
    ]
}

/// An actor that took a message: its mailbox goes to the end of pending.
fn sent_back() -> Vec<Stated> {
    let row = mailbox(ROW, 0);
    vec![
        stated(
            "an actor that took a message ends",
            ten(),
            // `other` sends a message before: entry 10 is pending. 4 is over and marked.
            &joined(&[&four_nine(), &[NO, CLOCK, YIELDS, send(), END], &TAKES, &[YES, ENDS, STORED]]),
            (END, BUSY),
            &[change(PENDING, &[10], &[10, 9, 2]), change(row, &[9, 2], &[])],
        ),
        stated(
            "an actor that took a message raises",
            ten(),
            &two_raises(),
            // Seven records of 10 bytes and three of 8; that 2 is tried again has 4.
            (END, Answer::Append(94, 98)),
            &[change(PENDING, &[], &[4, 9, 2]), change(row, &[4, 9], &[]), change(HAND, &[2], &[])],
        ),
    ]
}

/// An actor that never took a message: its logged mail is over, the entries of the other mail are free at once. The
/// mark of the first that is over is ordered in the same call, and its entry is free then too.
fn over() -> Vec<Stated> {
    let row = mailbox(ROW, 0);
    let free = |from: usize, more: &[usize]| (from..MESSAGES).chain(more.iter().copied()).collect::<Vec<_>>();
    // Five entries are those of `other`. Entry 5 has the log id 5, 6 has a caller, 7 has the log id 6.
    let admitted = [admit(), STORED, called(), admit(), STORED];
    // Entry 8 has the log id 7, and 9 a caller.
    let two_more = [admit(), STORED, called()];
    let three = joined(&[&admitted, &SEEDS, &[NO; 3], &OTHER_YIELDS, &[ENDS]]);
    let five = joined(&[&admitted, &two_more, &SEEDS, &[NO; 5], &OTHER_YIELDS, &[RAISES]]);
    vec![
        stated(
            "an actor that never took a message ends",
            opening(5, &[]),
            &three,
            (END, Answer::Append(66, 68)),
            &[change(row, &[5, 6, 7], &[]), change(OVER, &[], &[7]), change(FREE, &free(8, &[]), &free(8, &[6, 5]))],
        ),
        stated(
            "the next mark",
            opening(5, &[]),
            &joined(&[&three, &[END]]),
            (STORED, Answer::Append(68, 70)),
            &[change(OVER, &[7], &[]), change(FREE, &free(8, &[6, 5]), &free(8, &[6, 5, 7]))],
        ),
        stated(
            "an actor that never took a message raises",
            opening(5, &[]),
            &five,
            (END, Answer::Append(74, 76)),
            &[
                change(row, &[5, 6, 7, 8, 9], &[]),
                change(OVER, &[], &[7, 8]),
                change(FREE, &free(10, &[]), &free(10, &[6, 9, 5])),
            ],
        ),
    ]
}

/// A trapped actor: its mailbox goes to the end of pending, whatever it took.
fn trapped() -> Vec<Stated> {
    let row = mailbox(ROW, 0);
    // A second actor takes entry 10 and raises, which is written, and the first one was trapped with it: Trapped is
    // open.
    let neighbour = joined(&[
        &[END, admit(), STORED, Call::Turn, YES],
        &OTHER_YIELDS,
        &[YIELDS, END],
        &TAKES,
        &[YES, RAISES, END, STORED, YES],
    ]);
    vec![
        stated(
            "a trapped actor with three messages",
            ten(),
            &joined(&[&four_nine_two(), &[YIELDS], &neighbour]),
            (YES, BUSY),
            &[change(PENDING, &[10], &[10, 4, 9, 2]), change(row, &[4, 9, 2], &[])],
        ),
        stated(
            "a trapped actor with two messages, and one in its hands",
            ten(),
            &joined(&[&four_nine_two(), &TAKES, &[YES, YIELDS], &neighbour]),
            // Behind the line of 2, the record of 10 and its line.
            (YES, Answer::Append(112, 116)),
            &[change(PENDING, &[10], &[10, 9, 2, 4]), change(row, &[9, 2], &[]), change(hand(ROW, 0), &[4], &[])],
        ),
    ]
}
