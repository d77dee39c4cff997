//! What turns a call away, and in which order (docs/RULES.md, section 8). Those of an opening are in `openings`.
use super::{STORED, admit, ceiling_0, running, settings};
use crate::limits::{CLOCK_MAX, refusal};
use crate::model::log::CallerId;
use crate::model::pool::{Answer, Call, Pool, Question, Reply};
use crate::output;
use crate::unloaded::{self, End, Stated};

fn answered(pool: &mut Pool, call: &Call) -> Answer {
    let before = pool.clone();
    let answer = pool.call(call);
    if let Answer::Refused(_) = answer {
        pool.events = before.events.clone();
        assert_eq!(*pool, before, "a refused call changes nothing");
    }
    answer
}

fn refused(pool: &mut Pool, call: &Call) -> Option<u8> {
    match answered(pool, call) {
        Answer::Refused(number) => Some(number),
        _ => None,
    }
}

#[test]
fn refusal_5_a_name_or_a_body_too_long() {
    let mut settings = settings(1, 64);
    settings.groups[0].name = vec![b'x'; 32];
    let mut pool = running(&settings, 1_000, b"");
    assert_eq!(refused(&mut pool, &admit(b"row", &[b'x'; 129])), Some(refusal::TEXT));
    assert_eq!(refused(&mut pool, &admit(&[b'x'; 33], b"")), Some(refusal::TEXT));
    assert_eq!(refused(&mut pool, &admit(&[b'x'; 32], &[b'x'; 128])), None);
}

#[test]
fn refusal_6_a_full_inbox() {
    let mut pool = running(&settings(1, 64), 64, b"");
    pool.call(&admit(b"row", b"x"));
    pool.call(&STORED);
    assert_eq!(refused(&mut pool, &admit(b"row", b"x")), Some(refusal::INBOX));
}

#[test]
fn refusal_7_after_close_and_closing_twice_is_accepted() {
    let mut pool = running(&settings(1, 64), 64, b"");
    assert_eq!(pool.call(&Call::Close), Answer::Open(None));
    assert_eq!(refused(&mut pool, &admit(b"row", b"x")), Some(refusal::CLOSED));
    assert_eq!(pool.call(&Call::Close), Answer::Open(None));
}

#[test]
fn refusal_8_the_257th_message() {
    let left: String = (0..256).map(|id| format!("{id}\t\t\n")).collect();
    let mut pool = running(&settings(1, 64), 4_000, left.as_bytes());
    assert_eq!(pool.live_messages(), 256);
    assert_eq!(refused(&mut pool, &admit(b"row", b"x")), Some(refusal::MESSAGES));
}

#[test]
fn refusal_9_no_id_left() {
    let mut pool = running(&settings(1, 64), 64, b"18446744073709551614\t\t\n");
    assert_eq!(refused(&mut pool, &admit(b"row", b"x")), Some(refusal::IDS));
}

#[test]
fn refusal_10_the_third_record_of_8_bytes_in_a_log_of_16() {
    let mut pool = running(&settings(3, 64), 16, b"");
    for _ in 0..2 {
        assert_eq!(refused(&mut pool, &admit(b"row", b"x")), None);
        pool.call(&STORED);
    }
    assert_eq!(refused(&mut pool, &admit(b"row", b"x")), Some(refusal::SPACE));
    // A message that a caller waits for is not logged.
    let waited = Call::Admit { name: b"row".to_vec(), body: b"x".to_vec(), caller: Some(CallerId(7)) };
    assert_eq!(refused(&mut pool, &waited), None);
}

#[test]
fn refusal_11_a_call_while_an_order_waits() {
    let mut pool = super::opened(&settings(1, 64), 64, b"").expect("an accepted opening");
    for call in [admit(b"row", b"x"), Call::Turn, Call::Sync, Call::Close] {
        assert_eq!(refused(&mut pool, &call), Some(refusal::WAITS));
    }
    assert_eq!(refused(&mut pool, &STORED), None);
}

#[test]
fn refusal_12_a_reply_to_nothing_or_one_that_does_not_fit() {
    let mut pool = running(&ceiling_0(1, 64), 64, b"");
    assert_eq!(refused(&mut pool, &STORED), Some(refusal::REPLY));
    assert_eq!(pool.call(&Call::Turn), Answer::Open(Some(Question::Clock)));
    let clock = |clock| Call::Reply(Reply::Clock(clock));
    assert_eq!(refused(&mut pool, &Call::Reply(Reply::Yes)), Some(refusal::REPLY));
    assert_eq!(refused(&mut pool, &clock(CLOCK_MAX + 1)), Some(refusal::REPLY));
    assert_eq!(pool.call(&clock(CLOCK_MAX)), Answer::TurnEnd { busy: false, waiters: false });
}

#[test]
fn refusal_13_a_turn_during_a_turn() {
    let mut pool = running(&settings(1, 64), 64, b"");
    pool.call(&Call::Turn);
    assert_eq!(refused(&mut pool, &Call::Turn), Some(refusal::TURN));
}

#[test]
fn refusal_14_everything_after_a_failed_store() {
    let mut pool = running(&settings(1, 64), 64, b"");
    pool.call(&admit(b"row", b"x"));
    assert_eq!(pool.call(&Call::Reply(Reply::Failed)), Answer::Open(None));
    for call in [admit(b"row", b"x"), Call::Turn, STORED, Call::Sync, Call::Close] {
        assert_eq!(refused(&mut pool, &call), Some(refusal::FAILED));
    }
}

#[test]
fn refusal_17_a_program_that_is_not_loaded() {
    for Stated { what, list, end } in unloaded::lists() {
        let mut pool = list.opening.model().expect("an accepted opening");
        let (before, last) = list.calls.split_at(list.calls.len() - end.answers.len());
        before.iter().for_each(|call| assert_eq!(refused(&mut pool, call), None, "{what}"));
        let answers = last.iter().map(|call| output::Answer::of(&answered(&mut pool, call))).collect();
        let log = pool.log[..pool.counters.size].to_vec();
        let found = End { answers, next: pool.counters.next, log, live: pool.live_messages() };
        assert_eq!(found, end, "{what}");
    }
}

#[test]
fn the_order_of_refusals() {
    let long = admit(b"row", &[b'x'; 129]);
    // An order waits before the text is looked at; a turn inside a turn waits for the order too.
    let mut pool = running(&settings(1, 64), 16, b"");
    pool.call(&Call::Turn);
    pool.call(&admit(b"row", b"x"));
    assert_eq!(refused(&mut pool, &long), Some(refusal::WAITS));
    assert_eq!(refused(&mut pool, &Call::Turn), Some(refusal::WAITS));
    // The question beneath the order is not the one that is open.
    let no = Call::Reply(Reply::No);
    assert_eq!(refused(&mut pool, &no), Some(refusal::REPLY));
    pool.call(&STORED);
    // A text too long, then a full inbox, then a closed one, then no room.
    pool.call(&Call::Close);
    assert_eq!(refused(&mut pool, &long), Some(refusal::TEXT));
    assert_eq!(refused(&mut pool, &admit(b"row", b"xyz")), Some(refusal::INBOX));
    // No actor boots, neither as the seed nor for the message, which is taken in and marked: the inbox is empty.
    for call in [&no, &no, &STORED] {
        pool.call(call);
    }
    assert_eq!(refused(&mut pool, &admit(b"row", &[b'x'; 100])), Some(refusal::CLOSED));
}

#[test]
fn the_order_of_8_9_and_10() {
    let mut left: String = (0..255).map(|id| format!("{id}\t\t\n")).collect();
    left.push_str("18446744073709551614\t\t\n");
    let mut pool = running(&settings(1, 64), left.len(), left.as_bytes());
    let call = admit(b"row", b"x");
    assert_eq!(refused(&mut pool, &call), Some(refusal::MESSAGES));
    let mut pool = running(&settings(1, 64), 23, b"18446744073709551614\t\t\n");
    assert_eq!(refused(&mut pool, &call), Some(refusal::IDS));
}
