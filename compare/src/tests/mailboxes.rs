//! The mailboxes of the plain program, on the lists of calls that the port is held to (src/mailboxes). Until an
//! entry that was free before is taken again, it gives the entries that the port gives.
use crate::limits::MESSAGES;
use crate::mailboxes::{self, Change, End, Stated};
use crate::model::log::{CallerId, LogId};
use crate::model::pool::Pool;
use crate::output::Answer;
use crate::tables::{LISTS, list};

/// All lists of messages, numbered as the port's. Which free entry comes first is not decided: they are in rising
/// order here.
fn lists(pool: &Pool) -> Vec<Vec<usize>> {
    let mut lists = vec![Vec::new(); LISTS];
    lists[list::FREE] = (0..MESSAGES).filter(|&entry| pool.table[entry].is_none()).collect();
    lists[list::INBOX] = pool.inbox.iter().copied().collect();
    lists[list::PENDING] = pool.pending.iter().copied().collect();
    lists[list::BATCH] = pool.batch.iter().copied().collect();
    lists[list::OVER] = pool.over.iter().copied().collect();
    lists[list::HAND] = pool.hand.into_iter().collect();
    for (g, group) in pool.groups.iter().enumerate() {
        for key in group.actors.keys() {
            let actor = group.actors.get(key).unwrap();
            let run = actor.run.as_ref().map(|run| run.message);
            lists[list::mailbox(g, key)] = actor.mailbox.iter().copied().collect();
            lists[list::hand(g, key)] = actor.in_flight.into_iter().chain(run).collect();
        }
    }
    lists
}

fn free_in_rising_order(mut change: Change) -> Change {
    if change.list == list::FREE {
        change.before.sort();
        change.after.sort();
    }
    change
}

/// The pool before the last call of a list.
fn before_the_last(stated: &Stated) -> Pool {
    let mut pool = stated.list.opening.model().expect("an accepted opening");
    let (_, before) = stated.list.calls.split_last().expect("a call");
    for call in before {
        pool.call(call);
    }
    pool
}

#[test]
fn the_lists_that_a_call_changes_and_no_others() {
    for stated in mailboxes::lists::lists() {
        let mut pool = before_the_last(&stated);
        let before = lists(&pool);
        let answer = pool.call(stated.list.calls.last().unwrap());
        let Stated { what, end: End { answer: expected, changes }, .. } = stated;
        assert_eq!(Answer::of(&answer), expected, "{what}");
        let end = End { answer: expected, changes: changes.into_iter().map(free_in_rising_order).collect() };
        assert_eq!(end.check(&before, &lists(&pool)), Ok(()), "{what}");
    }
}

/// Of three unread messages the first and the last are logged, under 5 and 6.
#[test]
fn the_mail_of_an_actor_that_never_took_a_message() {
    let ends = |stated: &Stated| stated.what == "an actor that never took a message ends";
    let stated = mailboxes::lists::lists().into_iter().find(ends).expect("the list");
    let pool = before_the_last(&stated);
    let ids = |entry: usize| (pool.message(entry).id, pool.message(entry).caller);
    let mail = [(Some(LogId(5)), None), (None, Some(CallerId(7))), (Some(LogId(6)), None)];
    assert_eq!([5, 6, 7].map(ids), mail);
}
