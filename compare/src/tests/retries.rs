//! Attempts in the log of the plain program (docs/RULES.md, sections 2, 3 and 6), on the files and lists of calls that
//! the port is held to (src/retries), and by the log's own calls.
use super::lent;
use super::openings::handed_back;
use crate::cuts::disk::{Disk, HandedBack};
use crate::cuts::step;
use crate::model::log::{self, Counters, Left, LogId, Order};
use crate::model::pool::{Pool, Question};
use crate::output::Answer;
use crate::retries::{End, Stated, files, lists};
use crate::spellings;
use crate::view::{FileView, LeftView, LogView};

#[test]
fn what_an_opening_reads_of_attempts() {
    for spellings::Stated { what, opening, end } in files::files() {
        let found = opening.model().map_err(u64::from).map(|pool| spellings::End {
            left: pool.pending.iter().map(|&entry| handed_back(&pool, entry)).collect(),
            next: pool.counters.next,
            log: pool.log[..pool.counters.size].to_vec(),
        });
        assert_eq!(found, end, "{what}");
    }
}

/// The id and the attempts of each logged message that is not done.
fn attempts(pool: &Pool) -> Vec<(u64, u64)> {
    let logged = pool.table.iter().flatten().filter_map(|message| message.id.map(|id| (id.0, message.attempts)));
    let mut attempts: Vec<(u64, u64)> = logged.collect();
    attempts.sort();
    attempts
}

#[test]
fn what_is_written_of_a_retry() {
    for Stated { what, list, end } in lists::lists() {
        let mut pool = list.opening.model().expect("an accepted opening");
        let before = list.calls.len() - end.answers.len();
        let answers: Vec<Answer> = list.calls.iter().map(|call| Answer::of(&pool.call(call))).collect();
        let refused = |answer: &Answer| matches!(answer, Answer::Refused(_));
        assert!(!answers[..before].iter().any(refused), "{what}: {answers:?}");
        let found = End {
            answers: answers[before..].to_vec(),
            live: pool.counters.live as u64,
            size: pool.counters.size as u64,
            dirty: pool.counters.dirty,
            log: pool.log.clone(),
            attempts: attempts(&pool),
        };
        assert_eq!(found, end, "{what}");
    }
}

/// A log of `log_len` bytes that an opening made of a file.
fn opened(log_len: usize, file: &[u8]) -> (Counters, Vec<u8>) {
    let mut log = lent(log_len, file);
    let (counters, _) = log::open(&mut log, &log::readable(file).expect("a readable file"));
    (counters, log)
}

/// The same with the records `0⇥row⇥x␊` and `1⇥row⇥y␊`, of 8 bytes each.
fn two_records(log_len: usize) -> (Counters, Vec<u8>) {
    let (counters, log) = opened(log_len, b"0\trow\tx\n1\trow\ty\n");
    assert_eq!(counters, Counters { next: 2, live: 16, size: 16, dirty: false });
    (counters, log)
}

/// Live is the bytes of the open records and of the lines with their last numbers.
fn live(counters: &Counters, log: &[u8]) -> usize {
    log::open_records(&log[..counters.size]).iter().map(|record| record.live()).sum()
}

#[test]
fn a_retry_that_does_nothing() {
    for (id, attempts) in [(0, 0), (0, 256), (0, u64::MAX), (2, 1), (u64::MAX, 1)] {
        let (mut counters, mut log) = two_records(64);
        let before = (counters, log.clone());
        assert_eq!(log::retry(&mut counters, &mut log, LogId(id), attempts), None, "{id} {attempts}");
        assert_eq!((counters, log), before);
    }
}

#[test]
fn l_64_a_line_behind_the_records_and_the_marks_after_it() {
    let (mut counters, mut log) = two_records(64);
    assert_eq!(log::retry(&mut counters, &mut log, LogId(1), 1), Some(Order::Append(16, 20)));
    assert_eq!(counters, Counters { next: 2, live: 20, size: 20, dirty: false });
    assert_eq!(log::mark(&mut counters, &mut log, 20, LogId(0)), Some(Order::Append(20, 22)));
    assert_eq!(counters.live, 12);
    assert_eq!(log::mark(&mut counters, &mut log, 20, LogId(1)), Some(Order::Replace(0)));
    assert_eq!((counters.live, counters.size), (0, 0));
}

#[test]
fn l_16_no_room_until_a_mark_makes_it() {
    let (mut counters, mut log) = two_records(16);
    let before = (counters, log.clone());
    assert_eq!(log::retry(&mut counters, &mut log, LogId(0), 1), None);
    assert_eq!((counters, log.clone()), before);
    assert_eq!(log::mark(&mut counters, &mut log, 64, LogId(1)), Some(Order::Replace(8)));
    assert_eq!(log::retry(&mut counters, &mut log, LogId(0), 2), Some(Order::Append(8, 12)));
    assert_eq!(&log[..12], b"0\trow\tx\n0\t2\n");
}

#[test]
fn l_24_a_rewrite_without_the_done_record_keeps_the_bytes_behind_it() {
    let (mut counters, mut log) = two_records(24);
    log::mark(&mut counters, &mut log, 64, LogId(0));
    assert_eq!(log::retry(&mut counters, &mut log, LogId(1), 1), Some(Order::Append(18, 22)));
    let before = log.clone();
    assert_eq!(log::retry(&mut counters, &mut log, LogId(1), 2), Some(Order::Replace(12)));
    assert_eq!(&log[..12], b"1\trow\ty\n1\t2\n");
    assert_eq!(log[12..], before[12..]);
    assert_eq!((counters.live, counters.size), (12, 12));
}

#[test]
fn l_26_a_rewrite_moves_the_next_record_up() {
    let (mut counters, mut log) = two_records(26);
    assert_eq!(log::retry(&mut counters, &mut log, LogId(0), 1), Some(Order::Append(16, 20)));
    assert_eq!(log::retry(&mut counters, &mut log, LogId(0), 2), Some(Order::Append(20, 24)));
    let before = log.clone();
    assert_eq!(log::retry(&mut counters, &mut log, LogId(0), 3), Some(Order::Replace(20)));
    assert_eq!(&log[..20], b"0\trow\tx\n0\t3\n1\trow\ty\n");
    assert_eq!(log[20..], before[20..]);
}

#[test]
fn l_16_a_longer_number_has_room_or_not() {
    let (mut counters, mut log) = opened(16, b"1\trow\tyyy\n1\t9\n");
    assert_eq!(counters.size, 14);
    assert_eq!(log::retry(&mut counters, &mut log, LogId(1), 10), Some(Order::Replace(15)));
    assert_eq!(&log[..15], b"1\trow\tyyy\n1\t10\n");
    let (mut counters, mut log) = opened(16, b"1\trow\tyyyyy\n1\t9\n");
    let before = (counters, log.clone());
    assert_eq!(log::retry(&mut counters, &mut log, LogId(1), 10), None);
    assert_eq!((counters, log), before);
}

#[test]
fn live_is_the_open_records_and_their_last_lines() {
    let (mut counters, mut log) = two_records(38);
    for (id, attempts) in [(0, 1), (1, 9), (1, 10), (0, 2), (1, 11), (0, 3), (0, 255)] {
        assert!(log::retry(&mut counters, &mut log, LogId(id), attempts).is_some());
        assert_eq!(counters.live, live(&counters, &log), "{id} {attempts}");
    }
    assert_eq!(log::append(&mut counters, &mut log, b"row", b"z").1, Order::Replace(35));
    assert_eq!(&log[..35], b"0\trow\tx\n0\t255\n1\trow\ty\n1\t11\n2\trow\tz\n");
    assert_eq!(counters.live, live(&counters, &log));
    assert_eq!(log::mark(&mut counters, &mut log, 64, LogId(0)), Some(Order::Append(35, 37)));
    assert_eq!(counters.live, live(&counters, &log));
    assert_eq!(counters.live, 21);
}

#[test]
fn a_retry_does_not_change_whether_a_flush_is_due() {
    let (mut counters, mut log) = two_records(24);
    for attempts in 1..4 {
        assert!(log::retry(&mut counters, &mut log, LogId(0), attempts).is_some());
        assert_eq!(log::sync(&mut counters), None);
    }
    log::mark(&mut counters, &mut log, 64, LogId(0));
    log::append(&mut counters, &mut log, b"", b"");
    log::retry(&mut counters, &mut log, LogId(2), 1);
    assert_eq!(log::sync(&mut counters), Some(Order::Flush));
}

/// Once a retry was ordered, the log is compared by its messages, as they were without it.
#[test]
fn a_log_is_compared_by_its_bytes_up_to_the_first_retry() {
    let list = stated("before Trap is asked").list;
    let mut pool = list.opening.model().expect("an accepted opening");
    let mut bytes = Vec::new();
    for call in &list.calls {
        pool.call(call);
        match LogView::of(&pool).file {
            FileView::Bytes { bytes: now, live } => {
                assert_eq!((now.len(), live), (pool.counters.size, pool.counters.live as u64));
                bytes = now;
            }
            FileView::Left(left) => {
                assert_eq!(left, [LeftView { id: 0, name: b"row".to_vec(), body: b"x".to_vec() }]);
            }
        }
    }
    assert!(LogView::of(&pool).by_messages());
    assert_eq!(bytes, b"0\trow\tx\n");
}

#[test]
fn a_log_is_compared_by_its_bytes_after_a_retry_without_room() {
    let list = stated("a full log").list;
    let mut pool = list.opening.model().expect("an accepted opening");
    for call in &list.calls {
        pool.call(call);
    }
    assert_eq!((attempts(&pool), LogView::of(&pool).by_messages()), (vec![(0, 1), (1, 0)], false));
}

fn stated(what: &str) -> Stated {
    lists::lists().into_iter().find(|stated| stated.what == what).expect("the list")
}

/// A message and the line of its first retry: whatever a cut leaves hands back the attempts of the same moment.
#[test]
fn a_cut_leaves_the_attempts_last_written() {
    let list = stated("before Trap is asked").list;
    let mut pool = list.opening.model().expect("an accepted opening");
    let Some(Question::Store(order)) = pool.open_question() else { unreachable!("the opening's order") };
    let mut disk = Disk::open(&list.opening.file, &[], &pool.log, order);
    list.calls.iter().for_each(|call| assert!(step(&mut disk, &mut pool, call)));
    let mut found = Vec::new();
    for cut in disk.cuts(|_| true) {
        let left = log::readable(&cut.file).expect("a readable file").left;
        assert_eq!(disk.allows(&cut, &HandedBack::of(&left)), Ok(()), "{}", cut.file.escape_ascii());
        // One attempt more or less is of no moment, or of another.
        for wrong in left.iter().flat_map(|left| [left.attempts + 1, left.attempts.wrapping_sub(1)]) {
            let wrong: Vec<Left> = left.iter().map(|left| Left { attempts: wrong, ..left.clone() }).collect();
            assert!(disk.allows(&cut, &HandedBack::of(&wrong)).is_err(), "{}", cut.file.escape_ascii());
        }
        found.push(left.first().map(|left| left.attempts));
    }
    let expected = |length: usize| match length {
        12 => Some(1),
        8.. => Some(0),
        _ => None,
    };
    assert_eq!(found, (0..=12).map(expected).collect::<Vec<_>>());
}
