//! Records, marks and flushes of a running log (docs/RULES.md, section 2; row ends 6 and 7).
use super::lent;
use crate::limits::refusal;
use crate::model::log::{Counters, LogId, Order, append, append_refusal, mark, open, readable, sync};

/// A log of `log_len` bytes with the records `0⇥row⇥x␊` and `1⇥row⇥x␊`, of 8 bytes each.
fn two_records(log_len: usize) -> (Counters, Vec<u8>) {
    let mut log = lent(log_len, b"");
    let (mut counters, _) = open(&mut log, &readable(b"").unwrap());
    for id in 0..2 {
        assert_eq!(append_refusal(&counters, log_len, b"row", b"x"), None);
        assert_eq!(append(&mut counters, &mut log, b"row", b"x").0, LogId(id));
    }
    assert_eq!(counters, Counters { next: 2, live: 16, size: 16, dirty: true });
    (counters, log)
}

#[test]
fn row_end_6_a_rewrite_where_compact_at_is_reached() {
    let (mut counters, mut log) = two_records(64);
    assert_eq!(mark(&mut counters, &mut log, 20, LogId(0)), Some(Order::Append(16, 18)));
    assert_eq!(&log[..18], b"0\trow\tx\n1\trow\tx\n0\n");
    assert_eq!(mark(&mut counters, &mut log, 20, LogId(1)), Some(Order::Replace(0)));
    assert_eq!((counters.live, counters.size), (0, 0));
}

#[test]
fn row_end_6_no_rewrite_one_below_it() {
    let (mut counters, mut log) = two_records(64);
    mark(&mut counters, &mut log, 21, LogId(0));
    assert_eq!(mark(&mut counters, &mut log, 21, LogId(1)), Some(Order::Append(18, 20)));
}

#[test]
fn row_end_7_a_rewrite_where_a_done_line_has_no_room() {
    let (mut counters, mut log) = two_records(16);
    assert_eq!(mark(&mut counters, &mut log, 64, LogId(0)), Some(Order::Replace(8)));
    assert_eq!(&log[..8], b"1\trow\tx\n");
}

#[test]
fn bytes_behind_the_new_size_keep_their_value() {
    let (mut counters, mut log) = two_records(16);
    let before = log.clone();
    mark(&mut counters, &mut log, 64, LogId(0));
    assert_eq!(log[8..], before[8..]);
}

#[test]
fn a_mark_of_an_unknown_id_does_nothing() {
    let (mut counters, mut log) = two_records(64);
    let before = (counters, log.clone());
    assert_eq!(mark(&mut counters, &mut log, 1, LogId(2)), None);
    assert_eq!((counters, log), before);
}

#[test]
fn a_record_without_room_goes_out_with_the_open_ones_as_one_replace() {
    let (mut counters, mut log) = two_records(18);
    assert_eq!(mark(&mut counters, &mut log, 64, LogId(0)), Some(Order::Append(16, 18)));
    assert_eq!(append_refusal(&counters, log.len(), b"row", b"y"), None);
    assert_eq!(append(&mut counters, &mut log, b"row", b"y"), (LogId(2), Order::Replace(16)));
    assert_eq!(&log[..16], b"1\trow\tx\n2\trow\ty\n");
}

#[test]
fn refusals_9_and_10_of_a_record() {
    let (counters, log) = two_records(16);
    assert_eq!(append_refusal(&counters, log.len(), b"row", b"x"), Some(refusal::SPACE));
    let last = Counters { next: u64::MAX, ..counters };
    assert_eq!(append_refusal(&last, log.len(), b"row", b"x"), Some(refusal::IDS));
}

#[test]
fn a_flush_is_ordered_once_for_the_records_since_the_last() {
    let (mut counters, mut log) = two_records(64);
    assert_eq!(sync(&mut counters), Some(Order::Flush));
    assert_eq!(sync(&mut counters), None);
    mark(&mut counters, &mut log, 64, LogId(0));
    assert_eq!(sync(&mut counters), None);
    append(&mut counters, &mut log, b"row", b"x");
    assert_eq!(sync(&mut counters), Some(Order::Flush));
}
