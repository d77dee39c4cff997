//! What an opening makes of a file (docs/RULES.md, section 2; row ends 3 to 5), and what refuses it (section 8).
use super::{lent, opened, settings};
use crate::limits::{GROUPS_MAX, LOG_MAX, STORE, refusal};
use crate::model::log::{Left, Order, image, readable};
use crate::model::pool::{self, Answer, Pool, Question};
use crate::spellings::{self, End, Stated};

/// The ids that are left, the next id, and the file that the opening writes.
fn read(file: &[u8]) -> (Vec<u64>, u64, Vec<u8>) {
    let reading = readable(file).expect("a readable file");
    (reading.left.iter().map(|left| left.id.0).collect(), reading.next, image(&reading.left))
}

#[test]
fn row_end_3_a_done_line_takes_a_record_off() {
    let (left, next, image) = read(b"3\trow\tx\n1\trow\ty\n3\n");
    assert_eq!((left, next), (vec![1], 4));
    assert_eq!(image, b"1\trow\ty\n");
}

#[test]
fn row_end_4_a_torn_line_is_no_mark() {
    assert_eq!(read(b"12\trow\tx\n1\trow\ty\n1").0, [1, 12]);
}

#[test]
fn row_end_5_a_plus_or_a_line_of_two_fields_leaves_none() {
    assert_eq!(read(b"+5\trow\tx\n"), (vec![], 0, vec![]));
    assert_eq!(read(b"5\trow\n"), (vec![], 0, vec![]));
}

#[test]
fn an_id_has_one_spelling() {
    for Stated { what, opening, end } in spellings::files() {
        let found = opening.model().map_err(u64::from).map(|pool| End {
            left: pool.pending.iter().map(|&entry| handed_back(&pool, entry)).collect(),
            next: pool.counters.next,
            log: pool.log[..pool.counters.size].to_vec(),
        });
        assert_eq!(found, end, "{what}");
    }
}

pub fn handed_back(pool: &Pool, entry: usize) -> Left {
    let message = pool.message(entry);
    let id = message.id.expect("a log id");
    Left { id, name: pool.name(entry).to_vec(), body: pool.body(entry).to_vec(), attempts: message.attempts }
}

#[test]
fn a_later_record_of_the_same_id_wins() {
    assert_eq!(read(b"1\ta\tlonger\n1\tb\ts\n").2, b"1\tb\ts\n");
    assert_eq!(read(b"1\ta\tx\n1\n1\ta\ty\n").2, b"1\ta\ty\n");
}

#[test]
fn the_next_id_is_that_after_the_largest_record_done_or_not() {
    assert_eq!(read(b"9\t\t\n9\n2\t\t\n").1, 10);
    assert_eq!(read(b"9\n").1, 0);
}

#[test]
fn an_opening_orders_the_new_file_and_hands_back_in_rising_order() {
    let pool = opened(&settings(1, 64), 64, b"3\trow\tx\n1\trow\ty\n").expect("an accepted opening");
    assert_eq!(pool.open_question(), Some(Question::Store(Order::Replace(16))));
    assert_eq!(&pool.log[..16], b"1\trow\ty\n3\trow\tx\n");
    let bodies: Vec<&[u8]> = pool.pending.iter().map(|&entry| pool.body(entry)).collect();
    assert_eq!(bodies, [b"y", b"x"]);
    assert_eq!((pool.counters.next, pool.counters.live, pool.counters.size), (4, 16, 16));
}

#[test]
fn refusal_1_a_setting_outside_its_range() {
    let mut wrong = settings(1, 64);
    wrong.groups = vec![wrong.groups[0].clone(); GROUPS_MAX + 1];
    assert_eq!(opened(&wrong, 64, b"").err(), Some(refusal::SETTING));
    let changes: [fn(&mut pool::Settings); 14] = [
        |settings| settings.groups.clear(),
        |settings| settings.groups[0].replicas = 17,
        |settings| settings.groups[0].timeout = 86_401,
        |settings| settings.groups[0].retry = 256,
        |settings| settings.groups[0].name = vec![b'a'; 33],
        |settings| settings.max_actors = 17,
        |settings| settings.inbox = 0,
        |settings| settings.inbox = 65,
        |settings| settings.backlog = 0,
        |settings| settings.backlog = 257,
        |settings| settings.compact_at = 0,
        |settings| settings.compact_at = 65_537,
        |settings| settings.tick_ns = 0,
        |settings| settings.tick_ns = 1_000_000_001,
    ];
    for change in changes {
        let mut wrong = settings(1, 64);
        change(&mut wrong);
        assert_eq!(opened(&wrong, 64, b"").err(), Some(refusal::SETTING), "{wrong:?}");
    }
}

#[test]
fn refusal_2_a_lent_length_outside_its_range() {
    let settings = settings(1, 64);
    assert_eq!(opened(&settings, 15, b"").err(), Some(refusal::LENGTH));
    assert!(opened(&settings, 16, b"").is_ok() && opened(&settings, LOG_MAX, b"").is_ok());
    assert_eq!(opened(&settings, LOG_MAX + 1, b"").err(), Some(refusal::LENGTH));
    assert_eq!(pool::open(&settings, &lent(16, b""), 17, &vec![0; STORE]).err(), Some(refusal::LENGTH));
    assert_eq!(pool::open(&settings, &lent(16, b""), 0, &vec![0; STORE - 1]).err(), Some(refusal::LENGTH));
}

#[test]
fn refusal_3_a_whole_record_line_with_the_last_id() {
    let settings = settings(1, 64);
    assert_eq!(opened(&settings, 64, b"18446744073709551615\ta\tb\n").err(), Some(refusal::LAST_RECORD));
    assert!(opened(&settings, 64, b"18446744073709551615\ta\tb").is_ok());
    assert!(opened(&settings, 64, b"18446744073709551615\n").is_ok());
}

#[test]
fn refusal_4_too_many_left_or_one_too_long() {
    let records = |count: usize| (0..count).map(|id| format!("{id}\t\t\n")).collect::<String>().into_bytes();
    assert!(readable(&records(256)).is_ok());
    assert_eq!(readable(&records(257)).err(), Some(refusal::LEFT));
    assert_eq!(readable(&[records(257), b"256\n".to_vec()].concat()).err(), None);
    let long = |name: usize, body: usize| format!("0\t{}\t{}\n", "a".repeat(name), "b".repeat(body)).into_bytes();
    assert!(readable(&long(32, 128)).is_ok());
    assert_eq!(readable(&long(33, 0)).err(), Some(refusal::LEFT));
    assert_eq!(readable(&long(0, 129)).err(), Some(refusal::LEFT));
}

#[test]
fn of_1_to_4_the_lowest_refuses() {
    let (right, wrong) = (settings(1, 64), settings(0, 64));
    let last = b"18446744073709551615\t\t\n";
    let long = [&b"0\t"[..], &[b'a'; 33], b"\t\n", last].concat();
    assert_eq!(opened(&wrong, 15, b"").err(), Some(refusal::SETTING));
    assert_eq!(pool::open(&right, &lent(24, last), 25, &[]).err(), Some(refusal::LENGTH));
    assert_eq!(opened(&right, 64, &long).err(), Some(refusal::LAST_RECORD));
}

#[test]
fn the_first_turn_of_an_opening_marks_what_has_no_actor() {
    let mut pool = super::running(&super::ceiling_0(1, 64), 64, b"0\trow\tx\n");
    let order = Order::Append(8, 10);
    assert_eq!(pool.call(&pool::Call::Turn), Answer::Open(Some(Question::Store(order))));
    assert_eq!(&pool.log[..10], b"0\trow\tx\n0\n");
}
