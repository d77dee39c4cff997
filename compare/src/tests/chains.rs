//! The lists of messages as chains: tables made by hand, and what is said of a circle, of a message in two lists, of a
//! lost end and of a wrong order.
use super::{running, settings};
use crate::chains::Chains;
use crate::diff::places::Places;
use crate::limits::MESSAGES;
use crate::mailboxes::{Change, End};
use crate::output::Answer;
use crate::property::state::Sides;
use crate::tables::list::{self, FREE, PENDING, mailbox};
use crate::tables::{LENGTH, LINK, LINKS_AT, LISTS, Tables};
use crate::wire::NUMBER;

/// The tables of an entry, with links alone.
struct Made {
    bytes: Vec<u8>,
}

/// Cells of a row.
const FIRST: usize = 0;
const LAST: usize = 1;
const COUNT: usize = 2;
const NEXT: usize = 3;

impl Made {
    /// These lists have these entries; all others are free, in rising order.
    fn new(lists: &[(usize, &[usize])]) -> Made {
        let mut made = Made { bytes: vec![0; LENGTH] };
        let held = |entry: &usize| lists.iter().any(|(_, entries)| entries.contains(entry));
        let free: Vec<usize> = (0..MESSAGES).filter(|entry| !held(entry)).collect();
        made.list(FREE, &free);
        lists.iter().for_each(|(number, entries)| made.list(*number, entries));
        made
    }

    fn list(&mut self, number: usize, entries: &[usize]) {
        self.put(number, COUNT, entries.len());
        let [first, .., last] = *entries else {
            return entries.iter().for_each(|&only| self.ends(number, only, only));
        };
        self.ends(number, first, last);
        entries.windows(2).for_each(|pair| self.put(pair[0], NEXT, pair[1]));
    }

    /// What the last entry names means nothing.
    fn ends(&mut self, number: usize, first: usize, last: usize) {
        self.put(number, FIRST, first);
        self.put(number, LAST, last);
        self.put(last, NEXT, usize::MAX);
    }

    fn put(&mut self, row: usize, cell: usize, value: usize) {
        let at = LINKS_AT + (row * LINK + cell) * NUMBER;
        self.bytes[at..][..NUMBER].copy_from_slice(&(value as u64).to_le_bytes());
    }

    /// The same with another value in one cell.
    fn with(mut self, row: usize, cell: usize, value: usize) -> Made {
        self.put(row, cell, value);
        self
    }

    fn tables(&self) -> Tables<'_> {
        Tables::new(&self.bytes)
    }

    fn fault(&self) -> Option<String> {
        Chains::read(&self.tables()).err()
    }
}

/// Two mailboxes: numbers 6 and 8.
const ONE: usize = 6;
const OTHER: usize = 8;

fn two_mailboxes() -> Made {
    Made::new(&[(ONE, &[4, 9, 2]), (OTHER, &[7]), (PENDING, &[0, 1])])
}

#[test]
fn every_list_has_a_name() {
    assert_eq!([FREE, PENDING, list::HAND].map(list::name), ["what is free", "pending", "the step's hand"]);
    assert_eq!(list::name(mailbox(0, 0)), "the mailbox of actor 0/0");
    assert_eq!(list::name(list::hand(1, 2)), "the hand of actor 1/2");
    assert_eq!(list::name(LISTS - 1), "the hand of actor 7/15");
}

#[test]
fn a_chain_is_read_along_its_cells() {
    assert_eq!([mailbox(0, 0), mailbox(0, 1)], [ONE, OTHER]);
    let made = two_mailboxes();
    let chains = Chains::read(&made.tables()).expect("chains");
    assert_eq!(chains.list(ONE), [4, 9, 2]);
    assert_eq!(chains.list(OTHER), [7]);
    assert_eq!(chains.list(PENDING), [0, 1]);
    assert_eq!(chains.list(mailbox(7, 15)), [0; 0]);
    assert_eq!([4, 7, 1, 3].map(|entry| chains.list_of(entry)), [ONE, OTHER, PENDING, FREE]);
}

#[test]
fn a_circle_is_reported() {
    let said = |made: Made| made.fault().expect("a fault");
    let comes_again = |entry| format!("the mailbox of actor 0/0 runs in a circle: entry {entry} comes again");
    assert_eq!(said(two_mailboxes().with(9, NEXT, 4)), comes_again(4));
    assert_eq!(said(two_mailboxes().with(4, NEXT, 4)), comes_again(4));
    // A length beyond all entries, in a chain whose end names its middle.
    assert_eq!(said(two_mailboxes().with(2, NEXT, 9).with(ONE, COUNT, 1_000)), comes_again(9));
}

#[test]
fn a_message_in_two_lists_is_reported() {
    let both = two_mailboxes().with(OTHER, FIRST, 9);
    let stands = |entry, one, other| Some(format!("entry {entry} stands in {one} and in {other}"));
    let (one, other) = ("the mailbox of actor 0/0", "the mailbox of actor 0/1");
    assert_eq!(both.fault(), stands(9, one, other));
    // A message of a mailbox that is still pending, and one that is still free.
    let pending = two_mailboxes().with(4, NEXT, 1);
    assert_eq!(pending.fault(), stands(1, "pending", one));
    let free = two_mailboxes().with(OTHER, FIRST, 30).with(OTHER, LAST, 30);
    assert_eq!(free.fault(), stands(30, "what is free", other));
}

#[test]
fn a_lost_end_is_reported() {
    let one = "the mailbox of actor 0/0";
    let ends = |last, tail| Some(format!("{one} ends with entry {last}, and its row has {tail} as the last"));
    // A put at the end that forgets the tail.
    assert_eq!(two_mailboxes().with(ONE, LAST, 9).fault(), ends(2, 9));
    // A length that is one short.
    assert_eq!(two_mailboxes().with(ONE, COUNT, 2).fault(), ends(9, 2));
    // The ends of an empty list mean nothing.
    assert_eq!(two_mailboxes().with(OTHER + 2, FIRST, 300).with(OTHER + 2, LAST, 300).fault(), None);
}

#[test]
fn a_lost_message_is_reported() {
    let short = two_mailboxes().with(ONE, COUNT, 2).with(ONE, LAST, 9);
    assert_eq!(short.fault(), Some("entry 2 stands in no list".into()));
    assert_eq!(two_mailboxes().with(OTHER, COUNT, 0).fault(), Some("entry 7 stands in no list".into()));
}

#[test]
fn an_entry_that_there_is_not_is_reported() {
    for entry in [256, 261, 262, usize::MAX] {
        let fault = two_mailboxes().with(9, NEXT, entry).fault();
        assert_eq!(fault, Some(format!("the mailbox of actor 0/0 has an entry {entry}, which there is not")));
    }
}

/// The comparison of random cases, and that of random lists, read the lists so.
#[test]
fn both_comparisons_report_a_lost_end() {
    let made = two_mailboxes().with(ONE, LAST, 9);
    let fault = made.fault();
    assert!(fault.is_some());
    assert_eq!(Places::read(&made.tables()).err(), fault);
    let pool = running(&settings(1, 64), 64, b"");
    assert_eq!(Sides { tables: made.tables(), store: None, pool: &pool }.compare().err(), fault);
}

/// What is stated of a call that gives 4 back to the front.
fn given_back() -> End {
    let change = Change { list: ONE, before: vec![9, 2], after: vec![4, 9, 2] };
    let from = Change { list: OTHER, before: vec![4], after: vec![] };
    End { answer: Answer::Nothing, changes: vec![change, from] }
}

fn said(before: &Made, after: &Made) -> Result<(), String> {
    let chains = |made: &Made| Chains::read(&made.tables()).expect("chains");
    given_back().check(chains(before).lists(), chains(after).lists())
}

#[test]
fn a_wrong_order_is_reported() {
    let before = Made::new(&[(ONE, &[9, 2]), (OTHER, &[4]), (PENDING, &[0, 1])]);
    let after = |entries: &[usize]| Made::new(&[(ONE, entries), (PENDING, &[0, 1])]);
    assert_eq!(said(&before, &after(&[4, 9, 2])), Ok(()));
    for wrong in [[9, 2, 4], [9, 4, 2], [4, 2, 9]] {
        let error = format!("the mailbox of actor 0/0, after the last call: {wrong:?}, not [4, 9, 2]");
        assert_eq!(said(&before, &after(&wrong)), Err(error));
    }
}

#[test]
fn another_list_that_changes_is_reported() {
    let before = Made::new(&[(ONE, &[9, 2]), (OTHER, &[4]), (PENDING, &[0, 1])]);
    let turned = Made::new(&[(ONE, &[4, 9, 2]), (PENDING, &[1, 0])]);
    assert_eq!(said(&before, &turned), Err("pending, which stays: [1, 0], not [0, 1]".into()));
    // What is stated of the lists before the call counts too.
    let other = Made::new(&[(ONE, &[2, 9]), (OTHER, &[4]), (PENDING, &[0, 1])]);
    let after = Made::new(&[(ONE, &[4, 9, 2]), (PENDING, &[0, 1])]);
    let error = "the mailbox of actor 0/0, before the last call: [2, 9], not [9, 2]";
    assert_eq!(said(&other, &after), Err(error.into()));
}
