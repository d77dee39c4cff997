//! Keys, lists of keys and deadlines (docs/RULES.md, sections 4 and 6; row ends 8 and 11). What a turn does with them
//! is in the recorded answers (`scripts`).
use crate::limits::KEYS;
use crate::model::pool::{Actor, KeyList, Slab, deadline};

#[test]
fn row_end_8_a_deadline_counts_whole_ticks() {
    assert_eq!(deadline(100, 1, 300_000_000), 900_000_100);
    assert_eq!(deadline(100, 1, 1_000_000_000), 1_000_000_100);
    assert_eq!(deadline(100, 0, 1), 100);
}

#[test]
fn row_end_11_the_last_freed_key_is_given_first() {
    let mut slab = Slab::default();
    let spawned = |slab: &mut Slab| slab.insert(Actor::default());
    assert_eq!([spawned(&mut slab), spawned(&mut slab), spawned(&mut slab)], [0, 1, 2]);
    slab.remove(1);
    slab.remove(0);
    assert_eq!([spawned(&mut slab), spawned(&mut slab), spawned(&mut slab)], [0, 1, 3]);
    assert_eq!(slab.keys(), [0, 1, 2, 3]);
}

#[test]
fn a_full_list_of_keys_keeps_the_first_of_each_then_adds_a_new_one() {
    let mut list = KeyList::default();
    for at in 0..KEYS {
        list.add(at % 3);
    }
    list.add(1);
    assert_eq!(list.keys, [0, 1, 2]);
    for at in 3..KEYS {
        list.add(at % 3);
    }
    list.add(9);
    assert_eq!(list.keys, [0, 1, 2, 9]);
}
