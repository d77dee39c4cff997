//! The lists of messages as chains through the table of links, read from its cells alone: a list's row has its first
//! entry, its last and its length, and each entry's row names the next. A chain ends where its length is reached; what
//! its last entry names means nothing.
use crate::limits::MESSAGES;
use crate::tables::{LISTS, Tables, list};

/// The entries of every list, in order, and the list of every entry.
pub struct Chains {
    lists: Vec<Vec<usize>>,
    list_of: [usize; MESSAGES],
}

impl Chains {
    /// Err where a chain is a circle or has an entry that there is not, an entry stands in two lists or in none, or a
    /// list's last entry is not the one that its row has.
    pub fn read(tables: &Tables) -> Result<Chains, String> {
        let lists: Vec<Vec<usize>> = (0..LISTS).map(|number| tables.list(number)).collect();
        let mut list_of = [LISTS; MESSAGES];
        for (number, entries) in lists.iter().enumerate() {
            entries.iter().try_for_each(|entry| stands_in(&mut list_of, *entry, number))?;
            ends_with(tables, number, entries)?;
        }
        match list_of.iter().position(|list| *list == LISTS) {
            Some(entry) => Err(format!("entry {entry} stands in no list")),
            None => Ok(Chains { lists, list_of }),
        }
    }

    pub fn list(&self, number: usize) -> &[usize] {
        &self.lists[number]
    }

    pub fn lists(&self) -> &[Vec<usize>] {
        &self.lists
    }

    /// The list in which an entry stands.
    pub fn list_of(&self, entry: usize) -> usize {
        self.list_of[entry]
    }
}

/// Writes down that an entry stands in a list; it must be the first time.
fn stands_in(list_of: &mut [usize; MESSAGES], entry: usize, number: usize) -> Result<(), String> {
    let Some(known) = list_of.get_mut(entry) else {
        return Err(format!("{} has an entry {entry}, which there is not", list::name(number)));
    };
    match std::mem::replace(known, number) {
        LISTS => Ok(()),
        same if same == number => Err(format!("{} runs in a circle: entry {entry} comes again", list::name(number))),
        other => Err(format!("entry {entry} stands in {} and in {}", list::name(other), list::name(number))),
    }
}

/// A list that is not empty ends with the entry that its row has as the last.
fn ends_with(tables: &Tables, number: usize, entries: &[usize]) -> Result<(), String> {
    let [_, tail, ..] = tables.link(number);
    match entries.last() {
        Some(&last) if last as u64 != tail => {
            Err(format!("{} ends with entry {last}, and its row has {tail} as the last", list::name(number)))
        }
        _ => Ok(()),
    }
}
