//! Where each message stands, by an entry's tables, and what came to the mailboxes since the entry before.
use crate::chains::Chains;
use crate::tables::{SLOTS, SLOTS_A_GROUP, Tables, list};

/// The lists of messages, and what came to the mailboxes.
pub struct Places {
    chains: Chains,
    delivered: Vec<Delivery>,
}

/// A message that came to a mailbox.
#[derive(Clone, Copy, PartialEq, Eq, Debug)]
pub struct Delivery {
    pub group: usize,
    pub key: usize,
    pub entry: usize,
}

impl Places {
    /// Err where the lists are not chains in which each entry stands once.
    pub fn read(tables: &Tables) -> Result<Places, String> {
        Ok(Places { chains: Chains::read(tables)?, delivered: Vec::new() })
    }

    pub fn list(&self, number: usize) -> &[usize] {
        self.chains.list(number)
    }

    /// These places, with what came to the mailboxes since `before`.
    pub fn after(mut self, before: Places) -> Places {
        let routed = [list::INBOX, list::PENDING, list::BATCH];
        for slot in 0..SLOTS {
            let (group, key) = (slot / SLOTS_A_GROUP, slot % SLOTS_A_GROUP);
            for &entry in self.chains.list(list::mailbox(group, key)) {
                if routed.contains(&before.chains.list_of(entry)) {
                    self.delivered.push(Delivery { group, key, entry });
                }
            }
        }
        self
    }

    /// What came to the mailboxes, by group and key, in order for each mailbox. A message that a Push gave back comes
    /// from the hand, and is no delivery.
    pub fn delivered(&self) -> &[Delivery] {
        &self.delivered
    }
}
