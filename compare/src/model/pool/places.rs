//! The six places of a message.
use super::{Entry, Key, Pool};

#[derive(Clone, Copy, PartialEq, Eq, Debug)]
pub enum Place {
    Inbox,
    Pending,
    Batch,
    Mailbox(usize, Key),
    Hands,
    Over,
}

impl Pool {
    /// Every message with its place, each place counted apart.
    pub fn places(&self) -> Vec<(Entry, Place)> {
        let mut out = Vec::new();
        out.extend(self.inbox.iter().map(|&e| (e, Place::Inbox)));
        out.extend(self.pending.iter().map(|&e| (e, Place::Pending)));
        out.extend(self.batch.iter().map(|&e| (e, Place::Batch)));
        for (g, group) in self.groups.iter().enumerate() {
            for key in group.actors.keys() {
                let actor = group.actors.get(key).unwrap();
                out.extend(actor.mailbox.iter().map(|&e| (e, Place::Mailbox(g, key))));
                out.extend(actor.in_flight.iter().map(|&e| (e, Place::Hands)));
                out.extend(actor.run.iter().map(|run| (run.message, Place::Hands)));
            }
        }
        out.extend(self.hand.iter().map(|&e| (e, Place::Hands)));
        out.extend(self.over.iter().map(|&e| (e, Place::Over)));
        out
    }
}
