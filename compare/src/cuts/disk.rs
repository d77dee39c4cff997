//! The write rule: which files the power may leave, and which messages each must hand back.
//!
//! All bytes up to the last confirmed flush or replace are sure. Behind them stands any prefix of what was appended
//! since. An open replace leaves that, or the new file whole. A failed order did what an open one may. A moment is the
//! list of messages logged and not done as an order goes out, with the attempts last written of each.
use crate::model::log::{self, Left, Order};
use crate::model::pool::Event;
use std::collections::BTreeMap;

/// What an opening hands back: its new file, and the id and the attempts of each message in pending.
#[derive(Clone, PartialEq, Eq, Debug)]
pub struct HandedBack {
    pub image: Vec<u8>,
    pub attempts: Vec<(u64, u64)>,
}

impl HandedBack {
    /// These messages, in rising id order.
    pub fn of(left: &[Left]) -> HandedBack {
        let attempts = left.iter().map(|message| (message.id.0, message.attempts)).collect();
        HandedBack { image: log::image(left), attempts }
    }
}

pub struct Disk {
    sure: Vec<u8>,
    appended: Vec<u8>,
    /// For each append since the file was sure: how many bytes were appended then, and its moment.
    lines: Vec<(usize, usize)>,
    /// The new file of a replace that is open or failed.
    other: Option<Vec<u8>>,
    /// The order that waits for its answer.
    waits: Option<Order>,
    /// As an opening must hand them back: the first is the opening's; each order adds one.
    moments: Vec<HandedBack>,
    /// The moment of the last confirmed flush or replace.
    firm: usize,
    /// By id.
    messages: BTreeMap<u64, Left>,
}

/// One file that a cut may leave, and the moments that it may be of: the one that its last whole line says.
pub struct Cut {
    pub file: Vec<u8>,
    pub moment: usize,
}

impl Disk {
    /// An accepted opening on this file, which counts as sure. Its own order waits.
    pub fn open(file: &[u8], left: &[Left], log: &[u8], order: Order) -> Disk {
        let messages = left.iter().map(|left| (left.id.0, left.clone())).collect();
        let mut disk = Disk {
            sure: file.to_vec(),
            appended: Vec::new(),
            lines: Vec::new(),
            other: None,
            waits: None,
            moments: Vec::new(),
            firm: 0,
            messages,
        };
        disk.order(order, log);
        disk
    }

    /// An order goes out: `log` is the lent log as it then is.
    pub fn order(&mut self, order: Order, log: &[u8]) {
        self.moments.push(self.now());
        let newest = self.moments.len() - 1;
        match order {
            Order::Append(from, to) => {
                self.appended.extend_from_slice(&log[from..to]);
                self.lines.push((self.appended.len(), newest));
            }
            Order::Replace(length) => self.other = Some(log[..length].to_vec()),
            Order::Flush => {}
        }
        self.waits = Some(order);
    }

    /// What a call logged, marked or retried, before its order goes out.
    pub fn event(&mut self, event: &Event, name: &[u8], body: &[u8]) {
        match event {
            Event::Logged(id) => {
                let message = Left { id: *id, name: name.to_vec(), body: body.to_vec(), attempts: 0 };
                self.messages.insert(id.0, message);
            }
            Event::Marked(id) => drop(self.messages.remove(&id.0)),
            Event::Retried { id, attempts } => {
                self.messages.get_mut(&id.0).expect("a message that is not done").attempts = *attempts;
            }
            Event::Delivered { .. } => {}
        }
    }

    /// The order that waits is answered stored. After a flush or a replace the whole file is sure.
    pub fn stored(&mut self) {
        match self.waits.take().expect("an order waits") {
            Order::Append(..) => return,
            Order::Replace(_) => self.sure = self.other.take().expect("a new file"),
            Order::Flush => self.sure.append(&mut self.appended),
        }
        self.appended.clear();
        self.lines.clear();
        self.firm = self.moments.len() - 1;
    }

    /// The messages of now, as an opening must hand them back.
    fn now(&self) -> HandedBack {
        let left: Vec<Left> = self.messages.values().cloned().collect();
        HandedBack::of(&left)
    }

    /// Every file that the power may leave now; of a long tail, each line's end with its neighbours, and some others.
    pub fn cuts(&self, mut some: impl FnMut(usize) -> bool) -> Vec<Cut> {
        let near = |end: usize| self.lines.iter().any(|(line, _)| line.abs_diff(end) <= 2);
        let newest = self.moments.len() - 1;
        let mut cuts = Vec::new();
        for end in 0..=self.appended.len() {
            if end == 0 || near(end) || some(self.appended.len()) {
                let line = self.lines.iter().rev().find(|(line, _)| *line <= end);
                let file = [&self.sure, &self.appended[..end]].concat();
                cuts.push(Cut { file, moment: line.map_or(self.firm, |(_, moment)| *moment) });
            }
        }
        cuts.extend(self.other.iter().map(|file| Cut { file: file.clone(), moment: newest }));
        cuts
    }

    /// Whether an opening hands back exactly the messages of the cut's moment, with their attempts, and that moment is
    /// one that the rule allows.
    pub fn allows(&self, cut: &Cut, given: &HandedBack) -> Result<(), String> {
        if cut.moment >= self.firm && self.moments[cut.moment] == *given {
            return Ok(());
        }
        let found = self.moments.iter().rposition(|moment| moment == given);
        let found = found.map_or("no moment".into(), |moment| format!("moment {moment}"));
        let newest = self.moments.len() - 1;
        Err(format!("hands back {found}, not moment {} (firm {}, newest {newest})", cut.moment, self.firm))
    }
}
