//! Messages and actors, as the comparison reads them.
use super::super::config::Message;
use super::{Actor, Mode};
use crate::view::{ActorView, MessageView, RunView};

pub fn message(message: &Message) -> MessageView {
    MessageView {
        group: message.group.as_bytes().to_vec(),
        body: message.body.as_bytes().to_vec(),
        attempts: message.attempts as u64,
        caller: message.reply.as_ref().map(|reply| reply.id),
        id: message.id,
    }
}

impl Actor {
    pub fn view(&self) -> ActorView {
        assert!(!self.done && self.finished.is_empty(), "an actor that is done has left, and its marks are made");
        let (vm, started, run) = match &self.mode {
            Mode::Fixed { vm, started } => (vm.number(), *started, None),
            Mode::Eval { run, .. } => (0, false, run.as_ref()),
        };
        ActorView {
            vm,
            started,
            run: run.map(|run| RunView {
                vm: run.vm.number(),
                id: run.id,
                caller: run.reply.as_ref().map(|reply| reply.id),
                deadline: run.deadline,
            }),
            mailbox: self.mailbox.iter().map(message).collect(),
            ran: self.ran,
            idle: self.idle,
            runnable: self.runnable,
            scheduled: self.scheduled,
            wake_at: self.wake_at,
            blocked: self.blocked,
            in_flight: self.in_flight.as_ref().map(message),
            consumed: self.consumed,
        }
    }
}
