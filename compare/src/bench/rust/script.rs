//! The replies to the Rust's questions, in order. Nothing is compared.
use super::config::Message;
use crate::model::pool::Reply;
use std::cell::RefCell;

thread_local! {
    static REPLIES: RefCell<std::vec::IntoIter<Reply>> = RefCell::new(Vec::new().into_iter());
}

pub fn set(replies: Vec<Reply>) {
    REPLIES.set(replies.into_iter());
}

/// The reply to the next question.
pub fn reply() -> Reply {
    REPLIES.with_borrow_mut(|replies| replies.next().expect("a reply"))
}

/// How many replies were not asked for.
pub fn rest() -> usize {
    REPLIES.with_borrow(|replies| replies.len())
}

/// The build's swaps tell the comparison of deliveries and marks; here nobody listens.
pub fn delivered(_: usize, _: usize, _: &Message) {}

pub fn marked(_: u64) {}
