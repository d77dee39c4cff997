//! Replies as calls, by what they say: the words of fixed lists.
use crate::model::pool::{Call, Reply, Status};

pub const STORED: Call = Call::Reply(Reply::Stored);
pub const YES: Call = Call::Reply(Reply::Yes);
pub const NO: Call = Call::Reply(Reply::No);
pub const END: Call = Call::Reply(Reply::End);
pub const CLOCK: Call = Call::Reply(Reply::Clock(0));
pub const NO_EVENTS: Call = Call::Reply(Reply::Count(0));
pub const YIELDS: Call = ran(Status::Preempted);
pub const RECEIVES: Call = ran(Status::Event);
pub const CALLS_HOST: Call = ran(Status::HostCall);
pub const ENDS: Call = ran(Status::Done);
pub const RAISES: Call = ran(Status::Error);

pub const fn ran(status: Status) -> Call {
    Call::Reply(Reply::Ran(status))
}
