//! The numbers of docs/RULES.md, each in one place.

/// Bytes of a group name, and of a body.
pub const NAME_MAX: usize = 32;
pub const BODY_MAX: usize = 128;
/// Messages that are live at once.
pub const MESSAGES: usize = 256;
/// The body store, and what one message has of it: its name, then its body.
pub const STORE: usize = 40_960;
pub const STORE_ENTRY: usize = 160;
pub const STORE_BODY: usize = 32;
/// Length of the lent log.
pub const LOG_MIN: usize = 16;
pub const LOG_MAX: usize = 65_536;
/// Settings.
pub const GROUPS_MAX: usize = 8;
pub const REPLICAS_MAX: usize = 16;
pub const TIMEOUT_MAX: u64 = 86_400;
pub const RETRY_MAX: u64 = 255;
pub const ACTORS_MAX: usize = 16;
pub const INBOX_MAX: usize = 64;
pub const BACKLOG_MAX: usize = 256;
pub const COMPACT_MAX: usize = 65_536;
pub const TICK_MAX: u64 = 1_000_000_000;
/// The id that no record may have.
pub const LAST_ID: u64 = u64::MAX;
/// Keys of a ready, idle or waiting list.
pub const KEYS: usize = 64;
/// The largest clock.
pub const CLOCK_MAX: u64 = (1 << 63) - 1;

/// What turns a call away.
pub mod refusal {
    /// A setting outside its range.
    pub const SETTING: u8 = 1;
    /// A lent length outside its range, or a file longer than the log.
    pub const LENGTH: u8 = 2;
    /// A whole record line with the last id.
    pub const LAST_RECORD: u8 = 3;
    /// Too many messages left, or one left too long.
    pub const LEFT: u8 = 4;
    /// Name or body too long.
    pub const TEXT: u8 = 5;
    /// The inbox holds its limit.
    pub const INBOX: u8 = 6;
    /// Closed.
    pub const CLOSED: u8 = 7;
    /// As many messages live as there may be.
    pub const MESSAGES: u8 = 8;
    /// No id left.
    pub const IDS: u8 = 9;
    /// No room, even with the done records dropped.
    pub const SPACE: u8 = 10;
    /// An order waits for its answer.
    pub const WAITS: u8 = 11;
    /// No question is open, or the reply does not fit it.
    pub const REPLY: u8 = 12;
    /// A turn during a turn.
    pub const TURN: u8 = 13;
    /// A store failed before.
    pub const FAILED: u8 = 14;
    /// No group has the name, or its group has ceiling 0: the program is not loaded.
    pub const UNLOADED: u8 = 17;
}
