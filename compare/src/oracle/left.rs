//! The messages that the Rust would hand back of a log.
use super::config::Message;
use super::server::Wal;
use crate::view::LeftView;
use std::path::Path;

/// Without attempts. The Rust opens the bytes at `path`, and rewrites them there.
pub fn left(bytes: &[u8], path: &Path) -> Vec<LeftView> {
    std::fs::write(path, bytes).expect("a copy of the log is written");
    let (_, left) = Wal::open(path).expect("the Rust opens a copy of the log");
    let message = |message: &Message| LeftView {
        id: message.id.expect("a message that is handed back has an id"),
        name: message.group.clone().into_bytes(),
        body: message.body.clone().into_bytes(),
    };
    left.iter().map(message).collect()
}
