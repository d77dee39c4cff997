//! The file operations of a list alone: what the Rust's time has in it, and what a host of the port does when it is
//! handed an order. Made on the memory file system, as the Rust makes them.
use super::clock::time;
use super::disk::Disk;
use super::lists::Timed;
use crate::model::log::Order;
use crate::model::pool::Call;
use std::path::{Path, PathBuf};

enum Operation {
    Append(Vec<u8>),
    Replace(Vec<u8>),
    Flush,
}

pub struct Writes {
    path: PathBuf,
    operations: Vec<Operation>,
}

impl Writes {
    pub fn new(timed: &Timed, path: &Path) -> Writes {
        let mut pool = timed.list.opening.model().expect("an accepted opening");
        let mut operations = Vec::new();
        for (at, call) in timed.list.calls.iter().enumerate() {
            let waited = pool.order.is_some();
            pool.call(call);
            if at < timed.setup || (waited && !matches!(call, Call::Reply(_))) {
                continue;
            }
            operations.extend(pool.order.map(|order| match order {
                Order::Append(from, to) => Operation::Append(pool.log[from..to].to_vec()),
                Order::Replace(length) => Operation::Replace(pool.log[..length].to_vec()),
                Order::Flush => Operation::Flush,
            }));
        }
        Writes { path: path.to_path_buf(), operations }
    }

    pub fn run(&mut self) -> f64 {
        let mut disk = Disk::new(&self.path, b"");
        time(|| {
            for operation in &self.operations {
                match operation {
                    Operation::Append(bytes) => disk.append(bytes),
                    Operation::Replace(bytes) => disk.replace(bytes),
                    Operation::Flush => disk.flush(),
                }
            }
        })
    }
}
