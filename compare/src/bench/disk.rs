//! A log's file, with the operations that the Rust makes for each change: what a host does when it is handed an order.
use std::fs::{self, File, OpenOptions};
use std::io::Write;
use std::path::{Path, PathBuf};

pub struct Disk {
    path: PathBuf,
    file: File,
}

impl Disk {
    /// A file with these bytes.
    pub fn new(path: &Path, bytes: &[u8]) -> Disk {
        fs::write(path, bytes).unwrap();
        Disk { path: path.to_path_buf(), file: for_appending(path) }
    }

    pub fn append(&mut self, bytes: &[u8]) {
        self.file.write_all(bytes).unwrap();
    }

    /// A new file beside the old one, synced, then swapped in by its name.
    pub fn replace(&mut self, bytes: &[u8]) {
        let beside = self.path.with_extension("beside");
        let mut new = File::create(&beside).unwrap();
        new.write_all(bytes).unwrap();
        new.sync_all().unwrap();
        fs::rename(&beside, &self.path).unwrap();
        let folder = self.path.parent().unwrap();
        File::open(folder).and_then(|folder| folder.sync_all()).unwrap();
        self.file = for_appending(&self.path);
    }

    pub fn flush(&mut self) {
        self.file.sync_data().unwrap();
    }

    pub fn bytes(&self) -> Vec<u8> {
        fs::read(&self.path).unwrap()
    }
}

fn for_appending(path: &Path) -> File {
    OpenOptions::new().append(true).open(path).unwrap()
}
