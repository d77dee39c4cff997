//! A folder for a run's files, removed when the run is over.
use std::path::{Path, PathBuf};

pub struct Scratch(PathBuf);

impl Scratch {
    /// On the memory file system, where there is one.
    pub fn in_memory(name: &str) -> Scratch {
        let memory = Path::new("/dev/shm");
        if memory.is_dir() { Scratch::below(memory, name) } else { Scratch::on_disk(name) }
    }

    /// In the temporary folder.
    pub fn on_disk(name: &str) -> Scratch {
        Scratch::below(&std::env::temp_dir(), name)
    }

    fn below(folder: &Path, name: &str) -> Scratch {
        let path = folder.join(format!("feldwygor-{name}-{}", std::process::id()));
        std::fs::create_dir_all(&path).expect("a temporary folder");
        Scratch(path)
    }

    pub fn path(&self) -> &Path {
        &self.0
    }

    pub fn file(&self, name: &str) -> PathBuf {
        self.0.join(name)
    }
}

impl Drop for Scratch {
    fn drop(&mut self) {
        let _ = std::fs::remove_dir_all(&self.0);
    }
}
