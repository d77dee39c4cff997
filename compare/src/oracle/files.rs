//! The Rust's files, as they stand (the build takes them from where they lie). Each is a module here, with a `view`
//! beside it that may look at its private parts.

#[allow(dead_code)]
pub mod config {
    use crate::oracle::standins::{compiler, mio};
    include!(concat!(env!("OUT_DIR"), "/config.rs"));
}

#[allow(dead_code)]
pub mod pool {
    include!(concat!(env!("OUT_DIR"), "/pool.rs"));
}

#[allow(dead_code)]
pub mod server {
    include!(concat!(env!("OUT_DIR"), "/server.rs"));
    pub mod view;
}

#[allow(dead_code, unused_imports)]
pub mod actor {
    use crate::oracle::standins::compiler;
    include!(concat!(env!("OUT_DIR"), "/actor.rs"));
    pub mod view;
}

#[allow(dead_code)]
pub mod scheduler {
    use crate::oracle::standins::{anyhow, compiler};
    include!(concat!(env!("OUT_DIR"), "/scheduler.rs"));
    pub mod view;
}
