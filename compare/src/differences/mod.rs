//! Outside the domain of equality: one case for each difference, with the smallest input, that says what each side
//! does, checks it, and prints it. And the findings: what both sides do, though nobody would ask for it.
//!
//! `rust` is the Rust's log by itself, `port` what the port says, in words.

#[cfg(oracle)]
mod findings;
#[cfg(oracle)]
mod limits;
#[cfg(oracle)]
mod log;
#[cfg(oracle)]
mod openings;
#[cfg(oracle)]
mod pool;
#[cfg(oracle)]
mod port;
#[cfg(oracle)]
mod rust;

use crate::tally::Tally;

#[cfg(oracle)]
pub fn run(tally: &mut Tally) {
    let scratch = crate::scratch::Scratch::in_memory("differences");
    crate::oracle::run::silence();
    let mut run = Run { tally, path: scratch.file("log.wal") };
    run.tally.begin("differences");
    openings::run(&mut run);
    log::run(&mut run);
    limits::run(&mut run);
    pool::run(&mut run);
    run.tally.end();
    run.tally.begin("findings");
    findings::run(&mut run);
    run.tally.end();
}

#[cfg(not(oracle))]
pub fn run(_: &mut Tally) {
    println!("the Rust is not at hand (FELDWYGOR_RUST_SRC names its folder): the differences are SKIPPED");
}

#[cfg(oracle)]
struct Run<'a> {
    tally: &'a mut Tally,
    /// The Rust's file.
    path: std::path::PathBuf,
}

/// What one side says, and what it is to say.
#[cfg(oracle)]
struct Says {
    found: String,
    expected: &'static str,
}

#[cfg(oracle)]
fn says(found: String, expected: &'static str) -> Says {
    Says { found, expected }
}

/// What the Rust gives, or None where it panics: a Rust that checks sums does where one overflows.
#[cfg(oracle)]
fn unless_it_panics<T>(rust: impl FnOnce() -> T) -> Option<T> {
    let usual = std::panic::take_hook();
    std::panic::set_hook(Box::new(|_| ()));
    let given = std::panic::catch_unwind(std::panic::AssertUnwindSafe(rust)).ok();
    std::panic::set_hook(usual);
    given
}

#[cfg(oracle)]
impl Run<'_> {
    /// Checks both sides and prints them.
    fn differ(&mut self, what: &str, input: &str, rust: Says, port: Says) {
        println!("  {what}: {input}\n    Rust: {}\n    port: {}", rust.found, port.found);
        self.tally.equal(&format!("{what}, the Rust"), rust.found.as_str(), rust.expected);
        self.tally.equal(&format!("{what}, the port"), port.found.as_str(), port.expected);
    }
}
