//! bytes [BYTES [SEED]]: scripts of BYTES bytes together, random, changed and with random files, beside the protocol
//! as a plain program, in a thread of little stack. The last line is `N passed, M failed`; the program fails if M is
//! above 0.
//!
//! Under valgrind: `valgrind --error-exitcode=9 target/release/bytes 1000000 5`.
use compare::tally::Tally;
use compare::{program, property};
use std::process::ExitCode;
use std::thread;

const BYTES: u64 = 3_000_000;
const SEED: u64 = 1;
/// The port itself needs less than 96 KiB.
const STACK: usize = 512 << 10;

fn main() -> ExitCode {
    let Some([bytes, seed]) = program::numbers([BYTES, SEED]) else {
        return program::usage("bytes [BYTES [SEED]]");
    };
    println!("bytes {bytes} {seed}");
    let run = move || {
        let mut tally = Tally::default();
        property::wild::run(&mut tally, bytes, seed);
        tally.finish()
    };
    let passed = thread::Builder::new().stack_size(STACK).spawn(run).expect("a thread").join().unwrap_or(false);
    program::ended(passed)
}
