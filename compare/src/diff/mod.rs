//! The differential run. One case is given to the port as one script, and to the Rust as a trace; both must do what
//! the plain program did.
//!
//! `lockstep` compares the port's entries with the plain program call by call, `places` reads where each message
//! stands, `seen` counts, `show` prints one case, `selftest` checks that slips are caught.
pub mod lockstep;
pub mod places;
pub mod seen;
pub mod selftest;
pub mod show;

use crate::generate::case::Case;
use crate::lent::Lent;
use crate::limits::{BODY_MAX, NAME_MAX};
use crate::output::Output;
use crate::port;
use crate::script::{SHOW_STORE, SHOW_TABLES, Script};
use crate::tables;
#[cfg(oracle)]
use crate::view::LogView;
use crate::wire::NUMBER;
use seen::Seen;
use std::path::Path;

/// Bytes of output that one run of the port may need. A longer list of calls is cut for the port.
const MOST_OUTPUT: usize = 192 << 20;
/// Calls from which on a list is long: the store is not shown after each of its calls.
const LONG: usize = 1_000;

/// A case as the port is given it.
pub struct Given {
    pub script: Script,
    /// How many of its calls the script has.
    pub calls: usize,
    /// Bytes of output that they need.
    pub room: usize,
}

impl Given {
    /// The entries show the tables always, since deliveries are read from them, and the body store too in one case of
    /// four.
    pub fn new(number: u64, case: &Case) -> Given {
        let long = case.calls.len() > LONG;
        let show = if number.is_multiple_of(4) && !long { SHOW_STORE } else { SHOW_TABLES };
        let mut script = Script::new(&case.settings, case.log_len, case.store_len, &case.file, show);
        let entry = |at: usize| {
            let store = if show == SHOW_STORE { case.store_len } else { 0 };
            HEAD_AND_MESSAGE + case.sizes[at] + tables::LENGTH + store
        };
        let mut room = NUMBER + entry(0);
        for (at, call) in case.calls.iter().enumerate() {
            if room + entry(at + 1) > MOST_OUTPUT {
                return Given { script, calls: at, room };
            }
            room += entry(at + 1);
            script.call(call);
        }
        Given { script, calls: case.calls.len(), room }
    }

    /// Runs the port over it.
    pub fn run<'a>(&self, lent: &'a mut Lent) -> Result<lockstep::Run<'a>, String> {
        let code = lent.run_within(&self.script, self.room);
        if code != port::OK {
            return Err(format!("it returned {code} for a script that is well formed"));
        }
        let output = Output::read(lent.written()?, self.script.show(), self.script.store_len())?;
        Ok(lockstep::Run { output, log: &lent.log, store: &lent.store })
    }
}

/// An entry's numbers, and the longest message that it can show.
const HEAD_AND_MESSAGE: usize = 15 * NUMBER + NAME_MAX + BODY_MAX;

/// Runs a case on both sides. Err: what differs, of either.
pub fn run(number: u64, lent: &mut Lent, path: &Path, seen: &mut Seen) -> Result<(), String> {
    let case = Case::new(number);
    seen.case(&case);
    let port = beside_port(number, &case, lent, seen).map_err(|error| format!("the port: {error}"));
    let rust = beside_rust(&case, path, seen).map_err(|error| format!("the Rust: {error}"));
    match (port, rust) {
        (Err(port), Err(rust)) => Err(format!("{port}\n  and {rust}")),
        (port, rust) => port.and(rust),
    }
}

/// The port must give what the plain program gives, call by call.
pub fn beside_port(number: u64, case: &Case, lent: &mut Lent, seen: &mut Seen) -> Result<(), String> {
    let given = Given::new(number, case);
    seen.cut += (case.calls.len() - given.calls) as u64;
    lockstep::check(case, given.calls, &given.run(lent)?, seen)
}

/// The Rust must do what the trace says.
#[cfg(oracle)]
pub fn beside_rust(case: &Case, path: &Path, seen: &mut Seen) -> Result<(), String> {
    if case.inside.is_some() {
        seen.rust_events += crate::oracle::run::run(&case.settings, &case.file, &case.trace, path)?;
        seen.rust_cases += 1;
        seen.rust_retried +=
            case.trace.events.iter().any(|event| event.log().is_some_and(LogView::by_messages)) as u64;
    }
    Ok(())
}

#[cfg(not(oracle))]
pub fn beside_rust(_: &Case, _: &Path, _: &mut Seen) -> Result<(), String> {
    Ok(())
}
