//! The port's times. It runs a whole script, so a list is timed as the difference of two scripts, one with the timed
//! calls and one without. Reading the script and writing an entry of 96 bytes for each call (show 0) count.
use super::clock::time;
use super::lists::Timed;
use crate::limits::STORE;
use crate::port;
use crate::property::list::{List, Opening};
use crate::script::SHOW_NOTHING;

/// A script, and the slices that it is lent.
pub struct Runner {
    script: Vec<u8>,
    log: Vec<u8>,
    store: Vec<u8>,
    out: Vec<u8>,
}

impl Runner {
    pub fn new(list: &List) -> Runner {
        let script = list.script(SHOW_NOTHING);
        let out = vec![0; script.output_bound()];
        let log = vec![0; list.opening.log_len];
        let mut runner = Runner { script: script.bytes().to_vec(), log, store: vec![0; STORE], out };
        let code = port::replay(&runner.script, &mut runner.log, &mut runner.store, &mut runner.out);
        assert_eq!(code, port::OK, "a script that runs to its end");
        runner
    }

    /// An opening alone.
    pub fn opening(opening: &Opening) -> Runner {
        Runner::new(&List { opening: opening.clone(), calls: Vec::new() })
    }

    /// The time of one run, in nanoseconds.
    pub fn run(&mut self) -> f64 {
        time(|| port::replay(&self.script, &mut self.log, &mut self.store, &mut self.out))
    }
}

/// The timed calls of a list.
pub struct Calls {
    long: Runner,
    short: Runner,
}

impl Calls {
    pub fn new(timed: &Timed) -> Calls {
        let calls = timed.list.calls[..timed.setup].to_vec();
        let short = List { opening: timed.list.opening.clone(), calls };
        Calls { long: Runner::new(&timed.list), short: Runner::new(&short) }
    }

    pub fn run(&mut self) -> f64 {
        self.long.run() - self.short.run()
    }
}
