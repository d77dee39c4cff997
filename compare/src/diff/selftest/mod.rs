//! Checks that the comparison catches slips: in what the port wrote, in what the plain program does and how it reads
//! ids and attempts, and in what the Rust is expected to do. Each slip is tried on many cases.
mod attempts;
mod bytes;
mod ids;
mod program;
mod retries;
#[cfg(oracle)]
mod rust;

use super::seen::Seen;
use super::{Given, lockstep};
use crate::generate::case::{self, Case};
use crate::lent::Lent;
use crate::model::log::Reading;
use crate::model::pool::Pool;
use crate::rng::Rng;
use std::cell::Cell;
use std::path::Path;

/// Calls of a list in which slips are made, at most: what the port wrote is copied for each.
const MOST_CALLS: usize = 400;
/// Openings with slips in how ids and attempts are read, for each case.
const OPENINGS: u64 = 20;

/// What became of one slip: how often it could be made, and how often it was caught.
pub struct Tried {
    pub slip: &'static str,
    pub made: u64,
    pub caught: u64,
    /// The first case where it went unnoticed.
    unnoticed: Option<u64>,
    /// A slip that need not show in every case must be caught in some.
    in_some: bool,
}

impl Tried {
    fn new(slip: &'static str, in_some: bool) -> Tried {
        Tried { slip, made: 0, caught: 0, unnoticed: None, in_some }
    }

    fn count(&mut self, case: u64, caught: bool) {
        self.made += 1;
        self.caught += caught as u64;
        if !caught && self.unnoticed.is_none() {
            self.unnoticed = Some(case);
        }
    }

    /// Err where the comparison let it pass.
    pub fn result(&self) -> Result<(), String> {
        match self.unnoticed {
            _ if self.caught == 0 => Err(format!("a slip was never caught (made {} times): {}", self.made, self.slip)),
            Some(case) if !self.in_some => Err(format!("a slip went unnoticed in case {case}: {}", self.slip)),
            _ => Ok(()),
        }
    }
}

/// Makes every slip in each of `cases` cases, and in as many in which logged messages crash.
pub fn run(cases: u64, seed: u64, path: &Path) -> Vec<Tried> {
    let mut slips = Slips::new();
    for number in 0..cases {
        let number = seed.wrapping_mul(1 << 32).wrapping_add(number);
        slips.case(number, &Case::new(number), path);
        slips.case(number, &crashing(number), path);
    }
    let misread = misread(cases * OPENINGS, seed, &mut slips.lent);
    crate::met::take();
    slips.tried().into_iter().chain(misread).collect()
}

/// A case in which logged messages crash: on a file of records, or on one that has attempts too.
fn crashing(number: u64) -> Case {
    let rng = &mut Rng::new(!number);
    if number.is_multiple_of(2) { Case::retrying(rng) } else { Case::retried(rng) }
}

/// The slips that are made in whole cases.
struct Slips {
    lent: Lent,
    bytes: Vec<Tried>,
    program: Vec<Tried>,
    retries: Vec<Tried>,
    #[cfg(oracle)]
    rust: rust::Slips,
}

impl Slips {
    fn new() -> Slips {
        Slips {
            lent: Lent::default(),
            bytes: bytes::SLIPS.iter().map(|(name, _)| Tried::new(name, false)).collect(),
            program: program::SLIPS.iter().map(|(name, _)| Tried::new(name, true)).collect(),
            retries: retries::SLIPS.iter().map(|(name, _)| Tried::new(name, false)).collect(),
            #[cfg(oracle)]
            rust: rust::Slips::new(),
        }
    }

    /// Makes every slip in a case. Where the port's run fails, none is made; the cases show it.
    fn case(&mut self, number: u64, case: &Case, path: &Path) {
        if case.calls.len() > MOST_CALLS {
            return;
        }
        let given = Given::new(number, case);
        let Ok(run) = given.run(&mut self.lent) else { return };
        let rng = &mut Rng::new(!number);
        for (tried, (_, slip)) in self.bytes.iter_mut().zip(bytes::SLIPS) {
            let mut slipped = bytes::Slipped::new(&run);
            if slip(&mut slipped, rng).is_some() {
                let slipped = slipped.run(given.script.show());
                let result = slipped.and_then(|run| lockstep::check(case, given.calls, &run, &mut Seen::default()));
                tried.count(number, result.is_err());
            }
        }
        for (tried, (_, slip)) in self.program.iter_mut().zip(program::SLIPS) {
            let result = lockstep::check_slipped(case, given.calls, &run, slip, &mut Seen::default());
            tried.count(number, result.is_err());
        }
        for (tried, (_, slip)) in self.retries.iter_mut().zip(retries::SLIPS) {
            let made = Cell::new(false);
            let slips = |pool: &mut Pool| made.set(slip(pool) || made.get());
            let result = lockstep::check_slipped(case, given.calls, &run, &slips, &mut Seen::default());
            if made.get() {
                tried.count(number, result.is_err());
            }
        }
        #[cfg(oracle)]
        self.rust.case(number, case, path, rng);
        #[cfg(not(oracle))]
        let _ = path;
    }

    fn tried(self) -> Vec<Tried> {
        let mut tried = self.bytes;
        tried.extend(self.program);
        tried.extend(self.retries);
        #[cfg(oracle)]
        tried.extend(self.rust.tried());
        tried
    }
}

/// Every slip in how a file is read, by its name.
fn readers() -> Vec<(&'static str, Box<Slipping>)> {
    let mut readers: Vec<(&'static str, Box<Slipping>)> = Vec::new();
    for &(name, slip) in ids::SLIPS {
        readers.push((name, Box::new(move |file| ids::read(file, slip))));
    }
    for &(name, slip) in attempts::SLIPS {
        readers.push((name, Box::new(move |file| attempts::read(file, slip))));
    }
    readers.push(("attempts may be torn", Box::new(attempts::read_torn)));
    readers
}

/// A reader of a file that slips.
type Slipping = dyn Fn(&[u8]) -> Result<Reading, u8>;

/// Makes every slip in how a file is read, in those of so many openings where it makes a difference. They are outside
/// the domain of equality, since ids have any spelling, and messages have attempts.
fn misread(openings: u64, seed: u64, lent: &mut Lent) -> Vec<Tried> {
    let readers = readers();
    let mut tried: Vec<Tried> = readers.iter().map(|(name, _)| Tried::new(name, false)).collect();
    for number in 0..openings {
        let number = seed.wrapping_mul(1 << 32).wrapping_add(number);
        let rng = &mut Rng::new(number);
        let mut case = if number.is_multiple_of(2) { Case::outside(rng) } else { Case::retried(rng) };
        case.calls.clear();
        let given = Given::new(number, &case);
        let Ok(run) = given.run(lent) else { continue };
        for (tried, (_, reads)) in tried.iter_mut().zip(&readers) {
            if case::open_by(reads, &case) != case::open(&case) {
                let result = lockstep::check_misread(&case, given.calls, &run, reads, &mut Seen::default());
                tried.count(number, result.is_err());
            }
        }
    }
    tried
}
