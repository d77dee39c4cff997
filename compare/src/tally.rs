//! Counts what passed and what failed, by subject, and shows the first failures.
use std::time::Instant;

/// Failures that are shown; the rest are counted only.
const SHOWN: u64 = 10;

/// Two values must be the same; an error in words.
pub fn same<T: PartialEq + std::fmt::Debug>(what: &str, found: T, expected: T) -> Result<(), String> {
    if found == expected { Ok(()) } else { Err(format!("{what}: {found:?}, not {expected:?}")) }
}

pub struct Tally {
    passed: u64,
    failed: u64,
    notes: Vec<(String, u64)>,
    subject: String,
    at_begin: (u64, u64, Instant),
}

impl Default for Tally {
    fn default() -> Self {
        Tally { passed: 0, failed: 0, notes: Vec::new(), subject: String::new(), at_begin: (0, 0, Instant::now()) }
    }
}

impl Tally {
    /// What is run from here on, until `end`.
    pub fn begin(&mut self, subject: &str) {
        self.subject = subject.into();
        self.at_begin = (self.passed, self.failed, Instant::now());
    }

    /// One check.
    pub fn check(&mut self, result: Result<(), String>) {
        match result {
            Ok(()) => self.passed += 1,
            Err(what) => {
                self.failed += 1;
                if self.failed <= SHOWN {
                    println!("FAILED {}: {what}", self.subject);
                }
            }
        }
    }

    /// One check that two values are the same, as a sentence.
    pub fn equal<T: PartialEq + std::fmt::Debug>(&mut self, what: &str, found: T, expected: T) {
        self.check(same(what, found, expected));
    }

    /// A count that the report shows beside the checks.
    pub fn note(&mut self, what: &str, more: u64) {
        match self.notes.iter_mut().find(|note| note.0 == what) {
            Some(note) => note.1 += more,
            None => self.notes.push((what.into(), more)),
        }
    }

    /// Prints the subject's line.
    pub fn end(&mut self) {
        let (passed, failed, since) = self.at_begin;
        let (passed, failed) = (self.passed - passed, self.failed - failed);
        let notes: String = self.notes.drain(..).map(|(what, count)| format!(", {count} {what}")).collect();
        println!("{}: {passed} passed, {failed} failed{notes} ({:.1} s)", self.subject, since.elapsed().as_secs_f64());
    }

    /// Prints the last line; true where nothing failed.
    pub fn finish(self) -> bool {
        println!("{} passed, {} failed", self.passed, self.failed);
        self.failed == 0
    }
}
