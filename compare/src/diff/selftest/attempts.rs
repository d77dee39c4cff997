//! Slips in how the plain program reads attempts, as if the port had slipped the other way. What is left of a file is
//! read as it should be; its attempts are read line by line with the slip.
use crate::limits::RETRY_MAX;
use crate::model::log::{self, Line, Reading};
use std::collections::{BTreeMap, BTreeSet};

/// What was read so far: the ids that are open, and attempts by id.
#[derive(Default)]
pub struct Read {
    open: BTreeSet<u64>,
    attempts: BTreeMap<u64, u64>,
}

/// Reads one line.
type Slip = fn(&mut Read, &[u8]);

pub const SLIPS: &[(&str, Slip)] = &[
    ("a later record keeps the attempts", |read, line| match log::read_line(line) {
        Line::Record(id, ..) if read.open.contains(&id) => {}
        _ => read.line(line),
    }),
    ("a done line keeps the attempts", |read, line| match log::read_line(line) {
        Line::Done(id) => drop(read.open.remove(&id)),
        Line::Record(id, ..) if !read.open.contains(&id) => drop(read.open.insert(id)),
        _ => read.line(line),
    }),
    ("attempts before their record count", |read, line| match log::read_line(line) {
        Line::Retry(id, attempts) => drop(read.attempts.insert(id, attempts)),
        Line::Record(id, ..) if !read.open.contains(&id) => drop(read.open.insert(id)),
        _ => read.line(line),
    }),
    ("the larger number wins", |read, line| match log::read_line(line) {
        Line::Retry(id, attempts) if read.attempts.get(&id).is_some_and(|before| *before > attempts) => {}
        _ => read.line(line),
    }),
    ("attempts of 0 are skipped", |read, line| match log::read_line(line) {
        Line::Retry(_, 0) => {}
        _ => read.line(line),
    }),
    ("256 is read", |read, line| match two_fields(line) {
        Some((id, attempts)) if log::read_id(attempts) == Some(RETRY_MAX + 1) => read.retry(id, RETRY_MAX + 1),
        _ => read.line(line),
    }),
    ("attempts may have any spelling", |read, line| match two_fields(line) {
        Some((id, attempts)) => match log::other_spelling(attempts).filter(|attempts| *attempts <= RETRY_MAX) {
            Some(attempts) => read.retry(id, attempts),
            None => read.line(line),
        },
        None => read.line(line),
    }),
    ("lines of two fields are skipped", |_, _| ()),
];

/// Reads a file with a slip.
pub fn read(file: &[u8], slip: Slip) -> Result<Reading, u8> {
    let mut reading = log::readable(file)?;
    let mut read = Read::default();
    log::whole_lines(file).into_iter().for_each(|(a, b)| slip(&mut read, &file[a..b]));
    for message in &mut reading.left {
        message.attempts = read.attempts.get(&message.id.0).copied().unwrap_or(0);
    }
    Ok(reading)
}

/// Attempts that are torn are read too, where the new log is no longer than the file.
pub fn read_torn(file: &[u8]) -> Result<Reading, u8> {
    let torn = file.rsplit(|byte| *byte == b'\n').next().unwrap_or_default();
    if let Line::Retry(..) = log::read_line(torn) {
        let reading = log::readable(&[file, b"\n"].concat())?;
        if log::image(&reading.left).len() <= file.len() {
            return Ok(reading);
        }
    }
    log::readable(file)
}

impl Read {
    /// One line, as it should be read.
    fn line(&mut self, line: &[u8]) {
        match log::read_line(line) {
            Line::Record(id, ..) => {
                self.open.insert(id);
                self.attempts.insert(id, 0);
            }
            Line::Done(id) => {
                self.open.remove(&id);
                self.attempts.remove(&id);
            }
            Line::Retry(id, attempts) => self.retry(id, attempts),
            Line::Skip => {}
        }
    }

    fn retry(&mut self, id: u64, attempts: u64) {
        if self.open.contains(&id) {
            self.attempts.insert(id, attempts);
        }
    }
}

/// An id and the one field behind it.
fn two_fields(line: &[u8]) -> Option<(u64, &[u8])> {
    match log::fields(line)[..] {
        [id, attempts] => Some((log::read_id(id)?, attempts)),
        _ => None,
    }
}
