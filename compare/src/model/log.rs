//! The log: its text, reading a file, and the running log with its orders.
//!
//! The file is the first `size` bytes of the lent log. Which records are open, and how often each message was tried as
//! the log has it, follows from these bytes (`open_records`), so the four counters are all there is to keep.
use crate::limits::{RETRY_MAX, refusal};
use crate::met;
use std::collections::BTreeMap;

pub use crate::limits::{BODY_MAX, LAST_ID, MESSAGES, NAME_MAX};

/// A record's number in the log. Never a caller id.
#[derive(Clone, Copy, PartialEq, Eq, PartialOrd, Ord, Debug, Hash)]
pub struct LogId(pub u64);

/// The number of a waiting caller (`Reply.id`). Never a log id.
#[derive(Clone, Copy, PartialEq, Eq, PartialOrd, Ord, Debug, Hash)]
pub struct CallerId(pub u64);

/// An order to the disk.
#[derive(Clone, Copy, PartialEq, Eq, Debug)]
pub enum Order {
    /// Write log bytes a..b at the file's end (the file is a bytes long).
    Append(usize, usize),
    /// The file becomes the log's first n bytes, whole or not at all.
    Replace(usize),
    Flush,
}

#[derive(Clone, Copy, PartialEq, Eq, Debug)]
pub struct Counters {
    pub next: u64,
    pub live: usize,
    pub size: usize,
    pub dirty: bool,
}

// ---- text ----

pub fn escape(text: &[u8]) -> Vec<u8> {
    let mut out = Vec::new();
    for &b in text {
        match b {
            b'\\' => out.extend(b"\\\\"),
            b'\t' => out.extend(b"\\t"),
            b'\n' => out.extend(b"\\n"),
            _ => out.push(b),
        }
    }
    out
}

/// The byte after a backslash.
pub fn unescaped(b: u8) -> u8 {
    match b {
        b't' => b'\t',
        b'n' => b'\n',
        _ => b,
    }
}

/// Undoes `escape`. A backslash with nothing behind it gives nothing.
pub fn unescape(text: &[u8]) -> Vec<u8> {
    let mut out = Vec::new();
    let mut i = 0;
    while i < text.len() {
        if text[i] != b'\\' {
            out.push(text[i]);
            i += 1;
        } else if i + 1 < text.len() {
            out.push(unescaped(text[i + 1]));
            i += 2;
        } else {
            i += 1;
        }
    }
    out
}

pub fn record(id: LogId, name: &[u8], body: &[u8]) -> Vec<u8> {
    let mut out = id.0.to_string().into_bytes();
    out.push(b'\t');
    out.extend(escape(name));
    out.push(b'\t');
    out.extend(escape(body));
    out.push(b'\n');
    out
}

pub fn done_line(id: LogId) -> Vec<u8> {
    let mut out = id.0.to_string().into_bytes();
    out.push(b'\n');
    out
}

/// How often a message was tried again; a number of 0 stands in no line that the log writes.
pub fn retry_line(id: LogId, attempts: u64) -> Vec<u8> {
    format!("{}\t{attempts}\n", id.0).into_bytes()
}

/// Digits as a number of 64 bits.
fn decimal(digits: &[u8]) -> Option<u64> {
    let mut value: u64 = 0;
    for &b in digits {
        if !b.is_ascii_digit() {
            return None;
        }
        value = value.checked_mul(10)?.checked_add((b - b'0') as u64)?;
    }
    Some(value)
}

/// A field as an id: `0`, or digits of which the first is not `0`, of a value up to 2^64-1. No two fields are one id.
pub fn read_id(field: &[u8]) -> Option<u64> {
    match field {
        [b'0'] => Some(0),
        [b'1'..=b'9', ..] => decimal(field),
        _ => None,
    }
}

/// The id that the Rust reads in a field that is none here: it takes one plus sign, and zeros before other digits.
pub fn other_spelling(field: &[u8]) -> Option<u64> {
    let digits = field.strip_prefix(b"+").unwrap_or(field);
    if digits.is_empty() || read_id(field).is_some() { None } else { decimal(digits) }
}

// ---- the reader ----

/// What one whole line (without its LF) says.
#[derive(PartialEq, Eq, Debug)]
pub enum Line<'a> {
    Done(u64),
    Record(u64, &'a [u8], &'a [u8]),
    /// An id, and how often its message was tried again.
    Retry(u64, u64),
    Skip,
}

/// The fields of a line: one at least.
pub fn fields(line: &[u8]) -> Vec<&[u8]> {
    line.split(|&b| b == b'\t').collect()
}

pub fn read_line(line: &[u8]) -> Line<'_> {
    let fields = fields(line);
    match (fields.len(), read_id(fields[0])) {
        (1, Some(id)) => Line::Done(id),
        (2, Some(id)) => read_retry(id, fields[1]),
        (3, Some(id)) => Line::Record(id, fields[1], fields[2]),
        _ => Line::Skip,
    }
}

/// The attempts are spelled as an id is, and are none where they pass what a group may retry.
fn read_retry(id: u64, field: &[u8]) -> Line<'_> {
    match read_id(field) {
        Some(attempts) if attempts <= RETRY_MAX => Line::Retry(id, attempts),
        _ => Line::Skip,
    }
}

/// The whole lines, each without its LF; bytes after the last LF are no line.
pub fn whole_lines(file: &[u8]) -> Vec<(usize, usize)> {
    let mut out = Vec::new();
    let mut start = 0;
    for (at, &byte) in file.iter().enumerate() {
        if byte == b'\n' {
            out.push((start, at));
            start = at + 1;
        }
    }
    out
}

#[derive(Clone, PartialEq, Eq, Debug)]
pub struct Left {
    pub id: LogId,
    pub name: Vec<u8>,
    pub body: Vec<u8>,
    /// How often it was tried again, as the file last says.
    pub attempts: u64,
}

pub struct Reading {
    /// In rising id order.
    pub left: Vec<Left>,
    pub next: u64,
}

/// Reads a file; Err(3) where a whole record line has id 2^64-1.
pub fn read_file(file: &[u8]) -> Result<Reading, u8> {
    let mut left: BTreeMap<u64, Left> = BTreeMap::new();
    let mut next = 0;
    for (a, b) in whole_lines(file) {
        match read_line(&file[a..b]) {
            Line::Done(id) => met_done(left.remove(&id)),
            Line::Record(id, name, body) => {
                if id == LAST_ID {
                    return Err(refusal::LAST_RECORD);
                }
                next = next.max(id + 1);
                let message = Left { id: LogId(id), name: unescape(name), body: unescape(body), attempts: 0 };
                met_record(left.insert(id, message));
            }
            Line::Retry(id, attempts) => match left.get_mut(&id) {
                Some(message) => {
                    met_retry(message.attempts, attempts);
                    message.attempts = attempts;
                }
                None => met!("line: a retry of no open record, skipped"),
            },
            Line::Skip => met_skipped(&file[a..b], |id| left.contains_key(&id)),
        }
    }
    Ok(Reading { left: left.into_values().collect(), next })
}

/// A done line, by the message that it took off.
fn met_done(before: Option<Left>) {
    match before {
        Some(Left { attempts: 0, .. }) => met!("line: done"),
        Some(_) => met!("line: done, with its attempts"),
        None => met!("line: done, of no open record"),
    }
}

/// A record, by the message that it takes the place of.
fn met_record(before: Option<Left>) {
    match before {
        None => met!("line: a record"),
        Some(Left { attempts: 0, .. }) => met!("line: a record, set again"),
        Some(_) => met!("line: a record, set again, its attempts 0 again"),
    }
}

/// A retry of an open record, by the number before it.
fn met_retry(before: u64, attempts: u64) {
    match attempts {
        0 => met!("line: a retry of 0"),
        smaller if smaller < before => met!("line: a retry, a smaller number"),
        _ => met!("line: a retry"),
    }
}

/// Which kind of line was skipped, and whether the id that the Rust reads in it is that of an open record.
fn met_skipped(line: &[u8], open: impl Fn(u64) -> bool) {
    let fields = fields(line);
    match (fields.len(), other_spelling(fields[0])) {
        (3, Some(id)) if open(id) => met!("line: a record in another spelling, skipped, of an open id"),
        (3, Some(_)) => met!("line: a record in another spelling, skipped"),
        (1, Some(id)) if open(id) => met!("line: done in another spelling, skipped"),
        (1, Some(_)) => met!("line: done in another spelling, skipped, of no open record"),
        (2 | 4, Some(_)) => met!("line: two or four fields behind another spelling, skipped"),
        (2, None) if read_id(fields[0]).is_some() => met_no_attempts(fields[1]),
        _ => met!("line: skipped"),
    }
}

/// What stands behind an id and is no number of attempts.
fn met_no_attempts(field: &[u8]) {
    if read_id(field).is_some() {
        met!("line: a retry above 255, skipped");
    } else if other_spelling(field).is_some() {
        met!("line: a retry in another spelling, skipped");
    } else {
        met!("line: skipped");
    }
}

/// True where no whole line says something to the Rust by an id in another spelling: the domain of equality has such
/// files only. A line of other than one or three fields says nothing to either side, whatever it begins with.
pub fn one_spelling(file: &[u8]) -> bool {
    let says_more = |line: &[u8]| {
        let fields = fields(line);
        matches!(fields.len(), 1 | 3) && other_spelling(fields[0]).is_some()
    };
    !whole_lines(file).into_iter().any(|(a, b)| says_more(&file[a..b]))
}

/// True where no whole line is two ids: the domain of equality has such files only, since the Rust skips a line of two
/// fields and this log may read attempts in it.
pub fn no_retry(file: &[u8]) -> bool {
    let two_ids = |line: &[u8]| {
        let fields = fields(line);
        fields.len() == 2 && fields.iter().all(|field| read_id(field).is_some())
    };
    !whole_lines(file).into_iter().any(|(a, b)| two_ids(&file[a..b]))
}

/// How a file is read: `readable`, or a slip of it.
pub type Reader<'a> = &'a dyn Fn(&[u8]) -> Result<Reading, u8>;

/// Refusals 3 and 4 of opening, else what is left.
pub fn readable(file: &[u8]) -> Result<Reading, u8> {
    let reading = read_file(file)?;
    if reading.left.len() > MESSAGES {
        return Err(refusal::LEFT);
    }
    if reading.left.iter().any(|m| m.name.len() > NAME_MAX || m.body.len() > BODY_MAX) {
        return Err(refusal::LEFT);
    }
    Ok(reading)
}

/// The file that an opening makes of what is left: each record, and directly behind it its attempts if they are not 0.
pub fn image(left: &[Left]) -> Vec<u8> {
    let written = |m: &Left| [record(m.id, &m.name, &m.body), attempts_line(m.id, m.attempts)].concat();
    left.iter().flat_map(written).collect()
}

/// The line of these attempts; empty where they are 0.
pub fn attempts_line(id: LogId, attempts: u64) -> Vec<u8> {
    if attempts == 0 { Vec::new() } else { retry_line(id, attempts) }
}

// ---- the running log ----

/// A record of the file whose id is not done: its first byte, the byte after its LF, and the attempts that the file
/// last says.
#[derive(Clone, Copy, PartialEq, Eq, Debug)]
pub struct Open {
    pub id: LogId,
    pub from: usize,
    pub to: usize,
    pub attempts: u64,
}

impl Open {
    /// The line of its attempts; empty where they are 0.
    pub fn line(&self) -> Vec<u8> {
        attempts_line(self.id, self.attempts)
    }

    /// What it counts for in live: the record, and the line of its attempts.
    pub fn live(&self) -> usize {
        self.to - self.from + self.line().len()
    }
}

/// The open records of a file, in their order.
pub fn open_records(file: &[u8]) -> Vec<Open> {
    let mut open: Vec<Open> = Vec::new();
    for (a, b) in whole_lines(file) {
        match read_line(&file[a..b]) {
            Line::Done(id) => open.retain(|r| r.id != LogId(id)),
            Line::Record(id, _, _) => {
                open.retain(|r| r.id != LogId(id));
                open.push(Open { id: LogId(id), from: a, to: b + 1, attempts: 0 });
            }
            Line::Retry(id, attempts) => {
                open.iter_mut().filter(|r| r.id == LogId(id)).for_each(|r| r.attempts = attempts);
            }
            Line::Skip => {}
        }
    }
    open
}

/// What a rewrite leaves of these open records: each as it stands in the log, directly behind it its line.
fn kept(log: &[u8], open: &[Open]) -> Vec<u8> {
    open.iter().flat_map(|r| [&log[r.from..r.to], &r.line()].concat()).collect()
}

/// Writes that over the log's first bytes, and orders it.
fn rewrite(c: &mut Counters, log: &mut [u8], image: &[u8]) -> Order {
    put(log, 0, image);
    c.size = image.len();
    Order::Replace(c.size)
}

/// Writes a line behind the others, and orders it.
fn write_behind(c: &mut Counters, log: &mut [u8], line: &[u8]) -> Order {
    put(log, c.size, line);
    let from = c.size;
    c.size += line.len();
    Order::Append(from, c.size)
}

/// Writes `bytes` from `at` on; the log's bytes after them keep their value.
fn put(log: &mut [u8], at: usize, bytes: &[u8]) {
    log[at..at + bytes.len()].copy_from_slice(bytes);
}

/// Writes that file over the log's first bytes, and orders it.
pub fn open(log: &mut [u8], reading: &Reading) -> (Counters, Order) {
    let image = image(&reading.left);
    put(log, 0, &image);
    let n = image.len();
    (Counters { next: reading.next, live: n, size: n, dirty: false }, Order::Replace(n))
}

/// Refusals 9 and 10, in that order.
pub fn append_refusal(c: &Counters, log_len: usize, name: &[u8], body: &[u8]) -> Option<u8> {
    if c.next == LAST_ID {
        return Some(refusal::IDS);
    }
    if c.live + record(LogId(c.next), name, body).len() > log_len {
        return Some(refusal::SPACE);
    }
    None
}

/// Logs a message under the next id. Only after `append_refusal` said None.
pub fn append(c: &mut Counters, log: &mut [u8], name: &[u8], body: &[u8]) -> (LogId, Order) {
    let id = LogId(c.next);
    let rec = record(id, name, body);
    let order = if c.size + rec.len() <= log.len() {
        write_behind(c, log, &rec)
    } else {
        let image = [kept(log, &open_records(&log[..c.size])), rec.clone()].concat();
        rewrite(c, log, &image)
    };
    c.next += 1;
    c.live += rec.len();
    c.dirty = true;
    (id, order)
}

/// Takes a record off: by a line behind the others, or by writing the open ones anew. None where it is not open.
pub fn mark(c: &mut Counters, log: &mut [u8], compact_at: usize, id: LogId) -> Option<Order> {
    let mut open = open_records(&log[..c.size]);
    let at = open.iter().position(|r| r.id == id)?;
    c.live -= open.remove(at).live();
    let line = done_line(id);
    let full = c.size + line.len();
    if full > log.len() || full >= compact_at.max(2 * c.live) {
        let image = kept(log, &open);
        Some(rewrite(c, log, &image))
    } else {
        Some(write_behind(c, log, &line))
    }
}

/// Writes down how often a message was tried again: by a line behind the others, or by writing the open records anew
/// with it. None, and nothing changed, where the id is not open, the number is 0 or above 255, or the line has no room
/// either way.
pub fn retry(c: &mut Counters, log: &mut [u8], id: LogId, attempts: u64) -> Option<Order> {
    if !(1..=RETRY_MAX).contains(&attempts) {
        return None;
    }
    let mut open = open_records(&log[..c.size]);
    let record = open.iter_mut().find(|r| r.id == id)?;
    let line = retry_line(id, attempts);
    let live = c.live - record.line().len() + line.len();
    record.attempts = attempts;
    if c.size + line.len() <= log.len() {
        c.live = live;
        return Some(write_behind(c, log, &line));
    }
    if live > log.len() {
        return None;
    }
    c.live = live;
    let image = kept(log, &open);
    Some(rewrite(c, log, &image))
}

/// True where the next mark of `id` would rewrite for lack of space alone (outside the domain of equality).
pub fn mark_lacks_space(c: &Counters, log: &[u8], compact_at: usize, id: LogId) -> bool {
    let open = open_records(&log[..c.size]);
    let Some(record) = open.iter().find(|r| r.id == id) else { return false };
    let full = c.size + done_line(id).len();
    full > log.len() && full < compact_at.max(2 * (c.live - record.live()))
}

/// Nothing to flush where no record came since the last flush.
pub fn sync(c: &mut Counters) -> Option<Order> {
    if !c.dirty {
        return None;
    }
    c.dirty = false;
    Some(Order::Flush)
}
