//! Any bytes as scripts, and any bytes as files: what is returned and written must be what the protocol says, and
//! nothing outside the lent slices may be touched. Every other script has guards round its slices; the others lie
//! alone, so that under valgrind a byte read or written beside one is seen.
use super::decoder::{Expected, expected};
use super::list::{List, Opening, Size};
use super::{files, settings, texts};
use crate::chains::Chains;
use crate::lent::{LOG_FILL, STORE_FILL};
use crate::limits::{LOG_MAX, LOG_MIN, STORE};
use crate::output::{Answer, Entry, Output};
use crate::port;
use crate::rng::Rng;
use crate::script::{SHOW_LOG, SHOW_STORE};
use crate::tally::Tally;
use crate::wire::NUMBER;

/// Stands round every lent slice.
const GUARD: u8 = 0xA7;
const GUARDS: usize = 64;
/// What stands in the output before a run.
const OUT: u8 = 0x5A;
/// The longest slice that is lent here.
const LONGEST: usize = 100_000;

/// Runs until the scripts have so many bytes together.
pub fn run(tally: &mut Tally, bytes: u64, seed: u64) {
    let mut wild = Wild::default();
    for (subject, share) in [("random bytes", 1), ("changed scripts", 6), ("random files", 3)] {
        tally.begin(subject);
        let mut done = 0;
        let mut number = 0;
        while done < bytes * share / 10 {
            let mut rng = super::case(seed ^ share << 40, number);
            let script = match share {
                1 => random_bytes(&mut rng),
                6 => changed(&mut rng),
                _ => random_file(&mut rng),
            };
            done += script.len() as u64;
            number += 1;
            let judged = wild.script(&script, &mut rng);
            // The number and the seed make it again; its beginning is enough to read.
            let begin = &script[..script.len().min(200)];
            tally.check(judged.map_err(|error| format!("script {number}: {error}; \"{}\"", begin.escape_ascii())));
        }
        tally.note("bytes", done);
        for (code, times) in wild.codes.iter_mut().enumerate() {
            tally.note(&format!("returned {code}"), std::mem::take(times));
        }
        tally.end();
    }
}

#[derive(Default)]
struct Wild {
    script: Guarded,
    log: Guarded,
    store: Guarded,
    out: Guarded,
    codes: [u64; 4],
}

/// A slice with so many guards before and behind it.
#[derive(Default)]
struct Guarded {
    bytes: Box<[u8]>,
    guards: usize,
}

impl Guarded {
    fn new(from: &[u8], guards: usize) -> Guarded {
        let mut bytes = vec![GUARD; guards + from.len() + guards].into_boxed_slice();
        bytes[guards..guards + from.len()].copy_from_slice(from);
        Guarded { bytes, guards }
    }

    fn slice(&mut self) -> &mut [u8] {
        let end = self.bytes.len() - self.guards;
        &mut self.bytes[self.guards..end]
    }

    fn guards_stand(&self) -> bool {
        let end = self.bytes.len() - self.guards;
        self.bytes[..self.guards].iter().chain(&self.bytes[end..]).all(|byte| *byte == GUARD)
    }
}

impl Wild {
    /// One script, in lent slices of the lengths that it names, or of others, and in an output of any length.
    fn script(&mut self, script: &[u8], rng: &mut Rng) -> Result<(), String> {
        let log = vec![LOG_FILL; lent_length(script, 2, rng, LOG_MAX)];
        let store = vec![STORE_FILL; lent_length(script, 3, rng, STORE)];
        let mut expects = expected(script, &log, &store, usize::MAX);
        let room = match rng.below(8) {
            0 => rng.below(2 * NUMBER as u64) as usize,
            1 => expects.out.len().saturating_sub(1),
            2 => rng.below(expects.out.len() as u64 + 1) as usize,
            3 => expects.out.len(),
            _ => expects.out.len() + rng.below(200) as usize,
        };
        if room < expects.out.len() {
            expects = expected(script, &log, &store, room);
        }
        let guards = if rng.chance(2) { GUARDS } else { 0 };
        self.script = Guarded::new(script, guards);
        self.log = Guarded::new(&log, guards);
        self.store = Guarded::new(&store, guards);
        self.out = Guarded::new(&vec![OUT; room], guards);
        let code = port::replay(self.script.slice(), self.log.slice(), self.store.slice(), self.out.slice());
        self.codes[code.min(3) as usize] += 1;
        self.judge(script, code, &expects).map_err(|error| format!("{error} (room {room})"))
    }

    fn judge(&mut self, script: &[u8], code: u64, expects: &Expected) -> Result<(), String> {
        if code != expects.code {
            return Err(format!("returned {code}, not {}", expects.code));
        }
        for (what, guarded) in
            [("script", &self.script), ("log", &self.log), ("store", &self.store), ("output", &self.out)]
        {
            if !guarded.guards_stand() {
                return Err(format!("a byte beside the {what} was touched"));
            }
        }
        if self.script.slice() != script {
            return Err("the script was touched".into());
        }
        let (written, behind) = self.out.slice().split_at(expects.out.len());
        if let Some(at) =
            written.iter().zip(&expects.out).position(|(byte, expected)| expected.is_some_and(|e| e != *byte))
        {
            return Err(format!("output byte {at} is {}, not {:?}", written[at], expects.out[at]));
        }
        if behind.iter().any(|byte| *byte != OUT) {
            return Err("the output was touched behind what it counts".into());
        }
        if self.log.slice() != expects.log {
            return Err("another log".into());
        }
        match &expects.store {
            Some(store) if self.store.slice() != store => Err("another store".into()),
            _ if code == port::OK => self.chained(script, expects.out.len()),
            _ => Ok(()),
        }
    }

    /// What the port wrote in a run to the script's end: the tables that it shows have chains.
    fn chained(&mut self, script: &[u8], written: usize) -> Result<(), String> {
        let show = header_number(script, 1).ok_or("no header")?;
        let output = Output::read(&self.out.slice()[..written], show, self.store.slice().len())?;
        // After a refused opening all tables are zero.
        if let [Entry { answer: Answer::Refused(_), .. }] = output.entries.as_slice() {
            return Ok(());
        }
        let mut tables = output.entries.iter().filter_map(|entry| entry.tables);
        tables.try_for_each(|tables| Chains::read(&tables).map(drop))
    }
}

/// A number of the script's header.
fn header_number(script: &[u8], at: usize) -> Option<u64> {
    let bytes = script.get(at * NUMBER..(at + 1) * NUMBER)?;
    Some(u64::from_le_bytes(bytes.try_into().unwrap()))
}

/// The length that the script names in its header's number `at`, if it can be lent; now and then another.
fn lent_length(script: &[u8], at: usize, rng: &mut Rng, usual: usize) -> usize {
    let named = header_number(script, at).and_then(|length| usize::try_from(length).ok());
    let named = named.filter(|length| *length <= LONGEST);
    match rng.below(40) {
        0 => rng.below(LONGEST as u64) as usize,
        1 => named.unwrap_or(usual).saturating_sub(1),
        _ => named.unwrap_or(usual),
    }
}

/// Bytes, of which some begin as a script does.
fn random_bytes(rng: &mut Rng) -> Vec<u8> {
    let mut script: Vec<u8> = (0..rng.below(400)).map(|_| rng.number() as u8).collect();
    let begins = rng.below(4);
    for (at, number) in [1, rng.below(5), rng.below(100), STORE as u64].into_iter().enumerate().take(begins as usize) {
        if let Some(place) = script.get_mut(at * NUMBER..(at + 1) * NUMBER) {
            place.copy_from_slice(&number.to_le_bytes());
        }
    }
    script
}

/// A script that was well formed, with some changes.
fn changed(rng: &mut Rng) -> Vec<u8> {
    let size = if rng.chance(12) { Size::Middle } else { Size::Short };
    let list = List::random(rng, size);
    let show = if rng.chance(8) { rng.range(SHOW_LOG, SHOW_STORE) } else { rng.below(2) };
    let mut script = list.script(show).bytes().to_vec();
    for _ in 0..rng.below(4) {
        change(rng, &mut script);
    }
    script
}

fn change(rng: &mut Rng, script: &mut Vec<u8>) {
    let length = script.len() as u64;
    let at = rng.below(length.max(1)) as usize;
    match rng.below(8) {
        0 => script.truncate(at),
        1 => drop(script.drain(at..(at + 1 + rng.below(40) as usize).min(script.len()))),
        2 => {
            let more = (0..rng.below(60)).map(|_| rng.number() as u8).collect::<Vec<_>>();
            drop(script.splice(at..at, more));
        }
        3 => {
            // A part that stands twice.
            let part = script[at.min(script.len())..].iter().take(120).copied().collect::<Vec<_>>();
            drop(script.splice(at..at, part));
        }
        4 => {
            if let Some(byte) = script.get_mut(at) {
                *byte ^= 1 << rng.below(8);
            }
        }
        _ => {
            // Another number, most often in the header.
            let at = if rng.chance(2) { at } else { rng.below(11) as usize * NUMBER };
            let number = match rng.below(6) {
                0 => rng.number(),
                1 => u64::MAX - rng.below(3),
                2 => 1 << rng.below(64),
                3 => length,
                _ => rng.below(20),
            };
            if let Some(place) = script.get_mut(at..at + NUMBER) {
                place.copy_from_slice(&number.to_le_bytes());
            }
        }
    }
}

/// An opening alone, of a file that may be anything.
fn random_file(rng: &mut Rng) -> Vec<u8> {
    let settings = settings::any(rng);
    let names: Vec<Vec<u8>> = settings.groups.iter().map(|group| group.name.clone()).collect();
    let file = match rng.below(6) {
        0 => (0..rng.below(300)).map(|_| rng.number() as u8).collect(),
        1 => (0..rng.below(300)).map(|_| *rng.pick(b"01\t\t\n\n\\")).collect(),
        2 => texts::bytes(rng, 2_000),
        3 => {
            let records = rng.below(300);
            files::crowd(rng, records, &names)
        }
        _ => {
            let lines = if rng.chance(20) { rng.below(3_000) } else { rng.below(60) };
            files::any(rng, lines, &names)
        }
    };
    let file = &file[..file.len().min(LOG_MAX)];
    let log_len = (file.len() + rng.below(40) as usize).clamp(LOG_MIN, LOG_MAX);
    Opening { settings, log_len, store_len: STORE, file: file.to_vec() }.script(SHOW_LOG).bytes().to_vec()
}
