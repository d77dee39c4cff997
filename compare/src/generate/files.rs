//! Random files for an opening.
use super::texts;
use crate::limits::{BODY_MAX, NAME_MAX};
use crate::model::log::{self, LogId};
use crate::model::pool::Settings;
use crate::rng::Rng;

/// A file for a case inside the domain of equality: UTF-8 with no CR before LF, no id in another spelling, and no line
/// of two ids. A left message may still be too long or end in CR.
pub fn file(rng: &mut Rng, settings: &Settings) -> Vec<u8> {
    lines(rng, settings, id, |_| None)
}

/// Open records alone, of groups, as the log writes them: a file that an opening leaves as it is.
pub fn open(rng: &mut Rng, settings: &Settings) -> Vec<u8> {
    let mut id = *rng.pick(&[0, 0, 0, 8, 99]);
    let mut file = Vec::new();
    for _ in 0..rng.range(1, 5) {
        let name = &rng.pick(&settings.groups).name;
        let body = texts::text(rng, 8);
        file.extend(log::record(LogId(id), name, &body));
        id += rng.range(1, 2);
    }
    file
}

/// Records of few ids, with attempts behind them, done lines, and now and then a torn end.
pub fn retried(rng: &mut Rng, settings: &Settings) -> Vec<u8> {
    let mut file = Vec::new();
    for at in 0..rng.range(2, 12) {
        match rng.below(10) {
            3 => file.extend(log::done_line(LogId(open_id(rng, &file)))),
            // Behind 9 and 99 the next number has a digit more.
            4..=6 => {
                let (id, attempts) = (open_id(rng, &file), *rng.pick(&[0, 9, 9, 99, 255, 256]));
                file.extend(log::retry_line(LogId(id), attempts));
            }
            7.. if at > 0 => file.extend(retry_line(rng, &file).into_bytes()),
            _ => {
                let name = &rng.pick(&settings.groups).name;
                let body = vec![b'x'; rng.below(16) as usize];
                file.extend(log::record(LogId(rng.below(3)), name, &body));
            }
        }
    }
    match rng.below(8) {
        0 => file.truncate(rng.below(file.len() as u64 + 1) as usize),
        1 => drop(file.pop()),
        _ => {}
    }
    file
}

/// Lines that an opening may read. Those of one or three fields begin with what `first` makes; the others with an id
/// in any spelling. A line of two fields has as its second what `attempts` makes, if anything; else it says nothing.
fn lines(
    rng: &mut Rng,
    settings: &Settings,
    first: fn(&mut Rng) -> String,
    attempts: fn(&mut Rng) -> Option<String>,
) -> Vec<u8> {
    if rng.chance(300) {
        return crowd(rng, settings);
    }
    let lines = if rng.chance(3) { 0 } else { rng.below(9) };
    let mut file = String::new();
    for _ in 0..lines {
        // What stands behind the first field, by its longest lengths.
        let behind: &[usize] = match rng.below(10) {
            0 | 1 => &[],
            2 => &[NAME_MAX],
            3 => &[NAME_MAX, BODY_MAX, 8],
            _ => &[NAME_MAX, BODY_MAX],
        };
        let mut line = match (behind.len(), attempts(rng)) {
            (1, Some(attempts)) => format!("{}\t{attempts}", first(rng)),
            (0 | 2, _) => first(rng) + &fields(rng, settings, behind),
            _ => any_id(rng) + &fields(rng, settings, behind),
        };
        if line.ends_with('\r') {
            line.push('z');
        }
        file.push_str(&line);
        file.push('\n');
    }
    file.into_bytes()
}

/// Fields of these longest lengths, each behind a TAB. A single one is no number.
fn fields(rng: &mut Rng, settings: &Settings, lengths: &[usize]) -> String {
    let mut fields: String = lengths.iter().map(|&most| format!("\t{}", field(rng, settings, most))).collect();
    if lengths.len() == 1 && log::read_id(&fields.as_bytes()[1..]).is_some() {
        fields.push('z');
    }
    fields
}

/// More than 256 records open at once, in any order, most of them done further on.
fn crowd(rng: &mut Rng, settings: &Settings) -> Vec<u8> {
    let mut file = String::new();
    let records = rng.range(200, 600);
    for record in 0..records {
        let name = field(rng, settings, 4).replace('\r', "");
        file.push_str(&format!("{}\t{name}\t\n", (record * 7) % records));
    }
    let kept = rng.range(0, 280);
    for record in 0..records {
        if rng.below(records) >= kept {
            file.push_str(&format!("{record}\n"));
        }
    }
    file.into_bytes()
}

/// Any bytes, in lines of a log or not, with ids in any spelling.
pub fn any(rng: &mut Rng, settings: &Settings) -> Vec<u8> {
    let mut file = lines(rng, settings, any_id, |rng| (!rng.chance(4)).then(|| attempts(rng)));
    for _ in 0..rng.below(5) {
        let line = if rng.chance(2) { respelled_line(rng, &file) } else { retry_line(rng, &file) };
        file.extend_from_slice(line.as_bytes());
    }
    for _ in 0..rng.below(4) {
        let at = rng.below(file.len() as u64 + 1) as usize;
        match rng.below(4) {
            0 => file.truncate(at),
            1 => file.insert(at, rng.number() as u8),
            2 => file.insert(at, *rng.pick(b"\r\n\t\\0")),
            _ => drop(file.splice(at..at, texts::any(rng, 8))),
        }
    }
    if rng.chance(8) {
        file.extend_from_slice(b"18446744073709551615\ta\tb\n");
    }
    file
}

/// A record or a done line in another spelling, most often of an id that is open in the file.
fn respelled_line(rng: &mut Rng, file: &[u8]) -> String {
    let number = open_id(rng, file);
    let id = respelled(rng, number);
    if rng.chance(2) { format!("{id}\n") } else { format!("{id}\ta\tb\n") }
}

/// Attempts, most often of an id that is open in the file; now and then the record comes again behind them.
fn retry_line(rng: &mut Rng, file: &[u8]) -> String {
    let id = open_id(rng, file);
    let again = if rng.chance(6) { format!("{id}\ta\tb\n") } else { String::new() };
    format!("{id}\t{}\n{again}", attempts(rng))
}

/// Most often the id of a record that is open in the file.
fn open_id(rng: &mut Rng, file: &[u8]) -> u64 {
    let open = log::open_records(file);
    if open.is_empty() || rng.chance(4) { rng.below(7) } else { rng.pick(&open).id.0 }
}

/// A number of attempts, or one that is above the largest, or in another spelling.
pub fn attempts(rng: &mut Rng) -> String {
    match rng.below(16) {
        0 => "0".into(),
        1 => "255".into(),
        2 | 3 => (*rng.pick(&["256", "1000", "18446744073709551615", "18446744073709551616"])).into(),
        4 => {
            let number = rng.below(12);
            respelled(rng, number)
        }
        5 => (*rng.pick(&["", "+", "-1", "1x", " 1", "1 "])).into(),
        6 => rng.range(0, 300).to_string(),
        7 | 8 => (*rng.pick(&["9", "99", "254"])).into(),
        _ => rng.range(1, 3).to_string(),
    }
}

/// An id, or a field that is nearly one and is none on either side.
fn id(rng: &mut Rng) -> String {
    let number = rng.below(7);
    match rng.below(24) {
        0 | 1 => format!("{number}x"),
        2 => String::new(),
        3 => "+".into(),
        4 => format!("{}18446744073709551616", rng.pick(&["", "", "+", "0"])),
        5 => format!("-{number}"),
        6 => format!("++{number}"),
        7 if rng.chance(4) => "18446744073709551614".into(),
        8 | 9 => format!("{}", rng.range(8, 120)),
        _ => format!("{number}"),
    }
}

/// The same, or an id in another spelling, now and then one of the largest, or an id that ends in 0.
fn any_id(rng: &mut Rng) -> String {
    match rng.below(24) {
        0..=7 => {
            let number = rng.below(7);
            respelled(rng, number)
        }
        8 => {
            let number = u64::MAX - rng.below(3);
            respelled(rng, number)
        }
        9 => format!("{}", 10 * rng.range(1, 11)),
        _ => id(rng),
    }
}

/// A number in a spelling that the Rust reads and that is no id here: with a plus sign, with zeros before its digits,
/// or with both.
pub fn respelled(rng: &mut Rng, number: u64) -> String {
    match rng.below(8) {
        0..=2 => format!("+{number}"),
        3 | 4 => format!("0{number}"),
        5 => format!("+0{number}"),
        6 => format!("{number:021}"),
        _ => format!("{}{number}", "0".repeat(rng.range(2, 70) as usize)),
    }
}

fn field(rng: &mut Rng, settings: &Settings, most: usize) -> String {
    if rng.chance(3) {
        return String::from_utf8(rng.pick(&settings.groups).name.clone()).unwrap();
    }
    let characters = if rng.chance(60) { rng.below(most as u64 + 4) } else { rng.below(5) };
    (0..characters).map(|_| *rng.pick(&['a', 't', 'n', '\\', '\\', 'q', 'é', '\r', '3'])).collect()
}
