//! Random files: what a log may have in it after any life and any damage.
use super::texts;
use crate::generate::files::{attempts, respelled};
use crate::model::log::{self, LogId};
use crate::rng::Rng;

/// A file of about so many lines.
pub fn any(rng: &mut Rng, lines: u64, names: &[Vec<u8>]) -> Vec<u8> {
    match rng.below(10) {
        0 => Vec::new(),
        1 => texts::bytes(rng, 4 * lines as usize),
        2..=5 => written(rng, lines, names),
        _ => spoilt(rng, lines, names),
    }
}

/// Lines as the log writes them; a done line, and one of a retry, may name any id.
pub fn written(rng: &mut Rng, lines: u64, names: &[Vec<u8>]) -> Vec<u8> {
    let mut file = Vec::new();
    let mut next = first_id(rng);
    for _ in 0..lines {
        if rng.chance(2) && next > 0 {
            let id = LogId(next - 1 - rng.below(next.min(4)));
            let attempts = *rng.pick(&[1, 1, 2, 3, 9, 10, 99, 255]);
            file.extend(if rng.chance(2) { log::done_line(id) } else { log::retry_line(id, attempts) });
            continue;
        }
        file.extend(log::record(LogId(next), &name(rng, names), &texts::bytes(rng, 8)));
        if next < u64::MAX - 1 || rng.chance(8) {
            next = next.wrapping_add(rng.range(1, 2));
        }
    }
    file
}

/// Records from 0 on that are all left.
pub fn crowd(rng: &mut Rng, records: u64, names: &[Vec<u8>]) -> Vec<u8> {
    (0..records).flat_map(|id| log::record(LogId(id), &name(rng, names), &texts::bytes(rng, 2))).collect()
}

/// Lines in other spellings, torn, doubled or of no meaning, with numbers of attempts that may be none.
fn spoilt(rng: &mut Rng, lines: u64, names: &[Vec<u8>]) -> Vec<u8> {
    let mut file = Vec::new();
    for _ in 0..lines {
        let id = id(rng);
        match rng.below(9) {
            0..=2 => line(&mut file, &[&id, &log::escape(&name(rng, names)), &log::escape(&texts::bytes(rng, 6))]),
            3 | 4 => line(&mut file, &[&id]),
            5 => line(&mut file, &[&id, &texts::bytes(rng, 3), &texts::bytes(rng, 6)]),
            6 => line(&mut file, &[&id, &texts::bytes(rng, 4)]),
            7 => line(&mut file, &[&id, attempts(rng).as_bytes()]),
            _ => file.extend(texts::bytes(rng, 8)),
        }
    }
    if rng.chance(3) {
        file.truncate(rng.below(file.len() as u64 + 1) as usize);
    }
    file
}

fn line(file: &mut Vec<u8>, fields: &[&[u8]]) {
    file.extend(fields.join(&b'\t'));
    file.push(b'\n');
}

/// An id as someone may have written it, often in another spelling.
fn id(rng: &mut Rng) -> Vec<u8> {
    let value = match rng.below(30) {
        0 => u64::MAX - rng.below(3),
        1 => rng.number(),
        _ => rng.below(6),
    };
    let text = match rng.below(24) {
        0..=5 => respelled(rng, value),
        6 => format!("-{value}"),
        7 => format!("{value}0000000000000000000"),
        8 => "18446744073709551616".into(),
        9 => (*rng.pick(&["", "+", "++1", " 1", "1 ", "x", "0x1", "+-1", "1+"])).into(),
        _ => value.to_string(),
    };
    text.into_bytes()
}

fn first_id(rng: &mut Rng) -> u64 {
    match rng.below(20) {
        0 => u64::MAX - 1 - rng.below(3),
        1 => rng.number() >> rng.below(60),
        _ => 0,
    }
}

/// Most often a group's.
fn name(rng: &mut Rng, names: &[Vec<u8>]) -> Vec<u8> {
    if names.is_empty() || rng.chance(8) { texts::bytes(rng, 4) } else { rng.pick(names).clone() }
}
