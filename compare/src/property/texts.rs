//! Random texts: any bytes, with those that the log's form treats apart more often than others.
use crate::limits::{BODY_MAX, NAME_MAX};
use crate::rng::Rng;

/// Bytes that the form of the log, or the Rust, treats apart.
const APART: &[u8] = b"\\\t\n\r+0129tnq-\0\x7F\x80\xC3\xA9\xFF";

pub fn bytes(rng: &mut Rng, most: usize) -> Vec<u8> {
    let length = rng.below(most as u64 + 1);
    let plain = rng.chance(2);
    (0..length)
        .map(|_| match rng.below(4) {
            _ if plain => rng.range(b'a'.into(), b'z'.into()) as u8,
            0 | 1 => *rng.pick(APART),
            2 => rng.range(b' '.into(), b'~'.into()) as u8,
            _ => rng.number() as u8,
        })
        .collect()
}

/// A body: short most often, now and then at its limit or past it.
pub fn body(rng: &mut Rng) -> Vec<u8> {
    around(rng, BODY_MAX, 10)
}

/// A name that need not be a group's.
pub fn name(rng: &mut Rng) -> Vec<u8> {
    around(rng, NAME_MAX, 4)
}

fn around(rng: &mut Rng, limit: usize, short: usize) -> Vec<u8> {
    match rng.below(40) {
        0 => vec![*rng.pick(b"\\x\n"); limit],
        1 => vec![b'x'; limit + 1 + rng.below(3) as usize],
        2 | 3 => bytes(rng, limit),
        _ => bytes(rng, short),
    }
}
