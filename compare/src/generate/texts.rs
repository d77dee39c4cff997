//! Random texts: names and bodies.
use crate::limits::NAME_MAX;
use crate::model::pool::Settings;
use crate::rng::Rng;

/// A text inside the domain of equality: UTF-8 with no CR at its end, at most `most` bytes.
pub fn text(rng: &mut Rng, most: usize) -> Vec<u8> {
    let long = rng.chance(40);
    let characters = if long { most } else { rng.below(6) as usize };
    let mut text = String::new();
    for _ in 0..characters {
        let character = *rng.pick(&['a', 'b', 't', 'n', '\\', '\t', '\n', '\r', 'é', '0', '7', '+']);
        if text.len() + character.len_utf8() <= most {
            text.push(character);
        }
    }
    while long && text.len() < most {
        text.push('x');
    }
    while text.ends_with('\r') {
        text.pop();
    }
    text.into_bytes()
}

/// A name inside the domain: mostly that of a group, now and then one near it.
pub fn name(rng: &mut Rng, settings: &Settings) -> Vec<u8> {
    match rng.below(12) {
        0 => text(rng, NAME_MAX),
        1 => String::from_utf8(near(rng, settings)).map_or_else(|_| text(rng, NAME_MAX), String::into_bytes),
        _ => rng.pick(&settings.groups).name.clone(),
    }
}

/// A group's name mistyped: its last byte dropped, a byte or a NUL behind it, or one byte changed. It may be the name
/// of another group, and one byte too long.
pub fn near(rng: &mut Rng, settings: &Settings) -> Vec<u8> {
    let mut name = rng.pick(&settings.groups).name.clone();
    match rng.below(4) {
        0 => drop(name.pop()),
        1 => name.push(*rng.pick(b"abrowx")),
        2 => name.push(0),
        _ if name.is_empty() => {}
        _ => {
            let at = rng.below(name.len() as u64) as usize;
            name[at] ^= 1 << rng.below(7);
        }
    }
    name
}

/// Any bytes, now and then at the limit or past it.
pub fn any(rng: &mut Rng, limit: usize) -> Vec<u8> {
    let length = match rng.below(12) {
        0 => limit,
        1 => limit + 1,
        2 => limit + rng.below(300) as usize,
        _ => rng.below(8) as usize,
    };
    (0..length).map(|_| if rng.chance(3) { *rng.pick(b"\t\n\\\r") } else { rng.number() as u8 }).collect()
}
