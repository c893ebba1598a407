//! Texts of the generator: from 1 to 24 bytes, each from 32 to 126.

use crate::rng::Rng;

/// `reason:` can collide with a reason's node text in the graph text.
const NAMES: &[&str] = &["deck", "panel", "codec", "replay", "cue", "reason:", "x"];

/// A package name; few words, so that texts repeat.
pub fn name(rng: &mut Rng) -> String {
    if rng.chance(90) {
        rng.pick(NAMES).to_string()
    } else {
        odd(rng)
    }
}

pub fn version(rng: &mut Rng) -> String {
    if rng.chance(95) {
        rng.between(1, 9).to_string()
    } else {
        odd(rng)
    }
}

pub fn wish(rng: &mut Rng) -> String {
    if rng.chance(95) {
        format!("{} {}", rng.pick(NAMES), rng.pick(&["*", ">=2", "<3", "9"]))
    } else {
        odd(rng)
    }
}

pub fn range(rng: &mut Rng) -> String {
    if rng.chance(95) {
        format!("{}{}", rng.pick(&["<", ">=", "=="]), rng.between(1, 9))
    } else {
        odd(rng)
    }
}

pub fn reason(rng: &mut Rng) -> String {
    if rng.chance(90) {
        rng.pick(&["too old", "recalled", "wrong rack", "x"])
            .to_string()
    } else {
        odd(rng)
    }
}

/// Any text that the reader takes, up to the full 24 bytes; at times one of few bytes only.
pub fn odd(rng: &mut Rng) -> String {
    if rng.chance(40) {
        return quotes(rng);
    }
    let length = *rng.pick(&[1, 2, 7, 23, 24]);
    (0..length)
        .map(|_| char::from(rng.between(32, 126) as u8))
        .collect()
}

/// Quotes and backslashes in runs, among bytes that mean something to the DOT language, or quotes alone.
pub fn quotes(rng: &mut Rng) -> String {
    let length = *rng.pick(&[1, 2, 3, 8, 23, 24]);
    let from: &[char] = match rng.below(4) {
        0 => &['"'],
        1 => &['"', '\\'],
        _ => &['"', '"', '\\', '4', ' ', ';', ']'],
    };
    (0..length).map(|_| *rng.pick(from)).collect()
}
