//! Files that the reader refuses, most of them in more than one way.

use super::{sound, world};
use crate::draft::{record, Draft};
use crate::reader::{kind, RECORD};
use crate::rng::Rng;

const KINDS: [u8; 18] = [
    1, 2, 3, 4, 5, 6, 7, 8, 16, 17, 18, 19, 20, 21, 22, 23, 24, 25,
];

/// Two of everything, and a variable of each origin: 0 root, 1 and 2 solvables, 3 forbid,
/// 4 gate, 5 auxiliary, 6 other. Some tables may be full.
fn ground(rng: &mut Rng) -> Draft {
    let mut d = Draft::new();
    for text in ["deck", "panel"] {
        let name = d.name(text);
        d.solvable(name, "1");
        d.version_set(name, "<2");
        d.requirement(text, &[]);
        d.reason("too old");
    }
    for (origin, names) in [(0, 0), (1, 0), (1, 1), (2, 0), (3, 0), (4, 0), (5, 0)] {
        d.variable(origin, names);
    }
    d.core(kind::INSTALL_ROOT, [0; 3]);
    if rng.chance(50) {
        d.assign(4, 0);
    }
    if rng.chance(30) {
        d.reasons.resize(64, "full".to_string());
    }
    if rng.chance(30) {
        d.names.resize(128, "full".to_string());
    }
    if rng.chance(5) {
        d.clauses.resize(1_024, d.clauses[0]);
    }
    d
}

/// A record that fits behind the ground.
fn fitting(d: &Draft, kind: u8) -> [u8; RECORD] {
    let own = |table: usize| table as u16;
    match kind {
        kind::NAME => record(kind, 0, [own(d.names.len()), 0, 0], "cue"),
        kind::SOLVABLE => record(kind, 0, [own(d.solvables.len()), 1, 0], "2"),
        kind::VERSION_SET => record(kind, 0, [own(d.version_sets.len()), 1, 0], "<3"),
        kind::REQUIREMENT => record(kind, 0, [own(d.requirements.len()), 0, 0], "cue *"),
        kind::CANDIDATE => record(kind, 0, [1, 1, 0], ""),
        kind::REASON => record(kind, 0, [own(d.reasons.len()), 0, 0], "recalled"),
        kind::VARIABLE => record(kind, 0, [own(d.variables.len()), 1, 1], ""),
        kind::ASSIGNED_BY => record(kind, 0, [5, 0, 0], ""),
        kind::EXCLUDED => record(kind, 1, [1, 1, 0], ""),
        kind::REQUIRES => record(kind, 1, [1, 1, 0], ""),
        kind::LOCK => record(kind, 1, [1, 2, 0], ""),
        kind::FORBID_MULTIPLE => record(kind, 1, [1, 3, 0], ""),
        kind::CONSTRAINS => record(kind, 1, [1, 2, 1], ""),
        kind::CONSTRAINS_PARENT => record(kind, 1, [0, 5, 1], ""),
        kind::CONSTRAINS_EXCLUDED => record(kind, 1, [1, 5, 1], ""),
        kind::ANY_OF => record(kind, 1, [4, 1, 0], ""),
        _ => record(kind, 1, [0; 3], ""),
    }
}

/// Faults that one record can have, several at once.
fn spoil(rng: &mut Rng, bytes: &mut [u8; RECORD]) {
    if rng.chance(8) {
        bytes[0] = *rng.pick(&[0, 9, 15, 26, 255]);
    }
    if rng.chance(20) {
        bytes[1] = *rng.pick(&[0, 2, 25, 255]);
    }
    if rng.chance(20) {
        bytes[8] = *rng.pick(&[0, 31, 127, 200]);
    }
    if rng.chance(15) {
        bytes[31] = 1;
    }
    if rng.chance(15) {
        let at = rng.between(2, 7);
        bytes[at] = 1;
    }
    for field in 0..3 {
        if rng.chance(25) {
            // A variable of another origin, or a number that no table has.
            bytes[2 + 2 * field] = *rng.pick(&[0, 3, 4, 5, 6, 200]);
        }
    }
}

pub fn double(rng: &mut Rng) -> Vec<u8> {
    let d = ground(rng);
    let mut file = d.file();
    let mut bytes = fitting(&d, *rng.pick(&KINDS));
    spoil(rng, &mut bytes);
    file.extend_from_slice(&bytes);
    if rng.chance(3) {
        file.push(0);
    }
    file
}

/// Every clause kind, with a variable of any origin in each slot.
pub fn wrong_origin(rng: &mut Rng) -> Vec<u8> {
    let d = ground(rng);
    let mut file = d.file();
    for _ in 0..rng.between(1, 3) {
        let mut bytes = fitting(&d, *rng.pick(&KINDS[9..]));
        if bytes[0] != kind::LEARNT {
            let slots: &[usize] = match bytes[0] {
                kind::EXCLUDED | kind::REQUIRES => &[2],
                _ => &[2, 4],
            };
            for &slot in slots {
                if rng.chance(50) {
                    bytes[slot] = rng.below(8) as u8;
                }
            }
        }
        file.extend_from_slice(&bytes);
    }
    file
}

/// A good file to damage, mostly a small one.
fn copy(rng: &mut Rng) -> Vec<u8> {
    if rng.chance(40) {
        world::small(rng)
    } else {
        sound(rng)
    }
}

pub fn flipped(rng: &mut Rng) -> Vec<u8> {
    let mut file = copy(rng);
    if file.is_empty() {
        return file;
    }
    for _ in 0..rng.between(1, 3) {
        let at = rng.below(file.len());
        file[at] ^= 1 << rng.below(8);
    }
    file
}

/// Other small numbers in fields, other flags: often still a good file, of another meaning.
pub fn fields_changed(rng: &mut Rng) -> Vec<u8> {
    let mut file = copy(rng);
    let records = file.len() / RECORD;
    for _ in 0..rng.between(1, 3).min(records) {
        let at = RECORD * rng.below(records);
        if file[at] >= kind::INSTALL_ROOT && rng.chance(30) {
            file[at + 1] ^= 1;
        } else {
            file[at + 2 * rng.between(1, 3)] = rng.below(6) as u8;
        }
    }
    file
}

/// Cut short, anywhere or between records; or with a stretch taken out.
pub fn cut(rng: &mut Rng) -> Vec<u8> {
    let mut file = copy(rng);
    let records = file.len() / RECORD;
    match rng.below(3) {
        0 => file.truncate(rng.below(file.len() + 1)),
        1 => file.truncate(RECORD * rng.below(records + 1)),
        _ => {
            let from = rng.below(records + 1);
            let to = rng.between(from, records.min(from + 3));
            file.drain(RECORD * from..RECORD * to);
        }
    }
    file
}

/// Two records change places, or one comes twice.
pub fn swapped(rng: &mut Rng) -> Vec<u8> {
    let mut file = copy(rng);
    let records = file.len() / RECORD;
    if records == 0 {
        return file;
    }
    let (one, other) = (rng.below(records), rng.below(records));
    let part = |i: usize| RECORD * i..RECORD * (i + 1);
    if rng.chance(70) {
        for at in 0..RECORD {
            file.swap(RECORD * one + at, RECORD * other + at);
        }
    } else {
        let bytes = file[part(one)].to_vec();
        let place = part(other).start;
        file.splice(place..place, bytes);
    }
    file
}

/// A zero byte of some record becomes another.
pub fn unused_bytes(rng: &mut Rng) -> Vec<u8> {
    let mut file = copy(rng);
    let zeros: Vec<usize> = (0..file.len()).filter(|&i| file[i] == 0).collect();
    if !zeros.is_empty() {
        let at = *rng.pick(&zeros);
        file[at] = *rng.pick(&[1, 2, 32, 65, 255]);
    }
    file
}

/// Records of random kinds behind the ground, mostly with their own number right, and small
/// numbers elsewhere.
pub fn random_records(rng: &mut Rng) -> Vec<u8> {
    let mut file = ground(rng).file();
    let mut held = [0; 26];
    for bytes in file.chunks_exact(RECORD) {
        held[usize::from(bytes[0])] += 1;
    }
    for _ in 0..rng.between(1, 6) {
        let kind = *rng.pick(&KINDS);
        let mut fields = [0; 3];
        let used = match kind {
            kind::INSTALL_ROOT | kind::LEARNT => 0,
            kind::NAME | kind::REQUIREMENT | kind::REASON => 1,
            kind::VARIABLE => rng.between(2, 3),
            22..=24 => 3,
            _ => 2,
        };
        for field in &mut fields[..used] {
            let most = *rng.pick(&[2, 2, 7]);
            *field = rng.below(most) as u16;
        }
        let has_text = matches!(kind, 1..=4 | kind::REASON);
        if (has_text || kind == kind::VARIABLE) && rng.chance(98) {
            fields[0] = held[usize::from(kind)];
            held[usize::from(kind)] += 1;
        }
        let second = if kind < kind::INSTALL_ROOT {
            0
        } else {
            rng.below(2) as u8
        };
        let text = if has_text { "x" } else { "" };
        file.extend_from_slice(&record(kind, second, fields, text));
    }
    file
}

pub fn random_bytes(rng: &mut Rng) -> Vec<u8> {
    let length = if rng.chance(50) {
        RECORD * rng.below(8)
    } else {
        rng.below(200)
    };
    (0..length).map(|_| rng.next() as u8).collect()
}
