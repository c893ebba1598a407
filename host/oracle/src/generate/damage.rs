//! What power that goes leaves of a file: it ends early, a block of it was never written and holds zeros or what lay there before, or
//! single bytes of it are wrong.

use crate::draft::{record, Draft};
use crate::reader::{kind, RECORD};
use crate::rng::Rng;

/// Sizes of what a disk or a memory writes at once.
const BLOCKS: [usize; 5] = [16, 32, 64, 512, 4_096];

/// Damages a file in one to three ways; most leave some of its clauses to be mended.
pub fn damage(file: &mut Vec<u8>, rng: &mut Rng) {
    for _ in 0..rng.between(1, 3) {
        match rng.below(9) {
            0 => file.truncate(rng.below(file.len() + 1)),
            1 => block(file, rng, |_, _| 0),
            2 => block(file, rng, |_, rng| rng.next() as u8),
            3 => {
                // What lay there before, as an earlier part of the file does for it.
                let old = file.clone();
                let back = rng.between(1, old.len().max(1));
                block(file, rng, |at, _| old[at.saturating_sub(back)]);
            }
            4 => file.extend((0..rng.between(1, 40)).map(|_| rng.next() as u8)),
            5 => {
                // The place was set aside and nothing written there.
                file.resize(file.len() + rng.between(1, 100), 0);
            }
            _ => clause_bytes(file, rng),
        }
    }
}

/// Gives each byte of a stretch another value: one that begins anywhere, or a block of a disk, or all up to the end.
fn block(file: &mut [u8], rng: &mut Rng, mut value: impl FnMut(usize, &mut Rng) -> u8) {
    if file.is_empty() {
        return;
    }
    let size = *rng.pick(&BLOCKS);
    let start = match rng.below(3) {
        0 => rng.below(file.len()),
        1 => rng.below(file.len()) / size * size,
        _ => file.len().saturating_sub(size),
    };
    let end = file.len().min(start + size);
    for (at, byte) in (start..end).zip(&mut file[start..end]) {
        *byte = value(at, rng);
    }
}

/// Wrong bytes in some clauses, their kinds among them.
fn clause_bytes(file: &mut [u8], rng: &mut Rng) {
    let is_clause = |r: &[u8]| (kind::INSTALL_ROOT..=kind::ANY_OF).contains(&r[0]);
    let starts = (0..file.len() / RECORD).map(|r| r * RECORD);
    let clauses: Vec<usize> = starts.filter(|&at| is_clause(&file[at..])).collect();
    if clauses.is_empty() {
        return;
    }
    for _ in 0..rng.between(1, 6) {
        let clause = &mut file[*rng.pick(&clauses)..][..RECORD];
        match rng.below(6) {
            0 => clause[..2].copy_from_slice(&[kind::LEARNT, 1]),
            1 => clause[0] = rng.between(16, 25) as u8,
            2 => clause[1] = *rng.pick(&[0, 1, 2, 255]),
            3 => clause[rng.between(2, 7)] = rng.next() as u8,
            4 => clause[rng.between(2, 7)] ^= 1 << rng.below(3),
            _ => clause[rng.between(8, 31)] = rng.next() as u8,
        }
    }
}

/// Files of 1,023 to 1,026 clauses whose last one is sound or would get 3, 4, 5 or 7, the one before it as well in half of them, and
/// the same with a record 8 that names the last.
pub fn around_1024_clauses() -> Vec<Vec<u8>> {
    let last = [
        record(kind::INSTALL_ROOT, 1, [0; 3], ""),
        record(kind::INSTALL_ROOT, 2, [0; 3], ""),
        record(kind::REQUIRES, 1, [0, 999, 0], ""),
        record(kind::LOCK, 1, [0, 0, 0], ""),
        record(kind::LEARNT, 1, [0; 3], ""),
        record(kind::LEARNT, 1, [1, 0, 0], ""),
    ];
    let mut files = Vec::new();
    for count in 1_023..=1_026u16 {
        for (k, end) in last.iter().enumerate() {
            let mut d = Draft::new();
            d.root();
            for i in 1..count {
                d.clause(kind::INSTALL_ROOT, i % 2 == 0, [0; 3]);
            }
            let mut file = d.file();
            let before = file.len() - RECORD;
            if k % 2 == 0 {
                file[before..].copy_from_slice(&last[(k + 1) % last.len()]);
            }
            file.extend(end);
            files.push(file.clone());
            file.extend(record(kind::ASSIGNED_BY, 0, [0, count - 1, 0], ""));
            files.push(file);
        }
    }
    files
}
