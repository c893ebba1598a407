//! The repair of one file, on both sides, and what becomes of a repaired one.

use crate::calls::{filled, Call, Trial, AMPLE};
use oracle::generate::damage;
use oracle::rng::Rng;
use oracle::salvage::{Repaired, REPLACEMENT};

/// Both lent places, and the bytes that stand there before.
#[derive(Clone, Copy, Debug)]
pub struct Lent {
    pub room: usize,
    pub list: usize,
    pub fill: u64,
}

impl Lent {
    /// The answer's number, or what differs.
    pub fn run(&self, file: &[u8]) -> Result<u64, String> {
        let mut their_room = filled(self.room, self.fill);
        let mut their_list: Vec<u16> = filled(2 * self.list, !self.fill).chunks(2).map(|two| u16::from_le_bytes([two[0], two[1]])).collect();
        let (mut our_room, mut our_list) = (their_room.clone(), their_list.clone());
        let theirs = oracle::salvage(file, &mut their_room, &mut their_list);
        let ours = urzulempa::salvage(file, &mut our_room, &mut our_list);
        let a = (theirs.number, theirs.place, theirs.bytes, theirs.replaced, theirs.dropped);
        let b = (ours.number, ours.place, ours.bytes, ours.replaced, ours.dropped);
        if a == b && their_room == our_room && their_list == our_list {
            return Ok(a.0);
        }
        let byte = their_room.iter().zip(&our_room).position(|(x, y)| x != y);
        let number = their_list.iter().zip(&our_list).position(|(x, y)| x != y);
        Err(format!("number, place, bytes, replaced, dropped: model {a:?}, port {b:?}; first byte that differs: {byte:?}; first listed number: {number:?}"))
    }
}

/// Each place as long as is needed, one short and longer, with the other one so as well; both of no length and of any.
pub fn lents(file: &[u8], rng: &mut Rng) -> Vec<Lent> {
    let (room, list) = match oracle::salvage::repair(file) {
        Ok(repaired) => (repaired.file.len(), repaired.replaced.len()),
        Err(_) => (file.len().min(1 << 16) / 32 * 32, rng.below(5)),
    };
    let (less, fewer) = (room.saturating_sub(1), list.saturating_sub(1));
    let (more, several) = (room + rng.between(1, 70), list + rng.between(1, 9));
    let any = (rng.below(room + 40), rng.below(list + 3));
    [(room, list), (less, list), (room, fewer), (less, fewer), (more, several), (more, fewer), (less, several), (0, 0), any]
        .map(|(room, list)| Lent { room, list, fill: rng.next() })
        .to_vec()
}

/// What came of a file.
pub struct Outcome {
    pub repaired: Option<Repaired>,
    /// Answers of other calls on the repaired file that were compared.
    pub answers: u64,
}

/// What order 7 says of a repaired file, of the one that the port gives, which is explained on both sides.
pub fn outcome(file: &[u8]) -> Result<Outcome, String> {
    let model = oracle::salvage::repair(file);
    let ours = urzulempa::repaired(file);
    let model = match (model, ours) {
        (Err(theirs), Err(ours)) if theirs.number == ours.number() => return Ok(Outcome { repaired: None, answers: 0 }),
        (Ok(model), Ok(ours)) => {
            let listed: Vec<u16> = model.replaced.iter().map(|(record, _)| *record).collect();
            if (&model.file, &listed, model.dropped as u64) != (&ours.file, &ours.replaced, ours.dropped) {
                return Err("`repaired` gives something else than the model".into());
            }
            model
        }
        (theirs, ours) => return Err(format!("model {theirs:?}, `repaired` {ours:?}")),
    };
    states(file, &model)?;
    let mut answers = 0;
    for (call, option, room) in [(Call::Check, 0, 0), (Call::Explain, 0, AMPLE), (Call::Explain, 1, 300)] {
        let number = Trial { call, option, room, fill: 1 }.run(&model.file).map_err(|said| format!("of the repaired file: {call:?} {option}: {said}"))?;
        if (1..=7).contains(&number) {
            return Err(format!("the repaired file gets {number}"));
        }
        answers += 1;
    }
    Ok(Outcome { repaired: Some(model), answers })
}

/// "A repaired file never gets 1 to 7, a sound file comes back unchanged, and no byte outside the listed places differs."
fn states(file: &[u8], repaired: &Repaired) -> Result<(), String> {
    let whole = file.chunks_exact(32);
    if repaired.file.len() != whole.len() * 32 || repaired.dropped != file.len() - repaired.file.len() {
        return Err("another length than that of the whole records".into());
    }
    let mut listed = repaired.replaced.iter().map(|(record, _)| usize::from(*record)).peekable();
    for (at, (before, after)) in whole.zip(repaired.file.chunks(32)).enumerate() {
        let wanted = if listed.next_if_eq(&at).is_some() { &REPLACEMENT[..] } else { before };
        if after != wanted {
            return Err(format!("record {at} is neither kept nor replaced"));
        }
    }
    if listed.next().is_some() {
        return Err("the listed records are not in order, or there are too many".into());
    }
    let sound = |bytes: &[u8]| oracle::reader::read(bytes).is_ok_and(|t| !t.clauses.iter().any(|c| c.kind == 18 && c.core));
    if !sound(&repaired.file) {
        return Err("the repaired file is not sound".into());
    }
    if sound(file) && (repaired.file != file || !repaired.replaced.is_empty()) {
        return Err("a sound file is changed".into());
    }
    match urzulempa::repaired(&repaired.file) {
        Ok(again) if again.file == repaired.file && again.replaced.is_empty() && again.dropped == 0 => Ok(()),
        again => Err(format!("repairing again changes something: {again:?}")),
    }
}

/// A file as power that goes leaves it, of some generated one; one in twelve is left as it was.
pub fn damaged(mut file: Vec<u8>, rng: &mut Rng) -> Vec<u8> {
    if rng.below(12) > 0 {
        damage::damage(&mut file, rng);
    }
    file
}

/// Files that are made in full: one with all kinds cut at each byte, each of its bytes set to several values, blocks of zeros and of
/// noise at each place of it, its clauses made learnt; as many clauses as a file can have, one fewer and some more.
pub fn exhaustive(whole: &[u8], rng: &mut Rng) -> Vec<(String, Vec<u8>)> {
    let mut files: Vec<(String, Vec<u8>)> = (0..=whole.len()).map(|at| (format!("cut at {at}"), whole[..at].to_vec())).collect();
    let mut changed = |whence: String, change: &mut dyn FnMut(&mut [u8])| {
        let mut file = whole.to_vec();
        change(&mut file);
        files.push((whence, file));
    };
    for at in 0..whole.len() {
        let was = whole[at];
        for value in [0, 1, 2, 16, 18, 25, 31, 255, was.wrapping_add(1), was ^ 128, rng.next() as u8] {
            changed(format!("byte {at} set to {value}"), &mut |file| file[at] = value);
        }
    }
    for start in (0..whole.len()).step_by(16) {
        for size in [16, 32, 64, 512] {
            let end = whole.len().min(start + size);
            changed(format!("zeros from {start} to {end}"), &mut |file| file[start..end].fill(0));
            changed(format!("noise from {start} to {end}"), &mut |file| file[start..end].iter_mut().for_each(|byte| *byte = rng.next() as u8));
        }
    }
    for start in (0..whole.len()).step_by(32).filter(|&at| whole[at] >= 16) {
        changed(format!("learnt in the core at {start}"), &mut |file| file[start..start + 2].copy_from_slice(&[18, 1]));
        changed(format!("nothing but the kind at {start}"), &mut |file| file[start + 1..start + 32].fill(255));
    }
    let around = damage::around_1024_clauses();
    files.extend(around.into_iter().enumerate().map(|(k, file)| (format!("around 1,024 clauses, {k}"), file)));
    for length in [65_535, 65_536, 65_537, 65_568] {
        files.push((format!("{length} bytes of InstallRoot"), (0..length).map(|at| if at % 32 == 0 { 16 } else { 0 }).collect()));
    }
    files
}
