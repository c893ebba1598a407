//! The settings file, on both sides: reading and changing, and what order 12 says of the two.

use crate::calls::filled;
use oracle::rng::Rng;
use oracle::settings::{LARGEST_SETTINGS, RECORD};

/// Every settings file of up to two records over a small alphabet, read by both versions and, where `whole`, changed in every way; then
/// `n` random ones of up to 4,096 bytes and somewhat more, damaged ones among them. True if a difference was found.
pub fn differ(n: u64, seed: u64, whole: bool) -> bool {
    let mut tally = Tally::default();
    let differs = tally.small(whole) || tally.random(n, seed);
    if !differs {
        let Tally { files, answers, numbers } = tally;
        let seen: Vec<String> = numbers.iter().enumerate().filter(|(_, count)| **count > 0).map(|(number, count)| format!("{number}: {count}")).collect();
        println!("compare: {files} settings files, {answers} answers compared, 0 differences; answers by number: {}", seen.join(", "));
    }
    differs
}

#[derive(Default)]
struct Tally {
    files: u64,
    answers: u64,
    numbers: [u64; 19],
}

impl Tally {
    fn small(&mut self, whole: bool) -> bool {
        let wide = alphabet(&[0, 1, 2, 3, 255], &[0, 1, 2, 3, 4, 255], &[0, 1, 2, 3, 255], &[0, 1], &[None, Some(4), Some(9), Some(15)]);
        let small = alphabet(&[0, 1, 2, 3], &[0, 1, 2, 3, 4], &[0, 1, 2], &[0, 1], &[None, Some(15)]);
        let pairs = small.iter().flat_map(|a| small.iter().map(move |b| [*a, *b].concat()));
        let mut files = std::iter::once(Vec::new()).chain(wide.iter().map(|one| one.to_vec())).chain(pairs);
        files.any(|file| {
            let changes = if whole || file.len() <= RECORD { all_changes(file.len(), self.answers) } else { Vec::new() };
            self.differs(&file, &[1, 2], &changes)
        })
    }

    fn random(&mut self, n: u64, seed: u64) -> bool {
        let mut rng = Rng::named("settings", seed);
        (0..n).any(|index| {
            let most = if index % 8 == 0 { 258 } else { 1 + rng.below(40) };
            let file = file(&mut rng, most);
            let (versions, changes) = (versions(&mut rng), changes(&file, &mut rng));
            self.differs(&file, &versions, &changes)
        })
    }

    /// A file read by these versions and changed so; a difference is printed with it.
    fn differs(&mut self, file: &[u8], versions: &[u64], changes: &[Change]) -> bool {
        self.files += 1;
        let reads = versions.iter().map(|&version| read(file, version));
        for outcome in reads.chain(changes.iter().map(|change| change.run(file))) {
            match outcome {
                Ok(number) => {
                    self.answers += 1;
                    // 18 and above are counted together
                    self.numbers[usize::try_from(number).unwrap_or(18).min(18)] += 1;
                }
                Err(said) => {
                    println!("compare: 1 difference: a settings file of {} bytes, {said}", file.len());
                    file.chunks(RECORD).for_each(|record| println!("  {}", record.iter().map(|b| format!("{b:02x}")).collect::<Vec<_>>().join(" ")));
                    return true;
                }
            }
        }
        false
    }
}

/// A change that is asked for, the room's length, and what counts as used of it.
#[derive(Clone, Copy, Debug)]
struct Change {
    version: u64,
    setting: u64,
    content: u64,
    room: usize,
    used: u64,
    /// What stands behind the file's bytes.
    fill: u64,
}

/// The number of what a reader of a version answers, or what differs.
fn read(file: &[u8], version: u64) -> Result<u64, String> {
    let theirs = oracle::settings::settings_read(file, version);
    let ours = urzulempa::settings_read(file, version);
    let a = (theirs.number, theirs.place, theirs.indent, theirs.simplify, theirs.edition);
    let b = (ours.number, ours.place, ours.indent, ours.simplify, ours.edition);
    if a == b {
        return Ok(a.0);
    }
    Err(format!("version {version}: number, place, indent, simplify, edition: model {a:?}, port {b:?}"))
}

impl Change {
    /// The room before: the file, as much of it as fits, and other bytes behind it.
    fn laid(&self, file: &[u8]) -> Vec<u8> {
        let mut room = filled(self.room, self.fill);
        let n = file.len().min(room.len());
        room[..n].copy_from_slice(&file[..n]);
        room
    }

    /// The answer's number, or what differs: the whole room is compared.
    fn run(&self, file: &[u8]) -> Result<u64, String> {
        let before = self.laid(file);
        let (mut theirs, mut ours) = (before.clone(), before.clone());
        let Change { version, setting, content, used, .. } = *self;
        let answer = oracle::settings::settings_set(&mut theirs, used, version, setting, content);
        let port = urzulempa::settings_set(&mut ours, used, version, setting, content);
        let a = (answer.number, answer.place, answer.bytes, answer.units, answer.depth);
        let b = (port.number, port.place, port.bytes, port.units, port.depth);
        if a != b || theirs != ours {
            let at = theirs.iter().zip(&ours).position(|(x, y)| x != y);
            return Err(format!("{self:?}: number, place, bytes, units, depth: model {a:?}, port {b:?}; first byte that differs: {at:?}"));
        }
        if a.0 == 0 {
            self.states(&before, &ours)?;
        } else if ours != before {
            return Err(format!("{self:?}: refused with {}, and the room is changed", a.0));
        }
        Ok(a.0)
    }

    /// "Changing a setting appends one record, of the lowest version that knows it, and touches no earlier byte"; what was set is read
    /// back, and all else is as it was.
    fn states(&self, before: &[u8], after: &[u8]) -> Result<(), String> {
        let wrong = |said: &str| Err(format!("{self:?}: {said}"));
        let used = usize::try_from(self.used).unwrap_or(usize::MAX);
        let end = used + RECORD;
        if after[..used] != before[..used] || after[end..] != before[end..] {
            return wrong("another byte than those of the record is changed");
        }
        if after[used] != if self.setting == 3 { 2 } else { 1 } {
            return wrong("the record is not of the lowest version that knows the setting");
        }
        for version in [1, 2] {
            let (old, new) = (urzulempa::settings_read(&before[..used], version), urzulempa::settings_read(&after[..end], version));
            let mut wanted = [old.indent, old.simplify, old.edition];
            if version < after[used].into() {
                // A version 1 reader refuses a file that holds an edition, at that record where none was refused before.
                let place = if old.number == 0 { used / RECORD } else { old.place as usize };
                if (new.number, new.place) != (18, place as u64) {
                    return wrong("a version 1 reader takes a record of version 2");
                }
                continue;
            }
            if old.number != 0 {
                continue;
            }
            wanted[self.setting as usize - 1] = self.content;
            if (new.number, [new.indent, new.simplify, new.edition]) != (0, wanted) {
                return wrong("what was set is not read back, or another setting is not as it was");
            }
        }
        Ok(())
    }
}

/// Records of all these bytes in their places, and, of the unused ones, one set to 1 or none.
fn alphabet(versions: &[u8], settings: &[u8], low: &[u8], high: &[u8], rests: &[Option<usize>]) -> Vec<[u8; RECORD]> {
    let mut records = Vec::new();
    for &version in versions {
        for &setting in settings {
            for (&low, &high) in low.iter().flat_map(|l| high.iter().map(move |h| (l, h))) {
                for rest in rests {
                    let mut record = [0; RECORD];
                    record[..4].copy_from_slice(&[version, setting, low, high]);
                    rest.iter().for_each(|&at| record[at] = 1);
                    records.push(record);
                }
            }
        }
    }
    records
}

/// A file of up to so many records, most of them good; then it may be damaged, cut or made longer.
fn file(rng: &mut Rng, most: usize) -> Vec<u8> {
    let count = match rng.below(4) {
        0 => rng.below(4),
        1 => most - rng.below(3).min(most),
        _ => rng.below(most + 1),
    };
    let only_first = rng.below(3) == 0;
    let mut bytes: Vec<u8> = (0..count).flat_map(|_| good(rng, only_first)).collect();
    if rng.below(2) == 0 && !bytes.is_empty() {
        for _ in 0..=rng.below(2) {
            let at = rng.below(bytes.len());
            // Near the front of a record is where most can be wrong.
            let at = if rng.below(2) == 0 { at / RECORD * RECORD + rng.below(5) } else { at };
            bytes[at] = [0, 1, 2, 3, 4, 255, rng.next() as u8][rng.below(7)];
        }
    }
    match rng.below(12) {
        0 => bytes.truncate(rng.below(bytes.len() + 1)),
        1 => bytes.extend(filled(rng.below(40), rng.next())),
        _ => {}
    }
    bytes
}

fn good(rng: &mut Rng, only_first: bool) -> [u8; RECORD] {
    let setting = rng.below(if only_first { 2 } else { 3 }) as u8 + 1;
    let version = if setting == 3 || (!only_first && rng.below(2) == 0) { 2 } else { 1 };
    let mut record = [0; RECORD];
    record[..3].copy_from_slice(&[version, setting, rng.below(2) as u8 + u8::from(setting == 3)]);
    record
}

/// Versions of a reader, good and bad.
fn versions(rng: &mut Rng) -> [u64; 5] {
    [1, 2, 0, 3, [4, 255, 256, 257, 258, (1 << 32) | 1, (1 << 32) | 2, u64::MAX, rng.next() | 4][rng.below(9)]]
}

/// Changes of a file in rooms around the edge, with more and less used than the file has, all settings and contents and bad ones.
fn changes(file: &[u8], rng: &mut Rng) -> Vec<Change> {
    let (n, most) = (file.len(), LARGEST_SETTINGS);
    let mut rooms = vec![n, n + 15, n + RECORD, n + 17, most - 1, most, most + 1, most + RECORD, n + rng.below(80)];
    rooms.extend(n.checked_sub(1));
    let mut changes = Vec::new();
    for room in rooms {
        let change = asked(rng);
        changes.push(Change { room, used: n as u64, ..change });
    }
    let room = n + 64;
    let over = [room as u64 + 1, room as u64 + 16, most as u64 + 16, 1 << 32, u64::MAX, u64::MAX - 15, (1 << 63) | n as u64, n as u64 ^ 1];
    for used in [over[rng.below(over.len())], n as u64 / 16 * 16, rng.below(room + 1) as u64] {
        changes.push(Change { room, used, ..asked(rng) });
    }
    for version in versions(rng) {
        changes.push(Change { room, used: n as u64, version, ..asked(rng) });
    }
    changes
}

fn asked(rng: &mut Rng) -> Change {
    let some = |rng: &mut Rng, near: u64| [near, near | 256, near | 65_536, near | (1 << 32), u64::MAX, rng.next()][rng.below(6)];
    let setting = rng.between(1, 3) as u64;
    let content = rng.below(2) as u64 + u64::from(setting == 3);
    let (setting, content) = match rng.below(5) {
        0 => (some(rng, setting), content),
        1 => (setting, some(rng, content)),
        2 => (rng.below(5) as u64, rng.below(4) as u64),
        _ => (setting, content),
    };
    Change { version: 1 + rng.below(2) as u64, setting, content, room: 0, used: 0, fill: rng.next() }
}

/// Each setting and each content from one below the least to one above the greatest, by both versions, behind a file of that length.
fn all_changes(length: usize, fill: u64) -> Vec<Change> {
    let mut changes = Vec::new();
    for version in [1, 2] {
        for (setting, content) in (0..=4).flat_map(|s| (0..=3).map(move |c| (s, c))) {
            changes.push(Change { version, setting, content, room: length + RECORD + 1, used: length as u64, fill });
        }
    }
    changes
}
