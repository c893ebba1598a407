//! The settings that a truck keeps, written from document 02, order 12.

use crate::{Answer, Refusal};

/// "a file of 16-byte records without a header"
pub const RECORD: usize = 16;
/// "at most 4,096 bytes"
pub const LARGEST_SETTINGS: usize = 4_096;

/// A version, a setting that it brings, and the contents which that may have. "Version 1 knows indent (1) and simplify (2),
/// each 0 or 1; version 2 adds the edition of order 11 (3), 1 or 2."
const BRINGS: [(u64, u64, [u64; 2]); 3] = [(1, 1, [0, 1]), (1, 2, [0, 1]), (2, 3, [1, 2])];

/// "unset ones take the default of order 2, simplify on, edition 1"
const UNSET: [u64; 3] = [1, 1, 1];

/// What a file says, or why it is refused; then the three settings are 0.
#[derive(Clone, Copy, Debug, Default, PartialEq, Eq)]
pub struct Settings {
    pub number: u64,
    pub place: u64,
    pub indent: u64,
    pub simplify: u64,
    pub edition: u64,
}

/// The lowest version that knows the setting with this content, among those up to `version`.
fn lowest(version: u64, setting: u64, content: u64) -> Option<u64> {
    let knows = |&&(from, s, contents): &&(u64, u64, [u64; 2])| {
        from <= version && s == setting && contents.contains(&content)
    };
    BRINGS.iter().find(knows).map(|&(from, ..)| from)
}

fn refused(number: u64, place: usize) -> Refusal {
    let place = place as u64;
    Refusal { number, place }
}

/// A reader is of version 1 or 2, and so is a writer.
fn is_release(version: u64) -> Result<(), Refusal> {
    match version {
        1 | 2 => Ok(()),
        _ => Err(refused(12, 0)),
    }
}

/// The settings of a file, in their order; or its refusal.
fn read_by(version: u64, file: &[u8]) -> Result<[u64; 3], Refusal> {
    if file.len() > LARGEST_SETTINGS || file.len() % RECORD != 0 {
        return Err(refused(1, 0));
    }
    let mut settings = UNSET;
    for (place, record) in file.chunks(RECORD).enumerate() {
        let (of, setting) = (u64::from(record[0]), u64::from(record[1]));
        // "18 for an unknown version, per record (the place) in the order 18, 3"
        if of == 0 || of > version {
            return Err(refused(18, place));
        }
        let content = u64::from(record[2]) + 256 * u64::from(record[3]);
        if lowest(of, setting, content).is_none() || record[4..].iter().any(|&byte| byte != 0) {
            return Err(refused(3, place));
        }
        // "The last record for a setting counts"
        settings[setting as usize - 1] = content;
    }
    Ok(settings)
}

/// What a reader of a version finds in a file.
pub fn settings_read(file: &[u8], version: u64) -> Settings {
    let read = is_release(version).and_then(|()| read_by(version, file));
    match read {
        Ok([indent, simplify, edition]) => Settings {
            number: 0,
            place: 0,
            indent,
            simplify,
            edition,
        },
        Err(Refusal { number, place }) => Settings {
            number,
            place,
            ..Settings::default()
        },
    }
}

/// Changes a setting of the file that the first `used` bytes of the room are.
pub fn settings_set(
    room: &mut [u8],
    used: u64,
    version: u64,
    setting: u64,
    content: u64,
) -> Answer {
    match appended(room, used, version, setting, content) {
        Ok(record) => {
            let used = used as usize;
            room[used..used + RECORD].copy_from_slice(&record);
            Answer {
                bytes: RECORD as u64,
                units: 1,
                ..Answer::default()
            }
        }
        Err(refusal) => refusal.into(),
    }
}

/// The record to append, or why none is.
fn appended(
    room: &[u8],
    used: u64,
    version: u64,
    setting: u64,
    content: u64,
) -> Result<[u8; RECORD], Refusal> {
    is_release(version)?;
    let file = usize::try_from(used).ok().and_then(|used| room.get(..used));
    let file = file.ok_or(refused(1, 0))?;
    read_by(version, file)?;
    // "then 3 for a bad setting or content asked for"
    let of = lowest(version, setting, content).ok_or(refused(3, 0))?;
    // "10 if an append would pass 4,096 bytes or the lent room"
    let end = file.len() + RECORD;
    if end > LARGEST_SETTINGS || end > room.len() {
        return Err(refused(10, 0));
    }
    let mut record = [0; RECORD];
    // "of the lowest version that knows it"; none of the three is above 255.
    record[..3].copy_from_slice(&[of as u8, setting as u8, content as u8]);
    Ok(record)
}
