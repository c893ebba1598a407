//! The repair of a file that was cut or damaged, written from document 02, order 7, over the reader of document 01.

use crate::reader::{kind, Tables, CLAUSES, LARGEST_FILE, RECORD};
use crate::{Refusal, Salvaged};

/// "kind 16 with flag 0 and all else zero"
pub const REPLACEMENT: [u8; RECORD] = {
    let mut bytes = [0; RECORD];
    bytes[0] = kind::INSTALL_ROOT;
    bytes
};

/// A file that could be repaired.
#[derive(Clone, Debug, PartialEq, Eq)]
pub struct Repaired {
    pub file: Vec<u8>,
    /// The replaced records in order, each with what it would have got: 3, 4 or 5, or 7 for a Learnt in the core.
    pub replaced: Vec<(u16, u64)>,
    /// "the bytes after the last whole record"
    pub dropped: usize,
}

/// Record by record, each behind the repaired ones before it; or the first refusal that stops the repair.
pub fn repair(file: &[u8]) -> Result<Repaired, Refusal> {
    // "1 only for above 65,536"
    if file.len() > LARGEST_FILE {
        return Err(Refusal {
            number: 1,
            place: 0,
        });
    }
    let records = file.chunks_exact(RECORD);
    let dropped = records.remainder().len();
    let mut tables = Tables::default();
    let mut repaired = Vec::new();
    let mut replaced = Vec::new();
    for (place, bytes) in (0u16..).zip(records) {
        match judged(&mut tables, bytes) {
            Ok(()) => repaired.extend_from_slice(bytes),
            // "replace each clause record that would get 3, 4 or 5, and each Learnt in the core"
            Err(number @ (3 | 4 | 5 | 7)) if is_clause(bytes[0]) => {
                let taken = tables.take(&REPLACEMENT);
                assert_eq!(taken, Ok(()), "a clause fits where the tables have room");
                repaired.extend_from_slice(&REPLACEMENT);
                replaced.push((place, number));
            }
            // "Anything else refused in the file stops the repair with that refusal."
            Err(number) => {
                return Err(Refusal {
                    number,
                    place: place.into(),
                })
            }
        }
    }
    Ok(Repaired {
        file: repaired,
        replaced,
        dropped,
    })
}

/// What a record gets behind the tables; one that gets nothing is added.
fn judged<'a>(tables: &mut Tables<'a>, bytes: &'a [u8]) -> Result<(), u64> {
    // "A clause past 1,024 is 6 even where 3 would come first."
    if is_clause(bytes[0]) && tables.clauses.len() >= CLAUSES {
        return Err(6);
    }
    tables.take(bytes)?;
    // Only a clause that was taken is added last, so this one is a Learnt of good shape.
    if bytes[0] == kind::LEARNT && bytes[1] == 1 {
        tables.clauses.pop();
        return Err(7);
    }
    Ok(())
}

fn is_clause(kind: u8) -> bool {
    (kind::INSTALL_ROOT..=kind::ANY_OF).contains(&kind)
}

/// The repair into lent places: the room gets the repaired file, the list the numbers of the replaced records; what lies behind
/// them stays. "then 10 if either lent place is short; on any refusal both are as before"
pub fn salvage(file: &[u8], room: &mut [u8], list: &mut [u16]) -> Salvaged {
    let repaired = match repair(file) {
        Ok(repaired) => repaired,
        Err(refusal) => return refusal.into(),
    };
    let (length, count) = (repaired.file.len(), repaired.replaced.len());
    let (Some(room), Some(list)) = (room.get_mut(..length), list.get_mut(..count)) else {
        return Salvaged {
            number: 10,
            ..Salvaged::default()
        };
    };
    room.copy_from_slice(&repaired.file);
    for (to, (record, _)) in list.iter_mut().zip(&repaired.replaced) {
        *to = *record;
    }
    Salvaged {
        number: 0,
        place: 0,
        bytes: length as u64,
        replaced: count as u64,
        dropped: repaired.dropped as u64,
    }
}
