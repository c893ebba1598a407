//! The repair of a file that was cut or damaged.

use crate::{ffi, Refusal};

/// What a repair says: done, or a numbered refusal with its place; and what was done.
#[repr(C)]
#[derive(Clone, Copy, Debug, PartialEq, Eq)]
#[must_use = "it may be a refusal"]
pub struct Salvaged {
    /// 0 when repaired, else the refusal's number.
    pub number: u64,
    /// The record where the repair stopped, else 0.
    pub place: u64,
    /// The length of the repaired file.
    pub bytes: u64,
    /// How many records were replaced.
    pub replaced: u64,
    /// How many bytes behind the last whole record were left out.
    pub dropped: u64,
}

impl Salvaged {
    /// The file is repaired.
    #[must_use]
    pub fn is_done(&self) -> bool {
        self.number == 0
    }

    /// The refusal, unless the file is repaired.
    #[must_use]
    pub fn refusal(&self) -> Option<Refusal> {
        Refusal::of(self.number, self.place)
    }
}

/// The most records that a repair replaces: all clauses that a file holds.
pub const MOST_REPLACED: usize = 1_024;

/// Repairs a file into the room: bytes behind the last whole record are dropped, and each clause that would get 3, 4 or 5, and each
/// Learnt in the core, is replaced by an InstallRoot outside it, so that clause numbers hold. The list gets the numbers of the
/// replaced records. On a refusal room and list stay as they were; a room of the file's length and a list of [`MOST_REPLACED`] are
/// never short.
///
/// ```
/// use urzulempa::{salvage, Refusal};
///
/// // Record 11 of 13, the second clause, has a flag that is neither 0 nor 1, and the last record was cut.
/// let mut file = include_bytes!("../../../samples/replay.rec").to_vec();
/// file[11 * 32 + 1] = 7;
/// file.truncate(12 * 32 + 5);
/// let (mut room, mut list) = ([0; 13 * 32], [0; 8]);
/// let answer = salvage(&file, &mut room, &mut list);
/// assert_eq!((answer.number, answer.bytes, answer.replaced, answer.dropped), (0, 12 * 32, 1, 5));
/// assert_eq!(list[0], 11);
/// assert_eq!(room[11 * 32..11 * 32 + 2], [16, 0]);
/// assert_eq!(room[..11 * 32], file[..11 * 32]);
/// assert_eq!(salvage(&file, &mut room, &mut []).refusal(), Some(Refusal::Room(0)));
/// ```
pub fn salvage(file: &[u8], room: &mut [u8], list: &mut [u16]) -> Salvaged {
    ffi::salvage(file, room, list)
}

/// A file that was repaired: it gets none of refusals 1 to 7.
#[derive(Clone, Debug, PartialEq, Eq)]
pub struct Repaired {
    pub file: Vec<u8>,
    /// The numbers of the replaced records, in order.
    pub replaced: Vec<u16>,
    /// How many bytes behind the last whole record were left out.
    pub dropped: u64,
}

/// The repaired file, or the refusal that stops the repair.
///
/// ```
/// use urzulempa::{repaired, Refusal};
///
/// // A sound file comes back as it was; a cut one loses the record that was being written.
/// let file = include_bytes!("../../../samples/replay.rec");
/// assert_eq!(repaired(file).map(|r| (r.file, r.replaced, r.dropped)), Ok((file.to_vec(), vec![], 0)));
/// assert_eq!(repaired(&file[..70]).map(|r| (r.file.len(), r.dropped)), Ok((64, 6)));
///
/// // What a clause would name can't be made up: a damaged name stops the repair.
/// let mut file = file.to_vec();
/// file[8] = 0;
/// assert_eq!(repaired(&file), Err(Refusal::Shape(0)));
/// ```
pub fn repaired(file: &[u8]) -> Result<Repaired, Refusal> {
    let mut room = vec![0; file.len()];
    let mut list = vec![0; MOST_REPLACED];
    let answer = salvage(file, &mut room, &mut list);
    if let Some(refusal) = answer.refusal() {
        return Err(refusal);
    }
    let taken = |n: u64| usize::try_from(n).unwrap_or(usize::MAX);
    room.truncate(taken(answer.bytes));
    list.truncate(taken(answer.replaced));
    Ok(Repaired { file: room, replaced: list, dropped: answer.dropped })
}
