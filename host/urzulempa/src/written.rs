//! A record file from filled tables: the rows as they are lent.

use crate::{ffi, Answer, Refusal};

/// The most bytes that a record file has.
pub const MOST_BYTES: usize = 65_536;

/// Writes a record file into the room from rows of 32 bytes in the record's own layout, in any order of kinds: kinds 1 to 7 in
/// ascending order, each in its own, then the clauses in theirs, then kind 8 by variable. A row's number is its place among those of
/// its kind, whatever its field a says; all other fields name rows by these numbers.
///
/// Rows whose file would get 2 to 6 get that refusal, with the place in that file; then 1 is given for more than [`MOST_BYTES`] and 10
/// for a room that is too short. Any refusal leaves the room as it was. [`crate::Tables`] makes such rows.
///
/// ```
/// use urzulempa::{write, Refusal};
///
/// // A requirement and two names, none with its own number: they come out by kind, numbered from 0.
/// let row = |kind: u8, text: &str| {
///     let mut row = [0; 32];
///     row[..2].copy_from_slice(&[kind, text.len() as u8]);
///     row[8..8 + text.len()].copy_from_slice(text.as_bytes());
///     row
/// };
/// let rows = [row(4, "replay *"), row(1, "replay"), row(1, "codec")].concat();
/// let mut room = [7; 100];
/// let answer = write(&rows, &mut room);
/// assert_eq!((answer.number, answer.bytes, answer.units), (0, 96, 3));
/// assert_eq!([room[0], room[32], room[34], room[64]], [1, 1, 1, 4]);
/// assert_eq!(room[96..], [7; 4]);
/// assert_eq!(write(&rows, &mut room[..95]).refusal(), Some(Refusal::Room(0)));
///
/// // A name of no length would be record 1 of the file.
/// let rows = [row(4, "replay *"), row(1, "replay"), row(1, "")].concat();
/// assert_eq!(write(&rows, &mut room).refusal(), Some(Refusal::Shape(1)));
/// ```
pub fn write(rows: &[u8], room: &mut [u8]) -> Answer {
    ffi::write(rows, room)
}

/// The file that rows give, or the refusal.
///
/// ```
/// // A file is its own rows, and comes back byte for byte if it was in order.
/// let file = include_bytes!("../../../samples/replay.rec");
/// assert_eq!(urzulempa::written(file).as_deref(), Ok(&file[..]));
/// assert_eq!(urzulempa::written(&file[..33]), Err(urzulempa::Refusal::Length));
/// ```
pub fn written(rows: &[u8]) -> Result<Vec<u8>, Refusal> {
    let mut room = vec![0; rows.len().min(MOST_BYTES)];
    let answer = write(rows, &mut room);
    match answer.refusal() {
        Some(refusal) => Err(refusal),
        None => {
            room.truncate(usize::try_from(answer.bytes).unwrap_or(0));
            Ok(room)
        }
    }
}
