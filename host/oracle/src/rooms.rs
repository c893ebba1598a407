//! The lent room: whole units only, each behind the earlier ones.

use std::fmt;
use std::io;

/// Takes units until the next one doesn't fit (refusal 10) or the budget of units is used up.
pub struct Room<'r> {
    bytes: &'r mut [u8],
    at: usize,
    units: u64,
    most_units: u64,
    /// Whether a unit was turned away.
    pub full: bool,
}

impl<'r> Room<'r> {
    pub fn new(bytes: &'r mut [u8], most_units: u64) -> Self {
        Room {
            bytes,
            at: 0,
            units: 0,
            most_units,
            full: false,
        }
    }

    pub fn bytes_written(&self) -> u64 {
        self.at as u64
    }

    pub fn units_written(&self) -> u64 {
        self.units
    }

    fn left(&self) -> usize {
        self.bytes.len() - self.at
    }

    fn put(&mut self, unit: &[u8]) -> bool {
        if unit.len() > self.left() || self.units == self.most_units {
            self.full = true;
            return false;
        }
        self.bytes[self.at..self.at + unit.len()].copy_from_slice(unit);
        self.at += unit.len();
        self.units += 1;
        true
    }
}

/// The sink of the explanation: a unit is a line. No text of a record holds a line end.
pub struct Lines<'r> {
    pub room: Room<'r>,
    line: String,
}

impl<'r> Lines<'r> {
    pub fn new(room: Room<'r>) -> Self {
        Lines {
            room,
            line: String::new(),
        }
    }
}

impl fmt::Write for Lines<'_> {
    fn write_str(&mut self, part: &str) -> fmt::Result {
        self.line.push_str(part);
        if !self.line.ends_with('\n') {
            return Ok(());
        }
        let fits = self.room.put(self.line.as_bytes());
        self.line.clear();
        if fits {
            Ok(())
        } else {
            Err(fmt::Error)
        }
    }
}

/// The sink of the graph text: `graphviz` makes one `write!` for the opening, each edge and the
/// closing brace, and each is one call of `write_fmt`. Cutting at `;` would not do: a label may hold
/// one, and the quotes around a label do not always end where it does.
pub struct Pieces<'r> {
    pub room: Room<'r>,
}

impl io::Write for Pieces<'_> {
    fn write_fmt(&mut self, piece: fmt::Arguments<'_>) -> io::Result<()> {
        if self.room.put(piece.to_string().as_bytes()) {
            Ok(())
        } else {
            Err(io::ErrorKind::WriteZero.into())
        }
    }

    fn write(&mut self, _: &[u8]) -> io::Result<usize> {
        Err(io::ErrorKind::Unsupported.into())
    }

    fn flush(&mut self) -> io::Result<()> {
        Ok(())
    }
}
