//! Records as bytes: what a table and a text may hold, and one record at a time.

use crate::Error;

/// The bytes of a record.
pub const RECORD: usize = 32;
/// The most bytes of a text.
pub const TEXT: usize = 24;
/// The most records of a file, 65,536 bytes.
pub const RECORDS: usize = 2_048;
/// The most nodes of a graph, unresolved counted also where it goes.
pub const NODES: usize = 128;
/// The most edges of a graph.
pub const EDGES: usize = 1_024;

/// The tables of a file, in the order of their kinds; all clauses are one.
#[derive(Clone, Copy, Debug, PartialEq, Eq, Hash)]
pub enum Table {
    Names,
    Solvables,
    VersionSets,
    Requirements,
    Candidates,
    Reasons,
    Variables,
    AssignedBy,
    Clauses,
}

impl Table {
    /// The most rows.
    pub fn most(self) -> usize {
        match self {
            Self::Reasons => 64,
            Self::Names => 128,
            Self::Solvables | Self::VersionSets | Self::Requirements => 256,
            Self::Candidates | Self::Variables | Self::AssignedBy | Self::Clauses => 1_024,
        }
    }

    /// What its rows are called.
    pub fn plural(self) -> &'static str {
        match self {
            Self::Names => "names",
            Self::Solvables => "solvables",
            Self::VersionSets => "version sets",
            Self::Requirements => "requirements",
            Self::Candidates => "candidates",
            Self::Reasons => "reasons",
            Self::Variables => "variables",
            Self::AssignedBy => "records 8",
            Self::Clauses => "clauses",
        }
    }

    /// What the text of a row is called.
    pub fn text(self) -> &'static str {
        match self {
            Self::Names => "name",
            Self::Solvables => "version",
            Self::VersionSets => "version set",
            Self::Requirements => "requirement",
            _ => "reason",
        }
    }

    /// That so many rows go into it.
    pub fn holds(self, rows: usize) -> Result<(), Error> {
        if rows > self.most() {
            return Err(Error::Rows { table: self, rows });
        }
        Ok(())
    }

    /// A number of one of its rows, as a record holds it.
    pub fn number(self, number: usize, rows: usize) -> Result<u16, Error> {
        let unknown = Error::Number { table: self, number };
        match u16::try_from(number) {
            Ok(small) if number < rows => Ok(small),
            _ => Err(unknown),
        }
    }
}

/// A record with a text: kinds 1, 2, 3, 4 and 6, whose field a is their own number.
pub fn texted(table: Table, own: u16, b: u16, text: &str) -> Result<[u8; RECORD], Error> {
    let fits = (1..=TEXT).contains(&text.len()) && text.bytes().all(|b| (32..=126).contains(&b));
    if !fits {
        let text = text.to_owned();
        return Err(Error::Text { table, text });
    }
    let kind = match table {
        Table::Names => 1,
        Table::Solvables => 2,
        Table::VersionSets => 3,
        Table::Requirements => 4,
        _ => 6,
    };
    let mut bytes = plain(kind, 0, [own, b, 0]);
    // it has at most 24
    bytes[1] = text.len() as u8;
    bytes[8..8 + text.len()].copy_from_slice(text.as_bytes());
    Ok(bytes)
}

/// A record without a text: byte 0 the kind; byte 1 the core flag of a clause, else 0; bytes 2 to 7 the fields, the lower byte first.
pub fn plain(kind: u8, second: u8, fields: [u16; 3]) -> [u8; RECORD] {
    let mut bytes = [0; RECORD];
    bytes[0] = kind;
    bytes[1] = second;
    for (place, field) in bytes[2..8].chunks_exact_mut(2).zip(fields) {
        place.copy_from_slice(&field.to_le_bytes());
    }
    bytes
}

/// The file of these records, each in its place.
pub fn file(records: &[[u8; RECORD]]) -> Result<Vec<u8>, Error> {
    if records.len() > RECORDS {
        return Err(Error::Records(records.len()));
    }
    Ok(records.concat())
}
