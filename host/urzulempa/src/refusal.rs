//! The refusals, each with one sentence that says what to do.

use std::fmt;

/// Why there is no whole text (document 01, "Refusal numbers", and document 02), with its place.
///
/// Orders to come add refusals: a `match` outside this crate needs an arm for those that it does not know.
///
/// ```
/// // It is an error like others: `?` takes it.
/// fn mended(file: &[u8]) -> Result<Vec<u8>, Box<dyn std::error::Error>> {
///     Ok(urzulempa::repaired(file)?.file)
/// }
/// assert!(mended(&[0; 32]).unwrap_err().to_string().starts_with("record 0 has a kind that does not exist"));
/// ```
#[derive(Clone, Copy, Debug, PartialEq, Eq)]
#[non_exhaustive]
pub enum Refusal {
    /// 1
    Length,
    /// 2, by record
    Kind(u64),
    /// 3, by record
    Shape(u64),
    /// 4, by record
    Number(u64),
    /// 4, of a question: [`what_changes`](crate::what_changes) tells it apart from that of a record
    Asked,
    /// 5, by record
    Origin(u64),
    /// 6, by record
    TableFull(u64),
    /// 7, by clause
    Learnt(u64),
    /// 8, by clause
    GraphFull(u64),
    /// 9, by node
    Unreached(u64),
    /// 10, by units written
    Room(u64),
    /// 11, by solvable
    Endless(u64),
    /// 12
    Option,
    /// 14, of a report: see [`season`](crate::season)
    Count,
    /// 15, by clause
    Locked(u64),
    /// 16
    ManyNodes,
    /// 17, by node
    Cycle(u64),
    /// 18, by record of a settings file
    Version(u64),
    /// A number that no call gives.
    Unknown(u64),
}

impl Refusal {
    /// Of an answer's number and place.
    pub(crate) fn of(number: u64, place: u64) -> Option<Self> {
        Some(match number {
            0 => return None,
            1 => Self::Length,
            2 => Self::Kind(place),
            3 => Self::Shape(place),
            4 => Self::Number(place),
            5 => Self::Origin(place),
            6 => Self::TableFull(place),
            7 => Self::Learnt(place),
            8 => Self::GraphFull(place),
            9 => Self::Unreached(place),
            10 => Self::Room(place),
            11 => Self::Endless(place),
            12 => Self::Option,
            14 => Self::Count,
            15 => Self::Locked(place),
            16 => Self::ManyNodes,
            17 => Self::Cycle(place),
            18 => Self::Version(place),
            other => Self::Unknown(other),
        })
    }

    /// Its number.
    #[must_use]
    pub fn number(&self) -> u64 {
        match *self {
            Self::Length => 1,
            Self::Kind(_) => 2,
            Self::Shape(_) => 3,
            Self::Number(_) | Self::Asked => 4,
            Self::Origin(_) => 5,
            Self::TableFull(_) => 6,
            Self::Learnt(_) => 7,
            Self::GraphFull(_) => 8,
            Self::Unreached(_) => 9,
            Self::Room(_) => 10,
            Self::Endless(_) => 11,
            Self::Option => 12,
            Self::Count => 14,
            Self::Locked(_) => 15,
            Self::ManyNodes => 16,
            Self::Cycle(_) => 17,
            Self::Version(_) => 18,
            Self::Unknown(number) => number,
        }
    }

    /// The record that the refusal points at, if it points at one.
    #[must_use]
    pub fn record(&self) -> Option<u64> {
        match *self {
            Self::Kind(r) | Self::Shape(r) | Self::Number(r) | Self::Origin(r) | Self::TableFull(r) => Some(r),
            _ => None,
        }
    }
}

impl std::error::Error for Refusal {}

impl fmt::Display for Refusal {
    fn fmt(&self, f: &mut fmt::Formatter<'_>) -> fmt::Result {
        match *self {
            Self::Length => write!(f, "the file's length is no multiple of 32 or above 65,536 bytes: it was cut or is no record file; hand over whole records"),
            Self::Kind(r) => write!(f, "record {r} has a kind that does not exist: the writer is newer than this reader, or the file is damaged"),
            Self::Shape(r) => write!(f, "record {r} has a bad length, flag, text byte or origin, or a byte that must be 0 is not: mend the writer"),
            Self::Number(r) => write!(f, "record {r} is out of order or names something that is not defined before it: put definitions first and number them from 0"),
            Self::Asked => write!(f, "the file has no such solvable or reason, or no node of the conflict stands for that solvable: ask about a package of the conflict"),
            Self::Origin(r) => write!(f, "record {r} names a variable of an origin that its field does not allow: check what the variable stands for"),
            Self::TableFull(r) => write!(f, "record {r} is one more than its table holds: the load is too large; leave out what is not in the core"),
            Self::Learnt(c) => write!(f, "clause {c} is a learnt clause in the core: hand over the clauses that it was learnt from instead"),
            Self::GraphFull(c) => write!(f, "clause {c} would add node 129 or edge 1,025: the conflict is too large to draw; cut the core down"),
            Self::Unreached(n) => write!(f, "node {n} is not reached from the root: the core lacks a clause that leads to it"),
            Self::Room(u) => write!(f, "the room, or the list, holds no more than {u} whole units: lend a larger one"),
            Self::Endless(s) => write!(f, "solvable {s} comes to be opened below itself, so the explanation would never end: the lines before that are whole, and the load has a cycle to break"),
            Self::Option => write!(f, "the option is neither 0 nor 1, or the edition neither 1 nor 2: pass one of them"),
            Self::Count => write!(f, "a count of the report would pass 64 bits: keep the two reports apart"),
            Self::Locked(c) => write!(f, "clause {c} is a lock in the core, and the air profile takes none: explain this load without the profile"),
            Self::ManyNodes => write!(f, "the graph has more than 64 nodes, the most that the air profile takes: cut the core down, or explain this load without the profile"),
            Self::Cycle(n) => write!(f, "node {n} leads back to itself, and neither the air profile nor a question takes a cycle: break it, or explain this load as it is"),
            Self::Version(r) => write!(f, "record {r} of the settings is of a version that this reader does not know: a newer release wrote it, or it is damaged"),
            Self::Unknown(n) => write!(f, "refusal {n}, which no call gives"),
        }
    }
}
