//! The text form of a record file (docs/FORMAT.md): one line a record, names instead of numbers, `#` before a comment.
//!
//! [`dump`] gives the list of a file, [`make`] the file of a list, by way of [`crate::write`]. The list of a file gives the same
//! tables again, and the same bytes where the file was in order.
//!
//! ```
//! use urzulempa::list::{dump, make};
//!
//! let list = r#"
//! name replay      # the root requires it, and its one version requires a codec that nobody has
//! solvable replay 2
//! requirement "replay *"
//! candidate "replay *", replay 2
//! requirement "codec 9"
//! variable root
//! variable replay 2
//! core requires root, "replay *"
//! core requires replay 2, "codec 9"
//! "#;
//! let file = make(list.as_bytes()).unwrap();
//! assert_eq!(make(dump(&file).unwrap().as_bytes()), Ok(file));
//!
//! // A fault names its line.
//! let faults = make(list.replace("replay 2, ", "replay 3, ").as_bytes()).unwrap_err();
//! assert_eq!(faults[0].to_string(), "line 10: no line makes the variable `replay 3`: write `variable replay 3`");
//! ```

mod dump;
mod make;
mod tables;
mod words;

pub use dump::dump;
pub use make::make;

use crate::Refusal;
use std::fmt;

/// What is wrong with a list.
#[derive(Clone, Debug, PartialEq, Eq)]
pub struct Fault {
    /// Counted from 1; none where it is the whole that is too long.
    pub line: Option<usize>,
    pub why: String,
    /// The refusal of [`crate::write`], where that gave it, with the place in the file that would have been written.
    pub refusal: Option<Refusal>,
}

impl std::error::Error for Fault {}

impl fmt::Display for Fault {
    fn fmt(&self, f: &mut fmt::Formatter<'_>) -> fmt::Result {
        match self.line {
            Some(line) => write!(f, "line {line}: {}", self.why),
            None => write!(f, "{}", self.why),
        }
    }
}

/// What a field of a record names.
#[derive(Clone, Copy, Debug, PartialEq, Eq)]
enum Table {
    Name,
    Solvable,
    VersionSet,
    Requirement,
    Reason,
    Variable,
    Clause,
}

impl Table {
    /// Its place among the tables that can be named.
    fn place(self) -> usize {
        self as usize
    }

    /// Of a record's kind, if such a record can be named.
    fn of_kind(kind: u8) -> Option<Self> {
        Some(match kind {
            1 => Self::Name,
            2 => Self::Solvable,
            3 => Self::VersionSet,
            4 => Self::Requirement,
            6 => Self::Reason,
            7 => Self::Variable,
            16..=25 => Self::Clause,
            _ => return None,
        })
    }

    /// In words, and how a label of it begins.
    fn said(self) -> (&'static str, &'static str) {
        match self {
            Self::Name => ("name", "name"),
            Self::Solvable => ("solvable", "solvable"),
            Self::VersionSet => ("version set", "set"),
            Self::Requirement => ("requirement", "requirement"),
            Self::Reason => ("reason", "reason"),
            Self::Variable => ("variable", "variable"),
            Self::Clause => ("clause", "clause"),
        }
    }

    /// What a field that names one looks like, beside a label.
    fn form(self) -> &'static str {
        match self {
            Self::Name => "NAME",
            Self::Solvable => "NAME VERSION",
            Self::VersionSet => "NAME SET",
            Self::Requirement => "REQUIREMENT",
            Self::Reason => "REASON",
            Self::Variable => "VARIABLE",
            Self::Clause => "@LABEL",
        }
    }
}

/// The clauses from kind 16 on: the word of the line, and what fields a, b and c name.
const CLAUSES: [(&str, &[Table]); 10] = {
    use Table::{Reason, Requirement, Variable, VersionSet};
    [
        ("install-root", &[]),
        ("excluded", &[Variable, Reason]),
        ("learnt", &[]),
        ("requires", &[Variable, Requirement]),
        ("lock", &[Variable, Variable]),
        ("forbid-multiple", &[Variable, Variable]),
        ("constrains", &[Variable, Variable, VersionSet]),
        ("constrains-parent", &[Variable, Variable, VersionSet]),
        ("constrains-excluded", &[Variable, Variable, VersionSet]),
        ("any-of", &[Variable, Variable]),
    ]
};

/// The words of variables that are neither a solvable's nor of a name, by origin.
const ORIGINS: [(u16, &str); 4] = [(0, "root"), (3, "gate"), (4, "auxiliary"), (5, "other")];

/// The word before the name of a forbid-multiple variable.
const FORBID: &str = "forbid";
