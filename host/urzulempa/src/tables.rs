//! Tables that a record file is written from. Each entry gets a number of its own type, so that no number is taken for another's:
//! a program that hands a name where a solvable belongs, or a gate where only a package's variable may stand, does not compile.

use crate::{written, Refusal};
use std::error::Error;
use std::fmt;

/// Number types, each with what it numbers.
macro_rules! numbers {
    ($($(#[$doc:meta])* $name:ident),* $(,)?) => {$(
        $(#[$doc])*
        #[derive(Clone, Copy, Debug, PartialEq, Eq, PartialOrd, Ord, Hash)]
        pub struct $name(u16);

        impl $name {
            /// The number in the file, counted from 0.
            pub fn number(self) -> u16 {
                self.0
            }
        }
    )*};
}

numbers! {
    /// A package's name.
    Name,
    /// One version of a package.
    Solvable,
    /// Versions of a package, by a text.
    VersionSet,
    /// Something that can be required.
    Requirement,
    /// Why something is excluded.
    Reason,
    /// A variable of any origin.
    Variable,
    /// The variable of the root.
    Root,
    /// The variable of a solvable.
    Package,
    /// A variable by which only one version of a name is installed.
    ForbidMultiple,
    /// A variable by which several requirers share one Requires.
    Gate,
    /// A variable by which several constraints share their sides.
    Auxiliary,
    /// A variable of another origin.
    Other,
    /// The root's variable or a package's: who may constrain.
    Parent,
    /// The root's variable, a package's or a gate: who may require.
    Requirer,
    /// A clause, numbered among all clauses.
    ClauseNumber,
}

/// What a variable may stand for where a wider type is wanted.
macro_rules! stands_for {
    ($($wide:ident: $($narrow:ident),*;)*) => {$($(
        impl From<$narrow> for $wide {
            fn from(variable: $narrow) -> Self {
                $wide(variable.0)
            }
        }
    )*)*};
}

stands_for! {
    Variable: Root, Package, ForbidMultiple, Gate, Auxiliary, Other;
    Parent: Root, Package;
    Requirer: Root, Package, Gate;
}

/// What a clause says, with fields a, b and c in this order.
#[derive(Clone, Copy, Debug, PartialEq, Eq)]
pub enum Clause {
    InstallRoot,
    /// The package is excluded for the reason.
    Excluded(Package, Reason),
    Learnt,
    Requires(Requirer, Requirement),
    /// The first is locked, which forbids the second.
    Lock(Package, Package),
    ForbidMultipleInstances(Package, ForbidMultiple),
    /// The first constrains the second.
    Constrains(Parent, Package, VersionSet),
    ConstrainsParent(Parent, Auxiliary, VersionSet),
    ConstrainsExcluded(Package, Auxiliary, VersionSet),
    /// The gate, and one who requires by way of it.
    AnyOf(Variable, Variable),
}

impl Clause {
    /// The kind of its record, and its fields.
    fn record(self) -> (u8, [u16; 3]) {
        match self {
            Self::InstallRoot => (16, [0; 3]),
            Self::Excluded(Package(a), Reason(b)) => (17, [a, b, 0]),
            Self::Learnt => (18, [0; 3]),
            Self::Requires(Requirer(a), Requirement(b)) => (19, [a, b, 0]),
            Self::Lock(Package(a), Package(b)) => (20, [a, b, 0]),
            Self::ForbidMultipleInstances(Package(a), ForbidMultiple(b)) => (21, [a, b, 0]),
            Self::Constrains(Parent(a), Package(b), VersionSet(c)) => (22, [a, b, c]),
            Self::ConstrainsParent(Parent(a), Auxiliary(b), VersionSet(c)) => (23, [a, b, c]),
            Self::ConstrainsExcluded(Package(a), Auxiliary(b), VersionSet(c)) => (24, [a, b, c]),
            Self::AnyOf(Variable(a), Variable(b)) => (25, [a, b, 0]),
        }
    }
}

/// A text that no record holds.
#[derive(Clone, Debug, PartialEq, Eq)]
pub enum BadText {
    Empty,
    /// More than 24 bytes: the text.
    Long(String),
    /// A character that is none of bytes 32 to 126: the text, and the first of them.
    Character(String, char),
}

impl fmt::Display for BadText {
    fn fmt(&self, f: &mut fmt::Formatter<'_>) -> fmt::Result {
        match self {
            Self::Empty => write!(f, "a text is empty: a record holds 1 to 24 bytes of text"),
            Self::Long(text) => write!(f, "the text {text:?} has {} bytes: a record holds 1 to 24 bytes of text", text.len()),
            Self::Character(text, c) => write!(f, "the text {text:?} has the character {c:?}: a record holds spaces and visible ASCII characters only"),
        }
    }
}

impl Error for BadText {}

/// A text as a record holds it.
pub(crate) fn fitting(text: &str) -> Result<&str, BadText> {
    if text.is_empty() {
        return Err(BadText::Empty);
    }
    if let Some(c) = text.chars().find(|c| !(' '..='~').contains(c)) {
        return Err(BadText::Character(text.to_owned(), c));
    }
    if text.len() > 24 {
        return Err(BadText::Long(text.to_owned()));
    }
    Ok(text)
}

/// A record: byte 1 is the text's length or, where the kind has no text, `second`.
pub(crate) fn record(kind: u8, second: u8, fields: [u16; 3], text: &str) -> [u8; 32] {
    let mut row = [0; 32];
    let length = text.len().min(24);
    row[0] = kind;
    row[1] = if length == 0 { second } else { length as u8 };
    for (place, field) in row[2..8].chunks_exact_mut(2).zip(fields) {
        place.copy_from_slice(&field.to_le_bytes());
    }
    row[8..8 + length].copy_from_slice(&text.as_bytes()[..length]);
    row
}

/// The tables of a load, in the making. Entries are added in any order of kinds; [`Tables::write`] gives the file. Numbers are those
/// of the tables that they came from: another `Tables` takes them for its own.
///
/// ```
/// use urzulempa::tables::{BadText, Clause, Tables};
///
/// fn replay() -> Result<Tables, BadText> {
///     let mut load = Tables::new();
///     let name = load.name("replay")?;
///     let two = load.solvable(name, "2")?;
///     let one = load.solvable(name, "1")?;
///     let any = load.requirement("replay *", &[two, one])?;
///     let codec = load.requirement("codec 9", &[])?;
///     let root = load.root();
///     load.core(Clause::Requires(root.into(), any));
///     for version in [two, one] {
///         let package = load.package(version);
///         load.core(Clause::Requires(package.into(), codec));
///     }
///     Ok(load)
/// }
///
/// let file = replay().unwrap().write().unwrap();
/// assert_eq!(file, include_bytes!("../../../samples/replay.rec"));
///
/// // A text is never cut.
/// let long = "a version of twenty-five.";
/// assert_eq!(Tables::new().reason(long), Err(BadText::Long(long.into())));
/// ```
///
/// Numbers can't be mixed up:
///
/// ```compile_fail
/// # use urzulempa::tables::Tables;
/// let mut load = Tables::new();
/// let name = load.name("replay").unwrap();
/// load.package(name);
/// ```
///
/// ```compile_fail
/// # use urzulempa::tables::{Clause, Tables};
/// let mut load = Tables::new();
/// let (gate, reason) = (load.gate(), load.reason("it was recalled").unwrap());
/// load.core(Clause::Excluded(gate, reason));
/// ```
#[derive(Clone, Debug, Default, PartialEq, Eq)]
pub struct Tables {
    rows: Vec<u8>,
    counts: [usize; 9],
}

/// Of `counts`: kinds 1 to 8, then all clauses.
const CLAUSES: usize = 8;

impl Tables {
    pub fn new() -> Self {
        Self::default()
    }

    /// Adds a row behind those of its table, and gives its number there.
    fn add(&mut self, kind: u8, second: u8, fields: [u16; 3], text: &str) -> u16 {
        let table = if kind <= 8 { usize::from(kind) - 1 } else { CLAUSES };
        // A table is full long before its numbers pass 16 bits, and `write` refuses it.
        let number = u16::try_from(self.counts[table]).unwrap_or(u16::MAX);
        self.counts[table] += 1;
        self.rows.extend(record(kind, second, fields, text));
        number
    }

    pub fn name(&mut self, text: &str) -> Result<Name, BadText> {
        let text = fitting(text)?;
        Ok(Name(self.add(1, 0, [0; 3], text)))
    }

    pub fn solvable(&mut self, name: Name, version: &str) -> Result<Solvable, BadText> {
        let version = fitting(version)?;
        Ok(Solvable(self.add(2, 0, [0, name.0, 0], version)))
    }

    pub fn version_set(&mut self, name: Name, text: &str) -> Result<VersionSet, BadText> {
        let text = fitting(text)?;
        Ok(VersionSet(self.add(3, 0, [0, name.0, 0], text)))
    }

    /// A requirement and the solvables that offer it, as they are to be tried.
    pub fn requirement(&mut self, text: &str, candidates: &[Solvable]) -> Result<Requirement, BadText> {
        let text = fitting(text)?;
        let requirement = Requirement(self.add(4, 0, [0; 3], text));
        for &solvable in candidates {
            self.candidate(requirement, solvable);
        }
        Ok(requirement)
    }

    /// One more solvable that offers a requirement, behind the others.
    pub fn candidate(&mut self, requirement: Requirement, solvable: Solvable) {
        self.add(5, 0, [requirement.0, solvable.0, 0], "");
    }

    pub fn reason(&mut self, text: &str) -> Result<Reason, BadText> {
        let text = fitting(text)?;
        Ok(Reason(self.add(6, 0, [0; 3], text)))
    }

    fn variable(&mut self, origin: u16, names: u16) -> u16 {
        self.add(7, 0, [0, origin, names], "")
    }

    /// A variable of the root.
    pub fn root(&mut self) -> Root {
        Root(self.variable(0, 0))
    }

    /// A variable of a solvable.
    pub fn package(&mut self, solvable: Solvable) -> Package {
        Package(self.variable(1, solvable.0))
    }

    /// A variable by which only one version of this name is installed.
    pub fn forbid_multiple(&mut self, name: Name) -> ForbidMultiple {
        ForbidMultiple(self.variable(2, name.0))
    }

    pub fn gate(&mut self) -> Gate {
        Gate(self.variable(3, 0))
    }

    pub fn auxiliary(&mut self) -> Auxiliary {
        Auxiliary(self.variable(4, 0))
    }

    pub fn other(&mut self) -> Other {
        Other(self.variable(5, 0))
    }

    /// A clause in the core: one of those that the solver names as the conflict.
    pub fn core(&mut self, clause: Clause) -> ClauseNumber {
        let (kind, fields) = clause.record();
        ClauseNumber(self.add(kind, 1, fields, ""))
    }

    /// A clause outside the core.
    pub fn outside(&mut self, clause: Clause) -> ClauseNumber {
        let (kind, fields) = clause.record();
        ClauseNumber(self.add(kind, 0, fields, ""))
    }

    /// Says which clause decided a variable; a variable takes one.
    pub fn assigned_by(&mut self, variable: impl Into<Variable>, clause: ClauseNumber) {
        self.add(8, 0, [variable.into().0, clause.0, 0], "");
    }

    /// The rows, as [`crate::write`] takes them.
    pub fn rows(&self) -> &[u8] {
        &self.rows
    }

    /// The file, by way of [`crate::write`], or the refusal: 6 where a table is full, 4 where a variable was assigned twice or a
    /// number comes from other tables, 1 where the file would be too long.
    pub fn write(&self) -> Result<Vec<u8>, Refusal> {
        written(&self.rows)
    }
}
