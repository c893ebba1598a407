//! How a solver writes a record file, field by field, from the types that conflict.rs reads.
//!
//! `Clause`, `VariableOrigin` and the tables are the oracle's stand-ins for the solver's. Such a writer sits inside resolvo, where
//! the clauses are private: what is here was not compiled against it, and a solver's own numbers have to be counted up from 0, each
//! before it is named, as document 01 wants them. It is for loads of which `Conflict::graph` gives no graph; where it gives one,
//! host/adapter needs nothing that is private. Records, limits and errors are the adapter's.

pub use crate::standins::internal::id::ClauseId;
pub use crate::standins::solver::clause::{Clause, Literal};
pub use crate::standins::solver::variable_map::VariableOrigin;
pub use crate::standins::{NameId, Requirement, SolvableId, StringId, VariableId, VersionSetId};

use crate::standins::DenseIndex;
use crate::Refusal;
use urzulempa_adapter::record::{self, plain, texted, Table};
use urzulempa_adapter::Error;

pub type Origin = VariableOrigin<SolvableId, NameId>;

/// What a solver knows at a conflict. Every table is numbered by its place.
#[derive(Default)]
pub struct Conflicting<'a> {
    pub names: Vec<&'a str>,
    /// Each with its name and its version.
    pub solvables: Vec<(NameId, &'a str)>,
    pub version_sets: Vec<(NameId, &'a str)>,
    /// Each with its candidates, sorted as the solver tries them.
    pub requirements: Vec<(&'a str, Vec<SolvableId>)>,
    pub reasons: Vec<&'a str>,
    /// What each variable stands for, and the clause that decided it.
    pub variables: Vec<(Origin, Option<ClauseId>)>,
    /// Every clause, and whether it is in the core of the conflict.
    pub clauses: Vec<(Clause, bool)>,
}

/// The file: 32 bytes a record, each naming only earlier records. A text that no record holds, a table that is too long and a number
/// that no row has are errors: nothing is cut.
pub fn write(load: &Conflicting<'_>) -> Result<Vec<u8>, Error> {
    let rows = load.rows()?;
    let mut records = Vec::new();
    for (own, text) in (0u16..).zip(&load.names) {
        records.push(texted(Table::Names, own, 0, text)?);
    }
    for (own, (name, version)) in (0u16..).zip(&load.solvables) {
        let name = rows.of(Table::Names, *name)?;
        records.push(texted(Table::Solvables, own, name, version)?);
    }
    for (own, (name, text)) in (0u16..).zip(&load.version_sets) {
        let name = rows.of(Table::Names, *name)?;
        records.push(texted(Table::VersionSets, own, name, text)?);
    }
    for (own, (text, _)) in (0u16..).zip(&load.requirements) {
        records.push(texted(Table::Requirements, own, 0, text)?);
    }
    for (requirement, (_, candidates)) in (0u16..).zip(&load.requirements) {
        for solvable in candidates {
            let solvable = rows.of(Table::Solvables, *solvable)?;
            records.push(plain(5, 0, [requirement, solvable, 0]));
        }
    }
    for (own, text) in (0u16..).zip(&load.reasons) {
        records.push(texted(Table::Reasons, own, 0, text)?);
    }
    for (own, (origin, _)) in (0u16..).zip(&load.variables) {
        let (origin, names) = match *origin {
            VariableOrigin::Root => (0, 0),
            VariableOrigin::Solvable(solvable) => (1, rows.of(Table::Solvables, solvable)?),
            VariableOrigin::ForbidMultiple(name) => (2, rows.of(Table::Names, name)?),
            VariableOrigin::RequiresGate(()) => (3, 0),
            VariableOrigin::Constrains => (4, 0),
            VariableOrigin::Other => (5, 0),
        };
        records.push(plain(7, 0, [own, origin, names]));
    }
    for (clause, in_core) in &load.clauses {
        let (kind, fields) = rows.clause_fields(clause)?;
        records.push(plain(kind, u8::from(*in_core), fields));
    }
    for (variable, (_, decided)) in (0u16..).zip(&load.variables) {
        if let Some(clause) = *decided {
            let clause = rows.of(Table::Clauses, clause)?;
            records.push(plain(8, 0, [variable, clause, 0]));
        }
    }
    record::file(&records)
}

/// How many rows each table has; all of them fit.
struct Rows<'l, 'a>(&'l Conflicting<'a>);

impl<'a> Conflicting<'a> {
    fn rows(&self) -> Result<Rows<'_, 'a>, Error> {
        let candidates = self.requirements.iter().map(|(_, all)| all.len()).sum();
        let assigned = self
            .variables
            .iter()
            .filter(|(_, decided)| decided.is_some());
        Table::Candidates.holds(candidates)?;
        Table::AssignedBy.holds(assigned.count())?;
        let rows = Rows(self);
        let others = [
            Table::Names,
            Table::Solvables,
            Table::VersionSets,
            Table::Requirements,
            Table::Reasons,
            Table::Variables,
            Table::Clauses,
        ];
        for table in others {
            table.holds(rows.count(table))?;
        }
        Ok(rows)
    }
}

impl Rows<'_, '_> {
    fn count(&self, table: Table) -> usize {
        match table {
            Table::Names => self.0.names.len(),
            Table::Solvables => self.0.solvables.len(),
            Table::VersionSets => self.0.version_sets.len(),
            Table::Requirements => self.0.requirements.len(),
            Table::Reasons => self.0.reasons.len(),
            Table::Variables => self.0.variables.len(),
            // no field names a row of the two tables that have no numbers
            Table::Candidates | Table::AssignedBy => 0,
            Table::Clauses => self.0.clauses.len(),
        }
    }

    /// The number of a row that the table has.
    fn of(&self, table: Table, number: impl DenseIndex) -> Result<u16, Error> {
        table.number(number.to_index(), self.count(table))
    }

    /// The kind of a clause's record, and its fields a, b and c.
    fn clause_fields(&self, clause: &Clause) -> Result<(u8, [u16; 3]), Error> {
        let variable = |variable: VariableId| self.of(Table::Variables, variable);
        let two = |a, b| Ok::<_, Error>([variable(a)?, variable(b)?, 0]);
        let three = |a, b, set: VersionSetId| {
            Ok::<_, Error>([
                variable(a)?,
                variable(b)?,
                self.of(Table::VersionSets, set)?,
            ])
        };
        Ok(match *clause {
            Clause::InstallRoot => (16, [0, 0, 0]),
            Clause::Excluded(a, reason) => {
                (17, [variable(a)?, self.of(Table::Reasons, reason)?, 0])
            }
            Clause::Learnt(()) => (18, [0, 0, 0]),
            Clause::Requires(a, (), requirement) => {
                let requirement = self.of(Table::Requirements, requirement)?;
                (19, [variable(a)?, requirement, 0])
            }
            Clause::Lock(locked, forbidden) => (20, two(locked, forbidden)?),
            Clause::ForbidMultipleInstances(a, literal, ()) => (21, two(a, literal.variable())?),
            Clause::Constrains(a, b, set) => (22, three(a, b, set)?),
            Clause::ConstrainsParent(a, auxiliary, set) => (23, three(a, auxiliary, set)?),
            Clause::ConstrainsExcluded(a, auxiliary, set) => (24, three(a, auxiliary, set)?),
            Clause::AnyOf(a, b) => (25, two(a, b)?),
        })
    }
}

/// The load of samples/replay.rec: the root requires "replay *", which two versions of replay offer; both require "codec 9", which
/// nobody offers.
pub fn replay() -> Result<Vec<u8>, Error> {
    let (two, one) = (SolvableId(0), SolvableId(1));
    let (root, of_two, of_one) = (VariableId(0), VariableId(1), VariableId(2));
    let (replay, codec) = (Requirement(0), Requirement(1));
    write(&Conflicting {
        names: vec!["replay"],
        solvables: vec![(NameId(0), "2"), (NameId(0), "1")],
        requirements: vec![("replay *", vec![two, one]), ("codec 9", vec![])],
        variables: vec![
            (VariableOrigin::Root, None),
            (VariableOrigin::Solvable(two), None),
            (VariableOrigin::Solvable(one), None),
        ],
        clauses: vec![
            (Clause::Requires(root, (), replay), true),
            (Clause::Requires(of_two, (), codec), true),
            (Clause::Requires(of_one, (), codec), true),
        ],
        ..Conflicting::default()
    })
}

/// A file read and written again: table by table, whatever order its records had. Refusals 1 to 6, or what the writer says.
pub fn again(file: &[u8]) -> Result<Result<Vec<u8>, Error>, Refusal> {
    let tables = crate::reader::read(file)?;
    let (solver, core) = crate::provider::solver_of(tables);
    let tables = &solver.provider.tables;
    let named = |n: u16| NameId(n);
    Ok(write(&Conflicting {
        names: tables.names.clone(),
        solvables: tables
            .solvables
            .iter()
            .map(|s| (named(s.name), s.text))
            .collect(),
        version_sets: tables
            .version_sets
            .iter()
            .map(|s| (named(s.name), s.text))
            .collect(),
        requirements: tables
            .requirements
            .iter()
            .copied()
            .zip(solver.cache.candidates.clone())
            .collect(),
        reasons: tables.reasons.clone(),
        variables: solver
            .state
            .variable_map
            .origins
            .iter()
            .copied()
            .zip(solver.state.decision_tracker.assigned_by.iter().copied())
            .collect(),
        clauses: (0u16..)
            .zip(&solver.state.clauses.kinds)
            .map(|(n, c)| (*c, core.contains(&ClauseId(n))))
            .collect(),
    }))
}
