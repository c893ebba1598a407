//! The tables of a record file as the solver would hold them, and its texts as document 01 shows
//! them ("Groups and labels", "Explanation and graph text").

use std::fmt::{self, Display};

use crate::limits::Progress;
use crate::reader::{self, kind, origin, Tables};
use crate::standins::internal::id::ClauseId;
use crate::standins::runtime::AtOnce;
use crate::standins::solver::clause::{Clause, Literal};
use crate::standins::solver::variable_map::{VariableMap, VariableOrigin};
use crate::standins::solver::{Cache, Clauses, DecisionTracker, Solver, State};
use crate::standins::{
    DenseIndex, DependencyProvider, Interner, NameId, Requirement, SolvableId, StringId,
    VariableId, VersionSetId,
};
use crate::watch::Watch;

/// The texts of a file, shown as document 01 says.
pub struct Provider<'a> {
    pub tables: Tables<'a>,
    pub watch: Watch,
}

impl DependencyProvider for Provider<'_> {}

impl Interner for Provider<'_> {
    type NameId = NameId;
    type SolvableId = SolvableId;

    fn display_solvable(&self, solvable: SolvableId) -> impl Display + '_ {
        Single {
            provider: self,
            solvable,
        }
    }

    fn display_merged_solvables(&self, solvables: &[SolvableId]) -> impl Display + '_ {
        Merged {
            provider: self,
            members: solvables.to_vec(),
        }
    }

    fn display_name(&self, name: NameId) -> impl Display + '_ {
        self.tables.names[name.to_index()]
    }

    fn display_version_set(&self, version_set: VersionSetId) -> impl Display + '_ {
        self.tables.version_sets[version_set.to_index()].text
    }

    fn display_string(&self, string_id: StringId) -> impl Display + '_ {
        self.tables.reasons[string_id.to_index()]
    }

    fn display_requirement(&self, requirement: Requirement) -> impl Display + '_ {
        self.tables.requirements[requirement.to_index()]
    }

    fn version_set_name(&self, version_set: VersionSetId) -> NameId {
        NameId(self.tables.version_sets[version_set.to_index()].name)
    }

    fn solvable_name(&self, solvable: SolvableId) -> NameId {
        NameId(self.tables.solvables[solvable.to_index()].name)
    }

    fn watch(&self) -> &Watch {
        &self.watch
    }
}

/// "name, space, version".
struct Single<'p, 'a> {
    provider: &'p Provider<'a>,
    solvable: SolvableId,
}

impl Display for Single<'_, '_> {
    fn fmt(&self, f: &mut fmt::Formatter<'_>) -> fmt::Result {
        let tables = &self.provider.tables;
        let solvable = tables.solvables[self.solvable.to_index()];
        let name = tables.names[usize::from(solvable.name)];
        write!(f, "{name} {}", solvable.text)
    }
}

/// "a group: name, space, versions joined by ` | `", in member order and with equal versions shown as often as they come, unlike
/// lib.rs's default. Document 02, order 6: "A group of more than six shows its first three versions, then ` | ... | `, then its
/// last." Every text that shows a group comes through here.
struct Merged<'p, 'a> {
    provider: &'p Provider<'a>,
    members: Vec<SolvableId>,
}

/// The most members of a group that are all shown.
const ALL_SHOWN: usize = 6;

impl Display for Merged<'_, '_> {
    fn fmt(&self, f: &mut fmt::Formatter<'_>) -> fmt::Result {
        let tables = &self.provider.tables;
        let solvables = self.members.iter().map(|m| tables.solvables[m.to_index()]);
        let Some(first) = solvables.clone().next() else {
            return Ok(());
        };
        let name = tables.names[usize::from(first.name)];
        let versions: Vec<&str> = solvables.map(|solvable| solvable.text).collect();
        match versions[..] {
            [one, two, three, .., last] if versions.len() > ALL_SHOWN => {
                write!(f, "{name} {one} | {two} | {three} | ... | {last}")
            }
            _ => write!(f, "{name} {}", versions.join(" | ")),
        }
    }
}

pub type FileSolver<'a> = Solver<Provider<'a>, AtOnce>;

/// The solver as it would stand at a conflict, from an accepted file; and the core, in file order.
pub fn solver_of(tables: Tables<'_>) -> (FileSolver<'_>, Vec<ClauseId>) {
    let mut candidates = vec![Vec::new(); tables.requirements.len()];
    for c in &tables.candidates {
        candidates[usize::from(c.requirement)].push(SolvableId(c.solvable));
    }
    let core = (0u16..)
        .zip(&tables.clauses)
        .filter(|(_, clause)| clause.core)
        .map(|(number, _)| ClauseId(number))
        .collect();
    let state = State {
        clauses: Clauses {
            kinds: tables.clauses.iter().map(clause_of).collect(),
        },
        variable_map: VariableMap {
            origins: tables.variables.iter().map(origin_of).collect(),
        },
        decision_tracker: DecisionTracker {
            assigned_by: tables
                .variables
                .iter()
                .map(|variable| variable.assigned_by.map(ClauseId))
                .collect(),
        },
        progress: Progress::default(),
    };
    let provider = Provider {
        tables,
        watch: Watch::default(),
    };
    let solver = Solver {
        provider,
        state,
        cache: Cache { candidates },
        async_runtime: AtOnce,
    };
    (solver, core)
}

fn clause_of(record: &reader::ClauseRecord) -> Clause {
    let (a, b) = (VariableId(record.a), VariableId(record.b));
    let c = VersionSetId(record.c);
    match record.kind {
        kind::INSTALL_ROOT => Clause::InstallRoot,
        kind::EXCLUDED => Clause::Excluded(a, StringId(record.b)),
        kind::LEARNT => Clause::Learnt(()),
        kind::REQUIRES => Clause::Requires(a, (), Requirement(record.b)),
        kind::LOCK => Clause::Lock(a, b),
        kind::FORBID_MULTIPLE => Clause::ForbidMultipleInstances(a, Literal(b), ()),
        kind::CONSTRAINS => Clause::Constrains(a, b, c),
        kind::CONSTRAINS_PARENT => Clause::ConstrainsParent(a, b, c),
        kind::CONSTRAINS_EXCLUDED => Clause::ConstrainsExcluded(a, b, c),
        _ => Clause::AnyOf(a, b),
    }
}

fn origin_of(variable: &reader::Variable) -> VariableOrigin<SolvableId, NameId> {
    match variable.origin {
        origin::ROOT => VariableOrigin::Root,
        origin::SOLVABLE => VariableOrigin::Solvable(SolvableId(variable.names)),
        origin::FORBID_MULTIPLE => VariableOrigin::ForbidMultiple(NameId(variable.names)),
        origin::GATE => VariableOrigin::RequiresGate(()),
        origin::AUXILIARY => VariableOrigin::Constrains,
        _ => VariableOrigin::Other,
    }
}
