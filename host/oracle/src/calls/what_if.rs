//! One more exclusion (document 02, order 10): the graph that was built with it behind, and the file with one more clause.

use super::{answered, flag, listed, Model, Problem};
use crate::reader::origin;
use crate::standins::internal::id::ClauseId;
use crate::standins::solver::clause::Clause;
use crate::standins::solver::variable_map::VariableOrigin;
use crate::standins::{SolvableId, StringId, VariableId};
use crate::{Answer, Edge, Node};

impl<'a> Problem<'a> {
    /// The file with "one more Excluded clause at its end, naming that solvable whether or not a variable record exists for it, and
    /// with record limits set aside". Both numbers name records of the file.
    pub fn longer(mut self, solvable: u16, reason: u16) -> Problem<'a> {
        let state = &mut self.solver.state;
        let tables = &self.solver.provider.tables;
        assert!(usize::from(solvable) < tables.solvables.len());
        assert!(usize::from(reason) < tables.reasons.len());
        let names =
            |v: &crate::reader::Variable| v.origin == origin::SOLVABLE && v.names == solvable;
        let variable = tables.variables.iter().position(names).unwrap_or_else(|| {
            let origins = &mut state.variable_map.origins;
            origins.push(VariableOrigin::Solvable(SolvableId(solvable)));
            state.decision_tracker.assigned_by.push(None);
            origins.len() - 1
        });
        let clauses = &mut state.clauses.kinds;
        clauses.push(Clause::Excluded(
            VariableId(variable as u16),
            StringId(reason),
        ));
        self.core.push(ClauseId((clauses.len() - 1) as u16));
        self
    }

    /// How many solvables, reasons and clauses the file has.
    pub fn counts(&self) -> (usize, usize, usize) {
        let tables = &self.solver.provider.tables;
        let counts = (tables.solvables.len(), tables.reasons.len());
        (counts.0, counts.1, tables.clauses.len())
    }
}

impl Model<'_, '_> {
    /// The graph with one more exclusion behind it, or 4, 8 or 17.
    pub fn excluding(self, solvable: u64, reason: u64) -> Result<Self, crate::Refusal> {
        let Model { view, lock } = self;
        let view = view.excluding(solvable, reason)?;
        Ok(Model { view, lock })
    }

    /// The edges, oldest first.
    pub fn edges(&self) -> Vec<Edge> {
        self.view.edges()
    }

    /// The explanation with option 0, the members of each group by their numbers.
    pub fn by_number(&self, room: &mut [u8], lines: u64) -> Answer {
        self.view.by_number(room, lines)
    }
}

/// The node list with one more exclusion: "the file's 1 to 9, then 4, 8, 17", then 10 where the list is too short.
pub fn what_if(file: &[u8], solvable: u64, reason: u64, list: &mut [Node]) -> Answer {
    answered(|| {
        let problem = Problem::read(file)?;
        let asked = problem.model()?.excluding(solvable, reason)?;
        Ok(listed(&asked.nodes(), list))
    })
}

/// The explanation with one more exclusion: "12 where there is an option" first.
pub fn what_if_explain(
    file: &[u8],
    solvable: u64,
    reason: u64,
    option: u64,
    room: &mut [u8],
) -> Answer {
    answered(|| {
        let indent = flag(option)?;
        let problem = Problem::read(file)?;
        let asked = problem.model()?.excluding(solvable, reason)?;
        Ok(asked.explain(indent, room))
    })
}
