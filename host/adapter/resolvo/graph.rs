//! From resolvo's conflict graph to a record file, by public items alone. Copy this file into the crate that has resolvo 0.12 and
//! `urzulempa-adapter`, and call it where a solve has failed:
//!
//! ```text
//! Err(UnsolvableOrCancelled::Unsolvable(conflict)) => {
//!     let file = graph::file(&conflict.graph(&solver), solver.provider())?;
//!     std::fs::write("load.rec", file)?;
//! }
//! ```

use resolvo::conflict::{ConflictCause, ConflictEdge, ConflictGraph, ConflictNode};
use resolvo::{Interner, Requirement, StringId, VersionSetId};
use std::fmt::Display;
use urzulempa_adapter::{version, Edge, Error, Graph, Node};

/// The record file of a conflict, for an interner that shows a solvable as its version, or as its name, a space or `=`, and its
/// version.
pub fn file<I: Interner>(
    graph: &ConflictGraph<I::SolvableId>,
    interner: &I,
) -> Result<Vec<u8>, Error> {
    let behind_name = |solvable| {
        let name = interner
            .display_name(interner.solvable_name(solvable))
            .to_string();
        version(&interner.display_solvable(solvable).to_string(), &name).to_owned()
    };
    file_with(graph, interner, behind_name)
}

/// The same, for one that shows it in another way: the version by itself.
pub fn file_with<I: Interner>(
    graph: &ConflictGraph<I::SolvableId>,
    interner: &I,
    version: impl Fn(I::SolvableId) -> String,
) -> Result<Vec<u8>, Error> {
    let nodes = graph
        .graph
        .raw_nodes()
        .iter()
        .map(|node| match node.weight {
            ConflictNode::Root => Node::Root,
            ConflictNode::Solvable(solvable) => Node::Solvable(solvable),
            ConflictNode::UnresolvedDependency => Node::Unresolved,
            ConflictNode::Excluded(reason) => Node::Excluded(reason),
        });
    let edges = graph.graph.raw_edges().iter().map(|edge| {
        let kind = match edge.weight {
            ConflictEdge::Requires(requirement) => Edge::Requires(requirement),
            ConflictEdge::Conflict(ConflictCause::Locked(solvable)) => Edge::Locked(solvable),
            ConflictEdge::Conflict(ConflictCause::Constrains(set)) => Edge::Constrains(set),
            ConflictEdge::Conflict(ConflictCause::ForbidMultipleInstances) => {
                Edge::ForbidMultipleInstances
            }
            ConflictEdge::Conflict(ConflictCause::Excluded) => Edge::Excluded,
        };
        (edge.source().index(), edge.target().index(), kind)
    });
    let graph = Graph {
        nodes: nodes.collect(),
        edges: edges.collect(),
    };
    graph.file(&Shown { interner, version })
}

/// resolvo's interner, with versions told from names.
struct Shown<'i, I, F> {
    interner: &'i I,
    version: F,
}

impl<I: Interner, F: Fn(I::SolvableId) -> String> urzulempa_adapter::Interner for Shown<'_, I, F> {
    type NameId = I::NameId;
    type SolvableId = I::SolvableId;
    type VersionSetId = VersionSetId;
    type Requirement = Requirement;
    type StringId = StringId;

    fn display_name(&self, name: I::NameId) -> impl Display + '_ {
        self.interner.display_name(name)
    }

    fn display_version(&self, solvable: I::SolvableId) -> impl Display + '_ {
        (self.version)(solvable)
    }

    fn display_version_set(&self, version_set: VersionSetId) -> impl Display + '_ {
        self.interner.display_version_set(version_set)
    }

    fn display_requirement(&self, requirement: Requirement) -> impl Display + '_ {
        requirement.display(self.interner).to_string()
    }

    fn display_string(&self, string_id: StringId) -> impl Display + '_ {
        self.interner.display_string(string_id)
    }

    fn version_set_name(&self, version_set: VersionSetId) -> I::NameId {
        self.interner.version_set_name(version_set)
    }

    fn solvable_name(&self, solvable: I::SolvableId) -> I::NameId {
        self.interner.solvable_name(solvable)
    }
}
