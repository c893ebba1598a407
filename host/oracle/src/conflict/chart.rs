//! The graph that conflict.rs built, with the texts that its `graphviz` puts in quotes: each node, and each edge's label, as they
//! stand there, merge groups not folded.

use petgraph::visit::EdgeRef as _;

use super::view::Drawn;
use super::{ConflictCause, ConflictEdge, ConflictNode};
use crate::provider::Provider;
use crate::standins::Interner as _;
use crate::wall::{Chart, Line};

impl Drawn {
    /// Nodes by number, edges oldest first, as [`Drawn::edges`] lists them.
    pub fn chart(&self, interner: &Provider<'_>) -> Chart {
        let graph = &self.graph.graph;
        let shown = |node: &ConflictNode<_>| match *node {
            ConflictNode::Root | ConflictNode::Solvable(_) => {
                node.solvable_or_root().display(interner).to_string()
            }
            ConflictNode::UnresolvedDependency => "unresolved".to_string(),
            ConflictNode::Excluded(reason) => {
                format!("reason: {}", interner.display_string(reason))
            }
        };
        let label = |edge: &ConflictEdge<_>| match *edge {
            ConflictEdge::Requires(requirement) => requirement.display(interner).to_string(),
            ConflictEdge::Conflict(ConflictCause::Constrains(set)) => {
                interner.display_version_set(set).to_string()
            }
            ConflictEdge::Conflict(
                ConflictCause::ForbidMultipleInstances | ConflictCause::Locked(_),
            ) => "already installed".to_string(),
            ConflictEdge::Conflict(ConflictCause::Excluded) => "excluded".to_string(),
        };
        Chart {
            nodes: graph.node_weights().map(shown).collect(),
            edges: graph
                .edge_references()
                .map(|edge| Line {
                    source: edge.source().index(),
                    target: edge.target().index(),
                    label: label(edge.weight()),
                })
                .collect(),
        }
    }
}
