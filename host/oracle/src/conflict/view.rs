//! What the oracle asks of conflict.rs.

mod what_if;

use std::fmt::{self, Write as _};

use petgraph::algo::{is_cyclic_directed, tarjan_scc};
use petgraph::graph::NodeIndex;
use petgraph::visit::EdgeRef as _;

use super::{Conflict, ConflictCause, ConflictEdge, ConflictGraph, ConflictNode, DisplayUnsat};
use crate::limits::{self, AddedBy};
use crate::provider::{FileSolver, Provider};
use crate::quoted::Quoted;
use crate::rooms::{Lines, Pieces, Room};
use crate::standins::internal::id::ClauseId;
use crate::standins::Interner;
use crate::watch::Package;
use crate::{Answer, Edge, Edition, Node, Refusal};

/// The graph of a file with its groups and labels.
pub struct View<'p, 'a> {
    unsat: DisplayUnsat<'p, Provider<'a>>,
    added: AddedBy,
}

/// The graph of a file alone, with the clauses that added its nodes and edges.
pub struct Drawn {
    pub(super) graph: ConflictGraph,
    added: AddedBy,
}

/// A text cut short, or whole; and whether `fmt_graph` came to its end by itself.
pub struct Told {
    pub answer: Answer,
    pub ended: bool,
    pub openings: u64,
}

/// Refusals 7 to 9, or the graph alone.
pub fn drawn(solver: &FileSolver<'_>, core: &[ClauseId]) -> Result<Drawn, Refusal> {
    let mut conflict = Conflict::default();
    for &clause in core {
        conflict.add_clause(clause);
    }
    let (graph, added) = limits::caught(&solver.state.progress, || conflict.graph(solver))?;
    assert_eq!(
        (added.nodes.len(), added.edges.len()),
        (graph.graph.node_count(), graph.graph.edge_count()),
        "a clause is noted for each node and each edge"
    );
    Ok(Drawn { graph, added })
}

impl Drawn {
    /// As `Conflict::graph` gave it.
    pub fn graph(&self) -> &ConflictGraph {
        &self.graph
    }

    pub fn edges(&self) -> Vec<Edge> {
        edge_list(&self.graph, &self.added)
    }
}

/// Oldest first: an edge's index is its place in the order of adding, since only unresolved is ever removed, and only when no edge
/// leads there; none leaves it.
fn edge_list(graph: &ConflictGraph, added: &AddedBy) -> Vec<Edge> {
    let edges = graph.graph.edge_references().zip(&added.edges);
    edges
        .map(|(edge, &clause)| {
            let (kind, named) = match *edge.weight() {
                ConflictEdge::Requires(requirement) => (0, requirement.0),
                ConflictEdge::Conflict(ConflictCause::Locked(solvable)) => (1, solvable.0),
                ConflictEdge::Conflict(ConflictCause::Constrains(set)) => (2, set.0),
                ConflictEdge::Conflict(ConflictCause::ForbidMultipleInstances) => (3, 0),
                ConflictEdge::Conflict(ConflictCause::Excluded) => (4, 0),
            };
            Edge {
                source: edge.source().index() as u16,
                target: edge.target().index() as u16,
                kind,
                named,
                clause,
            }
        })
        .collect()
}

impl<'p, 'a> View<'p, 'a> {
    /// Refusals 7 to 9, or the graph with its groups and labels.
    pub fn build(solver: &'p FileSolver<'a>, core: &[ClauseId]) -> Result<Self, Refusal> {
        let Drawn { graph, added } = drawn(solver, core)?;
        Ok(View {
            unsat: DisplayUnsat::new(graph, solver.provider()),
            added,
        })
    }

    /// `fmt_graph` on all outgoing edges of the root. With `refuses` off only the room and the
    /// budget of lines end a text that never ends.
    pub fn explain(&self, edition: Edition, indent: bool, refuses: bool, room: Room<'_>) -> Told {
        let watch = self.unsat.interner.watch();
        watch.start(self.packages(), edition, refuses);
        let mut lines = Lines::new(room);
        let ended = write!(lines, "{}", Top { view: self, indent }).is_ok();
        let (units, bytes) = (lines.room.units_written(), lines.room.bytes_written());
        let (number, place) = match watch.repeated() {
            Some(solvable) => (11, u64::from(solvable)),
            None if lines.room.full => (10, units),
            None => (0, 0),
        };
        let depth = watch.depth();
        Told {
            answer: Answer {
                number,
                place,
                bytes,
                units,
                depth,
            },
            ended,
            openings: watch.opened(),
        }
    }

    /// `graphviz`, with the texts as it quotes them.
    pub fn graphviz(&self, simplify: bool, room: Room<'_>) -> Answer {
        let mut pieces = Pieces { room };
        let unsat = &self.unsat;
        let texts = Quoted(unsat.interner);
        let whole = unsat.graph.graphviz(&mut pieces, &texts, simplify);
        let units = pieces.room.units_written();
        let (number, place) = match whole {
            Ok(()) => (0, 0),
            Err(_) => (10, units),
        };
        Answer {
            number,
            place,
            bytes: pieces.room.bytes_written(),
            units,
            depth: 0,
        }
    }

    pub fn nodes(&self) -> Vec<Node> {
        let graph = &self.unsat.graph.graph;
        graph.node_indices().map(|node| self.node(node)).collect()
    }

    /// The edges, oldest first.
    pub fn edges(&self) -> Vec<Edge> {
        edge_list(&self.unsat.graph, &self.added)
    }

    pub fn edge_count(&self) -> usize {
        self.unsat.graph.graph.edge_count()
    }

    /// How many nodes there are, unresolved counted only where it stayed.
    pub fn node_count(&self) -> usize {
        self.unsat.graph.graph.node_count()
    }

    /// How many groups `simplify` merged: each stands in its map once for every member.
    pub fn group_count(&self) -> usize {
        let merged = &self.unsat.merged_candidates;
        let groups = merged.iter().filter(|(id, group)| group.ids[0] == **id);
        groups.count()
    }

    /// The lowest node that is on a cycle, whatever its edges stand for: one among several that all lead to each other, or one
    /// with an edge to itself.
    pub fn lowest_on_cycle(&self) -> Option<usize> {
        let graph = &self.unsat.graph.graph;
        let goes_round = |together: &Vec<NodeIndex>| {
            together.len() > 1 || graph.contains_edge(together[0], together[0])
        };
        let round = tarjan_scc(graph).into_iter().filter(goes_round);
        let lowest = round.flatten().map(NodeIndex::index).min();
        assert_eq!(
            lowest.is_some(),
            is_cyclic_directed(graph),
            "petgraph's two ways to find a cycle agree"
        );
        lowest
    }

    /// Each edge's source and target, and its requirement, none for a conflict.
    pub fn ends(&self) -> Vec<(usize, usize, Option<u16>)> {
        let edges = self.unsat.graph.graph.edge_references();
        let requirement = |edge: ConflictEdge<_>| edge.try_requires().map(|r| r.0);
        edges
            .map(|e| {
                (
                    e.source().index(),
                    e.target().index(),
                    requirement(*e.weight()),
                )
            })
            .collect()
    }

    fn node(&self, node: NodeIndex) -> Node {
        let unsat = &self.unsat;
        let (kind, number) = match unsat.graph.graph[node] {
            ConflictNode::Root => (0, 0),
            ConflictNode::Solvable(solvable) => (1, solvable.0),
            ConflictNode::UnresolvedDependency => (2, 0),
            ConflictNode::Excluded(reason) => (3, reason.0),
        };
        Node {
            kind,
            number,
            group: self.first_of_group(node).index() as u16,
            installable: unsat.installable_set.contains(&node).into(),
            missing: unsat.missing_set.contains(&node).into(),
            clause: self.added.nodes[node.index()],
        }
    }

    fn first_of_group(&self, node: NodeIndex) -> NodeIndex {
        let graph = &self.unsat.graph.graph;
        let group = graph[node]
            .solvable()
            .and_then(|solvable| self.unsat.merged_candidates.get(&solvable));
        let Some(group) = group else {
            return node;
        };
        let first = ConflictNode::Solvable(group.ids[0]);
        graph
            .node_indices()
            .find(|&other| graph[other] == first)
            .expect("members of a group are nodes")
    }

    fn packages(&self) -> Vec<Package> {
        let merged = &self.unsat.merged_candidates;
        let package = |node: &ConflictNode| match node.solvable() {
            Some(solvable) => Package {
                number: solvable.0,
                merged: merged.contains_key(&solvable),
            },
            None => Package::default(),
        };
        self.unsat.graph.graph.node_weights().map(package).collect()
    }
}

/// `fmt_graph` wants a `Formatter`, which only a `Display` is handed.
struct Top<'v, 'p, 'a> {
    view: &'v View<'p, 'a>,
    indent: bool,
}

impl fmt::Display for Top<'_, '_, '_> {
    fn fmt(&self, f: &mut fmt::Formatter<'_>) -> fmt::Result {
        let unsat = &self.view.unsat;
        let root = unsat.graph.root_node;
        let edges: Vec<_> = unsat.graph.graph.edges(root).collect();
        unsat.fmt_graph(f, &edges, self.indent)
    }
}
