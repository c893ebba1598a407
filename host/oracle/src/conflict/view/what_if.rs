//! The graph with one more exclusion (document 02, order 10): "it builds once, with that file's refusals first, and asks from there."

use std::fmt::{self, Display, Write as _};

use super::super::{ConflictCause, ConflictEdge, ConflictNode, DisplayUnsat};
use super::View;
use crate::limits::{EDGES, NODES};
use crate::provider::Provider;
use crate::rooms::{Lines, Room};
use crate::standins::{Interner, NameId, Requirement, SolvableId, StringId, VersionSetId};
use crate::watch::Watch;
use crate::{Answer, Edition, Refusal};

impl<'p, 'a> View<'p, 'a> {
    /// The same graph with the exclusion behind it, labelled and grouped by conflict.rs afresh: "4 for an unknown solvable or reason,
    /// or a solvable without a node, place 0; 8 as in the build, unresolved counted, place the number of clauses; 17 as in order 9;
    /// in that order". A new node is the last, and the new edge the newest.
    pub fn excluding(self, solvable: u64, reason: u64) -> Result<Self, Refusal> {
        let tables = &self.unsat.interner.tables;
        let clauses = tables.clauses.len();
        let drawn = &self.unsat.graph;
        let node_of = |what: ConflictNode| {
            let mut nodes = drawn.graph.node_indices();
            nodes.find(|&node| drawn.graph[node] == what)
        };
        let package = number_in(solvable, tables.solvables.len())
            .and_then(|number| node_of(ConflictNode::Solvable(SolvableId(number))));
        let reason = number_in(reason, tables.reasons.len()).map(StringId);
        let (Some(package), Some(reason)) = (package, reason) else {
            return Err(refusal(4, 0));
        };
        let known = node_of(ConflictNode::Excluded(reason));
        let gone = drawn.unresolved_node.is_none();
        let nodes = drawn.graph.node_count() + usize::from(gone) + usize::from(known.is_none());
        if nodes > NODES || drawn.graph.edge_count() + 1 > EDGES {
            return Err(refusal(8, clauses));
        }
        if let Some(node) = self.lowest_on_cycle() {
            return Err(refusal(17, node));
        }
        let View { unsat, mut added } = self;
        let (mut graph, interner) = (unsat.graph, unsat.interner);
        let excluded = known.unwrap_or_else(|| {
            added.nodes.push(clauses as u16);
            graph.graph.add_node(ConflictNode::Excluded(reason))
        });
        added.edges.push(clauses as u16);
        let cause = ConflictEdge::Conflict(ConflictCause::Excluded);
        graph.graph.add_edge(package, excluded, cause);
        Ok(View {
            unsat: DisplayUnsat::new(graph, interner),
            added,
        })
    }

    /// The explanation with option 0, the members of each group shown by their numbers: a text that does not depend on the numbers
    /// of nodes. It comes to at most so many lines.
    pub fn by_number(&self, room: &mut [u8], lines: u64) -> Answer {
        let interner = ByNumber(self.unsat.interner);
        let unsat = DisplayUnsat::new(self.unsat.graph.clone(), &interner);
        let watch = interner.watch();
        watch.start(self.packages(), Edition::One, true);
        let mut written = Lines::new(Room::new(room, lines));
        let ended = write!(written, "{}", Plain(&unsat)).is_ok();
        Answer {
            number: if ended { 0 } else { 10 },
            place: 0,
            bytes: written.room.bytes_written(),
            units: written.room.units_written(),
            depth: watch.depth(),
        }
    }
}

fn refusal(number: u64, place: usize) -> Refusal {
    let place = place as u64;
    Refusal { number, place }
}

/// "Numbers are 64 bits: 65,536 is no solvable."
fn number_in(number: u64, table: usize) -> Option<u16> {
    let number = u16::try_from(number).ok()?;
    (usize::from(number) < table).then_some(number)
}

struct Plain<'v, 'i, I: Interner>(&'v DisplayUnsat<'i, I>);

impl<I: Interner<SolvableId = SolvableId>> Display for Plain<'_, '_, I> {
    fn fmt(&self, f: &mut fmt::Formatter<'_>) -> fmt::Result {
        let drawn = &self.0.graph;
        let edges: Vec<_> = drawn.graph.edges(drawn.root_node).collect();
        self.0.fmt_graph(f, &edges, false)
    }
}

/// The texts of a file, but for the order of members.
struct ByNumber<'p, 'a>(&'p Provider<'a>);

impl Interner for ByNumber<'_, '_> {
    type NameId = NameId;
    type SolvableId = SolvableId;

    fn display_solvable(&self, solvable: SolvableId) -> impl Display + '_ {
        self.0.display_solvable(solvable)
    }

    fn display_merged_solvables(&self, solvables: &[SolvableId]) -> impl Display + '_ {
        let mut sorted = solvables.to_vec();
        sorted.sort_unstable();
        self.0.display_merged_solvables(&sorted).to_string()
    }

    fn display_name(&self, name: NameId) -> impl Display + '_ {
        self.0.display_name(name)
    }

    fn display_version_set(&self, version_set: VersionSetId) -> impl Display + '_ {
        self.0.display_version_set(version_set)
    }

    fn display_string(&self, string_id: StringId) -> impl Display + '_ {
        self.0.display_string(string_id)
    }

    fn display_requirement(&self, requirement: Requirement) -> impl Display + '_ {
        self.0.display_requirement(requirement)
    }

    fn version_set_name(&self, version_set: VersionSetId) -> NameId {
        self.0.version_set_name(version_set)
    }

    fn solvable_name(&self, solvable: SolvableId) -> NameId {
        self.0.solvable_name(solvable)
    }

    fn watch(&self) -> &Watch {
        self.0.watch()
    }
}
