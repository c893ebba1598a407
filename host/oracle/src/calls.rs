//! The calls of documents 01 and 02 on the oracle.

mod what_if;

pub use what_if::{what_if, what_if_explain};

use crate::conflict::view::{self, View};
use crate::provider::{solver_of, FileSolver};
use crate::reader::{self, kind};
use crate::rooms::Room;
use crate::standins::internal::id::ClauseId;
use crate::wall::Chart;
use crate::{Answer, Edge, Edition, Node, Refusal, Rules};

/// A file that refusals 1 to 6 let through.
pub struct Problem<'a> {
    solver: FileSolver<'a>,
    core: Vec<ClauseId>,
    /// The first Lock in the core, by its number among all clauses.
    lock: Option<u64>,
}

/// A file that refusals 1 to 9 let through, as its labelled graph.
pub struct Model<'p, 'a> {
    view: View<'p, 'a>,
    lock: Option<u64>,
}

/// "The profile takes files with at most 64 nodes" (document 02, order 9).
const AIR_NODES: usize = 64;

impl<'a> Problem<'a> {
    pub fn read(file: &'a [u8]) -> Result<Problem<'a>, Refusal> {
        let tables = reader::read(file)?;
        let locks = |clause: &reader::ClauseRecord| clause.core && clause.kind == kind::LOCK;
        let lock = tables.clauses.iter().position(locks).map(|at| at as u64);
        let (solver, core) = solver_of(tables);
        Ok(Problem { solver, core, lock })
    }

    pub fn model(&self) -> Result<Model<'_, 'a>, Refusal> {
        let view = View::build(&self.solver, &self.core)?;
        let lock = self.lock;
        Ok(Model { view, lock })
    }

    /// Refusals 7 to 9, without groups and labels.
    pub fn check(&self) -> Result<(), Refusal> {
        view::drawn(&self.solver, &self.core).map(drop)
    }

    /// The numbers of the core's clauses.
    pub fn core(&self) -> Vec<u16> {
        self.core.iter().map(|clause| clause.0).collect()
    }

    /// Refusals 7 to 9, or the edges, oldest first.
    pub fn edges(&self) -> Result<Vec<Edge>, Refusal> {
        Ok(view::drawn(&self.solver, &self.core)?.edges())
    }

    /// Refusals 7 to 9, or what the adapter makes of the graph.
    pub fn adapted(&self) -> Result<Result<Vec<u8>, urzulempa_adapter::Error>, Refusal> {
        let drawn = view::drawn(&self.solver, &self.core)?;
        Ok(crate::public_graph::file(
            drawn.graph(),
            self.solver.provider(),
        ))
    }

    /// Refusals 7 to 9, or the graph as the wall shows it.
    pub fn chart(&self) -> Result<Chart, Refusal> {
        Ok(view::drawn(&self.solver, &self.core)?.chart(self.solver.provider()))
    }
}

impl Model<'_, '_> {
    pub fn explain(&self, indent: bool, room: &mut [u8]) -> Answer {
        self.explain_edition(Edition::One, indent, room)
    }

    pub fn explain_edition(&self, edition: Edition, indent: bool, room: &mut [u8]) -> Answer {
        let room = Room::new(room, u64::MAX);
        self.view.explain(edition, indent, true, room).answer
    }

    pub fn graphviz(&self, simplify: bool, room: &mut [u8]) -> Answer {
        self.view.graphviz(simplify, Room::new(room, u64::MAX))
    }

    /// "Refusals: 15 for a Lock, place the first; 16 for too many nodes, place 0; 17 for a cycle, place the lowest node on one;
    /// tested in that order after 9."
    pub fn air(&self) -> Result<(), Refusal> {
        if let Some(place) = self.lock {
            return Err(Refusal { number: 15, place });
        }
        if self.view.node_count() > AIR_NODES {
            return Err(Refusal {
                number: 16,
                place: 0,
            });
        }
        match self.lowest_on_cycle() {
            Some(node) => Err(Refusal {
                number: 17,
                place: node as u64,
            }),
            None => Ok(()),
        }
    }

    pub fn lowest_on_cycle(&self) -> Option<usize> {
        self.view.lowest_on_cycle()
    }

    /// The rules alone, without refusal 11, for at most `lines` lines.
    pub fn rules(&self, indent: bool, room: &mut [u8], lines: u64) -> Rules {
        self.rules_edition(Edition::One, indent, room, lines)
    }

    /// The same by the rules of an edition.
    pub fn rules_edition(
        &self,
        edition: Edition,
        indent: bool,
        room: &mut [u8],
        lines: u64,
    ) -> Rules {
        let room = Room::new(room, lines);
        let told = self.view.explain(edition, indent, false, room);
        Rules {
            ended: told.ended,
            bytes: told.answer.bytes,
            lines: told.answer.units,
            openings: told.openings,
        }
    }

    pub fn nodes(&self) -> Vec<Node> {
        self.view.nodes()
    }

    pub fn edge_count(&self) -> usize {
        self.view.edge_count()
    }

    /// How many merge groups there are.
    pub fn group_count(&self) -> usize {
        self.view.group_count()
    }

    /// Each edge's source and target, and its requirement, none for a conflict.
    pub fn ends(&self) -> Vec<(usize, usize, Option<u16>)> {
        self.view.ends()
    }

    /// "the bound of demand 3": g + (g + 1) × u, for g groups and u unmerged solvables.
    pub fn depth_bound(&self) -> u64 {
        let (groups, unmerged) = self.packages();
        groups + (groups + 1) * unmerged
    }

    /// "all openings in the whole text together are at most g + u" in edition 2.
    pub fn openings_bound(&self) -> u64 {
        let (groups, unmerged) = self.packages();
        groups + unmerged
    }

    /// g groups and u unmerged solvables.
    fn packages(&self) -> (u64, u64) {
        let nodes = self.nodes();
        let solvables = || (0u16..).zip(&nodes).filter(|(_, node)| node.kind == 1);
        let has_company = |at: u16| {
            let group = nodes[usize::from(at)].group;
            nodes.iter().filter(|node| node.group == group).count() > 1
        };
        let groups = solvables()
            .filter(|&(at, node)| has_company(at) && node.group == at)
            .count() as u64;
        let unmerged = solvables().filter(|&(at, _)| !has_company(at)).count() as u64;
        (groups, unmerged)
    }
}

fn flag(option: u64) -> Result<bool, Refusal> {
    match option {
        0 => Ok(false),
        1 => Ok(true),
        _ => Err(Refusal {
            number: 12,
            place: 0,
        }),
    }
}

fn answered(run: impl FnOnce() -> Result<Answer, Refusal>) -> Answer {
    run().unwrap_or_else(Answer::from)
}

/// The explanation. The answer's bytes of `room` are written, the others stay.
pub fn explain(file: &[u8], option: u64, room: &mut [u8]) -> Answer {
    answered(|| {
        let indent = flag(option)?;
        Ok(Problem::read(file)?.model()?.explain(indent, room))
    })
}

/// The explanation by a plain call: "A plain call now means option 1" (document 02, order 2).
pub fn explain_plain(file: &[u8], room: &mut [u8]) -> Answer {
    explain(file, 1, room)
}

/// The explanation by the rules of an edition. "12 for a bad edition or option, place 0, before all others."
pub fn explain_edition(file: &[u8], edition: u64, option: u64, room: &mut [u8]) -> Answer {
    answered(|| {
        let edition = Edition::of(edition)?;
        let indent = flag(option)?;
        let problem = Problem::read(file)?;
        Ok(problem.model()?.explain_edition(edition, indent, room))
    })
}

/// The explanation in the air profile: "Everything else answers as in document 01."
pub fn explain_air(file: &[u8], option: u64, room: &mut [u8]) -> Answer {
    answered(|| {
        let indent = flag(option)?;
        let problem = Problem::read(file)?;
        let model = problem.model()?;
        model.air()?;
        Ok(model.explain(indent, room))
    })
}

/// The graph text.
pub fn graphviz(file: &[u8], option: u64, room: &mut [u8]) -> Answer {
    answered(|| {
        let simplify = flag(option)?;
        Ok(Problem::read(file)?.model()?.graphviz(simplify, room))
    })
}

/// Refusals 1 to 9, and no text.
pub fn check(file: &[u8]) -> Answer {
    answered(|| {
        Problem::read(file)?.check()?;
        Ok(Answer::default())
    })
}

/// The node list, one unit: whole, or 10 with nothing changed.
pub fn nodes(file: &[u8], list: &mut [Node]) -> Answer {
    answered(|| {
        let nodes = Problem::read(file)?.model()?.nodes();
        Ok(listed(&nodes, list))
    })
}

fn listed(nodes: &[Node], list: &mut [Node]) -> Answer {
    let Some(part) = list.get_mut(..nodes.len()) else {
        return Answer {
            number: 10,
            ..Answer::default()
        };
    };
    part.copy_from_slice(nodes);
    Answer {
        units: 1,
        ..Answer::default()
    }
}

/// The edge list, five numbers an edge, one unit: whole, or 10 with nothing changed. "Done: bytes = 10 × edges, units 1, place
/// and depth 0."
pub fn edges(file: &[u8], list: &mut [u16]) -> Answer {
    answered(|| {
        let edges = Problem::read(file)?.edges()?;
        let numbers: Vec<u16> = edges.iter().flat_map(|edge| edge.numbers()).collect();
        let Some(part) = list.get_mut(..numbers.len()) else {
            return Ok(Answer {
                number: 10,
                ..Answer::default()
            });
        };
        part.copy_from_slice(&numbers);
        Ok(Answer {
            bytes: 10 * edges.len() as u64,
            units: 1,
            ..Answer::default()
        })
    })
}

/// Refusals 1 to 9, or what the adapter makes of the graph that conflict.rs draws of the file.
pub fn adapted(file: &[u8]) -> Result<Result<Vec<u8>, urzulempa_adapter::Error>, Refusal> {
    Problem::read(file)?.adapted()
}

/// The rules of `fmt_graph` without refusal 11, for at most `lines` lines of `room`.
pub fn rules(file: &[u8], indent: bool, room: &mut [u8], lines: u64) -> Result<Rules, Refusal> {
    Ok(Problem::read(file)?.model()?.rules(indent, room, lines))
}
