//! Refusals 7, 8 and 9, met inside `Conflict::graph`; and the clause that adds each node and edge,
//! noted there.
//!
//! The function has no way to say no, so a refusal leaves it by unwinding with a payload of its
//! own, which [`caught`] turns into an answer. `resume_unwind` runs no panic hook: nothing is
//! printed. Nodes and edges are counted by the real graph at the moment it would grow. A clause is
//! a number here: what it says is looked at in `standins`, which leans on this file.

use std::cell::{Cell, RefCell};
use std::collections::HashSet;
use std::panic::{catch_unwind, resume_unwind, AssertUnwindSafe};

use petgraph::graph::{DiGraph, NodeIndex};

use crate::Refusal;

pub const NODES: usize = 128;
pub const EDGES: usize = 1_024;

/// "root and unresolved show 65,535": they are there before the first clause (document 02, order 3).
pub const NO_CLAUSE: u16 = u16::MAX;

/// The number of the clause that added each node and each edge, by their numbers in the graph. A clause is numbered among all
/// clauses, as a `ClauseId` is.
#[derive(Clone, Debug, Default)]
pub struct AddedBy {
    pub nodes: Vec<u16>,
    pub edges: Vec<u16>,
}

/// The number of the core clause that `Conflict::graph` is at, and what was added so far.
#[derive(Default)]
pub struct Progress {
    at: Cell<Option<u16>>,
    added: RefCell<AddedBy>,
}

impl Progress {
    pub fn enter(&self, clause: u16) {
        self.at.set(Some(clause));
    }

    /// The clause that was entered last is a learnt one.
    pub fn learnt(&self) -> ! {
        resume_unwind(Box::new(Stop::Learnt))
    }

    /// Called before petgraph's `remove_node`, which puts the last node where the removed one was.
    pub fn gone(&self, node: NodeIndex) {
        self.added.borrow_mut().nodes.swap_remove(node.index());
    }

    fn clause(&self) -> u16 {
        self.at.get().unwrap_or(NO_CLAUSE)
    }
}

enum Stop {
    Learnt,
    Full,
    Unreached(usize),
}

pub trait Limits {
    /// Called before each node is added: there is room for it, and its clause is noted.
    fn noting_node(&mut self, progress: &Progress) -> &mut Self;
    /// The same for an edge.
    fn noting_edge(&mut self, progress: &Progress) -> &mut Self;
}

impl<N, E> Limits for DiGraph<N, E> {
    fn noting_node(&mut self, progress: &Progress) -> &mut Self {
        if self.node_count() == NODES {
            resume_unwind(Box::new(Stop::Full));
        }
        progress.added.borrow_mut().nodes.push(progress.clause());
        self
    }

    fn noting_edge(&mut self, progress: &Progress) -> &mut Self {
        if self.edge_count() == EDGES {
            resume_unwind(Box::new(Stop::Full));
        }
        progress.added.borrow_mut().edges.push(progress.clause());
        self
    }
}

/// Node numbers here are those after unresolved may have gone.
pub fn all_reached<N, E>(graph: &DiGraph<N, E>, reached: &HashSet<NodeIndex>) {
    if let Some(node) = graph.node_indices().find(|node| !reached.contains(node)) {
        resume_unwind(Box::new(Stop::Unreached(node.index())));
    }
}

/// Runs the build of a graph, and gives it with the clauses that added its parts, or the refusal that it met. Any other panic
/// goes on.
pub fn caught<T>(progress: &Progress, build: impl FnOnce() -> T) -> Result<(T, AddedBy), Refusal> {
    progress.at.set(None);
    progress.added.take();
    match catch_unwind(AssertUnwindSafe(build)) {
        Ok(built) => Ok((built, progress.added.take())),
        Err(payload) => match payload.downcast::<Stop>() {
            Ok(stop) => {
                let clause = u64::from(progress.clause());
                let (number, place) = match *stop {
                    Stop::Learnt => (7, clause),
                    Stop::Full => (8, clause),
                    Stop::Unreached(node) => (9, node as u64),
                };
                Err(Refusal { number, place })
            }
            Err(other) => resume_unwind(other),
        },
    }
}
