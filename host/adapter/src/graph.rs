//! The conflict graph as resolvo gives it: nodes and edges in the order of their numbers.

use crate::clauses::{self, Clause};
use crate::record::{EDGES, NODES};
use crate::{redraw, tables, Error, Fault, Interner};
use std::collections::HashSet;
use std::hash::Hash;

/// `ConflictNode`: what a node stands for.
#[derive(Clone, Copy, Debug, PartialEq, Eq, Hash)]
pub enum Node<S, T> {
    Root,
    Solvable(S),
    /// `UnresolvedDependency`.
    Unresolved,
    /// Excluded, by its reason.
    Excluded(T),
}

/// `ConflictEdge` with its `ConflictCause`: what an edge stands for.
#[derive(Clone, Copy, Debug, PartialEq, Eq, Hash)]
pub enum Edge<S, V, R> {
    Requires(R),
    /// By the locked solvable.
    Locked(S),
    Constrains(V),
    ForbidMultipleInstances,
    Excluded,
}

/// `ConflictGraph::graph`. Nodes and edges stand in the order of their numbers in petgraph; an edge has its source and its target
/// before it.
#[derive(Clone, Debug, PartialEq, Eq)]
pub struct Graph<S, V, R, T> {
    pub nodes: Vec<Node<S, T>>,
    pub edges: Vec<(usize, usize, Edge<S, V, R>)>,
}

impl<S, V, R, T> Graph<S, V, R, T>
where
    S: Copy + Eq + Hash,
    V: Copy + Eq + Hash,
    R: Copy + Eq + Hash,
    T: Copy + Eq + Hash,
{
    /// The record file whose clauses draw this graph. They are drawn again before it is written, so that there is this graph's file
    /// or none.
    pub fn file<I>(&self, interner: &I) -> Result<Vec<u8>, Error>
    where
        I: Interner<SolvableId = S, VersionSetId = V, Requirement = R, StringId = T>,
    {
        let clauses = self.clauses()?;
        redraw::same(self, &clauses)?;
        tables::file(self, &clauses, interner)
    }

    fn clauses(&self) -> Result<Vec<Clause<S, V, R>>, Error> {
        self.fits()?;
        let order = self.order()?;
        self.ends()?;
        clauses::drawing(self, &order)
    }

    /// "128 nodes and 1,024 edges while building": unresolved is there then, and goes at the end where nothing leads to it.
    fn fits(&self) -> Result<(), Error> {
        let gone = !self.nodes.contains(&Node::Unresolved);
        let nodes = self.nodes.len() + usize::from(gone);
        if nodes > NODES {
            return Err(Error::Nodes(nodes));
        }
        if self.edges.len() > EDGES {
            return Err(Error::Edges(self.edges.len()));
        }
        Ok(())
    }

    /// The nodes' numbers in the order of adding: as they are, but where unresolved has gone, whose number the last one took.
    fn order(&self) -> Result<Vec<usize>, Error> {
        if self.nodes.first() != Some(&Node::Root) {
            return Err(Error::Graph(Fault::NoRoot));
        }
        let mut seen = HashSet::new();
        for (at, node) in self.nodes.iter().enumerate() {
            let misplaced = match node {
                Node::Root => at != 0,
                Node::Unresolved => at != 1,
                _ => false,
            };
            if misplaced {
                return Err(Error::Graph(Fault::Misplaced(at)));
            }
            if !seen.insert(node) {
                return Err(Error::Graph(Fault::Twice(at)));
            }
        }
        let mut order: Vec<usize> = (0..self.nodes.len()).collect();
        if order.len() > 1 && self.nodes[1] != Node::Unresolved {
            order[1..].rotate_left(1);
        }
        Ok(order)
    }

    /// Each edge joins what its kind joins.
    fn ends(&self) -> Result<(), Error> {
        for (at, (source, target, kind)) in self.edges.iter().enumerate() {
            let (Some(source), Some(target)) = (self.nodes.get(*source), self.nodes.get(*target)) else {
                return Err(Error::Graph(Fault::NoNode(at)));
            };
            use Node::{Excluded, Root, Solvable, Unresolved};
            let joins = match kind {
                Edge::Requires(_) => matches!((source, target), (Root | Solvable(_), Solvable(_) | Unresolved)),
                Edge::Locked(_) => matches!((source, target), (Root, Solvable(_))),
                Edge::Constrains(_) => {
                    matches!((source, target), (Root | Solvable(_), Solvable(_)))
                }
                Edge::ForbidMultipleInstances => {
                    matches!((source, target), (Solvable(_), Solvable(_)))
                }
                Edge::Excluded => matches!((source, target), (Solvable(_), Excluded(_))),
            };
            if !joins {
                return Err(Error::Graph(Fault::Ends(at)));
            }
        }
        Ok(())
    }
}
