//! The clauses drawn again by the rules of `Conflict::graph`, as far as the five kinds that are written need them: a file is only
//! made where that gives the graph.

use crate::clauses::Clause;
use crate::{Edge, Error, Fault, Graph, Node};
use std::collections::HashMap;

/// Nodes as numbers of the given graph, in the order of adding; edges with their weights.
struct Redrawn<S, V, R> {
    nodes: Vec<usize>,
    edges: Vec<(usize, usize, Edge<S, V, R>)>,
    last: HashMap<usize, usize>,
}

/// That these clauses draw the graph, with its nodes and edges under the same numbers.
pub fn same<S, V, R, T>(graph: &Graph<S, V, R, T>, clauses: &[Clause<S, V, R>]) -> Result<(), Error>
where
    S: Copy + Eq,
    V: Copy + Eq,
    R: Copy + Eq,
    T: Copy + Eq,
{
    let unresolved = graph.nodes.get(1) == Some(&Node::Unresolved);
    let mut redrawn = Redrawn { nodes: (0..=usize::from(unresolved)).collect(), edges: Vec::new(), last: HashMap::new() };
    for clause in clauses {
        redrawn.draw(clause);
    }
    let mut nodes = redrawn.nodes;
    if !unresolved && nodes.len() > 1 {
        // petgraph's `remove_node` puts the last node where the removed one was
        nodes[1..].rotate_right(1);
    }
    if let Some(at) = (0..graph.nodes.len()).find(|at| nodes.get(*at) != Some(at)) {
        return Err(Error::Graph(Fault::Unmade(at)));
    }
    let longer = redrawn.edges.len().max(graph.edges.len());
    if let Some(at) = (0..longer).find(|&at| redrawn.edges.get(at) != graph.edges.get(at)) {
        return Err(Error::Graph(Fault::Undrawn(at)));
    }
    // unresolved goes where no edge leads to it, and `Conflict::graph` asserts that the root leads to every other node
    let reached = reached(graph);
    match (0..graph.nodes.len()).find(|node| !reached.contains(node)) {
        Some(node) => Err(Error::Graph(Fault::Unreached(node))),
        None => Ok(()),
    }
}

/// The nodes that the root leads to.
fn reached<S, V, R, T>(graph: &Graph<S, V, R, T>) -> Vec<usize> {
    let mut reached = vec![0];
    let mut at = 0;
    while let Some(&node) = reached.get(at) {
        for &(source, target, _) in &graph.edges {
            if source == node && !reached.contains(&target) {
                reached.push(target);
            }
        }
        at += 1;
    }
    reached
}

impl<S: Copy, V: Copy, R: Copy> Redrawn<S, V, R> {
    fn draw(&mut self, clause: &Clause<S, V, R>) {
        match *clause {
            Clause::Excluded(package, reason) => self.join(package, reason, Edge::Excluded),
            Clause::Requires(package, requirement, ref candidates) => {
                for &candidate in candidates {
                    self.join(package, candidate, Edge::Requires(requirement));
                }
            }
            Clause::Lock(locked, forbidden) => self.join(0, forbidden, Edge::Locked(locked)),
            Clause::Forbid(package, name) => match self.last.insert(name, package) {
                Some(previous) => self.join(previous, package, Edge::ForbidMultipleInstances),
                None => self.add(package),
            },
            Clause::Constrains(package, other, set) => self.join(package, other, Edge::Constrains(set)),
        }
    }

    fn add(&mut self, node: usize) {
        if !self.nodes.contains(&node) {
            self.nodes.push(node);
        }
    }

    fn join(&mut self, source: usize, target: usize, weight: Edge<S, V, R>) {
        self.add(source);
        self.add(target);
        self.edges.push((source, target, weight));
    }
}

#[cfg(test)]
mod tests {
    use super::*;

    type Small = Graph<u8, u8, u8, u8>;

    /// The root requires 7, and by another requirement 8, which came last.
    fn graph() -> Small {
        Graph { nodes: vec![Node::Root, Node::Solvable(8), Node::Solvable(7)], edges: vec![(0, 2, Edge::Requires(1)), (0, 1, Edge::Requires(2))] }
    }

    #[test]
    fn clauses_that_draw_another_graph_are_told() {
        let (one, two) = (Clause::Requires(0, 1, vec![2]), Clause::Requires(0, 2, vec![1]));
        let said = |clauses: &[Clause<u8, u8, u8>]| same(&graph(), clauses);
        let fault = |fault| Err(Error::Graph(fault));
        assert_eq!(said(&[one.clone(), two.clone()]), Ok(()));
        assert_eq!(said(&[two.clone(), one.clone()]), fault(Fault::Unmade(1)));
        assert_eq!(said(std::slice::from_ref(&one)), fault(Fault::Unmade(1)));
        let early = Clause::Forbid(1, 0);
        assert_eq!(said(&[early, one.clone(), two.clone()]), fault(Fault::Unmade(1)));
        let forbids = [Clause::Forbid(2, 0), Clause::Forbid(1, 0)];
        let all = [&[one.clone(), two.clone()], &forbids[..]].concat();
        assert_eq!(said(&all), fault(Fault::Undrawn(2)));
        let other = Clause::Requires(0, 3, vec![1]);
        assert_eq!(said(&[one, other]), fault(Fault::Undrawn(1)));
    }
}
