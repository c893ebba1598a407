//! Clauses that draw a graph, found from its nodes and edges.
//!
//! An edge has its clause, or a stretch of edges from one source by one requirement theirs. What the edges don't show are the
//! ForbidMultipleInstances clauses that come first under their name: such a one draws no edge, and still adds its node where that is
//! new. So a node that stands earlier than the clause of its first edge would add it was added by one of these, and so was every
//! other new node before it. [`Drawing::make_room`] finds them.

use crate::{Edge, Error, Fault, Graph, Node};
use std::collections::HashMap;
use std::hash::Hash;

/// A clause of the core; packages and the root by the numbers of their nodes.
#[derive(Clone, Debug, PartialEq, Eq)]
pub enum Clause<S, V, R> {
    /// 17: who is excluded, and the reason's node.
    Excluded(usize, usize),
    /// 19: who requires what, and the nodes that this leads to.
    Requires(usize, R, Vec<usize>),
    /// 20: what is locked, and who is forbidden.
    Lock(S, usize),
    /// 21: who, and the number of the name under which: names are given to these numbers at the end.
    Forbid(usize, usize),
    /// 22: who constrains whom to what.
    Constrains(usize, usize, V),
}

/// The clauses of a graph whose nodes were added in this order.
pub fn drawing<S, V, R, T>(graph: &Graph<S, V, R, T>, order: &[usize]) -> Result<Vec<Clause<S, V, R>>, Error>
where
    S: Copy,
    V: Copy,
    R: Copy + Eq + Hash,
{
    let stretches = stretches(graph);
    let candidates = candidates(graph, &stretches)?;
    let mut drawing = Drawing::new(graph, order);
    for &(from, to) in &stretches {
        let (source, target, kind) = graph.edges[from];
        match kind {
            Edge::Requires(requirement) => {
                let all = &candidates[&requirement];
                let touched: Vec<usize> = [source].into_iter().chain(all.iter().copied()).collect();
                drawing.make_room(&touched)?;
                for _ in 0..(to - from) / all.len() {
                    drawing.clauses.push(Clause::Requires(source, requirement, all.clone()));
                }
            }
            Edge::Locked(locked) => {
                drawing.make_room(&[target])?;
                drawing.clauses.push(Clause::Lock(locked, target));
            }
            Edge::Constrains(set) => {
                drawing.make_room(&[source, target])?;
                drawing.clauses.push(Clause::Constrains(source, target, set));
            }
            Edge::Excluded => {
                drawing.make_room(&[source, target])?;
                drawing.clauses.push(Clause::Excluded(source, target));
            }
            Edge::ForbidMultipleInstances => {
                drawing.make_room(&[source, target])?;
                drawing.forbid(source, target);
            }
        }
    }
    match order.get(drawing.made) {
        Some(&node) => Err(Error::Graph(Fault::Unmade(node))),
        None => Ok(drawing.clauses),
    }
}

/// The edges as stretches, from one number to before another: edges that follow each other from one source by one requirement, and
/// every other edge by itself.
fn stretches<S, V, R: Copy + Eq, T>(graph: &Graph<S, V, R, T>) -> Vec<(usize, usize)> {
    let key = |at: usize| match graph.edges[at] {
        (source, _, Edge::Requires(requirement)) => Some((source, requirement)),
        _ => None,
    };
    let mut stretches: Vec<(usize, usize)> = Vec::new();
    for at in 0..graph.edges.len() {
        match stretches.last_mut() {
            Some((from, to)) if key(at).is_some() && key(*from) == key(at) => *to = at + 1,
            _ => stretches.push((at, at + 1)),
        }
    }
    stretches
}

/// The candidates of each requirement, as nodes. A stretch may come from several clauses, so the list is the shortest one that every
/// stretch of the requirement repeats; a longer one with the same property would give the same edges by fewer clauses.
fn candidates<S, V, R, T>(graph: &Graph<S, V, R, T>, stretches: &[(usize, usize)]) -> Result<HashMap<R, Vec<usize>>, Error>
where
    R: Copy + Eq + Hash,
{
    let targets = |&(from, to): &(usize, usize)| graph.edges[from..to].iter().map(|edge| edge.1).collect::<Vec<_>>();
    let mut all: HashMap<R, Vec<(usize, Vec<usize>)>> = HashMap::new();
    for stretch in stretches {
        if let Edge::Requires(requirement) = graph.edges[stretch.0].2 {
            all.entry(requirement).or_default().push((stretch.0, targets(stretch)));
        }
    }
    let mut candidates = HashMap::new();
    for (requirement, lists) in all {
        let repeats = |list: &[usize], part: &[usize]| list.len() % part.len() == 0 && list.chunks(part.len()).all(|chunk| chunk == part);
        let first = &lists[0].1;
        let parts = (1..=first.len()).map(|len| &first[..len]);
        let mut fitting = parts.into_iter().filter(|part| lists.iter().all(|(_, list)| repeats(list, part)));
        let offered = |&node: &usize| !matches!(graph.nodes[node], Node::Unresolved);
        match fitting.next() {
            // a requirement is offered, or leads to unresolved once
            Some(part) if part.len() == 1 || part.iter().all(offered) => candidates.insert(requirement, part.to_vec()),
            _ => return Err(Error::Graph(Fault::Candidates(lists[lists.len() - 1].0))),
        };
    }
    Ok(candidates)
}

struct Drawing<S, V, R> {
    clauses: Vec<Clause<S, V, R>>,
    /// The nodes in the order of adding, and each one's place there.
    order: Vec<usize>,
    place: Vec<usize>,
    /// So many of them are there.
    made: usize,
    solvable: Vec<bool>,
    /// The last node under each number of a name.
    last: Vec<usize>,
}

impl<S, V, R> Drawing<S, V, R> {
    fn new<T>(graph: &Graph<S, V, R, T>, order: &[usize]) -> Self {
        let mut place = vec![0; order.len()];
        for (at, &node) in order.iter().enumerate() {
            place[node] = at;
        }
        let there = |node: &&Node<S, T>| matches!(node, Node::Root | Node::Unresolved);
        Drawing {
            clauses: Vec::new(),
            order: order.to_vec(),
            place,
            made: graph.nodes.iter().take_while(there).count(),
            solvable: graph.nodes.iter().map(|node| matches!(node, Node::Solvable(_))).collect(),
            last: Vec::new(),
        }
    }

    /// Before a clause that comes to these nodes in turn and adds those which are not there yet. The last of them in the order of
    /// adding ends the nodes that are there after it; those that the clause adds by itself stand last, one after the other, as it
    /// comes to them. All others before them were added by a ForbidMultipleInstances without an edge, and get one. As few of these
    /// are made as can be, so that there are no more names than in the core that the graph comes from.
    fn make_room(&mut self, touched: &[usize]) -> Result<(), Error> {
        let mut new: Vec<usize> = Vec::new();
        for place in touched.iter().map(|&node| self.place[node]) {
            if place >= self.made && !new.contains(&place) {
                new.push(place);
            }
        }
        let Some(&last) = new.iter().max() else {
            return Ok(());
        };
        let adds_from = |from: &usize| new.iter().copied().filter(|place| place >= from).eq(*from..=last);
        // at `last` at the latest
        let from = (self.made..=last).find(adds_from).unwrap_or(last);
        for place in self.made..from {
            let node = self.order[place];
            if !self.solvable[node] {
                return Err(Error::Graph(Fault::Unmade(node)));
            }
            self.begin(node);
        }
        self.made = last + 1;
        Ok(())
    }

    /// The first clause under a new name: no edge.
    fn begin(&mut self, node: usize) -> usize {
        self.last.push(node);
        let name = self.last.len() - 1;
        self.clauses.push(Clause::Forbid(node, name));
        name
    }

    /// An edge from the last node under a name; where there is none, one begins.
    fn forbid(&mut self, source: usize, target: usize) {
        let name = self.last.iter().position(|&last| last == source);
        let name = name.unwrap_or_else(|| self.begin(source));
        self.last[name] = target;
        self.clauses.push(Clause::Forbid(target, name));
    }
}
