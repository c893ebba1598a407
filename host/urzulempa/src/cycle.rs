//! The packages on a cycle, in order, found in the library's own list of edges.

use crate::lists;
use std::collections::VecDeque;
use urzulempa::{edge_list, node_list, Edge, EdgeKind, Node};

/// What a node is; a cycle through it, in a line that names the packages, beginning with the nearest to the root; then one line an edge.
pub fn lines(file: &[u8], node: u64) -> Vec<String> {
    let (Ok(nodes), Ok(edges), Ok(node)) = (node_list(file), edge_list(file), u16::try_from(node)) else { return Vec::new() };
    let round = through(&edges, nodes.len(), node);
    let Some(cycle) = named(file, &nodes, &round) else { return Vec::new() };
    let what = nodes.get(usize::from(node)).map(|n| lists::shown(file, n)).unwrap_or_default();
    let mut said = vec![format!("node {node} is {what}"), cycle];
    said.extend(lists::edge_lines(file, &nodes, &round, None).lines().map(str::to_owned));
    said
}

/// The cycle by which a package comes to be opened below itself, in a line that names the packages; then one line an edge.
pub fn opened(file: &[u8], solvable: u64) -> Vec<String> {
    let (Ok(nodes), Ok(edges)) = (node_list(file), edge_list(file)) else { return Vec::new() };
    let Some(node) = nodes.iter().position(|node| node.kind == 1 && u64::from(node.number) == solvable) else { return Vec::new() };
    let round = through(&opening(&nodes, &edges), nodes.len(), u16::try_from(node).unwrap_or_default());
    let Some(cycle) = named(file, &nodes, &round) else { return Vec::new() };
    [cycle].into_iter().chain(lists::edge_lines(file, &nodes, &round, None).lines().map(str::to_owned)).collect()
}

/// The packages of a cycle of requirements, the first one again at its end: one that an explanation would follow without end, if there
/// is one; none where there is no cycle.
pub fn circle(file: &[u8], nodes: &[Node], edges: &[Edge]) -> Option<String> {
    let required = edges.iter().filter(|edge| matches!(edge.kind, EdgeKind::Requires(_))).copied().collect();
    let first = |edges: &[Edge]| (0..nodes.len()).filter_map(|n| u16::try_from(n).ok()).map(|n| through(edges, nodes.len(), n)).find(|round| !round.is_empty());
    let round = [opening(nodes, edges), required].iter().find_map(|edges| first(edges))?;
    around(file, nodes, &round)
}

/// The requirements that an explanation follows again and again: those of packages in no merge group, which have no conflict of their own
/// that would be told in their place.
fn opening(nodes: &[Node], edges: &[Edge]) -> Vec<Edge> {
    let again = |n: u16| {
        let alone = nodes.get(usize::from(n)).is_some_and(|node| nodes.iter().filter(|other| other.group == node.group).count() == 1);
        n == 0 || alone && edges.iter().filter(|edge| edge.source == n).all(|edge| matches!(edge.kind, EdgeKind::Requires(_)))
    };
    edges.iter().filter(|edge| matches!(edge.kind, EdgeKind::Requires(_)) && again(edge.source) && again(edge.target)).copied().collect()
}

fn named(file: &[u8], nodes: &[Node], round: &[Edge]) -> Option<String> {
    around(file, nodes, round).map(|way| format!("cycle: {way}"))
}

fn around(file: &[u8], nodes: &[Node], round: &[Edge]) -> Option<String> {
    let name = |number: u16| nodes.get(usize::from(number)).map(|n| lists::shown(file, n)).unwrap_or_default();
    let first = round.first()?;
    Some(round.iter().fold(name(first.source), |way, edge| format!("{way} → {}", name(edge.target))))
}

/// The edges of a shortest cycle through a node, none where it is on no cycle. The first of them leaves the node of the cycle that
/// the fewest edges lead to from the root, which is node 0.
fn through(edges: &[Edge], nodes: usize, node: u16) -> Vec<Edge> {
    let ways = ways(edges, nodes, node);
    let back = edges.iter().filter(|edge| edge.target == node).filter_map(|edge| path(&ways, node, edge.source).map(|way| (way, *edge)));
    let Some((mut round, last)) = back.min_by_key(|(way, _)| way.len()) else { return Vec::new() };
    round.push(last);
    let far = self::ways(edges, nodes, 0);
    let first = (0..round.len()).min_by_key(|&at| path(&far, 0, round[at].source).map_or(usize::MAX, |way| way.len()));
    round.rotate_left(first.unwrap_or(0));
    round
}

/// For each node the edge by which a walk from a start, nearest nodes first, comes to it; none for the start and what is not reached.
fn ways(edges: &[Edge], nodes: usize, start: u16) -> Vec<Option<Edge>> {
    let mut by = vec![None; nodes];
    let mut next = VecDeque::from([start]);
    while let Some(here) = next.pop_front() {
        for edge in edges.iter().filter(|edge| edge.source == here && edge.target != start) {
            if let Some(way @ None) = by.get_mut(usize::from(edge.target)) {
                *way = Some(*edge);
                next.push_back(edge.target);
            }
        }
    }
    by
}

/// The edges from the start of a walk to a node; none where it is not reached.
fn path(by: &[Option<Edge>], start: u16, node: u16) -> Option<Vec<Edge>> {
    let mut way = Vec::new();
    let mut at = node;
    while at != start {
        let edge = (*by.get(usize::from(at))?)?;
        way.push(edge);
        at = edge.source;
    }
    way.reverse();
    Some(way)
}
