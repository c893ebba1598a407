//! What stands in the graph of a file that is refused with 8 or 9, for which the library lists no nodes.
//!
//! It is asked about a longer file instead: behind the file's own records come clauses by which the root constrains its packages, so that
//! each is reached. What the file's own clauses made is told apart by their numbers. Where the longer file would not fit, less is said.

use crate::lists;
use std::collections::{BTreeMap, BTreeSet};
use urzulempa::{decode, edge_list, node_list, Edge, Node, NO_CLAUSE};

const VERSION_SET: u8 = 3;
const CANDIDATE: u8 = 5;
const VARIABLE: u8 = 7;
const REQUIRES: u8 = 19;
const CONSTRAINS: u8 = 22;
const ANY_OF: u8 = 25;

/// How many of the largest are told.
const MOST_TOLD: usize = 3;

/// A node that is not reached, those beside it, and what led to it being there.
pub fn lines(file: &[u8], node: u64) -> Vec<String> {
    let found = graph(file).and_then(|graph| {
        // The library names the lowest; where that is another one here, this is not its graph.
        let lost = graph.unreached();
        let node = usize::try_from(node).ok().filter(|node| lost.first() == Some(node))?;
        Some((lost, node, graph))
    });
    let Some((lost, node, graph)) = found else {
        let newest = "node 0 is the root, node 1 unresolved, or the newest node where nothing is missing";
        return vec![format!("{newest}; the others stand as the core's clauses first name them, from 2 on")];
    };
    let name = |n: usize| lists::shown(file, &graph.nodes[n]);
    let clause = Some(graph.nodes[node].clause).filter(|clause| *clause != NO_CLAUSE);
    let whence = clause.and_then(|c| Some(format!(", named first by clause {c}, {}", decode::clause(file, c.into())?))).unwrap_or_default();
    let packages: Vec<String> = lost.iter().filter(|n| graph.nodes[**n].kind == 1).map(|n| name(*n)).collect();
    vec![
        format!("node {node} is {}{whence}", name(node)),
        format!("nothing leads from the root to {}", packages.join(", ")),
        "put the clause into the core by which one of them is required, constrained or locked out; or leave out those that name them".into(),
    ]
}

/// What the graph holds before the clause for which it has no room.
pub fn filled(file: &[u8], clause: u64) -> Vec<String> {
    // An AnyOf makes nothing by itself, and those before it go by it.
    let mut before = file.to_vec();
    let clauses = before.chunks_exact_mut(32).filter(|record| decode::is_clause(record[0]));
    clauses.skip(usize::try_from(clause).unwrap_or(usize::MAX)).filter(|record| record[0] != ANY_OF).for_each(|record| record[1] = 0);
    let Some(graph) = graph(&before) else {
        let core = before.chunks_exact(32).filter(|record| decode::is_clause(record[0]) && record[1] == 1).count();
        return vec![format!("{core} clauses of the core stand before it")];
    };
    // Unresolved counts even where nothing leads there.
    let nodes = graph.nodes.len() + usize::from(!graph.nodes.iter().any(|node| node.kind == 2));
    let mut said = vec![format!("before it the graph has {nodes} nodes, unresolved counted, and {} edges", graph.edges.len())];
    let packages = graph.nodes.iter().filter(|node| node.kind == 1).filter_map(|node| decode::package(file, node.number));
    let most: Vec<String> = largest(packages).into_iter().map(|(name, n)| format!("{name} ({n})")).collect();
    if !most.is_empty() {
        said.push(format!("most of its nodes are versions of {}", most.join(", ")));
    }
    for (clause, n) in largest(graph.edges.iter().map(|edge| edge.clause)) {
        let record = decode::clause(file, clause.into()).unwrap_or_default();
        said.push(format!("clause {clause} made {n} of its edges: {record}"));
    }
    said
}

/// Those that come most often, with how often, the most first.
fn largest<T: Ord + Clone>(all: impl Iterator<Item = T>) -> Vec<(T, usize)> {
    let mut times = BTreeMap::new();
    all.for_each(|one| *times.entry(one).or_insert(0) += 1);
    let mut times: Vec<(T, usize)> = times.into_iter().collect();
    times.sort_by_key(|(_, n)| std::cmp::Reverse(*n));
    times.truncate(MOST_TOLD);
    times
}

struct Graph {
    nodes: Vec<Node>,
    edges: Vec<Edge>,
}

impl Graph {
    /// The nodes to which no way leads from the root.
    fn unreached(&self) -> Vec<usize> {
        let mut reached = vec![false; self.nodes.len()];
        let mut next = vec![0];
        while let Some(here) = next.pop() {
            if !std::mem::replace(&mut reached[here], true) {
                next.extend(self.edges.iter().filter(|edge| usize::from(edge.source) == here).map(|edge| usize::from(edge.target)));
            }
        }
        (0..self.nodes.len()).filter(|n| !reached[*n]).collect()
    }
}

/// The graph of a file that 1 to 7 accept, reached or not.
fn graph(file: &[u8]) -> Option<Graph> {
    let clauses = decode::clauses_before(file, u64::MAX);
    let all = [BTreeSet::new(), named(file, false), named(file, true)];
    all.iter().find_map(|solvables| {
        let longer = leading_to(file, solvables);
        own(node_list(&longer).ok()?, &edge_list(&longer).ok()?, clauses)
    })
}

fn field(record: &[u8], at: usize) -> u16 {
    u16::from_le_bytes([record[2 + 2 * at], record[3 + 2 * at]])
}

fn of_kind(file: &[u8], kind: u8) -> impl Iterator<Item = &[u8]> {
    file.chunks_exact(32).filter(move |record| record[0] == kind)
}

/// The solvables that clauses name, or those of the core alone, by their variables and by the candidates of requirements.
fn named(file: &[u8], core: bool) -> BTreeSet<u16> {
    let variables: Vec<&[u8]> = of_kind(file, VARIABLE).collect();
    let mut found = BTreeSet::new();
    for clause in file.chunks_exact(32).filter(|r| decode::is_clause(r[0]) && (!core || r[1] == 1)) {
        let both = matches!(clause[0], 20 | CONSTRAINS | ANY_OF);
        let held = variables.get(usize::from(field(clause, 0))).into_iter().chain(variables.get(usize::from(field(clause, 1))).filter(|_| both));
        found.extend(held.filter(|variable| field(variable, 1) == 1).map(|variable| field(variable, 2)));
        if clause[0] == REQUIRES {
            found.extend(of_kind(file, CANDIDATE).filter(|c| field(c, 0) == field(clause, 1)).map(|c| field(c, 1)));
        }
    }
    found
}

/// The file with clauses behind it by which the root leads to these solvables.
fn leading_to(file: &[u8], solvables: &BTreeSet<u16>) -> Vec<u8> {
    let mut longer = file.to_vec();
    if solvables.is_empty() {
        return longer;
    }
    let mut record = |kind: u8, first: u8, fields: [u16; 3], text: u8| {
        longer.extend([kind, first]);
        fields.iter().for_each(|field| longer.extend(field.to_le_bytes()));
        longer.push(text);
        longer.extend([0; 23]);
    };
    if of_kind(file, VERSION_SET).next().is_none() {
        record(VERSION_SET, 1, [0; 3], b'*');
    }
    let mut variables = of_kind(file, VARIABLE).count();
    let mut variable = |record: &mut dyn FnMut(u8, u8, [u16; 3], u8), origin: u16, names: u16| {
        let there = of_kind(file, VARIABLE).position(|v| field(v, 1) == origin && field(v, 2) == names);
        let own = there.unwrap_or(variables);
        if there.is_none() {
            record(VARIABLE, 0, [own as u16, origin, names], 0);
            variables += 1;
        }
        own as u16
    };
    let root = variable(&mut record, 0, 0);
    for &solvable in solvables {
        let forbidden = variable(&mut record, 1, solvable);
        record(CONSTRAINS, 1, [root, forbidden, 0], 0);
    }
    longer
}

/// What the first so many clauses made of a graph, numbered as it would be without the others.
fn own(nodes: Vec<Node>, edges: &[Edge], clauses: usize) -> Option<Graph> {
    // Where unresolved goes, the newest node takes its number.
    let gone = nodes.get(1).map_or(true, |node| node.kind != 2);
    let mut order: Vec<usize> = (0..nodes.len()).collect();
    if gone && order.len() > 1 {
        let newest = order.remove(1);
        order.push(newest);
    }
    let ours = |clause: u16| usize::from(clause) < clauses;
    order.retain(|n| nodes[*n].clause == NO_CLAUSE || ours(nodes[*n].clause));
    if gone && order.len() > 1 {
        let newest = order.pop()?;
        order.insert(1, newest);
    }
    let number = |old: u16| order.iter().position(|n| *n == usize::from(old)).and_then(|n| u16::try_from(n).ok());
    let edges = edges.iter().filter(|edge| ours(edge.clause));
    let edges: Option<Vec<Edge>> = edges.map(|edge| Some(Edge { source: number(edge.source)?, target: number(edge.target)?, ..*edge })).collect();
    Some(Graph { edges: edges?, nodes: order.into_iter().map(|n| nodes[n]).collect() })
}
