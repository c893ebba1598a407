//! The nodes and edges of a file's graph as lists of their own length.

use crate::{edge_numbers, nodes, Edge, Node, Refusal, MOST_EDGES, MOST_NODES};

/// The nodes of a file's graph, by their numbers; or the refusal.
///
/// ```
/// use urzulempa::{node_list, Refusal};
///
/// let file = include_bytes!("../../../samples/replay.rec");
/// assert_eq!(node_list(file).map(|nodes| nodes.len()), Ok(4));
/// // A graph has its root at least.
/// assert_eq!(node_list(&[]).map(|nodes| nodes.len()), Ok(1));
/// assert_eq!(node_list(&[0]), Err(Refusal::Length));
/// ```
pub fn node_list(file: &[u8]) -> Result<Vec<Node>, Refusal> {
    // No node has this kind: entries past the last node stay.
    let past = Node { kind: u16::MAX, ..Node::default() };
    let mut list = vec![past; MOST_NODES];
    match nodes(file, &mut list).refusal() {
        Some(refusal) => Err(refusal),
        None => {
            list.retain(|node| *node != past);
            Ok(list)
        }
    }
}

/// The edges of a file's graph, the oldest first, each with the clause that added it; or the refusal.
///
/// ```
/// let file = include_bytes!("../../../samples/replay.rec");
/// let edges = urzulempa::edge_list(file).expect("an accepted file");
/// assert_eq!(edges.iter().map(|edge| edge.clause).collect::<Vec<_>>(), [0, 0, 1, 2]);
/// ```
pub fn edge_list(file: &[u8]) -> Result<Vec<Edge>, Refusal> {
    let mut list = vec![0; 5 * MOST_EDGES];
    let answer = edge_numbers(file, &mut list);
    match answer.refusal() {
        Some(refusal) => Err(refusal),
        None => {
            // Ten bytes an edge, five numbers of two bytes each.
            let edges = usize::try_from(answer.bytes / 10).unwrap_or(0);
            Ok(list.chunks_exact(5).take(edges).map(|n| Edge::from([n[0], n[1], n[2], n[3], n[4]])).collect())
        }
    }
}

/// How many nodes and edges a graph has.
#[derive(Clone, Copy, Debug, PartialEq, Eq)]
pub struct Counts {
    /// At most [`MOST_NODES`], the root among them.
    pub nodes: usize,
    /// At most [`MOST_EDGES`].
    pub edges: usize,
}

/// How many nodes and edges a file's graph has, or the refusal.
///
/// ```
/// use urzulempa::{counts, Counts};
///
/// let file = include_bytes!("../../../samples/rack.rec");
/// assert_eq!(counts(file), Ok(Counts { nodes: 47, edges: 86 }));
/// ```
pub fn counts(file: &[u8]) -> Result<Counts, Refusal> {
    Ok(Counts { nodes: node_list(file)?.len(), edges: edge_list(file)?.len() })
}
