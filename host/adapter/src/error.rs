//! Why there is no file.

use crate::record::{Table, EDGES, NODES, RECORD, RECORDS, TEXT};
use std::fmt;

/// What no record file holds. Nothing is cut or left out instead.
#[derive(Clone, Debug, PartialEq, Eq)]
#[non_exhaustive]
pub enum Error {
    /// A text that is empty, has more than 24 bytes, or a byte that is none of 32 to 126; with the table that it belongs to.
    Text { table: Table, text: String },
    /// More rows than the table takes.
    Rows { table: Table, rows: usize },
    /// A number that no row of the table has.
    Number { table: Table, number: usize },
    /// So many records, of which each table takes its own.
    Records(usize),
    /// So many nodes, unresolved counted also where it is gone.
    Nodes(usize),
    /// So many edges.
    Edges(usize),
    /// A graph that no core draws.
    Graph(Fault),
}

/// What is wrong with a graph that `Conflict::graph` did not make, or that was changed afterwards; nodes and edges by their numbers.
#[derive(Clone, Copy, Debug, PartialEq, Eq)]
#[non_exhaustive]
pub enum Fault {
    /// Node 0 is not the root.
    NoRoot,
    /// The node stands where it can't: a second root, or unresolved with another number than 1.
    Misplaced(usize),
    /// The node stands for the same as an earlier one.
    Twice(usize),
    /// The edge names a node that is not there.
    NoNode(usize),
    /// The edge joins nodes that its kind does not join.
    Ends(usize),
    /// The edge belongs to a requirement whose candidates are not the same, and in the same order, wherever it stands.
    Candidates(usize),
    /// No clause adds the node there.
    Unmade(usize),
    /// No clause draws the edge there.
    Undrawn(usize),
    /// The root does not lead to the node; unresolved goes then, and `Conflict::graph` stops on any other.
    Unreached(usize),
}

impl fmt::Display for Error {
    fn fmt(&self, f: &mut fmt::Formatter<'_>) -> fmt::Result {
        match self {
            Self::Text { table, text } => {
                let what = table.text();
                match text.chars().find(|c| !(' '..='~').contains(c)) {
                    Some(c) => write!(f, "the {what} {text:?} has the character {c:?}: a record holds spaces and visible ASCII characters only"),
                    None if text.is_empty() => write!(f, "a {what} is empty: a record holds 1 to {TEXT} bytes"),
                    None => write!(f, "the {what} {text:?} has {} bytes: a record holds 1 to {TEXT}", text.len()),
                }
            }
            Self::Rows { table, rows } => write!(f, "{rows} {}: a file holds {}", table.plural(), table.most()),
            Self::Number { table, number } => {
                write!(f, "number {number} is none of the {}", table.plural())
            }
            Self::Records(records) => write!(f, "{records} records: a file holds {RECORDS} of {RECORD} bytes"),
            Self::Nodes(nodes) => write!(f, "{nodes} nodes, unresolved counted: a graph holds {NODES}"),
            Self::Edges(edges) => write!(f, "{edges} edges: a graph holds {EDGES}"),
            Self::Graph(fault) => write!(f, "{fault}: no core of a record file draws this graph"),
        }
    }
}

impl fmt::Display for Fault {
    fn fmt(&self, f: &mut fmt::Formatter<'_>) -> fmt::Result {
        match self {
            Self::NoRoot => write!(f, "node 0 is not the root"),
            Self::Misplaced(node) => write!(f, "node {node} is a second root, or unresolved in another place than 1"),
            Self::Twice(node) => write!(f, "node {node} stands for the same as an earlier one"),
            Self::NoNode(edge) => write!(f, "edge {edge} names a node that is not there"),
            Self::Ends(edge) => write!(f, "edge {edge} joins nodes that its kind does not join"),
            Self::Candidates(edge) => write!(f, "edge {edge} belongs to a requirement that has other candidates elsewhere"),
            Self::Unmade(node) => write!(f, "no clause adds node {node} where it stands"),
            Self::Undrawn(edge) => write!(f, "no clause draws edge {edge} where it stands"),
            Self::Unreached(node) => write!(f, "the root does not lead to node {node}"),
        }
    }
}

impl std::error::Error for Error {}
