//! What if one more package were excluded.

use crate::{ffi, nodes, Answer, Node, Refusal, MOST_NODES};
use std::fmt;

/// Fills the list with one entry a node, as the graph would be if this solvable were excluded for this reason too: as if one more
/// Excluded clause stood at the end of the core. Nodes that were there keep their places; a reason that has no node yet gets one at
/// the end, whose `clause` is the number of clauses.
///
/// Refused as the file is by [`check`](crate::check); then with 4, place 0, if the file has no such solvable or reason, or no node
/// stands for that solvable; 8 if there is no room for one more node or edge, unresolved counted even where it has gone; 17 if the graph
/// has a cycle; then 10 if the list is too short. A refusal leaves the list as it was.
///
/// ```
/// use urzulempa::{nodes, what_if, Node, MOST_NODES};
///
/// // The rack: driver 11 is solvable 43, "it was recalled" reason 0, which has a node already.
/// let file = include_bytes!("../../../samples/rack.rec");
/// let (mut before, mut then) = ([Node::default(); MOST_NODES], [Node::default(); MOST_NODES]);
/// assert!(nodes(file, &mut before).is_done());
/// assert!(what_if(file, 43, 0, &mut then).is_done());
/// let driver = before.iter().position(|n| (n.kind, n.number) == (1, 43)).expect("a node");
/// assert_eq!((before[driver].installable, then[driver].installable), (1, 0));
///
/// // Numbers have 64 bits: none of the two is cut to those of the file.
/// assert_eq!(what_if(file, 65_536, 0, &mut then).number, 4);
/// assert_eq!(what_if(file, 43, 1 << 32, &mut then).number, 4);
/// ```
pub fn what_if(file: &[u8], solvable: u64, reason: u64, list: &mut [Node]) -> Answer {
    ffi::what_if(file, solvable, reason, list)
}

/// Writes the explanation as it would be then into the room; option 1 indents the top level, 0 does not, any other is refused before all
/// else. Refused as [`what_if`] is, and with 10 where the room is too small; 11 never comes.
///
/// ```
/// use urzulempa::{grown, what_if_explain, Refusal};
///
/// let file = include_bytes!("../../../samples/rack.rec");
/// let (answer, text) = grown(1 << 20, |room| what_if_explain(file, 43, 0, 0, room));
/// assert!(answer.is_done());
/// assert!(String::from_utf8_lossy(&text).contains("driver 11 is excluded because it was recalled\n"));
/// assert_eq!(what_if_explain(file, 43, 0, 2, &mut []).refusal(), Some(Refusal::Option));
/// ```
pub fn what_if_explain(file: &[u8], solvable: u64, reason: u64, option: u64, room: &mut [u8]) -> Answer {
    ffi::what_if_explain(file, solvable, reason, option, room)
}

/// What a node is labelled; none has both labels.
#[derive(Clone, Copy, Debug, PartialEq, Eq)]
pub enum Label {
    Installable,
    Missing,
    Neither,
}

impl From<&Node> for Label {
    fn from(node: &Node) -> Self {
        match (node.installable, node.missing) {
            (0, 0) => Self::Neither,
            (0, _) => Self::Missing,
            _ => Self::Installable,
        }
    }
}

impl fmt::Display for Label {
    fn fmt(&self, f: &mut fmt::Formatter<'_>) -> fmt::Result {
        f.write_str(match self {
            Self::Installable => "installable",
            Self::Missing => "missing",
            Self::Neither => "neither installable nor missing",
        })
    }
}

/// A node whose label would be another one.
#[derive(Clone, Copy, Debug, PartialEq, Eq)]
pub struct Change {
    /// Its entry in the list of nodes, as it is.
    pub node: Node,
    pub before: Label,
    pub then: Label,
}

/// The nodes that would get another label, in node order; or the refusal, by which 4 of the question is told apart from 4 of a record.
///
/// ```
/// use urzulempa::{what_changes, Label, Refusal};
///
/// // The panel needs driver 11.
/// let file = include_bytes!("../../../samples/rack.rec");
/// let changes = what_changes(file, 43, 0).expect("no cycle");
/// assert_eq!(changes.iter().map(|c| c.node.number).collect::<Vec<_>>(), [44, 43]);
/// assert!(changes.iter().all(|c| (c.before, c.then) == (Label::Installable, Label::Neither)));
///
/// // All forty-five solvables are below 45.
/// assert_eq!(what_changes(file, 45, 0), Err(Refusal::Asked));
/// ```
pub fn what_changes(file: &[u8], solvable: u64, reason: u64) -> Result<Vec<Change>, Refusal> {
    // No node has this kind: entries past the last node stay.
    let past = Node { kind: u16::MAX, ..Node::default() };
    let (mut before, mut then) = (vec![past; MOST_NODES], vec![past; MOST_NODES]);
    if let Some(refusal) = nodes(file, &mut before).refusal() {
        return Err(refusal);
    }
    match what_if(file, solvable, reason, &mut then).refusal() {
        None => {}
        Some(Refusal::Number(_)) => return Err(Refusal::Asked),
        Some(refusal) => return Err(refusal),
    }
    let pairs = before.iter().take_while(|node| **node != past).zip(&then);
    let changes = pairs.map(|(node, now)| Change { node: *node, before: node.into(), then: now.into() });
    Ok(changes.filter(|change| change.before != change.then).collect())
}
