//! The graph for the wall display, in Trivial Graph Format, and a reader of such texts.
//!
//! ```
//! // The text of a load, and the same graph read back from it.
//! let file = include_bytes!("../../../samples/replay.rec");
//! let (answer, text) = urzulempa::grown(1 << 16, |room| urzulempa::tgf(file, room));
//! assert!(answer.is_done());
//! let chart = urzulempa::wall::read(&text).expect("what was written can be read");
//! assert_eq!(chart.nodes, ["<root>", "unresolved", "replay 2", "replay 1"]);
//! let first = &chart.edges[0];
//! assert_eq!((first.source, first.target, first.label), (0, 2, "replay *"));
//! ```

use crate::{ffi, Answer, MOST_EDGES, MOST_NODES};
use std::fmt;

/// The most bytes of a label.
pub const MOST_LABEL: usize = 49;

/// Writes the graph into the room: a line per node with its number, a space and its label, a line with `#`, then a line per edge with
/// source, target and label, the oldest first. A unit is a line. Labels are the texts of the graph text; merge groups are not drawn
/// together.
///
/// ```
/// let file = include_bytes!("../../../samples/lone.rec");
/// let mut room = [7; 32];
/// let answer = urzulempa::tgf(file, &mut room);
/// assert_eq!((answer.number, answer.bytes, answer.units), (0, 25, 4));
/// assert_eq!(room[..25], *b"0 <root>\n1 x 1\n#\n0 1 x *\n");
///
/// // One byte less: the whole lines that fit, and 10.
/// let answer = urzulempa::tgf(file, &mut room[..24]);
/// assert_eq!((answer.number, answer.place, answer.bytes), (10, 3, 17));
/// ```
pub fn tgf(file: &[u8], room: &mut [u8]) -> Answer {
    ffi::tgf(file, room)
}

/// What reading a text says: done, or a numbered refusal with its place; and how many nodes and edges there are.
#[repr(C)]
#[derive(Clone, Copy, Debug, PartialEq, Eq)]
#[must_use = "it may be a refusal"]
pub struct TgfCounts {
    /// 0 when read, 3 for a text that is not as the line rules write it, 10 for a list that is too short.
    pub number: u64,
    /// The number, from 1, of the first bad or missing line for 3, else 0.
    pub place: u64,
    /// How many nodes the text has; 0 on a refusal.
    pub nodes: u64,
    /// How many edges it has; 0 on a refusal.
    pub edges: u64,
}

impl TgfCounts {
    /// The text is read.
    #[must_use]
    pub fn is_done(&self) -> bool {
        self.number == 0
    }
}

/// Reads a text of the wall display. The first list gets two numbers a node, where its label begins in the text and how long it is; the
/// second four an edge, source, target, and the same of its label. On a refusal both stay as they were; lists of 2 · 128 and 4 · 1,024
/// numbers are never short.
///
/// ```
/// let text = b"0 <root>\n1 x 1\n#\n0 1 x *\n";
/// let (mut nodes, mut edges) = ([7; 5], [7; 4]);
/// let counts = urzulempa::tgf_read(text, &mut nodes, &mut edges);
/// assert_eq!((counts.number, counts.place, counts.nodes, counts.edges), (0, 0, 2, 1));
/// assert_eq!(nodes, [2, 6, 11, 3, 7]);
/// assert_eq!(edges, [0, 1, 21, 3]);
///
/// // An unfinished last line is bad, a leading zero is too; nothing is changed.
/// let counts = urzulempa::tgf_read(&text[..24], &mut nodes, &mut edges);
/// assert_eq!((counts.number, counts.place), (3, 4));
/// let counts = urzulempa::tgf_read(b"0 <root>\n01 x 1\n#\n", &mut nodes, &mut edges);
/// assert_eq!((counts.number, counts.place), (3, 2));
/// assert_eq!(urzulempa::tgf_read(text, &mut nodes, &mut edges[..3]).number, 10);
/// assert_eq!((nodes, edges), ([2, 6, 11, 3, 7], [0, 1, 21, 3]));
/// ```
pub fn tgf_read(text: &[u8], nodes: &mut [u32], edges: &mut [u32]) -> TgfCounts {
    ffi::tgf_read(text, nodes, edges)
}

/// A graph as the wall shows it.
#[derive(Clone, Debug, PartialEq, Eq)]
pub struct Chart<'t> {
    /// The label of each node, by its number.
    pub nodes: Vec<&'t str>,
    /// The edges, as they stand in the text.
    pub edges: Vec<Line<'t>>,
}

/// An edge from one node to another.
#[derive(Clone, Copy, Debug, PartialEq, Eq)]
pub struct Line<'t> {
    pub source: usize,
    pub target: usize,
    pub label: &'t str,
}

/// The number, from 1, of the first line of a text that is bad or missing: refusal 3 of the reader.
#[derive(Clone, Copy, Debug, PartialEq, Eq)]
pub struct BadLine(pub u64);

impl fmt::Display for BadLine {
    fn fmt(&self, f: &mut fmt::Formatter<'_>) -> fmt::Result {
        write!(f, "line {} is bad or missing: this is no whole text of the wall display", self.0)
    }
}

impl std::error::Error for BadLine {}

/// The nodes and edges of a text with their labels, or its first bad line.
///
/// ```
/// use urzulempa::wall::{read, BadLine};
///
/// let chart = read(b"0 <root>\n1 x 1\n#\n0 1  x * \n").unwrap();
/// assert_eq!(chart.nodes, ["<root>", "x 1"]);
/// assert_eq!(chart.edges[0].label, " x * ");
///
/// // Node 2 does not exist; a text has a node at least, and a line with #.
/// assert_eq!(read(b"0 <root>\n1 x 1\n#\n0 2 x *\n"), Err(BadLine(4)));
/// assert_eq!(read(b"#\n"), Err(BadLine(1)));
/// assert_eq!(read(b"0 <root>\n"), Err(BadLine(2)));
/// ```
pub fn read(text: &[u8]) -> Result<Chart<'_>, BadLine> {
    let (mut nodes, mut edges) = (vec![0; 2 * MOST_NODES], vec![0; 4 * MOST_EDGES]);
    let counts = tgf_read(text, &mut nodes, &mut edges);
    if !counts.is_done() {
        return Err(BadLine(counts.place));
    }
    let taken = |n: u64| usize::try_from(n).unwrap_or(usize::MAX);
    // A label is plain ASCII.
    let label = |begin: u32, length: u32| {
        let begin = begin as usize;
        text.get(begin..begin + length as usize).and_then(|bytes| std::str::from_utf8(bytes).ok()).unwrap_or_default()
    };
    let line = |n: &[u32]| Line { source: n[0] as usize, target: n[1] as usize, label: label(n[2], n[3]) };
    Ok(Chart {
        nodes: nodes.chunks_exact(2).take(taken(counts.nodes)).map(|n| label(n[0], n[1])).collect(),
        edges: edges.chunks_exact(4).take(taken(counts.edges)).map(line).collect(),
    })
}
