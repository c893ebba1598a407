//! The text of the wall display and its reader, written from document 02, order 14: "Trivial Graph Format: a line per node with its
//! number, a space and a label, a line with #, then a line per edge with source, target and label."

use crate::{Answer, Refusal};

/// "1 to 128 nodes numbered from 0"
pub const NODES: usize = 128;
/// "up to 1,024 edges between them"
pub const EDGES: usize = 1_024;
/// "labels of 1 to 49 bytes"
pub const LABEL: usize = 49;

/// A graph as the wall shows it: the label of each node, by its number, and the edges.
#[derive(Clone, Debug, Default, PartialEq, Eq)]
pub struct Chart {
    pub nodes: Vec<String>,
    pub edges: Vec<Line>,
}

/// An edge from one node to another.
#[derive(Clone, Debug, PartialEq, Eq)]
pub struct Line {
    pub source: usize,
    pub target: usize,
    pub label: String,
}

impl Chart {
    /// The lines that the rules write, of whatever is in the lists: "every line ends in a newline".
    pub fn lines(&self) -> Vec<String> {
        let nodes = self.nodes.iter().enumerate();
        let nodes = nodes.map(|(number, label)| format!("{number} {label}\n"));
        let edges = self.edges.iter();
        let edges = edges.map(|edge| format!("{} {} {}\n", edge.source, edge.target, edge.label));
        nodes.chain(["#\n".to_string()]).chain(edges).collect()
    }

    pub fn text(&self) -> Vec<u8> {
        self.lines().concat().into_bytes()
    }

    /// Whether a reader has to take it: between 1 and 128 nodes, up to 1,024 edges between them, labels of 1 to 49 bytes from 32 to
    /// 126.
    pub fn is_good(&self) -> bool {
        let edges = &self.edges;
        let joined = |edge: &Line| edge.source.max(edge.target) < self.nodes.len();
        let mut labels = self.nodes.iter().chain(edges.iter().map(|e| &e.label));
        (1..=NODES).contains(&self.nodes.len())
            && edges.len() <= EDGES
            && edges.iter().all(joined)
            && labels.all(|label| is_label(label.as_bytes()))
    }

    /// The lines into a room: "10 for room, whole lines kept".
    pub fn put(&self, room: &mut [u8]) -> Answer {
        let (mut bytes, mut units) = (0, 0);
        for line in self.lines() {
            let Some(part) = room.get_mut(bytes..bytes + line.len()) else {
                return Answer {
                    number: 10,
                    place: units,
                    bytes: bytes as u64,
                    units,
                    depth: 0,
                };
            };
            part.copy_from_slice(line.as_bytes());
            bytes += line.len();
            units += 1;
        }
        Answer {
            bytes: bytes as u64,
            units,
            ..Answer::default()
        }
    }
}

fn is_label(bytes: &[u8]) -> bool {
    (1..=LABEL).contains(&bytes.len()) && bytes.iter().all(|byte| (32..=126).contains(byte))
}

/// Where labels lie in a text: what a reader fills into lent lists.
#[derive(Clone, Debug, Default, PartialEq, Eq)]
pub struct Found {
    /// Where each node's label begins, and how long it is.
    pub nodes: Vec<[u32; 2]>,
    /// Source, target, where the label begins, and how long it is.
    pub edges: Vec<[u32; 4]>,
}

/// What a text holds, or the number, from 1, of its first bad or missing line.
pub fn read(text: &[u8]) -> Result<Found, u64> {
    let mut found = Found::default();
    let mut lines = numbered(text);
    let label = |line: &Ended<'_>, rest: &[u8]| {
        let begin = line.begin + line.bytes.len() - rest.len();
        is_label(rest).then_some([begin as u32, rest.len() as u32])
    };
    // The nodes, each in its turn, up to the line with #.
    loop {
        let line = lines.next().expect("a text has an end");
        let whole = line.whole.then_some(line.bytes).ok_or(line.number)?;
        let own = format!("{} ", found.nodes.len());
        if whole == b"#" && !found.nodes.is_empty() {
            break;
        }
        if found.nodes.len() == NODES {
            return Err(line.number);
        }
        let rest = whole.strip_prefix(own.as_bytes()).ok_or(line.number)?;
        found.nodes.push(label(&line, rest).ok_or(line.number)?);
    }
    // The edges, up to the end, behind which nothing is unfinished.
    let numbers: Vec<String> = (0..found.nodes.len()).map(|n| n.to_string()).collect();
    let node = |word: &[u8]| numbers.iter().position(|number| number.as_bytes() == word);
    for line in lines {
        if !line.whole && line.bytes.is_empty() {
            break;
        }
        let whole = line.whole.then_some(line.bytes).ok_or(line.number)?;
        if found.edges.len() == EDGES {
            return Err(line.number);
        }
        let words: Vec<&[u8]> = whole.splitn(3, |byte| *byte == b' ').collect();
        let &[source, target, rest] = &words[..] else {
            return Err(line.number);
        };
        let (Some(source), Some(target)) = (node(source), node(target)) else {
            return Err(line.number);
        };
        let [begin, length] = label(&line, rest).ok_or(line.number)?;
        found
            .edges
            .push([source as u32, target as u32, begin, length]);
    }
    Ok(found)
}

/// A stretch of a text that ends in a newline, or at the text's end.
struct Ended<'t> {
    number: u64,
    begin: usize,
    bytes: &'t [u8],
    whole: bool,
}

/// The lines of a text, the newline left out; the last is what lies behind the last newline, most often nothing.
fn numbered(text: &[u8]) -> impl Iterator<Item = Ended<'_>> {
    let count = text.split(|byte| *byte == b'\n').count();
    let pieces = text.split(|byte| *byte == b'\n').enumerate();
    pieces.scan(0, move |begin, (at, bytes)| {
        let line = Ended {
            number: at as u64 + 1,
            begin: *begin,
            bytes,
            whole: at + 1 < count,
        };
        *begin += bytes.len() + 1;
        Some(line)
    })
}

impl Found {
    /// The graph of a text that was read.
    pub fn chart(&self, text: &[u8]) -> Chart {
        let label = |begin: u32, length: u32| {
            let bytes = &text[begin as usize..(begin + length) as usize];
            String::from_utf8_lossy(bytes).into_owned()
        };
        let edge = |&[source, target, begin, length]: &[u32; 4]| Line {
            source: source as usize,
            target: target as usize,
            label: label(begin, length),
        };
        Chart {
            nodes: self.nodes.iter().map(|&[b, n]| label(b, n)).collect(),
            edges: self.edges.iter().map(edge).collect(),
        }
    }
}

/// What reading a text answers: how many nodes and edges there are, both 0 on a refusal.
#[derive(Clone, Copy, Debug, Default, PartialEq, Eq)]
pub struct Counts {
    pub number: u64,
    pub place: u64,
    pub nodes: u64,
    pub edges: u64,
}

/// The reader into lent lists, two numbers a node and four an edge; what lies behind them stays. "the reader gives 3 with the line
/// number, from 1, of the first bad or missing line, and changes nothing"; a good text whose numbers don't fit is 10, place 0.
pub fn tgf_read(text: &[u8], nodes: &mut [u32], edges: &mut [u32]) -> Counts {
    let found = match read(text) {
        Ok(found) => found,
        Err(place) => {
            return Counts {
                number: 3,
                place,
                ..Counts::default()
            }
        }
    };
    let (two, four) = (found.nodes.concat(), found.edges.concat());
    let (Some(nodes), Some(edges)) = (nodes.get_mut(..two.len()), edges.get_mut(..four.len()))
    else {
        return Counts {
            number: 10,
            ..Counts::default()
        };
    };
    nodes.copy_from_slice(&two);
    edges.copy_from_slice(&four);
    Counts {
        nodes: found.nodes.len() as u64,
        edges: found.edges.len() as u64,
        ..Counts::default()
    }
}

/// The wall's text of a file, behind refusals 1 to 9, which change nothing.
pub fn tgf(file: &[u8], room: &mut [u8]) -> Answer {
    chart(file).map_or_else(Answer::from, |chart| chart.put(room))
}

/// Refusals 1 to 9, or the graph of a file with its labels.
pub fn chart(file: &[u8]) -> Result<Chart, Refusal> {
    crate::Problem::read(file)?.chart()
}
