//! Why a load of packages has no solution: safe functions over the proved library.
//!
//! Every call takes any bytes and any room and gives an [`Answer`], [`salvage`] its [`Salvaged`], [`settings_read`] its [`Settings`],
//! [`tgf_read`] its [`TgfCounts`]; none of them panics or keeps anything, and none allocates but [`edges`], [`node_list`], [`edge_list`],
//! [`counts`], [`repaired`], [`what_changes`], [`appended`], [`written`] and [`wall::read`], which make what they fill. [`grown`] makes the
//! room for one. [`Tables`] and [`list`] make files: from a program, and from a text that a person writes; [`decode`] says what a record
//! of one means.
//!
//! ```
//! use urzulempa::{explain, Refusal};
//!
//! // A file without records has nothing to explain.
//! let mut room = [0; 64];
//! let answer = explain(&[], 0, &mut room);
//! assert!(answer.is_done());
//! assert_eq!(answer.bytes, 0);
//!
//! // 33 bytes are no file of 32-byte records, and the room stays as it was.
//! let answer = explain(&[7; 33], 0, &mut room);
//! assert_eq!(answer.refusal(), Some(Refusal::Length));
//! assert_eq!(room, [0; 64]);
//!
//! // A load that has no solution, with a room that grows until the text fits.
//! let file = include_bytes!("../../../samples/replay.rec");
//! let (answer, text) = urzulempa::grown(1 << 20, |room| urzulempa::explain_plain(file, room));
//! match answer.refusal() {
//!     None => print!("{}", String::from_utf8_lossy(&text)),
//!     Some(refusal) => eprintln!("refused {}: {refusal}", answer.number),
//! }
//! assert!(text.ends_with(b"codec 9, for which no candidates were found.\n"));
//! ```

mod asked;
pub mod decode;
mod edge;
mod edition;
mod ffi;
pub mod list;
mod listed;
mod options;
mod refusal;
mod report;
mod salvaged;
mod settings;
pub mod tables;
pub mod wall;
mod written;

pub use asked::{what_changes, what_if, what_if_explain, Change, Label};
pub use edge::{Edge, EdgeKind};
pub use edition::Edition;
pub use listed::{counts, edge_list, node_list, Counts};
pub use options::{explain_air_as, explain_as, graphviz_as, what_if_explain_as, Groups, Indent};
pub use refusal::Refusal;
pub use report::{join, join_numbers, season, season_numbers, Deepest, Report, REPORT_NUMBERS};
pub use salvaged::{repaired, salvage, Repaired, Salvaged, MOST_REPLACED};
pub use settings::{
    appended, choices, settings_read, settings_set, Choices, Setting, Settings, SettingsRefusal, MOST_SETTINGS, SETTINGS_RECORD, SETTINGS_VERSION,
};
pub use tables::Tables;
pub use wall::{tgf, tgf_read, TgfCounts};
pub use written::{write, written, MOST_BYTES};

/// What a call says: the text is whole, or a numbered refusal with its place; and what was written.
#[repr(C)]
#[derive(Clone, Copy, Debug, PartialEq, Eq)]
#[must_use = "it may be a refusal"]
pub struct Answer {
    /// 0 when done, else the refusal's number.
    pub number: u64,
    /// Where: a record, a clause, a node, units written or a solvable, by the refusal.
    pub place: u64,
    /// Bytes written.
    pub bytes: u64,
    /// Whole units written: lines, or in the graph text the opening, edges and the closing brace.
    pub units: u64,
    /// How many packages are opened on the deepest branch of what was written.
    pub depth: u64,
}

impl Answer {
    /// The text is whole.
    #[must_use]
    pub fn is_done(&self) -> bool {
        self.number == 0
    }

    /// The refusal, unless the answer is done.
    #[must_use]
    pub fn refusal(&self) -> Option<Refusal> {
        Refusal::of(self.number, self.place)
    }
}

/// One node of the conflict graph.
#[repr(C)]
#[derive(Clone, Copy, Debug, Default, PartialEq, Eq)]
pub struct Node {
    /// 0 root, 1 solvable, 2 unresolved, 3 excluded.
    pub kind: u16,
    /// The number of the solvable or of the reason, else 0.
    pub number: u16,
    /// The node number of its merge group's first member; its own if it is in none.
    pub group: u16,
    /// 1 if the node can be installed.
    pub installable: u8,
    /// 1 if the node is missing.
    pub missing: u8,
    /// The core clause that first added it, numbered among all clauses; [`NO_CLAUSE`] for the root and unresolved.
    pub clause: u16,
}

/// Stands in a [`Node`] that no clause added.
pub const NO_CLAUSE: u16 = u16::MAX;

/// The most nodes that a graph has.
pub const MOST_NODES: usize = 128;

/// The most nodes of a graph that [`explain_air`] takes.
pub const MOST_AIR_NODES: usize = 64;

/// The most edges that a graph has.
pub const MOST_EDGES: usize = 1_024;

/// Writes the explanation into the room; option 1 indents the top level, 0 does not, any other is refused.
///
/// A merge group of up to six packages shows all its versions, a larger one its first three, ` | ... | ` and its last, here and in the
/// other explanations.
///
/// ```
/// let file = include_bytes!("../../../samples/rack.rec");
/// let (_, text) = urzulempa::grown(1 << 20, |room| urzulempa::explain(file, 0, room));
/// let text = String::from_utf8_lossy(&text);
/// assert!(text.contains("codec 9.0-b01 | 9.0-b02 | 9.0-b03 | ... | 9.0-b20 would require\n"));
/// ```
pub fn explain(file: &[u8], option: u64, room: &mut [u8]) -> Answer {
    ffi::explain(file, option, room)
}

/// The option that a plain call means: the top level is indented.
pub const PLAIN_OPTION: u64 = 1;

/// Writes the explanation with [`PLAIN_OPTION`]; who needs the top level flat names option 0 in [`explain`].
///
/// ```
/// use urzulempa::{explain, explain_plain, PLAIN_OPTION};
///
/// let file = include_bytes!("../../../samples/replay.rec");
/// let (mut plain, mut named) = ([0; 256], [0; 256]);
/// let answer = explain_plain(file, &mut plain);
/// assert_eq!(answer, explain(file, PLAIN_OPTION, &mut named));
/// assert_eq!(plain, named);
/// assert!(plain.starts_with("└─ replay * ".as_bytes()));
/// assert_eq!((answer.bytes, explain(file, 0, &mut named).bytes), (168, 155));
/// ```
pub fn explain_plain(file: &[u8], room: &mut [u8]) -> Answer {
    ffi::explain_plain(file, room)
}

/// Writes the explanation by the rules of an edition, 1 or 2, as [`Edition`] numbers them; any other is refused, as a bad option is,
/// before all else.
///
/// ```
/// use urzulempa::{explain_edition, Refusal};
///
/// // Deck needs panel and panel needs deck: without end in edition 1, five lines in edition 2.
/// let file = include_bytes!("../../../samples/deck-panel.rec");
/// let mut room = [0; 1024];
/// assert_eq!(explain_edition(file, 1, 0, &mut room).refusal(), Some(Refusal::Endless(0)));
/// let answer = explain_edition(file, 2, 0, &mut room);
/// assert_eq!((answer.number, answer.units, answer.depth), (0, 5, 2));
/// assert_eq!(explain_edition(file, 3, 0, &mut room).refusal(), Some(Refusal::Option));
/// ```
pub fn explain_edition(file: &[u8], edition: u64, option: u64, room: &mut [u8]) -> Answer {
    ffi::explain_edition(file, edition, option, room)
}

/// Writes the explanation of a load that fits the air profile: no Lock in the core, at most [`MOST_AIR_NODES`] nodes, no cycle in the
/// graph. It is then that of [`explain`], and ends; any other load is refused, with the room as it was.
///
/// ```
/// use urzulempa::{explain, explain_air, Refusal};
///
/// let file = include_bytes!("../../../samples/replay.rec");
/// let (mut room, mut plain) = ([0; 1024], [0; 1024]);
/// assert_eq!(explain_air(file, 0, &mut room), explain(file, 0, &mut plain));
/// assert_eq!(room, plain);
///
/// // The rack has a lock, its clause 29. Deck and panel need each other: the lower of their nodes is 1.
/// let rack = include_bytes!("../../../samples/rack.rec");
/// assert_eq!(explain_air(rack, 0, &mut room).refusal(), Some(Refusal::Locked(29)));
/// let ring = include_bytes!("../../../samples/deck-panel.rec");
/// assert_eq!(explain_air(ring, 0, &mut room).refusal(), Some(Refusal::Cycle(1)));
/// assert_eq!(room, plain);
/// ```
pub fn explain_air(file: &[u8], option: u64, room: &mut [u8]) -> Answer {
    ffi::explain_air(file, option, room)
}

/// Writes the graph in the DOT language; option 1 draws each merge group once.
///
/// Each double quote of a name, version, requirement, version set or reason has a backslash before it; a backslash stands as it is.
///
/// ```
/// // A version `4" monitor`.
/// let file = include_bytes!("../../../samples/monitor.rec");
/// let (answer, text) = urzulempa::grown(1 << 20, |room| urzulempa::graphviz(file, 0, room));
/// assert!(answer.is_done());
/// assert!(String::from_utf8_lossy(&text).contains(r#""panel 4\" monitor""#));
/// ```
pub fn graphviz(file: &[u8], option: u64, room: &mut [u8]) -> Answer {
    ffi::graphviz(file, option, room)
}

/// Refusals 1 to 9, and no text.
pub fn check(file: &[u8]) -> Answer {
    ffi::check(file)
}

/// Fills the list with one entry a node; a list shorter than the nodes is left as it was, with refusal 10.
///
/// ```
/// let mut list = [urzulempa::Node::default(); urzulempa::MOST_NODES];
/// let answer = urzulempa::nodes(&[], &mut list);
/// assert!(answer.is_done());
/// assert_eq!(list[0].kind, 0);
/// ```
pub fn nodes(file: &[u8], list: &mut [Node]) -> Answer {
    ffi::nodes(file, list)
}

/// The edges of the graph, oldest first, each with the clause that added it; none where the file is refused.
///
/// ```
/// use urzulempa::{edges, EdgeKind};
///
/// // The root requires both versions of replay, each of them requires a codec that nobody has: clauses 0, 1 and 2.
/// let (answer, list) = edges(include_bytes!("../../../samples/replay.rec"));
/// assert!(answer.is_done());
/// assert_eq!(list.iter().map(|edge| edge.clause).collect::<Vec<_>>(), [0, 0, 1, 2]);
/// assert_eq!((list[3].source, list[3].target, list[3].kind), (3, 1, EdgeKind::Requires(1)));
/// ```
pub fn edges(file: &[u8]) -> (Answer, Vec<Edge>) {
    let mut list = vec![0; 5 * MOST_EDGES];
    let answer = edge_numbers(file, &mut list);
    // Ten bytes an edge, five numbers of two bytes each; none where it is refused.
    let written = usize::try_from(answer.bytes / 2).unwrap_or(0);
    let edges = list.chunks_exact(5).take(written / 5);
    (answer, edges.map(|n| Edge::from([n[0], n[1], n[2], n[3], n[4]])).collect())
}

/// Fills the list with five numbers an edge, as [`Edge`] takes them; a list shorter than that is left as it was, with refusal 10.
///
/// ```
/// let file = include_bytes!("../../../samples/lone.rec");
/// let mut list = [7; 6];
/// let answer = urzulempa::edge_numbers(file, &mut list);
/// assert_eq!((answer.number, answer.bytes), (0, 10));
/// assert_eq!(list, [0, 1, 0, 0, 0, 7]);
/// assert_eq!(urzulempa::edge_numbers(file, &mut list[..4]).number, 10);
/// ```
pub fn edge_numbers(file: &[u8], list: &mut [u16]) -> Answer {
    ffi::edges(file, list)
}

/// A call that writes into a room, such as [`explain`] with its file and option filled in, with a room that grows until the
/// text fits or has `most` bytes. Memory that can't be had is room that is not there: the answer is that of the last room, 10.
///
/// ```
/// let (answer, text) = urzulempa::grown(1 << 20, |room| urzulempa::explain(&[], 0, room));
/// assert!(answer.is_done());
/// assert!(text.is_empty());
///
/// // No more is taken than the text needs.
/// let file = include_bytes!("../../../samples/replay.rec");
/// let (answer, text) = urzulempa::grown(usize::MAX, |room| urzulempa::explain(file, 0, room));
/// assert_eq!((answer.number, text.len()), (0, 155));
/// ```
pub fn grown(most: usize, call: impl Fn(&mut [u8]) -> Answer) -> (Answer, Vec<u8>) {
    let mut room: Vec<u8> = Vec::new();
    let mut size = most.min(4096);
    loop {
        let given = room.try_reserve_exact(size - room.len()).is_ok();
        if given {
            room.resize(size, 0);
        }
        let answer = call(&mut room);
        if !given || answer.number != 10 || size == most {
            room.truncate(usize::try_from(answer.bytes).unwrap_or(size));
            return (answer, room);
        }
        size = most.min(size.saturating_mul(4));
    }
}
