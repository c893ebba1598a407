//! A record file for urzulempa from the conflict graph that resolvo makes public.
//!
//! `Conflict::graph` gives nodes and edges; the clauses that they come from are private. [`Graph`] takes the nodes and edges in the
//! graph's own order, and [`Graph::file`] finds clauses that draw this very graph: the same nodes under the same numbers, the same
//! edges in the same order. Texts come by way of [`Interner`], whose methods are those of resolvo's trait of this name. The file in
//! `resolvo/graph.rs` is the way from resolvo's types to these; copy it into the crate that has resolvo.
//!
//! Nothing is cut or left out: what no record file holds is an [`Error`] that names it.
//!
//! ```
//! use urzulempa_adapter::{Edge, Graph, Interner, Node};
//!
//! /// Versions of one package by number; requirements are their texts.
//! struct Replay;
//!
//! impl Interner for Replay {
//!     type NameId = ();
//!     type SolvableId = u32;
//!     type VersionSetId = ();
//!     type Requirement = &'static str;
//!     type StringId = ();
//!
//!     fn display_name(&self, _: ()) -> impl std::fmt::Display + '_ { "replay" }
//!     fn display_version(&self, solvable: u32) -> impl std::fmt::Display + '_ { solvable }
//!     fn display_version_set(&self, _: ()) -> impl std::fmt::Display + '_ { "*" }
//!     fn display_requirement(&self, requirement: &'static str) -> impl std::fmt::Display + '_ { requirement }
//!     fn display_string(&self, _: ()) -> impl std::fmt::Display + '_ { "it was recalled" }
//!     fn version_set_name(&self, _: ()) {}
//!     fn solvable_name(&self, _: u32) {}
//! }
//!
//! // The root requires "replay *", which two versions offer; both require "codec 9", which nobody does.
//! let mut load = Graph {
//!     nodes: vec![Node::Root, Node::Unresolved, Node::Solvable(2), Node::Solvable(1)],
//!     edges: vec![
//!         (0, 2, Edge::Requires("replay *")),
//!         (0, 3, Edge::Requires("replay *")),
//!         (2, 1, Edge::Requires("codec 9")),
//!         (3, 1, Edge::Requires("codec 9")),
//!     ],
//! };
//! let file = load.file(&Replay).unwrap();
//! assert_eq!(file.len(), 13 * 32);
//!
//! // A text is never cut.
//! load.edges[3].2 = Edge::Requires("codec >=9.0.0,<10.0.0a0,!=9.1");
//! let error = load.file(&Replay).unwrap_err();
//! assert_eq!(error.to_string(), r#"the requirement "codec >=9.0.0,<10.0.0a0,!=9.1" has 29 bytes: a record holds 1 to 24"#);
//! ```

mod clauses;
mod error;
mod graph;
pub mod record;
mod redraw;
mod tables;

pub use error::{Error, Fault};
pub use graph::{Edge, Graph, Node};
pub use record::Table;

use std::fmt::Display;
use std::hash::Hash;

/// What a file shows of each id. resolvo's `Interner` has all of these methods but two: a requirement displays itself there, and the
/// version has to be told from the name, since a record file holds them apart ([`version`] does it for `display_solvable`).
pub trait Interner {
    type NameId: Copy + Eq + Hash;
    type SolvableId: Copy + Eq + Hash;
    type VersionSetId: Copy + Eq + Hash;
    type Requirement: Copy + Eq + Hash;
    type StringId: Copy + Eq + Hash;

    fn display_name(&self, name: Self::NameId) -> impl Display + '_;
    /// What stands behind the name and a space wherever the solvable is shown.
    fn display_version(&self, solvable: Self::SolvableId) -> impl Display + '_;
    /// What stands behind its name, as in resolvo: `<2` and not `codec <2`.
    fn display_version_set(&self, version_set: Self::VersionSetId) -> impl Display + '_;
    /// The whole text, as resolvo's `Requirement::display` gives it.
    fn display_requirement(&self, requirement: Self::Requirement) -> impl Display + '_;
    fn display_string(&self, string_id: Self::StringId) -> impl Display + '_;
    fn version_set_name(&self, version_set: Self::VersionSetId) -> Self::NameId;
    fn solvable_name(&self, solvable: Self::SolvableId) -> Self::NameId;
}

/// The version in the text of a solvable: what stands behind the name and one space or `=`, else all of it.
///
/// ```
/// use urzulempa_adapter::version;
///
/// assert_eq!(version("codec 9.1", "codec"), "9.1");
/// assert_eq!(version("codec=9.1", "codec"), "9.1");
/// assert_eq!(version("9.1", "codec"), "9.1");
/// assert_eq!(version("codecs 9.1", "codec"), "codecs 9.1");
/// ```
pub fn version<'s>(shown: &'s str, name: &str) -> &'s str {
    let behind = shown.strip_prefix(name);
    behind.and_then(|rest| rest.strip_prefix([' ', '='])).unwrap_or(shown)
}
