//! The test oracle: conflict.rs as it is, over real petgraph and itertools, behind the calls that
//! document 01 describes and document 02 adds. Small stand-ins take the place of the solver's types.
//!
//! [`explain`], [`explain_plain`], [`explain_edition`], [`explain_air`], [`graphviz`], [`check`],
//! [`nodes`], [`edges`], [`what_if`], [`what_if_explain`], [`tgf`] and [`season::season`] take any bytes. [`Problem`] and its [`Model`] are the same in steps, for many calls on one file. Where
//! conflict.rs could not be had at build time, [`AVAILABLE`] is false and these must not be called;
//! the reader, the generator, the samples, the [`writer`], [`salvage`], [`settings`], [`write`] and [`tgf_read`], which the Rust does not have,
//! are there all the same.

// Without conflict.rs the stand-ins are there for the writer alone.
#![cfg_attr(not(has_conflict_rs), allow(dead_code))]

#[cfg(has_conflict_rs)]
extern crate self as resolvo;

mod answer;
pub mod asked;
pub mod asking;
pub mod cases;
pub mod draft;
pub mod generate;
mod limits;
mod provider;
pub mod reader;
pub mod record;
pub mod rng;
pub mod salvage;
pub mod samples;
pub mod season;
pub mod settings;
mod standins;
pub mod survey;
pub mod wall;
mod watch;
pub mod writer;
pub mod writing;

#[cfg(has_conflict_rs)]
mod calls;
#[cfg(has_conflict_rs)]
mod conflict;
/// The adapter's way from resolvo's types to its own, as users copy it: it says `resolvo`, and sees what is public there and no more.
#[cfg(has_conflict_rs)]
#[path = "../../adapter/resolvo/graph.rs"]
mod public_graph;
#[cfg(has_conflict_rs)]
mod quoted;
#[cfg(has_conflict_rs)]
mod rooms;

#[cfg(not(has_conflict_rs))]
#[path = "absent.rs"]
mod calls;

pub use answer::{Answer, Edge, Edition, Node, Refusal, Rules, Salvaged};
pub use calls::{
    adapted, check, edges, explain, explain_air, explain_edition, explain_plain, graphviz, nodes,
    rules, what_if, what_if_explain, Model, Problem,
};

pub use salvage::salvage;
pub use settings::Settings;
pub use wall::{tgf, tgf_read};
pub use writing::write;

// What lib.rs of resolvo has at its root, for `public_graph`.
#[cfg(has_conflict_rs)]
use standins::{Interner, Requirement, StringId, VersionSetId};

/// Whether conflict.rs was there when this crate was built.
pub const AVAILABLE: bool = cfg!(has_conflict_rs);
