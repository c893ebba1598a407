//! conflict.rs, with the replacements of `build.rs`.

// Parts that document 01 leaves out, the top `Display` among them, are there and not called.
#![allow(dead_code, clippy::all)]

use crate::limits::Limits;
use crate::standins::tracing;

include!(concat!(env!("OUT_DIR"), "/conflict.rs"));

/// A child sees the private items of its parent: nothing has to be made public by replacement.
mod chart;
pub mod view;
