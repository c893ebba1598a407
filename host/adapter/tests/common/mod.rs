//! Graphs whose ids are their own texts, and files as lists of records.

#![allow(dead_code)]

use std::fmt::Display;
use urzulempa_adapter::{Edge, Error, Graph, Interner, Node};

/// A name and what stands behind it.
pub type Behind = (&'static str, &'static str);
pub type TextEdge = Edge<Behind, Behind, &'static str>;
pub type TextNode = Node<Behind, &'static str>;
pub type Between = (usize, usize, TextEdge);
pub type TextGraph = Graph<Behind, Behind, &'static str, &'static str>;
pub use Edge::{Constrains, Excluded, ForbidMultipleInstances as Forbid, Locked, Requires};
pub use Node::{Excluded as Reason, Root, Solvable, Unresolved};

pub struct Texts;

impl Interner for Texts {
    type NameId = &'static str;
    type SolvableId = Behind;
    type VersionSetId = Behind;
    type Requirement = &'static str;
    type StringId = &'static str;

    fn display_name(&self, name: &'static str) -> impl Display + '_ {
        name
    }

    fn display_version(&self, solvable: Behind) -> impl Display + '_ {
        solvable.1
    }

    fn display_version_set(&self, version_set: Behind) -> impl Display + '_ {
        version_set.1
    }

    fn display_requirement(&self, requirement: &'static str) -> impl Display + '_ {
        requirement
    }

    fn display_string(&self, string_id: &'static str) -> impl Display + '_ {
        string_id
    }

    fn version_set_name(&self, version_set: Behind) -> &'static str {
        version_set.0
    }

    fn solvable_name(&self, solvable: Behind) -> &'static str {
        solvable.0
    }
}

/// A text that is kept for the test's whole run.
pub fn kept(text: String) -> &'static str {
    text.leak()
}

pub fn file(nodes: &[TextNode], edges: &[Between]) -> Result<Vec<u8>, Error> {
    let (nodes, edges) = (nodes.to_vec(), edges.to_vec());
    TextGraph { nodes, edges }.file(&Texts)
}

/// A record as its kind, its fields a, b and c, and its text.
pub type Row = (u8, [u16; 3], String);

/// The records of these kinds.
pub fn rows(file: &[u8], kinds: std::ops::RangeInclusive<u8>) -> Vec<Row> {
    let row = |record: &[u8]| {
        let field = |at: usize| u16::from_le_bytes([record[at], record[at + 1]]);
        let text = record[8..].iter().take_while(|byte| **byte != 0);
        let text: String = text.map(|byte| char::from(*byte)).collect();
        (record[0], [field(2), field(4), field(6)], text)
    };
    file.chunks(32).map(row).filter(|row| kinds.contains(&row.0)).collect()
}

/// The clauses: kinds and fields. All are in the core.
pub fn clauses(file: &[u8]) -> Vec<(u8, [u16; 3])> {
    assert!(file.chunks(32).all(|record| record[0] < 16 || record[1] == 1));
    rows(file, 16..=25).into_iter().map(|(kind, fields, _)| (kind, fields)).collect()
}

/// What the clauses say, with variables by what they name.
pub fn told(file: &[u8]) -> Vec<String> {
    let text = |kind: u8, own: u16| rows(file, kind..=kind)[usize::from(own)].2.clone();
    let solvable = |own: u16| {
        let [_, name, _] = rows(file, 2..=2)[usize::from(own)].1;
        format!("{} {}", text(1, name), text(2, own))
    };
    let variable = |own: u16| match rows(file, 7..=7)[usize::from(own)].1 {
        [_, 0, _] => "root".to_string(),
        [_, 1, named] => solvable(named),
        [_, _, named] => format!("forbid {}", text(1, named)),
    };
    let said = |(kind, [a, b, c]): (u8, [u16; 3])| match kind {
        17 => format!("excluded {}, {}", variable(a), text(6, b)),
        19 => format!("requires {}, {}", variable(a), text(4, b)),
        20 => format!("lock {}, {}", variable(a), variable(b)),
        21 => format!("forbid-multiple {}, {}", variable(a), variable(b)),
        22 => format!("constrains {}, {}, {}", variable(a), variable(b), text(3, c)),
        other => format!("kind {other}"),
    };
    clauses(file).into_iter().map(said).collect()
}
