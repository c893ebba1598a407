//! The adapter without conflict.rs: graphs that the port draws, written and drawn again. These tests need no ../shared.

use oracle::reader::{self, Tables};
use std::fmt::Display;
use urzulempa::{EdgeKind, MOST_NODES};
use urzulempa_adapter::{Edge, Graph, Interner, Node};

/// Numbers of a file as ids.
struct Numbers<'a>(&'a Tables<'a>);

impl Interner for Numbers<'_> {
    type NameId = u16;
    type SolvableId = u16;
    type VersionSetId = u16;
    type Requirement = u16;
    type StringId = u16;

    fn display_name(&self, name: u16) -> impl Display + '_ {
        self.0.names[usize::from(name)]
    }

    fn display_version(&self, solvable: u16) -> impl Display + '_ {
        self.0.solvables[usize::from(solvable)].text
    }

    fn display_version_set(&self, version_set: u16) -> impl Display + '_ {
        self.0.version_sets[usize::from(version_set)].text
    }

    fn display_requirement(&self, requirement: u16) -> impl Display + '_ {
        self.0.requirements[usize::from(requirement)]
    }

    fn display_string(&self, string_id: u16) -> impl Display + '_ {
        self.0.reasons[usize::from(string_id)]
    }

    fn version_set_name(&self, version_set: u16) -> u16 {
        self.0.version_sets[usize::from(version_set)].name
    }

    fn solvable_name(&self, solvable: u16) -> u16 {
        self.0.solvables[usize::from(solvable)].name
    }
}

/// The port's graph of a file, as the adapter takes one.
fn drawn(file: &[u8]) -> Graph<u16, u16, u16, u16> {
    // kind 9 is none
    let blank = urzulempa::Node {
        kind: 9,
        ..urzulempa::Node::default()
    };
    let mut list = [blank; MOST_NODES];
    assert!(urzulempa::nodes(file, &mut list).is_done());
    let nodes = list
        .iter()
        .take_while(|node| node.kind != 9)
        .map(|node| match node.kind {
            0 => Node::Root,
            1 => Node::Solvable(node.number),
            2 => Node::Unresolved,
            _ => Node::Excluded(node.number),
        });
    let (answer, edges) = urzulempa::edges(file);
    assert!(answer.is_done());
    let edges = edges.iter().map(|edge| {
        let kind = match edge.kind {
            EdgeKind::Requires(requirement) => Edge::Requires(requirement),
            EdgeKind::Locked(solvable) => Edge::Locked(solvable),
            EdgeKind::Constrains(set) => Edge::Constrains(set),
            EdgeKind::ForbidMultiple => Edge::ForbidMultipleInstances,
            EdgeKind::Excluded => Edge::Excluded,
            EdgeKind::Unknown(kind) => panic!("an edge of kind {kind}"),
        };
        (usize::from(edge.source), usize::from(edge.target), kind)
    });
    Graph {
        nodes: nodes.collect(),
        edges: edges.collect(),
    }
}

fn wall(file: &[u8]) -> Vec<u8> {
    let (answer, text) = urzulempa::grown(1 << 20, |room| urzulempa::tgf(file, room));
    assert!(answer.is_done());
    text
}

#[test]
fn graphs_that_the_port_draws_are_drawn_again() {
    let mut seen = 0;
    for index in 0..4_000 {
        let (shape, seed) = oracle::generate::pick(index, 23);
        let Some(file) = oracle::generate::file(shape, seed) else {
            continue;
        };
        if !urzulempa::check(&file).is_done() {
            continue;
        }
        let tables = reader::read(&file).expect("the port takes it");
        let made = drawn(&file)
            .file(&Numbers(&tables))
            .expect("the adapter writes it");
        assert!(wall(&file) == wall(&made), "{shape} {seed}");
        seen += 1;
    }
    assert!(seen > 3_000, "{seen} graphs");
}
