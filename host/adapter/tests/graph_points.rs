//! Which clauses a graph gets, each point on a small one.

mod common;

use common::*;

const A: Behind = ("deck", "1");
const B: Behind = ("deck", "2");
const C: Behind = ("deck", "3");
const D: Behind = ("panel", "1");

#[test]
fn the_sample_is_written_byte_for_byte() {
    let nodes = [Root, Unresolved, Solvable(("replay", "2")), Solvable(("replay", "1"))];
    let edges = [(0, 2, Requires("replay *")), (0, 3, Requires("replay *")), (2, 1, Requires("codec 9")), (3, 1, Requires("codec 9"))];
    assert_eq!(file(&nodes, &edges).unwrap(), include_bytes!("../../../samples/replay.rec"));
}

#[test]
fn a_root_alone_is_a_file_without_records() {
    assert_eq!(file(&[Root], &[]), Ok(vec![]));
}

#[test]
fn every_kind_of_edge_has_its_clause() {
    let nodes = [Root, Unresolved, Solvable(A), Solvable(B), Solvable(D), Reason("too old")];
    let edges = [
        (0, 2, Requires("deck *")),
        (0, 3, Requires("deck *")),
        (2, 4, Constrains(("panel", "<2"))),
        (2, 5, Excluded),
        (2, 3, Forbid),
        (0, 3, Locked(C)),
        (3, 1, Requires("codec 9")),
    ];
    let said = told(&file(&nodes, &edges).unwrap());
    let wanted = [
        "requires root, deck *",
        "constrains deck 1, panel 1, <2",
        "excluded deck 1, too old",
        "forbid-multiple deck 1, forbid deck",
        "forbid-multiple deck 2, forbid deck",
        "lock deck 3, deck 2",
        "requires deck 2, codec 9",
    ];
    assert_eq!(said, wanted);
}

/// Unresolved is gone: node 1 is the one that was added last.
#[test]
fn where_unresolved_has_gone_node_1_came_last() {
    let nodes = [Root, Solvable(C), Solvable(A), Solvable(B)];
    let edges = [(0, 2, Requires("deck *")), (0, 3, Requires("deck *")), (0, 1, Requires("deck *"))];
    let file = file(&nodes, &edges).unwrap();
    let candidates: Vec<u16> = rows(&file, 5..=5).into_iter().map(|(_, [_, solvable, _], _)| solvable).collect();
    let versions: Vec<String> = rows(&file, 2..=2).into_iter().map(|(_, _, version)| version).collect();
    // solvables are numbered as their nodes are, candidates stand as the edges do
    assert_eq!(versions, ["3", "1", "2"]);
    assert_eq!(candidates, [1, 2, 0]);
}

/// Edges that follow each other may come from several clauses: the candidates are what every stretch of the requirement repeats.
#[test]
fn one_requirement_asked_for_twice_has_its_candidates_once() {
    let nodes = [Root, Unresolved, Solvable(A), Solvable(B)];
    let twice = [2, 3, 2, 3].map(|target| (0, target, Requires("deck *")));
    let once = [(2, 2, Requires("deck *")), (2, 3, Requires("deck *")), (3, 1, Requires("codec"))];
    let file = file(&nodes, &[&twice[..], &once].concat()).unwrap();
    assert_eq!(rows(&file, 5..=5).len(), 2);
    assert_eq!(told(&file), ["requires root, deck *", "requires root, deck *", "requires deck 1, deck *", "requires deck 2, codec"]);
}

/// The first clause under a name draws no edge. Nothing shows it where its node is there anyway.
#[test]
fn a_chain_of_three_has_three_clauses() {
    let nodes = [Root, Solvable(C), Solvable(A), Solvable(B)];
    let required = [2, 3, 1].map(|target| (0, target, Requires("deck *")));
    let file = file(&nodes, &[&required[..], &[(2, 3, Forbid), (3, 1, Forbid)]].concat()).unwrap();
    assert_eq!(told(&file)[1..], ["forbid-multiple deck 1, forbid deck", "forbid-multiple deck 2, forbid deck", "forbid-multiple deck 3, forbid deck"]);
}

/// Deck 2 stands before the one that requires it could add it: a first clause under its name added it.
#[test]
fn a_node_that_stands_too_early_was_added_without_an_edge() {
    let nodes = [Root, Solvable(A), Solvable(B)];
    let edges = [(0, 1, Requires("deck *")), (0, 2, Requires("deck *"))];
    let said = told(&file(&nodes, &edges).unwrap());
    assert_eq!(said, ["forbid-multiple deck 2, forbid deck", "requires root, deck *"]);
}

/// The smallest load that a way by edges alone gets wrong: deck 1 stands first, then panel 1, which the requirement does not lead to,
/// then deck 2. So the requirement did not add deck 1 either, though it comes to it first.
#[test]
fn what_a_clause_comes_to_before_such_a_node_was_added_so_too() {
    // deck 2 came last, and has the number of unresolved
    let nodes = [Root, Solvable(B), Solvable(A), Solvable(D)];
    let edges = [(0, 2, Requires("deck *")), (0, 1, Requires("deck *")), (0, 3, Requires("panel *"))];
    let said = told(&file(&nodes, &edges).unwrap());
    let wanted = ["forbid-multiple deck 1, forbid deck", "forbid-multiple panel 1, forbid panel", "requires root, deck *", "requires root, panel *"];
    assert_eq!(said, wanted);
}

/// The same by an exclusion: the reason's node came last, deck 1 before panel 1.
#[test]
fn a_reason_behind_such_a_node_is_added_by_its_own_clause() {
    let nodes = [Root, Reason("too old"), Solvable(A), Solvable(D)];
    let edges = [(2, 1, Excluded), (0, 2, Requires("deck *")), (0, 3, Requires("panel *"))];
    let said = told(&file(&nodes, &edges).unwrap());
    assert_eq!(said[..3], ["forbid-multiple deck 1, forbid deck", "forbid-multiple panel 1, forbid panel", "excluded deck 1, too old"]);
}

/// A node that a first clause added goes on as a chain, so that no name is used up for nothing.
#[test]
fn a_chain_goes_on_from_a_node_that_was_added_so() {
    let nodes = [Root, Solvable(B), Solvable(A)];
    let edges = [(2, 1, Forbid), (0, 2, Requires("deck *")), (0, 1, Requires("deck *"))];
    let said = told(&file(&nodes, &edges).unwrap());
    assert_eq!(said, ["forbid-multiple deck 1, forbid deck", "forbid-multiple deck 2, forbid deck", "requires root, deck *"]);
}

/// Two chains of one package's versions: each needs a name, the second takes one that no chain has.
#[test]
fn chains_take_free_names_and_then_made_ones() {
    let nodes = [Root, Solvable(D), Solvable(A), Solvable(B), Solvable(C)];
    let required = [2, 3, 4, 1].map(|target| (0, target, Requires("all *")));
    let apart = [(2, 3, Forbid), (2, 4, Forbid), (2, 1, Forbid)];
    let file = file(&nodes, &[&required[..], &apart].concat()).unwrap();
    let names: Vec<String> = told(&file)[1..].iter().step_by(2).cloned().collect();
    assert_eq!(names, ["forbid-multiple deck 1, forbid deck", "forbid-multiple deck 1, forbid panel", "forbid-multiple deck 1, forbid ~1"]);
    assert_eq!(rows(&file, 1..=1).len(), 3);
}

#[test]
fn a_package_forbidden_twice_in_a_row_has_an_edge_to_itself() {
    let nodes = [Root, Solvable(A)];
    let said = told(&file(&nodes, &[(0, 1, Requires("deck *")), (1, 1, Forbid)]).unwrap());
    assert_eq!(said[1..], ["forbid-multiple deck 1, forbid deck", "forbid-multiple deck 1, forbid deck"]);
}

/// Ids are told apart by themselves and not by their texts.
#[test]
fn requirements_of_one_text_stay_two() {
    // one text at two places in memory is still one `&str`: ids that differ are needed
    use urzulempa_adapter::{Edge, Graph, Interner, Node};
    struct Same;
    impl Interner for Same {
        type NameId = u8;
        type SolvableId = u8;
        type VersionSetId = u8;
        type Requirement = u8;
        type StringId = u8;
        fn display_name(&self, _: u8) -> impl std::fmt::Display + '_ {
            "deck"
        }
        fn display_version(&self, _: u8) -> impl std::fmt::Display + '_ {
            "1"
        }
        fn display_version_set(&self, _: u8) -> impl std::fmt::Display + '_ {
            "<2"
        }
        fn display_requirement(&self, _: u8) -> impl std::fmt::Display + '_ {
            "deck *"
        }
        fn display_string(&self, _: u8) -> impl std::fmt::Display + '_ {
            "too old"
        }
        fn version_set_name(&self, set: u8) -> u8 {
            set
        }
        fn solvable_name(&self, solvable: u8) -> u8 {
            solvable
        }
    }
    let graph = Graph { nodes: vec![Node::Root, Node::Solvable(7), Node::Solvable(9)], edges: vec![(0, 2, Edge::Requires(1)), (0, 1, Edge::Requires(2))] };
    let file = graph.file(&Same).unwrap();
    let counts = [1, 2, 4, 5].map(|kind| rows(&file, kind..=kind).len());
    assert_eq!(counts, [2, 2, 2, 2]);
}
