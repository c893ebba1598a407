//! The clause of each edge and node (document 02, order 3), each point on a smallest file.
#![cfg(has_conflict_rs)]

mod common;

use common::{drawn, edge_list, edge_numbers, list, told};
use oracle::draft::Draft;
use oracle::reader::kind;
use oracle::{samples, Answer, Edge};

const NONE: u16 = 65_535;

fn edge(source: u16, target: u16, kind: u16, named: u16, clause: u16) -> Edge {
    Edge {
        source,
        target,
        kind,
        named,
        clause,
    }
}

fn edge_clauses(file: &[u8]) -> Vec<u16> {
    edge_list(file).iter().map(|edge| edge.clause).collect()
}

/// Kind and number of each node with its clause.
fn node_clauses(file: &[u8]) -> Vec<(u16, u16, u16)> {
    let entry = |node: &oracle::Node| (node.kind, node.number, node.clause);
    list(file).iter().map(entry).collect()
}

/// Two versions of deck, both required by the root in clause 0, and a requirement that keeps unresolved, clause 1.
fn decks() -> (Draft, u16, u16) {
    let mut d = Draft::new();
    let name = d.name("deck");
    let two = d.solvable(name, "2");
    let one = d.solvable(name, "1");
    d.root_needs("deck *", &[two, one]);
    d.root_needs("codec 9", &[]);
    (d, two, one)
}

#[test]
fn each_kind_of_edge_names_its_clause_and_what_it_stands_for() {
    let (mut d, two, one) = decks();
    let set = d.version_set(0, "<2");
    let reason = d.reason("too old");
    let lock = d.locks(one, two);
    d.forbid(two, 0);
    let forbid = d.forbid(one, 0);
    let constrains = d.constrains(two, one, set);
    let excludes = d.excludes(one, reason);
    // Nodes: root, unresolved, deck 2, deck 1, the reason.
    let wanted = [
        edge(0, 2, 0, 0, 0),
        edge(0, 3, 0, 0, 0),
        edge(0, 1, 0, 1, 1),
        edge(0, 2, 1, one, lock),
        edge(2, 3, 3, 0, forbid),
        edge(2, 3, 2, set, constrains),
        edge(3, 4, 4, 0, excludes),
    ];
    assert_eq!(edge_list(&d.file()), wanted);
}

#[test]
fn a_shared_triple_keeps_the_clause_that_made_it_first() {
    for excluded_first in [false, true] {
        let (mut d, two, one) = decks();
        let set = d.version_set(0, "<2");
        let (parent, candidate) = (d.of(two), d.of(one));
        let mut clauses = Vec::new();
        for _ in 0..2 {
            let auxiliary = d.auxiliary();
            if excluded_first {
                clauses.push(d.excluded(candidate, auxiliary, set));
                clauses.push(d.parent(parent, auxiliary, set));
            } else {
                clauses.push(d.parent(parent, auxiliary, set));
                clauses.push(d.excluded(candidate, auxiliary, set));
            }
        }
        assert_eq!(clauses, [2, 3, 4, 5]);
        assert_eq!(edge_list(&d.file())[3..], [edge(2, 3, 2, set, 2)]);
    }
}

#[test]
fn one_clause_may_make_some_triples_first_and_share_others() {
    let (mut d, two, one) = decks();
    let set = d.version_set(0, "<2");
    let (two, one) = (d.of(two), d.of(one));
    let (here, there) = (d.auxiliary(), d.auxiliary());
    d.parent(two, here, set);
    d.excluded(one, here, set);
    // Below the other auxiliary, (two, one) is there already and (one, one) is new.
    d.parent(one, there, set);
    d.parent(two, there, set);
    d.excluded(one, there, set);
    let wanted = [edge(2, 3, 2, set, 2), edge(3, 3, 2, set, 4)];
    assert_eq!(edge_list(&d.file())[3..], wanted);
}

#[test]
fn parallel_edges_each_keep_their_own_clause() {
    let (mut d, two, one) = decks();
    let set = d.version_set(0, "<2");
    let first = d.constrains(two, one, set);
    let second = d.constrains(two, one, set);
    assert_eq!(edge_clauses(&d.file())[3..], [first, second]);
}

#[test]
fn clauses_are_numbered_among_all_and_not_within_the_core() {
    let mut d = Draft::new();
    let deck = d.package("deck", "1");
    let root = d.root();
    d.clause(kind::INSTALL_ROOT, false, [0; 3]);
    d.clause(kind::LEARNT, false, [0; 3]);
    let wish = d.requirement("deck *", &[deck]);
    d.clause(kind::REQUIRES, false, [root, wish, 0]);
    let needs = d.requires(root, wish);
    d.clause(kind::LEARNT, false, [0; 3]);
    let lock = d.locks(deck, deck);
    assert_eq!((needs, lock), (3, 5));
    assert_eq!(edge_clauses(&d.file()), [3, 5]);
    assert_eq!(node_clauses(&d.file()), [(0, 0, NONE), (1, deck, 3)]);
}

#[test]
fn a_gates_edges_have_the_clause_of_its_requires_and_not_of_any_of() {
    let (mut d, two, one) = decks();
    let gate = d.gate();
    let (two, one) = (d.of(two), d.of(one));
    d.any_of(gate, two);
    d.any_of(gate, one);
    let wish = d.requirement("panel *", &[]);
    let needs = d.requires(gate, wish);
    assert_eq!(needs, 4);
    assert_eq!(edge_clauses(&d.file())[3..], [4, 4]);
}

#[test]
fn a_side_from_assigned_by_has_the_clause_at_hand() {
    let (mut d, two, one) = decks();
    let set = d.version_set(0, "<2");
    let (parent, candidate) = (d.of(two), d.of(one));
    let auxiliary = d.auxiliary();
    let outside = d.clause(
        kind::CONSTRAINS_EXCLUDED,
        false,
        [candidate, auxiliary, set],
    );
    d.assign(auxiliary, outside);
    let here = d.parent(parent, auxiliary, set);
    assert_eq!(edge_list(&d.file())[3..], [edge(2, 3, 2, set, here)]);
}

#[test]
fn a_nodes_clause_is_the_first_that_added_it_as_target_or_source() {
    let mut d = Draft::new();
    let [deck, panel, codec] = ["deck", "panel", "codec"].map(|name| d.package(name, "1"));
    let reason = d.reason("too old");
    // Clause 0 adds deck as a source and the wish's panel as its target, clause 1 the codec, clause 2 the reason.
    d.needs(deck, "panel *", &[panel]);
    d.needs(panel, "codec *", &[codec]);
    d.excludes(codec, reason);
    d.root_needs("deck *", &[deck]);
    d.root_needs("none", &[]);
    let wanted = [
        (0, 0, NONE),
        (2, 0, NONE),
        (1, deck, 0),
        (1, panel, 0),
        (1, codec, 1),
        (3, reason, 2),
    ];
    assert_eq!(node_clauses(&d.file()), wanted);
}

#[test]
fn a_node_that_forbid_multiple_alone_added_has_that_clause() {
    let mut d = Draft::new();
    let deck = d.package("deck", "1");
    let forbid = d.forbid(deck, 0);
    d.root_needs("deck *", &[deck]);
    d.root_needs("none", &[]);
    let file = d.file();
    assert_eq!(forbid, 0);
    // No edge comes from clause 0.
    assert_eq!(edge_clauses(&file), [1, 2]);
    assert_eq!(node_clauses(&file)[2], (1, deck, 0));
}

#[test]
fn a_nodes_clause_moves_with_it_when_unresolved_goes() {
    let mut d = Draft::new();
    let [deck, panel, codec] = ["deck", "panel", "codec"].map(|name| d.package(name, "1"));
    d.root_needs("deck *", &[deck]);
    d.root_needs("panel *", &[panel]);
    d.root_needs("codec *", &[codec]);
    let wanted = [(0, 0, NONE), (1, codec, 2), (1, deck, 0), (1, panel, 1)];
    assert_eq!(node_clauses(&d.file()), wanted);
    let edges = edge_list(&d.file());
    let wanted = [
        edge(0, 2, 0, 0, 0),
        edge(0, 3, 0, 1, 1),
        edge(0, 1, 0, 2, 2),
    ];
    assert_eq!(edges, wanted);
    // With a requirement that nobody offers, everyone stays.
    d.root_needs("none", &[]);
    let wanted = [
        (0, 0, NONE),
        (2, 0, NONE),
        (1, deck, 0),
        (1, panel, 1),
        (1, codec, 2),
    ];
    assert_eq!(node_clauses(&d.file()), wanted);
}

#[test]
fn the_last_node_may_be_unresolved_itself() {
    let mut d = Draft::new();
    d.core(kind::INSTALL_ROOT, [0; 3]);
    assert_eq!(node_clauses(&d.file()), [(0, 0, NONE)]);
    d.root_needs("none", &[]);
    assert_eq!(node_clauses(&d.file()), [(0, 0, NONE), (2, 0, NONE)]);
    assert_eq!(edge_list(&d.file()), [edge(0, 1, 0, 0, 1)]);
}

#[test]
fn groups_are_not_told_apart_by_clauses() {
    let (mut d, two, one) = decks();
    let wish = d.requirement("panel *", &[]);
    // Members with edges of their own from different clauses, with other clauses between.
    for solvable in [two, one] {
        let variable = d.of(solvable);
        d.requires(variable, wish);
        d.core(kind::INSTALL_ROOT, [0; 3]);
    }
    let nodes = list(&d.file());
    assert_eq!(edge_clauses(&d.file())[3..], [2, 4]);
    assert_eq!((nodes[2].group, nodes[3].group), (2, 2));
    // One node added by another clause than its fellow.
    let (mut d, two, one) = decks();
    d.clauses.clear();
    d.forbid(two, 0);
    let root = d.root();
    d.requires(root, 0);
    let nodes = list(&d.file());
    let of = |number| {
        *nodes
            .iter()
            .find(|n| (n.kind, n.number) == (1, number))
            .expect("a node")
    };
    assert_eq!((of(two).clause, of(one).clause), (0, 1));
    assert_eq!(of(two).group, of(one).group);
}

#[test]
fn texts_are_as_before_whatever_the_numbers_of_the_clauses() {
    // Clauses outside the core move all numbers and add nothing.
    let file = samples::rack();
    let first = file.chunks(32).position(|r| r[0] >= 16).expect("a clause");
    let mut moved = file[..32 * first].to_vec();
    for record in file[32 * first..].chunks(32) {
        let mut outside = [0; 32];
        outside[0] = kind::LEARNT;
        moved.extend(outside);
        moved.extend(record);
    }
    for option in [0, 1] {
        assert_eq!(told(&moved, option), told(&file, option));
        assert_eq!(drawn(&moved, option), drawn(&file, option));
    }
    let doubled: Vec<u16> = edge_clauses(&file).iter().map(|c| 2 * c + 1).collect();
    assert_eq!(edge_clauses(&moved), doubled);
}

#[test]
fn the_edge_list_is_one_unit_of_ten_bytes_an_edge() {
    let file = samples::replay();
    for length in 0..=25 {
        let mut numbers = vec![9; length];
        let answer = edge_numbers(&file, &mut numbers);
        if length < 20 {
            let refused = Answer {
                number: 10,
                ..Answer::default()
            };
            assert_eq!(answer, refused);
            assert!(numbers.iter().all(|&n| n == 9));
        } else {
            let done = Answer {
                bytes: 40,
                units: 1,
                ..Answer::default()
            };
            assert_eq!(answer, done);
            let wanted = [
                [0, 2, 0, 0, 0],
                [0, 3, 0, 0, 0],
                [2, 1, 0, 1, 1],
                [3, 1, 0, 1, 2],
            ];
            assert_eq!(numbers[..20], wanted.concat());
            assert!(numbers[20..].iter().all(|&n| n == 9));
        }
    }
}

#[test]
fn a_graph_without_edges_is_done_with_an_empty_list() {
    let done = Answer {
        units: 1,
        ..Answer::default()
    };
    assert_eq!(edge_numbers(&[], &mut []), done);
}

#[test]
fn refusals_1_to_9_come_before_10_and_leave_the_list() {
    let mut d = Draft::new();
    let deck = d.package("deck", "1");
    d.forbid(deck, 0);
    let unreached = d.file();
    for (file, number) in [(&[0; 33][..], 1), (&[0; 32], 2), (&unreached, 9)] {
        for length in [0, 5, 5_120] {
            let mut numbers = vec![9; length];
            assert_eq!(edge_numbers(file, &mut numbers).number, number);
            assert!(numbers.iter().all(|&n| n == 9));
        }
    }
}

#[test]
fn a_list_of_1024_edges_holds_5120_numbers() {
    let file = oracle::generate::limits::edges(1_024);
    let mut numbers = vec![9; 5_121];
    assert_eq!(edge_numbers(&file, &mut numbers).bytes, 10_240);
    assert_eq!(numbers[5_120], 9);
    assert_eq!(edge_numbers(&file, &mut numbers[..5_119]).number, 10);
}
