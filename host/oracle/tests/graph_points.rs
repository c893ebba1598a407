//! Open points of the graph, each on a smallest file.
#![cfg(has_conflict_rs)]

mod common;

use common::{checked, edges, list, told, ACCEPTED};
use oracle::draft::Draft;
use oracle::reader::{kind, origin};

/// Two versions of deck, both required by the root.
fn decks() -> (Draft, u16, u16) {
    let mut d = Draft::new();
    let name = d.name("deck");
    let two = d.solvable(name, "2");
    let one = d.solvable(name, "1");
    d.root_needs("deck *", &[two, one]);
    (d, two, one)
}

#[test]
fn forbid_is_keyed_by_the_name_record_and_not_by_its_text() {
    let (mut d, two, one) = decks();
    let same_text = d.name("deck");
    d.forbid(two, 0);
    d.forbid(one, same_text);
    assert_eq!(edges(&d.file()), 2);
}

#[test]
fn forbid_is_not_keyed_by_the_variable() {
    let (mut d, two, one) = decks();
    d.forbid(two, 0);
    let other = d.variable(origin::FORBID_MULTIPLE, 0);
    let one = d.of(one);
    d.core(kind::FORBID_MULTIPLE, [one, other, 0]);
    assert_eq!(edges(&d.file()), 3);
}

#[test]
fn forbid_is_not_keyed_by_the_solvables_own_name() {
    let (mut d, two, one) = decks();
    let other = d.name("panel");
    d.forbid(two, other);
    d.forbid(one, other);
    assert_eq!(edges(&d.file()), 3);
}

#[test]
fn forbidding_one_solvable_twice_in_a_row_makes_a_self_edge() {
    let (mut d, two, _) = decks();
    d.forbid(two, 0);
    d.forbid(two, 0);
    let file = d.file();
    assert_eq!(edges(&file), 3);
    let (_, text) = common::drawn(&file, 0);
    assert!(text.contains("\"deck 2\" -> \"deck 2\""));
}

#[test]
fn forbid_without_a_previous_one_still_adds_the_node() {
    let mut d = Draft::new();
    let deck = d.package("deck", "1");
    d.forbid(deck, 0);
    assert_eq!(checked(&d.file()), (9, 1));
}

#[test]
fn a_triple_is_shared_across_auxiliaries() {
    let (mut d, two, one) = decks();
    let set = d.version_set(0, "<2");
    let (two, one) = (d.of(two), d.of(one));
    for _ in 0..2 {
        let auxiliary = d.auxiliary();
        d.parent(two, auxiliary, set);
        d.excluded(one, auxiliary, set);
    }
    assert_eq!(edges(&d.file()), 3);
}

#[test]
fn a_triple_is_shared_across_variables_of_one_solvable() {
    let (mut d, two, one) = decks();
    let set = d.version_set(0, "<2");
    let parent = d.of(two);
    let twins = [d.of(one), d.variable(origin::SOLVABLE, one)];
    let auxiliary = d.auxiliary();
    d.parent(parent, auxiliary, set);
    for twin in twins {
        d.excluded(twin, auxiliary, set);
    }
    assert_eq!(edges(&d.file()), 3);
}

#[test]
fn a_direct_constrains_neither_looks_at_the_triples_nor_adds_to_them() {
    let (mut d, two, one) = decks();
    let set = d.version_set(0, "<2");
    let (parent, candidate) = (d.of(two), d.of(one));
    let auxiliary = d.auxiliary();
    d.constrains(two, one, set);
    d.parent(parent, auxiliary, set);
    d.excluded(candidate, auxiliary, set);
    d.constrains(two, one, set);
    assert_eq!(edges(&d.file()), 5);
}

#[test]
fn two_version_sets_make_two_triples() {
    let (mut d, two, one) = decks();
    let sets = [d.version_set(0, "<2"), d.version_set(0, "<2")];
    let (parent, candidate) = (d.of(two), d.of(one));
    let auxiliary = d.auxiliary();
    d.parent(parent, auxiliary, sets[0]);
    d.excluded(candidate, auxiliary, sets[1]);
    assert_eq!(edges(&d.file()), 4);
}

#[test]
fn an_absent_side_comes_from_assigned_by_whatever_its_auxiliary() {
    let (mut d, two, one) = decks();
    let set = d.version_set(0, "<2");
    let (parent, candidate) = (d.of(two), d.of(one));
    let (here, there) = (d.auxiliary(), d.auxiliary());
    d.parent(parent, here, set);
    let file_without = d.file();
    let far = d.clause(kind::CONSTRAINS_EXCLUDED, false, [candidate, there, set]);
    d.assign(here, far);
    assert_eq!(edges(&file_without), 2);
    assert_eq!(edges(&d.file()), 3);
    // Of the same kind it does not help.
    d.clauses[usize::from(far)].kind = kind::CONSTRAINS_PARENT;
    assert_eq!(edges(&d.file()), 2);
}

/// The root requires both decks; a gate requires `codec 9`, and the partners follow.
fn gated() -> (Draft, u16, [u16; 2]) {
    let (mut d, two, one) = decks();
    let gate = d.gate();
    let wish = d.requirement("codec 9", &[]);
    d.requires(gate, wish);
    let partners = [d.of(two), d.of(one)];
    (d, gate, partners)
}

#[test]
fn all_partners_skipped_counts_as_none_left() {
    let (mut d, gate, partners) = gated();
    let other = d.other();
    d.any_of(gate, other);
    assert_eq!(edges(&d.file()), 2);
    let outside = d.clause(kind::ANY_OF, false, [gate, partners[0], 0]);
    d.assign(gate, outside);
    assert_eq!(edges(&d.file()), 3);
}

#[test]
fn one_partner_kept_means_that_assigned_by_is_not_looked_at() {
    let (mut d, gate, partners) = gated();
    let other = d.other();
    d.any_of(gate, other);
    d.any_of(gate, partners[0]);
    let outside = d.clause(kind::ANY_OF, false, [gate, partners[1], 0]);
    d.assign(gate, outside);
    let file = d.file();
    assert_eq!(edges(&file), 3);
    assert!(common::drawn(&file, 0)
        .1
        .contains("\"deck 2\" -> \"unresolved\""));
}

#[test]
fn a_repeated_partner_counts_twice() {
    let (mut d, gate, partners) = gated();
    d.any_of(gate, partners[0]);
    d.any_of(gate, partners[0]);
    assert_eq!(edges(&d.file()), 4);
}

#[test]
fn any_of_outside_the_core_counts_only_through_assigned_by() {
    let (mut d, gate, partners) = gated();
    let outside = d.clause(kind::ANY_OF, false, [gate, partners[0], 0]);
    assert_eq!(edges(&d.file()), 2);
    d.assign(gate, outside);
    assert_eq!(edges(&d.file()), 3);
}

#[test]
fn a_gate_may_be_assigned_by_any_of_of_another_variable() {
    let (mut d, gate, partners) = gated();
    let other = d.other();
    let foreign = d.clause(kind::ANY_OF, false, [other, partners[0], 0]);
    d.assign(gate, foreign);
    assert_eq!(edges(&d.file()), 3);
    d.clauses[usize::from(foreign)].fields[1] = other;
    assert_eq!(edges(&d.file()), 2);
}

#[test]
fn a_clause_that_adds_no_edge_adds_no_node() {
    let mut d = Draft::new();
    let name = d.name("deck");
    let deck = d.solvable(name, "1");
    let set = d.version_set(name, "<2");
    let (gate, auxiliary) = (d.gate(), d.auxiliary());
    let wish = d.requirement("deck *", &[deck]);
    let deck = d.of(deck);
    d.requires(gate, wish);
    d.parent(deck, auxiliary, set);
    assert_eq!(list(&d.file()).len(), 1);
}

#[test]
fn the_locked_solvable_gets_no_node_by_itself() {
    let mut d = Draft::new();
    let name = d.name("deck");
    let (two, one) = (d.solvable(name, "2"), d.solvable(name, "1"));
    d.locks(two, one);
    let nodes = list(&d.file());
    assert_eq!(nodes.len(), 2);
    assert_eq!((nodes[1].kind, nodes[1].number), (1, one));
}

#[test]
fn a_solvable_may_be_locked_against_itself() {
    let mut d = Draft::new();
    let deck = d.package("deck", "1");
    d.locks(deck, deck);
    assert_eq!(checked(&d.file()), ACCEPTED);
}

#[test]
fn reasons_are_told_apart_by_number() {
    let (mut d, two, one) = decks();
    let reasons = [d.reason("too old"), d.reason("too old")];
    d.excludes(two, reasons[0]);
    d.excludes(one, reasons[1]);
    assert_eq!(list(&d.file()).len(), 5);
    d.clauses[2].fields[1] = reasons[0];
    assert_eq!(list(&d.file()).len(), 4);
}

#[test]
fn unresolved_counts_towards_the_128_nodes_even_if_it_goes() {
    let of = oracle::generate::limits::nodes;
    let nodes = list(&of(128));
    assert_eq!(nodes.len(), 127);
    assert!(nodes.iter().all(|node| node.kind != 2));
    assert_eq!(checked(&of(129)), (8, 0));
}

#[test]
fn the_last_node_takes_number_1_when_unresolved_goes() {
    let (d, _, one) = decks();
    let nodes = list(&d.file());
    assert_eq!(nodes.len(), 3);
    assert_eq!((nodes[1].kind, nodes[1].number), (1, one));
}

#[test]
fn conflict_edges_reach_so_that_edges_without_lines_are_possible() {
    let mut d = Draft::new();
    let deck = d.package("deck", "1");
    d.locks(deck, deck);
    let file = d.file();
    assert_eq!(edges(&file), 1);
    let (answer, text) = told(&file, 0);
    assert_eq!((answer, text.as_str()), (oracle::Answer::default(), ""));
}

#[test]
fn unresolved_stays_for_unreached_packages_and_may_be_the_place_of_9() {
    let mut d = Draft::new();
    let deck = d.package("deck", "1");
    d.needs(deck, "codec 9", &[]);
    assert_eq!(checked(&d.file()), (9, 1));
}

#[test]
fn the_place_of_9_is_numbered_after_unresolved_has_gone() {
    let mut d = Draft::new();
    let name = d.name("deck");
    let (two, one) = (d.solvable(name, "2"), d.solvable(name, "1"));
    // Nodes as added: root, unresolved, deck 2 unreached, deck 1; then deck 1 becomes node 1.
    d.forbid(two, name);
    d.root_needs("deck 1", &[one]);
    assert_eq!(checked(&d.file()), (9, 2));
}
