//! Open points of groups, labels and the node list, each on a smallest file.
#![cfg(has_conflict_rs)]

mod common;

use common::{lines, list, told};
use oracle::draft::Draft;
use oracle::{samples, Answer, Node};

fn groups(file: &[u8]) -> Vec<u16> {
    list(file).iter().map(|node| node.group).collect()
}

#[test]
fn names_merge_by_text() {
    let mut d = Draft::new();
    let (one, two) = (d.package("deck", "1"), d.package("deck", "2"));
    d.root_needs("deck *", &[one, two]);
    assert_eq!(groups(&d.file()), [0, 1, 1]);
}

#[test]
fn requirements_merge_by_number() {
    let mut d = Draft::new();
    let name = d.name("deck");
    let (one, two) = (d.solvable(name, "1"), d.solvable(name, "2"));
    d.root_needs("deck *", &[one, two]);
    d.needs(one, "codec 9", &[]);
    d.needs(two, "codec 9", &[]);
    assert_eq!(groups(&d.file()), [0, 1, 2, 3]);
}

#[test]
fn parallel_edges_count_when_merging() {
    let mut d = Draft::new();
    let name = d.name("deck");
    let (one, two) = (d.solvable(name, "1"), d.solvable(name, "2"));
    d.root_needs("deck *", &[one, two, two]);
    assert_eq!(groups(&d.file()), [0, 1, 2]);
}

#[test]
fn in_p10_the_member_added_last_took_number_1_and_shows_first() {
    let nodes = list(&samples::merged_pair());
    assert_eq!((nodes[1].number, nodes[1].group), (2, 1));
    assert!(lines(&samples::merged_pair())
        .iter()
        .any(|line| line.contains("pair 1 | 2")));
}

#[test]
fn equal_versions_show_as_often_as_they_come_and_unsorted() {
    let mut d = Draft::new();
    let name = d.name("deck");
    let all: Vec<u16> = ["3", "1", "1"]
        .iter()
        .map(|v| d.solvable(name, v))
        .collect();
    // A requirement without candidates keeps unresolved, and with it the order of the nodes.
    d.root_needs("deck *", &all);
    d.root_needs("codec 9", &[]);
    assert!(lines(&d.file()).contains(&"└─ deck 3 | 1 | 1".to_string()));
}

#[test]
fn members_may_differ_in_cause_and_the_shown_node_has_the_words() {
    for swap in [false, true] {
        let mut d = Draft::new();
        let name = d.name("deck");
        let (one, two) = (d.solvable(name, "1"), d.solvable(name, "2"));
        let other = d.package("panel", "1");
        d.root_needs("codec 9", &[]);
        let order = if swap { [two, one] } else { [one, two] };
        d.root_needs("deck *", &order);
        let set = d.version_set(1, "<1");
        d.constrains(one, other, set);
        d.forbid(two, name);
        d.forbid(other, name);
        let file = d.file();
        let text = told(&file, 0).1;
        // Candidates are popped last first.
        if swap {
            assert!(text.contains("deck 2 | 1 would constrain"), "{text}");
        } else {
            assert!(text.contains("deck 1 | 2, which conflicts with"), "{text}");
        }
    }
}

#[test]
fn members_may_differ_in_labels_where_there_is_a_cycle() {
    let nodes = list(&oracle::samples::unequal_labels());
    let of = |number: u16| {
        let found = nodes
            .iter()
            .find(|node| node.kind == 1 && node.number == number);
        *found.expect("both are nodes")
    };
    assert_eq!(of(0).group, of(1).group);
    assert_ne!(of(0).missing, of(1).missing);
}

#[test]
fn the_node_list_is_one_unit_and_has_kinds_in_the_order_of_conflict_node() {
    let mut d = Draft::new();
    let deck = d.package("deck", "1");
    d.root_needs("deck *", &[deck]);
    d.needs(deck, "codec 9", &[]);
    d.reason("unused");
    let reason = d.reason("too old");
    d.excludes(deck, reason);
    let file = d.file();
    let stays = Node {
        kind: 9,
        number: 9,
        group: 9,
        installable: 9,
        missing: 9,
        clause: 9,
    };
    let mut entries = [stays; 5];
    let answer = common::nodes(&file, &mut entries);
    assert_eq!(
        answer,
        Answer {
            units: 1,
            ..Answer::default()
        }
    );
    let kinds = entries.map(|node| (node.kind, node.number));
    assert_eq!(kinds, [(0, 0), (2, 0), (1, deck), (3, reason), (9, 9)]);
    assert_eq!(entries[4], stays);
}

#[test]
fn a_node_list_that_is_too_short_is_10_with_nothing_changed() {
    let file = samples::replay();
    let mut short = [Node {
        kind: 9,
        ..Node::default()
    }; 3];
    let answer = common::nodes(&file, &mut short);
    assert_eq!(
        answer,
        Answer {
            number: 10,
            ..Answer::default()
        }
    );
    assert!(short.iter().all(|node| node.kind == 9));
}
