//! Packages whose edges differ, and whose fingerprints are equal, stay apart: "unequal ones may collide, and then the full
//! comparison decides".
#![cfg(has_conflict_rs)]

mod common;

use common::list;
use oracle::draft::Draft;
use oracle::samples::{self, COLLIDING};

/// The number made from an edge: of its requirement, none for a conflict, of the node at its other end, and of its direction.
fn number(requirement: Option<u16>, end: u16, out: bool) -> u32 {
    let key = requirement.map_or(0, |r| u32::from(r) + 1) * 256 + u32::from(end);
    let odd = 2 * key + if out { 1 } else { 2 };
    odd.wrapping_mul(odd)
}

fn sum(numbers: impl Iterator<Item = u32>) -> u32 {
    numbers.fold(0, u32::wrapping_add)
}

/// Of the edges that lead to node `end` by these requirements.
fn outgoing(requirements: &[u16], end: u16) -> u32 {
    sum(requirements.iter().map(|&r| number(Some(r), end, true)))
}

/// All ways to choose two or three requirements below a limit, those with low numbers first.
fn choices(limit: u16, three: bool) -> Vec<Vec<u16>> {
    let mut all = Vec::new();
    for c in 0..limit {
        for b in 0..c {
            if three {
                all.extend((0..b).map(|a| vec![a, b, c]));
            } else {
                all.push(vec![b, c]);
            }
        }
    }
    all
}

/// The first two choices, of those of one length, whose edges to node `end` have the same fingerprint.
fn search(limit: u16, three: bool, end: u16) -> Option<[Vec<u16>; 2]> {
    let mut seen = std::collections::HashMap::new();
    for choice in choices(limit, three) {
        if let Some(first) = seen.insert(outgoing(&choice, end), choice.clone()) {
            return Some([first, choice]);
        }
    }
    None
}

#[test]
fn the_search_finds_the_requirements_of_the_file() {
    for end in 1..128 {
        let sorted = |mut pair: [Vec<u16>; 2]| {
            pair.sort();
            pair
        };
        let two = search(256, false, end).map(sorted);
        let three = search(16, true, end).map(sorted);
        let wanted = COLLIDING.map(|pair| Some(sorted(pair.map(<[u16]>::to_vec))));
        assert_eq!([two, three], wanted, "edges to node {end}");
    }
}

#[test]
fn equal_fingerprints_do_not_merge() {
    let nodes = list(&samples::equal_fingerprints());
    let node = |solvable: u16| {
        let found = (0u16..)
            .zip(&nodes)
            .find(|(_, n)| n.kind == 1 && n.number == solvable);
        found.expect("each is a node").0
    };
    let x = node(0);
    for (place, pair) in (0u16..).zip(COLLIDING) {
        let members = [node(1 + 2 * place), node(2 + 2 * place)];
        // Both are candidates of one requirement of the root's.
        let root = number(Some(193 + place), 0, false);
        let prints = pair.map(|requirements| outgoing(requirements, x).wrapping_add(root));
        assert_eq!(prints[0], prints[1]);
        assert_ne!(pair[0], pair[1]);
        for member in members {
            assert_eq!(nodes[usize::from(member)].group, member, "in no group");
        }
    }
}

#[test]
fn the_same_edges_in_another_order_merge() {
    let mut d = Draft::new();
    let name = d.name("deck");
    let members = [d.solvable(name, "1"), d.solvable(name, "2")];
    let x = d.package("x", "1");
    d.root_needs("deck *", &members);
    let wishes = [
        d.requirement("x 1", &[x]),
        d.requirement("x 2", &[x]),
        d.requirement("codec 9", &[]),
    ];
    for (member, order) in members.into_iter().zip([[0, 1, 2], [1, 2, 0]]) {
        let variable = d.of(member);
        for wish in order {
            d.requires(variable, wishes[wish]);
        }
    }
    let nodes = list(&d.file());
    let groups: Vec<u16> = nodes
        .iter()
        .filter(|n| n.kind == 1 && n.number < 2)
        .map(|n| n.group)
        .collect();
    assert_eq!(groups[0], groups[1]);
}
