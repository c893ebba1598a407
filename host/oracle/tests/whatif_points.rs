//! What if this one were excluded too (document 02, order 10), each point on a smallest file: nodes, edges, groups and labels.
#![cfg(has_conflict_rs)]

mod common;

use common::{aired, asked, edges_then, lines, lines_then, list, packages, wide, with_reasons};
use oracle::asked::{agree, Question};
use oracle::draft::Draft;
use oracle::reader::kind;
use oracle::{samples, Node, Problem};

/// Kind and number of each node.
fn stand(nodes: &[Node]) -> Vec<(u16, u16)> {
    nodes.iter().map(|node| (node.kind, node.number)).collect()
}

fn labels(nodes: &[Node]) -> Vec<(u8, u8)> {
    let both = |node: &Node| (node.installable, node.missing);
    nodes.iter().map(both).collect()
}

#[test]
fn a_new_reason_gets_a_node_at_the_end_and_the_newest_edge() {
    let (mut d, all) = with_reasons(packages(&["deck", "panel"]));
    d.needs(all[0], "codec 9", &[]);
    d.clause(kind::INSTALL_ROOT, false, [0; 3]);
    let file = d.file();
    // Root, unresolved, which stays, deck, panel; three clauses, one of them outside the core.
    let then = asked(&file, 1, 1).expect("it can be asked");
    assert_eq!(stand(&then), [(0, 0), (2, 0), (1, 0), (1, 1), (3, 1)]);
    assert_eq!(then[4].clause, 3);
    assert_eq!(then[4].group, 4);
    // The root has a candidate that is not missing, if excluded: it is not missing either.
    assert_eq!(labels(&then), [(0, 0), (0, 1), (0, 1), (0, 0), (0, 0)]);
    assert_eq!(edges_then(&file, 1, 1).last(), Some(&[3, 4, 4, 3]));
    assert_eq!(
        lines_then(&file, 1, 1),
        [
            "all * cannot be installed because there are no viable options:",
            "├─ deck 1 would require",
            "│  └─ codec 9, for which no candidates were found.",
            "└─ panel 1 is excluded because recalled",
        ]
    );
}

#[test]
fn unresolved_does_not_come_back_and_its_place_is_not_given_anew() {
    let (d, _) = with_reasons(packages(&["deck", "panel", "codec"]));
    let file = d.file();
    // Unresolved went, and the last package has its number. Whatever is added stands behind.
    assert_eq!(stand(&list(&file)), [(0, 0), (1, 2), (1, 0), (1, 1)]);
    for solvable in 0..3 {
        let then = asked(&file, solvable, 0).expect("it can be asked");
        assert_eq!(stand(&then), [(0, 0), (1, 2), (1, 0), (1, 1), (3, 0)]);
        assert!(then.iter().all(|node| node.missing == 0));
    }
}

#[test]
fn a_reason_that_has_a_node_uses_it() {
    let (mut d, all) = with_reasons(packages(&["deck", "panel"]));
    d.excludes(all[0], 1);
    let file = d.file();
    let before = list(&file);
    let then = asked(&file, 1, 1).expect("it can be asked");
    assert_eq!(stand(&then), stand(&before));
    assert_eq!(then.iter().filter(|node| node.kind == 3).count(), 1);
    // Its clause stays the one that first added it.
    assert_eq!(
        then[1],
        Node {
            group: 1,
            ..before[1]
        }
    );
    assert_eq!(then[1].clause, 1);
    // The other reason, of another number, is another node, though its text were the same.
    d.reason("recalled");
    let then = asked(&d.file(), 1, 2).expect("it can be asked");
    assert_eq!(then.iter().filter(|node| node.kind == 3).count(), 2);
    assert_eq!(
        then.last().map(|node| (node.number, node.clause)),
        Some((2, 2))
    );
}

#[test]
fn a_second_exclusion_of_the_same_package_adds_a_second_edge() {
    let (mut d, all) = with_reasons(packages(&["deck"]));
    d.excludes(all[0], 0);
    let file = d.file();
    let before = labels(&list(&file));
    // By the same reason: two edges between the same nodes.
    let edges = edges_then(&file, 0, 0);
    assert_eq!(edges.len(), 3);
    assert_eq!((edges[1][..2] == edges[2][..2], edges[2][3]), (true, 2));
    assert_eq!(
        labels(&asked(&file, 0, 0).expect("it can be asked")),
        before
    );
    // By another: the newest edge's reason shows.
    assert_eq!(
        lines(&file).last().map(String::as_str),
        Some("└─ deck 1 is excluded because too old")
    );
    assert_eq!(
        lines_then(&file, 0, 1).last().map(String::as_str),
        Some("└─ deck 1 is excluded because recalled")
    );
    assert_eq!(edges_then(&file, 0, 1).len(), 3);
}

#[test]
fn two_exclusions_by_one_reason_are_not_one_when_groups_are_made() {
    let (mut d, all) = with_reasons(wide(2));
    d.excludes(all[0], 0);
    d.excludes(all[1], 0);
    let file = d.file();
    assert_eq!(
        lines(&file),
        [
            "wide * cannot be installed because there are no viable options:",
            "└─ wide 0 | 1 is excluded because too old"
        ]
    );
    // The two packages no longer have the same edges.
    assert_eq!(lines_then(&file, 0, 0).len(), 3);
}

#[test]
fn groups_are_worked_out_afresh() {
    // Three alike: one leaves, and comes back to another that was excluded for that reason.
    let (mut d, all) = with_reasons(wide(3));
    d.needs(all[0], "codec 9", &[]);
    let variables = [d.of(all[1]), d.of(all[2])];
    variables.into_iter().for_each(|variable| {
        d.requires(variable, 1);
    });
    let alike = d.file();
    assert!(list(&alike)[2..].iter().all(|node| node.group == 2));
    let then = asked(&alike, 1, 0).expect("it can be asked");
    assert_eq!(
        then.iter().map(|node| node.group).collect::<Vec<_>>(),
        [0, 1, 2, 3, 2, 5]
    );
    let mut parted = d;
    parted.excludes(all[0], 0);
    let parted = parted.file();
    assert_eq!(
        list(&parted)
            .iter()
            .map(|node| node.group)
            .collect::<Vec<_>>(),
        [0, 1, 2, 3, 3, 5]
    );
    let then = asked(&parted, 2, 0).expect("it can be asked");
    assert_eq!(
        then.iter().map(|node| node.group).collect::<Vec<_>>(),
        [0, 1, 2, 3, 2, 5]
    );
    // Another reason keeps them apart.
    let then = asked(&parted, 2, 1).expect("it can be asked");
    assert!(then.iter().zip(0..).all(|(node, at)| node.group == at));
}

#[test]
fn the_smallest_file_whose_group_shows_in_another_order() {
    let mut d = Draft::new();
    let x = d.package("x", "1");
    let name = d.name("a");
    let pair = [d.solvable(name, "1"), d.solvable(name, "2")];
    d.root_needs("x *", &[x]);
    d.root_needs("a *", &pair);
    d.reason("too old");
    let file = d.file();
    // Unresolved went here, and the last package took its number; in the longer file the new node does.
    assert_eq!(
        lines_then(&file, 0, 0)[0..2],
        [
            "a * can be installed with any of the following options:",
            "└─ a 2 | 1"
        ]
    );
    d.excludes(x, 0);
    assert_eq!(
        lines(&d.file())[0..2],
        [
            "a * can be installed with any of the following options:",
            "└─ a 1 | 2"
        ]
    );
    let both = agree(
        &file,
        Question {
            solvable: 0,
            reason: 0,
        },
    );
    assert!(both.is_ok_and(|both| both.is_ok_and(|agreed| !agreed.members && !agreed.numbers)));
}

#[test]
fn labels_change_upwards_and_nowhere_else() {
    // a needs b, b needs c; d needs e; f needs either of b and e.
    let (mut d, all) = with_reasons(packages(&["a", "b", "c", "d", "e", "f", "g"]));
    d.needs(all[0], "b *", &all[1..2]);
    d.needs(all[1], "c *", &all[2..3]);
    d.needs(all[3], "e *", &all[4..5]);
    d.needs(all[5], "b or e", &[all[1], all[4]]);
    d.needs(all[6], "codec 9", &[]);
    let file = d.file();
    let installable = |nodes: &[Node]| -> Vec<u16> {
        let some = nodes
            .iter()
            .filter(|node| node.kind == 1 && node.installable == 1);
        some.map(|node| node.number).collect()
    };
    assert_eq!(installable(&list(&file)), [0, 1, 2, 3, 4, 5]);
    assert_eq!(
        installable(&asked(&file, 2, 0).expect("it can be asked")),
        [3, 4, 5]
    );
    assert_eq!(
        installable(&asked(&file, 0, 0).expect("it can be asked")),
        [1, 2, 3, 4, 5]
    );
    // A missing one is not missing any more once it is excluded, and what needs it is not either.
    let missing = |nodes: &[Node]| nodes.iter().filter(|node| node.missing == 1).count();
    assert_eq!(missing(&list(&file)), 2);
    assert_eq!(missing(&asked(&file, 6, 0).expect("it can be asked")), 1);
}

#[test]
fn the_root_changes_its_label_too() {
    let mut d = Draft::new();
    let x = d.package("x", "1");
    d.root_needs("x *", &[x]);
    d.reason("too old");
    let file = d.file();
    assert_eq!(labels(&list(&file)), [(1, 0), (1, 0)]);
    assert_eq!(
        labels(&asked(&file, 0, 0).expect("it can be asked")),
        [(0, 0); 3]
    );
}

#[test]
fn a_solvable_without_a_variable_can_be_asked_about() {
    let (d, all) = with_reasons(packages(&["deck", "panel"]));
    assert!(!d.variables.contains(&(1, all[1])));
    assert!(asked(&d.file(), 1, 0).is_ok());
    // Nor does it matter which of two variables would be named.
    let mut twice = d;
    twice.variable(1, all[1]);
    twice.variable(1, all[1]);
    assert!(asked(&twice.file(), 1, 0).is_ok());
}

#[test]
fn record_limits_are_set_aside() {
    // 1,024 clauses and 1,024 variables, none of them the package's.
    let (mut d, all) = with_reasons(packages(&["deck", "panel"]));
    while d.clauses.len() < 1_024 {
        d.core(kind::INSTALL_ROOT, [0; 3]);
    }
    let file = d.file();
    let then = asked(&file, 1, 1).expect("it can be asked");
    assert_eq!(
        then.last().map(|node| (node.kind, node.clause)),
        Some((3, 1_024))
    );
    let (mut d, _) = with_reasons(packages(&["deck", "panel"]));
    while d.variables.len() < 1_024 {
        d.other();
    }
    assert!(!d.variables.contains(&(1, all[0])));
    assert!(asked(&d.file(), 0, 0).is_ok());
    // As many bytes as a file may have.
    while d.clauses.len() < 1_000 {
        d.core(kind::INSTALL_ROOT, [0; 3]);
    }
    let mut file = d.file();
    while file.len() < 65_536 {
        file.extend(oracle::draft::record(kind::CANDIDATE, 0, [0, 0, 0], ""));
    }
    assert_eq!(file.len(), 65_536);
    assert!(asked(&file, 0, 0).is_ok());
}

#[test]
fn every_question_of_the_samples() {
    for (name, file) in samples::all() {
        let file = [
            file,
            oracle::draft::record(kind::REASON, 0, [0; 3], "asked").to_vec(),
        ]
        .concat();
        let Ok(problem) = Problem::read(&file) else {
            continue;
        };
        let (solvables, reasons, _) = problem.counts();
        for solvable in 0..solvables as u64 {
            for reason in 0..reasons as u64 {
                let then = asked(&file, solvable, reason);
                assert!(
                    then.is_ok() || then == Err(aired(&file)),
                    "{name} {solvable} {reason}: {then:?}"
                );
            }
        }
    }
    let file = samples::rack();
    for solvable in 0..45 {
        assert!(asked(&file, solvable, 0).is_ok());
    }
}
