//! What if this one were excluded too (document 02, order 10): refusals in their order, lists and rooms, each on a smallest file.
#![cfg(has_conflict_rs)]

mod common;

use common::{
    aired, asked, edges_then, list, packages, what_if, what_if_explain, wide, with_reasons,
};
use oracle::draft::Draft;
use oracle::reader::kind;
use oracle::{samples, Node};

const UNKNOWN: (u64, u64) = (4, 0);

#[test]
fn a_solvable_without_a_node_is_unknown() {
    let (mut d, all) = with_reasons(packages(&["deck", "panel"]));
    let spare = d.package("spare", "1");
    // A variable, a candidate of what nobody requires, and a lock in its favour add no node.
    d.of(spare);
    d.requirement("spare *", &[spare]);
    d.locks(spare, all[1]);
    let fields = [d.of(spare), 0, 0];
    d.clause(kind::EXCLUDED, false, fields);
    let file = d.file();
    assert_eq!(asked(&file, u64::from(spare), 0), Err(UNKNOWN));
    assert!(asked(&file, u64::from(all[1]), 0).is_ok());
}

#[test]
fn unknown_numbers_of_sixty_four_bits() {
    let (d, _) = with_reasons(packages(&["deck", "panel"]));
    let file = d.file();
    for far in [
        2,
        3,
        255,
        256,
        65_535,
        65_536,
        65_537,
        1 << 32,
        (1 << 32) | 1,
        1 << 63,
        u64::MAX,
    ] {
        assert_eq!(asked(&file, far, 0), Err(UNKNOWN), "{far}");
        assert_eq!(asked(&file, 0, far), Err(UNKNOWN), "{far}");
        assert_eq!(asked(&file, far, far), Err(UNKNOWN), "{far}");
    }
    assert_eq!(asked(&[], 0, 0), Err(UNKNOWN));
    assert_eq!(asked(&samples::replay(), 0, 0), Err(UNKNOWN));
}

#[test]
fn eight_counts_unresolved_even_where_it_has_gone() {
    // Root and 126 packages: 127 nodes, and with unresolved 128.
    let (d, _) = with_reasons(wide(126));
    assert_eq!(list(&d.file()).len(), 127);
    assert_eq!(asked(&d.file(), 0, 0), Err((8, 1)));
    let (d, _) = with_reasons(wide(125));
    assert_eq!(asked(&d.file(), 0, 0).map(|nodes| nodes.len()), Ok(127));
    // Where it stays, 128 are 128.
    let (mut d, all) = with_reasons(wide(126));
    d.needs(all[5], "codec 9", &[]);
    assert_eq!(list(&d.file()).len(), 128);
    assert_eq!(asked(&d.file(), 0, 0), Err((8, 2)));
    let (mut d, all) = with_reasons(wide(125));
    d.needs(all[5], "codec 9", &[]);
    assert_eq!(asked(&d.file(), 0, 0).map(|nodes| nodes.len()), Ok(128));
    // A reason that has a node wants no more room.
    let (mut d, all) = with_reasons(wide(125));
    d.excludes(all[7], 1);
    d.clause(kind::INSTALL_ROOT, false, [0; 3]);
    assert_eq!(list(&d.file()).len(), 127);
    assert_eq!(asked(&d.file(), 0, 1).map(|nodes| nodes.len()), Ok(127));
    assert_eq!(asked(&d.file(), 7, 1).map(|nodes| nodes.len()), Ok(127));
    assert_eq!(asked(&d.file(), 0, 0), Err((8, 3)));
}

/// 32 packages with so many edges from the root, one of them excluded by reason 0 if `excluded`.
fn thick(edges: usize, excluded: bool) -> Draft {
    let (mut d, all) = with_reasons(wide(32));
    let root = d.root();
    let mut made = 32;
    if excluded {
        d.excludes(all[0], 0);
        made += 1;
    }
    while made + 32 <= edges {
        d.requires(root, 0);
        made += 32;
    }
    if made < edges {
        d.root_needs("wide 1", &all[..edges - made]);
    }
    d
}

#[test]
fn eight_for_edge_1025() {
    let clauses = |d: &Draft| d.clauses.len() as u64;
    for excluded in [false, true] {
        let d = thick(1_024, excluded);
        for reason in [0, 1] {
            assert_eq!(asked(&d.file(), 1, reason), Err((8, clauses(&d))));
        }
        let d = thick(1_023, excluded);
        for reason in [0, 1] {
            assert!(asked(&d.file(), 1, reason).is_ok());
            assert_eq!(edges_then(&d.file(), 1, reason).len(), 1_024);
        }
    }
}

#[test]
fn four_before_eight_before_seventeen() {
    let full = |ring: bool| {
        let (mut d, all) = with_reasons(wide(126));
        if ring {
            d.needs(all[3], "ring *", &all[3..4]);
        }
        d.file()
    };
    assert_eq!(asked(&full(false), 0, 0), Err((8, 1)));
    assert_eq!(asked(&full(true), 0, 0), Err((8, 2)));
    for (solvable, reason) in [(126, 0), (0, 2), (65_536, 0), (0, u64::MAX)] {
        assert_eq!(asked(&full(false), solvable, reason), Err(UNKNOWN));
        assert_eq!(asked(&full(true), solvable, reason), Err(UNKNOWN));
    }
    let (mut d, all) = with_reasons(wide(20));
    d.needs(all[3], "ring *", &all[3..4]);
    assert_eq!(asked(&d.file(), 0, 0), Err((17, 5)));
    assert_eq!(asked(&d.file(), 20, 0), Err(UNKNOWN));
    assert_eq!(asked(&d.file(), 0, 2), Err(UNKNOWN));
    let mut thick = thick(1_023, false);
    let variable = thick.of(3);
    let wish = thick.requirement("ring *", &[3]);
    thick.requires(variable, wish);
    assert_eq!(
        asked(&thick.file(), 0, 0).map_err(|(number, _)| number),
        Err(8)
    );
}

#[test]
fn the_place_of_17_is_that_of_the_air_profile() {
    let with_reason = |file: Vec<u8>| {
        [
            file,
            oracle::draft::record(kind::REASON, 0, [0; 3], "too old").to_vec(),
        ]
        .concat()
    };
    for file in [
        samples::deck_and_panel(),
        samples::merged_pair(),
        samples::unequal_labels(),
    ] {
        let file = with_reason(file);
        assert_eq!(aired(&file).0, 17);
        assert_eq!(asked(&file, 0, 0), Err(aired(&file)));
    }
    // Conflicts make cycles too, and P10's text ends: the cycle is refused by its edges.
    let (mut d, all) = with_reasons(packages(&["deck", "panel", "codec"]));
    let set = d.version_set(0, "<2");
    d.constrains(all[0], all[1], set);
    assert!(asked(&d.file(), 2, 0).is_ok());
    d.constrains(all[1], all[0], set);
    assert_eq!(asked(&d.file(), 2, 0), Err((17, 2)));
    // A lock is no hindrance, nor are more than 64 nodes.
    assert_eq!(aired(&samples::rack()).0, 15);
    assert!(asked(&samples::rack(), 43, 0).is_ok());
    assert!(asked(&with_reasons(wide(100)).0.file(), 99, 1).is_ok());
}

#[test]
fn the_files_refusals_come_first_and_12_before_them() {
    let (mut d, all) = with_reasons(packages(&["deck"]));
    d.needs(all[0], "deck *", &all);
    let mut cut = d.file();
    cut.push(0);
    assert_eq!(asked(&cut, 9, 9), Err((1, 0)));
    let mut learnt = d.clone();
    learnt.core(kind::LEARNT, [0; 3]);
    assert_eq!(asked(&learnt.file(), 9, 9), Err((7, 2)));
    let mut lost = d.clone();
    let name = lost.name("lost");
    let one = lost.solvable(name, "1");
    lost.forbid(one, name);
    assert_eq!(
        asked(&lost.file(), 9, 9).map_err(|(number, _)| number),
        Err(9)
    );
    let (mut over, all) = with_reasons(wide(127));
    over.excludes(all[0], 0);
    assert_eq!(asked(&over.file(), 999, 9), Err((8, 0)));
    let mut wrong = d.file();
    wrong[2] = 1;
    assert_eq!(asked(&wrong, 0, 0), Err((4, 0)));
    for file in [
        &d.file(),
        &cut,
        &wrong,
        &samples::replay(),
        &samples::rack(),
    ] {
        for option in [2, 3, 255, 256, 1 << 32, (1 << 32) | 1, u64::MAX] {
            let mut room = [0xee; 300];
            let answer = what_if_explain(file, 0, 0, option, &mut room);
            let said = (answer.number, answer.place, answer.bytes);
            assert_eq!((said, answer.units, answer.depth), ((12, 0, 0), 0, 0));
            assert_eq!(room, [0xee; 300]);
        }
    }
}

#[test]
fn lists_of_every_length() {
    let (mut d, all) = with_reasons(packages(&["deck", "panel"]));
    d.needs(all[0], "codec 9", &[]);
    let file = d.file();
    let mark = Node {
        kind: 9,
        number: 9,
        group: 9,
        installable: 9,
        missing: 9,
        clause: 9,
    };
    // Root, unresolved, two packages and the new reason.
    for length in 0..=8 {
        let mut entries = vec![mark; length];
        let answer = what_if(&file, 0, 0, &mut entries);
        let said = (
            answer.number,
            answer.place,
            answer.bytes,
            answer.units,
            answer.depth,
        );
        if length < 5 {
            assert_eq!(said, (10, 0, 0, 0, 0));
            assert!(entries.iter().all(|&node| node == mark));
        } else {
            assert_eq!(said, (0, 0, 0, 1, 0));
            assert!(entries[..5].iter().all(|&node| node != mark));
            assert!(entries[5..].iter().all(|&node| node == mark));
        }
    }
    // A refusal of the question comes before that of the list.
    assert_eq!(what_if(&file, 2, 0, &mut []).number, 4);
}

#[test]
fn rooms_of_every_size() {
    let file = samples::rack();
    for option in [0, 1] {
        let mut whole = vec![0; 1 << 14];
        let done = what_if_explain(&file, 43, 0, option, &mut whole);
        assert_eq!((done.number, done.place), (0, 0));
        whole.truncate(done.bytes as usize);
        for size in 0..=whole.len() + 1 {
            let mut room = vec![0xee; size];
            let answer = what_if_explain(&file, 43, 0, option, &mut room);
            let fits = &whole[..size.min(whole.len())];
            let end = fits
                .iter()
                .rposition(|&b| b == b'\n')
                .map_or(0, |at| at + 1);
            let units = fits.iter().filter(|&&b| b == b'\n').count() as u64;
            let (number, place) = if size < whole.len() {
                (10, units)
            } else {
                (0, 0)
            };
            assert_eq!(
                (answer.number, answer.place, answer.bytes, answer.units),
                (number, place, end as u64, units)
            );
            assert!(room[..end] == whole[..end] && room[end..].iter().all(|&byte| byte == 0xee));
        }
    }
}
