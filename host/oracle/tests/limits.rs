//! Every refusal at its limit: one short of it, at it, one past it.
#![cfg(has_conflict_rs)]

mod common;

use common::{checked, drawn, told, ACCEPTED};
use oracle::draft::{record, Draft};
use oracle::generate::limits::{edges, holding, nodes, Table};
use oracle::samples;

#[test]
fn lengths() {
    let good = record(16, 0, [0; 3], "");
    for (length, number) in [(31, 1), (32, 0), (33, 1)] {
        let mut file = good.to_vec();
        file.resize(length, 0);
        assert_eq!(checked(&file), (number, 0));
    }
    let mut d = Draft::new();
    d.variables.resize(1_024, (5, 0));
    d.requirements.resize(256, "x".to_string());
    d.clauses.resize(
        767,
        oracle::draft::DraftClause {
            kind: 16,
            core: true,
            fields: [0; 3],
        },
    );
    for (more, number) in [(0, 0), (1, 0), (2, 1)] {
        let mut file = d.file();
        file.extend_from_slice(&good.repeat(more));
        assert_eq!(file.len(), 65_504 + 32 * more);
        assert_eq!(checked(&file), (number, 0));
    }
}

#[test]
fn kinds() {
    for kind in 0..=255 {
        let known = matches!(kind, 1..=8 | 16..=25);
        let (number, place) = checked(&record(kind, 0, [0; 3], ""));
        assert_eq!((number == 2, place), (!known, 0), "kind {kind}");
    }
}

#[test]
fn text_lengths_and_bytes() {
    for (length, number) in [(0, 3), (1, 0), (2, 0), (23, 0), (24, 0), (25, 3), (255, 3)] {
        let mut bytes = record(1, 0, [0; 3], "");
        bytes[1] = length;
        bytes[8..8 + usize::from(length).min(24)].fill(b'x');
        assert_eq!(checked(&bytes), (number, 0), "length {length}");
    }
    for (byte, number) in [
        (0, 3),
        (31, 3),
        (32, 0),
        (33, 0),
        (125, 0),
        (126, 0),
        (127, 3),
    ] {
        let mut bytes = record(1, 0, [0; 3], "x");
        bytes[8] = byte;
        assert_eq!(checked(&bytes), (number, 0), "byte {byte}");
    }
}

#[test]
fn flags_and_origins() {
    for (flag, number) in [(0, 0), (1, 0), (2, 3)] {
        assert_eq!(checked(&record(16, flag, [0; 3], "")), (number, 0));
    }
    for (origin, number) in [(4, 0), (5, 0), (6, 3)] {
        assert_eq!(checked(&record(7, 0, [0, origin, 0], "")), (number, 0));
    }
}

#[test]
fn own_numbers() {
    for (own, number) in [(0, 4), (1, 0), (2, 4)] {
        let mut file = record(1, 0, [0; 3], "x").to_vec();
        file.extend_from_slice(&record(1, 0, [own, 0, 0], "y"));
        assert_eq!(checked(&file), (number, if number == 0 { 0 } else { 1 }));
    }
}

#[test]
fn references() {
    for (name, number) in [(0, 0), (1, 0), (2, 4)] {
        let mut d = Draft::new();
        d.name("a");
        d.name("b");
        d.solvable(name, "1");
        assert_eq!(
            checked(&d.file()),
            (number, if number == 0 { 0 } else { 2 })
        );
    }
}

#[test]
fn tables() {
    for table in Table::ALL {
        let limit = table.limit();
        assert_eq!(checked(&holding(table, limit - 1)), ACCEPTED, "{table:?}");
        assert_eq!(checked(&holding(table, limit)), ACCEPTED, "{table:?}");
        let (number, _) = checked(&holding(table, limit + 1));
        assert_eq!(number, 6, "{table:?}");
    }
}

#[test]
fn origins_of_every_slot() {
    // Variable n has origin n; each slot lists the origins that it takes.
    let mut d = Draft::new();
    d.package("deck", "1");
    d.version_set(0, "<2");
    d.requirement("deck *", &[]);
    d.reason("too old");
    for origin in 0..6 {
        d.variable(origin, 0);
    }
    let all: &[u16] = &[0, 1, 2, 3, 4, 5];
    let slots: [(u8, &[u16], &[u16]); 8] = [
        (17, &[1], &[]),
        (19, &[0, 1, 3], &[]),
        (20, &[1], &[1]),
        (21, &[1], &[2]),
        (22, &[0, 1], &[1]),
        (23, &[0, 1], &[4]),
        (24, &[1], &[4]),
        (25, all, all),
    ];
    for (kind, of_a, of_b) in slots {
        for a in 0..6 {
            for b in if of_b.is_empty() { 0..1 } else { 0..6 } {
                let mut file = d.file();
                let place = (file.len() / 32) as u64;
                file.extend_from_slice(&record(kind, 0, [a, b, 0], ""));
                let fits = of_a.contains(&a) && (of_b.is_empty() || of_b.contains(&b));
                let wanted = if fits { ACCEPTED } else { (5, place) };
                assert_eq!(checked(&file), wanted, "kind {kind} a {a} b {b}");
            }
        }
    }
}

#[test]
fn nodes_and_edges() {
    assert_eq!(checked(&nodes(127)), ACCEPTED);
    assert_eq!(checked(&nodes(128)), ACCEPTED);
    assert_eq!(checked(&nodes(129)), (8, 0));
    for count in [1_023, 1_024] {
        assert_eq!(checked(&edges(count)), ACCEPTED);
        assert_eq!(common::edges(&edges(count)), count);
    }
    assert_eq!(checked(&edges(1_025)), (8, 32));
}

#[test]
fn rooms_of_every_length() {
    let file = samples::replay();
    for call in [common::explain, common::graphviz] {
        let mut whole = [0; 1_000];
        let done = call(&file, 0, &mut whole);
        for length in 0..=done.bytes as usize + 1 {
            let mut room = vec![0xee; length];
            let answer = call(&file, 0, &mut room);
            let at = answer.bytes as usize;
            assert_eq!(room[..at], whole[..at]);
            assert!(room[at..].iter().all(|&byte| byte == 0xee));
            if length < done.bytes as usize {
                assert_eq!((answer.number, answer.place), (10, answer.units));
            } else {
                assert_eq!(answer, done);
            }
        }
    }
}

#[test]
fn options() {
    let file = samples::replay();
    for (option, number) in [(0, 0), (1, 0), (2, 12)] {
        assert_eq!(told(&file, option).0.number, number);
        assert_eq!(drawn(&file, option).0.number, number);
    }
}

#[test]
fn a_package_below_itself_with_one_merged_or_none_between() {
    // P9 without a merged package between, P10 with one.
    assert_eq!(told(&samples::deck_and_panel(), 0).0.number, 11);
    assert_eq!(told(&samples::merged_pair(), 0).0.number, 0);
}

#[test]
fn one_node_that_is_not_reached() {
    let mut d = Draft::new();
    let name = d.name("deck");
    let (one, two) = (d.solvable(name, "1"), d.solvable(name, "2"));
    d.root_needs("deck *", &[one]);
    assert_eq!(checked(&d.file()), ACCEPTED);
    d.forbid(two, name);
    assert_eq!(checked(&d.file()).0, 9);
    d.root_needs("deck 2", &[two]);
    assert_eq!(checked(&d.file()), ACCEPTED);
}
