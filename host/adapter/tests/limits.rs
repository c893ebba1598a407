//! What no file holds is an error that names it: each limit at its last value and behind it.

mod common;

use common::*;
use urzulempa_adapter::{Error, Fault, Table};

const DECK: Behind = ("deck", "1");

/// So many versions of deck, all required by the root, and nothing unresolved.
fn decks(count: usize) -> (Vec<TextNode>, Vec<Between>) {
    let deck = |version: usize| Solvable(("deck", kept(version.to_string())));
    let nodes: Vec<_> = [Root].into_iter().chain((1..=count).map(deck)).collect();
    let order = (2..=count).chain([1]).take(count);
    (nodes, order.map(|node| (0, node, Requires("deck *"))).collect())
}

fn rows_error(table: Table, rows: usize) -> Option<Error> {
    Some(Error::Rows { table, rows })
}

#[test]
fn nodes() {
    let (mut nodes, mut edges) = decks(126);
    assert!(file(&nodes, &edges).is_ok());
    // with unresolved 128
    nodes.insert(1, Unresolved);
    edges = (2..128).map(|node| (0, node, Requires("deck *"))).collect();
    edges.push((2, 1, Requires("codec")));
    assert!(file(&nodes, &edges).is_ok());
    // without it 128, since it was there while the graph was built
    let (nodes, edges) = decks(127);
    assert_eq!(file(&nodes, &edges), Err(Error::Nodes(129)));
    assert_eq!(Error::Nodes(129).to_string(), "129 nodes, unresolved counted: a graph holds 128");
}

#[test]
fn edges_and_clauses() {
    let set = Constrains(("deck", "<2"));
    for (count, error) in [(1_023, None), (1_024, Some(Error::Edges(1_025)))] {
        let mut edges = vec![(0, 1, Requires("deck *"))];
        edges.extend(vec![(1, 1, set); count]);
        assert_eq!(file(&[Root, Solvable(DECK)], &edges).err(), error, "{count}");
    }
    assert_eq!(Error::Edges(1_025).to_string(), "1025 edges: a graph holds 1024");
}

/// 1,024 edges, each with a clause of its own, and one clause more for a node that stands too early: the only way beyond 1,024.
#[test]
fn clauses_of_a_graph_that_fits() {
    let (one, two) = (Solvable(DECK), Solvable(("deck", "2")));
    let set = Constrains(("deck", "<2"));
    let edges = |first: usize, second: usize| {
        let mut edges = vec![(0, first, set), (0, second, set)];
        edges.extend(vec![(1, 2, set); 1_022]);
        edges
    };
    assert!(file(&[Root, one, two], &edges(2, 1)).is_ok());
    assert_eq!(file(&[Root, one, two], &edges(1, 2)).err(), rows_error(Table::Clauses, 1_025));
}

#[test]
fn names_and_reasons() {
    for (count, error) in [(128, None), (129, rows_error(Table::Names, 129))] {
        let mut edges = vec![(0, 1, Requires("deck *"))];
        edges.extend((1..count).map(|name| (0, 1, Constrains((kept(name.to_string()), "<2")))));
        assert_eq!(file(&[Root, Solvable(DECK)], &edges).err(), error, "{count} names");
    }
    for (count, error) in [(64, None), (65, rows_error(Table::Reasons, 65))] {
        let reason = |number: usize| Reason(kept(number.to_string()));
        let nodes: Vec<_> = [Root, reason(1), Solvable(DECK)].into_iter().chain((2..=count).map(reason)).collect();
        let mut edges = vec![(0, 2, Requires("deck *"))];
        edges.extend((3..=count + 1).chain([1]).map(|reason| (2, reason, Excluded)));
        assert_eq!(file(&nodes, &edges).err(), error, "{count} reasons");
    }
}

/// Every chain has a name of its own, made where no package's is free.
#[test]
fn names_of_chains() {
    for (count, error) in [(128, None), (129, rows_error(Table::Names, 129))] {
        let mut edges = vec![(0, 2, Requires("deck *")), (0, 1, Requires("deck *"))];
        edges.extend(vec![(2, 1, Forbid); count]);
        let nodes = [Root, Solvable(DECK), Solvable(("deck", "2"))];
        assert_eq!(file(&nodes, &edges).err(), error, "{count}");
    }
}

#[test]
fn solvables_version_sets_and_requirements() {
    type Numbered = fn(usize) -> TextEdge;
    let tables: [(Table, Numbered); 3] = [
        (Table::Solvables, |number| Locked(("deck", kept(number.to_string())))),
        (Table::VersionSets, |number| Constrains(("deck", kept(number.to_string())))),
        (Table::Requirements, |number| Requires(kept(number.to_string()))),
    ];
    for (table, edge) in tables {
        for (count, error) in [(256, None), (257, rows_error(table, 257))] {
            let edges: Vec<_> = (1..=count).map(|number| (0, 1, edge(number))).collect();
            assert_eq!(file(&[Root, Solvable(DECK)], &edges).err(), error, "{table:?} {count}");
        }
    }
    assert_eq!(rows_error(Table::VersionSets, 257).unwrap().to_string(), "257 version sets: a file holds 256");
}

/// 2,048 records: 1,024 edges of which each of 255 has its own requirement and candidate, others their own version set.
#[test]
fn records() {
    let graph = |locked: usize| {
        let mut edges: Vec<_> = (0..255).map(|number| (0, 1, Requires(kept(number.to_string())))).collect();
        edges.extend((0..256).map(|number| (0, 1, Constrains(("deck", kept(number.to_string()))))));
        edges.extend((0..locked).map(|number| (0, 1, Locked(("deck", kept((number + 2).to_string()))))));
        edges.resize(1_024, (0, 1, Locked(("deck", "2"))));
        file(&[Root, Solvable(DECK)], &edges)
    };
    // 1 name, 1 + n solvables, 256 sets, 255 requirements and as many candidates, 2 + n variables, 1,024 clauses
    assert_eq!(graph(127).unwrap().len(), 65_536);
    assert_eq!(graph(128), Err(Error::Records(2_050)));
    assert_eq!(Error::Records(2_050).to_string(), "2050 records: a file holds 2048 of 32 bytes");
}

#[test]
fn texts() {
    let long = "a text of twenty-four to";
    let longer = "a text of twenty-five to.";
    let all = |name, version, set, requirement, reason| {
        let nodes = [Root, Reason(reason), Solvable((name, version))];
        file(&nodes, &[(0, 2, Requires(requirement)), (0, 2, Constrains((name, set))), (2, 1, Excluded)])
    };
    assert!(all(long, long, long, long, long).is_ok());
    for bad in [longer, "", "caf\u{e9}", "a\tb", "\u{7f}"] {
        let found = [
            all(bad, "1", "<2", "deck *", "too old"),
            all("deck", bad, "<2", "deck *", "too old"),
            all("deck", "1", bad, "deck *", "too old"),
            all("deck", "1", "<2", bad, "too old"),
            all("deck", "1", "<2", "deck *", bad),
        ];
        let tables = [Table::Names, Table::Solvables, Table::VersionSets, Table::Requirements, Table::Reasons];
        for (found, table) in found.into_iter().zip(tables) {
            assert_eq!(found, Err(Error::Text { table, text: bad.into() }));
        }
    }
}

#[test]
fn what_is_said_of_texts() {
    let said = |table, text: &str| Error::Text { table, text: text.into() }.to_string();
    assert_eq!(said(Table::VersionSets, ">=1.2.3,<2.0.0a0,!=1.4.5.*"), r#"the version set ">=1.2.3,<2.0.0a0,!=1.4.5.*" has 26 bytes: a record holds 1 to 24"#);
    assert_eq!(said(Table::Solvables, ""), "a version is empty: a record holds 1 to 24 bytes");
    assert_eq!(
        said(Table::Reasons, "zu alt \u{2013} gesperrt"),
        "the reason \"zu alt – gesperrt\" has the character '–': a record holds spaces and visible ASCII characters only"
    );
}

#[test]
fn graphs_that_no_core_draws() {
    let (one, two) = (Solvable(DECK), Solvable(("deck", "2")));
    let required = (0, 1, Requires("deck *"));
    let fault = |nodes: &[TextNode], edges: &[Between]| match file(nodes, edges) {
        Err(Error::Graph(fault)) => fault,
        other => panic!("{other:?}"),
    };
    assert_eq!(fault(&[], &[]), Fault::NoRoot);
    assert_eq!(fault(&[one], &[]), Fault::NoRoot);
    assert_eq!(fault(&[Root, Root], &[]), Fault::Misplaced(1));
    assert_eq!(fault(&[Root, one, Unresolved], &[required]), Fault::Misplaced(2));
    assert_eq!(fault(&[Root, one, one], &[required]), Fault::Twice(2));
    assert_eq!(fault(&[Root, one], &[(0, 2, Requires("deck *"))]), Fault::NoNode(0));
    assert_eq!(fault(&[Root, one], &[required, (1, 0, Requires("deck *"))]), Fault::Ends(1));
    assert_eq!(fault(&[Root, one], &[required, (0, 1, Forbid)]), Fault::Ends(1));
    assert_eq!(fault(&[Root, one], &[required, (1, 1, Excluded)]), Fault::Ends(1));
    assert_eq!(fault(&[Root, one], &[required, (1, 1, Locked(DECK))]), Fault::Ends(1));
    // another list of candidates elsewhere, and one that is both offered and not
    let apart = [(0, 2, Requires("deck *")), (0, 1, Requires("deck *")), (2, 1, Requires("deck *"))];
    assert_eq!(fault(&[Root, one, two], &apart), Fault::Candidates(2));
    assert_eq!(fault(&[Root, Unresolved, one], &[(0, 2, Requires("deck *")), (0, 1, Requires("deck *"))]), Fault::Candidates(0));
    // a package that no edge leads to, and a reason before the package that it is for
    assert_eq!(fault(&[Root, one], &[]), Fault::Unmade(1));
    let reason = Reason("too old");
    assert_eq!(fault(&[Root, one, reason], &[required, (1, 2, Excluded)]), Fault::Unmade(2));
    // unresolved that nothing leads to, and a package that only leads to itself
    assert_eq!(fault(&[Root, Unresolved], &[]), Fault::Unreached(1));
    let apart = [required, (2, 2, Forbid)];
    assert_eq!(fault(&[Root, one, two], &apart), Fault::Unreached(2));
    assert_eq!(Error::Graph(Fault::NoRoot).to_string(), "node 0 is not the root: no core of a record file draws this graph");
}
