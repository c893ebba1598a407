//! The adapter over conflict.rs's own types (host/adapter/resolvo/graph.rs): its file draws the graph that it was made from. `compare
//! adapter` holds that on any number of generated graphs, texts and drawings among it.
#![cfg(has_conflict_rs)]

mod common;

use oracle::draft::Draft;
use oracle::{adapted, Problem};
use urzulempa_adapter::{Error, Table};

/// The adapter's file of a load that is drawn.
fn again(file: &[u8]) -> Result<Vec<u8>, Error> {
    adapted(file).expect("conflict.rs draws the load")
}

/// The nodes as they are shown, in the order of their numbers, by way of the wall's text.
fn shown(file: &[u8]) -> Vec<String> {
    let mut room = vec![0; 1 << 16];
    let answer = oracle::tgf(file, &mut room);
    assert_eq!(answer.number, 0);
    let text = String::from_utf8_lossy(&room[..answer.bytes as usize]).into_owned();
    text.lines().map(str::to_string).collect()
}

/// The same nodes and edges under the same numbers; the file of the file is the file.
fn drawn_again(file: &[u8]) -> Vec<u8> {
    let made = again(file).expect("the adapter writes it");
    assert_eq!(shown(file), shown(&made));
    assert_eq!(again(&made), Ok(made.clone()));
    made
}

#[test]
fn every_sample_is_drawn_again() {
    for (name, file) in oracle::samples::all() {
        let made = drawn_again(&file);
        assert!(made.len() <= file.len(), "{name}");
    }
    let replay = oracle::samples::all()
        .into_iter()
        .find(|(name, _)| *name == "replay.rec");
    let (_, replay) = replay.expect("it is one of them");
    assert_eq!(again(&replay), Ok(replay));
}

/// "A clause that adds a node by itself": deck 1 and panel 1 are added by the first clauses under their names, deck 2 by the
/// requirement, which comes to deck 1 first. A way that looks at edges alone gives panel 1, deck 1, deck 2.
#[test]
fn a_clause_that_adds_a_node_without_an_edge_keeps_the_order() {
    let mut d = Draft::new();
    let (deck, panel) = (d.name("deck"), d.name("panel"));
    let (one, two) = (d.solvable(deck, "1"), d.solvable(deck, "2"));
    let other = d.solvable(panel, "1");
    d.forbid(one, deck);
    d.forbid(other, panel);
    d.root_needs("deck *", &[one, two]);
    d.root_needs("panel *", &[other]);
    let file = d.file();
    assert_eq!(
        shown(&file)[..4],
        ["0 <root>", "1 deck 2", "2 deck 1", "3 panel 1"]
    );
    drawn_again(&file);
}

/// Gates and auxiliaries are edges by then; what a record 8 recovers too.
#[test]
fn gates_and_auxiliaries_become_plain_clauses() {
    let mut d = Draft::new();
    let deck = d.name("deck");
    let all: Vec<u16> = ["1", "2", "3"]
        .into_iter()
        .map(|version| d.solvable(deck, version))
        .collect();
    d.root_needs("deck *", &all);
    let (gate, auxiliary, set) = (d.gate(), d.auxiliary(), d.version_set(deck, "<2"));
    let requirement = d.requirement("codec 9", &[]);
    let variables: Vec<u16> = all.iter().map(|&solvable| d.of(solvable)).collect();
    d.core(25, [gate, variables[0], 0]);
    d.core(25, [gate, variables[1], 0]);
    d.requires(gate, requirement);
    d.parent(variables[1], auxiliary, set);
    d.parent(variables[2], auxiliary, set);
    d.excluded(variables[0], auxiliary, set);
    d.excluded(variables[1], auxiliary, set);
    let made = drawn_again(&d.file());
    let kinds: Vec<u8> = made
        .chunks(32)
        .map(|record| record[0])
        .filter(|kind| *kind > 8)
        .collect();
    assert_eq!(kinds, [19, 19, 19, 22, 22, 22, 22]);
}

/// The only graphs within 128 nodes and 1,024 edges that a record file draws and the adapter has none for: constraints that the
/// solver shares, written pair by pair, are more clauses or records than a file holds. 32 sides by 32 are 1,024 edges of 64 clauses,
/// and fit as pairs, too; with one clause more, for a node that stands too early, they don't.
#[test]
fn shared_constraints_may_be_too_many_pairs() {
    let load = |early: bool| {
        let mut d = Draft::new();
        let name = d.name("deck");
        let all: Vec<u16> = (1..=32)
            .map(|version| d.solvable(name, &version.to_string()))
            .collect();
        let (auxiliary, set) = (d.auxiliary(), d.version_set(name, "<2"));
        if early {
            d.forbid(all[31], name);
        }
        let root = d.root();
        let sides: Vec<u16> = all.iter().map(|&solvable| d.of(solvable)).collect();
        for &side in [root].iter().chain(&sides[..31]) {
            d.parent(side, auxiliary, set);
        }
        for &side in &sides {
            d.excluded(side, auxiliary, set);
        }
        d.file()
    };
    let (fits, beyond) = (load(false), load(true));
    for file in [&fits, &beyond] {
        let problem = Problem::read(file).expect("the reader takes it");
        assert_eq!(problem.edges().map(|edges| edges.len()), Ok(1_024));
    }
    drawn_again(&fits);
    let table = Table::Clauses;
    assert_eq!(again(&beyond), Err(Error::Rows { table, rows: 1_025 }));
}

/// An endless load: the adapter's file is explained up to refusal 11, and to its end in edition 2. conflict.rs itself would go on.
#[test]
fn endless_text_is_cured() {
    let (_, file) = oracle::samples::all()
        .into_iter()
        .find(|(name, _)| *name == "deck-panel.rec")
        .expect("a sample");
    let made = drawn_again(&file);
    let mut room = vec![0; 4_096];
    assert_eq!(urzulempa::explain(&made, 1, &mut room).number, 11);
    assert_eq!(urzulempa::explain_edition(&made, 2, 1, &mut room).number, 0);
    let rules = oracle::rules(&file, true, &mut vec![0; 1 << 20], 500).expect("it is drawn");
    assert_eq!((rules.ended, rules.lines), (false, 500));
}

/// A load where `Conflict::graph` itself stops has no graph to adapt: the assert that the root reaches every node. The library's own
/// answer is 9; it takes the writer inside resolvo to hand it such a load.
#[test]
fn a_load_without_a_graph_needs_the_other_writer() {
    let mut d = Draft::new();
    let (deck, codec) = (d.package("deck", "1"), d.package("codec", "9"));
    d.root_needs("deck *", &[deck]);
    d.needs(codec, "driver *", &[]);
    let file = d.file();
    assert_eq!(adapted(&file).map_err(|refusal| refusal.number), Err(9));
    let written = oracle::writer::again(&file)
        .expect("the reader takes it")
        .expect("the writer, too");
    assert_eq!(urzulempa::check(&written).number, 9);
}

#[test]
fn three_thousand_graphs_are_drawn_again() {
    let mut seen = 0;
    for index in 0..4_000 {
        let (shape, seed) = oracle::generate::pick(index, 17);
        let Some(file) = oracle::generate::file(shape, seed) else {
            continue;
        };
        if oracle::check(&file).number == 0 {
            drawn_again(&file);
            seen += 1;
        }
    }
    assert!(seen > 3_000, "{seen} graphs");
}
