//! The air profile (document 02, order 9), each point on a smallest file, and what the order states of all files.
#![cfg(has_conflict_rs)]

mod common;

use std::collections::{BTreeSet, HashSet};

use common::{aired, edge_list, explain_air, list, packages, wide, ACCEPTED};
use oracle::draft::Draft;
use oracle::reader::kind;
use oracle::{generate, samples, Edge, Node, Problem};

/// What the nodes' solvables are numbered.
fn solvables(file: &[u8]) -> Vec<u16> {
    let nodes = list(file).into_iter().filter(|node| node.kind == 1);
    nodes.map(|node| node.number).collect()
}

#[test]
fn the_samples_of_document_01() {
    assert_eq!(aired(&samples::replay()), ACCEPTED);
    assert_eq!(aired(&samples::lone_package()), ACCEPTED);
    // Unresolved goes, and the newest node takes its number: panel's and the pair's second member's.
    assert_eq!(aired(&samples::deck_and_panel()), (17, 1));
    assert_eq!(aired(&samples::merged_pair()), (17, 1));
    assert_eq!(aired(&samples::rack()), (15, 29));
    assert_eq!(aired(&[]), ACCEPTED);
}

#[test]
fn seventeen_comes_after_sixteen_after_fifteen() {
    let made = |lock: bool, nodes: usize, ring: bool| {
        let (mut d, all) = wide(nodes - 1);
        if ring {
            d.needs(all[3], "ring *", &all[3..4]);
        }
        if lock {
            d.locks(all[0], all[1]);
        }
        d.file()
    };
    let (small, large) = (10, 65);
    assert_eq!(aired(&made(false, small, false)), ACCEPTED);
    assert_eq!(aired(&made(false, small, true)), (17, 5));
    assert_eq!(aired(&made(false, large, false)), (16, 0));
    assert_eq!(aired(&made(false, large, true)), (16, 0));
    assert_eq!(aired(&made(true, small, false)), (15, 1));
    assert_eq!(aired(&made(true, small, true)), (15, 2));
    assert_eq!(aired(&made(true, large, false)), (15, 1));
    assert_eq!(aired(&made(true, large, true)), (15, 2));
}

#[test]
fn refusals_1_to_9_come_first_and_12_before_them() {
    let (mut d, all) = packages(&["deck"]);
    d.needs(all[0], "deck *", &all);
    d.locks(all[0], all[0]);
    let mut cut = d.file();
    cut.push(0);
    assert_eq!(aired(&cut), (1, 0));
    let mut learnt = d.clone();
    learnt.core(kind::LEARNT, [0; 3]);
    assert_eq!(aired(&learnt.file()), (7, 3));
    let mut lost = d.clone();
    let name = lost.name("lost");
    let one = lost.solvable(name, "1");
    lost.forbid(one, name);
    assert_eq!(aired(&lost.file()).0, 9);
    let (full, _) = wide(127);
    let mut locked = full.clone();
    locked.locks(0, 1);
    assert_eq!(aired(&locked.file()), (8, 0));
    for file in [&d.file(), &cut, &locked.file(), &samples::replay()] {
        for option in [2, 3, 255, 256, 1 << 32, (1 << 32) | 1, u64::MAX] {
            let mut room = [0xee; 300];
            let answer = explain_air(file, option, &mut room);
            let said = (answer.number, answer.place, answer.bytes);
            assert_eq!((said, answer.units, answer.depth), ((12, 0, 0), 0, 0));
            assert_eq!(room, [0xee; 300]);
        }
    }
}

#[test]
fn a_lock_outside_the_core_does_not_count() {
    let (mut d, all) = packages(&["deck", "panel"]);
    let fields = [d.of(all[0]), d.of(all[1]), 0];
    d.clause(kind::LOCK, false, fields);
    assert_eq!(aired(&d.file()), ACCEPTED);
    // Not even where a record 8 names it.
    let mut named = d.clone();
    let gate = named.gate();
    named.assign(gate, 1);
    named.requires(gate, 0);
    assert_eq!(aired(&named.file()), ACCEPTED);
    // The first in the core counts, by its number among all clauses, also where others outside stand before it.
    d.core(kind::INSTALL_ROOT, [0; 3]);
    d.clause(kind::LOCK, false, fields);
    d.locks(all[1], all[0]);
    d.locks(all[0], all[1]);
    assert_eq!(aired(&d.file()), (15, 4));
}

#[test]
fn a_lock_counts_though_it_adds_no_cycle_and_whatever_it_names() {
    let mut d = Draft::new();
    let deck = d.package("deck", "1");
    d.locks(deck, deck);
    assert_eq!(aired(&d.file()), (15, 0));
}

#[test]
fn the_same_solvable_twice_in_a_row_is_a_self_edge() {
    let (mut d, all) = packages(&["deck", "panel"]);
    d.forbid(all[1], 1);
    assert_eq!(aired(&d.file()), ACCEPTED);
    let mut twice = d.clone();
    twice.forbid(all[1], 1);
    let file = twice.file();
    let edges = edge_list(&file);
    let own = edges.iter().find(|e| e.source == e.target);
    assert!(own.is_some_and(|e| e.kind == 3));
    // Unresolved went: panel, the newest, is node 1.
    assert_eq!(solvables(&file), [all[1], all[0]]);
    assert_eq!(aired(&file), (17, 1));
    // Under two names it is none.
    let mut apart = d.clone();
    apart.forbid(all[1], 0);
    assert_eq!(aired(&apart.file()), ACCEPTED);
    // With another in between the two make a ring.
    d.forbid(all[0], 1);
    d.forbid(all[1], 1);
    assert_eq!(aired(&d.file()), (17, 1));
}

#[test]
fn self_edges_by_requires_constrains_and_an_auxiliary() {
    let made = |link: &dyn Fn(&mut Draft, u16)| {
        let (mut d, all) = packages(&["deck", "panel"]);
        d.needs(all[0], "codec 9", &[]);
        link(&mut d, all[1]);
        d.file()
    };
    let set = |d: &mut Draft| d.version_set(0, "<2");
    let by_requires = made(&|d, x| {
        d.needs(x, "panel *", &[x]);
    });
    let by_constrains = made(&|d, x| {
        let set = set(d);
        d.constrains(x, x, set);
    });
    let by_auxiliary = made(&|d, x| {
        let (set, auxiliary, variable) = (set(d), d.auxiliary(), d.of(x));
        d.parent(variable, auxiliary, set);
        d.excluded(variable, auxiliary, set);
    });
    for file in [by_requires, by_constrains, by_auxiliary] {
        // Root, unresolved, which stays, deck, panel.
        assert_eq!(aired(&file), (17, 3));
    }
}

#[test]
fn a_cycle_through_conflict_edges_only() {
    let (mut d, all) = packages(&["codec", "deck", "panel"]);
    let set = d.version_set(0, "<2");
    d.needs(all[0], "driver 9", &[]);
    d.constrains(all[1], all[2], set);
    assert_eq!(aired(&d.file()), ACCEPTED);
    // By another kind back, and with no Requires between them.
    let name = d.name("apart");
    d.forbid(all[2], name);
    d.forbid(all[1], name);
    let file = d.file();
    let between = |e: &Edge| e.source > 1 && e.target > 1;
    assert!(edge_list(&file)
        .iter()
        .all(|e| !between(e) || e.kind == 2 || e.kind == 3));
    assert_eq!(aired(&file), (17, 3));
    // Without that cycle a text of it would end, and its answer is no 11: the cycle is refused by its edges alone.
    assert_eq!(common::told(&file, 0).0.number, 0);
}

#[test]
fn a_cycle_of_mixed_edges_and_of_merged_packages() {
    let (mut d, all) = packages(&["deck", "panel"]);
    let set = d.version_set(0, "<2");
    d.needs(all[0], "panel *", &all[1..]);
    d.constrains(all[1], all[0], set);
    assert_eq!(aired(&d.file()), (17, 1));
    // P10's text ends, since the pair is shown once: the profile refuses it all the same.
    let pair = samples::merged_pair();
    assert_eq!(common::told(&pair, 0).0.number, 0);
    assert_eq!(aired(&pair).0, 17);
}

#[test]
fn parallel_edges_and_a_diamond_are_no_cycle() {
    let (mut d, all) = packages(&["deck", "left", "right", "codec"]);
    d.needs(all[0], "side *", &all[1..3]);
    d.needs(all[1], "codec *", &all[3..]);
    d.needs(all[2], "codec *", &all[3..]);
    d.needs(all[2], "codec *", &all[3..]);
    let reason = d.reason("too old");
    d.excludes(all[3], reason);
    d.excludes(all[2], reason);
    assert_eq!(aired(&d.file()), ACCEPTED);
}

#[test]
fn nodes_are_counted_after_unresolved_may_have_gone() {
    // Root and 63 packages: 65 nodes while it is built, 64 when unresolved has gone.
    let (d, all) = wide(63);
    assert_eq!(list(&d.file()).len(), 64);
    assert_eq!(aired(&d.file()), ACCEPTED);
    // With something missing it stays.
    let mut missing = d.clone();
    missing.needs(all[5], "codec 9", &[]);
    assert_eq!(list(&missing.file()).len(), 65);
    assert_eq!(aired(&missing.file()), (16, 0));
    let (mut d, all) = wide(62);
    d.needs(all[5], "codec 9", &[]);
    assert_eq!(list(&d.file()).len(), 64);
    assert_eq!(aired(&d.file()), ACCEPTED);
    // A reason is a node too, also the second one of the same text.
    let reasons = [d.reason("too old"), d.reason("too old")];
    d.excludes(all[1], reasons[0]);
    assert_eq!(aired(&d.file()), (16, 0));
    let (mut d, all) = wide(62);
    d.reason("unused");
    d.reason("too old");
    d.excludes(all[1], 1);
    d.excludes(all[2], 1);
    assert_eq!(list(&d.file()).len(), 64);
    assert_eq!(aired(&d.file()), ACCEPTED);
    let (d, _) = wide(64);
    assert_eq!(list(&d.file()).len(), 65);
    assert_eq!(aired(&d.file()), (16, 0));
}

#[test]
fn solvables_without_a_node_do_not_count() {
    let (mut d, _) = wide(63);
    for i in 0..40 {
        d.solvable(0, &format!("unused {i}"));
    }
    assert_eq!(aired(&d.file()), ACCEPTED);
}

#[test]
fn the_place_of_17_is_the_lowest_node_on_a_cycle_and_not_one_that_leads_there() {
    // Root, unresolved (it stays), then a to e in order. a leads to the ring of c and d, b is beside it, e hangs on it.
    let (mut d, all) = packages(&["a", "b", "c", "d", "e"]);
    d.needs(all[1], "codec 9", &[]);
    d.needs(all[0], "d *", &all[3..4]);
    d.needs(all[3], "c *", &all[2..3]);
    d.needs(all[2], "d *", &all[3..]);
    let file = d.file();
    assert_eq!(solvables(&file), all);
    assert_eq!(aired(&file), (17, 4));
    // A second ring, found later by any walk along the edges, with a lower node.
    d.needs(all[4], "b *", &all[1..2]);
    d.needs(all[1], "e *", &all[4..]);
    assert_eq!(aired(&d.file()), (17, 3));
}

#[test]
fn the_place_is_a_node_and_not_a_solvable_or_a_clause() {
    let mut d = Draft::new();
    let all: Vec<u16> = (0..4).map(|i| d.package(&format!("p{i}"), "1")).collect();
    d.core(kind::INSTALL_ROOT, [0; 3]);
    // The candidates come last first, so that p3 has node 2 and p0 node 5.
    let turned: Vec<u16> = all.iter().rev().copied().collect();
    d.root_needs("all *", &turned);
    d.needs(all[3], "codec 9", &[]);
    d.needs(all[0], "p1 *", &all[1..2]);
    d.needs(all[1], "p0 *", &all[..1]);
    let file = d.file();
    assert_eq!(solvables(&file), turned);
    assert_eq!(aired(&file), (17, 4));
}

#[test]
fn rings_of_every_length_that_fits() {
    for length in 1..=62 {
        let mut d = Draft::new();
        let name = d.name("row");
        let all: Vec<u16> = (0..62).map(|i| d.solvable(name, &i.to_string())).collect();
        d.root_needs("row *", &all[..1]);
        d.needs(all[0], "codec 9", &[]);
        // The ring takes the last packages, and the ones before lead to it one after the other.
        for two in all.windows(2) {
            d.needs(two[0], "next *", &two[1..]);
        }
        assert_eq!(aired(&d.file()), ACCEPTED);
        let first = 62 - length;
        d.needs(all[61], "back *", &all[first..=first]);
        assert_eq!(aired(&d.file()), (17, 2 + first as u64));
    }
}

#[test]
fn nothing_lent_changes_on_15_to_17() {
    let (large, _) = wide(80);
    let ring = samples::deck_and_panel();
    for (file, number) in [(samples::rack(), 15), (large.file(), 16), (ring, 17)] {
        for option in [0, 1] {
            for size in [0, 1, 31, 64, 100, 1_000, 1 << 16] {
                let mut room: Vec<u8> = (0..size).map(|at| (at * 7 + at / 251) as u8).collect();
                let before = room.clone();
                let answer = explain_air(&file, option, &mut room);
                assert_eq!(answer.number, number);
                assert_eq!((answer.bytes, answer.units, answer.depth), (0, 0, 0));
                assert_eq!(room, before);
            }
        }
    }
}

#[test]
fn ten_leaves_the_whole_lines_that_fit_in_every_room() {
    for option in [0, 1] {
        let file = samples::replay();
        let mut whole = vec![0; 4_096];
        let done = explain_air(&file, option, &mut whole);
        assert_eq!((done.number, done.units, done.depth), (0, 3, 1));
        whole.truncate(done.bytes as usize);
        for size in 0..=whole.len() + 1 {
            let mut room = vec![0xee; size];
            let answer = explain_air(&file, option, &mut room);
            let fits = &whole[..size.min(whole.len())];
            let end = fits
                .iter()
                .rposition(|&b| b == b'\n')
                .map_or(0, |at| at + 1);
            let units = fits.iter().filter(|&&b| b == b'\n').count() as u64;
            let number = if size < whole.len() { 10 } else { 0 };
            let place = if number == 10 { units } else { 0 };
            let said = (answer.number, answer.place, answer.bytes, answer.units);
            assert_eq!(said, (number, place, end as u64, units));
            assert!(room[end..].iter().all(|&byte| byte == 0xee));
        }
    }
}

/// The lowest node that leads back to itself by one or more edges, by walking from each.
fn leads_back(nodes: usize, edges: &[Edge]) -> Option<u64> {
    let reached = |from: usize| {
        let mut reached = HashSet::new();
        let mut next = vec![from as u16];
        while let Some(here) = next.pop() {
            for edge in edges.iter().filter(|e| e.source == here) {
                if reached.insert(edge.target) {
                    next.push(edge.target);
                }
            }
        }
        reached
    };
    let back = (0..nodes).find(|&node| reached(node).contains(&(node as u16)));
    back.map(|node| node as u64)
}

/// Both labels of each node by document 01's rules "without 'already'": a target has a label by the same rules, wherever it stands.
/// There has to be no cycle.
fn labels(nodes: &[Node], edges: &[Edge]) -> Vec<(bool, bool)> {
    fn of(
        at: usize,
        nodes: &[Node],
        edges: &[Edge],
        known: &mut [Option<(bool, bool)>],
    ) -> (bool, bool) {
        if let Some(label) = known[at] {
            return label;
        }
        let is_conflict = |e: &&Edge| e.kind != 0;
        // petgraph hands out the newest edge first; runs are the same stretches either way.
        let out: Vec<&Edge> = edges
            .iter()
            .filter(|e| usize::from(e.source) == at)
            .collect();
        let excluded = edges
            .iter()
            .any(|e| usize::from(e.target) == at && e.kind == 4);
        let conflict = out.iter().any(is_conflict);
        let mut runs: Vec<(u16, Vec<(bool, bool)>)> = Vec::new();
        for edge in out.into_iter().filter(|e| !is_conflict(e)) {
            let label = of(usize::from(edge.target), nodes, edges, known);
            match runs.last_mut() {
                Some((named, run)) if *named == edge.named => run.push(label),
                _ => runs.push((edge.named, vec![label])),
            }
        }
        let unresolved = nodes[at].kind == 2;
        let there = nodes.iter().any(|node| node.kind == 2);
        let offered = runs.iter().all(|(_, run)| run.iter().any(|label| label.0));
        let lacking = runs.iter().any(|(_, run)| run.iter().all(|label| label.1));
        let label = (
            !unresolved && !excluded && !conflict && offered,
            there && (unresolved || !conflict && lacking),
        );
        known[at] = Some(label);
        label
    }
    let mut known = vec![None; nodes.len()];
    (0..nodes.len())
        .map(|at| of(at, nodes, edges, &mut known))
        .collect()
}

#[test]
fn inside_the_profile_11_never_comes_and_labels_need_no_already() {
    let mut room = vec![0xee; 1 << 20];
    let (mut inside, mut missing, mut cut) = (0, 0, 0);
    let mut refused = [0; 18];
    let mut places = BTreeSet::new();
    for index in 0..12_000 {
        let (shape, seed) = generate::pick_air(index, 9);
        let file = generate::file(shape, seed).expect("a shape");
        let Ok(problem) = Problem::read(&file) else {
            continue;
        };
        let (Ok(model), Ok(edges)) = (problem.model(), problem.edges()) else {
            continue;
        };
        let nodes = model.nodes();
        let back = leads_back(nodes.len(), &edges);
        assert_eq!(
            back,
            model.lowest_on_cycle().map(|at| at as u64),
            "{shape} {seed}"
        );
        match model.air() {
            Err(refusal) => {
                refused[refusal.number as usize] += 1;
                if refusal.number == 17 {
                    assert_eq!(Some(refusal.place), back, "{shape} {seed}");
                    places.insert(refusal.place);
                }
            }
            Ok(()) => {
                assert!(back.is_none() && nodes.len() <= 64, "{shape} {seed}");
                let wanted = labels(&nodes, &edges);
                let told = nodes.iter().map(|n| (n.installable == 1, n.missing == 1));
                assert!(told.eq(wanted.iter().copied()), "{shape} {seed}");
                missing += u64::from(wanted.iter().any(|label| label.1));
                let answer = oracle::explain_air(&file, 0, &mut room);
                assert!([0, 10].contains(&answer.number), "{shape} {seed}");
                cut += u64::from(answer.number == 10);
                inside += 1;
            }
        }
    }
    let [fifteen, sixteen, seventeen] = [15, 16, 17].map(|number| refused[number]);
    assert!(
        inside > 2_000 && missing > 500 && cut < 20 && places.len() > 30,
        "{inside} inside, {missing} with something missing, {cut} cut, {} places of 17",
        places.len()
    );
    assert!(
        fifteen > 500 && sixteen > 100 && seventeen > 2_000,
        "{fifteen}, {sixteen} and {seventeen} refused"
    );
}

#[test]
fn generated_rings_have_every_length_and_every_kind_of_edge() {
    let (mut lengths, mut kinds) = (BTreeSet::new(), BTreeSet::new());
    let mut counts = BTreeSet::new();
    let near = (0..3_000).map(|index| generate::pick_air(index, 9));
    let long = (0..5_000).map(|seed| ("air-ring-long", seed));
    for (shape, seed) in near.chain(long) {
        let file = generate::file(shape, seed).expect("a shape");
        let Ok(problem) = Problem::read(&file) else {
            continue;
        };
        let (Ok(model), Ok(edges)) = (problem.model(), problem.edges()) else {
            continue;
        };
        if shape == "air-nodes" {
            counts.insert(model.nodes().len());
        }
        let Some(lowest) = model.lowest_on_cycle() else {
            continue;
        };
        // The edges along a shortest way back to the lowest node.
        let mut ways: Vec<Vec<Edge>> = vec![Vec::new(); model.nodes().len()];
        let mut next = vec![lowest as u16];
        'walk: loop {
            let mut further = Vec::new();
            for here in next {
                for edge in edges.iter().filter(|e| e.source == here) {
                    let mut way = ways[usize::from(here)].clone();
                    way.push(*edge);
                    if usize::from(edge.target) == lowest {
                        lengths.insert(way.len());
                        kinds.extend(way.iter().map(|e| (e.kind, way.len() == 1)));
                        break 'walk;
                    }
                    if ways[usize::from(edge.target)].is_empty() {
                        ways[usize::from(edge.target)] = way;
                        further.push(edge.target);
                    }
                }
            }
            next = further;
            assert!(!next.is_empty(), "{shape} {seed}");
        }
    }
    assert!((1..=62).all(|n| lengths.contains(&n)), "{lengths:?}");
    // Requires, constrains and forbid-multiple, each on a longer cycle and as an edge to itself.
    for kind in [0, 2, 3] {
        assert!(kinds.contains(&(kind, true)) && kinds.contains(&(kind, false)));
    }
    assert!((63..=66).all(|n| counts.contains(&n)), "{counts:?}");
}
