//! Groups and labels alone: what the labelled graph takes beyond the graph, on loads that are easy and hard to group. Beside them
//! a plain Rust program without fingerprints, which has the graph in hand, compares sorted edge lists, and makes no labels.

use super::{both, keep, largest, limit, once, time, ROUNDS};
use oracle::draft::Draft;
use std::hint::black_box;

/// As many packages as fit beside the root and unresolved.
const PACKAGES: usize = 126;
/// What each requires besides a requirement of its own: with the edge from the root eight edges a package, 1,008 in all.
const COMMON: usize = 6;

pub fn table() {
    println!();
    println!("| groups and labels alone | edges | groups | conflict.rs | port | ratio | plain Rust, groups only | limit | port / limit |");
    println!("|---|---|---|---|---|---|---|---|---|");
    // A read of the graph's words.
    let words = limit::reading(&[1; limit::WORDS]);
    let loads = [
        ("largest load", largest("nodes-and-edges")),
        ("126 alike", wide(|_| (COMMON, 0), 0)),
        ("126 alike, edges in other orders", wide(|_| (COMMON, 0), 1)),
        ("all but one of 126 differ, in the number of edges too", wide(|i| (i % 125 % 7, i % 125), 0)),
        ("126 of equal degree that all differ", wide(|i| (COMMON, i), 0)),
        ("126 of equal degree that all differ, edges in other orders", wide(|i| (COMMON, i), 1)),
    ];
    for (name, file) in &loads {
        let graph = both(|| keep(black_box(oracle::check(black_box(file)))), || keep(black_box(urzulempa::check(black_box(file)))));
        let mut theirs = vec![oracle::Node::default(); 128];
        let mut ours = [urzulempa::Node::default(); 128];
        let labelled = both(|| keep(black_box(oracle::nodes(black_box(file), &mut theirs))), || keep(black_box(urzulempa::nodes(black_box(file), &mut ours))));
        let alone = (labelled.0 - graph.0, labelled.1 - graph.1);
        let (edges, groups, plain) = by_plain(file);
        let limit = limit::columns(words, alone.1);
        println!("| {name} | {edges} | {groups} | {} | {} | {:.2} | {} | {limit} |", time(alone.0), time(alone.1), alone.0 / alone.1, time(plain));
    }
}

/// Packages of one name that the root requires, and that require what nobody has: so many of a few common requirements, and one
/// more by its number. Each package's common ones begin `turn` places after those of the package before.
fn wide(needs: impl Fn(usize) -> (usize, usize), turn: usize) -> Vec<u8> {
    let mut d = Draft::new();
    let name = d.name("wide");
    let all: Vec<u16> = (0..PACKAGES).map(|i| d.solvable(name, &i.to_string())).collect();
    d.root_needs("wide *", &all);
    let common: Vec<u16> = (0..COMMON).map(|i| d.requirement(&format!("common {i}"), &[])).collect();
    let own: Vec<u16> = (0..PACKAGES).map(|i| d.requirement(&format!("own {i}"), &[])).collect();
    for (i, &package) in all.iter().enumerate() {
        let variable = d.of(package);
        let (many, one) = needs(i);
        d.requires(variable, own[one]);
        for j in 0..many {
            d.requires(variable, common[(j + turn * i) % COMMON]);
        }
    }
    d.file()
}

/// How many edges the load has, how many groups, and the plain program's time.
fn by_plain(file: &[u8]) -> (usize, usize, f64) {
    let Ok(problem) = oracle::Problem::read(file) else { return (0, 0, 0.0) };
    let Ok(model) = problem.model() else { return (0, 0, 0.0) };
    let (nodes, ends) = (model.nodes(), model.ends());
    let texts: Vec<Option<&[u8]>> = nodes.iter().map(|n| (n.kind == 1).then(|| name_of(file, n.number))).collect();
    let leads = plain(&texts, &ends);
    assert!(leads.iter().zip(&nodes).all(|(&lead, n)| lead == usize::from(n.group)), "the plain program groups otherwise");
    let groups = (0..leads.len()).filter(|&n| leads.iter().filter(|&&lead| lead == n).count() > 1).count();
    let best = (0..ROUNDS).map(|_| once(&mut || keep(black_box(plain(black_box(&texts), black_box(&ends)))))).fold(f64::MAX, f64::min);
    (ends.len(), groups, best)
}

/// Each node's first member.
fn plain(texts: &[Option<&[u8]>], ends: &[(usize, usize, Option<u16>)]) -> Vec<usize> {
    let mut lists = vec![(Vec::new(), Vec::new()); texts.len()];
    for &(source, target, requirement) in ends {
        lists[source].0.push((requirement, target));
        lists[target].1.push((requirement, source));
    }
    for (out, into) in &mut lists {
        out.sort_unstable();
        into.sort_unstable();
    }
    let merges = |m: usize, n: usize| texts[m].is_some() && texts[m] == texts[n] && lists[m] == lists[n];
    (0..texts.len()).map(|n| (0..n).find(|&m| merges(m, n)).unwrap_or(n)).collect()
}

/// The text of a solvable's name, as the records have it.
fn name_of(file: &[u8], solvable: u16) -> &[u8] {
    let number = |r: &[u8], at: usize| u16::from_le_bytes([r[at], r[at + 1]]);
    let of = |kind: u8, own: u16| file.chunks_exact(32).find(|r| r[0] == kind && number(r, 2) == own);
    let text = of(2, solvable).and_then(|r| of(1, number(r, 4)));
    text.map_or(&[], |r| &r[8..8 + usize::from(r[1])])
}
