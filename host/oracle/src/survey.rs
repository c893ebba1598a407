//! Many generated files through the oracle: no panic, every refusal number, and what document 01
//! states of all files.

use std::collections::BTreeMap;

use crate::rng::Rng;
use crate::{
    check, edges, explain, explain_air, explain_edition, generate, graphviz, nodes, Answer, Edge,
    Edition, Model, Node, Problem,
};

/// How the calls of one kind were answered.
type Counts = BTreeMap<u64, u64>;

/// The numbers of all refusals that these calls give, and 0.
const NUMBERS: [u64; 16] = [0, 1, 2, 3, 4, 5, 6, 7, 8, 9, 10, 11, 12, 15, 16, 17];

/// Prints the distribution of answers over `files` files; status 1 where one of [`NUMBERS`] did
/// not occur.
pub fn run(files: u64, seed: u64) -> Result<u8, String> {
    let mut all: BTreeMap<&str, Counts> = BTreeMap::new();
    let mut accepted: BTreeMap<&str, (u64, u64)> = BTreeMap::new();
    let mut deepest = 0;
    let mut room = vec![0; 1 << 14];
    for index in 0..files {
        let (shape, number) = generate::pick(index, seed);
        let file = generate::file(shape, number).expect("pick names a shape");
        let mut rng = Rng::new(number ^ index);
        let told = one(&file, &mut rng, &mut room)
            .map_err(|trouble| format!("{shape} {number}: {trouble}"))?;
        let of_shape = accepted.entry(shape).or_default();
        of_shape.0 += 1;
        of_shape.1 += u64::from(told[0].1.number == 0);
        for (call, answer) in told {
            deepest = deepest.max(answer.depth);
            *all.entry(call)
                .or_default()
                .entry(answer.number)
                .or_default() += 1;
        }
    }
    print(&all, &accepted, deepest);
    let missing: Vec<u64> = NUMBERS
        .into_iter()
        .filter(|number| !all.values().any(|counts| counts.contains_key(number)))
        .collect();
    println!("{files} files, numbers that did not occur: {missing:?}");
    Ok(u8::from(!missing.is_empty()))
}

fn print(all: &BTreeMap<&str, Counts>, accepted: &BTreeMap<&str, (u64, u64)>, deepest: u64) {
    println!("shape: files, accepted by check");
    for (shape, (files, good)) in accepted {
        println!("  {shape}: {files}, {good}");
    }
    println!("call: answers by number");
    for (call, counts) in all {
        let counts: Vec<String> = counts.iter().map(|(n, c)| format!("{n}: {c}")).collect();
        println!("  {call}: {}", counts.join(", "));
    }
    println!("largest depth: {deepest}");
}

/// All calls on one file, with what must hold of each.
fn one<'a>(file: &[u8], rng: &mut Rng, room: &mut [u8]) -> Result<Vec<(&'a str, Answer)>, String> {
    let option = match rng.below(40) {
        0 => 2,
        1 => 1 << 32,
        n => n as u64 % 2,
    };
    let length = match rng.below(3) {
        0 => rng.below(400),
        _ => room.len(),
    };
    let length = length.min(room.len());
    let checked = check(file);
    let explained = explain(file, option, &mut room[..length]);
    let second = explain_edition(file, 2, option, &mut room[..length]);
    let aired = explain_air(file, option, &mut room[..length]);
    let drawn = graphviz(file, option, &mut room[..length]);
    let mut list = [Node::default(); 128];
    let listed = nodes(file, &mut list[..if rng.chance(5) { 3 } else { 128 }]);
    let mut numbers = [0; 5 * 1_024];
    let linked = edges(
        file,
        &mut numbers[..if rng.chance(5) { 12 } else { 5 * 1_024 }],
    );
    if checked.number == 0 {
        promises(file, &[explained, second, drawn], second)?;
        profile(explained, aired)?;
    } else {
        let same = |answers: &[Answer]| answers.iter().all(|&answer| answer == checked);
        if !same(&[listed, linked]) || option < 2 && !same(&[explained, second, aired, drawn]) {
            return Err("calls refuse one file differently".to_string());
        }
    }
    Ok(vec![
        ("check", checked),
        ("explain", explained),
        ("explain_edition 2", second),
        ("explain_air", aired),
        ("graphviz", drawn),
        ("nodes", listed),
        ("edges", linked),
    ])
}

fn promises(file: &[u8], answers: &[Answer], second: Answer) -> Result<(), String> {
    let trouble = |refusal| format!("check accepts, and then {refusal:?}");
    let problem = Problem::read(file).map_err(trouble)?;
    let model = problem.model().map_err(trouble)?;
    if model.nodes().iter().any(|n| n.installable + n.missing > 1) {
        return Err("a node has both labels".to_string());
    }
    let edges = problem.edges().map_err(trouble)?;
    clauses(&model.nodes(), &edges, &problem.core())?;
    let bound = model.depth_bound();
    if answers.iter().any(|answer| answer.depth > bound) {
        return Err(format!("depth above the bound {bound}"));
    }
    second_edition(&model, second)
}

/// What document 02 states of the air profile, order 9: "Inside it 11 can never come", "Everything else answers as in document
/// 01". Both were lent the same room.
fn profile(explained: Answer, aired: Answer) -> Result<(), String> {
    match aired.number {
        11 => Err("11 inside the profile".to_string()),
        15..=17 if explained.number != 12 => Ok(()),
        _ if aired == explained => Ok(()),
        _ => Err(format!("{aired:?} inside the profile, else {explained:?}")),
    }
}

/// What document 02 states of edition 2, order 11: "In edition 2 refusal 11 is never given, and all openings in the whole text
/// together are at most g + u". The rules end without that refusal's help.
fn second_edition(model: &Model<'_, '_>, answer: Answer) -> Result<(), String> {
    let bound = model.openings_bound();
    let mut room = vec![0; 1 << 24];
    let rules = model.rules_edition(Edition::Two, false, &mut room, u64::MAX);
    if answer.number == 11 {
        return Err("edition 2 gives 11".to_string());
    }
    if !rules.ended || rules.openings > bound || answer.depth > rules.openings {
        let depth = answer.depth;
        return Err(format!(
            "edition 2, bound {bound}, depth {depth}: {rules:?}"
        ));
    }
    Ok(())
}

/// What document 02 states of the clauses, order 3: each edge names a core clause, older edges earlier ones; the root and
/// unresolved name none; a node's clause is that of the first edge that touches it, or an earlier one that added it alone.
fn clauses(nodes: &[Node], edges: &[Edge], core: &[u16]) -> Result<(), String> {
    if edges.iter().any(|edge| !core.contains(&edge.clause)) {
        return Err("an edge's clause is not in the core".to_string());
    }
    if edges.windows(2).any(|two| two[0].clause > two[1].clause) {
        return Err("a newer edge has an earlier clause".to_string());
    }
    for (at, node) in (0u16..).zip(nodes) {
        let first = edges.iter().find(|e| e.source == at || e.target == at);
        let good = match (node.kind, first) {
            (0 | 2, _) => node.clause == u16::MAX,
            (_, Some(edge)) => core.contains(&node.clause) && node.clause <= edge.clause,
            (_, None) => false,
        };
        if !good {
            return Err(format!("the clause of node {at} is {}", node.clause));
        }
    }
    Ok(())
}
