//! Port and conflict.rs side by side in one run: same inputs, both built for release, rooms cleared the same way.
//! Times are the least of several rounds, taken in turns; ratios above 1 mean that the port is faster. A limit is what no program that
//! does the work can be faster than (`limit`), and the number behind it says how many times that the port takes.

mod asking;
mod clock;
mod growth;
mod limit;
mod merging;
mod season;

use oracle::generate;
use std::hint::black_box;
use std::process::ExitCode;
use std::time::{Duration, Instant};

fn main() -> ExitCode {
    if !oracle::AVAILABLE {
        println!("bench: skipped: conflict.rs was not there when this was built");
        return ExitCode::from(77);
    }
    let words: Vec<String> = std::env::args().skip(1).collect();
    match words.iter().map(String::as_str).collect::<Vec<_>>()[..] {
        [] => {}
        // One table by itself.
        ["season"] => {
            season::table();
            return ExitCode::SUCCESS;
        }
        // Whether what one more record, node, edge or line costs grows with the size.
        ["--check"] => return growth::check(growth::MOST),
        ["--check", most] if most.parse::<f64>().is_ok() => return growth::check(most.parse().unwrap_or(growth::MOST)),
        _ => {
            eprintln!("bench: usage: bench [season | --check [MOST]]");
            return ExitCode::from(64);
        }
    }
    println!("| what | bytes in | conflict.rs | port | ratio | limit | port / limit |");
    println!("|---|---|---|---|---|---|---|");
    graphs();
    edge_lists();
    texts();
    merging::table();
    editions();
    air();
    asking::table();
    season::table();
    growth::table();
    limits();
    ExitCode::SUCCESS
}

/// The least time of one call: each round repeats it for at least this long.
const ROUND: Duration = Duration::from_millis(40);
const ROUNDS: usize = 15;

/// Time on the processor, so that other work on the machine counts for little.
fn once(call: &mut dyn FnMut()) -> f64 {
    by(clock::of_thread, call)
}

fn by(clock: fn() -> f64, call: &mut dyn FnMut()) -> f64 {
    let (start, before) = (Instant::now(), clock());
    let mut n = 0u32;
    while n == 0 || start.elapsed() < ROUND {
        call();
        n += 1;
    }
    (clock() - before) / f64::from(n)
}

/// Both calls in turns, so that a slow moment of the machine meets both.
fn both(theirs: impl FnMut(), ours: impl FnMut()) -> (f64, f64) {
    both_by(clock::of_thread, theirs, ours)
}

fn both_by(clock: fn() -> f64, mut theirs: impl FnMut(), mut ours: impl FnMut()) -> (f64, f64) {
    let mut best = (f64::MAX, f64::MAX);
    for _ in 0..ROUNDS {
        best.0 = best.0.min(by(clock, &mut theirs));
        best.1 = best.1.min(by(clock, &mut ours));
    }
    best
}

/// Only the time counts.
fn keep<T>(_: T) {}

fn time(seconds: f64) -> String {
    if seconds < 1e-3 {
        format!("{:.2} µs", seconds * 1e6)
    } else {
        format!("{:.2} ms", seconds * 1e3)
    }
}

fn row(what: &str, bytes: usize, (theirs, ours): (f64, f64), limit: f64) {
    println!("| {what} | {bytes} | {} | {} | {:.2} | {} |", time(theirs), time(ours), theirs / ours, limit::columns(limit, ours));
}

fn made(shape: &str, seed: u64) -> Vec<u8> {
    generate::file(shape, seed).unwrap_or_default()
}

/// The file of a shape, over some seeds, that is accepted and has the most edges.
fn largest(shape: &str) -> Vec<u8> {
    let size = |file: &[u8]| oracle::Problem::read(file).ok().and_then(|p| p.model().ok().map(|m| m.edge_count())).unwrap_or(0);
    (0..40).map(|seed| made(shape, seed)).max_by_key(|f| size(f)).unwrap_or_default()
}

fn p7() -> Vec<u8> {
    oracle::samples::all().into_iter().find(|s| s.0 == "replay.rec").map(|s| s.1).unwrap_or_default()
}

/// From bytes to the graph, and to the labelled graph, the reading included on both sides.
fn graphs() {
    let loads = [
        ("P7", p7()),
        ("middle load", largest("world-middle")),
        ("largest load", largest("nodes-and-edges")),
        ("hundreds of 23 and 24 on one auxiliary", largest("auxiliary-hundreds")),
    ];
    for (name, file) in &loads {
        row(
            &format!("file to graph, {name}"),
            file.len(),
            both(|| keep(black_box(oracle::check(black_box(file)))), || keep(black_box(urzulempa::check(black_box(file))))),
            limit::of(file, limit::GRAPH, 0),
        );
    }
    for (name, file) in &loads {
        let mut theirs = vec![oracle::Node::default(); 128];
        let mut ours = [urzulempa::Node::default(); 128];
        let labelled = both(|| keep(black_box(oracle::nodes(black_box(file), &mut theirs))), || keep(black_box(urzulempa::nodes(black_box(file), &mut ours))));
        row(&format!("file to labelled graph, {name}"), file.len(), labelled, limit::of(file, limit::NODES, 0));
    }
}

/// From bytes to the list of edges, each with its clause.
fn edge_lists() {
    for (name, file) in [("P7", p7()), ("largest load", largest("nodes-and-edges"))] {
        let (mut theirs, mut ours) = (vec![0; 5 * 1024], vec![0; 5 * 1024]);
        let times =
            both(|| keep(black_box(oracle::edges(black_box(&file), &mut theirs))), || keep(black_box(urzulempa::edge_numbers(black_box(&file), &mut ours))));
        let written = urzulempa::edge_numbers(&file, &mut ours).bytes;
        row(&format!("file to edge list, {name}"), file.len(), times, limit::of(&file, limit::GRAPH, written));
    }
}

/// Texts: a call on P7 from end to end, and bytes a second where there is much text.
fn texts() {
    let file = p7();
    let (mut a, mut b) = (vec![0; 4096], vec![0; 4096]);
    row(
        "explanation of P7, a call",
        file.len(),
        both(|| keep(black_box(oracle::explain(black_box(&file), 0, &mut a))), || keep(black_box(urzulempa::explain(black_box(&file), 0, &mut b)))),
        limit::of(&file, limit::EXPLAIN, urzulempa::explain(&file, 0, &mut b).bytes),
    );
    println!("| of that, clearing the 65160 bytes of arrays that a call owns, 10240 of them twice | | | {} | | | |", time(limit::clearing(&[65_160, 10_240])));
    row(
        "graph text of P7, a call",
        file.len(),
        both(|| keep(black_box(oracle::graphviz(black_box(&file), 1, &mut a))), || keep(black_box(urzulempa::graphviz(black_box(&file), 1, &mut b)))),
        limit::of(&file, limit::DRAW, urzulempa::graphviz(&file, 1, &mut b).bytes),
    );
    for (name, file, size) in
        [("exploding DAG, room of 64 MiB", largest("dag-exploding-limit"), 64 << 20), ("depth 2,079, in full", made("depth-largest", 1), 32 << 20)]
    {
        let (mut a, mut b) = (vec![0; size], vec![0; size]);
        let times = both(|| keep(black_box(oracle::explain(black_box(&file), 0, &mut a))), || keep(black_box(urzulempa::explain(black_box(&file), 0, &mut b))));
        let answer = urzulempa::explain(&file, 0, &mut b);
        let same = oracle::explain(&file, 0, &mut a).bytes == answer.bytes && a == b;
        let bytes = answer.bytes as f64;
        let said = format!(
            "{name}: answer {}, depth {}, {:.0} and {:.0} MB/s, rooms {}",
            answer.number,
            answer.depth,
            bytes / times.0 / 1e6,
            bytes / times.1 / 1e6,
            if same { "equal" } else { "DIFFER" }
        );
        row(&said, file.len(), times, limit::of(&file, limit::EXPLAIN, answer.bytes));
    }
    let file = largest("nodes-and-edges");
    let (mut a, mut b) = (vec![0; 1 << 20], vec![0; 1 << 20]);
    row(
        "graph text, largest load",
        file.len(),
        both(|| keep(black_box(oracle::graphviz(black_box(&file), 1, &mut a))), || keep(black_box(urzulempa::graphviz(black_box(&file), 1, &mut b)))),
        limit::of(&file, limit::DRAW, urzulempa::graphviz(&file, 1, &mut b).bytes),
    );
}

/// The same file by the rules of both editions. Edition 2 of conflict.rs is the oracle's: every shown package among the reported.
fn editions() {
    println!();
    println!("| explanation by edition | edition | answer | lines | bytes | depth | conflict.rs | port | ratio | limit | port / limit |");
    println!("|---|---|---|---|---|---|---|---|---|---|---|");
    let sample = |name: &str| oracle::samples::all().into_iter().find(|s| s.0 == name).map(|s| s.1).unwrap_or_default();
    let loads = [
        ("deck-panel.rec (P9)", sample("deck-panel.rec"), 4096),
        ("merged-pair.rec (P10)", sample("merged-pair.rec"), 4096),
        ("rack.rec", sample("rack.rec"), 16 << 10),
        ("exploding DAG, room of 64 MiB", largest("dag-exploding-limit"), 64 << 20),
        ("the file of depth 2,079, room of 32 MiB", made("depth-largest", 1), 32 << 20),
    ];
    for (name, file, size) in &loads {
        for edition in [1, 2] {
            let (mut a, mut b) = (vec![0; *size], vec![0; *size]);
            let times = both(
                || keep(black_box(oracle::explain_edition(black_box(file), edition, 0, &mut a))),
                || keep(black_box(urzulempa::explain_edition(black_box(file), edition, 0, &mut b))),
            );
            let answer = urzulempa::explain_edition(file, edition, 0, &mut b);
            let same = oracle::explain_edition(file, edition, 0, &mut a).bytes == answer.bytes && a == b;
            let (lines, bytes, depth) = (answer.units, answer.bytes, answer.depth);
            let said = if same { "" } else { ", rooms DIFFER" };
            println!(
                "| {name} | {edition} | {}{said} | {lines} | {bytes} | {depth} | {} | {} | {:.2} | {} |",
                answer.number,
                time(times.0),
                time(times.1),
                times.0 / times.1,
                limit::columns(limit::of(file, limit::EXPLAIN, bytes), times.1)
            );
        }
    }
}

/// The largest load that fits the air profile, 64 nodes and 993 edges without a cycle: the profile's tests beside the explanation.
fn air() {
    println!();
    println!("| the largest load on air | answer | lines | bytes | conflict.rs | port | ratio | limit | port / limit |");
    println!("|---|---|---|---|---|---|---|---|---|");
    let file = made("air-largest", 1);
    let (mut a, mut b) = (vec![0; 1 << 20], vec![0; 1 << 20]);
    let show = |what: &str, answer: urzulempa::Answer, times: (f64, f64)| {
        let limit = limit::columns(limit::of(&file, limit::EXPLAIN, answer.bytes), times.1);
        println!(
            "| {what} | {} | {} | {} | {} | {} | {:.2} | {limit} |",
            answer.number,
            answer.units,
            answer.bytes,
            time(times.0),
            time(times.1),
            times.0 / times.1
        );
    };
    let times = both(|| keep(black_box(oracle::explain(black_box(&file), 0, &mut a))), || keep(black_box(urzulempa::explain(black_box(&file), 0, &mut b))));
    show("explain", urzulempa::explain(&file, 0, &mut b), times);
    let times =
        both(|| keep(black_box(oracle::explain_air(black_box(&file), 0, &mut a))), || keep(black_box(urzulempa::explain_air(black_box(&file), 0, &mut b))));
    show("explain_air", urzulempa::explain_air(&file, 0, &mut b), times);
}

/// The limits by themselves, of the files and texts above.
fn limits() {
    let (p7, middle, large) = (p7(), largest("world-middle"), largest("nodes-and-edges"));
    let mut room = vec![0; 64 << 20];
    let written = [
        ("explanation of P7", urzulempa::explain(&p7, 0, &mut room).bytes),
        ("graph text, largest load", urzulempa::graphviz(&large, 1, &mut room).bytes),
        ("depth 2,079", urzulempa::explain(&made("depth-largest", 1), 0, &mut room).bytes),
        ("exploding DAG, room of 64 MiB", urzulempa::explain(&largest("dag-exploding-limit"), 0, &mut room).bytes),
    ];
    limit::table(&[("P7", &p7), ("middle load", &middle), ("largest load", &large)], &written);
}

/// P7 with further clauses outside the core, up to so many records.
fn padded(records: usize) -> Vec<u8> {
    let mut file = p7();
    let mut outside = [0; 32];
    outside[0] = 18;
    let (mut variable, mut number) = ([0; 32], file.chunks(32).filter(|r| r[0] == 7).count() as u16);
    (variable[0], variable[4]) = (7, 5);
    while file.len() < 32 * records {
        if file.len() / 32 % 2 == 0 {
            file.extend(outside);
        } else {
            variable[2..4].copy_from_slice(&number.to_le_bytes());
            number += 1;
            file.extend(variable);
        }
    }
    file
}
