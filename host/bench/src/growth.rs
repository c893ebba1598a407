//! How the time grows with the size of the load, in one thing at a time: what one more of it costs must not grow.

use super::{both, keep, largest, limit, once, padded, time, ROUNDS};
use oracle::generate::limits;
use std::hint::black_box;
use std::process::ExitCode;

/// Growth of the time over growth of the size, from the last row but one to the last: 1 is linear.
pub const MOST: f64 = 1.2;

/// What grows, and the files by size. The size is the number of records and edges.
type Series = (&'static str, Vec<Vec<u8>>);

fn series() -> [Series; 3] {
    [
        ("by records, the graph the same", [128, 256, 512, 1024, 2048].map(padded).to_vec()),
        ("by nodes", [8, 16, 32, 64, 128].map(limits::nodes).to_vec()),
        ("by edges", [64, 128, 256, 512, 1024].map(limits::edges).to_vec()),
    ]
}

const ROOMS: [usize; 6] = [1 << 16, 1 << 18, 1 << 20, 1 << 22, 1 << 24, 1 << 26];

/// A size and the time that it takes.
type Point = (f64, f64);

/// One row of the last table: growth from the last point but one to the last. `fixed`: what a call takes that has nothing to do, which would
/// hide growth.
struct Grown {
    what: &'static str,
    time: f64,
    size: f64,
}

impl Grown {
    fn of(what: &'static str, fixed: f64, one: Point, other: Point) -> Grown {
        Grown { what, time: (other.1 - fixed) / (one.1 - fixed), size: other.0 / one.0 }
    }

    fn ratio(&self) -> f64 {
        self.time / self.size
    }
}

fn labelled(file: &[u8]) -> impl FnMut() + '_ {
    let mut list = [urzulempa::Node::default(); 128];
    move || keep(black_box(urzulempa::nodes(black_box(file), &mut list)))
}

fn told<'f>(file: &'f [u8], room: &'f mut [u8]) -> impl FnMut() + 'f {
    move || keep(black_box(urzulempa::explain(black_box(file), 0, room)))
}

fn least(mut call: impl FnMut()) -> f64 {
    (0..ROUNDS).map(|_| once(&mut call)).fold(f64::MAX, f64::min)
}

/// Records, nodes and edges.
fn sizes(file: &[u8]) -> (usize, usize, usize) {
    let model = oracle::Problem::read(file).ok().and_then(|p| p.model().ok().map(|m| (m.nodes().len(), m.edge_count())));
    let (nodes, edges) = model.unwrap_or_default();
    (file.len() / 32, nodes, edges)
}

/// All points of the labelled graphs, the last two taken in turns; or these two alone.
fn labelled_times(files: &[Vec<u8>], all: bool) -> Vec<f64> {
    let (before, last) = files.split_at(files.len() - 2);
    let mut times: Vec<f64> = if all { before.iter().map(|file| least(labelled(file))).collect() } else { Vec::new() };
    let two = both(labelled(&last[0]), labelled(&last[1]));
    times.extend([two.0, two.1]);
    times
}

fn told_times(file: &[u8], all: bool) -> Vec<f64> {
    let (before, last) = ROOMS.split_at(ROOMS.len() - 2);
    let mut times: Vec<f64> = if all { before.iter().map(|&size| least(told(file, &mut vec![0; size]))).collect() } else { Vec::new() };
    let (mut one, mut other) = (vec![0; last[0]], vec![0; last[1]]);
    let two = both(told(file, &mut one), told(file, &mut other));
    times.extend([two.0, two.1]);
    times
}

/// Measures, prints the rows if all are wanted, and gives the growth of each series.
fn measured(all: bool) -> Vec<Grown> {
    let mut grown = Vec::new();
    if all {
        println!();
        println!("| port, file to labelled graph | records | nodes | edges | time | time a record and edge | limit | port / limit |");
        println!("|---|---|---|---|---|---|---|---|");
    }
    let fixed = least(labelled(&[]));
    for (what, files) in series() {
        let times = labelled_times(&files, all);
        let points: Vec<Point> = files[files.len() - times.len()..]
            .iter()
            .zip(times)
            .map(|(file, taken)| {
                let (records, nodes, edges) = sizes(file);
                let size = (records + edges) as f64;
                if all {
                    let limit = limit::columns(limit::of(file, limit::NODES, 0), taken);
                    println!("| {what} | {records} | {nodes} | {edges} | {} | {:.0} ns | {limit} |", time(taken), taken / size * 1e9);
                }
                (size, taken)
            })
            .collect();
        grown.push(Grown::of(what, fixed, points[points.len() - 2], points[points.len() - 1]));
    }
    if all {
        println!();
        println!("| port, text by room | lines | bytes | time | time a line | limit | port / limit |");
        println!("|---|---|---|---|---|---|---|");
    }
    let file = largest("dag-exploding-limit");
    let times = told_times(&file, all);
    let points: Vec<Point> = ROOMS[ROOMS.len() - times.len()..]
        .iter()
        .zip(times)
        .map(|(&size, taken)| {
            let answer = urzulempa::explain(&file, 0, &mut vec![0; size]);
            let lines = answer.units.max(1) as f64;
            if all {
                let limit = limit::columns(limit::of(&file, limit::EXPLAIN, answer.bytes), taken);
                println!("| exploding DAG | {} | {} | {} | {:.0} ns | {limit} |", answer.units, answer.bytes, time(taken), taken / lines * 1e9);
            }
            (lines, taken)
        })
        .collect();
    grown.push(Grown::of("exploding DAG, by lines", least(told(&[], &mut [])), points[points.len() - 2], points[points.len() - 1]));
    grown
}

fn show(grown: &[Grown]) {
    println!();
    println!("| growth from the last row but one to the last | of the time beyond an empty file's call | of records and edges, or of lines | ratio |");
    println!("|---|---|---|---|");
    for g in grown {
        println!("| {} | {:.2} | {:.2} | {:.2} |", g.what, g.time, g.size, g.ratio());
    }
}

pub fn table() {
    let grown = measured(true);
    show(&grown);
}

/// Fails where a ratio passes `most`, or is none.
pub fn check(most: f64) -> ExitCode {
    let grown = measured(false);
    show(&grown);
    let past: Vec<&Grown> = grown.iter().filter(|g| !(0.0..=most).contains(&g.ratio())).collect();
    for g in &past {
        println!("bench: {}: the time grows {:.2} times as fast as the size, and {most} is the most", g.what, g.ratio());
    }
    if past.is_empty() {
        ExitCode::SUCCESS
    } else {
        ExitCode::FAILURE
    }
}
