//! A question about a package (document 02, order 10) beside a rebuild of the longer file: the file with one more Excluded clause, read,
//! built and labelled anew, which is the only way that conflict.rs has. What the question takes beyond the file's own node list is
//! working out labels again, only for packages that lead to the chosen one, and looking for a cycle.

use super::{both, keep, largest, limit, made, time};
use oracle::draft::{record, Draft};
use oracle::reader::kind;
use std::hint::black_box;

pub fn table() {
    println!();
    println!("| a question against a rebuild of the longer file | nodes | edges | labels that change | conflict.rs, rebuild | port, rebuild | port, question | rebuild / question, conflict.rs | rebuild / question, port | port, question beyond the file's own node list | limit | question / limit |");
    println!("|---|---|---|---|---|---|---|---|---|---|---|---|");
    let sample = |name: &str| oracle::samples::all().into_iter().find(|s| s.0 == name).map(|s| s.1).unwrap_or_default();
    let rows = [
        ("rack.rec, driver 11", sample("rack.rec"), 43),
        ("rack.rec, a recalled codec", sample("rack.rec"), 22),
        ("largest load on air, a codec", made("air-largest", 1), 40),
        ("row of 120, the last, to which all lead", row(120), 119),
        ("row of 120, the first, to which the root leads", row(120), 0),
        ("exploding DAG, a package", largest("dag-exploding-limit"), 40),
    ];
    for (name, file, solvable) in rows {
        // Its last reason, made for the question: it has no node.
        let file = with_reason(&file);
        let reason = file.chunks_exact(32).filter(|r| r[0] == kind::REASON).count() as u64 - 1;
        let longer = longer(&file, solvable, reason as u16);
        let solvable = u64::from(solvable);
        let mut list = vec![urzulempa::Node::default(); 128];
        let (mut again, mut theirs) = (list.clone(), vec![oracle::Node::default(); 128]);
        let asked = urzulempa::what_if(&file, solvable, reason, &mut list);
        let built = urzulempa::nodes(&longer, &mut list);
        if asked.number != 0 || built.number != 0 {
            println!("| {name} | refused {} and {} |", asked.number, built.number);
            continue;
        }
        let changed = urzulempa::what_changes(&file, solvable, reason).map_or(0, |changes| changes.len());
        let sizes = oracle::Problem::read(&longer).ok().and_then(|p| p.model().ok().map(|m| (m.nodes().len(), m.edge_count())));
        let (nodes, edges) = sizes.unwrap_or_default();
        let (rust, rebuild) =
            both(|| keep(black_box(oracle::nodes(black_box(&longer), &mut theirs))), || keep(black_box(urzulempa::nodes(black_box(&longer), &mut list))));
        let (plain, question) = both(
            || keep(black_box(urzulempa::nodes(black_box(&file), &mut list))),
            || keep(black_box(urzulempa::what_if(black_box(&file), solvable, reason, &mut again))),
        );
        let (beyond, times) = (time(question - plain), [rust, rebuild, question].map(time).join(" | "));
        let limit = limit::columns(limit::of(&file, limit::NODES, 0), question);
        println!("| {name} | {nodes} | {edges} | {changed} | {times} | {:.2} | {:.2} | {beyond} | {limit} |", rust / question, rebuild / question);
    }
}

/// Packages that each require the next, the root the first.
fn row(packages: usize) -> Vec<u8> {
    let mut d = Draft::new();
    let all: Vec<u16> = (0..packages).map(|i| d.package(&format!("p{i}"), "1")).collect();
    d.root_needs("p0 *", &all[..1]);
    for two in all.windows(2) {
        d.needs(two[0], "next *", &two[1..]);
    }
    d.file()
}

/// The file with one more reason.
fn with_reason(file: &[u8]) -> Vec<u8> {
    let own = file.chunks_exact(32).filter(|r| r[0] == kind::REASON).count() as u16;
    [file, &record(kind::REASON, 0, [own, 0, 0], "asked")].concat()
}

/// The file with one more Excluded clause at its end, by a variable of its own.
fn longer(file: &[u8], solvable: u16, reason: u16) -> Vec<u8> {
    let own = file.chunks_exact(32).filter(|r| r[0] == kind::VARIABLE).count() as u16;
    let variable = record(kind::VARIABLE, 0, [own, 1, solvable], "");
    [file, &variable, &record(kind::EXCLUDED, 1, [own, reason, 0], "")].concat()
}
