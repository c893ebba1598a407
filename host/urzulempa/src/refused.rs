//! A refusal in words: its sentence, and what it points at by name.

use crate::json::Json;
use crate::say::{say, DONE, REFUSED};
use crate::{cycle, unreached};
use urzulempa::{counts, decode, repaired, Answer, Refusal, MOST_BYTES};

/// Says why an answer is no whole text, if it is none, and whether the file can be repaired.
pub fn told(file: &[u8], answer: &Answer) -> u8 {
    let Some(refusal) = answer.refusal() else { return DONE };
    all(file, refusal).iter().for_each(|line| say(line));
    REFUSED
}

/// The lines of a refusal, and that the file can be repaired where it can.
pub fn all(file: &[u8], refusal: Refusal) -> Vec<String> {
    let mut said = lines(file, refusal);
    if refusal.number() <= 7 && repaired(file).is_ok() {
        said.push("`urzulempa salvage FILE -o OUT` can repair it".into());
    }
    said
}

/// The sentence of a refusal, then what it points at, by name, and the record behind it.
pub fn lines(file: &[u8], refusal: Refusal) -> Vec<String> {
    let record = record(file, refusal);
    let mut said = vec![format!("refused {} at {}: {refusal}", refusal.number(), place(&refusal, record))];
    match refusal {
        Refusal::Length if file.len() > MOST_BYTES => said.push(format!("it has more than {MOST_BYTES} bytes")),
        Refusal::Length => said.push(format!("it has {} bytes", file.len())),
        Refusal::GraphFull(clause) => said.extend(unreached::filled(file, clause)),
        Refusal::Unreached(node) => said.extend(unreached::lines(file, node)),
        Refusal::Endless(s) => {
            let shown = u16::try_from(s).ok().and_then(|s| decode::solvable(file, s));
            said.extend(shown.map(|shown| format!("solvable {s} is {shown}")));
            said.extend(cycle::opened(file, s));
        }
        Refusal::Locked(c) => {
            said.extend(decode::lock(file, c).map(|(locked, forbidden)| format!("{locked} is locked, which keeps {forbidden} out")));
        }
        Refusal::ManyNodes => said.extend(counts(file).map(|counts| format!("it has {} nodes", counts.nodes))),
        Refusal::Cycle(node) => said.extend(cycle::lines(file, node)),
        _ => {}
    }
    // What a solvable's record says of names helps nobody to break a cycle.
    let described = record.filter(|_| !matches!(refusal, Refusal::Endless(_))).and_then(|r| Some((r, decode::describe(file, r)?)));
    if let Some((record, what)) = described {
        let fault = decode::fault(file, refusal.number(), record).map(|f| format!("{f}; ")).unwrap_or_default();
        said.push(format!("record {record}: {what}; {fault}{}", decode::defined(file, record)));
    }
    said
}

/// A refusal for a program, with the lines that a person would see.
pub fn json(file: &[u8], refusal: Refusal, lines: &[String]) -> Json {
    let record = record(file, refusal);
    let (at, place) = match refusal {
        Refusal::Learnt(n) | Refusal::GraphFull(n) | Refusal::Locked(n) => ("clause", Some(n)),
        Refusal::Unreached(n) | Refusal::Cycle(n) => ("node", Some(n)),
        Refusal::Room(n) => ("unit", Some(n)),
        Refusal::Endless(n) => ("solvable", Some(n)),
        Refusal::Count => ("report", None),
        other => other.record().map_or(("file", None), |n| ("record", Some(n))),
    };
    Json::Object(vec![
        ("number", refusal.number().into()),
        ("at", at.into()),
        ("place", place.into()),
        ("record", record.into()),
        ("byte", record.map(|r| r * 32).into()),
        ("message", refusal.to_string().into()),
        ("more", lines.iter().skip(1).cloned().collect::<Vec<_>>().into()),
    ])
}

/// The record that a refusal points at, by itself or by what it names.
fn record(file: &[u8], refusal: Refusal) -> Option<u64> {
    refusal.record().or_else(|| match refusal {
        Refusal::Learnt(c) | Refusal::GraphFull(c) | Refusal::Locked(c) => decode::clause_record(file, c),
        Refusal::Endless(s) => decode::solvable_record(file, s),
        _ => None,
    })
}

fn place(refusal: &Refusal, record: Option<u64>) -> String {
    let byte = record.map(|r| format!(", byte {}", r * 32)).unwrap_or_default();
    match *refusal {
        Refusal::Learnt(clause) | Refusal::GraphFull(clause) | Refusal::Locked(clause) => format!("clause {clause}{byte}"),
        Refusal::Unreached(node) | Refusal::Cycle(node) => format!("node {node}"),
        Refusal::Room(unit) => format!("unit {unit}"),
        Refusal::Endless(solvable) => format!("solvable {solvable}{byte}"),
        Refusal::Count => "the report".into(),
        _ => record.map_or_else(|| "the whole file".into(), |r| format!("record {r}{byte}")),
    }
}
