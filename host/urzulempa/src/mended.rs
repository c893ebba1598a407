//! What a repair did, in words.

use crate::json::Json;
use crate::refused;
use urzulempa::{check, decode, Refusal, Repaired};

/// One line a replaced record: where it is, what it said and what was wrong with it; one for the bytes that were dropped; one for the
/// whole; and one for what the repaired file still gets.
pub fn told(file: &[u8], mended: &Repaired, name: &str) -> String {
    let mut out = String::new();
    for &record in &mended.replaced {
        let said = decode::describe(file, record.into()).unwrap_or_default();
        let (at, clause) = (usize::from(record) * 32, decode::clauses_before(file, record.into()));
        out += &format!("record {record}, byte {at}, clause {clause}, is replaced: {said}: {}\n", wrong(file, &mended.file, record));
    }
    if mended.dropped > 0 {
        let (at, bytes) = (mended.file.len(), counted(mended.dropped, "byte"));
        out += &format!("from byte {at} on, {bytes} of a record that was cut {} dropped\n", if mended.dropped == 1 { "is" } else { "are" });
    }
    let records = counted(mended.file.len() as u64 / 32, "record");
    out += &match (mended.replaced.len(), mended.dropped) {
        (0, 0) => format!("{name} is written: {records}, nothing was to be repaired\n"),
        (replaced, dropped) => format!("{name} is written: {records}, {replaced} replaced, {} dropped\n", counted(dropped, "byte")),
    };
    if let Some(refusal) = check(&mended.file).refusal() {
        out += &format!("it still gets {}: {refusal}\n", refusal.number());
    }
    out
}

/// The same for a program.
pub fn json(file: &[u8], mended: &Repaired) -> Vec<(&'static str, Json)> {
    let one = |record: &u16| {
        Json::Object(vec![
            ("record", (*record).into()),
            ("byte", (usize::from(*record) * 32).into()),
            ("clause", decode::clauses_before(file, (*record).into()).into()),
            ("said", decode::describe(file, (*record).into()).into()),
            ("why", wrong(file, &mended.file, *record).into()),
        ])
    };
    vec![
        ("records", (mended.file.len() / 32).into()),
        ("replaced", Json::List(mended.replaced.iter().map(one).collect())),
        ("dropped", mended.dropped.into()),
        ("still", check(&mended.file).refusal().map(|refusal| refused::json(&mended.file, refusal, &[])).into()),
    ]
}

/// What a record would have got behind the repaired ones before it.
fn wrong(file: &[u8], mended: &[u8], record: u16) -> String {
    let at = usize::from(record) * 32;
    // With none of those in the core their graph is empty, and a Learnt is the first clause that could get 7 or 8.
    let mut behind = mended[..at].to_vec();
    behind.chunks_exact_mut(32).filter(|r| decode::is_clause(r[0])).for_each(|r| r[1] = 0);
    behind.extend(&file[at..at + 32]);
    match check(&behind).refusal() {
        Some(Refusal::Learnt(_)) => "it would get 7, a learnt clause in the core".into(),
        Some(refusal) => match decode::fault(&behind, refusal.number(), record.into()) {
            Some(fault) => format!("it would get {}, {fault}", refusal.number()),
            None => format!("it would get {}", refusal.number()),
        },
        None => "nothing is wrong with it".into(),
    }
}

/// Why a refusal stops a repair.
pub fn why_not(refusal: Refusal) -> &'static str {
    match refusal {
        Refusal::Length => "a file that is too long is not repaired",
        Refusal::Kind(_) => "what a record of that kind says is not known",
        Refusal::TableFull(_) => "leaving a record out would give those behind it other numbers",
        _ => "only clauses are replaced, since other records can't be made up",
    }
}

fn counted(n: u64, what: &str) -> String {
    format!("{n} {what}{}", if n == 1 { "" } else { "s" })
}
