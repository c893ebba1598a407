//! A report as a person reads it.

use crate::json::Json;
use urzulempa::{Deepest, Report};

/// What a refusal means, wherever its place is.
const REFUSALS: [&str; 18] = [
    "the length is no multiple of 32, or above 65,536 bytes",
    "a kind that does not exist",
    "a bad length, flag, text byte or origin, or an unused byte that is not 0",
    "out of order, or naming what is not defined before",
    "a variable of an origin that its field does not allow",
    "a table is full",
    "a learnt clause in the core",
    "node 129 or edge 1,025",
    "a node that nothing leads to from the root",
    "the text does not fit into the room",
    "the explanation would never end",
    "an option or edition that does not exist",
    "no call gives it",
    "a count would pass 64 bits",
    "on air: a lock in the core",
    "on air: more than 64 nodes",
    "a cycle in the graph",
    "a version of settings that is not known",
];

/// A row: its name, its count, and what is said of it.
pub type Row = (String, Option<u64>, String);

/// The rows of a report; `first` says which file one is by its number.
pub fn rows(report: &Report, first: impl Fn(u64) -> String) -> Vec<Row> {
    let refused = report.refused.iter().map(|&n| u128::from(n)).sum::<u128>();
    let row = |name: &str, count: u64, said: &str| (name.to_owned(), Some(count), said.to_owned());
    let mut rows = vec![
        row("files", report.files().unwrap_or(u64::MAX), ""),
        row("done", report.done, ""),
        row("refused", u64::try_from(refused).unwrap_or(u64::MAX), ""),
    ];
    for (at, &count) in report.refused.iter().enumerate().filter(|(_, count)| **count > 0) {
        rows.push(row(&format!("  {:>2}", at + 1), count, REFUSALS[at]));
    }
    rows.extend([
        row("nodes", report.nodes, ""),
        row("edges", report.edges, ""),
        row("groups", report.groups, "of merged packages"),
        row("missing", report.missing, "nodes, for want of a candidate"),
        row("lines", report.lines, ""),
    ]);
    rows.push(match report.deepest {
        Some(Deepest { depth, file }) => row("deepest", depth, &format!("first in {}", first(file))),
        None => ("deepest".into(), None, "no file has a text".into()),
    });
    rows
}

/// The counts of a report for a program; of the refusals those that a file got.
pub fn json(report: &Report) -> Vec<(&'static str, Json)> {
    let refused = (1u64..).zip(&report.refused).zip(REFUSALS).filter(|((_, count), _)| **count > 0);
    let refused =
        refused.map(|((number, &files), message)| Json::Object(vec![("number", number.into()), ("files", files.into()), ("message", message.into())]));
    vec![
        ("files", report.files().into()),
        ("done", report.done.into()),
        ("refused", Json::List(refused.collect())),
        ("nodes", report.nodes.into()),
        ("edges", report.edges.into()),
        ("groups", report.groups.into()),
        ("missing", report.missing.into()),
        ("lines", report.lines.into()),
    ]
}

/// The most lines of a file, and its name.
pub fn longest(longest: Option<(u64, String)>) -> Row {
    match longest {
        Some((lines, name)) => ("longest".into(), Some(lines), format!("first in {name}")),
        None => ("longest".into(), None, "no file has a line".into()),
    }
}

pub fn unread(count: u64) -> Row {
    ("unreadable".into(), Some(count), "not counted above".into())
}

/// Names on the left, counts on the right of their column.
pub fn lines(rows: &[Row]) -> String {
    let count = |row: &Row| row.1.map_or_else(|| "-".into(), grouped);
    let wide = rows.iter().map(|row| count(row).len()).max().unwrap_or(0);
    let line = |row: &Row| format!("{:<10}  {:>wide$}  {}", row.0, count(row), row.2);
    rows.iter().map(|row| line(row).trim_end().to_owned() + "\n").collect()
}

/// A number with a comma before every three digits.
pub fn grouped(number: u64) -> String {
    let digits = number.to_string();
    let comma = |(at, digit): (usize, char)| [(at > 0 && (digits.len() - at) % 3 == 0).then_some(','), Some(digit)];
    digits.chars().enumerate().flat_map(comma).flatten().collect()
}

#[cfg(test)]
mod tests {
    use super::grouped;

    #[test]
    fn three_digits_and_a_comma() {
        let shown = [0, 7, 999, 1_000, 65_536, 100_000, 1_000_000, u64::MAX].map(grouped);
        assert_eq!(shown, ["0", "7", "999", "1,000", "65,536", "100,000", "1,000,000", "18,446,744,073,709,551,615"]);
    }
}
