//! The list of a file.

use super::tables::Named;
use super::words::shown;
use super::{Table, CLAUSES, FORBID};
use crate::{check, Refusal};

/// A record of an accepted file.
struct Record {
    kind: u8,
    second: u8,
    fields: [u16; 3],
    text: String,
}

impl Record {
    fn of(bytes: &[u8]) -> Self {
        let texted = matches!(bytes[0], 1 | 2 | 3 | 4 | 6);
        let length = if texted { usize::from(bytes[1]).min(24) } else { 0 };
        Record {
            kind: bytes[0],
            second: bytes[1],
            fields: [2, 4, 6].map(|k| u16::from_le_bytes([bytes[k], bytes[k + 1]])),
            text: String::from_utf8_lossy(&bytes[8..8 + length]).into_owned(),
        }
    }

    /// What fields name, each with its number.
    fn names(&self) -> Vec<(Table, usize)> {
        let [a, b, c] = self.fields.map(usize::from);
        match self.kind {
            2 | 3 => vec![(Table::Name, b)],
            5 => vec![(Table::Requirement, a), (Table::Solvable, b)],
            7 => match self.fields[1] {
                1 => vec![(Table::Solvable, c)],
                2 => vec![(Table::Name, c)],
                _ => vec![],
            },
            8 => vec![(Table::Variable, a), (Table::Clause, b)],
            kind => {
                let slots = usize::from(kind).checked_sub(16).and_then(|k| CLAUSES.get(k)).map_or(&[][..], |(_, slots)| slots);
                slots.iter().copied().zip([a, b, c]).collect()
            }
        }
    }
}

/// The list of a file: its records in their order, one line each, with an empty line between tables. A record that others name has a
/// label where its words are not its own. A file that gets one of 1 to 6 has none; 7 to 9 are no hindrance.
///
/// ```
/// let list = urzulempa::list::dump(include_bytes!("../../../../samples/lone.rec")).unwrap();
/// assert_eq!(
///     list,
///     "name x\n\nsolvable x 1\n\nrequirement \"x *\"\n\ncandidate \"x *\", x 1\n\nvariable root\n\ncore requires root, \"x *\"\n"
/// );
/// assert_eq!(urzulempa::list::dump(&[0; 32]), Err(urzulempa::Refusal::Kind(0)));
/// ```
pub fn dump(file: &[u8]) -> Result<String, Refusal> {
    if let Some(refusal) = check(file).refusal().filter(|refusal| refusal.number() <= 6) {
        return Err(refusal);
    }
    let records: Vec<Record> = file.chunks_exact(32).map(Record::of).collect();
    let named = named(&records);
    let mut wanted: [Vec<bool>; 7] = Default::default();
    for (table, number) in records.iter().flat_map(Record::names) {
        let marks = &mut wanted[table.place()];
        marks.resize(marks.len().max(number + 1), false);
        marks[number] = true;
    }
    let mut counts = [0; 7];
    let mut list = String::new();
    let mut before = None;
    for record in &records {
        let group = record.kind.min(16);
        if before.is_some_and(|kind| kind != group) {
            list.push('\n');
        }
        before = Some(group);
        if let Some(table) = Table::of_kind(record.kind) {
            let own = counts[table.place()];
            counts[table.place()] += 1;
            let is_named = wanted[table.place()].get(own).copied().unwrap_or(false);
            if is_named && named.only(table, own).is_none() {
                list += &format!("{}: ", label(table, own));
            }
        }
        list += &line(record, &named);
        list.push('\n');
    }
    Ok(list)
}

/// What the records can be named by. One names only earlier ones.
fn named(records: &[Record]) -> Named {
    let mut named = Named::default();
    for record in records {
        let [_, b, c] = record.fields;
        let key = match record.kind {
            1 | 4 | 6 => Some(shown(&record.text)),
            2 | 3 => named.of_name(b.into(), &record.text),
            7 => named.variable(b, c.into()),
            _ => None,
        };
        if let Some(table) = Table::of_kind(record.kind) {
            named.add(table, key);
        }
    }
    named
}

fn label(table: Table, number: usize) -> String {
    format!("@{}{number}", table.said().1)
}

fn line(record: &Record, named: &Named) -> String {
    let names = record.names();
    let mut fields = names.iter().map(|&(table, number)| named.only(table, number).map_or_else(|| label(table, number), str::to_owned));
    let text = shown(&record.text);
    match record.kind {
        1 => format!("name {text}"),
        2 => format!("solvable {} {text}", fields.next().unwrap_or_default()),
        3 => format!("version-set {} {text}", fields.next().unwrap_or_default()),
        4 => format!("requirement {text}"),
        5 => format!("candidate {}", joined(fields)),
        6 => format!("reason {text}"),
        7 => match (record.fields[1], fields.next()) {
            (2, Some(name)) => format!("variable {FORBID} {name}"),
            (1, Some(solvable)) => format!("variable {solvable}"),
            (origin, _) => format!("variable {}", named.variable(origin, 0).unwrap_or_default()),
        },
        8 => format!("assigned {}", joined(fields)),
        kind => {
            let word = usize::from(kind).checked_sub(16).and_then(|k| CLAUSES.get(k)).map_or("", |(word, _)| word);
            let core = if record.second == 1 { "core" } else { "outside" };
            format!("{core} {word} {}", joined(fields)).trim_end().to_owned()
        }
    }
}

fn joined(fields: impl Iterator<Item = String>) -> String {
    fields.collect::<Vec<_>>().join(", ")
}
