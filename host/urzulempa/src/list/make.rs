//! The file of a list.

use super::tables::Named;
use super::words::{labelled, shown, words, Word};
use super::{Fault, Table, CLAUSES, FORBID, ORIGINS};
use crate::tables::{fitting, record};
use crate::{written, Refusal};
use std::collections::HashMap;

/// A line that stands for a record.
struct Line {
    /// Counted from 1, empty lines and comments too.
    number: usize,
    label: Option<String>,
    kind: u8,
    /// 1 for a clause in the core.
    core: u8,
    /// Behind the keywords, between commas.
    fields: Vec<Vec<Word>>,
}

/// The file of a list, by way of [`crate::write`]: lines may stand in any order, and a line's number in its table is its place among
/// those of its kind. Or what is wrong, by lines; where words are, what they name is not looked at yet.
///
/// ```
/// use urzulempa::list::make;
///
/// let file = make(b"variable root\nname deck # the first table comes first").unwrap();
/// assert_eq!([file[0], file[32]], [1, 7]);
/// let faults = make(b"name deck\n\nsolvable dekc 1\n").unwrap_err();
/// assert_eq!(faults[0].to_string(), "line 3: no line makes the name `dekc`");
/// ```
pub fn make(list: &[u8]) -> Result<Vec<u8>, Vec<Fault>> {
    let lines = lines(list)?;
    let rows = Maker::of(&lines)?.rows()?;
    written(&rows.concat()).map_err(|refusal| vec![refused(&lines, &rows, refusal)])
}

fn fault(line: usize, why: String) -> Fault {
    Fault { line: Some(line), why, refusal: None }
}

fn lines(list: &[u8]) -> Result<Vec<Line>, Vec<Fault>> {
    let text = String::from_utf8_lossy(list);
    let text = text.strip_prefix('\u{feff}').unwrap_or(&text);
    let (mut lines, mut faults) = (Vec::new(), Vec::new());
    for (number, said) in (1..).zip(text.lines()) {
        match line(number, said) {
            Ok(line) => lines.extend(line),
            Err(why) => faults.push(fault(number, why)),
        }
    }
    if faults.is_empty() {
        Ok(lines)
    } else {
        Err(faults)
    }
}

/// A line without a record is none.
fn line(number: usize, said: &str) -> Result<Option<Line>, String> {
    let (label, said) = labelled(said)?;
    let words = words(said)?;
    let Some((first, mut rest)) = words.split_first() else {
        return label.map_or(Ok(None), |label| Err(format!("behind the label @{label}: stands a record, on the same line")));
    };
    let keyword = if let Word::Bare(word) = first { word.as_str() } else { "" };
    let (kind, core) = match keyword {
        "name" => (1, 0),
        "solvable" => (2, 0),
        "version-set" => (3, 0),
        "requirement" => (4, 0),
        "candidate" => (5, 0),
        "reason" => (6, 0),
        "variable" => (7, 0),
        "assigned" => (8, 0),
        "core" | "outside" => {
            let clause = rest.first().and_then(Word::text).unwrap_or_default();
            let kind = (16..).zip(CLAUSES).find(|(_, (word, _))| *word == clause).map(|(kind, _)| kind);
            let all = CLAUSES.map(|(word, _)| word).join(", ");
            rest = rest.get(1..).unwrap_or_default();
            (kind.ok_or_else(|| format!("behind {keyword} stands one of {all}"))?, u8::from(keyword == "core"))
        }
        _ => return Err("a line begins with name, solvable, version-set, requirement, candidate, reason, variable, assigned, core or outside".into()),
    };
    let fields: Vec<Vec<Word>> = if rest.is_empty() { vec![] } else { rest.split(|w| *w == Word::Comma).map(<[Word]>::to_vec).collect() };
    let line = Line { number, label, kind, core, fields };
    if line.fields.len() == form_fields(kind) {
        Ok(Some(line))
    } else {
        Err(line.misshapen())
    }
}

/// How many fields a line of a kind has.
fn form_fields(kind: u8) -> usize {
    match kind {
        1..=4 | 6 | 7 => 1,
        5 | 8 => 2,
        kind => slots(kind).len(),
    }
}

fn slots(kind: u8) -> &'static [Table] {
    usize::from(kind).checked_sub(16).and_then(|k| CLAUSES.get(k)).map_or(&[], |(_, slots)| slots)
}

impl Line {
    /// What such a line looks like.
    fn misshapen(&self) -> String {
        let form = match self.kind {
            1 => "name TEXT".into(),
            2 => "solvable NAME VERSION".into(),
            3 => "version-set NAME TEXT".into(),
            4 => "requirement TEXT".into(),
            5 => "candidate REQUIREMENT, NAME VERSION".into(),
            6 => "reason TEXT".into(),
            7 => "variable VARIABLE".into(),
            8 => "assigned VARIABLE, @LABEL".into(),
            kind => {
                let word = CLAUSES[usize::from(kind) - 16].0;
                let fields: Vec<&str> = slots(kind).iter().map(|table| table.form()).collect();
                format!("{} {word} {}", if self.core == 1 { "core" } else { "outside" }, fields.join(", ")).trim_end().to_owned()
            }
        };
        let variable = if form.contains("VARIABLE") { "; a VARIABLE is root, NAME VERSION, forbid NAME, gate, auxiliary, other or a label" } else { "" };
        format!("such a line is `{form}`, with a text that has spaces in quotes{variable}")
    }

    /// The text in a place of a field, as a record holds it.
    fn text<'a>(&self, word: &'a Word) -> Result<&'a str, String> {
        let text = word.text().ok_or_else(|| self.misshapen())?;
        fitting(text).map_err(|bad| bad.to_string())
    }
}

struct Maker<'a> {
    lines: &'a [Line],
    /// Lines by their labels, and by their numbers in the tables.
    labels: HashMap<&'a str, usize>,
    owners: [Vec<usize>; 7],
    /// The number of each line in its table.
    own: Vec<usize>,
    named: Named,
    rows: Vec<[u8; 32]>,
}

impl<'a> Maker<'a> {
    fn of(lines: &'a [Line]) -> Result<Self, Vec<Fault>> {
        let mut maker = Maker {
            lines,
            labels: HashMap::new(),
            owners: Default::default(),
            own: vec![0; lines.len()],
            named: Named::default(),
            rows: vec![[0; 32]; lines.len()],
        };
        let mut faults = Vec::new();
        for (at, line) in lines.iter().enumerate() {
            if let Some(table) = Table::of_kind(line.kind) {
                maker.own[at] = maker.owners[table.place()].len();
                maker.owners[table.place()].push(at);
            }
            if let Some(label) = line.label.as_deref() {
                if let Some(&other) = maker.labels.get(label) {
                    faults.push(fault(line.number, format!("@{label} is the label of line {} already", lines[other].number)));
                } else {
                    maker.labels.insert(label, at);
                }
            }
        }
        if faults.is_empty() {
            Ok(maker)
        } else {
            Err(faults)
        }
    }

    /// The rows, in the order of the lines. What is named is made before what names it, so that one fault does not make others.
    fn rows(mut self) -> Result<Vec<[u8; 32]>, Vec<Fault>> {
        for kinds in [&[1, 4, 6][..], &[2, 3], &[7], &[5, 8, 16, 17, 18, 19, 20, 21, 22, 23, 24, 25]] {
            let mut faults = Vec::new();
            for (at, line) in self.lines.iter().enumerate().filter(|(_, line)| kinds.contains(&line.kind)) {
                match self.row(line) {
                    Ok((row, key)) => {
                        self.rows[at] = row;
                        Table::of_kind(line.kind).into_iter().for_each(|table| self.named.add(table, key.clone()));
                    }
                    Err(why) => faults.push(fault(line.number, why)),
                }
            }
            if !faults.is_empty() {
                return Err(faults);
            }
        }
        Ok(self.rows)
    }

    /// The row of a line, and the words that name it.
    fn row(&self, line: &Line) -> Result<([u8; 32], Option<String>), String> {
        let field = |k: usize| line.fields.get(k).map_or(&[][..], Vec::as_slice);
        match (line.kind, field(0)) {
            (1 | 4 | 6, [text]) => {
                let text = line.text(text)?;
                Ok((record(line.kind, 0, [0; 3], text), Some(shown(text))))
            }
            (2 | 3, [name, text]) => {
                let (name, text) = (self.number(line, Table::Name, std::slice::from_ref(name))?, line.text(text)?);
                Ok((record(line.kind, 0, [0, word(name), 0], text), self.named.of_name(name, text)))
            }
            (7, said) => {
                let (origin, names) = self.origin(line, said)?;
                Ok((record(7, 0, [0, origin, word(names)], ""), self.named.variable(origin, names)))
            }
            (5, _) => Ok((self.naming(line, &[Table::Requirement, Table::Solvable])?, None)),
            (8, _) => Ok((self.naming(line, &[Table::Variable, Table::Clause])?, None)),
            (kind @ 16.., _) => Ok((self.naming(line, slots(kind))?, None)),
            _ => Err(line.misshapen()),
        }
    }

    /// A row whose fields name records of these tables.
    fn naming(&self, line: &Line, tables: &[Table]) -> Result<[u8; 32], String> {
        let mut fields = [0; 3];
        for ((field, table), said) in fields.iter_mut().zip(tables).zip(&line.fields) {
            *field = word(self.number(line, *table, said)?);
        }
        Ok(record(line.kind, line.core, fields, ""))
    }

    /// The origin of a variable, and the number of what it names.
    fn origin(&self, line: &Line, said: &[Word]) -> Result<(u16, usize), String> {
        match said {
            [Word::Bare(word)] => ORIGINS.iter().find(|(_, w)| w == word).map(|(origin, _)| (*origin, 0)).ok_or_else(|| line.misshapen()),
            [Word::Bare(word), name] if word == FORBID => Ok((2, self.number(line, Table::Name, std::slice::from_ref(name))?)),
            said => Ok((1, self.number(line, Table::Solvable, said)?)),
        }
    }

    /// The number of the record of a table that a field names, by its words or its label.
    fn number(&self, line: &Line, table: Table, said: &[Word]) -> Result<usize, String> {
        let (what, _) = table.said();
        if let [Word::Label(label)] = said {
            let at = *self.labels.get(label.as_str()).ok_or_else(|| format!("no line has the label @{label}:"))?;
            let owner = &self.lines[at];
            return if Table::of_kind(owner.kind) == Some(table) {
                Ok(self.own[at])
            } else {
                Err(format!("@{label} is line {}, which makes no {what}", owner.number))
            };
        }
        let key = key(table, said).ok_or_else(|| line.misshapen())?;
        match self.named.all(table, &key) {
            [number] => Ok(*number),
            [] if table == Table::Variable => Err(format!("no line makes the variable `{key}`: write `variable {key}`")),
            [] => Err(format!("no line makes the {what} `{key}`")),
            several => {
                let made: Vec<String> = several.iter().map(|&n| self.lines[self.owners[table.place()][n]].number.to_string()).collect();
                Err(format!(
                    "lines {} make a {what} `{key}`: put a label in front of the one that is meant, @LABEL: .., and write @LABEL here",
                    made.join(", ")
                ))
            }
        }
    }
}

/// A number that is too large for a field is one of a table that is full.
fn word(number: usize) -> u16 {
    u16::try_from(number).unwrap_or(u16::MAX)
}

/// The words that name a record, as the tables have them.
fn key(table: Table, said: &[Word]) -> Option<String> {
    match (table, said) {
        (Table::Name | Table::Requirement | Table::Reason, [text]) => text.text().map(shown),
        (Table::Variable, [Word::Bare(word)]) => ORIGINS.iter().find(|(_, w)| w == word).map(|(_, w)| (*w).to_owned()),
        (Table::Variable, [Word::Bare(word), name]) if word == FORBID => Some(format!("{FORBID} {}", shown(name.text()?))),
        (Table::Solvable | Table::VersionSet | Table::Variable, [name, text]) => Some(format!("{} {}", shown(name.text()?), shown(text.text()?))),
        _ => None,
    }
}

/// A refusal of the writer, by the line that it points at.
fn refused(lines: &[Line], rows: &[[u8; 32]], refusal: Refusal) -> Fault {
    let mut order: Vec<usize> = (0..rows.len()).collect();
    order.sort_by_key(|&at| match rows[at][0] {
        8 => (9, field(&rows[at], 0)),
        kind => (kind.min(8), 0),
    });
    let at = refusal.record().and_then(|place| order.get(usize::try_from(place).ok()?).copied());
    let why = match (at, refusal) {
        (Some(at), Refusal::Number(_)) if rows[at][0] == 8 => {
            let twin = |&k: &usize| rows[k][0] == 8 && rows[k][2..4] == rows[at][2..4] && k != at;
            let other = (0..rows.len()).find(twin).map(|k| format!(", on line {}", lines[k].number)).unwrap_or_default();
            format!("the variable is assigned already{other}")
        }
        (Some(at), Refusal::Origin(_)) => origin_fault(rows, &rows[at]),
        (Some(at), Refusal::TableFull(_)) => format!("it is one more than a file holds: {} at most", most(rows[at][0])),
        (Some(_), refusal) => refusal.to_string(),
        (None, _) => format!("the file would have {} bytes, in {} records, and 65,536 in 2,048 are the most", 32 * rows.len(), rows.len()),
    };
    Fault { line: at.map(|at| lines[at].number), why: format!("refused {}: {why}", refusal.number()), refusal: Some(refusal) }
}

fn field(row: &[u8; 32], k: usize) -> u16 {
    u16::from_le_bytes([row[2 + 2 * k], row[3 + 2 * k]])
}

fn most(kind: u8) -> &'static str {
    match kind {
        1 => "128 names",
        2 => "256 solvables",
        3 => "256 version sets",
        4 => "256 requirements",
        5 => "1,024 candidates",
        6 => "64 reasons",
        7 => "1,024 variables",
        8 => "1,024 assigned variables",
        _ => "1,024 clauses",
    }
}

/// Which field of a clause names a variable that does not belong there.
fn origin_fault(rows: &[[u8; 32]], row: &[u8; 32]) -> String {
    const SAID: [&str; 6] = ["the root", "a solvable", "a forbid-multiple", "a gate", "an auxiliary", "other"];
    let wanted: [&[usize]; 2] = match row[0] {
        17 => [&[1], &[]],
        19 => [&[0, 1, 3], &[]],
        20 => [&[1], &[1]],
        21 => [&[1], &[2]],
        22 => [&[0, 1], &[1]],
        23 => [&[0, 1], &[4]],
        24 => [&[1], &[4]],
        _ => [&[], &[]],
    };
    for (k, (wanted, said)) in wanted.into_iter().zip(["first", "second"]).enumerate() {
        let variable = rows.iter().filter(|row| row[0] == 7).nth(field(row, k).into());
        let origin = variable.map_or(0, |variable| usize::from(field(variable, 1)));
        if !wanted.is_empty() && !wanted.contains(&origin) {
            let wanted: Vec<&str> = wanted.iter().map(|&o| SAID[o]).collect();
            return format!("its {said} variable is {}, and {} is wanted there", SAID.get(origin).unwrap_or(&"?"), wanted.join(" or "));
        }
    }
    "a variable does not belong there".into()
}
