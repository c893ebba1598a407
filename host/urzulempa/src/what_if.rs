//! `what-if FILE PACKAGE REASON`: which labels would change if one more package were excluded, and the explanation then.

use crate::calls::{self, Load};
use crate::json::Json;
use crate::say::{print, say, DONE, REFUSED, USAGE};
use crate::words::Given;
use crate::{cycle, keep, lists, unreached};
use urzulempa::{check, decode, grown, what_changes, what_if_explain_as, Change, Indent, Refusal, MOST_BYTES};

/// A row of a table that can be asked for: its number and its texts, the one that is shown first.
type Row = (u16, Vec<String>);

/// One of the two tables, as a person speaks of it.
struct Table {
    one: &'static str,
    many: &'static str,
    rows: Vec<Row>,
}

impl Table {
    /// A package is meant by its name, or by name and version.
    fn packages(file: &[u8]) -> Self {
        let texts = |s| [decode::solvable(file, s), decode::package(file, s)].into_iter().flatten().collect();
        let rows = (0..decode::solvables(file)).map(|s| (s, texts(s))).collect();
        Table { one: "package", many: "packages", rows }
    }

    fn reasons(file: &[u8]) -> Self {
        let rows = (0..).map_while(|r| Some((r, vec![decode::reason(file, r)?]))).collect();
        Table { one: "reason", many: "reasons", rows }
    }

    fn shown(&self, number: u64) -> Option<&str> {
        let (_, texts) = self.rows.get(usize::try_from(number).ok()?)?;
        texts.first().map(String::as_str)
    }

    /// The numbers that a word means: `#` and a number is that one, whether the table has it or not.
    fn meant(&self, word: &str) -> Vec<u64> {
        let digits = word.strip_prefix('#').filter(|d| !d.is_empty() && d.bytes().all(|b| b.is_ascii_digit()));
        match digits {
            // A number that 64 bits don't hold is no number of a table either.
            Some(digits) => vec![digits.parse().unwrap_or(u64::MAX)],
            None => self.rows.iter().filter(|(_, texts)| texts.iter().any(|t| t == word)).map(|(n, _)| u64::from(*n)).collect(),
        }
    }

    /// The one number that a word means, or what to say and the status.
    fn find(&self, word: &str) -> Result<u64, (Vec<String>, u8)> {
        let Table { one, many, rows } = self;
        match self.meant(word)[..] {
            [number] if self.shown(number).is_some() => Ok(number),
            [] | [_] => {
                let has = match rows.len() {
                    0 => format!("it has no {many}"),
                    1 => format!("its only {one} is #0, {}", self.shown(0).unwrap_or_default()),
                    n => format!("its {many} are #0 to #{}", n - 1),
                };
                Err((vec![format!("refused 4: the file has no {one} {word}; {has}")], REFUSED))
            }
            ref several => {
                let mut said = vec![format!("urzulempa: {word} means {} {many}; name one of them by its number:", several.len())];
                said.extend(several.iter().map(|&n| format!("#{n} {}", self.shown(n).unwrap_or_default())));
                Err((said, USAGE))
            }
        }
    }
}

pub fn run(given: &Given) -> Result<u8, String> {
    let name = given.name(0).unwrap_or_default();
    let load = Load { name: keep::shown(name), bytes: keep::read(name, MOST_BYTES)?.0 };
    // That file's refusals first.
    if let Some(refusal) = check(&load.bytes).refusal() {
        return load.tell(given, Some(refusal), Vec::new);
    }
    let (packages, reasons) = (Table::packages(&load.bytes), Table::reasons(&load.bytes));
    let (package, reason) = (given.text(1).unwrap_or_default(), given.text(2).unwrap_or_default());
    match (packages.find(&package), reasons.find(&reason)) {
        (Ok(solvable), Ok(reason)) => {
            let asked = Asked { solvable, reason, package: packages.shown(solvable).unwrap_or_default(), why: reasons.shown(reason).unwrap_or_default() };
            asked.answer(given, &load)
        }
        (Err((said, REFUSED)), _) | (_, Err((said, REFUSED))) if given.has("--json") => load.refused(Refusal::Asked, &said),
        (Err((said, status)), _) | (_, Err((said, status))) => {
            said.iter().for_each(|line| say(line));
            Ok(status)
        }
    }
}

/// A question: two numbers, and what they stand for.
struct Asked<'t> {
    solvable: u64,
    reason: u64,
    package: &'t str,
    why: &'t str,
}

impl Asked<'_> {
    fn answer(&self, given: &Given, load: &Load) -> Result<u8, String> {
        let Asked { solvable, reason, package, why } = *self;
        let file = &load.bytes;
        let changes = match what_changes(file, solvable, reason) {
            Ok(changes) => changes,
            Err(refusal) => {
                let lines = refused(file, &format!("{package} (#{solvable})"), refusal);
                if given.has("--json") {
                    return load.refused(refusal, &lines);
                }
                lines.iter().for_each(|line| say(line));
                return Ok(REFUSED);
            }
        };
        let indent = given.either("--indent", "--no-indent").map_or(Indent::default(), Indent::from);
        let (answer, text) = grown(calls::room(given), |room| what_if_explain_as(file, solvable, reason, indent, room));
        let mut lines = answer.refusal().map(|refusal| crate::refused::all(file, refusal)).unwrap_or_default();
        lines.extend(calls::more_room(given, &answer));
        if given.has("--json") {
            let told = vec![
                ("solvable", solvable.into()),
                ("package", package.into()),
                ("reason", why.into()),
                ("changes", change_json(file, &changes)),
                ("text", String::from_utf8_lossy(&text).into_owned().into()),
            ];
            print(&load.json(told, answer.refusal().map(|refusal| (refusal, &lines[..]))).line())?;
        } else {
            let head = format!("if {package} (#{solvable}) were excluded because {why} (#{reason}):\n{}", change_lines(file, &changes));
            let between: &[u8] = if text.is_empty() { b"" } else { b"\n" };
            print(&[head.as_bytes(), between, &text].concat())?;
            lines.iter().for_each(|line| say(line));
        }
        Ok(if answer.is_done() { DONE } else { REFUSED })
    }
}

/// The labels that change, for a program.
fn change_json(file: &[u8], changes: &[Change]) -> Json {
    let one = |c: &Change| {
        Json::Object(vec![
            ("solvable", (c.node.kind == 1).then_some(c.node.number).into()),
            ("what", lists::shown(file, &c.node).into()),
            ("before", c.before.to_string().into()),
            ("then", c.then.to_string().into()),
        ])
    };
    Json::List(changes.iter().map(one).collect())
}

/// One line for each label that changes.
fn change_lines(file: &[u8], changes: &[Change]) -> String {
    if changes.is_empty() {
        return "no label changes\n".into();
    }
    let line = |c: &Change| {
        let number = if c.node.kind == 1 { format!("#{} ", c.node.number) } else { String::new() };
        format!("{number}{}: {} before, {} then\n", lists::shown(file, &c.node), c.before, c.then)
    };
    changes.iter().map(line).collect()
}

/// What is said of a refusal of the question, the file having none.
fn refused(file: &[u8], package: &str, refusal: Refusal) -> Vec<String> {
    match refusal {
        Refusal::Asked => vec![format!("refused 4: {package} is not in the conflict, so excluding it changes nothing; `urzulempa nodes FILE` lists what is")],
        Refusal::GraphFull(clause) => {
            let first = format!(
                "refused 8 at clause {clause}, which this exclusion would be: it would add node 129 or edge 1,025, unresolved counted; cut the core down"
            );
            [first].into_iter().chain(unreached::filled(file, clause)).collect()
        }
        Refusal::Cycle(node) => {
            let first =
                format!("refused 17 at node {node}: it leads back to itself, and the question can only be asked of a load without a cycle: break it first");
            [first].into_iter().chain(cycle::lines(file, node)).collect()
        }
        other => vec![format!("refused {}: {other}", other.number())],
    }
}
