//! The commands that show what a file says: explain, graph, nodes, edges, check, export, import.

use crate::json::Json;
use crate::say::{about, print, say, trouble, usage, DONE, REFUSED, TROUBLE};
use crate::words::Given;
use crate::{choose, keep, lists, refused, wall_text};
use std::ffi::OsStr;
use std::io::{stdout, IsTerminal};
use urzulempa::{
    decode, edge_list, explain_air_as, explain_as, graphviz_as, grown, node_list, tgf, wall, Answer, Edition, Groups, Indent, Refusal, MOST_BYTES,
};

/// What a person can use, and what a file or another program may get, where no room is named.
const TERMINAL_ROOM: usize = 1 << 20;
pub const OTHER_ROOM: usize = 64 << 20;

/// The most bytes of text.
pub fn room(given: &Given) -> usize {
    given.number("--room").unwrap_or(if stdout().is_terminal() { TERMINAL_ROOM } else { OTHER_ROOM })
}

/// How to get more, where the room was too small.
pub fn more_room(given: &Given, answer: &Answer) -> Option<String> {
    let Some(Refusal::Room(_)) = answer.refusal() else { return None };
    let whence = match given.has("--room") {
        true => "as --room says, or than there is memory for",
        false if stdout().is_terminal() => "the most on a terminal where --room does not say otherwise",
        false => "the most where --room does not say otherwise",
    };
    Some(format!("the text has more than {} bytes, {whence}: --room N takes N bytes", room(given)))
}

/// A file that was read.
pub struct Load {
    /// For a person.
    pub name: String,
    pub bytes: Vec<u8>,
}

impl Load {
    fn read(name: &OsStr, most: usize) -> Result<Self, String> {
        keep::read(name, most).map(|(bytes, _)| Load { name: keep::shown(name), bytes })
    }

    /// An answer for a program: the file, what is to be told of it, and the refusal, if it is one.
    pub fn json(&self, fields: Vec<(&'static str, Json)>, refusal: Option<(Refusal, &[String])>) -> Json {
        let mut all = vec![("file", Json::from(self.name.as_str())), ("done", refusal.is_none().into())];
        all.extend(fields);
        all.push(("refusal", refusal.map(|(refusal, lines)| refused::json(&self.bytes, refusal, lines)).into()));
        Json::Object(all)
    }

    /// A refusal for a program, with the lines that a person would see.
    pub fn refused(&self, refusal: Refusal, lines: &[String]) -> Result<u8, String> {
        print(&self.json(Vec::new(), Some((refusal, lines))).line()).map(|()| REFUSED)
    }

    /// Tells what there is to tell, or the refusal, to a program or a person.
    pub fn tell(&self, given: &Given, refusal: Option<Refusal>, fields: impl FnOnce() -> Vec<(&'static str, Json)>) -> Result<u8, String> {
        let lines = refusal.map(|refusal| refused::all(&self.bytes, refusal)).unwrap_or_default();
        if given.has("--json") {
            let fields = if refusal.is_none() { fields() } else { Vec::new() };
            print(&self.json(fields, refusal.map(|refusal| (refusal, &lines[..]))).line())?;
        } else {
            lines.iter().for_each(|line| say(line));
        }
        Ok(if refusal.is_some() { REFUSED } else { DONE })
    }
}

/// Each of the files in turn. Of several, what is said of each begins with its name, one that can't be read does not stop those behind
/// it, and the highest status counts.
pub fn each(given: &Given, most: usize, prints: bool, one: impl Fn(&Load) -> Result<u8, String>) -> Result<u8, String> {
    if let [name] = given.names(0) {
        return one(&Load::read(name, most)?);
    }
    let mut worst = DONE;
    for name in given.names(0) {
        let status = match Load::read(name, most) {
            Err(why) => {
                trouble(&why);
                TROUBLE
            }
            Ok(load) => {
                if prints && !given.has("--json") {
                    say(&format!("{}:", load.name));
                }
                about(&load.name, || one(&load))?
            }
        };
        worst = worst.max(status);
    }
    Ok(worst)
}

pub fn explain(given: &Given) -> Result<u8, String> {
    let air = given.has("--air");
    let edition = given.number("--edition").and_then(Edition::of);
    if air && edition == Some(Edition::Two) {
        return Ok(usage("--air explains by edition 1: leave out one of --air and --edition 2"));
    }
    let chosen = match choose::defaults(given)? {
        Ok(chosen) => chosen,
        Err(status) => return Ok(status),
    };
    let indent = Indent::from(given.either("--indent", "--no-indent").unwrap_or(chosen.indent));
    let edition = edition.unwrap_or(chosen.edition);
    each(given, MOST_BYTES, true, |load| {
        let file = &load.bytes;
        let (answer, text) = grown(room(given), |room| if air { explain_air_as(file, indent, room) } else { explain_as(file, edition, indent, room) });
        let mut lines = answer.refusal().map(|refusal| refused::all(file, refusal)).unwrap_or_default();
        lines.extend(more_room(given, &answer));
        if !air && edition == Edition::One {
            lines.extend(second(file, indent, room(given), &answer));
        }
        let note = (answer.is_done() && text.is_empty()).then(|| nothing(file));
        if given.has("--json") {
            let told = vec![
                ("lines", answer.units.into()),
                ("bytes", answer.bytes.into()),
                ("depth", answer.depth.into()),
                ("text", String::from_utf8_lossy(&text).into_owned().into()),
                ("note", note.into()),
            ];
            print(&load.json(told, answer.refusal().map(|refusal| (refusal, &lines[..]))).line())?;
        } else {
            print(&text)?;
            lines.iter().chain(&note).for_each(|line| say(line));
        }
        Ok(if answer.is_done() { DONE } else { REFUSED })
    })
}

/// What edition 2 would do where edition 1 has no end, or does not fit a room that edition 2 fits.
fn second(file: &[u8], indent: Indent, room: usize, answer: &Answer) -> Option<String> {
    let Some(Refusal::Room(_) | Refusal::Endless(_)) = answer.refusal() else { return None };
    let (second, _) = grown(OTHER_ROOM, |room| explain_as(file, Edition::Two, indent, room));
    let fits = usize::try_from(second.bytes).is_ok_and(|bytes| bytes <= room);
    if !second.is_done() || answer.number == 10 && !fits {
        return None;
    }
    Some(format!("with --edition 2 every package is shown once, and the text ends: {} lines, {} bytes", second.units, second.bytes))
}

/// Why an explanation is empty.
fn nothing(file: &[u8]) -> String {
    let clauses = file.chunks_exact(32).filter(|record| decode::is_clause(record[0]));
    let core = clauses.clone().filter(|record| record[1] == 1).count();
    let why = match (clauses.count(), core) {
        _ if file.is_empty() => "the file is empty".into(),
        (0, _) => "the file has no clauses".into(),
        (1, 0) => "the file's one clause is not in the core".into(),
        (all, 0) => format!("none of the file's {all} clauses is in the core"),
        _ => "the root requires nothing by the clauses of the core; `urzulempa edges FILE` lists what they say".into(),
    };
    format!("nothing to explain: {why}")
}

pub fn graph(given: &Given) -> Result<u8, String> {
    let chosen = match choose::defaults(given)? {
        Ok(chosen) => chosen,
        Err(status) => return Ok(status),
    };
    let groups = Groups::from(given.either("--simplify", "--no-simplify").unwrap_or(chosen.simplify));
    each(given, MOST_BYTES, true, |load| {
        let status = text(given, load, |room| graphviz_as(&load.bytes, groups, room))?;
        if groups == Groups::Once {
            lists::groups(&load.bytes).iter().for_each(|line| say(line));
        }
        Ok(status)
    })
}

pub fn export(given: &Given) -> Result<u8, String> {
    each(given, MOST_BYTES, true, |load| text(given, load, |room| tgf(&load.bytes, room)))
}

/// Prints what a call writes, and says why that is not all.
fn text(given: &Given, load: &Load, call: impl Fn(&mut [u8]) -> Answer) -> Result<u8, String> {
    let (answer, text) = grown(room(given), call);
    print(&text)?;
    let status = refused::told(&load.bytes, &answer);
    more_room(given, &answer).iter().for_each(|line| say(line));
    Ok(status)
}

pub fn nodes(given: &Given) -> Result<u8, String> {
    each(given, MOST_BYTES, true, |load| {
        let listed = node_list(&load.bytes);
        let nodes = listed.as_deref().unwrap_or_default();
        if listed.is_ok() && !given.has("--json") {
            print(lists::node_lines(&load.bytes, nodes).as_bytes())?;
        }
        load.tell(given, listed.as_ref().err().copied(), || vec![("nodes", lists::node_json(&load.bytes, nodes))])
    })
}

pub fn edges(given: &Given) -> Result<u8, String> {
    // A version behind a name needs no quotes.
    let words: Vec<String> = given.names(1).iter().map(|word| word.to_string_lossy().into_owned()).collect();
    let package = (!words.is_empty()).then(|| words.join(" "));
    let load = Load::read(given.name(0).unwrap_or_default(), MOST_BYTES)?;
    let (file, package) = (&load.bytes, package.as_deref());
    let listed = node_list(file).and_then(|nodes| Ok((nodes, edge_list(file)?)));
    if let Ok((nodes, edges)) = &listed {
        let lines = lists::edge_lines(file, nodes, edges, package);
        if !given.has("--json") {
            print(lines.as_bytes())?;
        }
        match package {
            _ if given.has("--json") => {}
            Some(wanted) if lines.is_empty() => {
                let why = if lists::has_package(file, wanted) { "no edge of the conflict touches it" } else { "the file has no such package" };
                say(&format!("{wanted}: {why}"));
            }
            None if lines.is_empty() => say("nothing to list: the graph has no edges"),
            _ => {}
        }
    }
    load.tell(given, listed.as_ref().err().copied(), || {
        let (nodes, edges) = listed.as_ref().map(|(nodes, edges)| (&nodes[..], &edges[..])).unwrap_or_default();
        vec![("edges", lists::edge_json(file, nodes, edges, package))]
    })
}

pub fn check(given: &Given) -> Result<u8, String> {
    each(given, MOST_BYTES, false, |load| load.tell(given, urzulempa::check(&load.bytes).refusal(), Vec::new))
}

/// Checks texts of the wall display; a bad one is refused with its first bad line.
pub fn import(given: &Given) -> Result<u8, String> {
    each(given, keep::MOST_TEXT, true, |load| {
        let read = wall::read(&load.bytes);
        let status = if read.is_ok() { DONE } else { REFUSED };
        if given.has("--json") {
            print(&wall_text::json(&load.name, &load.bytes, &read).line())?;
            return Ok(status);
        }
        match read {
            Ok(chart) => print(wall_text::told(&chart).as_bytes())?,
            Err(bad) => {
                say(&format!("refused 3 at line {}: {}", bad.0, wall_text::fault(&load.bytes, bad)));
                say("the wall display takes what `urzulempa export FILE` prints: export it again, or mend that line");
            }
        }
        Ok(status)
    })
}
