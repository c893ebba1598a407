//! `--json`: what programs read. A small reader of JSON stands here, which takes nothing that is no JSON.

mod common;

use common::{run, said};
use std::collections::BTreeMap;
use std::fs;
use std::path::Path;
use urzulempa::{edge_list, explain_plain, grown, node_list, season, Report};

const REPLAY: &[u8] = include_bytes!("../../../samples/replay.rec");
const RACK: &[u8] = include_bytes!("../../../samples/rack.rec");
const DECK_PANEL: &[u8] = include_bytes!("../../../samples/deck-panel.rec");
const MONITOR: &[u8] = include_bytes!("../../../samples/monitor.rec");

#[derive(Clone, Debug, PartialEq)]
enum Json {
    Null,
    Bool(bool),
    Number(u64),
    Text(String),
    List(Vec<Json>),
    Object(BTreeMap<String, Json>),
}

impl Json {
    /// What a whole line is.
    fn of(line: &str) -> Json {
        let mut rest = line;
        let read = Json::read(&mut rest).unwrap_or_else(|| panic!("no JSON from here on: {rest}\nin {line}"));
        assert_eq!(rest, "", "nothing stands behind it");
        read
    }

    fn read(rest: &mut &str) -> Option<Json> {
        for (word, is) in [("null", Json::Null), ("true", Json::Bool(true)), ("false", Json::Bool(false))] {
            if let Some(after) = rest.strip_prefix(word) {
                *rest = after;
                return Some(is);
            }
        }
        match rest.chars().next()? {
            '"' => Json::text(rest).map(Json::Text),
            '[' => Json::several(rest, ']', Json::read).map(Json::List),
            '{' => {
                let fields = Json::several(rest, '}', |rest| {
                    let name = Json::text(rest)?;
                    *rest = rest.strip_prefix(':')?;
                    Some((name, Json::read(rest)?))
                })?;
                let (count, fields) = (fields.len(), fields.into_iter().collect::<BTreeMap<_, _>>());
                (count == fields.len()).then_some(Json::Object(fields))
            }
            _ => {
                let end = rest.find(|c: char| !c.is_ascii_digit()).unwrap_or(rest.len());
                let (digits, after) = rest.split_at(end);
                *rest = after;
                digits.parse().ok().map(Json::Number)
            }
        }
    }

    fn several<T>(rest: &mut &str, close: char, one: impl Fn(&mut &str) -> Option<T>) -> Option<Vec<T>> {
        *rest = &rest[1..];
        let mut all = Vec::new();
        while !rest.starts_with(close) {
            if !all.is_empty() {
                *rest = rest.strip_prefix(',')?;
            }
            all.push(one(rest)?);
        }
        *rest = &rest[close.len_utf8()..];
        Some(all)
    }

    fn text(rest: &mut &str) -> Option<String> {
        let mut letters = rest.strip_prefix('"')?.chars();
        let mut text = String::new();
        loop {
            match letters.next()? {
                '"' => break,
                '\\' => match letters.next()? {
                    'n' => text.push('\n'),
                    'u' => {
                        let digits: String = letters.by_ref().take(4).collect();
                        text.push(char::from_u32(u32::from_str_radix(&digits, 16).ok()?)?);
                    }
                    c @ ('"' | '\\') => text.push(c),
                    _ => return None,
                },
                c if u32::from(c) < 32 => return None,
                c => text.push(c),
            }
        }
        *rest = letters.as_str();
        Some(text)
    }

    fn get(&self, name: &str) -> &Json {
        let Json::Object(fields) = self else { panic!("no object: {self:?}") };
        fields.get(name).unwrap_or_else(|| panic!("no {name} in {self:?}"))
    }

    fn list(&self) -> &[Json] {
        let Json::List(list) = self else { panic!("no list: {self:?}") };
        list
    }

    fn number(&self) -> u64 {
        let Json::Number(number) = self else { panic!("no number: {self:?}") };
        *number
    }

    fn str(&self) -> &str {
        let Json::Text(text) = self else { panic!("no text: {self:?}") };
        text
    }
}

/// The status, and the one object that a call prints; nothing is said beside it.
fn asked(words: &[&str], file: &[u8]) -> (i32, Json) {
    let out = run(words, file);
    assert_eq!(said(&out.stderr), "", "{words:?}");
    let printed = said(&out.stdout);
    (out.status.code().expect("a status"), Json::of(printed.strip_suffix('\n').expect("a line")))
}

#[test]
fn nodes_and_edges_are_those_of_the_library() {
    for file in [REPLAY, RACK, DECK_PANEL, MONITOR, &[]] {
        let (status, json) = asked(&["nodes", "-", "--json"], file);
        assert_eq!((status, json.get("done"), json.get("refusal")), (0, &Json::Bool(true), &Json::Null));
        let nodes = node_list(file).expect("accepted");
        assert_eq!(json.get("nodes").list().len(), nodes.len());
        for (n, (told, node)) in json.get("nodes").list().iter().zip(&nodes).enumerate() {
            assert_eq!((told.get("node").number(), told.get("number").number(), told.get("group").number()), (n as u64, node.number.into(), node.group.into()));
            assert_eq!((told.get("installable"), told.get("missing")), (&Json::Bool(node.installable == 1), &Json::Bool(node.missing == 1)));
            assert_eq!(told.get("clause") == &Json::Null, node.clause == 65_535);
            assert_eq!(told.get("members").number() as usize, nodes.iter().filter(|other| other.group == node.group).count());
        }
        if file.is_empty() {
            continue;
        }
        let (status, json) = asked(&["edges", "-", "--json"], file);
        assert_eq!(status, 0);
        let edges = edge_list(file).expect("accepted");
        assert_eq!(json.get("edges").list().len(), edges.len());
        for (told, edge) in json.get("edges").list().iter().zip(&edges) {
            let numbers = ["source", "target", "clause"].map(|name| told.get(name).number());
            assert_eq!(numbers, [edge.source, edge.target, edge.clause].map(u64::from));
        }
    }
    // A quote in a text, and the edges of a package alone.
    let (_, json) = asked(&["nodes", "--json", "-"], MONITOR);
    assert!(json.get("nodes").list().iter().any(|node| node.get("what").str() == "panel 4\" monitor"));
    let (_, json) = asked(&["edges", "-", "--json", "deck", "3.1"], RACK);
    assert_eq!(json.get("edges").list().len(), 21);
    let first = &json.get("edges").list()[0];
    assert_eq!(["from", "to", "kind", "names"].map(|name| first.get(name).str()), ["<root>", "deck 3.1", "requires", "deck *"]);
}

#[test]
fn a_refusal_has_its_number_and_place_and_what_is_said() {
    let mut file = REPLAY.to_vec();
    file[32 * 5 + 4] = 9;
    for command in ["check", "explain", "nodes", "edges", "summary"] {
        let (status, json) = asked(&[command, "-", "--json"], &file);
        assert_eq!((status, json.get("done")), (2, &Json::Bool(false)));
        let refusal = json.get("refusal");
        assert_eq!(["number", "place", "record", "byte"].map(|name| refusal.get(name).number()), [4, 5, 5, 160]);
        assert_eq!(refusal.get("at").str(), "record");
        let lines: Vec<String> = said(&run(&["check", "-"], &file).stderr).lines().map(str::to_owned).collect();
        assert_eq!(lines[0], format!("refused 4 at record 5, byte 160: {}", refusal.get("message").str()));
        assert_eq!(refusal.get("more").list().iter().map(|line| line.str().to_owned()).collect::<Vec<_>>(), lines[1..]);
    }
    let (status, json) = asked(&["check", "-", "--json"], &[0; 33]);
    let refusal = json.get("refusal");
    assert_eq!((status, refusal.get("number").number(), refusal.get("at").str(), refusal.get("place")), (2, 1, "file", &Json::Null));
    let (_, json) = asked(&["explain", "-", "--json", "--air"], RACK);
    assert_eq!((json.get("refusal").get("number").number(), json.get("refusal").get("at").str()), (15, "clause"));
    assert_eq!(asked(&["check", "-", "--json"], REPLAY).1.get("refusal"), &Json::Null);
}

#[test]
fn an_explanation_comes_with_its_text() {
    for file in [REPLAY, RACK, DECK_PANEL] {
        let (answer, text) = grown(1 << 20, |room| explain_plain(file, room));
        let (status, json) = asked(&["explain", "-", "--json"], file);
        assert_eq!((status == 0, json.get("done")), (answer.is_done(), &Json::Bool(answer.is_done())));
        assert_eq!((json.get("text").str().as_bytes(), json.get("lines").number()), (&text[..], answer.units));
        assert_eq!((json.get("bytes").number(), json.get("depth").number()), (answer.bytes, answer.depth));
    }
    let (_, json) = asked(&["explain", "-", "--json"], DECK_PANEL);
    assert!(json.get("refusal").get("more").list().iter().any(|line| line.str() == "cycle: deck 1 → panel 1 → deck 1"));
    // An empty one is no refusal.
    let (status, json) = asked(&["explain", "-", "--json"], &[]);
    assert_eq!((status, json.get("text").str(), json.get("refusal")), (0, "", &Json::Null));
    assert_eq!(json.get("note").str(), "nothing to explain: the file is empty");
}

#[test]
fn reports_have_what_their_lines_have() {
    let (_, json) = asked(&["summary", "-", "--json"], RACK);
    let texts = |list: &Json| list.list().iter().map(|one| one.str().to_owned()).collect::<Vec<_>>();
    assert_eq!((json.get("missing").list().len(), json.get("circle")), (0, &Json::Null));
    let excluded = &json.get("excluded").list()[0];
    assert_eq!((excluded.get("reason").str(), texts(excluded.get("packages")).len()), ("it was recalled", 10));
    assert_eq!(texts(json.get("rivals").list()[0].get("packages")), ["driver 12", "driver 11"]);
    let locked = &json.get("locked").list()[0];
    assert_eq!((locked.get("package").str(), texts(locked.get("out"))), ("driver 11", vec!["driver 12".to_owned()]));
    let constrained = &json.get("constrained").list()[0];
    assert_eq!((constrained.get("set").str(), constrained.get("out").str(), texts(constrained.get("by")).len()), ("panel <5", "panel 5", 10));
    let (_, json) = asked(&["summary", "-", "--json"], REPLAY);
    let missing = &json.get("missing").list()[0];
    assert_eq!((missing.get("requirement").str(), texts(missing.get("by"))), ("codec 9", vec!["replay 2".to_owned(), "replay 1".to_owned()]));

    let out = Path::new(env!("CARGO_TARGET_TMPDIR")).join(format!("json-{}.rec", std::process::id()));
    let name = out.to_str().expect("a name");
    let mut file = REPLAY.to_vec();
    file[11 * 32 + 1] = 7;
    let (status, json) = asked(&["salvage", "-", "-o", name, "--json"], &file[..12 * 32 + 5]);
    assert_eq!((status, json.get("out").str(), json.get("records").number(), json.get("dropped").number()), (0, name, 12, 5));
    let replaced = &json.get("replaced").list()[0];
    assert_eq!(["record", "byte", "clause"].map(|field| replaced.get(field).number()), [11, 352, 1]);
    assert_eq!(replaced.get("why").str(), "it would get 3, byte 1, the core flag, is 7 and not 0 or 1");
    assert_eq!(fs::read(&out).expect("a file").len(), 12 * 32);
    file[8] = 0;
    let (status, json) = asked(&["salvage", "-", "-o", name, "--json"], &file);
    assert_eq!((status, json.get("refusal").get("number").number()), (2, 3));
    fs::remove_file(&out).expect("a file");

    let text = run(&["export", "-"], RACK).stdout;
    let (status, json) = asked(&["import", "-", "--json"], &text);
    assert_eq!((status, json.get("nodes").number(), json.get("edges").number()), (0, 47, 86));
    let (status, json) = asked(&["import", "-", "--json"], b"0 <root>\n01 x\n#\n");
    assert_eq!((status, json.get("refusal").get("number").number(), json.get("refusal").get("place").number()), (2, 3, 2));

    let (status, json) = asked(&["what-if", "-", "driver 11", "it was recalled", "--json"], RACK);
    assert_eq!((status, json.get("changes").list().len()), (0, 2));
    let change = &json.get("changes").list()[0];
    assert_eq!(["what", "before", "then"].map(|name| change.get(name).str()), ["panel 5", "installable", "neither installable nor missing"]);
    let plain = said(&run(&["what-if", "-", "driver 11", "it was recalled"], RACK).stdout);
    assert!(plain.ends_with(&format!("\n\n{}", json.get("text").str())));
    let (status, json) = asked(&["what-if", "-", "driver 99", "it was recalled", "--json"], RACK);
    assert_eq!((status, json.get("refusal").get("number").number()), (2, 4));
    let (status, json) = asked(&["what-if", "-", "deck 1", "#0", "--json"], &[DECK_PANEL, &reason()].concat());
    assert_eq!((status, json.get("refusal").get("number").number()), (2, 17));
}

#[test]
fn a_season_and_a_joining_are_one_object() {
    let folder = Path::new(env!("CARGO_TARGET_TMPDIR")).join(format!("json-season-{}", std::process::id()));
    fs::create_dir_all(&folder).expect("a folder");
    let at = |name: &str| folder.join(name).to_str().expect("a name").to_owned();
    let (rack, cut, first, both) = (at("rack\t.rec"), at("cut.rec"), at("first.report"), at("both.report"));
    fs::write(&rack, RACK).expect("a file");
    fs::write(&cut, &REPLAY[..33]).expect("a file");

    let (status, json) = asked(&["season", &cut, &rack, "-", "--json", "--save", &first], DECK_PANEL);
    assert_eq!((status, json.get("file"), json.get("done"), json.get("refusal")), (0, &Json::Null, &Json::Bool(true), &Json::Null));
    assert_eq!(json.get("saved").str(), first);
    let report = json.get("report");
    let (mut counted, mut room) = (Report::default(), vec![0; 1 << 20]);
    for file in [&REPLAY[..33], RACK, DECK_PANEL] {
        assert_ne!(season(&mut counted, file, 1, 1, &mut room).number, 14);
    }
    let numbers = ["files", "done", "nodes", "edges", "groups", "missing", "lines", "unread"].map(|name| report.get(name).number());
    assert_eq!(numbers, [3, counted.done, counted.nodes, counted.edges, counted.groups, counted.missing, counted.lines, 0]);
    let refused: Vec<_> = report.get("refused").list().iter().map(|one| (one.get("number").number(), one.get("files").number())).collect();
    assert_eq!(refused, [(1, 1), (11, 1)]);
    assert_eq!(report.get("refused").list()[1].get("message").str(), "the explanation would never end");
    let deepest = counted.deepest.expect("two have a depth");
    assert_eq!(["depth", "number"].map(|name| report.get("deepest").get(name).number()), [deepest.depth, deepest.file]);
    assert_eq!((report.get("deepest").get("file").str(), report.get("longest").get("file").str()), (rack.as_str(), rack.as_str()));
    assert_eq!(report.get("longest").get("lines").number(), 15);

    let (status, json) = asked(&["join", &first, "-", "--json", "--save", &both], &fs::read(&first).expect("saved"));
    assert_eq!((status, json.get("file"), json.get("refusal"), json.get("saved").str()), (0, &Json::Null, &Json::Null, both.as_str()));
    assert_eq!((json.get("report").get("files").number(), json.get("report").get("lines").number()), (6, 2 * counted.lines));
    let joined = json.get("report").get("deepest");
    assert_eq!((joined.get("report").str(), joined.get("own").number(), joined.get("number").number()), (first.as_str(), deepest.file, deepest.file));
    let empty = fs::read_to_string(&first)
        .expect("saved")
        .lines()
        .map(|line| line.split(' ').next().unwrap_or_default().to_owned() + " 0\n")
        .skip(1)
        .collect::<String>();
    let (_, json) = asked(&["join", "--json", "-", &first], format!("urzulempa season 1\n{empty}").as_bytes());
    assert_eq!(json.get("report").get("deepest").get("report").str(), first);
    let (status, json) = asked(&["join", "--json", "-"], format!("urzulempa season 1\n{empty}").as_bytes());
    assert_eq!((status, json.get("report").get("deepest"), json.get("saved")), (0, &Json::Null, &Json::Null));

    // A damaged report, and 14.
    let (status, json) = asked(&["join", &first, "-", "--json", "--save", &at("none")], b"urzulempa season 1\ndone x\n");
    assert_eq!((status, json.get("file").str(), json.get("done")), (2, "standard input", &Json::Bool(false)));
    let refusal = json.get("refusal");
    assert_eq!((refusal.get("number"), refusal.get("at").str(), refusal.get("place").number(), refusal.get("more").list().len()), (&Json::Null, "line", 2, 1));
    let full = format!("urzulempa season 1\n{}", empty.replace("lines 0", &format!("lines {}", u64::MAX)));
    let (status, json) = asked(&["join", "-", &first, "--json", "--save", &at("none")], full.as_bytes());
    assert_eq!((status, json.get("file").str(), json.get("done")), (2, first.as_str(), &Json::Bool(false)));
    let refusal = json.get("refusal");
    assert_eq!((refusal.get("number").number(), refusal.get("at").str(), refusal.get("place")), (14, "report", &Json::Null));
    assert_eq!(refusal.get("message").str(), "a count of the report would pass 64 bits: keep the two reports apart");
    assert!(!Path::new(&at("none")).exists());

    // What can't be read stays on standard error, and is counted.
    let out = run(&["season", &rack, "there/is/none.rec", "--json"], &[]);
    assert_eq!((out.status.code(), said(&out.stderr).as_str()), (Some(1), "there/is/none.rec: No such file or directory (os error 2)\n"));
    let json = Json::of(said(&out.stdout).trim_end());
    assert_eq!((json.get("done"), json.get("report").get("unread").number(), json.get("report").get("files").number()), (&Json::Bool(true), 1, 1));
    fs::remove_dir_all(&folder).expect("the folder");
}

/// A reason, record 0 of its table.
fn reason() -> Vec<u8> {
    let mut record = vec![0; 32];
    record[..2].copy_from_slice(&[6, 3]);
    record[8..11].copy_from_slice(b"old");
    record
}

#[test]
fn several_files_are_an_object_a_line() {
    let folder = Path::new(env!("CARGO_TARGET_TMPDIR")).join(format!("json-{}", std::process::id()));
    fs::create_dir_all(&folder).expect("a folder");
    let names = ["good.rec", "cut \"short\"\t.rec"].map(|name| folder.join(name).to_str().expect("a name").to_owned());
    fs::write(&names[0], REPLAY).expect("a file");
    fs::write(&names[1], &REPLAY[..33]).expect("a file");
    let out = run(&["explain", "--json", &names[0], &names[1], "there/is/none.rec"], &[]);
    assert_eq!((out.status.code(), said(&out.stderr).as_str()), (Some(2), "urzulempa: there/is/none.rec: No such file or directory (os error 2)\n"));
    let told: Vec<Json> = said(&out.stdout).lines().map(Json::of).collect();
    assert_eq!(told.iter().map(|one| one.get("file").str()).collect::<Vec<_>>(), names);
    assert_eq!(told.iter().map(|one| one.get("done")).collect::<Vec<_>>(), [&Json::Bool(true), &Json::Bool(false)]);
    fs::remove_dir_all(&folder).expect("the folder");
}
