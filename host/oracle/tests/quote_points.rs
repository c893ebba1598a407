//! Quotes in the graph text (document 02, order 5), each point on a smallest file.
#![cfg(has_conflict_rs)]

mod common;

use common::{drawn, told};
use oracle::draft::Draft;
use oracle::samples::{self, everywhere};
use std::io::Write as _;
use std::process::{Command, Stdio};

/// One package of this name and version that the root requires by this text.
fn package(name: &str, version: &str, wish: &str) -> Vec<u8> {
    let mut d = Draft::new();
    let one = d.package(name, version);
    d.root_needs(wish, &[one]);
    d.file()
}

#[test]
fn a_quote_in_a_version_has_a_backslash_before_it() {
    let file = package("panel", r#"4" monitor"#, "panel *");
    let wanted = r#"digraph {"<root>" -> "panel 4\" monitor"[color=black, label="panel *"];}"#;
    let (answer, text) = drawn(&file, 0);
    assert_eq!(text, wanted);
    assert_eq!((answer.bytes, answer.units), (wanted.len() as u64, 3));
    assert_eq!(drawn(&file, 1).1, wanted);
}

#[test]
fn quotes_in_name_version_requirement_version_set_and_reason() {
    let mut d = Draft::new();
    let name = d.name(r#"a""#);
    let all = [r#"1""#, r#"2""#].map(|version| d.solvable(name, version));
    d.root_needs(r#"b""#, &all);
    let set = d.version_set(name, r#"c""#);
    d.constrains(all[0], all[1], set);
    let reason = d.reason(r#"d""#);
    d.excludes(all[1], reason);
    d.needs(all[1], r#"e""#, &[]);
    let (answer, text) = drawn(&d.file(), 0);
    let edges = [
        r#""<root>" -> "a\" 2\""[color=black, label="b\""];"#,
        r#""<root>" -> "a\" 1\""[color=black, label="b\""];"#,
        r#""a\" 1\"" -> "a\" 2\""[color=red, label="c\""];"#,
        r#""a\" 2\"" -> "unresolved"[color=red, label="e\""];"#,
        r#""a\" 2\"" -> "reason: d\""[color=red, label="excluded"];"#,
    ];
    for edge in edges {
        assert!(text.contains(edge), "{edge}\n{text}");
    }
    let length = "digraph {}".len() + edges.concat().len();
    assert_eq!((text.len(), answer.units), (length, 7));
}

#[test]
fn the_explanation_keeps_plain_text() {
    for text in samples::QUOTES {
        let file = everywhere(text);
        for option in [0, 1] {
            let (answer, told) = told(&file, option);
            // As many bytes as with a letter in the place of each quote and backslash.
            let letters = text.replace(['"', '\\'], "x");
            let (other, plain) = common::told(&everywhere(&letters), option);
            assert_eq!(answer, other);
            assert_eq!(told.replace(['"', '\\'], "x"), plain);
            assert!(told.contains(&format!("{text} {text}")));
        }
    }
}

#[test]
fn twenty_four_quotes_are_forty_eight_bytes() {
    let quotes = "\"".repeat(24);
    let twice = "\\\"".repeat(24);
    assert_eq!(twice.len(), 48);
    let (answer, text) = drawn(&package(&quotes, &quotes, &quotes), 0);
    let wanted =
        format!("digraph {{\"<root>\" -> \"{twice} {twice}\"[color=black, label=\"{twice}\"];}}");
    assert_eq!(text, wanted);
    assert_eq!(answer.bytes as usize, wanted.len());
    // One byte more for each quote that is shown, whatever it stands in.
    let plain = drawn(&everywhere(&"x".repeat(24)), 0).1;
    let shown = plain.matches(&"x".repeat(24)).count();
    let (answer, text) = drawn(&everywhere(&quotes), 0);
    assert_eq!(text.matches(&twice).count(), shown);
    assert_eq!(answer.bytes as usize, plain.len() + 24 * shown);
}

#[test]
fn a_backslash_is_written_as_it_stands() {
    for (version, written) in [
        (r"\", r"\"),
        (r"\\", r"\\"),
        (r"a\b", r"a\b"),
        (r#"\""#, r#"\\""#),
        (r#"\\""#, r#"\\\""#),
        (r#""\"#, r#"\"\"#),
        (r#""\""#, r#"\"\\""#),
    ] {
        let (answer, text) = drawn(&package("x", version, "x *"), 0);
        let wanted =
            format!("digraph {{\"<root>\" -> \"x {written}\"[color=black, label=\"x *\"];}}");
        assert_eq!(text, wanted);
        assert_eq!((answer.bytes as usize, answer.units), (wanted.len(), 3));
    }
}

#[test]
fn the_quotes_around_texts_and_the_words_between_them_stay() {
    let (_, text) = drawn(&everywhere("\""), 0);
    // Six around the two ends and the label of each edge: four from the root, one of each other kind.
    let escaped = text.matches("\\\"").count();
    assert_eq!(text.matches('"').count() - escaped, 6 * 7);
    assert_eq!(text.matches('\\').count(), escaped);
    let plain = drawn(&everywhere("x"), 0).1;
    assert_eq!(text.replace("\\\"", "x"), plain);
}

#[test]
fn names_merge_by_plain_text() {
    // Written, one of these names is the other: a backslash and a quote.
    let file = |names: [&str; 2]| {
        let mut d = Draft::new();
        let all = names.map(|name| d.package(name, "1"));
        d.root_needs("x *", &all);
        d.file()
    };
    for (names, units) in [(["\"", "\""], 3), (["\"", "\\\""], 4), (["\\", "\\\""], 4)] {
        assert_eq!(drawn(&file(names), 1).0.units, units);
        assert_eq!(drawn(&file(names), 0).0.units, 4);
    }
}

#[test]
fn every_room_leaves_whole_units_also_between_a_backslash_and_its_quote() {
    let quotes = "\"".repeat(24);
    let mut d = Draft::new();
    let one = d.package("\"\"", "4\" monitor");
    d.root_needs(&quotes, &[one]);
    d.needs(one, "\\\"", &[]);
    let file = d.file();
    let units = [
        "digraph {".to_string(),
        format!(
            r#""<root>" -> "\"\" 4\" monitor"[color=black, label="{}"];"#,
            r#"\""#.repeat(24)
        ),
        r#""\"\" 4\" monitor" -> "unresolved"[color=red, label="\\""];"#.to_string(),
        "}".to_string(),
    ];
    let text = units.concat();
    for option in [0, 1] {
        assert_eq!(drawn(&file, option).1, text);
        for room in 0..=text.len() + 1 {
            let mut lent = vec![0xee; room];
            let answer = common::graphviz(&file, option, &mut lent);
            let mut bytes = 0;
            let whole = units.iter().take_while(|unit| {
                let fits = bytes + unit.len() <= room;
                bytes += if fits { unit.len() } else { 0 };
                fits
            });
            let whole = whole.count() as u64;
            let refusal = if whole == 4 { (0, 0) } else { (10, whole) };
            assert_eq!((answer.number, answer.place), refusal, "room {room}");
            assert_eq!((answer.bytes as usize, answer.units), (bytes, whole));
            assert_eq!(lent[..bytes], text.as_bytes()[..bytes]);
            assert!(lent[bytes..].iter().all(|&byte| byte == 0xee));
        }
    }
}

#[test]
fn the_largest_graph_of_quotes_alone_is_drawn() {
    let quotes = "\"".repeat(24);
    let twice = "\\\"".repeat(24);
    let mut d = Draft::new();
    let name = d.name(&quotes);
    let all: Vec<u16> = (0..64).map(|_| d.solvable(name, &quotes)).collect();
    for _ in 0..16 {
        d.root_needs(&quotes, &all);
    }
    let file = d.file();
    let edge = format!("\"<root>\" -> \"{twice} {twice}\"[color=black, label=\"{twice}\"];");
    let wanted = format!("digraph {{{}}}", edge.repeat(1_024));
    let mut room = vec![0; wanted.len()];
    let answer = common::graphviz(&file, 0, &mut room);
    assert_eq!((answer.number, answer.units), (0, 1_026));
    assert!(room == wanted.as_bytes());
    room.pop();
    let answer = common::graphviz(&file, 0, &mut room);
    assert_eq!((answer.number, answer.place), (10, 1_025));
    let last = answer.bytes as usize;
    let answer = common::graphviz(&file, 0, &mut room[..last - 1]);
    assert_eq!((answer.number, answer.place), (10, 1_024));
}

/// What dot makes of a graph text in its format `plain`, or what it says against it.
fn dot(text: &str) -> Result<String, String> {
    let dot = Command::new("dot")
        .arg("-Tplain")
        .stdin(Stdio::piped())
        .stdout(Stdio::piped())
        .stderr(Stdio::piped())
        .spawn();
    let mut dot = dot.expect("dot is on PATH: it comes with graphviz, which ./test installs");
    let mut to = dot.stdin.take().expect("it is piped");
    to.write_all(text.as_bytes()).expect("dot reads it");
    drop(to);
    let out = dot.wait_with_output().expect("dot ends");
    let said = |bytes: Vec<u8>| String::from_utf8(bytes).expect("dot writes UTF-8");
    if out.status.success() {
        Ok(said(out.stdout))
    } else {
        Err(said(out.stderr))
    }
}

#[test]
fn dot_draws_the_monitor_with_its_quote() {
    for option in [0, 1] {
        let (_, text) = drawn(&samples::monitor(), option);
        let plain = dot(&text).expect("dot draws it");
        // A node's line has its name, place and size, its label, then how it is drawn.
        let node = plain
            .lines()
            .find(|line| line.starts_with("node \"panel 4"));
        let node = node.expect("the monitor is drawn");
        assert_eq!(node.matches(r#""panel 4\" monitor""#).count(), 2, "{node}");
        let edge = plain
            .lines()
            .find(|line| line.starts_with("edge \"gallery 2\""));
        assert!(edge
            .expect("its edge is drawn")
            .contains(r#""panel <=7\"""#));
        // As it stands the quote ends the text, and dot can't go on.
        let bare = text.replace("\\\"", "\"");
        assert!(dot(&bare).is_err(), "{bare}");
    }
}

#[test]
fn dot_draws_even_runs_of_backslashes_and_not_odd_ones() {
    // At the end of a text, and just before a quote.
    for run in 0..=5 {
        for rest in ["", "\" monitor"] {
            let version = format!("4{}{rest}", "\\".repeat(run));
            let (_, text) = drawn(&package("panel", &version, "panel *"), 0);
            match dot(&text) {
                Ok(plain) if run % 2 == 0 => {
                    // In this format a text is written as DOT quotes it, and that is how it came.
                    let quoted = format!("\"panel {}\"", version.replace('"', "\\\""));
                    assert!(plain.contains(&quoted), "{quoted}: {plain}");
                }
                Err(_) if run % 2 == 1 => {}
                other => panic!("{text}: {other:?}"),
            }
        }
    }
}
