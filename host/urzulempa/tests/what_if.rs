//! `what-if` as a person runs it, and its calls on a small stack.

mod common;

use common::{run, said};
use std::thread::Builder;
use urzulempa::{check, grown, nodes, what_changes, what_if, what_if_explain, Label, Node, Refusal, MOST_NODES};

/// Status, standard output and standard error of a question.
fn asked(file: &[u8], words: &[&str]) -> (i32, String, String) {
    let out = run(&[&["what-if", "-"], words].concat(), file);
    (out.status.code().expect("a status"), said(&out.stdout), said(&out.stderr))
}

const REPLAY: &[u8] = include_bytes!("../../../samples/replay.rec");
const RACK: &[u8] = include_bytes!("../../../samples/rack.rec");
const DECK_PANEL: &[u8] = include_bytes!("../../../samples/deck-panel.rec");

fn record(kind: u8, fields: [u16; 3], text: &str) -> Vec<u8> {
    let mut bytes = vec![kind, text.len() as u8];
    fields.iter().for_each(|field| bytes.extend(field.to_le_bytes()));
    bytes.extend(text.as_bytes());
    bytes.resize(32, 0);
    bytes
}

/// A file with more reasons behind it; it has none of its own.
fn with_reasons(file: &[u8], texts: &[&str]) -> Vec<u8> {
    let reasons = texts.iter().zip(0..).map(|(text, own)| record(6, [own, 0, 0], text));
    [file.to_vec()].into_iter().chain(reasons).flatten().collect()
}

#[test]
fn what_the_readme_shows() {
    let (status, out, err) = asked(RACK, &["driver 11", "it was recalled"]);
    assert_eq!((status, err.as_str()), (0, ""));
    let lines: Vec<&str> = out.lines().collect();
    assert_eq!(
        lines[..8],
        [
            "if driver 11 (#43) were excluded because it was recalled (#0):",
            "#44 panel 5: installable before, neither installable nor missing then",
            "#43 driver 11: installable before, neither installable nor missing then",
            "",
            "├─ panel 5 cannot be installed because there are no viable options:",
            "│  └─ panel 5 would require",
            "│     └─ driver 11, which cannot be installed because there are no viable options:",
            "│        └─ driver 11 is excluded because it was recalled",
        ]
    );
    // The rest is the explanation, to the byte.
    let (answer, text) = grown(1 << 20, |room| what_if_explain(RACK, 43, 0, 1, room));
    assert!(answer.is_done());
    assert!(out.ends_with(&format!("\n\n{}", String::from_utf8_lossy(&text))));
    for words in [["#43", "#0"], ["driver 11", "#0"], ["#43", "it was recalled"]] {
        assert_eq!(asked(RACK, &words), (status, out.clone(), String::new()));
    }
}

#[test]
fn a_question_that_changes_no_label_says_so() {
    // A codec that is recalled already, recalled again.
    let (status, out, _) = asked(RACK, &["codec 7.2-b01", "#0"]);
    assert_eq!(status, 0);
    assert!(out.starts_with("if codec 7.2-b01 (#22) were excluded because it was recalled (#0):\nno label changes\n\n├─ panel 5 can be installed"), "{out}");
}

#[test]
fn the_root_and_a_missing_package_are_told_without_and_with_a_number() {
    let file = with_reasons(REPLAY, &["too old"]);
    let (status, out, _) = asked(&file, &["--no-indent", "replay 2", "too old"]);
    assert_eq!(status, 0);
    let wanted = "\
if replay 2 (#0) were excluded because too old (#0):
<root>: missing before, neither installable nor missing then
#0 replay 2: missing before, neither installable nor missing then

replay * cannot be installed because there are no viable options:
├─ replay 2 is excluded because too old
└─ replay 1 would require
   └─ codec 9, for which no candidates were found.
";
    assert_eq!(out, wanted);
    // As in `explain`, the top level is indented unless option 0 is named, and the last word counts.
    let (_, indented, _) = asked(&file, &["replay 2", "too old"]);
    assert!(indented.contains("\n└─ replay * cannot be installed"), "{indented}");
    assert_eq!(asked(&file, &["--no-indent", "--indent", "replay 2", "too old"]).1, indented);
}

#[test]
fn an_ambiguous_text_lists_its_numbers() {
    let (status, out, err) = asked(RACK, &["deck", "#0"]);
    assert_eq!((status, out.as_str()), (64, ""));
    assert_eq!(err.lines().collect::<Vec<_>>(), ["urzulempa: deck means 2 packages; name one of them by its number:", "#0 deck 3.1", "#1 deck 2.4"]);
    // A name alone is enough where one package has it.
    assert_eq!(asked(RACK, &["panel", "#0"]), asked(RACK, &["panel 5", "#0"]));
    let file = with_reasons(REPLAY, &["too old", "recalled", "too old"]);
    let (status, _, err) = asked(&file, &["#0", "too old"]);
    assert_eq!(status, 64);
    assert!(err.contains("too old means 2 reasons") && err.ends_with("#0 too old\n#2 too old\n"), "{err}");
    assert_eq!(asked(&file, &["#0", "#2"]).0, 0);
}

#[test]
fn what_is_not_there_is_said() {
    for (words, wanted) in [
        (["mixer", "#0"], "refused 4: the file has no package mixer; its packages are #0 to #44\n"),
        (["#45", "#0"], "refused 4: the file has no package #45; its packages are #0 to #44\n"),
        (["#65536", "#0"], "refused 4: the file has no package #65536; its packages are #0 to #44\n"),
        (["#99999999999999999999", "#0"], "refused 4: the file has no package #99999999999999999999; its packages are #0 to #44\n"),
        (["#43", "nobody knows"], "refused 4: the file has no reason nobody knows; its only reason is #0, it was recalled\n"),
        (["#", "#0"], "refused 4: the file has no package #; its packages are #0 to #44\n"),
    ] {
        assert_eq!(asked(RACK, &words), (2, String::new(), wanted.to_string()));
    }
    assert_eq!(asked(REPLAY, &["#0", "#0"]).2, "refused 4: the file has no reason #0; it has no reasons\n");
    // A package that is in the file and not in the conflict.
    let spare = [with_reasons(REPLAY, &["too old"]), record(2, [2, 0, 0], "3")].concat();
    let (status, out, err) = asked(&spare, &["replay 3", "#0"]);
    assert_eq!((status, out.as_str()), (2, ""));
    assert!(err.starts_with("refused 4: replay 3 (#2) is not in the conflict"), "{err}");
}

#[test]
fn the_files_own_refusals_come_first() {
    let (status, _, err) = asked(&RACK[..33], &["nobody", "nothing"]);
    assert_eq!(status, 2);
    assert!(err.starts_with("refused 1 at the whole file: "), "{err}");
    let mut wrong = REPLAY.to_vec();
    wrong[2] = 1;
    let (status, _, err) = asked(&wrong, &["#0", "#0"]);
    assert!(status == 2 && err.starts_with("refused 4 at record 0, byte 0: "), "{err}");
}

#[test]
fn a_cycle_is_named_and_a_full_graph_too() {
    let ring = with_reasons(DECK_PANEL, &["too old"]);
    let (status, out, err) = asked(&ring, &["deck", "too old"]);
    assert_eq!((status, out.as_str()), (2, ""));
    let lines: Vec<&str> = err.lines().collect();
    assert!(lines[0].starts_with("refused 17 at node 1: "), "{err}");
    assert_eq!(lines[1..3], ["node 1 is panel 1", "cycle: deck 1 → panel 1 → deck 1"]);
    let (status, _, err) = asked(&full(), &["p 7", "too old"]);
    assert_eq!(status, 2);
    assert!(err.starts_with("refused 8 at clause 1, which this exclusion would be: "), "{err}");
    assert!(err.contains("\nbefore it the graph has 128 nodes, unresolved counted, and 126 edges\nmost of its nodes are versions of p (126)\n"), "{err}");
    assert_eq!(what_changes(&full(), 7, 0), Err(Refusal::GraphFull(1)));
}

/// The root and 126 packages: with unresolved, which has gone, as many nodes as fit.
fn full() -> Vec<u8> {
    let each = |one: &dyn Fn(u16) -> Vec<u8>| (0..126).flat_map(one).collect::<Vec<u8>>();
    let clause = |kind: u8, fields: [u16; 3]| {
        let mut bytes = record(kind, fields, "");
        bytes[1] = u8::from(kind >= 16);
        bytes
    };
    [
        record(1, [0; 3], "p"),
        each(&|i| record(2, [i, 0, 0], &i.to_string())),
        record(4, [0; 3], "p *"),
        each(&|i| clause(5, [0, i, 0])),
        record(6, [0; 3], "too old"),
        clause(7, [0; 3]),
        clause(19, [0; 3]),
    ]
    .concat()
}

#[test]
fn wrong_usage_is_said() {
    for (words, wanted) in [
        (&[][..], "what-if wants FILE, PACKAGE and REASON"),
        (&["deck"], "what-if wants FILE, PACKAGE and REASON"),
        (&["driver", "11", "it was recalled"], "put quotes around a text that has spaces"),
        (&["deck", "#0", "--room"], "--room wants a number of bytes"),
    ] {
        let (status, out, err) = asked(RACK, words);
        assert_eq!((status, out.as_str()), (64, ""));
        assert!(err.contains(wanted), "{words:?}: {err}");
    }
    let out = run(&["what-if", "--air", "x", "y", "z"], &[]);
    assert_eq!(out.status.code(), Some(64));
    assert_eq!(run(&["what-if", "no/such/file", "x", "y"], &[]).status.code(), Some(1));
    let help = String::from_utf8_lossy(&run(&["what-if", "--help"], &[]).stdout).into_owned();
    assert!(help.contains("urzulempa what-if FILE PACKAGE REASON"));
}

#[test]
fn a_small_room_keeps_whole_lines() {
    let (status, out, err) = asked(RACK, &["#43", "#0", "--room", "110"]);
    assert_eq!(status, 2);
    assert!(err.starts_with("refused 10 at unit 2: "), "{err}");
    assert!(out.ends_with("options:\n│  └─ panel 5 would require\n"), "{out}");
}

#[test]
fn a_text_that_looks_like_an_option_is_a_text() {
    let file = with_reasons(REPLAY, &["-", "--air"]);
    assert_eq!(asked(&file, &["#0", "-"]), asked(&file, &["#0", "#0"]));
    assert_eq!(asked(&file, &["#0", "--air"]), asked(&file, &["#0", "#1"]));
}

#[test]
fn both_calls_fit_a_small_stack() {
    let thread = Builder::new().stack_size(128 << 10).spawn(|| {
        let (mut list, mut room) = (vec![Node::default(); MOST_NODES], vec![0; 1 << 16]);
        for solvable in 0..45 {
            assert!(what_if(RACK, solvable, 0, &mut list).is_done());
            assert!(what_if_explain(RACK, solvable, 0, 1, &mut room).is_done());
        }
        assert_eq!(what_if(&full(), 0, 0, &mut list).number, 8);
        assert_eq!(what_if_explain(&full(), 126, 0, 0, &mut room).number, 4);
    });
    thread.expect("a thread").join().expect("the calls return");
}

#[test]
fn changes_are_what_the_two_lists_say() {
    for solvable in 0..45 {
        let (mut before, mut then) = (vec![Node::default(); MOST_NODES], vec![Node::default(); MOST_NODES]);
        assert!(nodes(RACK, &mut before).is_done() && what_if(RACK, solvable, 0, &mut then).is_done());
        let changes = what_changes(RACK, solvable, 0).expect("it can be asked");
        let wanted = before.iter().zip(&then).filter(|(b, t)| (b.installable, b.missing) != (t.installable, t.missing));
        assert!(wanted.map(|(b, _)| *b).eq(changes.iter().map(|c| c.node)));
        assert!(changes.iter().all(|c| c.then != Label::Installable));
    }
    assert!(check(RACK).is_done());
    assert_eq!(what_changes(RACK, 43, 1), Err(Refusal::Asked));
    assert_eq!(what_changes(&RACK[..33], 43, 0), Err(Refusal::Length));
}
