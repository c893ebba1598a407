//! `export` and `import` as a person runs them, and the calls behind them on a small stack.

mod common;

use common::{run, said};
use std::thread::Builder;
use urzulempa::{grown, tgf, tgf_read, wall, MOST_EDGES, MOST_NODES};

const REPLAY: &[u8] = include_bytes!("../../../samples/replay.rec");
const RACK: &[u8] = include_bytes!("../../../samples/rack.rec");
const SAMPLES: [&[u8]; 5] = [
    REPLAY,
    RACK,
    include_bytes!("../../../samples/deck-panel.rec"),
    include_bytes!("../../../samples/merged-pair.rec"),
    include_bytes!("../../../samples/lone.rec"),
];

const REPLAY_TEXT: &str = "0 <root>\n1 unresolved\n2 replay 2\n3 replay 1\n#\n0 2 replay *\n0 3 replay *\n2 1 codec 9\n3 1 codec 9\n";

#[test]
fn export_prints_the_text_and_nothing_else() {
    let out = run(&["export", "-"], REPLAY);
    assert_eq!((out.status.code(), said(&out.stdout), said(&out.stderr)), (Some(0), REPLAY_TEXT.into(), String::new()));
    let file = concat!(env!("CARGO_MANIFEST_DIR"), "/../../samples/replay.rec");
    assert_eq!(run(&["export", file], &[]).stdout, REPLAY_TEXT.as_bytes());
}

#[test]
fn export_of_a_file_without_records_is_the_root_alone() {
    assert_eq!(said(&run(&["export", "-"], &[]).stdout), "0 <root>\n#\n");
}

#[test]
fn export_into_a_small_room_leaves_whole_lines() {
    let out = run(&["export", "-", "--room", "50"], REPLAY);
    assert_eq!(out.status.code(), Some(2));
    assert_eq!(said(&out.stdout), "0 <root>\n1 unresolved\n2 replay 2\n3 replay 1\n#\n");
    assert!(said(&out.stderr).starts_with("refused 10 at unit 5: "), "{}", said(&out.stderr));
}

#[test]
fn export_refuses_a_bad_file_as_the_other_commands_do() {
    let out = run(&["export", "-"], &REPLAY[..33]);
    assert_eq!((out.status.code(), out.stdout.len()), (Some(2), 0));
    assert_eq!(said(&out.stderr), said(&run(&["check", "-"], &REPLAY[..33]).stderr));
}

#[test]
fn what_was_exported_is_imported() {
    for (file, wanted) in SAMPLES.iter().zip(["4 nodes, 4 edges\n", "47 nodes, 86 edges\n", "3 nodes, 3 edges\n", "4 nodes, 5 edges\n", "2 nodes, 1 edge\n"]) {
        let text = run(&["export", "-"], file).stdout;
        let out = run(&["import", "-"], &text);
        assert_eq!((out.status.code(), said(&out.stdout), said(&out.stderr)), (Some(0), wanted.to_string(), String::new()));
    }
    assert_eq!(said(&run(&["import", "-"], b"0 <root>\n#\n").stdout), "1 node, 0 edges\n");
}

#[test]
fn import_names_the_first_bad_line_and_what_is_wrong_with_it() {
    let nodes = |n: usize| (0..n).map(|n| format!("{n} p\n")).collect::<String>();
    let edges = |n: usize| format!("0 p\n#\n{}", "0 0 r\n".repeat(n));
    let long = "x".repeat(50);
    for (text, line, wanted) in [
        (String::new(), 1, "the text is empty, and a node is wanted at least"),
        ("0 a\n1 b\n".into(), 3, "it is missing: the text ends before the line with #"),
        ("0 a\n#".into(), 2, "it has no newline at its end, so the text was cut"),
        ("0 a\n#\n0 0 x".into(), 3, "it has no newline at its end, so the text was cut"),
        ("#\n".into(), 1, "no node stands before the line with #"),
        ("0 a\n2 b\n#\n".into(), 2, "it begins with \"2\", and 1, the number of the next node, is wanted there"),
        ("0 a\n01 b\n#\n".into(), 2, "it begins with \"01\", and 1, the number of the next node, is wanted there"),
        ("0 a\n\n#\n".into(), 2, "it is neither # alone nor a number, a space and a label"),
        ("0 a\n#\r\n".into(), 2, "it is neither # alone nor a number, a space and a label"),
        ("0 \n#\n".into(), 1, "it has no label"),
        ("0 a\r\n#\n".into(), 1, "byte 4 of the line is 13, and a label's are 32 to 126"),
        (format!("0 {long}\n#\n"), 1, "its label has 50 bytes, and 49 are the most"),
        (format!("{}#\n", nodes(129)), 129, "128 nodes are the most, and # alone is wanted behind them"),
        ("0 a\n#\n0 0\n".into(), 3, "it is not the number of a node, a space, the number of another, a space and a label"),
        ("0 a\n#\n0 x y\n".into(), 3, "its target is \"x\", which is no number"),
        ("0 a\n#\n 0 y\n".into(), 3, "its source is \"\", which is no number"),
        ("0 a\n#\n00 0 y\n".into(), 3, "its source is \"00\", and a number has no leading zeros"),
        ("0 a\n#\n0 1 y\n".into(), 3, "its target is 1, and the last node is 0"),
        ("0 a\n#\n0 0 \n".into(), 3, "it has no label"),
        ("0 a\n#\n0 0 a\u{1f}\n".into(), 3, "byte 6 of the line is 31, and a label's are 32 to 126"),
        (format!("0 a\n#\n0 0 {long}\n"), 3, "its label has 50 bytes, and 49 are the most"),
        (edges(1_025), 1_027, "1,024 edges are the most"),
    ] {
        let out = run(&["import", "-"], text.as_bytes());
        assert_eq!((out.status.code(), out.stdout.len()), (Some(2), 0), "{text:?}");
        let first = said(&out.stderr).lines().next().unwrap_or_default().to_string();
        assert_eq!(first, format!("refused 3 at line {line}: {wanted}"), "{text:?}");
    }
    for good in [format!("{}#\n", nodes(128)), edges(1_024)] {
        assert_eq!(run(&["import", "-"], good.as_bytes()).status.code(), Some(0));
    }
}

#[test]
fn import_refuses_the_text_of_the_readme() {
    let text = said(&run(&["export", "-"], RACK).stdout).replace("\n0 2 ", "\n0 02 ");
    let wanted = "refused 3 at line 49: its target is \"02\", and a number has no leading zeros\n\
                  the wall display takes what `urzulempa export FILE` prints: export it again, or mend that line\n";
    assert_eq!(said(&run(&["import", "-"], text.as_bytes()).stderr), wanted);
}

#[test]
fn import_says_something_of_any_text_that_is_refused() {
    for at in 0..REPLAY_TEXT.len() {
        for byte in [b'\n', b' ', b'#', b'9', 31, 255] {
            let mut text = REPLAY_TEXT.as_bytes().to_vec();
            text[at] = byte;
            let out = run(&["import", "-"], &text);
            let err = said(&out.stderr);
            match wall::read(&text) {
                Ok(_) => assert!(out.status.code() == Some(0) && err.is_empty(), "{text:?}: {err}"),
                Err(wall::BadLine(line)) => {
                    assert_eq!(out.status.code(), Some(2));
                    assert!(err.starts_with(&format!("refused 3 at line {line}: ")) && !err.contains("panicked"), "{text:?}: {err}");
                    // What is said fits the line: a label of good length is never called too long.
                    assert!(!err.contains("49 are the most"), "{text:?}: {err}");
                }
            }
        }
    }
}

#[test]
fn wrong_usage_is_64() {
    for words in
        [&["export"][..], &["import"], &["export", "a", "b"], &["export", "-", "--simplify"], &["import", "-", "--room", "3"], &["export", "-", "--room", "x"]]
    {
        assert_eq!(run(words, &[]).status.code(), Some(64), "{words:?}");
    }
    assert_eq!(run(&["import", "no such file"], &[]).status.code(), Some(1));
}

#[test]
fn both_calls_fit_128_kib_of_stack() {
    let largest = format!("{}#\n{}", (0..128).map(|n| format!("{n} p\n")).collect::<String>(), "127 126 r\n".repeat(1_024));
    let (mut room, mut nodes, mut edges) = (vec![0; 1 << 16], vec![0; 2 * MOST_NODES], vec![0; 4 * MOST_EDGES]);
    let call = move || {
        for file in SAMPLES {
            let answer = tgf(file, &mut room);
            assert!(answer.is_done());
            assert!(tgf_read(&room[..answer.bytes as usize], &mut nodes, &mut edges).is_done());
        }
        let counts = tgf_read(largest.as_bytes(), &mut nodes, &mut edges);
        assert_eq!((counts.number, counts.nodes, counts.edges), (0, 128, 1_024));
    };
    Builder::new().stack_size(128 << 10).spawn(call).expect("a thread").join().expect("the calls return");
}

#[test]
fn labels_read_back_are_those_of_the_load() {
    let (_, text) = grown(1 << 16, |room| tgf(RACK, room));
    let chart = wall::read(&text).expect("an exported text is read");
    assert_eq!((chart.nodes[0], chart.nodes.len(), chart.edges.len()), ("<root>", 47, 86));
    assert!(chart.nodes.contains(&"deck 3.1") && chart.nodes.contains(&"reason: it was recalled"));
    assert!(chart.edges.iter().any(|edge| (edge.label, chart.nodes[edge.target]) == ("driver >=12", "driver 12")));
    // Builds of one version are merged in the explanation, and stand here by themselves.
    assert_eq!(chart.nodes.iter().filter(|label| label.starts_with("codec 9.0-b")).count(), 20);
}
