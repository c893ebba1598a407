//! The command as a person runs it: what the README shows.

mod common;

use common::{run, said, Ground};
use std::fs;
use std::io::Write;
use std::os::unix::fs::{symlink, PermissionsExt};
use std::process::{Command, Stdio};
use urzulempa::{explain, explain_plain, nodes, repaired, Node, MOST_NODES};

const REPLAY: &[u8] = include_bytes!("../../../samples/replay.rec");
const RACK: &[u8] = include_bytes!("../../../samples/rack.rec");
const DECK_PANEL: &[u8] = include_bytes!("../../../samples/deck-panel.rec");
const MONITOR: &[u8] = include_bytes!("../../../samples/monitor.rec");

#[test]
fn explain_prints_the_text_and_nothing_else() {
    let out = run(&["explain", "-"], REPLAY);
    assert_eq!(out.status.code(), Some(0));
    let wanted = "└─ replay * cannot be installed because there are no viable options:\n   └─ replay 2 | 1 would require\n      └─ codec 9, for which no candidates were found.\n";
    assert_eq!(said(&out.stdout), wanted);
    assert!(out.stderr.is_empty());
}

#[test]
fn without_a_flag_explain_is_a_plain_call_and_option_0_has_a_name() {
    // P7's 155 bytes.
    let flat = "replay * cannot be installed because there are no viable options:\n└─ replay 2 | 1 would require\n   └─ codec 9, for which no candidates were found.\n";
    assert_eq!(flat.len(), 155);
    assert_eq!(said(&run(&["explain", "-", "--no-indent"], REPLAY).stdout), flat);
    let full = most_nodes();
    for file in [REPLAY, DECK_PANEL, RACK, &full, &REPLAY[..33]] {
        for more in [&[][..], &["--edition", "2"], &["--air"], &["--room", "300"]] {
            let ran = |words: &[&str]| {
                let out = run(&[&["explain", "-"], more, words].concat(), file);
                (out.status.code(), said(&out.stdout), said(&out.stderr))
            };
            assert_eq!(ran(&[]), ran(&["--indent"]));
            // The last one counts.
            assert_eq!(ran(&["--no-indent", "--indent"]), ran(&["--indent"]));
            assert_eq!(ran(&["--indent", "--no-indent"]), ran(&["--no-indent"]));
            assert_eq!(ran(&[]).1 == ran(&["--no-indent"]).1, ran(&[]).1.is_empty());
        }
        // What the library calls so.
        let mut room = vec![0; 1 << 16];
        let answer = explain_plain(file, &mut room);
        assert_eq!(run(&["explain", "-"], file).stdout, room[..answer.bytes as usize]);
        let answer = explain(file, 0, &mut room);
        assert_eq!(run(&["explain", "-", "--no-indent"], file).stdout, room[..answer.bytes as usize]);
    }
}

#[test]
fn a_long_group_shows_its_first_three_versions_and_its_last() {
    let out = run(&["explain", "-"], RACK);
    assert_eq!(out.status.code(), Some(0));
    let wanted = "\
├─ panel 5 can be installed with any of the following options:
│  └─ panel 5 would require
│     └─ driver 11, which can be installed with any of the following options:
│        └─ driver 11
└─ deck * cannot be installed because there are no viable options:
   ├─ deck 3.1 would require
   │  └─ codec >=9, which cannot be installed because there are no viable options:
   │     └─ codec 9.0-b01 | 9.0-b02 | 9.0-b03 | ... | 9.0-b20 would require
   │        └─ driver >=12, which cannot be installed because there are no viable options:
   │           └─ driver 12, which conflicts with the versions reported above.
   └─ deck 2.4 would require
      └─ codec >=7,<9, which cannot be installed because there are no viable options:
         ├─ codec 7.2-b01 | 7.2-b02 | 7.2-b03 | ... | 7.2-b10 is excluded because it was recalled
         └─ codec 7.2-b11 | 7.2-b12 | 7.2-b13 | ... | 7.2-b20 would constrain
            └─ panel <5, which conflicts with any installable versions previously reported
";
    assert_eq!(said(&out.stdout), wanted);
}

/// What dot draws of a graph text in a format.
fn drawn_by_dot(format: &str, text: &[u8]) -> String {
    let dot = Command::new("dot").arg(format).stdin(Stdio::piped()).stdout(Stdio::piped()).spawn();
    let mut dot = dot.expect("dot is on PATH: it comes with graphviz, which ./test installs");
    dot.stdin.take().expect("a pipe").write_all(text).expect("dot reads it");
    let out = dot.wait_with_output().expect("dot ends");
    assert!(out.status.success(), "dot does not take {}", said(text));
    said(&out.stdout)
}

#[test]
fn dot_draws_a_version_with_a_quote() {
    for words in [&["graph", "-"][..], &["graph", "-", "--simplify"]] {
        let out = run(words, MONITOR);
        assert_eq!(out.status.code(), Some(0));
        let plain = drawn_by_dot("-Tplain", &out.stdout);
        // A node's line has its name, place and size, its label, then how it is drawn.
        let node = plain.lines().find(|line| line.starts_with("node \"panel 4")).expect("the monitor is drawn");
        assert_eq!(node.matches(r#""panel 4\" monitor""#).count(), 2, "{node}");
        assert!(plain.contains(r#""panel <=7\"""#), "{plain}");
        // What is seen has the quote and no backslash.
        assert!(drawn_by_dot("-Tsvg", &out.stdout).contains(">panel 4&quot; monitor</text>"));
    }
    let out = run(&["explain", "-"], MONITOR);
    assert!(said(&out.stdout).contains("├─ panel 4\" monitor is excluded because its glass is cracked\n"));
}

#[test]
fn a_refusal_is_said_with_the_record_that_it_points_at() {
    let mut file = REPLAY.to_vec();
    file[32 * 5 + 4] = 9;
    let out = run(&["check", "-"], &file);
    assert_eq!(out.status.code(), Some(2));
    assert!(out.stdout.is_empty());
    let err = said(&out.stderr);
    assert!(err.starts_with("refused 4 at record 5, byte 160: "), "{err}");
    assert!(err.contains("candidate: requirement 0, solvable 9; solvable 9 is not defined yet; 2 solvables are"), "{err}");
}

#[test]
fn the_byte_or_field_that_is_wrong_is_named() {
    let changed = |at: usize, to: u8| {
        let mut file = REPLAY.to_vec();
        file[at] = to;
        let out = run(&["check", "-"], &file);
        assert_eq!(out.status.code(), Some(2));
        said(&out.stderr)
    };
    for (at, to, wanted) in [
        (1, 3, "byte 11, beyond the text, is 108 and must be 0"),
        (1, 25, "byte 1, the text's length, is 25 and not 1 to 24"),
        (8, 31, "byte 8, of the text, is 31 and not 32 to 126"),
        (4, 7, "field b is 7 and must be 0"),
        (2, 5, "its own number is 5 and should be 0, the next"),
        (32 * 7 + 4, 6, "field b, the origin, is 6 and not 0 to 5"),
        (32 * 10 + 1, 2, "byte 1, the core flag, is 2 and not 0 or 1"),
        (32 * 10, 20, "field a: variable 0 is the root, and a solvable is wanted there"),
    ] {
        let err = changed(at, to);
        assert!(err.contains(wanted), "{at} {to}: {err}");
    }
    let out = run(&["check", "-"], &REPLAY[..33]);
    assert!(said(&out.stderr).contains("it has 33 bytes"));
}

#[test]
fn nodes_are_listed_with_what_they_are() {
    let out = run(&["nodes", "-"], REPLAY);
    let lines = said(&out.stdout);
    assert_eq!(lines.lines().nth(1), Some("0 root 0 0 0 1 65535 <root>"));
    let record = "record 10 (byte 320): Requires: requirer variable 0 (the root), requirement 0 (replay *)";
    assert_eq!(lines.lines().last(), Some(format!("3 solvable 1 2 0 1 0 replay 1  {record}").as_str()));
    // the root alone, and as many as the shortest list that the library fills
    assert_eq!(said(&run(&["nodes", "-"], &[]).stdout).lines().skip(1).collect::<Vec<_>>(), ["0 root 0 0 1 0 65535 <root>"]);
    let full = most_nodes();
    for file in [REPLAY, DECK_PANEL, RACK, &full] {
        let count = (0..=MOST_NODES).find(|&n| nodes(file, &mut vec![Node::default(); n]).is_done());
        assert_eq!(said(&run(&["nodes", "-"], file).stdout).lines().skip(1).count(), count.expect("a length that does"));
    }
    assert!(said(&run(&["nodes", "-"], &full).stdout).lines().last().is_some_and(|l| l.starts_with("127 solvable 125 3 1 0 0 p 1  record ")));
}

/// A file whose graph has as many nodes as a graph can have: the root, unresolved and 126 solvables, of which the first lacks something.
fn most_nodes() -> Vec<u8> {
    let each = |one: &dyn Fn(u16) -> Vec<u8>| (0..126).flat_map(one).collect::<Vec<u8>>();
    [
        record(1, 1, [0; 3], "p"),
        each(&|i| record(2, 1, [i, 0, 0], "1")),
        record(4, 3, [0; 3], "p *"),
        record(4, 1, [1, 0, 0], "q"),
        each(&|i| record(5, 0, [0, i, 0], "")),
        record(7, 0, [0; 3], ""),
        each(&|i| record(7, 0, [i + 1, 1, i], "")),
        record(19, 1, [0; 3], ""),
        record(19, 1, [1, 1, 0], ""),
    ]
    .concat()
}

/// The lines of `edges` for a file and a package, which have to be all that is said.
fn edges(file: &[u8], package: &[&str]) -> Vec<String> {
    let out = run(&[&["edges", "-"], package].concat(), file);
    assert_eq!(out.status.code(), Some(0));
    assert_eq!(said(&out.stderr), "");
    said(&out.stdout).lines().map(str::to_string).collect()
}

#[test]
fn edges_are_listed_with_the_record_behind_them() {
    let lines = edges(REPLAY, &[]);
    let wanted = [
        "<root> -> replay 2  requires \"replay *\"  clause 0, record 10 (byte 320): Requires: requirer variable 0 (the root), requirement 0 (replay *)",
        "<root> -> replay 1  requires \"replay *\"  clause 0, record 10 (byte 320): Requires: requirer variable 0 (the root), requirement 0 (replay *)",
        "replay 2 -> unresolved  requires \"codec 9\"  clause 1, record 11 (byte 352): Requires: requirer variable 1 (replay 2), requirement 1 (codec 9)",
        "replay 1 -> unresolved  requires \"codec 9\"  clause 2, record 12 (byte 384): Requires: requirer variable 2 (replay 1), requirement 1 (codec 9)",
    ];
    assert_eq!(lines, wanted);
    // Every kind of edge, and that the record is the one at that byte.
    let lines = edges(RACK, &[]);
    assert_eq!(lines.len(), 1 + 2 + 20 + 20 + 1 + 20 + 1 + 1 + 10 + 10);
    for (line, kind) in [
        ("deck 3.1 -> codec 9.0-b01  requires \"codec >=9\"  clause 3, ", 19),
        ("codec 9.0-b01 -> driver 12  requires \"driver >=12\"  clause 26, ", 19),
        ("driver 12 -> driver 11  only one of the two can be installed  clause 28, ", 21),
        ("<root> -> driver 12  driver 11 is locked  clause 29, ", 20),
        ("codec 7.2-b01 -> reason: it was recalled  is excluded  clause 30, ", 17),
        ("codec 7.2-b11 -> panel 5  constrains \"panel <5\"  clause 40, ", 23),
    ] {
        let found = lines.iter().find_map(|l| l.strip_prefix(line)).unwrap_or_else(|| panic!("no line begins with {line}"));
        let byte: usize = found.split(['(', ')']).nth(1).and_then(|s| s.strip_prefix("byte ")).and_then(|n| n.parse().ok()).expect("a byte place");
        assert_eq!(RACK[byte], kind, "{found}");
    }
}

#[test]
fn edges_of_a_package_are_those_that_touch_it() {
    let all = edges(RACK, &[]);
    let of = |wanted: &dyn Fn(&str, &str, &str) -> bool| -> Vec<String> {
        let parts = |line: &str| {
            let (ends, rest) = line.split_once("  ").expect("two parts");
            let (source, target) = ends.split_once(" -> ").expect("two ends");
            wanted(source, target, rest)
        };
        all.iter().filter(|line| parts(line)).cloned().collect()
    };
    assert_eq!(edges(RACK, &["deck"]), of(&|s, t, _| s.starts_with("deck ") || t.starts_with("deck ")));
    assert_eq!(edges(RACK, &["deck 3.1"]), of(&|s, t, _| s == "deck 3.1" || t == "deck 3.1"));
    assert_eq!(edges(RACK, &["deck", "3.1"]), edges(RACK, &["deck 3.1"]));
    assert_eq!(edges(RACK, &["deck 3.1"]).len(), 21);
    // The locked one has no end at the edge of its lock.
    assert_eq!(edges(RACK, &["driver 11"]), of(&|s, t, r| s == "driver 11" || t == "driver 11" || r.starts_with("driver 11 is locked")));
    assert_eq!(edges(RACK, &["driver 11"]).len(), 3);
    assert_eq!(edges(REPLAY, &["unresolved"]).len(), 2);
}

#[test]
fn a_package_without_edges_is_said_to_have_none() {
    for (package, wanted) in [("dekc", "dekc: the file has no such package\n"), ("-x", "-x: the file has no such package\n")] {
        let out = run(&["edges", "-", package], RACK);
        assert_eq!((out.status.code(), said(&out.stdout), said(&out.stderr)), (Some(0), String::new(), wanted.into()));
    }
    // The core without the clause that names replay 1, and the root's requirement with one candidate.
    let mut file = REPLAY.to_vec();
    file[32 * 6 + 4] = 0;
    file[32 * 12 + 1] = 0;
    let out = run(&["edges", "-", "replay 1"], &file);
    assert_eq!((out.status.code(), said(&out.stderr)), (Some(0), "replay 1: no edge of the conflict touches it\n".into()));
    let out = run(&["edges", "-", "replay"], &REPLAY[..33]);
    assert_eq!((out.status.code(), out.stdout.len()), (Some(2), 0));
    assert!(said(&out.stderr).starts_with("refused 1 at the whole file"));
}

#[test]
fn an_endless_text_is_cut_and_a_small_room_leaves_whole_lines() {
    let out = run(&["explain", "-"], DECK_PANEL);
    assert_eq!((out.status.code(), said(&out.stdout).lines().count()), (Some(2), 5));
    let err = said(&out.stderr);
    assert!(err.starts_with("refused 11 at solvable 0") && err.contains("solvable 0 is deck 1"), "{err}");
    let out = run(&["explain", "-", "--no-indent", "--room", "154"], REPLAY);
    assert_eq!((out.status.code(), out.stdout.len()), (Some(2), 100));
    assert!(said(&out.stderr).starts_with("refused 10 at unit 2"));
}

#[test]
fn edition_2_shows_each_package_once_and_ends() {
    let out = run(&["explain", "-", "--edition", "2"], DECK_PANEL);
    assert_eq!((out.status.code(), said(&out.stderr)), (Some(0), String::new()));
    let wanted = "└─ deck * cannot be installed because there are no viable options:\n   \
                  └─ deck 1 would require\n      \
                  └─ panel *, which cannot be installed because there are no viable options:\n         \
                  └─ panel 1 would require\n            \
                  └─ deck *, which cannot be installed because there are no viable options:\n";
    assert_eq!(said(&out.stdout), wanted);
    // Edition 1 is what comes without the word, to the byte, and points to edition 2 where it has no end.
    for file in [DECK_PANEL, REPLAY, RACK] {
        for more in [&[][..], &["--no-indent"], &["--room", "300"]] {
            let (plain, first) = (run(&[&["explain", "-"], more].concat(), file), run(&[&["explain", "-", "--edition", "1"], more].concat(), file));
            assert_eq!((plain.status.code(), plain.stdout, &plain.stderr), (first.status.code(), first.stdout, &first.stderr));
            assert_eq!(said(&plain.stderr).contains("--edition 2"), plain.status.code() == Some(2) && said(&plain.stderr).starts_with("refused 11"));
        }
    }
    let out = run(&["explain", "--edition", "2", "-", "--indent", "--room", "120"], DECK_PANEL);
    assert_eq!((out.status.code(), said(&out.stdout).lines().count()), (Some(2), 2));
    assert!(said(&out.stderr).starts_with("refused 10 at unit 2"));
}

/// replay.rec with some bytes set.
fn replay(changes: &[(usize, u8)]) -> Vec<u8> {
    let mut file = REPLAY.to_vec();
    changes.iter().for_each(|&(at, to)| file[at] = to);
    file
}

#[test]
fn salvage_says_what_it_replaced_and_dropped_and_writes_the_rest() {
    let ground = Ground::new("says");
    let folder = &ground.0;
    let out = folder.join("out.rec");
    let name = out.to_str().expect("a name");
    let salvaged = |file: &[u8]| {
        let ran = run(&["salvage", "-", "-o", name], file);
        assert_eq!((ran.status.code(), said(&ran.stderr)), (Some(0), String::new()));
        (said(&ran.stdout).lines().map(str::to_string).collect::<Vec<_>>(), fs::read(&out).expect("OUT"))
    };
    let (lines, written) = salvaged(REPLAY);
    assert_eq!((lines, written.as_slice()), (vec![format!("{name} is written: 13 records, nothing was to be repaired")], REPLAY));
    let (lines, written) = salvaged(&REPLAY[..12 * 32 + 5]);
    assert_eq!(
        lines,
        ["from byte 384 on, 5 bytes of a record that was cut are dropped".into(), format!("{name} is written: 12 records, 0 replaced, 5 bytes dropped")]
    );
    assert_eq!(written, REPLAY[..12 * 32]);
    // What each refusal that is mended means, with its field where it has one.
    for (changes, wanted) in [
        (&[(1, 7)][..], "Requires(variable 1, requirement 1), with a bad core flag: it would get 3, byte 1, the core flag, is 7 and not 0 or 1"),
        (&[(9, 1)], "Requires(variable 1, requirement 1), in the core: it would get 3, byte 9, beyond the text, is 1 and must be 0"),
        (&[(4, 9)], "Requires(variable 1, requirement 9), in the core: it would get 4, requirement 9 is not defined yet; 2 requirements are"),
        (&[(0, 20), (4, 0)], "Lock(variable 1, variable 0), in the core: it would get 5, field b: variable 0 is the root, and a solvable is wanted there"),
        (&[(0, 18), (2, 0), (4, 0)], "Learnt, in the core: it would get 7, a learnt clause in the core"),
    ] {
        let changes: Vec<(usize, u8)> = changes.iter().map(|&(at, to)| (11 * 32 + at, to)).collect();
        let (lines, written) = salvaged(&replay(&changes));
        let wanted = [format!("record 11, byte 352, clause 1, is replaced: {wanted}"), format!("{name} is written: 13 records, 1 replaced, 0 bytes dropped")];
        assert_eq!(lines, wanted);
        let mended = [&REPLAY[..11 * 32], &[16], &[0; 31], &REPLAY[12 * 32..]].concat();
        assert_eq!(written, mended);
    }
    // A clause behind replaced ones is judged by them, and what is refused still is said: nothing leads to replay 2 and 1.
    let (lines, _) = salvaged(&replay(&[(10 * 32 + 4, 9), (12 * 32 + 31, 1)]));
    assert_eq!(lines.len(), 4);
    assert!(lines[1].starts_with("record 12, byte 384, clause 2, is replaced: Requires(variable 2, requirement 1), in the core: it would get 3"), "{lines:?}");
    assert!(lines[3].starts_with("it still gets 9: node 1 is not reached from the root"), "{lines:?}");
}

#[test]
fn salvage_writes_nothing_where_it_can_not_repair() {
    let ground = Ground::new("nothing");
    let folder = &ground.0;
    let out = folder.join("out.rec");
    let name = out.to_str().expect("a name");
    for (file, wanted) in [
        (replay(&[(8, 0), (11 * 32 + 1, 7)]), "refused 3 at record 0, byte 0: "),
        (replay(&[(12 * 32, 0)]), "refused 2 at record 12, byte 384: "),
        (replay(&[(5 * 32 + 4, 9)]), "refused 4 at record 5, byte 160: "),
        ([&[16], &[0; 31][..]].concat().repeat(1_025), "refused 6 at record 1024, byte 32768: "),
        (vec![0; 65_537], "refused 1 at the whole file: "),
    ] {
        for old in [None, Some(&b"old"[..])] {
            let _ = fs::remove_file(&out);
            old.into_iter().for_each(|bytes| fs::write(&out, bytes).expect("a file"));
            let ran = run(&["salvage", "-", "-o", name], &file);
            let err = said(&ran.stderr);
            assert_eq!((ran.status.code(), ran.stdout.len()), (Some(2), 0));
            assert!(err.starts_with(wanted) && err.contains(&format!("{name} is not written: ")), "{err}");
            assert_eq!(fs::read(&out).ok().as_deref(), old);
        }
        assert_eq!(fs::read_dir(folder).expect("the folder").count(), 1);
    }
    // The record that stops it is decoded, as elsewhere.
    let err = said(&run(&["salvage", "-", "-o", name], &replay(&[(5 * 32 + 4, 9)])).stderr);
    assert!(err.contains("record 5: candidate: requirement 0, solvable 9; solvable 9 is not defined yet; 2 solvables are"), "{err}");
}

#[test]
fn salvage_does_not_write_over_its_input_by_any_name_without_force() {
    let ground = Ground::new("over");
    let folder = &ground.0;
    let at = |name: &str| folder.join(name).to_str().expect("a name").to_owned();
    let damaged = replay(&[(11 * 32 + 1, 7)]);
    let lay = || {
        for name in ["in.rec", "hard.rec", "soft.rec", "far.rec"] {
            let _ = fs::remove_file(at(name));
        }
        fs::write(at("in.rec"), &damaged).expect("a file");
        fs::hard_link(at("in.rec"), at("hard.rec")).expect("a link");
        symlink("in.rec", at("soft.rec")).expect("a link");
        symlink(at("soft.rec"), at("far.rec")).expect("a link");
    };
    for (from, to) in [
        ("in.rec", "in.rec"),
        ("in.rec", "hard.rec"),
        ("in.rec", "soft.rec"),
        ("in.rec", "far.rec"),
        ("soft.rec", "in.rec"),
        ("hard.rec", "far.rec"),
        ("in.rec", "../over/in.rec"),
    ] {
        let to = to.replace("../over", &format!("../{}", folder.file_name().and_then(|n| n.to_str()).expect("a name")));
        lay();
        let ran = run(&["salvage", &at(from), "-o", &at(&to)], &[]);
        assert_eq!((ran.status.code(), ran.stdout.len()), (Some(1), 0), "{from} {to}");
        assert!(said(&ran.stderr).contains("itself, which would be gone"), "{}", said(&ran.stderr));
        assert_eq!(fs::read(at("in.rec")).expect("a file"), damaged);
        let ran = run(&["salvage", "--force", &at(from), "-o", &at(&to)], &[]);
        assert_eq!(ran.status.code(), Some(0), "{}", said(&ran.stderr));
        assert_eq!(Some(fs::read(at(&to)).expect("a file")), repaired(&damaged).ok().map(|r| r.file));
        // A link stays a link, and another name of the old file keeps it.
        assert!(fs::symlink_metadata(at("soft.rec")).expect("a link").is_symlink() && fs::symlink_metadata(at("far.rec")).expect("a link").is_symlink());
        assert_eq!(fs::read(at(if to == "hard.rec" { "in.rec" } else { "hard.rec" })).expect("a file"), damaged);
    }
    lay();
    let stdin = fs::File::open(at("in.rec")).expect("a file");
    let ran = Command::new(env!("CARGO_BIN_EXE_urzulempa")).args(["salvage", "-", "-o", &at("soft.rec")]).stdin(stdin).output().expect("it runs");
    assert_eq!((ran.status.code(), fs::read(at("in.rec")).expect("a file")), (Some(1), damaged.clone()));
    assert!(said(&ran.stderr).contains("is standard input itself"));
    assert_eq!(fs::read_dir(folder).expect("the folder").count(), 4);
}

#[test]
fn salvage_replaces_files_only_and_keeps_their_permissions() {
    let ground = Ground::new("kept");
    let folder = &ground.0;
    let at = |name: &str| folder.join(name).to_str().expect("a name").to_owned();
    fs::write(at("out.rec"), "old").expect("a file");
    for mode in [0o600, 0o644, 0o660] {
        fs::set_permissions(at("out.rec"), fs::Permissions::from_mode(mode)).expect("permissions");
        assert_eq!(run(&["salvage", "-", "-o", &at("out.rec")], REPLAY).status.code(), Some(0));
        assert_eq!(fs::metadata(at("out.rec")).expect("a file").permissions().mode() & 0o777, mode);
    }
    symlink("nowhere", at("loose.rec")).expect("a link");
    for name in [at(""), at("loose.rec"), at("no/such/folder.rec"), "/dev/null".into(), String::new()] {
        let ran = run(&["salvage", "-", "-o", &name], REPLAY);
        assert_eq!((ran.status.code(), ran.stdout.len()), (Some(1), 0), "{name}");
    }
    assert_eq!(fs::read_dir(folder).expect("the folder").count(), 2);
    // A name without a folder means the one where the command runs.
    let ran = Command::new(env!("CARGO_BIN_EXE_urzulempa")).args(["salvage", "out.rec", "-o", "new.rec"]).current_dir(folder).output().expect("it runs");
    assert_eq!((ran.status.code(), fs::read(at("new.rec")).expect("a file").as_slice()), (Some(0), REPLAY));
}

#[test]
fn a_refusal_that_salvage_can_mend_says_so() {
    let hint = "`urzulempa salvage FILE -o OUT` can repair it";
    for (file, wanted) in [(&REPLAY[..33], true), (&replay(&[(11 * 32 + 1, 7)]), true), (&replay(&[(8, 0)]), false), (&vec![0; 65_537], false)] {
        let err = said(&run(&["explain", "-"], file).stderr);
        assert_eq!(err.lines().last() == Some(hint), wanted, "{err}");
    }
    assert!(!said(&run(&["explain", "-"], DECK_PANEL).stderr).contains("salvage"));
}

/// A record of a file, as the README lays it out.
fn record(kind: u8, first: u8, fields: [u16; 3], text: &str) -> Vec<u8> {
    let mut bytes = vec![kind, first];
    fields.iter().for_each(|x| bytes.extend(x.to_le_bytes()));
    bytes.extend(text.bytes());
    bytes.resize(32, 0);
    bytes
}

/// What is said of a file that the air profile refuses, in lines; nothing is printed.
fn refused_on_air(file: &[u8]) -> Vec<String> {
    let out = run(&["explain", "-", "--air"], file);
    assert_eq!((out.status.code(), said(&out.stdout)), (Some(2), String::new()));
    said(&out.stderr).lines().map(str::to_string).collect()
}

#[test]
fn on_air_a_small_load_is_explained_as_ever() {
    for more in [&[][..], &["--no-indent"], &["--room", "120"], &["--edition", "1"]] {
        let (plain, air) = (run(&[&["explain", "-"], more].concat(), REPLAY), run(&[&["explain", "-", "--air"], more].concat(), REPLAY));
        assert_eq!((plain.status.code(), plain.stdout, plain.stderr), (air.status.code(), air.stdout, air.stderr));
    }
    assert_eq!(refused_on_air(&REPLAY[..33])[0].split(':').next(), Some("refused 1 at the whole file"));
}

#[test]
fn on_air_a_lock_is_named_with_its_record() {
    let lines = refused_on_air(RACK);
    assert!(lines[0].starts_with("refused 15 at clause 29, byte 5760: clause 29 is a lock in the core, "), "{lines:?}");
    assert_eq!(lines[1], "driver 11 is locked, which keeps driver 12 out");
    assert!(lines[2].starts_with("record 180: Lock(variable 27, variable 25), in the core; "), "{lines:?}");
    // Outside the core it does not count.
    let mut file = RACK.to_vec();
    file[32 * 180 + 1] = 0;
    let out = run(&["explain", "-", "--air"], &file);
    assert_eq!((out.status.code(), out.stdout), (Some(0), run(&["explain", "-"], &file).stdout));
}

#[test]
fn on_air_the_nodes_are_counted() {
    let lines = refused_on_air(&most_nodes());
    assert!(lines[0].starts_with("refused 16 at the whole file: the graph has more than 64 nodes, "), "{lines:?}");
    assert_eq!(lines[1..], ["it has 128 nodes"]);
}

#[test]
fn on_air_the_packages_on_a_cycle_are_named_in_order() {
    let lines = refused_on_air(DECK_PANEL);
    assert!(lines[0].starts_with("refused 17 at node 1: node 1 leads back to itself, "), "{lines:?}");
    assert_eq!(lines[1..3], ["node 1 is panel 1", "cycle: deck 1 → panel 1 → deck 1"]);
    assert_eq!(lines[3..], edges(DECK_PANEL, &["panel"]));
}

/// Packages a to e, of which the root requires the first alone, in a row: a constrains b, b requires c, and so on in turns. The last
/// constrains one of them, by its place, or itself.
fn row(back: u16) -> Vec<u8> {
    let each = |one: &dyn Fn(u16) -> Vec<u8>| (0..5).flat_map(one).collect::<Vec<u8>>();
    [
        each(&|i| record(1, 1, [i, 0, 0], ["a", "b", "c", "d", "e"][usize::from(i)])),
        each(&|i| record(2, 1, [i, i, 0], "1")),
        record(3, 2, [0; 3], "<2"),
        each(&|i| record(4, 4, [i, 0, 0], "next")),
        each(&|i| record(5, 0, [i, i, 0], "")),
        record(7, 0, [0; 3], ""),
        each(&|i| record(7, 0, [i + 1, 1, i], "")),
        record(19, 1, [0; 3], ""),
        record(22, 1, [1, 2, 0], ""),
        record(19, 1, [2, 2, 0], ""),
        record(22, 1, [3, 4, 0], ""),
        record(19, 1, [4, 4, 0], ""),
        record(22, 1, [5, back + 1, 0], ""),
    ]
    .concat()
}

#[test]
fn on_air_a_cycle_goes_by_any_edge_and_begins_where_the_root_meets_it() {
    for (back, wanted) in
        [(0, "cycle: a 1 → b 1 → c 1 → d 1 → e 1 → a 1"), (1, "cycle: b 1 → c 1 → d 1 → e 1 → b 1"), (3, "cycle: d 1 → e 1 → d 1"), (4, "cycle: e 1 → e 1")]
    {
        let lines = refused_on_air(&row(back));
        assert!(lines[0].starts_with("refused 17 at node 1: "), "{lines:?}");
        // Unresolved went, and the newest node has its number.
        assert_eq!(lines[1..3], ["node 1 is e 1".to_string(), wanted.to_string()]);
        // A line for each edge, of which the last leads back.
        assert_eq!(lines.len(), 3 + wanted.matches('→').count());
        let last = format!("e 1 -> {}  constrains \"a <2\"  clause 5, ", ["a 1", "b 1", "c 1", "d 1", "e 1"][usize::from(back)]);
        assert!(lines.last().is_some_and(|l| l.starts_with(&last)), "{lines:?}");
    }
}

#[test]
fn wrong_usage_is_status_64_and_a_file_that_is_not_there_1() {
    for words in [
        &[][..],
        &["explain"],
        &["draw", "-"],
        &["edges"],
        &["edges", "--all"],
        &["check", "-", "--indent"],
        &["graph", "-", "--no-indent"],
        &["explain", "-", "--room", "many"],
        &["graph", "a", "b"],
    ] {
        assert_eq!(run(words, &[]).status.code(), Some(64), "{words:?}");
    }
    for words in [
        &["explain", "-", "--edition"][..],
        &["explain", "-", "--edition", "0"],
        &["explain", "-", "--edition", "3"],
        &["explain", "-", "--edition", "two"],
        &["graph", "-", "--edition", "2"],
        &["check", "-", "--edition", "2"],
        &["explain", "-", "--air", "--edition", "2"],
        &["explain", "--edition", "2", "-", "--air"],
        &["graph", "-", "--air"],
        &["nodes", "-", "--air"],
    ] {
        let out = run(words, REPLAY);
        assert_eq!((out.status.code(), out.stdout.len()), (Some(64), 0), "{words:?}");
    }
    for words in [
        &["salvage", "-"][..],
        &["salvage", "-o", "x"],
        &["salvage", "-", "-o"],
        &["salvage", "-", "-o", "-"],
        &["salvage", "-", "-o", "x", "-o", "y"],
        &["salvage", "-", "--indent", "-o", "x"],
        &["check", "-", "--force"],
        &["check", "-", "-o", "x"],
    ] {
        let out = run(words, REPLAY);
        assert_eq!((out.status.code(), out.stdout.len()), (Some(64), 0), "{words:?}");
    }
    assert_eq!(run(&["check", "there/is/no/such.rec"], &[]).status.code(), Some(1));
    assert_eq!(run(&["salvage", "there/is/no/such.rec", "-o", "x"], &[]).status.code(), Some(1));
    assert_eq!(run(&["--help"], &[]).status.code(), Some(0));
}
