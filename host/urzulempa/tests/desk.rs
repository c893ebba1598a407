//! The command as an operator meets it: nothing silent, bounded memory, things by name, and its words.

mod common;

use common::{run, said, Ground};
use std::ffi::{OsStr, OsString};
use std::fs::{self, File};
use std::io::Read;
use std::os::fd::{FromRawFd, OwnedFd};
use std::os::unix::ffi::{OsStrExt, OsStringExt};
use std::path::{Path, PathBuf};
use std::process::{Command, Output, Stdio};
use urzulempa::list::make;
use urzulempa::{explain_as, explain_plain, grown, Edition, Indent};

const COMMAND: &str = env!("CARGO_BIN_EXE_urzulempa");
const ROOT: &str = concat!(env!("CARGO_MANIFEST_DIR"), "/../..");
const REPLAY: &[u8] = include_bytes!("../../../samples/replay.rec");
const RACK: &[u8] = include_bytes!("../../../samples/rack.rec");
const DECK_PANEL: &[u8] = include_bytes!("../../../samples/deck-panel.rec");

/// Status, standard output and standard error.
fn ran(words: &[&str], input: &[u8]) -> (i32, String, String) {
    told(&run(words, input))
}

fn told(out: &Output) -> (i32, String, String) {
    (out.status.code().expect("a status"), said(&out.stdout), said(&out.stderr))
}

/// The file of a list.
fn listed(list: &str) -> Vec<u8> {
    make(list.as_bytes()).unwrap_or_else(|faults| panic!("{faults:?}"))
}

/// The same in a folder, with nothing on standard input.
fn ran_in(ground: &Ground, words: &[&str]) -> (i32, String, String) {
    told(&ground.run(words, &[]))
}

/// A load whose text doubles with each step: `steps` pairs of packages, each of which needs the next pair.
fn exploding(steps: usize) -> Vec<u8> {
    let mut list = String::from("variable root\n");
    for step in 0..steps {
        list += &format!("requirement \"pair {step}\"\n");
        for side in ["left", "right"] {
            list += &format!("name {side}{step}\nsolvable {side}{step} 1\nvariable {side}{step} 1\ncandidate \"pair {step}\", {side}{step} 1\n");
            let needs = if step + 1 < steps { format!("pair {}", step + 1) } else { format!("lost {side}") };
            list += &format!("core requires {side}{step} 1, \"{needs}\"\n");
        }
    }
    list += "requirement \"lost left\"\nrequirement \"lost right\"\ncore requires root, \"pair 0\"\n";
    listed(&list)
}

// ---- nothing silent

#[test]
fn what_has_nothing_to_explain_is_said_to_have_nothing() {
    let mut outside = REPLAY.to_vec();
    outside[10 * 32..].chunks_exact_mut(32).for_each(|clause| clause[1] = 0);
    let locked = listed("name p\nsolvable p 1\nsolvable p 2\nvariable p 1\nvariable p 2\ncore lock p 1, p 2\n");
    for (file, why) in [
        (&[][..], "the file is empty"),
        (&REPLAY[..10 * 32], "the file has no clauses"),
        (
            &REPLAY[..11 * 32].iter().enumerate().map(|(at, byte)| if at == 10 * 32 + 1 { 0 } else { *byte }).collect::<Vec<u8>>(),
            "the file's one clause is not in the core",
        ),
        (&outside, "none of the file's 3 clauses is in the core"),
        (&locked, "the root requires nothing by the clauses of the core; `urzulempa edges FILE` lists what they say"),
    ] {
        for more in [&[][..], &["--edition", "2"], &["--no-indent"]] {
            let wanted = (0, String::new(), format!("nothing to explain: {why}\n"));
            assert_eq!(ran(&[&["explain", "-"], more].concat(), file), wanted);
        }
    }
    // A pipe whose writer failed.
    let piped = Command::new("sh").args(["-c", "false | \"$0\" explain -", COMMAND]).output().expect("sh runs");
    assert_eq!(told(&piped), (0, String::new(), "nothing to explain: the file is empty\n".into()));
    assert_eq!(ran(&["edges", "-"], &[]), (0, String::new(), "nothing to list: the graph has no edges\n".into()));
    assert_eq!(ran(&["dump", "-"], &[]), (0, String::new(), "nothing to list: the file is empty\n".into()));
    assert_eq!(ran(&["summary", "-"], &[]).0, 0);
    assert!(ran(&["summary", "-"], &[]).2.starts_with("nothing to mend: "));
    // Where there is something, nothing is said.
    assert_eq!(ran(&["explain", "-"], REPLAY).2, "");
}

/// The C program of the README, built as that says.
fn built_from_c(ground: &Ground) -> PathBuf {
    let at = |name: &str| Path::new(ROOT).join(name);
    let program = ground.0.join("explain");
    let mut cc = Command::new("cc");
    cc.args(["-Wall", "-Wextra", "-Werror", "-I"]).arg(at("include")).arg(at("host/c/explain.c")).arg(at("dist/x86_64-linux/liburzulempa.a"));
    assert!(cc.arg("-o").arg(&program).status().expect("cc runs").success());
    program
}

#[test]
fn the_c_program_fails_on_a_folder_and_on_a_full_disk() {
    let ground = Ground::new("c");
    let program = built_from_c(&ground);
    let replay = Path::new(ROOT).join("samples/replay.rec");
    let ran = |word: &Path, to: Stdio| told(&Command::new(&program).arg(word).stdout(to).output().expect("it runs"));
    let text = said(&run(&["explain", "-"], REPLAY).stdout);
    assert_eq!(ran(&replay, Stdio::piped()), (0, text, String::new()));
    let (status, out, err) = ran(&ground.0, Stdio::piped());
    assert_eq!((status, out.as_str()), (1, ""));
    assert!(err.contains("Is a directory"), "{err}");
    let full = File::options().write(true).open("/dev/full").expect("a full disk");
    let (status, _, err) = ran(&replay, full.into());
    assert!(status == 1 && err.contains("standard output: No space left"), "{status} {err}");
    assert_eq!(ran(&ground.0.join("none"), Stdio::piped()).0, 1);
    assert_eq!(ran(Path::new("/dev/zero"), Stdio::piped()), (2, String::new(), "refused 1 at 0\n".into()));
    assert_eq!(ran(Path::new("/dev/null"), Stdio::piped()), (0, String::new(), "/dev/null: there is nothing to explain\n".into()));
    assert_eq!(Command::new(&program).output().expect("it runs").status.code(), Some(64));
}

#[test]
fn a_full_disk_is_trouble() {
    let full = || Stdio::from(File::options().write(true).open("/dev/full").expect("a full disk"));
    let rack = Path::new(ROOT).join("samples/rack.rec");
    for words in [&["explain"][..], &["graph"], &["nodes"], &["edges"], &["summary"], &["dump"], &["export"], &["explain", "--json"]] {
        let out = Command::new(COMMAND).args(words).arg(&rack).stdout(full()).output().expect("it runs");
        assert_eq!(told(&out), (1, String::new(), "urzulempa: standard output: No space left on device (os error 28)\n".into()), "{words:?}");
    }
    let out = Command::new(COMMAND).arg("man").stdout(full()).output().expect("it runs");
    assert_eq!(out.status.code(), Some(1));
}

// ---- bounded memory

/// Runs the command with so many KiB of memory, and no more.
fn with_memory(kib: usize, words: &[&str]) -> (i32, String, String) {
    let script = format!("ulimit -v {kib}; exec \"$0\" \"$@\"");
    told(&Command::new("sh").args(["-c", &script, COMMAND]).args(words).stdin(Stdio::null()).output().expect("sh runs"))
}

#[test]
fn an_endless_input_is_read_as_far_as_it_can_count() {
    let ground = Ground::new("endless");
    let out = ground.0.join("out.rec");
    let out = out.to_str().expect("a name");
    for words in [
        &["check", "/dev/zero"][..],
        &["explain", "/dev/zero"],
        &["summary", "/dev/zero"],
        &["edges", "/dev/zero"],
        &["what-if", "/dev/zero", "a", "b"],
        &["dump", "/dev/zero"],
        &["salvage", "/dev/zero", "-o", out],
    ] {
        let (status, printed, err) = with_memory(64 << 10, words);
        assert_eq!((status, printed.as_str()), (2, ""), "{words:?}: {err}");
        assert!(err.starts_with("refused 1 at the whole file: ") && err.contains("\nit has more than 65536 bytes\n"), "{words:?}: {err}");
    }
    let (status, _, err) = with_memory(64 << 10, &["import", "/dev/zero"]);
    assert!(status == 2 && err.starts_with("refused 3 at line 1: "), "{err}");
    let (status, _, err) = with_memory(64 << 10, &["make", "/dev/zero", "-o", out]);
    assert!(status == 1 && err.contains("it has more than 1048576 bytes, the most of a list; "), "{err}");
    let (status, _, err) = with_memory(64 << 10, &["settings", "/dev/zero"]);
    assert!(status == 2 && err.contains("it has more than 4096 bytes"), "{err}");
    assert!(!Path::new(out).exists());
    // The longest that can be right, and one byte more.
    assert_eq!(ran(&["check", "-"], &[&[16], &[0; 31][..]].concat().repeat(1_024)).0, 0);
    assert!(ran(&["check", "-"], &[0; 65_536]).2.starts_with("refused 2 at record 0"));
    assert!(ran(&["check", "-"], &[0; 65_537]).2.starts_with("refused 1 at the whole file"));
}

#[test]
fn the_longest_text_of_the_wall_display_is_read_whole() {
    let label = "x".repeat(49);
    let nodes: String = (0..128).map(|n| format!("{n} {label}\n")).collect();
    let text = format!("{nodes}#\n{}", format!("127 126 {label}\n").repeat(1_024));
    assert!(text.len() > 65_537);
    assert_eq!(ran(&["import", "-"], text.as_bytes()), (0, "128 nodes, 1024 edges\n".into(), String::new()));
    assert_eq!(ran(&["import", "-"], format!("{text}#\n").as_bytes()).0, 2);
}

#[test]
fn a_huge_room_takes_what_the_text_needs_and_no_more_than_there_is() {
    let most = usize::MAX.to_string();
    for words in [
        &["explain", "-", "--room", &most][..],
        &["graph", "-", "--room", &most],
        &["export", "-", "--room", &most],
        &["what-if", "-", "#43", "#0", "--room", &most],
    ] {
        let (status, out, _) = ran(words, RACK);
        assert_eq!((status, &out), (0, &ran(&words[..words.len() - 2], RACK).1), "{words:?}");
    }
    let ground = Ground::new("huge");
    ground.lay("exploding.rec", &exploding(40));
    let file = ground.0.join("exploding.rec");
    let (status, out, err) = with_memory(96 << 10, &["explain", file.to_str().expect("a name"), "--room", &most]);
    assert_eq!(status, 2, "{err}");
    assert!(out.ends_with('\n') && out.len() > 1 << 20);
    assert!(err.starts_with("refused 10 at unit ") && err.contains("or than there is memory for: --room N takes N bytes\n"), "{err}");
}

extern "C" {
    fn openpty(first: *mut i32, second: *mut i32, name: *mut u8, termios: *const u8, size: *const u8) -> i32;
}

/// What the command shows on a terminal, both of its outputs together, with these variables set.
fn on_terminal(words: &[&OsStr], set: &[(&str, &str)]) -> (i32, Vec<u8>) {
    let (mut ours, mut theirs) = (0, 0);
    // SAFETY: two places for numbers, and NULL where nothing is wanted.
    let made = unsafe { openpty(&mut ours, &mut theirs, std::ptr::null_mut(), std::ptr::null(), std::ptr::null()) };
    assert_eq!(made, 0, "a terminal");
    // SAFETY: both are open, and nobody else has them.
    let (ours, theirs) = unsafe { (OwnedFd::from_raw_fd(ours), OwnedFd::from_raw_fd(theirs)) };
    let mut command = Command::new(COMMAND);
    command.args(words).env_remove("NO_COLOR").env_remove("CLICOLOR_FORCE").env("TERM", "xterm").envs(set.iter().copied());
    let other = theirs.try_clone().expect("another end");
    let mut child = command.stdin(Stdio::null()).stdout(theirs).stderr(other).spawn().expect("it starts");
    drop(command);
    let mut shown = Vec::new();
    // A terminal that nobody writes to any more gives an error.
    let _ = File::from(ours).read_to_end(&mut shown);
    shown.retain(|byte| *byte != b'\r');
    (child.wait().expect("it ends").code().expect("a status"), shown)
}

#[test]
fn on_a_terminal_the_room_is_what_a_person_can_use() {
    let ground = Ground::new("terminal");
    // A text of some MiB.
    let file = exploding(14);
    ground.lay("load.rec", &file);
    let (answer, whole) = grown(64 << 20, |room| explain_plain(&file, room));
    assert!(answer.is_done() && whole.len() > 2 << 20, "{}", whole.len());
    let path = ground.0.join("load.rec");
    let (second, _) = grown(1 << 20, |room| explain_as(&file, Edition::Two, Indent::Top, room));
    let (status, shown) = on_terminal(&[OsStr::new("explain"), path.as_os_str()], &[("NO_COLOR", "1")]);
    let mut room = vec![0; 1 << 20];
    let cut = explain_plain(&file, &mut room);
    assert_eq!((status, cut.number), (2, 10));
    let text = usize::try_from(cut.bytes).expect("a length");
    assert!(shown[..text] == room[..text]);
    let wanted = format!(
        "refused 10 at unit {0}: the room, or the list, holds no more than {0} whole units: lend a larger one\n\
         the text has more than 1048576 bytes, the most on a terminal where --room does not say otherwise: --room N takes N bytes\n\
         with --edition 2 every package is shown once, and the text ends: {1} lines, {2} bytes\n",
        cut.units, second.units, second.bytes
    );
    assert_eq!(said(&shown[text..]), wanted);
    // More is had by the word, and where no person reads it.
    let (status, shown) = on_terminal(&[OsStr::new("explain"), path.as_os_str(), OsStr::new("--room=67108864")], &[]);
    assert!(status == 0 && shown == whole);
    assert!(run(&["explain", "-"], &file).stdout == whole);
    // A season prints no text, and its report is the same wherever it is shown; a line of progress may stand before it.
    let words = [OsStr::new("season"), path.as_os_str()];
    let (status, shown) = on_terminal(&words, &[]);
    let table = ground.run_any(&words, &[]).stdout;
    assert!(status == 0 && said(&table).contains("\ndone ") && !said(&table).contains("\n  10 ") && shown.ends_with(&table), "{}", said(&shown));
}

// ---- things by name

#[test]
fn refusal_11_names_the_cycle() {
    let (status, _, err) = ran(&["explain", "-"], DECK_PANEL);
    assert_eq!(status, 2);
    let lines: Vec<&str> = err.lines().collect();
    assert!(lines[0].starts_with("refused 11 at solvable 0, byte 64: "), "{err}");
    assert_eq!(lines[1..3], ["solvable 0 is deck 1", "cycle: deck 1 → panel 1 → deck 1"]);
    assert_eq!(lines[3..5], ran(&["edges", "-", "panel"], DECK_PANEL).1.lines().collect::<Vec<_>>());
    assert_eq!(lines[5..], ["with --edition 2 every package is shown once, and the text ends: 5 lines, 315 bytes"]);
    // The cycle that the text goes round, where a shorter one is not followed: b is excluded, so the text does not open it.
    let file = listed(
        "name a\nname b\nname c\nname d\nsolvable a 1\nsolvable b 1\nsolvable c 1\nsolvable d 1\nreason \"it was recalled\"\n\
         requirement \"needs a\"\ncandidate \"needs a\", a 1\nrequirement \"needs b\"\ncandidate \"needs b\", b 1\n\
         requirement \"needs c\"\ncandidate \"needs c\", c 1\nrequirement \"needs d\"\ncandidate \"needs d\", d 1\n\
         variable root\nvariable a 1\nvariable b 1\nvariable c 1\nvariable d 1\n\
         core requires root, \"needs a\"\ncore requires a 1, \"needs b\"\ncore requires b 1, \"needs a\"\ncore excluded b 1, \"it was recalled\"\n\
         core requires a 1, \"needs c\"\ncore requires c 1, \"needs d\"\ncore requires d 1, \"needs a\"\n",
    );
    let (status, _, err) = ran(&["explain", "-"], &file);
    assert!(status == 2 && err.starts_with("refused 11 ") && err.contains("\ncycle: a 1 → c 1 → d 1 → a 1\n"), "{err}");
}

/// Packages a, b and c; the root requires a, b requires c, and something that nobody has if `missing`.
fn unreached(missing: bool) -> Vec<u8> {
    let more = if missing { "requirement \"lost\"\ncore requires c 1, \"lost\"\n" } else { "" };
    listed(&format!(
        "name a\nname b\nname c\nsolvable a 1\nsolvable b 1\nsolvable c 1\nvariable root\nvariable a 1\nvariable b 1\nvariable c 1\n\
         requirement \"needs a\"\ncandidate \"needs a\", a 1\nrequirement \"needs c\"\ncandidate \"needs c\", c 1\n\
         core requires root, \"needs a\"\ncore requires b 1, \"needs c\"\n{more}"
    ))
}

#[test]
fn refusal_9_names_the_packages_whether_unresolved_has_gone_or_not() {
    // With unresolved: root, unresolved, a, b, c. Without it c, the newest, is node 1.
    for (missing, place, first) in [(true, 1, "node 1 is unresolved"), (false, 1, "node 1 is c 1, named first by clause 1, record 1")] {
        let (status, out, err) = ran(&["explain", "-"], &unreached(missing));
        assert_eq!((status, out.as_str()), (2, ""));
        let lines: Vec<&str> = err.lines().collect();
        assert!(lines[0].starts_with(&format!("refused 9 at node {place}: ")), "{err}");
        assert!(lines[1].starts_with(first), "{err}");
        // In the order of the nodes.
        assert_eq!(lines[2], format!("nothing leads from the root to {}", if missing { "b 1, c 1" } else { "c 1, b 1" }));
        assert!(lines[3].starts_with("put the clause into the core by which one of them is required, ") && lines.len() == 4, "{err}");
    }
}

#[test]
fn refusal_8_says_what_filled_the_graph() {
    // 126 versions of p are all that fits beside the root and unresolved; the next requirement wants one more.
    let mut list = String::from("name p\nname q\nsolvable q 1\nvariable root\nrequirement \"p *\"\nrequirement \"q *\"\ncandidate \"q *\", q 1\n");
    (0..126).for_each(|n| list += &format!("solvable p {n}\ncandidate \"p *\", p {n}\n"));
    let file = listed(&(list + "core requires root, \"p *\"\ncore requires root, \"q *\"\n"));
    let (status, _, err) = ran(&["check", "-"], &file);
    assert_eq!(status, 2);
    let lines: Vec<&str> = err.lines().collect();
    assert!(lines[0].starts_with("refused 8 at clause 1, byte "), "{err}");
    assert_eq!(lines[1..3], ["before it the graph has 128 nodes, unresolved counted, and 126 edges", "most of its nodes are versions of p (126)"]);
    assert!(lines[3].starts_with("clause 0 made 126 of its edges: record ") && lines[3].ends_with("requirement 0 (p *)"), "{err}");
}

#[test]
fn a_simplified_graph_says_how_many_a_group_stands_for() {
    for words in [&["graph", "-"][..], &["graph", "-", "--simplify"]] {
        let (status, out, err) = ran(words, RACK);
        let wanted = "codec 9.0-b01 is drawn for 20 packages that are alike\ncodec 7.2-b01 is drawn for 10 packages that are alike\n\
                      codec 7.2-b11 is drawn for 10 packages that are alike\n";
        assert_eq!((status, err.as_str()), (0, wanted));
        // What is drawn is the library's to the byte.
        let (_, text) = grown(1 << 20, |room| urzulempa::graphviz(RACK, 1, room));
        assert!(out.as_bytes() == text);
    }
    assert_eq!(ran(&["graph", "-", "--no-simplify"], RACK).2, "");
    assert_eq!(ran(&["graph", "-"], DECK_PANEL).2, "");
}

// ---- words

#[test]
fn a_name_need_not_be_utf_8() {
    let ground = Ground::new("names");
    let odd = OsString::from_vec(b"\xff load.rec".to_vec());
    let word = OsStr::new;
    ground.lay(&odd, REPLAY);
    let text = run(&["explain", "-"], REPLAY).stdout;
    assert_eq!(ground.run_any(&[word("explain"), &odd], &[]).stdout, text);
    let out = OsString::from_vec(b"\xfe.rec".to_vec());
    assert_eq!(ground.run_any(&[word("salvage"), &odd, word("-o"), &out], &[]).status.code(), Some(0));
    assert_eq!(fs::read(ground.0.join(&out)).expect("a file"), REPLAY);
    let set = OsString::from_vec(b"\xfd.set".to_vec());
    assert_eq!(ground.run_any(&[word("settings"), &set, word("indent"), word("0")], &[]).status.code(), Some(0));
    let mut joined = b"--settings=".to_vec();
    joined.extend(set.as_bytes());
    let flat = ground.run_any(&[word("explain"), &odd, OsStr::from_bytes(&joined)], &[]);
    assert_eq!(flat.stdout, run(&["explain", "-", "--no-indent"], REPLAY).stdout);
    // One that is not there is told as far as it can be, and a text that no file has means nothing.
    let none = OsString::from_vec(b"\xfc".to_vec());
    assert_eq!(told(&ground.run_any(&[word("check"), &none], &[])).0, 1);
    assert_eq!(told(&ground.run_any(&[word("what-if"), &odd, &none, word("#0")], &[])).0, 2);
    assert_eq!(told(&ground.run_any(&[&none], &[])).0, 64);
}

#[test]
fn two_hyphens_end_the_options_and_a_value_may_stand_behind_its_option() {
    let ground = Ground::new("hyphens");
    ground.lay("--room", REPLAY);
    ground.lay("-h", REPLAY);
    let text = said(&run(&["explain", "-"], REPLAY).stdout);
    for words in [&["explain", "--", "--room"][..], &["explain", "--", "-h"], &["explain", "--room=1000", "--", "-h"]] {
        assert_eq!(ran_in(&ground, words), (0, text.clone(), String::new()), "{words:?}");
    }
    assert_eq!(ran_in(&ground, &["explain", "./--room", "--room=154", "--no-indent"]).0, 2);
    assert_eq!(ran_in(&ground, &["explain", "./--room", "--room=155", "--no-indent"]).0, 0);
    assert_eq!(ran(&["explain", "-", "--edition=2"], DECK_PANEL), ran(&["explain", "-", "--edition", "2"], DECK_PANEL));
    assert_eq!(ran(&["edges", "-", "--", "--json"], RACK), (0, String::new(), "--json: the file has no such package\n".into()));
    for (words, why) in [
        (&["explain", "-", "--room="][..], "--room wants a number of bytes"),
        (&["explain", "-", "--room=-1"], "--room wants a number of bytes"),
        (&["explain", "-", "--edition=3"], "--edition wants 1 or 2"),
        (&["explain", "-", "--air=yes"], "--air takes no value"),
        (&["explain", "-", "--rooms=3"], "--rooms=3 is no option of explain"),
        (&["explain", "--"], "explain wants FILE"),
        (&["check", "-", "-"], "standard input can be read once only"),
    ] {
        let wanted = format!("urzulempa: {why}; `urzulempa --help` shows the commands\n");
        assert_eq!(ran(words, REPLAY), (64, String::new(), wanted), "{words:?}");
    }
}

#[test]
fn the_word_that_is_wrong_is_blamed() {
    for (words, blamed) in [
        (&["draw", "--room", "x"][..], "draw is no command"),
        (&["draw", "-", "--colour"], "draw is no command"),
        (&["--room", "3", "explain", "-"], "--room is no command"),
        (&["help", "draw"], "draw is no command"),
        (&["explain", "-", "--colour"], "--colour is no option of explain"),
        (&["completions", "csh"], "csh is no shell that is known: there are bash, zsh and fish"),
        (&["man", "explain"], "man wants no more words"),
        (&[], "no command"),
    ] {
        assert_eq!(ran(words, &[]), (64, String::new(), format!("urzulempa: {blamed}; `urzulempa --help` shows the commands\n")), "{words:?}");
    }
}

/// The commands that the list of commands has.
fn commands() -> Vec<String> {
    let help = ran(&["--help"], &[]).1;
    help.lines()
        .filter_map(|line| line.strip_prefix("  urzulempa "))
        .take_while(|line| *line != "explain samples/replay.rec")
        .map(|line| line.split(' ').next().unwrap_or_default().to_owned())
        .collect()
}

#[test]
fn version_and_help_are_had_by_their_names() {
    let (status, out, _) = ran(&["--version"], &[]);
    assert!(status == 0 && out.starts_with(concat!("urzulempa ", env!("CARGO_PKG_VERSION"), " (library of sources ")), "{out}");
    assert_eq!(ran(&["-V"], &[]).1, out);
    assert_eq!(ran(&["help"], &[]), ran(&["--help"], &[]));
    let all = commands();
    assert!(all.len() >= 16 && ["explain", "summary", "what-if", "completions"].iter().all(|name| all.iter().any(|n| n == name)), "{all:?}");
    for name in &all {
        let one = ran(&["help", name], &[]);
        assert_eq!((one.0, one.2.as_str()), (0, ""));
        assert!(one.1.starts_with(&format!("urzulempa {name}")) && one.1.contains("\nExit status: 0 done, "), "{}", one.1);
        assert_eq!(ran(&[name, "--help"], &[]), one);
        assert_eq!(ran(&[name, "-", "-h"], &[]), one);
    }
    let explain = ran(&["help", "explain"], &[]).1;
    for option in ["--indent", "--no-indent", "--edition E", "--air", "--room N", "--settings SET", "--json"] {
        assert!(explain.contains(&format!("\n  {option}\n")), "{option}: {explain}");
    }
    assert!(explain.lines().all(|line| line.starts_with("urzulempa ") || line.chars().count() <= 100));
}

#[test]
fn several_files_have_the_worst_status_and_each_its_name() {
    let ground = Ground::new("several");
    ground.lay("good.rec", REPLAY);
    ground.lay("ring.rec", DECK_PANEL);
    ground.lay("cut.rec", &REPLAY[..33]);
    assert_eq!(ran_in(&ground, &["check", "good.rec", "ring.rec"]), (0, String::new(), String::new()));
    let (status, out, err) = ran_in(&ground, &["check", "good.rec", "none.rec", "ring.rec"]);
    assert_eq!((status, out.as_str(), err.as_str()), (1, "", "urzulempa: none.rec: No such file or directory (os error 2)\n"));
    let (status, _, err) = ran_in(&ground, &["check", "cut.rec", "none.rec", "good.rec"]);
    assert_eq!(status, 2);
    let lines: Vec<&str> = err.lines().collect();
    assert!(lines[0].starts_with("cut.rec: refused 1 at the whole file") && lines[1] == "cut.rec: it has 33 bytes", "{err}");
    assert_eq!(lines.last(), Some(&"urzulempa: none.rec: No such file or directory (os error 2)"));
    // The texts one behind the other, with nothing between them on standard output.
    let alone = |name: &str| ran_in(&ground, &["explain", name]);
    let (status, out, err) = ran_in(&ground, &["explain", "good.rec", "ring.rec", "good.rec"]);
    assert_eq!((status, out), (2, [alone("good.rec").1, alone("ring.rec").1, alone("good.rec").1].concat()));
    let said: String = alone("ring.rec").2.lines().map(|line| format!("ring.rec: {line}\n")).collect();
    assert_eq!(err, format!("good.rec:\nring.rec:\n{said}good.rec:\n"));
    assert_eq!(ran_in(&ground, &["graph", "good.rec", "ring.rec"]).0, 64);
}

#[test]
fn colours_are_for_a_terminal_and_never_in_a_text() {
    let ground = Ground::new("colours");
    ground.lay("ring.rec", DECK_PANEL);
    let path = ground.0.join("ring.rec");
    let words = [OsStr::new("explain"), path.as_os_str()];
    let (text, err) = (run(&["explain", "-"], DECK_PANEL).stdout, ran(&["explain", "-"], DECK_PANEL).2);
    let red = err.replacen("refused 11", "\x1b[1;31mrefused 11\x1b[0m", 1);
    assert_ne!(red, err);
    let plain = (2, format!("{}{err}", said(&text)));
    let shown = |set: &[(&str, &str)]| {
        let (status, shown) = on_terminal(&words, set);
        (status, said(&shown))
    };
    assert_eq!(shown(&[]), (2, format!("{}{red}", said(&text))));
    assert_eq!(shown(&[("NO_COLOR", "1")]), plain);
    assert_eq!(shown(&[("NO_COLOR", "1"), ("CLICOLOR_FORCE", "1")]), plain);
    assert_eq!(shown(&[("TERM", "dumb")]), plain);
    // Without a terminal only where it is forced, and an empty NO_COLOR is none.
    let piped = |set: &[(&str, &str)]| told(&Command::new(COMMAND).args(words).env_remove("NO_COLOR").envs(set.iter().copied()).output().expect("it runs"));
    assert_eq!(piped(&[]), (2, said(&text), err));
    assert_eq!(piped(&[("CLICOLOR_FORCE", "1"), ("NO_COLOR", "")]), (2, said(&text), red));
    assert!(said(&on_terminal(&[OsStr::new("help")], &[]).1).contains("\x1b[1mCommands:\x1b[0m\n"));
    assert!(said(&on_terminal(&[OsStr::new("draw")], &[]).1).starts_with("\x1b[1;31murzulempa:\x1b[0m draw is no command"));
}

#[test]
fn the_man_page_is_rendered_and_has_every_command_and_option() {
    let ground = Ground::new("man");
    let page = ran(&["man"], &[]).1;
    ground.lay("urzulempa.1", page.as_bytes());
    let groff = Command::new("groff").args(["-man", "-Tutf8", "-ww", "-P-c", "-rLL=200n"]).arg(ground.0.join("urzulempa.1")).output();
    let Ok(groff) = groff else {
        eprintln!("skipped: groff is not on PATH, so the page is not rendered");
        return;
    };
    assert_eq!((groff.status.code(), said(&groff.stderr)), (Some(0), String::new()));
    // Without what makes letters bold and underlined.
    let mut shown = said(&groff.stdout);
    while let Some(at) = shown.find('\x08') {
        let before = shown[..at].char_indices().next_back().map_or(at, |(before, _)| before);
        shown.replace_range(before..=at, "");
    }
    let flat = shown.replace('‐', "-").split_whitespace().collect::<Vec<_>>().join(" ");
    for section in ["NAME", "SYNOPSIS", "DESCRIPTION", "COMMANDS", "EXIT STATUS", "ENVIRONMENT", "EXAMPLES"] {
        assert!(shown.lines().any(|line| line == section), "{section}: {shown}");
    }
    for name in commands() {
        let help = ran(&["help", &name], &[]).1;
        assert!(flat.contains(help.lines().next().expect("a line of usage")), "{name}: {shown}");
        for option in help.lines().filter_map(|line| line.strip_prefix("  -")) {
            assert!(flat.contains(&format!(" -{option} ")), "{name} -{option}: {shown}");
        }
    }
}

/// What bash would offer for words, of which the last is unfinished.
fn completed(ground: &Ground, words: &[&str]) -> Vec<String> {
    let script = "source ./urzulempa.bash; COMP_WORDS=(urzulempa \"$@\"); COMP_CWORD=$#; _urzulempa; printf '%s\\n' \"${COMPREPLY[@]}\"";
    let out = Command::new("bash").args(["-c", script, "bash"]).args(words).current_dir(&ground.0).output().expect("bash runs");
    assert_eq!(said(&out.stderr), "");
    said(&out.stdout).lines().filter(|line| !line.is_empty()).map(str::to_owned).collect()
}

#[test]
fn the_completions_have_every_command_and_option() {
    let ground = Ground::new("completions");
    ground.lay("load.rec", REPLAY);
    for shell in ["bash", "zsh", "fish"] {
        let (status, script, err) = ran(&["completions", shell], &[]);
        assert_eq!((status, err.as_str()), (0, ""));
        ground.lay(format!("urzulempa.{shell}"), script.as_bytes());
        for name in commands() {
            assert!(script.contains(&name), "{shell}: {name}");
            for option in
                ran(&["help", &name], &[]).1.lines().filter_map(|line| line.strip_prefix("  -")).map(|line| line.split(' ').next().unwrap_or_default())
            {
                let option = match (shell, option.strip_prefix('-')) {
                    ("fish", Some(long)) => format!("-l {long}"),
                    ("fish", None) => format!("-s {option}"),
                    _ => format!("-{option}"),
                };
                assert!(script.contains(&option), "{shell}: {name} {option}");
            }
        }
        // A shell that is there reads it.
        if let Ok(out) = Command::new(shell).arg("-n").arg(ground.0.join(format!("urzulempa.{shell}"))).output() {
            assert_eq!((out.status.code(), said(&out.stderr)), (Some(0), String::new()), "{shell}");
        }
    }
    assert_eq!(completed(&ground, &["expl"]), ["explain"]);
    assert_eq!(completed(&ground, &["ex"]), ["explain", "export"]);
    assert_eq!(completed(&ground, &["explain", "--no"]), ["--no-indent"]);
    assert_eq!(completed(&ground, &["explain", "lo"]), ["load.rec"]);
    assert_eq!(completed(&ground, &["explain", "load.rec", "--edition", ""]), ["1", "2"]);
    assert_eq!(completed(&ground, &["explain", "--settings", "lo"]), ["load.rec"]);
    assert_eq!(completed(&ground, &["settings", "truck.set", "e"]), ["edition"]);
    assert_eq!(completed(&ground, &["help", "wh"]), ["what-if"]);
    assert_eq!(completed(&ground, &["completions", ""]), ["bash", "zsh", "fish"]);
    assert_eq!(completed(&ground, &["salvage", "load.rec", "-o", "urzulempa.b"]), ["urzulempa.bash"]);
}

#[test]
fn summary_says_what_to_mend() {
    let wanted = "\
codec 7.2-b01, codec 7.2-b02, codec 7.2-b03 and 7 more are excluded because it was recalled
only one of driver 12 and driver 11 can be installed
driver 11 is locked, which keeps driver 12 out
codec 7.2-b11, codec 7.2-b12, codec 7.2-b13 and 7 more constrain panel <5, which keeps panel 5 out
";
    assert_eq!(ran(&["summary", "-"], RACK), (0, wanted.into(), String::new()));
    assert_eq!(ran(&["summary", "-"], REPLAY), (0, "nothing offers codec 9, which replay 2 and replay 1 require\n".into(), String::new()));
    assert_eq!(ran(&["summary", "-"], DECK_PANEL), (0, "deck 1 → panel 1 → deck 1: these need each other in a circle\n".into(), String::new()));
    let load = listed("variable root\nrequirement \"lost 1\"\ncore requires root, \"lost 1\"\n");
    assert_eq!(ran(&["summary", "-"], &load).1, "nothing offers lost 1, which the load requires\n");
    let (status, out, err) = ran(&["summary", "-"], &REPLAY[..33]);
    assert_eq!((status, out.as_str()), (2, ""));
    assert_eq!(err, ran(&["check", "-"], &REPLAY[..33]).2);
}
