//! `dump` and `make` as a person runs them, and the call `write` on a small stack.

mod common;

use common::{run, said};
use std::fs;
use std::os::unix::fs::symlink;
use std::path::{Path, PathBuf};
use std::thread::Builder;
use urzulempa::{write, MOST_BYTES};

const REPLAY: &[u8] = include_bytes!("../../../samples/replay.rec");
const LIST: &str = include_str!("../../../samples/replay.list");

/// A folder of this test's own.
fn folder(name: &str) -> PathBuf {
    let folder = Path::new(env!("CARGO_TARGET_TMPDIR")).join(format!("made-{name}-{}", std::process::id()));
    let _ = fs::remove_dir_all(&folder);
    fs::create_dir_all(&folder).expect("a folder");
    folder
}

#[test]
fn dump_prints_the_list_and_make_writes_the_file_of_it() {
    let dumped = run(&["dump", "-"], REPLAY);
    assert_eq!((dumped.status.code(), said(&dumped.stderr)), (Some(0), String::new()));
    assert!(LIST.ends_with(&said(&dumped.stdout)));
    let folder = folder("both");
    let out = folder.join("out.rec");
    let name = out.to_str().expect("a name");
    let made = run(&["make", "-", "-o", name], &dumped.stdout);
    assert_eq!((made.status.code(), said(&made.stderr)), (Some(0), String::new()));
    assert_eq!(said(&made.stdout), format!("{name} is written: 13 records\n"));
    assert_eq!(fs::read(&out).expect("OUT"), REPLAY);
    // What `check` still says of it is told.
    let made = run(&["make", "-", "-o", name], b"core learnt");
    assert_eq!(made.status.code(), Some(0));
    assert!(
        said(&made.stdout).starts_with(&format!("{name} is written: 1 record\nit gets 7: clause 0 is a learnt clause in the core")),
        "{}",
        said(&made.stdout)
    );
    fs::remove_dir_all(folder).expect("the folder");
}

/// The list of the README, what is printed for it, and what is said where a line of it is wrong.
#[test]
fn the_bench_of_the_readme() {
    let readme = fs::read_to_string(Path::new(env!("CARGO_MANIFEST_DIR")).join("../../README.md")).expect("the README");
    let (_, behind) = readme.split_once("```\n# bench.list").expect("the list");
    let (list, behind) = behind.split_once("```").expect("its end");
    let list = format!("# bench.list{list}");
    let folder = folder("bench");
    let out = folder.join("bench.rec");
    let name = out.to_str().expect("a name");
    let shown = |text: &str| behind.contains(text);
    assert!(shown(&said(&run(&["make", "-", "-o", name], list.as_bytes()).stdout).replace(name, "bench.rec")));
    let text = said(&run(&["explain", name], &[]).stdout);
    assert!(text.lines().count() == 5 && shown(&text), "{text}");
    let err = said(&run(&["make", "-", "-o", name], list.replace("variable panel 5", "variable panel 6").as_bytes()).stderr);
    assert!(err.lines().count() == 2 && shown(&err.replace(name, "bench.rec")), "{err}");
    fs::remove_dir_all(folder).expect("the folder");
}

#[test]
fn a_list_with_a_fault_leaves_what_was_there() {
    let folder = folder("fault");
    let list = folder.join("bench.list");
    let out = folder.join("out.rec");
    let (from, name) = (list.to_str().expect("a name"), out.to_str().expect("a name"));
    for (text, status, wanted) in [
        (LIST.replace("replay 1,", "replay 3,"), 1, "line 20: no line makes the variable `replay 3`: write `variable replay 3`"),
        (
            LIST.replace("core requires replay 1, \"codec 9\"", "core lock replay 1, root"),
            2,
            "line 20: refused 5: its second variable is the root, and a solvable is wanted there",
        ),
        ("name deck\n".repeat(129), 2, "line 129: refused 6: it is one more than a file holds: 128 names at most"),
        ("core install-root\n".repeat(1_024) + &"variable other\n".repeat(1_024) + "name deck\n", 2, "refused 1: the file would have 65568 bytes"),
    ] {
        fs::write(&list, text).expect("a list");
        for old in [None, Some(&b"old"[..])] {
            let _ = fs::remove_file(&out);
            old.into_iter().for_each(|bytes| fs::write(&out, bytes).expect("a file"));
            let ran = run(&["make", from, "-o", name], &[]);
            let err = said(&ran.stderr);
            assert_eq!((ran.status.code(), ran.stdout.len()), (Some(status), 0), "{err}");
            assert!(err.starts_with(&format!("{from}: {wanted}")) && err.ends_with(&format!("{name} is not written\n")), "{err}");
            assert_eq!(fs::read(&out).ok().as_deref(), old);
        }
        assert_eq!(fs::read_dir(&folder).expect("the folder").count(), 2);
    }
    // A file that is no list has no more than twenty faults told, and the count of the others.
    let err = said(&run(&["make", "-", "-o", name], "deck\n".repeat(50).as_bytes()).stderr);
    assert_eq!(err.lines().count(), 22);
    assert!(err.contains("standard input: and 30 lines more\n"), "{err}");
    assert_eq!(run(&["make", "-", "-o", name], REPLAY).status.code(), Some(1));
    fs::remove_dir_all(folder).expect("the folder");
}

#[test]
fn make_does_not_write_over_its_list_without_force() {
    let folder = folder("over");
    let at = |name: &str| folder.join(name).to_str().expect("a name").to_owned();
    for (from, to) in [("a.list", "a.list"), ("a.list", "b.list"), ("b.list", "a.list")] {
        let _ = (fs::remove_file(at("a.list")), fs::remove_file(at("b.list")));
        fs::write(at("a.list"), LIST).expect("a list");
        symlink("a.list", at("b.list")).expect("a link");
        let ran = run(&["make", &at(from), "-o", &at(to)], &[]);
        assert_eq!((ran.status.code(), ran.stdout.len()), (Some(1), 0));
        assert!(said(&ran.stderr).contains("itself, which would be gone"), "{}", said(&ran.stderr));
        assert_eq!(fs::read(at("a.list")).expect("a list"), LIST.as_bytes());
        let ran = run(&["make", &at(from), "--force", "-o", &at(to)], &[]);
        assert_eq!(ran.status.code(), Some(0), "{}", said(&ran.stderr));
        assert_eq!(fs::read(at("a.list")).expect("a file"), REPLAY);
        assert!(fs::symlink_metadata(at("b.list")).expect("a link").is_symlink());
    }
    fs::remove_dir_all(folder).expect("the folder");
}

#[test]
fn a_file_that_is_refused_is_told_as_elsewhere() {
    let mut file = REPLAY.to_vec();
    file[32 * 5 + 4] = 9;
    let out = run(&["dump", "-"], &file);
    assert_eq!((out.status.code(), out.stdout.len()), (Some(2), 0));
    assert_eq!(out.stderr, run(&["check", "-"], &file).stderr);
    let out = run(&["dump", "-"], &REPLAY[..33]);
    assert!(said(&out.stderr).starts_with("refused 1 at the whole file: "), "{}", said(&out.stderr));
    assert!(said(&out.stderr).contains("`urzulempa salvage FILE -o OUT` can repair it"));
    assert_eq!(run(&["dump", "no such file"], &[]).status.code(), Some(1));
    assert_eq!(run(&["make", "no such file", "-o", "x"], &[]).status.code(), Some(1));
}

#[test]
fn wrong_usage_is_told() {
    for (words, wanted) in [
        (&["dump"][..], "dump wants FILE"),
        (&["dump", "a", "b"], "dump wants FILE, and no more words"),
        (&["dump", "--room", "a"], "--room is no option of dump"),
        (&["make", "-o", "x"], "make wants LIST"),
        (&["make", "a"], "make wants -o FILE"),
        (&["make", "a", "b", "-o", "x"], "make wants LIST, and no more words"),
        (&["make", "a", "-o", "x", "-o", "y"], "-o wants the name of one file"),
        (&["make", "a", "-o", "-"], "-o wants the name of one file"),
        (&["make", "a", "-o"], "-o wants the name of one file"),
        (&["make", "a", "--simplify"], "--simplify is no option of make"),
    ] {
        let out = run(words, &[]);
        assert_eq!((out.status.code(), out.stdout.len()), (Some(64), 0), "{words:?}");
        assert!(said(&out.stderr).contains(wanted), "{words:?}: {}", said(&out.stderr));
    }
    let help = said(&run(&["--help"], &[]).stdout);
    assert!(help.contains("urzulempa dump FILE\n") && help.contains("urzulempa make LIST -o FILE [--force]\n"));
}

/// On a thread with 128 KiB of stack and a guard page behind it, for few rows and for 200,000.
#[test]
fn write_fits() {
    let mut room = vec![0; MOST_BYTES];
    let most = [&[7, 0, 0, 0, 5], &[0; 27][..]].concat().repeat(1_024);
    let most = [most, [&[16], &[0; 31][..]].concat().repeat(1_024)].concat();
    let many = [&[8], &[0; 31][..]].concat().repeat(200_000);
    let thread = Builder::new().stack_size(128 << 10).spawn(move || {
        assert_eq!(write(REPLAY, &mut room).bytes, 13 * 32);
        assert_eq!(write(&most, &mut room).bytes, 65_536);
        assert_eq!(write(&many, &mut room).number, 4);
        assert_eq!(write(&[7; 33], &mut room).number, 1);
    });
    thread.expect("a thread").join().expect("the call returns");
}
