//! The command on damaged files: an answer and no panic on any of them. It is built by host/urzulempa, which stands alone.

use std::io::Write;
use std::process::{Command, Output, Stdio};

const COMMAND: &str = concat!(env!("CARGO_MANIFEST_DIR"), "/../target/release/urzulempa");

fn run(words: &[&str], file: &[u8]) -> Output {
    let child = Command::new(COMMAND).args(words).stdin(Stdio::piped()).stdout(Stdio::piped()).stderr(Stdio::piped()).spawn();
    let mut child = child.unwrap_or_else(|e| panic!("{COMMAND}: {e}: build host/urzulempa for release into host/target first"));
    // A command that wants no file does not read it.
    let _ = child.stdin.take().expect("a pipe").write_all(file);
    child.wait_with_output().expect("the command ends")
}

/// Damaged files of every shape: an answer, a status of 0 or 2, a sentence where it is refused, and no panic.
#[test]
fn ten_thousand_damaged_files_get_an_answer() {
    let shapes = [
        "double-faults",
        "wrong-origins",
        "bits-flipped",
        "fields-changed",
        "cut",
        "records-swapped",
        "unused-bytes",
        "random-records",
        "random-bytes",
        "bytes-65568",
    ];
    let out = format!("{}/mended-{}.rec", env!("CARGO_TARGET_TMPDIR"), std::process::id());
    let calls = [
        &["check", "-"][..],
        &["explain", "-", "--room", "3000"],
        &["explain", "-", "--edition", "2"],
        &["explain", "-", "--air"],
        &["graph", "-", "--simplify", "--room", "3000"],
        &["nodes", "-"],
        &["edges", "-"],
        &["export", "-"],
        &["salvage", "-", "-o", &out],
        &["what-if", "-", "#0", "#0", "--room", "3000"],
    ];
    let (mut refused, mut mended) = (0, 0);
    for index in 0..10_000 {
        let shape = shapes[index % shapes.len()];
        let file = oracle::generate::file(shape, index as u64).expect("a shape of the generator");
        let words = calls[index / shapes.len() % calls.len()];
        let ran = run(words, &file);
        let err = String::from_utf8_lossy(&ran.stderr).into_owned();
        match ran.status.code() {
            Some(0) => assert!(err.lines().all(|line| noted(words[0], line)), "{shape} {index} {words:?}: {err}"),
            Some(2) => assert!(err.starts_with("refused ") && !err.contains("panicked"), "{shape} {index} {words:?}: {err}"),
            other => panic!("{shape} {index} {words:?}: status {other:?}, {err}"),
        }
        refused += usize::from(ran.status.code() == Some(2));
        if words[0] == "salvage" {
            mended += usize::from(told_right(&file, &out, &ran));
        }
    }
    assert!(refused > 5_000, "{refused} were refused");
    assert!(mended > 100, "{mended} were mended");
}

/// Whether a line may be said of a file that is not refused: that there is nothing to tell, or what a drawn group stands for.
fn noted(command: &str, line: &str) -> bool {
    match command {
        "explain" => line.starts_with("nothing to explain: "),
        "edges" => line == "nothing to list: the graph has no edges",
        "graph" => line.ends_with(" packages that are alike"),
        _ => false,
    }
}

/// Whether a file was mended: then OUT is what the model gives, and each replaced record is told with the refusal that it would get.
fn told_right(file: &[u8], out: &str, ran: &Output) -> bool {
    let written = std::fs::read(out).ok();
    let _ = std::fs::remove_file(out);
    let Ok(model) = oracle::salvage::repair(file) else {
        assert_eq!((ran.status.code(), written), (Some(2), None));
        return false;
    };
    assert_eq!((ran.status.code(), written), (Some(0), Some(model.file)));
    let said = String::from_utf8_lossy(&ran.stdout).into_owned();
    let told = said.lines().filter(|line| line.contains(" is replaced: "));
    let wanted: Vec<String> = model.replaced.iter().map(|(record, number)| format!("record {record}, it would get {number}, ")).collect();
    let short = |line: &str| {
        let (_, why) = line.rsplit_once(": it would get ").expect("what was wrong");
        format!("{}, it would get {}, ", line.split(',').next().unwrap_or_default(), why.split(',').next().unwrap_or_default())
    };
    assert_eq!(told.map(short).collect::<Vec<_>>(), wanted, "{said}");
    !wanted.is_empty()
}
