//! The proved table of document 01's cases (crates/demands/specs/Cases): its files are those in samples/,
//! and its texts are conflict.rs's.

use oracle::draft::Draft;
use oracle::samples;
use std::fs;
use std::path::{Path, PathBuf};

fn root() -> PathBuf {
    Path::new(env!("CARGO_MANIFEST_DIR")).join("../..")
}

fn spec(name: &str) -> String {
    let path = root().join("crates/demands/specs/Cases").join(name);
    fs::read_to_string(&path).unwrap_or_else(|e| panic!("{}: {e}", path.display()))
}

/// The quoted texts of the list that begins behind a mark.
fn quoted(spec: &str, mark: &str) -> Vec<String> {
    let (_, rest) = spec
        .split_once(mark)
        .unwrap_or_else(|| panic!("no {mark:?}"));
    let (list, _) = rest.split_once("[]").expect("the list ends");
    let texts = list.split('"').skip(1).step_by(2);
    texts.map(str::to_string).collect()
}

/// A line for each record, as `xxd -p -c 32` prints it.
fn printed(file: &[u8]) -> Vec<String> {
    let line = |record: &[u8]| record.iter().map(|byte| format!("{byte:02x}")).collect();
    file.chunks(32).map(line).collect()
}

/// The load of the row with two runs below one package.
fn desk() -> Vec<u8> {
    let mut d = Draft::new();
    let [desk, codec, panel] =
        [("desk", "1"), ("codec", "9"), ("panel", "5")].map(|(name, v)| d.package(name, v));
    d.root_needs("desk *", &[desk]);
    d.needs(desk, "codec 9", &[codec]);
    d.needs(desk, "panel 5", &[panel]);
    d.needs(codec, "driver 12", &[]);
    d.needs(panel, "frame 3", &[]);
    d.file()
}

#[test]
fn files() {
    let spec = spec("Samples.antt");
    for name in ["replay", "deck-panel", "merged-pair", "lone"] {
        let path = root().join("samples").join(format!("{name}.rec"));
        let file = fs::read(&path).unwrap_or_else(|e| panic!("{}: {e}", path.display()));
        let lines = quoted(&spec, &format!("pub {}_file : ", name.replace('-', "_")));
        assert_eq!(lines, printed(&file), "{name}");
    }
    assert_eq!(quoted(&spec, "pub desk_file : "), printed(&desk()));
}

/// A file's text by the oracle is the list of lines of this name.
fn same_text(name: &str, file: &[u8], option: u64) {
    let mut room = [0; 4_096];
    let answer = oracle::explain(file, option, &mut room);
    let text: String = quoted(&spec("Texts.antt"), &format!("abbrev pub {name} : "))
        .iter()
        .map(|line| format!("{line}\n"))
        .collect();
    assert_eq!(
        String::from_utf8_lossy(&room[..answer.bytes as usize]),
        text,
        "{name}"
    );
}

#[test]
#[cfg_attr(not(has_conflict_rs), ignore = "needs conflict.rs")]
fn texts() {
    same_text("replay_lines", &samples::replay(), 0);
    same_text("indented_lines", &samples::replay(), 1);
    same_text("deck_lines", &samples::deck_and_panel(), 0);
    same_text("pair_lines", &samples::merged_pair(), 0);
    same_text("lone_lines", &samples::lone_package(), 0);
    same_text("desk_lines", &desk(), 0);
}

/// The root requires so many versions of x, from 0 on, which merge.
fn wide(members: u16) -> Vec<u8> {
    let mut d = Draft::new();
    let name = d.name("x");
    let all: Vec<u16> = (0..members)
        .map(|version| d.solvable(name, &version.to_string()))
        .collect();
    d.root_needs("x *", &all);
    d.file()
}

/// Document 02, order 6.
#[test]
#[cfg_attr(not(has_conflict_rs), ignore = "needs conflict.rs")]
fn texts_of_groups() {
    same_text("six_lines", &wide(6), 0);
    same_text("seven_lines", &wide(7), 0);
    same_text("eight_lines", &wide(8), 0);
    same_text("wide_lines", &wide(126), 0);
}
