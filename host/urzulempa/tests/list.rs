//! The text form of a file: the samples, what a line may look like, and what is said of one that may not.

use std::fs;
use std::path::Path;
use urzulempa::list::{dump, make, Fault};
use urzulempa::tables::{Clause, Tables};
use urzulempa::Refusal;

/// What is said of a list that has faults, a line each.
fn said(list: &str) -> Vec<String> {
    make(list.as_bytes()).expect_err("a fault").iter().map(Fault::to_string).collect()
}

/// The list of what a list makes.
fn again(list: &str) -> String {
    let file = make(list.as_bytes()).unwrap_or_else(|faults| panic!("{list}: {faults:?}"));
    dump(&file).expect("what was made is accepted")
}

#[test]
fn every_sample_is_what_its_list_makes() {
    let folder = Path::new(env!("CARGO_MANIFEST_DIR")).join("../../samples");
    let mut seen = 0;
    for entry in fs::read_dir(folder).expect("the samples") {
        let path = entry.expect("a sample").path();
        if path.extension().is_some_and(|ending| ending == "rec") {
            let list = path.with_extension("list");
            let text = fs::read(&list).unwrap_or_else(|e| panic!("{}: {e}", list.display()));
            let file = fs::read(&path).expect("a sample");
            assert!(make(&text).as_deref() == Ok(&file[..]), "{} does not make {}", list.display(), path.display());
            // And the list of the file is the sample's, but for comments and empty lines.
            let lines = |text: &str| -> Vec<String> { text.lines().filter(|line| !line.is_empty() && !line.starts_with('#')).map(str::to_owned).collect() };
            assert_eq!(lines(&dump(&file).expect("a list")), lines(&String::from_utf8_lossy(&text)));
            seen += 1;
        }
    }
    assert!(seen >= 5, "{seen} samples");
}

/// A line for each kind, and each kind of variable.
const EVERY_KIND: &str = r#"name deck
name panel

solvable deck 1
solvable panel 2

version-set deck <2

requirement "deck *"

candidate "deck *", deck 1

reason "too old"

variable root
variable deck 1
variable forbid deck
variable gate
variable auxiliary
variable other
variable panel 2

@clause0: core install-root
core excluded deck 1, "too old"
outside learnt
core requires root, "deck *"
core requires gate, "deck *"
outside lock deck 1, panel 2
core forbid-multiple deck 1, forbid deck
core constrains root, deck 1, deck <2
core constrains-parent panel 2, auxiliary, deck <2
core constrains-excluded deck 1, auxiliary, deck <2
@clause10: core any-of gate, deck 1

assigned root, @clause0
assigned gate, @clause10
assigned other, @clause0
"#;

#[test]
fn every_kind_has_a_line() {
    assert_eq!(again(EVERY_KIND), EVERY_KIND);
    let file = make(EVERY_KIND.as_bytes()).expect("a file");
    let kinds: Vec<u8> = file.chunks(32).map(|record| record[0]).collect();
    assert_eq!((1..=8).chain(16..=25).filter(|kind| !kinds.contains(kind)).collect::<Vec<u8>>(), []);
}

#[test]
fn lines_stand_in_any_order_and_have_spaces_comments_and_other_line_ends() {
    let file = make(EVERY_KIND.as_bytes());
    let back: String = EVERY_KIND.lines().rev().map(|line| format!("{line}\n")).collect();
    // Within a table the order counts, and is turned here.
    let turned = again(&back);
    assert!(turned.starts_with("name panel\nname deck\n\nsolvable panel 2\nsolvable deck 1\n"), "{turned}");
    assert!(turned.ends_with("assigned other, @clause10\nassigned gate, @clause0\nassigned root, @clause10\n"), "{turned}");
    let mut tables: Vec<&str> = EVERY_KIND.split("\n\n").collect();
    tables.reverse();
    assert_eq!(make(tables.join("\n").as_bytes()), file);
    for other in [
        EVERY_KIND.replace('\n', "\r\n"),
        EVERY_KIND.replace('\n', "  # a comment, \"with\" a quote and an é\n"),
        EVERY_KIND.replace('\n', "\n\n#\n"),
        EVERY_KIND.replace('\n', "\t \n \t"),
        EVERY_KIND.replace("core ", " core\t  "),
        EVERY_KIND.replace(", ", " ,"),
        EVERY_KIND.replace(", ", "  , "),
        format!("\u{feff}{EVERY_KIND}"),
    ] {
        assert_eq!(make(other.as_bytes()), file, "{other}");
    }
    // The last line needs no end, and an empty list is an empty file.
    assert_eq!(make(EVERY_KIND.trim_end().as_bytes()), file);
    assert_eq!(make(b""), Ok(vec![]));
    assert_eq!(make(b"\n # nothing\n"), Ok(vec![]));
}

#[test]
fn texts_that_would_be_read_as_something_else_stand_in_quotes() {
    for text in [
        "a b",
        " ",
        " a",
        "a ",
        "\"",
        "\\\"",
        "#",
        "#1",
        "@x",
        "@",
        "root",
        "gate",
        "auxiliary",
        "other",
        "forbid",
        "a,",
        ",",
        ",a",
        "4\" monitor",
        "!\"#$%&'()*+,-./:;<=>?@[\\",
    ] {
        let mut load = Tables::new();
        let name = load.name(text).expect("a text");
        let solvable = load.solvable(name, text).expect("a text");
        let set = load.version_set(name, text).expect("a text");
        let requirement = load.requirement(text, &[solvable]).expect("a text");
        let reason = load.reason(text).expect("a text");
        let package = load.package(solvable);
        let forbid = load.forbid_multiple(name);
        load.core(Clause::Excluded(package, reason));
        load.core(Clause::Requires(package.into(), requirement));
        load.core(Clause::Constrains(package.into(), package, set));
        load.core(Clause::ForbidMultipleInstances(package, forbid));
        let file = load.write().expect("a file");
        let list = dump(&file).expect("a list");
        assert!(list.starts_with("name \""), "{list}");
        assert!(!list.contains("@name") && !list.contains("@s"), "one of each needs no label: {list}");
        assert_eq!(make(list.as_bytes()), Ok(file), "{list}");
    }
    // What needs no quotes has none, and may have them.
    for text in ["<2", "a\\b", "a\\", "a#b", "a@b", "a,b", ":", "name", "core", "-"] {
        let file = make(format!("name \"{}\"\n", text.replace('\\', "\\\\")).as_bytes()).expect("a file");
        assert_eq!(dump(&file), Ok(format!("name {text}\n")));
        assert_eq!(make(format!("name {text}\n").as_bytes()), Ok(file));
    }
}

#[test]
fn what_has_no_words_of_its_own_has_a_label() {
    let list = "@name0: name deck\n@name1: name deck\n\n@solvable0: solvable @name0 1\n@solvable1: solvable @name1 1\nsolvable @name0 2\n\n\
                @requirement0: requirement x\n@requirement1: requirement x\nrequirement y\n\ncandidate @requirement0, @solvable1\ncandidate @requirement1, @solvable0\ncandidate y, deck 2\n\n\
                @variable0: variable gate\n@variable1: variable gate\n@variable2: variable @solvable0\nvariable forbid @name1\n@variable4: variable @solvable0\nvariable root\n\n\
                core any-of @variable1, @variable2\n@clause1: core any-of @variable0, @variable4\ncore forbid-multiple @variable2, forbid deck\n\nassigned @variable0, @clause1\nassigned root, @clause1\n";
    assert_eq!(again(list), list);
    // A record that nothing names has none, and a person's labels may be others.
    assert_eq!(again("name deck\nname deck\n"), "name deck\nname deck\n");
    assert_eq!(again("@a-1_.Z: name deck\nname deck\nsolvable @a-1_.Z 1"), "@name0: name deck\nname deck\n\nsolvable @name0 1\n");
}

#[test]
fn faults_are_told_by_their_lines() {
    for (list, wanted) in [
        ("\n# x\nnmae deck", "line 3: a line begins with name, solvable, version-set, requirement, candidate, reason, variable, assigned, core or outside"),
        ("\"name\" deck", "line 1: a line begins with name,"),
        ("core require root, x", "line 1: behind core stands one of install-root, excluded, learnt, requires, lock, "),
        ("core", "line 1: behind core stands one of "),
        ("requirement deck *", "line 1: such a line is `requirement TEXT`, with a text that has spaces in quotes"),
        ("name", "line 1: such a line is `name TEXT`"),
        ("candidate x", "line 1: such a line is `candidate REQUIREMENT, NAME VERSION`"),
        ("core install-root root", "line 1: such a line is `core install-root`"),
        (
            "core requires root \"x\"",
            "line 1: such a line is `core requires VARIABLE, REQUIREMENT`, with a text that has spaces in quotes; a VARIABLE is root, NAME VERSION, ",
        ),
        ("variable deck", "line 1: such a line is `variable VARIABLE`"),
        ("name deck\n\nsolvable dekc 1", "line 3: no line makes the name `dekc`"),
        ("name deck\nsolvable deck 1\ncore lock deck 1, deck 1", "line 3: no line makes the variable `deck 1`: write `variable deck 1`"),
        ("variable root\ncore requires root, \"deck *\"", "line 2: no line makes the requirement `\"deck *\"`"),
        (
            "variable gate\nvariable gate\ncore any-of gate, gate",
            "line 3: lines 1, 2 make a variable `gate`: put a label in front of the one that is meant, @LABEL: .., and write @LABEL here",
        ),
        ("@x: name deck\n@x: name panel", "line 2: @x is the label of line 1 already"),
        ("solvable @x 1", "line 1: no line has the label @x:"),
        ("@x: reason deck\nsolvable @x 1", "line 2: @x is line 1, which makes no name"),
        ("@x name deck", "line 1: @x begins the line: behind a line's label stands a colon, @x:"),
        ("@x:", "line 1: behind the label @x: stands a record, on the same line"),
        ("@x!: name deck", "line 1: @x! is no label: "),
        ("name @deck", "line 1: such a line is `name TEXT`"),
        ("name \"deck", "line 1: a text in quotes has no end: write \" behind it"),
        ("name \"de\"ck", "line 1: behind a text in quotes stands a space or a comma; in it, a quote is written \\\""),
        ("name \"de\\ck\"", "line 1: in a text in quotes a backslash stands before a quote or a backslash: write \\\" or \\\\"),
        ("name de\"ck", "line 1: de\"ck has a quote in it: write the whole text in quotes, and \\\" for a quote in it"),
        ("name \"\"", "line 1: a text is empty: a record holds 1 to 24 bytes of text"),
        ("name a-text-of-twenty-five-by.", "line 1: the text \"a-text-of-twenty-five-by.\" has 25 bytes: a record holds 1 to 24 bytes of text"),
        ("reason \"caf\u{e9}\"", "line 1: the text \"caf\u{e9}\" has the character '\u{e9}': "),
        ("reason \"a\tb\"", "line 1: the text \"a\\tb\" has the character '\\t': "),
        ("variable gate\nassigned gate, gate", "line 2: such a line is `assigned VARIABLE, @LABEL`"),
    ] {
        let said = said(list);
        assert!(said[0].starts_with(wanted), "{list:?}: {said:?}");
        assert_eq!(said.len(), 1, "{said:?}");
        assert!(make(list.as_bytes()).expect_err("a fault").iter().all(|fault| fault.refusal.is_none()));
    }
    // All faults of one sort are told at once, in their order; a byte that is no UTF-8 is no text.
    assert_eq!(said("nmae x\nname y\nnmae z").len(), 2);
    assert_eq!(said("name x\nsolvable y 1\nsolvable z 1\nvariable y 1").len(), 2);
    assert!(make(b"name \xff").is_err());
    assert_eq!(make(b"name x # \xff"), make(b"name x"));
}

#[test]
fn what_the_writer_refuses_is_told_by_the_line_that_it_points_at() {
    let refused = |list: &str| {
        let faults = make(list.as_bytes()).expect_err("a fault");
        assert_eq!(faults.len(), 1);
        (faults[0].to_string(), faults[0].refusal)
    };
    let (said, refusal) = refused("core lock deck 1, root\nvariable deck 1\nvariable root\n\nname deck\nsolvable deck 1");
    assert_eq!((said.as_str(), refusal), ("line 1: refused 5: its second variable is the root, and a solvable is wanted there", Some(Refusal::Origin(4))));
    let (said, refusal) = refused("variable gate\ncore excluded gate, old\nreason old");
    assert_eq!((said.as_str(), refusal), ("line 2: refused 5: its first variable is a gate, and a solvable is wanted there", Some(Refusal::Origin(2))));
    let (said, refusal) = refused("assigned root, @c\n@c: core install-root\n\nvariable root\nassigned root, @c");
    assert_eq!((said.as_str(), refusal), ("line 5: refused 4: the variable is assigned already, on line 1", Some(Refusal::Number(3))));
    let many: String = (0..130).map(|k| format!("variable gate\nname {k}\n")).collect();
    let (said, refusal) = refused(&many);
    assert_eq!((said.as_str(), refusal), ("line 258: refused 6: it is one more than a file holds: 128 names at most", Some(Refusal::TableFull(128))));
    let long = "variable other\n".repeat(1_024) + &"core install-root\n".repeat(1_024);
    assert_eq!(make(long.as_bytes()).map(|file| file.len()), Ok(65_536));
    let (said, refusal) = refused(&(long + "name deck"));
    assert_eq!(
        (said.as_str(), refusal),
        ("refused 1: the file would have 65568 bytes, in 2049 records, and 65,536 in 2,048 are the most", Some(Refusal::Length))
    );
}

#[test]
fn numbers_past_16_bits_name_no_other_line() {
    // The table is full long before, and that is what is told.
    let list = "name deck\n".repeat(70_000) + "@x: name panel\nsolvable @x 1\n";
    assert!(said(&list)[0].starts_with("line 129: refused 6: "), "{:?}", said(&list));
}

#[test]
fn a_file_that_is_refused_has_no_list_and_7_to_9_are_no_hindrance() {
    let file = make(EVERY_KIND.as_bytes()).expect("a file");
    assert_eq!(dump(&file[..33]), Err(Refusal::Length));
    for (at, to, refusal) in [(0, 0, Refusal::Kind(0)), (1, 0, Refusal::Shape(0)), (2, 1, Refusal::Number(0))] {
        let mut damaged = file.clone();
        damaged[at] = to;
        assert_eq!(dump(&damaged), Err(refusal));
    }
    for (list, number) in [("core learnt\n", 7), ("name x\n\nsolvable x 1\n\nreason y\n\nvariable x 1\n\ncore excluded x 1, y\n", 9)] {
        let file = make(list.as_bytes()).expect("a file");
        assert_eq!(urzulempa::check(&file).number, number);
        assert_eq!(dump(&file).as_deref(), Ok(list));
    }
}
