//! `season` and `join` as a person runs them: what the README shows.

mod common;

use common::Ground;
use std::ffi::OsStr;
use std::fs::{self, File};
use std::io::Read;
use std::os::unix::ffi::OsStrExt;
use std::os::unix::fs::{symlink, PermissionsExt};
use std::path::{Path, PathBuf};
use std::process::{Command, Output, Stdio};
use urzulempa::tables::{Clause, Tables};
use urzulempa::{explain_edition, join, season, Report};

const REPLAY: &[u8] = include_bytes!("../../../samples/replay.rec");
const RACK: &[u8] = include_bytes!("../../../samples/rack.rec");
const RING: &[u8] = include_bytes!("../../../samples/deck-panel.rec");
const LONE: &[u8] = include_bytes!("../../../samples/lone.rec");
const PAIR: &[u8] = include_bytes!("../../../samples/merged-pair.rec");

/// A saved report: the numbers that are not 0.
fn saved(numbers: &[(&str, u64)]) -> String {
    let names = (1..=18).map(|n| format!("refused-{n}"));
    let rest = ["nodes", "edges", "groups", "missing", "lines", "depth", "first-file", "named"].map(String::from);
    let number = |name: &str| numbers.iter().find(|(given, _)| *given == name).map_or(0, |(_, number)| *number);
    let lines = std::iter::once("done".to_owned()).chain(names).chain(rest).map(|name| format!("{name} {}\n", number(&name)));
    format!("urzulempa season 1\n{}", lines.collect::<String>())
}

/// What the README shows behind a line.
fn shown(line: &str) -> String {
    let readme = fs::read_to_string(Path::new(env!("CARGO_MANIFEST_DIR")).join("../../README.md")).expect("the README");
    let (_, behind) = readme.split_once(&format!("$ {line}\n")).expect("the line");
    behind.split_once("```").expect("an end").0.to_owned()
}

#[test]
fn the_readme_shows_what_is_printed() {
    let ground = Ground::new("readme");
    let samples = fs::canonicalize(Path::new(env!("CARGO_MANIFEST_DIR")).join("../../samples")).expect("the samples");
    let mut names: Vec<String> =
        fs::read_dir(&samples).expect("a folder").map(|entry| format!("samples/{}", entry.expect("an entry").file_name().to_string_lossy())).collect();
    names.retain(|name| name.ends_with(".rec"));
    names.sort();
    symlink(samples, ground.0.join("samples")).expect("a link");
    let names: Vec<&str> = names.iter().map(String::as_str).collect();
    let ran = ground.ran(&[&["season"], &names[..], &["--save", "friday.report"]].concat(), &[]);
    assert_eq!(ran, (Some(0), shown("./urzulempa season samples/*.rec --save friday.report"), String::new()));
    fs::copy(ground.0.join("friday.report"), ground.0.join("saturday.report")).expect("a copy");
    let ran = ground.ran(&["join", "friday.report", "saturday.report"], &[]);
    assert_eq!(ran, (Some(0), shown("./urzulempa join friday.report saturday.report"), String::new()));
}

#[test]
fn a_table_of_files_in_the_order_given() {
    let ground = Ground::new("table");
    for (name, file) in [("deck-panel.rec", RING), ("lone.rec", LONE), ("rack.rec", RACK), ("replay.rec", REPLAY), ("cut.rec", &REPLAY[..100])] {
        ground.lay(format!("friday/{name}"), file);
    }
    let wanted = "\
files        5
done         3
refused      2
   1         1  the length is no multiple of 32, or above 65,536 bytes
  11         1  the explanation would never end
nodes       56
edges       94
groups       4  of merged packages
missing      4  nodes, for want of a candidate
lines       25
deepest      2  first in friday/deck-panel.rec, file 1
longest     15  first in friday/rack.rec
";
    assert_eq!(ground.ran(&["season", "friday"], &[]), (Some(0), wanted.into(), String::new()));
    // The order is that of the line; edition 2 always ends.
    let (code, printed, said) = ground.ran(&["season", "--edition", "2", "friday/replay.rec", "friday/rack.rec", "friday/deck-panel.rec"], &[]);
    assert_eq!((code, said.as_str()), (Some(0), ""));
    assert!(printed.contains("done         3\n") && printed.contains("first in friday/rack.rec, file 1\n"), "{printed}");
    // A folder without files, and one with a slash behind it.
    fs::create_dir(ground.0.join("empty")).expect("a folder");
    let (code, printed, _) = ground.ran(&["season", "empty/"], &[]);
    assert_eq!(code, Some(0));
    assert!(
        printed.starts_with("files       0\ndone        0\nrefused     0\nnodes")
            && printed.contains("deepest     -  no file has a text\nlongest     -  no file has a line\n"),
        "{printed}"
    );
    let (_, printed, _) = ground.ran(&["season", "friday/"], &[]);
    assert_eq!(printed, wanted);
    // A load from standard input among others.
    let (code, printed, _) = ground.ran(&["season", "friday/lone.rec", "-", "friday/lone.rec"], RACK);
    assert_eq!(code, Some(0));
    assert!(printed.contains("first in standard input, file 1\n"), "{printed}");
}

#[test]
fn a_folders_files_go_by_name_and_its_folders_where_their_names_stand() {
    let ground = Ground::new("order");
    // Of equal depth the first in order is named.
    for name in ["b", "a/z", "a/y/x", "c"] {
        ground.lay(format!("all/{name}"), REPLAY);
    }
    let first = |words: &[&str]| {
        let printed = ground.ran(&[&["season"], words].concat(), &[]).1;
        printed.lines().find(|line| line.starts_with("deepest")).map(str::to_owned).unwrap_or_default()
    };
    assert_eq!(first(&["all"]), "deepest      1  first in all/a/y/x, file 0");
    assert_eq!(first(&["all/c", "all"]), "deepest      1  first in all/c, file 0");
    ground.lay("all/a/y/x", LONE);
    assert_eq!(first(&["all"]), "deepest      1  first in all/a/z, file 1");
    ground.lay("all/a/z", &[7; 33]);
    assert_eq!(first(&["all"]), "deepest      1  first in all/b, file 2");
}

/// A folder of some hundreds of files: samples, damaged and cut ones, one that is too long, and some that can't be read.
fn mixed(ground: &Ground) {
    for index in 0..700usize {
        let mut file = [REPLAY, RACK, RING, LONE, PAIR][index % 5].to_vec();
        match index % 11 {
            3 => file.truncate(index % file.len()),
            5 => {
                let at = index * 37 % file.len();
                file[at] ^= 1 << (index % 8);
            }
            7 if index % 3 == 0 => file = vec![0; 70_000],
            _ => {}
        }
        let name = format!("all/{:02}/{index:04}.rec", index / 100);
        if index % 97 == 13 {
            ground.lay(format!("all/{:02}/keep", index / 100), LONE);
            symlink("nowhere", ground.0.join(&name)).expect("a link");
        } else {
            ground.lay(&name, &file);
        }
    }
}

#[test]
fn many_jobs_print_and_save_what_one_does() {
    let ground = Ground::new("jobs");
    mixed(&ground);
    for edition in ["1", "2"] {
        let mut wanted = None;
        for jobs in ["1", "2", "3", "7", "64", "1000"] {
            let ran = ground.ran(&["season", "all", "--jobs", jobs, "--edition", edition, "--save", "report"], &[]);
            assert_eq!(ran.0, Some(1), "some can't be read");
            assert_eq!(ran.2.lines().count(), 8, "{}", ran.2);
            let ran = (ran, ground.holds_text("report").expect("it is saved"));
            assert!(ran == *wanted.get_or_insert_with(|| ran.clone()), "{jobs} jobs");
        }
        // As many as there are cores.
        let ran = ground.ran(&["season", "all", "--edition", edition, "--save", "report"], &[]);
        assert!(Some((ran, ground.holds_text("report").expect("it is saved"))) == wanted);
    }
}

#[test]
fn a_report_is_that_of_the_library_and_seasons_that_are_cut_join_to_the_whole() {
    let ground = Ground::new("cut");
    mixed(&ground);
    // The readable ones, in order.
    let mut names: Vec<PathBuf> = Vec::new();
    for folder in 0..7 {
        let mut inside: Vec<PathBuf> =
            fs::read_dir(ground.0.join(format!("all/{folder:02}"))).expect("a folder").map(|entry| entry.expect("an entry").path()).collect();
        inside.sort();
        names.extend(inside);
    }
    names.retain(|name| name.exists());
    let (mut report, mut room) = (Report::default(), vec![0; 1 << 20]);
    for name in &names {
        assert_ne!(season(&mut report, &fs::read(name).expect("a file"), 1, 1, &mut room).number, 14);
    }
    assert_eq!(report.files(), Some(names.len() as u64));
    let (_, whole, _) = ground.ran(&["season", "all", "--save", "whole"], &[]);
    let number = |line: &str| line.rsplit(' ').next().and_then(|digits| digits.parse::<u64>().ok());
    let numbers = |name: &str| -> Vec<u64> { ground.holds_text(name).expect("saved").lines().skip(1).filter_map(number).collect() };
    assert_eq!(numbers("whole"), report.numbers());
    // By folders, as several machines would do it, joined in order and in two steps.
    let parts: Vec<String> = (0..7).map(|folder| format!("part{folder}")).collect();
    for (folder, part) in parts.iter().enumerate() {
        ground.ran(&["season", &format!("all/{folder:02}"), "--save", part], &[]);
    }
    let parts: Vec<&str> = parts.iter().map(String::as_str).collect();
    let (code, printed, said) = ground.ran(&[&["join"], &parts[..], &["--save", "joined"]].concat(), &[]);
    assert_eq!((code, said.as_str()), (Some(0), ""));
    assert_eq!(ground.holds_text("joined"), ground.holds_text("whole"));
    let counts = |text: &str| text.lines().take_while(|line| !line.starts_with("deepest")).map(str::to_owned).collect::<Vec<_>>();
    assert_eq!(counts(&printed), counts(&whole));
    assert!(printed.ends_with("joined is written\n"));
    ground.ran(&[&["join"], &parts[..3], &["--save", "left"]].concat(), &[]);
    ground.ran(&[&["join"], &parts[3..], &["--save", "right"]].concat(), &[]);
    ground.ran(&["join", "left", "right", "--save", "again"], &[]);
    assert_eq!(ground.holds_text("again"), ground.holds_text("whole"));
    let mut twice = report;
    assert!(join(&mut twice, &report).is_done());
    ground.ran(&["join", "whole", "whole", "--save", "twice"], &[]);
    assert_eq!(numbers("twice"), twice.numbers());
}

#[test]
fn a_joined_report_says_in_which_one_the_deepest_file_is() {
    let ground = Ground::new("joined");
    ground.lay("a", saved(&[("done", 1_000), ("nodes", 4_000), ("lines", 9), ("depth", 2), ("first-file", 7), ("named", 1)]).as_bytes());
    ground.lay("b", saved(&[("refused-12", 3)]).as_bytes());
    ground.lay("c", saved(&[("done", 5), ("refused-10", 1), ("lines", 1), ("depth", 3), ("first-file", 5), ("named", 1)]).as_bytes());
    let wanted = "\
files       1,009
done        1,005
refused         4
  10            1  the text does not fit into the room
  12            3  an option or edition that does not exist
nodes       4,000
edges           0
groups          0  of merged packages
missing         0  nodes, for want of a candidate
lines          10
deepest         3  first in c, file 5, of all file 1,008
";
    assert_eq!(ground.ran(&["join", "a", "b", "c"], &[]), (Some(0), wanted.into(), String::new()));
    let (_, printed, _) = ground.ran(&["join", "b", "a", "c", "--save", "d"], &[]);
    assert!(printed.ends_with("first in c, file 5, of all file 1,008\nd is written\n"), "{printed}");
    // An empty one before another one has no file of its own.
    ground.lay("none", saved(&[]).as_bytes());
    let (_, printed, _) = ground.ran(&["join", "none", "c", "none"], &[]);
    assert!(printed.ends_with("first in c, file 5, of all file 5\n"), "{printed}");
    // From standard input, as another machine sends it.
    let (code, printed, _) = ground.ran(&["join", "a", "-"], ground.holds_text("c").expect("a file").as_bytes());
    assert_eq!(code, Some(0));
    assert!(printed.ends_with("first in standard input, file 5, of all file 1,005\n"), "{printed}");
}

#[test]
fn a_damaged_report_is_refused_with_its_line() {
    let ground = Ground::new("damaged");
    let good = saved(&[("done", 2), ("refused-18", 1), ("depth", 1), ("first-file", 2), ("named", 1)]);
    ground.lay("good", good.as_bytes());
    for (text, line, why) in [
        (String::new(), 1, "it is missing"),
        ("urzulempa sea".into(), 1, "it has no newline"),
        (good.replace("season 1", "season 2"), 1, "another version than 1"),
        ("files 3\n".into(), 1, "this is no saved report"),
        (String::from_utf8_lossy(REPLAY).into_owned(), 1, "this is no saved report"),
        (good.replace("done 2\n", ""), 2, "`done` with a number is wanted there"),
        (good.replace("refused-3 0", "refused-3 00"), 5, "without leading zeros"),
        (good.replace("refused-3 0", "refused-3 +1"), 5, "without leading zeros"),
        (good.replace("refused-3 0", "refused-3 "), 5, "no number"),
        (good.replace("refused-3 0", "refused-3 18446744073709551616"), 5, "no number from 0 to 18446744073709551615"),
        (good.replace("refused-3 0", "refused-3  0"), 5, "no number"),
        (good.replace("refused-3 0\n", "refused-3 0\r\n"), 5, "no number"),
        (good.replace("refused-3 0", &format!("refused-3 {}", u64::MAX)), 5, "the files would pass 64 bits"),
        (good.replace("first-file 2", "first-file 3"), 27, "there are 3 files, numbered from 0"),
        (good.replace("named 1", "named 0"), 26, "though no file is named"),
        (good.replace("named 1", "named 0").replace("depth 1", "depth 0"), 27, "though no file is named"),
        (good.replace("named 1", "named 2"), 28, "and not 0 or 1"),
        (good.replace("named 1\n", ""), 28, "it is missing"),
        (good.replace("named 1\n", "named 1"), 28, "it has no newline"),
        (good.clone() + "\n", 29, "something stands behind"),
        (good.clone() + "done 3\n", 29, "something stands behind"),
    ] {
        ground.lay("bad", text.as_bytes());
        let (code, printed, said) = ground.ran(&["join", "good", "bad", "--save", "out"], &[]);
        assert_eq!((code, printed.as_str()), (Some(2), ""), "{said}");
        assert!(said.starts_with(&format!("bad: refused at line {line}: ")) && said.contains(why), "{said}");
        assert_eq!(ground.holds_text("out"), None);
    }
}

#[test]
fn a_count_that_would_pass_64_bits_is_14() {
    let ground = Ground::new("wide");
    ground.lay("full", saved(&[("lines", u64::MAX)]).as_bytes());
    ground.lay("one", saved(&[("lines", 1)]).as_bytes());
    let (code, printed, said) = ground.ran(&["join", "full", "one", "--save", "out"], &[]);
    assert_eq!((code, printed.as_str()), (Some(2), ""));
    assert_eq!(said, "one: refused 14: a count of the report would pass 64 bits: keep the two reports apart\n");
    assert_eq!(ground.holds_text("out"), None);
    ground.lay("many", saved(&[("refused-2", u64::MAX)]).as_bytes());
    ground.lay("file", saved(&[("done", 1)]).as_bytes());
    assert_eq!(ground.ran(&["join", "many", "file"], &[]).0, Some(2));
    assert_eq!(ground.ran(&["join", "many", "one"], &[]).0, Some(0));
}

#[test]
fn what_cannot_be_read_is_told_and_counted_apart() {
    let ground = Ground::new("unread");
    ground.lay("all/b.rec", REPLAY);
    ground.lay("all/d.rec", RACK);
    symlink("nowhere", ground.0.join("all/a.rec")).expect("a link");
    symlink(".", ground.0.join("all/c")).expect("a link");
    symlink("b.rec", ground.0.join("all/e.rec")).expect("a link");
    assert!(Command::new("mkfifo").arg(ground.0.join("all/pipe")).status().is_ok_and(|status| status.success()));
    let (code, printed, said) = ground.ran(&["season", "none.rec", "all"], &[]);
    assert_eq!(code, Some(1));
    let lines: Vec<&str> = said.lines().collect();
    assert_eq!(lines.len(), 4, "{said}");
    for (line, name) in lines.iter().zip(["none.rec: ", "all/a.rec: ", "all/c: it is a link to a folder", "all/pipe: it is neither"]) {
        assert!(line.starts_with(name), "{said}");
    }
    // The rack is file 1 of three, though the fifth of the list.
    assert!(
        printed.starts_with("files        3\n") && printed.contains("first in all/d.rec, file 1\n") && printed.ends_with("unreadable   4  not counted above\n"),
        "{printed}"
    );
    // Of many the first are told.
    for index in 0..30 {
        symlink("nowhere", ground.0.join(format!("all/x{index:02}"))).expect("a link");
    }
    for jobs in ["1", "2"] {
        let (code, printed, said) = ground.ran(&["season", "all", "--jobs", jobs, "--save", "report"], &[]);
        assert_eq!(code, Some(1));
        assert_eq!(said.lines().count(), 21);
        assert!(said.ends_with("\nand 13 more could not be read\n"), "{said}");
        assert!(printed.ends_with("unreadable  33  not counted above\nreport is written\n"), "{printed}");
    }
    // Root may look into every folder.
    fs::create_dir(ground.0.join("shut")).expect("a folder");
    fs::set_permissions(ground.0.join("shut"), fs::Permissions::from_mode(0o0)).expect("permissions");
    let (code, _, said) = ground.ran(&["season", "shut"], &[]);
    assert_eq!(code == Some(1), said.starts_with("shut: "));
    // A name with a newline stays on its line.
    symlink("nowhere", ground.0.join("two\nlines")).expect("a link");
    assert!(ground.ran(&["season", "two\nlines"], &[]).2.starts_with("two?lines: "));
}

/// A load whose explanation doubles with each level.
fn doubling(levels: usize) -> Vec<u8> {
    let mut load = Tables::new();
    let packages: Vec<_> = (0..levels)
        .map(|level| {
            let name = load.name(&format!("level{level}")).expect("a name");
            load.solvable(name, "1").expect("a solvable")
        })
        .collect();
    let root = load.root();
    let top = load.requirement("top", &packages[..1]).expect("a requirement");
    load.core(Clause::Requires(root.into(), top));
    for two in packages.windows(2) {
        let package = load.package(two[0]);
        for text in ["left", "right"] {
            let needed = load.requirement(text, &two[1..]).expect("a requirement");
            load.core(Clause::Requires(package.into(), needed));
        }
    }
    let last = load.package(packages[levels - 1]);
    let none = load.requirement("none", &[]).expect("a requirement");
    load.core(Clause::Requires(last.into(), none));
    load.write().expect("a file")
}

#[test]
fn a_room_grows_as_that_of_explain_does() {
    let ground = Ground::new("room");
    let file = doubling(12);
    ground.lay("long.rec", &file);
    ground.lay("lone.rec", LONE);
    let mut room = vec![0; 64 << 20];
    let answer = explain_edition(&file, 1, 1, &mut room);
    assert!(answer.is_done() && answer.bytes > 1 << 20, "{answer:?}");
    let (_, printed, _) = ground.ran(&["season", "lone.rec", "long.rec", "lone.rec", "--save", "report"], &[]);
    let report = ground.holds_text("report").expect("saved");
    assert!(report.contains("\ndone 3\n") && report.contains(&format!("\nlines {}\n", answer.units + 4)), "{report}");
    assert!(printed.contains("first in long.rec\n"), "{printed}");
    // In less room it is 10, and what was written counts.
    for size in [0, 1, 5_000, 65_536, 300_000, answer.bytes as usize - 1] {
        let answer = explain_edition(&file, 1, 1, &mut room[..size]);
        assert_eq!(answer.number, 10);
        ground.ran(&["season", "long.rec", "--room", &size.to_string(), "--save", "report"], &[]);
        let wanted = [("refused-10", 1), ("lines", answer.units), ("depth", answer.depth), ("named", 1)];
        for (name, number) in wanted {
            assert!(ground.holds_text("report").expect("saved").contains(&format!("\n{name} {number}\n")), "{name} {number}");
        }
    }
}

#[test]
fn a_long_file_is_not_read_to_its_end() {
    let ground = Ground::new("long");
    for (name, length) in [("edge", 65_536), ("over", 65_537), ("huge", 1 << 40)] {
        File::create(ground.0.join(name)).and_then(|file| file.set_len(length)).expect("a file");
    }
    let (code, printed, _) = ground.ran(&["season", "over", "huge"], &[]);
    assert_eq!(code, Some(0));
    assert!(printed.contains("\n   1        2  the length"), "{printed}");
    // 2,048 records of kind 0.
    assert!(ground.ran(&["season", "edge"], &[]).1.contains("\n   2        1  a kind"));
}

#[test]
fn a_report_is_not_saved_over_what_it_is_made_from() {
    let ground = Ground::new("over");
    ground.lay("all/replay.rec", REPLAY);
    ground.lay("all/other", b"a note");
    symlink("all/replay.rec", ground.0.join("link")).expect("a link");
    for out in ["all/replay.rec", "link", "all/other"] {
        let (code, printed, said) = ground.ran(&["season", "all", "--save", out], &[]);
        assert_eq!((code, printed.as_str()), (Some(1), ""), "{said}");
        assert!(said.contains(&format!("{out} is a file of the season")), "{said}");
    }
    assert_eq!(fs::read(ground.0.join("all/replay.rec")).expect("a file"), REPLAY);
    // Another one is replaced whole.
    ground.lay("report", b"what was there before");
    assert_eq!(ground.ran(&["season", "all", "--save", "report"], &[]).0, Some(0));
    let report = ground.holds_text("report").expect("saved");
    assert!(report.starts_with("urzulempa season 1\ndone 1\nrefused-1 1\n"), "{report}");
    let (code, _, said) = ground.ran(&["join", "report", "report", "--save", "report"], &[]);
    assert_eq!(code, Some(1));
    assert!(said.contains("report is report itself"), "{said}");
    assert_eq!(ground.holds_text("report"), Some(report));
    // A place where nothing can be put is told before any file is read.
    for out in ["all", "none/report", "report/report"] {
        let (code, printed, _) = ground.ran(&["season", "all", "--save", out], &[]);
        assert_eq!((code, printed.as_str()), (Some(1), ""), "{out}");
    }
}

#[test]
fn wrong_usage_is_status_64() {
    let ground = Ground::new("usage");
    ground.lay("a.rec", REPLAY);
    for words in [
        &["season"][..],
        &["season", "--jobs", "2"],
        &["season", "a.rec", "--jobs"],
        &["season", "a.rec", "--jobs", "0"],
        &["season", "a.rec", "--jobs", "two"],
        &["season", "a.rec", "--save"],
        &["season", "a.rec", "--save", "-"],
        &["season", "a.rec", "--save", "b", "--save", "c"],
        &["season", "a.rec", "--edition", "3"],
        &["season", "a.rec", "--room", "much"],
        &["season", "a.rec", "--indent"],
        &["season", "-", "-"],
        &["join"],
        &["join", "--save", "b"],
        &["join", "a", "--jobs", "2"],
        &["join", "-", "-"],
    ] {
        let (code, printed, said) = ground.ran(words, REPLAY);
        assert_eq!((code, printed.as_str()), (Some(64), ""), "{words:?}");
        assert!(said.contains("`urzulempa --help` shows the commands"), "{said}");
    }
    assert_eq!((ground.holds_text("b"), ground.holds_text("c")), (None, None));
    assert_eq!(ground.ran(&["join", "none"], &[]).0, Some(1));
    let (_, help, _) = ground.ran(&["--help"], &[]);
    for usage in ["season PATH... [--jobs J] [--save OUT] [--edition E] [--room N] [--json]", "join REPORT... [--save OUT] [--json]"] {
        assert!(help.contains(&format!("\n  urzulempa {usage}\n")), "{help}");
    }
    let (_, help, _) = ground.ran(&["help", "season"], &[]);
    assert!(help.contains("\n  --jobs J\n") && help.contains("\n  --save OUT\n") && help.contains("which is not printed: 67108864 by default\n"), "{help}");
}

#[test]
fn words_are_read_as_those_of_other_commands_and_a_name_may_be_any_bytes() {
    let ground = Ground::new("words");
    let odd = OsStr::from_bytes;
    for name in ["--jobs", "-h"] {
        ground.lay(name, REPLAY);
    }
    fs::create_dir(ground.0.join(odd(b"\xff"))).expect("a folder");
    fs::write(ground.0.join(odd(b"\xff/\xfe.rec")), RACK).expect("a file");
    let (code, printed, said) = ground.ran(&["season", "--jobs=2", "--edition=2", "--save=report", "--", "--jobs", "-h"], &[]);
    assert_eq!((code, said.as_str()), (Some(0), ""));
    assert!(
        printed.starts_with("files       2\ndone        2\n") && printed.contains("first in --jobs, file 0\n") && printed.ends_with("report is written\n"),
        "{printed}"
    );
    for (words, why) in [
        (&["season", "report", "--jobs=0"][..], "--jobs wants a number from 1"),
        (&["season", "--jobs", "1", "--save=-", "--", "-h"], "--save wants the name of one file"),
        (&["season", "--jobs=1"], "season wants PATH"),
        (&["join", "--", "-", "-"], "standard input can be read once only"),
        (&["join", "--jobs=1", "report"], "--jobs=1 is no option of join"),
    ] {
        assert_eq!(ground.ran(words, &[]), (Some(64), String::new(), format!("urzulempa: {why}; `urzulempa --help` shows the commands\n")), "{words:?}");
    }
    // Names that are no UTF-8: a file in a folder, a report that is saved and joined.
    let run = |words: &[&OsStr]| {
        let Output { status, stdout, stderr } = ground.command(&[]).args(words).output().expect("the command runs");
        (status.code(), String::from_utf8_lossy(&stdout).into_owned(), String::from_utf8_lossy(&stderr).into_owned())
    };
    let (code, printed, said) = run(&[odd(b"season"), odd(b"\xff"), odd(b"--save"), odd(b"\xfd.report")]);
    assert_eq!((code, said.as_str()), (Some(0), ""));
    assert!(printed.contains("first in \u{fffd}/\u{fffd}.rec, file 0\n") && printed.ends_with("\u{fffd}.report is written\n"), "{printed}");
    assert_eq!(run(&[odd(b"season"), odd(b"\xff/\xfe.rec"), odd(b"--save=\xfc")]).0, Some(0));
    let bytes = |name: &[u8]| fs::read(ground.0.join(odd(name))).expect("saved");
    assert_eq!(bytes(b"\xfd.report"), bytes(b"\xfc"));
    let (code, printed, _) = run(&[odd(b"join"), odd(b"\xfd.report"), odd(b"\xfc")]);
    assert!(code == Some(0) && printed.starts_with("files         2\n") && printed.ends_with("first in \u{fffd}.report, file 0, of all file 0\n"), "{printed}");
    let (code, _, said) = run(&[odd(b"season"), odd(b"\xff"), odd(b"--save"), odd(b"\xff/\xfe.rec")]);
    assert!(code == Some(1) && said.contains("is a file of the season"), "{said}");
}

/// Runs the command with so many KiB of memory, and no more.
fn with_memory(ground: &Ground, kib: usize, words: &[&str]) -> (Option<i32>, String, String) {
    let script = format!("ulimit -v {kib}; exec \"$0\" \"$@\"");
    let out = Command::new("sh")
        .args(["-c", &script, env!("CARGO_BIN_EXE_urzulempa")])
        .args(words)
        .current_dir(&ground.0)
        .stdin(Stdio::null())
        .output()
        .expect("sh runs");
    (out.status.code(), String::from_utf8_lossy(&out.stdout).into_owned(), String::from_utf8_lossy(&out.stderr).into_owned())
}

#[test]
fn memory_has_a_bound() {
    let ground = Ground::new("memory");
    ground.lay("long.rec", &doubling(30));
    // A room that can't be had is one that is too small.
    let (code, printed, said) = with_memory(&ground, 96 << 10, &["season", "long.rec", "--jobs", "1", "--room", &usize::MAX.to_string()]);
    assert_eq!((code, said.as_str()), (Some(0), ""));
    assert!(printed.contains(" 1  the text does not fit into the room\n"), "{printed}");
    // No more of a file or of a report is read than it may have.
    let (code, printed, said) = with_memory(&ground, 64 << 10, &["season", "/dev/zero", "--jobs", "1"]);
    assert_eq!((code, said.as_str()), (Some(0), ""));
    assert!(printed.contains("\n   1        1  the length"), "{printed}");
    let (code, _, said) = with_memory(&ground, 64 << 10, &["join", "/dev/zero"]);
    assert!(code == Some(2) && said.starts_with("/dev/zero: refused at line 1: "), "{said}");
}

extern "C" {
    fn posix_openpt(flags: i32) -> i32;
    fn grantpt(fd: i32) -> i32;
    fn unlockpt(fd: i32) -> i32;
    fn ptsname_r(fd: i32, name: *mut u8, length: usize) -> i32;
}

/// What the command prints, and what it says to a terminal; its standard input ends when it has said `until`.
fn on_terminal(ground: &Ground, words: &[&str], until: &str) -> (String, String) {
    use std::os::fd::FromRawFd;
    let mut name = [0; 64];
    // SAFETY: the numbers are those of x86-64 Linux (O_RDWR and O_NOCTTY), the name has the length that is said.
    let mut master = unsafe {
        let master = posix_openpt(2 | 0o400);
        assert!(master >= 0 && grantpt(master) == 0 && unlockpt(master) == 0 && ptsname_r(master, name.as_mut_ptr(), name.len()) == 0);
        File::from_raw_fd(master)
    };
    let name: Vec<u8> = name.into_iter().take_while(|&byte| byte != 0).collect();
    let terminal = File::options().read(true).write(true).open(String::from_utf8_lossy(&name).as_ref()).expect("a terminal");
    let mut command = ground.command(words);
    let mut child = command.stderr(terminal).spawn().expect("the command starts");
    // The command's end of the terminal is its own from now on.
    drop(command);
    let mut input = child.stdin.take();
    let (mut seen, mut part) = (Vec::new(), [0; 4096]);
    // The terminal is gone with the command: an error, behind all that was said.
    while let Ok(n @ 1..) = master.read(&mut part) {
        seen.extend(&part[..n]);
        if String::from_utf8_lossy(&seen).contains(until) {
            drop(input.take());
        }
    }
    let Output { stdout, .. } = child.wait_with_output().expect("the command ends");
    (String::from_utf8_lossy(&stdout).into_owned(), String::from_utf8_lossy(&seen).into_owned())
}

#[test]
fn progress_is_shown_on_a_terminal_alone() {
    let ground = Ground::new("progress");
    for index in 0..70 {
        ground.lay(format!("all/{index:02}"), RACK);
    }
    // The last file comes late: what is going on is shown meanwhile, then taken away.
    let words = ["season", "all", "-", "--jobs", "1"];
    let (printed, seen) = on_terminal(&ground, &words, "70 of 71 files");
    assert!(seen.starts_with("\r\x1b[K") && seen.contains(" a second, ") && seen.contains(" left"), "{seen:?}");
    assert!(seen.ends_with("\r\x1b[K"), "{seen:?}");
    assert_eq!(ground.ran(&words, &[]), (Some(0), printed, String::new()));
}
