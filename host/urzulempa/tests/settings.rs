//! `settings` and `--settings` as a person runs them: what the README shows.

mod common;

use common::Ground;
use std::fs;
use std::os::unix::fs::symlink;
use urzulempa::{choices, explain, explain_air, explain_edition, graphviz, Edition};

const REPLAY: &[u8] = include_bytes!("../../../samples/replay.rec");
const MERGED_PAIR: &[u8] = include_bytes!("../../../samples/merged-pair.rec");

fn record(version: u8, setting: u8, content: u16) -> [u8; 16] {
    let mut record = [0; 16];
    let [low, high] = content.to_le_bytes();
    record[..4].copy_from_slice(&[version, setting, low, high]);
    record
}

fn done(printed: &str) -> (Option<i32>, String, String) {
    (Some(0), printed.into(), String::new())
}

#[test]
fn settings_are_shown_with_the_record_that_counts() {
    let ground = Ground::new("shown");
    ground.lay("truck.set", &[]);
    assert_eq!(ground.ran(&["settings", "truck.set"], &[]), done("indent 1  default\nsimplify 1  default\nedition 1  default\n"));
    let file = [record(1, 1, 0), record(2, 3, 2), record(2, 1, 1), record(1, 1, 0)].concat();
    ground.lay("truck.set", &file);
    let lines = "indent 0  record 3 (byte 48)\nsimplify 1  default\nedition 2  record 1 (byte 16)\n";
    assert_eq!(ground.ran(&["settings", "truck.set"], &[]), done(lines));
    assert_eq!(ground.ran(&["settings", "-"], &file), done(lines));
    let (code, printed, said) = ground.ran(&["settings", "none.set"], &[]);
    assert_eq!((code, printed.as_str()), (Some(1), ""));
    assert!(said.contains("`urzulempa settings none.set indent 1` makes it"), "{said}");
    assert_eq!(ground.holds("none.set"), None);
}

#[test]
fn a_change_appends_one_record_and_makes_the_file_where_there_is_none() {
    let ground = Ground::new("changed");
    let mut wanted = Vec::new();
    for (words, bytes) in [
        (["indent", "0"], record(1, 1, 0)),
        (["edition", "2"], record(2, 3, 2)),
        (["simplify", "0"], record(1, 2, 0)),
        (["indent", "1"], record(1, 1, 1)),
        (["edition", "1"], record(2, 3, 1)),
        (["simplify", "1"], record(1, 2, 1)),
    ] {
        let line = format!("{}  record {} (byte {})\n", words.join(" "), wanted.len() / 16, wanted.len());
        assert_eq!(ground.ran(&["settings", "truck.set", words[0], words[1]], &[]), done(&line));
        wanted.extend(bytes);
        assert_eq!(ground.holds("truck.set"), Some(wanted.clone()));
        let shown = ground.ran(&["settings", "truck.set"], &[]).1;
        assert!(shown.contains(&line), "{shown}");
    }
    // A link stays one, and what it leads to is changed.
    symlink("truck.set", ground.0.join("link.set")).expect("a link");
    assert_eq!(ground.ran(&["settings", "link.set", "indent", "0"], &[]).0, Some(0));
    assert!(fs::symlink_metadata(ground.0.join("link.set")).expect("a link").is_symlink());
    assert_eq!(ground.holds("truck.set").map(|file| file.len()), Some(wanted.len() + 16));
}

#[test]
fn what_is_refused_is_said_and_nothing_is_changed() {
    let ground = Ground::new("refused");
    let good = record(1, 2, 0);
    for (file, place, more) in [
        (good[..15].to_vec(), "1 at the whole file", "it has 15 bytes; without the last 15 it would have whole records"),
        (good.repeat(257), "1 at the whole file", "it has more than 4096 bytes"),
        ([good, record(3, 1, 0)].concat(), "18 at record 1, byte 16", "it is of version 3, and this release knows 1 to 2"),
        ([good, record(0, 0, 0)].concat(), "18 at record 1, byte 16", "it is of version 0, and this release knows 1 to 2"),
        ([good, record(1, 3, 2)].concat(), "3 at record 1, byte 16", "it sets the edition, which version 1 does not know"),
        (record(2, 4, 0).to_vec(), "3 at record 0, byte 0", "setting 4 does not exist"),
        (record(1, 1, 256).to_vec(), "3 at record 0, byte 0", "indent is 256 and not 0 or 1"),
        (record(2, 3, 0).to_vec(), "3 at record 0, byte 0", "edition is 0 and not 1 or 2"),
        ([&good[..], &[1, 1, 0, 0, 0, 0, 0, 5, 0, 0, 0, 0, 0, 0, 0, 0]].concat(), "3 at record 1, byte 16", "byte 23 is 5 and must be 0"),
    ] {
        ground.lay("truck.set", &file);
        for words in [
            &["settings", "truck.set"][..],
            &["settings", "truck.set", "indent", "0"],
            &["explain", "-", "--settings", "truck.set"],
            &["graph", "-", "--settings", "truck.set"],
        ] {
            let (code, printed, said) = ground.ran(words, REPLAY);
            assert_eq!((code, printed.as_str()), (Some(2), ""), "{words:?}");
            assert!(said.starts_with(&format!("truck.set: refused {place}: ")) && said.contains(more), "{words:?}: {said}");
            assert_eq!(said.contains("truck.set is not changed"), words.len() == 4 && words[0] == "settings", "{said}");
            assert_eq!(ground.holds("truck.set").as_ref(), Some(&file));
        }
    }
    // A good file, and a change that is none; and no file at all.
    for file in [Some(good.to_vec()), None] {
        let _ = fs::remove_file(ground.0.join("truck.set"));
        file.iter().for_each(|bytes| ground.lay("truck.set", bytes));
        for (setting, content, wanted) in [
            ("indent", "2", "indent is 0 or 1"),
            ("simplify", "65536", "simplify is 0 or 1"),
            ("edition", "0", "edition is 1 or 2"),
            ("edition", "18446744073709551615", "edition is 1 or 2"),
        ] {
            let (code, printed, said) = ground.ran(&["settings", "truck.set", setting, content], &[]);
            assert_eq!((code, printed.as_str()), (Some(2), ""));
            assert_eq!(said, format!("refused 3: {setting} {content}: {wanted}; nothing is changed\n"));
            assert_eq!(ground.holds("truck.set"), file);
        }
    }
    // A full one.
    ground.lay("truck.set", &good.repeat(256));
    let (code, _, said) = ground.ran(&["settings", "truck.set", "indent", "0"], &[]);
    assert_eq!(code, Some(2));
    assert!(said.starts_with("refused 10: the file has 4,096 bytes, the most: "), "{said}");
    assert_eq!(ground.holds("truck.set"), Some(good.repeat(256)));
}

#[test]
fn settings_are_defaults_under_the_flags_of_the_line() {
    let ground = Ground::new("defaults");
    let text = |call: &dyn Fn(&mut [u8]) -> urzulempa::Answer| {
        let mut room = vec![0; 1 << 16];
        let n = call(&mut room).bytes as usize;
        String::from_utf8_lossy(&room[..n]).into_owned()
    };
    let told = |edition: u64, option: u64| text(&|room| explain_edition(MERGED_PAIR, edition, option, room));
    let drawn = |option: u64| text(&|room| graphviz(MERGED_PAIR, option, room));
    let explained = |words: &[&str]| ground.ran(&[&["explain", "-"], words].concat(), MERGED_PAIR).1;
    let graph = |words: &[&str]| ground.ran(&[&["graph", "-"], words].concat(), MERGED_PAIR).1;
    // Without a file, and with one where nothing is set.
    ground.lay("none.set", &[]);
    for with in [&[][..], &["--settings", "none.set"]] {
        assert_eq!(explained(with), told(1, 1));
        assert_eq!(graph(with), drawn(1));
    }
    ground.lay("truck.set", &[record(1, 1, 0), record(1, 2, 0), record(2, 3, 2)].concat());
    let with = ["--settings", "truck.set"];
    assert_eq!(explained(&with), told(2, 0));
    assert_eq!(graph(&with), drawn(0));
    for (flags, wanted) in
        [(&["--indent"][..], told(2, 1)), (&["--no-indent"], told(2, 0)), (&["--edition", "1"], told(1, 0)), (&["--edition", "1", "--indent"], told(1, 1))]
    {
        // On either side of them.
        assert_eq!(explained(&[&with, flags].concat()), wanted);
        assert_eq!(explained(&[flags, &with].concat()), wanted);
    }
    assert_eq!(graph(&[&with[..], &["--simplify"]].concat()), drawn(1));
    assert_eq!(graph(&["--no-simplify"]), drawn(0));
    assert_eq!(graph(&["--simplify", "--no-simplify"]), drawn(0));
    assert_ne!(drawn(0), drawn(1));
    // On air edition 1 holds; the other settings do, too.
    let air = ground.ran(&["explain", "-", "--air", "--settings", "truck.set"], REPLAY);
    assert_eq!(air, done(&text(&|room| explain_air(REPLAY, 0, room))));
    assert_eq!(air.1, text(&|room| explain(REPLAY, 0, room)));
    assert_eq!(choices(&ground.holds("truck.set").expect("a file")).map(|c| c.edition), Ok(Edition::Two));
}

#[test]
fn wrong_usage_is_status_64_and_a_file_that_is_not_there_or_none_is_1() {
    let ground = Ground::new("usage");
    ground.lay("truck.set", &[]);
    for words in [
        &["settings"][..],
        &["settings", "truck.set", "indent"],
        &["settings", "truck.set", "indent", "0", "simplify"],
        &["settings", "truck.set", "colour", "1"],
        &["settings", "truck.set", "Indent", "1"],
        &["settings", "truck.set", "indent", "on"],
        &["settings", "truck.set", "indent", "-1"],
        &["settings", "truck.set", "indent", "18446744073709551616"],
        &["settings", "-", "indent", "0"],
        &["settings", "truck.set", "--indent", "0"],
        &["explain", "-", "--settings"],
        &["explain", "-", "--settings", "-"],
        &["explain", "-", "--settings", "truck.set", "--settings", "truck.set"],
        &["check", "-", "--settings", "truck.set"],
        &["nodes", "-", "--settings", "truck.set"],
        &["explain", "-", "--no-simplify"],
        &["graph", "-", "--indent"],
    ] {
        let (code, printed, said) = ground.ran(words, REPLAY);
        assert_eq!((code, printed.as_str()), (Some(64), ""), "{words:?}");
        assert!(said.contains("`urzulempa --help` shows the commands"), "{said}");
    }
    assert_eq!(ground.holds("truck.set"), Some(Vec::new()));
    symlink("nowhere", ground.0.join("loose.set")).expect("a link");
    fs::create_dir(ground.0.join("folder")).expect("a folder");
    for words in [
        &["explain", "-", "--settings", "none.set"][..],
        &["graph", "-", "--settings", "none.set"],
        &["explain", "-", "--settings", "folder"],
        &["settings", "folder"],
        &["settings", "folder", "indent", "0"],
        &["settings", "loose.set", "indent", "0"],
        &["settings", "no/such/folder.set", "indent", "0"],
        &["settings", "/dev/null", "indent", "0"],
    ] {
        let (code, printed, said) = ground.ran(words, REPLAY);
        assert_eq!((code, printed.as_str()), (Some(1), ""), "{words:?}: {said}");
    }
    assert_eq!((ground.holds("none.set"), ground.holds("nowhere")), (None, None));
    // Settings from standard input, where the load comes from a file.
    ground.lay("replay.rec", REPLAY);
    let flat = ground.ran(&["explain", "replay.rec", "--settings", "-"], &record(1, 1, 0));
    assert_eq!(flat, ground.ran(&["explain", "-", "--no-indent"], REPLAY));
}

/// Good records with some bytes changed, cut or with more behind them: shown or refused, and no panic.
#[test]
fn any_file_is_shown_or_refused() {
    let ground = Ground::new("any");
    let mut state = 7u64;
    let mut next = |below: u64| {
        state = state.wrapping_mul(6_364_136_223_846_793_005).wrapping_add(1_442_695_040_888_963_407);
        (state >> 33) % below
    };
    let (mut shown, mut refused) = (0, 0);
    for _ in 0..400 {
        let count = next(5);
        let mut file: Vec<u8> = (0..count).flat_map(|_| [record(1, 1, 0), record(1, 2, 1), record(2, 3, 2), record(2, 1, 1)][next(4) as usize]).collect();
        for _ in 0..next(3) {
            if let Some(byte) = (!file.is_empty()).then(|| next(file.len() as u64)).and_then(|at| file.get_mut(at as usize)) {
                *byte = next(256) as u8;
            }
        }
        if next(4) == 0 {
            file.resize(next(80) as usize, next(4) as u8);
        }
        let (code, printed, said) = ground.ran(&["settings", "-"], &file);
        match choices(&file) {
            Ok(_) => assert_eq!((code, printed.lines().count(), said.as_str()), (Some(0), 3, "")),
            Err(refusal) => {
                assert_eq!((code, printed.as_str()), (Some(2), ""));
                assert!(said.starts_with(&format!("standard input: refused {} at ", refusal.number())) && said.lines().count() == 2, "{said}");
            }
        }
        shown += usize::from(code == Some(0));
        refused += usize::from(code == Some(2));
    }
    assert!(shown > 100 && refused > 100, "{shown} were shown, {refused} refused");
}

/// Two writers at once: each record is whole, none is lost, and the file never passes its length.
#[test]
fn changes_at_once_all_stand_and_the_last_that_fits_is_the_last() {
    let ground = Ground::new("at-once");
    for round in 0..20 {
        // From nothing, and where six records fit.
        for (before, fit) in [(0, 12), (250, 6)] {
            let _ = fs::remove_file(ground.0.join("truck.set"));
            if before > 0 {
                ground.lay("truck.set", &record(1, 2, 0).repeat(before));
            }
            let words = |k: usize| [["indent", "0"], ["indent", "1"], ["edition", "2"]][(k + round) % 3];
            let start = |k: usize| ground.command(&["settings", "truck.set", words(k)[0], words(k)[1]]).spawn().expect("the command starts");
            let children: Vec<_> = (0..12).map(start).collect();
            let codes: Vec<Option<i32>> = children.into_iter().map(|child| child.wait_with_output().expect("it ends").status.code()).collect();
            let made = codes.iter().filter(|code| **code == Some(0)).count();
            assert_eq!((made, codes.iter().filter(|code| **code == Some(2)).count()), (fit, 12 - fit), "{codes:?}");
            let file = ground.holds("truck.set").expect("a file");
            assert_eq!(file.len(), 16 * (before + fit));
            assert!(choices(&file).is_ok(), "{file:?}");
            let mut found: Vec<&[u8]> = file[16 * before..].chunks(16).collect();
            let mut wanted: Vec<[u8; 16]> = (0..12)
                .filter(|&k| codes[k] == Some(0))
                .map(|k| match words(k) {
                    ["indent", "0"] => record(1, 1, 0),
                    ["indent", _] => record(1, 1, 1),
                    _ => record(2, 3, 2),
                })
                .collect();
            found.sort();
            wanted.sort();
            assert_eq!(found, wanted.iter().map(|r| &r[..]).collect::<Vec<_>>());
        }
    }
}
