//! Short display of long groups (document 02, order 6), each point on a smallest file.
#![cfg(has_conflict_rs)]

mod common;

use common::{drawn, lines, list, told, told_edition};
use oracle::draft::Draft;
use oracle::samples::{builds, Line};

/// What a line says behind the text of a package, and the line below it.
fn said(line: Line) -> (&'static str, Option<&'static str>) {
    match line {
        Line::Excluded => (" is excluded because it was recalled", None),
        Line::Bare => ("", None),
        Line::Forbidden => (", which conflicts with the versions reported above.", None),
        Line::Constraining => (
            " would constrain",
            Some("   └─ x <1, which conflicts with any installable versions previously reported"),
        ),
        Line::Requiring => (
            " would require",
            Some("   └─ driver 12, for which no candidates were found."),
        ),
    }
}

/// So many builds merge and are shown by this text, in one line, whatever the line says.
fn show(members: usize, text: &str) {
    for line in Line::ALL {
        let file = builds(members, line);
        let told = lines(&file);
        let asked = told.iter().position(|line| line.starts_with("codec *"));
        let asked = asked.expect("the builds are asked for");
        let (end, below) = said(line);
        assert_eq!(told[asked + 1], format!("└─ {text}{end}"), "{line:?}");
        if let Some(below) = below {
            assert_eq!(told[asked + 2], below, "{line:?}");
        }
        let shown = told.iter().filter(|line| line.contains("9.0-b"));
        assert_eq!(shown.count(), 1, "{line:?}");
        let nodes = list(&file);
        let first = nodes
            .iter()
            .position(|node| node.number == 1)
            .expect("a build");
        let alike = nodes.iter().filter(|node| usize::from(node.group) == first);
        assert_eq!(alike.count(), members, "{line:?}");
    }
}

#[test]
fn five_are_all_shown() {
    show(
        5,
        "codec 9.0-b001 | 9.0-b002 | 9.0-b003 | 9.0-b004 | 9.0-b005",
    );
}

#[test]
fn six_are_all_shown() {
    show(
        6,
        "codec 9.0-b001 | 9.0-b002 | 9.0-b003 | 9.0-b004 | 9.0-b005 | 9.0-b006",
    );
}

#[test]
fn of_seven_the_first_three_and_the_last_are_shown() {
    show(7, "codec 9.0-b001 | 9.0-b002 | 9.0-b003 | ... | 9.0-b007");
}

#[test]
fn of_eight_the_first_three_and_the_last_are_shown() {
    show(8, "codec 9.0-b001 | 9.0-b002 | 9.0-b003 | ... | 9.0-b008");
}

#[test]
fn of_120_the_first_three_and_the_last_are_shown() {
    show(120, "codec 9.0-b001 | 9.0-b002 | 9.0-b003 | ... | 9.0-b120");
}

/// In each room from none to one more than the text takes, the whole lines that fit are written and nothing else.
fn every_room(file: &[u8]) {
    let (whole, text) = told(file, 0);
    let text = text.as_bytes();
    for room in 0..=text.len() + 1 {
        let mut lent = vec![0xee; room];
        let answer = common::explain(file, 0, &mut lent);
        let fits = &text[..room.min(text.len())];
        let bytes = fits
            .iter()
            .rposition(|&b| b == b'\n')
            .map_or(0, |at| at + 1);
        let units = fits.iter().filter(|&&b| b == b'\n').count() as u64;
        if bytes == text.len() {
            assert_eq!(answer, whole);
        } else {
            let found = (answer.number, answer.place, answer.bytes, answer.units);
            assert_eq!(found, (10, units, bytes as u64, units), "room {room}");
        }
        assert_eq!(lent[..bytes], text[..bytes]);
        assert!(lent[bytes..].iter().all(|&byte| byte == 0xee));
    }
}

#[test]
fn refusal_10_is_read_over_the_shown_text_in_every_room() {
    for members in [6, 7, 8, 120] {
        for line in Line::ALL {
            let file = builds(members, line);
            assert_eq!(told(&file, 0).1.contains(" | ... | "), members > 6);
            every_room(&file);
        }
    }
}

#[test]
fn the_longest_text_of_a_group_has_136_bytes() {
    // 24 of the name, a space, four versions of 24, two bars of 3 and 9 of the dots; all of six versions take more.
    for (members, longest) in [(6, 24 + 1 + 6 * 24 + 5 * 3), (7, 136), (100, 136)] {
        let mut d = Draft::new();
        let name = d.name("a name of 24 bytes, like");
        let all: Vec<u16> = (0..members)
            .map(|build| d.solvable(name, &format!("version of 24 bytes, {build:03}")))
            .collect();
        d.root_needs("x *", &all);
        d.root_needs("codec 9", &[]);
        let told = lines(&d.file());
        let line = told
            .iter()
            .find(|line| line.starts_with("└─ "))
            .expect("a line");
        assert_eq!(line.len() - "└─ ".len(), longest);
    }
}

#[test]
fn the_last_is_the_last_in_node_order_after_unresolved_went() {
    let mut d = Draft::new();
    let name = d.name("deck");
    let all: Vec<u16> = ('a'..='g')
        .map(|v| d.solvable(name, &v.to_string()))
        .collect();
    d.root_needs("deck *", &all);
    // g was added last and took the number of unresolved.
    assert_eq!(lines(&d.file())[1], "└─ deck g | a | b | ... | f");
    d.root_needs("codec 9", &[]);
    let told = lines(&d.file());
    assert!(told.contains(&"└─ deck a | b | c | ... | g".to_string()));
}

#[test]
fn equal_versions_count_and_a_version_may_look_like_the_dots() {
    let shown = |versions: &[&str]| {
        let mut d = Draft::new();
        let name = d.name("deck");
        let all: Vec<u16> = versions.iter().map(|v| d.solvable(name, v)).collect();
        d.root_needs("deck *", &all);
        d.root_needs("codec 9", &[]);
        let told = lines(&d.file());
        let line = told.into_iter().find(|line| line.starts_with("└─ "));
        line.expect("a line").trim_start_matches("└─ ").to_string()
    };
    assert_eq!(shown(&["1"; 6]), "deck 1 | 1 | 1 | 1 | 1 | 1");
    assert_eq!(shown(&["1"; 7]), "deck 1 | 1 | 1 | ... | 1");
    assert_eq!(shown(&["..."; 5]), "deck ... | ... | ... | ... | ...");
    assert_eq!(
        shown(&["1", "2", "3", "...", "9"]),
        "deck 1 | 2 | 3 | ... | 9"
    );
    assert_eq!(shown(&[" | "; 7]), "deck  |  |  |  |  |  | ... |  | ");
}

#[test]
fn seven_of_one_name_that_do_not_merge_are_shown_one_by_one() {
    let mut d = Draft::new();
    let name = d.name("deck");
    let all: Vec<u16> = ('a'..='g')
        .map(|v| d.solvable(name, &v.to_string()))
        .collect();
    d.root_needs("deck *", &all);
    for &deck in &all {
        d.needs(deck, "codec 9", &[]);
    }
    let told = lines(&d.file());
    assert_eq!(told.iter().filter(|line| line.contains("deck ")).count(), 8);
    assert!(!told.iter().any(|line| line.contains("...")));
}

/// P10 with a group of so many: "root needs x, x needs a merged pair, each of the pair needs x".
fn merged_cycle(members: usize) -> Vec<u8> {
    let mut d = Draft::new();
    let x = d.package("x", "1");
    let name = d.name("pair");
    let group: Vec<u16> = (0..members)
        .map(|v| d.solvable(name, &v.to_string()))
        .collect();
    let x_any = d.root_needs("x *", &[x]);
    d.needs(x, "pair *", &group);
    for member in group {
        let member = d.of(member);
        d.requires(member, x_any);
    }
    d.file()
}

/// P9 beside a group of so many that deck needs as well.
fn unmerged_cycle(members: usize) -> Vec<u8> {
    let mut d = Draft::new();
    let deck = d.package("deck", "1");
    let panel = d.package("panel", "1");
    let name = d.name("codec");
    let group: Vec<u16> = (0..members)
        .map(|v| d.solvable(name, &v.to_string()))
        .collect();
    let deck_any = d.root_needs("deck *", &[deck]);
    d.needs(deck, "codec *", &group);
    d.needs(deck, "panel *", &[panel]);
    let driver = d.requirement("driver 12", &[]);
    for member in group {
        let member = d.of(member);
        d.requires(member, driver);
    }
    let panel = d.of(panel);
    d.requires(panel, deck_any);
    d.file()
}

#[test]
fn depth_order_and_11_do_not_depend_on_how_a_group_is_shown() {
    for members in [2, 6, 7, 8, 100] {
        let (answer, _) = told(&merged_cycle(members), 0);
        assert_eq!((answer.number, answer.units, answer.depth), (0, 7, 3));
        let (answer, _) = told_edition(&merged_cycle(members), 2);
        assert_eq!((answer.number, answer.units, answer.depth), (0, 5, 2));
    }
    // Which text a group has is all that the lines differ in.
    let plain = |members| {
        let (answer, text) = told(&unmerged_cycle(members), 0);
        let lines = text
            .lines()
            .map(|line| match line.split_once("codec 0 | ") {
                Some((before, after)) => {
                    let end = after.rfind(" would require").expect("the group is opened");
                    format!("{before}codec{}", &after[end..])
                }
                None => line.to_string(),
            });
        let number = (answer.number, answer.place, answer.units, answer.depth);
        (number, lines.collect::<Vec<_>>())
    };
    let pair = plain(2);
    assert_eq!(pair.0, (11, 0, 8, 2));
    assert_eq!(
        pair.1
            .iter()
            .filter(|line| line.contains("codec would require"))
            .count(),
        1
    );
    for members in [6, 7, 8, 100] {
        assert_eq!(plain(members), pair);
    }
}

#[test]
fn the_graph_text_shows_one_package_a_node_as_before() {
    for members in [6, 7, 120] {
        let file = builds(members, Line::Excluded);
        let (answer, text) = drawn(&file, 1);
        // The opening, the root to x and to the first build, x to unresolved, that build to its reason, the closing brace.
        assert_eq!((answer.number, answer.units), (0, 6));
        assert!(text.contains("\"<root>\" -> \"codec 9.0-b001\"[color=black, label=\"codec *\"];"));
        assert!(!text.contains("b002") && !text.contains(" | "));
        let (answer, text) = drawn(&file, 0);
        assert_eq!(answer.units as usize, 2 * members + 4);
        assert!(!text.contains(" | "));
    }
}
