//! Open points of the explanation and the graph text, each on a smallest file.
#![cfg(has_conflict_rs)]

mod common;

use common::{drawn, lines, told};
use oracle::draft::Draft;
use oracle::samples;

#[test]
fn unmerged_parallel_candidates_print_twice() {
    let mut d = Draft::new();
    let deck = d.package("deck", "1");
    d.root_needs("deck *", &[deck, deck]);
    assert_eq!(lines(&d.file())[1..], ["├─ deck 1", "└─ deck 1"]);
}

#[test]
fn version_sets_are_dropped_only_where_equal_neighbours_by_number() {
    let mut d = Draft::new();
    let deck = d.package("deck", "1");
    let panel = d.package("panel", "1");
    d.root_needs("deck *", &[deck]);
    let sets = [d.version_set(1, "<1"), d.version_set(1, "<1")];
    let wish = d.requirement("codec 9", &[]);
    let variable = d.of(deck);
    // Newest first, others dropped: 0, 0, 1, 0.
    for set in [sets[0], sets[1], sets[0]] {
        d.constrains(deck, panel, set);
    }
    d.requires(variable, wish);
    d.constrains(deck, panel, sets[0]);
    let told = lines(&d.file());
    assert_eq!(
        told.iter()
            .filter(|line| line.contains("panel <1,"))
            .count(),
        3
    );
    assert!(told[4].contains("└─ panel"));
}

#[test]
fn the_roots_runs_join_across_dropped_conflict_edges() {
    let mut d = Draft::new();
    let deck = d.package("deck", "1");
    let root = d.root();
    let wish = d.root_needs("deck *", &[deck]);
    d.locks(deck, deck);
    d.requires(root, wish);
    let told = lines(&d.file());
    assert_eq!(told.len(), 3);
    assert!(told[0].starts_with("deck *"));
}

#[test]
fn a_run_is_a_stretch_and_not_all_edges_of_a_requirement() {
    let mut d = Draft::new();
    let deck = d.package("deck", "1");
    let root = d.root();
    let wish = d.root_needs("deck *", &[deck]);
    d.root_needs("codec 9", &[]);
    d.requires(root, wish);
    let told = lines(&d.file());
    assert_eq!(
        told.iter()
            .filter(|line| line.starts_with("deck *"))
            .count(),
        2
    );
}

#[test]
fn refusal_11_comes_before_10_at_the_same_unit() {
    let file = samples::deck_and_panel();
    let (whole, _) = told(&file, 0);
    assert_eq!(
        (whole.number, whole.place, whole.units, whole.depth),
        (11, 0, 5, 2)
    );
    let mut room = vec![0; whole.bytes as usize];
    assert_eq!(common::explain(&file, 0, &mut room), whole);
    room.pop();
    let short = common::explain(&file, 0, &mut room);
    assert_eq!((short.number, short.place), (10, 4));
}

#[test]
fn an_opening_line_that_did_not_fit_gives_no_depth() {
    let file = samples::replay();
    let first_line = 66;
    let opened = 100;
    let short = common::explain(&file, 0, &mut vec![0; opened - 1]);
    assert_eq!(
        (short.number, short.bytes, short.depth),
        (10, first_line, 0)
    );
    let longer = common::explain(&file, 0, &mut vec![0; opened]);
    assert_eq!((longer.number, longer.bytes, longer.depth), (10, 100, 1));
}

#[test]
fn excluded_and_would_constrain_lines_are_no_openings() {
    let mut d = Draft::new();
    let (deck, panel) = (d.package("deck", "1"), d.package("panel", "1"));
    d.root_needs("all *", &[deck, panel]);
    let reason = d.reason("too old");
    let set = d.version_set(0, "<1");
    d.excludes(deck, reason);
    d.constrains(panel, deck, set);
    let (answer, text) = told(&d.file(), 0);
    assert!(text.contains("deck 1 is excluded because too old"));
    assert!(text.contains("panel 1 would constrain"));
    assert_eq!((answer.number, answer.depth), (0, 0));
}

#[test]
fn a_self_requirement_is_11_after_3_lines_with_depth_1() {
    let mut d = Draft::new();
    d.package("other", "1");
    let deck = d.package("deck", "1");
    let wish = d.root_needs("deck *", &[deck]);
    let variable = d.of(deck);
    d.requires(variable, wish);
    let (answer, _) = told(&d.file(), 0);
    assert_eq!((answer.number, answer.place), (11, u64::from(deck)));
    assert_eq!((answer.units, answer.depth), (3, 1));
}

#[test]
fn of_two_exclusions_the_newest_edges_reason_shows() {
    let mut d = Draft::new();
    let deck = d.package("deck", "1");
    d.root_needs("deck *", &[deck]);
    let reasons = [d.reason("older"), d.reason("newer")];
    for reason in reasons {
        d.excludes(deck, reason);
    }
    assert_eq!(lines(&d.file())[1], "└─ deck 1 is excluded because newer");
}

#[test]
fn the_order_of_wording_is_excluded_leaf_forbid_constrains_require() {
    let mut d = Draft::new();
    let deck = d.package("deck", "1");
    let panel = d.package("panel", "1");
    d.root_needs("deck *", &[deck]);
    let line = |d: &Draft| lines(&d.file())[1].trim_start_matches("└─ ").to_string();
    assert_eq!(line(&d), "deck 1");
    d.needs(deck, "panel *", &[panel]);
    assert_eq!(line(&d), "deck 1 would require");
    let set = d.version_set(1, "<1");
    d.constrains(deck, panel, set);
    assert_eq!(line(&d), "deck 1 would constrain");
    d.forbid(deck, 0);
    d.forbid(panel, 0);
    assert_eq!(
        line(&d),
        "deck 1, which conflicts with the versions reported above."
    );
    let reason = d.reason("too old");
    d.excludes(deck, reason);
    assert_eq!(line(&d), "deck 1 is excluded because too old");
}

#[test]
fn a_skipped_holder_of_the_last_mark_leaves_a_lone_branch_mark() {
    let mut d = Draft::new();
    let name = d.name("pair");
    let pair = [d.solvable(name, "1"), d.solvable(name, "2")];
    let lone = d.package("lone", "1");
    d.root_needs("pair *", &pair);
    d.root_needs("both *", &[lone, pair[0], pair[1]]);
    let told = lines(&d.file());
    assert_eq!(
        told[2..],
        [
            "both * can be installed with any of the following options:",
            "├─ lone 1",
        ]
    );
}

#[test]
fn two_parallel_edges_to_unresolved_have_no_viable_options_and_no_children() {
    let mut d = Draft::new();
    let root = d.root();
    let none = d.root_needs("codec 9", &[]);
    assert_eq!(lines(&d.file()), ["No candidates were found for codec 9."]);
    d.requires(root, none);
    assert_eq!(
        lines(&d.file()),
        ["codec 9 cannot be installed because there are no viable options:"]
    );
}

#[test]
fn option_1_indents_the_top_level() {
    let (_, text) = told(&samples::lone_package(), 1);
    assert_eq!(
        text,
        "└─ x * can be installed with any of the following options:\n   └─ x 1\n"
    );
}

#[test]
fn a_plain_call_means_option_1() {
    // "P7's 155 bytes stay the answer to option 0."
    let (flat, text) = told(&samples::replay(), 0);
    assert_eq!((flat.bytes, text.len()), (155, 155));
    assert!(text.starts_with("replay * "));
    for (name, file) in samples::all() {
        for size in [0, 66, 67, 155, 167, 168, 169, 400, 1 << 16] {
            let (mut plain, mut named) = (vec![7; size], vec![7; size]);
            let answer = common::explain_plain(&file, &mut plain);
            assert_eq!(
                answer,
                common::explain(&file, 1, &mut named),
                "{name} {size}"
            );
            assert!(plain == named, "{name} {size}");
            assert!(
                answer.bytes == 0
                    || plain.starts_with("├─ ".as_bytes())
                    || plain.starts_with("└─ ".as_bytes())
            );
        }
    }
}

#[test]
fn depth_2079_is_met_by_a_file_of_666_records() {
    let file = oracle::generate::file("depth-largest", 0).expect("a shape");
    assert_eq!(file.len(), 32 * 666);
    let mut room = vec![0; 32 << 20];
    let answer = common::explain(&file, 0, &mut room);
    assert_eq!(
        (answer.number, answer.units, answer.depth),
        (0, 4_159, 2_079)
    );
}

#[test]
fn units_and_places_pass_65535() {
    let file = oracle::generate::file("dag-exploding-limit", 4).expect("a shape");
    let answer = common::explain(&file, 0, &mut vec![0; 32 << 20]);
    assert_eq!((answer.number, answer.place), (10, answer.units));
    assert!(answer.units > 65_535);
}

#[test]
fn the_empty_graph_text_has_2_units_and_10_bytes() {
    let (answer, text) = drawn(&[], 0);
    assert_eq!(text, "digraph {}");
    assert_eq!((answer.number, answer.bytes, answer.units), (0, 10, 2));
    let short = common::graphviz(&[], 0, &mut [0; 9]);
    assert_eq!((short.number, short.place, short.bytes), (10, 1, 9));
    let shorter = common::graphviz(&[], 0, &mut [0; 8]);
    assert_eq!((shorter.number, shorter.place, shorter.bytes), (10, 0, 0));
}

#[test]
fn simplified_an_edge_to_a_merged_target_is_dropped_whatever_its_label_or_kind() {
    let mut d = Draft::new();
    let name = d.name("deck");
    let pair = [d.solvable(name, "1"), d.solvable(name, "2")];
    d.root_needs("deck *", &pair);
    for one in pair {
        d.locks(pair[0], one);
    }
    let file = d.file();
    assert_eq!(drawn(&file, 0).0.units, 6);
    let (answer, text) = drawn(&file, 1);
    assert_eq!(answer.units, 3);
    assert!(text.contains("[color=red, label=\"already installed\"]"));
}

#[test]
fn a_package_named_reason_can_collide_with_a_reasons_text() {
    let mut d = Draft::new();
    let deck = d.package("reason:", "old");
    d.root_needs("deck *", &[deck]);
    let reason = d.reason("old");
    d.excludes(deck, reason);
    let (_, text) = drawn(&d.file(), 0);
    assert!(text.contains("\"reason: old\" -> \"reason: old\""));
}

#[test]
fn units_of_the_graph_text_do_not_depend_on_its_texts() {
    let mut d = Draft::new();
    let deck = d.package("\"];}\"", "\\");
    d.root_needs("];\"", &[deck]);
    let (answer, text) = drawn(&d.file(), 0);
    assert_eq!(answer.units, 3);
    // Each quote has a backslash before it (document 02, order 5), a backslash stands as it is.
    assert!(text.contains(r#""\"];}\" \"[color=black, label="];\""];"#));
}
