//! The explanation by edition (document 02, order 11), each point on a smallest file, and what the order states of all files.
#![cfg(has_conflict_rs)]

mod common;

use std::collections::HashSet;

use common::{explain_edition, lines, told_edition};
use oracle::draft::Draft;
use oracle::reader;
use oracle::{generate, samples, Edge, Edition, Problem};

/// The lines of edition 2 with option 0, which has to be done.
fn second(file: &[u8]) -> Vec<String> {
    let (answer, lines) = told_edition(file, 2);
    assert_eq!(answer.number, 0);
    lines
}

#[test]
fn p9_ends_after_5_lines_with_depth_2() {
    let file = samples::deck_and_panel();
    let (answer, text) = told_edition(&file, 2);
    assert_eq!((answer.number, answer.place), (0, 0));
    assert_eq!((answer.units, answer.depth), (5, 2));
    let (first, cut) = told_edition(&file, 1);
    assert_eq!((first.number, first.place), (11, 0));
    assert_eq!((first.units, first.depth), (5, 2));
    // The line that 11 stands before is the one that edition 2 skips.
    assert_eq!(text, cut);
}

#[test]
fn p10_has_5_lines_and_depth_2() {
    let file = samples::merged_pair();
    let (answer, text) = told_edition(&file, 2);
    assert_eq!((answer.number, answer.units, answer.depth), (0, 5, 2));
    let (first, longer) = told_edition(&file, 1);
    assert_eq!((first.number, first.units, first.depth), (0, 7, 3));
    assert_eq!(text, longer[..5]);
}

/// The root asks twice for one package that is shown by `made`.
fn asked_twice(made: impl Fn(&mut Draft, u16)) -> Vec<u8> {
    let mut d = Draft::new();
    let deck = d.package("deck", "1");
    d.root_needs("deck *", &[deck]);
    d.root_needs("deck 1", &[deck]);
    made(&mut d, deck);
    d.file()
}

/// What a line says behind its marks.
fn said(line: &str) -> &str {
    line.trim_start_matches(|c| "├└│─ ".contains(c))
}

#[test]
fn every_shown_package_is_reported_whatever_its_line() {
    let leaf = asked_twice(|_, _| {});
    let excluded = asked_twice(|d, deck| {
        let reason = d.reason("too old");
        d.excludes(deck, reason);
    });
    let forbidden = asked_twice(|d, deck| {
        let other = d.package("deck", "2");
        d.root_needs("deck 2", &[other]);
        d.forbid(deck, 0);
        d.forbid(other, 0);
    });
    let constraining = asked_twice(|d, deck| {
        let panel = d.package("panel", "1");
        d.root_needs("panel *", &[panel]);
        let set = d.version_set(1, "<1");
        d.constrains(deck, panel, set);
    });
    let opened = asked_twice(|d, deck| {
        d.needs(deck, "codec 9", &[]);
    });
    for (file, line) in [
        (leaf, "deck 1"),
        (excluded, "deck 1 is excluded because too old"),
        (
            forbidden,
            "deck 1, which conflicts with the versions reported above.",
        ),
        (constraining, "deck 1 would constrain"),
        (opened, "deck 1 would require"),
    ] {
        let shown = |text: &[String]| text.iter().filter(|l| said(l) == line).count();
        assert_eq!(shown(&lines(&file)), 2, "{line}");
        assert_eq!(shown(&second(&file)), 1, "{line}");
        // Its requirement's line stays in both places, with nothing below it in the second.
        let asked = |text: &[String]| text.iter().filter(|l| l.starts_with("deck ")).count();
        assert_eq!(asked(&lines(&file)), asked(&second(&file)));
    }
}

#[test]
fn a_parallel_candidate_is_skipped_and_takes_the_last_mark_along() {
    let mut d = Draft::new();
    let deck = d.package("deck", "1");
    d.root_needs("deck *", &[deck, deck]);
    assert_eq!(second(&d.file())[1..], ["├─ deck 1"]);
}

#[test]
fn a_package_is_reported_when_shown_and_not_when_it_waits() {
    let mut d = Draft::new();
    let (one, two) = (d.package("one", "1"), d.package("two", "1"));
    let two_any = d.requirement("two *", &[two]);
    d.root_needs("both *", &[one, two]);
    let variable = d.of(one);
    d.requires(variable, two_any);
    let file = d.file();
    let text = lines(&file);
    assert_eq!(
        text.iter().map(|l| said(l)).collect::<Vec<_>>()[3..],
        ["two 1", "two 1"]
    );
    // The first show is below `one`, while `two` still waits beside it.
    assert_eq!(second(&file), text[..4]);
    assert!(text[1].starts_with("├─ one 1") && text[3].starts_with("│     └─ two 1"));
}

#[test]
fn packages_of_one_text_are_told_apart_by_their_number() {
    let mut d = Draft::new();
    let name = d.name("deck");
    let (bare, needy) = (d.solvable(name, "1"), d.solvable(name, "1"));
    d.root_needs("deck *", &[bare]);
    d.root_needs("deck 1", &[needy]);
    d.needs(needy, "codec 9", &[]);
    let file = d.file();
    assert_eq!(second(&file), lines(&file));
    assert_eq!(
        second(&file)
            .iter()
            .filter(|l| said(l).starts_with("deck 1") && l.starts_with('└'))
            .count(),
        2
    );
}

#[test]
fn a_group_is_one_package_and_unmerged_versions_are_two() {
    let pair_of = |first: &[usize], second: &[usize]| {
        let mut d = Draft::new();
        let name = d.name("pair");
        let pair = [d.solvable(name, "1"), d.solvable(name, "2")];
        let of = |places: &[usize]| places.iter().map(|&at| pair[at]).collect::<Vec<_>>();
        d.root_needs("pair *", &of(first));
        d.root_needs("pair 1", &of(second));
        let codec = d.needs(pair[0], "codec 9", &[]);
        let other = d.of(pair[1]);
        d.requires(other, codec);
        d.file()
    };
    let opened = |text: &[String]| {
        let lines = text.iter().filter(|l| l.ends_with(" would require"));
        lines.map(|l| said(l).to_string()).collect::<Vec<_>>()
    };
    let merged = pair_of(&[0, 1], &[0, 1]);
    assert_eq!(opened(&lines(&merged)), ["pair 1 | 2 would require"]);
    assert_eq!(second(&merged), lines(&merged));
    let unmerged = pair_of(&[0, 1], &[0]);
    let [one, two] = ["pair 1 would require", "pair 2 would require"];
    assert_eq!(opened(&second(&unmerged)).len(), 2);
    assert_eq!(opened(&lines(&unmerged)).len(), 3);
    assert!(opened(&second(&unmerged))
        .iter()
        .all(|l| l == one || l == two));
}

#[test]
fn twelve_comes_before_all_others_and_leaves_the_room() {
    let bad_length = vec![0; 33];
    let endless = samples::deck_and_panel();
    for file in [&bad_length, &endless, &Vec::new()] {
        for edition in [0, 1, 2, 3, 257, (1 << 32) | 2, u64::MAX] {
            for option in [0, 1, 2, 1 << 32, u64::MAX] {
                let good = (1..=2).contains(&edition) && option < 2;
                let mut room = [0xee; 40];
                let answer = explain_edition(file, edition, option, &mut room);
                if !good {
                    let said = (answer.number, answer.place, answer.bytes);
                    assert_eq!((said, answer.units, answer.depth), ((12, 0, 0), 0, 0));
                }
                if !good || file.len() == 33 {
                    assert_eq!(room, [0xee; 40]);
                }
                if good && file.len() == 33 {
                    assert_eq!(answer.number, 1);
                }
            }
        }
    }
}

/// "State once, over the edition, what the two share: order, wording, labels, refusal 10."
#[test]
fn ten_leaves_the_whole_lines_that_fit_in_every_room() {
    for file in [
        samples::deck_and_panel(),
        samples::merged_pair(),
        samples::replay(),
        samples::unequal_labels(),
    ] {
        for option in [0, 1] {
            let mut whole = vec![0; 1 << 14];
            let done = explain_edition(&file, 2, option, &mut whole);
            assert_eq!(done.number, 0);
            whole.truncate(done.bytes as usize);
            for size in 0..=whole.len() + 1 {
                let mut room = vec![0xee; size];
                let answer = explain_edition(&file, 2, option, &mut room);
                let fits = &whole[..size.min(whole.len())];
                let end = fits
                    .iter()
                    .rposition(|&b| b == b'\n')
                    .map_or(0, |at| at + 1);
                let units = fits.iter().filter(|&&b| b == b'\n').count() as u64;
                let number = if size < whole.len() { 10 } else { 0 };
                let place = if number == 10 { units } else { 0 };
                let said = (answer.number, answer.place, answer.bytes, answer.units);
                assert_eq!(said, (number, place, end as u64, units));
                assert_eq!(room[..end], whole[..end]);
                assert!(room[end..].iter().all(|&byte| byte == 0xee));
            }
        }
    }
}

/// A room that holds every text of edition 2 here.
const ROOM: usize = 1 << 20;

#[test]
fn edition_2_ends_and_opens_at_most_g_plus_u_packages_in_the_whole_text() {
    let (mut room, mut first) = (vec![0; ROOM], vec![0; ROOM]);
    let (mut endless, mut met, mut fewer) = (0, 0, 0);
    for index in 0..3_000 {
        let (shape, seed) = generate::pick(index, 11);
        let file = generate::file(shape, seed).expect("a shape");
        let Ok(problem) = Problem::read(&file) else {
            continue;
        };
        let Ok(model) = problem.model() else { continue };
        let answer = model.explain_edition(Edition::Two, false, &mut room);
        assert_eq!((answer.number, answer.place), (0, 0), "{shape} {seed}");
        let text = std::str::from_utf8(&room[..answer.bytes as usize]).expect("whole units");
        let opening = |text: &str| {
            let lines = text.lines().filter(|l| l.ends_with(" would require"));
            lines.count() as u64
        };
        let (opened, bound) = (opening(text), model.openings_bound());
        assert!(opened <= bound, "{shape} {seed}: {opened} above {bound}");
        assert!(answer.depth <= opened, "{shape} {seed}");
        // The rules without the guard of refusal 11 say the same.
        let rules = model.rules_edition(Edition::Two, false, &mut first, u64::MAX);
        assert!(rules.ended, "{shape} {seed}");
        assert_eq!((rules.bytes, rules.openings), (answer.bytes, opened));
        met += u64::from(opened == bound && bound > 1);
        // In edition 1 the same bound does not hold.
        let old = model.explain_edition(Edition::One, false, &mut first);
        assert_eq!(old, model.explain(false, &mut room));
        let cut = std::str::from_utf8(&first[..old.bytes as usize]).expect("whole units");
        fewer += u64::from(old.number == 0 && opening(cut) > bound);
        endless += u64::from(old.number == 11);
    }
    assert!(
        endless > 30 && met > 30 && fewer > 5,
        "{endless} without end in edition 1, {met} met the bound, {fewer} are above it in edition 1"
    );
}

#[test]
fn where_nothing_goes_round_edition_2_is_edition_1_without_what_was_shown() {
    let mut room = vec![0; ROOM];
    let mut shorter = 0;
    let mut whole = 0;
    for index in 0..4_000 {
        let (shape, seed) = generate::pick(index, 11);
        let file = generate::file(shape, seed).expect("a shape");
        let Ok(problem) = Problem::read(&file) else {
            continue;
        };
        let (Ok(model), Ok(edges)) = (problem.model(), problem.edges()) else {
            continue;
        };
        if !told_apart(&file) || goes_round(model.nodes().len(), &edges) {
            continue;
        }
        let mut text = |edition| {
            let answer = model.explain_edition(edition, true, &mut room);
            let text = String::from_utf8(room[..answer.bytes as usize].to_vec());
            (answer.number, text.expect("whole units are UTF-8"))
        };
        let (number, first) = text(Edition::One);
        if number == 10 {
            continue;
        }
        assert_eq!(number, 0, "{shape} {seed}");
        let (_, second) = text(Edition::Two);
        assert_eq!(pruned(&first), second, "{shape} {seed}");
        whole += 1;
        shorter += u64::from(second.len() < first.len());
    }
    assert!(
        whole > 300 && shorter > 60,
        "{shorter} of {whole} are shorter"
    );
}

/// A text with its top level indented: requirements, and sets under "would constrain", stand at odd levels, packages at even ones.
/// Each package that was shown before goes, with all below it.
fn pruned(text: &str) -> String {
    let mut shown = HashSet::new();
    let mut below = usize::MAX;
    let mut out = String::new();
    for line in text.lines() {
        let level = line.chars().take_while(|c| "├└│─ ".contains(*c)).count() / 3;
        if level > below {
            continue;
        }
        below = usize::MAX;
        if level % 2 == 0 && !shown.insert(said(line).to_string()) {
            below = level;
            continue;
        }
        out += line;
        out += "\n";
    }
    out
}

/// Whether the lines of two packages differ, and no text can be taken for marks or for another line's end.
fn told_apart(file: &[u8]) -> bool {
    let tables = reader::read(file).expect("the reader takes the file");
    let plain = |text: &str| text.bytes().all(|b| b.is_ascii_alphanumeric() || b == b':');
    let mut seen = HashSet::new();
    let mut named = tables.solvables.iter();
    let apart = named.all(|s| {
        let name = tables.names[usize::from(s.name)];
        plain(name) && plain(s.text) && seen.insert((name, s.text))
    });
    apart
        && tables
            .requirements
            .iter()
            .all(|text| !text.starts_with(' '))
}

/// Whether the graph has a cycle: nodes that nothing leads to are taken away until there are none.
fn goes_round(nodes: usize, edges: &[Edge]) -> bool {
    let mut left: HashSet<u16> = (0..nodes as u16).collect();
    loop {
        let entered = |node: &u16| {
            edges
                .iter()
                .any(|e| e.target == *node && left.contains(&e.source))
        };
        let free: Vec<u16> = left.iter().copied().filter(|node| !entered(node)).collect();
        if free.is_empty() {
            return !left.is_empty();
        }
        free.iter().for_each(|node| {
            left.remove(node);
        });
    }
}
