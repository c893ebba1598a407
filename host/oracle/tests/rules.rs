//! Refusal 11 against the rules of `fmt_graph` themselves, which know no refusal.
#![cfg(has_conflict_rs)]

use oracle::{generate, Problem};

/// Ten times what any of these files needs to end, which the test holds too.
const LINES: u64 = 4_000;

#[test]
fn refusal_11_is_given_exactly_where_the_rust_does_not_end() {
    let (mut ended, mut endless) = (0, 0);
    let (mut room, mut rules_room) = (vec![0; 1 << 20], vec![0; 1 << 20]);
    for shape in [
        "world-small",
        "world-cycles",
        "cycle-unmerged",
        "cycle-merged",
        "soup",
        "runs",
    ] {
        for seed in 0..400 {
            let file = generate::file(shape, seed).expect("a shape");
            let Ok(problem) = Problem::read(&file) else {
                continue;
            };
            let Ok(model) = problem.model() else {
                continue;
            };
            let answer = model.explain(false, &mut room);
            let rules = model.rules(false, &mut rules_room, LINES);
            let at = answer.bytes as usize;
            assert_eq!(room[..at], rules_room[..at], "{shape} {seed}");
            match answer.number {
                0 => {
                    assert!(rules.ended && 10 * rules.lines < LINES, "{shape} {seed}");
                    assert_eq!((rules.bytes, rules.lines), (answer.bytes, answer.units));
                    ended += 1;
                }
                11 => {
                    assert!(!rules.ended, "{shape} {seed}");
                    endless += 1;
                }
                // The text is longer than the room, and may end or not.
                number => assert_eq!(number, 10),
            }
        }
    }
    assert!(
        ended > 500 && endless > 100,
        "{ended} ended, {endless} did not"
    );
}

#[test]
fn depth_stays_within_the_bound_and_meets_it() {
    for seed in 0..20 {
        let file = generate::file("depth-bound", seed).expect("a shape");
        let problem = Problem::read(&file).expect("the reader takes the file");
        let model = problem.model().expect("the graph can be built");
        let answer = model.explain(false, &mut vec![0; 1 << 20]);
        assert_eq!((answer.number, answer.depth), (0, model.depth_bound()));
    }
}

/// Levels are requirement and package in turn, so that the text alone shows the depth too.
#[test]
fn depth_is_half_the_level_of_the_deepest_opening_line() {
    let mut room = vec![0; 1 << 14];
    for shape in [
        "world-small",
        "world-middle",
        "cycle-unmerged",
        "cycle-merged",
        "dag-deep",
    ] {
        for seed in 0..200 {
            let file = generate::file(shape, seed).expect("a shape");
            let answer = oracle::explain(&file, 1, &mut room);
            let text = std::str::from_utf8(&room[..answer.bytes as usize]).expect("whole units");
            let level = |line: &str| {
                let marks = |c: &char| "├└│─ ".contains(*c);
                line.chars().take_while(marks).count() as u64 / 3
            };
            let opened = text.lines().filter(|line| line.ends_with(" would require"));
            let depth = opened.map(|line| level(line) / 2).max().unwrap_or(0);
            assert_eq!(answer.depth, depth, "{shape} {seed}");
        }
    }
}

#[test]
fn every_case_of_document_01_holds() {
    for case in oracle::cases::all() {
        assert_eq!(case.gives, case.wanted, "{}: {}", case.name, case.states);
    }
}

#[test]
fn a_shape_and_a_seed_give_one_file() {
    for shape in generate::shapes() {
        assert_eq!(
            generate::file(shape, 7),
            generate::file(shape, 7),
            "{shape}"
        );
    }
    assert_eq!(generate::file("no such shape", 7), None);
}

#[test]
fn every_refusal_occurs_among_generated_files() {
    assert_eq!(oracle::survey::run(3_000, 1), Ok(0));
}
