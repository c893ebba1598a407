//! What if one more package were excluded (document 02, order 10), by conflict.rs alone: the graph with the exclusion behind it against
//! the file with one more clause, over many questions. Nothing of the port is called.
#![cfg(has_conflict_rs)]

use oracle::asked::{agree, Question};
use oracle::generate::what_if;
use oracle::rng::Rng;
use oracle::{asking, check, generate, Refusal};

#[test]
fn twenty_thousand_questions() {
    let tally = asking::questions(20_000, 7).unwrap_or_else(|said| panic!("{said}"));
    let at_least = |number: u64, count: u64| {
        let seen = tally.numbers.get(&number).copied().unwrap_or(0);
        assert!(seen >= count, "{seen} answers {number}: {tally}");
    };
    for (number, count) in [(0, 5_000), (4, 2_000), (8, 100), (9, 50), (17, 500)] {
        at_least(number, count);
    }
    // What makes the two ways differ in numbers is among them, and what makes the labels differ from before.
    assert!(tally.renumbered > 1_000 && tally.reordered > 300, "{tally}");
    assert!(tally.grouped > 1_000 && tally.relabelled > 1_000, "{tally}");
}

#[test]
fn the_limits_are_met_from_both_sides() {
    let mut seen = [0; 18];
    for seed in 0..60 {
        for shape in ["what-if-limits", "what-if-records"] {
            let file = generate::file(shape, seed).expect("a shape");
            assert_eq!(check(&file).number, 0, "{shape} {seed}");
            for question in what_if::questions(&file, &mut Rng::new(seed), 6) {
                let both =
                    agree(&file, question).unwrap_or_else(|said| panic!("{shape} {seed}: {said}"));
                seen[both.err().map_or(0, |refusal| refusal.number) as usize] += 1;
            }
        }
    }
    assert!(
        seen[0] > 100 && seen[4] > 100 && seen[8] > 50 && seen[17] > 10,
        "{seen:?}"
    );
}

/// A comparison that could not fail would be none.
#[test]
fn another_question_is_told_apart() {
    let file = oracle::samples::rack();
    let asked = |solvable, reason| agree(&file, Question { solvable, reason });
    assert!(asked(43, 0).is_ok_and(|both| both.is_ok()));
    let unknown = Refusal {
        number: 4,
        place: 0,
    };
    assert_eq!(asked(45, 0), Ok(Err(unknown)));
    let longer = |solvable| {
        oracle::Problem::read(&file)
            .expect("it is read")
            .longer(solvable, 0)
    };
    let (one, other) = (longer(43), longer(42));
    let nodes = |problem: &oracle::Problem<'_>| problem.model().expect("it is built").nodes();
    assert_ne!(
        oracle::asked::standing(&nodes(&one)),
        oracle::asked::standing(&nodes(&other))
    );
}
