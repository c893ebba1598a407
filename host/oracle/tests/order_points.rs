//! What the order of clauses decides (docs/FORMAT.md, "For who writes files"). The port is asked, and conflict.rs where it is there.

use oracle::draft::Draft;
use oracle::reader::kind;

fn text(file: &[u8]) -> String {
    let (answer, text) = urzulempa::grown(1 << 20, |room| urzulempa::explain_plain(file, room));
    assert!(answer.is_done(), "{answer:?}");
    if oracle::AVAILABLE {
        let mut room = vec![0; text.len()];
        assert_eq!(oracle::explain_plain(file, &mut room).number, 0);
        assert!(room == text);
    }
    String::from_utf8(text).expect("texts are ASCII but for the lines")
}

/// The file with the two records at these places swapped.
fn swapped(file: &[u8], one: usize, other: usize) -> Vec<u8> {
    let mut records: Vec<&[u8]> = file.chunks(32).collect();
    records.swap(one, other);
    records.concat()
}

/// Of two versions the first in the core is the one that conflicts, the other the one that can be had. The wrong order of the two
/// records 21 of samples/rack.rec says the opposite, and nothing refuses it.
#[test]
fn the_order_of_the_core_decides_the_blame() {
    let rack = include_bytes!("../../../samples/rack.rec");
    let forbids: Vec<usize> = rack
        .chunks(32)
        .enumerate()
        .filter(|(_, record)| record[0] == 21)
        .map(|(at, _)| at)
        .collect();
    let [first, second] = forbids[..] else {
        panic!("{forbids:?}")
    };
    let turned = swapped(rack, first, second);
    let (right, wrong) = (text(rack), text(&turned));
    for (text, had, blamed) in [
        (&right, "driver 11", "driver 12"),
        (&wrong, "driver 12", "driver 11"),
    ] {
        let lines: Vec<&str> = text.lines().collect();
        assert!(
            lines
                .iter()
                .any(|line| line.ends_with(&format!("\u{2500} {had}"))),
            "{text}"
        );
        let conflicts = lines
            .iter()
            .filter(|line| line.contains("which conflicts with the versions reported above"));
        assert!(
            conflicts.clone().count() > 0 && conflicts.clone().all(|line| line.contains(blamed)),
            "{text}"
        );
    }
    let can = |text: &str, what: &str| text.contains(&format!("\u{2500} {what} can be installed"));
    assert_eq!(
        (can(&right, "panel 5"), can(&right, "deck *")),
        (true, false)
    );
    assert_eq!(
        (can(&wrong, "panel 5"), can(&wrong, "deck *")),
        (false, true)
    );
}

/// A record 8 names its clause by the place among all clauses, those outside the core counted: with two of them swapped it names the
/// other one, without a refusal.
#[test]
fn a_record_8_counts_clauses_in_that_order() {
    let mut d = Draft::new();
    let (deck, panel) = (d.package("deck", "1"), d.package("panel", "1"));
    d.root_needs("deck *", &[deck]);
    d.root_needs("panel *", &[panel]);
    let (gate, requirement) = (d.gate(), d.requirement("codec 9", &[]));
    d.requires(gate, requirement);
    let sides = [d.of(deck), d.of(panel)];
    let by = sides.map(|side| d.clause(kind::ANY_OF, false, [gate, side, 0]));
    d.assign(gate, by[0]);
    let file = d.file();
    let any_of: Vec<usize> = file
        .chunks(32)
        .enumerate()
        .filter(|(_, record)| record[0] == kind::ANY_OF)
        .map(|(at, _)| at)
        .collect();
    assert!(text(&file).contains("deck 1 would require"));
    let turned = swapped(&file, any_of[0], any_of[1]);
    assert!(text(&turned).contains("panel 1 would require"));
    assert!(!text(&turned).contains("deck 1 would require"));
}
