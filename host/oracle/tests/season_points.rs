//! A season's report (document 02, order 8), each point on the smallest season that shows it. Each call goes to the port too, which has
//! to give the same answer and leave the same report and the same room.
#![cfg(has_conflict_rs)]

mod common;

use common::same;
use oracle::draft::Draft;
use oracle::season::{told, Report, Told, NUMBERS};
use oracle::{samples, Answer};

const DEPTH: usize = 24;
const FIRST: usize = 25;
const NAMED: usize = 26;
const MAX: u64 = u64::MAX;

fn season(report: &mut [u64], file: &[u8], edition: u64, option: u64, room: &mut [u8]) -> Answer {
    let (mut our_report, mut our_room) = (report.to_vec(), room.to_vec());
    let port = urzulempa::season_numbers(&mut our_report, file, edition, option, &mut our_room);
    let model = oracle::season::season(report, file, edition, option, room);
    assert_eq!(our_report, report, "the port leaves another report");
    assert!(our_room == room, "the port leaves other bytes");
    same(model, port)
}

fn join(report: &mut [u64], second: &[u64]) -> Answer {
    let mut ours = report.to_vec();
    let port = urzulempa::join_numbers(&mut ours, second);
    let model = oracle::season::join(report, second);
    assert_eq!(ours, report, "the port leaves another report");
    same(model, port)
}

/// A file with what it is explained by, and the most bytes of text.
#[derive(Clone)]
struct Entry(Vec<u8>, u64, u64, usize);

fn whole(file: Vec<u8>) -> Entry {
    Entry(file, 1, 1, 1 << 14)
}

fn add(report: &mut [u64; NUMBERS], Entry(file, edition, option, room): &Entry) -> Answer {
    season(report, file, *edition, *option, &mut vec![0xee; *room])
}

/// The report of a season, from nothing.
fn over(entries: &[Entry]) -> [u64; NUMBERS] {
    let mut report = [0; NUMBERS];
    for entry in entries {
        assert_ne!(add(&mut report, entry).number, 14);
    }
    report
}

/// A report that is 0 but for these numbers.
fn with(numbers: &[(usize, u64)]) -> [u64; NUMBERS] {
    let mut report = [0; NUMBERS];
    numbers.iter().for_each(|&(at, number)| report[at] = number);
    report
}

const REFUSED: fn(u64) -> Answer = |number| Answer {
    number,
    place: 0,
    bytes: 0,
    units: 0,
    depth: 0,
};

/// Packages that each require the next, the last a package that nobody has: so many are opened one below the other.
fn chain(packages: usize) -> Vec<u8> {
    let mut d = Draft::new();
    let all: Vec<u16> = (0..packages)
        .map(|i| d.package(&format!("p{i}"), "1"))
        .collect();
    d.root_needs("p0 *", &all[..1]);
    for two in all.windows(2) {
        d.needs(two[0], "next *", &two[1..]);
    }
    d.needs(all[packages - 1], "none *", &[]);
    d.file()
}

#[test]
fn a_season_without_files_has_nothing_and_names_none() {
    assert_eq!(over(&[]), [0; NUMBERS]);
    assert_eq!(Report::of(&[]).numbers(), Some([0; NUMBERS]));
}

#[test]
fn what_a_done_file_adds() {
    // The root, unresolved, and two versions alike that need what nobody has: all four are labelled missing.
    let report = over(&[whole(samples::replay())]);
    let wanted = [(0, 1), (19, 4), (20, 4), (21, 1), (22, 4), (23, 3)];
    let wanted = with(&[&wanted[..], &[(DEPTH, 1), (FIRST, 0), (NAMED, 1)]].concat());
    assert_eq!(report, wanted);
    // Twice the same: every count twice, the first of the two is named.
    let twice = over(&[whole(samples::replay()), whole(samples::replay())]);
    for at in 0..24 {
        assert_eq!(twice[at], 2 * report[at]);
    }
    assert_eq!(twice[24..], [1, 0, 1]);
}

#[test]
fn depth_0_is_a_depth_and_its_file_is_named() {
    // An empty file opens nothing, and its graph has the root alone.
    let report = over(&[whole(Vec::new())]);
    assert_eq!(report, with(&[(0, 1), (19, 1), (NAMED, 1)]));
    // Behind two files without a depth it is number 2, and a second one of depth 0 does not take its place.
    let refused = whole(vec![7; 33]);
    let lone = whole(samples::lone_package());
    let entries = [refused.clone(), refused.clone(), lone.clone(), lone.clone()];
    assert_eq!(over(&entries)[24..], [0, 2, 1]);
    // A deeper one does.
    let entries = [lone.clone(), refused.clone(), whole(chain(1)), lone];
    assert_eq!(over(&entries)[24..], [1, 2, 1]);
    // With no file that has a depth none is named.
    assert_eq!(over(&[refused.clone(), refused])[24..], [0, 0, 0]);
}

#[test]
fn the_first_of_equal_depth_is_named() {
    let (two, three) = (whole(chain(2)), whole(chain(3)));
    let entries = [two.clone(), three.clone(), two.clone(), three.clone()];
    assert_eq!(over(&entries)[24..], [3, 1, 1]);
    let (mut first, second) = (over(&entries[..2]), over(&entries[2..]));
    assert_eq!(second[24..], [3, 1, 1]);
    assert_eq!(join(&mut first, &second), Answer::default());
    assert_eq!(first, over(&entries));
    // Of two reports with that depth, too; and the deeper one behind.
    let (mut one, other) = (
        over(&[two.clone(), two.clone()]),
        over(&[two.clone(), three]),
    );
    join(&mut one, &over(&[two]));
    assert_eq!(one[24..], [2, 0, 1]);
    join(&mut one, &other);
    assert_eq!(one[24..], [3, 4, 1]);
}

#[test]
fn the_second_reports_file_numbers_follow_the_firsts() {
    // Refused files are files: three before, so that number 1 becomes 4.
    let first = [
        whole(samples::lone_package()),
        whole(vec![7; 33]),
        whole(samples::lone_package()),
    ];
    let second = [whole(vec![7; 33]), whole(chain(2))];
    let mut both = over(&first);
    assert_eq!(over(&second)[24..], [2, 1, 1]);
    join(&mut both, &over(&second));
    assert_eq!(both[24..], [2, 4, 1]);
    assert_eq!(both, over(&[&first[..], &second].concat()));
    // Where the first names none, the second's file is numbered behind it all the same.
    let mut both = over(&first[1..2]);
    join(&mut both, &over(&[whole(samples::lone_package())]));
    assert_eq!(both[24..], [0, 1, 1]);
    // And the second with no file named leaves the first's.
    let mut both = over(&[whole(chain(2))]);
    join(&mut both, &over(&[whole(vec![7; 33])]));
    assert_eq!(
        both,
        with(&[
            (0, 1),
            (1, 1),
            (19, 4),
            (20, 3),
            (22, 4),
            (23, 5),
            (DEPTH, 2),
            (NAMED, 1)
        ])
    );
}

#[test]
fn a_file_refused_with_10_adds_its_graph_the_lines_it_wrote_and_its_depth() {
    // Room for the first two of three lines of P7, flat: 100 bytes.
    for (room, lines, depth) in [(154, 2, 1), (100, 2, 1), (99, 1, 0), (0, 0, 0)] {
        let entry = Entry(samples::replay(), 1, 0, room);
        let mut report = [0; NUMBERS];
        let answer = add(&mut report, &entry);
        assert_eq!(
            (answer.number, answer.units, answer.depth),
            (10, lines, depth)
        );
        let wanted = [(10, 1), (19, 4), (20, 4), (21, 1), (22, 4), (23, lines)];
        assert_eq!(
            report,
            with(&[&wanted[..], &[(DEPTH, depth), (NAMED, 1)]].concat())
        );
    }
}

#[test]
fn a_file_refused_with_11_adds_its_graph_the_lines_it_wrote_and_its_depth() {
    let mut report = [0; NUMBERS];
    let answer = add(&mut report, &whole(samples::deck_and_panel()));
    assert_eq!((answer.number, answer.units, answer.depth), (11, 5, 2));
    let wanted = [(11, 1), (19, 3), (20, 3), (23, 5), (DEPTH, 2), (NAMED, 1)];
    assert_eq!(report, with(&wanted));
    // By edition 2 the same file is done.
    let report = over(&[Entry(samples::deck_and_panel(), 2, 1, 1 << 14)]);
    assert_eq!(
        report,
        with(&[(0, 1), (19, 3), (20, 3), (23, 5), (DEPTH, 2), (NAMED, 1)])
    );
}

#[test]
fn refusals_1_to_9_and_12_add_nothing_but_themselves() {
    let mut seen = Vec::new();
    for (shape, seed) in (0..40).flat_map(|seed| oracle::generate::shapes().map(move |s| (s, seed)))
    {
        let file = oracle::generate::file(shape, seed).expect("a shape");
        let number = oracle::check(&file).number;
        if number == 0 || seen.contains(&number) {
            continue;
        }
        seen.push(number);
        let mut room = vec![0xee; 4096];
        let mut report = [5; NUMBERS];
        let answer = season(&mut report, &file, 1, 1, &mut room);
        assert_eq!(answer.number, number);
        assert!(room.iter().all(|&byte| byte == 0xee));
        let mut wanted = [5; NUMBERS];
        wanted[number as usize] += 1;
        // 5 in the last number means that a file is named.
        wanted[NAMED] = 1;
        assert_eq!(report, wanted, "refusal {number}");
    }
    seen.sort();
    assert_eq!(seen, [1, 2, 3, 4, 5, 6, 7, 8, 9]);
    for (edition, option) in [(0, 0), (3, 1), (MAX, 0), (1, 2), (2, MAX), (0, 7)] {
        // Before all others: the file would be refused with 1.
        for file in [samples::replay(), vec![7; 33]] {
            let report = over(&[Entry(file, edition, option, 4096)]);
            assert_eq!(report, with(&[(12, 1)]));
        }
    }
}

#[test]
fn the_answer_is_the_files_own() {
    for (name, file) in samples::all() {
        for (edition, option) in [(1, 0), (1, 1), (2, 0), (2, 1), (3, 0), (1, 2)] {
            for size in [0, 60, 200, 1 << 14] {
                let (mut alone, mut room) = (vec![0xee; size], vec![0xee; size]);
                let own = common::explain_edition(&file, edition, option, &mut alone);
                let mut report = with(&[(3, 7)]);
                assert_eq!(
                    season(&mut report, &file, edition, option, &mut room),
                    own,
                    "{name}"
                );
                assert!(alone == room);
            }
        }
    }
}

#[test]
fn done_and_refusals_add_up_to_the_files() {
    let entries: Vec<Entry> = samples::all()
        .into_iter()
        .flat_map(|(_, file)| {
            [
                whole(file.clone()),
                Entry(file.clone(), 2, 0, 70),
                Entry(file, 1, 9, 70),
            ]
        })
        .collect();
    let report = over(&entries);
    assert_eq!(report[..19].iter().sum::<u64>(), entries.len() as u64);
    // Each total is the sum over the files' own answers and graphs.
    let files: Vec<Told> = entries
        .iter()
        .map(|Entry(file, edition, option, room)| {
            told(file, *edition, *option, &mut vec![0; *room])
        })
        .collect();
    assert_eq!(Report::of(&files).numbers(), Some(report));
    // Cut anywhere, and joined.
    for cut in 0..=entries.len() {
        let mut joined = over(&entries[..cut]);
        assert_eq!(join(&mut joined, &over(&entries[cut..])), Answer::default());
        assert_eq!(joined, report);
    }
}

#[test]
fn counts_of_the_graph_are_those_of_the_other_lists() {
    for (shape, seed) in (0..6).flat_map(|seed| oracle::generate::shapes().map(move |s| (s, seed)))
    {
        let file = oracle::generate::file(shape, seed).expect("a shape");
        let report = over(&[Entry(file.clone(), 2, 1, 1 << 14)]);
        if common::check(&file).number != 0 {
            assert_eq!(report[19..], [0; 8]);
            continue;
        }
        let nodes = oracle::Problem::read(&file)
            .ok()
            .and_then(|p| p.model().ok().map(|m| m.nodes()));
        let nodes = nodes.expect("it was drawn");
        let company = |group: u16| nodes.iter().filter(|node| node.group == group).count() > 1;
        let groups = (0u16..)
            .zip(&nodes)
            .filter(|(at, node)| node.group == *at && company(*at))
            .count();
        let missing = nodes.iter().filter(|node| node.missing == 1).count();
        let edges = common::edge_numbers(&file, &mut [0; 5 * 1_024]).bytes / 10;
        let wanted = [nodes.len() as u64, edges, groups as u64, missing as u64];
        assert_eq!(report[19..23], wanted, "shape {shape} seed {seed}");
    }
}

#[test]
fn each_count_that_would_pass_64_bits_is_14_and_nothing_changes() {
    // A file that is done and adds to every total.
    let one = over(&[whole(samples::replay())]);
    let file = samples::replay();
    for at in [0, 19, 20, 21, 22, 23] {
        let mut report = with(&[(at, MAX - one[at])]);
        assert_eq!(
            add(&mut report, &whole(file.clone())).number,
            0,
            "number {at}"
        );
        assert_eq!(report[at], MAX);
        let before = with(&[(at, MAX - one[at] + 1), (DEPTH, 9), (FIRST, 9)]);
        let (mut report, mut room) = (before, vec![0xee; 4096]);
        let mut explained = room.clone();
        assert_eq!(
            season(&mut report, &file, 1, 1, &mut room),
            REFUSED(14),
            "number {at}"
        );
        assert_eq!(report, before, "not even 24 and 25 are cleared");
        // The room is as the explanation leaves it.
        assert_eq!(common::explain(&file, 1, &mut explained).number, 0);
        assert!(room == explained);
    }
    // The refusals, by files that get them.
    for (number, entry) in [
        (1, whole(vec![7; 33])),
        (10, Entry(file.clone(), 1, 1, 9)),
        (11, whole(samples::deck_and_panel())),
        (12, Entry(file, 3, 1, 9)),
    ] {
        let mut report = with(&[(number, MAX - 1)]);
        assert_eq!(add(&mut report, &entry).number, number as u64);
        assert_eq!(report[number], MAX);
        let before = report;
        assert_eq!(add(&mut report, &entry), REFUSED(14));
        assert_eq!(report, before);
    }
}

#[test]
fn a_joining_tests_every_count() {
    for at in 0..24 {
        for (one, other) in [
            (MAX, 0),
            (0, MAX),
            (MAX - 1, 1),
            (1, MAX - 1),
            (1 << 63, (1 << 63) - 1),
        ] {
            let mut report = with(&[(at, one)]);
            assert_eq!(join(&mut report, &with(&[(at, other)])), Answer::default());
            assert_eq!(report, with(&[(at, MAX)]), "number {at}");
        }
        for (one, other) in [(MAX, 1), (1, MAX), (MAX, MAX), (1 << 63, 1 << 63)] {
            let before = with(&[(at, one), (DEPTH, 3), (FIRST, 4), (NAMED, 7)]);
            let mut report = before;
            assert_eq!(
                join(&mut report, &with(&[(at, other)])),
                REFUSED(14),
                "number {at}"
            );
            assert_eq!(report, before);
        }
    }
}

#[test]
fn the_number_of_files_is_a_count() {
    // No number passes its width alone; together they do, in one report or in both.
    for (one, other) in [(0, 1), (3, 18), (17, 13), (12, 0)] {
        let mut report = with(&[(one, MAX)]);
        assert_eq!(join(&mut report, &with(&[(other, 1)])), REFUSED(14));
        let mut report = with(&[(one, MAX - 1)]);
        assert_eq!(join(&mut report, &with(&[(other, 1)])), Answer::default());
        let before = with(&[(one, MAX), (other, 1)]);
        let mut report = before;
        assert_eq!(
            join(&mut report, &[0; NUMBERS]),
            REFUSED(14),
            "even with no file more"
        );
        assert_eq!(report, before);
        let mut report = [0; NUMBERS];
        assert_eq!(join(&mut report, &before), REFUSED(14));
        assert_eq!(report, [0; NUMBERS]);
    }
    // A file more than 2^64 - 1, whatever it gets.
    let mut report = with(&[(5, MAX)]);
    assert_eq!(
        add(&mut report, &whole(samples::lone_package())),
        REFUSED(14)
    );
    assert_eq!(add(&mut report, &whole(vec![7; 33])), REFUSED(14));
    assert_eq!(report, with(&[(5, MAX)]));
    let mut report = with(&[(5, MAX - 1)]);
    assert_eq!(add(&mut report, &whole(samples::lone_package())).number, 0);
    assert_eq!(report[24..], [0, MAX - 1, 1]);
}

#[test]
fn the_file_number_is_tested_where_it_ends_up_in_the_result() {
    let second = with(&[(0, 1), (DEPTH, 5), (FIRST, MAX - 2), (NAMED, 1)]);
    // Two files before: the last that fits. Three: one too many.
    let mut report = with(&[(2, 2)]);
    assert_eq!(join(&mut report, &second), Answer::default());
    assert_eq!(report[24..], [5, MAX, 1]);
    for before in [
        with(&[(2, 3)]),
        with(&[(2, 3), (DEPTH, 9), (FIRST, 1)]),
        with(&[(2, 3), (DEPTH, 4), (FIRST, 1), (NAMED, 1)]),
    ] {
        let mut report = before;
        assert_eq!(join(&mut report, &second), REFUSED(14));
        assert_eq!(report, before);
    }
    // The first is as deep: its own number stays, and the other is not looked at.
    for depth in [5, 6, MAX] {
        let mut report = with(&[(2, 3), (DEPTH, depth), (FIRST, MAX), (NAMED, 1)]);
        assert_eq!(join(&mut report, &second), Answer::default());
        assert_eq!(report[24..], [depth, MAX, 1]);
    }
    // Nor where the second names none.
    let mut report = with(&[(2, 3)]);
    assert_eq!(
        join(&mut report, &with(&[(DEPTH, 5), (FIRST, MAX)])),
        Answer::default()
    );
    assert_eq!(report, with(&[(2, 3)]));
}

#[test]
fn a_lent_report_may_hold_anything_in_its_last_three_numbers() {
    // 26 is 0: 24 and 25 read as 0, and are written so.
    let stray = with(&[(0, 2), (DEPTH, 9), (FIRST, 8)]);
    let mut report = stray;
    assert_eq!(join(&mut report, &[0; NUMBERS]), Answer::default());
    assert_eq!(report, with(&[(0, 2)]));
    let mut report = [0; NUMBERS];
    join(&mut report, &stray);
    assert_eq!(report, with(&[(0, 2)]));
    // A file of depth 0 is then the first that has one.
    let mut report = stray;
    assert_eq!(add(&mut report, &whole(samples::lone_package())).number, 0);
    assert_eq!(report[24..], [0, 2, 1]);
    let mut report = stray;
    add(&mut report, &whole(vec![7; 33]));
    assert_eq!(report, with(&[(0, 2), (1, 1)]));
    // 26 is neither 0 nor 1: named, and written as 1.
    for named in [1, 2, 7, 256, 1 << 32, 1 << 63, MAX] {
        let lent = with(&[(0, 2), (DEPTH, 9), (FIRST, 8), (NAMED, named)]);
        let mut report = lent;
        join(&mut report, &[0; NUMBERS]);
        assert_eq!(report[24..], [9, 8, 1]);
        let mut report = with(&[(4, 1)]);
        join(&mut report, &lent);
        assert_eq!(report[24..], [9, 9, 1]);
        let mut report = lent;
        add(&mut report, &whole(chain(3)));
        assert_eq!(report[24..], [9, 8, 1]);
    }
}

#[test]
fn a_report_of_another_length_is_10_before_all_else() {
    for length in (0..=60).filter(|&length| length != NUMBERS) {
        let lent: Vec<u64> = (0..length as u64).map(|n| n | 1 << 63).collect();
        for (edition, option) in [(1, 1), (3, 1), (1, 2)] {
            let (mut report, mut room) = (lent.clone(), vec![0xee; 300]);
            let answer = season(&mut report, &samples::replay(), edition, option, &mut room);
            assert_eq!(answer, REFUSED(10));
            assert!(report == lent && room.iter().all(|&byte| byte == 0xee));
        }
        let mut report = lent.clone();
        assert_eq!(join(&mut report, &[0; NUMBERS]), REFUSED(10));
        assert_eq!(join(&mut report, &[MAX; NUMBERS]), REFUSED(10), "before 14");
        assert_eq!(join(&mut report, &lent), REFUSED(10));
        assert_eq!(report, lent);
        let mut report = [3; NUMBERS];
        assert_eq!(join(&mut report, &lent), REFUSED(10));
        assert_eq!(report, [3; NUMBERS]);
    }
}

#[test]
fn joining_is_associative_only_where_no_joining_gets_14() {
    let r = with(&[(DEPTH, 1), (NAMED, 1)]);
    let s = with(&[(0, 1)]);
    let t = with(&[(FIRST, MAX), (NAMED, 1)]);
    let mut left = r;
    assert_eq!(join(&mut left, &s), Answer::default());
    assert_eq!(join(&mut left, &t), Answer::default());
    let mut right = s;
    assert_eq!(join(&mut right, &t), REFUSED(14));
    assert_eq!(left, with(&[(0, 1), (DEPTH, 1), (NAMED, 1)]));
}
