//! The writer of a record file (document 02, order 1), each point on the smallest rows that show it.

mod common;

use common::same;
use oracle::draft::{record, Draft};
use oracle::generate::limits::{self, holding, Table};
use oracle::reader::{self, kind, RECORD};
use oracle::rng::Rng;
use oracle::{samples, Answer};

type Row = [u8; RECORD];

/// The model's answer, which has to be the port's too, with the same bytes in the whole room.
fn write(rows: &[u8], room: &mut [u8]) -> Answer {
    let mut ours = room.to_vec();
    let port = urzulempa::write(rows, &mut ours);
    let answer = same(oracle::write(rows, room), port);
    assert!(ours == room, "the port leaves another room");
    answer
}

/// The file, in a room that is larger; or a refusal's number and place, which leaves every byte.
fn put(rows: &[Row]) -> Result<Vec<u8>, (u64, u64)> {
    let mut room = vec![7; 65_536 + 33];
    let answer = write(&rows.concat(), &mut room);
    assert_eq!(answer.depth, 0);
    let behind = room.split_off(answer.bytes as usize);
    assert!(behind.iter().all(|&byte| byte == 7));
    if answer.number != 0 {
        assert_eq!((answer.bytes, answer.units), (0, 0));
        return Err((answer.number, answer.place));
    }
    assert_eq!(
        (answer.place, answer.bytes, answer.units),
        (0, 32 * rows.len() as u64, rows.len() as u64)
    );
    Ok(room)
}

fn rows(file: &[u8]) -> Vec<Row> {
    file.chunks_exact(RECORD)
        .map(|row| row.try_into().expect("a row"))
        .collect()
}

/// A row with a text.
fn texted(kind: u8, a: u16, b: u16, text: &str) -> Row {
    record(kind, 0, [a, b, 0], text)
}

/// A row without one.
fn plain(kind: u8, second: u8, fields: [u16; 3]) -> Row {
    record(kind, second, fields, "")
}

const INSTALL: fn() -> Row = || plain(kind::INSTALL_ROOT, 0, [0; 3]);

/// One of everything, in the order of a file: variable 0 is the root, 1 the solvable, 2 the forbid variable, 3 a gate, 4 an
/// auxiliary, 5 another; clause 0 an InstallRoot.
fn ground() -> Vec<Row> {
    let mut d = Draft::new();
    d.package("deck", "1");
    d.version_set(0, "<2");
    d.requirement("deck *", &[0]);
    d.reason("too old");
    for (origin, names) in [(0, 0), (1, 0), (2, 0), (3, 0), (4, 0), (5, 0)] {
        d.variable(origin, names);
    }
    d.clause(kind::INSTALL_ROOT, true, [0; 3]);
    rows(&d.file())
}

#[test]
fn no_rows_are_a_file_of_no_records() {
    assert_eq!(put(&[]), Ok(vec![]));
    assert_eq!(write(&[], &mut []).number, 0);
}

#[test]
fn kinds_ascend_then_clauses_in_their_order_then_kind_8_by_variable() {
    let mut file = ground();
    file.push(plain(kind::ANY_OF, 1, [3, 1, 0]));
    file.push(plain(kind::EXCLUDED, 0, [1, 0, 0]));
    file.extend([
        plain(8, 0, [1, 2, 0]),
        plain(8, 0, [3, 1, 0]),
        plain(8, 0, [5, 0, 0]),
    ]);
    assert_eq!(put(&file), Ok(file.concat()));
    // Backwards, but for the tables with more than one row.
    let back: Vec<Row> = file.iter().rev().copied().collect();
    let table = |kinds: std::ops::RangeInclusive<u8>| {
        file.iter()
            .filter(move |row| kinds.contains(&row[0]))
            .copied()
    };
    let mut mixed: Vec<Row> = back
        .iter()
        .filter(|row| row[0] <= 6 || row[0] == 8)
        .copied()
        .collect();
    mixed.splice(3..3, table(16..=25));
    mixed.splice(1..1, table(7..=7));
    assert_ne!(mixed, file);
    assert_eq!(put(&mixed), Ok(file.concat()));
    // Clauses keep their order whatever their kinds, and are not sorted by them.
    let clauses = [
        plain(25, 1, [0; 3]),
        INSTALL(),
        plain(18, 0, [0; 3]),
        INSTALL(),
    ];
    let variable = plain(7, 0, [0; 3]);
    let wanted = [&[variable][..], &clauses].concat().concat();
    assert_eq!(put(&[&clauses[..], &[variable]].concat()), Ok(wanted));
}

#[test]
fn kind_8_of_one_variable_keeps_its_order_and_the_second_gets_4() {
    let variable = |own| plain(7, 0, [own, 5, 0]);
    let lent = [
        INSTALL(),
        plain(8, 0, [1, 0, 0]),
        variable(0),
        plain(8, 0, [0, 0, 0]),
        INSTALL(),
        variable(1),
        plain(8, 0, [0, 1, 0]),
    ];
    // The file would have two variables, two clauses, 8 of variable 0 to clause 0, then to clause 1.
    assert_eq!(put(&lent), Err((4, 5)));
    // A bad one among equals tells their order: the second of variable 0 names no clause.
    let bad = |first: u16, second: u16| {
        [
            variable(0),
            INSTALL(),
            plain(8, 0, [0, first, 0]),
            plain(8, 0, [0, second, 0]),
        ]
    };
    assert_eq!(put(&bad(0, 9)), Err((4, 3)));
    assert_eq!(put(&bad(9, 0)), Err((4, 2)));
    let mut shaped = bad(0, 0);
    shaped[3][1] = 1;
    assert_eq!(put(&shaped), Err((3, 3)));
    shaped[2][1] = 1;
    assert_eq!(put(&shaped), Err((3, 2)));
    // By the whole 16 bits of the variable, as a number: 256 is behind 2.
    let mut many: Vec<Row> = (0..257).map(variable).collect();
    many.push(INSTALL());
    let assigned = [256, 2, 255, 0].map(|v| plain(8, 0, [v, 0, 0]));
    let sorted = [0, 2, 255, 256].map(|v| plain(8, 0, [v, 0, 0]));
    assert_eq!(
        put(&[&many[..], &assigned].concat()),
        Ok([&many[..], &sorted].concat().concat())
    );
}

#[test]
fn own_numbers_are_not_taken_from_the_rows() {
    let file = ground();
    for number in [0, 1, 5, 255, 256, 65_535] {
        let mut lent = file.clone();
        for row in lent
            .iter_mut()
            .filter(|row| matches!(row[0], 1..=4 | 6 | 7))
        {
            row[2..4].copy_from_slice(&u16::to_le_bytes(number));
        }
        assert_eq!(put(&lent), Ok(file.concat()));
    }
    // All other fields name rows: a of candidates, of clauses and of records 8 counts.
    let at = |kind: u8| {
        file.iter()
            .position(|row| row[0] == kind)
            .expect("one of everything")
    };
    for (kind, number) in [(5, 4), (19, 4), (8, 4)] {
        let mut lent = file.clone();
        if kind == 5 {
            lent[at(5)][2] = 9;
            assert_eq!(put(&lent), Err((number, at(5) as u64)));
        } else {
            lent.push(plain(kind, 0, [9, 0, 0]));
            assert_eq!(put(&lent), Err((number, file.len() as u64)));
        }
    }
}

#[test]
fn a_place_among_the_rows_of_a_kind_is_the_number_that_others_name() {
    let lent = [
        texted(2, 9, 1, "2"),
        texted(1, 9, 0, "panel"),
        texted(2, 9, 0, "1"),
        texted(1, 9, 0, "deck"),
        texted(4, 9, 0, "deck *"),
        plain(5, 0, [0, 0, 0]),
    ];
    let wanted = [
        texted(1, 0, 0, "panel"),
        texted(1, 1, 0, "deck"),
        texted(2, 0, 1, "2"),
        texted(2, 1, 0, "1"),
        texted(4, 0, 0, "deck *"),
        plain(5, 0, [0, 0, 0]),
    ];
    assert_eq!(put(&lent), Ok(wanted.concat()));
}

#[test]
fn a_refusal_has_its_place_in_the_file_and_not_in_the_rows() {
    let file = ground();
    let end = file.len() as u64;
    for (row, number) in [
        (plain(77, 0, [0; 3]), 2),
        (plain(kind::INSTALL_ROOT, 2, [0; 3]), 3),
        (plain(kind::REQUIRES, 1, [6, 0, 0]), 4),
        (plain(kind::LOCK, 1, [1, 0, 0]), 5),
    ] {
        assert_eq!(
            put(&[&[row], &file[..]].concat()),
            Err((number, end - 1)),
            "the first of the clauses"
        );
        assert_eq!(put(&[&file[..], &[row]].concat()), Err((number, end)));
    }
    // A bad name behind all others is record 1, where its table ends.
    assert_eq!(
        put(&[&file[..], &[texted(1, 0, 0, "\u{7f}")]].concat()),
        Err((3, 1))
    );
    // The first in the file is told, not the first in the rows.
    let lent = [
        plain(16, 9, [0; 3]),
        plain(8, 9, [0; 3]),
        texted(6, 0, 0, "r"),
        texted(1, 0, 0, "\t"),
        texted(1, 0, 0, "x"),
    ];
    assert_eq!(put(&lent), Err((3, 0)));
}

#[test]
fn a_kind_that_does_not_exist_stands_among_the_clauses() {
    let file = ground();
    let end = file.len();
    for unknown in (0..=255).filter(|k| !(1..=8).contains(k) && !(16..=25).contains(k)) {
        let row = plain(unknown, 0, [0; 3]);
        assert_eq!(put(&[row]), Err((2, 0)), "{unknown}");
        assert_eq!(
            put(&[&[plain(8, 0, [0; 3]), row], &file[..]].concat()),
            Err((2, end as u64 - 1)),
            "{unknown}"
        );
        // It takes its turn: a bad clause before it comes first, one behind it does not; records 8 come later.
        let bad = plain(16, 7, [0; 3]);
        assert_eq!(put(&[bad, row]), Err((3, 0)));
        assert_eq!(put(&[row, bad]), Err((2, 0)));
        assert_eq!(put(&[plain(8, 3, [0; 3]), row]), Err((2, 0)));
        // A bad record of kinds 1 to 7 comes before it.
        assert_eq!(put(&[row, texted(6, 0, 0, "\n")]), Err((3, 0)));
        // It has no table, so that it is 2 behind 1,024 clauses too, and does not count as one.
        assert_eq!(
            put(&[&vec![INSTALL(); 1_024][..], &[row]].concat()),
            Err((2, 1_024))
        );
    }
}

#[test]
fn every_byte_of_every_record_is_judged_as_the_reader_does() {
    // Only kinds 1, 2, 3, 4, 6 and 7 have bytes that are not looked at, 2 and 3; and a kind may make a row stand elsewhere.
    let file = ground();
    for at in 0..file.len() * RECORD {
        for value in [0, 1, 2, 5, 31, 127, 255] {
            let mut damaged = file.concat();
            damaged[at] = value;
            let arranged = oracle::writing::arranged(&damaged)
                .expect("whole rows")
                .concat();
            let wanted = reader::read(&arranged)
                .map(|_| arranged.clone())
                .map_err(|r| (r.number, r.place));
            assert_eq!(put(&rows(&damaged)), wanted, "byte {at} set to {value}");
        }
    }
}

#[test]
fn rows_that_end_within_one_are_1_before_all_others() {
    for file in [
        ground().concat(),
        vec![0; 64],
        vec![255; 96],
        INSTALL().repeat(3_000),
    ] {
        for cut in [1, 2, 16, 31] {
            let mut room = [7; 40];
            let answer = write(&file[..file.len() - cut], &mut room);
            assert_eq!((answer.number, answer.place), (1, 0));
            assert_eq!(room, [7; 40]);
            assert_eq!(write(&file[..file.len() - cut], &mut []).number, 1);
        }
    }
}

#[test]
fn every_table_one_over_its_limit_is_6_there() {
    use Table::{
        Candidates, Clauses, Names, Reasons, Requirements, Solvables, Variables, VersionSets,
    };
    for (table, kinds) in [
        (Names, 1..=1),
        (Solvables, 2..=2),
        (VersionSets, 3..=3),
        (Requirements, 4..=4),
        (Candidates, 5..=5),
        (Reasons, 6..=6),
        (Variables, 7..=7),
        (Clauses, 16..=25),
    ] {
        let file = rows(&holding(table, table.limit()));
        assert_eq!(put(&file), Ok(file.concat()), "{kinds:?}");
        let last = file
            .iter()
            .rposition(|row| kinds.contains(&row[0]))
            .expect("a row");
        // Wherever it is lent, it is the last of its table; of two more the first is told.
        for at in [0, file.len() / 2, file.len()] {
            let mut lent = file.clone();
            lent.insert(at, file[last]);
            assert_eq!(put(&lent), Err((6, last as u64 + 1)), "{kinds:?}");
            lent.insert(at, file[last]);
            assert_eq!(put(&lent), Err((6, last as u64 + 1)), "{kinds:?}");
        }
        // 3 comes before 6.
        let mut bad = file[last];
        bad[31] = 1;
        assert_eq!(
            put(&[&file[..], &[bad]].concat()),
            Err((3, last as u64 + 1)),
            "{kinds:?}"
        );
    }
    // As many records 8 as variables; one more is a second one, wherever it is lent, and 6 comes before 4.
    let file = rows(&limits::assigned_by(1_024));
    assert_eq!(file.len(), 1_024 + 1 + 1_024);
    assert_eq!(put(&file[..2_048]), Ok(file[..2_048].concat()));
    assert_eq!(
        put(&[&file[..2_048], &[plain(8, 0, [0, 0, 0])]].concat()),
        Err((4, 1_026))
    );
    assert_eq!(
        put(&[&file[..], &[plain(8, 0, [1_023, 0, 0])]].concat()),
        Err((6, 2_049))
    );
}

#[test]
fn one_is_tested_behind_the_records_and_10_behind_it() {
    let d = limits::bytes(&mut Rng::new(1), 65_536);
    let file = rows(&d);
    let sorted = put(&file).expect("it just fits");
    assert_eq!((file.len(), sorted.len()), (2_048, 65_536));
    // A sound record more is 1, with any room; a bad one has its own refusal, also where it comes last of all.
    let long = [&file[..], &[INSTALL()]].concat();
    for size in [0, 65_535, 65_536, 65_568, 70_000] {
        let mut room = vec![7; size];
        assert_eq!(
            write(&long.concat(), &mut room),
            Answer {
                number: 1,
                ..Answer::default()
            }
        );
        assert!(room.iter().all(|&byte| byte == 7));
    }
    assert_eq!(
        put(&[&file[..], &[plain(16, 2, [0; 3])]].concat()),
        Err((3, 2_048))
    );
    assert_eq!(
        put(&[&long[..], &[plain(8, 0, [0, 1_024, 0])]].concat()),
        Err((4, 2_049))
    );
    assert_eq!(
        put(&[&[plain(8, 0, [0, 1_024, 0])], &long[..]].concat()),
        Err((4, 2_049))
    );
    // Room for all but a byte: 10, place 0, nothing written; the length of the file does.
    for (rows, size) in [
        (&file[..], 65_536),
        (&ground()[..], 32 * ground().len()),
        (&[INSTALL()][..], 32),
    ] {
        for short in [1, 2, 31, 32, size] {
            let mut room = vec![7; size - short];
            assert_eq!(
                write(&rows.concat(), &mut room),
                Answer {
                    number: 10,
                    ..Answer::default()
                }
            );
            assert!(room.iter().all(|&byte| byte == 7));
        }
        let mut room = vec![7; size];
        assert_eq!(write(&rows.concat(), &mut room).bytes, size as u64);
    }
    // A refusal comes before 10.
    assert_eq!(write(&plain(99, 0, [0; 3]), &mut []).number, 2);
    assert_eq!(write(&plain(16, 9, [0; 3]), &mut []).number, 3);
}

#[test]
fn far_more_rows_than_a_file_holds() {
    let count = 200_000;
    assert_eq!(put(&vec![INSTALL(); count]), Err((6, 1_024)));
    let name = texted(1, 0, 0, "deck");
    assert_eq!(put(&vec![name; count]), Err((6, 128)));
    // Both: names come first, and one behind 200,000 clauses moves them.
    assert_eq!(
        put(&[&vec![INSTALL(); count][..], &[name]].concat()),
        Err((6, 1_025))
    );
    assert_eq!(
        put(&[&vec![INSTALL(); count][..], &vec![name; 129]].concat()),
        Err((6, 128))
    );
    assert_eq!(
        put(&[&vec![plain(8, 0, [0; 3]); count][..], &[name]].concat()),
        Err((4, 1))
    );
    assert_eq!(put(&vec![[0; RECORD]; count]), Err((2, 0)));
    // A number of more than 16 bits is none: row 65,536 of a kind is not row 0.
    let variables = vec![plain(7, 0, [0, 5, 0]); 65_537];
    assert_eq!(put(&variables), Err((6, 1_024)));
}

#[test]
fn a_learnt_in_the_core_and_a_graph_that_can_not_be_drawn_are_no_hindrance() {
    // 7, 8 and 9 are not of the records.
    let learnt = plain(kind::LEARNT, 1, [0; 3]);
    assert_eq!(put(&[learnt]), Ok(learnt.to_vec()));
    for file in [limits::nodes(129), limits::edges(1_025)] {
        assert_eq!(put(&rows(&file)), Ok(file.clone()));
        assert_eq!(urzulempa::check(&file).number, 8);
    }
}

#[test]
fn a_file_in_order_comes_back_byte_for_byte() {
    for (name, file) in samples::all() {
        assert_eq!(put(&rows(&file)), Ok(file), "{name}");
    }
}
