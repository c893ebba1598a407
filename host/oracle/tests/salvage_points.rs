//! The repair of a file (document 02, order 7), each point on a smallest file.
#![cfg(has_conflict_rs)]

mod common;

use common::{checked, edge_list, lines, mended, salvage, ACCEPTED};
use oracle::draft::{record, Draft};
use oracle::generate::{self, limits};
use oracle::reader::{kind, RECORD};
use oracle::salvage::REPLACEMENT;
use oracle::{samples, Salvaged};

/// What is done to a record.
type Damage<'d> = &'d dyn Fn(&mut [u8; RECORD]);

/// A draft with one of everything; variable 0 is the root, 1 the solvable, 2 the forbid variable, 3 a gate, 4 an auxiliary, 5 another;
/// clause 0 an InstallRoot.
fn ground() -> Draft {
    let mut d = Draft::new();
    d.package("deck", "1");
    d.version_set(0, "<2");
    d.requirement("deck *", &[]);
    d.reason("too old");
    for (origin, names) in [(0, 0), (1, 0), (2, 0), (3, 0), (4, 0), (5, 0)] {
        d.variable(origin, names);
    }
    d.clause(kind::INSTALL_ROOT, false, [0; 3]);
    d
}

/// The ground and these records behind it, and the number of the first of them.
fn behind(records: &[[u8; RECORD]]) -> (Vec<u8>, u16) {
    let mut file = ground().file();
    let place = (file.len() / RECORD) as u16;
    file.extend(records.concat());
    (file, place)
}

/// A file with these of its records replaced.
fn replaced(file: &[u8], records: &[u16]) -> Vec<u8> {
    let mut file = file.to_vec();
    for &r in records {
        let at = usize::from(r) * RECORD;
        file[at..at + RECORD].copy_from_slice(&REPLACEMENT);
    }
    file
}

#[test]
fn the_replacement_is_kind_16_with_flag_0_and_all_else_zero() {
    let mut wanted = [0; 32];
    wanted[0] = 16;
    assert_eq!(REPLACEMENT, wanted);
    assert_eq!(checked(&REPLACEMENT), ACCEPTED);
}

#[test]
fn learnt_in_the_core_is_replaced_and_outside_it_stays() {
    let learnt = |flag| record(kind::LEARNT, flag, [0; 3], "");
    let (file, at) = behind(&[learnt(1), learnt(0), learnt(1)]);
    assert_eq!(checked(&file), (7, 1));
    let wanted = replaced(&file, &[at, at + 2]);
    assert_eq!(mended(&file), Ok((wanted.clone(), vec![at, at + 2], 0)));
    assert_eq!(checked(&wanted), ACCEPTED);
    // Of a malformed one it doesn't matter that 3 comes first.
    let (file, at) = behind(&[record(kind::LEARNT, 1, [1, 0, 0], "")]);
    assert_eq!(checked(&file), (3, at.into()));
    assert_eq!(mended(&file), Ok((replaced(&file, &[at]), vec![at], 0)));
}

/// Clauses of every kind, as they fit behind the ground.
fn clauses() -> [[u8; RECORD]; 10] {
    [
        (kind::INSTALL_ROOT, [0, 0, 0]),
        (kind::EXCLUDED, [1, 0, 0]),
        (kind::LEARNT, [0, 0, 0]),
        (kind::REQUIRES, [1, 0, 0]),
        (kind::LOCK, [1, 1, 0]),
        (kind::FORBID_MULTIPLE, [1, 2, 0]),
        (kind::CONSTRAINS, [1, 1, 0]),
        (kind::CONSTRAINS_PARENT, [0, 4, 0]),
        (kind::CONSTRAINS_EXCLUDED, [1, 4, 0]),
        (kind::ANY_OF, [3, 1, 0]),
    ]
    .map(|(kind, fields)| record(kind, 0, fields, ""))
}

#[test]
fn a_clause_of_any_kind_that_would_get_3_4_or_5_is_replaced() {
    let mut seen = [0; 6];
    for clause in clauses() {
        let (file, _) = behind(&[clause]);
        assert_eq!(mended(&file), Ok((file.clone(), vec![], 0)));
        let damage: [Damage<'_>; 9] = [
            &|r| r[1] = 2,
            &|r| r[31] = 1,
            &|r| r[8] = b'a',
            &|r| r[7] = 200,
            &|r| r[3] = 200,
            &|r| r[5] = 200,
            &|r| r[2] = 5,
            &|r| r[4] = 5,
            &|r| (r[1], r[2], r[4]) = (1, 5, 5),
        ];
        for change in damage {
            let mut bad = clause;
            change(&mut bad);
            // One of them may fit after all: AnyOf takes every origin.
            let (file, at) = behind(&[bad]);
            let (number, place) = checked(&file);
            if ![3, 4, 5].contains(&number) {
                continue;
            }
            assert_eq!(place, at.into());
            seen[number as usize] += 1;
            let wanted = replaced(&file, &[at]);
            assert_eq!(mended(&file), Ok((wanted.clone(), vec![at], 0)));
            assert_eq!(checked(&wanted), ACCEPTED);
        }
    }
    assert!(seen[3..].iter().all(|&n| n >= 7), "{seen:?}");
}

#[test]
fn the_1024th_clause_is_mended_and_the_next_is_6_even_where_3_would_come_first() {
    let full = limits::holding(limits::Table::Clauses, 1_024);
    assert_eq!(mended(&full), Ok((full.clone(), vec![], 0)));
    let mut last = full.clone();
    last[1_023 * RECORD + 1] = 9;
    assert_eq!(
        mended(&last),
        Ok((replaced(&last, &[1_023]), vec![1_023], 0))
    );
    // Sound, 3, 4, 5 and 7 behind 1,024.
    for (kind, flag, fields) in [
        (kind::INSTALL_ROOT, 0, [0; 3]),
        (kind::INSTALL_ROOT, 9, [0; 3]),
        (kind::REQUIRES, 1, [7, 7, 0]),
        (kind::LEARNT, 1, [0; 3]),
        (kind::LEARNT, 1, [1, 0, 0]),
    ] {
        let file = [&full[..], &record(kind, flag, fields, "")].concat();
        assert_eq!(mended(&file), Err((6, 1_024)));
        let read = if flag == 9 || fields == [1, 0, 0] {
            3
        } else {
            6
        };
        assert_eq!(checked(&file), (read, 1_024));
    }
    // Replaced clauses fill the table as well.
    let bad = [record(kind::INSTALL_ROOT, 9, [0; 3], ""); 1_025].concat();
    assert_eq!(mended(&bad), Err((6, 1_024)));
    let (file, list, _) = mended(&bad[..1_024 * RECORD]).expect("1,024 of them are mended");
    assert_eq!(
        (file, list),
        (REPLACEMENT.repeat(1_024), (0..1_024).collect())
    );
    // Kind 2 comes before 6: what is no clause is not counted as one.
    let file = [&full[..], &record(26, 9, [0; 3], "")].concat();
    assert_eq!(mended(&file), Err((2, 1_024)));
}

#[test]
fn kinds_1_to_8_are_refused_with_their_number_and_record() {
    let sound = [
        record(kind::NAME, 0, [1, 0, 0], "panel"),
        record(kind::SOLVABLE, 0, [1, 0, 0], "2"),
        record(kind::VERSION_SET, 0, [1, 0, 0], "<3"),
        record(kind::REQUIREMENT, 0, [1, 0, 0], "panel *"),
        record(kind::CANDIDATE, 0, [0, 0, 0], ""),
        record(kind::REASON, 0, [1, 0, 0], "recalled"),
        record(kind::VARIABLE, 0, [6, 1, 0], ""),
        record(kind::ASSIGNED_BY, 0, [3, 0, 0], ""),
    ];
    // A mended clause before it does not shift the place, and one behind it is not come to.
    let mended_before = record(kind::INSTALL_ROOT, 9, [0; 3], "");
    for good in sound {
        let (file, at) = behind(&[mended_before, good, mended_before]);
        let wanted = replaced(&file, &[at, at + 2]);
        assert_eq!(mended(&file), Ok((wanted, vec![at, at + 2], 0)));
        let damage: [(u64, Damage<'_>); 3] = [
            (3, &|r| r[31] = 200),
            (3, &|r| r[1] = 25),
            (4, &|r| r[2] = 77),
        ];
        for (number, change) in damage {
            let mut bad = good;
            change(&mut bad);
            let (file, at) = behind(&[mended_before, bad, mended_before]);
            assert_eq!(
                mended(&file),
                Err((number, u64::from(at) + 1)),
                "kind {}",
                good[0]
            );
        }
    }
    for table in limits::Table::ALL {
        let full = limits::holding(table, table.limit());
        let past = limits::holding(table, table.limit() + 1);
        assert_eq!(mended(&full), Ok((full.clone(), vec![], 0)), "{table:?}");
        let stopped = mended(&past).expect_err("a full table");
        assert_eq!(stopped, checked(&past), "{table:?}");
        assert_eq!(stopped.0, 6, "{table:?}");
    }
    // Of kinds 1 to 8 it is 3 that comes before 6.
    let mut past = limits::holding(limits::Table::Reasons, 65);
    past[64 * RECORD + 1] = 25;
    assert_eq!(mended(&past), Err((3, 64)));
}

#[test]
fn a_kind_that_does_not_exist_stops_the_repair_zeros_among_them() {
    for kind in [0, 9, 15, 26, 255] {
        let (file, at) = behind(&[record(kind, 9, [9; 3], "")]);
        assert_eq!(mended(&file), Err((2, at.into())));
    }
    assert_eq!(mended(&[0; 32]), Err((2, 0)));
    assert_eq!(mended(&[0; 31]), Ok((vec![], vec![], 31)));
}

#[test]
fn a_record_is_judged_by_the_repaired_ones_before_it() {
    // Clauses 1 to 3, of which 2 is replaced; each gets a record 8 that names it.
    let bad = record(kind::REQUIRES, 1, [77, 0, 0], "");
    let [good, ..] = clauses();
    let names = |variable, clause| record(kind::ASSIGNED_BY, 0, [variable, clause, 0], "");
    let (file, at) = behind(&[good, bad, good, names(3, 1), names(4, 2), names(5, 3)]);
    let wanted = replaced(&file, &[at + 1]);
    assert_eq!(mended(&file), Ok((wanted.clone(), vec![at + 1], 0)));
    assert_eq!(checked(&wanted), ACCEPTED);
    // A replaced clause is one clause and no more.
    let (file, at) = behind(&[good, bad, good, names(3, 4)]);
    assert_eq!(mended(&file), Err((4, u64::from(at) + 3)));
    // What a replaced clause named does not count: a second record 8 is still a second one.
    let (file, at) = behind(&[bad, names(3, 1), names(3, 0)]);
    assert_eq!(mended(&file), Err((4, u64::from(at) + 2)));
}

#[test]
fn clause_numbers_hold() {
    let file = samples::rack();
    let edges = edge_list(&file);
    // A clause outside the core is added in front of all, damaged: as if it had been an InstallRoot.
    let first = file
        .chunks(RECORD)
        .position(|r| r[0] >= 16)
        .expect("a clause");
    let put = |clause: [u8; RECORD]| {
        let at = first * RECORD;
        [&file[..at], &clause, &file[at..]].concat()
    };
    let damaged = put(record(kind::ANY_OF, 0, [999, 999, 0], ""));
    let (wanted, list, _) = mended(&damaged).expect("it can be repaired");
    assert_eq!((&wanted, list), (&put(REPLACEMENT), vec![first as u16]));
    let after = edge_list(&wanted);
    assert_eq!(after.len(), edges.len());
    assert!(after
        .iter()
        .zip(&edges)
        .all(|(a, b)| a.clause == b.clause + 1));
    assert_eq!(lines(&wanted), lines(&file));
}

#[test]
fn a_sound_file_comes_back_unchanged() {
    for (name, file) in samples::all() {
        assert_eq!(mended(&file), Ok((file.clone(), vec![], 0)), "{name}");
    }
    assert_eq!(mended(&[]), Ok((vec![], vec![], 0)));
    // Of a file that gets 8 or 9 too, and of one whose 8 hides a Learnt in the core, that Learnt is replaced.
    let wide = limits::nodes(129);
    assert_eq!(checked(&wide).0, 8);
    assert_eq!(mended(&wide), Ok((wide.clone(), vec![], 0)));
    let hidden = [&wide[..], &record(kind::LEARNT, 1, [0; 3], "")].concat();
    assert_eq!(checked(&hidden).0, 8);
    let at = (wide.len() / RECORD) as u16;
    assert_eq!(mended(&hidden), Ok((replaced(&hidden, &[at]), vec![at], 0)));
}

#[test]
fn a_repaired_file_never_gets_1_to_7_and_repairing_it_again_changes_nothing() {
    let (mut repaired, mut later) = (0, [0; 10]);
    for seed in 0..150 {
        for shape in [
            "double-faults",
            "wrong-origins",
            "fields-changed",
            "cut",
            "records-swapped",
            "unused-bytes",
            "learnt-small",
        ] {
            let file = generate::file(shape, seed).expect("a shape");
            let Ok((good, list, dropped)) = mended(&file) else {
                continue;
            };
            let (number, _) = checked(&good);
            assert!(!(1..=7).contains(&number), "{shape} {seed}: {number}");
            later[number as usize] += 1;
            assert_eq!(mended(&good), Ok((good.clone(), vec![], 0)));
            assert_eq!(good, replaced(&file[..good.len()], &list));
            assert_eq!(good.len() as u64 + dropped, file.len() as u64);
            repaired += usize::from(!list.is_empty() || dropped > 0);
        }
    }
    assert!(
        repaired > 100 && later[9] > 0,
        "{repaired} repaired, {later:?}"
    );
}

#[test]
fn only_a_length_above_65536_is_1() {
    // P2's 33 bytes, of which 32 are a record.
    let file = [&REPLACEMENT[..], &[255]].concat();
    assert_eq!(checked(&file), (1, 0));
    assert_eq!(mended(&file), Ok((REPLACEMENT.to_vec(), vec![], 1)));
    let whole = generate::file("bytes-65536", 1).expect("a shape");
    assert_eq!(whole.len(), 65_536);
    let (kept, list, dropped) = mended(&whole).expect("it can be repaired");
    assert_eq!((kept.len(), dropped), (65_536, 0));
    let (cut, fewer, dropped) = mended(&whole[..65_535]).expect("it can be repaired");
    assert_eq!((&cut[..], dropped), (&kept[..65_504], 31));
    assert!(fewer.len() <= list.len());
    for more in [1, 32] {
        let long = [&whole[..], &vec![0; more]].concat();
        assert_eq!(mended(&long), Err((1, 0)));
    }
    // Before all others.
    assert_eq!(mended(&vec![0; 65_537]), Err((1, 0)));
}

#[test]
fn what_is_dropped_is_not_judged() {
    let file = samples::replay();
    for cut in 1..32 {
        let (kept, list, dropped) = mended(&file[..file.len() - cut]).expect("it can be repaired");
        assert_eq!(
            (&kept[..], list, dropped),
            (&file[..file.len() - 32], vec![], 32 - cut as u64)
        );
        let noise = [&file[..], &vec![255; cut]].concat();
        assert_eq!(mended(&noise), Ok((file.clone(), vec![], cut as u64)));
    }
}

#[test]
fn if_either_place_is_short_it_is_10_and_both_stay() {
    let bad = record(kind::INSTALL_ROOT, 9, [0; 3], "");
    let (file, at) = behind(&[bad, clauses()[1], bad, [0; RECORD]]);
    let file = &file[..file.len() - 27];
    let length = file.len() - 5;
    let wanted = replaced(&file[..length], &[at, at + 2]);
    for (room_len, list_len) in [
        (length - 1, 2),
        (length, 1),
        (length - 1, 1),
        (0, 2),
        (length, 0),
        (0, 0),
        (length + 9, 1),
        (length - 1, 9),
    ] {
        let (mut room, mut list) = (vec![7; room_len], vec![7; list_len]);
        let answer = salvage(file, &mut room, &mut list);
        assert_eq!(
            answer,
            Salvaged {
                number: 10,
                ..Salvaged::default()
            }
        );
        assert!(room.iter().all(|&byte| byte == 7) && list.iter().all(|&n| n == 7));
    }
    for (more, further) in [(0, 0), (1, 0), (0, 1), (40, 3)] {
        let (mut room, mut list) = (vec![7; length + more], vec![7; 2 + further]);
        let answer = salvage(file, &mut room, &mut list);
        assert_eq!(
            answer,
            Salvaged {
                number: 0,
                place: 0,
                bytes: length as u64,
                replaced: 2,
                dropped: 5
            }
        );
        assert_eq!(
            (&room[..length], &list[..2]),
            (&wanted[..], &[at, at + 2][..])
        );
        assert!(room[length..].iter().all(|&byte| byte == 7) && list[2..].iter().all(|&n| n == 7));
    }
    // A refusal of a record, the last one, comes before 10.
    let (file, at) = behind(&[bad, record(kind::NAME, 0, [9, 0, 0], "cue")]);
    assert_eq!(
        salvage(&file, &mut [], &mut []),
        Salvaged {
            number: 4,
            place: u64::from(at) + 1,
            ..Salvaged::default()
        }
    );
    // Nothing is needed for nothing.
    assert_eq!(
        salvage(&[255; 31], &mut [], &mut []),
        Salvaged {
            dropped: 31,
            ..Salvaged::default()
        }
    );
}

#[test]
fn a_repaired_file_may_get_9() {
    // The root's Requires is lost, so that nothing leads to deck.
    let mut d = Draft::new();
    let deck = d.package("deck", "1");
    d.root_needs("deck *", &[deck]);
    let late = d.reason("too old");
    d.excludes(deck, late);
    let mut file = d.file();
    assert_eq!(checked(&file), ACCEPTED);
    let first = file
        .chunks(RECORD)
        .position(|r| r[0] == kind::REQUIRES)
        .expect("a Requires");
    file[first * RECORD + 9] = 1;
    let (good, list, _) = mended(&file).expect("it can be repaired");
    assert_eq!(list, [first as u16]);
    assert_eq!(checked(&good).0, 9);
}
