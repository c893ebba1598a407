//! Open points of the reader, each on a smallest file.
#![cfg(has_conflict_rs)]

mod common;

use common::{checked, told, ACCEPTED};
use oracle::draft::{record, Draft};
use oracle::reader::kind;

/// A draft with one of everything; variable 0 is the root, 1 the solvable, 2 the forbid variable,
/// 3 a gate, 4 an auxiliary, 5 another.
fn ground() -> Draft {
    let mut d = Draft::new();
    d.package("deck", "1");
    d.version_set(0, "<2");
    d.requirement("deck *", &[]);
    d.reason("too old");
    for (origin, names) in [(0, 0), (1, 0), (2, 0), (3, 0), (4, 0), (5, 0)] {
        d.variable(origin, names);
    }
    d
}

/// What the reader says of one record behind a draft; its place is taken for granted.
fn number_behind(d: &Draft, bytes: [u8; 32]) -> u64 {
    let mut file = d.file();
    let place = (file.len() / 32) as u64;
    file.extend_from_slice(&bytes);
    let (number, at) = checked(&file);
    assert_eq!(at, if number == 0 { 0 } else { place });
    number
}

#[test]
fn byte_1_of_kinds_5_7_and_8_is_unused() {
    let mut d = ground();
    d.clause(kind::INSTALL_ROOT, false, [0; 3]);
    for (kind, fields) in [(5, [0, 0, 0]), (7, [6, 0, 0]), (8, [0, 0, 0])] {
        assert_eq!(number_behind(&d, record(kind, 0, fields, "")), 0);
        assert_eq!(number_behind(&d, record(kind, 1, fields, "")), 3);
    }
}

#[test]
fn c_of_an_origin_that_names_nothing_must_be_0() {
    for origin in [0, 3, 4, 5] {
        assert_eq!(
            number_behind(&ground(), record(7, 0, [6, origin, 0], "")),
            0
        );
        assert_eq!(
            number_behind(&ground(), record(7, 0, [6, origin, 1], "")),
            3
        );
    }
}

#[test]
fn the_origin_is_the_whole_16_bits() {
    assert_eq!(number_behind(&ground(), record(7, 0, [6, 256, 0], "")), 3);
    assert_eq!(number_behind(&ground(), record(7, 0, [6, 257, 0], "")), 3);
}

#[test]
fn fields_of_16_and_18_are_unused() {
    for kind in [kind::INSTALL_ROOT, kind::LEARNT] {
        for field in 0..3 {
            let mut fields = [0; 3];
            fields[field] = 1;
            assert_eq!(number_behind(&ground(), record(kind, 0, fields, "")), 3);
        }
    }
}

#[test]
fn a_malformed_core_learnt_is_3_and_not_7() {
    assert_eq!(checked(&record(kind::LEARNT, 1, [0; 3], "")), (7, 0));
    assert_eq!(checked(&record(kind::LEARNT, 1, [1, 0, 0], "")), (3, 0));
}

#[test]
fn within_a_record_2_comes_before_3() {
    let mut bytes = record(9, 255, [9; 3], "");
    assert_eq!(number_behind(&ground(), bytes), 2);
    bytes[0] = kind::LOCK;
    assert_eq!(number_behind(&ground(), bytes), 3);
}

#[test]
fn within_a_record_3_comes_before_6_4_and_5() {
    let mut full = ground();
    full.reasons.resize(64, "x".to_string());
    assert_eq!(number_behind(&full, record(6, 0, [64, 0, 1], "x")), 3);
    assert_eq!(number_behind(&full, record(6, 0, [64, 0, 0], "x")), 6);
    assert_eq!(number_behind(&ground(), record(17, 2, [99, 0, 0], "")), 3);
    assert_eq!(number_behind(&ground(), record(17, 1, [99, 0, 0], "")), 4);
    assert_eq!(number_behind(&ground(), record(17, 2, [0, 0, 0], "")), 3);
    assert_eq!(number_behind(&ground(), record(17, 1, [0, 0, 0], "")), 5);
}

#[test]
fn within_a_record_6_comes_before_4_and_5() {
    let mut full = ground();
    full.reasons.resize(64, "x".to_string());
    assert_eq!(number_behind(&full, record(6, 0, [9, 0, 0], "x")), 6);
    let mut full = ground();
    let install = full.clauses.len() as u16;
    full.clause(kind::INSTALL_ROOT, true, [0; 3]);
    full.clauses
        .resize(1_024, full.clauses[usize::from(install)]);
    assert_eq!(number_behind(&full, record(17, 1, [99, 0, 0], "")), 6);
    assert_eq!(number_behind(&full, record(17, 1, [0, 0, 0], "")), 6);
}

#[test]
fn within_a_record_4_comes_before_5() {
    // a is of a wrong origin, and b or c is not defined.
    assert_eq!(number_behind(&ground(), record(17, 1, [0, 9, 0], "")), 4);
    assert_eq!(number_behind(&ground(), record(22, 1, [2, 2, 9], "")), 4);
    assert_eq!(number_behind(&ground(), record(22, 1, [2, 2, 0], "")), 5);
}

#[test]
fn record_8_takes_any_variable_and_any_earlier_clause() {
    let mut d = ground();
    assert_eq!(number_behind(&d, record(8, 0, [0, 0, 0], "")), 4);
    for kind in [kind::INSTALL_ROOT, kind::LEARNT] {
        let clause = d.clause(kind, false, [0; 3]);
        for variable in 0..6 {
            let bytes = record(8, 0, [variable, clause, 0], "");
            assert_eq!(number_behind(&d, bytes), 0);
        }
    }
}

#[test]
fn a_second_record_8_of_a_variable_is_4_even_if_identical() {
    let mut d = ground();
    let clause = d.clause(kind::INSTALL_ROOT, false, [0; 3]);
    d.assign(3, clause);
    assert_eq!(number_behind(&d, record(8, 0, [3, clause, 0], "")), 4);
}

#[test]
fn the_table_of_record_8_cannot_be_full() {
    assert_eq!(
        checked(&oracle::generate::limits::assigned_by(1_023)),
        ACCEPTED
    );
    let file = oracle::generate::limits::assigned_by(1_024);
    assert_eq!(file.len(), 32 * 2_049);
    assert_eq!(checked(&file), (1, 0));
}

#[test]
fn candidates_and_partners_after_a_clause_count() {
    let mut d = Draft::new();
    let deck = d.package("deck", "1");
    let gate = d.gate();
    let root = d.root();
    let wish = d.requirement("deck *", &[]);
    d.requires(gate, wish);
    let mut file = d.file();
    file.extend_from_slice(&record(kind::ANY_OF, 1, [gate, root, 0], ""));
    file.extend_from_slice(&record(kind::CANDIDATE, 0, [wish, deck, 0], ""));
    let (answer, text) = told(&file, 0);
    assert_eq!((answer.number, answer.units), (0, 2));
    assert!(text.ends_with("└─ deck 1\n"));
}

#[test]
fn places_of_7_and_8_count_clauses_outside_the_core() {
    let mut d = Draft::new();
    d.clause(kind::LEARNT, false, [0; 3]);
    d.clause(kind::INSTALL_ROOT, false, [0; 3]);
    d.core(kind::LEARNT, [0; 3]);
    assert_eq!(checked(&d.file()), (7, 2));

    let mut d = Draft::new();
    let name = d.name("wide");
    let all: Vec<u16> = (0..127).map(|i| d.solvable(name, &i.to_string())).collect();
    d.clause(kind::LEARNT, false, [0; 3]);
    d.root_needs("wide 1", &all[..126]);
    d.root_needs("wide *", &all);
    assert_eq!(checked(&d.file()), (8, 2));
}

#[test]
fn of_7_and_8_the_first_core_clause_decides() {
    let mut d = Draft::new();
    let name = d.name("wide");
    let all: Vec<u16> = (0..127).map(|i| d.solvable(name, &i.to_string())).collect();
    d.root_needs("wide *", &all);
    d.core(kind::LEARNT, [0; 3]);
    assert_eq!(checked(&d.file()), (8, 0));
    d.clauses.swap(0, 1);
    assert_eq!(checked(&d.file()), (7, 0));
}

#[test]
fn the_option_is_64_bits_wide_and_tested_first() {
    for option in [2, 1 << 32, (1 << 32) + 1, u64::MAX] {
        assert_eq!(told(&[0; 33], option).0.number, 12);
        assert_eq!(common::drawn(&[0; 33], option).0.number, 12);
    }
    assert_eq!(told(&[0; 33], 1).0.number, 1);
}
