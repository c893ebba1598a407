//! What a solver would write (src/writer.rs) is what the samples hold, and is read back as it was meant; what no file holds is an error
//! that names it. conflict.rs is asked where it is there, the port always.

use oracle::generate;
use oracle::writer::{
    again, replay, write, Clause, ClauseId, Conflicting, NameId, Requirement, SolvableId, StringId,
    VariableId, VariableOrigin, VersionSetId,
};
use urzulempa_adapter::{Error, Table};

#[test]
fn the_writer_makes_the_sample() {
    assert_eq!(
        replay().expect("a load that fits"),
        include_bytes!("../../../samples/replay.rec")
    );
}

/// Written again table by table, a file means the same: only its records' places may change.
#[test]
fn a_file_written_again_gives_the_same_text_graph_and_nodes() {
    let mut seen = 0;
    for index in 0..3_000 {
        let (shape, seed) = generate::pick(index, 11);
        let Some(file) = generate::file(shape, seed) else {
            continue;
        };
        let Ok(written) = again(&file) else { continue };
        let written = written.expect("what was in a file fits one");
        seen += 1;
        same(&file, &written, &format!("{shape} {seed}"));
        assert_eq!(again(&written), Ok(Ok(written.clone())), "{shape} {seed}");
    }
    assert!(seen > 1_000, "{seen} files were accepted by the reader");
}

fn same(file: &[u8], written: &[u8], whence: &str) {
    let (mut a, mut b) = (vec![0; 4096], vec![0; 4096]);
    assert_eq!(
        urzulempa::explain(file, 0, &mut a),
        urzulempa::explain(written, 0, &mut b),
        "{whence}"
    );
    assert!(a == b, "{whence}");
    if !oracle::AVAILABLE {
        return;
    }
    assert_eq!(
        oracle::explain(file, 0, &mut a),
        oracle::explain(written, 0, &mut b),
        "{whence}"
    );
    assert!(a == b, "{whence}");
    assert_eq!(
        oracle::graphviz(file, 0, &mut a),
        oracle::graphviz(written, 0, &mut b),
        "{whence}"
    );
    assert!(a == b, "{whence}");
    let (mut a, mut b) = (
        [oracle::Node::default(); 128],
        [oracle::Node::default(); 128],
    );
    assert_eq!(
        oracle::nodes(file, &mut a),
        oracle::nodes(written, &mut b),
        "{whence}"
    );
    assert_eq!(a, b, "{whence}");
}

/// One row in each table of texts.
fn small() -> Conflicting<'static> {
    Conflicting {
        names: vec!["deck"],
        solvables: vec![(NameId(0), "1")],
        version_sets: vec![(NameId(0), "<2")],
        requirements: vec![("deck *", vec![SolvableId(0)])],
        reasons: vec!["too old"],
        variables: vec![
            (VariableOrigin::Root, None),
            (VariableOrigin::Solvable(SolvableId(0)), None),
        ],
        clauses: vec![(Clause::Requires(VariableId(0), (), Requirement(0)), true)],
    }
}

/// A text is not cut: a constraint that lost its end would be another constraint.
#[test]
fn a_text_that_no_record_holds_is_an_error() {
    assert!(write(&small()).is_ok());
    for bad in [
        ">=1.2.3,<2.0.0a0,!=1.4.5.*",
        "a text of twenty-five to.",
        "",
        "caf\u{e9}",
        "a\nb",
    ] {
        let tables = [
            Table::Names,
            Table::Solvables,
            Table::VersionSets,
            Table::Requirements,
            Table::Reasons,
        ];
        for table in tables {
            let mut load = small();
            match table {
                Table::Names => load.names[0] = bad,
                Table::Solvables => load.solvables[0].1 = bad,
                Table::VersionSets => load.version_sets[0].1 = bad,
                Table::Requirements => load.requirements[0].0 = bad,
                _ => load.reasons[0] = bad,
            }
            let text = bad.to_string();
            assert_eq!(write(&load), Err(Error::Text { table, text }));
        }
    }
}

/// Every table at its last row and with one more.
#[test]
fn a_table_that_is_too_long_is_an_error() {
    type Grow = fn(&mut Conflicting<'static>, usize);
    let tables: [(Table, Grow); 9] = [
        (Table::Names, |load, n| load.names.resize(n, "deck")),
        (Table::Solvables, |load, n| {
            load.solvables.resize(n, (NameId(0), "1"))
        }),
        (Table::VersionSets, |load, n| {
            load.version_sets.resize(n, (NameId(0), "<2"))
        }),
        (Table::Requirements, |load, n| {
            load.requirements.resize(n, ("none *", vec![]))
        }),
        (Table::Candidates, |load, n| {
            load.requirements[0].1.resize(n, SolvableId(0))
        }),
        (Table::Reasons, |load, n| load.reasons.resize(n, "too old")),
        (Table::Variables, |load, n| {
            load.variables.resize(n, (VariableOrigin::Other, None))
        }),
        (Table::AssignedBy, |load, n| {
            load.variables.clear();
            load.variables
                .resize(n, (VariableOrigin::Root, Some(ClauseId(0))));
        }),
        (Table::Clauses, |load, n| {
            load.clauses.resize(n, (Clause::InstallRoot, false))
        }),
    ];
    for (table, grow) in tables {
        let mut load = small();
        let most = table.most();
        grow(&mut load, most);
        // 1,024 variables and as many records 8 are more than a file holds beside the rest
        let fits = write(&load);
        assert!(
            fits.is_ok() || fits == Err(Error::Records(2_055)),
            "{table:?}: {fits:?}"
        );
        grow(&mut load, most + 1);
        assert_eq!(
            write(&load),
            Err(Error::Rows {
                table,
                rows: most + 1
            })
        );
    }
}

/// A number that no row has.
#[test]
fn a_number_that_names_nothing_is_an_error() {
    let (root, deck, none) = (VariableId(0), VariableId(1), VariableId(2));
    let clauses = [
        (
            Table::Variables,
            2,
            Clause::Requires(none, (), Requirement(0)),
        ),
        (
            Table::Requirements,
            1,
            Clause::Requires(root, (), Requirement(1)),
        ),
        (Table::Reasons, 1, Clause::Excluded(deck, StringId(1))),
        (Table::Variables, 2, Clause::Lock(deck, none)),
        (
            Table::VersionSets,
            1,
            Clause::Constrains(root, deck, VersionSetId(1)),
        ),
    ];
    for (table, number, clause) in clauses {
        let mut load = small();
        load.clauses.push((clause, true));
        assert_eq!(write(&load), Err(Error::Number { table, number }));
    }
    let mut load = small();
    load.solvables.push((NameId(1), "2"));
    assert_eq!(
        write(&load).unwrap_err().to_string(),
        "number 1 is none of the names"
    );
    let mut load = small();
    load.variables[1].1 = Some(ClauseId(1));
    assert_eq!(
        write(&load),
        Err(Error::Number {
            table: Table::Clauses,
            number: 1
        })
    );
}
