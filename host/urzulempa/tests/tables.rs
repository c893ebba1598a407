//! Files made by a program: every kind of entry, what the numbers are, and what is refused.

use urzulempa::list::{dump, make};
use urzulempa::tables::{BadText, Clause, Tables};
use urzulempa::{check, write, Refusal};

/// A load with an entry of every kind, added as it comes to mind.
fn every_kind() -> Result<Tables, BadText> {
    let mut load = Tables::new();
    let root = load.root();
    let gate = load.gate();
    let installed = load.core(Clause::InstallRoot);
    load.assigned_by(gate, installed);
    let deck = load.name("deck")?;
    let one = load.solvable(deck, "1")?;
    let any = load.requirement("deck *", &[one])?;
    let by_root = load.core(Clause::Requires(root.into(), any));
    load.assigned_by(root, by_root);
    let codec = load.name("codec")?;
    let nine = load.solvable(codec, "9")?;
    let deck_one = load.package(one);
    let codec_nine = load.package(nine);
    load.candidate(any, nine);
    load.outside(Clause::Learnt);
    let old = load.reason("too old")?;
    load.core(Clause::Excluded(codec_nine, old));
    load.core(Clause::Requires(gate.into(), any));
    load.outside(Clause::Lock(deck_one, codec_nine));
    let only = load.forbid_multiple(deck);
    load.core(Clause::ForbidMultipleInstances(deck_one, only));
    let below = load.version_set(codec, "<9")?;
    load.core(Clause::Constrains(root.into(), deck_one, below));
    let auxiliary = load.auxiliary();
    load.core(Clause::ConstrainsParent(deck_one.into(), auxiliary, below));
    load.core(Clause::ConstrainsExcluded(codec_nine, auxiliary, below));
    let other = load.other();
    load.core(Clause::AnyOf(gate.into(), deck_one.into()));
    load.core(Clause::AnyOf(other.into(), only.into()));
    Ok(load)
}

const LIST: &str = r#"
name deck
name codec
solvable deck 1
solvable codec 9
version-set codec <9
requirement "deck *"
candidate "deck *", deck 1
candidate "deck *", codec 9
reason "too old"
variable root
variable gate
variable deck 1
variable codec 9
variable forbid deck
variable auxiliary
variable other
@installed: core install-root
@root: core requires root, "deck *"
outside learnt
core excluded codec 9, "too old"
core requires gate, "deck *"
outside lock deck 1, codec 9
core forbid-multiple deck 1, forbid deck
core constrains root, deck 1, codec <9
core constrains-parent deck 1, auxiliary, codec <9
core constrains-excluded codec 9, auxiliary, codec <9
core any-of gate, deck 1
core any-of other, forbid deck
assigned root, @root
assigned gate, @installed
"#;

#[test]
fn a_program_and_a_list_make_the_same_file() {
    let file = every_kind().expect("texts that fit").write().expect("a file");
    assert_eq!(make(LIST.as_bytes()), Ok(file.clone()));
    assert!(check(&file).number == 0 || check(&file).number > 6);
    // Every kind is there, and the rows that were lent are in another order.
    let kinds = |bytes: &[u8]| -> Vec<u8> { bytes.chunks(32).map(|record| record[0]).collect() };
    let mut all = kinds(&file);
    all.dedup();
    assert_eq!(all.iter().filter(|kind| **kind <= 8).copied().collect::<Vec<u8>>(), [1, 2, 3, 4, 5, 6, 7, 8]);
    assert!((16..=25).all(|kind| all.contains(&kind)));
    let load = every_kind().expect("texts that fit");
    assert_ne!(kinds(load.rows()), kinds(&file));
    assert_eq!(write(load.rows(), &mut vec![0; file.len()]).units as usize, file.len() / 32);
    assert!(dump(&file).is_ok());
}

#[test]
fn numbers_count_up_from_0_table_by_table() {
    let mut load = Tables::new();
    let names: Vec<u16> = ["a", "b", "a"].iter().map(|text| load.name(text).expect("a text").number()).collect();
    assert_eq!(names, [0, 1, 2]);
    let root = load.root();
    let gate = load.gate();
    assert_eq!((root.number(), gate.number()), (0, 1));
    let clauses = [Clause::Learnt, Clause::InstallRoot, Clause::AnyOf(gate.into(), root.into())].map(|clause| load.outside(clause).number());
    assert_eq!(clauses, [0, 1, 2]);
}

#[test]
fn texts_are_not_cut() {
    let mut load = Tables::new();
    let name = load.name("deck").expect("a text");
    let (fits, long) = ("a text of 24 bytes in it", "a text of 25 bytes in it.");
    assert_eq!((fits.len(), long.len()), (24, 25));
    assert!(load.reason(fits).is_ok());
    let before = load.clone();
    let bad = BadText::Long(long.into());
    assert_eq!(bad.to_string(), "the text \"a text of 25 bytes in it.\" has 25 bytes: a record holds 1 to 24 bytes of text");
    assert_eq!(load.name(long), Err(bad.clone()));
    assert_eq!(load.solvable(name, long), Err(bad.clone()));
    assert_eq!(load.version_set(name, long), Err(bad.clone()));
    assert_eq!(load.requirement(long, &[]), Err(bad.clone()));
    assert_eq!(load.reason(long), Err(bad));
    assert_eq!(load.name(""), Err(BadText::Empty));
    assert_eq!(load.name("caf\u{e9}"), Err(BadText::Character("caf\u{e9}".into(), '\u{e9}')));
    assert_eq!(load.name("a\n"), Err(BadText::Character("a\n".into(), '\n')));
    assert_eq!(load, before, "nothing was added");
}

#[test]
fn what_the_writer_refuses() {
    let mut load = Tables::new();
    let root = load.root();
    let installed = load.core(Clause::InstallRoot);
    load.assigned_by(root, installed);
    assert!(load.write().is_ok());
    load.assigned_by(root, installed);
    assert_eq!(load.write(), Err(Refusal::Number(3)));
    let mut load = Tables::new();
    (0..65).for_each(|_| assert!(load.reason("too old").is_ok()));
    assert_eq!(load.write(), Err(Refusal::TableFull(64)));
    // 2,048 records are a file's most; more are refused though no table is full.
    let mut load = Tables::new();
    for _ in 0..1_024 {
        load.other();
        load.outside(Clause::InstallRoot);
    }
    assert_eq!(load.write().map(|file| file.len()), Ok(65_536));
    assert!(load.name("one more").is_ok());
    assert_eq!(load.write(), Err(Refusal::Length));
    // Past 16 bits the numbers end, and the table is full long before.
    let mut load = Tables::new();
    let last = (0..70_000).map(|_| load.gate()).last().expect("a gate");
    assert_eq!(last.number(), u16::MAX);
    assert_eq!(load.write(), Err(Refusal::TableFull(1_024)));
}
